.name handshake
.inputs a b
.outputs c
.capacity p0=2
.graph
a+ c+
c+ a-      # the first half
a- c-
c- a+/1
a+/1 b~
b~ p0
p0 a+
.marking{ <c-, a+/1>
  p0 = 2 }
.end
