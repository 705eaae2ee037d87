.model merge
.inputs a b
.outputs c
.graph
a+ p0
b+ p0
p0 c+
c+ p1
p1 a+
p1 b+
p2 c-
.marking { p1 }
.end
