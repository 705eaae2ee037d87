.inputs a
.marking { p0 p1 }
.graph
a+ p0
p0 a-
a- a+
