.model instances
.inputs a
.outputs b
.graph
p0 a+ b+/1
a+ b+
b+ p1
b+/1 a-/1
a-/1 p1
p1 b-
b- p0
.marking { p0 }
.end
