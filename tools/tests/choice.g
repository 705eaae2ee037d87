.model vme
.inputs a b
.graph
p0 a+ b+
a+ p0
b+ p0
.marking { p0 }
.end
