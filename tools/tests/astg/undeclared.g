.model undeclared
.inputs a b
.graph
eps a+ b+
a+ a-
b+ b-
a- eps
b- eps
.marking { <a-,eps> }
.end
