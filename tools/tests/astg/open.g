.model open
.inputs a
.graph
a+ a-
a- a+
.marking { <a-,a+>
