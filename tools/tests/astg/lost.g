.model lost
.inputs a
.graph
a+ a-
a- a+
.marking { <a-,a+> <a+,a+> }
.end
