.model tick
.outputs IN OUT
.graph
IN+ IN- OUT+
IN- IN+
OUT+ OUT-
OUT- IN+ OUT+
.marking { <IN-,IN+> <OUT-,IN+> <OUT-,OUT+> }
.end
