.model é
.outputs IN OUT M0 S0
.graph
IN+ IN- OUT+ M0+
IN- IN+
OUT+ OUT-
OUT- IN+ OUT+
M0+ M0- S0+
M0- IN+ M0+
S0+ S0-
S0- M0+ S0+
.marking { <IN-,IN+> <OUT-,IN+> <OUT-,OUT+> <M0-,IN+> <M0-,M0+> <S0-,M0+> <S0-,S0+> }
.end
