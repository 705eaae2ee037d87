.model toggle
.outputs IN OUT M0 S0
.graph
IN+ IN- M0+
IN- IN+
OUT+ OUT-
OUT- OUT+ S0+
M0+ M0- S0+
M0- IN+ M0+ S0+
S0+ OUT+ M0+ S0-
S0- M0+ S0+
.marking { <IN-,IN+> <OUT-,OUT+> <M0-,IN+>=1000 <M0-,M0+> <S0+,OUT+> <S0+,M0+> <S0-,M0+> <S0-,S0+> }
.end
