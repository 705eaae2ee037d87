.model toggle
.outputs IN IN OUT M0 S0
.internal à
.graph
M0+ à+
à+ S0+
IN+ IN- M0+
IN- IN+
OUT+ OUT-
OUT- OUT+ S0+
M0+ M0- S0+
M0- IN+ M0+ S0+
S0+ OUT+ M0+ S0-
S0- M0+ S0+
.marking { <à+,S0+> <IN-,IN+> <OUT-,OUT+> <M0-,IN+> <M0-,M0+> <S0+,OUT+> <S0+,M0+> <S0-,M0+> <S0-,S0+> }
.end
