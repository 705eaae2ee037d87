.model b
.outputs IN OUT M0 S0 M1 S1
.graph
IN+ IN- M0+
IN- IN+
OUT+ OUT-
OUT- OUT+ S1+
M0+ M0- S0+
M0- IN+ M0+ S1+
S0+ S0- M1+
S0- M0+ S0+
M1+ M1- S1+
M1- S0+ M1+
S1+ OUT+ M0+ S1-
S1- M1+ S1+
.marking { <IN-,IN+> <OUT-,OUT+> <M0-,IN+> <M0-,M0+> <S0+,M1+> <S0-,M0+> <S0-,S0+> <M1-,M1+> <S1+,OUT+> <S1+,M0+> <S1-,M1+> <S1-,S1+> }
.end
