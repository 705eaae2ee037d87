.model stages
.outputs IN OUT M0 S0 M1 S1 M2 S2 M3 S3 M4 S4
.graph
IN+ IN- M1+
IN- IN+
OUT+ OUT-
OUT- OUT+ S0+
M0+ M0- S0+
M0- M0+ S0+ S4+
S0+ OUT+ M0+ S0-
S0- M0+ S0+
M1+ M1- S1+
M1- IN+ M1+
S1+ S1- M2+
S1- M1+ S1+
M2+ M2- S2+
M2- S1+ M2+
S2+ S2- M3+
S2- M2+ S2+
M3+ M3- S3+
M3- S2+ M3+
S3+ S3- M4+
S3- M3+ S3+
M4+ M4- S4+
M4- S3+ M4+
S4+ M0+ S4-
S4- M4+ S4+
.marking { <IN-,IN+> <OUT-,OUT+> <M0-,M0+> <S0+,OUT+> <S0+,M0+> <S0-,M0+> <S0-,S0+> <M1-,IN+> <M1-,M1+> <S1+,M2+> <S1-,M1+> <S1-,S1+> <M2-,M2+> <S2+,M3+> <S2-,M2+> <S2-,S2+> <M3-,M3+> <S3+,M4+> <S3-,M3+> <S3-,S3+> <M4-,M4+> <S4+,M0+> <S4-,M4+> <S4-,S4+> }
.end
