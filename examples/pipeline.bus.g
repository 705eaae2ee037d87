.model pipeline
.outputs IN OUT M0 S0 M1 S1 M2 S2 M3 S3
.graph
IN+ IN- M1+ M2+
IN- IN+
OUT+ OUT-
OUT- OUT+ S0+
M0+ M0- S0+
M0- M0+ S0+ S3+
S0+ OUT+ M0+ S0-
S0- M0+ S0+
M1+ M1- S1+
M1- IN+ M1+
S1+ S1- M3+
S1- M1+ S1+
M2+ M2- S2+
M2- IN+ M2+
S2+ S2- M3+
S2- M2+ S2+
M3+ M3- S3+
M3- S1+ S2+ M3+
S3+ M0+ S3-
S3- M3+ S3+
.marking { <IN-,IN+> <OUT-,OUT+> <M0-,M0+> <S0+,OUT+> <S0+,M0+> <S0-,M0+> <S0-,S0+> <M1-,IN+> <M1-,M1+> <S1+,M3+> <S1-,M1+> <S1-,S1+> <M2-,IN+> <M2-,M2+> <S2+,M3+> <S2-,M2+> <S2-,S2+> <M3-,M3+> <S3+,M0+> <S3-,M3+> <S3-,S3+> }
.end
