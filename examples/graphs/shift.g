# The second master tells the first slave by the signal A that it has closed.
.model shift
.outputs IN OUT M0 S0 M1 S1
.internal A
.graph
IN+ IN- M0+
IN- IN+
OUT+ OUT-
OUT- OUT+ S1+
M0+ M0- S0+
M0- IN+ M0+
S0+ S0- M1+
S0- M0+ S0+
M1+ M1- S1+
M1- A+ M1+
A+ A- S0+
A- A+
S1+ OUT+ S1-
S1- M1+ S1+
.marking { <IN-,IN+> <OUT-,OUT+> <M0-,IN+> <M0-,M0+> <S0+,M1+> <S0-,M0+> <S0-,S0+> <M1-,M1+> <A-,A+> <S1+,OUT+> <S1-,M1+> <S1-,S1+> }
.end
