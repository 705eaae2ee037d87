.model toggle
.outputs IN OUT M0 S0
.internal r0 a0 r1 a1 r2 a2 r3 a3
.graph
IN+ IN- r0+
IN- IN+
OUT+ OUT-
OUT- OUT+ a2+
M0+ M0- r1+
M0- M0+ a0+ a3+
S0+ S0- r2+ r3+
S0- S0+ a1+
r0+ M0+
r0- a0-
a0+ IN+ r0-
a0- r0+ a0+
r1+ S0+
r1- a1-
a1+ M0+ r1-
a1- r1+ a1+
r2+ OUT+
r2- a2-
a2+ S0+ r2-
a2- r2+ a2+
r3+ M0+
r3- a3-
a3+ S0+ r3-
a3- r3+ a3+
.marking { <IN-,IN+> <OUT-,OUT+> <M0-,M0+> <S0-,S0+> <a0+,IN+> <a0-,r0+> <a0-,a0+> <a1+,M0+> <a1-,r1+> <a1-,a1+> <r2+,OUT+> <a2-,a2+> <r3+,M0+> <a3-,a3+> }
.end
