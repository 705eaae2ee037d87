# from file pipe.g
#.coords 10 20
.model pipe
.inputs  rin aout
.outputs  rout ain
.internal  csc0
.graph
rin+ csc0+
csc0+ ain+ rout+
ain+ rin-
rout+ aout+
rin- csc0-
aout+ csc0-
csc0- ain- rout-
ain- rin+
rout- aout-
aout- rout+/2 # in a second phase
rout+/2 aout+/2
aout+/2 rout-/2
rout-/2 aout-/2
aout-/2 csc0+
.marking { <ain-,rin+> <aout-/2,csc0+> }
.end
this is not read
