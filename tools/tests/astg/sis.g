.name half
.graph
p0 Ro+
Ri+ p1
p1 Ao+ 
Ao+ Ri-
Ri- Ao-
Ao- p2
p2 Ri+
Ro+ Ai+
Ai+ Ro-
Ro- Ai-
Ai- p0
.outputs Ro Ao
.inputs Ri Ai
.marking{p0 p2 = 2}
.slowenv
.time Ri+ 3
.end
