# A pipeline that nothing begins again: no walk along the arcs ends where it begins.
.model open
.outputs in mid out
.graph
in+ mid+
mid+ out+
.end
