.outputs IN OUT M0
.graph
.end
