SELECT * FROM t WHERE @ = 1;
.nodes t
.@