SELECT rtreecheck('t');
.nodes t
CREATE VIRTUAL TABLE t USING rtree_i32(id,minX,maxX);
SELECT rtreecheck('T');
.nodes t
.nodes u
