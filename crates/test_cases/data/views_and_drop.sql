CREATE VIRTUAL TABLE t USING rtree_i32(id,minX,maxX);
.watch v FROM t
.watch V FROM t
DROP TABLE t;
.unwatch v
DROP TABLE t;
SELECT * FROM t;