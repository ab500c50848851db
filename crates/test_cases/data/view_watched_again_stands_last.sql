CREATE VIRTUAL TABLE t USING rtree_i32(id,minX,maxX);
.watch a FROM t
.watch b FROM t
.unwatch A
.watch A FROM t
INSERT INTO t VALUES(1,0,0);