CREATE VIRTUAL TABLE t USING rtree_i32(id,minX,maxX);
insert into "T" values(- 5,+7,8); SELECT * FROM t;
.
.view