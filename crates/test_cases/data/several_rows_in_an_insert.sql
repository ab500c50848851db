CREATE VIRTUAL TABLE t USING rtree_i32(id,minX,maxX,+n TEXT);
.watch v FROM t WHERE maxX<=5
INSERT INTO t VALUES(1,0,5,'a'),(NULL,0,9,'b'),(NULL,2,3,'c');
SELECT * FROM t;