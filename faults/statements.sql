CREATE VIRTUAL TABLE t USING rtree_i32(id,minX,maxX,+n TEXT);
.watch v FROM t WHERE maxX<=11 AND n IS NOT NULL
INSERT INTO t VALUES(1,0,0,'a'),(2,1,1,NULL),(3,2,2,'c'),(4,10,10,'d');
SELECT * FROM t WHERE minX>=1 AND n<>'d';
.view v
INSERT INTO t VALUES(NULL,11,11,'e');
INSERT INTO t(id,minX,maxX) VALUES(6,12,12);
SELECT rtreecheck('t');
.nodes t
INSERT INTO t VALUES(7,3,3,'g'),(8,4,4,'h'),(9,5,5,'i');
.nodes t
INSERT OR REPLACE INTO t VALUES(1,0,0,X'00'),(7,13,13,'far');
SELECT * FROM t;
.view v
UPDATE t SET n='z' WHERE minX>=10;
SELECT id,n FROM t ORDER BY id;
UPDATE t SET minX=minX+1,maxX=maxX+1 WHERE id>=8;
.nodes t
INSERT OR IGNORE INTO t VALUES(1,7,7,'taken'),(10,9,9,'new'),(11,9,8,'reversed');
.view v
DELETE FROM t WHERE id=1;
.nodes t
DELETE FROM t WHERE id>=4 AND id<=5;
.nodes t
UPDATE t SET id=id+100,n=NULL;
SELECT * FROM t;
.nodes t
CREATE VIRTUAL TABLE IF NOT EXISTS u USING rtree_i32(id,a,b,c,d,e,f);
.watch w FROM u
INSERT INTO u VALUES(1,0,9,0,9,0,9),(2,-5,-1,3,3,7,8);
UPDATE u SET a=a-1,n=1;
UPDATE u SET a=a-1,f=f+2147483640;
.view w
.unwatch w
.nodes u
DROP TABLE u;
.unwatch v
DROP TABLE IF EXISTS t;
SELECT * FROM t;
