-- before the first
  SELECT * FROM t; /* between */ ;; CREATE VIRTUAL TABLE t USING rtree_i32(id, a, b, +c);

	.view  v ;
 INSERT INTO t VALUES (1, 0, 0, 'a;
b--'), (2, 5, 3, "");
INSERT INTO t VALUES (1, 0, 0, 'it''s;
') -- behind ;
;SELECT c FROM t;.nodes t
--x
.nodes u
SELECT *
  FROM t -- no end
