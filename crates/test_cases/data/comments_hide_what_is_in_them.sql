CREATE VIRTUAL TABLE t USING rtree_i32(id,minX,maxX);-- x;
;; SELECT * FROM t -- y;
; /* z; */ FOO;