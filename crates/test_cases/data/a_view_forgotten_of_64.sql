CREATE VIRTUAL TABLE t USING rtree_i32(id,a,b);
CREATE VIRTUAL TABLE u USING rtree_i32(id,a,b);
INSERT INTO u VALUES(1,2,3);
.watch v0 FROM u WHERE id>1
.watch v1 FROM t WHERE id>1
.watch v2 FROM u WHERE id>1
.watch v3 FROM t WHERE id>1
.watch v4 FROM u WHERE id>1
.watch v5 FROM t WHERE id>1
.watch v6 FROM u WHERE id>1
.watch v7 FROM t WHERE id>1
.watch v8 FROM u WHERE id>1
.watch v9 FROM t WHERE id>1
.watch v10 FROM u WHERE id>1
.watch v11 FROM t WHERE id>1
.watch v12 FROM u WHERE id>1
.watch v13 FROM t WHERE id>1
.watch v14 FROM u WHERE id>1
.watch v15 FROM t WHERE id>1
.watch v16 FROM u WHERE id>1
.watch v17 FROM t WHERE id>1
.watch v18 FROM u WHERE id>1
.watch v19 FROM t WHERE id>1
.watch v20 FROM u WHERE id>1
.watch v21 FROM t WHERE id>1
.watch v22 FROM u WHERE id>1
.watch v23 FROM t WHERE id>1
.watch v24 FROM u WHERE id>1
.watch v25 FROM t WHERE id>1
.watch v26 FROM u WHERE id>1
.watch v27 FROM t WHERE id>1
.watch v28 FROM u WHERE id>1
.watch v29 FROM t WHERE id>1
.watch v30 FROM u WHERE id>1
.watch v31 FROM t WHERE id>1
.watch v32 FROM u WHERE id>1
.watch v33 FROM t WHERE id>1
.watch v34 FROM u WHERE id>1
.watch v35 FROM t WHERE id>1
.watch v36 FROM u WHERE id>1
.watch v37 FROM t WHERE id>1
.watch v38 FROM u WHERE id>1
.watch v39 FROM t WHERE id>1
.watch v40 FROM u WHERE id>1
.watch v41 FROM t WHERE id>1
.watch v42 FROM u WHERE id>1
.watch v43 FROM t WHERE id>1
.watch v44 FROM u WHERE id>1
.watch v45 FROM t WHERE id>1
.watch v46 FROM u WHERE id>1
.watch v47 FROM t WHERE id>1
.watch v48 FROM u WHERE id>1
.watch v49 FROM t WHERE id>1
.watch v50 FROM u WHERE id>1
.watch v51 FROM t WHERE id>1
.watch v52 FROM u WHERE id>1
.watch v53 FROM t WHERE id>1
.watch v54 FROM u WHERE id>1
.watch v55 FROM t WHERE id>1
.watch v56 FROM u WHERE id>1
.watch v57 FROM t WHERE id>1
.watch v58 FROM u WHERE id>1
.watch v59 FROM t WHERE id>1
.watch v60 FROM u WHERE id>1
.watch v61 FROM t WHERE id>1
.watch v62 FROM u WHERE id>1
.watch v63 FROM t WHERE id>1
.watch V0 FROM t
.watch new FROM u
.unwatch v31
.watch new FROM u
.view new
.view v31
.watch v31 FROM u
