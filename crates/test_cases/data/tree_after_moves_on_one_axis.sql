CREATE VIRTUAL TABLE t USING rtree_i32(id, low, high);
INSERT INTO t VALUES (1, 17, 18), (2, 34, 38), (3, 51, 60), (4, 15, 20), (5, 32, 35), (6, 49, 52), (7, 13, 18), (8, 30, 39), (9, 47, 51), (10, 11, 12), (11, 28, 28), (12, 45, 46), (13, 9, 13), (14, 26, 35), (15, 43, 48), (16, 7, 10), (17, 24, 27), (18, 41, 46), (19, 5, 14), (20, 22, 26), (21, 39, 40), (22, 3, 3), (23, 20, 21);
UPDATE t SET low = low - 20, high = high - 20 WHERE low >= 30;
.nodes t
REPLACE INTO t VALUES (23, 23, 46), (1, 1, 2), (11, 11, 22), (5, 5, 10);
.nodes t
DELETE FROM t WHERE low <= 9;
.nodes t
SELECT rtreecheck('t');
