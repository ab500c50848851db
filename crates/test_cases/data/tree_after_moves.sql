CREATE VIRTUAL TABLE t USING rtree_i32(id, west, east, south, north);
INSERT INTO t VALUES
    (1, 29, 30, 43, 44),
    (2, 58, 60, 3, 5),
    (3, 87, 90, 46, 49),
    (4, 19, 19, 6, 10),
    (5, 48, 49, 49, 54),
    (6, 77, 79, 9, 9),
    (7, 9, 12, 52, 53),
    (8, 38, 38, 12, 14),
    (9, 67, 68, 55, 58),
    (10, 96, 98, 15, 19),
    (11, 28, 31, 58, 63),
    (12, 57, 57, 18, 18),
    (13, 86, 87, 61, 62),
    (14, 18, 20, 21, 23);
UPDATE t SET west = west + 35, east = east + 35 WHERE id >= 2 AND id <= 6;
.nodes t
INSERT OR REPLACE INTO t VALUES (9, 1, 4, 70, 75), (20, 60, 61, 60, 62), (3, 50, 52, 1, 9), (12, 2, 3, 2, 3);
.nodes t
DELETE FROM t WHERE id >= 4 AND id <= 8;
.nodes t
SELECT rtreecheck('t');
