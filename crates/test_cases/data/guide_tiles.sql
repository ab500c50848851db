CREATE VIRTUAL TABLE trees_0 USING rtree_i32(id, west, east, south, north);
CREATE VIRTUAL TABLE trees_1 USING rtree_i32(id, west, east, south, north);
INSERT INTO trees_0 VALUES (1, 10, 20, 0, 9), (2, 950, 1020, 0, 9);
INSERT INTO trees_1 VALUES (2, 950, 1020, 0, 9), (3, 1500, 1510, 0, 9);
SELECT id FROM trees_0 WHERE west <= 1600 AND east >= 900;
SELECT id FROM trees_1 WHERE west <= 1600 AND east >= 900;
