CREATE VIRTUAL TABLE trees USING rtree_i32(id, west, east); -- one axis
INSERT INTO trees VALUES (1, 10, 20); INSERT INTO trees VALUES (2, 30, 25);
SELECT * FROM trees;
