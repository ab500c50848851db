CREATE VIRTUAL TABLE trees USING rtree_i32(id, west, east, south, north, +kind);
INSERT INTO trees VALUES (1, 10, 10, 20, 20, 'oak'), (2, 12, 12, 25, 25, 'elm'), (3, 40, 40, 3, 3, 'oak');
INSERT INTO trees VALUES (4, 41, 41, 8, 8, 'ash'), (3, 50, 50, 9, 9, 'ash');
INSERT OR IGNORE INTO trees VALUES (4, 41, 41, 8, 8, 'ash'), (3, 50, 50, 9, 9, 'ash');
INSERT INTO trees(west, east, south, north) VALUES (60, 60, 1, 1);
SELECT id, kind FROM trees;
