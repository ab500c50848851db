CREATE VIRTUAL TABLE shops USING rtree_i32(id, west, east, +floors);
INSERT INTO shops VALUES (7, 0, 10, 1), (8, 20, 30, NULL), (9, 40, 50, 3);
DELETE FROM shops WHERE floors IS NULL;
DELETE FROM shops WHERE id = 8;
SELECT * FROM shops;
DELETE FROM shops;
SELECT * FROM shops;
INSERT INTO shops VALUES (NULL, 0, 0, 0);
SELECT id FROM shops;
