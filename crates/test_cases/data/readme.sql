CREATE VIRTUAL TABLE shops USING rtree_i32(id, west, east, south, north, +name);
INSERT INTO shops VALUES (1, 10, 14, 5, 9, 'baker'), (2, 30, 42, 0, 6, 'market');
SELECT id, name FROM shops WHERE west <= 20 AND east >= 0 AND south <= 8 AND north >= 0;
.watch shown FROM shops WHERE west <= 20 AND east >= 0 AND south <= 8 AND north >= 0
UPDATE shops SET west = west - 15, east = east - 15 WHERE id = 2;
DELETE FROM shops WHERE name = 'baker';
