CREATE VIRTUAL TABLE shops USING rtree_i32(id, west, east, south, north);
INSERT INTO shops VALUES (1, 10, 14, 5, 9), (2, 30, 42, 0, 6);
SELECT * FROM shops;
SELECT id, west FROM shops
  WHERE west <= 20 AND east >= 0;
UPDATE shops SET west = west - 15, east = east - 15 /* all of them; */ WHERE id > 0;
SELECT id, "west"
FROM shops -- in the order of their ids;
ORDER BY id;
DELETE FROM shops WHERE id = 1;
SELECT id FROM shops;
SELECT rtreecheck('shops');
