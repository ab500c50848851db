CREATE VIRTUAL TABLE shops USING rtree_i32(id, west, east, +name);
INSERT INTO shops VALUES (1, 0, 10, 'baker'), (2, 40, 60, 'cafe'), (3, 70, 80, 'bank');
.watch West FROM shops WHERE west <= 50
.watch named FROM shops WHERE name IS NOT NULL
.view west
UPDATE shops SET west = west - 30, east = east - 30 WHERE id = 3;
UPDATE shops SET name = NULL WHERE id = 1;
INSERT INTO shops VALUES (4, 90, 95, NULL);
DELETE FROM shops WHERE id = 2;
UPDATE shops SET west = west, name = name;
INSERT OR REPLACE INTO shops VALUES (3, 0, 1, 'gone'), (3, 40, 50, 'bank');
INSERT INTO shops VALUES (5, 0, 1, 'new'), (5, 0, 1, 'twice');
DROP TABLE shops;
.watch WEST FROM shops
.unwatch named
.unwatch west
.unwatch west
.view named
DROP TABLE shops;
