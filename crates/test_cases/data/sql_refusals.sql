CREATE VIRTUAL TABLE shops USING rtree_i32(id, west, east, +name);
INSERT INTO shops VALUES (7, -3, 10, 'baker');
BEGIN;
SELECT * FROM parks;
CREATE VIRTUAL TABLE shops USING rtree_i32(id, west, east);
CREATE VIRTUAL TABLE parks USING rtree_i32(id, west);
INSERT INTO shops(id, west, west) VALUES (8, 1, 2);
SELECT height FROM shops;
INSERT INTO shops VALUES (8, 1, 2);
INSERT INTO shops VALUES ('8', 1, 2, NULL);
INSERT INTO shops VALUES (8, 1, 2147483648, NULL);
UPDATE shops SET id = id + 9223372036854775807;
INSERT INTO shops VALUES (7, 1, 2, NULL);
INSERT INTO shops VALUES (8, 2, 1, NULL);
INSERT INTO shops VALUES (9223372036854775807, 1, 2, NULL);
INSERT INTO shops VALUES (NULL, 1, 2, NULL);
.view west
.watch west FROM shops
.watch west FROM shops WHERE west < 0
DROP TABLE shops;
.show west
SELECT * FROM shops
