CREATE VIRTUAL TABLE shops USING rtree_i32(id, west, east, +name);
INSERT INTO shops VALUES (12, 40, 55, 'baker'), (NULL, 54, 60, 'it''s new');
INSERT INTO shops(west, east, id) VALUES (-3, 10, 7);
INSERT INTO shops(name, west, east) VALUES ('kiosk', 1, 2), ('stand', 2, 3);
SELECT * FROM shops;
INSERT INTO shops VALUES (20, 0, 1, NULL), (21, 0, 1, NULL), (7, 0, 1, NULL);
INSERT INTO shops(id, west) VALUES (20, 0);
INSERT INTO shops VALUES (20, 0, 1);
SELECT id FROM shops;
