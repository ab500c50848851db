CREATE VIRTUAL TABLE carts USING rtree_i32(id, west, east, south, north, +load);
INSERT INTO carts VALUES (1, 0, 2, 0, 2, 5), (2, 10, 12, 0, 2, 7);
UPDATE carts SET west = 4, east = 6 WHERE id = 1;
UPDATE carts SET west = west + 3, east = east + 3, load = load - 1;
INSERT OR REPLACE INTO carts VALUES (2, 20, 22, 5, 7, 0), (3, 30, 32, 5, 7, 0);
UPDATE carts SET west = west + 9 WHERE id = 3;
SELECT * FROM carts;
