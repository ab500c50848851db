CREATE VIRTUAL TABLE carts USING rtree_i32(id, west, east, south, north, +load);
INSERT INTO carts VALUES (1, 0, 2, 0, 2, 5), (2, 50, 52, 0, 2, 7);
.watch screen FROM carts WHERE west <= 40 AND east >= 0 AND south <= 20 AND north >= 0
.watch heavy FROM carts WHERE load >= 6
.view screen
UPDATE carts SET west = west - 20, east = east - 20 WHERE id = 2;
UPDATE carts SET load = load + 1;
.unwatch screen
.watch screen FROM carts WHERE west <= 60 AND east >= 20 AND south <= 20 AND north >= 0
.view screen
