CREATE VIRTUAL TABLE wells USING rtree_i32(id, west, east, south, north);
INSERT INTO wells VALUES (1, 10, 10, 10, 10), (2, 11, 11, 0, 0), (3, 30, 30, 2, 2);
SELECT * FROM wells WHERE west <= 10 AND east >= -10 AND south <= 10 AND north >= -10;
SELECT * FROM wells WHERE west <= 15 AND east >= -15 AND south <= 15 AND north >= -15;
