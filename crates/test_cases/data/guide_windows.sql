CREATE VIRTUAL TABLE trees USING rtree_i32(id, west, east, south, north, +kind);
INSERT INTO trees VALUES (1, 10, 10, 20, 20, 'oak'), (2, 12, 12, 25, 25, 'elm'), (3, 38, 44, 3, 9, 'oak');
SELECT id, kind FROM trees WHERE west <= 40 AND east >= 0 AND south <= 20 AND north >= 0;
SELECT id, kind FROM trees WHERE west >= 0 AND east <= 40 AND south >= 0 AND north <= 20;
SELECT id FROM trees WHERE west <= 40 AND east >= 40 AND south <= 5 AND north >= 5;
SELECT id FROM trees WHERE west <= 40 AND east >= 0 AND south <= 20 AND north >= 0 AND kind = 'oak' AND id <> 1;
