CREATE VIRTUAL TABLE points USING rtree_i32(id, at, upto);
INSERT INTO points VALUES (1, 0, 0), (2, 1, 1), (3, 2, 2), (4, 10, 10), (5, 11, 11), (6, 12, 12);
.nodes points
