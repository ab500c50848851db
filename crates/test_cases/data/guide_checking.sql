CREATE VIRTUAL TABLE points USING rtree_i32(id, at, upto);
INSERT INTO points VALUES (1, 0, 0), (2, 5, 5), (3, 9, 9);
SELECT rtreecheck('points');
.nodes points
