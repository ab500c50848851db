-- A window that slides over a map: what comes into view and what leaves it is printed as it happens.
-- The window is a view's condition; it slides by a new view for each place.
CREATE VIRTUAL TABLE map USING rtree_i32(id, west, east, south, north, +name);
INSERT INTO map VALUES
    (1, 5, 9, 5, 9, 'well'), (2, 18, 30, 4, 12, 'barn'),
    (3, 33, 36, 8, 10, 'oak'), (4, 41, 60, 0, 20, 'pond');

-- the screen shows 0 to 20 from west to east, and 0 to 15 from south to north
.watch screen FROM map WHERE west <= 20 AND east >= 0 AND south <= 15 AND north >= 0
.view screen

-- a cart drives from west to east, with the same number all the way
INSERT INTO map VALUES (9, 0, 2, 6, 7, 'cart');
UPDATE map SET west = west + 10, east = east + 10 WHERE id = 9;
UPDATE map SET west = west + 10, east = east + 10 WHERE id = 9;
UPDATE map SET west = west + 10, east = east + 10 WHERE id = 9;

-- the screen moves on by 20: the old view goes, the new one is shown, and watched from here on
.unwatch screen
.watch screen FROM map WHERE west <= 40 AND east >= 20 AND south <= 15 AND north >= 0
.view screen

-- the cart goes on; the oak is felled, and planted again in another place
UPDATE map SET west = west + 5, east = east + 5 WHERE id = 9;
DELETE FROM map WHERE id = 3;
INSERT INTO map VALUES (3, 22, 24, 13, 15, 'young oak');

-- many moves in one statement are one change: what each view showed before is compared with what it shows after
UPDATE map SET south = south + 14, north = north + 14 WHERE id <> 4;
