-- Shops on a street: each takes the metres from west to east. One axis.
CREATE VIRTUAL TABLE shops USING rtree_i32(id, west, east, +name);
INSERT INTO shops VALUES (1, 0, 12, 'baker'), (2, 12, 30, 'market'), (3, 34, 40, 'cafe');

-- who stands between metre 10 and metre 20? A shop that only touches the window counts.
SELECT name, west, east FROM shops WHERE west <= 20 AND east >= 10;

-- a shop without a number of its own gets the next one
INSERT INTO shops VALUES (NULL, 40, 52, 'tailor''s');

-- number 3 is taken, and a shop can't end before it begins: refused, and nothing changes
INSERT INTO shops VALUES (3, 60, 70, 'bank');
INSERT INTO shops VALUES (5, 70, 60, 'bank');

-- the same with a rule: the row is skipped, or takes the old one's place
INSERT OR IGNORE INTO shops VALUES (3, 60, 70, 'bank');
INSERT OR REPLACE INTO shops VALUES (3, 30, 40, 'large cafe');

-- the street is measured anew from a point 100 metres further west
UPDATE shops SET west = west + 100, east = east + 100;
DELETE FROM shops WHERE name = 'baker';
SELECT * FROM shops;
