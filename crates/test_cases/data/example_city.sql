-- A city's boxes with names, in two dimensions: parks, houses and a lake, with further columns.
CREATE VIRTUAL TABLE city USING rtree_i32(id, west, east, south, north, +name, +kind, +floors);
INSERT INTO city VALUES
    (10, 0, 400, 0, 300, 'old town', 'quarter', NULL),
    (11, 20, 60, 10, 40, 'town hall', 'house', 4),
    (12, 70, 90, 15, 35, 'theatre', 'house', 3),
    (13, 120, 260, 80, 190, 'great park', 'park', NULL),
    (14, 150, 200, 100, 130, 'the lake', 'water', NULL),
    (15, 500, 540, 20, 60, 'mill', 'house', 2);

-- all that touches the square from (50, 30) to (130, 90)
SELECT name FROM city WHERE west <= 130 AND east >= 50 AND south <= 90 AND north >= 30;

-- all that lies in it whole: nothing; and in a larger one
SELECT name FROM city WHERE west >= 50 AND east <= 130 AND south >= 30 AND north <= 90;
SELECT name FROM city WHERE west >= 10 AND east <= 130 AND south >= 0 AND north <= 90;

-- all that holds the point (160, 110)
SELECT id, name FROM city WHERE west <= 160 AND east >= 160 AND south <= 110 AND north >= 110;

-- further columns take part in a condition
SELECT name, floors FROM city WHERE kind = 'house' AND floors >= 3 AND west < 100;
SELECT name FROM city WHERE floors IS NULL AND kind <> 'quarter';

-- the theatre is raised and the mill pulled down
UPDATE city SET floors = floors + 2, name = 'opera' WHERE id = 12;
DELETE FROM city WHERE id = 15;
SELECT id, name, floors FROM city WHERE kind = 'house' ORDER BY id;
SELECT rtreecheck('city');
