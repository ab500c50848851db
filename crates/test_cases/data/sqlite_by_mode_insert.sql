CREATE VIRTUAL TABLE trees USING rtree_i32(id, west, east, +name, +height);
INSERT INTO trees VALUES(1,10,14,'it''s a|b',NULL);
INSERT INTO trees VALUES(2,-2147483648,2147483647,replace('two\nlines|''','\n',char(10)),1.5);
INSERT INTO trees VALUES(3,3,3,X'00270a7cff',9223372036854775807);
INSERT INTO trees VALUES(-4,4,5,NULL,'');
INSERT INTO trees VALUES(5,5,6,'''',replace(replace('ü|\r\n1|2|3|NULL|4','\r',char(13)),'\n',char(10)));
INSERT INTO trees VALUES(6,6,6,-9223372036854775808,NULL);
SELECT * FROM trees;
