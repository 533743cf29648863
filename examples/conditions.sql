CREATE TABLE visits (day INT, seconds INTEGER USING H DICTIONARY);
INSERT INTO visits VALUES (1, 30), (1, NULL), (2, 45);
INSERT INTO visits (day) VALUES (3);
SELECT seconds, day FROM visits WHERE day <= 2;               -- in the order of insertion
SELECT * FROM visits WHERE NOT seconds > 30;                  -- NULL > 30 is unknown, and so is its NOT
SELECT * FROM visits WHERE (seconds > 30) IS NOT FALSE;       -- true or unknown
SELECT day FROM visits WHERE seconds BETWEEN 20 AND 40 OR day IN (3, NULL) AND seconds IS NULL;
SELECT day FROM visits WHERE day NOT IN (1, NULL);            -- 2 = NULL is unknown, so 2 isn't found
INSERT INTO visits VALUES (4, 99999999999);                   -- refused, and nothing is kept of it
SELECT size FROM visits;
UPDATE visits SET day = seconds, seconds = day WHERE day = 1; -- both from the row as it was
DELETE FROM visits WHERE seconds IS NULL;
SELECT * FROM visits;
REBUILD visits (seconds USING S);                             -- its kind and the rows stay
DROP TABLE visits;
