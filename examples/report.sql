CREATE TABLE visits (day INT, seconds INTEGER USING H DICTIONARY);
LOAD visits FROM 'visits.csv' WITH HEADER;              -- all of its rows, or none
LOAD visits FROM 'broken.csv' WITH HEADER;              -- its last line is 3,half
SELECT COUNT(*), COUNT(seconds), SUM(seconds), MIN(seconds), MEDIAN(seconds) FROM visits WHERE day < 3;
SELECT day, COUNT(*), SUM(seconds) FROM visits GROUP BY day;    -- a report by day
SELECT * FROM visits WHERE NOT seconds > 30;            -- NULL > 30 is unknown, and so is its NOT
SELECT * FROM visits WHERE (seconds > 30) IS NOT FALSE; -- true or unknown
INSERT INTO visits VALUES (4, 99999999999);             -- refused, and nothing is kept of it
UPDATE visits SET day = seconds, seconds = day WHERE day = 1;   -- both from the row as it was
SAVE visits TO 'visits.table';
DELETE FROM visits;
OPEN kept FROM 'visits.table';                          -- a new table, as it was saved
SELECT * FROM kept;                                     -- in the order of insertion
TABLES;                                                 -- in the order in which they were made
