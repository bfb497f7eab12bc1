-- To version 2: lines have numbers. The one line that a bridge of before kept has none yet, which is 0.
CREATE TABLE line_kept (number INTEGER PRIMARY KEY, text TEXT NOT NULL);
INSERT INTO line_kept (number, text) SELECT 0, value FROM value_of WHERE name = 'node.line' AND value <> '';
DELETE FROM value_of WHERE name = 'node.line';
