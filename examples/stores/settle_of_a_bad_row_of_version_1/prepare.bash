python3 - << 'END'
import sqlite3

conn = sqlite3.connect("old.db")
conn.execute("CREATE TABLE layout(version INTEGER NOT NULL) STRICT")
conn.execute("CREATE TABLE row_text(kind TEXT NOT NULL, name TEXT NOT NULL, body TEXT NOT NULL, PRIMARY KEY(kind, name)) STRICT")
conn.execute("INSERT INTO layout VALUES (1)")
conn.execute("INSERT INTO row_text VALUES ('cdr', 'BE/BEC/43424542-4543-0000-0000-000000000001', ?)", (
    '{',
))
conn.commit()
conn.close()
END
