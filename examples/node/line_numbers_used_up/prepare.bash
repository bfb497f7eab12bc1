python3 - << 'END'
import sqlite3

conn = sqlite3.connect("be.db")
conn.execute("CREATE TABLE layout(version INTEGER NOT NULL) STRICT")
conn.execute("CREATE TABLE row_text(kind TEXT NOT NULL, name TEXT NOT NULL, body TEXT NOT NULL, PRIMARY KEY(kind, name)) STRICT")
conn.execute("INSERT INTO layout VALUES (2)")
conn.execute("INSERT INTO row_text VALUES ('count', 'line', ?)", ('{"last":999999999999999998}',))
conn.commit()
conn.close()
END
