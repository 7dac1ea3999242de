"""psycopg 2: logs in, batches, fails and reads typed rows. Its cursors on a server are SQL, which a script would have to know."""
import datetime, decimal, sys

import psycopg2

connection = psycopg2.connect(sys.argv[1])
cursor = connection.cursor()
cursor.execute("SELECT id, name FROM city")
assert cursor.fetchmany(2) == [(1, "Oslo"), (2, None)] and cursor.fetchmany(2) == [(3, "Rome")]
try:
    cursor.execute("INSERT INTO city VALUES (1, 'Oslo')")
    sys.exit("no error")
except psycopg2.errors.UniqueViolation as why:
    assert why.diag.message_detail == "Key (id)=(1) already exists."
try:
    cursor.execute("SELECT id, name FROM city")
    sys.exit("no error")
except psycopg2.errors.InFailedSqlTransaction:
    connection.rollback()
cursor.execute("SELECT * FROM typed")
row = cursor.fetchone()
assert row[0] == decimal.Decimal("-12.50") and row[3] == datetime.date(2026, 11, 26) and bytes(row[6]) == b"\0\xff", row
assert row[10] == {"a": 1}, row
cursor.execute("SELECT * FROM arrays")
assert cursor.fetchone() == ([1, None, -3], ["a", "b,c"])
