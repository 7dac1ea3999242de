"""psycopg 3: logs in, pages, batches, fails and reads typed rows."""
import datetime, decimal, sys, uuid

import psycopg

with psycopg.connect(sys.argv[1]) as connection:
    assert connection.execute("SELECT id, name FROM city").fetchall() == [(1, "Oslo"), (2, None), (3, "Rome")]
    rows = connection.execute("SELECT id, name FROM city WHERE id = %s", (3,), binary=True).fetchall()
    assert rows == [(3, "Rome")], rows
    with connection.pipeline():
        connection.cursor().executemany("INSERT INTO city VALUES (%s, %s)", [(4, "Lima"), (5, "Bern")])
    try:
        connection.execute("INSERT INTO city VALUES (1, 'Oslo')")
        sys.exit("no error")
    except psycopg.errors.UniqueViolation as why:
        assert why.diag.message_detail == "Key (id)=(1) already exists."
    assert connection.info.transaction_status == psycopg.pq.TransactionStatus.INERROR
    connection.rollback()
    row = connection.cursor(binary=True).execute("SELECT * FROM typed").fetchone()
    assert row[0] == decimal.Decimal("-12.50") and row[3] == datetime.date(2026, 11, 26) and row[6] == b"\0\xff", row
    assert row[9] == uuid.UUID("6ba7b810-9dad-11d1-80b4-00c04fd430c8") and row[10] == {"a": 1}, row
    arrays = connection.cursor(binary=True).execute("SELECT * FROM arrays").fetchone()
    assert arrays == ([1, None, -3], ["a", "b,c"]), arrays
