"""psycopg 3: parameters, a named cursor, binary rows, an error's fields, copies."""
import sys

import psycopg

with psycopg.connect(f"postgresql://{sys.argv[1]}") as connection:
    for number in 2, 3, 9:
        print(connection.execute("SELECT id, name FROM city WHERE id = %s", (number,)).fetchall())
    print(connection.cursor(binary=True).execute("SELECT city, tags, kind, ok, size, doc, net FROM visit").fetchall())
    with connection.cursor("named") as cursor:
        cursor.execute("SELECT id FROM city ORDER BY id")
        print(cursor.fetchmany(2), cursor.fetchmany(2), cursor.fetchmany(2))
    try:
        with connection.transaction():
            connection.execute("INSERT INTO city VALUES (1, 'x')")
    except psycopg.Error as why:
        print(why.diag.sqlstate, why.diag.message_detail, why.diag.schema_name, why.diag.table_name, why.diag.constraint_name)
    with connection.cursor() as cursor:
        with cursor.copy("COPY city TO STDOUT") as copy:
            print(b"".join(bytes(piece) for piece in copy))
        with cursor.copy("COPY city FROM STDIN") as copy:
            copy.write_row((7, "Lima"))
    print(connection.execute("SELECT count(*) FROM city").fetchall())
    connection.rollback()
