"""psqlodbc, through pyodbc: queries of the catalogue, parameters, an error's SQLSTATE."""
import sys
import urllib.parse

import pyodbc

server = urllib.parse.urlsplit(f"postgresql://{sys.argv[1]}")
words = {"DRIVER": "{PostgreSQL Unicode}", "SERVER": server.hostname, "PORT": server.port, "DATABASE": server.path[1:], "UID": server.username}
connection = pyodbc.connect(";".join(f"{name}={word}" for name, word in words.items()))
cursor = connection.cursor()
for number in 2, 3, 9:
    print(cursor.execute("SELECT id, name FROM city WHERE id = ?", number).fetchall())
print([(row.column_name, row.type_name, row.nullable) for row in cursor.columns(table="visit")])
print([(row.column_name, row.key_seq) for row in cursor.primaryKeys(table="city")])
try:
    cursor.execute("INSERT INTO city VALUES (1, 'x')")
except pyodbc.Error as why:
    print(why.args[0])
connection.rollback()
print(cursor.execute("SELECT city, tags, kind, ok, size, doc FROM visit").fetchall())
