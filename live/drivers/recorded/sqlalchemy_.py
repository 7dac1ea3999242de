"""SQLAlchemy over psycopg 2: reflects the tables, and reads them."""
import sys

import sqlalchemy as sa

engine = sa.create_engine(f"postgresql+psycopg2://{sys.argv[1]}")
looks = sa.inspect(engine)
for table in sorted(looks.get_table_names()):
    columns = [(column["name"], str(column["type"]), column["nullable"], column["default"]) for column in looks.get_columns(table)]
    print(table, columns, looks.get_pk_constraint(table), looks.get_foreign_keys(table), looks.get_indexes(table))
tables = sa.MetaData()
tables.reflect(bind=engine)
with engine.connect() as connection:
    print(connection.execute(sa.select(tables.tables["city"])).fetchall())
