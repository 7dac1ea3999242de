"""asyncpg: prepared statements, its own queries for types, a cursor, an error's fields."""
import asyncio
import sys

import asyncpg


async def main():
    connection = await asyncpg.connect(f"postgresql://{sys.argv[1]}", ssl=False)
    print(await connection.fetch("SELECT id, tags, kind, ok, size, doc, net FROM visit WHERE id = $1", 1))
    try:
        await connection.execute("INSERT INTO city VALUES ($1, $2)", 1, "x")
    except asyncpg.UniqueViolationError as why:
        print(repr(why), why.constraint_name, why.table_name)
    async with connection.transaction():
        print([row async for row in connection.cursor("SELECT id FROM city ORDER BY id", prefetch=2)])
    print(await connection.fetchval("SELECT array_agg(id ORDER BY id) FROM city"))
    print(await connection.fetch("SELECT * FROM pg_type WHERE typname = 'int4'"))
    await connection.close()


asyncio.run(main())
