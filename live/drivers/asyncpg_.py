"""asyncpg: logs in, pages, batches, fails and reads typed rows, all in binary format. Of an array it asks the catalog first."""
import asyncio, datetime, decimal, sys, uuid

import asyncpg

UTC = datetime.timezone.utc
TYPED = (
    decimal.Decimal("-12.50"),
    datetime.datetime(2026, 11, 26, 10, 20, 30, 500000, UTC),
    datetime.datetime(2026, 11, 26, 10, 20, 30, 500000),
    datetime.date(2026, 11, 26),
    datetime.time(10, 20, 30, 500000),
    datetime.timedelta(days=30 - 2, hours=3, minutes=4, seconds=5),
    b"\0\xff",
    1.5,
    -0.1,
    uuid.UUID("6ba7b810-9dad-11d1-80b4-00c04fd430c8"),
    '{"a": 1}',
)


async def main():
    connection = await asyncpg.connect(sys.argv[1])
    async with connection.transaction():
        rows = [tuple(row) async for row in connection.cursor("SELECT id, name FROM city", prefetch=2)]
    assert rows == [(1, "Oslo"), (2, None), (3, "Rome")], rows
    await connection.executemany("INSERT INTO city VALUES ($1, $2)", [(4, "Lima"), (5, "Bern")])
    try:
        async with connection.transaction():
            await connection.execute("INSERT INTO city VALUES (1, 'Oslo')")
        sys.exit("no error")
    except asyncpg.UniqueViolationError as why:
        assert why.detail == "Key (id)=(1) already exists."
    row = await connection.fetchrow("SELECT * FROM typed")
    assert tuple(row) == TYPED, tuple(row)
    await connection.close()


asyncio.run(main())
