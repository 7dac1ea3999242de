"""What ends what: streams within blocks, blocks within blocks, calls of other tasks and threads, limits; with a server that plays bytes, of the manual's
"Message Flow", to the blocking client and to the one for asyncio."""
import asyncio
import socket
import threading
import time

from postgres_protocol import aio, client, settings
from faults import ANSWERED, COPY_OUT, OPENED, SELECT, _error, error_of, play
from server import frame
from sessions import AUTHENTICATED, DESCRIBED, PREPARED, READY, ROW, with_server

BEGUN = frame(b'1', b'') + frame(b'2', b'') + frame(b'C', b'BEGIN\0')
INSERTED = BEGUN + ANSWERED[:-1] + b'T'
QUERIED = frame(b'C', b'BEGIN\0') + OPENED
ENDED = (error_of(b'57014', b'canceling statement due to user request') + frame(b'Z', b'E'),)
TAKEN_BACK = frame(b'C', b'ROLLBACK\0') + READY
ONE_PIECE = COPY_OUT + frame(b'd', b'1\n')
NOTHING = frame(b'1', b'') + frame(b't', b'\0\0') + DESCRIBED + OPENED
REPLANNED = frame(b'E', b'SERROR\0VERROR\0C0A000\0Mcached plan must not change result type\0RRevalidateCachedQuery\0\0')
ONE_ROW = COPY_OUT + frame(b'd', b'PGCOPY\n\xff\r\n\0' + bytes(8) + b'\0\2\0\0\0\4\0\0\0\5\0\0\0\1x')


def aplay(answers, run, seen=None, **more):
    """As `play`, for asyncio: `run` is a coroutine function."""
    async def whole(port):
        connection = await aio.connect('127.0.0.1', port, 'alice', sslmode='disable', timeout=5, **more)
        try:
            return await asyncio.wait_for(run(connection), 10)
        except Exception as error:
            return error
        finally:
            await connection.close()
    found, seen = with_server(answers, lambda port: asyncio.run(whole(port)), seen)
    return found, b''.join(tag for tag, _ in seen), seen


async def _failure(call):
    try:
        return await call
    except Exception as error:
        return error


def check_streams(same):
    """A stream in a block ends with the block, which is rolled back, and the caller's exception stays; a commit behind it says that nothing is committed."""
    rolled, texts = [PREPARED, INSERTED, ONE_PIECE, ENDED, TAKEN_BACK, b''], (b'COPY (SELECT 1) TO STDOUT\0', b'ROLLBACK\0')
    streams = (('copy_stream', ONE_PIECE, [], b'1\n'), ('copy_rows_out', ONE_ROW, [NOTHING], (5, 'x')))

    def fails(call, keeps):
        def run(c):
            c.execute(SELECT, (5,))
            stream = getattr(c.cursor(), call)('COPY (SELECT 1) TO STDOUT')
            for piece in stream:
                kept.append(piece)
                if keeps == 'break':
                    return
                raise KeyError('mine')
        return run
    for call, piece, before, wanted in streams:
        for keeps in ('raise', 'break'):
            kept = []

            def block(c):
                try:
                    with c:
                        fails(call, keeps)(c)
                except Exception as error:
                    return type(error), c.in_transaction, c.closed
            found, tags, _ = play([PREPARED, INSERTED, *before, piece, ENDED, TAKEN_BACK, b''], block)
            same('%s, %s' % (call, keeps), (found, kept), ((KeyError if keeps == 'raise' else client.InternalError, False, False), [wanted]))
            same('%s, %s: what is sent' % (call, keeps), tags, b'PDS' b'PBEBES' + (b'PDS' if before else b'') + b'Q' b'cancel' b'Q' b'X')
    found, tags, seen = play(rolled, lambda c: _error(lambda: _within(c)))
    same('what is asked', ([payload for tag, payload in seen if tag == b'Q'], repr(found)), (list(texts), "KeyError('mine')"))

    def closed(c):
        with c.transaction():
            with c.cursor().copy_stream('COPY (SELECT 1) TO STDOUT') as stream:
                first = next(stream)
            return first, c.is_idle, type(_error(lambda: c.execute(SELECT, (5,)))), list(stream)
    found, tags, _ = play([QUERIED, ONE_PIECE, ENDED, error_of(b'25P02', b'aborted') + frame(b'Z', b'E'), TAKEN_BACK, b''], closed)
    same('closed by its block', (found if isinstance(found, tuple) else type(found), tags), (client.InternalError, b'QQ' b'cancel' b'PDS' b'Q' b'X'))
    found, tags, _ = play([ONE_PIECE, ENDED[:1] and (error_of(b'57014', b'canceling') + READY,), PREPARED, ANSWERED, b''],
                          lambda c: ([piece for piece in [next(iter(c.cursor().copy_stream('COPY t TO STDOUT')))]], c.execute(SELECT, (5,)).fetchall()), autocommit=True)
    same('dropped', (found, tags), (([b'1\n'], [(7, 'hello')]), b'Q' b'cancel' b'PDSBESX'))


def _within(c):
    with c:
        c.execute(SELECT, (5,))
        stream = c.cursor().copy_stream('COPY (SELECT 1) TO STDOUT')
        for _ in stream:
            raise KeyError('mine')


def check_asyncio_streams(same):
    """The same of asyncio: and a call in a stream's loop raises, where one of another task waits, up to its limit."""
    async def fails(c):
        try:
            async with c.transaction():
                stream = c.copy_stream('COPY (SELECT 1) TO STDOUT')
                async for _ in stream:
                    raise KeyError('mine')
        except Exception as error:
            return type(error), c.in_transaction, c.closed
    for _ in range(2):
        found, tags, _ = aplay([QUERIED, ONE_PIECE, ENDED, TAKEN_BACK, b''], fails)
        same('asyncio, a block that fails', (found, tags), ((KeyError, False, False), b'QQ' b'cancel' b'QX'))

    async def inside(c):
        stream, other = c.copy_stream('COPY t TO STDOUT'), None
        async for _ in stream:
            first = type(await _failure(c.execute(SELECT, (5,))))
            begin = time.monotonic()
            other = type(await _failure(asyncio.ensure_future(c.execute(SELECT, (5,), timeout=0.2))))
            waiting = asyncio.ensure_future(c.execute(SELECT, (5,)))
            await asyncio.sleep(0)
            await stream.aclose()
        return first, other, time.monotonic() - begin < 4, (await waiting).rows
    found, tags, _ = aplay([ONE_PIECE, (error_of(b'57014', b'canceling') + READY,), PREPARED, ANSWERED, b''], inside)
    same('asyncio, a call in a stream', (found, tags), ((client.InterfaceError, client.Timeout, True, [(7, 'hello')]), b'Q' b'cancel' b'PDSBESX'))

    async def closes(c):
        stream = c.copy_stream('COPY t TO STDOUT')
        async for _ in stream:
            waiting = asyncio.ensure_future(c.execute(SELECT, (5,), timeout=9))
            await asyncio.sleep(0)
            await c.close()
            return type(await asyncio.wait_for(_failure(waiting), 3))
    same('asyncio, closed beside a stream', aplay([ONE_PIECE, b''], closes)[0], client.InterfaceError)

    async def dropped(c):
        async for piece in c.copy_stream('COPY t TO STDOUT'):
            break
        return piece, (await asyncio.ensure_future(c.execute(SELECT, (5,)))).rows
    found, tags, _ = aplay([ONE_PIECE, (error_of(b'57014', b'canceling') + READY,), PREPARED, ANSWERED, b''], dropped)
    same('asyncio, dropped', (found, tags), ((b'1\n', [(7, 'hello')]), b'Q' b'cancel' b'PDSBESX'))


def check_once(same):
    """A statement that was kept, and fails by an error that looks like that of a stale one, runs once: only where its Bind failed is it prepared anew."""
    for state, failure in (('26000', error_of(b'26000', b'prepared statement "x" does not exist')), ('0A000', REPLANNED)):
        whole = frame(b'2', b'') + failure + READY
        found, tags, _ = play([PREPARED, ANSWERED, whole, b''], lambda c: (c.execute(SELECT, (5,)).fetchall(), _error(lambda: c.execute(SELECT, (5,))).sqlstate), autocommit=True)
        same('runs once', (found[1], tags), (state, b'PDSBESBESX'))


def check_encodings(same):
    """A session in another encoding than UTF8 is closed, at its log-in and by SET: its texts would become others."""
    latin = frame(b'S', b'client_encoding\0LATIN1\0')
    found, _, _ = play([PREPARED, frame(b'2', b'') + latin + frame(b'C', b'SET\0') + READY], lambda c: (_error(lambda: c.execute(SELECT, (5,))), c.closed), autocommit=True)
    same('SET client_encoding', (type(found[0]), found[1], 'LATIN1' in str(found[0])), (client.Broken, True, True))
    listening = socket.create_server(('127.0.0.1', 0))

    def serve():
        for _ in range(2):
            peer = listening.accept()[0]
            peer.recv(1000)
            peer.sendall(AUTHENTICATED + latin + READY)
            peer.recv(1000)
            peer.close()
    thread = threading.Thread(target=serve, daemon=True)
    thread.start()
    port = listening.getsockname()[1]
    for call in (lambda: client.connect('127.0.0.1', port, 'alice', sslmode='disable'), lambda: asyncio.run(aio.connect('127.0.0.1', port, 'alice', sslmode='disable'))):
        same('another encoding', type(_error(call)), client.Broken)
    thread.join(10)
    listening.close()
    for encoding in ('utf-8', 'UTF8', 'unicode'):
        same('names of UTF8', settings.Options({'host': 'h', 'user': 'u', 'client_encoding': encoding}).parameters, {})


def _inner(c):
    with c.transaction():
        _error(lambda: c.execute(SELECT, (5,)))


def check_blocks(same):
    """`async with connection` commits, or rolls back, as the blocking one does; within a block of `transaction` neither is taken, nor a block of another task or thread."""
    committed = [PREPARED, INSERTED, frame(b'C', b'COMMIT\0') + READY, b'']

    async def commits(c):
        async with c:
            await c.execute(SELECT, (5,))
        return c.closed, c.in_transaction
    found, tags, seen = aplay(committed, commits, autocommit=False)
    same('asyncio, committed', (found, tags, seen[-2][1]), ((False, False), b'PDS' b'PBEBES' b'QX', b'COMMIT\0'))

    async def rolls_back(c):
        try:
            async with c:
                await c.execute(SELECT, (5,))
                raise KeyError('mine')
        except KeyError:
            return c.closed, c.in_transaction
    found, tags, seen = aplay([PREPARED, INSERTED, TAKEN_BACK, b''], rolls_back, autocommit=False)
    same('asyncio, rolled back', (found, seen[-2][1]), ((False, False), b'ROLLBACK\0'))

    def inside(c):
        with c.transaction():
            found = [type(_error(call)) for call in (c.commit, c.rollback, c.__enter__)]
            thread = threading.Thread(target=lambda: found.append(type(_error(lambda: c.transaction().__enter__()))))
            thread.start()
            thread.join(10)
        return found, c.in_transaction
    found, tags, _ = play([QUERIED, frame(b'C', b'COMMIT\0') + READY, b''], inside)
    same('within a block', (found, tags), (([client.ProgrammingError] * 4, False), b'QQX'))

    async def tasks(c):
        async with c.transaction():
            return [type(await _failure(call)) for call in (c.commit(), c.rollback(), asyncio.ensure_future(c.transaction().__aenter__()))]
    found, tags, _ = aplay([QUERIED, frame(b'C', b'COMMIT\0') + READY, b''], tasks)
    same('asyncio, within a block', (found, tags), ([client.ProgrammingError] * 3, b'QQX'))
    failed = error_of(b'42703', b'no column') + frame(b'Z', b'E')
    released = frame(b'C', b'ROLLBACK\0') + frame(b'C', b'RELEASE\0') + OPENED

    def swallows(c):
        with c.transaction():
            found = _error(lambda: _inner(c))
        return type(found), c.closed, c.in_transaction
    found, tags, seen = play([QUERIED, frame(b'C', b'SAVEPOINT\0') + OPENED, failed, released, frame(b'C', b'COMMIT\0') + READY, b''], swallows)
    same('a savepoint that failed', (found, tags, seen[5][1]), ((client.InternalError, False, False), b'QQPDSQQX', b'ROLLBACK TO block_1; RELEASE block_1\0'))
    for fails, answers in ((True, []), (False, [TAKEN_BACK, b''])):
        async def cancelled(c):
            async def block():
                async with c:
                    await c.execute(SELECT, (5,))
                    if fails:
                        raise KeyError('mine')
            task = asyncio.ensure_future(block())
            while not [text for tag, text in seen if tag == b'Q']:
                await asyncio.sleep(0.01)
            task.cancel()
            await asyncio.wait([task])
            return task.cancelled(), c.in_transaction and not c.closed
        seen = []
        found, _, _ = aplay([PREPARED, INSERTED, b'', ENDED, *answers], cancelled, seen, autocommit=False)
        same('asyncio, cancelled at the end of a block', found, (True, False))
    gone = error_of(b'57P01', b'terminating', b'FATAL')
    for block, before in ((lambda c: c, [PREPARED, INSERTED]), (lambda c: c.transaction(), [QUERIED, PREPARED[:-1] + b'T', ANSWERED[:-1] + b'T'])):
        def fails(c):
            with block(c):
                c.execute(SELECT, (5,))
                raise KeyError('mine')
        found, _, _ = play([*before, gone], fails)
        same("the caller's exception", repr(found), "KeyError('mine')")


def check_mistakes(same):
    """What a caller gets wrong ends neither the connection nor its transaction where nothing was sent for it, and is no value: None alone is no parameters."""
    calls = (('a generator', TypeError, lambda c: c.execute(SELECT, (x for x in [5]))), ('a dict', TypeError, lambda c: c.execute(SELECT, {'a': 5})), ('a set', TypeError, lambda c: c.execute(SELECT, {5})),
             ('a str', TypeError, lambda c: c.execute(SELECT, '5')), ('bytes', TypeError, lambda c: c.execute(SELECT, b'5')), ('a number', TypeError, lambda c: c.execute(SELECT, 5)),
             ('NUL', client.DataError, lambda c: c.execute('SELECT \0')), ('a surrogate', client.DataError, lambda c: c.execute('SELECT \ud800')), ('NUL in a script', client.DataError, lambda c: c.script('SELECT \0')),
             ('a surrogate in a script', client.DataError, lambda c: c.script('SELECT \ud800')), ('NUL in a copy', client.DataError, lambda c: c.cursor().copy_out('COPY \0')),
             ('many numbers', TypeError, lambda c: c.cursor().executemany(SELECT, [1, 2])), ('no list', TypeError, lambda c: c.cursor().executemany(SELECT, 5)),
             ('itersize', OverflowError, lambda c: c.cursor('x', -1).execute(SELECT, (5,))), ('itersize 0', OverflowError, lambda c: c.cursor('x', 0).execute(SELECT, (5,))),
             ('itersize x', TypeError, lambda c: c.cursor('x', 'x').execute(SELECT, (5,))), ('no value', client.DataError, lambda c: c.execute(SELECT, ('x',))),
             ('an index', client.DataError, lambda c: c.execute(SELECT, (Wrong(),))), ('too few', client.InterfaceError, lambda c: c.execute(SELECT, None)))

    def mistakes(c):
        c.execute(SELECT, (5,))
        found = [(what, type(_error(lambda: call(c))), c.closed, c.in_transaction) for what, _, call in calls]
        return found, c.execute(SELECT, [5]).fetchall()
    found, tags, _ = play([PREPARED, INSERTED, ANSWERED[:-1] + b'T', b''], mistakes)
    same('mistakes', (found, tags), (([(what, error, False, True) for what, error, _ in calls], [(7, 'hello')]), b'PDS' b'PBEBES' b'BES' b'X'))
    none = frame(b'1', b'') + frame(b't', b'\0\0') + DESCRIBED + READY
    found, tags, _ = play([none, ANSWERED, b''], lambda c: c.execute('SELECT 1', None).fetchall(), autocommit=True)
    same('no parameters', (found, tags), ([(7, 'hello')], b'PDSBESX'))


class Wrong(int):
    """No number: what asks for it gets the exception of an index."""

    def __le__(self, other):
        raise IndexError('mine')
    __ge__ = __lt__ = __gt__ = __le__


COMMITTED = frame(b'C', b'COMMIT\0') + READY


def check_paramstyle(same):
    """`%s` and `%(name)s`, where the caller asks for them; a copy's chunks that call the connection raise, and wait for nothing."""
    def asked(sql, values):
        found, _, seen = play([PREPARED, ANSWERED, b''], lambda c: c.execute(sql, values).fetchall(), autocommit=True, paramstyle='pyformat')
        return found if isinstance(found, Exception) else (found, seen[0][1][3:-3], seen[3][1])
    sent = b'\0s1\0\0\1\0\1\0\1\0\0\0\4\0\0\0\5\0\2\0\1\0\1'
    for sql, values, wanted in (("SELECT %s, '50%%'", [5], b"SELECT $1, '50%'"), ('SELECT %(a)s + %(a)s', {'a': 5, 'b': 6}, b'SELECT $1 + $1')):
        same(sql, asked(sql, values), ([(7, 'hello')], wanted, sent))
    for sql, values in (('SELECT %s', {'a': 5}), ('SELECT %(a)s', [5]), ('SELECT %(a)s', {'b': 5}), ('SELECT %(a)s, %s', {'a': 5}), ('SELECT %d', [5]), ('SELECT 5 %', [5])):
        found, tags, _ = play([b''], lambda c: type(_error(lambda: c.execute(sql, values))), autocommit=True, paramstyle='pyformat')
        same(sql, (found, tags), (client.ProgrammingError, b'X'))
    same('no such style', type(_error(lambda: client.connect('h', paramstyle='qmark'))), client.InterfaceError)

    async def inside(c):
        async def chunks():
            yield b'1\n'
            await c.execute(SELECT, (5,))
        c.timeout = None
        return type(await _failure(c.copy_in('COPY t FROM STDIN', chunks())))
    found, tags, _ = aplay([frame(b'G', b'\0\0\1\0\0'), error_of(b'57014', b'COPY from stdin failed') + READY, b''], inside)
    same('asyncio, a call in chunks', (found, tags), (client.InterfaceError, b'QfX'))


def check_rows_and_modes(same):
    """Rows by `next`, by a class and as a value; the modes of a transaction."""
    two = frame(b'2', b'') + ROW * 2 + frame(b'C', b'SELECT 2\0') + READY

    def use(c):
        cursor = c.execute(SELECT, (5,))
        found = [next(cursor), next(cursor), type(_error(lambda: next(cursor)))]
        for factory in (client.scalar_row, client.class_row(lambda id, name: (name, id))):
            cursor.row_factory = factory
            found.append(list(cursor.execute(SELECT, (5,))))
        return found
    found, _, _ = play([PREPARED, two, two, two, b''], use, autocommit=True)
    same('rows', found, [(7, 'hello'), (7, 'hello'), StopIteration, [7, 7], [('hello', 7)] * 2])
    null = frame(b'2', b'') + frame(b'D', b'\0\2\xff\xff\xff\xff\xff\xff\xff\xff') + ROW + frame(b'C', b'SELECT 2\0') + READY
    same('a value that is null ends no rows', play([PREPARED, null, b''], lambda c: list(c.execute(SELECT, (5,))), autocommit=True, row_factory=client.scalar_row)[0], [None, 7])

    def modes(c):
        with c.transaction('serializable', read_only=True, deferrable=True):
            found = type(_error(lambda: c.transaction('serializable').__enter__()))
        return found, type(_error(lambda: c.transaction('strict').__enter__()))
    found, tags, seen = play([QUERIED, COMMITTED, b''], modes)
    same('modes', (found, seen[0][1]), ((client.ProgrammingError,) * 2, b'BEGIN ISOLATION LEVEL SERIALIZABLE, READ ONLY, DEFERRABLE\0'))


def check_what_ends_what(same):
    """All of them."""
    for check in (check_paramstyle, check_rows_and_modes, check_mistakes, check_streams, check_asyncio_streams, check_once, check_encodings, check_blocks):
        check(same)
