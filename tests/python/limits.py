"""Limits of time and of memory, and smaller ones: what a server says where there is no database, cursors of one name, other threads and processes; with a server
that plays bytes, to the blocking client and to the one for asyncio."""
import asyncio
import concurrent.futures
import contextlib
import gc
import os
import socket
import threading
import time
import weakref
from unittest import mock

from postgres_protocol import aio, client
from calls import BEGUN, COMMITTED, QUERIED, _failure, aplay
from faults import ANSWERED, OPENED, SELECT, _error, error_of, play
from server import frame
from sessions import AUTHENTICATED, PREPARED, READY, ROW, connected, events_of, with_server


def check_late(same):
    """A limit of time: a commit whose answer comes is done, and one that is cancelled isn't; waiting for notifications ends, whatever else comes; and no cancel waits for other work."""
    def late(c):
        with c.transaction():
            c.timeout = 0.2
    for answer, wanted in ((COMMITTED, None), (error_of(b'57014', b'canceling') + READY, client.Timeout)):
        found, tags, _ = play([QUERIED, b'', (answer,), b''], late)
        same('a late commit', (found if found is None else type(found), tags), (wanted, b'QQ' b'cancel' b'X'))

        async def alike(c):
            late_one = c.transaction()
            await late_one.__aenter__()
            c.timeout = 0.2
            await late_one.__aexit__(None, None, None)
        found, tags, _ = aplay([QUERIED, b'', (answer,), b''], alike)
        same('asyncio, a late commit', (found if found is None else type(found), tags), (wanted, b'QQ' b'cancel' b'X'))

    async def busy(c):
        loop, work = asyncio.get_running_loop(), threading.Event()
        loop.set_default_executor(concurrent.futures.ThreadPoolExecutor(1))
        other = loop.run_in_executor(None, work.wait, 5)
        begin = time.monotonic()
        found = type(await _failure(c.script('SELECT 1', timeout=0.1)))
        took = time.monotonic() - begin
        work.set()
        await other
        return found, took < 4
    found, _, _ = aplay([b'', (error_of(b'57014', b'canceling') + READY,), b''], busy)
    same('asyncio, a cancel beside other work', found, (client.Timeout, True))
    check_flood(same)


def check_flood(same):
    """A server that sends notices for ever: `wait` ends, and few of them are kept; and so of settings."""
    listening, ends = socket.create_server(('127.0.0.1', 0)), threading.Event()

    def serve():
        peer = listening.accept()[0]
        peer.recv(1000)
        peer.sendall(AUTHENTICATED + b''.join(frame(b'S', b'name%d\0x\0' % n) for n in range(5000)) + READY)
        with contextlib.suppress(OSError):
            while not ends.wait(0.001):
                peer.sendall(frame(b'N', b'SNOTICE\0C00000\0Mx\0\0') * 2000)
        peer.close()

    async def waits(port):
        c = await aio.connect('127.0.0.1', port, 'alice', sslmode='disable')
        found = await c.wait(0.3)
        await c.close()
        return found, len(c.notices), len(c._core.settings)

    def blocks(port):
        with contextlib.closing(client.connect('127.0.0.1', port, 'alice', sslmode='disable')) as c:
            return c.wait(0.3), len(c.notices), len(c._core.settings)
    for call in (blocks, lambda port: asyncio.run(waits(port))):
        ends.clear()
        thread = threading.Thread(target=serve, daemon=True)
        thread.start()
        begin = time.monotonic()
        found = _error(lambda: call(listening.getsockname()[1]))
        same('a flood of notices', (found, time.monotonic() - begin < 20), (([], 1000, 1000), True))
        ends.set()
        thread.join(10)
    listening.close()


def check_both_ways(same):
    """A server that sends more than a socket holds before it reads the data of a copy: neither side waits for the other."""
    def serve(listening):
        peer = listening.accept()[0]
        file = peer.makefile('rb')
        file.read(int.from_bytes(file.read(4), 'big') - 4)
        peer.sendall(AUTHENTICATED + READY)
        file.read(1), file.read(int.from_bytes(file.read(4), 'big') - 4)
        peer.sendall(frame(b'G', b'\0\0\1\0\0'))
        time.sleep(0.2)
        peer.sendall(frame(b'N', b'SNOTICE\0C00000\0M' + b'x' * 1000 + b'\0\0') * 16000)
        size, tag = 0, b'd'
        while tag == b'd':
            tag = file.read(1)
            size += len(file.read(int.from_bytes(file.read(4), 'big') - 4))
        peer.sendall(frame(b'C', b'COPY %d\0' % size) + READY)
        file.read(1)
        peer.close()

    async def by_asyncio(port):
        c = await aio.connect('127.0.0.1', port, 'alice', sslmode='disable', timeout=20)
        found = (await c.copy_in('COPY t FROM STDIN', (b'x' * 100000 for _ in range(160)))).tag
        await c.close()
        return found
    for call in (lambda port: _closed(client.connect('127.0.0.1', port, 'alice', sslmode='disable', autocommit=True, timeout=20),
                                      lambda c: c.cursor().copy_in('COPY t FROM STDIN', (b'x' * 100000 for _ in range(160))).statusmessage), lambda port: asyncio.run(by_asyncio(port))):
        listening = socket.create_server(('127.0.0.1', 0))
        thread = threading.Thread(target=serve, args=(listening,), daemon=True)
        thread.start()
        same('both ways at once', _error(lambda: call(listening.getsockname()[1])), 'COPY 16000000')
        thread.join(10)
        listening.close()


def check_small(same):
    """Smaller ones: what a server says where there is no database, cursors of one name, a stray message, the statements that are kept, other threads and processes."""
    listening = socket.create_server(('127.0.0.1', 0))

    def serve():
        for _ in range(2):
            peer = listening.accept()[0]
            peer.recv(1000)
            peer.sendall(error_of(b'3D000', b'database "x" does not exist', b'FATAL'))
            peer.close()
    threading.Thread(target=serve, daemon=True).start()
    port = listening.getsockname()[1]
    for call in (lambda: client.connect('127.0.0.1', port, 'alice', sslmode='disable'), lambda: asyncio.run(aio.connect('127.0.0.1', port, 'alice', sslmode='disable'))):
        error = _error(call)
        same('no database', (type(error), error.sqlstate), (client.OperationalError, '3D000'))
    listening.close()
    suspended = BEGUN + frame(b'2', b'') + ROW + frame(b's', b'') + OPENED

    def named(c):
        first, second = c.cursor('x', 1).execute(SELECT, (5,)), c.cursor('x', 1)
        found = [type(_error(lambda: second.execute(SELECT, (5,)))), c.in_transaction, type(_error(lambda: first.fetchmany(-1))), first.fetchone()]
        first.close()
        return found, second.execute(SELECT, (5,)).fetchall()
    found, tags, _ = play([PREPARED, suspended, frame(b'3', b'') + OPENED, ANSWERED[:-1] + b'T', frame(b'3', b'') + OPENED, b''], named)
    same('cursors of one name', (found, tags), (([client.ProgrammingError, True, client.ProgrammingError, (7, 'hello')], [(7, 'hello')]), b'PDS' b'PBEBES' b'CS' b'BES' b'X'))
    found, _, _ = play([PREPARED, ANSWERED + READY, b''], lambda c: (c.execute(SELECT, (5,)).fetchall(), type(_error(lambda: c.execute(SELECT, (5,)))), c.closed), autocommit=True)
    same('a stray ReadyForQuery', found, ([(7, 'hello')], client.Broken, True))
    found, _, seen = play([PREPARED, ANSWERED, PREPARED, ANSWERED, ANSWERED, frame(b'3', b'') + PREPARED, ANSWERED, ANSWERED, b''],
                          lambda c: [len(c.execute(sql, (5,)).fetchall()) for sql in ('one', 'two', 'one', 'three', 'one')], autocommit=True, prepare=2)
    same('what was used last is kept', (found, [payload[:3] for tag, payload in seen if tag == b'C']), ([1] * 5, [b'Ss2']))
    core = connected()
    for _ in range(3):
        core.run(b'', b's', b'', [], b'', 0, (4,), False)
    core.sync()
    core.receive_data(error_of(b'26000', b'gone') + READY)
    same('decoders of what is passed over', (type(events_of(core)[-1]).__name__, core._decoders), ('Ready', {}))
    check_others(same)


def check_nobody(same):
    """A connection that nobody has any more is gone at once, without a collection of what refers to itself."""
    def drop(connection, run):
        run(connection)
        return weakref.ref(connection)

    async def by_asyncio(port):
        async def run():
            c = await aio.connect('127.0.0.1', port, 'alice', sslmode='disable')
            await c.execute(SELECT, (5,))
            c._wire.close()
            return weakref.ref(c)
        return (await run())() is None
    gc.disable()
    found = [with_server([PREPARED, ANSWERED], call)[0] for call in (
        lambda port: drop(client.connect('127.0.0.1', port, 'alice', sslmode='disable', autocommit=True), lambda c: c.execute(SELECT, (5,)))() is None, lambda port: asyncio.run(by_asyncio(port)))]
    gc.enable()
    same('nobody has it', found, [True, True])


def check_others(same):
    """`close` from another thread ends a call; a process that was forked writes nothing to its parent's server; a request to cancel goes to the address that answered."""
    def closes(c):
        threading.Timer(0.2, c.close).start()
        begin = time.monotonic()
        error = _error(lambda: c.script('SELECT pg_sleep(5)'))
        return type(error), c.closed, time.monotonic() - begin < 4.5
    found, tags, _ = play([b'', b''], closes)
    same('closed by another thread', (found, tags), ((client.Broken, True, True), b'Q'))

    def forks(c):
        child = os.fork()
        if not child:
            found = _error(lambda: c.script('SELECT 1'))
            c.close()
            os._exit(0 if isinstance(found, client.InterfaceError) else 1)
        return os.waitpid(child, 0)[1], c.execute(SELECT, (5,)).fetchall()
    found, tags, _ = play([PREPARED, ANSWERED, b''], forks, autocommit=True)
    same('a fork', (found, tags), ((0, [(7, 'hello')]), b'PDSBESX'))

    def elsewhere(c):
        found = socket.getaddrinfo

        def ask(host, *more):
            return found('127.0.0.1' if host == '127.0.0.1' else '127.0.0.2', *more)
        with mock.patch('socket.getaddrinfo', ask):
            return _error(lambda: c.script('SELECT 1', timeout=0.1))
    found, seen = with_server([b'', (error_of(b'57014', b'canceling') + READY,), b''], lambda port: _closed(client.connect('localhost', port, 'alice', sslmode='disable', autocommit=True), elsewhere))
    same('a cancel to the same address', (type(found), [tag for tag, _ in seen]), (client.Timeout, [b'Q', b'cancel', b'X']))


def _closed(connection, run):
    with contextlib.closing(connection):
        return run(connection)


def check_limits_and_others(same):
    """All of them."""
    for check in (check_nobody, check_late, check_both_ways, check_small):
        check(same)
