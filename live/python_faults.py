"""What a client may never do: lose rows, commit what is to be rolled back, or wait for ever. Each check has a limit of time; run by live/python."""
import asyncio
import contextlib
import random
import signal
import socket
import threading
import time


from postgres_protocol import aio, client


class Hang(BaseException):
    """A check took too long."""


@contextlib.contextmanager
def within(seconds):
    """Ends what runs longer."""
    def stop(*_):
        raise Hang('longer than %s s' % seconds)
    signal.signal(signal.SIGALRM, stop)
    signal.setitimer(signal.ITIMER_REAL, seconds)
    try:
        yield
    finally:
        signal.setitimer(signal.ITIMER_REAL, 0)


class Faults:
    """The checks, beside a server. `where` has the arguments of `connect`, `same` counts."""

    def __init__(self, server, where, same):
        self.server, self.where, self.same = server, where, same

    def connect(self, **more):
        return client.connect(**{**self.where, **more})

    def rows(self, table='f'):
        """What another connection sees."""
        with contextlib.closing(self.connect(autocommit=True)) as other:
            return other.execute('SELECT id FROM %s ORDER BY id' % table).fetchall()

    def anew(self):
        with contextlib.closing(self.connect(autocommit=True)) as admin:
            admin.script('DROP TABLE IF EXISTS f; CREATE TABLE f (id int PRIMARY KEY, name text)')

    def fails(self, what, error, call, seconds=5):
        """The call raises this error, in time."""
        try:
            with within(seconds):
                self.same(what, call(), error)
        except (Exception, Hang) as raised:
            self.same('%s (%r)' % (what, raised), isinstance(raised, error), True)
            return raised

    def check(self, what, call, seconds=8):
        """The call comes to its end in time, and raises nothing."""
        try:
            with within(seconds):
                call()
        except (Exception, Hang) as raised:
            self.same(what, repr(raised), 'no error')

    def run(self):
        for name in ('copies_roll_back', 'begin_leaks', 'copies_by_other_calls', 'silent_servers', 'limits', 'stale_statements', 'unprepared', 'gone_servers',
                     'copies_that_raise', 'copies_that_fail', 'two_threads', 'floats', 'failed_commits', 'broken_off', 'asyncio_faults', 'interrupted', 'asyncio_cancelled'):
            self.anew()
            self.check(name, getattr(self, name), 40)

    def copies_roll_back(self):
        """A copy is part of the transaction."""
        with contextlib.suppress(KeyError), contextlib.closing(self.connect()) as c, c:
            c.cursor().copy_in('COPY f FROM STDIN', [b'1\ta\n'])
            raise KeyError
        self.same('a copy that is rolled back', self.rows(), [])
        with contextlib.closing(self.connect()) as c, c:
            self.same('copied out of the transaction', c.cursor().copy_out('COPY (SELECT 1) TO STDOUT'), [b'1\n'])
            self.same('which is open', c.in_transaction, True)
            c.cursor().copy_in('COPY f FROM STDIN', [b'2\ta\n'])
        self.same('a copy that is committed', self.rows(), [(2,)])

    def begin_leaks(self):
        """Statements that fail leave no BEGIN to those that come later."""
        c = self.connect()
        with contextlib.suppress(client.Error):
            c.execute('SELEC 1')
        c.autocommit = True
        c.execute('INSERT INTO f VALUES (3)')
        c.close()
        self.same('after a statement that is none', self.rows(), [(3,)])
        c = self.connect()
        c.cursor().copy_in('COPY f FROM STDIN', [b'4\ta\n'])
        c.commit()
        c.autocommit = True
        c.execute('INSERT INTO f VALUES (5)')
        c.close()
        self.same('after a copy', self.rows(), [(3,), (4,), (5,)])
        c = self.connect()
        c.execute('INSERT INTO f VALUES (6)')
        self.fails('autocommit within a transaction', client.ProgrammingError, lambda: setattr(c, 'autocommit', True))
        c.close()
        self.same('neither here nor there', self.rows(), [(3,), (4,), (5,)])

    def copies_by_other_calls(self):
        """A copy that other calls run ends, with an error that says what to call."""
        for sql in ('COPY f FROM STDIN', ' /* a /* b */ */ -- c\n COPY f FROM STDIN', 'copy f to stdout'):
            for call in (lambda c: c.execute(sql), lambda c: c.script(sql), lambda c: c.script('SELECT 1; ' + sql)):
                with contextlib.closing(self.connect(autocommit=True)) as c:
                    self.fails('%s by another call' % sql, client.ProgrammingError, lambda: call(c))
                    self.check('%s by another call: it goes on' % sql, lambda: self.same('it goes on', c.execute('SELECT 1').fetchone(), (1,)))
        with contextlib.closing(self.connect(autocommit=True)) as c:
            for what, call in (('copy_out in', lambda: c.cursor().copy_out('COPY f FROM STDIN')), ('copy_out of no copy', lambda: c.cursor().copy_out('SELECT 1')),
                               ('copy_in out', lambda: c.cursor().copy_in('COPY f TO STDOUT', [b''])), ('copy_in of no copy', lambda: c.cursor().copy_in('SELECT 1', [b''])),
                               ('many copies', lambda: c.cursor().executemany('COPY f FROM STDIN', [()]))):
                self.fails(what, client.ProgrammingError, call)
                self.check(what + ': it goes on', lambda: self.same('it goes on', c.execute('SELECT 1').fetchone(), (1,)))

    def silent_servers(self):
        """A server that accepts and says nothing."""
        listening = socket.create_server(('127.0.0.1', 0))
        port = listening.getsockname()[1]
        for mode in ('disable', 'prefer'):
            begin = time.monotonic()
            self.fails('silent, ' + mode, client.Timeout, lambda: client.connect('127.0.0.1', port, 'alice', connect_timeout=0.5, sslmode=mode))
            self.same('in time', time.monotonic() - begin < 2, True)
        self.fails('silent, asyncio', client.Timeout, lambda: asyncio.run(aio.connect('127.0.0.1', port, 'alice', connect_timeout=0.5)))
        listening.close()

    def limits(self):
        """A call that takes longer than its limit is cancelled at the server, and the connection goes on."""
        with contextlib.closing(self.connect(autocommit=True, timeout=0.5)) as c, contextlib.closing(self.connect(autocommit=True)) as other:
            self.fails('the limit of the connection', client.Timeout, lambda: c.execute('SELECT pg_sleep(20)'))
            self.same('cancelled', other.execute("SELECT count(*) FROM pg_stat_activity WHERE state = 'active' AND query LIKE '%pg_sleep(20)%' AND pid <> pg_backend_pid()").fetchone(), (0,))
            self.same('it goes on', (c.execute('SELECT 1').fetchone(), c.closed), ((1,), False))
            self.same('another limit', c.execute('SELECT 2, pg_sleep(1)', timeout=5).fetchone()[0], 2)
            self.fails('a copy', client.Timeout, lambda: c.cursor().copy_out('COPY (SELECT pg_sleep(20)) TO STDOUT'))
            slow = c.cursor().copy_stream('COPY (SELECT generate_series(1, 3)) TO STDOUT')
            self.same('a slow reader', [time.sleep(0.3) or piece for piece in slow], [b'1\n', b'2\n', b'3\n'])
            self.fails('a script', client.Timeout, lambda: c.script('SELECT pg_sleep(20)'))
            self.same('it goes on again', c.execute('SELECT 1').fetchone(), (1,))

    def stale_statements(self):
        """Kept statements that the server dropped, or whose columns changed."""
        with contextlib.closing(self.connect(autocommit=True)) as c:
            c.execute('INSERT INTO f VALUES (1)')
            c.execute('INSERT INTO f VALUES ($1, $2)', (7, 'x'))
            c.execute('DELETE FROM f WHERE id = 7')
            c.execute('ALTER TABLE f ALTER name TYPE int USING NULL')
            self.fails('parameters of other types', client.ProgrammingError, lambda: c.execute('INSERT INTO f VALUES ($1, $2)', (7, 5)))
            self.same('but once', c.execute('INSERT INTO f VALUES ($1, $2)', (7, 5)).rowcount, 1)
            c.execute('DELETE FROM f WHERE id = 7')
            self.same('first', c.execute('SELECT * FROM f').fetchall(), [(1, None)])
            c.execute('DISCARD ALL')
            self.same('after DISCARD ALL', c.execute('SELECT * FROM f').fetchall(), [(1, None)])
            c.execute('ALTER TABLE f ADD COLUMN more int')
            self.same('after ALTER TABLE', c.execute('SELECT * FROM f').fetchall(), [(1, None, None)])
            c.autocommit = False
            c.execute('ALTER TABLE f DROP COLUMN more')
            self.fails('within a transaction', client.NotSupportedError, lambda: c.execute('SELECT * FROM f').fetchall())
            c.rollback()
            self.same('after it', c.execute('SELECT * FROM f').fetchall(), [(1, None, None)])
            c.rollback()
            c.script('DEALLOCATE ALL; COMMIT')
            c.cursor().executemany('INSERT INTO f VALUES ($1)', [(2,), (3,)])
            c.commit()
            c.script('DEALLOCATE ALL; COMMIT')
            c.cursor().executemany('INSERT INTO f VALUES ($1)', [(4,), (5,)])
            c.commit()
        self.same('many of them', self.rows(), [(1,), (2,), (3,), (4,), (5,)])

    def unprepared(self):
        """With no statement kept, none is left at the server."""
        with contextlib.closing(self.connect(prepare=0)) as c:
            for value in (1, 2):
                self.same('unprepared', c.execute('SELECT $1::int, $2::text', (value, 'x')).fetchall(), [(value, 'x')])
            self.same('none is kept', c.execute('SELECT count(*) FROM pg_prepared_statements').fetchone(), (0,))
            self.fails('an error', client.ProgrammingError, lambda: c.execute('SELECT nothing'))
            c.rollback()
            c.cursor().executemany('INSERT INTO f VALUES ($1)', [(1,), (2,)])
            self.fails('a value of another type', client.DataError, lambda: c.execute('INSERT INTO f VALUES ($1)', ('x',)))
            c.commit()
        self.same('committed', self.rows(), [(1,), (2,)])

    def gone_servers(self):
        """A server that ends the session."""
        with contextlib.closing(self.connect(autocommit=True)) as other:
            c = self.connect(autocommit=True)
            pid = c.execute('SELECT pg_backend_pid()').fetchone()[0]
            other.execute('SELECT pg_terminate_backend($1)', (pid,))
            time.sleep(0.2)
            error = self.fails('gone', client.OperationalError, lambda: c.execute('SELECT 1'))
            self.same('closed', (error.sqlstate, c.closed), ('57P01', True))
            self.fails('and says so', client.InterfaceError, lambda: c.execute('SELECT 1'))
            c = self.connect(autocommit=True)
            pid = c.execute('SELECT pg_backend_pid()').fetchone()[0]
            threading.Timer(0.3, lambda: other.execute('SELECT pg_terminate_backend($1)', (pid,))).start()
            try:
                c.execute('SELECT pg_sleep(10)')
            except client.Error as error:
                self.same('its words are kept', (error.sqlstate, c.closed), ('57P01', True))
            c.close()
            self.fails('a password is missing', client.OperationalError, lambda: self.connect(password=None))

    def copies_that_raise(self):
        """What the caller's chunks raise comes back as it is."""
        def chunks():
            yield b'1\ta\n'
            raise KeyError('mine')
        with contextlib.closing(self.connect(autocommit=True)) as c:
            self.fails('its own exception', KeyError, lambda: c.cursor().copy_in('COPY f FROM STDIN', chunks()))
            self.same('it goes on', c.execute('SELECT count(*) FROM f').fetchone(), (0,))

    def copies_that_fail(self):
        """Data that the server rejects, before the rest of them is sent, or is given up."""
        def chunks(ends):
            yield b'x\ty\n' * 10000
            time.sleep(0.3)
            yield b'1\ta\n' * 10000
            if not ends:
                raise KeyError('mine')
        for ends, error in ((True, client.DataError), (False, KeyError)):
            with contextlib.closing(self.connect()) as c:
                self.fails('data that are rejected', error, lambda: c.cursor().copy_in('COPY f FROM STDIN', chunks(ends)))
                self.check('it is over', c.rollback)
                self.check('it goes on', lambda: self.same('it goes on', c.execute('SELECT 1').fetchone(), (1,)))

            async def run():
                async with await aio.connect(**self.where) as c:
                    try:
                        self.same('asyncio, data that are rejected', await asyncio.wait_for(c.copy_in('COPY f FROM STDIN', chunks(ends)), 5), error)
                    except Exception as raised:
                        self.same('asyncio, data that are rejected', isinstance(raised, error), True)
                    self.same('asyncio, it goes on', (await asyncio.wait_for(c.execute('SELECT 1'), 5)).rows, [(1,)])
            self.check('asyncio', lambda: asyncio.run(run()))

    def two_threads(self):
        """A second thread on a connection gets an error."""
        c, found = self.connect(autocommit=True), []
        thread = threading.Thread(target=lambda: found.append(c.execute('SELECT 7, pg_sleep(1)').fetchone()[0]), daemon=True)
        thread.start()
        time.sleep(0.3)
        self.fails('a second thread', client.InterfaceError, lambda: c.execute('SELECT 8').fetchone())
        thread.join(5)
        self.same('the first one', found, [7])
        c.close()

    def floats(self):
        """No number becomes another."""
        with contextlib.closing(self.connect(autocommit=True)) as c:
            self.fails('float4', client.DataError, lambda: c.execute('SELECT $1::float4', (1e300,)).fetchone())
            self.same('its last', c.execute('SELECT $1::float4', (3.4028234663852886e38,)).fetchone(), (3.4028234663852886e38,))
            self.same('infinity', c.execute('SELECT $1::float4', (float('inf'),)).fetchone(), (float('inf'),))

    def failed_commits(self):
        """The server rolls a failed transaction back at COMMIT: that is said."""
        with contextlib.closing(self.connect()) as c:
            c.execute('INSERT INTO f VALUES (1)')
            self.fails('twice', client.IntegrityError, lambda: c.execute('INSERT INTO f VALUES (1)'))
            self.fails('the commit', client.InternalError, c.commit)
            self.same('out of it', c.in_transaction, False)

    def broken_off(self):
        """An exception in the middle of a copy, a query or a large statement leaves a connection that goes on, or is closed."""
        with contextlib.closing(self.connect(autocommit=True)) as c:
            def chunks():
                yield b'1\ta\n'
                signal.setitimer(signal.ITIMER_REAL, 0.2)
                time.sleep(5)
            for what, call in (('a copy', lambda: c.cursor().copy_in('COPY f FROM STDIN', chunks())),
                               ('a query', lambda: (signal.setitimer(signal.ITIMER_REAL, 0.2), c.execute('SELECT pg_sleep(20)')))):
                self.fails(what + ', broken off', Hang, call)
                self.check(what + ' is over', lambda: self.same('its own answer', c.execute('SELECT 3').fetchall(), [(3,)]))
            self.same('no row', self.rows(), [])

    async def late(self, what, c, error, call):
        """The call raises this error in time, and the connection goes on."""
        try:
            self.same('asyncio, ' + what, await asyncio.wait_for(call, 5), error)
        except Exception as raised:
            self.same('asyncio, %s (%r)' % (what, raised), isinstance(raised, error), True)
        self.same('asyncio, %s: it goes on' % what, (await asyncio.wait_for(c.execute('SELECT count(*) FROM f'), 5)).rows, [(0,)])

    def asyncio_faults(self):
        """The same of asyncio."""
        async def slow():
            yield b'1\n'
            await asyncio.sleep(5)

        async def run():
            c = await aio.connect(**self.where)
            for call in (c.execute('COPY f FROM STDIN'), c.script('COPY f FROM STDIN'), c.copy_out('SELECT 1')):
                await self.late('a copy', c, client.ProgrammingError, call)
            await self.late('cancelled', c, asyncio.TimeoutError, asyncio.wait_for(c.execute('SELECT pg_sleep(20)'), 0.3))
            await self.late('a limit', c, client.Timeout, c.execute('SELECT pg_sleep(20)', timeout=0.3))
            await self.late('slow chunks', c, client.Timeout, c.copy_in('COPY f (id) FROM STDIN', slow(), timeout=0.3))
            c.timeout = 0.3
            await self.late('a limit of a copy', c, client.Timeout, c.copy_out('COPY (SELECT pg_sleep(20)) TO STDOUT'))
            c.timeout = None
            pid = (await c.execute('SELECT pg_backend_pid()')).rows[0][0]
            with contextlib.closing(self.connect(autocommit=True)) as other:
                other.execute('SELECT pg_terminate_backend($1)', (pid,))
                await asyncio.sleep(0.2)
            try:
                self.same('asyncio, gone', await c.execute('SELECT 1'), 'an error')
            except client.OperationalError as error:
                self.same('asyncio, closed', (error.sqlstate, c.closed), ('57P01', True))
        asyncio.run(run())

    def calls(self, c, n):
        """Calls of every kind, and what each comes to."""
        return ((lambda: c.execute('SELECT $1::int', (n,)).fetchone(), (n,)), (lambda: c.execute('SELECT $1::int, pg_sleep(0.01)', (n,)).fetchone()[0], n),
                (lambda: len(c.execute('SELECT i FROM generate_series(1, $1::int) i', (5000 + n % 7,)).fetchall()), 5000 + n % 7),
                (lambda: c.cursor().executemany('SELECT $1::int', [(n + i,) for i in range(50)]).fetchall(), [(n + i,) for i in range(50)]),
                (lambda: [r.rows for r in c.script('SELECT %d; SELECT %d' % (n, n + 1))], [[(str(n),)], [(str(n + 1),)]]),
                (lambda: c.cursor().copy_in('COPY w FROM STDIN', (b'%d\n' % i for i in range(2000))).rowcount, 2000),
                (lambda: len(c.cursor().copy_out('COPY (SELECT generate_series(1, 3000)) TO STDOUT')), 3000),
                (lambda: len(c.execute('SELECT repeat($1, 3000000)', ('x',)).fetchone()[0]), 3000000))

    def interrupted(self):
        """Exceptions at any time, in any place: a call's answer is its own, or the connection is closed."""
        draw, c, end, counts = random.Random(1), self.connect(autocommit=True), time.monotonic() + 6, [0, 0]
        c.script('CREATE TABLE IF NOT EXISTS w (id int)')

        def stop(*_):
            raise Hang('now')
        signal.signal(signal.SIGALRM, stop)
        for n in range(1000000):
            if time.monotonic() > end:
                break
            c = self.connect(autocommit=True) if c.closed else c
            call, wanted = draw.choice(self.calls(c, n))
            counts[0] += 1
            try:
                try:
                    signal.setitimer(signal.ITIMER_REAL, draw.choice((0, 0.0005, 0.002, 0.01, 0.03)) * draw.random())
                    came = call()
                finally:
                    signal.setitimer(signal.ITIMER_REAL, 0)
            except Hang:
                counts[1] += 1
                continue
            except client.Broken:
                continue
            if came != wanted:
                self.same('interrupted', came, wanted)
        c.close()
        self.same('interrupted', counts[0] > 50 and counts[1] > 20, True)

    def asyncio_cancelled(self):
        """The same of cancelled tasks."""
        async def run():
            draw, c, counts, end = random.Random(2), await aio.connect(**self.where), [0, 0], time.monotonic() + 4
            for n in range(1000000):
                if time.monotonic() > end:
                    break
                c = await aio.connect(**self.where) if c.closed else c
                call, wanted = draw.choice(((lambda: c.execute('SELECT $1::int, pg_sleep(0.005)', (n,)), n), (lambda: c.execute('SELECT $1::int FROM generate_series(1, 5000)', (n,)), n),
                                            (lambda: c.execute('SELECT $1::int', (n,)), n)))
                counts[0] += 1
                try:
                    came = await asyncio.wait_for(call(), draw.choice((1, 0.0005, 0.002, 0.01)) * draw.random() + 1e-4)
                except asyncio.TimeoutError:
                    counts[1] += 1
                    continue
                if came.rows[0][0] != wanted:
                    self.same('cancelled', came.rows[0], wanted)
            await c.close()
            self.same('cancelled', counts[0] > 50 and counts[1] > 20, True)
        asyncio.run(run())
