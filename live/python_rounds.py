"""Blocks of transactions that are broken off at any time, by signals, limits, cancelled tasks and killed servers: 500 rounds of each, with the rows of a table as judge.
A row that was said to be committed is there; one whose block was taken back before its commit isn't; run by live/python."""
import asyncio
import contextlib
import random
import signal
import threading

from postgres_protocol import aio, client

ROUNDS = 500
STREAM = 'COPY (SELECT generate_series(1, 20000)) TO STDOUT'


class Stopped(BaseException):
    """A signal."""


class Rounds:
    """The rounds, beside a server. `where` has the arguments of `connect`, `same` counts."""

    def __init__(self, where, same):
        self.where, self.same, self.draw = where, same, random.Random(3)

    def run(self):
        with contextlib.closing(client.connect(**self.where, autocommit=True)) as admin:
            for name, rounds in (('signals', self.signals), ('limits', self.limits), ('killed', self.killed), ('cancelled', lambda: asyncio.run(self.cancelled()))):
                admin.script('DROP TABLE IF EXISTS r; CREATE TABLE r (id int)')
                self.admin = admin
                kept, lost, unsure = rounds()
                found = [row[0] for row in admin.execute('SELECT id FROM r').fetchall()]
                self.same(name + ': each row once', len(set(found)), len(found))
                self.same(name + ': rows that were committed', sorted(kept - set(found)), [])
                self.same(name + ': rows that were taken back', sorted(lost & set(found)), [])
                self.same(name + ': rounds', (len(kept | lost | unsure), bool(kept), bool(lost or unsure)), (ROUNDS, True, True))

    def block(self, c, number):
        """A transaction that adds a row, with other work behind it, and says where it is; some fail by themselves."""
        self.step = 'begun'
        with c:
            c.execute('INSERT INTO r VALUES ($1)', (number,))
            kind = number % 5
            if kind == 1:
                for piece in c.cursor().copy_stream(STREAM):
                    if piece == b'300\n':
                        raise KeyError
            elif kind == 2:
                with c.transaction(), c.cursor().copy_rows_out('SELECT generate_series(1, 3000)') as rows:
                    sum(row[0] for row in rows)
            elif kind == 3:
                sum(row[0] for row in c.stream('SELECT generate_series(1, 3000)', itersize=500))
            elif kind == 4:
                c.cursor().copy_in('COPY r FROM STDIN', (b'%d\n' % (-number - 1) for _ in range(1)))
            self.step = 'commits'
        self.step = 'committed'

    def rounds(self, around, errors):
        """Each round by itself: which numbers are committed, which aren't, and of which the commit was under way."""
        kept, lost, unsure, c = set(), set(), set(), client.connect(**self.where)
        for number in range(ROUNDS):
            c = client.connect(**self.where) if c.closed else c
            self.step = 'before'
            try:
                with around(c):
                    self.block(c, number)
            except (KeyError, *errors):
                pass
            {'committed': kept, 'commits': unsure}.get(self.step, lost).add(number)
        c.close()
        return kept, lost, unsure

    @contextlib.contextmanager
    def signalled(self, c):
        signal.setitimer(signal.ITIMER_REAL, self.draw.random() * 0.03)
        try:
            yield
        finally:
            signal.setitimer(signal.ITIMER_REAL, 0)

    def signals(self):
        def stop(*_):
            raise Stopped
        signal.signal(signal.SIGALRM, stop)
        try:
            return self.rounds(self.signalled, (Stopped, client.Error))
        finally:
            signal.signal(signal.SIGALRM, signal.SIG_IGN)

    @contextlib.contextmanager
    def limited(self, c):
        c.timeout = self.draw.random() ** 2 * 0.03 + 1e-4
        yield

    def limits(self):
        return self.rounds(self.limited, (client.Error,))

    @contextlib.contextmanager
    def terminated(self, c):
        timer = threading.Timer(self.draw.random() * 0.04, lambda: self.admin.execute('SELECT pg_terminate_backend($1)', (c.process_id,)))
        timer.start()
        try:
            yield
        finally:
            timer.cancel()
            timer.join()

    def killed(self):
        return self.rounds(self.terminated, (client.Error,))

    async def cancelled(self):
        kept, lost, unsure, c = set(), set(), set(), await aio.connect(**self.where, autocommit=False)
        for number in range(ROUNDS):
            c = await aio.connect(**self.where, autocommit=False) if c.closed else c
            self.step = 'before'
            task = asyncio.ensure_future(self.asyncio_block(c, number))
            asyncio.get_running_loop().call_later(self.draw.random() * 0.03, task.cancel)
            with contextlib.suppress(KeyError, client.Error, asyncio.CancelledError):
                await task
            {'committed': kept, 'commits': unsure}.get(self.step, lost).add(number)
        await c.close()
        return kept, lost, unsure

    async def asyncio_block(self, c, number):
        self.step = 'begun'
        async with c:
            await c.execute('INSERT INTO r VALUES ($1)', (number,))
            kind = number % 4
            if kind == 1:
                async for piece in c.copy_stream(STREAM):
                    if piece == b'300\n':
                        raise KeyError
            elif kind == 2:
                async with c.transaction(), c.copy_rows_out('SELECT generate_series(1, 3000)') as rows:
                    async for _ in rows:
                        pass
            elif kind == 3:
                async for _ in c.stream('SELECT generate_series(1, 3000)', itersize=500):
                    pass
            self.step = 'commits'
        self.step = 'committed'
