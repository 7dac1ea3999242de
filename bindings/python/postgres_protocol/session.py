"""What a client does on a connection, without input or output: each call is a generator that yields what it needs. The blocking client and the one
for asyncio run the same generators."""
from collections import OrderedDict
from typing import Any, Callable, Dict, Generator, List, Optional, Sequence, Set

from . import errors, events
from ._library import EMBEDDED_NULL, INT32, ProtocolError, as_integer
from .binding import certificate_hash
from .connection import Connection, Encrypts
from .copying import first_word
from .reading import Field
from .registry import Registry, Type
from .results import Result, Statement, as_given, formats_of, gathered, placed, results_of
from .settings import Options

#: What a generator yields: READ where bytes of the server's are needed (what was written is sent first), SEND where what was written is to be sent, CHUNK
#: for the next piece of a copy (None: there is none), CANCEL for a request to cancel, ENCRYPT for TLS, which gives the server's certificate.
READ, SEND, CHUNK, CANCEL, ENCRYPT = 'read', 'send', 'chunk', 'cancel', 'encrypt'
Flow = Generator[str, Any, Any]
Found = Generator[str, Any, List[events.Event]]
#: So many bytes of a copy are sent at once; so many notices are kept.
_PIECE, _NOTICES = 65536, 1000
#: So many seconds a cancelled statement has for its answer; then the connection is closed.
GRACE = 5
_OTHER_CALL = 'the statement copies: copy_in(..) and copy_out(..) are the calls for it'


class Session:
    """The statements of one connection. Prepared statements are kept by their text, the oldest of them closed where there are too many; with
    `most_statements` 0 none is kept. Unless `autocommit` is set, each call that sends a statement opens a transaction before it, if none is open."""

    def __init__(self, connection: Connection, registry: Optional[Registry] = None, most_statements: int = 256, paramstyle: str = 'numeric_dollar') -> None:
        if paramstyle not in ('numeric_dollar', 'pyformat'):
            raise errors.InterfaceError("paramstyle: 'numeric_dollar' or 'pyformat' is expected, not %r" % paramstyle)
        self._placed = placed if paramstyle == 'pyformat' else as_given
        self.connection, self.registry, self._most = connection, registry or Registry(), most_statements
        self.autocommit = True
        #: The notifications and notices that came, in their order.
        self.notifications: List[events.Notification] = []
        self.notices: List[events.Notice] = []
        self._statements: 'OrderedDict[str, Statement]' = OrderedDict()
        self._dropped: List[str] = []
        self._named = 0
        self._settled = -1
        #: How often the session was outside a transaction, and the names of the portals that are open since then.
        self._idles, self._open_since, self._open = 0, 0, set()  # type: int, int, Set[str]
        #: The request that failed last, and the Executes of the last series.
        self._failed_at: Optional[int] = None
        self._executed: Dict[Optional[int], Result] = {}

    @property
    def is_settled(self) -> bool:
        """Whether nothing is under way: all that was asked was sent, and its answers were read to their end."""
        return self._settled == self.connection.last_number and not self.connection.has_unsent

    def answer(self) -> Optional[events.Event]:
        """The next event that answers a request, of the bytes that are there; others are kept."""
        while True:
            try:
                event = self.connection.next_event()
            except (ProtocolError, UnicodeDecodeError) as error:
                raise errors.Broken('the server sent what it may not: %s' % error) from error
            if event is None or event.request is not None:
                return event
            if isinstance(event, events.Notification):
                self.notifications.append(event)
            elif isinstance(event, events.Notice):
                self.notices.append(event)
                del self.notices[:-_NOTICES]
            elif not isinstance(event, events.Setting):
                return event
            elif event.name == 'client_encoding' and event.value != 'UTF8':
                raise errors.Broken('the client_encoding is %s, and none but UTF8 is supported: the connection is closed' % event.value)

    def _next(self) -> Generator[str, Any, events.Event]:
        while True:
            event = self.answer()
            if event is not None:
                return event
            yield READ

    @property
    def _begins(self) -> bool:
        """Whether the next statement opens a transaction: the one place that says so, at the time when the statement is sent."""
        return not self.autocommit and self.connection.status == 'I'

    def open(self, encrypts: Encrypts, options: Options) -> Flow:
        """Encrypts the channel where that is asked for, and waits until the server is ready."""
        if encrypts == 'direct':
            self.connection.encrypted(certificate_hash((yield ENCRYPT)))
        elif encrypts:
            event = yield from self._next()
            if isinstance(event, events.Encryption) and event.accepted:
                self.connection.encrypted(certificate_hash((yield ENCRYPT)))
            elif options.must_encrypt:
                raise errors.OperationalError('the server does not encrypt')
            else:
                self.connection.not_encrypted()
        while not isinstance(event := (yield from self._next()), events.LoggedIn):
            if isinstance(event, events.Failed):
                raise errors.of_fields(event.fields, errors.OperationalError)
        unwanted = options.unwanted(self.connection.settings)
        if unwanted:
            raise errors.Broken(unwanted)
        self._settled = self.connection.last_number

    def settle(self) -> Flow:
        """Ends what a call has left under way, and passes over its answers."""
        connection = self.connection
        connection.skips_values = True
        try:
            self._give_up('the call was broken off')
            if connection.needs_sync:
                connection.sync()
            while not connection.is_idle:
                event = yield from self._next()
                if isinstance(event, events.CopyStarted):
                    self._give_up('the call was broken off')
                elif isinstance(event, events.Failed) and errors.is_end(event.fields, event.request):
                    raise errors.of_fields(event.fields)
            self._settled = connection.last_number
        finally:
            connection.skips_values = False

    def _give_up(self, why: str) -> None:
        """Ends a copy whose data the server awaits."""
        if self.connection.is_copying:
            self.connection.copy_fail(why)

    def _until_ready(self, last: int, found: Optional[List[events.Event]] = None) -> Found:
        """The events up to the Ready of a request; a server's error is raised then. A copy that isn't expected ends there."""
        found = [] if found is None else found
        failed: Optional[Exception] = None
        while True:
            event = self.answer()
            if event is None:
                yield READ
            elif isinstance(event, events.Failed):
                failed = failed or self._error(event)
                if errors.is_end(event.fields, event.request):
                    raise failed
            elif isinstance(event, events.Ready) and event.request == last:
                self._settled = last
                self._idles += event.status == 'I'
                if failed is not None:
                    raise failed
                return found
            elif isinstance(event, events.CopyStarted):
                failed = errors.ProgrammingError(_OTHER_CALL)
                self._give_up(_OTHER_CALL)
            elif failed is None:
                found.append(event)

    def _error(self, event: events.Failed) -> errors.DatabaseError:
        self._failed_at = event.request
        return errors.of_fields(event.fields)

    def _described(self) -> Found:
        """The events up to a statement's columns."""
        found: List[events.Event] = []
        while True:
            event = yield from self._next()
            if isinstance(event, events.Failed):
                raise self._error(event)
            found.append(event)
            if isinstance(event, events.Columns) or (isinstance(event, events.Completed) and event.kind == 'NoData'):
                return found

    def prepare(self, sql: str) -> Flow:
        """Prepares the statement of this text, and keeps it. With no statement kept it has no name, and the series of requests goes on."""
        if not self._most:
            return (yield from self._prepare('', sql, False))
        if len(self._statements) >= self._most:
            self._dropped.append(self._statements.popitem(last=False)[1].name)
        while self._dropped:
            self.connection.close('S', self._dropped.pop())
        self._named += 1
        self._statements[sql] = yield from self._prepare('s%d' % self._named, sql, True)
        return self._statements[sql]

    def describe(self, sql: str) -> Flow:
        """The parameters and columns of a statement, which isn't kept."""
        return (yield from self._prepare('', sql, True))

    def _prepare(self, name: str, sql: str, syncs: bool) -> Flow:
        connection = self.connection
        connection.parse(name, sql)
        connection.describe('S', name)
        if syncs:
            found = yield from self._until_ready(connection.sync())
        else:
            connection.flush()
            found = yield from self._described()
        types = [self.registry.get(oid) for oid in next((e.types for e in found if isinstance(e, events.Parameters)), [])]
        fields: List[Field] = next((e.fields for e in found if isinstance(e, events.Columns)), [])
        known = [self.registry.get(f.type_oid) for f in fields]
        return Statement(name, [k.encode for k in types], formats_of(types), fields, tuple(k.decode for k in known), formats_of(known))

    def _values(self, statement: Statement, values: Sequence[Any]) -> List[Optional[bytes]]:
        """The parameters' bytes."""
        if len(values) != len(statement.encoders):
            raise errors.InterfaceError('the statement has %d parameters, and %d values are given' % (len(statement.encoders), len(values)))
        try:
            return [None if v is None else encode(v) for encode, v in zip(statement.encoders, values)]
        except (TypeError, ValueError, ArithmeticError, AttributeError, LookupError) as error:
            raise errors.DataError('a parameter is no value of its type: %s' % error) from error

    def _begin(self) -> None:
        """Opens a transaction where one is due, in one series with what follows."""
        if self._begins:
            connection, name = self.connection, '' if self._most else 'begin'
            connection.parse(name, 'BEGIN')
            connection.bind('', name, [], [])
            connection.execute('')
            if name:
                connection.close('S', name)

    def _execute(self, statement: Statement, rows: Sequence[Sequence[Any]], portal: str = '', size: int = 0) -> Flow:
        """Executes a statement for each list of values, in one series; the results, in their order."""
        connection, place, name = self.connection, portal.encode(), statement.name.encode()
        bound = [self._values(statement, values) for values in rows]
        self._begin()
        results: Dict[Optional[int], Result] = {}
        for number, data in enumerate(bound, 1 - len(bound)):
            asked = connection.run(place, name, statement.formats, data, statement.result_formats, size, statement.decoders, number == 0)
            results[asked] = Result(statement.fields, [], '')
        self._executed = results
        found = yield from self._until_ready(connection.last_number if bound else connection.sync())
        return gathered(results, found)

    def _is_stale(self, error: errors.DatabaseError) -> bool:
        """Whether the server dropped the statement, or its columns changed: its Bind failed then, and not what an Execute ran."""
        return self._failed_at not in self._executed and errors.is_stale(error)

    def _run(self, sql: str, rows: Sequence[Sequence[Any]], portal: str = '', size: int = 0) -> Flow:
        """The same by a statement's text; the statement, and the results. A statement that was kept and went stale is prepared anew, unless its error ended a
        transaction of the caller's; and once more behind a pooler that keeps one of the text for itself, after a `DEALLOCATE ALL`, at which it drops that."""
        kept, began = self._statements.get(sql), self.connection.status == 'I'
        statement, left = kept, 0 if kept is None else 2
        if kept is not None:
            self._statements.move_to_end(sql)
        elif first_word(sql) == 'COPY':
            raise errors.ProgrammingError(_OTHER_CALL)
        while True:
            if statement is None:
                statement = yield from self.prepare(sql)
            try:
                return statement, (yield from self._execute(statement, rows, portal, size))
            except errors.DatabaseError as error:
                is_stale = self._is_stale(error)
                # (of class 42 is an error too of a statement whose parameters have other types now)
                if kept is not None and (is_stale or (statement is kept and (error.sqlstate or '')[:2] == '42')):
                    self._dropped.append(self._statements.pop(sql).name)
                if not (began and is_stale and left):
                    raise
            statement, left = None, left - 1
            if self.connection.status == 'E':
                yield from self._until_ready(self.connection.query('ROLLBACK'))
            if left == 0:
                yield from self.discard('DEALLOCATE ALL')

    def execute(self, sql: str, values: Optional[Sequence[Any]] = None) -> Flow:
        """Runs a statement; its rows are values of Python's."""
        sql, row = self._placed(sql, values)
        if not row and sql not in self._statements and first_word(sql) == 'COPY':
            return (yield from self.script(sql))[-1]
        return (yield from self._run(sql, [row]))[1][0]

    def execute_many(self, sql: str, rows: Sequence[Sequence[Any]]) -> Flow:
        """Runs a statement for each list of values, all in one piece: where one fails, none of them counts."""
        asked = [self._placed(sql, row) for row in rows]
        return (yield from self._run(asked[0][0] if asked else sql, [row for _, row in asked]))[1]

    def open_portal(self, portal: str, sql: str, values: Optional[Sequence[Any]], size: int) -> Flow:
        """The first rows of a statement, of which `fetch` gives the next ones, up to the transaction's end."""
        (sql, row), most = self._placed(sql, values), as_integer(size, 'itersize', 1, INT32[1])
        if self.autocommit and self.connection.status == 'I':
            raise errors.ProgrammingError('rows that come in parts need a transaction')
        if portal in self._open and self._open_since == self._idles:
            raise errors.ProgrammingError('another cursor of this name is open')
        statement, results = yield from self._run(sql, [row], portal, most)
        self._open = {portal, *(self._open if self._open_since == self._idles else ())}
        self._open_since = self._idles
        return statement, results[0]

    def fetch(self, portal: str, statement: Statement, size: int) -> Flow:
        """The next rows of a portal."""
        number = self.connection.execute(portal, size, statement.decoders)
        found = yield from self._until_ready(self.connection.sync())
        return gathered({number: Result(statement.fields, [], '')}, found)[0]

    def close_portal(self, portal: str) -> Flow:
        """Closes a portal."""
        self._open.discard(portal)
        self.connection.close('P', portal)
        yield from self._until_ready(self.connection.sync())

    def _begin_query(self, sql: str) -> Flow:
        """Opens a transaction before a simple query, where one is due, and the query can be sent."""
        if self._begins:
            if b'\0' in sql.encode():
                raise ProtocolError(EMBEDDED_NULL)
            yield from self._until_ready(self.connection.query('BEGIN'))

    def script(self, sql: str) -> Flow:
        """Runs any number of statements as one simple query; their values are texts."""
        yield from self._begin_query(sql)
        return results_of((yield from self._until_ready(self.connection.query(sql))))

    def plain(self, sql: str) -> Flow:
        """A statement that opens no transaction but its own."""
        yield from self._until_ready(self.connection.query(sql))

    def forget(self) -> None:
        """Prepares each statement anew, as by types that are known now."""
        self._dropped += [self._statements.popitem()[1].name for _ in range(len(self._statements))]

    def discard(self, sql: str = 'DISCARD ALL') -> Flow:
        """The server keeps nothing of the session, and no statement."""
        yield from self.plain(sql)
        self._statements.clear()
        self._dropped.clear()

    def finish(self, sql: str, limit: Callable[[float], None]) -> Flow:
        """`COMMIT` or `ROLLBACK`, where a transaction is open. The server rolls one that failed back at its COMMIT: that is an error. Where the answer is
        late it is cancelled, by a further limit, and what came of it is what counts."""
        if self.connection.status not in ('T', 'E'):
            return
        number, found = self.connection.query(sql), []  # type: int, List[events.Event]
        try:
            yield from self._until_ready(number, found)
        except errors.Timeout as error:
            yield CANCEL
            limit(GRACE)
            try:
                yield from self._until_ready(number, found)
            except errors.DatabaseError:
                raise error from None
        if sql == 'COMMIT' and results_of(found)[-1].tag == 'ROLLBACK':
            raise errors.InternalError('the transaction failed before its COMMIT: it is rolled back')

    def wait(self) -> Flow:
        """Waits for notifications up to the call's limit, and returns those that came."""
        self._settled = -1  # (bytes are read that answer nothing)
        try:
            while not self.notifications:
                event = self.answer()
                if isinstance(event, events.Failed):
                    raise self._error(event)
                if event is None and not self.notifications:
                    yield READ
        except errors.Timeout:
            pass
        self._settled = self.connection.last_number
        found, self.notifications = self.notifications, []
        return found

    def copy(self, sql: str, kind: str) -> Flow:
        """Begins a copy in this direction; the number of its request."""
        if first_word(sql) != 'COPY':
            raise errors.ProgrammingError('the statement is no COPY')
        yield from self._begin_query(sql)
        number = self.connection.query(sql)
        event = yield from self._next()
        if isinstance(event, events.Failed):
            raise self._error(event)
        if not isinstance(event, events.CopyStarted):
            raise errors.ProgrammingError('the statement has run, and copies no data through the connection')
        if event.kind != kind:
            raise errors.ProgrammingError('the statement copies in the other direction')
        return number

    def copy_in(self, sql: str) -> Flow:
        """Sends data to a `COPY .. FROM STDIN`."""
        number = yield from self.copy(sql, 'CopyInResponse')
        held: List[bytes] = []
        size = 0
        while True:
            chunk = yield CHUNK
            if chunk is not None:
                held.append(chunk)
                size += len(chunk)
            if held and (chunk is None or size >= _PIECE):
                self.connection.copy_data(b''.join(held))
                held, size = [], 0
                yield SEND
            if chunk is None:
                break
        self.connection.copy_done()
        return results_of((yield from self._until_ready(number)))[-1]

    def is_end(self, event: events.Event, number: int) -> bool:
        """Whether it is the end of a request's answer; a server's error is raised."""
        if isinstance(event, events.Failed):
            raise self._error(event)
        if isinstance(event, events.Ready) and event.request == number:
            self._settled = self.connection.last_number
            return True
        return False
