"""What the blocking connection and the one for asyncio have in common."""
import itertools
import os
import time
from typing import TYPE_CHECKING, Any, Callable, Generator, List, NamedTuple, Optional, Sequence, Tuple

from . import errors, events
from ._library import ProtocolError
from .connection import DecodeError, Encrypts, LogInError
from .settings import Options, Place
from .registry import Registry
from .results import Result
from .session import CANCEL, GRACE, Flow, Session
from .wire import Limits

if TYPE_CHECKING:
    from .streams import Source

#: What makes a row of a tuple, by the columns' names.
RowFactory = Callable[[List[str]], Callable[[Tuple[Any, ...]], Any]]


def dict_row(names: List[str]) -> Callable[[Tuple[Any, ...]], Any]:
    """Rows as dicts by the columns' names."""
    return lambda row: dict(zip(names, row))


def namedtuple_row(names: List[str]) -> Callable[[Tuple[Any, ...]], Any]:
    """Rows as named tuples; a name that can't be one is `_1`, `_2`, .. by its place."""
    from collections import namedtuple
    made: Any = namedtuple('Row', names, rename=True)  # type: ignore[misc]
    make: Callable[[Tuple[Any, ...]], Any] = made._make
    return make


def scalar_row(names: List[str]) -> Callable[[Tuple[Any, ...]], Any]:
    """The first value of each row."""
    return lambda row: row[0]


def class_row(kind: Callable[..., Any]) -> RowFactory:
    """Rows as objects of a class, which is called with the columns' names and values: `row_factory=class_row(Customer)`."""
    return lambda names: lambda row: kind(**dict(zip(names, row)))


def shaped(result: Result, factory: Optional[RowFactory]) -> Result:
    """The result with the rows that a factory makes."""
    if factory is None or not result.fields:
        return result
    return result._replace(rows=list(map(factory([field.name for field in result.fields]), result.rows)))


class Behaviour(NamedTuple):
    """What a connection does: see `connect`."""
    autocommit: bool
    timeout: Optional[float]
    prepare: int
    row_factory: Optional[RowFactory]
    registry: Optional[Registry]
    paramstyle: str


class Block(NamedTuple):
    """A block of `transaction`: whose it is, and the statements that end it and take it back."""
    owner: object
    end: str
    back: str


class Shared:
    """What the two connections have in common: their state, and the generators of their calls. All that is decided of a call is decided here and in `Session`;
    a connection carries out what they yield, by its `_wire`."""
    _wire: Limits

    def __init__(self, options: Options, place: Place, encrypts: Encrypts, behaviour: Behaviour) -> None:
        self._options, self._core = options, options.core(place, encrypts)
        self._session, self._is_closed = Session(self._core, behaviour.registry, behaviour.prepare, behaviour.paramstyle), False
        self._session.autocommit, self._behaviour = behaviour.autocommit, behaviour
        self._portals, self._process, self._born = 0, os.getpid(), time.monotonic()
        self._blocks: List[Block] = []
        #: The stream that holds the connection; whether a call runs, and whether it is at what the caller gave it.
        self._source: Optional['Source'] = None
        self._is_busy = self._is_outside = False
        #: The limit of time of a call, in seconds; what makes a row of a tuple.
        self.timeout, self.row_factory = behaviour.timeout, behaviour.row_factory

    def _call(self, flow: Flow, timeout: Optional[float], ends: bool = False, source: Optional['Source'] = None) -> Flow:
        """A call: what is ended before it, its limit, and how it is cleared up where it is broken off. Where the one before was broken off in its clearing
        up too, or the server sent what it may not, nothing is known of the connection: it is closed."""
        self._check_open()
        if self._is_busy or self._core.is_faulty:
            self._end()
            raise errors.Broken('the call before was broken off: the connection is closed' if self._is_busy else 'the server sent what it may not')
        held = None if self._source is source else self._source
        if held is not None and not (ends or held.is_dropped):
            raise errors.InterfaceError('a stream is under way on this connection: read it to its end, or close it')
        self._is_busy, self._is_outside = True, False
        limit = self.timeout if timeout is None else timeout
        self._wire.set_limit(limit)
        try:
            if held is not None:
                yield from self._pass_over(True)
                self._wire.set_limit(limit)
            self._source = source if source is not None and source.holds else None
            result = yield from flow
        except GeneratorExit:
            raise
        except BaseException as error:
            yield from self._clear_up(error)
            raise self._last_words(error) from error.__cause__
        self._is_busy = False
        return result

    def _pass_over(self, cancels: bool) -> Flow:
        """Ends what is under way, by a request to cancel where its answers are not there yet."""
        if self._source is not None:
            self._source.is_over, self._source = True, None
        for wanted in () if self._session.is_settled else self._session.settle():
            if cancels:
                cancels = False
                self._wire.set_limit(GRACE)
                yield CANCEL
            yield wanted

    def _clear_up(self, error: BaseException) -> Flow:
        """Brings the connection to where the next call may begin, or closes it: where it is gone, or was broken off while bytes were under way. Which of these
        it is says what was asked, sent and read."""
        cancels, is_held = self._wire.is_waiting, self._source is not None
        is_known = cancels or self._is_outside or isinstance(error, (errors.Error, DecodeError, ProtocolError))
        if self._is_closed or is_over(error) or not (is_known or self._session.is_settled):
            self._end()
        else:
            try:
                self._wire.set_limit(GRACE if cancels or self._is_outside else self.timeout)
                yield from self._pass_over(cancels or (is_held and not getattr(error, 'fields', None)))
            except BaseException as other:
                self._end()
                if not isinstance(other, (errors.Error, ProtocolError)):
                    raise
        self._is_busy = False

    def _end(self) -> None:
        """The connection is closed."""
        self._is_closed = True
        if self._source is not None:
            self._source.is_over, self._source = True, None
        self._wire.close()

    def _pull(self, source: 'Source') -> Flow:
        """The next list of a stream."""
        if source.is_over:
            raise errors.InterfaceError('the stream is over: a commit, a rollback or an error ended it')
        source.is_over = True
        items = yield from source.more()
        source.is_over = not items
        if not items:
            self._source = None
        return items

    def _begin_block(self, owner: object, modes: Sequence[str]) -> Flow:
        """Begins a block of `transaction`: a transaction of these modes, or a savepoint within one."""
        if self._blocks and self._blocks[-1].owner != owner:
            raise errors.ProgrammingError('another thread or task has a block of transaction() open on this connection')
        begin, block = ' '.join(['BEGIN', ', '.join(modes)]).strip(), Block(owner, 'COMMIT', 'ROLLBACK')
        if self.in_transaction:
            if modes:
                raise errors.ProgrammingError('a block within a transaction has its modes')
            self._portals += 1
            name = 'block_%d' % self._portals
            begin, block = 'SAVEPOINT ' + name, Block(owner, 'RELEASE ' + name, 'ROLLBACK TO %s; RELEASE %s' % (name, name))
        yield from self._session.plain(begin)
        self._blocks.append(block)
        return block

    def _end_block(self, block: Block, fails: bool) -> Flow:
        """Ends it, or takes it back; what was begun within it and isn't ended goes with it."""
        if block not in self._blocks:
            return
        has_failed, is_whole = self._core.status == 'E' and not fails, block.end == 'COMMIT'
        del self._blocks[self._blocks.index(block) + 1:]
        if is_whole:
            yield from self._session.finish(block.back if fails else block.end, self._wire.set_limit)
        elif self.in_transaction:
            yield from self._session.plain(block.back if fails or has_failed else block.end)
        self._blocks.pop()
        if has_failed and not is_whole:
            raise errors.InternalError('the block failed before its end: it is rolled back')

    def _no_block(self, what: str) -> None:
        if self._blocks:
            raise errors.ProgrammingError('%s within a block of transaction(), which ends by itself' % what)

    def _finish(self, sql: str) -> Flow:
        """`COMMIT` or `ROLLBACK`."""
        self._no_block(sql)
        yield from self._session.finish(sql, self._wire.set_limit)

    def _roll_back(self) -> Flow:
        """Takes all back behind an exception, and what is left of blocks."""
        self._blocks = []
        yield from self._session.finish('ROLLBACK', self._wire.set_limit)

    def _restore(self, reset: str) -> Flow:
        """Makes the connection as it was at its beginning, for another borrower of a pool."""
        if reset != 'none':
            yield from self._roll_back()
        if reset == 'discard':
            yield from self._session.discard()
        self._session.autocommit, self.timeout, _, self.row_factory, _, _ = self._behaviour
        self.notices.clear()
        self.notifications.clear()

    def _last_words(self, error: BaseException) -> BaseException:
        """The server's own error, where it sent one before the connection broke."""
        try:
            event = self._session.answer() if isinstance(error, errors.Broken) else None
            return errors.of_fields(event.fields) if isinstance(event, events.Failed) else translated(error)
        except errors.Broken:
            return error

    @property
    def notifications(self) -> List[events.Notification]:
        """The notifications that came and no `wait` has returned, in their order."""
        return self._session.notifications

    @notifications.setter
    def notifications(self, value: List[events.Notification]) -> None:
        self._session.notifications = value

    @property
    def notices(self) -> List[events.Notice]:
        """The last notices that came, in their order."""
        return self._session.notices

    def _check_open(self) -> None:
        if self._is_closed or self._process != os.getpid():
            raise errors.InterfaceError('the connection is closed' if self._is_closed else 'the connection is that of the process that forked this one')

    @property
    def closed(self) -> bool:
        """Whether the connection is closed, by this end or the other."""
        return self._is_closed

    @property
    def autocommit(self) -> bool:
        """Whether each statement is a transaction of its own; else the first one opens a transaction. It can't be changed within one."""
        return self._session.autocommit

    @autocommit.setter
    def autocommit(self, value: bool) -> None:
        if value != self._session.autocommit and self.in_transaction:
            raise errors.ProgrammingError('autocommit can not be changed within a transaction: commit it or roll it back first')
        self._session.autocommit = value

    @property
    def in_transaction(self) -> bool:
        """Whether a transaction is open."""
        return self._core.status in ('T', 'E')

    @property
    def is_idle(self) -> bool:
        """Whether no answer is awaited."""
        return self._core.is_idle

    @property
    def process_id(self) -> int:
        """The number of the server's process."""
        return self._core.process_id

    def setting(self, name: str) -> Optional[str]:
        """The value of a setting that the server reports, as `server_version`."""
        return self._core.settings.get(name)


def modes_of(isolation: Optional[str], read_only: bool, deferrable: bool) -> List[str]:
    """The modes of a transaction."""
    if isolation is not None and isolation not in ('serializable', 'repeatable read', 'read committed', 'read uncommitted'):
        raise errors.ProgrammingError('isolation: no level has the name %r' % isolation)
    return ([] if isolation is None else ['ISOLATION LEVEL ' + isolation.upper()]) + ['READ ONLY'] * read_only + ['DEFERRABLE'] * deferrable


def translated(error: BaseException) -> BaseException:
    """The exception of DB-API for one of the machine's own."""
    if isinstance(error, DecodeError):
        return errors.DataError(str(error))
    if isinstance(error, LogInError):
        return errors.OperationalError(str(error))
    if isinstance(error, (ProtocolError, UnicodeEncodeError)):
        return errors.DataError('what is given can not be sent: %s' % error)
    return error


def is_over(error: BaseException) -> bool:
    """Whether an error leaves no session."""
    ended = isinstance(error, errors.Error) and bool(error.fields) and errors.is_end(error.fields, 0)
    return ended or isinstance(error, (errors.Broken, LogInError))


#: No further piece of a copy.
END = object()


def as_chunk(piece: object) -> Optional[bytes]:
    """A piece of a copy as bytes; None is the end."""
    if piece is END:
        return None
    return piece if isinstance(piece, bytes) else bytes(memoryview(piece))  # type: ignore[arg-type]


Attempt = Tuple[Place, Encrypts]


def attempts(options: Options) -> Generator[Attempt, errors.OperationalError, None]:
    """Where to connect to, and whether to encrypt; what failed there is sent in, and raised where nothing else is left to try."""
    error: Optional[errors.OperationalError] = None
    for options.target, place in itertools.product(options.targets, options.places):
        for encrypts in options.ways(place):
            error = yield place, encrypts
            if error.sqlstate != '28000':
                break
        if error is not None and not (isinstance(error, (errors.Broken, errors.Timeout)) or error.sqlstate == '57P03'):
            break
    if error is not None:
        raise error
