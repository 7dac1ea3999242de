"""What comes in parts: the data of a copy, its rows, and the rows of a portal, for the blocking client and the one for asyncio."""
import weakref
from typing import TYPE_CHECKING, Any, AsyncIterator, Iterator, Optional, Sequence

from . import events
from .copying import BinaryReader
from .errors import Error
from .lookup import known_types
from .results import Result, Statement
from .session import READ, Flow, Session
from .shared import RowFactory, shaped

if TYPE_CHECKING:
    from . import aio, client


class Source:
    """What `more` gives, a list at a time, and none at the end; `end` is for what is ended early. Where it `holds` the connection no other call runs meanwhile;
    once nobody has its stream any more (`is_dropped`) the next call ends it."""
    holds = True

    def __init__(self, session: Session) -> None:
        self.session, self.is_over = session, False
        self.owner: Optional['weakref.ref[Any]'] = None

    @property
    def is_dropped(self) -> bool:
        """Whether nobody has its stream any more."""
        return self.owner is not None and self.owner() is None

    def more(self) -> Flow:
        raise NotImplementedError

    def end(self) -> Flow:
        yield from ()


class Copied(Source):
    """The data of a `COPY .. TO STDOUT`."""

    def __init__(self, session: Session, sql: str) -> None:
        super().__init__(session)
        self._sql, self._number = sql, 0
        self._late: Optional[events.Event] = None

    def more(self) -> Flow:
        if not self._number:
            self._number = yield from self.session.copy(self._sql, 'CopyOutResponse')
        found = []
        while True:
            event, self._late = self._late or self.session.answer(), None
            if isinstance(event, events.CopyBytes):
                found.append(event.data)
            elif found:
                self._late = event
                return found
            elif event is None:
                yield READ
            elif self.session.is_end(event, self._number):
                return found


class CopiedRows(Copied):
    """Rows of values of a query, copied in the binary format."""

    def __init__(self, session: Session, query: str, factory: Optional[RowFactory]) -> None:
        super().__init__(session, 'COPY (%s) TO STDOUT (FORMAT binary)' % query)
        self._query, self._factory = query, factory
        self._statement: Optional[Statement] = None

    def more(self) -> Flow:
        if self._statement is None:
            self._statement = yield from self.session.describe(self._query)
            known_types(self.session, self._statement)
            self._reader = BinaryReader(self._statement.decoders)
        while True:
            pieces = yield from super().more()
            rows = self._reader.rows(pieces)
            if rows or not pieces:
                return shaped(Result(self._statement.fields, rows, ''), self._factory).rows


class Parts(Source):
    """The rows of a portal, so many at a time, within a transaction."""
    holds = False

    def __init__(self, session: Session, portal: str, sql: str, values: Optional[Sequence[Any]], size: int, factory: Optional[RowFactory]) -> None:
        super().__init__(session)
        self._asked, self._factory = (portal, sql, values, size), factory
        self._statement: Optional[Statement] = None
        self._has_more = False

    def more(self) -> Flow:
        portal, _, _, size = self._asked
        result = Result([], [], '')
        if self._statement is None:
            self._statement, result = yield from self.session.open_portal(*self._asked)
        elif self._has_more:
            result = yield from self.session.fetch(portal, self._statement, size)
        self._has_more = result.has_more
        if not result.rows:
            yield from self.end()
        return shaped(result, self._factory).rows

    def end(self) -> Flow:
        if self._statement is not None and self.session.connection.status == 'T':
            yield from self.session.close_portal(self._asked[0])


class Stream(Iterator[Any]):
    """An iterator over what comes, which is a context manager: at its end, or by `close`, what is left is given up (`with cursor.copy_stream(..) as stream`).
    Else `commit`, `rollback` or the end of a block give it up."""

    def __init__(self, connection: 'client.Connection', source: Source) -> None:
        self._connection, self._source, self._items = connection, source, iter(())  # type: client.Connection, Source, Iterator[Any]
        source.owner = weakref.ref(self)
        self._is_done = False

    def __next__(self) -> Any:
        while True:
            for item in self._items:
                return item
            items = [] if self._is_done else self._connection._more(self._source)
            if not items:
                self._is_done = True
                raise StopIteration
            self._items = iter(items)

    def __enter__(self) -> 'Stream':
        return self

    def __exit__(self, kind: Any, error: Any, trace: Any) -> None:
        try:
            self.close()
        except Error:
            if kind is None:
                raise

    def close(self) -> None:
        """Ends it; what isn't read is given up."""
        self._items, self._is_done = iter(()), True
        self._connection._give_up(self._source)


class AsyncStream(AsyncIterator[Any]):
    """The same for asyncio: `async with connection.copy_stream(..) as stream`, or `aclose`."""

    def __init__(self, connection: 'aio.Connection', source: Source) -> None:
        self._connection, self._source, self._items = connection, source, iter(())  # type: aio.Connection, Source, Iterator[Any]
        source.owner = weakref.ref(self, lambda _: connection._dropped(source))
        self._is_done = False

    async def __anext__(self) -> Any:
        while True:
            for item in self._items:
                return item
            items = [] if self._is_done else await self._connection._more(self._source)
            if not items:
                self._is_done = True
                raise StopAsyncIteration
            self._items = iter(items)

    async def __aenter__(self) -> 'AsyncStream':
        return self

    async def __aexit__(self, kind: Any, error: Any, trace: Any) -> None:
        try:
            await self.aclose()
        except Error:
            if kind is None:
                raise

    async def aclose(self) -> None:
        """Ends it; what isn't read is given up."""
        self._items, self._is_done = iter(()), True
        await self._connection._give_up(self._source)
