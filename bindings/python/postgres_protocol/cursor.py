"""Cursors of the blocking client."""
from typing import TYPE_CHECKING, Any, Iterable, List, Optional, Sequence, Tuple

from .copying import binary_rows
from .errors import InterfaceError, ProgrammingError
from .lookup import columns_of
from .results import Result, Statement, count_of
from .shared import RowFactory, shaped
from .streams import Copied, CopiedRows, Stream

if TYPE_CHECKING:
    from .client import Connection


class Cursor:
    """A cursor: `execute` runs a statement, `fetchone`, `fetchmany`, `fetchall` or iteration give its rows. With a name (`connection.cursor('c')`)
    the server keeps the rows, and they come `itersize` at a time, within a transaction."""

    def __init__(self, connection: 'Connection', name: Optional[str] = None, itersize: int = 1000) -> None:
        self.connection, self.name, self.arraysize, self.itersize = connection, name, 1, itersize
        #: What makes a row of a tuple.
        self.row_factory: Optional[RowFactory] = connection.row_factory
        self._result: Optional[Result] = None
        self._statement: Optional[Statement] = None
        self._at = 0
        self._is_closed = False

    def __enter__(self) -> 'Cursor':
        return self

    def __exit__(self, *what: object) -> None:
        self.close()

    def __iter__(self) -> 'Cursor':
        return self

    def __next__(self) -> Any:
        self._more(1)
        if self._at >= len(self._rows()):
            raise StopIteration
        return self.fetchone()

    @property
    def description(self) -> Optional[List[Tuple[str, int, None, Optional[int], None, None, None]]]:
        """The columns: a name, a type's number and a size each; None where the statement has no rows."""
        if self._result is None or not self._result.fields:
            return None
        return [(f.name, f.type_oid, None, f.type_size if f.type_size > 0 else None, None, None, None) for f in self._result.fields]

    @property
    def rowcount(self) -> int:
        """How many rows the statement gave or changed; -1 where that isn't known."""
        return -1 if self._result is None or self.name is not None else count_of(self._result.tag)

    @property
    def statusmessage(self) -> Optional[str]:
        """The server's tag, as `INSERT 0 5`."""
        return None if self._result is None else self._result.tag

    def _keep(self, result: Result) -> None:
        self._result, self._at = shaped(result, self.row_factory), 0

    def _begin(self) -> None:
        """Nothing is left of the statement before."""
        if self._is_closed:
            raise InterfaceError('the cursor is closed')
        self._end_portal()
        self._result = None

    def _end_portal(self) -> None:
        kept, self._statement = self._statement, None
        if kept is not None and self.name is not None and self.connection._core.status == 'T' and not self.connection.closed:
            self.connection._run(self.connection._session.close_portal(self.name))

    def execute(self, sql: str, parameters: Optional[Sequence[Any]] = None, timeout: Optional[float] = None) -> 'Cursor':
        """Runs a statement with these values for `$1`, `$2`, .. `timeout` is the limit of time of this call, in seconds."""
        self._begin()
        session = self.connection._session
        if self.name is None:
            self._keep(self.connection._run(session.execute(sql, parameters), timeout))
        else:
            self._statement, result = self.connection._run(session.open_portal(self.name, sql, parameters, self.itersize), timeout)
            self._keep(result)
        return self

    def executemany(self, sql: str, rows: Iterable[Sequence[Any]], timeout: Optional[float] = None) -> 'Cursor':
        """Runs a statement for each list of values, without waiting between them."""
        self._begin()
        results: List[Result] = self.connection._run(self.connection._session.execute_many(sql, list(rows)), timeout)
        total = sum(max(count_of(r.tag), 0) for r in results)
        self._keep(Result(results[0].fields if results else [], [row for r in results for row in r.rows], 'TOTAL %d' % total))
        return self

    def copy_in(self, sql: str, chunks: Iterable[bytes], timeout: Optional[float] = None) -> 'Cursor':
        """Sends data to a `COPY .. FROM STDIN`. What the chunks raise ends the copy, and comes back as it is."""
        self._begin()
        self._keep(self.connection._run(self.connection._session.copy_in(sql), timeout, chunks))
        return self

    def copy_out(self, sql: str) -> List[bytes]:
        """The data of a `COPY .. TO STDOUT`, a row each."""
        return list(self.copy_stream(sql))

    def copy_stream(self, sql: str) -> Stream:
        """The same as they come. No other call runs on the connection until they are at their end, or the stream is closed: `with cursor.copy_stream(..) as stream`."""
        self._begin()
        return Stream(self.connection, Copied(self.connection._session, sql))

    def copy_rows_in(self, table: str, rows: Iterable[Sequence[Any]], columns: Sequence[str] = ()) -> 'Cursor':
        """Copies rows of values to a table (`name` or `schema.name`, as SQL has it) in the binary format: to all columns that aren't generated, or to those of these names."""
        self._begin()
        sql, types = self.connection._run(columns_of(self.connection._session, table, columns))
        return self.copy_in(sql, binary_rows(rows, types))

    def copy_rows_out(self, query: str) -> Stream:
        """Rows of values of a query, copied in the binary format, as they come."""
        self._begin()
        return Stream(self.connection, CopiedRows(self.connection._session, query, self.row_factory))

    def _rows(self) -> List[Any]:
        if self._is_closed:
            raise InterfaceError('the cursor is closed')
        if self._result is None or not (self._result.fields or self._result.rows):
            raise ProgrammingError('no statement was executed that has rows')
        return self._result.rows

    def _more(self, count: int) -> None:
        """Fetches the next rows of a portal, where so many are not there."""
        rows = self._rows()
        while self._result is not None and self._result.has_more and self.name is not None and self._statement is not None and len(rows) - self._at < count:
            size = max(self.itersize, count - len(rows) + self._at)
            result = self.connection._run(self.connection._session.fetch(self.name, self._statement, size))
            result = shaped(result, self.row_factory)
            rows = rows[self._at:] + result.rows
            self._result, self._at = result._replace(rows=rows), 0

    def fetchone(self) -> Any:
        """The next row, or None."""
        self._more(1)
        rows = self._rows()
        self._at += 1
        return rows[self._at - 1] if self._at <= len(rows) else None

    def fetchmany(self, size: Optional[int] = None) -> List[Any]:
        """The next rows, `arraysize` of them unless another number is given."""
        count = self.arraysize if size is None else size
        if count < 0:
            raise ProgrammingError('fetchmany: a number of rows is expected, not %d' % count)
        self._more(count)
        self._at += count
        return self._rows()[self._at - count:self._at]

    def fetchall(self) -> List[Any]:
        """The rows that are left."""
        self._more(2 ** 31 - 1)
        rows, at = self._rows(), self._at
        self._at = max(len(rows), at)
        return rows[at:]

    def close(self) -> None:
        """Ends the cursor."""
        if not self._is_closed:
            self._end_portal()
        self._is_closed = True

    def setinputsizes(self, sizes: object) -> None:
        """Does nothing: the server knows the parameters' types."""

    def setoutputsize(self, size: object, column: object = None) -> None:
        """Does nothing: no value is cut."""

