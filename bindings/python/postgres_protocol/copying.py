"""Rows of a COPY: as lines of text, and in the binary format."""
from typing import Any, Iterable, Iterator, List, Sequence, Tuple

from . import _rows
from .errors import DataError
from .registry import Decoder, Type, apply

_SIGNATURE = b'PGCOPY\n\xff\r\n\0'


def first_word(sql: str) -> str:
    """The first word of a statement, in capitals, behind white space, empty statements and comments (which nest)."""
    at, depth = 0, 0
    while at < len(sql):
        two = sql[at:at + 2]
        if two == '/*':
            depth, at = depth + 1, at + 2
        elif two == '*/' and depth:
            depth, at = depth - 1, at + 2
        elif two == '--' and not depth:
            at = sql.find('\n', at) % (len(sql) + 1)
        elif depth or sql[at].isspace() or sql[at] == ';':
            at += 1
        else:
            break
    end = at
    while end < len(sql) and sql[end].isalpha():
        end += 1
    return sql[at:end].upper()


def binary_rows(rows: Iterable[Sequence[Any]], types: Sequence[Type]) -> Iterator[bytes]:
    """Rows in the binary format, by the types of their columns."""
    yield _SIGNATURE + bytes(8)
    count = len(types).to_bytes(2, 'big')
    for row in rows:
        if len(row) != len(types):
            raise ValueError('a row has %d values, and there are %d columns' % (len(row), len(types)))
        parts = [count]
        for kept, value in zip(types, row):
            data = None if value is None else kept.encode(value)
            parts += [b'\xff\xff\xff\xff'] if data is None else [len(data).to_bytes(4, 'big'), data]
        yield b''.join(parts)
    yield b'\xff\xff'


class BinaryReader:
    """Reads rows in the binary format from pieces of any size."""

    def __init__(self, decoders: Sequence[Decoder]) -> None:
        self._decoders, self._data, self._is_begun = tuple(decoders), b'', False

    def rows(self, pieces: Sequence[bytes]) -> List[Tuple[Any, ...]]:
        """The rows that are whole with these pieces. Where each piece is a row, which has the form of a DataRow's body, one call of the library reads them all."""
        if self._is_begun and not self._data:
            frames = b''.join(b'D%b%b' % ((len(piece) + 4).to_bytes(4, 'big'), piece) for piece in pieces if piece != b'\xff\xff')
            try:
                found, at = _rows.rows(frames, self._decoders)
                if at == len(frames):
                    return found
            except (ValueError, OverflowError):
                pass  # (what is wrong is found below)
        return [row for piece in pieces for row in self.take(piece)]

    def take(self, piece: bytes) -> Iterator[Tuple[Any, ...]]:
        """The rows that are whole with this piece."""
        self._data += piece
        at = 0
        if not self._is_begun:
            if len(self._data) < 19:
                return
            if self._data[:11] != _SIGNATURE:
                raise DataError('the data of the copy are not in the binary format')
            at, self._is_begun = 19 + int.from_bytes(self._data[15:19], 'big'), True
        while True:
            try:
                found = self._row(at)
            except (ValueError, OverflowError) as error:
                raise DataError('a value in the rows of the copy: %s' % error) from error
            if found is None:
                break
            at = found[0]
            yield found[1]
        self._data = self._data[at:]

    def _row(self, at: int) -> Any:
        """The row at a place, and the place behind it; None where it isn't whole, or the rows are at their end."""
        data = self._data
        if len(data) < at + 2 or data[at:at + 2] == b'\xff\xff':
            return None
        if int.from_bytes(data[at:at + 2], 'big') != len(self._decoders):
            raise DataError('a row has another number of values than columns')
        row, at = [], at + 2
        for decoder in self._decoders:
            size, at = int.from_bytes(data[at:at + 4], 'big', signed=True), at + 4
            if len(data) < at + max(size, 0):
                return None
            row.append(None if size < 0 else apply(decoder, data[at:at + size]))
            at += max(size, 0)
        return at, tuple(row)
