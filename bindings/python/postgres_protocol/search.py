"""Texts to be searched (tsvector) and what they are searched for (tsquery), in the binary format."""
from ctypes import POINTER, Structure, byref, c_bool, c_size_t, c_uint8, c_uint16, c_void_p
from typing import Any, List, NamedTuple, Sequence, Tuple, Union

from ._library import OK, OUT, TEXT, Bytes, Cursor, Part, ProtocolError, as_bytes, as_integer, declare, items, part_of, step, text, written

#: The weights, from the least; the operators, in the order of their numbers in C, from 1.
_WEIGHTS, _OPERATORS = 'DCBA', ('!', '&', '|', '<->')


class Position(NamedTuple):
    """Where a lexeme stands, from 1 to 16,383, and its weight, 'A' to 'D'."""
    number: int
    weight: str = 'D'


class Lexeme(NamedTuple):
    """A lexeme of a `tsvector`."""
    text: str
    positions: Tuple[Position, ...] = ()


class Operand(NamedTuple):
    """An operand of a `tsquery`: the weights that a lexeme may have, as 'AB', '' for any, and whether it need only begin with the text."""
    text: str
    weights: str = ''
    is_prefix: bool = False


class Operator(NamedTuple):
    """An operator of a `tsquery`, '!', '&', '|' or '<->', which stands before its operands, the right one first; of '<->' how far they are apart."""
    name: str
    distance: int = 0


QueryItem = Union[Operand, Operator]


class _Lexeme(Structure):
    _fields_ = [('text', Part), ('positions', Cursor)]


class _Word(Structure):
    _fields_ = [('text', c_void_p), ('text_len', c_size_t), ('positions', POINTER(c_uint16)), ('positions_len', c_size_t)]


class _Item(Structure):
    _fields_ = [('text', Part), ('distance', c_uint16), ('kind', c_uint8), ('weights', c_uint8), ('is_prefix', c_bool)]


class _Node(Structure):
    _fields_ = [('text', c_void_p), ('text_len', c_size_t), ('distance', c_uint16), ('kind', c_uint8), ('weights', c_uint8), ('is_prefix', c_bool)]


_get_tsvector, _get_tsquery = (declare('get_' + name, *TEXT, POINTER(Cursor)) for name in ('tsvector', 'tsquery'))
_put_tsvector, _put_tsquery = declare('put_tsvector', POINTER(_Word), c_size_t, *OUT), declare('put_tsquery', POINTER(_Node), c_size_t, *OUT)
_lexeme_next, _position_next, _item_next = step('lexeme', _Lexeme), step('position', c_uint16), step('query_item', _Item)


def _begin(call: Any, data: bytes) -> Cursor:
    cursor = Cursor()
    status = call(*text(data), byref(cursor))
    if status != OK:
        raise ProtocolError(status)
    return cursor


def get_tsvector(data: Bytes) -> List[Lexeme]:
    """The lexemes of a `tsvector`."""
    kept, lexeme, place = as_bytes(data, 'data'), _Lexeme(), c_uint16()
    return [Lexeme(part_of(kept, lexeme.text).decode(), tuple(Position(place.value & 0x3fff, _WEIGHTS[place.value >> 14]) for _ in items(_position_next, kept, lexeme.positions, place)))
            for _ in items(_lexeme_next, kept, _begin(_get_tsvector, kept), lexeme)]


def put_tsvector(lexemes: Sequence[Lexeme]) -> bytes:
    """A `tsvector` of these lexemes, as they come: a server wants them in order, each once, and the positions of each too."""
    texts = [lexeme.text.encode() for lexeme in lexemes]
    places = [(c_uint16 * len(lexeme.positions))(*(as_integer(p.number, 'position', 0, 0x3fff) | _WEIGHTS.index(p.weight) << 14 for p in lexeme.positions)) for lexeme in lexemes]
    words = (_Word * len(texts))(*(_Word(*text(z), p, len(p)) for z, p in zip(texts, places)))
    return written(lambda *out: _put_tsvector(words, len(words), *out))


def get_tsquery(data: Bytes) -> List[QueryItem]:
    """The items of a `tsquery`, each operator before its operands."""
    kept, item = as_bytes(data, 'data'), _Item()
    return [Operator(_OPERATORS[item.kind - 1], item.distance) if item.kind
            else Operand(part_of(kept, item.text).decode(), ''.join(w for w in 'ABCD' if item.weights >> _WEIGHTS.index(w) & 1), item.is_prefix)
            for _ in items(_item_next, kept, _begin(_get_tsquery, kept), item)]


def put_tsquery(query: Sequence[QueryItem]) -> bytes:
    """A `tsquery` of these items, as they come: a server wants the operands of each operator after it."""
    texts = [item.text.encode() if isinstance(item, Operand) else b'' for item in query]
    nodes = (_Node * len(texts))(*(_node(item, z) for item, z in zip(query, texts)))
    return written(lambda *out: _put_tsquery(nodes, len(nodes), *out))


def _node(item: QueryItem, kept: bytes) -> _Node:
    if isinstance(item, Operand):
        return _Node(*text(kept), 0, 0, sum(1 << _WEIGHTS.index(w) for w in set(item.weights)), item.is_prefix)
    return _Node(None, 0, as_integer(item.distance, 'distance', 0, 0xffff), 1 + _OPERATORS.index(item.name), 0, False)
