"""Values as Python's, by the numbers of their types (OIDs): what a result's column becomes, and what a parameter is sent as.

A `Registry` knows the server's own types; `Registry.add` takes further ones, as those of an extension, by the OID that the server gives them.
"""
import json
import uuid
from datetime import date, datetime, time, timedelta, timezone
from decimal import Decimal
from functools import partial
from ipaddress import IPv4Interface, IPv6Interface, ip_interface
from typing import Any, Callable, Dict, List, NamedTuple, Optional, Sequence, Tuple, Union

from . import _rows
from ._library import ProtocolError
from .reading import KINDS, Message
from .search import get_tsquery, get_tsvector, put_tsquery, put_tsvector
from .shapes import (get_box, get_circle, get_label, get_line, get_lseg, get_macaddr8, get_multirange, get_path, get_point, get_polygon, get_record, get_snapshot, get_tid,
                     put_box, put_circle, put_cidr, put_label, put_line, put_lseg, put_macaddr8, put_multirange, put_path, put_point, put_polygon, put_record, put_snapshot,
                     put_tid)
from .values import (Array, Interval, Range, get, get_array, get_inet, get_interval, get_jsonb, get_macaddr, get_numeric, get_range, get_timetz, get_varbit, put,
                     put_array, put_inet, put_interval, put_jsonb, put_macaddr, put_numeric, put_range, put_timetz, put_uuid, put_varbit)

__all__ = ['DECODERS', 'Decoder', 'INFINITY', 'NEGATIVE_INFINITY', 'Registry', 'Type', 'apply', 'array_decoder', 'array_encoder', 'composite_type',
           'label_type', 'range_decoder', 'range_encoder']

#: What makes a value of a column's bytes: the number of a decoder in C (`DECODERS`), or a function.
Decoder = Union[int, Callable[[bytes], Any]]

#: The decoders in C, by name.
DECODERS = {name: number for number, name in enumerate(
    ('bytes', 'text', 'bool', 'int2', 'int4', 'int8', 'oid', 'float4', 'float8', 'timestamp', 'timestamptz', 'date'))}


class _Infinity:
    """A date or a time before or after all others."""

    def __init__(self, sign: int) -> None:
        self.sign = sign

    def __repr__(self) -> str:
        return 'INFINITY' if self.sign > 0 else 'NEGATIVE_INFINITY'


#: `infinity` and `-infinity` of `date`, `timestamp` and `timestamptz`; since PostgreSQL 17 also of `interval`.
INFINITY, NEGATIVE_INFINITY = _Infinity(1), _Infinity(-1)
_EPOCH, _EPOCH_UTC, _EPOCH_DATE = datetime(2000, 1, 1), datetime(2000, 1, 1, tzinfo=timezone.utc), date(2000, 1, 1)
_MICROSECOND, _DAY = timedelta(microseconds=1), timedelta(days=1)
_rows.setup(ProtocolError, timedelta, _EPOCH, _EPOCH_UTC, _EPOCH_DATE, NEGATIVE_INFINITY, INFINITY, KINDS, Message)


#: What a server reads as Python shows it.
_SHOWN = (int, float, Decimal, uuid.UUID, date, time, IPv4Interface, IPv6Interface)


class Type(NamedTuple):
    """A type: its name, how a column of it is decoded, and how a parameter is encoded, both in the binary format unless `is_text`."""
    oid: int
    name: str
    decode: Decoder
    encode: Callable[[Any], bytes]
    is_text: bool = False


def apply(decoder: Decoder, data: bytes) -> Any:
    """The value of these bytes."""
    return _FIXED[decoder](data) if isinstance(decoder, int) else decoder(data)


def _one(number: int) -> Callable[[bytes], Any]:
    """A decoder in C, called for one value: that of a row of one column."""
    def decode(data: bytes) -> Any:
        row = b'D' + (10 + len(data)).to_bytes(4, 'big') + b'\0\1' + len(data).to_bytes(4, 'big') + data
        return _rows.rows(row, (number,))[0][0][0]
    return decode


_FIXED = {number: _one(number) for number in DECODERS.values()}


def _count(value: Any, start: Any, unit: timedelta, name: str) -> bytes:
    """A date or a time as so many units after a start."""
    if isinstance(value, _Infinity):
        bits = 31 if name == 'date' else 63
        return put(name, 2 ** bits - 1 if value.sign > 0 else -2 ** bits)
    return put(name, (value - start) // unit)


def _timestamptz(value: Any) -> bytes:
    if isinstance(value, datetime) and value.tzinfo is None:
        raise TypeError('timestamptz: a datetime with a zone is expected')
    return _count(value, _EPOCH_UTC, _MICROSECOND, 'timestamp')


def _microseconds(value: time, has_zone: bool) -> int:
    if not isinstance(value, time) or (value.tzinfo is not None) != has_zone:
        raise TypeError('a time %s a zone is expected' % ('with' if has_zone else 'without'))
    return ((value.hour * 60 + value.minute) * 60 + value.second) * 1000000 + value.microsecond


def _time(count: int, zone: Optional[timezone] = None) -> time:
    """The time of a day; 24:00 is no time of Python's, and becomes the last microsecond."""
    moment = datetime(2000, 1, 1) + timedelta(microseconds=min(count, 86400000000 - 1))
    return moment.time().replace(tzinfo=zone)


def _get_timetz(data: bytes) -> time:
    count, west = get_timetz(data)
    return _time(count, timezone(timedelta(seconds=-west)))


def _put_timetz(value: time) -> bytes:
    count, offset = _microseconds(value, True), value.utcoffset()
    if offset is None or offset % timedelta(seconds=1):
        raise TypeError('timetz: a zone of whole seconds is expected')
    return put_timetz(count, -(offset // timedelta(seconds=1)))


#: The spans that stand for the two infinities.
_LONGEST, _SHORTEST = Interval(2 ** 31 - 1, 2 ** 31 - 1, 2 ** 63 - 1), Interval(-2 ** 31, -2 ** 31, -2 ** 63)


def _get_interval(data: bytes) -> Union[Interval, _Infinity]:
    value = get_interval(data)
    return INFINITY if value == _LONGEST else NEGATIVE_INFINITY if value == _SHORTEST else value


def _put_interval(value: Union[Interval, timedelta, _Infinity]) -> bytes:
    if isinstance(value, _Infinity):
        value = _LONGEST if value.sign > 0 else _SHORTEST
    if isinstance(value, timedelta):
        value = Interval(0, value.days, value.seconds * 1000000 + value.microseconds)
    return put_interval(value)


def _get_interface(data: bytes) -> Union[IPv4Interface, IPv6Interface]:
    address, bits = get_inet(data)
    return ip_interface('%s/%d' % (address, bits))


def _put_interface(value: Any) -> bytes:
    kept = ip_interface(str(value))
    if '%' in str(value):
        raise ValueError('an inet has no zone')
    return put_inet(kept.ip, kept.network.prefixlen)


def _put_uuid(value: Union[uuid.UUID, str]) -> bytes:
    return put_uuid((value if isinstance(value, uuid.UUID) else uuid.UUID(value)).bytes)


def _get_macaddr(data: bytes) -> str:
    return get_macaddr(data).hex(':')


def _put_macaddr(value: str) -> bytes:
    return put_macaddr(bytes.fromhex(value.replace(':', '')))


def _get_macaddr8(data: bytes) -> str:
    return get_macaddr8(data).hex(':')


def _put_macaddr8(value: str) -> bytes:
    return put_macaddr8(bytes.fromhex(value.replace(':', '')))


def _get_bits(data: bytes) -> str:
    count, kept = get_varbit(data)
    return ''.join('%08d' % int(bin(byte)[2:]) for byte in kept)[:count]


def _put_bits(value: str) -> bytes:
    if not isinstance(value, str) or value.strip('01'):
        raise TypeError('a str of 0 and 1 is expected')
    padded = value + '0' * (-len(value) % 8)
    return put_varbit(len(value), bytes(int(padded[i:i + 8], 2) for i in range(0, len(padded), 8)))


def _text(value: Any) -> bytes:
    """A text. Of a parameter whose type the server doesn't know it takes `text`: so numbers, times and the like are sent as the server's texts of them."""
    if isinstance(value, str):
        return str.encode(value, errors='surrogateescape')
    if isinstance(value, bool):
        return b'true' if value else b'false'
    if not isinstance(value, _SHOWN):
        raise TypeError('a str is expected, not %s' % type(value).__name__)
    return (int.__repr__(value) if isinstance(value, int) else str(value)).encode()


def _bytes(value: Any) -> bytes:
    return bytes(memoryview(value))


def _json(value: Any) -> bytes:
    return json.dumps(value).encode()


def _putter(name: str) -> Callable[[Any], bytes]:
    return partial(_rows.put, DECODERS.get(name, -1), lambda value: put(name, value))


def _nested(values: Sequence[Any], lengths: Sequence[int]) -> List[Any]:
    """The elements row by row as lists in lists."""
    if len(lengths) < 2:
        return list(values)
    size = len(values) // lengths[0]
    return [_nested(values[i * size:(i + 1) * size], lengths[1:]) for i in range(lengths[0])]


def array_decoder(element: Decoder) -> Callable[[bytes], List[Any]]:
    """What makes a list of an array, or lists in a list where it has more dimensions; the indices' lower bounds are dropped."""
    def decode(data: bytes) -> List[Any]:
        array: Array = get_array(data)
        return _nested([None if v is None else apply(element, v) for v in array.elements], [n for n, _ in array.dimensions])
    return decode


def range_decoder(bound: Decoder) -> Callable[[bytes], Range]:
    """What makes a Range with values as its bounds."""
    def decode(data: bytes) -> Range:
        kept = get_range(data)
        sides = [None if side is None else (side[0], None if side[1] is None else apply(bound, side[1])) for side in kept]
        return Range(*sides)
    return decode


def range_encoder(bound: Callable[[Any], bytes]) -> Callable[[Range], bytes]:
    """What writes a Range whose bounds are values."""
    def encode(value: Range) -> bytes:
        sides = [None if side is None else (side[0], None if side[1] is None else bound(side[1])) for side in value]
        return put_range(*sides)
    return encode


def _is_no_list(value: Any) -> bool:
    """Whether it is an element: of most types no value is a list."""
    return not isinstance(value, list)


def _is_of_tuples(value: Any) -> bool:
    """The same of types whose values are lists of tuples, as polygons, multiranges and tsvectors; an empty list is a value."""
    return not isinstance(value, list) or not value or isinstance(value[0], tuple)


def _is_of_numbers(value: Any) -> bool:
    """The same of int2vector and oidvector."""
    return not isinstance(value, list) or all(isinstance(part, int) for part in value)


#: The types whose values are lists. (Those of JSON may be, but in its arrays a list is a dimension.)
_LISTS = {22: _is_of_numbers, 30: _is_of_numbers, **{oid: _is_of_tuples for oid in (604, 3614, 3615)}}


def _flat(value: Sequence[Any], is_element: Callable[[Any], bool]) -> Tuple[List[int], List[Any]]:
    """The lengths of lists in lists, and the elements row by row."""
    if not value or is_element(value[0]):
        return [len(value)], list(value)
    parts = [_flat(part, is_element) for part in value]
    if any(lengths != parts[0][0] for lengths, _ in parts):
        raise ValueError('the lists in an array have different lengths')
    return [len(value), *parts[0][0]], [element for _, elements in parts for element in elements]


def array_encoder(oid: int, element: Callable[[Any], bytes], is_element: Callable[[Any], bool] = _is_no_list) -> Callable[[Sequence[Any]], bytes]:
    """What writes an array of a list, or of lists in a list. A tuple is an element, as a point or a range, and what else `is_element` says."""
    def encode(value: Sequence[Any]) -> bytes:
        if not isinstance(value, (list, tuple)):
            raise TypeError('a list is expected, not %s' % type(value).__name__)
        lengths, elements = _flat(value, is_element)
        dimensions = [(n, 1) for n in lengths] if elements else []
        return put_array(oid, [None if part is None else element(part) for part in elements], dimensions)
    return encode


def _vector_encoder(oid: int, element: Callable[[Any], bytes]) -> Callable[[Sequence[int]], bytes]:
    """What writes an int2vector or an oidvector, an array of one dimension, from 0, also where it has no elements."""
    return lambda value: put_array(oid, [element(part) for part in value], [(len(value), 0)])


_D = DECODERS
#: The server's own types: number, that of its arrays, name, decoder, encoder, and whether they are text on the wire.
_PLAIN: Sequence[Tuple[int, int, str, Decoder, Callable[[Any], bytes], bool]] = (
    (16, 1000, 'bool', _D['bool'], _putter('bool'), False),
    (17, 1001, 'bytea', _D['bytes'], _bytes, False),
    (18, 1002, 'char', _D['text'], _text, False),
    (19, 1003, 'name', _D['text'], _text, False),
    (20, 1016, 'int8', _D['int8'], _putter('int8'), False),
    (21, 1005, 'int2', _D['int2'], _putter('int2'), False),
    (22, 1006, 'int2vector', array_decoder(_D['int2']), _vector_encoder(21, _putter('int2')), False),
    (23, 1007, 'int4', _D['int4'], _putter('int4'), False),
    (25, 1009, 'text', _D['text'], _text, False),
    (26, 1028, 'oid', _D['oid'], _putter('oid'), False),
    (30, 1013, 'oidvector', array_decoder(_D['oid']), _vector_encoder(26, _putter('oid')), False),
    (114, 199, 'json', lambda data: json.loads(data), _json, False),
    (142, 143, 'xml', _D['text'], _text, False),
    (700, 1021, 'float4', _D['float4'], _putter('float4'), False),
    (701, 1022, 'float8', _D['float8'], _putter('float8'), False),
    (790, 791, 'money', _D['int8'], _putter('int8'), False),
    (829, 1040, 'macaddr', _get_macaddr, _put_macaddr, False),
    (869, 1041, 'inet', _get_interface, _put_interface, False),
    (650, 651, 'cidr', _get_interface, put_cidr, False),
    (774, 775, 'macaddr8', _get_macaddr8, _put_macaddr8, False),
    (27, 1010, 'tid', get_tid, put_tid, False),
    (600, 1017, 'point', get_point, put_point, False),
    (601, 1018, 'lseg', get_lseg, put_lseg, False),
    (602, 1019, 'path', get_path, put_path, False),
    (603, 1020, 'box', get_box, put_box, False),
    (604, 1027, 'polygon', get_polygon, put_polygon, False),
    (628, 629, 'line', get_line, put_line, False),
    (718, 719, 'circle', get_circle, put_circle, False),
    (1042, 1014, 'bpchar', _D['text'], _text, False),
    (1043, 1015, 'varchar', _D['text'], _text, False),
    (1082, 1182, 'date', _D['date'], lambda value: _count(value, _EPOCH_DATE, _DAY, 'date'), False),
    (1083, 1183, 'time', lambda data: _time(get('time', data)), lambda value: put('time', _microseconds(value, False)), False),
    (1114, 1115, 'timestamp', _D['timestamp'], lambda value: _count(value, _EPOCH, _MICROSECOND, 'timestamp'), False),
    (1184, 1185, 'timestamptz', _D['timestamptz'], _timestamptz, False),
    (1186, 1187, 'interval', _get_interval, _put_interval, False),
    (1266, 1270, 'timetz', _get_timetz, _put_timetz, False),
    (1560, 1561, 'bit', _get_bits, _put_bits, False),
    (1562, 1563, 'varbit', _get_bits, _put_bits, False),
    (1700, 1231, 'numeric', get_numeric, put_numeric, False),
    (2950, 2951, 'uuid', lambda data: uuid.UUID(bytes=data), _put_uuid, False),
    (3614, 3643, 'tsvector', get_tsvector, put_tsvector, False),
    (3615, 3645, 'tsquery', get_tsquery, put_tsquery, False),
    (3220, 3221, 'pg_lsn', lambda data: get('lsn', data), _putter('lsn'), False),
    (2970, 2949, 'txid_snapshot', get_snapshot, put_snapshot, False),
    (5038, 5039, 'pg_snapshot', get_snapshot, put_snapshot, False),
    (3802, 3807, 'jsonb', lambda data: json.loads(get_jsonb(data)), lambda value: put_jsonb(json.dumps(value)), False),
    (4072, 4073, 'jsonpath', get_jsonb, put_jsonb, False),
    (5069, 271, 'xid8', lambda data: get('lsn', data), _putter('lsn'), False),
    (6437, 6442, 'oid8', lambda data: get('lsn', data), _putter('lsn'), False),
)
#: The server's own ranges: number, that of its arrays, name, and that of the bounds.
_RANGES = ((3904, 3905, 'int4range', 23), (3906, 3907, 'numrange', 1700), (3908, 3909, 'tsrange', 1114), (3910, 3911, 'tstzrange', 1184),
           (3912, 3913, 'daterange', 1082), (3926, 3927, 'int8range', 20))
#: Their multiranges: number, that of its arrays, name, and that of the ranges.
_MULTIRANGES = ((4451, 6150, 'int4multirange', 3904), (4532, 6151, 'nummultirange', 3906), (4533, 6152, 'tsmultirange', 3908), (4534, 6153, 'tstzmultirange', 3910),
                (4535, 6155, 'datemultirange', 3912), (4536, 6157, 'int8multirange', 3926))
_LISTS.update((oid, _is_of_tuples) for oid, _, _, _ in _MULTIRANGES)


def label_type(name: str, oid: int) -> Type:
    """The type of the module ltree of this name, 'ltree', 'lquery' or 'ltxtquery', which has the number that the server gave it."""
    return Type(oid, name, lambda data: get_label(name, data), lambda value: put_label(name, value))


def composite_type(name: str, oid: int, fields: Sequence[Type]) -> Type:
    """A composite type, whose values are tuples: its number, which the server gave it, and the types of its fields, in order. A null is None."""
    kept = tuple(fields)
    if any(field.is_text for field in kept):
        raise ValueError('%s: a field has a type whose binary format is not known' % name)

    def decode(data: bytes) -> Tuple[Any, ...]:
        found = get_record(data)
        if [number for number, _ in found] != [field.oid for field in kept]:
            raise ValueError('%s: the server sent other fields' % name)
        return tuple(None if part is None else apply(field.decode, part) for field, (_, part) in zip(kept, found))

    def encode(value: Tuple[Any, ...]) -> bytes:
        if not isinstance(value, tuple):
            raise TypeError('%s: a tuple is expected, not %s' % (name, type(value).__name__))
        if len(value) != len(kept):
            raise ValueError('%s: %d fields are expected, not %d' % (name, len(kept), len(value)))
        return put_record([(field.oid, None if part is None else field.encode(part)) for field, part in zip(kept, value)])
    return Type(oid, name, decode, encode)


class Registry:
    """The types that a connection decodes and encodes. A type that isn't known is text both ways."""

    def __init__(self) -> None:
        self._types: Dict[int, Type] = {}
        for oid, array, name, decode, encode, is_text in _PLAIN:
            self.add(Type(oid, name, decode, encode, is_text), array)
        for oid, array, name, bound in _RANGES:
            kept = self._types[bound]
            self.add(Type(oid, name, range_decoder(kept.decode), range_encoder(kept.encode)), array)
        for oid, array, name, inner in _MULTIRANGES:
            self.add(self._multirange(oid, name, self._types[inner]), array)
        self.add(Type(2249, 'record', self._record, _no_record), 2287)

    @staticmethod
    def _multirange(oid: int, name: str, kept: Type) -> Type:
        return Type(oid, name, lambda data: [apply(kept.decode, r) for r in get_multirange(data)], lambda value: put_multirange([kept.encode(r) for r in value]))

    def _record(self, data: bytes) -> Tuple[Any, ...]:
        """The fields of a record, each by its type; those of a type that isn't known are bytes."""
        fields = [(self._types.get(oid), value) for oid, value in get_record(data)]
        return tuple(value if value is None or kept is None or kept.is_text else apply(kept.decode, value) for kept, value in fields)

    def add(self, kept: Type, array_oid: int = 0) -> None:
        """Adds a type, and its arrays where their number is given. What was known under these numbers is replaced."""
        self._types[kept.oid] = kept
        if array_oid and not kept.is_text:
            name = kept.name + '[]'
            is_element = _LISTS.get(kept.oid, _is_no_list)
            self._types[array_oid] = Type(array_oid, name, array_decoder(kept.decode), array_encoder(kept.oid, kept.encode, is_element))

    def get(self, oid: int) -> Type:
        """The type of this number."""
        return self._types.get(oid) or Type(oid, '', DECODERS['text'], _unknown, True)


def _no_record(value: Any) -> bytes:
    raise TypeError('record: a server takes no parameter of this type')


def _unknown(value: Any) -> bytes:
    """A parameter of a type that isn't known, as text."""
    return value if isinstance(value, bytes) else _text(value)
