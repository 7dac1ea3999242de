"""Values in the binary format: numbers, times, addresses, bits, ranges, arrays and hstore."""
import math
from ctypes import (POINTER, Structure, byref, c_bool, c_double, c_float, c_int16, c_int32, c_int64, c_size_t, c_uint8, c_uint32, c_uint64, c_void_p)
from decimal import Decimal
from ipaddress import IPv4Address, IPv6Address, ip_address
from typing import Any, Callable, Dict, List, Mapping, NamedTuple, Optional, Sequence, Tuple, Union

from ._library import (INT32, OK, OUT, TEXT, UINT32, Bytes, Column, Cursor, Part, ProtocolError, Value, as_bytes, as_integer, as_values, column_of, declare, items,
                       part_of, step, text, writer, written)


class _Inet(Structure):
    _fields_ = [('address', Part), ('family', c_uint8), ('netmask', c_uint8)]


class _Bound(Structure):
    _fields_ = [('value', Column), ('kind', c_uint8)]


class _Range(Structure):
    _fields_ = [('lower', _Bound), ('upper', _Bound), ('is_empty', c_bool)]


class _Array(Structure):
    _fields_ = [('dimensions', Cursor), ('elements', Cursor), ('element_type', c_uint32), ('has_nulls', c_bool)]


class _Dimension(Structure):
    _fields_ = [('len', c_int32), ('lower_bound', c_int32)]


class _Entry(Structure):
    _fields_ = [('key', Part), ('value', Column)]


class _Side(Structure):
    _fields_ = [('value', Value), ('kind', c_uint8)]


class _KeyValue(Structure):
    _fields_ = [('key', c_void_p), ('key_len', c_size_t), ('value', Value)]


_dimension_next, _element_next, _entry_next = step('dimension', _Dimension), step('element', Column), step('entry', _Entry)

#: The types of one number: the type in C, and the bounds of a whole number.
_CODECS: Dict[str, Any] = {
    'bool': c_bool, 'int2': c_int16, 'int4': c_int32, 'int8': c_int64, 'oid': c_uint32, 'lsn': c_uint64, 'float4': c_uint32, 'float8': c_uint64,
    'timestamp': c_int64, 'time': c_int64, 'date': c_int32}
_BOUNDS = {name: (0, 256 ** size - 1) if name in ('oid', 'lsn') else (-256 ** size // 2, 256 ** size // 2 - 1)
           for name, size in (('int2', 2), ('int4', 4), ('int8', 8), ('oid', 4), ('lsn', 8), ('timestamp', 8), ('time', 8), ('date', 4))}
_PUTS = {name: declare('put_' + name, kind, *OUT) for name, kind in _CODECS.items()}
_GETS = {name: declare('get_' + name, *TEXT, POINTER(kind)) for name, kind in _CODECS.items()}
_FLOATS: Dict[str, Any] = {'float4': c_float, 'float8': c_double}


def _known(name: str) -> Any:
    if name not in _CODECS:
        raise ValueError('name: one of %s is expected, not %r' % (', '.join(_CODECS), name))
    return _CODECS[name]


def put(name: str, value: object) -> bytes:
    """A value of this type in the binary format: `put('int4', 5)`. Times are microseconds, dates days, since 2000-01-01."""
    kind = _known(name)
    if name == 'bool':
        if not isinstance(value, bool):
            raise TypeError('value: a bool is expected, not %s' % type(value).__name__)
    elif name in _FLOATS:
        if isinstance(value, bool) or not isinstance(value, (int, float)):
            raise TypeError('value: a number is expected, not %s' % type(value).__name__)
        kept = _FLOATS[name](value)
        if math.isinf(kept.value) and not math.isinf(value):
            raise OverflowError('%s: %r is past its range' % (name, value))
        value = kind.from_buffer_copy(kept).value
    else:
        value = as_integer(value, name, *_BOUNDS[name])
    return written(lambda *out: _PUTS[name](value, *out))


def get(name: str, data: Bytes) -> Any:
    """The value of this type that all of the bytes are."""
    value = _known(name)()
    _read(_GETS[name], as_bytes(data, 'data'), value)
    return _FLOATS[name].from_buffer_copy(value).value if name in _FLOATS else value.value


def _read(call: Callable[..., int], data: bytes, *value: Any) -> None:
    status = call(*text(data), *(byref(v) for v in value))
    if status != OK:
        raise ProtocolError(status)


_uuid, _macaddr = writer('put_uuid', 'data:text'), writer('put_macaddr', 'data:text')
_put_inet, _put_varbit = declare('put_inet', *TEXT, c_uint8, *OUT), declare('put_varbit', c_size_t, *TEXT, *OUT)
_get_inet, _get_varbit = declare('get_inet', *TEXT, POINTER(_Inet)), declare('get_varbit', *TEXT, POINTER(c_size_t))
_get_range, _get_array = declare('get_range', *TEXT, POINTER(_Range)), declare('get_array', *TEXT, POINTER(_Array))
_put_range, _put_empty_range = declare('put_range', POINTER(_Side), POINTER(_Side), *OUT), writer('put_empty_range')
_put_array = declare('put_array', c_uint32, POINTER(Value), c_size_t, *OUT)
_put_array_of = declare('put_array_of', c_uint32, POINTER(_Dimension), c_size_t, POINTER(Value), c_size_t, *OUT)
_get_hstore = declare('get_hstore', *TEXT, POINTER(Cursor))
_put_hstore = declare('put_hstore', POINTER(_KeyValue), c_size_t, *OUT)
_IS_A = {name: declare('get_' + name, *TEXT) for name in ('uuid', 'macaddr')}

Address = Union[IPv4Address, IPv6Address]


class Interval(NamedTuple):
    """An `interval`: months, days and microseconds are apart, as the server keeps them."""
    months: int = 0
    days: int = 0
    microseconds: int = 0


class _Interval(Structure):
    _fields_ = [('microseconds', c_int64), ('days', c_int32), ('months', c_int32)]


class _TimeTz(Structure):
    _fields_ = [('microseconds', c_int64), ('zone', c_int32)]


_put_interval, _get_interval = declare('put_interval', POINTER(_Interval), *OUT), declare('get_interval', *TEXT, POINTER(_Interval))
_put_timetz, _get_timetz = declare('put_timetz', POINTER(_TimeTz), *OUT), declare('get_timetz', *TEXT, POINTER(_TimeTz))
_put_numeric, _get_numeric = writer('put_numeric_text', 'text:text'), declare('get_numeric_text', *TEXT, *OUT)
_put_jsonb, _get_jsonb = writer('put_jsonb', 'text:text'), declare('get_jsonb', *TEXT, POINTER(Part))


def put_numeric(number: Union[Decimal, int, str]) -> bytes:
    """A `numeric`, of a decimal number or its text, with as many places as the text shows."""
    return _put_numeric(str(number).encode())


def get_numeric(data: Bytes) -> Decimal:
    """The number of a `numeric`, with its places."""
    kept = as_bytes(data, 'data')
    return Decimal(written(lambda *out: _get_numeric(*text(kept), *out)).decode())


def put_interval(value: Interval) -> bytes:
    """An `interval`."""
    months, days = as_integer(value.months, 'months', *INT32), as_integer(value.days, 'days', *INT32)
    span = _Interval(as_integer(value.microseconds, 'microseconds', -2 ** 63, 2 ** 63 - 1), days, months)
    return written(lambda *out: _put_interval(byref(span), *out))


def get_interval(data: Bytes) -> Interval:
    """The months, days and microseconds of an `interval`."""
    span = _Interval()
    _read(_get_interval, as_bytes(data, 'data'), span)
    return Interval(span.months, span.days, span.microseconds)


def put_timetz(microseconds: int, zone: int) -> bytes:
    """A `timetz`: the microseconds since midnight, and the seconds that its zone is west of Greenwich."""
    moment = _TimeTz(as_integer(microseconds, 'microseconds', -2 ** 63, 2 ** 63 - 1), as_integer(zone, 'zone', *INT32))
    return written(lambda *out: _put_timetz(byref(moment), *out))


def get_timetz(data: Bytes) -> Tuple[int, int]:
    """The microseconds since midnight of a `timetz`, and the seconds that its zone is west of Greenwich."""
    moment = _TimeTz()
    _read(_get_timetz, as_bytes(data, 'data'), moment)
    return moment.microseconds, moment.zone


def put_jsonb(json: str) -> bytes:
    """A `jsonb`, of its JSON."""
    return _put_jsonb(json.encode())


def get_jsonb(data: Bytes) -> str:
    """The JSON of a `jsonb`, which isn't parsed."""
    kept, place = as_bytes(data, 'data'), Part()
    _read(_get_jsonb, kept, place)
    return part_of(kept, place).decode()


def put_uuid(data: Bytes) -> bytes:
    """A uuid, which has 16 bytes."""
    return _uuid(data)


def get_uuid(data: Bytes) -> bytes:
    """The 16 bytes of a uuid, as they stand."""
    kept = as_bytes(data, 'data')
    _read(_IS_A['uuid'], kept)
    return kept


def put_macaddr(data: Bytes) -> bytes:
    """A macaddr, which has 6 bytes."""
    return _macaddr(data)


def get_macaddr(data: Bytes) -> bytes:
    """The 6 bytes of a macaddr, as they stand."""
    kept = as_bytes(data, 'data')
    _read(_IS_A['macaddr'], kept)
    return kept


def put_inet(address: Union[Address, str], netmask: Optional[int] = None) -> bytes:
    """An inet; without a netmask all bits of the address name the network."""
    packed = ip_address(address).packed
    bits = 8 * len(packed) if netmask is None else as_integer(netmask, 'netmask', 0, 255)
    return written(lambda *out: _put_inet(*text(packed), bits, *out))


def get_inet(data: Bytes) -> Tuple[Address, int]:
    """The address of an inet or a cidr, and how many of its first bits name the network."""
    kept, inet = as_bytes(data, 'data'), _Inet()
    _read(_get_inet, kept, inet)
    return ip_address(part_of(kept, inet.address)), inet.netmask


def put_varbit(bits: int, data: Bytes) -> bytes:
    """A bit string of so many bits, the first one highest in the first byte."""
    kept, count = as_bytes(data, 'data'), as_integer(bits, 'bits', 0, 2 ** 64 - 1)
    return written(lambda *out: _put_varbit(count, *text(kept), *out))


def get_varbit(data: Bytes) -> Tuple[int, bytes]:
    """How many bits a bit string has, and the bytes that hold them."""
    kept, bits = as_bytes(data, 'data'), c_size_t()
    _read(_get_varbit, kept, bits)
    return bits.value, kept[4:]


Side = Tuple[str, Optional[bytes]]
_SIDES = ('none', 'in', 'ex')


class Range(NamedTuple):
    """A range. A side is (kind, value): the kind is 'none', 'in' or 'ex', the value the bytes of its bound, or None for none and for a null.
    Both sides of the empty range are None."""
    lower: Optional[Side]
    upper: Optional[Side]


def put_range(lower: Optional[Side], upper: Optional[Side]) -> bytes:
    """A range between two sides, their bounds in the format of the type; the empty range where both are None."""
    if lower is None and upper is None:
        return _put_empty_range()
    if lower is None or upper is None:
        raise ValueError("lower, upper: both are None, for the empty range, or none of them; a side without a bound is ('none', None)")
    for kind, _ in (lower, upper):
        if kind not in _SIDES:
            raise ValueError("lower, upper: a side of the kind 'none', 'in' or 'ex' is expected, not %r" % (kind,))
    kept = [None if value is None else as_bytes(value, 'lower, upper') for _, value in (lower, upper)]
    low, high = (_Side(Value(*text(value or b''), value is None), _SIDES.index(kind)) for (kind, _), value in zip((lower, upper), kept))
    return written(lambda *out: _put_range(byref(low), byref(high), *out))


def get_range(data: Bytes) -> Range:
    """A range of any type, its bounds as the bytes of their values."""
    kept, r = as_bytes(data, 'data'), _Range()
    _read(_get_range, kept, r)
    if r.is_empty:
        return Range(None, None)
    lower, upper = ((_SIDES[b.kind], column_of(kept, b.value)) for b in (r.lower, r.upper))
    return Range(lower, upper)


class Array(NamedTuple):
    """An array: the type of its elements, the dimensions (a length and a lower bound each), and the elements row by row, of which None is a null."""
    element_type: int
    dimensions: List[Tuple[int, int]]
    elements: List[Optional[bytes]]


def put_array(element_type: int, elements: Sequence[Optional[Bytes]], dimensions: Optional[Sequence[Tuple[int, int]]] = None) -> bytes:
    """An array; the elements are in the format of their type, row by row, and None is a null. The dimensions are a length and a lower bound
    each; with none given there is one, from 1."""
    kept = [None if v is None else as_bytes(v, 'elements') for v in elements]
    oid, values = as_integer(element_type, 'element_type', *UINT32), as_values(kept)
    if dimensions is None:
        return written(lambda *out: _put_array(oid, values, len(values), *out))
    if math.prod(n for n, _ in dimensions) != len(kept) and (dimensions or kept):
        raise ValueError('dimensions: their product is not the number of elements, %d' % len(kept))
    sizes = (_Dimension * len(dimensions))(*(_Dimension(as_integer(n, 'dimensions', *INT32), as_integer(low, 'dimensions', *INT32)) for n, low in dimensions))
    return written(lambda *out: _put_array_of(oid, sizes, len(sizes), values, len(values), *out))


def get_array(data: Bytes) -> Array:
    """An array of any type, its elements as bytes."""
    kept, a, dimension, element = as_bytes(data, 'data'), _Array(), _Dimension(), Column()
    _read(_get_array, kept, a)
    return Array(a.element_type, [(dimension.len, dimension.lower_bound) for _ in items(_dimension_next, kept, a.dimensions, dimension)],
                 [column_of(kept, element) for _ in items(_element_next, kept, a.elements, element)])


def put_hstore(entries: Mapping[str, Optional[str]]) -> bytes:
    """An hstore of these keys and values, of which None is a null."""
    kept = [(key.encode(), None if value is None else value.encode()) for key, value in entries.items()]
    pairs = (_KeyValue * len(kept))(*(_KeyValue(*text(key), Value(*text(value or b''), value is None)) for key, value in kept))
    return written(lambda *out: _put_hstore(pairs, len(pairs), *out))


def get_hstore(data: Bytes) -> Dict[str, Optional[str]]:
    """The keys and values of an hstore, of which None is a null."""
    kept, cursor, entry = as_bytes(data, 'data'), Cursor(), _Entry()
    _read(_get_hstore, kept, cursor)
    found: Dict[str, Optional[str]] = {}
    for _ in items(_entry_next, kept, cursor, entry):
        value = column_of(kept, entry.value)
        found[part_of(kept, entry.key).decode()] = None if value is None else value.decode()
    return found
