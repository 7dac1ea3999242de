"""Values in the binary format: geometry, places of rows, labels, networks, records and multiranges."""
from ctypes import POINTER, Structure, byref, c_bool, c_int8, c_size_t, c_uint8, c_uint16, c_uint32, c_uint64, c_void_p
from ipaddress import ip_network
from typing import Any, List, NamedTuple, Optional, Sequence, Tuple

from ._library import (OUT, TEXT, UINT32, UINT64, Bytes, Column, Cursor, Part, Value, as_bytes, as_integer, column_of, declare, items, part_of, step, text, writer,
                       written)
from .values import _read, get, put


class Point(NamedTuple):
    """A `point`."""
    x: float
    y: float


class Box(NamedTuple):
    """A `box`, by two of its corners; a server puts the upper right one first."""
    upper_right: Point
    lower_left: Point


class Line(NamedTuple):
    """A `line`: the points with a * x + b * y + c = 0."""
    a: float
    b: float
    c: float


class Lseg(NamedTuple):
    """An `lseg`, by its two ends."""
    start: Point
    end: Point


class Circle(NamedTuple):
    """A `circle`."""
    center: Point
    radius: float


class Path(NamedTuple):
    """A `path`: its points, and whether the last is joined to the first."""
    points: List[Point]
    is_closed: bool = False


class Tid(NamedTuple):
    """A `tid`: the number of a block, and of a row in it."""
    block: int
    offset: int


class Snapshot(NamedTuple):
    """A `pg_snapshot`: every transaction below `xmin` is over, none from `xmax` on had begun, and of those between the listed ones were running."""
    xmin: int
    xmax: int
    running: List[int]


class _Point(Structure):
    _fields_ = [('x', c_uint64), ('y', c_uint64)]


class _Tid(Structure):
    _fields_ = [('block', c_uint32), ('offset', c_uint16)]


class _Snapshot(Structure):
    _fields_ = [('running', Cursor), ('xmin', c_uint64), ('xmax', c_uint64)]


class _Member(Structure):
    _fields_ = [('value', Column), ('of_type', c_uint32)]


class _Typed(Structure):
    _fields_ = [('value', Value), ('of_type', c_uint32)]


class _Item(Structure):
    _fields_ = [('bytes', c_void_p), ('bytes_len', c_size_t)]


#: The shapes of so many coordinates, as C has them: rows of float8.
_COORDINATES = {'point': 2, 'box': 4, 'line': 3, 'lseg': 4, 'circle': 3}
_BITS = {name: c_uint64 * count for name, count in _COORDINATES.items()}
_PUTS = {name: declare('put_' + name, c_void_p, *OUT) for name in _COORDINATES}
_GETS = {name: declare('get_' + name, *TEXT, c_void_p) for name in _COORDINATES}
_put_path, _put_polygon = declare('put_path', c_bool, POINTER(_Point), c_size_t, *OUT), declare('put_polygon', POINTER(_Point), c_size_t, *OUT)
_get_path, _get_polygon = declare('get_path', *TEXT, POINTER(c_bool), POINTER(Cursor)), declare('get_polygon', *TEXT, POINTER(Cursor))
_put_tid, _get_tid = declare('put_tid', POINTER(_Tid), *OUT), declare('get_tid', *TEXT, POINTER(_Tid))
_get_snapshot, _xid_next = declare('get_snapshot', *TEXT, POINTER(_Snapshot)), step('xid', c_uint64)
_put_snapshot = declare('put_snapshot', c_uint64, c_uint64, POINTER(c_uint64), c_size_t, *OUT)
_put_char, _get_char = declare('put_char', c_int8, *OUT), declare('get_char', *TEXT, POINTER(c_int8))
_put_macaddr8, _get_macaddr8 = writer('put_macaddr8', 'data:text'), declare('get_macaddr8', *TEXT)
_put_cidr, _put_inet_any = declare('put_cidr', *TEXT, c_uint8, *OUT), declare('put_inet_any', *TEXT, c_uint8, *OUT)
_PUT_LABELS = {name: writer('put_' + name, 'text:text') for name in ('ltree', 'lquery', 'ltxtquery')}
_GET_LABELS = {name: declare('get_' + name, *TEXT, POINTER(Part)) for name in ('ltree', 'lquery', 'ltxtquery')}
_get_record, _get_multirange = (declare('get_' + name, *TEXT, POINTER(Cursor)) for name in ('record', 'multirange'))
_put_record, _put_multirange = declare('put_record', POINTER(_Typed), c_size_t, *OUT), declare('put_multirange', POINTER(_Item), c_size_t, *OUT)
_point_next, _member_next, _range_next = step('point', _Point), step('member', _Member), step('multirange', Part)


def _bits(value: float) -> int:
    return int.from_bytes(put('float8', value), 'big')


def _number(bits: int) -> float:
    return float(get('float8', bits.to_bytes(8, 'big')))


def _put(name: str, coordinates: Sequence[float]) -> bytes:
    if len(coordinates) != _COORDINATES[name]:
        raise ValueError('%s: %d numbers are expected, not %d' % (name, _COORDINATES[name], len(coordinates)))
    kept = _BITS[name](*(_bits(c) for c in coordinates))
    return written(lambda *out: _PUTS[name](byref(kept), *out))


def _get(name: str, data: Bytes) -> List[float]:
    kept = _BITS[name]()
    _read(_GETS[name], as_bytes(data, 'data'), kept)
    return [_number(bits) for bits in kept]


def put_point(value: Tuple[float, float]) -> bytes:
    """A `point`."""
    return _put('point', value)


def get_point(data: Bytes) -> Point:
    """The coordinates of a `point`."""
    return Point(*_get('point', data))


def put_box(value: Box) -> bytes:
    """A `box`."""
    (a, b), (c, d) = value
    return _put('box', (a, b, c, d))


def get_box(data: Bytes) -> Box:
    """The corners of a `box`."""
    a, b, c, d = _get('box', data)
    return Box(Point(a, b), Point(c, d))


def put_line(value: Line) -> bytes:
    """A `line`."""
    return _put('line', value)


def get_line(data: Bytes) -> Line:
    """The numbers of a `line`."""
    return Line(*_get('line', data))


def put_lseg(value: Lseg) -> bytes:
    """An `lseg`."""
    (a, b), (c, d) = value
    return _put('lseg', (a, b, c, d))


def get_lseg(data: Bytes) -> Lseg:
    """The ends of an `lseg`."""
    a, b, c, d = _get('lseg', data)
    return Lseg(Point(a, b), Point(c, d))


def put_circle(value: Circle) -> bytes:
    """A `circle`."""
    (x, y), radius = value
    return _put('circle', (x, y, radius))


def get_circle(data: Bytes) -> Circle:
    """The center and the radius of a `circle`."""
    x, y, radius = _get('circle', data)
    return Circle(Point(x, y), radius)


def _points(points: Sequence[Tuple[float, float]]) -> Any:
    return (_Point * len(points))(*(_Point(_bits(x), _bits(y)) for x, y in points))


def _listed(data: bytes, cursor: Cursor) -> List[Point]:
    point = _Point()
    return [Point(_number(point.x), _number(point.y)) for _ in items(_point_next, data, cursor, point)]


def put_polygon(points: Sequence[Tuple[float, float]]) -> bytes:
    """A `polygon` of these points."""
    array = _points(points)
    return written(lambda *out: _put_polygon(array, len(array), *out))


def get_polygon(data: Bytes) -> List[Point]:
    """The points of a `polygon`."""
    kept, cursor = as_bytes(data, 'data'), Cursor()
    _read(_get_polygon, kept, cursor)
    return _listed(kept, cursor)


def put_path(value: Path) -> bytes:
    """A `path`."""
    array = _points(value.points)
    return written(lambda *out: _put_path(value.is_closed, array, len(array), *out))


def get_path(data: Bytes) -> Path:
    """The points of a `path`, and whether it is closed."""
    kept, closed, cursor = as_bytes(data, 'data'), c_bool(), Cursor()
    _read(_get_path, kept, closed, cursor)
    return Path(_listed(kept, cursor), closed.value)


def put_tid(value: Tuple[int, int]) -> bytes:
    """A `tid`."""
    block, offset = value
    tid = _Tid(as_integer(block, 'block', *UINT32), as_integer(offset, 'offset', 0, 65535))
    return written(lambda *out: _put_tid(byref(tid), *out))


def get_tid(data: Bytes) -> Tid:
    """The block and the row of a `tid`."""
    tid = _Tid()
    _read(_get_tid, as_bytes(data, 'data'), tid)
    return Tid(tid.block, tid.offset)


def get_snapshot(data: Bytes) -> Snapshot:
    """What a transaction sees, of a `pg_snapshot` or a `txid_snapshot`."""
    kept, snapshot, xid = as_bytes(data, 'data'), _Snapshot(), c_uint64()
    _read(_get_snapshot, kept, snapshot)
    return Snapshot(snapshot.xmin, snapshot.xmax, [xid.value for _ in items(_xid_next, kept, snapshot.running, xid)])


def put_snapshot(value: Snapshot) -> bytes:
    """A `pg_snapshot`: a server wants the transactions in order, and between the bounds."""
    low, high = as_integer(value.xmin, 'xmin', *UINT64), as_integer(value.xmax, 'xmax', *UINT64)
    running = (c_uint64 * len(value.running))(*(as_integer(xid, 'running', *UINT64) for xid in value.running))
    return written(lambda *out: _put_snapshot(low, high, running, len(running), *out))


def put_char(value: int) -> bytes:
    """A `"char"`, as a number with a sign."""
    number = as_integer(value, 'value', -128, 127)
    return written(lambda *out: _put_char(number, *out))


def get_char(data: Bytes) -> int:
    """The number of a `"char"`."""
    value = c_int8()
    _read(_get_char, as_bytes(data, 'data'), value)
    return value.value


def put_macaddr8(data: Bytes) -> bytes:
    """A `macaddr8`, which has 8 bytes."""
    return _put_macaddr8(data)


def get_macaddr8(data: Bytes) -> bytes:
    """The 8 bytes of a `macaddr8`, as they stand."""
    kept = as_bytes(data, 'data')
    _read(_get_macaddr8, kept)
    return kept


def put_cidr(value: Any) -> bytes:
    """A `cidr`, of a network of `ipaddress` or its text."""
    network = ip_network(str(value))
    packed = network.network_address.packed
    return written(lambda *out: _put_cidr(*text(packed), network.prefixlen, *out))


def put_inet_any(address: Bytes, netmask: int) -> bytes:
    """An `inet` of the 4 or 16 bytes of an address, whatever its netmask is."""
    kept, bits = as_bytes(address, 'address'), as_integer(netmask, 'netmask', 0, 255)
    return written(lambda *out: _put_inet_any(*text(kept), bits, *out))


def put_label(name: str, value: str) -> bytes:
    """An `ltree`, an `lquery` or an `ltxtquery`, as `name` says, of its text."""
    return _PUT_LABELS[name](value.encode())


def get_label(name: str, data: Bytes) -> str:
    """The text of an `ltree`, an `lquery` or an `ltxtquery`."""
    kept, place = as_bytes(data, 'data'), Part()
    _read(_GET_LABELS[name], kept, place)
    return part_of(kept, place).decode()


def put_record(fields: Sequence[Tuple[int, Optional[Bytes]]]) -> bytes:
    """A record: the type of each field and its value in the format of that type, or None for a null."""
    kept = [(as_integer(oid, 'fields', *UINT32), None if v is None else as_bytes(v, 'fields')) for oid, v in fields]
    array = (_Typed * len(kept))(*(_Typed(Value(*text(v or b''), v is None), oid) for oid, v in kept))
    return written(lambda *out: _put_record(array, len(array), *out))


def get_record(data: Bytes) -> List[Tuple[int, Optional[bytes]]]:
    """The type of each field of a record, and its bytes, of which None is a null."""
    kept, cursor, member = as_bytes(data, 'data'), Cursor(), _Member()
    _read(_get_record, kept, cursor)
    return [(member.of_type, column_of(kept, member.value)) for _ in items(_member_next, kept, cursor, member)]


def put_multirange(ranges: Sequence[Bytes]) -> bytes:
    """A multirange of these ranges, each as `put_range` writes it."""
    kept = [as_bytes(r, 'ranges') for r in ranges]
    array = (_Item * len(kept))(*(_Item(*text(r)) for r in kept))
    return written(lambda *out: _put_multirange(array, len(array), *out))


def get_multirange(data: Bytes) -> List[bytes]:
    """The ranges of a multirange, each as `get_range` reads it."""
    kept, cursor, place = as_bytes(data, 'data'), Cursor(), Part()
    _read(_get_multirange, kept, cursor)
    return [part_of(kept, place) for _ in items(_range_next, kept, cursor, place)]
