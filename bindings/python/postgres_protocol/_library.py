"""The shared library by ctypes: where it is found, its structs, how its calls are declared, and what they return."""
import ctypes
import ctypes.util
import os
from ctypes import POINTER, Structure, byref, c_bool, c_int16, c_int32, c_size_t, c_uint8, c_uint32, c_void_p
from typing import Any, Callable, Dict, Iterator, List, Optional, Sequence, Tuple, Union

#: What holds bytes: each call takes any of them.
Bytes = Union[bytes, bytearray, memoryview]


def _find() -> ctypes.CDLL:
    """The library that the environment's PGP_SO names, the one in this package, or the system's."""
    beside = os.path.join(os.path.dirname(__file__), 'libpostgres_protocol.so.0')
    named = os.environ.get('PGP_SO') or (beside if os.path.exists(beside) else None) or ctypes.util.find_library('postgres_protocol')
    if named is None:
        raise ImportError('libpostgres_protocol.so is neither in this package nor where the system looks for libraries; PGP_SO may name it')
    return ctypes.CDLL(named)


LIBRARY = _find()

#: The names of the errors, by the number that a call returns.
STATUSES: Dict[int, str] = {
    1: 'NoRoom', 2: 'EmbeddedNull', 3: 'TooLarge', 4: 'InvalidLength', 5: 'UnknownTag', 6: 'UnknownAuthentication', 7: 'UnexpectedEof',
    8: 'NotDrained', 9: 'NotUtf8', 10: 'InvalidSize', 11: 'InvalidCount', 12: 'InvalidKeyLength', 13: 'InvalidValueLength', 14: 'InvalidDimension',
    15: 'TooManyElements', 16: 'InvalidBitLength', 17: 'InvalidNetmask', 18: 'InvalidAddressLength', 19: 'InvalidFamily', 20: 'InvalidVersion',
    21: 'InvalidSign', 22: 'InvalidScale', 23: 'InvalidDigit', 24: 'InvalidText', 25: 'OutOfRange',
    32: 'WrongPhase', 33: 'EmptyName', 34: 'UnknownVersion', 35: 'UnknownKind', 36: 'Unexpected', 37: 'Uncertain',
    38: 'UnknownPacket', 39: 'InvalidFormats', 40: 'NotFinite', 41: 'Fraction',
    66: 'ScramWrongState', 67: 'ScramNotUtf8', 68: 'ScramUnexpectedEnd', 69: 'ScramUnexpectedCharacter', 70: 'ScramTrailing',
    71: 'ScramInvalidNumber', 72: 'ScramInvalidNonce', 73: 'ScramTooManyIterations', 74: 'ScramInvalidBase64', 75: 'ScramServer',
    76: 'ScramVerification', 80: 'BadNonce', 81: 'BadBinding', 82: 'NotAVerifier', 83: 'WrongPassword', 84: 'ScramUnsupportedBinding',
    85: 'ScramInvalidFirst', 86: 'ScramOtherExchange', 87: 'ScramInvalidEncoding', 88: 'ScramInvalidProof',
    89: 'LoginUndue', 90: 'LoginNotAdmitted', 91: 'LoginOtherMechanism', 92: 'LoginTooFewRounds', 93: 'ConnectionNoStatus', 94: 'ConnectionTooLong',
    95: 'ConnectionNoMemory', 96: 'ConnectionNoSettingRoom', 97: 'ConnectionNoSetting',
}
OK, NO_ROOM, EMBEDDED_NULL, INVALID_LENGTH, WRONG_PHASE, MORE, DONE = 0, 1, 2, 4, 32, 100, 101


class ProtocolError(ValueError):
    """What a call rejects. `name` is the error's name, `status` its number, `at` its place in the bytes of a server where that is known."""

    def __init__(self, status: int, at: int = 0) -> None:
        self.status, self.at = status, at
        self.name = STATUSES.get(status, 'Status%d' % status)
        super().__init__(self.name)


class Part(Structure):
    _fields_ = [('at', c_size_t), ('len', c_size_t)]


class Parts(Structure):
    _fields_ = [('first', Part), ('second', Part), ('count', c_size_t), ('number', c_int32), ('byte', c_uint8)]


class CMessage(Structure):
    _fields_ = [('frame', c_size_t), ('missing', c_size_t), ('parts', Parts), ('kind', c_uint8), ('tag', c_uint8)]


class Cursor(Structure):
    _fields_ = [('at', c_size_t), ('end', c_size_t), ('left', c_size_t)]


class Column(Structure):
    _fields_ = [('start', c_size_t), ('end', c_size_t), ('is_null', c_bool)]


class CField(Structure):
    _fields_ = [('name', Part), ('table_oid', c_uint32), ('type_oid', c_uint32), ('type_modifier', c_int32), ('column_id', c_int16),
                ('type_size', c_int16), ('format', c_int16)]


class ErrorField(Structure):
    _fields_ = [('value', Part), ('code', c_uint8)]


class Value(Structure):
    _fields_ = [('bytes', c_void_p), ('bytes_len', c_size_t), ('is_null', c_bool)]


class Pair(Structure):
    _fields_ = [('name', c_void_p), ('name_len', c_size_t), ('value', c_void_p), ('value_len', c_size_t)]


TEXT, OUT = (c_void_p, c_size_t), (c_void_p, c_size_t, POINTER(c_size_t))


def declare(name: str, *arguments: Any, result: Any = c_uint32) -> Callable[..., int]:
    """The library's call of this name behind `pgp_`."""
    function = getattr(LIBRARY, 'pgp_' + name)
    function.argtypes, function.restype = arguments, result
    return function  # type: ignore[no-any-return]


def as_bytes(value: object, name: str) -> bytes:
    """The bytes of an argument; TypeError names it where it holds none."""
    if isinstance(value, bytes):
        return value
    if isinstance(value, (bytearray, memoryview)):
        return bytes(value)
    raise TypeError('%s: bytes are expected, not %s%s' % (name, type(value).__name__, ' (encode it first)' if isinstance(value, str) else ''))


def as_integer(value: object, name: str, low: int, high: int) -> int:
    """A whole number between two bounds; TypeError or OverflowError names the argument."""
    if isinstance(value, bool) or not isinstance(value, int):
        raise TypeError('%s: a whole number is expected, not %s' % (name, type(value).__name__))
    if not low <= value <= high:
        raise OverflowError('%s: %d is not between %d and %d' % (name, value, low, high))
    return value


def text(data: bytes) -> Tuple[Optional[int], int]:
    """The address of the bytes, which have to outlive the call, and their length."""
    return ctypes.cast(ctypes.c_char_p(data), c_void_p).value, len(data)


def written(call: Callable[..., int], room: int = 64) -> bytes:
    """What a writer writes: it is called with more room as long as there is too little."""
    count = c_size_t()
    while True:
        out = ctypes.create_string_buffer(room)
        status = call(out, room, byref(count))
        if status == OK:
            return out.raw[:count.value]
        if status != NO_ROOM or room >= 1 << 31:
            raise ProtocolError(status)
        room *= 4


INT16, INT32, UINT32, UINT64 = (-2 ** 15, 2 ** 15 - 1), (-2 ** 31, 2 ** 31 - 1), (0, 2 ** 32 - 1), (0, 2 ** 64 - 1)
_TYPES: Dict[str, Tuple[Any, ...]] = {'text': TEXT, 'int32': (c_int32,), 'letter': (c_uint8,), 'size': (c_size_t,), 'uint8': (c_uint8,)}


def flat(kind: str, name: str, value: object) -> Sequence[object]:
    """The arguments in C that an argument of this kind is."""
    if kind == 'text':
        return text(as_bytes(value, name))
    if kind == 'int32':
        return [as_integer(value, name, *INT32)]
    if kind == 'size':
        return [as_integer(value, name, 0, 2 ** 64 - 1)]
    if kind == 'uint8':
        return [as_integer(value, name, 0, 255)]
    if value not in ('S', 'P'):
        raise ValueError("%s: 'S' for a statement or 'P' for a portal is expected, not %r" % (name, value))
    return [ord(str(value))]


def arguments(parts: Sequence[str]) -> Tuple[List[Tuple[str, str]], List[Any]]:
    """Names and kinds of `NAME:KIND` words, and the types in C."""
    pairs = [(a, b) for a, _, b in (part.partition(':') for part in parts)]
    return pairs, [t for _, kind in pairs for t in _TYPES[kind]]


def writer(name: str, *parts: str) -> Callable[..., bytes]:
    """A writer whose arguments are `NAME:KIND` words."""
    pairs, types = arguments(parts)
    function = declare(name, *types, *OUT)

    def write(*values: object) -> bytes:
        # (the bytes live as long as `kept`)
        kept = [as_bytes(v, n) if kind == 'text' else v for (n, kind), v in zip(pairs, values)]
        words = [word for (n, kind), v in zip(pairs, kept) for word in flat(kind, n, v)]
        return written(lambda *out: function(*words, *out))
    return write


def as_types(types: Sequence[int]) -> Any:
    """An array of types' numbers."""
    return (c_uint32 * len(types))(*(as_integer(t, 'types', *UINT32) for t in types))


def as_formats(formats: Sequence[int], name: str) -> Any:
    """An array of formats: 0 for text, 1 for binary."""
    for value in formats:
        if as_integer(value, name, *INT16) not in (0, 1):
            raise ValueError('%s: 0 for text or 1 for binary is expected, not %d' % (name, value))
    return (c_int16 * len(formats))(*formats)


def as_values(values: Sequence[Optional[bytes]]) -> Any:
    """An array of values, of which None is a null; the bytes have to outlive it."""
    return (Value * len(values))(*(Value(*text(v or b''), v is None) for v in values))


def step(name: str, kind: Any) -> Callable[..., int]:
    """A step of an iterator over a list."""
    return declare(name + '_next', c_void_p, c_size_t, POINTER(Cursor), POINTER(kind))


def items(call: Callable[..., int], data: bytes, cursor: Cursor, item: Any) -> Iterator[None]:
    """Fills `item` with each item of the list, up to its end."""
    place = text(data)
    while True:
        status = call(*place, byref(cursor), byref(item))
        if status == DONE:
            return
        if status != OK:
            raise ProtocolError(status, cursor.at)
        yield


def part_of(data: bytes, part: Part) -> bytes:
    """The bytes at a part's place."""
    return data[part.at:part.at + part.len]


def column_of(data: bytes, column: Column) -> Optional[bytes]:
    """The bytes at a column's place; None for a null."""
    return None if column.is_null else data[column.start:column.end]
