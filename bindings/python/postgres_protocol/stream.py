"""All that a client sends on one connection, message by message, in an order that a server takes."""
import ctypes
from ctypes import POINTER, Structure, byref, c_bool, c_int16, c_int32, c_size_t, c_uint8, c_uint32, c_void_p
from typing import Any, Callable, Iterable, Optional, Sequence, Tuple

from ._library import INT32, NO_ROOM, OK, TEXT, Bytes, Pair, ProtocolError, Value, arguments, as_bytes, as_integer, declare, flat
from .writing import VERSION_3_0, bind_words, pairs_of, parse_words


class _Stream(Structure):
    _fields_ = [('room', c_void_p), ('room_len', c_size_t), ('len', c_size_t), ('is_open', c_bool)]


def _call(name: str, *types: Any) -> Callable[..., int]:
    return declare('stream_' + name, POINTER(_Stream), *types)


_startup = _call('startup', c_int32, POINTER(Pair), c_size_t)
_parse = _call('parse', *TEXT, *TEXT, POINTER(c_uint32), c_size_t)
_bind = _call('bind', *TEXT, *TEXT, POINTER(c_int16), c_size_t, POINTER(Value), c_size_t, POINTER(c_int16), c_size_t)
_copy_data_head = _call('copy_data_head', c_size_t)


def _method(name: str, *parts: str) -> Callable[..., None]:
    """The call of this name, whose arguments are `NAME:KIND` words."""
    pairs, types = arguments(parts)
    call = _call(name, *types)

    def send(self: 'Stream', *values: object) -> None:
        # (the bytes live as long as `kept`)
        kept = [as_bytes(v, n) if kind == 'text' else v for (n, kind), v in zip(pairs, values)]
        self._send(call, *(word for (n, kind), v in zip(pairs, kept) for word in flat(kind, n, v)))
    return send


_cancel_request, _password_message = _method('cancel_request', 'process_id:int32', 'secret_key:text'), _method('password_message', 'password:text')
_sasl_initial, _sasl_response = _method('sasl_initial_response', 'mechanism:text', 'response:text'), _method('sasl_response', 'response:text')
_query, _copy_fail = _method('query', 'text:text'), _method('copy_fail', 'reason:text')
_describe, _close = _method('describe', 'variant:letter', 'name:text'), _method('close', 'variant:letter', 'name:text')
_execute = _method('execute', 'portal:text', 'max_rows:int32')
_ssl_request, _flush, _sync, _copy_done, _terminate = (_method(name) for name in ('ssl_request', 'flush', 'sync', 'copy_done', 'terminate'))


class Stream:
    """What a client sends: each call appends a message, and `drain` returns what is to be sent. A call that isn't allowed in this phase raises
    ProtocolError `WrongPhase`: before the startup packet only the opening packets are, and after it none of them. A call that raises leaves
    the stream as it was. The calls take what those of the module take."""

    def __init__(self, room: int = 8192) -> None:
        self._room = ctypes.create_string_buffer(max(room, 1))
        self._stream = _Stream(ctypes.cast(self._room, c_void_p).value, len(self._room), 0, False)

    @property
    def address(self) -> int:
        """The state's address, for a call in C."""
        return ctypes.addressof(self._stream)

    @property
    def is_open(self) -> bool:
        """Whether the startup packet was sent."""
        return bool(self._stream.is_open)

    @property
    def length(self) -> int:
        """How many bytes were appended since the last `drain`."""
        return int(self._stream.len)

    def cut(self, length: int) -> None:
        """Takes back what was appended after so many bytes."""
        self._stream.len = length

    def drain(self) -> bytes:
        """What was appended since the last call, to be sent now."""
        sent = ctypes.string_at(self._room, self._stream.len)
        self._stream.len = 0
        return sent

    def _send(self, call: Callable[..., int], *words: object) -> None:
        """Appends a message, in more room where there is too little."""
        while True:
            status = call(byref(self._stream), *words)
            if status == OK:
                return
            if status != NO_ROOM:
                raise ProtocolError(status)
            self.widen()

    def widen(self) -> None:
        """Makes more room."""
        if len(self._room) >= 1 << 31:
            raise ProtocolError(NO_ROOM)
        wider = ctypes.create_string_buffer(4 * len(self._room))
        ctypes.memmove(wider, self._room, self._stream.len)
        self._room, self._stream.room, self._stream.room_len = wider, ctypes.cast(wider, c_void_p).value, len(wider)

    def ssl_request(self) -> None:
        """Asks for an encrypted session."""
        _ssl_request(self)

    def cancel_request(self, process_id: int, secret_key: Bytes) -> None:
        """Cancels another session's query."""
        _cancel_request(self, process_id, secret_key)

    def startup(self, pairs: Iterable[Tuple[Bytes, Bytes]], version: int = VERSION_3_0) -> None:
        """Opens the session."""
        array, kept = pairs_of(pairs)
        self._send(_startup, as_integer(version, 'version', *INT32), array, len(kept))

    def password_message(self, password: Bytes) -> None:
        """A password, or the answer to an MD5 request."""
        _password_message(self, password)

    def sasl_initial_response(self, mechanism: Bytes, response: Bytes) -> None:
        """The chosen SASL mechanism, and the first text of its exchange."""
        _sasl_initial(self, mechanism, response)

    def sasl_response(self, response: Bytes) -> None:
        """A later text of a SASL exchange."""
        _sasl_response(self, response)

    def query(self, text: Bytes) -> None:
        """A simple query."""
        _query(self, text)

    def parse(self, name: Bytes, sql: Bytes, types: Sequence[int] = ()) -> None:
        """Prepares a statement."""
        words, _kept = parse_words(name, sql, types)
        self._send(_parse, *words)

    def bind(self, portal: Bytes, statement: Bytes, formats: Sequence[int], values: Sequence[Optional[Bytes]], result_formats: Sequence[int] = ()) -> None:
        """Binds values to a statement's parameters."""
        words, _kept = bind_words(portal, statement, formats, values, result_formats)
        self._send(_bind, *words)

    def describe(self, variant: str, name: Bytes) -> None:
        """Asks for the parameters and columns of a statement ('S') or a portal ('P')."""
        _describe(self, variant, name)

    def execute(self, portal: Bytes, max_rows: int = 0) -> None:
        """Executes a portal, returning at most `max_rows` rows; 0 is no limit."""
        _execute(self, portal, as_integer(max_rows, 'max_rows', 0, INT32[1]))

    def close(self, variant: str, name: Bytes) -> None:
        """Closes a statement ('S') or a portal ('P')."""
        _close(self, variant, name)

    def flush(self) -> None:
        """Asks the server to send what it holds in its buffer."""
        _flush(self)

    def sync(self) -> None:
        """Ends a series of extended queries."""
        _sync(self)

    def copy_data_head(self, length: int) -> None:
        """The head before so many bytes of copy data, which the caller sends after what `drain` returns."""
        self._send(_copy_data_head, as_integer(length, 'length', 0, 2 ** 64 - 1))

    def copy_done(self) -> None:
        """Ends the data of a copy."""
        _copy_done(self)

    def copy_fail(self, reason: Bytes) -> None:
        """Gives a copy up, with a text for the server's error."""
        _copy_fail(self, reason)

    def terminate(self) -> None:
        """Ends the session."""
        _terminate(self)
