"""A server's connection without input or output: what a client sent, message by message, and what is to be sent to it."""
import secrets
from ctypes import POINTER, Structure, byref, c_bool, c_int16, c_int32, c_size_t, c_uint8, c_uint16, c_uint32, c_void_p
from typing import Any, Iterable, List, NamedTuple, Optional, Sequence, Tuple

from ._library import (INT16, INT32, MORE, OK, OUT, TEXT, UINT32, Bytes, Column, Cursor, Part, ProtocolError, Value, as_bytes, as_integer, as_types, as_values,
                       column_of, declare, items, part_of, step, text, writer, written)
from .reading import KINDS, Field

__all__ = ['CLIENT_KINDS', 'ClientMessage', 'EXPECTED', 'ScramServer', 'ServerConnection']

#: The kinds of a client's messages, by their numbers.
CLIENT_KINDS = ('', *'''Bind Close CopyData CopyDone CopyFail Describe Execute Flush FunctionCall Parse PasswordMessage Query
SaslInitialResponse SaslResponse Sync Terminate Startup CancelRequest SslRequest GssEncRequest'''.split())

#: Which message of tag `p` may be expected.
EXPECTED = ('PasswordMessage', 'SaslInitialResponse', 'SaslResponse')


class _Parts(Structure):
    _fields_ = [('first', Part), ('second', Part), ('formats', Cursor), ('items', Cursor), ('result_formats', Cursor), ('number', c_int32), ('code', c_uint32),
                ('byte', c_uint8), ('is_null', c_bool)]


class _Message(Structure):
    _fields_ = [('frame', c_size_t), ('missing', c_size_t), ('parts', _Parts), ('kind', c_uint8), ('tag', c_uint8), ('is_open', c_bool)]


class _Setting(Structure):
    _fields_ = [('name', Part), ('value', Part)]


class _Name(Structure):
    _fields_ = [('name', c_void_p), ('name_len', c_size_t)]


class _Described(Structure):
    _fields_ = [('name', c_void_p), ('name_len', c_size_t), ('table_oid', c_uint32), ('type_oid', c_uint32), ('type_modifier', c_int32), ('column_id', c_int16),
                ('type_size', c_int16), ('format', c_int16)]


class _Reported(Structure):
    _fields_ = [('value', c_void_p), ('value_len', c_size_t), ('code', c_uint8)]


_front = declare('client_front', c_void_p, c_size_t, c_bool, c_uint8, POINTER(_Message))
_format_next, _row_next, _type_next, _setting_next = step('format', c_uint16), step('row', Column), step('type', c_uint32), step('setting', _Setting)
_reply, _reply_text, _reply_md5 = writer('reply', 'kind:uint8'), writer('reply_text', 'kind:uint8', 'text:text'), writer('reply_md5_password', 'salt:text')
_reply_key = writer('reply_backend_key_data', 'process_id:int32', 'secret_key:text')
_reply_setting, _reply_ready = writer('reply_parameter_status', 'name:text', 'value:text'), writer('reply_ready_for_query', 'status:uint8')
_reply_notification = writer('reply_notification', 'process_id:int32', 'channel:text', 'payload:text')
_reply_sasl, _reply_version = declare('reply_authentication_sasl', POINTER(_Name), c_size_t, *OUT), declare('reply_negotiate_protocol_version', c_int32, POINTER(_Name), c_size_t, *OUT)
_reply_columns, _reply_row = declare('reply_row_description', POINTER(_Described), c_size_t, *OUT), declare('reply_data_row', POINTER(Value), c_size_t, *OUT)
_reply_error, _reply_notice = (declare(name, POINTER(_Reported), c_size_t, *OUT) for name in ('reply_error', 'reply_notice'))
_reply_types = declare('reply_parameter_description', POINTER(c_uint32), c_size_t, *OUT)
_reply_copy_in, _reply_copy_out = (declare(name, c_uint8, POINTER(c_uint16), c_size_t, *OUT) for name in ('reply_copy_in', 'reply_copy_out'))


class ClientMessage(NamedTuple):
    """A message of a client: its kind, its bytes, and its parts, of which those that a kind lacks are empty or 0. `second` is None where a SASL mechanism was
    chosen without a text. `items` are the values of a Bind or a FunctionCall (None for a null), the types of a Parse, and the names and values of a Startup."""
    kind: str
    frame: bytes
    first: bytes
    second: Optional[bytes]
    number: int
    code: int
    letter: str
    formats: List[int]
    items: List[Any]
    result_formats: List[int]


def _numbers(call: Any, kind: Any, data: bytes, cursor: Cursor) -> List[int]:
    number = kind()
    return [number.value for _ in items(call, data, cursor, number)]


def _items(kind: str, data: bytes, cursor: Cursor) -> List[Any]:
    if kind == 'Startup':
        pair = _Setting()
        return [(part_of(data, pair.name), part_of(data, pair.value)) for _ in items(_setting_next, data, cursor, pair)]
    if kind == 'Parse':
        return _numbers(_type_next, c_uint32, data, cursor)
    column = Column()
    return [column_of(data, column) for _ in items(_row_next, data, cursor, column)]


def _message(m: _Message, frame: bytes) -> ClientMessage:
    p, kind = m.parts, CLIENT_KINDS[m.kind]
    lists = kind in ('Bind', 'FunctionCall', 'Parse', 'Startup')
    return ClientMessage(kind, frame, part_of(frame, p.first), None if p.is_null else part_of(frame, p.second), p.number, p.code, chr(p.byte) if p.byte else '',
                         _numbers(_format_next, c_uint16, frame, p.formats) if kind in ('Bind', 'FunctionCall') else [],
                         _items(kind, frame, p.items) if lists else [], _numbers(_format_next, c_uint16, frame, p.result_formats) if kind == 'Bind' else [])


class ServerConnection:
    """A connection with one client. `receive_data` takes what it sent, `next_message` gives the next whole message, or None; the calls after them add a
    message to what `data_to_send` gives. `expected` says which message of tag `p` the client sends next: one of EXPECTED."""

    def __init__(self) -> None:
        self._held, self._out, self.is_open, self.expected = b'', bytearray(), False, EXPECTED[0]

    def receive_data(self, data: Bytes) -> None:
        """Bytes that the client sent."""
        self._held += as_bytes(data, 'data')

    def next_message(self) -> Optional[ClientMessage]:
        """The next message; None where bytes of it are missing. Raises ProtocolError where none stands there: a malformed message is passed."""
        m = _Message()
        status = _front(text(self._held)[0], len(self._held), self.is_open, EXPECTED.index(self.expected), byref(m))
        if status == MORE:
            return None
        frame, self._held, self.is_open = self._held[:m.frame], self._held[m.frame:], m.is_open
        if status != OK:
            raise ProtocolError(status)
        return _message(m, frame)

    def data_to_send(self) -> bytes:
        """What is to be sent; it is handed out once."""
        data = bytes(self._out)
        self._out.clear()
        return data

    def refuse_encryption(self) -> None:
        """The answer to an SslRequest or a GssEncRequest where the connection isn't encrypted."""
        self._out += b'N'

    def reply(self, kind: str, text: Optional[Bytes] = None) -> None:
        """A message without a body, or one of one text: a CommandComplete with its tag, CopyData, and a SASL or GSSAPI exchange's texts."""
        number = KINDS.index(kind) if kind else 0
        self._out += _reply(number) if text is None else _reply_text(number, text)

    def authentication_sasl(self, mechanisms: Iterable[Bytes]) -> None:
        """Offers these mechanisms; the client's choice is expected."""
        self._out += _named(_reply_sasl, mechanisms)
        self.expected = EXPECTED[1]

    def sasl_continue(self, text: Bytes) -> None:
        """A text of a SASL exchange; a further one of the client's is expected."""
        self.reply('AuthenticationSaslContinue', text)
        self.expected = EXPECTED[2]

    def authentication_md5_password(self, salt: Bytes) -> None:
        """Asks for an MD5 answer with this salt of 4 bytes."""
        self._out += _reply_md5(salt)

    def negotiate_protocol_version(self, version: int, options: Iterable[Bytes] = ()) -> None:
        """The newest version that is spoken, and the options that aren't known."""
        number = as_integer(version, 'version', *INT32)
        self._out += _named(lambda *rest: _reply_version(number, *rest), options)

    def backend_key_data(self, process_id: int, secret_key: Bytes) -> None:
        """What a request to cancel has to show; the key has 4 to 256 bytes."""
        self._out += _reply_key(process_id, secret_key)

    def parameter_status(self, name: Bytes, value: Bytes) -> None:
        """The value of a run-time parameter."""
        self._out += _reply_setting(name, value)

    def notification(self, process_id: int, channel: Bytes, payload: Bytes) -> None:
        """A notification by this process."""
        self._out += _reply_notification(process_id, channel, payload)

    def ready_for_query(self, status: str = 'I') -> None:
        """'I' outside a transaction, 'T' in one, 'E' in a failed one."""
        if status not in ('I', 'T', 'E'):
            raise ValueError("status: 'I', 'T' or 'E' is expected, not %r" % status)
        self._out += _reply_ready(ord(status))

    def row_description(self, columns: Sequence[Field]) -> None:
        """The columns of the rows that follow."""
        names = [column.name.encode() for column in columns]
        array = (_Described * len(names))(*(_Described(*text(n), as_integer(c.table_oid, 'table_oid', *UINT32), as_integer(c.type_oid, 'type_oid', *UINT32),
                                                       as_integer(c.type_modifier, 'type_modifier', *INT32), as_integer(c.column_id, 'column_id', *INT16),
                                                       as_integer(c.type_size, 'type_size', *INT16), as_integer(c.format, 'format', *INT16))
                                            for n, c in zip(names, columns)))
        self._out += written(lambda *out: _reply_columns(array, len(names), *out))

    def data_row(self, values: Iterable[Optional[Bytes]]) -> None:
        """A row; None is a null."""
        kept = [None if value is None else as_bytes(value, 'values') for value in values]
        array = as_values(kept)
        self._out += written(lambda *out: _reply_row(array, len(kept), *out))

    def parameter_description(self, types: Sequence[int]) -> None:
        """The types of a statement's parameters."""
        array = as_types(types)
        self._out += written(lambda *out: _reply_types(array, len(array), *out))

    def error(self, fields: Iterable[Tuple[str, Bytes]], notice: bool = False) -> None:
        """An error, or a notice, of these fields: letters, and texts. Clients expect at least S, V, C and M."""
        pairs = [(ord(letter), as_bytes(value, 'fields')) for letter, value in fields]
        array = (_Reported * len(pairs))(*(_Reported(*text(value), as_integer(code, 'fields', 0, 255)) for code, value in pairs))
        self._out += written(lambda *out: (_reply_notice if notice else _reply_error)(array, len(pairs), *out))

    def copy_in(self, format: int, column_formats: Sequence[int], out: bool = False) -> None:
        """The data of a copy are awaited, or (`out`) follow, in these formats: 0 for text, 1 for binary."""
        number, array = as_integer(format, 'format', 0, 255), (c_uint16 * len(column_formats))(*(as_integer(f, 'column_formats', 0, 65535) for f in column_formats))
        self._out += written(lambda *room: (_reply_copy_out if out else _reply_copy_in)(number, array, len(array), *room))


def _named(call: Any, names: Iterable[Bytes]) -> bytes:
    kept = [as_bytes(name, 'names') for name in names]
    array = (_Name * len(kept))(*(_Name(*text(name)) for name in kept))
    return written(lambda *out: call(array, len(kept), *out))


_server_first = declare('scram_server_first', *TEXT, c_uint8, *TEXT, *TEXT, *TEXT, *OUT)
_server_final = declare('scram_server_final', *TEXT, c_uint8, *TEXT, *TEXT, *TEXT, *TEXT, *OUT)


class ScramServer:
    """The server's side of SCRAM-SHA-256, with the stored verifier: `first` with the client's first text, `final` with its final one. Each gives the text to
    send, and raises ProtocolError where the client's is none, or shows another password. With `certificate`, its hash, the client chose SCRAM-SHA-256-PLUS;
    `declined` says that it was offered and not chosen."""

    def __init__(self, stored: Bytes, certificate: Optional[Bytes] = None, declined: bool = False, nonce: Optional[Bytes] = None) -> None:
        own = secrets.token_urlsafe(18).encode() if nonce is None else as_bytes(nonce, 'nonce')
        self._stored, self._kind = as_bytes(stored, 'stored'), 1 if declined else 0 if certificate is None else 2
        self._certificate, self._nonce, self._first = b'' if certificate is None else as_bytes(certificate, 'certificate'), own, b''

    def first(self, client_first: Bytes) -> bytes:
        """The server's first text."""
        self._first = as_bytes(client_first, 'client_first')
        return written(lambda *out: _server_first(*self._held(), *out), 512)

    def final(self, client_final: Bytes) -> bytes:
        """The server's final text."""
        last = as_bytes(client_final, 'client_final')
        return written(lambda *out: _server_final(*self._held(), *text(last), *out), 512)

    def _held(self) -> List[Any]:
        return [*text(self._stored), self._kind, *text(self._certificate), *text(self._nonce), *text(self._first)]
