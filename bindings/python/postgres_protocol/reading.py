"""The messages that a server sends, each with its parts, and the lists that stand in them."""
from ctypes import POINTER, byref, c_size_t, c_uint16, c_uint32, c_void_p
from typing import Iterator, List, NamedTuple, Optional, Tuple

from ._library import (MORE, OK, Bytes, CField, CMessage, Column, Cursor, ErrorField, Part, ProtocolError, as_bytes, as_integer, column_of, declare, items,
                       part_of, step, text)

#: The kinds of a server's messages, by their numbers.
KINDS = ('', *'''AuthenticationCleartextPassword AuthenticationGss AuthenticationGssContinue AuthenticationKerberosV5
AuthenticationMd5Password AuthenticationOk AuthenticationSasl AuthenticationSaslContinue AuthenticationSaslFinal
AuthenticationScmCredential AuthenticationSspi BackendKeyData BindComplete CloseComplete CommandComplete CopyData CopyDone
CopyInResponse CopyOutResponse DataRow EmptyQueryResponse ErrorResponse NoData NoticeResponse NotificationResponse
ParameterDescription ParameterStatus ParseComplete PortalSuspended ReadyForQuery RowDescription NegotiateProtocolVersion
CopyBothResponse FunctionCallResponse'''.split())

_front = declare('front', c_void_p, c_size_t, POINTER(CMessage))
_row_next, _type_next, _format_next = step('row', Column), step('type', c_uint32), step('format', c_uint16)
_field_next, _error_field_next = step('field', CField), step('error_field', ErrorField)
_mechanism_next, _option_next = step('mechanism', Part), step('option', Part)


class Message(NamedTuple):
    """A message of a server: its kind, its frame and the frame's place in the bytes, and its parts, of which those that a kind lacks are
    empty or 0."""
    kind: str
    at: int
    frame: bytes
    first: bytes
    second: bytes
    count: int  # type: ignore[assignment]
    number: int
    byte: int
    first_at: int


def messages(data: Bytes, at: int = 0) -> Iterator[Message]:
    """The complete messages from a place on. The next bytes to read stand at the place `m.at + len(m.frame)` of the last one.

    Raises ProtocolError where a frame's body is malformed, or its length is too short for any frame: `at` is the frame's place.
    """
    kept = as_bytes(data, 'data')
    place = as_integer(at, 'at', 0, len(kept))
    base, m = text(kept)[0] or 0, CMessage()
    while True:
        status = _front(base + place, len(kept) - place, byref(m))
        if status == MORE:
            return
        if status != OK:
            raise ProtocolError(status, place)
        p = m.parts
        frame = kept[place:place + m.frame]
        yield Message(KINDS[m.kind], place, frame, frame[p.first.at:p.first.at + p.first.len], frame[p.second.at:p.second.at + p.second.len],
                      p.count, p.number, p.byte, p.first.at)
        place += m.frame


def _cursor(message: Message, *kinds: str) -> Cursor:
    """The place of the list that a message of one of these kinds has."""
    if message.kind not in kinds:
        raise ValueError('message: %s is expected, not %s' % (' or '.join(kinds), message.kind))
    return Cursor(message.first_at, message.first_at + len(message.first), message.count)


def row(message: Message) -> List[Optional[bytes]]:
    """The values of a DataRow, or the one of a FunctionCallResponse; None is a null."""
    column = Column()
    return [column_of(message.frame, column) for _ in items(_row_next, message.frame, _cursor(message, 'DataRow', 'FunctionCallResponse'), column)]


class Field(NamedTuple):
    """A column of a RowDescription. `table_oid` and `column_id` may be 0, `type_modifier` -1; a negative `type_size` varies; `format` is 0 for text,
    1 for binary."""
    name: str
    table_oid: int
    column_id: int
    type_oid: int
    type_size: int
    type_modifier: int
    format: int


def fields(message: Message) -> List[Field]:
    """The columns of a RowDescription."""
    f = CField()
    return [Field(part_of(message.frame, f.name).decode(), f.table_oid, f.column_id, f.type_oid, f.type_size, f.type_modifier, f.format)
            for _ in items(_field_next, message.frame, _cursor(message, 'RowDescription'), f)]


def error_fields(message: Message) -> List[Tuple[str, bytes]]:
    """The fields of an ErrorResponse or a NoticeResponse: a letter that says what each is about, and its value."""
    field = ErrorField()
    place = _cursor(message, 'ErrorResponse', 'NoticeResponse')
    return [(chr(field.code), part_of(message.frame, field.value)) for _ in items(_error_field_next, message.frame, place, field)]


def mechanisms(message: Message) -> List[str]:
    """The mechanisms that an AuthenticationSasl offers."""
    name = Part()
    return [part_of(message.frame, name).decode() for _ in items(_mechanism_next, message.frame, _cursor(message, 'AuthenticationSasl'), name)]


def options(message: Message) -> List[str]:
    """The options that a server doesn't know, of a NegotiateProtocolVersion."""
    name = Part()
    return [part_of(message.frame, name).decode() for _ in items(_option_next, message.frame, _cursor(message, 'NegotiateProtocolVersion'), name)]


def types(message: Message) -> List[int]:
    """The types of a ParameterDescription."""
    number = c_uint32()
    return [number.value for _ in items(_type_next, message.frame, _cursor(message, 'ParameterDescription'), number)]


def formats(message: Message) -> List[int]:
    """The formats of a CopyInResponse, a CopyOutResponse or a CopyBothResponse: 0 for text, 1 for binary."""
    number = c_uint16()
    place = _cursor(message, 'CopyInResponse', 'CopyOutResponse', 'CopyBothResponse')
    return [number.value for _ in items(_format_next, message.frame, place, number)]
