"""The messages that a client sends, each as its bytes."""
from ctypes import POINTER, c_int16, c_int32, c_size_t, c_uint32
from typing import Any, Iterable, List, Optional, Sequence, Tuple

from ._library import (INT32, OUT, TEXT, Bytes, Pair, Value, as_bytes, as_formats, as_integer, as_types, as_values, declare, text, writer, written)

#: The versions of the protocol.
VERSION_3_0, VERSION_3_2 = 196608, 196610

_query, _execute = writer('query', 'text:text'), writer('execute', 'portal:text', 'max_rows:int32')
_describe, _close = writer('describe', 'variant:letter', 'name:text'), writer('close', 'variant:letter', 'name:text')
_copy_fail, _copy_data, _copy_data_head = writer('copy_fail', 'reason:text'), writer('copy_data', 'data:text'), writer('copy_data_head', 'length:size')
_cancel, _password = writer('cancel_request', 'process_id:int32', 'secret_key:text'), writer('password_message', 'password:text')
_initial, _response = writer('sasl_initial_response', 'mechanism:text', 'response:text'), writer('sasl_response', 'response:text')
_sync, _flush, _terminate, _copy_done, _ssl_request = (writer(name) for name in ('sync', 'flush', 'terminate', 'copy_done', 'ssl_request'))
_parse = declare('parse', *TEXT, *TEXT, POINTER(c_uint32), c_size_t, *OUT)
_bind = declare('bind', *TEXT, *TEXT, POINTER(c_int16), c_size_t, POINTER(Value), c_size_t, POINTER(c_int16), c_size_t, *OUT)
_startup = declare('startup', c_int32, POINTER(Pair), c_size_t, *OUT)


def query(text: Bytes) -> bytes:
    """A simple query of any number of statements."""
    return _query(text)


def sync() -> bytes:
    """Ends a series of extended queries."""
    return _sync()


def flush() -> bytes:
    """Asks the server to send what it holds in its buffer."""
    return _flush()


def terminate() -> bytes:
    """Ends the session."""
    return _terminate()


def copy_data(data: Bytes) -> bytes:
    """Data of a copy."""
    return _copy_data(data)


def copy_data_head(length: int) -> bytes:
    """The 5 bytes before so many bytes of copy data, which need not be copied."""
    return _copy_data_head(length)


def copy_done() -> bytes:
    """Ends the data of a copy."""
    return _copy_done()


def copy_fail(reason: Bytes) -> bytes:
    """Gives a copy up, with a text for the server's error."""
    return _copy_fail(reason)


def ssl_request() -> bytes:
    """Asks for an encrypted session; the server answers with one byte."""
    return _ssl_request()


def cancel_request(process_id: int, secret_key: Bytes) -> bytes:
    """Cancels another session's query, by the number and the key of its BackendKeyData."""
    return _cancel(process_id, secret_key)


def password_message(password: Bytes) -> bytes:
    """A password, or the answer to an MD5 request."""
    return _password(password)


def sasl_initial_response(mechanism: Bytes, response: Bytes) -> bytes:
    """The chosen SASL mechanism, and the first text of its exchange."""
    return _initial(mechanism, response)


def sasl_response(response: Bytes) -> bytes:
    """A later text of a SASL exchange."""
    return _response(response)


def describe(variant: str, name: Bytes) -> bytes:
    """Asks for the parameters and columns of a statement ('S') or a portal ('P')."""
    return _describe(variant, name)


def close(variant: str, name: Bytes) -> bytes:
    """Closes a statement ('S') or a portal ('P')."""
    return _close(variant, name)


def execute(portal: Bytes, max_rows: int = 0) -> bytes:
    """Executes a portal, returning at most `max_rows` rows; 0 is no limit."""
    return _execute(portal, as_integer(max_rows, 'max_rows', 0, INT32[1]))


def parse_words(name: Bytes, sql: Bytes, types: Sequence[int]) -> Tuple[Tuple[Any, ...], object]:
    """The arguments in C of a Parse, and what holds their bytes."""
    one, two, array = as_bytes(name, 'name'), as_bytes(sql, 'sql'), as_types(types)
    return (*text(one), *text(two), array, len(array)), (one, two)


def parse(name: Bytes, sql: Bytes, types: Sequence[int] = ()) -> bytes:
    """Prepares a statement of this name; 0 in the place of a type leaves it to the server."""
    words, _kept = parse_words(name, sql, types)
    return written(lambda *out: _parse(*words, *out))


def bind_words(portal: Bytes, statement: Bytes, formats: Sequence[int], values: Sequence[Optional[Bytes]],
               result_formats: Sequence[int]) -> Tuple[Tuple[Any, ...], object]:
    """The arguments in C of a Bind, and what holds their bytes."""
    one, two = as_bytes(portal, 'portal'), as_bytes(statement, 'statement')
    kept = [None if v is None else as_bytes(v, 'values') for v in values]
    if len(formats) not in (0, 1, len(kept)):
        raise ValueError('formats: none, one or %d are expected, not %d' % (len(kept), len(formats)))
    array, f, r = as_values(kept), as_formats(formats, 'formats'), as_formats(result_formats, 'result_formats')
    return (*text(one), *text(two), f, len(f), array, len(array), r, len(r)), (one, two, kept)


def bind(portal: Bytes, statement: Bytes, formats: Sequence[int], values: Sequence[Optional[Bytes]], result_formats: Sequence[int] = ()) -> bytes:
    """Binds values, of which None is a null; a format is 0 for text and 1 for binary: none, one for all, or one for each."""
    words, _kept = bind_words(portal, statement, formats, values, result_formats)
    return written(lambda *out: _bind(*words, *out))


def pairs_of(pairs: Iterable[Tuple[Bytes, Bytes]]) -> Tuple[Any, List[Tuple[bytes, bytes]]]:
    """An array of names and values, and what holds their bytes."""
    kept = [(as_bytes(a, 'name'), as_bytes(b, 'value')) for a, b in pairs]
    return (Pair * len(kept))(*(Pair(*text(a), *text(b)) for a, b in kept)), kept


def startup(pairs: Iterable[Tuple[Bytes, Bytes]], version: int = VERSION_3_0) -> bytes:
    """Opens a session with these names and values, among them `user`."""
    array, kept = pairs_of(pairs)
    return written(lambda *out: _startup(as_integer(version, 'version', *INT32), array, len(kept), *out))
