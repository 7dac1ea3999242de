"""Texts of a log-in, and escapes for SQL."""
import secrets
from ctypes import POINTER, Structure, byref, c_size_t, c_uint8
from typing import Optional

from ._library import OK, OUT, TEXT, Bytes, ProtocolError, as_bytes, declare, text, writer, written

_escape_literal, _escape_identifier = writer('escape_literal', 'text:text'), writer('escape_identifier', 'text:text')
_md5, _verifier = writer('md5_answer', 'user:text', 'password:text', 'salt:text'), writer('scram_verifier', 'password:text', 'salt:text')


def escape_literal(text: Bytes) -> bytes:
    """The text as a string constant of SQL."""
    return _escape_literal(text)


def escape_identifier(text: Bytes) -> bytes:
    """The text as a quoted identifier of SQL."""
    return _escape_identifier(text)


def md5_answer(user: Bytes, password: Bytes, salt: Bytes) -> bytes:
    """The answer to AuthenticationMd5Password; the salt has 4 bytes."""
    return _md5(user, password, salt)


def scram_verifier(password: Bytes, salt: Bytes) -> bytes:
    """What a server stores of a password; the salt has 16 bytes."""
    return _verifier(password, salt)


_saslprep = writer('saslprep', 'password:text')


def saslprep(password: Bytes) -> bytes:
    """A password as the server uses it: prepared by SASLprep (RFC 4013); as it is where it isn't UTF-8, or SASLprep rejects it."""
    return _saslprep(password)


class _Scram(Structure):
    _fields_ = [('signature', c_uint8 * 32)]


_scram_first = declare('scram_first', c_uint8, *TEXT, *TEXT, *OUT)
_scram_update = declare('scram_update', *TEXT, c_uint8, *TEXT, *TEXT, *TEXT, *OUT, POINTER(c_size_t), POINTER(_Scram))
_scram_finish = declare('scram_finish', POINTER(_Scram), *TEXT, POINTER(c_size_t))
_WRONG_STATE = 66


class Scram:
    """The client's side of SCRAM-SHA-256: `first`, `final` with the server's first text, `verify` with its final one. `certificate` is the hash of
    the server's certificate for tls-server-end-point; with none there is no channel binding. `tls` says that the session is encrypted but the
    server offers no binding, which the server then can check."""

    def __init__(self, password: Bytes, certificate: Optional[Bytes] = None, nonce: Optional[Bytes] = None, tls: bool = False) -> None:
        self._password = as_bytes(password, 'password')
        self._kept: Optional[_Scram] = None
        self._kind, self._certificate = (1 if tls else 0, b'') if certificate is None else (2, as_bytes(certificate, 'certificate'))
        self._nonce = as_bytes(nonce, 'nonce') if nonce is not None else secrets.token_urlsafe(18).encode()

    def first(self) -> bytes:
        """What to send in `sasl_initial_response`."""
        return written(lambda *out: _scram_first(self._kind, *text(self._certificate), *text(self._nonce), *out))

    def final(self, server_first: Bytes) -> bytes:
        """The answer to the server's first text."""
        at, kept, said = c_size_t(), _Scram(), as_bytes(server_first, 'server_first')
        start = (*text(self._password), self._kind, *text(self._certificate), *text(self._nonce), *text(said))
        self._kept = None
        try:
            answer = written(lambda *out: _scram_update(*start, *out, byref(at), byref(kept)), 1024)
        except ProtocolError as error:
            raise ProtocolError(error.status, at.value) from None
        self._kept = kept
        return answer

    def verify(self, server_final: Bytes) -> None:
        """Checks that the text shows the signature of the password's verifier. Raises ProtocolError otherwise, and `ScramWrongState` where
        `final` made no answer before."""
        at, said = c_size_t(), as_bytes(server_final, 'server_final')
        status = _WRONG_STATE if self._kept is None else _scram_finish(byref(self._kept), *text(said), byref(at))
        if status != OK:
            raise ProtocolError(status, at.value)
