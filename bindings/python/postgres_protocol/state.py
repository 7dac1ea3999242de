"""What the library keeps of a client's connection: the log-in, which message answers which request, the status and the key (`pgp_connection_*`)."""
import ctypes
import secrets
from ctypes import POINTER, Structure, byref, c_bool, c_char_p, c_int32, c_size_t, c_uint8, c_uint32, c_uint64, c_void_p
from typing import Dict, List, NamedTuple, Optional, Sequence, Tuple

from ._library import OK, OUT, UINT32, ProtocolError, as_integer, declare, text
from .auth import saslprep
from .dialogue import REQUESTS, DialogueState, Requests
from .writing import VERSION_3_0, VERSION_3_2


class LogInError(Exception):
    """The log-in asks for what isn't admitted, or the server doesn't show that it knows the password."""


class _Text(Structure):
    _fields_ = [('bytes', c_char_p), ('len', c_size_t)]


class _Ways(Structure):
    _fields_ = [('user', _Text), ('password', _Text), ('certificate', _Text), ('nonce', _Text), ('least_rounds', c_uint32), ('limit', c_uint32), ('ways', c_uint8),
                ('kind', c_uint8), ('is_encrypted', c_bool), ('versions', c_uint8)]


class _LogIn(Structure):
    _fields_ = [('phase', c_uint8), ('signature', c_uint8 * 32)]


class _Connection(Structure):
    _fields_ = [('dialogue', DialogueState), ('settings', c_size_t * 3), ('key_len', c_size_t), ('process_id', c_int32), ('is_over', c_bool), ('status', c_uint8),
                ('login', _LogIn), ('secret_key', c_uint8 * 256), ('version', c_uint8)]


class _Taken(Structure):
    _fields_ = [('name', c_uint64), ('frame', c_size_t), ('what', c_uint8)]


_take = declare('connection_take', POINTER(_Connection), POINTER(_Ways), c_void_p, c_size_t, *OUT, POINTER(_Taken))
_ask = declare('connection_ask', POINTER(_Connection), c_uint8, c_uint64)
_is_idle = declare('connection_is_idle', POINTER(_Connection), result=c_bool)
_is_copying = declare('connection_is_copying', POINTER(_Connection), result=c_bool)

#: The versions of the protocol, and which of them a client can ask for, from one to another.
VERSIONS = {'3.0': VERSION_3_0, '3.2': VERSION_3_2}
_ASKED_VERSIONS = {('3.0', '3.0'): 0, ('3.0', '3.2'): 1, ('3.2', '3.2'): 2}
#: The ways of logging in, by the names of libpq's `require_auth`.
METHODS = ('scram-sha-256', 'md5', 'password', 'none')
_BITS = {'none': 1, 'password': 2, 'md5': 4, 'scram-sha-256': 8}
_ASKED = {'AuthenticationOk': 'none', 'AuthenticationCleartextPassword': 'password', 'AuthenticationMd5Password': 'md5', 'AuthenticationSasl': 'scram-sha-256'}
_DONE, _UNDUE, _NOT_ADMITTED, _OTHER_MECHANISM, _TOO_FEW_ROUNDS, _VERIFICATION, _LAST = 4, 89, 90, 91, 92, 76, 2
_BOUND, _ENDS = 'SCRAM-SHA-256-PLUS', (REQUESTS.index('CopyDone'), REQUESTS.index('CopyFail'))


class Step(NamedTuple):
    """What a message of the log-in comes to: its status, what is to be sent, and, of a message that was taken, the request that it answers, whether it is the
    answer's last, and how many bytes it has."""
    status: int
    reply: bytes = b''
    request: Optional[int] = None
    is_last: bool = False
    frame: int = 0


class State(Requests):
    """The state of a connection, and what a log-in needs. No way is admitted that isn't among `ways` (`METHODS`), and none but 'none' without a password.
    `least_rounds` are those that SCRAM has to have; with `must_bind` it has to be bound to the channel (`encrypted`). A message may have `limit` bytes. The
    versions from `oldest` to `newest` are asked for."""

    def __init__(self, user: str, password: Optional[str], ways: Sequence[str], must_bind: bool, least_rounds: int, limit: int, oldest: str, newest: str) -> None:
        if (oldest, newest) not in _ASKED_VERSIONS:
            raise ValueError('min_version, max_version: 3.0 or 3.2 is expected, the first no later than the second, not %r and %r' % (oldest, newest))
        self._oldest, self._newest = oldest, newest
        for way in ways:
            if way not in METHODS:
                raise ValueError('require_auth: one of %s is expected, not %r' % (', '.join(METHODS), way))
        self._connection = _Connection()
        #: Whether a stream both ways is under way, of which the connection's calls know nothing: its end is asked of the dialogue alone.
        self.is_streaming = False
        super().__init__(self._connection.dialogue)
        self._admitted, self._must_bind, self._offered = ('scram-sha-256',) if must_bind else tuple(ways), must_bind, ''
        self._password = b'' if password is None else password.encode(errors='surrogateescape')
        bits = sum(_BITS[way] for way in set(self._admitted) if password is not None or way == 'none')
        self._ways = _Ways(least_rounds=as_integer(least_rounds, 'least_rounds', *UINT32), limit=as_integer(limit, 'max_message', *UINT32), ways=bits,
                           versions=_ASKED_VERSIONS[oldest, newest])
        self._given: Dict[str, bytes] = {}
        self._give(user=user.encode(), password=self._password, certificate=b'', nonce=secrets.token_urlsafe(18).encode())

    def _give(self, **given: bytes) -> None:
        """Hands the library these bytes, which live as long as the state."""
        for name, data in given.items():
            self._given[name] = data
            setattr(self._ways, name, _Text(data, len(data)))

    @property
    def ways_address(self) -> int:
        """Where the library finds what a log-in needs, for a call in C."""
        return ctypes.addressof(self._ways)

    def encrypted(self, certificate: Optional[bytes]) -> None:
        """The channel is encrypted, with this hash of the server's certificate for its binding (None: it has none)."""
        self._ways.is_encrypted = True
        self._give(certificate=certificate or b'')

    def offered(self, mechanisms: List[str]) -> None:
        """The server offers these mechanisms: chooses how an exchange is bound to the channel, and prepares the password for it. 1 says that the client would
        bind it, and that the server didn't offer that."""
        self._offered = ', '.join(mechanisms)
        has_hash = self._ways.certificate.len > 0
        self._ways.kind = 2 if self._must_bind or (has_hash and _BOUND in mechanisms) else int(has_hash)
        self._give(password=saslprep(self._password))

    def _asked(self, request: int, name: int) -> int:
        if self.is_streaming and request in _ENDS:
            status = super()._asked(request, name)
            self.is_streaming = status != OK
            return status
        return _ask(byref(self._connection), request, name)

    def take(self, data: bytes, at: int) -> Step:
        """Takes the message from a place on."""
        base, taken, written = text(data)[0] or 0, _Taken(), c_size_t()
        room = 2 * self._ways.certificate.len + self._ways.password.len + self._ways.nonce.len + len(data) - at + 256
        out = ctypes.create_string_buffer(room)
        status = _take(byref(self._connection), byref(self._ways), base + at, len(data) - at, out, room, byref(written), byref(taken))
        if status != OK:
            return Step(status)
        return Step(OK, out.raw[:written.value], taken.name if taken.what <= _LAST else None, taken.what in (_LAST, 4), taken.frame)

    @property
    def is_logged_in(self) -> bool:
        """Whether the server let the client in, by an admitted way."""
        return bool(self._connection.login.phase == _DONE)

    @property
    def is_idle(self) -> bool:
        """Whether no request awaits an answer."""
        return bool(_is_idle(byref(self._connection)))

    @property
    def is_copying(self) -> bool:
        """Whether data of a copy may be sent."""
        return self.is_streaming or bool(_is_copying(byref(self._connection)))

    @property
    def is_over(self) -> bool:
        """Whether the session has ended."""
        return bool(self._connection.is_over)

    def end(self) -> None:
        """The session ends, as with Terminate."""
        self._connection.is_over = True

    @property
    def status(self) -> str:
        """`I`, `T` or `E`, as the last ReadyForQuery said; empty before the first."""
        return chr(self._connection.status) if self._connection.status else ''

    @property
    def version(self) -> str:
        """The version that is spoken: that of the startup packet, or the one that the server answered."""
        spoken: str = (self._newest, *VERSIONS)[self._connection.version]
        return spoken

    @property
    def key(self) -> Tuple[int, bytes]:
        """The number and the key for a cancel request."""
        return self._connection.process_id, bytes(self._connection.secret_key[:self._connection.key_len])

    def why(self, kind: str, status: int) -> str:
        """The words of a log-in that this status ended at a message of this kind."""
        way = _ASKED.get(kind, '')
        if status == _NOT_ADMITTED and not way:
            return 'the server asks for %s, which is not supported' % kind
        if status == _NOT_ADMITTED and way == 'none':
            return 'the server asks for no password, which require_auth does not admit'
        if status == _NOT_ADMITTED and way not in self._admitted:
            return 'the server asks for %s, which require_auth does not admit' % way
        if status == _NOT_ADMITTED and self._ways.ways & _BITS[way]:
            return 'the server offers %s, and the channel is not encrypted: its encryption may have been taken away' % self._offered
        if status == _NOT_ADMITTED:
            return 'the server asks for a password, and none is given (password=, PGPASSWORD, or a password file)'
        if status == _OTHER_MECHANISM and self._must_bind:
            return 'the server offers no channel binding'
        if status == _OTHER_MECHANISM:
            return 'the server offers %s, of which none is supported' % self._offered
        if status == _VERIFICATION or (status == _UNDUE and way == 'none'):
            return 'the server did not show that it knows the password'
        if status == _TOO_FEW_ROUNDS:
            return 'the server asks for fewer than %d rounds of SCRAM (least_rounds)' % self._ways.least_rounds
        if status == _UNDUE and kind == 'NegotiateProtocolVersion':
            return 'the server names a version of the protocol, or an option, that was not asked for (versions %s to %s were)' % (self._oldest, self._newest)
        return 'the server sent %s, which %s' % (kind, 'has no place there' if status == _UNDUE else 'is rejected: %s' % ProtocolError(status))
