"""Which of a server's messages answers which of a client's requests."""
import ctypes
from ctypes import POINTER, Structure, byref, c_bool, c_size_t, c_uint8, c_uint64
from typing import Callable, NamedTuple, Optional

from ._library import DONE, NO_ROOM, OK, ProtocolError, as_integer, declare
from .reading import KINDS

#: What may be asked, in the order of the library's numbers.
REQUESTS = ('Startup', 'Query', 'Parse', 'Bind', 'Close', 'DescribeStatement', 'DescribePortal', 'Execute', 'FunctionCall', 'Sync', 'CopyDone', 'CopyFail')
_KINDS = {kind: number for number, kind in enumerate(KINDS) if kind}
_ASKED = {request: number for number, request in enumerate(REQUESTS)}


class _Slot(Structure):
    _fields_ = [('name', c_uint64), ('request', c_uint8)]


class DialogueState(Structure):
    """What the library keeps of a dialogue."""
    _fields_ = [('room', POINTER(_Slot)), ('room_len', c_size_t), ('start', c_size_t), ('end', c_size_t), ('name', c_uint64), ('stage', c_uint8)]


class _Event(Structure):
    _fields_ = [('name', c_uint64), ('what', c_uint8)]


_ask = declare('dialogue_ask', POINTER(DialogueState), c_uint8, c_uint64)
_take = declare('dialogue_take', POINTER(DialogueState), c_uint8, POINTER(_Event))
_is_idle = declare('dialogue_is_idle', POINTER(DialogueState), POINTER(c_bool))
_first_open = declare('dialogue_first_open', POINTER(DialogueState), POINTER(c_uint64))
_PART, _LAST, _ASIDE = 1, 2, 3


class Taken(NamedTuple):
    """What a message is to the requests: the number of the one that it answers, and whether it is the answer's last message. `request` is
    None for notices, notifications and settings, and, with `is_last`, for an error that ends the session."""
    request: Optional[int]
    is_last: bool


class Requests:
    """The requests whose answers are to come, in memory that grows."""

    def __init__(self, dialogue: DialogueState, room: int = 64) -> None:
        self._room = (_Slot * max(room, 1))()
        self._dialogue = dialogue
        dialogue.room, dialogue.room_len = self._room, len(self._room)

    def _asked(self, request: int, name: int) -> int:
        return _ask(byref(self._dialogue), request, name)

    def ask(self, request: str, name: int) -> None:
        """Takes note of a request (one of `REQUESTS`) with the asker's own number."""
        if request not in _ASKED:
            raise ValueError('request: one of %s is expected, not %r' % (', '.join(REQUESTS), request))
        number = as_integer(name, 'name', 0, 2 ** 64 - 1)
        status = self._asked(_ASKED[request], number)
        if status == NO_ROOM:
            self.widen()
            status = self._asked(_ASKED[request], number)
        if status != OK:
            raise ProtocolError(status)

    @property
    def first_open(self) -> Optional[int]:
        """The number of the first request that is to end; None where all have ended. Those that were asked before it have ended: the last message of their
        answer was taken, or the server passes over them, as over an Execute behind a Bind that failed."""
        number = c_uint64()
        status = _first_open(byref(self._dialogue), byref(number))
        if status == DONE:
            return None
        if status != OK:
            raise ProtocolError(status)
        return number.value

    @property
    def address(self) -> int:
        """The state's address, for a call in C."""
        return ctypes.addressof(self._dialogue)

    def widen(self) -> None:
        """Makes more room."""
        wider = (_Slot * (4 * len(self._room)))()
        ctypes.memmove(wider, self._room, ctypes.sizeof(self._room))
        self._room, self._dialogue.room, self._dialogue.room_len = wider, wider, len(wider)

    @staticmethod
    def _flag(call: Callable[..., int], state: Structure) -> bool:
        """A flag of the state, by the call that reads it."""
        flag = c_bool()
        status = call(byref(state), byref(flag))
        if status != OK:
            raise ProtocolError(status)
        return flag.value


class Dialogue(Requests):
    """Requests are asked in the order in which they are sent, and each message of the server is taken as it comes: `take` says which
    request it answers. No answer is attributed to another request; a message that has no place raises ProtocolError `Unexpected`, and
    the error of a copy where a Sync was sent before its data's end `Uncertain`: the connection is to be closed then."""

    def __init__(self, room: int = 64) -> None:
        super().__init__(DialogueState(), room)
        self._event = _Event()

    def take(self, kind: str) -> Taken:
        """Takes the server's next message, by its kind."""
        if kind not in _KINDS:
            raise ValueError('kind: the kind of a message is expected, not %r' % (kind,))
        status = _take(byref(self._dialogue), _KINDS[kind], byref(self._event))
        if status != OK:
            raise ProtocolError(status)
        what = self._event.what
        return Taken(self._event.name if what in (_PART, _LAST) else None, what not in (_PART, _ASIDE))

    @property
    def is_idle(self) -> bool:
        """Whether no request awaits an answer."""
        return self._flag(_is_idle, self._dialogue)
