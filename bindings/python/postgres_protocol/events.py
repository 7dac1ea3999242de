"""What a connection reports: one event for each message of the server, but for rows, which come in batches."""
from dataclasses import dataclass
from typing import Any, Dict, List, Optional, Tuple

from .reading import Field

__all__ = ['Columns', 'CommandCompleted', 'Completed', 'CopyBytes', 'CopyStarted', 'Encryption', 'Event', 'Failed', 'LoggedIn', 'Notice', 'Notification',
           'Parameters', 'PassedOver', 'Ready', 'Rows', 'Setting']


@dataclass(frozen=True)
class Event:
    """What came from the server. `request` is the number of the request that it answers; None where it answers none."""
    request: Optional[int]


@dataclass(frozen=True)
class Encryption(Event):
    """The answer to the request for encryption: where it is accepted, TLS follows at once."""
    accepted: bool


@dataclass(frozen=True)
class LoggedIn(Event):
    """The log-in is done, and the server is ready."""


@dataclass(frozen=True)
class Ready(Event):
    """The server is ready for the next request: `I` outside a transaction, `T` in one, `E` in one that failed."""
    status: str


@dataclass(frozen=True)
class Completed(Event):
    """A message that says that a step is done: ParseComplete, BindComplete, CloseComplete, NoData, PortalSuspended, EmptyQueryResponse, CopyDone."""
    kind: str


@dataclass(frozen=True)
class Parameters(Event):
    """The types of a statement's parameters."""
    types: List[int]


@dataclass(frozen=True)
class Columns(Event):
    """The columns of the rows that follow, or of a described statement or portal."""
    fields: List[Field]


@dataclass(frozen=True)
class Rows(Event):
    """Rows, in the order in which they came."""
    rows: List[Tuple[Any, ...]]


@dataclass(frozen=True)
class CommandCompleted(Event):
    """A statement is done, with the server's tag, as `INSERT 0 5`."""
    tag: str


@dataclass(frozen=True)
class CopyStarted(Event):
    """A copy begins: `CopyInResponse` where data are to be sent, `CopyOutResponse` where they follow, `CopyBothResponse` (replication) both ways; the format of each column, 0 for text."""
    kind: str
    formats: List[int]


@dataclass(frozen=True)
class CopyBytes(Event):
    """Data of a copy from the server."""
    data: bytes


@dataclass(frozen=True)
class Failed(Event):
    """An error, by the letters of its fields (`C` the SQLSTATE, `M` the message). Where `request` is None the session is over."""
    fields: Dict[str, str]


@dataclass(frozen=True)
class PassedOver(Event):
    """The server passes over the request, as over what stands behind an error up to the next Sync: no message answers it."""


@dataclass(frozen=True)
class Notice(Event):
    """A notice, by the letters of its fields."""
    fields: Dict[str, str]


@dataclass(frozen=True)
class Notification(Event):
    """A NOTIFY of a session on a channel that is listened to."""
    process_id: int
    channel: str
    payload: str


@dataclass(frozen=True)
class Setting(Event):
    """The value of a setting that the server reports."""
    name: str
    value: str
