"""A socket to a server: bytes sent and read up to a limit of time, TLS, and requests to cancel."""
import math
import pwd
import select
import socket
import ssl as tls
import struct
import time
from typing import Any, Callable, Mapping, Optional

from . import cancel_request, ssl_request
from .connection import Connection as Core, Encrypts
from .errors import Broken, OperationalError, Timeout
from .session import ENCRYPT, READ, SEND, Flow
from .settings import PROTOCOL, Place

_READ, _PIECE = select.POLLIN | select.POLLHUP | select.POLLERR, 262144


class Limits:
    """How long a call may take. `is_waiting` says, where it was broken off, that it was while it waited: then no byte is lost."""

    def __init__(self, limit: Optional[float]) -> None:
        self.set_limit(limit)

    def set_limit(self, limit: Optional[float]) -> None:
        """From now on no call takes longer than so many seconds together; None and infinity are no limit."""
        self._limit, self._end = limit, None if limit is None or limit == math.inf else time.monotonic() + limit
        self._is_late = self.is_waiting = False

    def _left(self) -> Optional[float]:
        """The time that is left; once 0, so that what has come by then is read."""
        if self._end is None:
            return None
        left = self._end - time.monotonic()
        if left > 0:
            return left
        if self._is_late:
            raise Timeout('no answer within %g s' % (self._limit or 0))
        self._is_late = True
        return 0

    def close(self) -> None:
        """Closes the channel."""
        raise NotImplementedError


class Wire(Limits):
    """A socket that goes on reading while it sends, so that neither side waits for the other for ever."""

    def __init__(self, place: Place, core: Any, limit: Optional[float]) -> None:
        super().__init__(limit)
        self._core, self._unsent = core, memoryview(b'')
        sock = connected(place, limit)
        try:
            #: The server, at the address that answered.
            self.place = reached(place, sock)
        except BaseException:
            sock.close()
            raise
        self._take(sock)

    def _take(self, sock: socket.socket) -> None:
        sock.setblocking(False)
        self._sock = sock
        self._reading, self._both = select.poll(), select.poll()
        self._reading.register(sock, select.POLLIN)
        self._both.register(sock, select.POLLIN | select.POLLOUT)

    def _wait(self, poll: 'select.poll', timeout: Optional[float] = None) -> int:
        """Waits for the socket; what it is ready for, or 0."""
        while True:
            self.is_waiting = True
            left = self._left() if timeout is None else timeout
            ready = poll.poll(None if left is None else left * 1000)
            self.is_waiting = False
            if ready or timeout is not None:
                return ready[0][1] if ready else 0

    def encrypt(self, context: tls.SSLContext, encrypts: Encrypts) -> Optional[bytes]:
        """Encrypts the channel; the server's certificate."""
        sock = self._sock
        sock.settimeout(self._left())
        try:
            self._take(context.wrap_socket(sock, server_hostname=self.place.host or self.place.address))
        except socket.timeout as error:
            raise Timeout('no encryption within %s s' % self._limit) from error
        except OSError as error:
            raise OperationalError('no encryption: %s' % error) from error
        if not isinstance(self._sock, tls.SSLSocket):
            return None
        agree(self._sock.selected_alpn_protocol(), encrypts)
        return self._sock.getpeercert(True)

    @property
    def is_encrypted(self) -> bool:
        """Whether the channel is encrypted."""
        return isinstance(self._sock, tls.SSLSocket)

    def exchange(self) -> None:
        """Sends what is to be sent, and waits for bytes."""
        self.send(self._core.data_to_send())
        self.read()

    def read(self, timeout: Optional[float] = None) -> bool:
        """Waits for bytes; False where none came in this time."""
        is_plain = not isinstance(self._sock, tls.SSLSocket)
        while True:
            if is_plain and not self._wait(self._reading, timeout):
                return False
            try:
                data = self._sock.recv(_PIECE)
            except (BlockingIOError, tls.SSLWantReadError):
                is_plain = True
                continue
            except tls.SSLWantWriteError:
                self._wait(self._both)
                continue
            except OSError as error:
                raise Broken('the connection broke: %s' % error) from error
            if not data:
                raise Broken('the server closed the connection')
            self._core.receive_data(data)
            return True

    def send(self, data: bytes) -> None:
        """Sends all of the bytes, behind those that a call that was broken off has left."""
        self._unsent = memoryview(bytes(self._unsent) + data) if self._unsent else memoryview(data)
        while self._unsent:
            try:
                self._unsent = self._unsent[self._sock.send(self._unsent):]
            except (BlockingIOError, tls.SSLWantWriteError, tls.SSLWantReadError):
                if self._wait(self._both) & _READ:
                    self.read(0)
            except OSError as error:
                self._unsent = memoryview(b'')
                self.read(0)  # (the server's last words may be there)
                raise Broken('the connection broke: %s' % error) from error

    def flush(self) -> None:
        """Sends what is to be sent."""
        self.send(self._core.data_to_send())

    def break_off(self) -> None:
        """Ends the call that another thread waits in."""
        try:
            socket.socket.shutdown(self._sock, socket.SHUT_RDWR)
        except OSError:
            pass

    def close(self) -> None:
        """Closes the socket."""
        self._sock.close()


def drive(flow: Flow, acts: Mapping[str, Callable[[], Any]]) -> Any:
    """Carries out what a generator yields, up to its end; what an act raises is raised in it."""
    step: Callable[[Any], str] = flow.send
    value: Any = None
    while True:
        try:
            wanted = step(value)
            step = flow.send
            value = acts[wanted]()
        except BaseException as error:
            if flow.gi_frame is None:
                if isinstance(error, StopIteration):
                    return error.value
                raise
            step, value = flow.throw, error


def connected(place: Place, limit: Optional[float]) -> socket.socket:
    """A socket to a host, or to the Unix socket in a folder."""
    try:
        if place.is_local:
            sock = socket.socket(socket.AF_UNIX)
            sock.settimeout(limit)
            sock.connect(place.path)
            return sock
        sock = socket.create_connection((place.address, place.port), limit)
        sock.setsockopt(socket.IPPROTO_TCP, socket.TCP_NODELAY, 1)
        sock.setsockopt(socket.SOL_SOCKET, socket.SO_KEEPALIVE, 1)
        return sock
    except socket.timeout as error:
        raise Timeout('no connection to %s within %s s' % (place, limit)) from error
    except OSError as error:
        raise Broken('no connection to %s: %s' % (place, error)) from error


def reached(place: Place, sock: Any) -> Place:
    """The place at the address that answered. Over a Unix socket its process has to be that of the user that `requirepeer` names."""
    if not place.is_local:
        return place._replace(host=place.host or place.address, address=sock.getpeername()[0])
    if place.peer:
        number = struct.unpack('3i', sock.getsockopt(socket.SOL_SOCKET, socket.SO_PEERCRED, 12))[1]
        try:
            name = pwd.getpwuid(number).pw_name
        except KeyError:
            name = str(number)
        if name != place.peer:
            raise OperationalError('requirepeer: the server runs as %r, not as %r' % (name, place.peer))
    return place


def agree(protocol: Optional[str], encrypts: Encrypts) -> None:
    """A channel that is encrypted from its first byte is for this protocol alone, as in libpq, so that no server of another one is spoken to."""
    if encrypts == 'direct' and protocol != PROTOCOL:
        raise OperationalError('no encryption: the server does not say that the channel is for the protocol %r' % PROTOCOL)


class Cancelling:
    """A request to cancel what a connection runs, over a channel of its own, which is encrypted where that of the connection is."""

    def __init__(self, core: Core, encrypts: Encrypts) -> None:
        if not core.secret_key:
            raise OperationalError('the server gave no key to cancel with')
        self._request, self._encrypts = cancel_request(core.process_id, core.secret_key), encrypts
        self._out, self._in = b'', b''

    def data_to_send(self) -> bytes:
        """What is to be sent; it is handed out once."""
        data, self._out = self._out, b''
        return data

    def receive_data(self, data: bytes) -> None:
        """Takes bytes that came."""
        self._in += data

    def run(self) -> Flow:
        """Sends it, and waits until the server has it: then it closes the channel."""
        if self._encrypts is True:
            self._out = ssl_request()
            yield READ
            if self._in != b'S':
                raise OperationalError('the server does not encrypt the request to cancel')
        if self._encrypts:
            yield ENCRYPT
        self._out = self._request
        try:
            yield READ
        except Broken:
            pass


def cancel(place: Place, core: Core, encrypts: Encrypts, context: Callable[[], tls.SSLContext], limit: float = 5) -> None:
    """Asks the server to cancel what runs; returns once the server has it."""
    request = Cancelling(core, encrypts)
    wire = Wire(place, request, limit)
    try:
        drive(request.run(), {READ: wire.exchange, SEND: wire.flush, ENCRYPT: lambda: wire.encrypt(context(), encrypts)})
    finally:
        wire.close()
