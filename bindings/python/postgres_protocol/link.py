"""A transport of asyncio to a server, with the calls of `Wire`; and turns: first come, first served."""
import asyncio
import ssl as tls
from collections import deque
from typing import Any, Awaitable, Callable, Deque, List, Mapping, Optional

from .connection import Connection as Core, Encrypts, LogInError
from .errors import Broken, OperationalError, Timeout
from .session import ENCRYPT, READ, Flow
from .settings import Place
from .wire import Cancelling, Limits, agree, reached

#: So many bytes are kept that nobody has asked for yet; then the server has to wait.
_MOST = 262144


class Link(Limits, asyncio.Protocol):
    """Bytes sent and read up to a limit of time. What comes is kept until a call asks for it."""
    def __init__(self, place: Place, core: Any, limit: Optional[float] = None) -> None:
        super().__init__(limit)
        self.place, self.is_encrypted = place, False
        self._core, self._data, self._size = core, [], 0  # type: Any, List[bytes], int
        self._lost: Optional[Broken] = None
        self._transport: Any = None
        self._is_full = self._is_held = self._is_gone = False
        self._waiter: Optional['asyncio.Future[None]'] = None

    async def connect(self) -> None:
        """Opens the channel."""
        loop, place = asyncio.get_running_loop(), self.place
        try:
            if place.is_local:
                await loop.create_unix_connection(lambda: self, place.path)
            else:
                await loop.create_connection(lambda: self, place.address, place.port)
        except OSError as error:
            raise Broken('no connection to %s: %s' % (place, error)) from error
        try:
            self.place = reached(place, self._transport.get_extra_info('socket'))
        except BaseException:
            self.close()
            raise

    def connection_made(self, transport: asyncio.BaseTransport) -> None:
        self._transport = transport

    def data_received(self, data: bytes) -> None:
        self._data.append(data)
        self._size += len(data)
        if self._size > _MOST and not self._is_held:
            self._is_held = True
            self._transport.pause_reading()
        self._wake()

    def eof_received(self) -> None:
        self._lost = self._lost or Broken('the server closed the connection')
        self._wake()

    def connection_lost(self, error: Optional[Exception]) -> None:
        self._is_gone = True
        self._lost = self._lost or Broken('the connection broke: %s' % error if error else 'the server closed the connection')
        self._wake()

    def pause_writing(self) -> None:
        self._is_full = True

    def resume_writing(self) -> None:
        self._is_full = False
        self._wake()

    def _wake(self, error: Optional[Exception] = None) -> None:
        if self._waiter is not None and not self._waiter.done():
            if error is None:
                self._waiter.set_result(None)
            else:
                self._waiter.set_exception(error)

    async def _wait(self) -> None:
        """Waits for a change, up to the limit."""
        self.is_waiting = True
        loop, left = asyncio.get_running_loop(), self._left()
        self._waiter = loop.create_future()
        timer = None if left is None else loop.call_later(left, self._wake, Timeout('no answer within %g s' % (self._limit or 0)))
        try:
            await self._waiter
        finally:
            self._waiter = None
            if timer is not None:
                timer.cancel()
        self.is_waiting = False

    def write(self) -> None:
        """Hands over what is to be sent."""
        data = self._core.data_to_send()
        if data and self._lost is None:
            self._transport.write(data)

    async def exchange(self) -> None:
        """Sends what is to be sent, and waits for bytes."""
        self.write()
        if self._data and self._end is not None:
            self.is_waiting = True
            self._left()
            self.is_waiting = False
        while not self._data:
            if self._lost is not None:
                raise self._lost
            await self._wait()
        self._deliver()

    def _deliver(self) -> None:
        """Gives the core what came, and reads on."""
        self._core.receive_data(b''.join(self._data))
        self._data, self._size = [], 0
        if self._is_held and self._lost is None:
            self._is_held = False
            self._transport.resume_reading()

    async def flush(self) -> None:
        """Sends what is to be sent, and waits until most of it is gone; what comes meanwhile is read, so that neither side waits for the other for ever."""
        self.write()
        while self._is_full and self._lost is None:
            await self._wait()
            self._deliver()
        if self._lost is not None and not self._data:
            raise self._lost

    async def encrypt(self, context: tls.SSLContext, encrypts: Encrypts) -> Optional[bytes]:
        """Encrypts the channel; the server's certificate."""
        if self._data:
            raise LogInError('the server sent bytes before the channel was encrypted')
        try:
            self._transport = await asyncio.get_running_loop().start_tls(self._transport, self, context, server_hostname=self.place.host or self.place.address)
        except OSError as error:
            raise OperationalError('no encryption: %s' % error) from error
        self.is_encrypted = True
        channel = self._transport.get_extra_info('ssl_object')
        agree(channel.selected_alpn_protocol(), encrypts)
        certificate: Optional[bytes] = channel.getpeercert(True)
        return certificate

    def close(self) -> None:
        """Closes the channel: what is written is sent."""
        self._lost = self._lost or Broken('the connection is closed')
        if self._transport is not None:
            self._transport.close()
        self._wake()

    async def closed(self, limit: float) -> None:
        """Waits until it is closed, but not for ever."""
        self.set_limit(limit)
        try:
            while self._transport is not None and not self._is_gone:
                await self._wait()
        except Timeout:
            pass


async def drive(flow: Flow, acts: Mapping[str, Callable[[], Awaitable[Any]]]) -> Any:
    """Carries out what a generator yields, up to its end; what an act raises is raised in it."""
    step: Callable[[Any], str] = flow.send
    value: Any = None
    while True:
        try:
            wanted = step(value)
            step = flow.send
            value = await acts[wanted]()
        except BaseException as error:
            if flow.gi_frame is None:
                if isinstance(error, StopIteration):
                    return error.value
                raise
            step, value = flow.throw, error


async def cancel(place: Place, core: Core, encrypts: Encrypts, context: Callable[[], tls.SSLContext], limit: float = 5) -> None:
    """Asks the server to cancel what runs; returns once the server has it."""
    request = Cancelling(core, encrypts)
    link = Link(place, request, limit)

    async def run() -> None:
        await link.connect()
        try:
            await drive(request.run(), {READ: link.exchange, ENCRYPT: lambda: link.encrypt(context(), encrypts)})
        finally:
            link.close()
    try:
        await asyncio.wait_for(run(), limit)
    except (OSError, asyncio.TimeoutError) as error:
        raise OperationalError('no request to cancel: %s' % error) from error


class Turns:
    """So many places, which are given to those that wait in their order."""

    def __init__(self, places: int = 1) -> None:
        self._free, self.waiting = places, deque()  # type: int, Deque[asyncio.Future[None]]

    async def take(self, limit: Optional[float], why: str) -> None:
        """Waits for a place. Who doesn't get one, or is cancelled, has none."""
        if self._free and not self.waiting:
            self._free -= 1
            return
        loop = asyncio.get_running_loop()
        turn: 'asyncio.Future[None]' = loop.create_future()
        self.waiting.append(turn)
        timer = None if limit is None else loop.call_later(limit, self._late, turn, Timeout(why % limit))
        try:
            await turn
        except BaseException:
            if turn in self.waiting:
                self.waiting.remove(turn)
            elif not turn.cancelled() and turn.exception() is None:
                self.give()
            raise
        finally:
            if timer is not None:
                timer.cancel()

    def _late(self, turn: 'asyncio.Future[None]', error: Timeout) -> None:
        if not turn.done():
            self.waiting.remove(turn)
            turn.set_exception(error)

    def give(self) -> None:
        """Gives a place back."""
        while self.waiting:
            turn = self.waiting.popleft()
            if not turn.done():
                turn.set_result(None)
                return
        self._free += 1
