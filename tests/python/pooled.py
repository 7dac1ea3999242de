"""What clients get of a pooler or a proxy in front of a server that stands here: `pooled` and `proxied` return what isn't right. The server lets everybody in, and answers
a Query by a row with its text and the number of the connection; each transaction's rows have to come over one."""
import socket
import struct
import threading

from server import frame

STARTUP = struct.pack('>II', 17, 196608) + b'user\0al\0\0'


class Side:
    """A socket, read by messages."""

    def __init__(self, connection):
        connection.settimeout(60)
        self.connection, self.file = connection, connection.makefile('rb')

    def packet(self):
        return self.file.read(int.from_bytes(self.file.read(4), 'big') - 4)

    def take(self):
        tag = self.file.read(1)
        return tag, self.packet() if tag else b''

    def say(self, *frames):
        self.connection.sendall(b''.join(frames))


class Server:
    """Counts its connections, of which none asks for a password."""

    def __init__(self):
        self.listening, self.count = socket.create_server(('127.0.0.1', 0)), 0
        self.port = str(self.listening.getsockname()[1])
        threading.Thread(target=self.accept, daemon=True).start()

    def accept(self):
        while True:
            side = Side(self.listening.accept()[0])
            self.count += 1
            threading.Thread(target=self.serve, args=(side, self.count), daemon=True).start()

    def serve(self, side, number):
        side.packet()
        side.say(frame(b'R', b'\0\0\0\0'), frame(b'S', b'DateStyle\0ISO\0'), frame(b'K', struct.pack('>II', 1, 2)), frame(b'Z', b'I'))
        status = b'I'
        while (asked := side.take())[0] == b'Q':
            text = asked[1][:-1]
            status = {b'BEGIN': b'T', b'END': b'I'}.get(text, status)
            values = [text, b'%d' % number]
            row = frame(b'D', struct.pack('>H', 2) + b''.join(struct.pack('>I', len(value)) + value for value in values))
            side.say(frame(b'T', b'\0\0'), row, frame(b'C', b'SELECT 1\0'), frame(b'Z', status))


def client(port):
    """A client that is in."""
    side = Side(socket.create_connection(('127.0.0.1', int(port))))
    side.say(struct.pack('>II', 8, 80877103))
    assert side.file.read(1) == b'N', 'a request for encryption is answered otherwise than by N'
    side.say(STARTUP)
    kinds = []
    while not kinds or kinds[-1] != b'Z':
        kinds.append(side.take()[0])
    assert kinds[0] == b'R' and b'S' in kinds, kinds
    return side


def asks(side, text):
    """The two values of a row, or the tag that stands in its place."""
    side.say(frame(b'Q', text + b'\0'))
    seen = []
    while not seen or seen[-1][0] != b'Z':
        seen.append(side.take())
        if not seen[-1][0]:
            return None
    rows = [payload for tag, payload in seen if tag == b'D']
    return [rows[0][6:6 + struct.unpack('>I', rows[0][2:6])[0]], rows[0][-1:]] if rows else seen[0][0]


def transactions(port, name, wrong):
    side = client(port)
    for turn in range(20):
        text = b'%d %d %s' % (name, turn, b'x' * (turn * 100))
        rows = [asks(side, one) for one in (b'BEGIN', text, b'END')]
        if [row[0] for row in rows] != [b'BEGIN', text, b'END'] or len({row[1] for row in rows}) != 1:
            wrong.append(f'{name} {turn}: {rows}')
    side.say(frame(b'X', b''))


def pooled(port, server, most, clients=8):
    """Transactions of more clients than there are connections; one that leaves in the midst of its own; and that a message waits whose rest comes later."""
    wrong = []
    leaving = client(port)
    asks(leaving, b'BEGIN')
    leaving.connection.shutdown(socket.SHUT_RDWR)
    threads = [threading.Thread(target=transactions, args=(port, name, wrong)) for name in range(clients)]
    for thread in threads:
        thread.start()
    for thread in threads:
        thread.join(60)
    if server.count > most + 1:
        wrong.append(f'{server.count} connections, of which {most} are to be, and one anew')
    slow, quick = client(port), client(port)
    slow.say(frame(b'Q', b'late\0')[:7])
    for _ in range(most + 1):
        wrong += [] if asks(quick, b'now')[0] == b'now' else ['a client waits for a message of another']
    slow.say(frame(b'Q', b'late\0')[7:])
    return wrong + ([] if slow.take()[0] == b'T' else ['what came in two pieces'])


def proxied(port):
    """`SELECT secret` is held back, and the server gets a statement in its place."""
    side = client(port)
    came = [asks(side, text)[0] for text in (b'one', b'SELECT secret', b'two')]
    return [] if came[0] == b'one' and came[1].startswith(b'DO $$BEGIN RAISE') and came[2] == b'two' else [came]
