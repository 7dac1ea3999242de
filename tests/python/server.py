"""A server for tests: it logs one client in with SCRAM, and answers each extended query with a row."""
import base64
import hashlib
import hmac
import os


def frame(tag, payload):
    return tag + (len(payload) + 4).to_bytes(4, 'big') + payload


#: Two columns of text.
COLUMNS = frame(b'T', b'\0\2' + b''.join(name + b'\0' * 7 + b'\0\0\0\x19\xff\xff\xff\xff\xff\xff\0\0' for name in (b'a', b'b')))


class Exchange:
    """A server's side of SCRAM after RFC 5802, by python3's hashlib and hmac, up to a client's first text."""

    def __init__(self, password, client_first, rounds=4096):
        self._password, self._rounds, self._salt, self._bare = password, rounds, os.urandom(16), client_first.split(b',', 2)[2]
        self.first = b'r=' + self._bare.split(b'r=')[1] + b'xyz,s=' + base64.b64encode(self._salt) + b',i=%d' % rounds

    def final(self, client_final):
        """Whether the client's final text shows the password's key, and the server's final text."""
        bare, proof = client_final.rsplit(b',p=', 1)
        key = hashlib.pbkdf2_hmac('sha256', self._password, self._salt, self._rounds)
        mac = lambda k, m: hmac.new(k, m, 'sha256').digest()
        stored, said = hashlib.sha256(mac(key, b'Client Key')).digest(), b','.join((self._bare, self.first, bare))
        shown = bytes(a ^ b for a, b in zip(mac(stored, said), base64.b64decode(proof)))
        return hashlib.sha256(shown).digest() == stored, b'v=' + base64.b64encode(mac(mac(key, b'Server Key'), said))


def scram_server(listening, password, seen):
    """A server: SCRAM, and a row for each statement."""
    connection = listening.accept()[0]
    file = connection.makefile('rb')

    def take():
        tag = file.read(1)
        if not tag:
            return tag, b''
        return tag, file.read(int.from_bytes(file.read(4), 'big') - 4)
    file.read(int.from_bytes(file.read(4), 'big') - 4)
    connection.sendall(frame(b'R', b'\0\0\0\x0aSCRAM-SHA-256\0\0'))
    exchange = Exchange(password, take()[1].split(b'\0', 1)[1][4:])
    connection.sendall(frame(b'R', b'\0\0\0\x0b' + exchange.first))
    is_right, final = exchange.final(take()[1])
    seen.append(is_right)
    if not seen[-1]:
        connection.sendall(frame(b'E', b'SFATAL\0C28P01\0Mpassword authentication failed\0\0'))
        return
    connection.sendall(frame(b'R', b'\0\0\0\x0c' + final) + frame(b'R', b'\0\0\0\0') + frame(b'Z', b'I'))
    answers = {b'P': frame(b'1', b''), b'B': frame(b'2', b''), b'D': frame(b't', b'\0\1\0\0\0\x19') + COLUMNS,
               b'E': frame(b'D', b'\0\2\0\0\0\5hello\xff\xff\xff\xff') + frame(b'C', b'SELECT 1\0'), b'S': frame(b'Z', b'I')}
    while True:
        tag, payload = take()
        seen.append((tag, payload))
        if tag in (b'X', b''):
            return
        connection.sendall(answers[tag])
