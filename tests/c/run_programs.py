"""run_programs.py FOLDER: runs the five programs of examples/c: three against bytes of this file's own, worked by hand after the manual, the
server against the two that log in, and the pooler between clients and a server of tests/python/pooled.py."""
import os
import socket
import subprocess
import sys
import threading
import time

sys.path.insert(0, os.path.join(os.path.dirname(os.path.abspath(__file__)), '..', 'python'))
import pooled  # noqa: E402
from server import frame, scram_server  # noqa: E402

folder = sys.argv[1]
failed = 0


def same(what, got, want):
    global failed
    if got != want:
        failed += 1
        print('FAIL %s: %r, not %r' % (what, got, want))


def program(name, *arguments, data=b'', password=''):
    run = subprocess.run([os.path.join(folder, name + '_program'), *arguments], input=data, capture_output=True, timeout=60,
                         env={**os.environ, 'PGPASSWORD': password})
    return run.returncode, run.stdout, run.stderr


def serving(work, *arguments):
    listening = socket.create_server(('127.0.0.1', 0))
    thread = threading.Thread(target=work, args=(listening, *arguments), daemon=True)
    thread.start()
    return str(listening.getsockname()[1]), thread


def trusts(listening, seen):
    """A server that asks for no password, and sends each message a byte at a time."""
    connection = listening.accept()[0]
    file = connection.makefile('rb')

    def say(data):
        for byte in data:
            connection.sendall(bytes([byte]))
    seen.append(file.read(int.from_bytes(file.read(4), 'big') - 4))
    say(frame(b'R', b'\0\0\0\0') + frame(b'K', b'\0\0\0\1\0\0\0\2') + frame(b'Z', b'I'))
    seen.append(file.read(14))
    say(frame(b'T', b'\0\0') + frame(b'D', b'\0\2\0\0\0\5hello\xff\xff\xff\xff') + frame(b'D', b'\0\1\0\0\0\0') + frame(b'C', b'SELECT 2\0') + frame(b'Z', b'I'))
    seen.append(file.read(5))


seen = []
port, thread = serving(trusts, seen)
same('client', program('client', port, 'alice', 'SELECT 1'), (0, b'hello\tNULL\n\n', b''))
thread.join(10)
same('what the client sent', seen, [b'\0\3\0\0user\0alice\0\0', b'Q\0\0\0\x0dSELECT 1\0', b'X\0\0\0\4'])

row, notice, ready = frame(b'D', b'\0\1\0\0\0\1a'), frame(b'N', b'SNOTICE\0\0'), frame(b'Z', b'I')
same('proxy', program('proxy', data=row + notice + row + frame(b'W', b'') + ready), (0, row + row + ready, b'2 rows, 1 notices dropped, 1 refused, 0 bytes left\n'))
same('proxy, cut', program('proxy', data=row + row[:3]), (1, row, b'1 rows, 0 notices dropped, 0 refused, 3 bytes left\n'))
same('proxy, length fault', program('proxy', data=row + b'Z\0\0\0\3')[:2], (1, row))

seen = []
port, thread = serving(scram_server, b'secret', seen)
same('login', program('login', port, 'alice', 'secret'), (0, b'logged in\n', b''))
thread.join(10)
same('the server accepted', seen[0], True)
seen = []
port, thread = serving(scram_server, b'secret', seen)
same('login, another password', program('login', port, 'alice', 'guessed')[:2], (1, b''))
thread.join(10)
same('the server refused', seen[0], False)


def against_server(name, *arguments, password=''):
    """A program that logs in, against the server program, which has another socket by and by: it is tried until it listens."""
    with socket.create_server(('127.0.0.1', 0)) as free:
        port = str(free.getsockname()[1])
    server = subprocess.Popen([os.path.join(folder, 'server_program'), port, 'secret'])
    for _ in range(100):
        run = program(name, port, 'alice', *arguments, password=password)
        if b': no connection' not in run[2]:
            break
        time.sleep(0.1)
    return run[:2], server.wait(60)


same('login, server', against_server('login', 'secret'), ((0, b'logged in\n'), 1))
same('login, server, another password', against_server('login', 'guessed'), ((1, b''), 1))
same('client, server', against_server('client', 'select 1', password='secret'), ((0, b'select 1\n'), 0))
same('client, server, another password', against_server('client', 'select 1', password='guessed'), ((1, b''), 1))
server = pooled.Server()
with socket.create_server(('127.0.0.1', 0)) as free:
    port = str(free.getsockname()[1])
running = subprocess.Popen([os.path.join(folder, 'pooler_program'), port, server.port, 'al', 'db', '3'], stderr=subprocess.PIPE)
same('pooler, listens', running.stderr.readline(), b'pooler: listening on port %s\n' % port.encode())
same('pooler', pooled.pooled(port, server, 3), [])
running.kill()
print('programs: %d failed' % failed)
sys.exit(failed != 0)
