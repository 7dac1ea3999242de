#!/usr/bin/env python3
"""Passes the bytes of connections to a port of this machine on to a server and back, and writes down what each side sent.

    relay.py [--tls] [--background] PORT HOST SERVER-PORT FILE.recording            takes one connection, and ends with it
    relay.py [--tls] [--background] PORT HOST SERVER-PORT CLIENT-FILE SERVER-FILE   the same, in a file for each side
    relay.py [--tls] [--background] PORT HOST SERVER-PORT FOLDER                    takes connections, many at a time, until it is interrupted (SIGINT or
                                                                                    SIGTERM): that which came Nth stands in FOLDER/N.recording; the
                                                                                    folder is made if need be

It says on standard error when it listens; with --background it goes on there as a process of its own, and the shell takes the next command.
A recording has both sides (docs/PGTRACE.md); `pgtrace session` lists it, also while it is written. With --tls the server is reached by TLS, whoever it is,
and the client, which connects without, sees a server that declines encryption and offers no log-in that is bound to it: this is what is written down.
"""
import os
import pathlib
import signal
import socket
import ssl
import struct
import sys
import threading
import time

SSL_REQUEST, GSSENC_REQUEST = (struct.pack(">II", 8, code) for code in (80877103, 80877104))
SASL, BOUND = struct.pack(">I", 10), b"SCRAM-SHA-256-PLUS\0"


class Side:
    """What one side sent, in a file of its own."""

    def __init__(self, name):
        self.file = open(name, "wb")

    def add(self, piece):
        self.file.write(piece)
        self.file.flush()


class Recording:
    """What both sides sent, in one file."""

    def __init__(self, name):
        self.file, self.lock = open(name, "wb"), threading.Lock()
        self.file.write(b"pgtrace recording 1\n")
        self.file.flush()

    def add(self, arrow, piece):
        with self.lock:
            self.file.write(arrow + struct.pack(">QI", time.time_ns() // 1000, len(piece)) + piece)
            self.file.flush()

    def side(self, arrow):
        return RecordedSide(self, arrow)


class RecordedSide:
    def __init__(self, recording, arrow):
        self.recording, self.arrow = recording, arrow

    def add(self, piece):
        self.recording.add(self.arrow, piece)


def unbound(piece):
    """What a server sends first, without the offer of a log-in that is bound to TLS, which a client without can't take up."""
    at = 0
    while len(piece) >= at + 9:
        end = at + 1 + int.from_bytes(piece[at + 1 : at + 5], "big")
        body = piece[at + 5 : end]
        if piece[at : at + 1] == b"R" and body.startswith(SASL):
            body = body.replace(BOUND, b"", 1)
            return piece[: at + 1] + struct.pack(">I", len(body) + 4) + body + piece[end:]
        at = end
    return piece


class Encrypted:
    """A server by TLS, read by one thread while another writes: no thread waits for the network while it has the lock."""

    def __init__(self, plain, host):
        context = ssl.SSLContext(ssl.PROTOCOL_TLS_CLIENT)
        context.check_hostname, context.verify_mode = False, ssl.CERT_NONE
        self.plain, self.lock, self.is_first = plain, threading.Lock(), True
        self.coming, self.going = ssl.MemoryBIO(), ssl.MemoryBIO()
        self.stream = context.wrap_bio(self.coming, self.going, server_hostname=host)
        plain.sendall(SSL_REQUEST)
        if plain.recv(1) != b"S":
            raise OSError("the server takes no TLS")
        self.shake_hands()

    def shake_hands(self):
        while True:
            try:
                self.stream.do_handshake()
                return self.send_on()
            except ssl.SSLWantReadError:
                self.send_on()
                self.take_in()

    def take_in(self):
        piece = self.plain.recv(65536)
        with self.lock:
            if piece:
                self.coming.write(piece)
            else:
                self.coming.write_eof()

    def send_on(self):
        with self.lock:
            piece = self.going.read()
        self.plain.sendall(piece)

    def recv(self, size):
        while True:
            try:
                with self.lock:
                    piece = self.stream.read(size)
            except ssl.SSLWantReadError:
                self.take_in()
                continue
            except ssl.SSLZeroReturnError:
                return b""
            first, self.is_first = self.is_first, False
            return unbound(piece) if first else piece

    def sendall(self, piece):
        with self.lock:
            self.stream.write(piece)
        self.send_on()

    def shutdown(self, how):
        try:
            with self.lock:
                self.stream.unwrap()
        except ssl.SSLError:
            pass
        self.send_on()
        self.plain.shutdown(how)


def pass_on(source, target, side):
    """Passes bytes on until their side ends, or the other one takes no more; each piece is written down before it goes on."""
    try:
        while piece := source.recv(262144):
            side.add(piece)
            target.sendall(piece)
    except OSError:
        pass
    try:
        target.shutdown(socket.SHUT_WR)
    except OSError:
        pass


def decline(client, sent, answered):
    """Declines the encryption that a client asks for; what it sends then is left."""
    while client.recv(8, socket.MSG_PEEK | socket.MSG_WAITALL) in (SSL_REQUEST, GSSENC_REQUEST):
        sent.add(client.recv(8))
        answered.add(b"N")
        client.sendall(b"N")


def sides(names):
    """Where what the client sent and what the server sent is written down."""
    if len(names) == 1:
        recording = Recording(names[0])
        return recording.side(b">"), recording.side(b"<")
    client_file, server_file = names
    return Side(client_file), Side(server_file)


def serve(client, address, by_tls, *names):
    """Passes on what both say, to the end; what went wrong, or none."""
    try:
        with client, socket.create_connection(address) as plain:
            for end in (client, plain):
                end.setsockopt(socket.IPPROTO_TCP, socket.TCP_NODELAY, 1)
            server = Encrypted(plain, address[0]) if by_tls else plain
            sent, answered = sides(names)
            if by_tls:
                decline(client, sent, answered)
            back = threading.Thread(target=pass_on, args=(server, client, answered))
            back.start()
            pass_on(client, server, sent)
            back.join()
    except OSError as error:
        where = error.filename or f"{address[0]}, port {address[1]}"
        return f"relay.py: {where}: {error.strerror or error}"
    return None


def serve_all(listener, folder, *words):
    signal.signal(signal.SIGTERM, signal.default_int_handler)

    def one(client, number):
        if wrong := serve(client, *words, folder / f"{number}.recording"):
            print(wrong, file=sys.stderr, flush=True)

    number = 0
    try:
        while True:
            client = listener.accept()[0]
            number += 1
            threading.Thread(target=one, args=(client, number), daemon=True).start()
    except KeyboardInterrupt:
        pass
    return None


def listening(port, in_background):
    """Says so; in the background the caller's process ends here, and what waits for the end of its output doesn't wait for this."""
    print(f"relay.py: listening on port {port}", file=sys.stderr, flush=True)
    if not in_background:
        return
    if os.fork():
        os._exit(0)
    os.setsid()
    nothing = os.open(os.devnull, os.O_RDWR)
    os.dup2(nothing, 0)
    os.dup2(nothing, 1)


def main(words):
    by_tls, in_background = (word in words[:2] for word in ("--tls", "--background"))
    words = words[by_tls + in_background :]
    if len(words) not in (4, 5) or not (words[0] + words[2]).isdecimal():
        return __doc__.partition("\n\n")[2].partition("\n\n")[0]
    port, host, server_port, *names = words
    address = host, int(server_port)
    try:
        with socket.create_server(("127.0.0.1", int(port))) as listener:
            is_one = len(names) == 2 or names[0].endswith(".recording")
            folder = pathlib.Path(names[0])
            if not is_one:
                folder.mkdir(exist_ok=True)
            listening(port, in_background)
            if not is_one:
                return serve_all(listener, folder, address, by_tls)
            client = listener.accept()[0]
    except OSError as error:
        return f"relay.py: {error.filename or f'port {port}'}: {error.strerror or error}"
    return serve(client, address, by_tls, *names)


if __name__ == "__main__":
    sys.exit(main(sys.argv[1:]))
