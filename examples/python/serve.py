#!/usr/bin/env python3
"""Takes connections on a port of this machine, many at a time, and runs pgserve for each; with a certificate it takes TLS from a client that asks for it, or
begins with it (sslnegotiation=direct):

    serve.py PORT [--tls CERTIFICATE KEY] pgserve --user app --auth trust SCRIPT
"""
import os
import select
import shutil
import socket
import ssl
import struct
import subprocess
import sys
import threading

SSL_REQUEST = struct.pack(">II", 8, 80877103)
HANDSHAKE = b"\x16"  # the first byte of TLS


def pass_on(client, process):
    """Hands on what both say, one piece after another: a TLS socket isn't for two threads."""
    ends = [client, process.stdout]
    while process.stdout in ends:
        pending = client in ends and isinstance(client, ssl.SSLSocket) and client.pending()
        for end in [client] if pending else select.select(ends, [], [])[0]:
            piece = client.recv(65536) if end is client else os.read(end.fileno(), 65536)
            if not piece:
                ends.remove(end)
                if end is client:
                    process.stdin.close()
            elif end is client:
                process.stdin.write(piece)
            else:
                client.sendall(piece)


def serve(client, context, words):
    try:
        first = client.recv(8, socket.MSG_PEEK | socket.MSG_WAITALL) if context else b""
        if first == SSL_REQUEST:
            client.recv(8)
            client.sendall(b"S")
        if first == SSL_REQUEST or first[:1] == HANDSHAKE:
            client = context.wrap_socket(client, server_side=True)
        with client, subprocess.Popen(words, stdin=subprocess.PIPE, stdout=subprocess.PIPE, bufsize=0) as process:
            pass_on(client, process)
    except OSError as error:
        print(f"serve.py: {error.strerror or error}", file=sys.stderr, flush=True)


def main(words):
    if len(words) < 2 or not words[0].isdecimal():
        return __doc__.partition("\n\n")[2].partition("\n\n")[0]
    port, words, context = int(words[0]), words[1:], None
    if words[0] == "--tls":
        context = ssl.SSLContext(ssl.PROTOCOL_TLS_SERVER)
        context.load_cert_chain(*words[1:3])
        context.set_alpn_protocols(["postgresql"])
        words = words[3:]
    if not shutil.which(words[0]):
        return f"serve.py: no command '{words[0]}' on the PATH"
    with socket.create_server(("127.0.0.1", port)) as listener:
        print(f"serve.py: listening on port {port}", file=sys.stderr, flush=True)
        while True:
            threading.Thread(target=serve, args=(listener.accept()[0], context, words), daemon=True).start()


if __name__ == "__main__":
    try:
        sys.exit(main(sys.argv[1:]))
    except KeyboardInterrupt:
        pass
