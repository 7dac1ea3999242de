"""TCP ports for what records sessions."""
import socket
import threading


def pass_on(source, target, taken=None):
    """Hands on what comes, and appends it to `taken` where that is given."""
    while piece := source.recv(65536):
        if taken is not None:
            taken += piece
        target.sendall(piece)
    try:
        target.shutdown(socket.SHUT_WR)
    except OSError:
        pass


def over_tcp(server):
    """A port of this machine behind which the server stands, which listens on a socket of the file system alone."""
    listening = socket.create_server(("127.0.0.1", 0))

    def work():
        while True:
            client, other = listening.accept()[0], socket.socket(socket.AF_UNIX)
            client.setsockopt(socket.IPPROTO_TCP, socket.TCP_NODELAY, 1)
            other.connect(server.socket)
            for ends in (client, other), (other, client):
                threading.Thread(target=pass_on, args=ends, daemon=True).start()

    threading.Thread(target=work, daemon=True).start()
    return listening.getsockname()[1]


def free_port():
    with socket.create_server(("127.0.0.1", 0)) as listening:
        return listening.getsockname()[1]
