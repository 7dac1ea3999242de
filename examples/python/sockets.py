#!/usr/bin/env python3
"""Logs in over a socket of its own, and prints the rows of a query: [PGPASSWORD=..] sockets.py PORT USER SQL. The server is on this machine, without TLS."""
import os
import socket
import sys

from postgres_protocol import events
from postgres_protocol.connection import Connection


def show(row):
    print(*("NULL" if value is None else value for value in row), sep="\t")


def main(port, user, sql):
    connection = Connection(user, os.environ.get("PGPASSWORD"))
    with socket.create_connection(("127.0.0.1", int(port))) as stream:
        while True:
            event = connection.next_event()
            if event is None:  # what it has to say goes out before more is waited for
                stream.sendall(connection.data_to_send())
                if not (data := stream.recv(65536)):
                    return "the server closed the connection"
                connection.receive_data(data)
            elif isinstance(event, events.LoggedIn):
                asked = connection.query(sql)
            elif isinstance(event, events.Rows):
                for row in event.rows:
                    show(row)
            elif isinstance(event, events.Failed):
                return event.fields["M"]
            elif isinstance(event, events.Ready) and event.request == asked:
                connection.terminate()
                stream.sendall(connection.data_to_send())
                return None


if __name__ == "__main__":
    sys.exit(main(*sys.argv[1:]))
