"""Raw exchanges with a server, as rows of text: crates/pgserve/expected/exchanges says how they are written."""
import os
import socket
import struct


def frame(tag, body=b""):
    return tag + struct.pack(">I", len(body) + 4) + body


def text(part):
    return part.encode() + b"\0"


def counted(parts, form):
    return struct.pack(">h", len(parts)) + b"".join(struct.pack(form, int(part)) for part in parts)


def listed(part):
    return [one for one in part.split(",") if one]


def value(part):
    return struct.pack(">i", -1) if part == "\\N" else struct.pack(">i", len(part.encode())) + part.encode()


def message(row):
    """The bytes of a message that a client sends."""
    tag, _, rest = row.partition(" ")
    if tag == "x":
        tag, _, body = rest.partition(" ")
        return frame(tag.encode(), bytes.fromhex(body))
    if tag == "P":
        name, query, types = rest.rsplit(";", 1)[0].split(";", 1) + [rest.rsplit(";", 1)[1]]
        return frame(b"P", text(name) + text(query) + counted(listed(types), ">i"))
    if tag == "B":
        portal, name, formats, values, results = rest.split(";")
        body = text(portal) + text(name) + counted(listed(formats), ">h")
        values = listed(values)
        body += struct.pack(">h", len(values)) + b"".join(map(value, values))
        return frame(b"B", body + counted(listed(results), ">h"))
    if tag == "F":
        function, formats, values, result = rest.split(";")
        body = struct.pack(">I", int(function)) + counted(listed(formats), ">h")
        values = listed(values)
        return frame(b"F", body + struct.pack(">h", len(values)) + b"".join(map(value, values)) + struct.pack(">h", int(result)))
    if tag == "E":
        portal, rows = rest.split(";")
        return frame(b"E", text(portal) + struct.pack(">i", int(rows)))
    if tag in "QDC":
        return frame(tag.encode(), text(rest))
    return frame(tag.encode())


def fields(body):
    """The fields of an error or a notice, by their letters."""
    return {part[:1].decode(): part[1:].decode() for part in body.split(b"\0") if part}


def cell(part):
    if part is None:
        return "\\N"
    return part.decode() if all(32 <= byte < 127 for byte in part) else part.hex()


def cells(body):
    count, at, found = struct.unpack_from(">h", body)[0], 2, []
    for _ in range(count):
        length = struct.unpack_from(">i", body, at)[0]
        at += 4
        found.append(None if length < 0 else body[at : at + length])
        at += max(length, 0)
    return found


def columns(body):
    count, at, found = struct.unpack_from(">h", body)[0], 2, []
    for _ in range(count):
        end = body.index(b"\0", at)
        _, _, kind, _, _, form = struct.unpack_from(">ihihih", body, end + 1)
        found.append(f"{body[at:end].decode()}:{kind}:{form}")
        at = end + 19
    return found


def shown(tag, body):
    """A message of the server as the rows have it."""
    words = [tag]
    if tag in "EN":
        words += [fields(body)["V"], fields(body)["C"]]
    elif tag == "C":
        words.append(body[:-1].decode())
    elif tag == "Z":
        words.append(body.decode())
    elif tag == "A":
        words += body[4:-1].decode().split("\0")
    elif tag == "S":
        words += body[:-1].decode().split("\0")
    elif tag == "t":
        words += [",".join(map(str, struct.unpack(f">{len(body) // 4}i", body[2:])))] if len(body) > 2 else []
    elif tag == "T":
        words += columns(body)
    elif tag == "V":
        words.append(cell(None if body[:4] == b"\xff" * 4 else body[4:]))
    elif tag == "D":
        words += map(cell, cells(body))
    return " ".join(words)


class Client:
    """A connection, by a function that sends bytes, one that ends that, and one that receives some bytes, none at the end."""

    def __init__(self, send, end, receive):
        self.send, self.end, self.receive, self.held = send, end, receive, b""

    def take(self):
        """The server's next message; None at the end."""
        while len(self.held) < 5 or len(self.held) < 1 + struct.unpack_from(">I", self.held, 1)[0]:
            came = self.receive()
            if not came:
                return None
            self.held += came
        end = 1 + struct.unpack_from(">I", self.held, 1)[0]
        tag, body, self.held = self.held[:1].decode(), self.held[5:end], self.held[end:]
        return tag, body

    def log_in(self, user):
        pairs = {"user": user, "database": "postgres", "TimeZone": "UTC"}
        body = struct.pack(">i", 196608) + b"".join(text(part) for pair in pairs.items() for part in pair) + b"\0"
        self.send(struct.pack(">I", len(body) + 4) + body)
        while (came := self.take()) and came[0] != "Z":
            pass
        return came

    def exchange(self, row):
        """What is answered to the messages of a row, after which the client's side of the connection ends."""
        self.send(b"".join(message(part.strip()) for part in row.split(" / ")))
        self.end()
        return [shown(*came) for came in iter(self.take, None)]


def over_socket(path):
    """A connection to a server that listens."""
    connection = socket.socket(socket.AF_UNIX)
    connection.settimeout(10)
    connection.connect(path)
    return Client(connection.sendall, lambda: connection.shutdown(socket.SHUT_WR), lambda: connection.recv(65536))


def over_pipes(process):
    """A connection that is a process's standard input and output."""

    def send(sent):
        process.stdin.write(sent)
        process.stdin.flush()

    return Client(send, process.stdin.close, lambda: os.read(process.stdout.fileno(), 65536))


def tables_of(script):
    """The commands that make the tables of a script for a server: of each `SELECT * FROM NAME`, its columns and rows."""
    commands, name, columns = [], None, []
    for line in script.read_text().splitlines():
        word, _, rest = line.partition(" ")
        if word == "statement":
            name, columns = rest.removeprefix("SELECT * FROM ") if rest.startswith("SELECT * FROM ") else None, []
        elif name and word == "column":
            columns.append(rest)
        elif name and word == "row":
            if columns:
                commands.append(f"CREATE TABLE {name} ({', '.join(columns)});")
                columns = []
            values = ["NULL" if part == "\\N" else "'" + part.replace("\\\\", "\\").replace("'", "''") + "'" for part in rest.split("\t")]
            commands.append(f"INSERT INTO {name} VALUES ({', '.join(values)});")
    return "\n".join(commands)


def rows_of(path):
    """The exchanges of a file: what is sent, and what is answered."""
    for line in path.read_text().splitlines():
        if line and not line.startswith("#"):
            sent, _, answered = line.partition("=>")
            yield sent.strip(), [part.strip() for part in answered.split(" / ")]


def opening(words):
    """The bytes of a startup packet of a version, with names and values: `4.0 user=a`."""
    version, _, rest = words.partition(" ")
    major, minor = map(int, version.split("."))
    body = struct.pack(">HH", major, minor) + b"".join(text(part) for pair in rest.split() for part in pair.split("=", 1)) + b"\0"
    return struct.pack(">I", len(body) + 4) + body


def login_message(row, nonce):
    """The bytes of a message of a log-in, in which {nonce} stands for both sides' nonce."""
    tag, _, rest = row.replace("{nonce}", nonce).partition(" ")
    if tag == "V":
        return opening(rest)
    if tag == "u":
        return bytes.fromhex(rest)
    if tag == "f":
        mechanism, _, first = rest.partition(";")
        return frame(b"p", text(mechanism) + struct.pack(">i", len(first)) + first.encode())
    if tag == "r":
        return frame(b"p", rest.encode())
    return message(row)


def login(client, row):
    """What is answered to the messages of a log-in, each of which is sent once the one before was answered: the codes of R, and of E the message too."""
    answers, nonce = [], ""
    for part in row.split(" / "):
        client.send(login_message(part, nonce))
        came = client.take()
        if came is None:
            break
        tag, body = came
        if tag == "R":
            code = struct.unpack_from(">i", body)[0]
            nonce = body[6:].split(b",")[0].decode() if code == 11 else nonce
            answers.append(f"R {code}")
        else:
            said = fields(body)
            answers.append(" ".join([tag, said["V"], said["C"], said["M"]]))
    return answers
