#!/usr/bin/env python3
"""Prints the rows and the parameters of a recorded connection by their types, those in binary format too, with the time and the number of the request:

    pgtrace session --requests --raw --json --full < RECORDING | values.py

Types are known from what the connection said of them: the types of a Parse, a ParameterDescription and a RowDescription. A value in binary format whose type isn't
known, or isn't one of the server's own, is printed in hex. A Bind is printed where its answer stands. Needs the Python module `postgres_protocol`.
"""
import json
import sys

from postgres_protocol.registry import Registry, apply

TYPES = Registry()
# What answers a Bind, and what has the rows of an answer behind it
ENDS_BIND = {"BindComplete", "ErrorResponse"}
RUNS = {"Query", "Execute"}


def bytes_of(text):
    """The bytes of a text of the listing."""
    if isinstance(text, dict):
        if "bytes" in text:
            sys.exit("values.py: a value is cut short: pgtrace needs --full")
        return bytes.fromhex(text["hex"])
    return text.encode()


def quoted(text):
    return repr(bytes_of(text).decode(errors="backslashreplace"))


def shown(value, oid, format_):
    """A value of this type in this format, 0 for text and 1 for binary."""
    if value is None:
        return "NULL"
    data, kind = bytes_of(value), TYPES.get(oid)
    if format_ == 0:
        return quoted(value)
    try:
        found = data if kind.is_text else apply(kind.decode, data)
    except (ValueError, OverflowError):
        found = data
    if isinstance(found, bytes):
        return f"\\x{found.hex()}"
    return repr(found) if isinstance(found, (str, list, tuple, dict)) else str(found)


def format_at(formats, place):
    """The format of the value at this place, as a Bind says it: all have that of the only one, or text where none is given."""
    return formats[place] if len(formats) > 1 else formats[0] if formats else 0


class Statement:
    def __init__(self, types):
        self.types, self.columns = types, None


class Portal:
    def __init__(self, statement, formats):
        self.statement, self.formats, self.columns = statement, formats, None

    def described(self):
        """The columns of its rows, each with its format."""
        if self.columns is None and self.statement.columns is not None:
            return [(name, oid, format_at(self.formats, place)) for place, (name, oid, _) in enumerate(self.statement.columns)]
        return self.columns


class Connection:
    """What is known of the statements and the portals of a connection, each by its name, and the requests that aren't answered, by their numbers."""

    def __init__(self):
        self.statements, self.portals, self.requests = {}, {}, {}

    def answer(self, message):
        """Takes note of an answer. What it answers takes effect then: a request that failed has none."""
        number, name = message["request"], message["name"]
        while self.requests and next(iter(self.requests)) < number:
            del self.requests[next(iter(self.requests))]
        request = self.requests.get(number, {"name": None})
        if request["name"] == "Bind" and name in ENDS_BIND:
            self.bind(request, name)
        elif name == "ParseComplete" and request["name"] == "Parse":
            self.statements[str(request["statement"])] = Statement([kind["oid"] for kind in request["types"]])
        elif name == "ParameterDescription":
            self.object_of(request).types = [kind["oid"] for kind in message["types"]]
        elif name == "RowDescription":
            self.describe(request, [(quoted(it["name"])[1:-1], it["type"]["oid"], it["format"]) for it in message["columns"]])
        elif name == "DataRow" and request["name"] in RUNS:
            print_values(message, "<", self.row(request, message["values"]))

    def object_of(self, request):
        """The statement or the portal that a request is about; the portal without a name where it is a Query."""
        if request["name"] == "Query":
            return self.portals.setdefault("", Portal(Statement([]), []))
        if "statement" in request:
            return self.statements.setdefault(str(request["statement"]), Statement([]))
        return self.portals.setdefault(str(request.get("portal", "")), Portal(Statement([]), []))

    def describe(self, request, columns):
        """The columns of a portal that is described are its statement's too: PgJDBC describes no statement."""
        found = self.object_of(request)
        found.columns = columns
        if request["name"] == "Describe" and isinstance(found, Portal):
            found.statement.columns = columns

    def bind(self, request, answer):
        statement = self.statements.get(str(request["statement"]), Statement([]))
        if answer == "BindComplete":
            self.portals[str(request["portal"])] = Portal(statement, request["result_formats"])
        types = statement.types + [0] * len(request["values"])
        values = enumerate(request["values"])
        print_values(request, ">", [(f"${n + 1}", shown(value, types[n], format_at(request["formats"], n))) for n, value in values])

    def row(self, request, values):
        columns = self.object_of(request).described() or [("?", 0, 0)] * len(values)
        return [(name, shown(value, oid, format_)) for (name, oid, format_), value in zip(columns, values)]


def print_values(message, arrow, values):
    print(f"{message['time']:12.6f} {arrow} #{message['request']} {message['name']}", *(f"{name} {value}" for name, value in values))


def main():
    connection = Connection()
    for message in map(json.loads, sys.stdin):
        if not isinstance(message.get("request"), int) or "name" not in message:
            continue
        if message["from"] == "server":
            connection.answer(message)
        else:
            connection.requests[message["request"]] = message


main()
