#!/usr/bin/env python3
"""Writes the script by which pgserve answers as the server did in recorded connections (relay.py records them):

    script.py FILE.recording .. > SCRIPT
    pgserve --user NAME --auth trust SCRIPT

Answers to the same statement stand in the order in which they came, and the last one answers from then on. What a statement was answered in the first of the recordings
that has it counts. Commands of transactions and settings are left to pgserve. Runs pgtrace, which PGTRACE names where it isn't on the PATH.
"""
import json
import os
import re
import struct
import subprocess
import sys

# The types that a script names, by their numbers, and the words of the commands that need no script.
TYPES = {16: "bool", 17: "bytea", 19: "name", 20: "int8", 21: "int2", 23: "int4", 25: "text", 26: "oid", 114: "json", 700: "float4", 701: "float8", 1042: "bpchar"}
TYPES |= {1043: "varchar", 1082: "date", 1083: "time", 1114: "timestamp", 1184: "timestamptz", 1186: "interval", 1700: "numeric", 2950: "uuid", 3802: "jsonb"}
KNOWN = {"begin", "start", "commit", "end", "rollback", "abort", "savepoint", "release", "set", "reset", "deallocate", "discard", "declare", "close"}
OWN = {"application_name", "session_authorization"}
# Texts that pgserve sends in binary format too; others are sent in text format alone.
MOMENT = re.compile(r"-?infinity|\d{4}-\d\d-\d\d( \d\d:\d\d:\d\d(\.\d+)?(\+00)?)?|\d\d:\d\d:\d\d(\.\d+)?")
SPAN = re.compile(r"((^| )-?\d+ (years?|mons?|days?))*((^| )-?\d+:\d\d:\d\d(\.\d+)?)?")
DECLARE = re.compile(rb'(?is)\s*declare\s+("(?:[^"]|"")+"|\w+)\s+(?:(?:insensitive|no|scroll)\s+)*cursor\s+(?:with(?:out)?\s+hold\s+)?for\s+(.*)')
FETCH = re.compile(rb'(?is)\s*fetch\s+(?:(?:forward\s+)?(?:\d+|all)\s+|next\s+|forward\s+)?(?:(?:from|in)\s+)?("(?:[^"]|"")+"|\w+)[\s;]*')
READS = {kind: MOMENT for kind in ("date", "time", "timestamp", "timestamptz")} | {"interval": SPAN}


def escaped(data):
    """Bytes as a script writes them."""
    text = data.decode(errors="surrogateescape").replace("\\", "\\\\").replace("\n", "\\n").replace("\r", "\\r").replace("\t", "\\t")
    return re.sub("[\0-\x1f\x7f\udc80-\udcff]", lambda found: f"\\x{ord(found[0]) & 255:02x}", text)


def bytes_of(text):
    return bytes.fromhex(text["hex"]) if isinstance(text, dict) else text.encode()


def type_of(kind):
    name = kind.get("name", "")
    array = name.startswith("_") and name[1:] in TYPES.values()
    return f"{name[1:]}[]" if array else TYPES.get(kind["oid"], str(kind["oid"]))


def is_plain(kind, data):
    """Whether it is a text that pgserve reads as one of the type."""
    text = data.decode(errors="replace")
    if kind.endswith("[]"):
        return text[:1] == "{" and text[1:2] != "{" and is_plain_array(kind[:-2], text)
    return kind not in READS or bool(READS[kind].fullmatch(text))


def is_plain_array(kind, text):
    return kind not in READS or all(READS[kind].fullmatch(part.strip('"')) for part in text[1:-1].split(",") if part != "NULL")


def number(kind, data):
    """The text of a float4 or a float8."""
    found = struct.unpack(">f" if kind == "float4" else ">d", data)[0]
    return {"nan": "NaN", "inf": "Infinity", "-inf": "-Infinity"}.get(str(found), f"{found:.9g}" if kind == "float4" else repr(found))


def column_of(column, is_binary, values, raw):
    """The lines of a column, and its values as the script has them, of those that pgtrace read and those that were sent."""
    kind, lines = type_of(column["type"]), []
    cells = [None if value is None else bytes_of(value) for value in raw]
    if not is_binary:
        only = "" if all(cell is None or is_plain(kind, cell) for cell in cells) else "text"
    elif kind in ("float4", "float8"):
        cells, only = [None if cell is None else number(kind, cell).encode() for cell in cells], ""
    elif kind in TYPES.values() and all(value is None or isinstance(value, str) for value in values):
        cells, only = [None if value is None else value.encode() for value in values], ""
    else:
        only = "binary"
    lines.append(f"column {escaped(bytes_of(column['name']))} {kind}")
    lines += [f"table {column['table']} {column['column']}"] if column["table"] else []
    lines += [f"modifier {column['modifier']}"] if column["modifier"] != -1 else []
    lines += [f"format {only}"] if only else []
    return lines, ["\\N" if cell is None else escaped(cell) for cell in cells]


class Result:
    """What came of one statement: its lines but for columns and rows, which are known at its end."""

    def __init__(self, columns=(), formats=()):
        self.columns, self.formats, self.rows, self.lines, self.further = columns, formats, [], [], []

    def is_binary(self, place):
        return (self.formats[place] if len(self.formats) > 1 else self.formats[0] if self.formats else 0) == 1

    def shown(self):
        """The lines of its columns, and those that follow."""
        found = []
        for place, column in enumerate(self.columns):
            found.append(column_of(column, self.is_binary(place), [row[0][place] for row in self.rows], [row[1][place] for row in self.rows]))
        rows = ["row " + "\t".join(cells) for cells in zip(*(cells for _, cells in found))]
        return [line for lines, _ in found for line in lines], self.lines + rows + (self.further or [f"tag SELECT {len(rows)}"])


class Connection:
    """The answers of one recording, by the texts of their statements."""

    def __init__(self):
        self.settings, self.answers, self.parameters, self.columns = {}, {}, {}, {}
        self.statements, self.portals, self.requests, self.results = {}, {}, {}, {}
        self.cursors, self.notices, self.last, self.before, self.is_open = {}, [], None, "idle", False
        self.is_idle = False

    def client(self, m):
        """Takes note of what a request asks."""
        name, text = m["name"], None
        self.is_idle = False
        if name == "FunctionCall":
            text = b"\0function %d" % m["function"]
            self.parameters[text] = ["bytea"] * len(m["arguments"])
        elif name == "Query":
            text = bytes_of(m["query"])
        elif name == "Parse":
            text = self.statements[str(m["statement"])] = bytes_of(m["query"])
            self.parameters.setdefault(text, [type_of(kind) if kind["oid"] else "text" for kind in m["types"]])
        elif name == "Bind":
            text = self.statements.get(str(m["statement"]), b"?")
            known = self.parameters.setdefault(text, [])
            known += ["text"] * (len(m["values"]) - len(known))
            self.portals[str(m["portal"])] = [text, m["result_formats"], None]
        elif name == "Describe":
            text = self.statements.get(str(m["statement"])) if "statement" in m else self.text_of(m["portal"])
        elif name == "Execute":
            text = self.portals.get(str(m["portal"]), [None])[0]
        if "request" in m:
            self.requests[m["request"]] = name, text, m.get("result_format", self.portals.get(str(m.get("portal"))))

    def text_of(self, portal):
        """The statement of a portal, or the query of a cursor."""
        found = self.portals.get(str(portal)) or self.cursors.get(bytes_of(portal))
        return found[0] if found else None

    def fetched(self, text):
        """The result of the cursor of which a statement fetches rows, if it does."""
        found = FETCH.fullmatch(text or b"")
        cursor = self.cursors.get(found[1].strip(b'"').replace(b'""', b'"')) if found else None
        return cursor[1] if cursor else None

    def declare(self, text):
        """Takes note of a cursor, if a statement declares one."""
        if found := DECLARE.fullmatch(text or b""):
            cursor = self.cursors[found[1].strip(b'"').replace(b'""', b'"')] = found[2], Result()
            self.keep(found[2], [cursor[1]])

    def result(self, key, kind, text, portal):
        """The result to which a message belongs, that of a portal through all its runs, and that of a cursor."""
        if cursor := self.fetched(text):
            return cursor
        if kind == "Query":
            parts = self.results.setdefault(key, [Result()])
            return parts[-1]
        if kind != "Execute" or portal is None:
            return Result()
        if portal[2] is None:
            portal[2] = Result(self.columns.get(portal[0], ()), portal[1])
            self.keep(text, [portal[2]])
        return portal[2]

    def end(self, key, kind, text, portal, result, *lines):
        """Takes the lines that end a result."""
        if lines[0].startswith("tag ") and self.fetched(text) is result:
            return
        self.declare(text)
        result.lines = self.notices + result.lines
        self.notices, self.last = [], result
        if kind == "Execute" and lines[0].startswith("tag SELECT "):
            lines = [f"tag SELECT {len(result.rows)}"]
        result.further[:0] = lines
        if kind == "Query":
            self.results.setdefault(key, [result]).append(Result())
        elif kind == "Execute" and portal:
            portal[2] = None
        else:
            self.keep(text, [result])

    def keep(self, text, results):
        if text is not None:
            self.answers.setdefault(text, []).append(results)

    def report(self, word, fields):
        """The lines of an error or a notice."""
        fields = {name: escaped(bytes_of(value)) for name, value in fields.items()}
        severity = fields.get("plain_severity", fields["severity"])
        lines = [f"{word} {fields['code']} {fields['message']}"]
        lines += [f"severity {severity}"] if severity != {"error": "ERROR", "notice": "NOTICE"}[word] else []
        return lines + [f"field {name} {value}" for name, value in fields.items() if name not in ("severity", "plain_severity", "code", "message")]

    def server(self, m, raw):
        """Takes what a request was answered."""
        name, (kind, text, portal) = m["name"], self.requests.get(m.get("request"), ("", None, None))
        key = m.get("request")
        result = self.result(key, kind, text, portal)
        if name == "ParameterStatus" and not self.is_open:
            self.settings.setdefault(m["parameter"], bytes_of(m["value"]))
        elif name == "NoticeResponse":
            self.notices += self.report("notice", m["fields"])
        elif self.is_idle and self.last and name == "NotificationResponse":
            self.last.further.append(f"later notify {m['process_id']} {escaped(bytes_of(m['channel']))} {escaped(bytes_of(m['payload']))}")
        elif self.is_idle and self.last and name == "ParameterStatus":
            self.last.further.append(f"later setting {m['parameter']} {escaped(bytes_of(m['value']))}")
        elif name == "NotificationResponse" and self.last:
            self.last.further.append(f"notify {escaped(bytes_of(m['channel']))} {escaped(bytes_of(m['payload']))}")
        elif name == "ParameterDescription":
            self.parameters[text] = [type_of(one) for one in m["types"]]
        elif name == "RowDescription":
            self.columns[text] = m["columns"]
            if kind in ("Query", "Describe") and (kind == "Query" or self.fetched(text)):
                result.columns = m["columns"]
        elif name == "DataRow":
            result.rows.append((m["values"], raw["values"]))
        elif name in ("CopyInResponse", "CopyOutResponse"):
            result.lines.append(f"copy {name[4:-8].lower()} {'binary' if m['format'] else 'text'} {len(m['column_formats'])}")
        elif name == "CopyData":
            result.lines.append("data " + escaped(bytes_of(raw["data"])))
        elif name == "FunctionCallResponse":
            self.end(key, kind, text, portal, result, result_of(raw["result"], portal))
        elif name == "CommandComplete":
            self.end(key, kind, text, portal, result, "tag " + escaped(bytes_of(m["command_tag"])))
        elif name == "ErrorResponse":
            self.end(key, kind, text, portal, result, *self.report("error", m["fields"]))
        elif name == "ReadyForQuery":
            self.ready(key, kind, text, m["status"])

    def ready(self, key, kind, text, status):
        self.is_open, self.is_idle = True, status == "idle"
        results = self.results.pop(key, [None])[:-1]
        if len(results) > 1 and status != self.before:
            results[-1].further.append("status " + status.removeprefix("in "))
        if results and kind == "Query":
            self.keep(*without_commands(text, results))
        self.before = status


def result_of(result, form):
    """The line of a function's result: a text, or the bytes of binary format."""
    if result is None:
        return "result text \\N"
    data = bytes_of(result)
    return f"result bytea \\\\x{data.hex()}" if form else f"result text {escaped(data)}"


def word_of(text):
    return re.match(rb"\s*(\w*)", text)[1].decode().lower()


def without_commands(text, results):
    """A query's statements but for the commands before and behind them that need no script, as a savepoint whose name is another each time; and their results."""
    while len(results) > 1 and word_of(text) in KNOWN:
        text, results = text.partition(b";")[2], results[1:]
    front, _, last = text.rpartition(b";")
    while front and word_of(last) in KNOWN:
        results = results[:-1] if len(results) > 1 and results[-1].further[:1] == [f"tag {word_of(last).upper()}"] else results
        text = front
        front, _, last = text.rpartition(b";")
    return text, results


def listed(path, *words):
    with open(path, "rb") as file:
        program = os.environ.get("PGTRACE", "pgtrace")
        try:
            done = subprocess.run([program, "session", "--requests", "--json", "--full", *words], stdin=file, capture_output=True)
        except FileNotFoundError:
            sys.exit(f"script.py: no command '{program}' on the PATH (PGTRACE names one elsewhere)")
    return [json.loads(line) for line in done.stdout.splitlines()]


def read(path):
    """A recording's connection."""
    connection = Connection()
    for m, raw in zip(listed(path), listed(path, "--raw")):
        if "name" in m and m["from"] == "client":
            connection.client(m)
        elif "name" in m and m.get("request") != "?":
            connection.server(m, raw)
    return connection


def is_known(text, answers):
    """Whether pgserve answers the statement so by itself."""
    lines = [results[0].shown()[1] for results in answers if len(results) == 1]
    return word_of(text) in KNOWN and len(lines) == len(answers) and all(one[0].startswith("tag ") and not any(line.startswith(("notify ", "later ")) for line in one) for one in lines)


def statement(text, parameters, answers):
    """The lines of a statement with its answers; of those that are alike the last stands once, and the next time has the columns of the one before."""
    shown = [[one.shown() for one in results] for results in answers]
    while len(shown) > 1 and shown[-1] == shown[-2]:
        shown.pop()
    lines = ["", text[1:].decode() if text[:1] == b"\0" else "statement " + escaped(text.strip())] + ["parameters " + " ".join(parameters)] * bool(parameters)
    before = None
    for place, results in enumerate(shown):
        lines += ["then"] * (place > 0)
        for further, (columns, others) in enumerate(results):
            lines += ["and"] * (further > 0) + (columns if further or columns != before else []) + others
        before = results[-1][0]
    return lines


def main(paths):
    if not paths or paths[0].startswith("-"):
        return __doc__.partition("\n\n")[2].partition("\n\n")[0]
    settings, written = {}, set()
    lines = []
    for connection in map(read, paths):
        settings = settings or connection.settings
        for text, answers in connection.answers.items():
            if text.strip().rstrip(b";").strip() not in written and not is_known(text, answers):
                written.add(text.strip().rstrip(b";").strip())
                lines += statement(text, connection.parameters.get(text, []), answers)
    print("\n".join([f"setting {name} {escaped(value)}" for name, value in settings.items() if name not in OWN] + lines))
    return None


if __name__ == "__main__":
    sys.exit(main(sys.argv[1:]))
