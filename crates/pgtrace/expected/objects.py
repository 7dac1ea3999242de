"""Objects of pgtrace, which tests/programs/run.py compares with what it writes, and .ci/objects with the page.

Each frame stands beside the values of its object, which are written by hand after the message formats of the PostgreSQL manual, in
both styles where they differ. The places and lengths are counted here, and Python's json reads each line back as those values.
Nothing is taken from the program.
"""
import json
import unicodedata

from client import KINDS, SESSION, spelled
from session import REST, column, frame, int16, int32, value

TEN = b"0123456789"
INT4 = {"oid": 23, "name": "int4"}
TEXT = {"oid": 25, "name": "text"}


def hidden(n):
    return {"bytes": n}


def message(name, **parts):
    """The members of an object after its tag, after the page docs/PGTRACE.md and the manual's message formats."""
    return {"name": name, **parts}


def fault(number, name):
    return {"fault": {"number": number, "name": name}}


def broken(name, number, why, **parts):
    """A message with a list that breaks off."""
    return {"name": name, **parts, **fault(number, why)}


SERVER = [
    (b"R", int32(10) + b"SCRAM-SHA-256\0\0", message("AuthenticationSASL", mechanisms=["SCRAM-SHA-256"])),
    (
        b"R",
        int32(11) + b"r=abc,s=QUJD,i=4096",
        message("AuthenticationSASLContinue", data=hidden(19)),
        message("AuthenticationSASLContinue", data="r=abc,s=QUJD,i=4096"),
    ),
    (b"R", int32(5) + b'\x01"\n\xff', message("AuthenticationMD5Password", salt=hidden(4)), message("AuthenticationMD5Password", salt={"hex": "01220aff"})),
    (b"R", int32(12) + b"v=QUJD", message("AuthenticationSASLFinal", data=hidden(6)), message("AuthenticationSASLFinal", data="v=QUJD")),
    (b"R", int32(2), message("AuthenticationKerberosV5")),
    (b"R", int32(3), message("AuthenticationCleartextPassword")),
    (b"R", int32(6), message("AuthenticationSCMCredential")),
    (b"R", int32(7), message("AuthenticationGSS")),
    (b"R", int32(8) + b"ab", message("AuthenticationGSSContinue", data=hidden(2)), message("AuthenticationGSSContinue", data="ab")),
    (b"R", int32(9), message("AuthenticationSSPI")),
    (b"R", int32(0), message("AuthenticationOk")),
    (b"S", b"name\0\xff\0", message("ParameterStatus", bytes={"hex": "6e616d6500ff00"})),
    (b"S", b"TimeZone\0UTC\0", message("ParameterStatus", parameter="TimeZone", value="UTC")),
    (b"K", int32(4711, -2), message("BackendKeyData", process_id=4711, secret_key=hidden(4)), message("BackendKeyData", process_id=4711, secret_key={"hex": "fffffffe"})),
    (b"t", int16(3) + int32(23, 25, 16385), message("ParameterDescription", types=[INT4, TEXT, {"oid": 16385}])),
    (
        b"T",
        int16(2) + column(b"a\nb", 16384, 1, 23, 4, -1, 0) + column(b"c", 0, 0, 16385, -1, 7, 1),
        message(
            "RowDescription",
            columns=[
                {"name": "a\nb", "table": 16384, "column": 1, "type": INT4, "size": 4, "modifier": -1, "format": 0},
                {"name": "c", "table": 0, "column": 0, "type": {"oid": 16385}, "size": -1, "modifier": 7, "format": 1},
            ],
        ),
    ),
    (b"D", int16(4) + value(b"1") + int32(-1) + value(b"") + value(b'a"b\\c\n\x1b[m'), message("DataRow", values=["1", None, "", 'a"b\\c\n\x1b[m'])),
    (b"D", int16(3) + value(b"\0\0\0\x05") + value(b"Z\xfcrich") + value(b"null"), message("DataRow", values=[{"hex": "00000005"}, {"hex": "5afc72696368"}, "null"])),
    # brackets and colons at the end of a text, after which a comma still stands
    (b"D", int16(4) + value(b"[") + value(b"{") + value(b":") + value(b"\xff["), message("DataRow", values=["[", "{", ":", {"hex": "ff5b"}])),
    (
        b"D",
        int16(3) + value("¡日本 😀 שלום".encode()) + value("\u202e\u2028\x9b\x7f\ufeff\ue000\U000e0001\U0010ffff".encode()) + value("\ud7ff\u0378\ufdd0\U0001fffe".encode()),
        message("DataRow", values=["¡日本 😀 שלום", "\u202e\u2028\x9b\x7f\ufeff\ue000\U000e0001\U0010ffff", "\ud7ff\u0378\ufdd0\U0001fffe"]),
    ),
    (
        b"D",
        int16(1) + value(TEN * 6 + b"abc\xc3\xbc"),
        message("DataRow", values=[{"text": "0123456789" * 6 + "abc", "bytes": 65}]),
        message("DataRow", values=["0123456789" * 6 + "abcü"]),
    ),
    (
        b"D",
        int16(1) + value(TEN * 6 + b"abcd\xff"),
        message("DataRow", values=[{"hex": "30313233343536373839" * 6 + "61626364", "bytes": 65}]),
        message("DataRow", values=[{"hex": "30313233343536373839" * 6 + "61626364ff"}]),
    ),
    (b"D", int16(2) + value(b"1"), broken("DataRow", 7, "UnexpectedEof", values=["1"])),
    (b"D", int16(0), message("DataRow", values=[])),
    (b"C", b"SELECT 2\0", message("CommandComplete", command_tag="SELECT 2")),
    (b"E", b"SERROR\0Dna\xefve\0Zx\0\x9by\0\0", message("ErrorResponse", fields={"severity": "ERROR", "detail": {"hex": "6e61ef7665"}, "Z": "x", "\x9b": "y"})),
    (b"N", b"SNOTICE\0C00000\0", broken("NoticeResponse", 7, "UnexpectedEof", fields={"severity": "NOTICE", "code": "00000"})),
    (b"A", int32(4711) + b"news\0hello\0", message("NotificationResponse", process_id=4711, channel="news", payload="hello")),
    (b"v", int32(0, 1) + b"_pq_.x\0", message("NegotiateProtocolVersion", version=0, options=["_pq_.x"])),
    (b"G", b"\0" + int16(2, 0, 0), message("CopyInResponse", format=0, column_formats=[0, 0])),
    (b"H", b"\x01" + int16(1, 1), message("CopyOutResponse", format=1, column_formats=[1])),
    (b"d", b"1\ta\n", message("CopyData", data="1\ta\n")),
    (b"c", b"", message("CopyDone")),
    (b"1", b"", message("ParseComplete")),
    (b"2", b"", message("BindComplete")),
    (b"3", b"", message("CloseComplete")),
    (b"n", b"", message("NoData")),
    (b"s", b"", message("PortalSuspended")),
    (b"I", b"", message("EmptyQueryResponse")),
    (b"V", int32(3) + b"abc", message("FunctionCallResponse", result="abc")),
    (b"V", int32(-1), message("FunctionCallResponse", result=None)),
    (b"V", int32(5) + b"abc", message("FunctionCallResponse", bytes={"hex": "00000005616263"})),
    (b"V", int32(-2), message("FunctionCallResponse", bytes={"hex": "fffffffe"})),
    (b"W", b"\0" + int16(0), message("CopyBothResponse", format=0, column_formats=[])),
    (b"W", b"\1" + int16(2, 0, 1), message("CopyBothResponse", format=1, column_formats=[0, 1])),
    (b"W", b"", message("CopyBothResponse", bytes="")),
    (b"Z", b"T", message("ReadyForQuery", status="in transaction")),
    (b"Z", b"\n", message("ReadyForQuery", status="\n")),
    (b"\n", b"", fault(5, "UnknownTag")),
    (b"R", int32(99), fault(6, "UnknownAuthentication")),
]

def int64(*numbers):
    return b"".join(n.to_bytes(8, "big") for n in numbers)


def inner(name, **parts):
    """A CopyData with a message of the manual's "Streaming Replication Protocol" inside."""
    return message("CopyData", inner=name, **parts)


PLACE, LATER = 0x16B374D848, 0x16B374D900
# two days, three hours and four microseconds after the beginning of 2000; and one microsecond before it
CLOCK, EARLY = 183600000004, 2**64 - 1

# A server's replication stream, and messages after it.
REPLICATION = [
    (b"d", b"k" + int64(PLACE, CLOCK) + b"\0", message("CopyData", data={"hex": "6b00000016b374d8480000002abf69ac0400"})),
    (b"W", b"\0" + int16(0), message("CopyBothResponse", format=0, column_formats=[])),
    (b"d", b"w" + int64(PLACE, LATER, CLOCK) + b"begin", inner("XLogData", start="16/B374D848", end="16/B374D900", clock=CLOCK, data="begin")),
    (b"d", b"w" + int64(0, 2**64 - 1, EARLY), inner("XLogData", start="0/0", end="FFFFFFFF/FFFFFFFF", clock=-1, data="")),
    (b"d", b"w" + int64(0, 0, 0)[:23], message("CopyData", data={"hex": "77" + "00" * 23})),
    (b"d", b"k" + int64(LATER, 0) + b"\1", inner("PrimaryKeepalive", end="16/B374D900", clock=0, reply=1)),
    (b"d", b"k" + int64(LATER, 0), message("CopyData", data={"hex": "6b00000016b374d9000000000000000000"})),
    (b"d", b"k" + int64(LATER, 0) + b"\0\0", message("CopyData", data={"hex": "6b00000016b374d90000000000000000000000"})),
    (b"d", b"r" + b"later", message("CopyData", data="rlater")),
    (b"d", b"", message("CopyData", data="")),
    (b"c", b"", message("CopyDone")),
    (b"d", b"k" + int64(1, 2) + b"\0", message("CopyData", data={"hex": "6b0000000000000001000000000000000200"})),
    (b"C", b"COPY 0\0", message("CommandComplete", command_tag="COPY 0")),
]

# A standby's replies.
REPLIES = [
    (b"d", b"r" + int64(PLACE, LATER, 0, CLOCK) + b"\0", inner("StandbyStatusUpdate", written="16/B374D848", flushed="16/B374D900", applied="0/0", clock=CLOCK, reply=0)),
    (b"d", b"r" + int64(1, 2, 3, 4), message("CopyData", data={"hex": "72" + "".join("%016x" % n for n in (1, 2, 3, 4))})),
    (b"d", b"r" + int64(1, 2, 3, 4) + b"\0\0", message("CopyData", data={"hex": "72" + "".join("%016x" % n for n in (1, 2, 3, 4)) + "0000"})),
    (b"d", b"h" + int64(EARLY) + int32(745, 0, 2**31 - 1, 1), inner("HotStandbyFeedback", clock=-1, xmin=745, epoch=0, catalog_xmin=2147483647, catalog_epoch=1)),
    (b"d", b"h" + int64(0) + int32(-1, -2, 0, 0), inner("HotStandbyFeedback", clock=0, xmin=4294967295, epoch=4294967294, catalog_xmin=0, catalog_epoch=0)),
    (b"d", b"k" + int64(1, 2) + b"\0", message("CopyData", data={"hex": "6b0000000000000001000000000000000200"})),
    (b"c", b"", message("CopyDone")),
]

# Of each row of `client.SESSION`.
CLIENT = [
    message("SSLRequest"),
    message("GSSENCRequest"),
    message("CancelRequest", process_id=4711, secret_key=hidden(4)),
    message("StartupMessage", version=196608, parameters=[{"name": "user", "value": "a"}, {"name": "database", "value": "b"}]),
    message("PasswordMessage", password=hidden(6)),
    message("SASLInitialResponse", mechanism="SCRAM-SHA-256", data=hidden(8)),
    message("SASLInitialResponse", mechanism="SCRAM-SHA-256", data=None),
    message("SASLResponse", data=hidden(6)),
    message("Password, SASLInitialResponse or SASLResponse", data=hidden(5)),
    message("Query", query="select 1"),
    message("Parse", statement="s", query="select $1, $2", types=[INT4, TEXT]),
    message("Parse", statement="", query="commit", types=[]),
    message("Bind", portal="p", statement="s", formats=[1], values=[{"hex": "00000007"}, None], result_formats=[0, 1]),
    message("Describe", statement="s"),
    message("Describe", portal="p"),
    message("Execute", portal="p", max_rows=100),
    message("Flush"),
    message("Sync"),
    message("Close", statement="s"),
    message("Close", X="s"),
    message("CopyData", data="1\ta\n"),
    message("CopyDone"),
    message("CopyFail", message='no "more"'),
    message("FunctionCall", function=1598, formats=[1], arguments=["7", None], result_format=0),
    fault(5, "UnknownTag"),
    fault(8, "NotDrained"),
    message("Terminate"),
]

HIDDEN = ("Cc", "Cf", "Cn", "Co", "Cs", "Zl", "Zp", "Zs")


def character(c):
    """A character of a string: as it is where it is printed, else by its units of UTF-16."""
    if c in '"\\':
        return "\\" + c
    if c == " " or unicodedata.category(c) not in HIDDEN:
        return c
    units = c.encode("utf-16-be")
    return "".join("\\u%02x%02x" % (units[i], units[i + 1]) for i in range(0, len(units), 2))


def written(x):
    """A value without spaces."""
    if isinstance(x, str):
        return '"' + "".join(map(character, x)) + '"'
    if isinstance(x, list):
        return "[" + ",".join(map(written, x)) + "]"
    if isinstance(x, dict):
        return "{" + ",".join(written(name) + ":" + written(part) for name, part in x.items()) + "}"
    return json.dumps(x)


def line(x):
    text = written(x)
    assert json.loads(text) == x, text
    return text


def objects(rows, rest, stopped=False):
    """The lines of these frames, each with its object, and the last one."""
    lines, place = [], 0
    for tag, body, members in rows:
        n = len(frame(tag, body))
        lines.append(line({"offset": place, "length": n, "tag": tag.decode("latin-1") or "-", **members}))
        place += n
    return lines + [line({"rest": rest, "stopped": stopped})]


def answers(*bytes_):
    """A server's one-byte answers, with their names."""
    return [(place, {"offset": place, "length": 1, "tag": byte.decode(), "name": name}) for place, (byte, name) in enumerate(bytes_)]


# No to one request for encryption, and then yes to the other.
NO = (b"N", "SSLResponse or GSSENCResponse")
AGREED = [(b"NS", answers(NO, (b"S", "SSLResponse"))), (b"NG", answers(NO, (b"G", "GSSENCResponse")))]


def served(style):
    rows = [(row[0], row[1], row[min(style, len(row) - 1)]) for row in SERVER]
    return objects(rows, len(REST))


def asked():
    return objects([(row[0], row[1], x) for row, x in zip(SESSION, CLIENT)], 2)


def agreed(place):
    return [line(it) for _, it in AGREED[place][1]] + [line({"rest": 0, "stopped": False})]


def listings():
    """The lines of each stored listing, with its side."""
    return [
        ("server", served(2)), ("server", served(3)), ("server", agreed(0)), ("server", agreed(1)), ("server", objects(REPLICATION, 0)),
        ("client", asked()), ("client", objects(REPLIES, 0)),
    ]


def runs():
    """Words, what the program reads, and what it writes."""
    assert len(CLIENT) == len(SESSION)
    served_, asked_ = spelled(SERVER) + REST, spelled(SESSION) + b"X\0"
    given = [served_, served_, *(sent for sent, _ in AGREED), spelled(REPLICATION), asked_, spelled(REPLIES)]
    words = ["server --json", "server --secrets --json --full", *["server --json"] * 3, "client --json " + KINDS, "client --json --resume --replication"]
    return [(it.encode().split(), sent, ("\n".join(lines) + "\n").encode()) for it, sent, (_, lines) in zip(words, given, listings())]
