"""Writes stdin and stdout: `python3 expected/session.py`, in crates/pgserve.

Each message of the client stands beside what is answered, which is written by hand after the message formats and the message flow of
the PostgreSQL manual. The log-in is the exchange of RFC 7677. Lengths are counted here. Nothing is taken from the program.
"""
import struct


def int16(*numbers):
    return struct.pack(">%dh" % len(numbers), *numbers)


def int32(*numbers):
    return struct.pack(">%di" % len(numbers), *numbers)


def frame(tag, body=b""):
    return tag + struct.pack(">I", len(body) + 4) + body


def packet(code, body=b""):
    return struct.pack(">Ii", len(body) + 8, code) + body


def report(tag, severity, code, message):
    return frame(tag, b"S" + severity + b"\0V" + severity + b"\0C" + code + b"\0M" + message + b"\0\0")


def error(code, message):
    return report(b"E", b"ERROR", code, message)


def column(name, type_, size, format_):
    return name + b"\0" + int32(0) + int16(0) + int32(type_) + int16(size) + int32(-1) + int16(format_)


def value(text):
    return int32(-1) if text is None else int32(len(text)) + text


def row(*values):
    return frame(b"D", int16(len(values)) + b"".join(value(text) for text in values))


def status(name, text):
    return frame(b"S", name + b"\0" + text + b"\0")


def query(text):
    return frame(b"Q", text + b"\0")


def parse(name, text):
    return frame(b"P", name + b"\0" + text + b"\0" + int16(0))


def bind(portal, name, values, formats):
    return frame(b"B", portal + b"\0" + name + b"\0" + int16(0) + int16(len(values)) + b"".join(value(v) for v in values) + int16(len(formats), *formats))


def execute(portal, most):
    return frame(b"E", portal + b"\0" + int32(most))


NONCE = b"rOprNGfwEbeRWgbNEkqO"
BOTH = NONCE + b"%hvYDpWUa2RaTCAfuxFIlj)hNlF$k0"
FIRST = b"n,,n=user,r=" + NONCE
FINAL = b"c=biws,r=" + BOTH + b",p=dHzbZapWIk4jUhN+Ute9ytag9zjfMHgsqmmiz7AndVQ="
SERVER_FIRST = b"r=" + BOTH + b",s=W22ZaJ0SNY7soEsUEjb6gQ==,i=4096"
SERVER_FINAL = b"v=6rriTRBi23WpRR/wtup+mMhUZUn/dB5nLTJRsjl95G4="


def called(function, format_, *values):
    return frame(b"F", int32(function) + int16(0, len(values)) + b"".join(map(value, values)) + int16(format_))


def result(data):
    return frame(b"V", value(data))


IDLE, INSIDE, FAILED = frame(b"Z", b"I"), frame(b"Z", b"T"), frame(b"Z", b"E")
SYNC = frame(b"S")

# What PostgreSQL 15 reports, in its order.
SETTINGS = (
    status(b"application_name", b"tests")
    + status(b"client_encoding", b"UTF8")
    + status(b"DateStyle", b"ISO, MDY")
    + status(b"default_transaction_read_only", b"off")
    + status(b"in_hot_standby", b"off")
    + status(b"integer_datetimes", b"on")
    + status(b"IntervalStyle", b"postgres")
    + status(b"is_superuser", b"off")
    + status(b"server_encoding", b"UTF8")
    + status(b"server_version", b"15.0")
    + status(b"session_authorization", b"user")
    + status(b"standard_conforming_strings", b"on")
    + status(b"TimeZone", b"UTC")
    + frame(b"K", int32(1, 1))
)

CITY = frame(b"T", int16(2) + column(b"id", 23, 4, 0) + column(b"name", 25, -1, 0))
BOTH_BINARY = frame(b"T", int16(2) + column(b"id", 23, 4, 1) + column(b"name", 25, -1, 1))
NAME = frame(b"T", int16(1) + column(b"name", 25, -1, 0))
ID = frame(b"T", int16(1) + column(b"id", 23, 4, 0))
NOTICE = report(b"N", b"NOTICE", b"01000", b"a notice\nof two lines")
ROWS = [row(b"1", "Reykjavík".encode()), row(b"-2", None), row(b"3", b"a\tb\\c")]
SELECT_3 = frame(b"C", b"SELECT 3\0")



def not_scripted(text):
    return error(b"42601", b"the script has no such statement: " + text)


def no_statement(name):
    return error(b"26000", b'prepared statement "' + name + b'" does not exist' if name else b"unnamed prepared statement does not exist")


def no_portal(name):
    return error(b"34000", b'portal "' + name + b'" does not exist')


NOT_SUPPORTED = error(b"0A000", b"this server doesn't do that")
MALFORMED = error(b"08P01", b"invalid message format")
ABORTED = error(b"25P02", b"current transaction is aborted, commands ignored until end of transaction block")
BAD_FORMAT = error(b"22023", b"a format is 0 (text) or 1 (binary)")
BROKEN = error(b"42703", b'column "broken" does not exist')
WARNINGS = {
    b"25001": report(b"N", b"WARNING", b"25001", b"there is already a transaction in progress"),
    b"25P01": report(b"N", b"WARNING", b"25P01", b"there is no transaction in progress"),
}

LATER = frame(b"A", int32(4711) + b"told\0a text\0")
PARSED, BOUND, CLOSED, NO_DATA, SUSPENDED = (frame(tag) for tag in (b"1", b"2", b"3", b"n", b"s"))



def tag(text):
    return frame(b"C", text + b"\0")


def extended(text, *, portal=b"", formats=(), types=()):
    """A Parse of the unnamed statement and a Bind, and what is answered."""
    return [
        (frame(b"P", b"\0" + text + b"\0" + int16(len(types)) + int32(*types)), PARSED),
        (bind(portal, b"", [], list(formats)), BOUND),
    ]


# Each message and its answer; messages of an extended query stand one by one.
STEPS = [
    (packet(80877103), b"N"),
    (packet(80877104), b"N"),
    # protocol 3.3 with an option that no server knows: 3.2 without it
    (
        packet(196611, b"user\0user\0database\0test\0application_name\0tests\0_pq_.x\0y\0client_encoding\0utf-8\0\0"),
        frame(b"v", int32(196610, 1) + b"_pq_.x\0") + frame(b"R", int32(10) + b"SCRAM-SHA-256\0\0"),
    ),
    (frame(b"p", b"SCRAM-SHA-256\0" + int32(len(FIRST)) + FIRST), frame(b"R", int32(11) + SERVER_FIRST)),
    (frame(b"p", FINAL), frame(b"R", int32(12) + SERVER_FINAL) + frame(b"R", int32(0)) + SETTINGS + IDLE),
    # simple queries
    (query(b"SELECT id, name FROM city;"), CITY + NOTICE + b"".join(ROWS) + SELECT_3 + IDLE),
    (query(b" ;"), frame(b"I") + IDLE),
    (query(b"SELECT 2"), not_scripted(b"SELECT 2") + IDLE),
    # several statements in one query, up to the first error
    (query(b"BEGIN; ; SELECT broken -- ;\n; ROLLBACK"), tag(b"BEGIN") + BROKEN + FAILED),
    (query(b"ROLLBACK; SHOW datestyle"), tag(b"ROLLBACK") + frame(b"T", int16(1) + column(b"DateStyle", 25, -1, 0)) + row(b"ISO, MDY") + tag(b"SHOW") + IDLE),
    # transactions without a script
    (query(b"\n BEGIN "), tag(b"BEGIN") + INSIDE),
    (query(b"begin work"), WARNINGS[b"25001"] + tag(b"BEGIN") + INSIDE),
    (query(b"SAVEPOINT s"), tag(b"SAVEPOINT") + INSIDE),
    (query(b"SELECT broken"), BROKEN + FAILED),
    (query(b"SELECT id, name FROM city"), ABORTED + FAILED),
    (query(b""), frame(b"I") + FAILED),
    (query(b"ROLLBACK TO SAVEPOINT s"), tag(b"ROLLBACK") + INSIDE),
    (query(b"release s"), tag(b"RELEASE") + INSIDE),
    (query(b"RELEASE s"), error(b"3B001", b'savepoint "s" does not exist') + FAILED),
    (query(b"COMMIT"), tag(b"ROLLBACK") + IDLE),
    (query(b"COMMIT"), WARNINGS[b"25P01"] + tag(b"COMMIT") + IDLE),
    (query(b"SAVEPOINT s"), error(b"25P01", b"SAVEPOINT can only be used in transaction blocks") + IDLE),
    (query(b"START TRANSACTION ISOLATION LEVEL SERIALIZABLE"), tag(b"START TRANSACTION") + INSIDE),
    (query(b"END AND CHAIN"), tag(b"COMMIT") + INSIDE),
    (query(b"ABORT"), tag(b"ROLLBACK") + IDLE),
    # comments are blanks, and a query of nothing else is empty
    (query(b"/* ping */ -- ;"), frame(b"I") + IDLE),
    (query(b"/* app */ BEGIN; -- x"), tag(b"BEGIN") + INSIDE),
    # names in quotes are as they stand, and words that have no place are a fault
    (query(b'SAVEPOINT "A b"'), tag(b"SAVEPOINT") + INSIDE),
    (query(b'ROLLBACK TO "A b"'), tag(b"ROLLBACK") + INSIDE),
    (query(b"DISCARD ALL"), error(b"25001", b"DISCARD ALL cannot run inside a transaction block") + FAILED),
    (query(b"ROLLBACK TRANSACTION AND NO CHAIN"), tag(b"ROLLBACK") + IDLE),
    (query(b"ROLLBACK x"), not_scripted(b"ROLLBACK x") + IDLE),
    (query(b"SET a"), not_scripted(b"SET a") + IDLE),
    (query(b'DEALLOCATE "all"'), no_statement(b"all") + IDLE),
    (query(b"DEALLOCATE 'a'"), not_scripted(b"DEALLOCATE 'a'") + IDLE),
    # a script's own word on the status
    (query(b"LOCK city"), tag(b"LOCK TABLE") + INSIDE),
    (query(b"UNLOCK city"), tag(b"UNLOCK TABLE") + IDLE),
    # settings
    (query(b"SET extra_float_digits = 3"), tag(b"SET") + IDLE),
    (query(b"SHOW extra_float_digits"), frame(b"T", int16(1) + column(b"extra_float_digits", 25, -1, 0)) + row(b"3") + tag(b"SHOW") + IDLE),
    (query(b"SET SESSION TimeZone TO 'Europe/Berlin'"), tag(b"SET") + status(b"TimeZone", b"Europe/Berlin") + IDLE),
    (query(b"RESET timezone"), tag(b"RESET") + status(b"TimeZone", b"UTC") + IDLE),
    (query(b"SHOW nothing"), error(b"42704", b'unrecognized configuration parameter "nothing"') + IDLE),
    # a statement with a parameter, its result in binary format
    (parse(b"s1", b"SELECT $1::int4"), PARSED),
    (frame(b"D", b"Ss1\0"), frame(b"t", int16(1) + int32(23)) + frame(b"T", int16(1) + column(b"int4", 23, 4, 0))),
    (bind(b"", b"s1", [b"7"], [1]), BOUND),
    (frame(b"D", b"P\0"), frame(b"T", int16(1) + column(b"int4", 23, 4, 1))),
    (execute(b"", 0), row(int32(7)) + tag(b"SELECT 1")),
    (frame(b"H"), b""),
    (SYNC, IDLE),
    (frame(b"D", b"P\0"), no_portal(b"")),
    (SYNC, IDLE),
    (parse(b"s1", b"BEGIN"), error(b"42P05", b'prepared statement "s1" already exists')),
    (SYNC, IDLE),
    # the types that a Parse names, and the script's where it names none
    (frame(b"P", b"s3\0SELECT $1::int4;\0" + int16(2) + int32(0, 1043)), PARSED),
    (frame(b"D", b"Ss3\0"), frame(b"t", int16(2) + int32(23, 1043)) + frame(b"T", int16(1) + column(b"int4", 23, 4, 0))),
    (frame(b"P", b"s4\0SELECT $1::int4\0" + int16(2) + int32(0, 0)), error(b"42P18", b"could not determine data type of a parameter")),
    (SYNC, IDLE),
    # a pattern; rows by a parameter, which comes as a text, in binary format, as a null, and as none of the script's
    (query(b"SELECT name FROM city LIMIT 12;"), NAME + row(b"Oslo") + tag(b"SELECT 1") + IDLE),
    (query(b"SELECT name FROM city LIMIT x"), not_scripted(b"SELECT name FROM city LIMIT x") + IDLE),
    (parse(b"s6", b"SELECT name FROM city WHERE id = $1"), PARSED),
    (bind(b"", b"s6", [b"1"], []), BOUND),
    (execute(b"", 0), row(b"Oslo") + tag(b"SELECT 1")),
    (frame(b"B", b"\0s6\0" + int16(1, 1, 1) + value(int32(-2)) + int16(0)), BOUND),
    (execute(b"", 0), row(None) + tag(b"SELECT 1")),
    (bind(b"", b"s6", [None], []), BOUND),
    (execute(b"", 0), tag(b"SELECT 0")),
    (bind(b"", b"s6", [b"3"], []), BOUND),
    (execute(b"", 0), tag(b"SELECT 0")),
    (SYNC, IDLE),
    # rows by two, in binary format and in text; each part is counted by itself
    *extended(b"SELECT id, name FROM city", portal=b"p", formats=[1, 1]),
    (frame(b"D", b"Pp\0"), BOTH_BINARY),
    (execute(b"p", 2), NOTICE + row(int32(1), "Reykjavík".encode()) + row(int32(-2), None) + SUSPENDED),
    (execute(b"p", 2), row(int32(3), b"a\tb\\c") + tag(b"SELECT 1")),
    (execute(b"p", 2), tag(b"SELECT 0")),
    (frame(b"C", b"Pp\0"), CLOSED),
    (bind(b"p", b"", [], []), BOUND),
    (execute(b"p", 3), NOTICE + b"".join(ROWS) + SUSPENDED),
    (execute(b"p", -1), tag(b"SELECT 0")),
    (SYNC, IDLE),
    # a portal lives up to the end of its transaction
    (query(b"BEGIN"), tag(b"BEGIN") + INSIDE),
    *extended(b"SELECT id, name FROM city", portal=b"p"),
    (execute(b"p", 1), NOTICE + ROWS[0] + SUSPENDED),
    (SYNC, INSIDE),
    (execute(b"p", 1), ROWS[1] + SUSPENDED),
    (SYNC, INSIDE),
    (bind(b"p", b"", [], []), error(b"42P03", b'cursor "p" already exists')),
    (SYNC, FAILED),
    (execute(b"p", 0), ABORTED),
    (SYNC, FAILED),
    (parse(b"", b"SELECT id, name FROM city"), ABORTED),
    (SYNC, FAILED),
    *extended(b"ROLLBACK"),
    (execute(b"", 0), tag(b"ROLLBACK")),
    (execute(b"p", 0), no_portal(b"p")),
    (SYNC, IDLE),
    (query(b"BEGIN; SAVEPOINT s"), tag(b"BEGIN") + tag(b"SAVEPOINT") + INSIDE),
    *extended(b"SELECT id, name FROM city", portal=b"p"),
    (SYNC, INSIDE),
    (query(b"ROLLBACK TO s"), tag(b"ROLLBACK") + INSIDE),
    (frame(b"D", b"Pp\0"), no_portal(b"p")),
    (SYNC, FAILED),
    (query(b"ROLLBACK"), tag(b"ROLLBACK") + IDLE),
    # a command is run once
    *extended(b"BEGIN"),
    (frame(b"D", b"S\0"), frame(b"t", int16(0)) + NO_DATA),
    (execute(b"", 0), tag(b"BEGIN")),
    (execute(b"", 0), error(b"55000", b'portal "" cannot be run')),
    (SYNC, FAILED),
    (query(b"END"), tag(b"ROLLBACK") + IDLE),
    # the unnamed statement ends with a simple query
    (parse(b"", b"SELECT id, name FROM city"), PARSED),
    (query(b"DEALLOCATE s3"), tag(b"DEALLOCATE") + IDLE),
    (bind(b"", b"", [], []), no_statement(b"")),
    (SYNC, IDLE),
    (bind(b"", b"s3", [], []), no_statement(b"s3")),
    (SYNC, IDLE),
    # an error, and requests that are passed over up to the Sync
    (parse(b"", b"SELECT 3"), not_scripted(b"SELECT 3")),
    (bind(b"", b"", [], []), b""),
    (query(b"BEGIN"), b""),
    (frame(b"P", b"s5\0"), b""),
    (SYNC, IDLE),
    (bind(b"", b"s2", [], []), no_statement(b"s2")),
    (SYNC, IDLE),
    (frame(b"D", b"Ss2\0"), no_statement(b"s2")),
    (SYNC, IDLE),
    (execute(b"p", 0), no_portal(b"p")),
    (SYNC, IDLE),
    # bugs of a client
    (bind(b"", b"s1", [], []), error(b"08P01", b"message has another number of values than there are parameters")),
    (execute(b"", 0), b""),
    (SYNC, IDLE),
    (frame(b"B", b"\0s1\0" + int16(2, 0, 0, 1) + value(b"7") + int16(0)), error(b"08P01", b"message has another number of formats than of values")),
    (SYNC, IDLE),
    (frame(b"B", b"\0s1\0" + int16(1, 2, 1) + value(b"7") + int16(0)), BAD_FORMAT),
    (SYNC, IDLE),
    (bind(b"", b"s1", [b"7"], [0, 0]), error(b"08P01", b"bind message has another number of result formats than the query has columns")),
    (SYNC, IDLE),
    (bind(b"", b"s1", [b"7"], [2]), BOUND),
    (execute(b"", 0), BAD_FORMAT),
    (SYNC, IDLE),
    (parse(b"", b"BEGIN; ROLLBACK"), error(b"42601", b"cannot insert multiple commands into a prepared statement")),
    (SYNC, IDLE),
    (frame(b"D", b"X\0"), error(b"08P01", b"invalid DESCRIBE message subtype")),
    (SYNC, IDLE),
    (frame(b"C", b"Xs1\0"), error(b"08P01", b"invalid CLOSE message subtype")),
    (SYNC, IDLE),
    # bodies that are none of their message
    (frame(b"Q", b"BEGIN"), MALFORMED + IDLE),
    (frame(b"E", b"p\0"), MALFORMED),
    (execute(b"p", 0), b""),
    (frame(b"S", b"x"), MALFORMED + IDLE),
    (frame(b"f", b"x"), b""),
    (frame(b"H", b"x"), MALFORMED),
    (SYNC, IDLE),
    # a statement's own error: one of class 42 when it is prepared, another when it is run
    (parse(b"", b"SELECT broken"), BROKEN),
    (bind(b"", b"", [], []), b""),
    (SYNC, IDLE),
    *extended(b"SELECT 1/0"),
    (frame(b"D", b"P\0"), frame(b"T", int16(1) + column(b"?column?", 23, 4, 0))),
    (execute(b"", 0), error(b"22012", b"division by zero")),
    (execute(b"", 0), b""),
    (SYNC, IDLE),
    # values in binary format, by PostgreSQL's `X_send`
    *extended(b"SELECT now()", formats=[1]),
    # 9,826 days after 2000-01-01, and a second before that
    (execute(b"", 0), row(struct.pack(">q", 9826 * 86400 * 10**6)) + row(struct.pack(">q", -(10**6))) + tag(b"SELECT 2")),
    (SYNC, IDLE),
    *extended(b"SELECT '127.0.0.1'::inet", formats=[1]),
    (execute(b"", 0), NOT_SUPPORTED),
    (SYNC, IDLE),
    (parse(b"", b""), PARSED),
    (bind(b"", b"", [], []), BOUND),
    (execute(b"", 0), frame(b"I")),
    (frame(b"C", b"Ss1\0"), CLOSED),
    (bind(b"", b"s1", [b"7"], []), no_statement(b"s1")),
    (SYNC, IDLE),
    # what a script says of a report, and a notification, which comes before the server is ready
    (
        query(b"NOTIFY told"),
        frame(b"N", b"SWARNING\0VWARNING\0C01000\0Mlook\0Dhere\0Hor there\0P3\0\0") + tag(b"NOTIFY") + frame(b"A", int32(1) + b"told\0a text\0") + IDLE,
    ),
    # in idle time: behind the ReadyForQuery, and in a transaction behind its end
    (query(b"LISTEN later"), tag(b"LISTEN") + IDLE + LATER + status(b"TimeZone", b"Europe/Oslo")),
    (query(b"SHOW timezone"), frame(b"T", int16(1) + column(b"TimeZone", 25, -1, 0)) + row(b"Europe/Oslo") + tag(b"SHOW") + IDLE),
    # what it is already isn't sent, and a RESET leaves it
    (query(b"BEGIN; LISTEN later"), tag(b"BEGIN") + tag(b"LISTEN") + INSIDE),
    (query(b"RESET timezone"), tag(b"RESET") + INSIDE),
    (query(b"COMMIT"), tag(b"COMMIT") + IDLE + LATER),
    *extended(b"LISTEN later"),
    (execute(b"", 0), tag(b"LISTEN")),
    (SYNC, IDLE + LATER),
    # calls of functions: a result as a text and in binary format, a null in any format, and an error
    (called(1299, 0), result(b"2026-11-26 00:00:00+00") + IDLE),
    (called(1299, 1), result(struct.pack(">q", 9826 * 86400 * 10**6)) + IDLE),
    (called(1299, 2), BAD_FORMAT + IDLE),
    (called(177, 1, b"2", b"3"), result(int32(5)) + IDLE),
    (called(177, 1, b"2", b"3"), result(None) + IDLE),
    (called(177, 2, b"2", b"3"), result(None) + IDLE),
    (called(952, 0), NOTICE + error(b"42501", b"permission denied") + IDLE),
    # one that isn't there, and arguments that are none
    (called(999999, 0), error(b"42883", b"function with OID 999999 does not exist") + IDLE),
    (called(177, 0, b"2"), error(b"08P01", b"message has another number of values than there are parameters") + IDLE),
    (called(177, 0, b"2", b"x"), error(b"22P02", b"invalid input syntax for the parameter's type: x") + IDLE),
    (
        frame(b"F", int32(177) + int16(3, 0, 0, 0, 2) + value(b"2") + value(b"3") + int16(0)),
        error(b"08P01", b"message has another number of formats than of values") + IDLE,
    ),
    (frame(b"F", int32(177) + int16(1, 2, 2) + value(b"2") + value(b"3") + int16(0)), BAD_FORMAT + IDLE),
    (frame(b"F", int32(177) + int16(0)), MALFORMED + IDLE),
    # in a transaction; of one that failed nothing is looked at
    (query(b"BEGIN"), tag(b"BEGIN") + INSIDE),
    (called(1299, 0), result(b"2026-11-26 00:00:00+00") + INSIDE),
    (called(999999, 0), error(b"42883", b"function with OID 999999 does not exist") + FAILED),
    (called(1299, 0), ABORTED + FAILED),
    (frame(b"F"), ABORTED + FAILED),
    (query(b"ROLLBACK"), tag(b"ROLLBACK") + IDLE),
    # it ends the portals, and is passed over up to a Sync
    *extended(b"SELECT id, name FROM city", portal=b"p"),
    (called(1299, 0), result(b"2026-11-26 00:00:00+00") + IDLE),
    (execute(b"p", 0), no_portal(b"p")),
    (called(1299, 0), b""),
    (SYNC, IDLE),
    # what belongs to a copy
    (frame(b"d", b"1\n"), b""),
    (frame(b"c"), b""),
    # copies from the server, and to it: complete, and given up
    (query(b"COPY city TO STDOUT"), frame(b"H", b"\0" + int16(2, 0, 0)) + frame(b"d", b"1\tOslo\n") + frame(b"d", b"2\t\\N\n") + frame(b"c") + tag(b"COPY 2") + IDLE),
    (query(b"COPY city FROM STDIN"), frame(b"G", b"\0" + int16(2, 0, 0))),
    (frame(b"d", b"1\tOslo\n"), b""),
    (SYNC, b""),
    (frame(b"c"), tag(b"COPY 1") + IDLE),
    # in a copy no body of a Sync or a Flush is looked at
    (query(b"COPY city FROM STDIN"), frame(b"G", b"\0" + int16(2, 0, 0))),
    (frame(b"S", b"x"), b""),
    (frame(b"H", b"x"), b""),
    (frame(b"c"), tag(b"COPY 1") + IDLE),
    (query(b"COPY city FROM STDIN"), frame(b"G", b"\0" + int16(2, 0, 0))),
    (frame(b"f", b"no"), MALFORMED + IDLE),
    *extended(b"COPY city FROM STDIN"),
    (execute(b"", 0), frame(b"G", b"\0" + int16(2, 0, 0))),
    (frame(b"H"), b""),
    (frame(b"f", b"no\0"), error(b"57014", b"COPY from stdin failed: no")),
    (SYNC, IDLE),
    # answers in turn, of which the last stays; a portal has the answer of the time when it was bound
    (
        query(b"UPDATE city SET name = 'x'"),
        frame(b"E", b"SERROR\0VERROR\0C40001\0Mcould not serialize access due to concurrent update\0WSQL statement\0\0") + IDLE,
    ),
    (query(b"UPDATE city SET name = 'x';"), tag(b"UPDATE 3") + IDLE),
    *extended(b"UPDATE city SET name = 'x'"),
    (execute(b"", 0), tag(b"UPDATE 3")),
    (SYNC, IDLE),
    (query(b"FETCH 2 FROM turns"), ID + row(b"1") + row(b"2") + tag(b"FETCH 2") + IDLE),
    *extended(b"FETCH 2 FROM turns", formats=[1]),
    (frame(b"D", b"P\0"), frame(b"T", int16(1) + column(b"id", 23, 4, 1))),
    (execute(b"", 1), row(int32(3)) + SUSPENDED),
    (execute(b"", 1), tag(b"FETCH 0")),
    (SYNC, IDLE),
    (query(b"FETCH 2 FROM turns"), ID + tag(b"FETCH 0") + IDLE),
    (query(b"FETCH 2 FROM turns"), ID + tag(b"FETCH 0") + IDLE),
    # all fields of an error
    (
        query(b"INSERT INTO city VALUES (1)"),
        frame(
            b"E",
            b"SERROR\0VERROR\0C23505\0Mduplicate key\0DKey (id)=(1) already exists.\0spublic\0tcity\0cid\0dint4\0ncity_pkey\0R_bt_check_unique\0\0",
        )
        + IDLE,
    ),
    # two results of one statement; a column's table and modifier
    (
        query(b"SELECT 1; SELECT 2"),
        frame(b"T", int16(1) + column(b"a", 23, 4, 0))
        + row(b"1")
        + tag(b"SELECT 1")
        + frame(b"T", int16(1) + b"b\0" + int32(16384) + int16(2) + int32(25) + int16(-1) + int32(16) + int16(0))
        + row(b"2")
        + tag(b"SELECT 1")
        + IDLE,
    ),
    # bytes of a type that has no name here: in binary format alone
    *extended(b"SELECT '127.0.0.1'::inet raw", formats=[1]),
    (execute(b"", 0), row(bytes([2, 32, 0, 4, 127, 0, 0, 1])) + tag(b"SELECT 1")),
    *extended(b"SELECT '127.0.0.1'::inet raw"),
    (execute(b"", 0), NOT_SUPPORTED),
    (SYNC, IDLE),
    # a statement by its words
    (query(b"Select\n  LOOSE -- all\n;"), frame(b"T", int16(1) + column(b"loose", 25, -1, 0)) + row(b"ok") + tag(b"SELECT 1") + IDLE),
    # channels: what is sent in a transaction comes at its end, once each, to who listens
    (query(b"LISTEN told; NOTIFY told, 'x'; NOTIFY told, 'x'"), tag(b"LISTEN") + tag(b"NOTIFY") * 2 + frame(b"A", int32(1) + b"told\0x\0") + IDLE),
    (query(b"BEGIN; NOTIFY told, 'y'"), tag(b"BEGIN") + tag(b"NOTIFY") + INSIDE),
    (query(b"ROLLBACK"), tag(b"ROLLBACK") + IDLE),
    (query(b'UNLISTEN *; NOTIFY "told"'), tag(b"UNLISTEN") + tag(b"NOTIFY") + IDLE),
    # a cursor, whose query the script has
    (query(b"BEGIN"), tag(b"BEGIN") + INSIDE),
    (query(b"DECLARE c CURSOR FOR SELECT id, name FROM city"), tag(b"DECLARE CURSOR") + INSIDE),
    (query(b"FETCH 2 FROM c"), CITY + ROWS[0] + ROWS[1] + tag(b"FETCH 2") + INSIDE),
    (query(b"MOVE ALL IN c"), tag(b"MOVE 1") + INSIDE),
    (query(b"COMMIT"), tag(b"COMMIT") + IDLE),
    # values that are none of their types
    (parse(b"s8", b"SELECT $1::int4"), PARSED),
    (bind(b"", b"s8", [b"abc"], []), error(b"22P02", b"invalid input syntax for the parameter's type: abc")),
    (SYNC, IDLE),
    (query(b"SELECT $1::int4"), error(b"42P02", b"there is no parameter $1") + IDLE),
    (query(b"SELECT '\xff'"), error(b"22021", b'invalid byte sequence for encoding "UTF8"') + IDLE),
    # an error that ends the session, behind which nothing is read
    (query(b"SELECT pg_terminate_backend(pg_backend_pid())"), report(b"E", b"FATAL", b"57P01", b"terminating connection due to administrator command")),
    (query(b"BEGIN"), b""),
]

if __name__ == "__main__":
    with open("stdin", "wb") as file:
        file.write(b"".join(message for message, _ in STEPS))
    with open("stdout", "wb") as file:
        file.write(b"".join(answer for _, answer in STEPS))
