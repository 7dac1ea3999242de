"""Sessions of a client, and what pgtrace lists of them, which tests/programs/run.py compares with what it does.

Each packet or message stands beside its line, which is written by hand after the message formats of the PostgreSQL manual, in
both styles where they differ. The places and lengths are counted here. Nothing is taken from the program.
"""
from session import frame, int16, int32, line


def values(*texts):
    return int16(len(texts)) + b"".join(int32(-1) if t is None else int32(len(t)) + t for t in texts)


SESSION = [
    (b"", int32(80877103), "SSLRequest"),
    (b"", int32(80877104), "GSSENCRequest"),
    (b"", int32(80877102, 4711) + b"abcd", "CancelRequest process 4711 key (4 bytes)", 'CancelRequest process 4711 key "abcd"'),
    (b"", int32(196608) + b"user\0a\0database\0b\0\0", 'StartupMessage version 196608 parameters "user" "a" "database" "b"'),
    (b"p", b"secret\0", "PasswordMessage password (6 bytes)", 'PasswordMessage password "secret"'),
    (
        b"p",
        b"SCRAM-SHA-256\0" + int32(8) + b"n,,n=,r=",
        'SASLInitialResponse mechanism "SCRAM-SHA-256" data (8 bytes)',
        'SASLInitialResponse mechanism "SCRAM-SHA-256" data "n,,n=,r="',
    ),
    (b"p", b"SCRAM-SHA-256\0" + int32(-1), 'SASLInitialResponse mechanism "SCRAM-SHA-256" data NULL'),
    (b"p", b"c=biws", "SASLResponse data (6 bytes)", 'SASLResponse data "c=biws"'),
    (b"p", b"more\0", "Password, SASLInitialResponse or SASLResponse (5 bytes)"),
    (b"Q", b"select 1\0", 'Query query "select 1"'),
    (b"P", b"s\0select $1, $2\0" + int16(2) + int32(23, 25), 'Parse statement "s" query "select $1, $2" types 2 23 int4 25 text'),
    (b"P", b"\0commit\0" + int16(0), 'Parse statement "" query "commit" types 0'),
    (
        b"B",
        b"p\0s\0" + int16(1, 1) + values(b"\0\0\0\x07", None) + int16(2, 0, 1),
        'Bind portal "p" statement "s" formats 1 1 values 2 \\x00000007 NULL results 2 0 1',
    ),
    (b"D", b"Ss\0", 'Describe statement "s"'),
    (b"D", b"Pp\0", 'Describe portal "p"'),
    (b"E", b"p\0" + int32(100), 'Execute portal "p" rows 100'),
    (b"H", b"", "Flush"),
    (b"S", b"", "Sync"),
    (b"C", b"Ss\0", 'Close statement "s"'),
    (b"C", b"Xs\0", 'Close X "s"'),
    (b"d", b"1\ta\n", 'CopyData data "1\\x09a\\x0a"'),
    (b"c", b"", "CopyDone"),
    (b"f", b"no \"more\"\0", 'CopyFail message "no \\"more\\""'),
    (b"F", int32(1598) + int16(1, 1) + values(b"7", None) + int16(0), 'FunctionCall function 1598 formats 1 1 values 2 "7" NULL result 0'),
    (b"Y", b"", "fault 5 UnknownTag"),
    (b"S", b"x", "fault 8 NotDrained"),
    (b"X", b"", "Terminate"),
]

# Behind a startup packet no other comes, so that each version has a session of its own.
LATER = [(b"", int32(196610) + b"user\0a\0\0", 'StartupMessage version 196610 parameters "user" "a"'), (b"S", b"", "Sync")]

OTHER = [(b"", int32(196609) + b"\0", "StartupMessage version 196609 parameters"), (b"S", b"", "Sync")]


def spelled(rows):
    return b"".join(frame(row[0], row[1]) for row in rows)


def listed(rows, style, rest):
    lines, place = "", 0
    for row in rows:
        n = len(frame(row[0], row[1]))
        lines += line(place, n, row[0].decode() or "-", row[2:][min(style, len(row) - 3)])
        place += n
    return lines + "rest %d\n" % rest


# The kinds of the session's first four messages of tag `p`, which the words give, and then no more.
KINDS = "--password-kind password --password-kind initial --password-kind initial --password-kind response"


def runs():
    """Words, what the program reads, and what it writes."""
    rest = b"X\0"
    wanted = [
        ("client " + KINDS, spelled(SESSION) + rest, listed(SESSION, 0, len(rest))),
        ("client --password-kind password --secrets --password-kind initial --password-kind initial --full --password-kind response", spelled(SESSION) + rest, listed(SESSION, 1, len(rest))),
        ("client", spelled(LATER), listed(LATER, 0, 0)),
        ("client", spelled(OTHER), listed(OTHER, 0, 0)),
    ]
    return [(words.encode().split(), given, output.encode()) for words, given, output in wanted]
