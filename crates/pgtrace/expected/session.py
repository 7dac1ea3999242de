"""Writes stdin and stdout: `python3 expected/session.py`, in crates/pgtrace.

Each frame stands beside its line, which is written by hand after the message formats of the PostgreSQL manual. The places and
lengths are counted here. Nothing is taken from the program.
"""
import struct


def frame(tag, body):
    return tag + struct.pack(">I", len(body) + 4) + body


def int16(*numbers):
    return struct.pack(">%dh" % len(numbers), *numbers)


def int32(*numbers):
    return struct.pack(">%di" % len(numbers), *numbers)


def line(place, length, tag, text):
    """A line: the place and the length at the right of 10 and 8 characters, and a name at the left of 20 where more stands behind it."""
    name, _, more = text.partition(" ")
    if more and name not in ("fault", "Password,"):
        text = name.ljust(20) + " " + more
    return "%10d %8d %s %s\n" % (place, length, tag, text)


def column(name, table, number, type_, size, modifier, format_):
    return name + b"\0" + int32(table) + int16(number) + int32(type_) + int16(size) + int32(modifier) + int16(format_)


def value(bytes_):
    return int32(len(bytes_)) + bytes_


# A client asked for GSSAPI encryption, and then for TLS.
ANSWERS = [
    (b"N", "SSLResponse or GSSENCResponse"),
    (b"N", "SSLResponse or GSSENCResponse"),
]

FRAMES = [
    (b"R", int32(10) + b"SCRAM-SHA-256\0SCRAM-SHA-256-PLUS\0\0", 'AuthenticationSASL mechanisms "SCRAM-SHA-256" "SCRAM-SHA-256-PLUS"'),
    (b"R", int32(11) + b"r=abc,s=QUJD,i=4096", "AuthenticationSASLContinue data (19 bytes)"),
    (b"R", int32(12) + b"v=QUJD", "AuthenticationSASLFinal data (6 bytes)"),
    (b"R", int32(5) + b'\x01"\n\xff', "AuthenticationMD5Password salt (4 bytes)"),
    (b"R", int32(2), "AuthenticationKerberosV5"),
    (b"R", int32(3), "AuthenticationCleartextPassword"),
    (b"R", int32(6), "AuthenticationSCMCredential"),
    (b"R", int32(7), "AuthenticationGSS"),
    (b"R", int32(8) + b"ab", "AuthenticationGSSContinue data (2 bytes)"),
    (b"R", int32(9), "AuthenticationSSPI"),
    (b"R", int32(0), "AuthenticationOk"),
    (b"v", int32(196608, 1) + b"_pq_.x\0", 'NegotiateProtocolVersion version 196608 options 1 "_pq_.x"'),
    (b"S", b"client_encoding\0UTF8\0", 'ParameterStatus name "client_encoding" value "UTF8"'),
    (b"S", b"name\0\xff\0", 'ParameterStatus bytes "name\\x00\\xff\\x00"'),
    (b"K", int32(4711, -2), "BackendKeyData process 4711 key (4 bytes)"),
    (b"Z", b"I", "ReadyForQuery idle"),
    (b"1", b"", "ParseComplete"),
    (b"t", int16(3) + int32(23, 25, 16385), "ParameterDescription types 3 23 int4 25 text 16385"),
    (
        b"T",
        int16(2) + column(b"id", 16384, 1, 23, 4, -1, 0) + column(b"a\nb", 0, 0, 25, -1, -1, 1),
        'RowDescription columns 2 "id" table 16384 column 1 type 23 int4 size 4 modifier -1 format 0'
        ' "a\\x0ab" table 0 column 0 type 25 text size -1 modifier -1 format 1',
    ),
    (b"2", b"", "BindComplete"),
    (
        b"D",
        int16(4) + int32(1) + b"1" + int32(-1) + int32(0) + int32(9) + b'a"b\\c\n\x1b[m',
        'DataRow values 4 "1" NULL "" "a\\"b\\\\c\\x0a\\x1b[m"',
    ),
    (b"D", int16(3) + int32(4) + b"\0\0\0\x05" + int32(7) + b"Z\xc3\xbcrich" + int32(4) + b"NULL", 'DataRow values 3 \\x00000005 "Zürich" "NULL"'),
    (
        b"D",
        int16(3) + value(b"Z\xfcrich") + value("¡日本 😀 שלום".encode()) + value("a\u00a0b\u00ad\u200b\ufeff\ue000".encode()),
        'DataRow values 3 \\x5afc72696368 "¡日本 😀 שלום" "a\\xc2\\xa0b\\xc2\\xad\\xe2\\x80\\x8b\\xef\\xbb\\xbf\\xee\\x80\\x80"',
    ),
    (b"D", int16(1) + value(b"0123456789" * 6 + b"abc\xc3\xbc"), 'DataRow values 1 "' + "0123456789" * 6 + 'abc\\xc3" of 65 bytes'),
    (b"D", int16(1) + value(b"0123456789" * 6 + b"abcd\xff"), "DataRow values 1 \\x" + "30313233343536373839" * 6 + "61626364 of 65 bytes"),
    (b"D", int16(1) + int32(65) + b"0123456789" * 6 + b"abcde", 'DataRow values 1 "' + "0123456789" * 6 + 'abcd" of 65 bytes'),
    (b"D", int16(1) + int32(64) + b"0123456789" * 6 + b"abcd", 'DataRow values 1 "' + "0123456789" * 6 + 'abcd"'),
    (b"D", int16(2) + int32(1) + b"1", 'DataRow values 2 "1" fault 7 UnexpectedEof'),
    (b"s", b"", "PortalSuspended"),
    (b"C", b"SELECT 2\0", 'CommandComplete tag "SELECT 2"'),
    (b"3", b"", "CloseComplete"),
    (b"n", b"", "NoData"),
    (b"I", b"", "EmptyQueryResponse"),
    (
        b"E",
        b"SERROR\0C42P01\0Dna\xefve\0Mrelation \"t\" does not exist\0P15\0Zx\0\0",
        'ErrorResponse severity "ERROR" code "42P01" detail "na\\xefve" message "relation \\"t\\" does not exist" position "15" Z "x"',
    ),
    (b"Z", b"E", "ReadyForQuery failed"),
    (
        b"N",
        b"VNOTICE\0Dd\0Hh\0p1\0qq\0Ww\0ss\0tt\0cc\0dd\0nn\0Ff\0L2\0Rr\0\0",
        'NoticeResponse plain_severity "NOTICE" detail "d" hint "h" internal_position "1" internal_query "q" where "w"'
        ' schema "s" table "t" column "c" data_type "d" constraint "n" file "f" line "2" routine "r"',
    ),
    (b"Z", b"T", "ReadyForQuery in transaction"),
    (b"Z", b"\n", "ReadyForQuery \\x0a"),
    (b"A", int32(7) + b"news\0\xe2\x80\xae\xe2\x80\xa8\xc2\x9b\x7f\0", 'NotificationResponse process 7 channel "news" payload "\\xe2\\x80\\xae\\xe2\\x80\\xa8\\xc2\\x9b\\x7f"'),
    (b"G", b"\0" + int16(2, 0, 1), "CopyInResponse format 0 columns 2 0 1"),
    (b"H", b"\1" + int16(1, 1), "CopyOutResponse format 1 columns 1 1"),
    (b"d", b"1\ta\n", 'CopyData data "1\\x09a\\x0a"'),
    (b"c", b"", "CopyDone"),
    (b"V", int32(3) + b"abc", 'FunctionCallResponse result "abc"'),
    (b"V", int32(4, 5), "FunctionCallResponse result \\x00000005"),
    (b"V", int32(-1), "FunctionCallResponse result NULL"),
    (b"V", int32(5) + b"abc", 'FunctionCallResponse bytes "\\x00\\x00\\x00\\x05abc"'),
    (b"W", b"\0" + int16(0), "CopyBothResponse format 0 columns 0"),
    (b"W", b"\1" + int16(2, 0, 1), "CopyBothResponse format 1 columns 2 0 1"),
    (b"W", b"\0" + int16(1), 'CopyBothResponse bytes "\\x00\\x00\\x01"'),
    (b"\n", b"", "fault 5 UnknownTag"),
    (b"R", int32(99), "fault 6 UnknownAuthentication"),
    (b"1", b"x", "fault 8 NotDrained"),
]

REST = b"Z\0\0\0"


def main():
    bytes_, lines = b"", ""
    for byte, text in ANSWERS:
        lines += "%10d %8d %s %s\n" % (len(bytes_), 1, byte.decode(), text)
        bytes_ += byte
    for tag, body, text in FRAMES:
        one = frame(tag, body)
        lines += line(len(bytes_), len(one), "\\x0a" if tag == b"\n" else tag.decode(), text)
        bytes_ += one
    lines += "rest %d\n" % len(REST)
    with open("stdin", "wb") as file:
        file.write(bytes_ + REST)
    with open("stdout", "w", encoding="utf-8") as file:
        file.write(lines)


if __name__ == "__main__":
    main()
