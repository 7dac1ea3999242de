"""Makes the tables lengths.rows and server_lengths.rows of crates/test_rows: `python3 expected/lengths.py ../../../crates/test_rows/data`, in tests/rust/hostile.

Written from the manual's "Message Formats" (the message `v` from this project's profile of protocol 3.2) and from what PostgreSQL's `array_send`, `hstore_send`, `path_send`, `range_send`,
`varbit_send`, `network_send` (of `inet` and `cidr`), `record_send`, `multirange_send`, `poly_send`, `pg_snapshot_send`, `tsvectorsend`, `tsquerysend` and `numeric_send` write, and not from the code of this repository. Which refusal comes for what is the table of refusals in the
repository's README: a length or count that is cut is UnexpectedEof, one that can't be has a name of its own, and bytes that are
left behind a list are NotDrained.
"""

import pathlib
import sys

from streams import Parts, Refused

HEAD = """# %s in which a length or a count is replaced: by the least and the greatest of its field, 0, 1, -1, the bytes that
# are left behind it, and one more. How a row is written: README.md. Made by
# tests/rust/hostile/expected/lengths.py.
"""


def hexed(data):
    if data is None:
        return "null"
    return data.hex() or '""'


def text(data):
    """A quoted text: what isn't plain ASCII, a quote or a backslash is `\\x` and two digits."""
    return '"' + "".join(chr(byte) if 32 <= byte < 127 and byte not in b'"\\' else f"\\x{byte:02x}" for byte in data) + '"'


def walk(announced, count, data, item, at=0):
    """What a list shows: the items, the error that ends it, and the count, where as many don't come."""
    parts, items, end = Parts(data), [], "end"
    parts.at = at
    try:
        for _ in range(count):
            items.append(item(parts))
        parts.end()
    except Refused as refusal:
        end = refusal.name
    shown = " ".join(["["] + items + ([end] if end != "end" else []) + ["]"])
    return shown + (f" of {announced}" if len(items) != announced else ""), end, len(items)


def length(parts, refusal):
    """A value behind its length, which may be negative: then it is null."""
    size = parts.number(4, True)
    if size < 0:
        return None
    if size > parts.left():
        raise Refused(refusal)
    return parts.take(size)


def place(parts):
    value = length(parts, "UnexpectedEof")
    return "null" if value is None else f"{parts.at - len(value)}..{parts.at}"


def column(parts):
    name = text(utf8(parts.string()))
    return " ".join([name] + [str(parts.number(size, signed)) for size, signed in [(4, False), (2, True), (4, False), (2, True), (4, True), (2, False)]])


def utf8(data):
    try:
        data.decode("utf-8")
    except UnicodeDecodeError:
        raise Refused("NotUtf8")
    return data


def pair(parts):
    size = parts.number(4, True)
    if size < 0 or size > parts.left():
        raise Refused("InvalidKeyLength")
    key = utf8(parts.take(size))
    value = length(parts, "InvalidValueLength")
    if value is not None:
        utf8(value)
    return f"{text(key)} {'null' if value is None else text(value)}"


def row(data):
    parts = Parts(data)
    count = parts.number(2, False)
    behind = parts.rest()
    shown, end, _ = walk(count, count, behind, place)
    values = walk(count, count, behind, lambda p: hexed(length(p, "UnexpectedEof")))[0]
    return f"DataRow {shown} {hexed(behind)} {values if end == 'end' else end}"


def columns(data):
    parts = Parts(data)
    count = parts.number(2, False)
    return "RowDescription " + walk(count, count, parts.rest(), column)[0]


def option(parts):
    return text(utf8(parts.string()))


def options(data):
    parts = Parts(data)
    version, count = parts.number(4, True), parts.number(4, True)
    if count < 0:
        raise Refused("InvalidCount")
    return f"NegotiateProtocolVersion {version} {walk(count, count, parts.rest(), option)[0]}"


def array(data):
    parts = Parts(data)
    dimensions = parts.number(4, True)
    if dimensions < 0:
        raise Refused("InvalidCount")
    nulls, element = parts.number(4, False), parts.number(4, False)
    start, elements, product = parts.at, 0, 1
    for _ in range(dimensions):
        size = parts.number(4, True)
        if size < 0:
            raise Refused("InvalidDimension")
        parts.take(4)
        product *= size
        if product > 2**31 - 1:
            raise Refused("TooManyElements")
        elements = product
    sizes = data[start:parts.at]
    shown = walk(dimensions, dimensions, sizes, lambda p: f"{p.number(4, True)} {p.number(4, True)}")[0]
    front = f"{element} {'nulls' if nulls else 'full'} {shown} "
    return front + walk(elements, elements, parts.rest(), lambda p: hexed(length(p, "InvalidValueLength")))[0]


def hstore(data):
    parts = Parts(data)
    count = parts.number(4, True)
    if count < 0:
        raise Refused("InvalidCount")
    return walk(count, count, parts.rest(), pair)[0]


def path(data):
    parts = Parts(data)
    closed = "closed" if parts.number(1, False) else "open"
    count = parts.number(4, True)
    if count < 0:
        raise Refused("InvalidCount")
    return closed + " " + walk(count, count, parts.rest(), lambda p: f"{p.take(8).hex()} {p.take(8).hex()}")[0]


def varbit(data):
    parts = Parts(data)
    bits = parts.number(4, True)
    if bits < 0:
        raise Refused("InvalidBitLength")
    if parts.left() != (bits + 7) // 8:
        raise Refused("InvalidSize")
    return f"{bits} {hexed(parts.rest())}"


def bounds(data):
    parts = Parts(data)
    tag = parts.number(1, False)
    sides = []
    for infinite, inclusive in [(8, 2), (16, 4)]:
        if tag & infinite:
            sides.append("none")
        else:
            value = length(parts, "InvalidValueLength")
            sides.append(f"{'in' if tag & inclusive else 'ex'} {hexed(value)}")
    parts.end()
    return " ".join(sides)


def counted(parts):
    count = parts.number(4, True)
    if count < 0:
        raise Refused("InvalidCount")
    return count


def listed(data, item):
    parts = Parts(data)
    count = counted(parts)
    return walk(count, count, parts.rest(), item)[0]


def record(data):
    return listed(data, lambda p: f"{p.number(4, False)} {hexed(length(p, 'InvalidValueLength'))}")


def range_of(parts):
    size = parts.number(4, True)
    if size < 0 or size > parts.left():
        raise Refused("InvalidValueLength")
    return hexed(parts.take(size))


def multirange(data):
    return listed(data, range_of)


def polygon(data):
    return listed(data, lambda p: f"{p.take(8).hex()} {p.take(8).hex()}")


def snapshot(data):
    parts = Parts(data)
    count = counted(parts)
    bounds = f"{parts.number(8, False)} {parts.number(8, False)}"
    return f"{bounds} {walk(count, count, parts.rest(), lambda p: str(p.number(8, False)))[0]}"


def lexeme(parts):
    name = text(utf8(parts.string()))
    places = [parts.number(2, False) for _ in range(parts.number(2, False))]
    return " ".join(map(str, [name, "["] + places + ["]"]))


def tsvector(data):
    return listed(data, lexeme)


def query_item(parts):
    if parts.number(1, False) == 1:
        weights, prefix = parts.number(1, False), parts.number(1, False)
        return f"{text(utf8(parts.string()))} {weights} {'prefix' if prefix else 'whole'}"
    operator = parts.number(1, False)
    return f"phrase {parts.number(2, False)}" if operator == 4 else {1: "not", 2: "and", 3: "or"}[operator]


def tsquery(data):
    return listed(data, query_item)


def numeric(data):
    parts = Parts(data)
    count, weight, sign, scale = (parts.number(2, signed) for signed in (False, True, False, False))
    digits = [parts.number(2, False) for _ in range(count)]
    parts.end()
    return " ".join(map(str, (["minus"] if sign else []) + [weight, scale, "["] + digits + ["]"]))


def inet(data):
    parts = Parts(data)
    family, bits, _, size = (parts.number(1, False) for _ in range(4))
    whole = {2: 4, 3: 16}.get(family)
    if whole is None:
        raise Refused("InvalidFamily")
    if bits > 8 * whole:
        raise Refused("InvalidNetmask")
    if size != whole:
        raise Refused("InvalidAddressLength")
    address = parts.take(whole)
    parts.end()
    return f"{hexed(address)} {bits}"


def cidr(data):
    return inet(data)


# A call, its bytes, and where its lengths and counts stand: behind each their size in bytes.
CASES = [
    (row, "0003 00000001 61 ffffffff 00000000", {0: 2, 2: 4, 7: 4, 11: 4}),
    (columns, "0001 6100 00000000 0000 00000017 0004 ffffffff 0000", {0: 2}),
    (options, "00030000 00000002 5f70715f2e78 00 00", {4: 4}),
    (array, "00000001 00000000 00000017 7fffffff 00000001", {0: 4, 12: 4}),
    (array, "00000002 00000001 0000000a 00000001 0000000a 00000002 00000000 ffffffff 00000005 68656c6c6f",
     {0: 4, 12: 4, 20: 4, 28: 4, 32: 4}),
    (array, "00000001 00000001 00000017 00000002 00000001 00000004 00000005 ffffffff", {0: 4, 12: 4, 20: 4, 28: 4}),
    (array, "00000003 00000000 00000017 00010000 00000001 00008000 00000001 00000000 00000001", {0: 4, 12: 4, 20: 4, 28: 4}),
    (hstore, "00000002 00000001 61 00000001 62 00000001 63 ffffffff", {0: 4, 4: 4, 9: 4, 14: 4, 19: 4}),
    (hstore, "00000002 00000005 68656c6c6f 00000005 776f726c64 00000004 686f6c61 ffffffff",
     {0: 4, 4: 4, 13: 4, 22: 4, 30: 4}),
    (path, "01 00000001 " + "00" * 16, {1: 4}),
    (path, "00 00000002 " + "3ff0000000000000" * 4, {1: 4}),
    (varbit, "0000000c 2b0f", {0: 4}),
    (record, "00000003 00000017 00000004 0000002a 00000019 ffffffff 00000019 00000000", {0: 4, 8: 4, 20: 4, 28: 4}),
    (record, "00000000", {0: 4}),
    (multirange, "00000002 00000005 0200000001 00000001 01", {0: 4, 4: 4, 13: 4}),
    (polygon, "00000002 " + "3ff0000000000000" * 4, {0: 4}),
    (snapshot, "00000002 0000000000000003 0000000000000009 0000000000000004 0000000000000007", {0: 4}),
    (tsvector, "00000002 636174 00 0002 0001 c003 72617400 0000", {0: 4, 8: 2, 18: 2}),
    (tsquery, "00000005 02 02 01 0f 01 636174 00 02 01 02 04 0002 01 00 00 726174 00", {0: 4}),
    (numeric, "0003 0001 4000 0002 0001 09d4 10e0", {0: 2}),
    (numeric, "0000 0000 0000 0000", {0: 2}),
    (inet, "02 19 00 04 c0a86480", {0: 1, 1: 1, 3: 1}),
    (inet, "03 80 00 10 200104f8000300ba02e081fffe22d1f1", {0: 1, 1: 1, 3: 1}),
    (inet, "02 20 00 04", {0: 1, 1: 1, 3: 1}),
    (cidr, "02 10 01 04 0a010000", {0: 1, 1: 1, 3: 1}),
    (cidr, "03 40 01 10 200104f8000300ba0000000000000000", {0: 1, 1: 1, 3: 1}),
    (bounds, "02 00000004 00000001 00000004 00000005", {1: 4, 9: 4}),
]
NAMES = {bounds: "range", numeric: "numeric_digits"}
TAGS = {row: "44", columns: "54", options: "76"}


def changes(size, left):
    """The bytes that replace a field of this size, without those that come twice; of one byte also the families of addresses and their lengths in bytes and bits."""
    values = {4: [-2**31, 2**31 - 1, 0, 1, -1, left, left + 1], 2: [0, 65535, 32767, 32768, 1, -1, left, left + 1],
              1: [0, 255, 2, 3, 4, 5, 16, 32, 33, 128, 129]}[size]
    return list(dict.fromkeys((value % 256**size).to_bytes(size, "big") for value in values))


def shown(call, data):
    try:
        return call(data)
    except Refused as refusal:
        return refusal.name


def line(call, data):
    if call in TAGS:
        return f"read {TAGS[call]} {len(data) + 4:08x} {data.hex()} = {shown(call, data)} ; rest \"\""
    return f"read {NAMES.get(call, call.__name__)} {data.hex()} = {shown(call, data)}"


def lines(call, digits, fields):
    data = bytes.fromhex(digits)
    yield f"\n# {NAMES.get(call, call.__name__)} {digits}"
    yield line(call, data)
    for at, size in fields.items():
        for new in changes(size, len(data) - at - size):
            yield line(call, data[:at] + new + data[at + size:])


if __name__ == "__main__":
    for name, what, of_server in [("lengths.rows", "Values", False), ("server_lengths.rows", "Messages of a server", True)]:
        table = [row for case in CASES if (case[0] in TAGS) == of_server for row in lines(*case)]
        (pathlib.Path(sys.argv[1]) / name).write_text(HEAD % what + "\n".join(table) + "\n")
