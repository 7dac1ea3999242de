"""What the lines of streams have to be: `python3 expected/streams.py`, in tests/rust/hostile.

Written from the PostgreSQL manual ("Message Formats"; keys that haven't four bytes and the message `v` from this project's profile
of protocol 3.2) and from README.md of this crate, and not from the code of this repository. A part that doesn't fit is UnexpectedEof, bytes behind the last part are NotDrained, and the frame's own length
alone says where the next frame begins.
"""

import sys

NUMBERS = {name: at + 1 for at, name in enumerate(
    "OutOfMemory EmbeddedNull TooLarge InvalidLength UnknownTag UnknownAuthentication UnexpectedEof NotDrained NotUtf8 "
    "InvalidSize InvalidCount InvalidKeyLength InvalidValueLength InvalidDimension TooManyElements InvalidBitLength "
    "InvalidNetmask InvalidAddressLength InvalidFamily InvalidVersion".split())}
NULL = 2**64 - 1


class Refused(Exception):
    def __init__(self, name, extra=b""):
        self.name, self.extra = name, extra

    def shown(self):
        return bytes([NUMBERS[self.name]]) + self.extra


class Sum:
    """FNV-1a of 64 bits."""

    def __init__(self):
        self.value, self.flaw = 0xCBF29CE484222325, None

    def plain(self, data):
        value = self.value
        for byte in data:
            value = (value ^ byte) * 0x100000001B3 % 2**64
        self.value = value

    def size(self, number):
        self.plain(number.to_bytes(8, "big"))

    def bytes(self, data):
        self.size(len(data))
        self.plain(data)

    def refused(self, refusal):
        self.plain(refusal.shown())
        if self.flaw is None:
            self.flaw = refusal.name

    def text(self, data):
        try:
            data.decode("utf-8")
        except UnicodeDecodeError:
            self.refused(Refused("NotUtf8"))
        else:
            self.bytes(data)


class Parts:
    """Bytes that are read from the left."""

    def __init__(self, data):
        self.data, self.at = data, 0

    def left(self):
        return len(self.data) - self.at

    def take(self, count):
        if count > self.left():
            raise Refused("UnexpectedEof")
        self.at += count
        return self.data[self.at - count:self.at]

    def number(self, size, signed):
        return int.from_bytes(self.take(size), "big", signed=signed)

    def string(self):
        end = self.data.find(b"\0", self.at)
        if end < 0:
            raise Refused("UnexpectedEof")
        return self.take(end + 1 - self.at)[:-1]

    def most(self, count):
        return self.take(min(count, self.left()))

    def rest(self):
        return self.take(self.left())

    def end(self):
        if self.left():
            raise Refused("NotDrained")


def counted(count, parts, item):
    """The items of a list with a count before it: each adds itself to a sum. Then what ends it."""
    came = []
    try:
        for _ in range(count):
            came.append(item(parts))
        parts.end()
    except Refused as refusal:
        return came, refusal
    return came, None


def add_walk(total, announced, most, items, end):
    """What is announced, the items, the end and the end three times more, and what is announced then."""
    total.size(announced)
    total.size(NULL if most is None else most)
    for item in items:
        total.plain(b"\1")
        item(total)
    total.plain(b"\0" if end is None else b"\2")
    if end is not None:
        total.refused(end)
    for _ in range(3):
        total.plain(b"\0" if end is None else b"\2" + end.shown())
    total.size(0)
    total.size(NULL if most is None else 0)


def column_format(parts):
    data = parts.take(2)
    return lambda total: total.plain(data)


def type_of_parameter(parts):
    data = parts.take(4)
    return lambda total: total.plain(data)


def value_place(parts):
    size = parts.number(4, True)
    if size < 0:
        return lambda total: total.size(NULL)
    parts.take(size)
    start, end = parts.at - size, parts.at
    return lambda total: (total.size(start), total.size(end))


def text(parts):
    name = parts.string()
    try:
        name.decode("utf-8")
    except UnicodeDecodeError:
        raise Refused("NotUtf8")
    return name


def option(parts):
    name = text(parts)
    return lambda total: total.bytes(name)


def column(parts):
    name = text(parts)
    numbers = parts.take(4 + 2 + 4 + 2 + 4 + 2)
    return lambda total: (total.bytes(name), total.plain(numbers))


def add_counted(total, count, data, item):
    items, end = counted(count, Parts(data), item)
    add_walk(total, count, count, items, end)


def add_error_fields(total, data):
    parts, items, end = Parts(data), [], None
    try:
        while True:
            letter = parts.number(1, False)
            if letter == 0:
                parts.end()
                break
            text = parts.string()
            items.append(lambda total, letter=letter, text=text: (
                total.plain(bytes([letter])), total.text(text), total.bytes(text)))
    except Refused as refusal:
        end = refusal
    add_walk(total, 0, None, items, end)


def add_mechanisms(total, data):
    parts, items, end = Parts(data), [], None
    try:
        while True:
            name = text(parts)
            if not name:
                parts.end()
                break
            items.append(lambda total, name=name: total.bytes(name))
    except Refused as refusal:
        end = refusal
    add_walk(total, 0, None, items, end)


def add_row(total, count, data):
    add_counted(total, count, data, value_place)
    total.bytes(data)
    parts, values = Parts(data), []
    try:
        for _ in range(count):
            size = parts.number(4, True)
            values.append(None if size < 0 else parts.take(size))
        parts.end()
    except Refused as refusal:
        total.refused(refusal)
        return
    total.size(len(values))
    for value in values:
        if value is None:
            total.size(NULL)
        else:
            total.bytes(value)
    total.plain(b"\0")


EMPTY = {"1": "ParseComplete", "2": "BindComplete", "3": "CloseComplete", "I": "EmptyQueryResponse", "c": "CopyDone",
         "n": "NoData", "s": "PortalSuspended"}
REQUESTS = {0: "AuthenticationOk", 2: "AuthenticationKerberosV5", 3: "AuthenticationCleartextPassword",
            6: "AuthenticationScmCredential", 7: "AuthenticationGss", 9: "AuthenticationSspi"}


def read_request(parts):
    code = parts.number(4, True)
    if code in REQUESTS:
        return REQUESTS[code], lambda total: None
    if code == 5:
        salt = parts.take(4)
        return "AuthenticationMd5Password", lambda total: total.plain(salt)
    if code == 10:
        data = parts.rest()
        return "AuthenticationSasl", lambda total: add_mechanisms(total, data)
    names = {8: "AuthenticationGssContinue", 11: "AuthenticationSaslContinue", 12: "AuthenticationSaslFinal"}
    if code in names:
        data = parts.rest()
        return names[code], lambda total: total.bytes(data)
    raise Refused("UnknownAuthentication", code.to_bytes(4, "big", signed=True))


def read_body(tag, parts):
    """The message's name, and what adds its parts to a sum."""
    if tag in EMPTY:
        return EMPTY[tag], lambda total: None
    if tag == "R":
        return read_request(parts)
    if tag == "A":
        process, channel, text = parts.take(4), parts.string(), parts.string()
        return "NotificationResponse", lambda t: (t.plain(process), t.text(channel), t.text(text))
    if tag == "C":
        text = parts.string()
        return "CommandComplete", lambda t: t.text(text)
    if tag == "K":
        process, key = parts.take(4), parts.take(4) + parts.most(256 - 4)
        return "BackendKeyData", lambda t: (t.plain(process), t.bytes(key), t.plain(key) if len(key) == 4 else None)
    if tag == "v":
        version, count = parts.take(4), parts.number(4, True)
        if count < 0:
            raise Refused("InvalidCount")
        data = parts.rest()
        return "NegotiateProtocolVersion", lambda t: (t.plain(version), add_counted(t, count, data, option))
    if tag == "S":
        name, value = parts.string(), parts.string()
        return "ParameterStatus", lambda t: (t.text(name), t.text(value))
    if tag == "Z":
        status = parts.take(1)
        return "ReadyForQuery", lambda t: t.plain(status)
    if tag == "d":
        data = parts.rest()
        return "CopyData", lambda t: t.bytes(data)
    if tag in "EN":
        data = parts.rest()
        return {"E": "ErrorResponse", "N": "NoticeResponse"}[tag], lambda t: add_error_fields(t, data)
    if tag in "GH":
        form, count, data = parts.take(1), parts.number(2, False), parts.rest()
        name = {"G": "CopyInResponse", "H": "CopyOutResponse"}[tag]
        return name, lambda t: (t.plain(form), add_counted(t, count, data, column_format))
    if tag in "DTt":
        count, data = parts.number(2, False), parts.rest()
        if tag == "D":
            return "DataRow", lambda t: add_row(t, count, data)
        if tag == "T":
            return "RowDescription", lambda t: add_counted(t, count, data, column)
        return "ParameterDescription", lambda t: add_counted(t, count, data, type_of_parameter)
    raise Refused("UnknownTag", tag.encode("latin-1"))


def read_frame(tag, payload):
    """The label of what the frame is read as, and the sum of all that it holds."""
    total = Sum()
    parts = Parts(payload)
    try:
        name, add = read_body(tag, parts)
        parts.end()
    except Refused as refusal:
        total.plain(refusal.shown())
        return refusal.name, total.value
    total.bytes(name.encode())
    add(total)
    return (name if total.flaw is None else f"{name} with {total.flaw}"), total.value


def read_stream(data):
    """The results, whether a length stopped it, and the bytes that are left."""
    results, at = [], 0
    while len(data) - at >= 5:
        length = int.from_bytes(data[at + 1:at + 5], "big")
        if length < 4:
            return results, True, data[at:]
        if len(data) - at < 1 + length:
            break
        results.append(read_frame(chr(data[at]), data[at + 5:at + 1 + length]))
        at += 1 + length
    return results, False, data[at:]


def value_of(reading):
    results, stopped, rest = reading
    total = Sum()
    for _, value in results:
        total.size(value)
    total.plain(bytes([stopped]))
    total.bytes(rest)
    return total.value


def frames_of(path):
    with open(path) as file:
        return [bytes.fromhex(line) for line in file.read().splitlines() if line and not line.startswith("#")]


def tally(names):
    counts = {}
    for name in names:
        counts[name] = counts.get(name, 0) + 1
    return ", ".join(f"{name} {count}" for name, count in counts.items())


def show_cuts():
    data = b"".join(frames_of("data/stream.hex"))
    whole = read_stream(data)
    results, stopped, rest = whole
    label = " ".join([name for name, _ in results] + ["stopped" if stopped else "waits"])
    cuttings = (len(data) + 1) * (len(data) + 2) // 2 + 1
    headers = len(results) + (len(rest) >= 5)
    fronts = Sum()
    for size in range(len(data) + 1):
        fronts.size(value_of(read_stream(data[:size])))
    front = f"{label}, rest {len(rest)}, {value_of(whole):016x}"
    for way, counts in [("parse_stream", False), ("StreamParser", True), ("StreamParser with take", True),
                        ("Message::parse", False), ("FrameParser", True)]:
        shown = f"{front}, headers {headers}:" if counts else f"{front}:"
        print(f"{way}: {shown} {cuttings}; fronts {fronts.value:016x}")
    print(f"Messages: fronts {fronts.value:016x}")


def show_session():
    frames = frames_of("data/session.hex")
    before, _, _ = read_stream(b"".join(frames))
    assert len(before) == len(frames) == 33
    for at, frame in enumerate(frames):
        alone, more, total, streams = [], [], Sum(), 0
        for place, old in enumerate(frame):
            for new in [0, 1, 127, 128, 255, (old + 1) % 256]:
                changed = frame[:place] + bytes([new]) + frame[place + 1:]
                reading = read_stream(b"".join(frames[:at] + [changed] + frames[at + 1:]))
                results, stopped, rest = reading
                total.size(value_of(reading))
                streams += 1
                values = [value for _, value in results]
                is_alone = (len(results) == len(before) and not stopped and not rest
                            and values[at + 1:] == [value for _, value in before[at + 1:]])
                if is_alone:
                    alone.append(results[at][0])
                else:
                    more += [name for name, _ in results[at:]] + ["stopped" if stopped else "waits"]
        print(f"{at + 1} {before[at][0]}: {streams} streams, 0 wrong, {total.value:016x}")
        print(f"  alone: {tally(alone)}")
        print(f"  more: {tally(more)}")


if __name__ == "__main__":
    show_cuts()
    show_session()
