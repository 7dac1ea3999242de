"""Lists mutated streams and recordings by pgtrace: bytes flipped, cut, doubled or moved, and lengths replaced. For live_trace; by itself `python3 scripts/mutations.py [STREAMS [SEED]]`.

Each stream is listed as text and as JSON. The status has to be 0; the messages to follow one another to the rest, which ends the stream, so that each byte is listed once;
no character to be one that steers a terminal; each object to be read by Python's json, and both listings to have the same places, lengths and names.

A recording has such a stream of each side, cut into chunks that alternate at random. Each message has to stand in the listing once, under its side's arrow, in its place, and with the time of the chunk with
which it was complete; and each object to say the same. Where bytes of the recording itself are changed, the status has to be 0 or 1.
"""
import concurrent.futures
import json
import os
import random
import re
import subprocess
import sys
import unicodedata

from postgres import TOP, fail

PROGRAM = os.environ.get("PGTRACE") or TOP / "crates" / "pgtrace" / "out" / "pgtrace"
KINDS = [word for kind in ("password", "initial", "initial", "response") for word in ("--password-kind", kind)]
LINE = re.compile(r" *(\d+) +(\d+) (\S+| ) (.*)")
REST = re.compile(r"(stopped )?rest (\d+)")
MARKED = re.compile(r"([ 0-9.]{12,}) ([<>]) (.*)")
SENDERS = {">": "client", "<": "server"}
MAGIC = b"pgtrace recording 1\n"
STEERING = ("Cc", "Cf", "Co", "Cs", "Zl", "Zp")
LENGTHS = (0, 1, 3, 4, 5, 8, 64, 65, 255, 256, 0x7FFF, 0xFFFF, 0x10000, 0x7FFFFFFF, 0x80000000, 0xFFFFFFFF)


def stored():
    """A server's and a client's stored stream, and where frames begin in each."""
    sys.path.insert(0, str(TOP / "crates" / "pgtrace" / "expected"))
    import client
    import objects
    import session

    server = [byte for byte, _ in session.ANSWERS] + [session.frame(row[0], row[1]) for row in (*session.FRAMES, *objects.SERVER)]
    return [("server", server), ("client", [session.frame(row[0], row[1]) for row in client.SESSION])]


def mutated(frames, chance):
    """Up to five changes of the frames, or of the bytes that they come to."""
    frames = [bytearray(it) for it in frames]
    for _ in range(chance.randrange(3)):
        at = chance.randrange(len(frames))
        way = chance.randrange(4)
        if way == 0:
            frames.insert(at, bytearray(frames[chance.randrange(len(frames))]))
        elif way == 1 and len(frames) > 1:
            del frames[at]
        elif way == 2:
            there = chance.randrange(len(frames))
            frames[at], frames[there] = frames[there], frames[at]
        elif len(frames[at]) > 4:
            place = chance.randrange(len(frames[at]) - 3)
            frames[at][place : place + 4] = chance.choice(LENGTHS).to_bytes(4, "big")
    stream = bytearray(b"".join(frames))
    for _ in range(chance.randrange(4)):
        at, way = chance.randrange(len(stream) + 1), chance.randrange(5)
        if way == 0 and at < len(stream):
            stream[at] ^= 1 << chance.randrange(8)
        elif way == 1 and at < len(stream):
            stream[at] = chance.randrange(256)
        elif way == 2:
            stream[at:at] = chance.choice((b"\x1b[2J", b"\n", b"\0", b"\xff", b"\xe2\x80\xae", b'"', b"\\", b"]}", b"\xc2\x9b"))
        elif way == 3:
            del stream[at : at + chance.randrange(1, 9)]
        else:
            del stream[at:]
    return bytes(stream)


def run(words, stream, statuses=(0,)):
    done = subprocess.run([PROGRAM, *words], input=stream, stdout=subprocess.PIPE, stderr=subprocess.PIPE, check=False)
    if done.returncode not in statuses:
        raise ValueError(f"status {done.returncode}: {done.stderr!r}")
    text = done.stdout.decode("utf-8")
    strangers = {hex(ord(c)) for c in text if c != "\n" and unicodedata.category(c) in STEERING}
    if strangers or text and not text.endswith("\n"):
        raise ValueError(f"characters that steer a terminal: {strangers}")
    return text.split("\n")[:-1]


def places(messages, rest, length):
    """Each message begins where the one before it ends, and the rest ends the stream."""
    at = 0
    for place, long in messages:
        if place != at:
            raise ValueError(f"a message at {place}, not {at}")
        at += long
    if at + rest != length:
        raise ValueError(f"{at} bytes of messages and {rest} of rest, of {length}")


def same_listing(words, stream):
    """Lists a stream in both forms; returns how many messages it has."""
    *lines, last = run(words, stream)
    *objects, end = [json.loads(line) for line in run([*words, "--json"], stream)]
    found = [LINE.fullmatch(line).groups() for line in lines]
    stopped, rest = REST.fullmatch(last).groups()
    places([(int(it[0]), int(it[1])) for it in found], int(rest), len(stream))
    if end != {"rest": int(rest), "stopped": stopped is not None} or len(objects) != len(lines):
        raise ValueError("the listings differ in their ends")
    for (place, length, _, text), one in zip(found, objects):
        if (int(place), int(length)) != (one["offset"], one["length"]) or not text.startswith(one.get("name", "fault")):
            raise ValueError(f"{text!r} and {one!r} differ")
    return len(lines)


def chunks_of(sides, chance):
    """Chunks of both sides' streams: times, arrows and bytes."""
    left, when, chunks = dict(sides), chance.randrange(1, 2 * 10**15), []
    while any(left.values()):
        arrow = chance.choice([it for it in left if left[it]])
        cut = chance.choice((1, 2, 3, 5, 8, 13, 100, 1000))
        chunks.append((when, arrow, left[arrow][:cut]))
        left[arrow] = left[arrow][cut:]
        when += chance.choice((0, 1, 999, 1_000_000, 61_234_567))
    return chunks


def recording(chunks):
    return MAGIC + b"".join(arrow.encode() + when.to_bytes(8, "big") + len(piece).to_bytes(4, "big") + piece for when, arrow, piece in chunks)


def completed(chunks, arrow, end):
    """When the byte before this place of a side came."""
    at = 0
    for when, side, piece in chunks:
        at += len(piece) if side == arrow else 0
        if side == arrow and at >= end:
            return when
    raise ValueError(f"a message ends at {end}, behind the bytes of its side")


def same_recording(words, chunks):
    """Lists a recording in both forms; returns how many messages it has."""
    lines = run([*words], recording(chunks))
    objects = [json.loads(line) for line in run([*words, "--json"], recording(chunks))]
    start, messages, rests = chunks[0][0], [], dict.fromkeys("><", 0)
    for line in lines:
        time, arrow, text = MARKED.fullmatch(line).groups()
        if time.strip():
            place, length, _, said = LINE.fullmatch(text).groups()
            messages.append((arrow, int(place), int(length), said))
            when = completed(chunks, arrow, int(place) + int(length))
            if time != f"{(when - start) // 1_000_000}.{(when - start) % 1_000_000:06}".rjust(12):
                raise ValueError(f"the time {time} of {text!r}")
        else:
            rests[arrow] = int(REST.fullmatch(text)[2])
    for arrow in "><":
        places([it[1:3] for it in messages if it[0] == arrow], rests[arrow], sum(len(piece) for _, side, piece in chunks if side == arrow))
    told = [it for it in objects if "offset" in it]
    if len(told) != len(messages):
        raise ValueError("the listings have different numbers of messages")
    for (arrow, place, length, said), one in zip(messages, told):
        if (SENDERS[arrow], place, length) != (one["from"], one["offset"], one["length"]) or not said.startswith(one.get("name", "fault")):
            raise ValueError(f"{said!r} and {one!r} differ")
    return len(messages)


def tried(job):
    words, stream = job
    try:
        if words[0] != "session":
            return same_listing(words, stream)
        if not isinstance(stream, bytes):
            return same_recording(words, stream)
        run(words, stream, (0, 1))
        return 0
    except (ValueError, AttributeError, KeyError) as e:
        return f"{' '.join(words)} of {(stream if isinstance(stream, bytes) else recording(stream)).hex()}: {e}"


def answers_of(jobs):
    with concurrent.futures.ThreadPoolExecutor() as pool:
        answers = list(pool.map(tried, jobs))
    faults = [answer for answer in answers if isinstance(answer, str)]
    if faults:
        fail(f"{len(faults)} of {len(jobs)} mutated streams: {faults[0]}")
    return sum(answers)


def recordings(count, seed):
    """Lists so many recordings, a fourth of which has other bytes than those of chunks; returns how many messages the others had."""
    chance = random.Random(seed)
    (_, server), (_, client) = stored()
    jobs = []
    for number in range(count):
        words = ["session", *(option for option in ("--full", "--secrets") if chance.randrange(4) == 0)]
        chunks = chunks_of({">": mutated(client, chance), "<": mutated(server, chance)}, chance) or [(1, ">", b"\0")]
        jobs.append((words, mutated([recording(chunks)], chance) if number % 4 == 3 else chunks))
    return answers_of(jobs)


def mutations(count, seed):
    """Lists so many streams; returns how many messages they had."""
    chance = random.Random(seed)
    sides = stored()
    jobs = []
    for number in range(count):
        side, frames = sides[number % 2]
        words = [side, *(option for option in ("--full", "--secrets", "--resume") if chance.randrange(4) == 0), *(KINDS if side == "client" else [])]
        jobs.append((words, mutated(frames, chance)))
    return answers_of(jobs)


if __name__ == "__main__":
    streams, start = (int(word) for word in (sys.argv[1:] + ["10000", "1"][len(sys.argv) - 1 :])[:2])
    print(f"{streams} mutated streams of seed {start}, {mutations(streams, start)} messages: each listed once, as text and as JSON")
    print(f"{streams} recordings of such streams, {recordings(streams, start)} messages: each listed once, under its side, at its time")
