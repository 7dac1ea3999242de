"""What the lines of an exchange have to be: `python3 expected/exchange.py`, in tests/rust/hostile.
`python3 expected/exchange.py keys` makes data/keys.hex.

Written from RFC 5802 and RFC 4648, and not from the code of this repository. The one thing that the RFC leaves open is what a
refusal is called, and which comes first: a text that isn't UTF-8; then the first character that can't stand where it stands
(its place), or the end; then a count past 32 bits; then what stands behind; then a nonce that doesn't begin with the client's;
then more than 100,000 rounds; then base64 that isn't canonical. A count of 0 is one round.
"""

import base64
import hashlib
import hmac
import re
import sys

from streams import tally

PASSWORD = b"foobar"
NONCE = b"9IZ2O01zb9IgiIZ1WJ/zgpJB"
BARE = b"n=,r=" + NONCE
FIRST = b"r=9IZ2O01zb9IgiIZ1WJ/zgpJBjx/oIRLs02gGSHcw1KEty3eY,s=fs3IXBy7U7+IvVjZ,i=1"
# The text that base64 characters make, the server's nonce (printable, without a comma) and posit-number's digits.
NONCE_CHARS = set(range(0x21, 0x7F)) - {0x2C}
BASE64_CHARS = set(b"abcdefghijklmnopqrstuvwxyzABCDEFGHIJKLMNOPQRSTUVWXYZ0123456789/+=")
DIGITS = set(b"0123456789")
CANONICAL = re.compile(rb"(?:[A-Za-z0-9+/]{4})*(?:[A-Za-z0-9+/]{3}=|[A-Za-z0-9+/]{2}==)?\Z")


class Refused(Exception):
    def __init__(self, name, place=0):
        self.name, self.place = name, place


def code(key, text):
    return hmac.new(key, text, hashlib.sha256).digest()


def decoded(text):
    """RFC 4648 with padding, and the bits behind the last byte are zeros."""
    if not CANONICAL.match(text):
        raise Refused("InvalidBase64")
    data = base64.b64decode(text)
    if base64.b64encode(data) != text:
        raise Refused("InvalidBase64")
    return data


class Scanner:
    def __init__(self, text):
        try:
            text.decode("utf-8")
        except UnicodeDecodeError:
            raise Refused("NotUtf8")
        self.text, self.at = text, 0

    def literal(self, wanted):
        for byte in wanted:
            if self.at == len(self.text):
                raise Refused("UnexpectedEnd")
            if self.text[self.at] != byte:
                raise Refused("UnexpectedCharacter", self.at)
            self.at += 1

    def run(self, chars):
        start = self.at
        while self.at < len(self.text) and self.text[self.at] in chars:
            self.at += 1
        return self.text[start:self.at]

    def end(self):
        if self.at < len(self.text):
            raise Refused("Trailing", self.at)


class Client:
    def __init__(self):
        self.state, self.codes = "first", 0

    def update(self, text):
        state, self.state = self.state, "over"
        if state != "first":
            raise Refused("WrongState")
        scanner = Scanner(text)
        scanner.literal(b"r=")
        nonce = scanner.run(NONCE_CHARS)
        scanner.literal(b",s=")
        salt = scanner.run(BASE64_CHARS)
        scanner.literal(b",i=")
        digits = scanner.run(DIGITS)
        if not digits or int(digits) >= 2**32:
            raise Refused("InvalidNumber")
        scanner.end()
        if not nonce.startswith(NONCE):
            raise Refused("InvalidNonce")
        if int(digits) > 100000:
            raise Refused("TooManyIterations")
        salt = decoded(salt)
        rounds = max(int(digits), 1)
        salted = hashlib.pbkdf2_hmac("sha256", PASSWORD, salt, rounds)
        front = b"c=" + base64.b64encode(b"n,,") + b",r=" + nonce
        message = BARE + b"," + text + b"," + front
        client_key = code(salted, b"Client Key")
        signature = code(hashlib.sha256(client_key).digest(), message)
        proof = bytes(a ^ b for a, b in zip(client_key, signature))
        self.expected = code(code(salted, b"Server Key"), message)
        self.codes += rounds + 2
        self.message = front + b",p=" + base64.b64encode(proof)
        self.state = "last"

    def finish(self, text):
        state, self.state = self.state, "over"
        if state != "last":
            raise Refused("WrongState")
        scanner = Scanner(text)
        if text.startswith(b"e"):
            scanner.literal(b"e=")
            scanner.run(set(range(1, 256)) - {0x2C, 0x3D})
            scanner.end()
            raise Refused("Server")
        scanner.literal(b"v=")
        signature = scanner.run(BASE64_CHARS)
        scanner.end()
        signature = decoded(signature)
        self.codes += 2
        if signature != self.expected:
            raise Refused("Verification")


def keys():
    """What the server holds: the digest of the client's key, and its own."""
    salted = hashlib.pbkdf2_hmac("sha256", PASSWORD, base64.b64decode(b"fs3IXBy7U7+IvVjZ"), 1)
    return hashlib.sha256(code(salted, b"Client Key")).digest(), code(salted, b"Server Key")


def accepts(first, last):
    """Whether the server that sent the first text takes the client's last one."""
    stored, _ = keys()
    front, _, proof = last.rpartition(b",p=")
    nonce, _, _ = first.partition(b",s=")
    if front != b"c=biws," + nonce:
        return False
    signature = code(stored, BARE + b"," + first + b"," + front)
    key = bytes(a ^ b for a, b in zip(base64.b64decode(proof), signature))
    return hashlib.sha256(key).digest() == stored


def answer():
    _, server = keys()
    front = FIRST.partition(b",s=")[0]
    return b"v=" + base64.b64encode(code(server, BARE + b"," + FIRST + b",c=biws," + front))


def first_outcome(text):
    client = Client()
    try:
        client.update(text)
    except Refused as refusal:
        return refusal.name, refusal.place
    accepted = "true" if accepts(text, client.message) else "false"
    try:
        client.finish(answer())
    except Refused as refusal:
        return f"Ok {accepted} {refusal.name}", 0
    return f"Ok {accepted} Ok", 0


def last_outcome(text):
    client = Client()
    client.update(FIRST)
    try:
        client.finish(text)
    except Refused as refusal:
        return refusal.name, refusal.place
    return "Ok", 0


def show(what, place, outcomes):
    print(f"{what} {place}: {tally(name for name, _ in outcomes)}; places {sum(place for _, place in outcomes)}")


def show_replaced(what, text, outcome):
    for place, old in enumerate(text):
        changed = [text[:place] + bytes([new]) + text[place + 1:] for new in range(256) if new != old]
        show(what, place, [outcome(one) for one in changed])


def show_turns():
    for turns in range(16):
        client, shown = Client(), "turns"
        for turn in range(4):
            is_last = turns >> turn & 1
            try:
                client.finish(answer()) if is_last else client.update(FIRST)
                name = "Ok"
            except Refused as refusal:
                name = refusal.name
            has_text = "false" if client.state == "over" else "true"
            shown += f", {'finish' if is_last else 'update'} {name} {has_text} {client.codes}"
        print(shown)


def show_all():
    show("unchanged", 0, [first_outcome(FIRST)])
    show_replaced("first", FIRST, first_outcome)
    show_replaced("last", answer(), last_outcome)
    show_turns()


if __name__ == "__main__":
    if sys.argv[1:] == ["keys"]:
        print("# What a server holds of the password `foobar` with the salt `fs3IXBy7U7+IvVjZ` and one round: the digest of the client's")
        print("# key, and the server's key. Made by `python3 expected/exchange.py keys`.")
        for key in keys():
            print(key.hex())
    else:
        show_all()
