#!/usr/bin/env python3
"""What a reader of frames must answer to damaged frames and to made-up bytes, worked out without a look at the program.

    tools/oracle/hostile_bytes.py

For a frame of each kind it prints the answers to the frame with one byte changed, each byte to each other value: how many are still a
message, how many wait for more bytes, and how many are each fault. Then it prints the same of the streams that the test
`made_up_streams` of `sb_session_tests` makes: how many messages come of all streams together, and how each stream ends. The tests
have these numbers.
"""
import re
from collections import Counter

NAME = re.compile(rb"[a-z0-9-]{1,32}\Z")
KEY = re.compile(rb"[a-z0-9._/-]{1,64}\Z")
PREFIX = re.compile(rb"[a-z0-9._/-]{0,64}\Z")
ADDR = re.compile(rb"[\x21-\x7e]{1,128}\Z")
KINDS = {1, 2, 3, 4, 0x10, 0x11, 0x12, 0x13, 0x14, 0x15, 0x16, 0x17, 0x18, 0x19, 0x1A}
PAYLOAD_MOST = 65_530
VERSION = 3


class Malformed(Exception):
    """The body is none of its kind."""


class Body:
    """The bytes of a body that are still to be read."""

    def __init__(self, rest):
        self.rest = rest

    def take(self, count):
        if len(self.rest) < count:
            raise Malformed
        taken, self.rest = self.rest[:count], self.rest[count:]
        return taken

    def number(self, width, least=0, most=None):
        number = int.from_bytes(self.take(width), "big")
        if number < least or (most is not None and number > most):
            raise Malformed
        return number

    def text(self, form, may_be_none=False):
        text = self.take(self.number(1))
        if not (may_be_none and text == b"") and not form.match(text):
            raise Malformed
        return text

    def utf8(self, width, most):
        try:
            self.take(self.number(width, 1, most)).decode()
        except UnicodeDecodeError:
            raise Malformed from None

    def value(self, least_tag):
        tag = self.number(1, least_tag, 4)
        if tag == 1:
            self.text(ADDR)
        elif tag == 2:
            self.number(8, 0, 2**63 - 1)
        elif tag == 3:
            self.number(1, 0, 1)
        elif tag == 4:
            self.utf8(2, 512)


def need(is_so):
    if not is_so:
        raise Malformed


def read_digest(body):
    body.number(1, 0, 1)
    low, high = body.text(NAME, True), body.text(NAME, True)
    need(high == b"" or low < high)
    last = b""
    for _ in range(body.number(2)):
        name = body.text(NAME)
        for _ in ("held", "floor", "progress"):
            body.number(8)
        need(last < name and low <= name and (high == b"" or name < high))
        last = name


def read_block(body, last_owner):
    owner = body.text(NAME)
    need(last_owner < owner)
    body.number(8)
    last, upto = body.number(8), body.number(8)
    need(last < upto)
    keys = set()
    for _ in range(body.number(2)):
        key = body.text(KEY)
        need(key not in keys)
        keys.add(key)
        version = body.number(8)
        need(last < version <= upto)
        last = version
        body.value(0)
    return owner


def read_delta(body):
    owner = b""
    for _ in range(body.number(2)):
        owner = read_block(body, owner)


def read_ask(body):
    body.text(NAME, True)
    body.text(PREFIX)
    owner, key = body.text(NAME, True), body.text(KEY, True)
    need((owner == b"") == (key == b""))


def read_rows(body):
    body.number(1, 0, 1)
    last = (b"", b"")
    for _ in range(body.number(2)):
        place = (body.text(NAME), body.text(KEY))
        need(last < place)
        last = place
        body.number(8, 1)
        body.value(1)


def read_status(body):
    body.number(1, 0, 1)
    body.text(NAME)
    body.text(NAME)
    body.utf8(1, 128)
    last = 0
    for _ in range(body.number(2)):
        last = body.number(1, last + 1)
        body.number(8)
    for _ in range(body.number(2)):
        body.utf8(1, 128)
        body.number(1)
        body.number(8)


def read_ask_change(body):
    body.text(NAME, True)
    body.text(PREFIX)
    body.number(8)


def read_ages(body):
    last = b""
    for _ in range(body.number(2)):
        owner = body.text(NAME)
        need(last < owner)
        last = owner
        body.number(8)


def read_body(kind, body):
    if kind == 1:
        body.text(NAME)
        body.text(NAME)
    elif kind == 2:
        read_digest(body)
    elif kind == 3:
        read_delta(body)
    elif kind == 4:
        body.number(1, 1, 5)
    elif kind == 0x10:
        read_ask(body)
    elif kind == 0x11:
        read_rows(body)
    elif kind == 0x12:
        body.text(KEY)
        body.value(0)
    elif kind == 0x13:
        body.number(8, 1)
    elif kind == 0x14:
        body.number(1, 1, 31)
    elif kind == 0x15:
        body.number(8)
    elif kind == 0x16:
        read_status(body)
    elif kind == 0x17:
        read_ask_change(body)
    elif kind == 0x18:
        body.number(1, 1, 3)
    elif kind == 0x1A:
        read_ages(body)
    need(body.rest == b"")


def first(stream):
    """What a reader says of the bytes that it has: a word, and behind a message how long its frame is."""
    if stream and stream[0] != 0xA7:
        return "mark", 0
    if len(stream) > 1 and stream[1] != VERSION:
        return "version", 0
    if len(stream) < 6:
        return "waiting", 0
    length = int.from_bytes(stream[2:6], "big")
    if not 1 <= length <= PAYLOAD_MOST:
        return "length", 0
    if len(stream) < 6 + length:
        return "waiting", 0
    kind = stream[6]
    if kind not in KINDS:
        return "kind", 0
    try:
        read_body(kind, Body(stream[7 : 6 + length]))
    except Malformed:
        return "malformed", 0
    return "message", 6 + length


WORDS = ("message", "waiting", "mark", "version", "length", "kind", "malformed")


def text(it):
    return bytes([len(it)]) + it


def u16(number):
    return number.to_bytes(2, "big")


def u64(number):
    return number.to_bytes(8, "big")


def frame(kind, body):
    payload = bytes([kind]) + body
    return bytes([0xA7, VERSION]) + len(payload).to_bytes(4, "big") + payload


def pair(owner, held, floor, progress):
    return text(owner) + u64(held) + u64(floor) + u64(progress)


def head(owner, floor, after, upto):
    return text(owner) + u64(floor) + u64(after) + u64(upto)


WEIGHT, ADDRESS, FLAG, REMOVED = b"\x02" + u64(5), b"\x01" + text(b"p:1"), b"\x03\x01", b"\x00"
TEXT = b"\x04" + u16(3) + b"h\xc3\xa9"

FRAMES = [
    ("hello", frame(1, text(b"c1") + text(b"a"))),
    ("digest", frame(2, b"\x01" + text(b"a") + text(b"c") + u16(2) + pair(b"a", 0, 0, 0) + pair(b"b", 7, 9, 8))),
    (
        "delta",
        frame(
            3,
            u16(2)
            + head(b"a", 0, 0, 2) + u16(2) + text(b"w") + u64(1) + WEIGHT + text(b"x") + u64(2) + REMOVED
            + head(b"b", 3, 1, 5) + u16(3) + text(b"k") + u64(2) + ADDRESS + text(b"l") + u64(3) + FLAG + text(b"m") + u64(4) + TEXT,
        ),
    ),
    ("bye", frame(4, b"\x01")),
    ("ask", frame(0x10, text(b"a") + text(b"w/") + text(b"a") + text(b"w/x"))),
    ("rows", frame(0x11, b"\x01" + u16(2) + text(b"a") + text(b"w") + u64(1) + WEIGHT + text(b"b") + text(b"k") + u64(2) + ADDRESS)),
    ("put", frame(0x12, text(b"w") + WEIGHT)),
    ("done", frame(0x13, u64(7))),
    ("refused", frame(0x14, b"\x06")),
    ("ask status", frame(0x15, u64(3))),
    (
        "node status",
        frame(
            0x16,
            b"\x00" + text(b"a") + text(b"c1") + text(b"0.3.0")
            + u16(2) + b"\x02" + u64(1) + b"\x06" + u64(3)
            + u16(2) + text(b"b.sock") + b"\x01" + u64(4) + text("h\u00e9".encode()) + b"\x37" + u64(0),
        ),
    ),
    ("ask change", frame(0x17, text(b"a") + text(b"w/") + u64(30000))),
    ("notice", frame(0x18, b"\x02")),
    ("ask ages", frame(0x19, b"")),
    ("ages", frame(0x1A, u16(2) + text(b"a") + u64(0) + text(b"b") + u64(1500))),
]


def damaged(whole):
    """Counts the answers to a frame with one byte changed."""
    counts = Counter()
    for place in range(len(whole)):
        for value in range(256):
            if value != whole[place]:
                answer, length = first(whole[:place] + bytes([value]) + whole[place + 1 :])
                # of a shorter length a front may be a message, and bytes are left
                counts[answer] += 1
    return counts


class Pcg32:
    """The generator of that name, of 64 bits of state and words of 32."""

    STEP = 6364136223846793005

    def __init__(self, state, stream):
        self.add = (stream << 1 | 1) % 2**64
        self.state = (state + self.add) % 2**64
        self.go_on()

    def go_on(self):
        self.state = (self.state * self.STEP + self.add) % 2**64

    def word(self):
        state = self.state
        self.go_on()
        mixed = ((state >> 18 ^ state) >> 27) % 2**32
        turn = state >> 59
        return (mixed >> turn | mixed << (-turn % 32)) % 2**32

    def below(self, limit):
        return self.word() % limit


STREAMS = 100_000


def made_up(random):
    """Any bytes; or up to three frames, of which up to three bytes are changed and the end may be cut off."""
    form = random.below(4)
    if form == 0:
        return bytes(random.below(256) for _ in range(random.below(80)))
    stream = bytearray()
    for _ in range(1 + random.below(3)):
        stream += FRAMES[random.below(len(FRAMES))][1]
    for _ in range(random.below(4)):
        place = random.below(len(stream))
        stream[place] = random.below(256)
    if form == 1:
        del stream[random.below(len(stream)) :]
    return bytes(stream)


def main():
    print("frame", *WORDS, sep="\t")
    for name, whole in FRAMES:
        counts = damaged(whole)
        print(name, *(counts[word] for word in WORDS), sep="\t")
    random = Pcg32(42, 54)
    assert Pcg32(42, 54).word() == 0xA15C02B7
    counts, whole = Counter(), 0
    for _ in range(STREAMS):
        stream = made_up(random)
        answer, length = first(stream)
        while answer == "message":
            counts[answer] += 1
            stream = stream[length:]
            answer, length = first(stream)
        if answer == "waiting" and not stream:
            whole += 1
        else:
            counts[answer] += 1
    print("streams", *(counts[word] for word in WORDS), sep="\t")
    print("streams without a rest", whole)


if __name__ == "__main__":
    main()
