"""Makes the vectors of Intel HEX and the text that the program replay_hex has to print.

  python3 model/ihex_vectors.py crates/replay_hex
  python3 model/ihex_vectors.py --count              prints what they cover; writes nothing

A vector is a head of 16 bytes and a body; numbers have their low byte first.

  0        kind: 0 read, the input is a text; 1 write, the input is an image
  1        seed of the output buffer: its byte i is i * 7 + seed, modulo 256
  2..3     bytes of the body
  4..7     bytes of the input: the body over and over, cut there; without a body, what the vectors before left there
  8..11    bytes of the output buffer
  12..14   a place of the input, and 15 the byte that it then has there; a place past the input: none

Each vector has a line: a letter and numbers. R, the reader: refusal number (0 where there is none), line named, bytes
put out, line at fault, digest of the whole output buffer after the call. W, the writer: the same without the line at
fault. Fixed rules and fixed seeds make everything, so that two runs give the same bytes. Every image that the writer
takes is read back from its text, or nothing is written.
"""

import collections
import itertools
import pathlib
import random
import sys

sys.dont_write_bytecode = True

import ihex
from ihex import DATA, END, START, UPPER

READ, WRITE = range(2)
NOWHERE = 0xFFFFFF
MODULUS = 4294967291
MOST_INPUT, MOST_OUT = 46100, 46200
# output buffer of a text that is refused, where no other is asked for
SOME_ROOM = 48


# --- what both sides make: output buffers, and a digest ---------------------------------------------------------


def filled(size, seed):
    return bytes((i * 7 + seed) % 256 for i in range(size))


def digest(numbers):
    h = 1
    for number in numbers:
        h = (h * 257 + number + 1) % MODULUS
    return h


# --- the vectors as they are made --------------------------------------------------------------------------------


class Tape:
    def __init__(self):
        self.data, self.lines = bytearray(), []
        # the input of a vector stands at the front, and is left there
        self.input = bytearray(MOST_INPUT)
        self.counts = collections.defaultdict(collections.Counter)
        self.part = ""

    def laid(self, body, size, place, byte):
        """The input of a vector."""
        if body:
            self.input[:size] = itertools.islice(itertools.cycle(body), size)
        if place != NOWHERE:
            assert place < size
            self.input[place] = byte
        return bytes(self.input[:size])

    def add(self, kind, body, size, room, place=NOWHERE, byte=0):
        """A vector; `room` gives the output buffer's length for an input."""
        assert len(body) <= size <= MOST_INPUT
        given = self.laid(body, size, place, byte)
        out = filled(room(given), len(self.lines) * 5 % 256)
        assert len(out) <= MOST_OUT
        self.data += bytes((kind, len(self.lines) * 5 % 256)) + len(body).to_bytes(2, "little")
        self.data += size.to_bytes(4, "little") + len(out).to_bytes(4, "little")
        self.data += place.to_bytes(3, "little") + bytes((byte,)) + body
        if kind == READ:
            outcome = ihex.read(given, out)
            self.tell("R", outcome, outcome.count, ihex.faulty_line(given))
        else:
            outcome = ihex.write(given, out)
            self.tell("W", outcome, outcome.count)
            assert outcome.number or ihex.image_of(outcome.out[:outcome.count]) == given

    def tell(self, letter, outcome, *numbers):
        self.lines.append(" ".join(map(str, (letter, outcome.number, outcome.line, *numbers, digest(outcome.out)))))
        self.counts["vectors of part"][letter + " " + self.part] += 1
        self.counts["answer"][letter + (" refusal %2d" % outcome.number if outcome.number else " done")] += 1

    def read(self, text, room=None, size=None, **patch):
        """A text; without `room` the output buffer is long enough, and every third time longer."""
        size = len(text) if size is None else size
        self.add(READ, text, size, self.enough if room is None else lambda _: room, **patch)

    def enough(self, text):
        try:
            return len(ihex.image_of(text)) + (3 if len(self.lines) % 3 == 0 else 0)
        except ihex.Fault:
            return SOME_ROOM

    def again(self, size, room, **patch):
        """The text that the vectors before left, with one byte changed or none."""
        self.read(b"", room=room, size=size, **patch)

    def write(self, body, size, extra=0, room=None):
        """An image; the output buffer has `room` bytes, or as many as the text has and `extra` ones."""
        self.add(WRITE, body[:size], size, lambda image: len(ihex.text_of(image)) + extra if room is None else room)


# --- records and lines -------------------------------------------------------------------------------------------


def some(count, seed=0):
    """Some bytes; no two of a record are the same by chance."""
    return bytes((i * 29 + seed * 83 + 7) % 256 for i in range(count))


def record(kind, offset=0, data=b"", count=None, off=0):
    """A record; its count may be a wrong one, its sum off."""
    spelled = bytes((len(data) if count is None else count, offset >> 8, offset & 255, kind)) + data
    return b":" + (spelled + bytes(((off - sum(spelled)) % 256,))).hex().upper().encode("ascii")


def line(*given, **more):
    return record(*given, **more) + b"\n"


def upper(half):
    return line(UPPER, 0, half.to_bytes(2, "big"))


def data(offset, count, seed=0):
    return line(DATA, offset, some(count, seed))


HEAD = upper(0x0800)
CLOSE = line(END)
START_LINE = line(START, 0, b"\x08\0\0\xED")
SHORT = HEAD + data(0, 2, 1) + CLOSE
# one line of each type, with letters among the digits
LINES = (HEAD, line(DATA, 0x10, b"\xAB\xCD\xEF\x5A\xA5"), line(DATA, 4, b"\xFE"), START_LINE, CLOSE)


def within(record):
    """A text whose third line has this record."""
    return HEAD + data(0x20, 3) + record + b"\n" + CLOSE


def with_line(at, given):
    """A text of five lines, one of them as given."""
    return b"".join(LINES[:at]) + given + b"".join(LINES[at + 1:])


# --- parts: one record -------------------------------------------------------------------------------------------


def types(tape):
    """The types that are read, with right and wrong lengths and offsets, and other types."""
    for kind in (*range(16), *range(17, 256, 14)):
        tape.read(within(record(kind, 0, some(kind % 3))))
    for kind, count in ((DATA, 2), (END, 0), (UPPER, 2), (START, 4)):
        for bit in (8, 16, 32, 64, 128):
            tape.read(within(record(kind + bit, 0, some(count))))
            tape.read(HEAD + data(3, 1) + line(kind + bit, 0, some(count)))
    for kind in range(7):
        for count in range(6):
            for offset in (0, 1, 0x0100) if count in (0, 2, 4) else (0,):
                tape.read(within(record(kind, offset, some(count))))
    for count in (0, 1, 2):
        for offset in (0, 1, 0x80, 0x0100, 0xFFFF):
            tape.read(HEAD + data(3, 1) + line(END, offset, some(count)))
    for kind, count in ((END, 255), (UPPER, 1), (UPPER, 3), (UPPER, 16), (START, 3), (START, 5), (START, 255)):
        tape.read(within(record(kind, 0, bytes(count))))


def sums(tape):
    """A sum that is off, in a record of each type; and sums of many values."""
    for at, good in enumerate(LINES):
        right = int(good[-3:-1], 16)
        for wrong in (right + 1, right - 1, right + 16, right - 16, right ^ 0x80, 255 - right, 256 - right, 0):
            if wrong % 256 != right:
                tape.read(with_line(at, good[:-3] + b"%02X\n" % (wrong % 256)))
    for byte in range(0, 256, 15):
        tape.read(HEAD + line(DATA, 0, bytes((byte,))) + CLOSE)
        tape.read(HEAD + line(DATA, 0x0700, bytes((byte, 255 - byte)), off=byte) + CLOSE)


def line_ends(tape):
    """LF and CR LF in every mixture; what ends no line."""
    for ends in itertools.product((b"\n", b"\r\n"), repeat=len(LINES)):
        tape.read(b"".join(good[:-1] + end for good, end in zip(LINES, ends)))
    for at, good in enumerate(LINES):
        for end in (b"\r\r\n", b"\r", b"", b"\n\n", b"\r\n\r\n", b"\n\r", b" \n", b"\t\n", b"\r \n", b"\0\n", b"\x0B",
                    b"\x8A"):
            tape.read(with_line(at, good[:-1] + end))
        for front in (b"\n", b"\r", b" "):
            tape.read(with_line(at, front + good))


def letters(tape):
    """Capital and small letters; other bytes in place of a digit, and what a careless reader takes for one."""
    whole = b"".join(LINES)
    dice = random.Random(20)
    tape.read(whole.lower())
    for _ in range(20):
        tape.read(bytes(dice.choice((byte, ord(chr(byte).lower()))) for byte in whole))
    for byte in (*range(0, 32, 5), *range(32, 128), *range(128, 256, 9), 0xC6, 0xE6):
        tape.read(SHORT[:-2] + bytes((byte, 10)))
    for place in range(16, 31):
        for byte in b"/:\0\xFF" if place % 2 else b"@G`g":
            tape.read(SHORT[:place] + bytes((byte,)) + SHORT[place + 1:])
    for byte in b"/:@G`g\0\x10\x5F\x80\xB1\xC1\xFF":
        for value in (byte - 48, byte - 55, byte - 87) if byte in b"/:@G`g" else (byte & 15, (byte & 15) + 9):
            # the sum is right for a reader that takes the byte for a digit of this value
            for digits, taken in ((b"5%c", 0x50 + value), (b"%c5", 0x05 + 16 * value)):
                good = record(DATA, 0, bytes((1, taken % 256, 2)))
                tape.read(HEAD + good[:11] + digits % byte + good[13:] + b"\n" + CLOSE)


def shapes(tape):
    """Lines that are almost a record."""
    good = record(DATA, 0, some(2, 5))
    for bad in (
            good[1:], b":" + good, b" " + good, good + b" ", b": " + good[1:], good[:5] + b" " + good[5:], b"\t" + good,
            good[:-1], good + b"0", good + b"00", good + b"0000", good + b":", good + b";", good + good,
            good + good[1:], good + b"\r" + good, good[:-2], good[:-3], good[:-4], b";" + good[1:], b"S" + good[1:],
            b"::" + good[2:], b"0" + good, b"\0" + good, b"\xEF\xBB\xBF" + good, good + b"\0", b":0x" + good[1:],
            b"", b" ", b"\0", b":", b"::", b":0", b":00", b":000", b":0000", b":00000", b":000000", b":0000000",
            b":00000000", b":000000000", b":0000000000", b":00000000000", b":000000000000", b":FF01", b":FE0002",
            b":00000001", b":00000001F", b":00000001FFF", b":00000001FF00", b"00000001FF", b":00000001FF\r\r", b"END"):
        tape.read(within(bad))
    for size in (0, 1, 2, 3, 16, 255):
        for count in sorted({0, size - 1, size, size + 1, size ^ 128, 255} & set(range(256))):
            tape.read(within(record(DATA, 0, some(size, 9), count=count)))
    for cut in range(len(good)):
        tape.read(within(good[:cut]))


def cuts(tape):
    """Texts that end anywhere."""
    text = HEAD + START_LINE + data(1, 3) + CLOSE
    for cut in range(len(text)):
        tape.read(text[:cut])
    text = SHORT.lower().replace(b"\n", b"\r\n")
    for cut in range(len(text) + 1):
        tape.read(text[:cut])


# --- parts: the end and the data -----------------------------------------------------------------------------------


EMPTY = (b"", HEAD, START_LINE, HEAD + START_LINE, HEAD + data(5, 0), data(0xFFFF, 0), upper(0xFFFF) + data(0xFFFF, 0))
FULL = (HEAD + data(0, 1), HEAD + data(0x10, 16) + START_LINE, HEAD + data(2, 2) + upper(0) + data(0x4000, 0))


def ends(tape):
    """With and without data: no end record, an end record, and text behind it."""
    for before in EMPTY + FULL:
        tape.read(before)
        tape.read(before + CLOSE)
        tape.read(before + CLOSE[:-1])
        tape.read(before + CLOSE[:-1] + b"\r")
        tape.read(before + CLOSE[:-1] + b"\r\n")
        for behind in (b"\n", b"\r", b"\0", b"read no further", CLOSE, data(0x30, 1) + CLOSE, data(0, 1),
                       data(0x4000, 1)):
            tape.read(before + CLOSE + behind)
    for before in EMPTY + FULL:
        tape.read(before + CLOSE, room=0)
        tape.read(before, room=0)
        tape.read(before + CLOSE + CLOSE, room=0)


OFFSETS = (0, 1, 0x0100, 0x3F01, 0x3F02, 0x3FF0, 0x3FF1, 0x3FFE, 0x3FFF, 0x4000, 0x4001, 0x8000, 0xC000, 0xFF01, 0xFFFF)


def places(tape):
    """Addresses about both ends of flash and about 64 KiB, records of 0, 1, 2, 16 and 255 bytes."""
    for offset in OFFSETS:
        for count in (0, 1, 2, 16, 255):
            tape.read(HEAD + data(offset, count, offset) + data(0x20, 1 if 0x3F00 < offset < 0x4000 else 0) + CLOSE)
    for half in (0, 8, 0x07FF, 0x0801, 0x0808, 0x0880, 0x0900, 0x0C00, 0x1800, 0x8000, 0x8800, 0xFFFF):
        for offset in (0, 1, 0x3FFF, 0x4000, 0xFFF8, 0xFFFF):
            tape.read(HEAD + data(0x21, 4) + upper(half) + data(offset, (half + offset) % 3 * 8) + CLOSE)
    for count in (1, 2, 3, 7, 8, 9, 15, 16, 17, 255):
        tape.read(HEAD + data(0x4000 - count, count) + CLOSE)
        tape.read(HEAD + data(0x4001 - count, count) + CLOSE)
        tape.read(HEAD + data(0x4000 - count, count) + data(0x4000, 1) + CLOSE)
        tape.read(upper(0x07FF) + data(0x10000 - count, count) + CLOSE)
        tape.read(upper(0x07FF) + data(0x10000 - count, count + 1 if count < 255 else 255) + HEAD + data(9, 1) + CLOSE)
        tape.read(upper(0xFFFF) + data(0x10000 - count, 255) + CLOSE)
        tape.read(data(0, count) + HEAD + data(0, count) + CLOSE)


def uppers(tape):
    """The upper half is that of the last 04 record; before the first it is 0."""
    other, two = upper(0x0801), data(0, 2)
    for text in (
            other + HEAD + two, HEAD + other + two, HEAD + HEAD + two, HEAD + two + other, HEAD.lower() + two,
            HEAD + two + HEAD + data(2, 2), HEAD + two + HEAD + data(1, 2), other + data(0, 0) + HEAD + data(5, 2),
            HEAD + two + other + data(2, 2), HEAD + two + other + two, two, data(0x0800, 2), two + HEAD,
            HEAD + two + upper(0) + data(8, 2) + HEAD + data(4, 2), upper(0x0008) + two, START_LINE + two,
            HEAD + START_LINE + two + START_LINE, HEAD + line(START, 0, bytes(4)) + two, data(0, 0) + HEAD + data(1, 1),
            HEAD + line(START, 0, b"\x08\x01\0\0") + two, line(2, 0, b"\x08\0") + two,
            HEAD + line(3, 0, bytes(4)) + two):
        tape.read(text + CLOSE)
        tape.read(text)


# --- parts: several records ----------------------------------------------------------------------------------------


def relations(start, count, other):
    """Where `other` bytes can begin beside `count` bytes: just touching, a byte too near, the same place, inside."""
    middle = start + count // 2 - other // 2
    return sorted({start - other, start - other + 1, start, middle, start + count - 1, start + count})


def overlaps(tape):
    """Spans of any alignment that touch and that overlap, near the front and elsewhere."""
    for start in range(16, 24):
        for count, other in ((1, 1), (2, 9), (7, 3), (8, 8), (17, 16)):
            for begin in relations(start, count, other):
                tape.read(HEAD + data(start, count, 1) + data(begin, other, 2) + CLOSE)
    for start, count, other in (
            (0x1FD, 255, 255), (0x3C00, 64, 1), (0x3FDB, 31, 5), (0x2001, 5, 63), (0x3FF5, 3, 7), (0x3FFE, 1, 1)):
        for begin in relations(start, count, other):
            tape.read(HEAD + data(start, count, 3) + data(begin, other, 4) + CLOSE)
    for start in range(1, 9):
        for count in (1, 2, 7, 8):
            # a hole that is just filled, and one that is filled with a byte too many in front or behind
            two = HEAD + data(0, start) + data(start + count, 9, 5)
            tape.read(two + data(start, count, 6) + CLOSE)
            tape.read(two + data(start - (start + count) % 2, count + 1, 7) + CLOSE)
    for text in (
            data(5, 3) * 2, line(DATA, 5, b"\xFF") * 2, line(DATA, 0, b"\0") * 3, data(5, 0) * 2 + data(5, 1),
            data(5, 4) + data(5, 0) + data(6, 0), data(5, 4) + HEAD + data(8, 1), data(4, 1) + data(6, 1) + data(5, 1),
            data(4, 1) + data(6, 1) + data(4, 3), data(9, 1) + data(8, 1) + data(7, 1) + data(7, 1),
            line(DATA, 6, b"\xFF" * 3) + data(8, 2), line(DATA, 0, b"\0\xFF\0") + data(1, 1), data(0x3FFF, 1) * 2,
            data(0x3FFE, 1) + line(DATA, 0x3FFF, b"\xFF") * 2, data(0x3FF8, 8) + data(0x3FFF, 1)):
        tape.read(HEAD + text + CLOSE)


def gaps(tape):
    """Records out of order and with gaps, of every length to 20; bytes 0xFF that are given."""
    dice = random.Random(21)
    for count in range(21):
        tape.read(HEAD + data(count * 3, count, count) + data(count, 1, 8) + CLOSE)
    for _ in range(40):
        starts = [i * 9 + dice.randrange(4) for i in range(5)]
        dice.shuffle(starts)
        tape.read(HEAD + b"".join(data(start, dice.randrange(6), start) for start in starts) + CLOSE)
    for offset in (1, 7, 8, 9, 255, 256, 257, 1023, 1024, 4095, 8191, 8192, 12345, 16375, 16376, 16377, 16383):
        tape.read(HEAD + data(offset, 1) + CLOSE)
        tape.read(HEAD + line(DATA, offset, b"\xFF") + data(0, 1) + CLOSE)


# one good line and lines with every mixture of faults, beside `BESIDE`
BESIDE = HEAD + data(0, 4, 1) + data(0x3FF0, 4, 2)
WRONG = {
    "good": data(8, 2, 3),
    "bad": line(DATA, 12, some(2), off=1),
    "outside": data(0x4000, 2),
    "twice": data(3, 2),
    "bad, outside": line(DATA, 0x3FFF, some(2), off=255),
    "bad, twice": line(9, 2, some(2)),
    "outside, twice": data(0x3FF3, 14),
    "bad, outside, twice": line(DATA, 0x3FF3, some(14), count=13),
}
TAILS = (CLOSE, b"", CLOSE + b"\n", CLOSE + WRONG["bad"], CLOSE[:-1])


def orders(tape):
    """Every mixture of faults in one line, in two and in three, before and behind each other."""
    for first, second in itertools.product(WRONG.values(), repeat=2):
        for tail in TAILS[:2]:
            tape.read(BESIDE + first + second + tail)
    for wrong in WRONG.values():
        for tail in TAILS:
            tape.read(BESIDE + wrong + tail, room=0)
            tape.read(HEAD + wrong[:-1] + b"\r\n" + tail, room=16383)
        tape.read(wrong + CLOSE)
        tape.read(BESIDE + wrong[:-1])
        tape.read(BESIDE + CLOSE + wrong)
        tape.read(CLOSE + wrong)
        tape.read(BESIDE + upper(0x07FF) + line(DATA, 0xFFFE, some(4)) + wrong + CLOSE)
        tape.read(BESIDE + upper(0x07FF) + line(DATA, 0xFFFE, some(4), off=7) + wrong + CLOSE)
    dice = random.Random(22)
    for _ in range(40):
        three = b"".join(dice.choice(list(WRONG.values())) for _ in range(3))
        tape.read(BESIDE + three + dice.choice(TAILS), room=dice.choice((0, 5, 48, 16384)))


def rooms(tape):
    """Output buffers about the image's length, none, and much longer ones."""
    for offset, count in ((0, 1), (0, 2), (0, 16), (1, 1), (7, 1), (8, 8), (30, 255), (0x3FFF, 1), (0x3F01, 255)):
        text = HEAD + data(offset, count) + CLOSE
        length = offset + count
        for room in sorted({0, 1, length // 2, length - 1, length, length + 1, length + 40}):
            tape.read(text, room=room)
        tape.read(text + b"\n", room=length - 1)
        tape.read(text, room=46200)
    for room in range(0, 20, 2):
        tape.read(HEAD + data(12, 4) + data(2, 5) + CLOSE, room=room)


# --- parts: long texts ---------------------------------------------------------------------------------------------


def repeated(tape):
    """A short body over and over: many lines, and a fault in one of them."""
    empty = line(DATA)
    for body in (empty, START_LINE, HEAD + START_LINE, line(DATA, 0xFFFF)[:-1] + b"\r\n"):
        for size in (len(body) * 300, len(body) * 300 - 1, MOST_INPUT // len(body) * len(body), MOST_INPUT):
            tape.read(body, size=size)
        for at in (0, 254, 255, 256, 257, 699):
            tape.read(body, size=len(body) * 700, place=len(body) * at + 3, byte=120)
    for body in (b"\n", b"\r", b"\r\n", b":", b"0", CLOSE, CLOSE[:-1] + b"\r\n", HEAD + data(3, 1), SHORT):
        tape.read(body, size=MOST_INPUT)
        tape.read(body, size=len(body) * 2)
    for count in (1, 2, 63, 64, 65, 254, 255, 256):
        # a byte of its own in each line; then no end record
        text = HEAD + b"".join(data(i * 5 % 1024, 1, i) for i in range(count))
        tape.read(text + CLOSE)
        tape.again(len(text), count)


def whole_flash(tape):
    """The whole of flash, in records of 16 bytes, of 255, and of 1, 2, 3 and so on in any order."""
    dice = random.Random(23)
    image = dice.randbytes(ihex.FLASH_SIZE)
    steps = list(itertools.accumulate(range(1, 181), initial=0)) + [len(image)]
    rising = [line(DATA, a, image[a:b]) for a, b in zip(steps, steps[1:])]
    dice.shuffle(rising)
    for lines in (
            ihex.text_of(image).splitlines(keepends=True),
            [HEAD] + [line(DATA, a, image[a:a + 255]).lower() for a in range(0, len(image), 255)] + [CLOSE],
            [HEAD] + [good[:-1] + dice.choice((b"\n", b"\r\n")) for good in rising] + [CLOSE]):
        text = b"".join(lines)
        more = text + data(0x2ABC, 1) + CLOSE
        assert ihex.image_of(text) == image
        tape.read(more)
        for room in (0, len(image) - 1, len(image), len(image) + 1, MOST_OUT):
            tape.again(len(text), room)
        tape.again(len(text) - 1, len(image))
        # in three steps the end record becomes one of no data; then the one behind it is read, and gives a byte twice
        for place in (-4, -3, -2):
            tape.again(len(more), len(image), place=len(text) + place, byte=48)
        # changed from the last line to the first, so that the last change decides
        for at in range(len(lines) - 1, -1, -(len(lines) // 9)):
            place, byte = dice.choice(((0, 59), (2, 103), (5, 64)))
            tape.again(len(text), 100, place=sum(map(len, lines[:at])) + place, byte=byte)


def written(tape):
    """The writer's own texts; and each with one record more, or with one record less."""
    for size in (1, 2, 15, 16, 17, 31, 32, 33, 48, 100, 255, 256, 257):
        text = ihex.text_of(some(size, size))
        tape.read(text)
        tape.read(text.lower().replace(b"\n", b"\r\n"))
        tape.read(text[:-len(CLOSE)] + data(size, 3) + CLOSE)
        tape.read(text[:-len(CLOSE)] + data(size - 1, 3) + CLOSE)
        tape.read(text[len(HEAD):])


# --- parts: by dice ------------------------------------------------------------------------------------------------


def thrown(dice):
    """A text, mostly without fault."""
    lines, place = [HEAD], dice.randrange(12)
    for _ in range(dice.randrange(1, 4)):
        count = dice.choice((0, 1, 2, 3, 5, 8, 13))
        lines.append(line(DATA, place, dice.randbytes(count)))
        place += count + dice.choice((0, 0, 1, 6))
        if dice.random() < 0.1:
            lines.append(dice.choice((START_LINE, HEAD, line(DATA, 0x9999), upper(0x1234) + line(DATA, 1) + HEAD)))
    if dice.random() < 0.5:
        lines[1:] = dice.sample(lines[1:], len(lines) - 1)
    text = b"".join(lines) + CLOSE
    text = text.lower() if dice.random() < 0.4 else text
    return text.replace(b"\n", b"\r\n") if dice.random() < 0.3 else text


def byte_changed(dice, text):
    """A byte changed, deleted or added."""
    place = dice.randrange(len(text))
    byte = bytes((dice.choice((*b"0123456789ABCDEFabcdef:\r\n", dice.randrange(256))),))
    return dice.choice((
        text[:place] + byte + text[place + 1:], text[:place] + text[place + 1:], text[:place] + byte + text[place:]))


def line_changed(dice, text):
    """A line lost, moved or given again, or all in any order."""
    lines = text.splitlines(keepends=True)
    one = lines.pop(dice.randrange(len(lines)))
    way = dice.randrange(4)
    if way == 1:
        lines += (one,)
        dice.shuffle(lines)
    if way == 2:
        lines.insert(dice.randrange(len(lines) + 1), one)
    if way == 3:
        lines.insert(dice.randrange(len(lines) + 1), one + one)
    return b"".join(lines)


def field_changed(dice, text):
    """A byte of a record changed, and its sum made right again."""
    lines = text.replace(b"\r", b"").splitlines()
    at = dice.randrange(len(lines))
    spelled = bytearray.fromhex(lines[at][1:].decode("ascii"))
    place = dice.randrange(min(len(spelled) - 1, 6))
    change = dice.choice((1, 255, 1, 255, 4, 64, dice.randrange(256)))
    spelled[place] = (spelled[place] + change) % 256
    spelled[-1] = (spelled[-1] - change) % 256
    lines[at] = b":" + spelled.hex().upper().encode("ascii")
    return b"\n".join(lines) + b"\n"


def changed(tape):
    dice = random.Random(24)
    for _ in range(56):
        text = thrown(dice)
        tape.read(text)
        for change in (byte_changed, byte_changed, line_changed, field_changed, field_changed):
            tape.read(change(dice, text), room=dice.choice((0, 7, 20, SOME_ROOM, SOME_ROOM)))


# --- parts: the writer ---------------------------------------------------------------------------------------------


def images(tape):
    """Every length to 50, lengths about records, pages and both limits; bytes that look random, and the same ones."""
    dice = random.Random(25)
    body = dice.randbytes(251)
    for size in range(1, 51):
        tape.write(dice.randbytes(size), size, extra=size % 3)
    for size in (127, 128, 129, 255, 256, 257, 511, 1023, 1024, 1025, 2048, 4080, 4095, 4096, 4097, 4112, 8191, 8193):
        tape.write(body, size)
        tape.write(body[:16], size, extra=5)
    for size in (16367, 16368, 16369, 16383, 16384):
        for extra in (-1, 0, 1, 1000):
            tape.write(body[size % 7:], size, extra=extra)
    for byte in range(0, 256, 5):
        tape.write(bytes((byte,)), 1 + byte % 19)
    for size in (0, 16385, 16386, 16400, 17408, 20000, 32768, MOST_INPUT):
        for room in (0, 1, 28, 45084, MOST_OUT):
            tape.write(body if size else b"", size, room=room)


def image_rooms(tape):
    """Output buffers of any length about a text's lines, none, and much longer ones."""
    for size in (1, 2, 15, 16, 17, 32, 33, 160, 1024):
        for extra in (-13, -12, -11, -2, -1, 1, 2, 44):
            tape.write(some(size), size, extra=extra)
        for room in (0, 1, 15, 16, MOST_OUT):
            tape.write(some(size), size, room=room)
    for size in (16384, 16383, 9999):
        for room in (0, 1, 16, 1000, 45083, MOST_OUT):
            tape.write(some(256, 3), size, room=room)


PARTS = (types, sums, line_ends, letters, shapes, cuts, ends, places, uppers, overlaps, gaps, orders, rooms, repeated,
         whole_flash, written, changed, images, image_rooms)


# --- the program ---------------------------------------------------------------------------------------------------


def everything():
    assert HEAD == b":020000040800F2\n" and CLOSE == b":00000001FF\n"
    tape = Tape()
    for part in PARTS:
        tape.part = part.__name__
        part(tape)
    return tape


def counted(tape):
    yield "%d vectors, %d bytes" % (len(tape.lines), len(tape.data))
    for title, counter in tape.counts.items():
        yield "\n" + title
        yield from ("  %6d %s" % (count, name) for name, count in sorted(counter.items()))


def write_files(tape, crate):
    (crate / "data").mkdir(parents=True, exist_ok=True)
    (crate / "data" / "vectors.bin").write_bytes(tape.data)
    (crate / "stdout").write_text("\n".join(tape.lines) + "\nvectors %d\n" % len(tape.lines))


def main(words):
    if words == ["--count"]:
        print("\n".join(counted(everything())))
    elif len(words) == 1 and not words[0].startswith("-"):
        write_files(everything(), pathlib.Path(words[0]))
    else:
        print("usage: ihex_vectors.py CRATE | --count", file=sys.stderr)
        sys.exit(2)


if __name__ == "__main__":
    main(sys.argv[1:])
