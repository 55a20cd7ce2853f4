"""Makes the vectors of the job text and the text that the program replay_job has to print.

  python3 model/job_vectors.py crates/replay_job

A vector is a head of 16 bytes and a body; numbers have their low byte first.

  0        kind: 0 read; 1 write; 2 read, walk and measure
  1        seed of the output buffer: its byte i is i * 7 + seed, modulo 256
  2..3     bytes of the body
  4..7     bytes of the input: the body over and over, cut there
  8..11    bytes of the output buffer
  12..14   a place of the input, and 15 the byte that it then has there; a place past the input: none

A text (kinds 0 and 2) is played as given, in mixed letters and in small letters (letters.py), each time from
the same output buffer.

Each call has a line: a letter and four numbers. R, W and M, reader, writer and `measure`: refusal number
(0 where there is none), line named, bytes put out, digest of the output buffer. K, the walk: 1 where a
malformed line ended it, events met, place where it ended, digest of the items. After all vectors comes the
line `vectors N`. A text that is read, written again, gives its capital spelling, or nothing is written.
"""

import itertools
import pathlib
import random
import sys

import job
import letters

READ, WRITE, TEXT = range(3)
NOWHERE = 0xFFFFFF
MODULUS = 4294967291
MOST_BODY = 8000


def digest(numbers):
    h = 1
    for number in numbers:
        h = (h * 257 + number + 1) % MODULUS
    return h


def filled(size, seed):
    return bytes((i * 7 + seed) % 256 for i in range(size))


def put_out(outcome):
    return outcome.number, outcome.line, outcome.count, digest(outcome.out)


def walked(text):
    items, bad = job.walk(text)
    numbers = []
    for setup, data, following in items:
        if setup:
            words = (int.from_bytes(setup[i:i + 2], "little") for i in (2, 4, 6))
            numbers += (1, setup[0], setup[1], *words, data, following)
        else:
            numbers += (0, following)
    return int(bad), len(items), items[-1][2] if items else 0, digest(numbers)


class Tape:
    def __init__(self):
        self.data = bytearray()
        self.vectors = 0
        self.lines = []

    def add(self, kind, body, size=None, room=0, seed=1, place=NOWHERE, byte=0):
        body = bytes(body)
        size = len(body) if size is None else size
        assert len(body) <= MOST_BODY and size <= 61000 and room <= 61000 and (body or not size)
        self.vectors += 1
        self.data += bytes((kind, seed)) + len(body).to_bytes(2, "little")
        self.data += size.to_bytes(4, "little") + room.to_bytes(4, "little")
        self.data += place.to_bytes(3, "little") + bytes((byte,)) + body
        given = bytearray(itertools.islice(itertools.cycle(body), size)) if body else bytearray()
        if place < size:
            given[place] = byte
        out = filled(room, seed)
        if kind == WRITE:
            self.tell("W", *put_out(job.write(bytes(given), out)))
            return
        for text in letters.spellings(bytes(given)):
            self.play(kind, text, out)

    def play(self, kind, text, out):
        """The calls of one spelling."""
        outcome = job.read(text, out)
        self.tell("R", *put_out(outcome))
        if outcome.number == 0:
            written = job.write(outcome.out[:outcome.count], bytes(len(text)))
            assert written.out == letters.capital(text), "read and written, a text is not its capital spelling"
        if kind == TEXT:
            self.tell("K", *walked(text))
            self.tell("M", *put_out(job.measure(text)))

    def tell(self, *fields):
        self.lines.append(" ".join(map(str, fields)))

    def text(self, body, rooms=None, **more):
        """A text for the reader, the walk and `measure`; it is read with enough room unless told otherwise."""
        rooms = (more.get("size", len(body)),) if rooms is None else rooms
        for i, room in enumerate(rooms):
            self.add(READ if i else TEXT, body, room=room, seed=len(self.lines) % 251, **more)


def request(kind, code, value, index, length, data=None):
    head = bytes((kind, code)) + b"".join(n.to_bytes(2, "little") for n in (value, index, length))
    if data is None:
        data = bytes((i * 13 + length) % 256 for i in range(job.data_size(head)))
    return head + data


STATUS = request(0xA1, 3, 0, 0, 6)
SHORT_JOB = (b"", request(0x21, 1, 0, 0, 2, b"\x5A\xFF"), STATUS)
PLAN = [
    request(0x21, 1, 0, 0, 5, bytes.fromhex("4100000008")), STATUS, STATUS,
    request(0x21, 1, 0, 0, 5, bytes.fromhex("2100000008")), STATUS, STATUS,
    request(0x21, 1, 2, 0, 2, b"\x5A\xFF"), STATUS, STATUS,
    request(0x21, 1, 0, 0, 5, bytes.fromhex("2100000008")), STATUS, STATUS,
    request(0x21, 1, 0, 0, 0), STATUS]


def text_of(events):
    return b"".join(map(job.line_of, events))


def packed_of(events):
    return b"".join(map(job.packed_of, events))


def damaged(text):
    """The text with one byte lost, changed or added, at every place."""
    for i in range(len(text)):
        yield text[:i] + text[i + 1:]
        for byte in (text[i] ^ 1, text[i] ^ 0x20, 0, 9, 10, 13, 32, 48, 70, 71, 97, 255):
            if byte != text[i]:
                yield text[:i] + bytes((byte,)) + text[i + 1:]
    for i in range(len(text) + 1):
        for byte in b"0\t\nA\r ":
            yield text[:i] + bytes((byte,)) + text[i:]


def random_event(dice):
    if dice.random() < 0.15:
        return b""
    kind = dice.choice((0x21, 0x21, 0xA1, 0, 0x7F, 0x80, 0xFF))
    length = dice.choice((0, 1, 2, 5, 6, 17, 40, 255, 256))
    event = request(kind, dice.randrange(256), dice.randrange(65536), dice.randrange(65536), length)
    return event[:8] + bytes(dice.randrange(256) for _ in event[8:])


def plain_texts(tape):
    for text in (
            b"", b"\n", b"A\n", b"A", b"A\r\n", b"a\n", b"B\n", b"A \n", b" A\n", b"AA\n", b"A\n\n", b"\nA\n", b"A\nA\n", b"A\nA",
            b"Q\n", b"Q\t\n", b"Q", b"Q\t", b"q\tA103000000000600\t\n", b"Q\tA103000000000600\t\n", b"Q\ta103000000000600\t\n",
            b"Q\tA103000000000600\n", b"Q\tA103000000000600", b"Q\tA103000000000600\t", b"Q A103000000000600\t\n",
            b"Q\tA103000000000600 \n", b"Q\tA103000000000600\t\r\n", b"Q\tA10300000000060\t\n", b"Q\tA1030000000006000\t\n",
            b"Q\tA103000000000600\t00\n", b"Q\t2101000000000100\t\n", b"Q\t2101000000000100\t0\n", b"Q\t2101000000000100\t00\n",
            b"Q\t2101000000000100\t0000\n", b"Q\t2101000000000100\t5a\n", b"Q\t2101000000000100\t5A\n", b"Q\t2101000000000100\tG0\n",
            b"Q\t2101000000000100\t5A", b"Q\t2101000000000100\t5A\r\n", b"Q\t2101000000000100\t5A \n", b"Q\t210100000000FFFF\t\n",
            b"Q\t210100000000FFFF\t00\n", b"Q\tA10100000000FFFF\t\n", b"Q\t7F0100000000FFFF\tFF\nA\n", b"Q\t800100000000FFFF\t\nA\n",
            b"J2\n", b"G\t2\n", text_of(PLAN), text_of(SHORT_JOB), text_of(SHORT_JOB)[:-1], text_of(PLAN) + b"A"):
        tape.text(text)
    for byte in range(256):
        tape.text(bytes((byte, 10)))
        tape.text(b"Q\tA1030000000006%c0\t\nA\n" % byte)
        tape.text(b"Q\t2101000000000200\t0%cFF\nA\n" % byte)
    for length in range(0, 65536, 1021):
        setup = request(0x21, 1, 2, 0, 0)[:6] + length.to_bytes(2, "little")
        tape.text(b"A\nQ\t" + setup.hex().upper().encode() + b"\t0011\nA\n")


def fields_of(event):
    """The setup's digits and the data's."""
    return event[:8].hex().encode(), event[8:].hex().encode()


def both_cases(tape):
    """Digits and their neighbours at the ends of both fields; fields in letters of their own; small a and q."""
    for byte in b"/09:@AFG`afg":
        for line in (b"Q\t%c104000000000000\t\n", b"Q\tA10300000000060%c\t\n",
                     b"Q\t2101000000000200\t%c0FF\n", b"Q\t2101000000000200\tFF0%c\n"):
            tape.text(b"A\n" + line % byte + b"A\n")
    events = (request(0xAB, 0xCD, 0xEF01, 0xA2B3, 0xFEDC), *SHORT_JOB[1:],
              request(0x2A, 0xBC, 0xDEF0, 0xFACE, 4, bytes.fromhex("ABCDEF9A")))
    for setups, datas in itertools.product((bytes.lower, bytes.upper), repeat=2):
        fields = map(fields_of, events)
        tape.text(b"".join(b"Q\t%s\t%s\n" % (setups(setup), datas(data)) for setup, data in fields))
    lines = [job.line_of(event) for event in SHORT_JOB]
    for bad in (b"a\n", *(b"q" + line[1:] for line in lines[1:]), *(line.lower() for line in lines[1:])):
        for place in range(len(lines) + 1):
            tape.text(b"".join((*lines[:place], bad, *lines[place:])))


def long_texts(tape):
    """Texts about the limit, most of them a short body over and over."""
    for size in (59998, 59999, 60000, 60001, 60002, 61000):
        tape.text(b"A\n", size=size, rooms=(30000, 29999, 30001, 0, 61000))
        tape.text(job.line_of(STATUS), size=size, rooms=(27000, 26999, 27001))
    block = job.line_of(request(0x21, 1, 2, 0, 1990))
    assert len(block) == 4000
    tape.text(block, size=60000, rooms=(29985, 29984, 29986, 61000))
    for place in (0, 1, 17, 18, 19, 3999, 4000, 31999, 32000, 59998, 59999):
        for byte in (10, 65, 97):
            tape.text(block, size=60000, rooms=(30000,), place=place, byte=byte)
            tape.text(job.line_of(STATUS), size=60000, rooms=(30000,), place=place, byte=byte)
    tape.text(block, size=60001, rooms=(61000,), place=100, byte=0)


def rooms_about(need):
    return range(max(0, need - 3), need + 4)


def packed_lists(tape):
    for events in ((), (b"",), SHORT_JOB, PLAN, (STATUS,) * 3, (b"",) * 5):
        packed, text = packed_of(events), text_of(events)
        for room in rooms_about(len(text)):
            tape.add(WRITE, packed, room=room)
        for cut in range(len(packed)):
            tape.add(WRITE, packed[:cut], room=len(text) + 9, seed=cut % 256)
        tape.add(READ, text, room=len(packed) + 2)
    for kind in range(256):
        tape.add(WRITE, bytes((kind,)), room=20)
        tape.add(WRITE, bytes((kind,)) + STATUS, room=60)
        tape.add(WRITE, b"\0" + bytes((kind,)) + STATUS + b"\0", room=60)
        tape.add(WRITE, b"\1" + bytes((kind,)) + bytes(5) + b"\2\0" + b"\xC3\x3C\0", room=60)
    for length in (0, 1, 255, 256, 4000, 65535):
        for there in (0, 1, length - 1, length, length + 1):
            if 0 <= there <= 4100:
                tape.add(WRITE, b"\1\x21\1\2\0\0\0" + length.to_bytes(2, "little") + bytes(there), room=9000)
    # about the limit: 2, 20 and 4,000 bytes of text an event
    for count in (29999, 30000, 30001, 30500):
        for room in (2 * count, 2 * count - 1, 61000):
            tape.add(WRITE, b"\0", size=count, room=min(room, 61000))
    for count in (2999, 3000, 3001):
        tape.add(WRITE, packed_of((STATUS,)), size=9 * count, room=61000)
        tape.add(WRITE, packed_of((STATUS,)), size=9 * count, room=59999)
        tape.add(WRITE, packed_of((STATUS,)), size=9 * count - 1, room=0)
    block = packed_of((request(0x21, 1, 2, 0, 1990),))
    for count in (14, 15, 16):
        tape.add(WRITE, block, size=len(block) * count, room=61000)
        tape.add(WRITE, block, size=len(block) * count, room=100, place=len(block), byte=7)
    tape.add(WRITE, b"\1\x21\1\2\0\0\0\xFF\xEA", size=9 + 0xEAFF, room=100)


def random_jobs(tape, dice):
    for _ in range(300):
        events = [random_event(dice) for _ in range(dice.randrange(6))]
        text, packed = text_of(events), packed_of(events)
        tape.text(text, rooms=(dice.choice(rooms_about(len(packed))),))
        tape.add(WRITE, packed, room=dice.choice(rooms_about(len(text))))
        if text:
            place = dice.randrange(len(text))
            tape.text(text, rooms=(len(packed),), place=place, byte=dice.choice((10, 9, 65, 97, 48, dice.randrange(256))))
            place = dice.randrange(len(packed))
            tape.add(WRITE, packed, room=len(text) + 40, place=place, byte=dice.choice((0, 1, 2, 0x80, dice.randrange(256))))


def main(words):
    if len(words) != 1 or words[0].startswith("-"):
        print("usage: job_vectors.py CRATE", file=sys.stderr)
        sys.exit(2)
    crate = pathlib.Path(words[0])
    tape = Tape()
    plain_texts(tape)
    both_cases(tape)
    for text in damaged(text_of(SHORT_JOB)):
        tape.text(text)
    for room in range(len(packed_of(SHORT_JOB)) + 4):
        tape.add(READ, text_of(SHORT_JOB), room=room)
        tape.add(READ, text_of(SHORT_JOB) + b"\n", room=room)
    long_texts(tape)
    packed_lists(tape)
    random_jobs(tape, random.Random(3156))
    (crate / "data").mkdir(parents=True, exist_ok=True)
    (crate / "data" / "vectors.bin").write_bytes(tape.data)
    (crate / "stdout").write_text("\n".join(tape.lines) + "\nvectors %d\n" % tape.vectors)


main(sys.argv[1:])
