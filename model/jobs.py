"""Jobs for the checker's vectors: their text, in pieces that the vector file can hold, and that file.

All numbers in the file have their low byte first. A job is a header of 48 bytes:

  0 is 1 (a header with 0 there ends the file); 2..3 image length; 4, 5 factor and seed of the image, whose
  byte i is i * factor + seed; 6 length of the work area (0 right, 1 a byte short, 2 a byte long, 3 empty);
  7 length of the card; 8..39 its bytes; 40, 41 seed and step of the work area, whose byte i is
  i * step + seed before the call

and then chunks that make up its text. Each has a head of 8 bytes: 0 kind, 2..3 count, 4..5 start, 6 factor,
7 seed. The kinds are

  0  the end of the text
  1  literal: `count` bytes follow, 4,096 at most
  2  ramp: nothing follows; two capital hex digits for each byte (start + i) * factor + seed, i below count
  3  again: nothing follows; the last literal's bytes come `count` times more

Bytes of ramps are modulo 256. What is not named is 0.

Each job is judged as given, in mixed letters and in small letters (letters.py), each time with image and work
area made anew, and prints the checker's report line each time; a refused one has a fourth field, the work
area's digest after the call. After all jobs comes the line `jobs N`.
"""

import itertools
from collections import namedtuple

import checker
import letters
import loader
from loader import FLASH, OPTIONS, PAGE, TRANSFER_SIZE
from tape import (
    ABORT, CLRSTATUS, CODE_NAMES, DNLOAD, GETSTATE, GETSTATUS, IN, LENGTH_WORDS, OUT, UPLOAD, digest, erase_page,
    little, ramp, set_pointer, sized)

HEADER = 48
CARD_ROOM = 32
END, LITERAL, RAMP, AGAIN = range(4)
MOST_LITERAL = 4096

# --- pieces of text: plain bytes, and these two ------------------------------------------------------------

Ramp = namedtuple("Ramp", "count start factor seed")  # in hex digits
Many = namedtuple("Many", "data count")  # the same bytes over and over


def ramp_bytes(piece):
    return bytes(((piece.start + i) * piece.factor + piece.seed) % 256 for i in range(piece.count))


def spelled(piece):
    if isinstance(piece, Ramp):
        return ramp_bytes(piece).hex().upper().encode()
    if isinstance(piece, Many):
        return piece.data * piece.count
    return piece


def head(kind, count=0, start=0, factor=0, seed=0):
    return bytes([kind, 0]) + little(count, 2) + little(start, 2) + bytes([factor, seed])


def literals(data):
    for at in range(0, len(data), MOST_LITERAL):
        some = data[at : at + MOST_LITERAL]
        yield head(LITERAL, len(some)) + some


def chunks(pieces):
    """The chunks of a text. Neighbouring bytes make one literal, but what comes again has its own."""
    waiting = b""
    for piece in pieces:
        if isinstance(piece, bytes):
            waiting += piece
            continue
        yield from literals(waiting)
        waiting = b""
        if isinstance(piece, Ramp):
            yield head(RAMP, piece.count, piece.start, piece.factor, piece.seed)
        else:
            yield from literals(piece.data)
            yield head(AGAIN, piece.count - 1)
    yield from literals(waiting)
    yield head(END)


# --- images, and events as tuples of pieces ------------------------------------------------------------------


class Image(namedtuple("Image", "length factor seed")):
    """An image, and its bytes from one offset up to another as a piece of text."""

    def bytes(self):
        return ramp_bytes(self.part(0, self.length))

    def part(self, start, end):
        return Ramp(end - start, start, self.factor, self.seed)

    def pages(self):
        return (self.length + PAGE - 1) // PAGE


ATTACH = (b"A\n",)


def data_size(data):
    return sum(piece.count if isinstance(piece, Ramp) else len(piece) for piece in data)


def request(type, code, value=0, index=0, length=None, data=()):
    """A request; `data` has ramps and plain bytes, the latter not yet in hex."""
    length = data_size(data) if length is None else length
    setup = bytes([type, code]) + little(value, 2) + little(index, 2) + little(length, 2)
    digits = (piece if isinstance(piece, Ramp) else piece.hex().upper().encode() for piece in data)
    return (b"Q\t" + setup.hex().upper().encode() + b"\t", *digits, b"\n")


def dnload(value, *data):
    return request(OUT, DNLOAD, value, data=data)


def upload(value, length):
    return request(IN, UPLOAD, value, length=length)


STATUS = request(IN, GETSTATUS, length=6)
STATE = request(IN, GETSTATE, length=1)
CLEAR = request(OUT, CLRSTATUS)
ABORTED = request(OUT, ABORT)


def do(value, *data, polls=2):
    """A download, and the polls that run it and end it."""
    return [dnload(value, *data)] + [STATUS] * polls


def erase(*pages):
    return [event for page in pages for event in do(0, erase_page(FLASH.first + page * PAGE))]


def point(address=FLASH.first):
    return do(0, set_pointer(address))


def put(offset, *data):
    """Pointer and write, for bytes of flash."""
    return point(FLASH.first + offset) + do(2, *data)


def put_by_number(offset, *data):
    """The same, with the pointer in the first block of flash: the number says how many blocks behind it."""
    return point(FLASH.first + offset % TRANSFER_SIZE) + do(2 + offset // TRANSFER_SIZE, *data)


def go():
    """Pointer back, and away."""
    return point() + leave()


def leave():
    return do(0, polls=1)


def options(data):
    """An options write, after which the board has to be attached again."""
    return point(OPTIONS.first) + do(2, data, polls=1) + [ATTACH]


def stretch(image, start, size):
    """The image's bytes from an offset on, `size` at most; a lone last byte gets an erased one beside it."""
    part = image.part(start, min(start + size, image.length))
    return (part,) if part.count > 1 else (part, b"\xFF")


def page_of(image, page):
    return stretch(image, page * PAGE, PAGE)


def put_pages(image):
    """The image page by page, where every page is blank."""
    return [event for page in range(image.pages()) for event in put(page * PAGE, *page_of(image, page))]


def load(image):
    """The plan writer's way with the image, without the way out."""
    events = []
    for page in range(image.pages()):
        events += erase(page) + put(page * PAGE, *page_of(image, page))
    return events


def plan(image):
    return load(image) + go()


# --- a standard DFU tool's way: full blocks and then a short one, by their numbers -------------------------------


def tool_blocks(image):
    """Numbers and data, from block 2 on."""
    return [(2 + start // TRANSFER_SIZE, stretch(image, start, TRANSFER_SIZE))
            for start in range(0, image.length, TRANSFER_SIZE)]


def send(blocks):
    return [event for number, data in blocks for event in do(number, *data)]


def read_back(blocks):
    return [ABORTED] + [upload(number, data_size(data)) for number, data in blocks] + [ABORTED]


def tool_job(pages, blocks):
    """The first pages erased, the blocks sent from the first flash address on, read back, and away."""
    return erase(*range(pages)) + point() + send(blocks) + read_back(blocks) + leave()


# --- a job ------------------------------------------------------------------------------------------------------


# What the work area holds before the call. All 0xFF, bytes that nobody erased look erased; all 1, marks that
# nobody set look set; in a ramp they look like neither.
Fill = namedtuple("Fill", "name step seed")
ERASED, MARKED = Fill("all 255", 0, 255), Fill("all 1", 0, 1)


def ramp_fill(seed):
    return Fill("ramp", 3, seed)


class Job(namedtuple("Job", "family image card work fill pieces")):
    def text(self):
        return b"".join(spelled(piece) for piece in self.pieces)

    def record(self):
        header = bytearray(HEADER)
        header[0] = 1
        header[2:4] = little(self.image.length, 2)
        header[4:8] = bytes([self.image.factor, self.image.seed, self.work, len(self.card)])
        header[8 : 8 + len(self.card)] = self.card
        header[40:42] = bytes([self.fill.seed, self.fill.step])
        assert len(header) == HEADER and len(self.card) <= CARD_ROOM
        return bytes(header) + b"".join(chunks(self.pieces))

    def words(self, answer, events):
        """One line: what the checker is lent, what the job does (of a refused one, how it begins), the answer."""
        text = self.text()
        told = ", ".join(in_turn(map(event_words, events))) or repr(text[:60].decode("latin-1"))
        return (f"{self.family}: image {self.image.length} ({self.image.factor}, {self.image.seed}) "
                f"card {self.card.hex().upper()} work {LENGTH_WORDS[self.work]}, {self.fill.name}, "
                f"text {len(text)}: {told} -> "
                + checker.report(answer).replace("\t", " "))


def in_turn(words):
    """The words, with a count where the same comes several times in turn."""
    for word, same in itertools.groupby(words):
        count = len(list(same))
        yield word if count == 1 else f"{word} x{count}"


def event_words(event):
    if event == loader.ATTACH:
        return "attach"
    setup, data = loader.read_setup(event), event[loader.SETUP_SIZE :]
    known = setup.type in (OUT, IN) and setup.code < len(CODE_NAMES) and setup.index == 0
    if not known:
        return f"request {event[: loader.SETUP_SIZE].hex().upper()}"
    name = CODE_NAMES[setup.code].lower()
    if setup.value == 0 and setup.code == DNLOAD:
        return f"{name} {data[:5].hex().upper()}{'..' if len(data) > 5 else ''}".rstrip()
    return f"{name} {setup.value} length {setup.length}" if setup.value or setup.code == UPLOAD else name


NO_MORE_JOBS = bytes(HEADER)
WORK_DIGESTS = {}


def work_digest(code, fill):
    """A refusal leaves the work area as it was."""
    if (code, fill) not in WORK_DIGESTS:
        area = ramp(sized(code, checker.WORK_SIZE), fill.step, fill.seed)
        WORK_DIGESTS[code, fill] = f"{digest(area):08X}"
    return WORK_DIGESTS[code, fill]


def reading(job, image, text):
    """The refusal of a job with this text, or None; the text's events."""
    refusal = checker.refusal(text, image, job.card, sized(job.work, checker.WORK_SIZE))
    return refusal, [] if refusal else checker.read_job(text)[0]


def judged(job):
    """The checker's answer to a job, and the job's events. Each spelling is read by itself and says the same."""
    image = job.image.bytes()
    given, *others = (reading(job, image, text) for text in letters.spellings(job.text()))
    assert all(other == given for other in others), "the case of a digit makes a difference"
    refusal, events = given
    return refusal or checker.decide(events, image, job.card), events


def printed(job, answer):
    """The lines of a job, one for each spelling."""
    line = checker.report(answer)
    if isinstance(answer, checker.Refusal):
        line += f"\t{work_digest(job.work, job.fill)}"
    return [line] * letters.COUNT
