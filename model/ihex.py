"""A model of Intel HEX, its reader and its writer, for test vectors.

It was written from the record format and from change request 1 of document 02, and from what was decided where both
are silent: which offsets and lengths the types 01, 04 and 05 have, that a data record of no bytes gives nothing
wherever it stands, and which line is at fault for people. It shares no code and no table with the proved crates nor
with the other models. Texts, images and buffers are `bytes`; a refusal leaves the output buffer as it was.
"""

from collections import namedtuple

FLASH = 0x08000000
FLASH_SIZE = 16384

# a record: colon, number of data bytes, offset, type, data bytes, and a byte that makes the sum of all of them 0
DIGITS = b"0123456789ABCDEFabcdef"
LEAST = 5
DATA, END, UPPER, START = 0, 1, 4, 5
# types that are not data: how many data bytes they have; their offset is 0
SIZES = {END: 0, UPPER: 2, START: 4}
WRITTEN = 16

IMAGE, OUTPUT, BAD, OUTSIDE, TWICE, NO_END, NO_DATA = 7, 11, 20, 21, 22, 23, 24

# number: the refusal, or 0; line: the one that refusal 20 names, or 0; count: bytes put out; out: the whole output
# buffer after the call
Outcome = namedtuple("Outcome", "number line count out")

Record = namedtuple("Record", "offset kind data")


class Fault(Exception):
    """What is wrong with a text: the refusal, and the line at fault."""

    def __init__(self, number, line):
        super().__init__(number, line)
        self.number, self.line = number, line


def lines_of(text):
    """The lines of a text, each with its end; the last may have none."""
    *ended, rest = text.split(b"\n")
    return [line + b"\n" for line in ended] + ([rest] if rest else [])


def bytes_of(line):
    """The bytes that a line spells, without the sum; None where it has no end, is not in digits, or has a wrong sum."""
    if not line.endswith(b"\n"):
        return None
    line = line.removesuffix(b"\n").removesuffix(b"\r")
    colon, digits = line[:1], line[1:]
    if colon != b":" or len(digits) % 2 or any(digit not in DIGITS for digit in digits):
        return None
    spelled = bytes.fromhex(digits.decode("ascii"))
    return spelled[:-1] if len(spelled) >= LEAST and sum(spelled) % 256 == 0 else None


def record_of(line):
    """The record of a line, or None for a bad one."""
    spelled = bytes_of(line)
    if spelled is None:
        return None
    record = Record(spelled[1] * 256 + spelled[2], spelled[3], spelled[4:])
    if spelled[0] != len(record.data):
        return None
    if record.kind == DATA or (record.offset == 0 and SIZES.get(record.kind) == len(record.data)):
        return record
    return None


def image_of(text):
    """The image that a text gives; raises its first fault."""
    lines = lines_of(text)
    upper, given = 0, {}
    for number, line in enumerate(lines, 1):
        record = record_of(line)
        if record is None:
            raise Fault(BAD, number)
        if record.kind == END:
            if number < len(lines):
                raise Fault(NO_END, number + 1)
            if not given:
                raise Fault(NO_DATA, number)
            return bytes(given.get(place, 0xFF) for place in range(max(given) + 1))
        if record.kind == UPPER:
            upper = int.from_bytes(record.data, "big")
        if record.kind == DATA:
            first = upper * 65536 + record.offset - FLASH
            places = range(first, first + len(record.data))
            if any(not 0 <= place < FLASH_SIZE for place in places):
                raise Fault(OUTSIDE, number)
            if any(place in given for place in places):
                raise Fault(TWICE, number)
            given.update(zip(places, record.data))
    raise Fault(NO_END, len(lines) + 1)


def delivered(result, out):
    if len(out) < len(result):
        return Outcome(OUTPUT, 0, 0, out)
    return Outcome(0, 0, len(result), result + out[len(result):])


def read(text, out):
    try:
        return delivered(image_of(text), out)
    except Fault as fault:
        return Outcome(fault.number, fault.line if fault.number == BAD else 0, 0, out)


def faulty_line(text):
    """The line at fault, for people, or 0 where a text has no fault."""
    try:
        image_of(text)
        return 0
    except Fault as fault:
        return fault.line


def line_of(kind, offset, data):
    """A record's line in the writer's spelling."""
    record = bytes((len(data),)) + offset.to_bytes(2, "big") + bytes((kind,)) + data
    return b":%s%02X\n" % (record.hex().upper().encode("ascii"), -sum(record) % 256)


def text_of(image):
    """The writer's text of an image that is not too long."""
    text = line_of(UPPER, 0, (FLASH >> 16).to_bytes(2, "big"))
    for offset in range(0, len(image), WRITTEN):
        text += line_of(DATA, offset, image[offset:offset + WRITTEN])
    return text + line_of(END, 0, b"")


def write(image, out):
    if not 1 <= len(image) <= FLASH_SIZE:
        return Outcome(IMAGE, 0, 0, out)
    return delivered(text_of(image), out)
