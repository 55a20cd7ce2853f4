"""The job text, from document 01 and change request 2: reader, text writer and a walk over a text.

Written from the paper alone and sharing nothing with crates/. Texts, packed lists and buffers are
`bytes`; a call gives an Outcome, and a refusal leaves the output buffer as it was.
"""

import collections
import re

LIMIT = 60000
SETUP_SIZE = 8

REQUEST, TEXT, LINE, OUTPUT = 5, 9, 10, 11

# number: 0 where the call did its work; line: the line that refusal 10 names; count: bytes put out
Outcome = collections.namedtuple("Outcome", "number line count out")

ATTACH_LINE = b"A"
# A and Q are capitals; a hex digit has either case
REQUEST_LINE = re.compile(rb"Q\t([0-9A-Fa-f]{16})\t((?:[0-9A-Fa-f]{2})*)")


def data_size(setup):
    """How many data bytes follow a setup packet: wLength if bit 7 of bmRequestType is clear, else none."""
    return 0 if setup[0] & 0x80 else setup[6] + 256 * setup[7]


def lines_of(text):
    """The lines of a text, each with whether its LF is there."""
    *ended, rest = text.split(b"\n")
    return [(line, True) for line in ended] + ([(rest, False)] if rest else [])


def event_of(line, ended):
    """The event of a line: b"" for Attach, setup and data for a request, None for a malformed line."""
    if not ended:
        return None
    if line == ATTACH_LINE:
        return b""
    found = REQUEST_LINE.fullmatch(line)
    if not found:
        return None
    setup, data = (bytes.fromhex(field.decode("ascii")) for field in found.groups())
    return setup + data if len(data) == data_size(setup) else None


def packed_of(event):
    return b"\1" + event if event else b"\0"


def line_of(event):
    if not event:
        return b"A\n"
    setup, data = event[:SETUP_SIZE], event[SETUP_SIZE:]
    return b"Q\t%s\t%s\n" % (setup.hex().upper().encode(), data.hex().upper().encode())


def unpack(packed):
    """The events of a packed list, or None where it has another kind byte or ends inside an event."""
    events = []
    while packed:
        kind, packed = packed[0], packed[1:]
        if kind == 0:
            events.append(b"")
        elif kind == 1 and len(packed) >= SETUP_SIZE:
            size = SETUP_SIZE + data_size(packed)
            if len(packed) < size:
                return None
            events.append(packed[:size])
            packed = packed[size:]
        else:
            return None
    return events


def refused(number, out, line=0):
    return Outcome(number, line, 0, out)


def delivered(result, out):
    if len(out) < len(result):
        return refused(OUTPUT, out)
    return Outcome(0, 0, len(result), result + out[len(result):])


def read(text, out):
    if len(text) > LIMIT:
        return refused(TEXT, out)
    events = []
    for number, (line, ended) in enumerate(lines_of(text), 1):
        event = event_of(line, ended)
        if event is None:
            return refused(LINE, out, number)
        events.append(event)
    return delivered(b"".join(map(packed_of, events)), out)


def measure(text):
    """What the reader would answer into a buffer that is long enough."""
    return read(text, bytes(len(text)))._replace(out=b"")


def write(packed, out):
    events = unpack(packed)
    if events is None:
        return refused(REQUEST, out)
    text = b"".join(map(line_of, events))
    if len(text) > LIMIT:
        return refused(TEXT, out)
    return delivered(text, out)


def walk(text):
    """The items of a text from its start on: (setup or None, place of the data, place of the next line), and whether a malformed line ended the walk."""
    items, at = [], 0
    for line, ended in lines_of(text):
        event = event_of(line, ended)
        if event is None:
            return items, True
        following = at + len(line) + 1
        items.append((event[:SETUP_SIZE] or None, at + 19, following))
        at = following
    return items, False
