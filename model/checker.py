"""A model of the job checker, for test vectors.

It was written from document 01 and change requests 2 and 3 and from nothing else, and shares no code and
no table with the proved crates. It decides each job twice:

- `Run` follows the job once for all boards: a byte of flash is a number that every board has there by
  now, or still the board's own.
- `lived` lets one plain board live through the job, by the model of the loader's step.

`decide` holds the two against each other. `Run` has its own reading of the events; of the loader's
model it takes the addresses and sizes only.
"""

from collections import namedtuple

import loader
from loader import (
    ATTACH, DEFAULT_OPTIONS, DNBUSY, DNLOAD_IDLE, DNLOAD_SYNC, ERASED, FLASH, IDLE, LEFT, MANIFEST_SYNC, OPTIONS,
    PAGE, PAGES, RAM, REBOOTING, SETUP_SIZE, TRANSFER_SIZE, UPLOAD_IDLE, region_of)

WORK_SIZE = 38944
MOST_IMAGE = 16384
CARD_SIZE = 16
MOST_TEXT = 60000

# A verdict compares as document 01 orders them: an event before an end, an end before a byte of flash.
# The kinds are those of the report line, and a pass comes after all of them.
Verdict = namedtuple("Verdict", "kind number")
EVENT, END, BYTE, PASS = 1, 2, 3, 4
Refusal = namedtuple("Refusal", "number line")


def report(answer):
    """The program's line for a verdict or a refusal, without its end."""
    if isinstance(answer, Refusal):
        return f"REFUSE\t{answer.number}\t{answer.line}"
    if answer.kind == PASS:
        return "ACCEPT\t0\t0"
    return f"REJECT\t{answer.kind}\t{answer.number}"


# --- "Job text" ----------------------------------------------------------------------------------------

DIGITS = frozenset(b"0123456789ABCDEFabcdef")


def read_line(line):
    """The event of a line that is given without its LF, or None for a malformed one."""
    if line == b"A":
        return ATTACH
    fields = line.split(b"\t")
    if len(fields) != 3 or fields[0] != b"Q":
        return None
    setup, data = fields[1:]
    if len(setup) != 2 * SETUP_SIZE or len(data) % 2 or not DIGITS.issuperset(setup + data):
        return None
    event = bytes.fromhex((setup + data).decode())
    if len(event) - SETUP_SIZE != loader.data_length(loader.read_setup(event)):
        return None
    return event


def read_job(text):
    """The events, and the number of the first malformed line or 0."""
    *lines, rest = text.split(b"\n")
    events = []
    for number, line in enumerate(lines, 1):
        event = read_line(line)
        if event is None:
            return events, number
        events.append(event)
    # What comes after the last LF is a line that has none of its own.
    return events, len(lines) + 1 if rest else 0


# --- "Refusal numbers", those of the checker ---------------------------------------------------------------


def refusal(text, image, card, work_size):
    """The first refusal that applies, or None."""
    if work_size != WORK_SIZE:
        return Refusal(6, 0)
    if not 1 <= len(image) <= MOST_IMAGE:
        return Refusal(7, 0)
    if len(card) != CARD_SIZE:
        return Refusal(8, 0)
    if len(text) > MOST_TEXT:
        return Refusal(9, 0)
    line = read_job(text)[1]
    return Refusal(10, line) if line else None


# --- the first way: every board at once --------------------------------------------------------------------

OWN = None  # a byte that nothing has changed: each board has its own there


class Run:
    """A job's run on every board with this card.

    Boards differ in flash and RAM only, and only the test for erased bytes looks at either: so until
    some board fails, all go through the same modes and pointers. Nothing asks what RAM holds. The run
    ends at the first failure, so that dfuERROR is never a mode to start from.
    """

    def __init__(self, card):
        self.flash = [OWN] * FLASH.size
        self.options = bytes(card)
        self.suspect = None  # the flash byte on which the last failure hung, where it hung on one
        self.attach()

    def attach(self):
        self.mode, self.pointer, self.command = IDLE, FLASH.first, None

    def takes(self, event):
        """Lets the event happen. Whether it goes well on every board."""
        if event == ATTACH:
            self.attach()
            return True
        if self.mode in (LEFT, REBOOTING):
            return False
        kind, code = event[0], event[1]
        value, index, length = (int.from_bytes(event[at : at + 2], "little") for at in (2, 4, 6))
        if index != 0:
            return False
        if (kind, code) == (0x21, 1):
            return self.download(value, event[SETUP_SIZE:])
        if (kind, code) == (0xA1, 2):
            return self.upload(value, length)
        if (kind, code, value, length) == (0xA1, 3, 0, 6):
            return self.get_status()
        if (kind, code, value, length) == (0xA1, 5, 0, 1):
            return self.mode != DNBUSY
        if (kind, code, value, length) == (0x21, 6, 0, 0):
            return self.abort()
        return False  # CLRSTATUS too: it is for dfuERROR alone

    def abort(self):
        if self.mode == DNBUSY:
            return False
        self.mode, self.command = IDLE, None
        return True

    # --- "DNLOAD"

    def download(self, value, data):
        if self.mode not in (IDLE, DNLOAD_IDLE) or len(data) > TRANSFER_SIZE:
            return False
        if len(data) == 0:
            self.mode = MANIFEST_SYNC
            return True
        known = (data[0], len(data)) in ((0x21, 5), (0x41, 5), (0x41, 1), (0x92, 1))
        if value == 1 or value == 0 and not known:
            return False
        self.mode, self.command = DNLOAD_SYNC, (value, data)
        return True

    # --- "GETSTATUS"

    def get_status(self):
        if self.mode == DNLOAD_SYNC:
            self.mode = DNBUSY
            (value, data), self.command = self.command, None
            return self.carry_out(data) if value == 0 else self.write(value, data)
        if self.mode == DNBUSY:
            self.mode = DNLOAD_IDLE
        elif self.mode == MANIFEST_SYNC:
            self.mode = LEFT
        return True

    def carry_out(self, data):
        address = int.from_bytes(data[1:5], "little")
        if data[0] == 0x21:
            self.pointer = address
            return region_of(address) is not None
        if data[0] == 0x92:
            return self.unprotect()
        if self.read_protected():
            return False
        if len(data) == 1:
            self.erase(range(PAGES))
            return True
        if region_of(address) is not FLASH:
            return False
        self.erase([(address - FLASH.first) // PAGE])
        return True

    def erase(self, pages):
        for page in pages:
            if not self.locked(page):
                self.flash[page * PAGE : (page + 1) * PAGE] = [ERASED] * PAGE

    def unprotect(self):
        """A reboot follows in either case; only a protected board loses flash and options."""
        if self.read_protected():
            self.flash = [ERASED] * FLASH.size
            self.options = DEFAULT_OPTIONS
        self.mode = REBOOTING
        return True

    # --- blocks: the checks of reads and writes

    def read_protected(self):
        return self.options[0] != 0xAA

    def locked(self, page):
        return not self.options[8 + page // 8] >> page % 8 & 1

    def reached(self, value, length):
        """The region and the first address of a block that may be read or written; else no region."""
        address = self.pointer + TRANSFER_SIZE * (value - 2)
        region = region_of(address, length)
        if self.read_protected():
            region = None
        elif region is OPTIONS and (address, length) != (OPTIONS.first, OPTIONS.size):
            region = None
        elif region is not OPTIONS and length < 2:
            region = None
        return region, address

    def write(self, value, data):
        region, address = self.reached(value, len(data))
        if region is OPTIONS:
            self.options = bytes(data)
            self.mode = REBOOTING
        if region is not FLASH:
            return region is not None
        at = address - FLASH.first
        open_spots = [spot for spot in range(at, at + len(data)) if not self.locked(spot // PAGE)]
        for spot in open_spots:
            if self.flash[spot] != ERASED:  # a byte of the board's own is something else on some board
                self.suspect = spot
                return False
        for spot in open_spots:
            self.flash[spot] = data[spot - at]
        return True

    def upload(self, value, length):
        if self.mode not in (IDLE, UPLOAD_IDLE) or not 1 <= length <= TRANSFER_SIZE or value == 1:
            return False
        self.mode = IDLE if value == 0 else UPLOAD_IDLE
        return value == 0 or self.reached(value, length)[0] is not None

    # --- "The checker and the plan": what has to hold at the end

    def wrong(self, image):
        """The lowest offset at which some board ends with another byte than it should."""
        last_page = (len(image) - 1) // PAGE
        for spot, byte in enumerate(self.flash):
            if spot < len(image):
                good = byte == image[spot]
            elif spot // PAGE == last_page:
                good = byte == ERASED
            else:
                good = byte is OWN  # a byte known by now was another one before on some board
            if not good:
                return spot
        return None


def verdict(events, image, card):
    """The verdict on a job that is not refused, and the run that found it."""
    run = Run(card)
    for number, event in enumerate(events, 1):
        if not run.takes(event):
            return Verdict(EVENT, number), run
    if run.mode != LEFT:
        return Verdict(END, 1), run
    if run.pointer != FLASH.first:
        return Verdict(END, 2), run
    if run.options != bytes(card):
        return Verdict(END, 3), run
    run.suspect = run.wrong(image)
    return Verdict(PASS, 0) if run.suspect is None else Verdict(BYTE, run.suspect), run


# --- the second way: one plain board after another ---------------------------------------------------------


def failed(event, answer, reply):
    """A stall, silence, or a status other than 0; of the replies only GETSTATUS's has a status."""
    if answer.kind in (loader.STALL, loader.SILENT):
        return True
    return event != ATTACH and event[1] == 3 and reply[0] != 0


def lived(events, image, card, flash, ram):
    """What becomes of the board with these contents: the verdict as if there were no other board."""
    memory = bytearray(flash + ram + bytes(card))
    block, reply = bytearray(TRANSFER_SIZE), bytearray(TRANSFER_SIZE)
    device = loader.attached()
    for number, event in enumerate(events, 1):
        device, answer = loader.step(device, event, memory, block, reply)
        assert answer.kind != loader.REFUSED
        if failed(event, answer, reply):
            return Verdict(EVENT, number)
    if device.mode != LEFT:
        return Verdict(END, 1)
    if device.pointer != FLASH.first:
        return Verdict(END, 2)
    if memory[OPTIONS.offset :] != card:
        return Verdict(END, 3)
    wanted = bytearray(flash)
    pages = (len(image) + PAGE - 1) // PAGE
    wanted[: pages * PAGE] = image + bytes([ERASED] * (pages * PAGE - len(image)))
    for spot in range(FLASH.size):
        if memory[spot] != wanted[spot]:
            return Verdict(BYTE, spot)
    return Verdict(PASS, 0)


def noise(seed, size):
    """Bytes without a pattern, the same in every run."""
    state, data = seed, bytearray()
    while len(data) < size:
        state = (state * 6364136223846793005 + 1442695040888963407) % 2**64
        data.append(state >> 56)
    return bytes(data)


def filled(make):
    return make(FLASH.size), make(RAM.size)


BLANK = filled(lambda size: bytes([ERASED] * size))
PLAIN_BOARDS = (
    BLANK,
    filled(bytes),
    filled(lambda size: bytes((i * 7 + i // 256 + 3) % 256 for i in range(size))),
    filled(lambda size: noise(1, size)),
    (noise(2, FLASH.size), bytes(RAM.size)),
)


def flipped(found, run, image):
    """A board on which nothing but the byte that the verdict hangs on can be at fault."""
    spot = run.suspect
    flash = bytearray(BLANK[0])
    if found.kind == EVENT:
        flash[spot] = 0x7F if spot % 2 else 0xFE
    elif run.flash[spot] is OWN:
        flash[: len(image)] = image
        flash[spot] ^= 1
    else:
        flash[spot] = run.flash[spot] ^ 1
    return bytes(flash), BLANK[1]


def decide(events, image, card):
    """The verdict, found in both ways: it is the least of what befalls the boards."""
    found, run = verdict(events, image, card)
    fates = [lived(events, image, card, *board) for board in PLAIN_BOARDS]
    if run.suspect is None:
        assert set(fates) == {found}, "the verdict hangs on no byte of flash, and yet boards differ"
    else:
        fates.append(lived(events, image, card, *flipped(found, run, image)))
        assert fates[-1] == found, "the byte that the verdict hangs on does not make a board fail"
    assert min(fates) == found, "a plain board fails earlier, or none fails there"
    return found
