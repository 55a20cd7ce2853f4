"""Makes the test vectors of the loader from the model.

    vectors.py [VECTORS [STDOUT]]   writes the vector file and what its replay has to print
    vectors.py --show               prints every record in words, a line each; writes nothing
    vectors.py --count              prints how often each thing is met; writes nothing

VECTORS and STDOUT default to the places where the crate `replay` has them. `tape.py` says what the
file looks like. Fixed rules and fixed seeds make everything, so that two runs give the same bytes.
"""

import os
import sys

sys.dont_write_bytecode = True

import loader
from loader import (
    DNLOAD_IDLE, DNLOAD_SYNC, ERASE_PAGE, ERROR, FLASH, IDLE, LEFT, MASS_ERASE, OPTIONS, PAGE, PAGES,
    RAM, READ_UNPROTECT, REBOOTING, REGIONS, SET_POINTER, SETUP_SIZE, TRANSFER_SIZE, UPLOAD_IDLE, WRITE, Pending)
from tape import (
    ABORT, CLRSTATUS, DETACH, DNLOAD, EMPTY, GETSTATE, GETSTATUS, IN, LONG, MASS, MODES, OUT, RIGHT, SHORT,
    UNPROTECT, UPLOAD, Tape, card, erase_page, set_pointer)
from walks import walks

# --- "Bench cases" of document 01, its plan job and its traps -------------------------------------------


def bench_cases(t):
    t.scene(pattern=0)
    t.do(3, length=512, seed=1)  # goes to 0x08000800
    t.abort()
    t.upload(3, 512)
    for address in (0x08003800, 0x08003802):
        t.scene(pattern=0)
        t.do(0, set_pointer(address))
        t.do(2, length=2048, seed=2)
    for length in (1, 2):
        t.scene(pattern=2)
        t.do(0, set_pointer(RAM.first))
        t.do(2, b"\x5A\xA5"[:length])
    for length in (15, 16):
        t.scene(pattern=2)
        t.do(0, set_pointer(OPTIONS.first))
        t.do(2, card(0x0FF0, 0xAA, 0x3C)[:length])
    for pattern in (0, 2):
        t.scene(pattern, options=card(0xFFFE))
        t.do(0, erase_page(FLASH.first))
        t.do(0, erase_page(FLASH.first + PAGE))
        t.do(0, set_pointer(FLASH.first + PAGE - 2))
        t.do(2, b"\x01\x02\x03\x04")
    for length in (2048, 2049):
        t.scene(pattern=0)
        t.dnload(2, length=length)
    t.scene()
    t.clear()
    t.clear()


def plan_job(t):
    """The plan for the image 5A, on memory of every pattern, then two requests into the silence."""
    for pattern in range(4):
        t.scene(pattern)
        t.do(0, erase_page(FLASH.first))
        t.do(0, set_pointer(FLASH.first))
        t.do(2, b"\x5A\xFF")
        t.do(0, set_pointer(FLASH.first))
        t.do(0, polls=1)
        t.get_status()
        t.abort()


def tool_job(t):
    """A standard DFU tool's job: two full blocks and a short one, read back. Then the short one's page is locked."""
    blocks = ((2, 2048), (3, 2048), (4, 904))
    for mask in (0xFFFF, 0xFFEF):
        t.scene(pattern=2, seed=1, options=card(mask))
        for page in range(5):
            t.do(0, erase_page(FLASH.first + page * PAGE))
        t.do(0, set_pointer(FLASH.first))
        for number, length in blocks:
            t.do(number, length=length, seed=number)
        t.abort()
        for number, length in blocks:
            t.upload(number, length)
        t.abort()
        t.do(0, polls=1)


def traps(t):
    """The traps of document 01 in its words; the last one, about blank flash, is for the checker alone."""
    # "Running a command at DNLOAD instead of GETSTATUS": it waits, and is lost by ABORT. An erase that comes too
    # early shows only where flash is not blank, a write only where it is.
    for pattern, options, value, given in (
            (2, card(), 0, MASS), (2, card(), 0, erase_page(FLASH.first)), (2, card(), 0, UNPROTECT),
            (2, card(protection=0x00), 0, UNPROTECT), (2, card(), 0, set_pointer(RAM.first)), (0, card(), 2, b"\1\2")):
        t.scene(pattern, options=options)
        t.dnload(value, given)
        t.get_state()
        t.abort()
        t.get_status()
    # "Status 1 for a protected page": its erase, by any of its addresses, and its write report 0, and it stays.
    t.scene(pattern=2, options=card(0xFFFD))
    for value, given in ((0, erase_page(FLASH.first + PAGE)), (0, erase_page(FLASH.first + 2 * PAGE - 1)),
                         (0, set_pointer(FLASH.first + PAGE)), (2, b"\1\2"), (0, MASS)):
        t.do(value, given)
    # "Testing erased bytes in pages that will not be written": one that will be written must be blank, even for 0xFF.
    for given in (b"\xFF\xFF", b"\x00\x00"):
        for mask in (0xFFFF, 0xFFFE):
            t.scene(pattern=1, options=card(mask))
            t.do(2, given)
            t.scene(pattern=0, options=card(mask))
            t.do(2, given)
            t.abort()
            t.do(2, given)
    # RAM and options are written over whatever they hold.
    t.scene(pattern=2)
    for _ in range(2):
        t.device(IDLE, pointer=RAM.first)
        t.do(2, length=16, seed=9)
    t.device(IDLE, pointer=OPTIONS.first)
    t.do(2, card(0xFFFF, 0xAA, 0x00))


# --- every request in every mode -------------------------------------------------------------------------


def states():
    """Well-formed devices: every mode, every command that can wait, every status."""
    yield from ((mode, 0, None) for mode in MODES if mode not in (DNLOAD_SYNC, ERROR))
    yield from ((ERROR, status, None) for status in (1, 3, 11, 15))
    yield from ((DNLOAD_SYNC, 0, pending) for pending in (
        Pending(SET_POINTER, RAM.first), Pending(SET_POINTER, 0), Pending(ERASE_PAGE, FLASH.first + 5),
        Pending(ERASE_PAGE, RAM.first), Pending(MASS_ERASE), Pending(READ_UNPROTECT),
        Pending(WRITE, block=3, length=16), Pending(WRITE, block=65535, length=2048)))


# Each request right, and wrong in one field: type, code, wValue, wIndex, wLength, first data bytes.
REQUESTS = (
    (OUT, DNLOAD, 0, 0, 0, b""),
    (OUT, DNLOAD, 1, 0, 0, b""),
    (OUT, DNLOAD, 7, 0, 0, b""),
    (OUT, DNLOAD, 0, 1, 0, b""),
    (OUT, DNLOAD, 0, 0, 5, set_pointer(0x080004D2)),
    (OUT, DNLOAD, 0, 0, 5, erase_page(0x08000800)),
    (OUT, DNLOAD, 0, 0, 1, MASS),
    (OUT, DNLOAD, 0, 0, 1, UNPROTECT),
    (OUT, DNLOAD, 0, 0, 1, b"\x00"),
    (OUT, DNLOAD, 0, 256, 1, MASS),
    (OUT, DNLOAD, 1, 0, 2, b"\1\2"),
    (OUT, DNLOAD, 2, 0, 2, b"\1\2"),
    (OUT, DNLOAD, 2, 0, 2048, b""),
    (OUT, DNLOAD, 2, 0, 2049, b""),
    (OUT, DNLOAD, 65535, 0, 3, b""),
    (OUT, DNLOAD, 2, 1, 2, b"\1\2"),
    (IN, DNLOAD, 0, 0, 0, b""),
    (IN, DNLOAD, 2, 0, 2, b""),
    (IN, UPLOAD, 0, 0, 4, b""),
    (IN, UPLOAD, 0, 0, 3, b""),
    (IN, UPLOAD, 0, 0, 2048, b""),
    (IN, UPLOAD, 0, 0, 0, b""),
    (IN, UPLOAD, 0, 0, 2049, b""),
    (IN, UPLOAD, 0, 1, 4, b""),
    (IN, UPLOAD, 1, 0, 4, b""),
    (IN, UPLOAD, 2, 0, 16, b""),
    (IN, UPLOAD, 2, 0, 1, b""),
    (IN, UPLOAD, 2, 0, 2048, b""),
    (IN, UPLOAD, 2, 0, 2049, b""),
    (IN, UPLOAD, 2, 0, 0, b""),
    (IN, UPLOAD, 65535, 0, 2, b""),
    (IN, UPLOAD, 2, 256, 16, b""),
    (OUT, UPLOAD, 2, 0, 16, b""),
    (OUT, UPLOAD, 0, 0, 0, b""),
    (IN, GETSTATUS, 1, 0, 6, b""),
    (IN, GETSTATUS, 256, 0, 6, b""),
    (IN, GETSTATUS, 0, 1, 6, b""),
    (IN, GETSTATUS, 0, 0, 5, b""),
    (IN, GETSTATUS, 0, 0, 7, b""),
    (IN, GETSTATUS, 0, 0, 262, b""),
    (OUT, GETSTATUS, 0, 0, 6, b""),
    (OUT, CLRSTATUS, 0, 0, 0, b""),
    (OUT, CLRSTATUS, 1, 0, 0, b""),
    (OUT, CLRSTATUS, 0, 1, 0, b""),
    (OUT, CLRSTATUS, 0, 0, 1, b"\0"),
    (IN, CLRSTATUS, 0, 0, 0, b""),
    (IN, GETSTATE, 0, 0, 1, b""),
    (IN, GETSTATE, 1, 0, 1, b""),
    (IN, GETSTATE, 0, 1, 1, b""),
    (IN, GETSTATE, 0, 0, 0, b""),
    (IN, GETSTATE, 0, 0, 2, b""),
    (OUT, GETSTATE, 0, 0, 1, b"\0"),
    (OUT, ABORT, 0, 0, 0, b""),
    (OUT, ABORT, 256, 0, 0, b""),
    (OUT, ABORT, 0, 256, 0, b""),
    (OUT, ABORT, 0, 0, 1, b"\0"),
    (IN, ABORT, 0, 0, 0, b""),
    (OUT, DETACH, 1000, 0, 0, b""),
    (OUT, DETACH, 0, 0, 0, b""),
    (IN, DETACH, 0, 0, 0, b""),
    (OUT, 7, 0, 0, 0, b""),
    (IN, 11, 0, 0, 6, b""),
    (IN, GETSTATUS, 0, 0, 6, b""),
)


def matrix(t):
    """On a board where a write to flash would go through."""
    for mode, status, pending in states():
        t.scene(pattern=3, seed=3, options=card(0xFFFD))
        for type, code, value, index, length, given in REQUESTS:
            t.device(mode, status, pending=pending)
            t.request(type, code, value, index, length, given, seed=4)


def unknown(t):
    """Types and codes that no request has."""
    t.scene(pattern=3)
    for type in (0x00, 0x01, 0x20, 0x22, 0x23, 0x61, 0x80, 0x81, 0xA0, 0xA2, 0xA3, 0xC1, 0xFF):
        for code in range(DNLOAD, ABORT + 1):
            t.device(ERROR, 3) if code in (CLRSTATUS, GETSTATUS) else t.device(IDLE)
            t.request(type, code, length={UPLOAD: 4, GETSTATUS: 6, GETSTATE: 1}.get(code, 0))
    for code in (8, 9, 0x10, 0x21, 0x41, 0x81, 0x83, 0xA1, 0xFE, 0xFF):
        for type in (OUT, IN):
            t.device(UPLOAD_IDLE)
            t.request(type, code)


def attaches(t):
    """Attach from every state; afterwards the device is asked for its state."""
    t.scene(pattern=2, seed=8)
    for mode, status, pending in states():
        t.device(mode, status, RAM.first + 7, pending)
        t.attach()
        t.get_state()


# --- refusals --------------------------------------------------------------------------------------------


def orders(t):
    """Every set of the five faults, so that the least number must win, with each kind of length."""
    for faults in range(32):
        for wrong in (SHORT, LONG, EMPTY):
            t.scene(2, 5, card(), *(wrong if faults >> k & 1 else RIGHT for k in range(3)))
            for attach in (True, False):
                if faults & 8:
                    t.device(IDLE, 15)
                else:
                    t.device(DNLOAD_SYNC, pending=Pending(MASS_ERASE))
                if attach:
                    t.attach()
                else:
                    t.request(IN, GETSTATUS, length=6, count=1 if faults & 16 else 0)
    for lengths in ((SHORT, LONG, EMPTY), (RIGHT, SHORT, LONG), (RIGHT, RIGHT, EMPTY), (LONG, RIGHT, SHORT)):
        t.scene(1, 6, card(protection=0), *lengths)
        t.dnload(2, length=2048)
        t.attach()


EDGES = sorted({address for r in REGIONS for end in [r.first + r.size]
                for address in (r.first - 1, r.first, r.first + 1, end - 1, end)})
FAR = [0, 1, 0x07FFFC00, 0x080003FF, 0x08000400, 0x18000000, 0x28000000, 0x88000000, 0x9FFFF800, 0xFFFFFFFF]


def ill_formed(t):
    """States that break one rule each, and their well-formed neighbours."""
    t.scene(pattern=2, seed=11)
    to_ram = Pending(SET_POINTER, RAM.first)

    def ask(*state):
        t.device(*state)
        t.get_status()
        t.device(*state)
        t.attach()

    for mode in MODES:
        for status in (0, 1, 2, 3, 4, 10, 11, 12, 14, 15, 16, 255):
            ask(mode, status, FLASH.first, to_ram if mode == DNLOAD_SYNC else None)
        for pending in (None, Pending(SET_POINTER, 0), Pending(ERASE_PAGE, 0), Pending(MASS_ERASE),
                        Pending(READ_UNPROTECT), Pending(WRITE, block=2, length=2)):
            ask(mode, 11 if mode == ERROR else 0, RAM.first, pending)
    for block in (0, 1, 2, 3, 65535):
        for length in (0, 1, 2, 2047, 2048, 2049, 65535):
            ask(DNLOAD_SYNC, 0, RAM.first, Pending(WRITE, block=block, length=length))
    for pointer in EDGES + FAR:
        for mode, status, pending in ((IDLE, 0, None), (REBOOTING, 0, None), (ERROR, 1, None),
                                      (DNLOAD_SYNC, 0, to_ram)):
            t.device(mode, status, pointer, pending)
            t.get_state()
        t.device(LEFT, 0, pointer)
        t.attach()


def shapes(t):
    """Setups that are cut short, and data stages of a wrong length, in modes that differ."""
    t.scene(pattern=2, seed=12)
    for mode, status, pending in ((IDLE, 0, None), (LEFT, 0, None), (REBOOTING, 0, None), (ERROR, 15, None),
                                  (DNLOAD_SYNC, 0, Pending(MASS_ERASE))):
        for there in range(SETUP_SIZE):
            t.device(mode, status, pending=pending)
            t.request(IN, GETSTATUS, length=6, there=there)
        for type, code, length, count in (
                (OUT, DNLOAD, 0, 1), (OUT, DNLOAD, 1, 0), (OUT, DNLOAD, 5, 4), (OUT, DNLOAD, 5, 6),
                (OUT, DNLOAD, 2048, 2047), (OUT, DNLOAD, 2048, 2049), (OUT, DNLOAD, 2049, 2048),
                (OUT, DNLOAD, 65535, 4096), (OUT, DNLOAD, 256, 1), (IN, UPLOAD, 4, 4), (IN, UPLOAD, 4, 1),
                (IN, GETSTATUS, 6, 6), (IN, GETSTATE, 1, 1), (OUT, CLRSTATUS, 0, 1), (OUT, ABORT, 0, 4096),
                (0x7F, 9, 3, 0), (0x7F, 9, 3, 3), (0x80, 9, 3, 3), (0x80, 9, 3, 0), (0xFF, 255, 65535, 0),
                (0x00, 0, 4096, 4096)):
            t.device(mode, status, pending=pending)
            t.request(type, code, length=length, count=count, seed=7)


# --- addresses, spans and lengths ---------------------------------------------------------------------------


def addresses(t):
    """Set pointer and erase page at every edge, on an open, a read-protected and a page-locked card."""
    for number, options in enumerate((card(), card(protection=0x00), card(mask=0x5555))):
        t.scene(pattern=2, seed=20 + number, options=options)
        for address in EDGES + FAR:
            t.do(0, set_pointer(address))
            t.recover()
        for address in EDGES + FAR:
            t.do(0, erase_page(address), polls=1)
            t.recover()


def erases(t):
    """Each page by its first or last address, and all at once, under several locks."""
    for number, mask in enumerate((0xFFFF, 0xAAAA, 0x0000, 0x7FFE)):
        t.scene(pattern=2, seed=30 + number, options=card(mask))
        for page in range(PAGES):
            address = FLASH.first + page * PAGE + (PAGE - 1 if page % 2 else 0)
            t.device(DNLOAD_SYNC, pending=Pending(ERASE_PAGE, address))
            t.get_status()
    for mask in (0xFFFF, 0x0000, 0xAAAA, 0x5555, 0xFFFE, 0x7FFF, 0x00FF, 0xFF00):
        for protection in (0xAA, 0xAB):
            t.scene(pattern=2, seed=40, options=card(mask, protection))
            t.do(0, MASS)


def spans():
    """Pointer, block number and length of reads and writes at and about the edges of the regions."""
    yield from spans_by_pointer()
    yield from spans_in_flash()
    yield from spans_in_ram()
    yield from spans_far_off()


def spans_by_pointer():
    """Block 2, which lies where the pointer is."""
    for region in REGIONS:
        first, end = region.first, region.first + region.size
        for length in (1, 2, 3, 15, 16, 17, 1023, 1024, 1025, 2047, 2048):
            for start in sorted({first, first + 1, end - length - 1, end - length, end - length + 1, end - 1}):
                if loader.region_of(start) is region:
                    yield start, 2, length


def spans_in_flash():
    """From the first address of flash it holds blocks 2 to 9; a short block lies where a full one would."""
    flash = FLASH.first
    for number in range(3, 11):
        for length in (1, 2, 512, 2047, 2048):
            yield flash, number, length
    for number, length in ((3, 3), (3, 1024), (3, 2046), (9, 3), (9, 1024), (9, 2046)):
        yield flash, number, length
    for by in (1, 2, 3, 512, 1024, 2045, 2046, 2047):  # up to the last byte of flash, and a byte past it
        yield flash + by, 9, 2048 - by
        yield flash + by, 9, 2049 - by
    yield from (
        (flash + 1023, 3, 2), (flash + 5000, 5, 904), (flash + 2048, 8, 2048), (flash + 2048, 9, 2),
        (flash + 12288, 3, 2048), (flash + 12289, 3, 2048), (flash + 14336, 3, 2), (flash + 16383, 3, 2))


def spans_in_ram():
    """RAM is one block long, and begins one block behind the options: it is their block 3."""
    ram, options = RAM.first, OPTIONS.first
    yield from ((ram, 3, 2), (ram, 3, 2048), (ram + 2047, 3, 1), (ram + 2047, 3, 2), (ram, 4, 16))
    for by in range(OPTIONS.size):  # up to the last byte of RAM, and a byte past it
        yield options + by, 3, 2048 - by
        if by > 0:
            yield options + by, 3, 2049 - by
    yield from (
        (options, 3, 1), (options, 3, 2), (options, 3, 15), (options, 3, 16), (options + 15, 3, 1),
        (options + 15, 3, 2), (options, 4, 16), (options + 15, 4, 2048), (options + 8, 2, 8))
    for number in range(4, 10):  # what flash has behind them, they have not
        for length in (2, 2048):
            yield ram, number, length
            yield options, number, length


def spans_far_off():
    """Blocks outside every region; a number or a product without its upper bits would lead back into one."""
    flash, ram, options = FLASH.first, RAM.first, OPTIONS.first
    for bit in (4, 5, 6, 7, 8, 9, 13, 15):
        number = 2 + 2**bit
        yield from ((flash, number, 2048), (ram, number, 2), (options, number, 16), (options, number + 1, 16))
    for region in REGIONS:
        for pointer in (region.first, region.first + region.size - 1):
            yield from ((pointer, 65535, 2), (pointer, 65535, 2048))
    yield options, 65535, 16


def reads(t):
    t.scene(pattern=2, seed=50, options=card(0x1234, 0xAA, 0x5C))
    for number, (pointer, block, length) in enumerate(spans()):
        t.device((IDLE, UPLOAD_IDLE)[number % 2], pointer=pointer)
        t.upload(block, length)


def writes(t):
    for number, (pointer, block, length) in enumerate(spans()):
        t.scene(pattern=3, seed=60 + number % 100, options=card(0xFFFF, 0xAA, 0xC5))
        t.device(DNLOAD_SYNC, pointer=pointer, pending=Pending(WRITE, block=block, length=length))
        t.get_status()


def lengths(t):
    """Downloads and uploads over lengths and block numbers; RAM has no block 3, but is the options' block 3."""
    numbers = (0, 1, 2, 3, 256, 257, 65535)
    for pointer, some in ((FLASH.first, numbers), (RAM.first, numbers), (OPTIONS.first, (3,))):
        for number in some:
            for length in (0, 1, 2, 5, 15, 16, 17, 1023, 1024, 1025, 2047, 2048, 2049):
                t.scene(pattern=3, seed=80 + number % 7)
                t.device(DNLOAD_IDLE if length % 2 else IDLE, pointer=pointer)
                t.do(number, length=length, seed=length % 256, polls=1)
    t.scene(pattern=2, seed=87)
    for number in numbers:
        for length in (0, 1, 2, 3, 4, 5, 15, 16, 17, 1023, 1024, 1025, 2047, 2048, 2049, 65535):
            t.device(UPLOAD_IDLE if length % 2 else IDLE, pointer=FLASH.first)
            t.upload(number, length)
    for pointer in (FLASH.first + TRANSFER_SIZE, RAM.first):  # block 1 is none, though bytes lie a block before these
        for length in (2, 16, 2048):
            t.device(IDLE, pointer=pointer)
            t.upload(1, length)
            t.device(IDLE, pointer=pointer)
            t.dnload(1, length=length)


def commands(t):
    """The data of block 0: every single byte, and some first bytes at other lengths."""
    t.scene(pattern=2, seed=90)
    for first in range(256):
        t.device(IDLE)
        t.dnload(0, bytes([first]))
    for first in (0x00, 0x20, 0x21, 0x22, 0x40, 0x41, 0x42, 0x61, 0x91, 0x92, 0x93, 0xA1, 0xC1, 0xFF):
        for length in (2, 3, 4, 5, 6, 9, 2048):
            t.device(DNLOAD_IDLE)
            t.dnload(0, bytes([first]), length, seed=first)


def pages(t):
    """Writes over page borders, by number where they can: each lock, and a byte not blank in or beside the span."""
    for at, length in ((PAGE - 2, 4), (PAGE - 1, 2), (PAGE, 2), (512, 2048), (15 * PAGE - 2, 4),
                       (14 * PAGE, 2048), (7 * PAGE + 1000, 1100)):
        end = at + length
        first, last = at // PAGE, (end - 1) // PAGE
        spots = sorted({at - 1, at, at + length // 2, last * PAGE - 1, last * PAGE, end - 1, end % FLASH.size})
        second = 2 ** (first + 1) % 2**PAGES
        masks = (0xFFFF, 0xFFFF - 2**first, 0xFFFF - 2**last, 0xFFFF - second, 2**first, 0x0000)
        pointer = FLASH.first + at % TRANSFER_SIZE
        write = Pending(WRITE, block=2 + at // TRANSFER_SIZE, length=length)
        for mask in masks:
            for number, spot in enumerate([None] + spots):
                t.scene(pattern=0, seed=100 + number, options=card(mask))
                if spot is not None:
                    t.poke(spot, (0xFE, 0x00, 0x7F)[number % 3])
                t.device(DNLOAD_SYNC, pointer=pointer, pending=write)
                t.get_status()


# --- read protection, options, and the ways out -------------------------------------------------------------


def protected(t):
    """Read protection on: what the card allows, and what it does not, for several card bytes."""
    t.scene(pattern=3, seed=70, options=card(0xFFFF, 0x55))
    for pointer, block, length in list(spans())[::4]:
        t.device(UPLOAD_IDLE, pointer=pointer)
        t.upload(block, length)
        t.device(DNLOAD_SYNC, pointer=pointer, pending=Pending(WRITE, block=block, length=length))
        t.get_status()
    for protection in (0x00, 0x2A, 0xA8, 0xAB, 0xEA, 0xFF):
        t.scene(pattern=2, seed=71, options=card(0xFFFF, protection))
        for length in (1, 4, 5):
            t.upload(0, length)
        t.upload(2, 16)
        t.clear()
        for given in (set_pointer(OPTIONS.first), set_pointer(0), MASS, erase_page(FLASH.first), erase_page(0)):
            t.do(0, given)
            t.recover()
        t.do(2, card())
        t.recover()
        t.do(0, polls=1)


def silence(t):
    """Nothing but Attach is heard; a malformed request is refused all the same."""
    t.get_status()
    t.get_state()
    t.abort()
    t.clear()
    t.dnload(0, MASS)
    t.upload(0, 4)
    t.request(0x00, 9, 1, 2, 3)
    t.request(IN, GETSTATUS, length=6, there=7)
    t.request(OUT, DNLOAD, length=5, count=4)
    t.attach()


def options_writes(t):
    """Options written whole and in part, the reboot, the silence, and the new card at work."""
    for options in (card(), card(0xFFFE), card(0x0000), card(0xFFFF, 0x00), card(0x00FF, 0xAB, 0x11)):
        t.scene(pattern=2, seed=110, options=card(0xF0F0, 0xAA, 0x22))
        t.do(0, set_pointer(OPTIONS.first))
        for number, given in ((2, options[:15]), (2, options + b"\xFF"), (4, options), (2, options[:1])):
            t.do(number, given, polls=1)
            t.clear()
        t.do(3, options)  # RAM begins a block behind the options: no reboot
        for wrong in (OPTIONS.first + 1, OPTIONS.first + 15):
            t.do(0, set_pointer(wrong))
            t.do(2, options, polls=1)
            t.clear()
        t.do(0, set_pointer(OPTIONS.first))
        t.do(2, options, polls=1)
        silence(t)
        for page in (0, 4):
            t.do(0, erase_page(FLASH.first + page * PAGE))
            t.recover()
        t.device(IDLE, pointer=OPTIONS.first)
        t.upload(2, 16)


def unprotects(t):
    """Read unprotect from cards with and without protection, and a look at what is left."""
    for protection, mask in ((0xAA, 0xFFFF), (0xAA, 0x0F0F), (0x00, 0xFFFF), (0xAB, 0x0000), (0xFF, 0x1248),
                             (0x2A, 0x8000)):
        t.scene(pattern=2, seed=120, options=card(mask, protection, 0x77))
        t.do(0, set_pointer(RAM.first + 100))
        t.do(0, UNPROTECT, polls=1)
        silence(t)
        for pointer, length in ((OPTIONS.first, 16), (FLASH.first, 2048), (RAM.first, 2048)):
            t.device(IDLE, pointer=pointer)
            t.upload(2, length)
        t.abort()
        t.do(0, MASS)


def leaves(t):
    """The way out, from both modes that have it; and one that is given up, one that stalls."""
    for mode in (IDLE, DNLOAD_IDLE):
        for number in (0, 1, 2, 65535):
            t.scene(pattern=2, seed=130)
            t.device(mode, pointer=RAM.first + 4)
            t.dnload(number)
            t.get_state()
            t.get_status(2)
            t.attach()
    t.dnload(0)
    t.abort()
    t.get_status()
    t.dnload(0)
    t.dnload(0)
    t.get_status()


def long_walks(t):
    walks(t, REQUESTS)


PARTS = (bench_cases, plan_job, tool_job, traps, matrix, unknown, attaches, orders, ill_formed, shapes, addresses,
         erases, reads, writes, lengths, commands, pages, protected, options_writes, unprotects, leaves, long_walks)

# --- the program --------------------------------------------------------------------------------------------


def everything():
    t = Tape()
    for part in PARTS:
        before = t.events
        part(t)
        t.counts["events of part"][part.__name__] = t.events - before
    return t


def counted(t):
    yield f"{t.events} events, {len(t.records)} records"
    for title, counter in t.counts.items():
        yield f"\n{title}"
        yield from (f"  {count:6} {name}" for name, count in sorted(counter.items()))


def write_files(t, places):
    crate = os.path.join(os.path.dirname(os.path.dirname(os.path.abspath(__file__))), "crates", "replay")
    defaults = [os.path.join(crate, "data", "vectors.bin"), os.path.join(crate, "stdout")]
    vectors, expected = places + defaults[len(places):]
    with open(vectors, "wb") as file:
        file.write(b"".join(t.records))
    with open(expected, "w", newline="\n") as file:
        file.writelines(line + "\n" for line in t.lines + [f"events {t.events}"])


def main(words):
    known = words in (["--show"], ["--count"])
    if not known and (len(words) > 2 or any(word.startswith("-") for word in words)):
        print("usage: vectors.py [VECTORS [STDOUT]] | --show | --count", file=sys.stderr)
        sys.exit(2)
    t = everything()
    if words == ["--show"]:
        print("\n".join(t.words))
    elif words == ["--count"]:
        print("\n".join(counted(t)))
    else:
        write_files(t, words)


if __name__ == "__main__":
    main(sys.argv[1:])
