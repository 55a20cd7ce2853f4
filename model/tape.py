"""The vector file, and the model's board that lives through it.

The file is a row of records of 48 bytes. Byte 0 is the kind; what a kind does not use is 0; numbers
have their low byte first.

  0 scene    1 pattern, 2 seed, 3..18 option bytes, 19, 20, 21 lengths of memory, block and reply
             buffer (0 right, 1 a byte short, 2 a byte long, 3 empty); the device is freshly attached
  1 device   1 mode, 2 status, 4..7 pointer, 8 kind of the pending command, 12..15 its address,
             16..17 its block number, 18..19 its length
  2 attach   an event
  3 request  an event: 1..8 setup, 9 how many bytes of the setup are there (below 8 nothing follows
             them), 10..11 number of data bytes, 12 how many of them are given, 13 seed of the others,
             16..47 the given ones
  4 poke     4..7 offset, 8 the byte that memory then has there

A mode is its wire number, Left 0 and Rebooting 1. Bytes that are not given come from ramps: byte i of
a data stage is i * 11 + seed, of a block buffer i * 3 + seed, of a reply buffer i * 5 + seed, each
modulo 256. `pictured` has the patterns of memory; the option bytes are laid over them.

Each event has a line of text, of 13 fields parted by a space: answer, value (reply length or refusal
number), mode, status, pointer, pending kind, address, block number, length, digests of memory, block
and reply buffer, and the reply buffer's first six bytes. After all records comes the line `events N`.
"""

import collections

import loader
from loader import (
    ATTACH, DEFAULT_OPTIONS, DNBUSY, DNLOAD_IDLE, DNLOAD_SYNC, ERASE_PAGE, ERROR, FLASH, IDLE, LEFT,
    MANIFEST_SYNC, MASS_ERASE, MEMORY_SIZE, OPTIONS, READ_UNPROTECT, REBOOTING, SET_POINTER, SETUP_SIZE,
    TRANSFER_SIZE, UPLOAD_IDLE, WRITE, Device, Pending)

RECORD = 48
SCENE, DEVICE, ATTACHED, REQUEST, POKE = range(5)
RIGHT, SHORT, LONG, EMPTY = range(4)
LENGTH_WORDS = ("right", "short", "long", "empty")
LONG_MEMORY_BYTE = 0x77
MOST_DATA = 4096
MOST_GIVEN = 32
SHOWN = 6

MODES = (IDLE, DNLOAD_SYNC, DNBUSY, DNLOAD_IDLE, MANIFEST_SYNC, UPLOAD_IDLE, ERROR, LEFT, REBOOTING)
MODE_CODE = {mode: mode for mode in MODES} | {LEFT: 0, REBOOTING: 1}
PENDING_KINDS = (None, SET_POINTER, ERASE_PAGE, MASS_ERASE, READ_UNPROTECT, WRITE)
LETTERS = {loader.ACCEPTED: "A", loader.REPLY: "P", loader.STALL: "S", loader.SILENT: "N", loader.REFUSED: "R"}

# The types and codes that a host uses.
OUT, IN = 0x21, 0xA1
DETACH, DNLOAD, UPLOAD, GETSTATUS, CLRSTATUS, GETSTATE, ABORT = range(7)
CODE_NAMES = ("DETACH", "DNLOAD", "UPLOAD", "GETSTATUS", "CLRSTATUS", "GETSTATE", "ABORT")


def little(value, size):
    return value.to_bytes(size, "little")


def sized(code, right):
    return (right, right - 1, right + 1, 0)[code]


def ramp(length, factor, seed):
    return bytearray((i * factor + seed) % 256 for i in range(length))


def pictured(pattern, seed, length):
    """Pattern 0 is blank, 1 all zeros, 2 a mixture, and 3 blank flash before the mixture."""
    if pattern == 0:
        return bytearray([0xFF] * length)
    if pattern == 1:
        return bytearray(length)
    memory = bytearray((i * 7 + i // 256 + seed) % 256 for i in range(length))
    if pattern == 3:
        blank = min(length, FLASH.size)
        memory[:blank] = bytes([0xFF] * blank)
    return memory


def digest(data):
    h = 1
    for b in data:
        h = (h * 257 + b + 1) % 4294967291
    return h


def state_words(device):
    what = device.pending
    words = f"mode {device.mode} status {device.status} pointer {device.pointer:08X}"
    if what is None:
        return words
    if what.kind == WRITE:
        return f"{words} pending write block {what.block} length {what.length}"
    if what.kind in (SET_POINTER, ERASE_PAGE):
        return f"{words} pending {what.kind} {what.address:08X}"
    return f"{words} pending {what.kind}"


class Tape:
    """Records as they are laid down, the lines that they must print, and words for both."""

    def __init__(self):
        self.records, self.lines, self.words = [], [], []
        self.counts = collections.defaultdict(collections.Counter)
        self.digests = {}
        self.events = 0
        self.scene()

    def put(self, kind, fields, words):
        record = bytearray(RECORD)
        record[0] = kind
        for at, data in fields.items():
            record[at : at + len(data)] = data
        assert len(record) == RECORD
        self.records.append(bytes(record))
        self.words.append(words)

    # --- records that are no events

    def scene(self, pattern=2, seed=0, options=DEFAULT_OPTIONS, memory=RIGHT, block=RIGHT, reply=RIGHT):
        self.memory = pictured(pattern, seed, sized(memory, MEMORY_SIZE))
        room = max(0, min(OPTIONS.size, len(self.memory) - OPTIONS.offset))
        self.memory[OPTIONS.offset : OPTIONS.offset + room] = options[:room]
        if memory == LONG:
            self.memory[MEMORY_SIZE] = LONG_MEMORY_BYTE
        self.block = ramp(sized(block, TRANSFER_SIZE), 3, seed)
        self.reply = ramp(sized(reply, TRANSFER_SIZE), 5, seed)
        self.now = loader.attached()
        lengths = (memory, block, reply)
        self.put(SCENE, {1: [pattern, seed], 3: options, 19: lengths},
                 f"scene   pattern {pattern} seed {seed} options {options.hex().upper()} lengths "
                 + " ".join(LENGTH_WORDS[code] for code in lengths))

    def device(self, mode, status=0, pointer=FLASH.first, pending=None):
        self.now = Device(mode, status, pointer, pending)
        what = pending or Pending(None)
        self.put(DEVICE, {1: [MODE_CODE[mode], status], 4: little(pointer, 4),
                          8: [PENDING_KINDS.index(what.kind)], 12: little(what.address, 4),
                          16: little(what.block, 2), 18: little(what.length, 2)},
                 "device  " + state_words(self.now))

    def poke(self, offset, value):
        self.memory[offset] = value
        self.put(POKE, {4: little(offset, 4), 8: [value]}, f"poke    {offset} {value:02X}")

    # --- events

    def attach(self):
        self.put(ATTACHED, {}, "attach")
        self.happen(ATTACH, "Attach")

    def request(self, type, code, value=0, index=0, length=0, given=b"", seed=0, count=None, there=SETUP_SIZE):
        """A request. Its data stage is as long as it should be, or `count`, to be refused."""
        if count is None:
            count = 0 if type & 0x80 else length
        given = given[:count]
        assert count <= MOST_DATA and len(given) <= MOST_GIVEN
        setup = bytes([type, code]) + little(value, 2) + little(index, 2) + little(length, 2)
        data = given + bytes(ramp(count, 11, seed)[len(given):])
        self.put(REQUEST, {1: setup, 9: [there], 10: little(count, 2), 12: [len(given), seed], 16: given},
                 f"request {type:02X} {code:02X} value {value} index {index} length {length}"
                 + (f" only {there} setup bytes" if there < SETUP_SIZE else "")
                 + (f" data {count}: {data[:8].hex().upper()}{'..' if count > 8 else ''}" if count else ""))
        whole = setup + data if there == SETUP_SIZE else setup[:there]
        known = type in (OUT, IN) and code < len(CODE_NAMES)
        self.happen(whole, CODE_NAMES[code] if known else "unknown")

    def happen(self, event, name):
        """Lets the model take the event, and adds the line that the replay has to print."""
        before = self.now
        self.now, answer = loader.step(before, event, self.memory, self.block, self.reply)
        self.events += 1
        what = self.now.pending or Pending(None)
        self.lines.append(" ".join((
            LETTERS[answer.kind], f"{answer.value:04X}",
            f"{MODE_CODE[self.now.mode]:02X}", f"{self.now.status:02X}", f"{self.now.pointer:08X}",
            f"{PENDING_KINDS.index(what.kind):X}", f"{what.address:08X}",
            f"{what.block:04X}", f"{what.length:04X}",
            self.digest_of("memory"), self.digest_of("block"), self.digest_of("reply"),
            self.reply[:SHOWN].hex().upper())))
        self.words[-1] += f" -> {answer.kind} {answer.value or ''}".rstrip() + "; " + state_words(self.now)
        self.count(before, name, answer)

    def digest_of(self, name):
        """The digest of a buffer, worked out anew only where the buffer has changed."""
        data = bytes(getattr(self, name))
        old, text = self.digests.get(name, (None, None))
        if data != old:
            text = f"{digest(data):08X}"
            self.digests[name] = (data, text)
        return text

    def count(self, before, name, answer):
        refused = answer.kind == loader.REFUSED
        self.counts["answer"][f"refused {answer.value}" if refused else answer.kind] += 1
        self.counts["mode before"][str(before.mode)] += 1
        self.counts["status after"][str(self.now.status)] += 1
        self.counts["event"][name] += 1
        if not refused:
            self.counts["event in mode, not refused"][f"{name} in {before.mode}"] += 1
        if before.mode == DNLOAD_SYNC and name == "GETSTATUS" and answer.kind == loader.REPLY:
            self.counts["command run, status"][f"{before.pending.kind}: {self.now.status}"] += 1

    # --- what a host sends, in short

    def dnload(self, value, given=b"", length=None, seed=0):
        length = len(given) if length is None else length
        self.request(OUT, DNLOAD, value, length=length, given=given, seed=seed)

    def upload(self, value, length):
        self.request(IN, UPLOAD, value, length=length)

    def get_status(self, times=1):
        for _ in range(times):
            self.request(IN, GETSTATUS, length=6)

    def clear(self):
        self.request(OUT, CLRSTATUS)

    def get_state(self):
        self.request(IN, GETSTATE, length=1)

    def abort(self):
        self.request(OUT, ABORT)

    def do(self, value, given=b"", length=None, seed=0, polls=2):
        """A download, and the polls that run it and end it."""
        self.dnload(value, given, length, seed)
        self.get_status(polls)

    def recover(self):
        """Whatever the mode is, what comes next starts from dfuIDLE."""
        if self.now.mode in (LEFT, REBOOTING):
            self.attach()
        elif self.now.mode == ERROR:
            self.clear()
        elif self.now.mode != IDLE:
            self.device(IDLE, pointer=self.now.pointer)


# --- the data of block 0, and option bytes


def set_pointer(address):
    return b"\x21" + little(address, 4)


def erase_page(address):
    return b"\x41" + little(address, 4)


MASS = b"\x41"
UNPROTECT = b"\x92"


def card(mask=0xFFFF, protection=0xAA, rest=0xFF):
    """Option bytes: the protection byte, the page bits, and a filling for what has no effect."""
    return bytes([protection] + [rest] * 7 + [mask % 256, mask // 256] + [rest] * 6)
