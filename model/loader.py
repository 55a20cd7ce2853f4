"""A model of the DFU loader, for test vectors.

It was written from document 01 (and the notes that it names), from change request 3, whose block
address it has, and from nothing else: it shares no code and no table with the proved crates. Titles
in quotation marks in the comments are the headings and bold words of document 01, in its order. It
is meant to be read beside that document, so it prefers the plain way of saying a thing to the fast
one.
"""

from collections import namedtuple

# --- "The board" ----------------------------------------------------------------------------------

Region = namedtuple("Region", "name first size offset")

PAGE = 1024
PAGES = 16
FLASH = Region("flash", 0x08000000, PAGES * PAGE, 0)
RAM = Region("RAM", 0x20000000, 2048, 16384)
OPTIONS = Region("options", 0x1FFFF800, 16, 18432)
REGIONS = (FLASH, RAM, OPTIONS)

MEMORY_SIZE = 18448

# DFU 1.1's wTransferSize, the device's own figure: so long are the block and reply buffers and the longest data
# stage, and so far apart lie the blocks.
TRANSFER_SIZE = 2048

ERASED = 0xFF
NOT_READ_PROTECTED = 0xAA
DEFAULT_OPTIONS = bytes([NOT_READ_PROTECTED] + [0xFF] * 15)


def region_of(address, length=1):
    """The region that has the whole span, or None. Addresses are natural numbers: none wraps."""
    for region in REGIONS:
        if region.first <= address and address + length <= region.first + region.size:
            return region
    return None


def place(region, address):
    """Where a region's address lies in the memory buffer."""
    return region.offset + address - region.first


def read_protected(memory):
    return memory[OPTIONS.offset] != NOT_READ_PROTECTED


def write_protected(memory, page):
    """Option bytes 8 and 9 are sixteen bits, page 0 the lowest; a 0 locks the page."""
    word = memory[OPTIONS.offset + 8] + 256 * memory[OPTIONS.offset + 9]
    return word // 2**page % 2 == 0


# The state: modes by their wire numbers, and two that never reach the wire.
IDLE, DNLOAD_SYNC, DNBUSY, DNLOAD_IDLE, MANIFEST_SYNC, UPLOAD_IDLE, ERROR = 2, 3, 4, 5, 6, 9, 10
LEFT, REBOOTING = "Left", "Rebooting"
WIRE_MODES = (IDLE, DNLOAD_SYNC, DNBUSY, DNLOAD_IDLE, MANIFEST_SYNC, UPLOAD_IDLE, ERROR)
MANIFEST = 7  # shown once on the way out, never a mode of its own

OK, ERR_TARGET, ERR_WRITE, ERR_VENDOR, ERR_STALLED = 0, 1, 3, 11, 15

# A command that waits: address for the first two kinds, block number and length for a write.
Pending = namedtuple("Pending", "kind address block length", defaults=(0, 0, 0))
SET_POINTER, ERASE_PAGE, MASS_ERASE, READ_UNPROTECT, WRITE = (
    "set pointer", "erase page", "mass erase", "read unprotect", "write")

Device = namedtuple("Device", "mode status pointer pending")


def well_formed(device):
    if region_of(device.pointer) is None:
        return False
    if (device.pending is not None) != (device.mode == DNLOAD_SYNC):
        return False
    if device.pending is not None and device.pending.kind == WRITE:
        if device.pending.block < 2 or not 1 <= device.pending.length <= TRANSFER_SIZE:
            return False
    if device.mode == ERROR:
        return device.status in (ERR_TARGET, ERR_WRITE, ERR_VENDOR, ERR_STALLED)
    return device.status == OK


# --- "Events" -------------------------------------------------------------------------------------

ATTACH = "attach"  # the other events are requests: bytes, the setup and then the data stage
SETUP_SIZE = 8

Answer = namedtuple("Answer", "kind value", defaults=(0,))
ACCEPTED, REPLY, STALL, SILENT, REFUSED = "accepted", "reply", "stall", "silent", "refused"

Setup = namedtuple("Setup", "type code value index length")


def read_setup(event):
    word = lambda at: event[at] + 256 * event[at + 1]
    return Setup(event[0], event[1], word(2), word(4), word(6))


def data_length(setup):
    """The data stage goes to the device when the type's top bit is clear."""
    return 0 if setup.type & 0x80 else setup.length


def attached():
    return Device(IDLE, OK, FLASH.first, None)


def refusal(device, event, memory, block, reply):
    """ "Refusal numbers" of a step: the first that applies, or 0. Only a request can have 5."""
    if len(memory) != MEMORY_SIZE:
        return 1
    if len(block) != TRANSFER_SIZE:
        return 2
    if len(reply) != TRANSFER_SIZE:
        return 3
    if not well_formed(device):
        return 4
    if event != ATTACH:
        if len(event) < SETUP_SIZE or len(event) - SETUP_SIZE != data_length(read_setup(event)):
            return 5
    return 0


class Stall(Exception):
    """Ends a request without an answer to it, before any buffer was touched."""

    def __init__(self, status=ERR_STALLED):
        self.status = status


def step(device, event, memory, block, reply):
    """The next device and the answer. The three buffers (bytearrays) are changed in place."""
    number = refusal(device, event, memory, block, reply)
    if number:
        return device, Answer(REFUSED, number)
    if event == ATTACH:
        return attached(), Answer(ACCEPTED)
    if device.mode in (LEFT, REBOOTING):
        return device, Answer(SILENT)
    try:
        setup = read_setup(event)
        handle = HANDLERS[recognised(setup, device.mode)]
        return handle(device, setup, event[SETUP_SIZE:], memory, block, reply)
    except Stall as stall:
        status = device.status if device.mode == ERROR else stall.status
        return Device(ERROR, status, device.pointer, None), Answer(STALL)


# The table of requests: type and code, which wValue and wLength fit, and in which modes.
Request = namedtuple("Request", "name type code values lengths modes")
ANY = range(65536)
ZERO = range(1)
REQUESTS = (
    Request("DNLOAD", 0x21, 1, ANY, range(0, TRANSFER_SIZE + 1), (IDLE, DNLOAD_IDLE)),
    Request("UPLOAD", 0xA1, 2, ANY, range(1, TRANSFER_SIZE + 1), (IDLE, UPLOAD_IDLE)),
    Request("GETSTATUS", 0xA1, 3, ZERO, (6,), WIRE_MODES),
    Request("CLRSTATUS", 0x21, 4, ZERO, ZERO, (ERROR,)),
    Request("GETSTATE", 0xA1, 5, ZERO, (1,), tuple(m for m in WIRE_MODES if m != DNBUSY)),
    Request("ABORT", 0x21, 6, ZERO, ZERO, (IDLE, DNLOAD_SYNC, DNLOAD_IDLE, MANIFEST_SYNC, UPLOAD_IDLE)),
)


def recognised(setup, mode):
    """The name of the request, where its fields fit and the mode takes it."""
    for r in REQUESTS:
        if (setup.type, setup.code) == (r.type, r.code):
            if setup.value in r.values and setup.index == 0 and setup.length in r.lengths and mode in r.modes:
                return r.name
    raise Stall


def answer_with(reply, data):
    """A reply takes the front of the reply buffer; what lies behind it stays."""
    reply[: len(data)] = data
    return Answer(REPLY, len(data))


def back_to_idle(device, setup, data, memory, block, reply):
    """CLRSTATUS and ABORT alike."""
    return Device(IDLE, OK, device.pointer, None), Answer(ACCEPTED)


def get_state(device, setup, data, memory, block, reply):
    return device, answer_with(reply, bytes([device.mode]))


# --- "DNLOAD" -------------------------------------------------------------------------------------


def download(device, setup, data, memory, block, reply):
    """Nothing but the block buffer changes here: the command runs at the next GETSTATUS."""
    if setup.length == 0:
        return device._replace(mode=MANIFEST_SYNC), Answer(ACCEPTED)
    if setup.value == 0:
        pending = command(data)
    elif setup.value == 1:
        raise Stall
    else:
        block[: len(data)] = data
        pending = Pending(WRITE, block=setup.value, length=len(data))
    return device._replace(mode=DNLOAD_SYNC, pending=pending), Answer(ACCEPTED)


def command(data):
    """The command that the data of block 0 spells."""
    address = int.from_bytes(data[1:5], "little")
    if data[0] == 0x21 and len(data) == 5:
        return Pending(SET_POINTER, address=address)
    if data[0] == 0x41 and len(data) == 5:
        return Pending(ERASE_PAGE, address=address)
    if data[0] == 0x41 and len(data) == 1:
        return Pending(MASS_ERASE)
    if data[0] == 0x92 and len(data) == 1:
        return Pending(READ_UNPROTECT)
    raise Stall


# --- "GETSTATUS" ----------------------------------------------------------------------------------

POLL_TIME = 100


def get_status(device, setup, data, memory, block, reply):
    """`shown` is the mode that the reply reports; the device may go on to another one."""
    shown = device.mode
    if device.mode == DNLOAD_SYNC:
        device, shown = run_pending(device, memory, block)
    elif device.mode == DNBUSY:
        shown = DNLOAD_IDLE
        device = device._replace(mode=DNLOAD_IDLE)
    elif device.mode == MANIFEST_SYNC:
        shown = MANIFEST
        device = device._replace(mode=LEFT)
    poll = POLL_TIME if shown == DNBUSY else 0
    report = bytes([device.status]) + poll.to_bytes(3, "little") + bytes([shown, 0])
    return device, answer_with(reply, report)


def run_pending(device, memory, block):
    """Runs the command that waits; gives the device after it and the mode to show."""
    what = device.pending
    pointer, reboots = device.pointer, False
    if what.kind == SET_POINTER:
        status = OK if region_of(what.address) else ERR_TARGET
        pointer = what.address if status == OK else pointer
    elif what.kind == ERASE_PAGE:
        status = erase_page(memory, what.address)
    elif what.kind == MASS_ERASE:
        status = mass_erase(memory)
    elif what.kind == READ_UNPROTECT:
        status, reboots = read_unprotect(memory), True
    else:
        address = block_address(what.block, pointer)
        status = write(memory, address, block[: what.length])
        reboots = region_of(address) is OPTIONS
    if status != OK:
        return Device(ERROR, status, pointer, None), ERROR
    return Device(REBOOTING if reboots else DNBUSY, OK, pointer, None), DNBUSY


# --- "UPLOAD" -------------------------------------------------------------------------------------

COMMANDS = bytes([0x00, 0x21, 0x41, 0x92])


def upload(device, setup, data, memory, block, reply):
    if setup.value == 0:
        return device._replace(mode=IDLE), answer_with(reply, COMMANDS[: setup.length])
    if setup.value == 1:
        raise Stall
    address = block_address(setup.value, device.pointer)
    status = access_status(memory, address, setup.length)
    if status != OK:
        raise Stall(status)
    at = place(region_of(address), address)
    return device._replace(mode=UPLOAD_IDLE), answer_with(reply, memory[at : at + setup.length])


# --- "Address", and the checks of reads and writes ---------------------------------------------------


def block_address(number, pointer):
    """The block's own length has no say in it: a short one lies where a full one would."""
    return (number - 2) * TRANSFER_SIZE + pointer


def access_status(memory, address, length):
    """Checks 1 and 2, which reads and writes have in common."""
    if read_protected(memory):
        return ERR_VENDOR
    region = region_of(address, length)
    if region is None:
        return ERR_TARGET
    if region is OPTIONS:
        whole = address == OPTIONS.first and length == OPTIONS.size
        return OK if whole else ERR_TARGET
    return OK if length >= 2 else ERR_TARGET


def write(memory, address, data):
    status = access_status(memory, address, len(data))
    if status != OK:
        return status
    region = region_of(address, len(data))
    at = place(region, address)
    spots = range(at, at + len(data))
    if region is FLASH:
        # A locked page takes no byte, so what it holds is not looked at either.
        spots = [spot for spot in spots if not write_protected(memory, spot // PAGE)]
        if any(memory[spot] != ERASED for spot in spots):
            return ERR_WRITE
    for spot in spots:
        memory[spot] = data[spot - at]
    return OK


# --- The other commands -----------------------------------------------------------------------------


def erase(memory, page):
    if not write_protected(memory, page):
        memory[page * PAGE : (page + 1) * PAGE] = bytes([ERASED] * PAGE)


def erase_page(memory, address):
    if read_protected(memory):
        return ERR_VENDOR
    if region_of(address) is not FLASH:
        return ERR_TARGET
    erase(memory, (address - FLASH.first) // PAGE)
    return OK


def mass_erase(memory):
    if read_protected(memory):
        return ERR_VENDOR
    for page in range(PAGES):
        erase(memory, page)
    return OK


def read_unprotect(memory):
    """Takes the page locks with it, where it has protection to remove."""
    if read_protected(memory):
        memory[: FLASH.size] = bytes([ERASED] * FLASH.size)
        memory[OPTIONS.offset : OPTIONS.offset + OPTIONS.size] = DEFAULT_OPTIONS
    memory[RAM.offset : RAM.offset + RAM.size] = bytes(RAM.size)
    return OK


HANDLERS = {
    "DNLOAD": download,
    "UPLOAD": upload,
    "GETSTATUS": get_status,
    "CLRSTATUS": back_to_idle,
    "GETSTATE": get_state,
    "ABORT": back_to_idle,
}
