"""Makes the sample of the program `play_job` from the loader's model.

    play_vectors.py [CRATE]   writes data/job.txt, data/board.bin and stdout of the crate
    play_vectors.py --show    prints what the program has to print; writes nothing

CRATE defaults to crates/play_job. The words are said here anew, from document 01: nothing is shared with
the crates.
"""

import pathlib
import sys

sys.dont_write_bytecode = True

import loader
from job import line_of
from loader import FLASH, OPTIONS, PAGE, PAGES, RAM, TRANSFER_SIZE

OUT, IN = 0x21, 0xA1

MODES = {
    loader.IDLE: "dfuIDLE", loader.DNLOAD_SYNC: "dfuDNLOAD-SYNC", loader.DNBUSY: "dfuDNBUSY",
    loader.DNLOAD_IDLE: "dfuDNLOAD-IDLE", loader.MANIFEST_SYNC: "dfuMANIFEST-SYNC",
    loader.UPLOAD_IDLE: "dfuUPLOAD-IDLE", loader.ERROR: "dfuERROR", loader.LEFT: "left",
    loader.REBOOTING: "rebooting"}
STATUSES = {0: "OK", 1: "errTARGET", 3: "errWRITE", 11: "errVENDOR", 15: "errSTALLEDPKT"}
STRANGE = "a request that the loader does not know"
COMMANDS = {
    (0x21, 5): ", set pointer 0x%08X", (0x41, 5): ", erase page of 0x%08X",
    (0x41, 1): ", mass erase", (0x92, 1): ", read unprotect"}

# --- the sample -----------------------------------------------------------------------------------------


def request(kind, code, value=0, length=0, data=b""):
    return bytes([kind, code]) + value.to_bytes(2, "little") + bytes(2) + length.to_bytes(2, "little") + data


def download(value, data):
    return request(OUT, 1, value, len(data), data)


STATUS = request(IN, 3, length=6)
CLEAR = request(OUT, 4)
ABORT = request(OUT, 6)


def done(event):
    """An event whose command runs, and the two questions that let it."""
    return [event, STATUS, STATUS]


def pointed(code, address):
    return download(0, bytes([code]) + address.to_bytes(4, "little"))


def ramp(count, seed):
    return bytes((i * 7 + seed) % 256 for i in range(count))


def sample_board():
    """No page is blank but the last; page 5 is write-protected."""
    flash = bytearray((i * 3 + i // PAGE) % 256 for i in range(FLASH.size))
    flash[-PAGE:] = bytes([loader.ERASED] * PAGE)
    options = bytearray(loader.DEFAULT_OPTIONS)
    options[8] = 0xDF
    return bytes(flash) + bytes(RAM.size) + bytes(options)


def sample_job():
    page = lambda n: FLASH.first + n * PAGE
    new_options = bytearray(loader.DEFAULT_OPTIONS)
    new_options[9] = 0x7F
    return [
        loader.ATTACH, request(IN, 5, length=1), request(IN, 2, 0, 8),
        # from a place in page 2 block 3 is the same place in page 4, however short the blocks are
        *done(pointed(0x41, page(2))), *done(pointed(0x41, page(4))), *done(pointed(0x21, page(2) + 64)),
        *done(download(2, ramp(64, 1))), *done(download(3, ramp(64, 9))),
        # over the end of page 2 into page 3, which is not blank
        *done(pointed(0x21, page(3) - 2)), download(2, ramp(4, 0)), STATUS, CLEAR,
        # the write-protected page
        *done(pointed(0x41, page(5))), *done(pointed(0x21, page(5))), *done(download(2, ramp(8, 0))),
        *done(pointed(0x21, page(2) + 64)), ABORT, request(IN, 2, 2, 64), request(IN, 2, 3, 64), ABORT,
        # stalls: DETACH, block 1, no command, a read past flash
        request(OUT, 0), STATUS, CLEAR, download(1, b"\1"), CLEAR, download(0, b"\x33\0"), CLEAR,
        download(0, b"\x21"), CLEAR, request(IN, 2, 0xFFFF, 2048), CLEAR, request(IN, 2, 1, 2), CLEAR,
        # commands that are dropped before they run
        download(0, b"\x41"), ABORT, download(0, b"\x92"), ABORT, pointed(0x33, page(0)), CLEAR,
        pointed(0x41, RAM.first), STATUS, CLEAR,
        # RAM begins 2,048 behind the options' first address: from there it is block 3, and the options are block 2
        *done(pointed(0x21, OPTIONS.first)), *done(download(3, ramp(16, 3))),
        *done(pointed(0x41, page(15))), download(2, bytes(new_options)), STATUS, STATUS, loader.ATTACH,
        *done(pointed(0x21, FLASH.first)), download(0, b""), STATUS, STATUS]


# --- the words ------------------------------------------------------------------------------------------


def request_words(device, event):
    setup = loader.read_setup(event)
    name = STRANGE
    for known in loader.REQUESTS:
        if (setup.type, setup.code) == (known.type, known.code):
            if setup.index == 0 and setup.value in known.values and setup.length in known.lengths:
                name = known.name
    if name not in ("DNLOAD", "UPLOAD"):
        return name
    return name + ", block %d, length %d" % (setup.value, setup.length) + purpose(device, name, setup, event[8:])


def purpose(device, name, setup, data):
    if name == "DNLOAD" and setup.length == 0:
        return ", leave"
    if setup.value == 0:
        if name == "UPLOAD":
            return ", list commands"
        words = COMMANDS.get((data[0], len(data)), ", no command")
        return words % int.from_bytes(data[1:], "little") if "%" in words else words
    if setup.value == 1:
        return ""
    way = ", write to 0x%08X" if name == "DNLOAD" else ", read from 0x%08X"
    return way % loader.block_address(setup.value, device.pointer)


def answer_words(answer):
    if answer.kind == loader.REPLY:
        return "reply of length %d" % answer.value
    return answer.kind


def state_words(device):
    return "; %s, %s" % (MODES[device.mode], STATUSES[device.status])


def differences(old, new, lead):
    parts = [("page %d" % n, FLASH.offset + n * PAGE, FLASH.first + n * PAGE, PAGE) for n in range(PAGES)]
    parts += [("RAM", RAM.offset, RAM.first, RAM.size), ("the option block", OPTIONS.offset, OPTIONS.first, OPTIONS.size)]
    for name, at, address, size in parts:
        for i in range(size):
            if old[at + i] != new[at + i]:
                yield "%s%s differs from 0x%08X on" % (lead, name, address + i)
                break


def played(events, board):
    memory, block, reply = bytearray(board), bytearray(TRANSFER_SIZE), bytearray(TRANSFER_SIZE)
    device, text = loader.attached(), ""
    for number, event in enumerate(events, 1):
        before = bytes(memory)
        words = "attach" if event == loader.ATTACH else request_words(device, event)
        device, answer = loader.step(device, event, memory, block, reply)
        text += "%d. %s: %s%s" % (number, words, answer_words(answer), state_words(device))
        text += "".join(differences(before, memory, "; ")) + "\n"
    counted = "1 event" if len(events) == 1 else "%d events" % len(events)
    text += "%s%s; pointer 0x%08X" % (counted, state_words(device), device.pointer)
    changed = "".join(differences(board, memory, "\n"))
    return text + changed + ("\nall else is as before\n" if changed else "\nnothing differs from before\n")


def main(words):
    if words != ["--show"] and (len(words) > 1 or any(word.startswith("-") for word in words)):
        print("usage: play_vectors.py [CRATE] | --show", file=sys.stderr)
        sys.exit(2)
    events, board = sample_job(), sample_board()
    text = played(events, board)
    if words == ["--show"]:
        print(text, end="")
        return
    crate = pathlib.Path(words[0] if words else "crates/play_job")
    (crate / "data").mkdir(parents=True, exist_ok=True)
    job = b"".join(line_of(b"" if event == loader.ATTACH else event) for event in events)
    (crate / "data" / "job.txt").write_bytes(job)
    (crate / "data" / "board.bin").write_bytes(board)
    (crate / "stdout").write_text(text)


if __name__ == "__main__":
    main(sys.argv[1:])
