"""Makes the inputs of the figures: inputs.py FOLDER writes FOLDER/NAME/{job.txt,image.bin,card.bin} for the
checker and FOLDER/NAME/image.hex for the reader of Intel HEX.

Every run makes the same bytes. A name that ends in `-half` is a text of half the length.
"""

import hashlib
import os
import sys

PAGE = 1024
TRANSFER = 2048
FLASH = 0x08000000
IMAGE = hashlib.shake_128(b"figures").digest(16 * PAGE)
DEFAULT_OPTIONS = b"\xAA" + b"\xFF" * 15


def line(setup, data=b""):
    return f"Q\t{setup.hex().upper()}\t{data.hex().upper()}\n"


def download(value, data=b""):
    return line(bytes([0x21, 1]) + value.to_bytes(2, "little") + b"\0\0" + len(data).to_bytes(2, "little"), data)


def upload(value, length):
    return line(bytes([0xA1, 2]) + value.to_bytes(2, "little") + b"\0\0" + length.to_bytes(2, "little"))


STATUS = line(bytes([0xA1, 3, 0, 0, 0, 0, 6, 0]))
ABORT = line(bytes([0x21, 6, 0, 0, 0, 0, 0, 0]))


def command(code, *address):
    return download(0, bytes([code]) + b"".join(a.to_bytes(4, "little") for a in address)) + 2 * STATUS


def plan(image):
    """The plan writer's job for an image."""
    text = ""
    for at in range(0, len(image), PAGE):
        part = image[at : at + PAGE]
        text += command(0x41, FLASH + at) + command(0x21, FLASH + at)
        text += download(2, part if len(part) > 1 else part + b"\xFF") + 2 * STATUS
    return text + command(0x21, FLASH) + download(0) + STATUS


def blocks(image):
    """A standard tool's job: full blocks with counting numbers, and the same read back."""
    parts = [image[at : at + TRANSFER] for at in range(0, len(image), TRANSFER)]
    text = "".join(command(0x41, FLASH + at) for at in range(0, len(image), PAGE)) + command(0x21, FLASH)
    text += "".join(download(number, part) + 2 * STATUS for number, part in enumerate(parts, 2)) + ABORT
    text += "".join(upload(number, len(part)) for number, part in enumerate(parts, 2)) + ABORT
    return text + download(0) + STATUS


def small(job):
    """A job with its hex fields in small letters. The front of a line stays a capital."""
    return "".join(line[0] + line[1:].lower() for line in job.splitlines(keepends=True))


def jobs():
    """Name, job text, image."""
    half = IMAGE[: 8 * PAGE]
    yield "plan", plan(IMAGE), IMAGE
    yield "plan-small", small(plan(IMAGE)), IMAGE
    yield "plan-half", plan(half), half
    yield "blocks", blocks(IMAGE), IMAGE
    yield "erases", 900 * command(0x41), IMAGE
    yield "erases-half", 450 * command(0x41), IMAGE
    yield "status", 3000 * STATUS, IMAGE
    yield "status-half", 1500 * STATUS, IMAGE
    yield "empty", "", IMAGE


def record(kind, offset, data=b""):
    content = bytes([len(data)]) + offset.to_bytes(2, "big") + bytes([kind]) + data
    return f":{content.hex().upper()}{-sum(content) % 256:02X}\n"


def hex_of(image):
    """The HEX writer's text for an image."""
    data = (record(0, at, image[at : at + 16]) for at in range(0, len(image), 16))
    return record(4, 0, (FLASH >> 16).to_bytes(2, "big")) + "".join(data) + record(1, 0)


def hexes():
    """Name, HEX text."""
    yield "hex-one", hex_of(IMAGE[:1])
    yield "hex", hex_of(IMAGE)
    yield "hex-half", hex_of(IMAGE[: 8 * PAGE])
    yield "hex-small", hex_of(IMAGE).lower().replace("\n", "\r\n")


def write(folder, name, files):
    place = os.path.join(folder, name)
    os.makedirs(place, exist_ok=True)
    for file, content in files.items():
        with open(os.path.join(place, file), "wb") as out:
            out.write(content)


def main(folder):
    for name, text, image in jobs():
        assert len(text) <= 60000 and (name not in ("plan", "plan-small") or len(text) == 36078)
        write(folder, name, {"job.txt": text.encode(), "image.bin": image, "card.bin": DEFAULT_OPTIONS})
    for name, text in hexes():
        assert text.lower().startswith(":020000040800f2") and text.split()[-1].upper() == ":00000001FF"
        write(folder, name, {"image.hex": text.encode()})


if __name__ == "__main__":
    if len(sys.argv) != 2 or sys.argv[1].startswith("-"):
        sys.exit("usage: inputs.py FOLDER")
    main(sys.argv[1])
