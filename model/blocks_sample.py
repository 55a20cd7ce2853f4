"""Makes the sample of a job by block numbers from the models.

    blocks_sample.py [FOLDER]   writes image.bin, card.bin, board.bin and job.txt

FOLDER defaults to samples/blocks. The job is a standard DFU tool's: full blocks of 2,048 bytes, and then a
short one with the next number. Fixed rules make everything. The checker's model passes the job, and the board
ends with the image, or nothing is written.
"""

import pathlib
import sys

sys.dont_write_bytecode = True

import checker
from jobs import spelled, tool_job
from loader import DEFAULT_OPTIONS, FLASH, PAGE, RAM, TRANSFER_SIZE

LENGTH = 5000


def sample_image():
    return bytes((i * 37 + i // 256 + 8) % 256 for i in range(LENGTH))


def sample_flash():
    """No byte of it is blank."""
    return bytes((i * 3 + i // PAGE) % 255 for i in range(FLASH.size))


def sample_job(image):
    starts = range(0, len(image), TRANSFER_SIZE)
    blocks = [(number, [image[start : start + TRANSFER_SIZE]]) for number, start in enumerate(starts, 2)]
    pages = (len(image) + PAGE - 1) // PAGE
    return b"".join(spelled(piece) for event in tool_job(pages, blocks) for piece in event)


def passes(job, image, flash):
    """On the sample's board, and on every one with its card."""
    events, malformed = checker.read_job(job)
    assert not malformed
    fates = {checker.decide(events, image, DEFAULT_OPTIONS),
             checker.lived(events, image, DEFAULT_OPTIONS, flash, bytes(RAM.size))}
    return fates == {checker.Verdict(checker.PASS, 0)}


def main(words):
    if len(words) > 1 or any(word.startswith("-") for word in words):
        print("usage: blocks_sample.py [FOLDER]", file=sys.stderr)
        sys.exit(2)
    image, flash = sample_image(), sample_flash()
    job = sample_job(image)
    assert passes(job, image, flash)
    folder = pathlib.Path(words[0] if words else "samples/blocks")
    folder.mkdir(parents=True, exist_ok=True)
    (folder / "image.bin").write_bytes(image)
    (folder / "card.bin").write_bytes(DEFAULT_OPTIONS)
    (folder / "board.bin").write_bytes(flash + bytes(RAM.size) + DEFAULT_OPTIONS)
    (folder / "job.txt").write_bytes(job)


if __name__ == "__main__":
    main(sys.argv[1:])
