"""Random jobs for the checker: mostly what a careful host would send, with damage here and there."""

from jobs import (
    ABORTED, ATTACH, CLEAR, STATE, STATUS, Image, Ramp, dnload, do, erase, go, leave, options, point, put,
    put_by_number, request, stretch, upload)
from loader import FLASH, OPTIONS, PAGES, RAM, TRANSFER_SIZE
from tape import MASS, UNPROTECT, card, erase_page, set_pointer
from walks import Dice

JOBS = 420


def shuffled(dice, items):
    items = list(items)
    for last in range(len(items) - 1, 0, -1):
        other = dice.roll(last + 1)
        items[last], items[other] = items[other], items[last]
    return items


def blocks_of(dice, image):
    """The image cut into blocks of 2 to 2,048 bytes; a last byte that is left over stands alone."""
    blocks, start = [], 0
    while start < image.length:
        size = min(dice.pick((2, 3, 64, 255, 512, 1024, 1500, 2048)), image.length - start)
        size += 1 if image.length - start - size == 1 and size < TRANSFER_SIZE else 0
        if image.length - start > 40 * size:
            size = min(TRANSFER_SIZE, image.length - start)
        blocks.append((start, start + size))
        start += size
    return blocks


def some_card(dice, image):
    """Mostly one on which the image can be loaded."""
    mask = dice.pick((0xFFFF, 0xFFFF, 0x00FF, 0x8001, 0x0F0F, 0xFFFE, 0x7FFF))
    if dice.roll(5):
        mask |= 2 ** image.pages() - 1
    protection = 0xAA if dice.roll(12) else dice.roll(256)
    return card(mask, protection, dice.pick((0xFF, 0x00, 0xAA)))


def pause(dice, board):
    """Something that should do no harm, between two commands."""
    return dice.pick((
        lambda: [],
        lambda: [],
        lambda: [STATUS] * dice.roll(3),
        lambda: [STATE],
        lambda: [ABORTED],
        lambda: [ATTACH],
        lambda: [ABORTED, upload(0, 1 + dice.roll(8))],
        lambda: [ABORTED, upload(2, 2 + dice.roll(200)), ABORTED],
        lambda: point() + [ABORTED, upload(2 + dice.roll(8), dice.pick((2, 512, 2047, 2048))), STATE, ABORTED],
        lambda: point(RAM.first) + do(2, Ramp(2 + dice.roll(300), 0, 1, dice.roll(256))),
        lambda: point(OPTIONS.first) + do(3, Ramp(2 + dice.roll(300), 0, 1, dice.roll(256))),  # it is RAM too
        lambda: point(RAM.first + dice.roll(2000)) + [ABORTED, upload(2, 16), ABORTED],
        lambda: [dnload(0, MASS), ABORTED],
        lambda: [dnload(0), ABORTED],
        lambda: options(board),
        lambda: erase(PAGES - 1) if not board[9] & 0x80 else [],
    ))()


def loaded(dice, image, board):
    """The image in blocks, each page erased some time before."""
    events = []
    for page in shuffled(dice, range(image.pages())):
        events += erase(page) + pause(dice, board)
    for start, end in shuffled(dice, blocks_of(dice, image)):
        way = dice.pick((put, put_by_number))
        events += way(start, *stretch(image, start, end - start)) + pause(dice, board)
    return events


def damage(dice, events, image):
    """One event lost, doubled, moved, replaced or set between others."""
    k = dice.roll(len(events))
    stranger = dice.pick((
        ATTACH, STATUS, STATE, CLEAR, ABORTED, upload(0, 4), upload(2, 1), dnload(0, MASS), dnload(0), dnload(1, b"\1"),
        dnload(0, UNPROTECT), dnload(2, b"\0\0"), dnload(0, set_pointer(RAM.first)), dnload(0, b"\x21"),
        dnload(0, erase_page(FLASH.first + dice.roll(FLASH.size))), request(0x21, 0),
        request(dice.roll(256) | 0x80, dice.roll(8)), dnload(2 + dice.roll(3), image.part(0, min(image.length, 64)))))
    kind = dice.roll(5)
    if kind == 0:
        return events[:k] + events[k + 1 :]
    if kind == 1:
        return events[: k + 1] + events[k:]
    if kind == 2:
        other = dice.roll(len(events))
        rest = events[:k] + events[k + 1 :]
        return rest[:other] + [events[k]] + rest[other:]
    if kind == 3:
        return events[:k] + [stranger] + events[k + 1 :]
    return events[:k] + [stranger] + events[k:]


def way_out(dice, board):
    return dice.pick((go, go, go, leave, lambda: [ATTACH] + leave(), lambda: options(board) + leave(),
                      lambda: go() + [ATTACH] + leave(), lambda: point() + [dnload(0, MASS), ABORTED] + leave()))()


def random_job(dice):
    image = Image(dice.pick((1, 2, 5, 40, 700, 1023, 1024, 1025, 1026, 2048, 2049, 2600)), dice.pick((0, 1, 3, 255)),
                  dice.pick((255, 0, dice.roll(256))))
    board = some_card(dice, image)
    events = pause(dice, board) + loaded(dice, image, board) + way_out(dice, board)
    if board[0] != 0xAA and dice.roll(4):
        events = do(0, UNPROTECT, polls=1) + [ATTACH] + events
    for _ in range(dice.pick((0, 0, 0, 1, 1, 2))):
        events = damage(dice, events, image)
    return events, image, board


def random_jobs(s):
    dice = Dice(77)
    for _ in range(JOBS):
        s.add(*random_job(dice))
