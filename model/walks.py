"""Long walks: mostly what a host would send, with damage here and there."""

from loader import DNBUSY, DNLOAD_IDLE, DNLOAD_SYNC, ERROR, FLASH, LEFT, MANIFEST_SYNC, OPTIONS, PAGE, PAGES
from loader import RAM, REBOOTING, REGIONS, TRANSFER_SIZE, UPLOAD_IDLE
from tape import DNLOAD, GETSTATUS, IN, MASS, OUT, UNPROTECT, card, erase_page, set_pointer

TURNS = 150


class Dice:
    """A small generator of our own, so that no library can change the vectors."""

    def __init__(self, seed):
        self.state = seed

    def roll(self, n):
        self.state = (self.state * 6364136223846793005 + 1442695040888963407) % 2**64
        return (self.state >> 33) % n

    def pick(self, items):
        return items[self.roll(len(items))]


def walks(t, requests):
    """A walk on each of eight cards; `requests` are those that damage picks from."""
    cards = (card(), card(0xFFFE), card(0x7F7F), card(0x0F0F), card(0xFFFF, 0x00), card(0x3333, 0x01),
             card(0x0000), card(0xFFF3, 0xAA, 0x00))
    for number, options in enumerate(cards):
        t.scene(number % 4, 140 + number, options)
        walk(t, Dice(1000 + number), requests)


def walk(t, dice, requests):
    start = t.events
    while t.events - start < TURNS:
        if dice.roll(8) == 0:
            damage(t, dice, requests)
        elif t.now.mode in (LEFT, REBOOTING):
            t.attach() if dice.roll(3) else t.get_status()
        elif t.now.mode == ERROR:
            t.clear() if dice.roll(4) else t.get_status()
        elif t.now.mode in (DNLOAD_SYNC, DNBUSY, MANIFEST_SYNC):
            t.get_status()
        elif t.now.mode == UPLOAD_IDLE:
            t.abort() if dice.roll(3) == 0 else read_some(t, dice)
        else:
            dice.pick(HOST)(t, dice)


def erase_some(t, dice):
    t.do(0, erase_page(FLASH.first + dice.roll(FLASH.size)))


def write_some(t, dice):
    """Some bytes of flash, mostly with the erase and the set pointer that they need."""
    at = dice.roll(PAGES) * PAGE
    if dice.roll(4):
        t.do(0, erase_page(FLASH.first + at))
    t.do(0, set_pointer(FLASH.first + at + dice.pick((0, 0, 2, 512, 1022))))
    if t.now.mode == DNLOAD_IDLE:
        length = dice.pick((2, 3, 16, 256, 512, 1024, 2048))
        t.do(dice.pick((2, 2, 2, 2, 3)), length=length, seed=dice.roll(256))


def write_block(t, dice):
    """A full or short block by its number, as a standard tool sends it, mostly with the erases that it needs."""
    block = dice.roll(FLASH.size // TRANSFER_SIZE)
    length = dice.pick((2, 3, 100, 1024, 1500, 2047, 2048, 2048))
    if dice.roll(4):
        for at in range(block * TRANSFER_SIZE, block * TRANSFER_SIZE + length, PAGE):
            t.do(0, erase_page(FLASH.first + at))
    t.do(0, set_pointer(FLASH.first + dice.pick((0, 0, 0, 1))))
    if t.now.mode == DNLOAD_IDLE:
        t.do(2 + block, length=length, seed=dice.roll(256))


def write_ram(t, dice):
    """By block 2, or by block 3 of the options, a block behind which RAM begins."""
    region, number = dice.pick(((RAM, 2), (RAM, 2), (OPTIONS, 3)))
    t.do(0, set_pointer(region.first + dice.roll(region.size)))
    if t.now.mode == DNLOAD_IDLE:
        t.do(number, length=1 + dice.roll(600), seed=dice.roll(256))


def read_some(t, dice):
    t.upload(dice.pick((0, 2, 2, 3, 2 + dice.roll(9))), dice.pick((2, 4, 16, 100, 1024, 2048)))


def point(t, dice):
    region = dice.pick(REGIONS)
    t.do(0, set_pointer(region.first + dice.pick((0, 0, 1, region.size - 1, region.size, region.size // 2))))


def leave(t, dice):
    t.do(0, polls=1 + dice.roll(2))


def erase_all(t, dice):
    t.do(0, MASS)


def unprotect(t, dice):
    t.do(0, UNPROTECT)


def new_options(t, dice):
    t.do(0, set_pointer(OPTIONS.first))
    if t.now.mode == DNLOAD_IDLE:
        protection = dice.pick((0xAA, 0xAA, 0xAA, 0x00))
        t.do(2, card(dice.roll(65536) | 0x1111, protection, dice.roll(256)))


def rare(t, dice):
    dice.pick((leave, new_options, erase_all, unprotect))(t, dice)


HOST = (erase_some, write_some, write_block, write_block, write_ram, read_some, read_some, point, rare)


def damage(t, dice, requests):
    """Something that a broken host, or a broken cable, might do."""
    kind = dice.roll(7)
    if kind == 0:
        t.request(*dice.pick(requests), seed=dice.roll(256))
    elif kind == 1:
        t.request(dice.roll(256), dice.roll(9), dice.roll(4), length=dice.roll(40), seed=dice.roll(256))
    elif kind == 2:
        given = dice.pick((b"\x21", MASS, UNPROTECT))
        t.request(OUT, DNLOAD, dice.roll(4), length=dice.roll(6), count=dice.roll(6), given=given)
    elif kind == 3:
        address = bytes([dice.roll(256), dice.roll(256), dice.pick((0, 1)), dice.pick((8, 0x20))])
        t.dnload(0, bytes([dice.pick((0x21, 0x41))]) + address)
    elif kind == 4:
        t.poke(dice.roll(OPTIONS.offset), dice.roll(256))
        t.get_state()
    elif kind == 5:
        t.request(IN, GETSTATUS, length=6, there=dice.roll(9))
    else:
        t.attach()
