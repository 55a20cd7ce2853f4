"""The jobs of the checker's vectors, by part. A shelf `s` takes them: events, image, card, work area."""

import loader
import vectors
from check_walks import blocks_of, random_jobs, shuffled
from jobs import (
    ABORTED, ATTACH, CLEAR, STATE, STATUS, Image, Many, Ramp, dnload, do, erase, go, leave, load, options, page_of,
    plan, point, put, put_by_number, put_pages, request, send, spelled, stretch, tool_blocks, tool_job, upload)
from loader import DEFAULT_OPTIONS, FLASH, OPTIONS, PAGE, PAGES, RAM, TRANSFER_SIZE
from tape import DNLOAD, EMPTY, LONG, MASS, OUT, RIGHT, SHORT, UNPROTECT, card, erase_page, set_pointer
from walks import Dice

SMALL = Image(6, 17, 0x5A)
TWO_PAGES = Image(1030, 7, 3)
WHOLE = Image(FLASH.size, 5, 9)

LENGTHS = (1, 2, 3, 511, 512, 1023, 1024, 1025, 1026, 2047, 2048, 2049, 3073, 4096, 8191, 10000, 15360, 15361,
           16383, 16384)

CARDS = (
    DEFAULT_OPTIONS, card(rest=0x00), card(mask=0x7FFF), card(mask=0xFFFD), card(mask=0xFFFE, rest=0x3C),
    card(mask=0xAAAA), card(mask=0x00FF), card(mask=0x0000), card(protection=0x00), card(0xFFFF, 0xAB, 0x11),
    card(0xFF7E, 0x55))


def only(*pages):
    """A card that locks every page but these."""
    return card(mask=sum(2**page for page in pages))


# --- "Bench cases" and the plan writer's jobs --------------------------------------------------------------


def bench_cases(s):
    s.add([])
    s.add(plan(Image(1, 1, 0x5A)), Image(1, 1, 0x5A))
    image = Image(2560, 7, 3)
    s.add(erase(0, 1, 2) + put(0, image.part(0, 2048)) + do(3, image.part(2048, 2560)) + go(), image)  # at 0x08000800
    for at in (0x3800, 0x3802):
        s.add(do(0, MASS) + put(at, Ramp(2048, at, 5, 9)) + go(), WHOLE)
    for length in (1, 2):
        s.add(point(RAM.first) + do(2, bytes(length)) + plan(SMALL), SMALL)
    for length in (15, 16):
        s.add(point(OPTIONS.first) + do(2, DEFAULT_OPTIONS[:length], polls=1) + [ATTACH] + plan(SMALL), SMALL)
    s.add(erase(0) + plan(SMALL), SMALL, card(mask=0xFFFE))
    s.add(erase(1) + put(1022, b"\1\2\3\4") + go(), SMALL, card(mask=0xFFFE))
    for length in (2048, 2049):
        s.add([dnload(2, Ramp(length, 0, 5, 9))] + [STATUS], WHOLE)
    s.add([CLEAR])
    s.add([request(OUT, 9), CLEAR])


def plans(s):
    for number, length in enumerate(LENGTHS):
        for other, options_bytes in list(enumerate(CARDS))[:: 1 if length < 4096 else 3]:
            image = Image(length, (1, 7, 255, 0, 3)[(number + other) % 5], (number * 37 + other * 11) % 256)
            s.add(plan(image), image, options_bytes)
    for length in (1, 2, 1023, 1024, 1025, 2049, 16383, 16384):  # each image page locked in turn
        image = Image(length, 3, 200)
        for page in sorted({0, image.pages() // 2, image.pages() - 1, min(15, image.pages())}):
            s.add(plan(image), image, card(0xFFFF - 2**page))


# --- plan jobs with damage ------------------------------------------------------------------------------------

STRANGERS = (ATTACH, STATUS, STATE, ABORTED, CLEAR, upload(0, 4), upload(2, 16))


def damaged(events, strangers):
    """Each event lost, doubled, swapped with the next one, replaced by a stranger, or after one."""
    for k in range(len(events)):
        yield events[:k] + events[k + 1 :]
        yield events[: k + 1] + events[k:]
        if k + 1 < len(events) and events[k] != events[k + 1]:
            yield events[:k] + [events[k + 1], events[k]] + events[k + 2 :]
        for stranger in strangers:
            yield events[:k] + [stranger] + events[k + 1 :]
            yield events[:k] + [stranger] + events[k:]
    for stranger in strangers:
        yield events + [stranger]


def damaged_plans(s):
    for image, strangers, options_bytes in (
            (Image(1, 1, 0x5A), STRANGERS, DEFAULT_OPTIONS), (Image(1025, 3, 7), STRANGERS[:1], card(0x7FFF)),
            (Image(2049, 255, 8), (), DEFAULT_OPTIONS), (Image(1024, 0, 255), (), DEFAULT_OPTIONS)):
        for events in damaged(plan(image), strangers):
            s.add(events, image, options_bytes)


def changed_plans(s):
    """One byte of the text's setups and data changed: a malformed line, another event, another image."""
    image = Image(2, 1, 0x5A)
    text = b"".join(spelled(piece) for event in plan(image) for piece in event)
    lines = text.split(b"\n")
    for number in (0, 1, 2, 3, 4, 6, 7, 9, 12, 13):
        line = lines[number]
        for at in range(2, len(line), 2 if line.endswith(b"\t") or number < 4 else 1):
            if line[at] != 9:
                digit = b"0123456789ABCDEF"[(int(line[at : at + 1], 16) + 1 + at % 5) % 16]
                damage = line[:at] + bytes([digit]) + line[at + 1 :]
                s.add_text([b"\n".join(lines[:number] + [damage] + lines[number + 1 :])], image)


# --- demand 3, byte by byte: what has to be in flash at the end ----------------------------------------------


def wrong_bytes(s):
    """A byte of the image that is another one, alone or with a second one behind it."""
    for image in (Image(2, 9, 1), Image(700, 3, 5), Image(1024, 1, 0), Image(2500, 7, 250)):
        n = image.length
        for at in sorted({0, 1, 2, n // 2, n - 2, n - 1, 1023 % n, 1024 % n, 2047 % n, 2048 % n}):
            for second in (None, n - 1):
                s.add(erase(*range(image.pages())) + altered(image, {at, second}) + go(), image)
    for at in (9999, 10000, 15359, 16382, 16383):
        s.add(do(0, MASS) + altered(WHOLE, {at}) + go(), WHOLE)


def altered(image, spots):
    """The image's writes, with the bytes at the spots changed."""
    events = []
    for page in range(image.pages()):
        start, end = page * PAGE, min((page + 1) * PAGE, image.length)
        pieces = []
        for spot in sorted(spot for spot in spots if spot is not None and start <= spot < end):
            pieces += [image.part(start, spot), bytes([ramp_byte(image, spot) ^ (1 + spot % 255)])]
            start = spot + 1
        pieces.append(image.part(start, end))
        events += put(page * PAGE, *(piece for piece in pieces if isinstance(piece, bytes) or piece.count))
    return events


def ramp_byte(image, spot):
    return (spot * image.factor + image.seed) % 256


def rests(s):
    """The rest of the last page: bytes written there, right behind the image, at its end, and erased ones."""
    for length in (1, 2, 500, 1022, 1023, 1025, 2046, 3000, 15500):
        image = Image(length, 3, 77)
        body = [event for page in range(image.pages()) for event in erase(page)]
        end = image.pages() * PAGE
        tail = length - 1 if length % PAGE == 1 else length - 2
        front = [event for at in range(0, tail, PAGE) for event in put(at, image.part(at, min(at + PAGE, tail)))
                 if min(at + PAGE, tail) - at > 1]
        for extra in (b"\x00", b"\xFF", b"\xFF\xFE", b"\xFF\xFF\xFF"):
            if front or tail == 0:
                s.add(body + front + put(tail, image.part(tail, length), extra) + go(), image)
        for at in (end - 2, end - 3):
            if at >= length:
                for extra in (b"\xFF\x00", b"\xFF\xFF", b"\x00\xFF"):
                    s.add(load(image) + put(at, extra) + go(), image)


def other_pages(s):
    """Pages beside the image's: erased, erased and written, written only; locked and not."""
    for image in (SMALL, Image(1024, 3, 3), TWO_PAGES, Image(15360, 3, 3)):
        for page in sorted({image.pages(), 7, 8, 15}):
            if not image.pages() <= page < PAGES:
                continue
            for options_bytes in (DEFAULT_OPTIONS, card(0xFFFF - 2**page), only(*range(image.pages()))):
                s.add(erase(page) + plan(image), image, options_bytes)
                s.add(load(image) + erase(page) + put(page * PAGE + 8, b"\1\2\3") + go(), image, options_bytes)
                s.add(load(image) + put(page * PAGE + 1020, b"\1\2\3") + go(), image, options_bytes)
                s.add(load(image) + put(page * PAGE - 2, b"\xFF" * 4) + go(), image, options_bytes)


def unwritten(s):
    """Image pages that lack their erase, their write or both; images of erased bytes need no write."""
    for image in (Image(1500, 3, 3), Image(1500, 0, 255), Image(1024, 255, 255), Image(2500, 0, 0)):
        for lacks in range(4 ** min(image.pages(), 2)):
            events = []
            for page in range(image.pages()):
                if not lacks >> 2 * page & 1:
                    events += erase(page)
                if not lacks >> 2 * page & 2:
                    events += put(page * PAGE, *page_of(image, page))
            s.add(events + go(), image)


def blank_only(s):
    """Jobs that work on blank flash and not on every board."""
    for image in (SMALL, Image(1024, 7, 1), TWO_PAGES, Image(5000, 7, 1)):
        writes = [put(page * PAGE, *page_of(image, page)) for page in range(image.pages())]
        s.add(sum(writes, []) + go(), image)
        for page in range(image.pages()):
            rest = [other for other in range(image.pages()) if other != page]
            s.add(erase(*rest) + sum(writes, []) + go(), image)
            s.add(erase(*rest) + sum(writes, []) + erase(page) + writes[page] + go(), image)
            s.add(erase(*rest) + erase((page + 5) % PAGES) + sum(writes, []) + go(), image)
            s.add(sum(writes[:page], []) + erase(*range(image.pages())) + sum(writes[page:], []) + go(), image)


def mass_erases(s):
    for image in (SMALL, TWO_PAGES, Image(16383, 3, 3), WHOLE):
        writes = put_pages(image)
        for options_bytes in (DEFAULT_OPTIONS, only(*range(image.pages())), only(0), only(0, 1), only(0, 1, 9),
                              only(*range(15)), card(0), card(protection=1)):
            s.add(do(0, MASS) + writes + go(), image, options_bytes)
            s.add(writes[:3] + do(0, MASS) + go(), image, options_bytes)
    for options_bytes in (DEFAULT_OPTIONS, only(0), only(0, 3)):
        s.add(plan(SMALL)[:-5] + do(0, MASS) + go(), SMALL, options_bytes)
        s.add(do(0, MASS) + do(0, MASS) + plan(SMALL), SMALL, options_bytes)


# --- blocks: order, size, number, place -----------------------------------------------------------------------


def block_orders(s):
    """Blocks of any size in any order, each by its pointer or by its number."""
    dice = Dice(31)
    for turn in range(90):
        image = Image(dice.pick((7, 300, 1024, 1025, 2048, 3000, 4100)), dice.pick((1, 3, 7, 255)), dice.roll(256))
        blocks = shuffled(dice, blocks_of(dice, image))
        events = erase(*shuffled(dice, list(range(image.pages()))))
        for start, end in blocks:
            events += dice.pick((put, put_by_number))(start, *stretch(image, start, end - start))
        s.add(events + go(), image, dice.pick((DEFAULT_OPTIONS, card(0x00FF), card(0xFFF7))))


def block_numbers(s):
    """Blocks by their numbers, from several pointers and in several orders; the last one is full or short."""
    for last in (2, 512, 2047, 2048):
        for first in (0, 2, 1024, 2048):
            image = Image(first + 2 * TRANSFER_SIZE + last, 3, 11)
            front = erase(*range(image.pages())) + (put(0, image.part(0, first)) if first else [])
            blocks = [(number, stretch(image, first + (number - 2) * TRANSFER_SIZE, TRANSFER_SIZE))
                      for number in (2, 3, 4)]
            for order in ((0, 1, 2), (2, 1, 0), (1, 2, 0)):
                events = front + point(FLASH.first + first) + send(blocks[k] for k in order)
                s.add(events + go(), image)
            s.add(events + leave(), image)


def small_blocks(s):
    """Numbers that count blocks of a smaller size: these lie 2,048 apart all the same, with gaps between them."""
    for size in (2, 16, 500, 512, 1000, 1024, 2047):
        image = Image(4 * size, 3, 11)
        sent = point() + send((2 + k, stretch(image, k * size, size)) for k in range(4)) + leave()
        s.add(erase(*range(image.pages())) + sent, image)
        s.add(do(0, MASS) + sent, image)
        s.add(do(0, MASS) + sent, image, only(*range(image.pages())))


def tool_jobs(s):
    """Jobs as a standard DFU tool makes them: blocks by their numbers, the last one short, and read back."""
    for length in (1, 2, 2047, 2048, 2049, 2050, 4096, 4097, 5000, 16383, 16384):
        image = Image(length, 7, length % 251)
        pages, blocks = image.pages(), tool_blocks(image)
        for options_bytes in (DEFAULT_OPTIONS, card(0xFFFF - 2 ** (pages - 1)), card(0xFFFE), card(0x7FFF),
                              card(protection=0x00)):
            s.add(tool_job(pages, blocks), image, options_bytes)
        s.add(do(0, MASS) + tool_job(0, blocks), image)
        *front, (number, data) = blocks  # a lone last byte, with no erased one beside it, is too short a block
        s.add(tool_job(pages, front + [(number, data[:1])]), image)


def wrong_blocks(blocks):
    """The last block lost, doubled, by another number, of other bytes, too long; all blocks by the next number."""
    *front, (number, data) = blocks
    yield front
    yield blocks + blocks[-1:]
    for other in (number - 1, number + 1, 10):
        yield front + [(other, data)]
    yield front + [(number, [data[0]._replace(seed=data[0].seed ^ 1)])]
    yield front + [(number, [*data, b"\xFF\x00"])]
    yield [(number + 1, data) for number, data in blocks]


def wrong_tool_jobs(s):
    """The same with something amiss: a block, an erase, a read, the way out, the length in the last block's line."""
    for image in (Image(2050, 7, 3), Image(5000, 7, 3), WHOLE):
        pages, blocks = image.pages(), tool_blocks(image)
        for wrong in wrong_blocks(blocks):
            s.add(tool_job(pages, wrong), image)
        job, (number, data) = tool_job(pages, blocks), blocks[-1]
        s.add(tool_job(pages - 1, blocks), image)
        s.add(erase(15) + job, image)
        for more in (9, 10):
            s.add(job[:-3] + [upload(more, 904)] + job[-3:], image)
        for out in ([], point(RAM.first) + leave(), options(card(0x7FFF)) + leave()):
            s.add(job[:-2] + out, image)
        full = request(OUT, DNLOAD, number, length=TRANSFER_SIZE, data=data)
        s.add([full if event == dnload(number, *data) else event for event in job], image)


def damaged_tool_jobs(s):
    image = Image(2050, 7, 3)
    for events in damaged(tool_job(image.pages(), tool_blocks(image)), ()):
        s.add(events, image)


def crossings(s):
    """Blocks of 2,048 over pages of which some are locked, or not erased."""
    for at in (0, 512, 1022, 1024, 2046, 2560):
        image = Image(at + 2048, 7, 13)
        front = point() + send(tool_blocks(Image(at, 7, 13)))
        for mask in (0xFFFF, 0xFFFE, 0xFFFD, 0xFFFB, 0xFFF7, 0xFFF0):
            for missing in (None, 1, 2):
                pages = [page for page in range(image.pages()) if page != missing]
                s.add(erase(*pages) + front + put_by_number(at, image.part(at, at + 2048)) + go(), image, card(mask))


def overlaps(s):
    """Bytes written twice: it goes well where the first write left them erased, and in locked pages."""
    for image in (Image(20, 3, 1), Image(20, 0, 255), Image(1100, 0, 255), Image(1100, 1, 0)):
        for options_bytes in (DEFAULT_OPTIONS, card(0xFFFE), card(0xFFFD)):
            for first, second in (((0, 20), (18, 20)), ((0, 10), (8, 20)), ((10, 20), (0, 12)), ((0, 20), (0, 20)),
                                  ((0, 10), (10, 20)), ((0, 19), (18, 20))):
                events = erase(*range(image.pages())) + put(first[0], image.part(*first))
                events += put(second[0], image.part(*second))
                if image.length > 20:
                    events += put(20, image.part(20, image.length))
                s.add(events + go(), image, options_bytes)
    # 0xFF and then the byte: nothing forbids it.
    s.add(erase(0) + put(0, b"\xFF" * 6) + put(0, SMALL.part(0, 6)) + go(), SMALL)
    s.add(erase(0) + put(0, SMALL.part(0, 6)) + erase(0) + put(0, SMALL.part(0, 6)) + go(), SMALL)


EDGES = (-2, -1, 0, 1, 2)


def reaches(s):
    """Writes and reads at the edges of the regions, by pointer and by number."""
    for region in loader.REGIONS:
        for length in (1, 2, 3, 15, 16, 17, 2048):
            for first in (region.first, region.first + region.size - length):
                for by in EDGES:
                    if not loader.region_of(first + by):
                        continue
                    reads_it = [ABORTED, upload(2, length), ABORTED]
                    way = reads_it if (length + by) % 2 else do(2, Ramp(length, 0, 0, 255)) + [ATTACH]
                    s.add(point(first + by) + way + plan(SMALL), SMALL, only(0))
    numbered = [span for span in vectors.spans() if span[1] != 2]
    for turn, (pointer, number, length) in enumerate(numbered):
        reads_it = turn // 3 % 2  # in threes, as the spans themselves come in twos, fours and fives
        way = [ABORTED, upload(number, length), ABORTED] if reads_it else do(number, Ramp(length, 0, 0, 255))
        s.add(point(pointer) + way + erase(0) + go(), Image(1, 0, 255), only(0))


def addresses(s):
    """Set pointer and erase page where there is something, and where there is nothing."""
    for address in vectors.EDGES + vectors.FAR:
        s.add(do(0, set_pointer(address)) + plan(SMALL), SMALL)
        s.add(do(0, set_pointer(address)) + leave(), SMALL, card(protection=0x12))
        s.add(load(SMALL) + do(0, set_pointer(address)) + leave(), SMALL)
        s.add(do(0, erase_page(address)) + plan(SMALL), SMALL, only(0))
    for page in range(PAGES):
        at = FLASH.first + page * PAGE
        s.add(do(0, erase_page(at + 1023)) + plan(SMALL), SMALL)
        s.add(do(0, erase_page(at + 5)) + plan(Image(1024 * page + 1, 3, 3)), Image(1024 * page + 1, 3, 3))


# --- reads, RAM ------------------------------------------------------------------------------------------------


BACKS = (
    [upload(0, 4)], [upload(0, 1)], [upload(0, 2048)], [upload(1, 4), ABORTED], [upload(2, 2), ABORTED],
    [upload(2, 1), ABORTED], [upload(2, 2048), upload(3, 904), ABORTED], [upload(3, 2048), upload(9, 2048), ABORTED],
    [upload(10, 2), ABORTED], [upload(2, 16)], [upload(2, 16), upload(0, 4)], [upload(2, 0)], [upload(2, 2049)],
    [upload(2, 16), STATUS, ABORTED], [upload(2, 16), STATE, ABORTED, STATE])


def reads(s):
    """Read-backs before and after the load, on open and protected cards."""
    for options_bytes in (DEFAULT_OPTIONS, card(0x7FFF), card(protection=0)):
        for back in BACKS:
            s.add(load(SMALL) + [ABORTED] + back + go(), SMALL, options_bytes)
            s.add(load(SMALL) + back + go(), SMALL, options_bytes)
            s.add(back + plan(SMALL), SMALL, options_bytes)
    for address, length in ((RAM.first, 2048), (RAM.first + 2046, 2), (RAM.first + 2047, 2), (OPTIONS.first, 16),
                            (OPTIONS.first, 15), (OPTIONS.first + 1, 15), (FLASH.first + 16382, 2)):
        for options_bytes in (DEFAULT_OPTIONS, card(protection=0xA8)):
            s.add(point(address) + [ABORTED, upload(2, length), ABORTED] + plan(SMALL), SMALL, options_bytes)
    for address in (FLASH.first + TRANSFER_SIZE, FLASH.first + 5000, RAM.first):  # no block 1, though bytes lie there
        for length in (2, 15, 16):
            s.add(point(address) + [ABORTED, upload(1, length), ABORTED] + plan(SMALL), SMALL)


def ram_writes(s):
    """By block 2, and by block 3 of the options, which is RAM; RAM itself has no block 3."""
    ram, options_first = RAM.first, OPTIONS.first
    for pointer, number, length in (
            (ram, 2, 2), (ram, 2, 1), (ram, 2, 2048), (ram + 1, 2, 2048), (ram + 2046, 2, 2), (ram + 2047, 2, 2),
            (ram + 2047, 2, 1), (ram + 100, 2, 600), (options_first, 3, 2), (options_first, 3, 1),
            (options_first, 3, 16), (options_first, 3, 2048), (options_first + 1, 3, 2048),
            (options_first + 15, 3, 2033), (ram, 3, 2), (ram, 3, 2048)):
        for options_bytes in (DEFAULT_OPTIONS, card(0), card(protection=0xEA)):
            events = point(pointer) + do(number, Ramp(length, 0, 3, 1)) * 2
            s.add(events + plan(SMALL), SMALL, options_bytes)


# --- options and protection --------------------------------------------------------------------------------------

OTHER_CARDS = (DEFAULT_OPTIONS, card(0xFFFE), card(0x0000), card(0xFFFF, 0x00), card(0x00FF, 0xAB, 0x11),
               card(0xFFFF, 0xAA, 0x00))


def options_writes(s):
    """The same card, another one, another one and back; before the load, after it, and in its midst."""
    for old in OTHER_CARDS:
        for new in OTHER_CARDS:
            s.add(options(new) + plan(SMALL), SMALL, old)
            s.add(load(SMALL) + options(new) + leave(), SMALL, old)
            s.add(options(new) + load(SMALL) + options(old) + leave(), SMALL, old)
            s.add(options(new) + options(old) + plan(SMALL), SMALL, old)
    for at in range(OPTIONS.size):  # every byte of the card counts at the end
        new = bytes(byte ^ (at == k) << at % 8 for k, byte in enumerate(DEFAULT_OPTIONS))
        s.add(load(SMALL) + options(new) + leave(), SMALL)
    for count in (1, 15, 17):
        s.add(point(OPTIONS.first) + do(2, (DEFAULT_OPTIONS * 2)[:count]) + plan(SMALL), SMALL)
    for number in (3, 4):  # RAM begins a block behind the options, and ends a block later: nothing reboots
        s.add(point(OPTIONS.first) + do(number, card(0x0000)) + plan(SMALL), SMALL)
        s.add(load(SMALL) + point(OPTIONS.first) + do(number, card(0x0000)) + go(), SMALL)
    for tail in ([], [STATUS], [STATE], [ABORTED], [ATTACH], [ATTACH, STATUS]):
        s.add(load(SMALL) + options(DEFAULT_OPTIONS)[:-1] + tail + leave(), SMALL)
        s.add(load(SMALL) + options(card(1))[:-1] + tail, SMALL)
        s.add(load(SMALL) + point(OPTIONS.first) + [dnload(2, DEFAULT_OPTIONS)] + tail + go(), SMALL)


def unlocked(s):
    """Pages that the card locks: opened, loaded and locked again."""
    for image in (SMALL, Image(1025, 5, 5), Image(3000, 5, 5)):
        for mask in (0xFFFE, 0xFFFC, 0x0000, 0xFFF8, 0x7FFF):
            for between in (DEFAULT_OPTIONS, card(0x0003)):
                card_bytes = card(mask, rest=0x42)
                s.add(options(between) + load(image) + options(card_bytes) + leave(), image, card_bytes)
                s.add(options(between) + load(image) + options(card_bytes)[:-1] + leave(), image, card_bytes)
                s.add(options(between) + load(image) + go(), image, card_bytes)


def locked_late(s):
    """Pages locked between their erase and their write: the write is lost, though the page is known to be blank."""
    for image in (SMALL, Image(1025, 5, 5), Image(1024, 0, 255)):
        for mask in (0xFFFE, 0xFFFD, 0x0000):
            erased, writes = erase(*range(image.pages())), put_pages(image)
            s.add(erased + options(card(mask)) + writes + options(DEFAULT_OPTIONS) + leave(), image)
            s.add(erased + options(card(mask)) + writes + go(), image, card(mask))


PROTECTED = (card(protection=0x00), card(0x0000, 0xAB, 0x11), card(0xFFFF, 0xFF, 0xAA), card(0x7FFE, 0x2A))


def freed():
    return do(0, UNPROTECT, polls=1) + [ATTACH]


def whole_load(image):
    """Every byte of a blank board, by the numbers of its blocks."""
    return point() + send(tool_blocks(image))


def unprotects(s):
    """Unprotect, attach, load, card back, attach, leave; and the same with one thing amiss."""
    for old in PROTECTED + (DEFAULT_OPTIONS, card(0x00FF)):
        for length in (1, 1024, 8192, 15360, 15361, 16383, 16384):
            image = Image(length, 3, 0x21)
            s.add(freed() + whole_load(image) + options(old) + leave(), image, old)
        s.add(freed() + whole_load(WHOLE) + go(), WHOLE, old)
        s.add(freed() + plan(SMALL), SMALL, old)
        s.add(freed() + plan(WHOLE)[:-4] + options(old) + leave(), WHOLE, old)
        s.add(freed() + put_pages(WHOLE) + options(card(0xFFFF, 0x01)) + leave(), WHOLE, old)
        s.add(freed() + whole_load(WHOLE) + options(old)[:-1] + leave(), WHOLE, old)
        s.add(freed()[:-1] + whole_load(WHOLE) + options(old) + leave(), WHOLE, old)
        s.add(freed() + options(old) + whole_load(WHOLE) + leave(), WHOLE, old)
        s.add(freed() + freed() + whole_load(WHOLE) + options(old) + point() + leave(), WHOLE, old)
        s.add(do(0, UNPROTECT) + plan(SMALL), SMALL, old)
        s.add(do(0, UNPROTECT, polls=1) + plan(SMALL), SMALL, old)
        s.add(do(0, UNPROTECT, polls=0) + [ABORTED] + plan(SMALL), SMALL, old)
        s.add(do(0, UNPROTECT, polls=0) + [ATTACH] + plan(SMALL), SMALL, old)
        s.add(load(SMALL) + freed() + leave(), SMALL, old)
        s.add(freed() + [upload(2, 2048), upload(3, 1024), ABORTED] + plan(SMALL), SMALL, old)
    blank = Image(16384, 0, 255)
    for old in PROTECTED:
        s.add(freed() + options(old) + leave(), blank, old)
        s.add(freed() + options(old) + leave(), Image(15361, 0, 255), old)
        s.add(freed() + options(old) + leave(), Image(15360, 0, 255), old)
        s.add(freed() + leave(), blank, old)


def damaged_unprotects(s):
    image = Image(16384, 0, 0x77)
    old = card(0xFFF0, 0x10)
    for events in damaged(freed() + whole_load(image) + options(old) + leave(), ()):
        s.add(events, image, old)


# --- modes, ends ---------------------------------------------------------------------------------------------------

WAYS = (
    [],  # dfuIDLE
    [dnload(0, set_pointer(RAM.first))],  # dfuDNLOAD-SYNC, with a command and with a block
    [dnload(2, b"\1\2")],
    do(0, erase_page(FLASH.first), polls=1),  # dfuDNBUSY
    erase(0),  # dfuDNLOAD-IDLE
    [dnload(0)],  # dfuMANIFEST-SYNC
    [upload(2, 16)],  # dfuUPLOAD-IDLE
    leave(),  # Left
    do(0, UNPROTECT, polls=1),  # Rebooting
)
DEAF = 7  # the first of the ways after which every request meets silence


def modes(s):
    """Each request, right and wrong in one field, in each mode; then a plan job on a board attached anew."""
    for number, way in enumerate(WAYS):
        some = vectors.REQUESTS[:: 3 if number >= DEAF else 1]
        for type, code, value, index, length, given in some:
            count = 0 if type & 0x80 else length
            given = given[:count]
            data = [given] if given else []
            data += [Ramp(count - len(given), 0, 11, 4)] if count > len(given) else []
            one = request(type, code, value, index, length, data)
            s.add(way + [one, ATTACH] + plan(SMALL), SMALL)


def dropped(s):
    """Commands that wait and are given up: no trace of them is left, nor of a longer block before a shorter one."""
    for drop in (ABORTED, ATTACH):
        for waiting in (dnload(2, Ramp(2048, 0, 3, 1)), dnload(3, b"\0\0"), dnload(0, MASS), dnload(0, UNPROTECT),
                        dnload(0, set_pointer(RAM.first)), dnload(0, erase_page(FLASH.first)), dnload(0)):
            s.add(load(SMALL) + [waiting, drop, STATUS, STATUS] + go(), SMALL)
            s.add(erase(0) + [waiting, drop] + do(2, SMALL.part(0, 6)) + go(), SMALL)


def endings(s):
    """Ways to end, right and wrong, and several wrong things at once: the first one is named."""
    for image in (SMALL, TWO_PAGES):
        for options_bytes in (DEFAULT_OPTIONS, card(0xFFFD), card(0x7FFF)):
            for tail in ([], point(), leave(), go(), go() + leave(), go() + [ATTACH], go() + [ATTACH] + leave(),
                         point()[:1] + leave(), point()[:2] + leave(), point() + [dnload(0)],
                         point() + [dnload(7)] + [STATUS],
                         point() + [dnload(0), STATE, STATUS], point() + [dnload(0), ABORTED], [ATTACH] + leave(),
                         point() + [dnload(0), ABORTED] + leave(), go() + [STATUS], go() + [STATE], go() + [ABORTED],
                         point() + [dnload(0), dnload(0), STATUS], [ABORTED] + leave(), point(RAM.first) + leave(),
                         point(OPTIONS.first) + leave(), point(FLASH.first + 1) + leave(), point(0) + leave(),
                         point() + [ABORTED, ABORTED] + leave(), point() + [STATUS, STATUS] + leave(), [STATUS] + go()):
                s.add(load(image) + tail, image, options_bytes)
    for more in ([], point(RAM.first)):
        for changed in ([], options(card(0xFF00))):
            for out in ([], leave()):
                for loaded in ([], load(SMALL)):
                    s.add(loaded + changed + more + out, SMALL)


# --- texts -----------------------------------------------------------------------------------------------------

STATUS_LINE = STATUS[0] + STATUS[1]

BAD_LINES = (
    b"\n", b"a\n", b"AA\n", b"A \n", b" A\n", b"A\t\n", b"A\r\n", b"A\x00\n", b"\x00\n", b"\tA\n", b"B\n", b"Q\n",
    b"Q\t\n", b"Q\t\t\n", b"q\tA103000000000600\t\n", b"QA103000000000600\t\n", b"Q\tA103000000000600\n",
    b"Q A103000000000600\t\n", b"Q\tA103000000000600 \n", b"Q\tA103000000000600\t\t\n", b"Q\tA103000000000600\t \n",
    b"Q\tA103000000000600\t\r\n", b"Q\tA10300000000060\t\n", b"Q\tA1030000000006000\t\n", b"Q\tA103000000000600\t0\n",
    b"Q\tA103000000000600\t00\n", b"Q\tA103000000000600\t000000000000\n", b"q\ta103000000000600\t\n",
    b"Q\tA10300000000060G\t\n", b"Q\tA1030000 0000600\t\n", b"Q\t\tA103000000000600\t\n", b"\xEF\xBB\xBFA\n",
    b"Q\tA103000000000600\tA\n", b"QQ\tA103000000000600\t\n", b"Q\t2101000000000500\t410000000\n",
    b"Q\t2101000000000500\t41000000\n", b"Q\t2101000000000500\t4100000008FF\n", b"Q\t2101000000000500\t\n",
    b"Q\t2101000000000500\t410000000g\n", b"Q\t2101000000000500\t410000000/\n", b"Q\t2101000000000500\t41000000:0\n",
    b"Q\t2101000000000500\t41000000@0\n", b"Q\t2101000000000500\t41000000G0\n", b"Q\t2101000000000500\t41000000`0\n",
    b"Q\t2101000000000500\t4100000008\t\n", b"Q\t2101000000000500\t4100000008 \n",
    b"Q\t210100000000050\t04100000008\n", b"Q\t2101000000000500 4100000008\n", b"Q\t21010000000005004100000008\n",
    b"Q\t2101000000000000\t00\n", b"Q\t2101000000000001\t41\n", b"Q\t7F01000000000100\t\n",
    b"Q\t8001000000000100\t00\n", b"Q\t21010000000005\t004100000008\n", b"Q\t0x21010000000005\t\n",
    b"Q\t+101000000000000\t\n", b"Q\t2104000000000000\t\x80\n", b"Q\t210400000000000\xC1\t\n",
    b"Q\t2104000000000000\t\x00\n", b"A\tQ\n", b"A;\n")

GOOD_LINES = (  # other than they look
    b"Q\t8001000000000100\t\n", b"Q\tFFFFFFFFFFFFFFFF\t\n", b"Q\t0000000000000000\t\n", b"Q\t7F01000000000100\tAF\n",
    b"Q\tABCDEF0123456789\t\n", b"Q\t2101000000000100\t41\n", b"Q\ta103000000000600\t\n",
    b"Q\t2101000000000500\t410000000a\n", b"Q\tabcdefABCDEF6789\t\n", b"Q\t7f01000000000200\taFFa\n")


def malformed(s):
    text = [piece for event in plan(SMALL) for piece in event]
    count = len(plan(SMALL))
    for number, bad in enumerate(BAD_LINES):
        s.add_text([bad] + text)
        s.add_text(text + [bad])
        cut = number % count
        s.add(plan(SMALL)[:cut] + [(bad,)] + plan(SMALL)[cut:], SMALL)
        s.add_text([bad[:-1]] + text) if number % 6 == 0 else None
    for good in GOOD_LINES:
        s.add([(good,)] + plan(SMALL), SMALL)
        s.add_text([good[:-1]])
    s.add_text([BAD_LINES[1], BAD_LINES[0]] + text)
    s.add_text([b"A\n", BAD_LINES[16], BAD_LINES[0]])
    for tail in (b"A", b"Q", b"Q\t", STATUS_LINE[:-1], STATUS_LINE[:-2], b"\t", b"x", b"\r"):
        s.add_text(text + [tail])
        s.add_text([tail])
    s.add_text(text[:-1])  # the last LF is missing
    s.add_text([b"\n\n\n"])
    s.add([CLEAR] * 3 + [(b"A A\n",)], SMALL)  # a line is malformed before any event fails


def long_texts(s):
    """At the limit and a byte past it; events and lines with large numbers."""
    small = [piece for event in plan(SMALL) for piece in event]
    size = sum(len(spelled(piece)) for piece in small)
    for total in (59999, 60000, 60001):
        half = (total - size) // 2
        odd = total - size - 2 * half
        s.add_text([Many(b"A\n", half)] + small + [b"x" * odd])
        s.add_text([b"x" * odd, Many(b"A\n", half)] + small)
        s.add_text([Many(b"A\n", total // 2)] + [b"A" * (total % 2)])
        s.add_text([Many(b"\n", total)])
        s.add_text([Many(b"A" * 4000, total // 4000), b"A" * (total % 4000)])
        lines, rest = divmod(total, len(STATUS_LINE))
        s.add_text([Many(STATUS_LINE, lines), b"A\n" * (rest // 2), b"A" * (rest % 2)])
        room = (total - 21) // 2
        s.add_text([b"Q\t2101020000003075\t" + b"0" * ((total - 21) % 2), Ramp(room, 0, 1, 0), b"\n"])
    for bad in (b"B\n", CLEAR[0] + CLEAR[1], b"A"):
        for count in (9, 99, 255, 256, 999, 9999, 29980):
            s.add_text([Many(b"A\n", count), bad])
    count = (60000 - size) // len(STATUS_LINE)
    s.add_text([Many(STATUS_LINE, count)] + small)
    s.add_text(small[:-2] + [Many(STATUS_LINE, count)])
    big = Image(14000, 3, 3)  # one request with nearly all the room
    s.add([request(OUT, 1, 2, data=[big.part(0, 14000)])] + plan(SMALL), SMALL)
    s.add([request(OUT, 1, 2, data=[WHOLE.part(0, 16384)])] + [STATUS], WHOLE)


# --- refusals, and which of them comes first ---------------------------------------------------------------------


def orders(s):
    """Every set of the checker's five faults, so that the least number must win."""
    fits = [piece for event in plan(SMALL) for piece in event]
    long = [Many(b"A\n", 30000), b"A"]
    faults = ((SHORT, Image(0, 0, 0), b"", [b"B\n"]), (LONG, Image(16385, 3, 1), card()[:15], [b"A\n\n"]),
              (EMPTY, Image(0, 1, 1), card() + b"\xFF", [b"A"]))
    for work, image, card_bytes, bad in faults:
        for wrong in range(32):
            text = {0: fits, 8: [Many(b"A\n", 29990), b"A\n" * 11], 16: bad, 24: long}[wrong & 24]
            s.add_text(text, image if wrong & 2 else SMALL, card_bytes if wrong & 4 else card(),
                       work if wrong & 1 else RIGHT)


def sizes(s):
    """Each length of the work area, the image and the card about the right one."""
    for work in (RIGHT, SHORT, LONG, EMPTY):
        s.add(plan(SMALL), SMALL, work=work)
        s.add([], SMALL, work=work)
    for length in (0, 1, 2, 16383, 16384, 16385):
        image = Image(length, 0, 255)
        s.add(erase(*range(min(image.pages(), PAGES))) + go(), image)
        s.add([], image)
    for length in (0, 1, 8, 9, 15, 16, 17, 18, 24, 31, 32):
        card_bytes = (DEFAULT_OPTIONS * 2)[:length]
        s.add(plan(SMALL), SMALL, card_bytes)
        s.add([CLEAR], SMALL, card_bytes)


PARTS = (bench_cases, plans, damaged_plans, changed_plans, wrong_bytes, rests, other_pages, unwritten, blank_only,
         mass_erases, block_orders, block_numbers, small_blocks, tool_jobs, wrong_tool_jobs, damaged_tool_jobs,
         crossings, overlaps, reaches, addresses, reads, ram_writes, options_writes, unlocked, unprotects,
         damaged_unprotects, modes, dropped, endings, malformed, long_texts, orders, sizes, random_jobs, locked_late)
