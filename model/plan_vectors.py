"""Makes the vectors of the plan writer and the text that the program replay_plan has to print.

  python3 model/plan_vectors.py crates/replay_plan
  python3 model/plan_vectors.py --count              prints what they cover; writes nothing

A vector is 48 bytes; numbers have their low byte first.

  0        kind of the image: 0 ramp, 1 scattered
  1        seed of the output buffer: its byte i is i * 7 + seed, modulo 256
  2..3     bytes of the image
  4, 5     ramp: the image's byte i is i * byte 5 + byte 4, modulo 256
  4..7     scattered: a number that is replaced by itself * 48271 + 11, modulo 4294967291, before each byte
           of the image, which is the number modulo 256
  8..9     bytes of the output buffer
  10       bytes of the card
  16..47   the card, and zeros

Each vector has a line of three numbers: refusal number (0 where there is none), bytes put out, digest of
the whole output buffer after the call. Fixed rules and fixed seeds make everything, so that two runs give
the same bytes. Every plan is held against the checker's model, or nothing is written.
"""

import collections
import pathlib
import random
import sys

sys.dont_write_bytecode = True

import checker
import plan

RAMP, SCATTERED = range(2)
PAGE, PAGES = plan.PAGE, 16
MODULUS = 4294967291
MOST_IMAGE, MOST_OUT, MOST_CARD = 17408, 40000, 32
DEFAULT_CARD = b"\xAA" + 15 * b"\xFF"
LENGTHS = (0, 1, 2, 3, 1023, 1024, 1025, 2047, 2048, 2049, 3 * PAGE, 15 * PAGE + 1, 16383, 16384, 16385)

# document 01: the job of the image 5A, and how long the longest is
SAMPLE = """\
Q>2101000000000500>4100000008
Q>A103000000000600>
Q>A103000000000600>
Q>2101000000000500>2100000008
Q>A103000000000600>
Q>A103000000000600>
Q>2101020000000200>5AFF
Q>A103000000000600>
Q>A103000000000600>
Q>2101000000000500>2100000008
Q>A103000000000600>
Q>A103000000000600>
Q>2101000000000000>
Q>A103000000000600>
""".replace(">", "\t").encode()
LONGEST = 36078


# --- what both sides make: images and output buffers, and a digest ------------------------------------------


class Image(collections.namedtuple("Image", "kind length seed")):
    """How an image is made; the seed of a ramp is its first byte and 256 times its factor."""

    def bytes(self):
        if self.kind == RAMP:
            return bytes((i * (self.seed // 256) + self.seed) % 256 for i in range(self.length))
        number, made = self.seed, bytearray()
        for _ in range(self.length):
            number = (number * 48271 + 11) % MODULUS
            made.append(number % 256)
        return bytes(made)

    def pages(self):
        return -(-self.length // PAGE)


def scattered(length, seed=None):
    return Image(SCATTERED, length, length * 1009 + 12345 if seed is None else seed)


def flat(length, byte):
    return Image(RAMP, length, byte)


def filled(size, seed):
    return bytes((i * 7 + seed) % 256 for i in range(size))


def digest(numbers):
    h = 1
    for number in numbers:
        h = (h * 257 + number + 1) % MODULUS
    return h


# --- the vectors as they are made ------------------------------------------------------------------------------


class Tape:
    def __init__(self):
        self.data, self.lines, self.passed = bytearray(), [], set()
        self.counts = collections.defaultdict(collections.Counter)
        self.part = ""

    def add(self, image, card=DEFAULT_CARD, room=None, extra=0):
        """A vector; the output buffer has `room` bytes, or as many as the job has and `extra` ones."""
        given = image.bytes()
        need = len(plan.job_of(given))
        room = max(0, need + extra) if room is None else room
        assert image.length <= MOST_IMAGE and room <= MOST_OUT and len(card) <= MOST_CARD
        seed = len(self.lines) * 5 % 256
        outcome = plan.plan(given, card, filled(room, seed))
        self.data += bytes((image.kind, seed)) + image.length.to_bytes(2, "little")
        self.data += image.seed.to_bytes(4, "little") + room.to_bytes(2, "little")
        self.data += bytes((len(card),)).ljust(6, b"\0") + card.ljust(MOST_CARD, b"\0")
        self.lines.append("%d %d %d" % (outcome.number, outcome.count, digest(outcome.out)))
        self.tally(image, card, room - need, outcome.number)
        if not outcome.number:
            self.hold(given, card, outcome.out[:outcome.count])

    def tally(self, image, card, more, number):
        self.counts["vectors of part"][self.part] += 1
        self.counts["answer"]["refusal %2d" % number if number else "plan"] += 1
        applying = plan_refusals(image, card, more)
        if len(applying) > 1:
            self.counts["several apply"][", ".join(map(str, applying)) + ": %d" % number] += 1
        if not number:
            self.counts["pages of a plan"][image.pages()] += 1
            self.counts["buffer of a plan"]["longer than the text" if more else "as long as the text"] += 1
            self.counts["card of a plan"]["default" if card == DEFAULT_CARD else "another"] += 1

    def hold(self, image, card, text):
        """The checker passes every such job. It has a verdict for every board, so that once is enough."""
        if (image, card) not in self.passed:
            self.passed.add((image, card))
            verdict = checker.decide(checker.read_job(text)[0], image, card)
            assert verdict.kind == checker.PASS, (len(image), card.hex(), verdict)


def plan_refusals(image, card, more):
    """Every refusal that applies by itself, in the order of document 01."""
    applying = []
    if image.length == 0 or image.length > plan.MOST_IMAGE:
        applying.append(plan.IMAGE)
    if len(card) != plan.CARD_SIZE:
        applying.append(plan.CARD)
    # a card of another length that has the bytes can be read as protected all the same
    if len(card) > 9 and plan.protected(bytes(min(image.length, plan.MOST_IMAGE)), card):
        applying.append(plan.PROTECTED)
    if more < 0:
        applying.append(plan.OUTPUT)
    return applying


# --- parts ---------------------------------------------------------------------------------------------------------


def card(mask=0xFFFF, protection=0xAA, other=0xFF):
    made = bytearray((other,) * plan.CARD_SIZE)
    made[0] = protection
    made[8:10] = mask.to_bytes(2, "little")
    return bytes(made)


def without(*pages):
    """A card that write-protects these pages."""
    return card(0xFFFF - sum(1 << page for page in pages))


def contents(tape):
    """Every length with bytes that look random, all 0xFF, all 0, and every byte in turn."""
    for length in LENGTHS:
        for image in (scattered(length), flat(length, 0xFF), flat(length, 0), Image(RAMP, length, 0x0100)):
            tape.add(image)
    for byte in range(0, 256, 15):
        tape.add(flat(1, byte))
        tape.add(flat(PAGE + 1, byte), extra=3)


def rooms(tape):
    """Every length with buffers about the text's length, none, and much longer ones."""
    for length in LENGTHS:
        for extra in (-1, 0, 1, 20):
            tape.add(scattered(length, 77 + length), extra=extra)
        for room in (0, 1, MOST_OUT):
            tape.add(scattered(length, 78 + length), room=room)
    # at the ends of the sample's lines, and about them
    for room in range(0, len(SAMPLE) + 30, 3):
        tape.add(flat(1, 0x5A), room=room)


def cards(tape):
    """Cards of a wrong length, and of the right one with bytes that have no effect."""
    for length in (0, 1, 8, 9, 10, 15, 17, 18, 32):
        for image in (1, 1024, 16384):
            tape.add(scattered(image, length), card=(DEFAULT_CARD * 2)[:length])
    for other in (0, 0x55, 0xAA, 0xFE):
        for image in (1, 2049, 16384):
            tape.add(scattered(image, other), card=card(other=other))


def one_page(tape):
    """Each page protected: images that end before it, that have its first byte, all of it, and all pages."""
    for page in range(PAGES):
        start = page * PAGE
        for length in (start - 1, start, start + 1, start + PAGE):
            if length > 0:
                tape.add(scattered(length, page), card=without(page))
    for page in range(PAGES):
        tape.add(scattered(plan.MOST_IMAGE, page), card=without(page), room=1000)


def some_pages(tape):
    """Several pages protected: an image up to the lowest of them, and one byte more."""
    for pages in ((0, 1), (0, 15), (1, 2), (2, 4, 6), (3, 15), (7, 8), (8, 9), (9, 10, 11), (14, 15), range(1, 16), range(8, 16), range(16)):
        for extra in (0, 1, 700):
            length = min(pages) * PAGE + extra
            if length:
                tape.add(scattered(length, extra), card=without(*pages), extra=extra)


def read_protected(tape):
    """Any first byte but 0xAA; with it pages protected in the image, behind it and nowhere."""
    for protection in (0x00, 0x2A, 0x55, 0x8A, 0xA8, 0xAB, 0xAE, 0xBA, 0xEA, 0xFF):
        for mask in (0xFFFF, 0xFFFE, 0xFFFD, 0x7FFF, 0x0000):
            tape.add(scattered(1 + protection * 4, mask), card=card(mask, protection))


def orders(tape):
    """Several refusals apply at once."""
    given = (DEFAULT_CARD, without(0), without(15), card(protection=0), card(0, 0),
             b"", DEFAULT_CARD[:15], DEFAULT_CARD + b"\xFF", card(protection=0)[:15], without(0) + b"\xFF", card(0, 0)[:10])
    for length in (0, 1, 1025, 16384, 16385):
        for options in given:
            for more in ({"room": 0}, {"room": 109}, {"extra": 0}):
                tape.add(scattered(length, 5), card=options, **more)


def thrown(tape):
    """By dice: most images short, most cards open."""
    dice = random.Random(3156)
    for _ in range(160):
        length = dice.choice((dice.randrange(40), dice.randrange(3000), dice.randrange(3000), dice.randrange(MOST_IMAGE + 1)))
        options = bytearray(dice.randrange(256) for _ in range(16))
        if dice.random() < 0.9:
            options[0] = 0xAA
        if dice.random() < 0.7:
            options[8:10] = (0xFFFF >> dice.randrange(9) | 1).to_bytes(2, "little")
        tape.add(scattered(length, dice.randrange(MODULUS)), card=bytes(options), extra=dice.choice((-1, 0, 0, 1, 9, 300)))


PARTS = (contents, rooms, cards, one_page, some_pages, read_protected, orders, thrown)


# --- the program ---------------------------------------------------------------------------------------------------


def everything():
    assert plan.job_of(b"\x5A") == SAMPLE and len(plan.job_of(bytes(plan.MOST_IMAGE))) == LONGEST
    tape = Tape()
    for part in PARTS:
        tape.part = part.__name__
        part(tape)
    return tape


def counted(tape):
    yield "%d vectors, %d plans held against the checker's model" % (len(tape.lines), len(tape.passed))
    for title, counter in tape.counts.items():
        yield "\n" + title
        yield from ("  %6d %s" % (count, name) for name, count in sorted(counter.items()))


def write_files(tape, crate):
    (crate / "data").mkdir(parents=True, exist_ok=True)
    (crate / "data" / "vectors.bin").write_bytes(tape.data)
    (crate / "stdout").write_text("\n".join(tape.lines) + "\nvectors %d\n" % len(tape.lines))


def main(words):
    if words == ["--count"]:
        print("\n".join(counted(everything())))
    elif len(words) == 1 and not words[0].startswith("-"):
        write_files(everything(), pathlib.Path(words[0]))
    else:
        print("usage: plan_vectors.py CRATE | --count", file=sys.stderr)
        sys.exit(2)


if __name__ == "__main__":
    main(sys.argv[1:])
