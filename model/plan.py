"""A model of the plan writer, for test vectors.

It was written from document 01 ("The checker and the plan", "Job text", "Refusal numbers") and from
nothing else, and shares no code and no table with the proved crates nor with the other models.
"""

from collections import namedtuple

FLASH = 0x08000000
PAGE = 1024
MOST_IMAGE = 16384
CARD_SIZE = 16
NOT_PROTECTED = 0xAA

# the refusals of the plan
IMAGE, CARD, OUTPUT, PROTECTED = 7, 8, 11, 12

# refusal number or 0, bytes put out, the whole output buffer after the call
Outcome = namedtuple("Outcome", "number count out")


def line(setup, data=b""):
    """The line of a request."""
    return b"Q\t%s\t%s\n" % (setup.hex().upper().encode(), data.hex().upper().encode())


def download(value, data=b""):
    return line(bytes((0x21, 1, value, 0, 0, 0)) + len(data).to_bytes(2, "little"), data)


GETSTATUS = line(bytes((0xA1, 3, 0, 0, 0, 0, 6, 0)))


def polled(request):
    """Followed by two GETSTATUS."""
    return request + 2 * GETSTATUS


def erase_page(address):
    return download(0, b"\x41" + address.to_bytes(4, "little"))


def set_pointer(address):
    return download(0, b"\x21" + address.to_bytes(4, "little"))


def pages(image):
    """The image in pages; the last one may be shorter."""
    return [image[at:at + PAGE] for at in range(0, len(image), PAGE)]


def job_of(image):
    """The plan writer's job, whatever the image's length."""
    text = b""
    for number, page in enumerate(pages(image)):
        address = FLASH + number * PAGE
        text += polled(erase_page(address))
        text += polled(set_pointer(address))
        text += polled(download(2, page + b"\xFF" if len(page) == 1 else page))
    return text + polled(set_pointer(FLASH)) + download(0) + GETSTATUS


def protected(image, card):
    """The card is read-protected, or write-protects a page of the image: its bit is clear."""
    bits = card[8] + 256 * card[9]
    return card[0] != NOT_PROTECTED or any(bits >> number & 1 == 0 for number in range(len(pages(image))))


def refusal(image, card, room):
    """The number of the first refusal that applies, in their order with 11 last, or 0."""
    if not 1 <= len(image) <= MOST_IMAGE:
        return IMAGE
    if len(card) != CARD_SIZE:
        return CARD
    if protected(image, card):
        return PROTECTED
    return OUTPUT if room < len(job_of(image)) else 0


def plan(image, card, out):
    number = refusal(image, card, len(out))
    if number:
        return Outcome(number, 0, out)
    text = job_of(image)
    return Outcome(0, len(text), text + out[len(text):])
