/* The job checker of document 01 in plain C: reads job.txt, image.bin and card.bin, prints the verdict's line.

   It follows a job once for all boards with the card. Of each byte of memory it keeps a value and
   whether that value is known, that is, the same on every board; flash and RAM begin as unknown.
   Like the document's checker it works in an area of 38,944 bytes, which a refusal leaves as it was. */

#define _POSIX_C_SOURCE 200809L

#include <fcntl.h>
#include <stdbool.h>
#include <stddef.h>
#include <stdint.h>
#include <stdio.h>
#include <string.h>
#include <unistd.h>

enum {
    PAGE = 1024,
    PAGES = 16,
    FLASH_BYTES = PAGES * PAGE,
    RAM_BYTES = 2048,
    OPTION_BYTES = 16,
    RAM_AT = FLASH_BYTES, /* places in the memory buffer */
    OPTIONS_AT = RAM_AT + RAM_BYTES,
    MEMORY_BYTES = OPTIONS_AT + OPTION_BYTES,
    NOWHERE = -1,
    TRANSFER = 2048, /* the most data of a request, and the step from block to block */
    TEXT_LIMIT = 60000,
    SETUP_DIGITS = 16,
    SETUP_FROM = 2, /* places in a request's line */
    DATA_FROM = SETUP_FROM + SETUP_DIGITS + 1,
    ERASED = 0xFF,
    OPEN = 0xAA, /* option byte 0 without read protection */
};

static const uint32_t FLASH = 0x08000000, RAM = 0x20000000, OPTIONS = 0x1FFFF800;

struct work {
    uint8_t value[MEMORY_BYTES];
    uint8_t known[MEMORY_BYTES]; /* 1 or 0 */
    uint8_t block[TRANSFER];
};

_Static_assert(sizeof(struct work) == 38944, "the work area's size");

struct setup {
    uint8_t type, code;
    uint16_t value, index, length;
};

enum mode {
    IDLE = 2,
    DOWNLOAD_SYNC = 3,
    DOWNLOAD_BUSY = 4,
    DOWNLOAD_IDLE = 5,
    MANIFEST_SYNC = 6,
    UPLOAD_IDLE = 9,
    LEFT = 11, /* 10 is dfuERROR, and no job is followed into it */
    REBOOTING = 12,
};

enum command { WRITE, SET_POINTER, ERASE_PAGE, ERASE_ALL, UNPROTECT };

struct device {
    enum mode mode;
    uint32_t pointer;
    enum command pending; /* in DOWNLOAD_SYNC */
    uint32_t address;     /* of SET_POINTER and ERASE_PAGE */
    uint16_t number, length; /* of WRITE */
};

enum kind { PASS = 0, EVENT = 1, END = 2, BYTE = 3 };

struct verdict {
    const char *word;
    unsigned kind;
    size_t number;
};

/* --- the text ----------------------------------------------------------------------------------------------- */

/* A digit's value with bit 4 set; 0 for what is no digit. */
static const uint8_t DIGIT[256] = {
    ['0'] = 0x10, ['1'] = 0x11, ['2'] = 0x12, ['3'] = 0x13, ['4'] = 0x14, ['5'] = 0x15, ['6'] = 0x16, ['7'] = 0x17,
    ['8'] = 0x18, ['9'] = 0x19, ['A'] = 0x1A, ['B'] = 0x1B, ['C'] = 0x1C, ['D'] = 0x1D, ['E'] = 0x1E, ['F'] = 0x1F,
    ['a'] = 0x1A, ['b'] = 0x1B, ['c'] = 0x1C, ['d'] = 0x1D, ['e'] = 0x1E, ['f'] = 0x1F,
};

static bool all_digits(const uint8_t *s, size_t count)
{
    uint8_t all = 0x10;
    for (size_t i = 0; i < count; i++)
        all &= DIGIT[s[i]];
    return all != 0;
}

/* What digits that were found good spell. */
static uint8_t byte_of(const uint8_t *s)
{
    return (uint8_t)(DIGIT[s[0]] << 4 | (DIGIT[s[1]] & 0xF));
}

static uint16_t word_of(const uint8_t *s)
{
    return (uint16_t)(byte_of(s) | byte_of(s + 2) << 8);
}

static uint32_t address_of(const uint8_t *s)
{
    return word_of(s) | (uint32_t)word_of(s + 4) << 16;
}

static void decode(uint8_t *out, const uint8_t *s, size_t bytes)
{
    for (size_t i = 0; i < bytes; i++)
        out[i] = byte_of(s + 2 * i);
}

static struct setup setup_of(const uint8_t *s)
{
    return (struct setup){byte_of(s), byte_of(s + 2), word_of(s + 4), word_of(s + 8), word_of(s + 12)};
}

static size_t data_digits(uint8_t type, uint16_t length)
{
    return type & 0x80 ? 0 : (size_t)length * 2;
}

/* The length of the line at the front of the text, with its LF, or 0 where it is malformed. */
static size_t line_length(const uint8_t *s, size_t left)
{
    if (left >= 2 && s[0] == 'A' && s[1] == '\n')
        return 2;
    if (left <= DATA_FROM || s[0] != 'Q' || s[1] != '\t' || s[DATA_FROM - 1] != '\t')
        return 0;
    if (!all_digits(s + SETUP_FROM, SETUP_DIGITS))
        return 0;
    size_t digits = data_digits(byte_of(s + SETUP_FROM), word_of(s + SETUP_FROM + 12));
    size_t end = DATA_FROM + digits;
    if (end >= left || s[end] != '\n' || !all_digits(s + DATA_FROM, digits))
        return 0;
    return end + 1;
}

/* The number of the first malformed line, or 0. */
static size_t first_malformed(const uint8_t *text, size_t bytes)
{
    size_t number = 1;
    for (size_t at = 0; at < bytes; number++) {
        size_t length = line_length(text + at, bytes - at);
        if (length == 0)
            return number;
        at += length;
    }
    return 0;
}

/* --- the board ---------------------------------------------------------------------------------------------- */

static bool read_protected(const struct work *work)
{
    return work->value[OPTIONS_AT] != OPEN;
}

static unsigned protection(const struct work *work)
{
    return work->value[OPTIONS_AT + 8] | (unsigned)work->value[OPTIONS_AT + 9] << 8;
}

static bool write_protected(unsigned protection, size_t page)
{
    return (protection >> page & 1) == 0;
}

static bool inside(uint32_t address, uint32_t length, uint32_t first, uint32_t bytes)
{
    return address >= first && length <= bytes && address - first <= bytes - length;
}

/* The place in memory of a span that lies in one region, or NOWHERE. */
static int32_t place(uint32_t address, uint32_t length)
{
    if (inside(address, length, FLASH, FLASH_BYTES))
        return (int32_t)(address - FLASH);
    if (inside(address, length, RAM, RAM_BYTES))
        return (int32_t)(address - RAM) + RAM_AT;
    if (inside(address, length, OPTIONS, OPTION_BYTES))
        return (int32_t)(address - OPTIONS) + OPTIONS_AT;
    return NOWHERE;
}

/* The place of a block that may be read or written, as far as the first two checks go, or NOWHERE. */
static int32_t block_place(const struct device *device, const struct work *work, uint32_t number, uint32_t length)
{
    if (read_protected(work))
        return NOWHERE;
    int32_t at = place(device->pointer + (number - 2) * TRANSFER, length);
    uint32_t least = at >= OPTIONS_AT ? OPTION_BYTES : 2;
    return length < least ? NOWHERE : at;
}

static void learn(struct work *work, size_t at, size_t count, uint8_t byte)
{
    memset(work->value + at, byte, count);
    memset(work->known + at, 1, count);
}

static void erase_page(struct work *work, size_t page)
{
    if (!write_protected(protection(work), page))
        learn(work, page * PAGE, PAGE, ERASED);
}

static bool erased_everywhere(const struct work *work, size_t at, size_t count)
{
    uint8_t wrong = 0;
    for (size_t i = at; i < at + count; i++)
        wrong |= (uint8_t)~work->value[i] | (work->known[i] ^ 1);
    return wrong == 0;
}

/* The end of the part of a span that lies in the page of its first byte. */
static size_t part_end(size_t from, size_t end)
{
    size_t next_page = (from / PAGE + 1) * PAGE;
    return next_page < end ? next_page : end;
}

/* Writes the block to flash but for write-protected pages; false where some board has another byte than 0xFF there. */
static bool write_flash(struct work *work, size_t at, size_t count)
{
    unsigned bits = protection(work);
    size_t end = at + count;
    for (size_t from = at, to; from < end; from = to) {
        to = part_end(from, end);
        if (!write_protected(bits, from / PAGE) && !erased_everywhere(work, from, to - from))
            return false;
    }
    for (size_t from = at, to; from < end; from = to) {
        to = part_end(from, end);
        if (!write_protected(bits, from / PAGE))
            memcpy(work->value + from, work->block + (from - at), to - from);
    }
    return true;
}

static void unprotect(struct work *work)
{
    if (read_protected(work)) {
        learn(work, 0, FLASH_BYTES, ERASED);
        memset(work->value + OPTIONS_AT, 0xFF, OPTION_BYTES);
        work->value[OPTIONS_AT] = OPEN;
    }
    learn(work, RAM_AT, RAM_BYTES, 0);
}

/* --- the events: false where one fails on some board ---------------------------------------------------------- */

static void attach(struct device *device)
{
    *device = (struct device){.mode = IDLE, .pointer = FLASH};
}

static bool write_block(struct device *device, struct work *work)
{
    int32_t at = block_place(device, work, device->number, device->length);
    if (at == NOWHERE)
        return false;
    if (at < RAM_AT)
        return write_flash(work, (size_t)at, device->length);
    memcpy(work->value + at, work->block, device->length);
    memset(work->known + at, 1, device->length);
    if (at >= OPTIONS_AT)
        device->mode = REBOOTING;
    return true;
}

static bool perform(struct device *device, struct work *work)
{
    device->mode = DOWNLOAD_BUSY;
    switch (device->pending) {
    case SET_POINTER:
        device->pointer = device->address;
        return place(device->address, 1) != NOWHERE;
    case ERASE_PAGE:
        if (read_protected(work) || !inside(device->address, 1, FLASH, FLASH_BYTES))
            return false;
        erase_page(work, (device->address - FLASH) / PAGE);
        return true;
    case ERASE_ALL:
        if (read_protected(work))
            return false;
        for (size_t page = 0; page < PAGES; page++)
            erase_page(work, page);
        return true;
    case UNPROTECT:
        unprotect(work);
        device->mode = REBOOTING;
        return true;
    case WRITE:
        break;
    }
    return write_block(device, work);
}

static bool get_status(struct device *device, struct work *work)
{
    switch (device->mode) {
    case DOWNLOAD_SYNC:
        return perform(device, work);
    case DOWNLOAD_BUSY:
        device->mode = DOWNLOAD_IDLE;
        return true;
    case MANIFEST_SYNC:
        device->mode = LEFT;
        return true;
    default:
        return true;
    }
}

static bool download(struct device *device, struct work *work, const struct setup *setup, const uint8_t *digits)
{
    if ((device->mode != IDLE && device->mode != DOWNLOAD_IDLE) || setup->length > TRANSFER)
        return false;
    if (setup->length == 0) {
        device->mode = MANIFEST_SYNC;
        return true;
    }
    if (setup->value == 1)
        return false;
    if (setup->value >= 2) {
        decode(work->block, digits, setup->length);
        device->pending = WRITE;
        device->number = setup->value;
        device->length = setup->length;
    } else {
        uint8_t code = byte_of(digits);
        if (code == 0x21 && setup->length == 5)
            device->pending = SET_POINTER;
        else if (code == 0x41 && setup->length == 5)
            device->pending = ERASE_PAGE;
        else if (code == 0x41 && setup->length == 1)
            device->pending = ERASE_ALL;
        else if (code == 0x92 && setup->length == 1)
            device->pending = UNPROTECT;
        else
            return false;
        if (setup->length == 5)
            device->address = address_of(digits + 2);
    }
    device->mode = DOWNLOAD_SYNC;
    return true;
}

static bool upload(struct device *device, const struct work *work, const struct setup *setup)
{
    if ((device->mode != IDLE && device->mode != UPLOAD_IDLE) || setup->length < 1 || setup->length > TRANSFER)
        return false;
    if (setup->value == 0) {
        device->mode = IDLE;
        return true;
    }
    device->mode = UPLOAD_IDLE;
    return setup->value >= 2 && block_place(device, work, setup->value, setup->length) != NOWHERE;
}

static bool request(struct device *device, struct work *work, const struct setup *setup, const uint8_t *digits)
{
    if (device->mode == LEFT || device->mode == REBOOTING || setup->index != 0)
        return false;
    switch (setup->type << 8 | setup->code) {
    case 0x2101:
        return download(device, work, setup, digits);
    case 0xA102:
        return upload(device, work, setup);
    case 0xA103:
        return setup->value == 0 && setup->length == 6 && get_status(device, work);
    case 0xA105:
        return setup->value == 0 && setup->length == 1 && device->mode != DOWNLOAD_BUSY;
    case 0x2106:
        if (setup->value != 0 || setup->length != 0 || device->mode == DOWNLOAD_BUSY)
            return false;
        device->mode = IDLE;
        return true;
    default: /* CLRSTATUS too: it is for dfuERROR */
        return false;
    }
}

/* --- the verdict ---------------------------------------------------------------------------------------------- */

static struct verdict refused(unsigned number, size_t line)
{
    return (struct verdict){"REFUSE", number, line};
}

static struct verdict rejected(enum kind kind, size_t number)
{
    return (struct verdict){"REJECT", kind, number};
}

/* The lowest offset of flash that is wrong on some board, or the size of flash. */
static size_t first_wrong(const struct work *work, const uint8_t *image, size_t image_bytes)
{
    size_t pages_end = (image_bytes + PAGE - 1) / PAGE * PAGE, i = 0;
    for (; i < image_bytes; i++)
        if (!work->known[i] || work->value[i] != image[i])
            return i;
    for (; i < pages_end; i++)
        if (!work->known[i] || work->value[i] != ERASED)
            return i;
    for (; i < FLASH_BYTES; i++)
        if (work->known[i])
            return i;
    return i;
}

static struct verdict finish(const struct device *device, const struct work *work, const uint8_t *image,
                             size_t image_bytes, const uint8_t *card)
{
    if (device->mode != LEFT)
        return rejected(END, 1);
    if (device->pointer != FLASH)
        return rejected(END, 2);
    if (memcmp(work->value + OPTIONS_AT, card, OPTION_BYTES) != 0)
        return rejected(END, 3);
    size_t wrong = first_wrong(work, image, image_bytes);
    if (wrong < FLASH_BYTES)
        return rejected(BYTE, wrong);
    return (struct verdict){"ACCEPT", PASS, 0};
}

static struct verdict check(const uint8_t *text, size_t text_bytes, const uint8_t *image, size_t image_bytes,
                            const uint8_t *card, size_t card_bytes, struct work *work)
{
    if (image_bytes < 1 || image_bytes > FLASH_BYTES)
        return refused(7, 0);
    if (card_bytes != OPTION_BYTES)
        return refused(8, 0);
    if (text_bytes > TEXT_LIMIT)
        return refused(9, 0);
    size_t line = first_malformed(text, text_bytes);
    if (line != 0)
        return refused(10, line);

    memset(work->known, 0, MEMORY_BYTES);
    memcpy(work->value + OPTIONS_AT, card, OPTION_BYTES);
    memset(work->known + OPTIONS_AT, 1, OPTION_BYTES);

    struct device device;
    attach(&device);
    size_t number = 1;
    for (size_t at = 0; at < text_bytes; number++) {
        if (text[at] == 'A') {
            attach(&device);
            at += 2;
            continue;
        }
        struct setup setup = setup_of(text + at + SETUP_FROM);
        if (!request(&device, work, &setup, text + at + DATA_FROM))
            return rejected(EVENT, number);
        at += DATA_FROM + data_digits(setup.type, setup.length) + 1;
    }
    return finish(&device, work, image, image_bytes, card);
}

/* --- the program ---------------------------------------------------------------------------------------------- */

/* Reads a file of at most `room` bytes, or the first `room` bytes of a longer one; -1 where it cannot. */
static ssize_t read_file(const char *path, uint8_t *bytes, size_t room)
{
    int fd = open(path, O_RDONLY);
    if (fd < 0)
        return -1;
    size_t have = 0;
    ssize_t got = 1;
    while (got > 0 && have < room) {
        got = read(fd, bytes + have, room - have);
        if (got > 0)
            have += (size_t)got;
    }
    close(fd);
    return got < 0 ? -1 : (ssize_t)have;
}

int main(int argc, char **argv)
{
    /* Each has room for a byte too many, so that what is too long shows. */
    static uint8_t text[TEXT_LIMIT + 1], image[FLASH_BYTES + 1], card[OPTION_BYTES + 1];
    static struct work work;

    bool named = argc == 4;
    ssize_t text_bytes = read_file(named ? argv[1] : "job.txt", text, sizeof text);
    ssize_t image_bytes = read_file(named ? argv[2] : "image.bin", image, sizeof image);
    ssize_t card_bytes = read_file(named ? argv[3] : "card.bin", card, sizeof card);

    struct verdict verdict;
    if (text_bytes < 0 || image_bytes < 0 || card_bytes < 0)
        verdict = refused(13, 0);
    else
        verdict = check(text, (size_t)text_bytes, image, (size_t)image_bytes, card, (size_t)card_bytes, &work);
    char line[64];
    int length = snprintf(line, sizeof line, "%s\t%u\t%zu\n", verdict.word, verdict.kind, verdict.number);
    return write(STDOUT_FILENO, line, (size_t)length) == length ? 0 : 1;
}
