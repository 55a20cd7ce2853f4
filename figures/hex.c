/* A reader of Intel HEX in plain C, by CR 1 of document 02: reads image.hex or the file named, writes the image.

   It goes through the text once, lays the data into an image of its own and copies that out at the end, so that a
   refusal leaves the caller's buffer as it was. Which bytes of flash were given it keeps as one bit for each. */

#define _POSIX_C_SOURCE 200809L

#include <fcntl.h>
#include <stdbool.h>
#include <stddef.h>
#include <stdint.h>
#include <stdio.h>
#include <string.h>
#include <unistd.h>

enum {
    FLASH_BYTES = 16384,
    ERASED = 0xFF,
    TEXT_LIMIT = 262144, /* all of flash in lines of one byte, with CR LF, is a text of 245,790 */
    OFFSET_AT = 1,       /* places in a record, behind its length */
    TYPE_AT = 3,
    DATA_FROM = 4,
    RECORD_BYTES = DATA_FROM + 255 + 1,
    MARKS = 64, /* in a word of marks */
};

static const uint32_t FLASH = 0x08000000;

/* The types of records. */
enum { DATA = 0, END = 1, UPPER_HALF = 4, START = 5 };

enum refusal {
    NONE = 0,
    NO_ROOM = 11,
    NO_FILE = 13,
    BAD_RECORD = 20,
    OUTSIDE = 21,
    TWICE = 22,
    NO_END = 23, /* or text after it */
    NO_DATA = 24,
};

struct answer {
    enum refusal refusal;
    size_t number; /* the image's length, or the line of a bad record */
};

struct image {
    uint8_t bytes[FLASH_BYTES];
    uint64_t given[FLASH_BYTES / MARKS]; /* a bit for each byte: 2,048 bytes */
    size_t length;
};

/* --- the records ---------------------------------------------------------------------------------------------- */

/* A digit's value with bit 4 set; 0 for what is no digit. */
static const uint8_t DIGIT[256] = {
    ['0'] = 0x10, ['1'] = 0x11, ['2'] = 0x12, ['3'] = 0x13, ['4'] = 0x14, ['5'] = 0x15, ['6'] = 0x16, ['7'] = 0x17,
    ['8'] = 0x18, ['9'] = 0x19, ['A'] = 0x1A, ['B'] = 0x1B, ['C'] = 0x1C, ['D'] = 0x1D, ['E'] = 0x1E, ['F'] = 0x1F,
    ['a'] = 0x1A, ['b'] = 0x1B, ['c'] = 0x1C, ['d'] = 0x1D, ['e'] = 0x1E, ['f'] = 0x1F,
};

static uint8_t byte_of(const uint8_t *s)
{
    return (uint8_t)(DIGIT[s[0]] << 4 | (DIGIT[s[1]] & 0xF));
}

static uint16_t word_of(const uint8_t *bytes)
{
    return (uint16_t)(bytes[0] << 8 | bytes[1]);
}

/* Decodes a record; false where a character is no digit or the sum of the bytes is not 0. */
static bool decode(uint8_t *record, const uint8_t *s, size_t bytes)
{
    uint8_t all = 0x10, sum = 0;
    for (size_t i = 0; i < bytes; i++) {
        all &= DIGIT[s[2 * i]] & DIGIT[s[2 * i + 1]];
        record[i] = byte_of(s + 2 * i);
        sum += record[i];
    }
    return all != 0 && sum == 0;
}

/* Does a record of this type have this length and this offset? */
static bool fits(uint8_t type, uint8_t length, uint16_t offset)
{
    switch (type) {
    case DATA:
        return true;
    case END:
        return length == 0 && offset == 0;
    case UPPER_HALF:
        return length == 2 && offset == 0;
    case START:
        return length == 4 && offset == 0;
    default:
        return false;
    }
}

/* Decodes the line at the front of the text. Its length with its end, or 0 where it is a bad record. */
static size_t read_line(uint8_t *record, const uint8_t *s, size_t left)
{
    if (left < 3 || s[0] != ':')
        return 0;
    size_t bytes = DATA_FROM + byte_of(s + 1) + 1; /* whether these are digits shows below */
    size_t end = 1 + 2 * bytes;
    if (end >= left || !decode(record, s + 1, bytes) || !fits(record[TYPE_AT], record[0], word_of(record + OFFSET_AT)))
        return 0;
    if (s[end] == '\r' && end + 1 < left)
        end++;
    return s[end] == '\n' ? end + 1 : 0;
}

/* --- the image ------------------------------------------------------------------------------------------------ */

/* Marks bytes as given, those of a word at once; false where one of them was. */
static bool mark(uint64_t *given, size_t at, size_t count)
{
    for (size_t end = at + count, part; at < end; at += part) {
        size_t first = at % MARKS;
        part = end - at < MARKS - first ? end - at : MARKS - first;
        uint64_t bits = UINT64_MAX >> (MARKS - part) << first;
        if (given[at / MARKS] & bits)
            return false;
        given[at / MARKS] |= bits;
    }
    return true;
}

static enum refusal lay(struct image *image, uint32_t address, const uint8_t *data, size_t count)
{
    if (count == 0)
        return NONE;
    if (address < FLASH || address - FLASH > FLASH_BYTES - count)
        return OUTSIDE;
    size_t at = address - FLASH;
    if (!mark(image->given, at, count))
        return TWICE;
    memcpy(image->bytes + at, data, count);
    if (at + count > image->length)
        image->length = at + count;
    return NONE;
}

static struct answer refused(enum refusal refusal, size_t line)
{
    return (struct answer){refusal, line};
}

static struct answer read_hex(const uint8_t *text, size_t bytes, uint8_t *out, size_t room)
{
    struct image image;
    memset(image.bytes, ERASED, sizeof image.bytes);
    memset(image.given, 0, sizeof image.given);
    image.length = 0;

    uint8_t record[RECORD_BYTES];
    uint32_t upper = 0;
    bool ended = false;
    size_t at = 0;
    for (size_t line = 1; at < bytes && !ended; line++) {
        size_t length = read_line(record, text + at, bytes - at);
        if (length == 0)
            return refused(BAD_RECORD, line);
        at += length;
        if (record[TYPE_AT] == DATA) {
            enum refusal refusal = lay(&image, upper + word_of(record + OFFSET_AT), record + DATA_FROM, record[0]);
            if (refusal != NONE)
                return refused(refusal, 0);
        } else if (record[TYPE_AT] == UPPER_HALF) {
            upper = (uint32_t)word_of(record + DATA_FROM) << 16;
        } else if (record[TYPE_AT] == END) {
            ended = true;
        }
    }
    if (!ended || at < bytes)
        return refused(NO_END, 0);
    if (image.length == 0)
        return refused(NO_DATA, 0);
    if (image.length > room)
        return refused(NO_ROOM, 0);
    memcpy(out, image.bytes, image.length);
    return (struct answer){NONE, image.length};
}

/* --- the program ---------------------------------------------------------------------------------------------- */

/* Reads a file of at most `room` bytes, or the first `room` bytes of a longer one; -1 where it cannot. */
static ssize_t read_file(const char *path, uint8_t *bytes, size_t room)
{
    int fd = open(path, O_RDONLY);
    if (fd < 0)
        return -1;
    size_t have = 0;
    ssize_t got = 1;
    while (got > 0 && have < room) {
        got = read(fd, bytes + have, room - have);
        if (got > 0)
            have += (size_t)got;
    }
    close(fd);
    return got < 0 ? -1 : (ssize_t)have;
}

int main(int argc, char **argv)
{
    /* The text has room for a byte too many, so that what is too long shows. */
    static uint8_t text[TEXT_LIMIT + 1], image[FLASH_BYTES];

    ssize_t bytes = read_file(argc == 2 ? argv[1] : "image.hex", text, sizeof text);
    struct answer answer = refused(NO_FILE, 0);
    if (bytes >= 0 && bytes <= TEXT_LIMIT)
        answer = read_hex(text, (size_t)bytes, image, sizeof image);
    if (answer.refusal == NONE)
        return write(STDOUT_FILENO, image, answer.number) == (ssize_t)answer.number ? 0 : 1;
    char line[64];
    int length = snprintf(line, sizeof line, "REFUSE\t%u\t%zu\n", (unsigned)answer.refusal, answer.number);
    return write(STDERR_FILENO, line, (size_t)length) == length ? 0 : 1;
}
