#include "reading.h"

#include "septets.h"
#include "smrcholet.h"

/* The default alphabet, sixteen a paragraph; an escape stands for no character. */
static const uint16_t alphabet[128] = {
    0x40, 0xA3, 0x24, 0xA5, 0xE8, 0xE9, 0xF9, 0xEC,
    0xF2, 0xC7, 0x0A, 0xD8, 0xF8, 0x0D, 0xC5, 0xE5,

    0x394, 0x5F, 0x3A6, 0x393, 0x39B, 0x3A9, 0x3A0, 0x3A8,
    0x3A3, 0x398, 0x39E, 0, 0xC6, 0xE6, 0xDF, 0xC9,

    0x20, 0x21, 0x22, 0x23, 0xA4, 0x25, 0x26, 0x27,
    0x28, 0x29, 0x2A, 0x2B, 0x2C, 0x2D, 0x2E, 0x2F,

    0x30, 0x31, 0x32, 0x33, 0x34, 0x35, 0x36, 0x37,
    0x38, 0x39, 0x3A, 0x3B, 0x3C, 0x3D, 0x3E, 0x3F,

    0xA1, 0x41, 0x42, 0x43, 0x44, 0x45, 0x46, 0x47,
    0x48, 0x49, 0x4A, 0x4B, 0x4C, 0x4D, 0x4E, 0x4F,

    0x50, 0x51, 0x52, 0x53, 0x54, 0x55, 0x56, 0x57,
    0x58, 0x59, 0x5A, 0xC4, 0xD6, 0xD1, 0xDC, 0xA7,

    0xBF, 0x61, 0x62, 0x63, 0x64, 0x65, 0x66, 0x67,
    0x68, 0x69, 0x6A, 0x6B, 0x6C, 0x6D, 0x6E, 0x6F,

    0x70, 0x71, 0x72, 0x73, 0x74, 0x75, 0x76, 0x77,
    0x78, 0x79, 0x7A, 0xE4, 0xF6, 0xF1, 0xFC, 0xE0,
};

/* The codes that have a character of their own behind an escape; an escape behind an
 * escape is a space. */
static const struct {
    uint8_t code;
    uint16_t character;
} extension[] = {
    {0x0A, 0x0C}, {0x14, 0x5E}, {ESCAPE, 0x20}, {0x28, 0x7B}, {0x29, 0x7D}, {0x2F, 0x5C},
    {0x3C, 0x5B}, {0x3D, 0x7E}, {0x3E, 0x5D}, {0x40, 0x7C}, {0x65, 0x20AC},
};

static uint16_t escaped(uint8_t code)
{
    for (size_t i = 0; i < sizeof extension / sizeof *extension; i++)
        if (extension[i].code == code) return extension[i].character;
    return alphabet[code];
}

/* The septets without the CR that pads: one that ends on an octet boundary. */
static size_t unpadded(const uint8_t *string, size_t length)
{
    size_t count = septets_in(length);
    bool ends = count > 0 && 7 * count == 8 * length;
    return ends && septet_at(string, count - 1) == CR ? count - 1 : count;
}

static void read_text(const uint8_t *string, size_t length, reading *to)
{
    size_t count = unpadded(string, length);
    to->characters = 0;
    for (size_t i = 0; i < count; i++) {
        uint16_t character = alphabet[septet_at(string, i)];
        if (septet_at(string, i) == ESCAPE && i + 1 == count) character = 0x20;
        else if (septet_at(string, i) == ESCAPE) character = escaped(septet_at(string, ++i));
        to->text[to->characters++] = character;
    }
}

/* A longer rest is broken at the last space among forty-one characters, else after forty. */
static void read_lines(reading *to)
{
    size_t at = 0;
    to->lines = 0;
    for (;;) {
        uint8_t *line = to->pairs + 2 * to->lines++;
        size_t rest = to->characters - at;
        line[0] = (uint8_t)(rest > CELLS ? CELLS : rest);
        line[1] = 0;
        if (rest <= CELLS) return;
        for (uint8_t i = 0; i <= CELLS; i++) {
            if (to->text[at + i] != 0x20) continue;
            line[0] = i;
            line[1] = 1;
        }
        at += line[0] + line[1];
    }
}

void read_string(const uint8_t *string, size_t length, reading *to)
{
    read_text(string, length, to);
    read_lines(to);
}

uint8_t code_of(const reading *of, uint8_t scheme, size_t text_length, size_t lines_length)
{
    if (scheme != 0x0F) return SMR_OTHER_SCHEME;
    if (of->characters > text_length || 2 * of->lines > lines_length) return SMR_SHORT_TEXT;
    return 0;
}
