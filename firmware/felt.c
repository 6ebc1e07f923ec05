/* What the driver of a braille display does with a text that is shown: README's `show`.
 * The cells are printed as UTF-8; firmware/felt.txt is what that must be. */
#include "smrcholet.h"

#include <stdio.h>

/* The cells of one line; line feed, page break and carriage return as their pictures. */
static void feel(const uint16_t *cells, size_t length)
{
    for (size_t i = 0; i < length; i++) {
        int c = cells[i];
        if (c == 0x0A || c == 0x0C || c == 0x0D) c += 0x2400;
        if (c >= 0x800) printf("%c%c%c", 0xE0 | c >> 12, 0x80 | (c >> 6 & 0x3F), 0x80 | (c & 0x3F));
        else if (c >= 0x80) printf("%c%c", 0xC0 | c >> 6, 0x80 | (c & 0x3F));
        else putchar(c);
    }
    puts("");
}

/* README has the lines from here */
static void show(const uint8_t *string, size_t length, uint8_t scheme)
{
    uint16_t text[SMR_CHARACTERS];
    uint8_t lines[SMR_LINE_OCTETS];
    smr_laid laid = smr_cells(scheme, string, length, text, SMR_CHARACTERS,
                              lines, SMR_LINE_OCTETS);
    size_t at = 0;
    for (size_t i = 0; i < laid.lines; i++) { /* none if the scheme isn't 0F */
        feel(text + at, lines[2 * i]);
        at += lines[2 * i] + lines[2 * i + 1]; /* over a dropped space */
    }
}
/* up to here */

int main(void)
{
    /* REGISTER with a menu (60). Its string of scheme 0F is the text of felt.txt in 95
     * septets, two of them the euro sign, and the CR that pads. */
    static const uint8_t menu[] = {
        0x0B, 0x3B, 0x1C, 0x63, 0xA1, 0x61, 0x02, 0x01, 0x05, 0x02, 0x01, 0x3C,
        0x30, 0x59, 0x04, 0x01, 0x0F, 0x04, 0x54,
        0xD3, 0x37, 0x9B, 0x5C, 0xD6, 0x81, 0x72, 0xAC, 0x1A, 0x0C, 0xB4, 0x29,
        0x83, 0xD4, 0xF5, 0x79, 0xBC, 0x7E, 0xFA, 0x83, 0xC8, 0xE9, 0x76, 0xD8,
        0x3D, 0x46, 0x97, 0x5D, 0x20, 0xE8, 0xBB, 0x2E, 0x07, 0xC9, 0xCB, 0x63,
        0x74, 0x58, 0x7E, 0x2E, 0xCB, 0x59, 0x20, 0x79, 0x01, 0xFE, 0x76, 0x93,
        0xCB, 0x7A, 0x9D, 0x22, 0x06, 0x82, 0x87, 0xE5, 0xA0, 0x71, 0x58, 0x4E,
        0x2F, 0x83, 0x64, 0xA0, 0x3F, 0x88, 0x7D, 0x0A, 0x9F, 0xCB, 0xEE, 0x71,
        0x19, 0x34, 0x03, 0xC1, 0xD9, 0xF5, 0x39, 0x88, 0x1E, 0x96, 0x93, 0x1B};
    uint8_t table[SMR_TABLE] = {0}, reply[SMR_REPLY];
    smr_received r = smr_receive(table, sizeof table, menu, sizeof menu, reply, sizeof reply);
    if (r.text.is_there)
        show(menu + r.text.string.start, r.text.string.end - r.text.string.start, r.text.scheme);
    return 0;
}
