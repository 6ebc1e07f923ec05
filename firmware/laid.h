/* One call of smr_cells from lent octets, and what it left. */
#ifndef LAID_H
#define LAID_H

#include "reading.h"
#include "smrcholet.h"

typedef struct {
    smr_laid got;
    const uint16_t *text;
    const uint8_t *lines;
    bool kept; /* the string, and all that stands behind what was written */
} laid;

/* The guards stand behind what is lent, or before it. */
laid lay(uint8_t scheme, const uint8_t *string, size_t length, size_t text_length,
         size_t lines_length, int before);

bool has_text(const laid *l, const uint16_t *text, size_t characters);
bool has_lines(const laid *l, const uint8_t *pairs, size_t lines);

/* As it must be for this reading and code: text and lines, or refused with zeros. */
bool is_as(const laid *l, const reading *wanted, uint8_t code);

/* Lines that hold together, whatever the text is: each has at most forty cells, a
 * dropped space is one, and the sum over both octets is the number of characters. */
bool adds_up(const laid *l);

#endif
