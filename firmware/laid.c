#include "laid.h"

#include "lent.h"

#include <string.h>

laid lay(uint8_t scheme, const uint8_t *string, size_t length, size_t text_length,
         size_t lines_length, int before)
{
    laid l;
    uint8_t *lent = lend(1, length, before), *lines = lend(3, lines_length, before);
    uint16_t *text = (uint16_t *)(void *)lend(2, 2 * text_length, before);
    memcpy(lent, string, length);
    memset(text, MARK, 2 * text_length);
    memset(lines, MARK, lines_length);
    l.got = smr_cells(scheme, lent, length, text, text_length, lines, lines_length);
    l.text = text;
    l.lines = lines;
    l.kept = memcmp(lent, string, length) == 0 &&
             is_marked(text, 2 * l.got.characters, 2 * text_length) &&
             is_marked(lines, 2 * l.got.lines, lines_length);
    return l;
}

bool has_text(const laid *l, const uint16_t *text, size_t characters)
{
    return l->kept && l->got.characters == characters &&
           memcmp(l->text, text, 2 * characters) == 0;
}

bool has_lines(const laid *l, const uint8_t *pairs, size_t lines)
{
    return l->kept && l->got.lines == lines && memcmp(l->lines, pairs, 2 * lines) == 0;
}

bool is_as(const laid *l, const reading *wanted, uint8_t code)
{
    if (l->got.code != code || !l->kept) return false;
    if (code != 0) return l->got.characters == 0 && l->got.lines == 0;
    return has_text(l, wanted->text, wanted->characters) &&
           has_lines(l, wanted->pairs, wanted->lines);
}

bool adds_up(const laid *l)
{
    size_t at = 0;
    if (!l->kept) return false;
    for (size_t i = 0; i < l->got.lines; i++) {
        uint8_t cells = l->lines[2 * i], dropped = l->lines[2 * i + 1];
        at += cells + dropped;
        if (cells > CELLS || dropped > 1 || at > l->got.characters) return false;
        if (dropped == 1 && l->text[at - 1] != 0x20) return false;
    }
    return at == l->got.characters;
}
