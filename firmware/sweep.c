#include "sweep.h"

#include "chance.h"
#include "check.h"
#include "laid.h"
#include "septets.h"

#include <stdio.h>
#include <string.h>

/* Septets, the string that they are packed into, and what it must become. */
static uint8_t septets[CHARACTERS + 1], string[STRING];
static reading wanted;

/* The string becomes that, or is refused where this room is too short. */
static bool is_right(size_t length, size_t text_length, size_t lines_length, int before)
{
    laid l = lay(0x0F, string, length, text_length, lines_length, before);
    return is_as(&l, &wanted, code_of(&wanted, 0x0F, text_length, lines_length)) && adds_up(&l);
}

/* A septet behind so many letters and before three, plain or escaped. */
static bool is_right_behind(size_t letters, bool escape, uint8_t code)
{
    size_t count = letters;
    memset(septets, 0x41, sizeof septets);
    if (escape) septets[count++] = ESCAPE;
    septets[count++] = code;
    size_t length = pack_said(septets, count + 3, string);
    read_string(string, length, &wanted);
    return is_right(length, wanted.characters, 4, 0);
}

/* Each septet, plain and behind an escape, within a text and where a line may break. */
static void test_septets(void)
{
    char name[16];
    for (unsigned code = 0; code < 128; code++) {
        for (int escape = 0; escape < 2; escape++) {
            bool breaks = true;
            snprintf(name, sizeof name, escape ? "pair 1B %02X" : "septet %02X", code);
            check(is_right_behind(1, escape, (uint8_t)code), name, "its character");
            for (size_t letters = 38; letters < 42; letters++)
                breaks = breaks && is_right_behind(letters, escape, (uint8_t)code);
            check(breaks, name, "a line breaks there, or doesn't");
        }
    }
}

/* Only 0F is taken, and another scheme is told before a want of room. */
static void test_schemes(void)
{
    string[0] = 0x41;
    read_string(string, 1, &wanted);
    for (unsigned scheme = 0; scheme < 256; scheme++) {
        laid short_of = lay((uint8_t)scheme, string, 1, 0, 0, 0);
        laid enough = lay((uint8_t)scheme, string, 1, 1, 2, 0);
        check(is_as(&short_of, &wanted, scheme == 0x0F ? 41 : 40), "schemes", "without room");
        check(is_as(&enough, &wanted, scheme == 0x0F ? 0 : 40), "schemes", "with room");
    }
}

/* NULL with length 0, everywhere; a text of no characters still needs its line. */
static void test_nothing(void)
{
    uint8_t lines[2] = {0xEE, 0xEE};
    uint16_t text[1];
    check(smr_cells(0x0E, NULL, 0, NULL, 0, NULL, 0).code == SMR_OTHER_SCHEME, "null", "scheme");
    check(smr_cells(0x0F, NULL, 0, NULL, 0, NULL, 0).code == SMR_SHORT_TEXT, "null", "no line");
    check(smr_cells(0x0F, NULL, 0, NULL, 0, lines, 1).code == SMR_SHORT_TEXT, "null", "half one");
    check(smr_cells(0x0F, string, 1, NULL, 0, lines, 2).code == SMR_SHORT_TEXT, "null", "no text");
    check(smr_cells(0x0F, string, 1, text, 1, NULL, 0).code == SMR_SHORT_TEXT, "null", "no lines");
    check(lines[0] == 0xEE && lines[1] == 0xEE, "null", "lines as lent");
    smr_laid l = smr_cells(0x0F, NULL, 0, NULL, 0, lines, 2);
    check(l.code == 0 && l.characters == 0 && l.lines == 1, "null", "no string");
    check(lines[0] == 0 && lines[1] == 0, "null", "one line of no cells");
}

/* More letters than 16 bits can count. */
static void test_long(void)
{
    enum { OCTETS = 70000, LETTERS = 80000 };
    static uint8_t letters[OCTETS], lines[2 * LETTERS / CELLS];
    static uint16_t text[LETTERS];
    bool right = true;
    memset(septets, 0x41, 8);
    for (size_t i = 0; i < OCTETS; i += 7) pack(septets, 8, letters + i);
    smr_laid l = smr_cells(0x0F, letters, OCTETS, text, LETTERS, lines, sizeof lines);
    check(l.code == 0 && l.characters == LETTERS && l.lines == LETTERS / CELLS, "long", "counts");
    for (size_t i = 0; i < LETTERS; i++) right = right && text[i] == 0x41;
    for (size_t i = 0; i < sizeof lines; i++) right = right && lines[i] == (i % 2 ? 0 : CELLS);
    check(right, "long", "text and lines");
    l = smr_cells(0x0F, letters, OCTETS, text, LETTERS - 1, lines, sizeof lines);
    check(l.code == SMR_SHORT_TEXT, "long", "a character short");
}

/* What noise has met. */
static struct {
    unsigned pads, escapes, spaces, breaks, empty;
} met;

static void count_met(size_t length)
{
    size_t n = septets_in(length);
    met.pads += n > 0 && n % 8 == 0 && septet_at(string, n - 1) == CR;
    met.escapes += n > 0 && septet_at(string, n - 1) == ESCAPE;
    for (size_t i = 0; i + 1 < wanted.lines; i++) {
        met.empty += wanted.pairs[2 * i] == 0;
        met.spaces += wanted.pairs[2 * i + 1] == 1;
        met.breaks += wanted.pairs[2 * i + 1] == 0;
    }
}

/* Letters, with what matters every second to every fiftieth and more often at both ends;
 * or any octets. The bits left over are noise. */
static void draw(size_t length)
{
    static const uint8_t matters[] = {0x20, 0x20, 0x20, ESCAPE, ESCAPE, CR, 0x0A, 0x65};
    size_t n = septets_in(length), used = 7 * n % 8;
    uint32_t seldom = 2 + random_below(49);
    for (size_t i = 0; i < length; i++) string[i] = (uint8_t)random_below(256);
    if (n == 0 || random_below(4) == 0) return;
    for (size_t i = 0; i < n; i++)
        septets[i] = random_below(seldom) == 0 ? matters[random_below(sizeof matters)]
                                               : (uint8_t)(0x41 + random_below(26));
    if (random_below(2) == 0) septets[0] = 0x20;
    if (random_below(2) == 0) septets[n - 1] = random_below(2) == 0 ? CR : ESCAPE;
    if (n > 1 && random_below(4) == 0) septets[n - 2] = ESCAPE;
    uint8_t left = used == 0 ? 0 : (uint8_t)(string[length - 1] >> used << used);
    pack(septets, n, string);
    string[length - 1] |= left;
}

/* Strings of every length from lent rooms whose guards would fault: with the very room,
 * with more of it, and with one less of either. */
static void test_noise(void)
{
    char name[24];
    for (size_t length = 0; length <= STRING; length++) {
        bool exact = true, more = true, less = true;
        snprintf(name, sizeof name, "noise of %zu", length);
        for (int i = 0; i < 20; i++) {
            int before = i % 2;
            draw(length);
            read_string(string, length, &wanted);
            count_met(length);
            size_t text = wanted.characters, lines = 2 * wanted.lines;
            exact = exact && is_right(length, text, lines, before);
            more = more && is_right(length, text + 3, lines + 1, before) &&
                   is_right(length, text, lines + 4, before);
            less = less && is_right(length, text, lines - 1, before) &&
                   is_right(length, text, lines - 2, before) &&
                   (text == 0 || is_right(length, text - 1, lines, before));
        }
        check(exact, name, "the very room");
        check(more, name, "more room");
        check(less, name, "less room");
    }
    check(met.pads >= 100, "noise", "a hundred pads");
    check(met.escapes >= 100, "noise", "a hundred escapes at the end");
    check(met.spaces >= 100, "noise", "a hundred breaks at a space");
    check(met.breaks >= 100, "noise", "a hundred breaks after forty");
    check(met.empty >= 100, "noise", "a hundred lines of no cells");
}

/* The string of this length with the most lines: a space, then two behind every forty
 * letters. */
static void crowd(size_t length)
{
    for (size_t i = 0; i < septets_in(length); i++)
        septets[i] = i % 42 == 0 || i % 42 == 41 ? 0x20 : 0x41;
    pack(septets, septets_in(length), string);
}

/* The room that the header names suffices for every string that is shown, and no less. */
static void test_enough(void)
{
    for (size_t length = 1; length <= 160; length++) {
        bool enough = true;
        for (int i = 0; i < 20; i++) {
            if (i == 0) crowd(length);
            else draw(length);
            read_string(string, length, &wanted);
            laid l = lay(0x0F, string, length, SMR_CHARACTERS, SMR_LINE_OCTETS, i % 2);
            enough = enough && is_as(&l, &wanted, 0);
        }
        check(enough, "enough", "room for every text");
    }
    crowd(160);
    check(lay(0x0F, string, 160, SMR_CHARACTERS - 1, SMR_LINE_OCTETS, 0).got.code == SMR_SHORT_TEXT,
          "enough", "a character less");
    check(lay(0x0F, string, 160, SMR_CHARACTERS, SMR_LINE_OCTETS - 1, 0).got.code == SMR_SHORT_TEXT,
          "enough", "a line less");
}

void sweep(void)
{
    test_septets();
    test_schemes();
    test_nothing();
    test_long();
    test_noise();
    test_enough();
}
