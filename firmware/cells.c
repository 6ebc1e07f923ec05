/* Runs the cases of a file: each string with the text and the lines that it must become.
 * Then sweeps over what no case has. */
#include "check.h"
#include "laid.h"
#include "septets.h"
#include "sweep.h"

#include <ctype.h>
#include <stdio.h>
#include <stdlib.h>
#include <string.h>

enum { MOST = STRING, ROOM = 400 };

typedef struct {
    uint16_t numbers[MOST];
    size_t count;
} row;

typedef struct {
    const char *name;
    uint8_t scheme;
    uint8_t string[MOST];
    size_t length, room, rows;
} call;

static bool starts(const char *with, const char *word)
{
    return strncmp(word, with, strlen(with)) == 0;
}

static void add(row *to, unsigned long number)
{
    if (to->count == MOST) {
        puts("too long a row");
        exit(2);
    }
    to->numbers[to->count++] = (uint16_t)number;
}

/* Appends numbers in hex, as 41 20AC*2 1B.65*40, up to whatever is none. */
static void read_row(const char *at, row *to)
{
    while (isxdigit((unsigned char)*at)) {
        size_t first = to->count, group, times = 1;
        char *end;
        add(to, strtoul(at, &end, 16));
        while (*end == '.') add(to, strtoul(end + 1, &end, 16));
        group = to->count - first;
        if (*end == '*') times = strtoul(end + 1, &end, 10);
        for (size_t i = group; i < group * times; i++) add(to, to->numbers[first + i - group]);
        at = end + strspn(end, " ");
    }
}

/* Lines, as 40 sp 1 or 40 / 1: two octets each, the second is 1 for sp. */
static size_t read_pairs(const char *at, uint8_t *pairs)
{
    for (size_t lines = 0;; lines++) {
        char *end;
        pairs[2 * lines] = (uint8_t)strtoul(at, &end, 10);
        pairs[2 * lines + 1] = starts(" sp ", end);
        if (!starts(" sp ", end) && !starts(" / ", end)) return lines + 1;
        at = strchr(end + 1, ' ');
    }
}

/* Octets in hex without blanks. */
static void read_octets(const char *word, call *to)
{
    unsigned octet;
    for (; to->length < MOST && sscanf(word, "%2x", &octet) == 1; word += 2)
        to->string[to->length++] = (uint8_t)octet;
}

/* Septets, packed as they are or as a sender packs them. */
static void pack_row(const row *from, bool said, call *to)
{
    uint8_t septets[MOST + 1];
    for (size_t i = 0; i < from->count; i++) septets[i] = (uint8_t)from->numbers[i];
    to->length = said ? pack_said(septets, from->count, to->string)
                      : pack(septets, from->count, to->string);
}

/* A name, then cells SCHEME OCTETS, say SEPTETS or raw SEPTETS; room= and rows= anywhere. */
static void read_call(char *line, call *to)
{
    row septets = {.count = 0};
    to->name = strtok(line, " ");
    const char *kind = strtok(NULL, " ");
    bool octets = strcmp(kind, "cells") == 0;
    to->scheme = octets ? (uint8_t)strtoul(strtok(NULL, " "), NULL, 16) : 0x0F;
    to->length = 0;
    to->room = to->rows = ROOM;
    for (char *w = strtok(NULL, " "); w != NULL; w = strtok(NULL, " ")) {
        if (sscanf(w, "room=%zu", &to->room) == 1) continue;
        if (sscanf(w, "rows=%zu", &to->rows) == 1) continue;
        if (octets) read_octets(w, to);
        else read_row(w, &septets);
    }
    if (!octets) pack_row(&septets, strcmp(kind, "say") == 0, to);
}

static bool holds(const char *fact, const call *c, const laid *l)
{
    const char *wanted = strchr(fact, '=') + 1;
    uint8_t pairs[2 * MOST];
    row text = {.count = 0};
    if (starts("octets=", fact)) return c->length == strtoul(wanted, NULL, 10);
    if (starts("lines=", fact)) return has_lines(l, pairs, read_pairs(wanted, pairs));
    if (!starts("text=", fact)) return false;
    read_row(wanted, &text);
    return has_text(l, text.numbers, text.count);
}

/* One call: what the case says, what every call keeps to, and what the second reading says. */
static void check_call(const call *c, const char *facts, size_t lines_length, int before)
{
    static reading again;
    laid l = lay(c->scheme, c->string, c->length, c->room, lines_length, before);
    check(l.got.code == atoi(facts), c->name, "the code");
    for (const char *f = strchr(facts, ','); f != NULL; f = strchr(f, ',')) {
        f += strlen(", ");
        check(holds(f, c, &l), c->name, f);
    }
    check(l.kept, c->name, "what isn't written stays");
    if (l.got.code == 0) check(adds_up(&l), c->name, "the lines add up");
    else check(l.got.characters == 0 && l.got.lines == 0, c->name, "refused: nothing is counted");
    read_string(c->string, c->length, &again);
    check(is_as(&l, &again, code_of(&again, c->scheme, c->room, lines_length)), c->name,
          "the second reading");
}

/* With the guards behind what is lent, and before it; and with an octet more for lines,
 * which is room for none. */
static void run_case(char *line)
{
    static call c;
    char *facts = strstr(line, " -> ");
    if (facts == NULL) {
        check(false, line, "no case");
        return;
    }
    *facts = 0;
    facts += strlen(" -> ");
    read_call(line, &c);
    for (int before = 0; before < 2; before++) {
        check_call(&c, facts, 2 * c.rows, before);
        check_call(&c, facts, 2 * c.rows + 1, before);
    }
}

int main(int argc, char **argv)
{
    static char line[4096];
    FILE *file = fopen(argc > 1 ? argv[1] : "cells.txt", "r");
    if (file == NULL) {
        puts("no cases");
        return 2;
    }
    while (fgets(line, sizeof line, file) != NULL) {
        line[strcspn(line, "\n")] = 0;
        if (line[0] != 0 && line[0] != '#') run_case(line);
    }
    fclose(file);
    sweep();
    return checks_done();
}
