#include "image.h"

#include "lists.h"

#include <stdio.h>
#include <stdlib.h>
#include <string.h>

_Static_assert(ENTRIES * ENTRY == SMR_TABLE, "the entries fill the table");

size_t entry_at(uint8_t flag, uint8_t value) { return flag == 1 ? value : (size_t)OURS + value; }

size_t place_of(const side *in, int8_t id)
{
    size_t place = 0;
    while (place < in->count && in->places[place].id != id) place++;
    return place;
}

void add_question(side *to, int8_t id, uint8_t operation)
{
    to->places[to->count++] = (question){id, operation};
}

void drop_place(side *from, size_t place)
{
    from->count--;
    for (; place < from->count; place++) from->places[place] = from->places[place + 1];
}

void put_side(const side *from, uint8_t *octets)
{
    memset(octets, 0, SIDE);
    for (size_t i = 0; i < from->count; i++) {
        octets[2 * i] = (uint8_t)from->places[i].id;
        octets[2 * i + 1] = from->places[i].operation;
    }
}

void put_table(const entry *from, uint8_t *table)
{
    for (size_t k = 0; k < ENTRIES; k++, from++, table += ENTRY) {
        table[0] = (uint8_t)(from->open + 2 * (from->own.count > 0) + 4 * (from->peers.count > 0));
        put_side(&from->own, table + 1);
        put_side(&from->peers, table + 1 + SIDE);
    }
}

static side see_side(const uint8_t *octets)
{
    side to = {.count = 0};
    for (; to.count < PLACES && octets[1] != 0; octets += 2)
        add_question(&to, (int8_t)octets[0], octets[1]);
    return to;
}

void see_table(const uint8_t *table, entry *to)
{
    for (size_t k = 0; k < ENTRIES; k++, table += ENTRY) {
        to[k].open = table[0] != 0;
        to[k].own = see_side(table + 1);
        to[k].peers = see_side(table + 1 + SIDE);
    }
}

static void expect(bool holds, const char *what)
{
    if (holds) return;
    printf("no entry: %.30s\n", what);
    exit(2);
}

side read_side(const char *list)
{
    side to = {.count = 0};
    int id, operation, length;
    if (strcmp(list, "none") == 0) return to;
    for (const char *at = list;; at += length + 1) {
        bool is_read = sscanf(at, "%d:%d%n", &id, &operation, &length) == 2;
        expect(is_read && to.count < PLACES, list);
        add_question(&to, (int8_t)id, (uint8_t)operation);
        if (at[length] != '/') {
            expect(at[length] == 0 || at[length] == ' ', list);
            return to;
        }
    }
}

/* The word behind this one. */
static const char *next(const char *word)
{
    word += strcspn(word, " ");
    return word + strspn(word, " ");
}

static entry *entry_named(const char *word, entry *of)
{
    bool ours = word[0] == 'o';
    expect((ours || word[0] == 'n') && word[1] >= '0' && word[1] < '0' + OURS, word);
    expect(word[2] == 0 || word[2] == ' ', word);
    return of + entry_at(ours, (uint8_t)(word[1] - '0'));
}

void read_entries(const char *words, entry *to)
{
    entry *at = NULL;
    memset(to, 0, ENTRIES * sizeof *to);
    for (words += strspn(words, " "); *words != 0; words = next(words)) {
        bool own = strncmp(words, "own ", 4) == 0, peers = strncmp(words, "peers ", 6) == 0;
        if (!own && !peers) {
            at = entry_named(words, to);
            at->open = true;
            continue;
        }
        expect(at != NULL, words);
        words = next(words);
        *(own ? &at->own : &at->peers) = read_side(words);
    }
}

void read_table(const char *words, uint8_t *table)
{
    entry entries[ENTRIES];
    read_entries(words, entries);
    put_table(entries, table);
}

/* How many places are used, up to the first that isn't: "a place is used exactly if its
 * operation isn't 0". */
static size_t used(const uint8_t *octets)
{
    size_t n = 0;
    while (n < PLACES && octets[2 * n + 1] != 0) n++;
    return n;
}

/* "the used places first, each with an operation of its side, then zeros only; no two used
 * places of one side with the same id" */
static fault fault_of_side(const uint8_t *octets, bool (*waits)(uint8_t))
{
    size_t n = used(octets);
    for (size_t i = n; i < PLACES; i++)
        if (octets[2 * i + 1] != 0) return GAP;
    for (size_t i = n; i < PLACES; i++)
        if (octets[2 * i] != 0) return ID_ALONE;
    for (size_t i = 0; i < n; i++)
        if (!waits(octets[2 * i + 1])) return NOT_LISTED;
    for (size_t i = 0; i < n; i++)
        for (size_t k = 0; k < i; k++)
            if (octets[2 * i] == octets[2 * k]) return TWICE;
    return SOUND;
}

static fault fault_of_entry(const uint8_t *octets)
{
    const uint8_t *own = octets + 1, *peers = octets + 1 + SIDE;
    fault of_own = fault_of_side(own, is_begun), of_peers = fault_of_side(peers, is_waited_for);
    if (octets[0] == 0) {
        for (size_t i = 1; i < ENTRY; i++)
            if (octets[i] != 0) return CLOSED_HOLDS;
        return SOUND;
    }
    if (of_own != SOUND) return of_own;
    if (of_peers != SOUND) return of_peers;
    return octets[0] == 1 + 2 * (used(own) > 0) + 4 * (used(peers) > 0) ? SOUND : WRONG_STATE;
}

fault fault_of(const uint8_t *table)
{
    fault first = SOUND;
    for (size_t k = 0; k < ENTRIES && first == SOUND; k++)
        first = fault_of_entry(table + ENTRY * k);
    return first;
}
