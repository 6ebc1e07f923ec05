/* What waits in the transactions, and the octets that the table has for it. */
#ifndef IMAGE_H
#define IMAGE_H

#include "smrcholet.h"

enum { PLACES = 4, SIDE = 2 * PLACES, ENTRY = 1 + 2 * SIDE, OURS = 7, ENTRIES = 14 };

/* An invoke that waits for its answer. */
typedef struct {
    int8_t id;
    uint8_t operation;
} question;

/* Those that wait on one side, the oldest first. */
typedef struct {
    size_t count;
    question places[PLACES];
} side;

/* A transaction: whether it is open, what we asked, what the peer asked. */
typedef struct {
    bool open;
    side own, peers;
} entry;

/* The number of an entry: ours by their values, then the network's. */
size_t entry_at(uint8_t flag, uint8_t value);

/* The place of an id, or how many wait if none has it. */
size_t place_of(const side *in, int8_t id);
/* A new one comes last; those behind one that goes move up. */
void add_question(side *to, int8_t id, uint8_t operation);
void drop_place(side *from, size_t place);

/* The octets of a side, and of a whole table. */
void put_side(const side *from, uint8_t *octets);
void put_table(const entry *from, uint8_t *table);
/* What the octets of a sound table say. */
void see_table(const uint8_t *table, entry *to);

/* Reads 1:17/2:59, each an id and its operation, or none. */
side read_side(const char *list);
/* Reads the open entries, as `o0 own 1:59/2:17 peers 7:60 n0 n3 peers 5:18`: o0 to o6 are
 * ours, n0 to n6 the network's. Words that aren't so end the program. */
void read_entries(const char *words, entry *to);
void read_table(const char *words, uint8_t *table);

/* What is wrong with an image, by the first entry that is damaged. */
typedef enum {
    SOUND,
    CLOSED_HOLDS, /* state 0, and another octet isn't 0 */
    GAP,          /* a used place behind one that isn't */
    ID_ALONE,     /* an id where no operation stands */
    NOT_LISTED,   /* an operation that doesn't wait on its side */
    TWICE,        /* two of one side with the same id */
    WRONG_STATE,  /* not 1, plus 2 with one of ours or more, plus 4 with one of the peer's */
    FAULTS
} fault;
fault fault_of(const uint8_t *table);

#endif
