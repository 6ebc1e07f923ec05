/* Recorded traffic: records back to back, each a length octet and that many octets. */
#ifndef RECORDED_H
#define RECORDED_H

#include <stdbool.h>
#include <stddef.h>
#include <stdint.h>

enum { MOST_RECORDED = 1000000 };

typedef struct {
    size_t length;
    uint8_t octets[MOST_RECORDED];
} row;

/* A record more; one that has no room ends the program. */
void add_record(row *to, const uint8_t *message, size_t length);

/* So many records of talk by chance, as it goes on from this table: menus, notices,
 * passwords, results, errors, Rejects, releases; some damaged, some noise. */
void draw_row(row *to, const uint8_t *table, size_t count);

/* How many records these octets are, or NO_ROW: "a zero or cut record". */
#define NO_ROW SIZE_MAX
size_t count_records(const uint8_t *octets, size_t length);
/* Where record `n` of a row begins; where the row ends if it has `n`. */
size_t record_at(const row *in, size_t n);

#endif
