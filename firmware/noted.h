/* Blocks and records as the cases note them. */
#ifndef NOTED_H
#define NOTED_H

#include "block.h"

/* NUMBER:RECORDS:CHANGES is a sound block with these record octets, then changed: sum (one
 * too high), used=N or rest (the last octet for records is 1), both with a right sum. zero
 * and ff are blocks of such octets, +N is N octets 00. Returns how many octets it has; room
 * for 1024 is needed. */
size_t read_block(const char *word, uint8_t *block);

/* D.N is a record of direction D with N octets 41; D.NxT is T of them, D.N=FF has octets FF.
 * R.HEX and S.HEX are records that were received or sent. */
typedef struct {
    uint8_t direction, message[1024];
    size_t length, times;
} noted_record;

bool read_record(const char *word, noted_record *record);

#endif
