/* The blocks of a trace file in plain C, to hold the calls and the programs against. */
#ifndef BLOCK_H
#define BLOCK_H

#include "smrcholet.h"

/* Where the records stand, and how many octets they may take. */
enum { RECORDS_AT = 6, RECORDS = 504, SUMMED = 510 };

uint32_t number_of(const uint8_t *block);
unsigned used_of(const uint8_t *block);
unsigned sum_of(const uint8_t *block); /* as it stands there */

/* Each leaves the sum as it is, and put_sum puts the right one. */
void put_number(uint8_t *block, uint32_t number);
void put_used(uint8_t *block, unsigned used);
void put_sum(uint8_t *block);

/* The first fault of a block, 32 to 35, or 0. Its number is free. */
uint8_t block_fault(const uint8_t *block, size_t length);

/* What smr_trace_begin and smr_trace_add must answer, and leave. */
smr_traced plain_begin(uint8_t *block, size_t length, uint32_t number);
smr_traced plain_add(uint8_t *block, size_t length, uint8_t direction,
                     const uint8_t *message, size_t message_length);

#endif
