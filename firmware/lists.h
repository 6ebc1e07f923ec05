/* The papers' lists of numbers, number by number. */
#ifndef LISTS_H
#define LISTS_H

#include <stdbool.h>
#include <stddef.h>
#include <stdint.h>

/* "Operations we begin" */
enum { BEGUN = 7 };
extern const uint8_t begun[BEGUN];

bool is_begun(uint8_t operation);
/* "Operations we serve", and those of them that wait for an answer: all but 38. */
bool is_served(uint8_t operation);
bool is_waited_for(uint8_t operation);

/* "Error codes", and those that an operation of ours may return. */
bool is_listed(uint8_t code);
bool may_return(uint8_t operation, uint8_t code);

#endif
