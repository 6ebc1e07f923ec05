/* Messages as either side writes them, with one component or none, octet by octet. All
 * are short: each length is one octet. */
#ifndef SPOKEN_H
#define SPOKEN_H

#include <stdbool.h>
#include <stddef.h>
#include <stdint.h>

enum { RELEASE_COMPLETE = 0x2A, FACILITY = 0x3A, REGISTER = 0x3B };

typedef struct {
    size_t length;
    uint8_t octets[60];
} spoken;

/* A parameter that suits an Invoke of this operation, one that suits its result, and one
 * that suits neither where the papers ask for more than an element. */
spoken asked(uint8_t operation);
spoken answered(uint8_t operation);
extern const spoken none, some;

spoken an_invoke(int8_t id, uint8_t operation, spoken parameter);
spoken a_linked_invoke(int8_t id, int8_t linked, uint8_t operation, spoken parameter);
/* Without a parameter there is no 30; a bare one has a 30 with the operation alone. */
spoken a_result(int8_t id, uint8_t operation, spoken parameter);
spoken a_bare_result(int8_t id, uint8_t operation);
spoken an_error(int8_t id, uint8_t code, spoken parameter);
spoken a_reject(int8_t id, uint8_t tag, uint8_t problem);

/* A message with this Facility value; a RELEASE COMPLETE with none has no Facility. */
spoken a_message(uint8_t flag, uint8_t value, uint8_t type, spoken facility);
/* The REGISTER that we send, with its last three octets. */
spoken our_register(uint8_t value, spoken facility);
spoken a_cause(uint8_t flag, uint8_t value, uint8_t cause);

bool is_said(const uint8_t *octets, size_t length, spoken wanted);

#endif
