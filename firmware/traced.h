/* One call of smr_trace_begin or smr_trace_add with lent octets, and what it left. */
#ifndef TRACED_H
#define TRACED_H

#include "block.h"

/* No block that is lent has more octets. */
enum { MOST_LENT = 2 * SMR_BLOCK };

typedef struct {
    smr_traced got;
    bool kept; /* the octets around the block, and the message */
} traced;

/* `block` is lent, and becomes what the call left. Behind it, or before it, stands a page that
 * may not be touched, and octets that must stay on the other side. */
traced begin_lent(uint8_t *block, size_t length, uint32_t number, int before);
traced add_lent(uint8_t *block, size_t length, uint8_t direction,
                const uint8_t *message, size_t message_length, int before);

/* The same, and whether answer and block are those of the plain ones. */
bool begins_right(uint8_t *block, size_t length, uint32_t number, int before);
bool adds_right(uint8_t *block, size_t length, uint8_t direction,
                const uint8_t *message, size_t message_length, int before);

/* How often an addition was right: added, without room, and refused with each number. */
typedef struct {
    unsigned added, full, refused[SMR_BLOCK_RECORD + 1];
} met;
extern met met_so_far;

#endif
