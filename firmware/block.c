#include "block.h"

#include <string.h>

/* So many octets, high first. */
static uint32_t high_first(const uint8_t *at, int octets)
{
    uint32_t number = 0;
    for (int i = 0; i < octets; i++) number = number << 8 | at[i];
    return number;
}

static void put_high_first(uint8_t *at, int octets, uint32_t number)
{
    for (int i = octets; i-- > 0; number >>= 8) at[i] = (uint8_t)number;
}

uint32_t number_of(const uint8_t *block) { return high_first(block, 4); }
unsigned used_of(const uint8_t *block) { return high_first(block + 4, 2); }
unsigned sum_of(const uint8_t *block) { return high_first(block + SUMMED, 2); }

void put_number(uint8_t *block, uint32_t number) { put_high_first(block, 4, number); }
void put_used(uint8_t *block, unsigned used) { put_high_first(block + 4, 2, used); }

/* "the sum of the first 510 octets modulo 65,536" */
static unsigned right_sum(const uint8_t *block)
{
    unsigned sum = 0;
    for (int i = 0; i < SUMMED; i++) sum += block[i];
    return sum % 65536;
}

void put_sum(uint8_t *block) { put_high_first(block + SUMMED, 2, right_sum(block)); }

/* "A record is a direction (0 received, 1 sent), a length 1 to 255 and the message; none
 * crosses a block and the rest is zero." */
static bool holds_records(const uint8_t *records, size_t used)
{
    size_t at = 0;
    while (at < used) {
        if (records[at] > 1 || used - at < 2 || records[at + 1] == 0) return false;
        at += 2u + records[at + 1];
    }
    if (at != used) return false;
    while (at < RECORDS)
        if (records[at++] != 0) return false;
    return true;
}

uint8_t block_fault(const uint8_t *block, size_t length)
{
    if (length != SMR_BLOCK) return SMR_BLOCK_SHORT;
    if (sum_of(block) != right_sum(block)) return SMR_BLOCK_SUM;
    if (used_of(block) > RECORDS) return SMR_BLOCK_USED;
    return holds_records(block + RECORDS_AT, used_of(block)) ? 0 : SMR_BLOCK_RECORD;
}

smr_traced plain_begin(uint8_t *block, size_t length, uint32_t number)
{
    if (length != SMR_BLOCK) return (smr_traced){SMR_BLOCK_SHORT, false};
    memset(block, 0, SMR_BLOCK);
    put_number(block, number);
    put_sum(block);
    return (smr_traced){0, true};
}

smr_traced plain_add(uint8_t *block, size_t length, uint8_t direction,
                     const uint8_t *message, size_t message_length)
{
    uint8_t fault = block_fault(block, length);
    if (fault != 0) return (smr_traced){fault, false};
    if (direction > 1 || message_length < 1 || message_length > 255)
        return (smr_traced){SMR_BLOCK_RECORD, false};
    unsigned used = used_of(block);
    if (used + 2 + message_length > RECORDS) return (smr_traced){0, false};
    uint8_t *record = block + RECORDS_AT + used;
    record[0] = direction;
    record[1] = (uint8_t)message_length;
    memcpy(record + 2, message, message_length);
    put_used(block, used + 2 + (unsigned)message_length);
    put_sum(block);
    return (smr_traced){0, true};
}
