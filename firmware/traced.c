#include "traced.h"

#include "lent.h"

#include <string.h>

enum { AROUND = 16 };

met met_so_far;

/* The block with its guards: the marked octets stand on the side that has no page. */
static uint8_t *lend_block(const uint8_t *block, size_t length, int before)
{
    uint8_t *all = lend(0, length + AROUND, before);
    memset(all, MARK, length + AROUND);
    if (length > 0) memcpy(all + (before ? 0 : AROUND), block, length);
    return all + (before ? 0 : AROUND);
}

/* Whether the guards stay; takes back the block. */
static bool take_back(const uint8_t *lent, uint8_t *block, size_t length, int before)
{
    if (length > 0) memcpy(block, lent, length);
    return before ? is_marked(lent, length, length + AROUND) : is_marked(lent - AROUND, 0, AROUND);
}

traced begin_lent(uint8_t *block, size_t length, uint32_t number, int before)
{
    traced t;
    uint8_t *lent = lend_block(block, length, before);
    t.got = smr_trace_begin(lent, length, number);
    t.kept = take_back(lent, block, length, before);
    return t;
}

traced add_lent(uint8_t *block, size_t length, uint8_t direction,
                const uint8_t *message, size_t message_length, int before)
{
    traced t;
    uint8_t *lent = lend_block(block, length, before), *said = lend(1, message_length, before);
    if (message_length > 0) memcpy(said, message, message_length);
    t.got = smr_trace_add(lent, length, direction, said, message_length);
    t.kept = take_back(lent, block, length, before) &&
             (message_length == 0 || memcmp(said, message, message_length) == 0);
    return t;
}

static bool is_as(const traced *t, smr_traced wanted, const uint8_t *block,
                  const uint8_t *block_wanted, size_t length)
{
    return t->kept && t->got.code == wanted.code && t->got.added == wanted.added &&
           memcmp(block, block_wanted, length) == 0;
}

bool begins_right(uint8_t *block, size_t length, uint32_t number, int before)
{
    uint8_t wanted[MOST_LENT];
    memcpy(wanted, block, length);
    smr_traced answer = plain_begin(wanted, length, number);
    traced t = begin_lent(block, length, number, before);
    return is_as(&t, answer, block, wanted, length);
}

bool adds_right(uint8_t *block, size_t length, uint8_t direction,
                const uint8_t *message, size_t message_length, int before)
{
    uint8_t wanted[MOST_LENT];
    memcpy(wanted, block, length);
    smr_traced answer = plain_add(wanted, length, direction, message, message_length);
    traced t = add_lent(block, length, direction, message, message_length, before);
    if (!is_as(&t, answer, block, wanted, length)) return false;
    if (answer.code != 0) met_so_far.refused[answer.code]++;
    else if (answer.added) met_so_far.added++;
    else met_so_far.full++;
    return true;
}
