#include "worn.h"

#include "chance.h"
#include "check.h"
#include "lent.h"
#include "traced.h"

#include <stdio.h>
#include <string.h>

/* Sanitizers are slow, and what they look at is done by a few too. */
#ifdef FEW
enum { ROWS = 1000, WORN = 5, VALUES = 8, STEP = 7 };
#else
enum { ROWS = 4000, WORN = 8, VALUES = 12, STEP = 1 };
#endif
enum { MOST_MESSAGE = 600 };

static uint8_t block[MOST_LENT], message[MOST_MESSAGE];

static bool one_in(uint32_t n) { return random_below(n) == 0; }

static void draw_message(size_t length)
{
    int octet = one_in(8) ? 0xFF : -1;
    for (size_t i = 0; i < length; i++)
        message[i] = octet < 0 ? (uint8_t)random_below(256) : (uint8_t)octet;
}

/* A sound block with so many octets used, not 1 or 2: the longest records first. */
static void fill(unsigned used, uint8_t direction)
{
    plain_begin(block, SMR_BLOCK, random_below(70000));
    while (used > 0) {
        unsigned takes = used < 257 ? used : 257;
        if (used - takes == 1 || used - takes == 2) takes -= 3;
        draw_message(takes - 2);
        plain_add(block, SMR_BLOCK, direction, message, takes - 2);
        used -= takes;
    }
}

/* Any length but 512 is 32, whatever stands there, and nothing is written. */
static void test_lengths(void)
{
    bool begins = true, adds = true;
    for (size_t length = 0; length <= MOST_LENT; length++) {
        for (int before = 0; before < 2; before++) {
            fill(length % 2 == 0 ? 0 : 300, 1);
            memcpy(block + SMR_BLOCK, block, SMR_BLOCK);
            adds = adds && adds_right(block, length, (uint8_t)(length % 3), message, 1 + length % 9, before);
            begins = begins && begins_right(block, length, (uint32_t)length, before);
        }
    }
    check(adds, "a block of each length", "a record is added");
    check(begins, "a block of each length", "it is begun");
}

/* A block begun over any octets: each of a number's four is there. */
static void test_numbers(void)
{
    bool right = true;
    for (int bit = 0; bit < 32; bit++) {
        for (int less = 0; less < 2; less++) {
            memset(block, (int)random_below(256), SMR_BLOCK);
            right = right && begins_right(block, SMR_BLOCK, ((uint32_t)1 << bit) - (uint32_t)less, less);
            right = right && adds_right(block, SMR_BLOCK, 1, message, 20, less);
        }
    }
    right = right && begins_right(block, SMR_BLOCK, UINT32_MAX, 0);
    check(right, "numbers", "each bit of a block's number");
}

/* Each direction before messages around the edges; each length of a message. */
static void test_records(void)
{
    static const size_t lengths[] = {0, 1, 2, 244, 245, 246, 255, 256, 257, 511, 512, 513};
    bool directions = true, sizes = true;
    for (unsigned direction = 0; direction < 256; direction++) {
        for (size_t k = 0; k < sizeof lengths / sizeof *lengths; k++) {
            fill(one_in(2) ? 0 : 257, (uint8_t)random_below(2));
            directions = directions && adds_right(block, SMR_BLOCK, (uint8_t)direction, message,
                                                  lengths[k], (int)k % 2);
        }
    }
    for (size_t length = 0; length <= MOST_MESSAGE; length++) {
        for (unsigned direction = 0; direction < 3; direction++) {
            fill(one_in(2) ? 0 : 250, 0);
            draw_message(length);
            sizes = sizes && adds_right(block, SMR_BLOCK, (uint8_t)direction, message, length,
                                        (int)length % 2);
        }
    }
    check(directions, "records", "each direction");
    check(sizes, "records", "each length of a message");
}

/* Each number of octets used, and each record around what is left. */
static void test_rooms(void)
{
    bool right = true;
    for (unsigned used = 0; used <= RECORDS; used += used == 0 ? 3 : STEP) {
        unsigned left = RECORDS - used;
        for (unsigned takes = left < 6 ? 0 : left - 6; takes < left + 6; takes++) {
            fill(used, 1);
            size_t length = takes < 2 ? 0 : takes - 2;
            draw_message(length);
            right = right && adds_right(block, SMR_BLOCK, 0, message, length, (int)takes % 2);
        }
    }
    check(right, "rooms", "each record around what is left");
}

/* A use count of any number, in a block that has records up to another. */
static void test_used(void)
{
    static const unsigned filled[] = {0, 3, 4, 257, 260, 504};
    bool right = true;
    for (unsigned k = 0; k < sizeof filled / sizeof *filled; k++) {
        for (unsigned used = 0; used < 1024; used += STEP) {
            fill(filled[k], 0);
            put_used(block, used);
            put_sum(block);
            right = right && adds_right(block, SMR_BLOCK, 1, message, 1, (int)used % 2);
        }
        for (unsigned used = 0; used < 65536; used += 251) {
            fill(filled[k], 0);
            put_used(block, used);
            put_sum(block);
            right = right && adds_right(block, SMR_BLOCK, 1, message, 1, (int)used % 2);
        }
    }
    check(right, "use count", "each number of octets used");
}

/* Whether a block with this octet changed is judged right, with its old sum and a mended one. */
static bool is_judged(const uint8_t *sound, size_t at, uint8_t octet, int before)
{
    memcpy(block, sound, SMR_BLOCK);
    block[at] = octet;
    bool right = adds_right(block, SMR_BLOCK, 1, message, 1, before);
    memcpy(block, sound, SMR_BLOCK);
    block[at] = octet;
    put_sum(block);
    return right && adds_right(block, SMR_BLOCK, 1, message, 1, before);
}

/* Each octet of a block: one more, one less, each bit, and others. */
static void test_worn(void)
{
    static const unsigned filled[] = {0, 3, 501, 504, 300};
    uint8_t sound[SMR_BLOCK];
    char name[24];
    for (int i = 0; i < WORN; i++) {
        bool right = true;
        fill(i < 5 ? filled[i] : 3 + random_below(502), (uint8_t)(i % 2));
        memcpy(sound, block, SMR_BLOCK);
        for (size_t at = 0; at < SMR_BLOCK; at++) {
            for (int k = 0; k < VALUES; k++) {
                int octet = k < 8 ? sound[at] ^ 1 << k : (int)random_below(256);
                right = right && is_judged(sound, at, (uint8_t)octet, k % 2);
            }
            right = right && is_judged(sound, at, (uint8_t)(sound[at] + 1), 0) &&
                    is_judged(sound, at, (uint8_t)(sound[at] - 1), 1);
        }
        snprintf(name, sizeof name, "worn block %d", i);
        check(right, name, "each octet changed");
    }
}

/* Two octets changed, so that the sum still fits: only what it can't tell is taken. */
static void test_even(void)
{
    bool right = true;
    for (int i = 0; i < 20 * ROWS / STEP; i++) {
        fill(one_in(2) ? 504 : 3 + random_below(502), (uint8_t)random_below(2));
        size_t up = random_below(SUMMED), down = random_below(SUMMED);
        if (one_in(2)) up = RECORDS_AT + random_below(8);
        if (block[up] < 255 && block[down] > 0) {
            block[up]++;
            block[down]--;
        }
        right = right && adds_right(block, SMR_BLOCK, 0, message, 1 + random_below(40), i % 2);
    }
    check(right, "even changes", "the sum fits, records may not");
}

/* Rows of records over many blocks, bad ones among them, octet by octet beside the plain ones. */
static void test_rows(void)
{
    bool right = true;
    for (int i = 0; i < ROWS; i++) {
        uint32_t number = one_in(4) ? random_below(UINT32_MAX) : 0, longest = 1 + random_below(255);
        memset(block, (int)random_below(256), SMR_BLOCK);
        right = right && begins_right(block, SMR_BLOCK, number, i % 2);
        for (int k = 0; k < 40 && right; k++) {
            size_t length = one_in(20) ? random_below(MOST_MESSAGE + 1) : 1 + random_below(longest);
            uint8_t direction = (uint8_t)(one_in(20) ? random_below(256) : random_below(2));
            unsigned full = met_so_far.full;
            draw_message(length);
            right = adds_right(block, SMR_BLOCK, direction, message, length, k % 2);
            if (met_so_far.full == full) continue;
            right = right && begins_right(block, SMR_BLOCK, ++number, k % 2) &&
                    adds_right(block, SMR_BLOCK, direction, message, length, k % 2);
        }
    }
    check(right, "rows of records", "blocks as they must be");
}

/* NULL where the length is 0. */
static void test_nothing(void)
{
    smr_traced t = smr_trace_begin(NULL, 0, 0);
    check(t.code == SMR_BLOCK_SHORT && !t.added, "null", "no block to begin");
    t = smr_trace_add(NULL, 0, 0, NULL, 0);
    check(t.code == SMR_BLOCK_SHORT && !t.added, "null", "no block and no message");
    t = smr_trace_add(NULL, 0, 0, message, 1);
    check(t.code == SMR_BLOCK_SHORT && !t.added, "null", "no block");
    fill(3, 0);
    uint8_t lent[SMR_BLOCK];
    memcpy(lent, block, SMR_BLOCK);
    t = smr_trace_add(block, SMR_BLOCK, 0, NULL, 0);
    check(t.code == SMR_BLOCK_RECORD && !t.added, "null", "no message");
    check(memcmp(block, lent, SMR_BLOCK) == 0, "null", "the block as lent");
}

void wear(void)
{
    test_nothing();
    test_lengths();
    test_numbers();
    test_records();
    test_rooms();
    test_used();
    test_worn();
    test_even();
    test_rows();
    check(met_so_far.added >= 100 && met_so_far.full >= 100, "by chance", "added, or no room");
    for (int code = SMR_BLOCK_SHORT; code <= SMR_BLOCK_RECORD; code++)
        check(met_so_far.refused[code] >= 100, "by chance", "each refusal a hundred times");
}
