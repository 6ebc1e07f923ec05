#include "drawn.h"

#include "block.h"
#include "chance.h"

#include <stdio.h>
#include <string.h>

static uint8_t block[SMR_BLOCK];

static bool one_in(uint32_t n) { return random_below(n) == 0; }

/* A record of at most so many octets, and whether it fits. */
static uint8_t direction, message[255];
static size_t length;

static void draw_record(uint32_t longest)
{
    direction = (uint8_t)random_below(2);
    length = 1 + random_below(longest);
    for (size_t i = 0; i < length; i++) message[i] = (uint8_t)random_below(256);
}

static bool add_drawn(void)
{
    return plain_add(block, SMR_BLOCK, direction, message, length).added;
}

static void put_block(void) { fwrite(block, 1, SMR_BLOCK, stdout); }

/* Now and then a record fills a block, or has one octet too many for it. */
void draw_file(unsigned blocks)
{
    unsigned begun = 0;
    for (;;) {
        unsigned left = RECORDS - used_of(block);
        draw_record(one_in(4) ? 255 : 60);
        if (left > 3 && left < 250 && one_in(4)) length = left - 1 - random_below(2);
        if (begun > 0 && add_drawn()) continue;
        if (begun > 0) put_block();
        if (begun == blocks) return;
        plain_begin(block, SMR_BLOCK, begun++);
        add_drawn();
    }
}

/* A sound block, half empty or full. */
static void draw_sound(uint32_t number)
{
    plain_begin(block, SMR_BLOCK, number);
    do draw_record(one_in(2) ? 255 : 20);
    while (!one_in(12) && add_drawn());
}

/* One of the ways in which a card is worn. */
static void wear_block(void)
{
    switch (random_below(8)) {
    case 0: /* noise */
        for (size_t i = 0; i < SMR_BLOCK; i++) block[i] = (uint8_t)random_below(256);
        if (one_in(2)) put_sum(block);
        break;
    case 1: /* a block of one octet */
        memset(block, one_in(2) ? 0 : (int)random_below(256), SMR_BLOCK);
        if (one_in(2)) put_sum(block);
        break;
    case 2: /* another number */
        put_number(block, one_in(2) ? random_below(300) : random_below(UINT32_MAX));
        put_sum(block);
        break;
    case 3: /* another use count */
        put_used(block, one_in(2) ? random_below(65536) : used_of(block) + random_below(3));
        put_sum(block);
        break;
    default: /* an octet, its sum mended or not */
        block[one_in(2) ? RECORDS_AT + random_below(8) : random_below(SMR_BLOCK)] ^=
            (uint8_t)(1 + random_below(255));
        if (one_in(2)) put_sum(block);
    }
}

/* Numbers are right as often as not, by the blocks before that are sound. */
void draw_card(unsigned blocks)
{
    uint32_t sound = 0;
    for (unsigned i = 0; i < blocks; i++) {
        if (i == 0 || !one_in(10)) draw_sound(one_in(2) ? sound : i); /* else the last one again */
        if (i > 2 && one_in(2)) wear_block();
        sound += block_fault(block, SMR_BLOCK) == 0;
        put_block();
    }
    fwrite(block, 1, 1 + random_below(SMR_BLOCK - 1), stdout);
}
