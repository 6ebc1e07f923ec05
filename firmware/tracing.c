/* What a telephone does to keep a trace of what comes and goes: README's `trace` and
 * `end_trace`, and messages for them. firmware/tracing.txt is what is printed. */
#include "smrcholet.h"

#include <stdio.h>

/* Stands for a card: of each block its number, the octets used and the sum are printed. */
static void keep(const uint8_t *block)
{
    printf("block %u used %u sum %02X%02X\n",
           (unsigned)block[0] << 24 | (unsigned)block[1] << 16 | (unsigned)block[2] << 8 | block[3],
           (unsigned)block[4] << 8 | block[5], (unsigned)block[510], (unsigned)block[511]);
}

/* README has the lines from here */
static uint8_t block[SMR_BLOCK];
static uint32_t blocks; /* begun so far; the last of them is in `block` */

static void trace(uint8_t direction, const uint8_t *message, size_t length)
{
    smr_traced t = {0, false};
    if (blocks > 0)
        t = smr_trace_add(block, sizeof block, direction, message, length);
    if (t.code == 0 && !t.added) { /* there is no block yet, or no room in it */
        if (blocks > 0) keep(block);
        smr_trace_begin(block, sizeof block, blocks);
        t = smr_trace_add(block, sizeof block, direction, message, length);
        if (t.added) blocks++;
    }
    if (t.code != 0) printf("not traced, refused %u\n", (unsigned)t.code);
}

static void end_trace(void)
{
    if (blocks > 0) keep(block); /* without a record there is no file */
    blocks = 0;
}
/* up to here */

int main(void)
{
    static const uint8_t menu[] = {0x0B, 0x3B, 0x1C, 0x10, 0xA1, 0x0E, 0x02, 0x01, 0x05, 0x02,
                                   0x01, 0x3C, 0x30, 0x06, 0x04, 0x01, 0x0F, 0x04, 0x01, 0x41};
    static const uint8_t choice[] = {0x8B, 0x3A, 0x12, 0xA2, 0x10, 0x02, 0x01,
                                     0x05, 0x30, 0x0B, 0x02, 0x01, 0x3C, 0x30,
                                     0x06, 0x04, 0x01, 0x0F, 0x04, 0x01, 0x31};
    static const uint8_t longest[256];

    puts("a menu");
    trace(0, menu, sizeof menu);
    end_trace();

    puts("twelve menus and choices");
    for (int i = 0; i < 12; i++) {
        trace(0, menu, sizeof menu);
        trace(1, choice, sizeof choice);
    }
    end_trace();

    puts("a full block, and one record more");
    trace(0, longest, 255);
    trace(0, longest, 245);
    trace(1, longest, 1);
    end_trace();

    puts("no octets, and too many");
    trace(0, NULL, 0);
    trace(0, menu, sizeof menu);
    trace(0, longest, 256);
    trace(0, NULL, 0);
    trace(1, choice, sizeof choice);
    end_trace();

    puts("no octets alone");
    trace(0, NULL, 0);
    end_trace();

    puts("nothing");
    end_trace();

    puts("a block that was damaged");
    trace(0, menu, sizeof menu);
    block[100]++;
    trace(1, choice, sizeof choice);
    end_trace();
    return 0;
}
