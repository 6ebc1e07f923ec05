/* What a maintainer does with recorded traffic: README's `record` and `feed`, and messages
 * for them. firmware/morning.txt is what is printed. */
#include "smrcholet.h"

#include <stdio.h>
#include <string.h>

static uint8_t table[SMR_TABLE]; /* zero at the start */

/* README has the lines from here */
static uint8_t records[4096]; /* of two octets or more each */
static uint8_t slots[SMR_SLOT * sizeof records / 2]; /* so 31 never comes */
static size_t recorded;

static void feed(void)
{
    smr_batched b = smr_batch(table, sizeof table, records, recorded,
                              slots, sizeof slots);
    if (b.code != 0) printf("refused %u\n", (unsigned)b.code); /* none is fed */
    for (const uint8_t *slot = slots; b.slots > 0; b.slots--, slot += SMR_SLOT) {
        printf("verdict %u", (unsigned)slot[0]);
        for (size_t i = 0; i < slot[1]; i++)
            printf("%s%02X", i == 0 ? " " : "", (unsigned)slot[2 + i]);
        puts("");
    }
    recorded = 0;
}

static void record(const uint8_t *message, uint8_t length) /* from 1 on */
{
    if (sizeof records - recorded <= length) feed();
    records[recorded++] = length;
    memcpy(records + recorded, message, length);
    recorded += length;
}
/* up to here */

int main(void)
{
    static const struct {
        uint8_t length, octets[20];
    } messages[] = {
        /* a menu, its duplicate, an unknown type, a Reject, another protocol */
        {20, {0x0B, 0x3B, 0x1C, 0x10, 0xA1, 0x0E, 0x02, 0x01, 0x05, 0x02,
              0x01, 0x3C, 0x30, 0x06, 0x04, 0x01, 0x0F, 0x04, 0x01, 0x41}},
        {19, {0x0B, 0x3A, 0x10, 0xA1, 0x0E, 0x02, 0x01, 0x05, 0x02, 0x01,
              0x3C, 0x30, 0x06, 0x04, 0x01, 0x0F, 0x04, 0x01, 0x41}},
        {2, {0x0B, 0x3C}},
        {11, {0x1B, 0x3B, 0x1C, 0x07, 0xA4, 0x05, 0x05, 0x00, 0x80, 0x01, 0x00}},
        {2, {0x05, 0x08}},
        /* a menu, and its end */
        {20, {0x2B, 0x3B, 0x1C, 0x10, 0xA1, 0x0E, 0x02, 0x01, 0x05, 0x02,
              0x01, 0x3C, 0x30, 0x06, 0x04, 0x01, 0x0F, 0x04, 0x01, 0x42}},
        {2, {0x2B, 0x2A}},
    };
    static const uint8_t longest[255];

    puts("a morning");
    for (size_t i = 0; i < sizeof messages / sizeof *messages; i++)
        record(messages[i].octets, messages[i].length);
    feed();

    puts("its last octet is lost");
    record(messages[0].octets, messages[0].length);
    recorded--;
    feed();

    puts("more than there is room for");
    for (int i = 0; i < 17; i++) record(longest, sizeof longest);
    puts("and the rest");
    feed();

    puts("nothing");
    feed();

    puts("a damaged table");
    table[0] = 2;
    feed();
    return 0;
}
