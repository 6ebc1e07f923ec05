#include "plain.h"

#include "block.h"

#include <stdio.h>

/* A record as a word and its octets; a line that would pass forty characters goes on in the
 * next, which starts with a space. */
static void print_record(const uint8_t *record)
{
    int column = printf("%s", record[0] == 0 ? "received" : "sent");
    for (int i = 0; i < record[1]; i++) {
        if (column + 3 > 40) {
            puts("");
            column = 0;
        }
        column += printf(" %02X", (unsigned)record[2 + i]);
    }
    puts("");
}

/* "Refusals, in this order for each block: ... 36 number not the block's place" */
static unsigned fault_at(const uint8_t *block, size_t length, uint64_t place)
{
    unsigned fault = block_fault(block, length);
    return fault == 0 && number_of(block) != place ? SMR_BLOCK_NUMBER : fault;
}

void plain_read(void)
{
    uint8_t block[SMR_BLOCK];
    size_t length;
    for (uint64_t place = 0; (length = fread(block, 1, SMR_BLOCK, stdin)) > 0; place++) {
        unsigned fault = fault_at(block, length, place);
        if (fault != 0) {
            printf("block %llu refused %u\n", (unsigned long long)place, fault);
            return;
        }
        for (unsigned at = 0; at < used_of(block); at += 2u + block[RECORDS_AT + at + 1])
            print_record(block + RECORDS_AT + at);
    }
}

/* "Salvage copies every block without a fault from 32 to 35, unaltered but for number and sum,
 * and lists each block it dropped or renumbered with the old number and the first fault found.
 * A short last block is listed by its place." */
void plain_salvage(void)
{
    uint8_t block[SMR_BLOCK];
    size_t length;
    uint32_t kept = 0;
    for (unsigned place = 0; (length = fread(block, 1, SMR_BLOCK, stdin)) > 0; place++) {
        unsigned fault = fault_at(block, length, kept);
        if (fault == SMR_BLOCK_SHORT) fprintf(stderr, "place %u dropped 32\n", place);
        else if (fault == SMR_BLOCK_NUMBER) fprintf(stderr, "number %u renumbered 36\n", number_of(block));
        else if (fault != 0) fprintf(stderr, "number %u dropped %u\n", number_of(block), fault);
        if (fault != 0 && fault != SMR_BLOCK_NUMBER) continue;
        put_number(block, kept++);
        put_sum(block);
        fwrite(block, 1, SMR_BLOCK, stdout);
    }
}
