/* Makes the files that the programs of a trace are tried with, and tells what one holds.
 *
 *   blocks make BLOCK...     these blocks, as the cases note them
 *   blocks lines RECORD...   these records, as lines for trace_writer
 *   blocks empty N           N empty blocks
 *   blocks file N, card N    N blocks by chance: a trace file, or a worn card
 *   blocks read, salvage     what the programs must give for standard input
 *   blocks facts             of the file on standard input, a line each */
#include "drawn.h"
#include "noted.h"
#include "plain.h"

#include <stdio.h>
#include <stdlib.h>
#include <string.h>

static void put_lines(const char *word)
{
    static noted_record record;
    if (!read_record(word, &record)) {
        puts("no such record");
        exit(2);
    }
    const char *first = record.direction == 0 ? "received" : record.direction == 1 ? "sent" : "other";
    for (size_t i = 0; i < record.times; i++) {
        printf("%s ", first);
        for (size_t k = 0; k < record.length; k++) printf("%02X", (unsigned)record.message[k]);
        puts("");
    }
}

static void put_empty(unsigned blocks)
{
    uint8_t block[SMR_BLOCK];
    for (unsigned i = 0; i < blocks; i++) {
        plain_begin(block, SMR_BLOCK, i);
        fwrite(block, 1, SMR_BLOCK, stdout);
    }
}

/* octets=, numbers=, used=, sum= of the first block, holds= its records, and whether all
 * blocks are sound and in place. */
static void print_facts(void)
{
    static char numbers[1 << 20] = " none", used[1 << 20] = " none";
    uint8_t block[SMR_BLOCK], first[SMR_BLOCK] = {0};
    char *n = numbers, *u = used;
    size_t length, octets = 0;
    unsigned place = 0;
    bool sound = true;
    for (; (length = fread(block, 1, SMR_BLOCK, stdin)) > 0; place++) {
        if (place == 0) memcpy(first, block, SMR_BLOCK);
        octets += length;
        sound = sound && block_fault(block, length) == 0 && number_of(block) == place;
        n += sprintf(n, " %u", number_of(block));
        u += sprintf(u, " %u", used_of(block));
    }
    printf("octets=%zu\nnumbers=%s\nused=%s\nsum=%04X\nsound=%s\nholds=", octets, numbers + 1, used + 1,
           sum_of(first), sound ? "true" : "false");
    for (unsigned i = 0; i < used_of(first) && i < RECORDS; i++)
        printf("%02X", (unsigned)first[RECORDS_AT + i]);
    puts("");
}

int main(int argc, char **argv)
{
    static uint8_t block[1024];
    const char *what = argc > 1 ? argv[1] : "";
    unsigned number = argc > 2 ? (unsigned)strtoul(argv[2], NULL, 10) : 0;
    for (int i = 2; i < argc && strcmp(what, "make") == 0; i++)
        fwrite(block, 1, read_block(argv[i], block), stdout);
    for (int i = 2; i < argc && strcmp(what, "lines") == 0; i++) put_lines(argv[i]);
    if (strcmp(what, "empty") == 0) put_empty(number);
    if (strcmp(what, "file") == 0) draw_file(number);
    if (strcmp(what, "card") == 0) draw_card(number);
    if (strcmp(what, "read") == 0) plain_read();
    if (strcmp(what, "salvage") == 0) plain_salvage();
    if (strcmp(what, "facts") == 0) print_facts();
    return 0;
}
