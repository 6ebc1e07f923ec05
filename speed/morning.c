/* What a record of a morning costs, in nanoseconds: one by one by smr_receive, and in batches
 * by smr_batch. The best of some runs; each is long, so the processor's time counts, not that
 * of other work in between.
 *
 *   morning              each way that is measured: its function and its name
 *   morning NAME         nanoseconds a record
 *   morning NAME COUNT   COUNT records, for counting instructions; none for a longer batch
 *
 * Ten mornings of 10,000 records stand in a row, the same ones for every N. Of a hundred some
 * 68 are questions of the network (menus of 1 to 160 octets, notices, getPassword, 38), ten
 * end a transaction, six are results, six errors, two Rejects, and eight are cut, of an
 * unknown type, of value 7 or noise. Nobody answers or asks in between: four questions wait
 * in a transaction at most before the network ends it. The first 28 results and errors answer
 * questions of ours that the table has at the start; the others are refused. */
#define _POSIX_C_SOURCE 199309L
#include "message.h"
#include "smrcholet.h"

#include <stdio.h>
#include <stdlib.h>
#include <string.h>
#include <time.h>

enum { RECORDS = 100000, RUNS = 40, VALUES = 7, PLACES = 4, ENTRY = 17 };

static const struct {
    const char *function, *name;
    size_t batch; /* 0: none */
} ways[] = {
    {"smr_receive", "one by one", 0},
    {"smr_batch", "batch of 10", 10},
    {"smr_batch", "batch of 100", 100},
    {"smr_batch", "batch of 1000", 1000},
    {"smr_batch", "batch of 10000", 10000},
    {"smr_batch", "batch of 100000", 100000},
};
enum { WAYS = sizeof ways / sizeof *ways };

/* Each record's place, and the end of the last one. */
static uint8_t records[RECORDS * 256], slots[RECORDS * SMR_SLOT];
static size_t places[RECORDS + 1];

/* What waits: questions of the network in each of its transactions, which are open or not, and
 * how many of ours are not yet answered in each of ours. */
static bool is_open[VALUES];
static uint8_t peers[VALUES], own[VALUES];

static uint32_t below(uint32_t n)
{
    static uint64_t seed = 4080;
    seed ^= seed << 13;
    seed ^= seed >> 7;
    seed ^= seed << 17;
    return (uint32_t)(seed >> 16) % n;
}

static void make_text(size_t string)
{
    length = string;
    memset(message, 0x41, length);
    wrap(0x04);
    put(3, (uint8_t[]){0x04, 0x01, 0x0F});
    wrap(0x30);
}

static void close_entry(uint8_t value)
{
    is_open[value] = false;
    peers[value] = 0;
}

/* The network ends what it began. */
static void make_release(uint8_t value)
{
    close_entry(value);
    length = 0;
    put(2, (uint8_t[]){(uint8_t)(value << 4 | 0x0B), 0x2A});
}

/* A question: of ten six menus, two notices, a getPassword and a 38, which waits for nothing. */
static void make_question(uint8_t value)
{
    static const uint8_t operations[] = {60, 60, 60, 60, 60, 60, 61, 61, 18, 38};
    uint8_t operation = operations[below(sizeof operations)];
    if (peers[value] == PLACES) {
        make_release(value);
        return;
    }
    length = 0;
    if (operation == 60 || operation == 61) make_text(1 + below(160));
    if (operation == 18) put(3, (uint8_t[]){0x0A, 0x01, 0x00});
    put(6, (uint8_t[]){0x02, 0x01, peers[value], 0x02, 0x01, operation});
    wrap(0xA1);
    send((uint8_t)(value << 4 | 0x0B), is_open[value] ? 0x3A : 0x3B);
    is_open[value] = true;
    peers[value] += operation != 38;
}

/* A result of 59 or an error, to the oldest of ours. Where none is left it comes to the
 * network's transaction, and ends it. */
static void make_answer(uint8_t value, bool by_error)
{
    uint8_t id = own[value], first = (uint8_t)(value << 4 | 0x0B);
    length = 0;
    if (by_error) {
        put(6, (uint8_t[]){0x02, 0x01, id, 0x02, 0x01, 34}); /* systemFailure */
    } else {
        make_text(1 + below(160));
        put(3, (uint8_t[]){0x02, 0x01, 59});
        wrap(0x30);
        put(3, (uint8_t[]){0x02, 0x01, id});
    }
    wrap(by_error ? 0xA3 : 0xA2);
    if (id > 0) {
        send(0x80 | first, 0x3A);
        own[value]--;
    } else {
        send(first, is_open[value] ? 0x3A : 0x3B);
        close_entry(value);
    }
}

static void make_reject(uint8_t value)
{
    length = 0;
    put(6, (uint8_t[]){0x02, 0x01, 0x01, 0x81, 0x01, 0x00});
    wrap(0xA4);
    send((uint8_t)(value << 4 | 0x0B), is_open[value] ? 0x3A : 0x3B);
    close_entry(value);
}

/* A question whose last octet is lost, or of a type that nobody knows, or of value 7; or noise
 * of another protocol. */
static void make_damaged(uint8_t value)
{
    uint32_t how = below(4);
    bool was_open = is_open[value];
    uint8_t waited = peers[value];
    make_question(value);
    if (how == 0 && message[1] != 0x2A) length--;
    if (how == 1) message[1] = 0x3C;
    if (how == 2) message[0] |= 0x70;
    if (how == 3)
        for (size_t i = 0; i < length; i++) message[i] = i == 0 ? 0x05 : (uint8_t)below(256);
    is_open[value] = how > 1 && was_open; /* the last two touch no transaction */
    peers[value] = how > 1 ? waited : 0;
}

static void make_message(void)
{
    uint8_t value = (uint8_t)below(VALUES);
    uint32_t kind = below(100);
    if (kind < 76) make_question(value);
    else if (kind < 82) make_answer(value, false);
    else if (kind < 88) make_answer(value, true);
    else if (kind < 90) make_reject(value);
    else if (kind < 92) make_release(value);
    else make_damaged(value);
}

static void make_records(size_t count)
{
    memset(own, PLACES, sizeof own);
    for (size_t i = 0; i < count; i++) {
        uint8_t *record = records + places[i];
        make_message();
        record[0] = (uint8_t)length;
        memcpy(record + 1, message, length);
        places[i + 1] = places[i] + 1 + length;
    }
}

/* In each of ours four questions wait: 59, under the ids 4, 3, 2 and 1. */
static void make_table(uint8_t *table)
{
    memset(table, 0, SMR_TABLE);
    for (size_t v = 0; v < VALUES; v++)
        memcpy(table + ENTRY * v, (uint8_t[]){3, 4, 59, 3, 59, 2, 59, 1, 59}, 9);
}

/* How many records are fed in batches of n. */
static size_t by_batch(size_t n, size_t count)
{
    uint8_t table[SMR_TABLE];
    size_t fed = 0;
    make_table(table);
    for (size_t i = 0; i + n <= count; i += n)
        fed += smr_batch(table, SMR_TABLE, records + places[i], places[i + n] - places[i],
                         slots + SMR_SLOT * i, SMR_SLOT * n).slots;
    return fed;
}

/* The same slots, made of what smr_receive gives. */
static size_t one_by_one(size_t count)
{
    uint8_t table[SMR_TABLE];
    make_table(table);
    for (size_t i = 0; i < count; i++) {
        uint8_t *slot = slots + SMR_SLOT * i;
        const uint8_t *record = records + places[i];
        memset(slot, 0, SMR_SLOT);
        smr_received r = smr_receive(table, SMR_TABLE, record + 1, record[0], slot + 2, SMR_REPLY);
        slot[0] = r.code;
        slot[1] = (uint8_t)r.written;
    }
    return count;
}

static size_t feed(size_t batch, size_t count)
{
    return batch == 0 ? one_by_one(count) : by_batch(batch, count);
}

/* All are fed as one by one, and each verdict but 6 occurs: nothing else is measured. */
static bool is_done(size_t batch)
{
    static uint8_t wanted[sizeof slots];
    unsigned verdicts[8] = {0};
    one_by_one(RECORDS);
    memcpy(wanted, slots, sizeof slots);
    memset(slots, 0xEE, sizeof slots);
    if (feed(batch, RECORDS) != RECORDS || memcmp(wanted, slots, sizeof slots) != 0) return false;
    for (size_t i = 0; i < RECORDS; i++) verdicts[slots[SMR_SLOT * i] & 7]++;
    for (int k = 0; k < 8; k++)
        if ((verdicts[k] > 0) == (k == SMR_TOO_LONG)) return false;
    return true;
}

static double once(size_t batch)
{
    struct timespec a, b;
    clock_gettime(CLOCK_PROCESS_CPUTIME_ID, &a);
    feed(batch, RECORDS);
    clock_gettime(CLOCK_PROCESS_CPUTIME_ID, &b);
    return ((double)(b.tv_sec - a.tv_sec) * 1e9 + (double)(b.tv_nsec - a.tv_nsec)) / RECORDS;
}

int main(int argc, char **argv)
{
    size_t batch = 0, count = argc > 2 ? strtoul(argv[2], NULL, 10) : RECORDS;
    double best = 1e9;
    for (size_t i = 0; i < WAYS; i++) {
        if (argc < 2) printf("%s %s\n", ways[i].function, ways[i].name);
        else if (strcmp(ways[i].name, argv[1]) == 0) batch = ways[i].batch;
    }
    if (argc < 2) return 0;
    make_records(count);
    if (argc > 2) return feed(batch, count) == count ? 0 : 1;
    if (!is_done(batch)) return puts("wrong") < 0;
    for (int i = 0; i < RUNS; i++) {
        double t = once(batch);
        best = t < best ? t : best;
    }
    printf("%.0f\n", best);
    return 0;
}
