/* Batches beside the same messages fed one by one: slots, table, refusals. All that is lent
 * stands against a page that may not be touched. */
#include "chance.h"
#include "check.h"
#include "drawn.h"
#include "lent.h"
#include "recorded.h"
#include "smrcholet.h"

#include <stdio.h>
#include <string.h>

/* Sanitizers are slow, and what they look at is done by a few too. */
#ifdef FEW
enum { CONVERSATIONS = 5000, PARTED = 100, PREFIXES = 50 };
#else
enum { CONVERSATIONS = 25000, PARTED = 300, PREFIXES = 200 };
#endif
enum { LONG = 60, MANY = 10000, SHORT = 66000, MOST_TABLE = 2 * SMR_TABLE };

/* What a batch is given. */
typedef struct {
    const uint8_t *table, *records;
    size_t table_length, length, room;
} given;

/* What must be there afterwards. */
static uint8_t table_after[MOST_TABLE], output_after[SMR_SLOT * SHORT];
static row drawn;
static unsigned verdicts[8], refused[32];

/* Each message through smr_receive, with a slot made of what it gives. The reply buffer has
 * 12 octets or more, and what was in them is never the same. */
static void feed(const uint8_t *record, size_t count)
{
    for (size_t k = 0; k < count; k++, record += 1 + record[0]) {
        size_t room = SMR_REPLY + (one_in(2) ? 0 : random_below(40));
        uint8_t *reply = lend(3, room, k & 1), *slot = output_after + SMR_SLOT * k;
        memset(reply, (int)random_below(256), room);
        smr_received r = smr_receive(table_after, SMR_TABLE, record + 1, record[0], reply, room);
        memset(slot, 0, SMR_SLOT);
        slot[0] = r.code;
        slot[1] = (uint8_t)r.written;
        memcpy(slot + 2, reply, r.written < SMR_REPLY ? r.written : SMR_REPLY);
        verdicts[r.code & 7]++;
    }
}

/* "28 as before, then 30 a zero or cut record, then 31 fewer than 14 octets a record; each
 * refuses the whole call and changes nothing"; else fed one by one, and octets after the
 * last slot stay. */
static smr_batched expect(const given *g)
{
    size_t count = count_records(g->records, g->length);
    uint8_t code = 0;
    memcpy(table_after, g->table, g->table_length);
    memset(output_after, MARK, g->room);
    if (g->table_length != SMR_TABLE || fault_of(g->table) != SOUND) code = SMR_DAMAGED;
    else if (count == NO_ROW) code = SMR_BAD_RECORD;
    else if (g->room < SMR_SLOT * count) code = SMR_SHORT_OUTPUT;
    refused[code]++;
    if (code != 0) return (smr_batched){code, 0};
    feed(g->records, count);
    return (smr_batched){0, count};
}

/* Whether the batch gives what it must, octet by octet. */
static bool agrees(const given *g, int before)
{
    smr_batched wanted = expect(g);
    uint8_t *table = lend(0, g->table_length, before), *records = lend(1, g->length, before),
            *output = lend(2, g->room, before);
    memcpy(table, g->table, g->table_length);
    memcpy(records, g->records, g->length);
    memset(output, MARK, g->room);
    smr_batched got = smr_batch(table, g->table_length, records, g->length, output, g->room);
    return got.code == wanted.code && got.slots == wanted.slots &&
           memcmp(table, table_after, g->table_length) == 0 &&
           memcmp(records, g->records, g->length) == 0 &&
           memcmp(output, output_after, g->room) == 0;
}

/* The row that is drawn, from this table, with this room. */
static given all_of(const uint8_t *table, size_t room)
{
    return (given){table, drawn.octets, SMR_TABLE, drawn.length, room};
}

/* The same with one or several of: another table, another octet in it, a cut row, a zero
 * record, too little room or more. */
static bool agrees_changed(given g, size_t count, int before)
{
    uint8_t table[SMR_TABLE];
    size_t at = count > 0 ? record_at(&drawn, random_below((uint32_t)count)) : 0;
    uint8_t old = drawn.octets[at];
    memcpy(table, g.table, sizeof table);
    g.table = table;
    if (one_in(4)) draw_table(table);
    if (one_in(4)) table[random_below(SMR_TABLE)] = (uint8_t)random_below(256);
    if (one_in(4)) g.length = random_below((uint32_t)g.length + 1);
    if (one_in(8)) drawn.octets[at] = 0;
    g.room = one_in(4) ? random_below((uint32_t)g.room + 1) : g.room + random_below(40);
    bool agree = agrees(&g, before);
    drawn.octets[at] = old;
    return agree;
}

/* A batch after the other, the table mostly going on; each three times more, changed. */
static void test_conversations(void)
{
    char name[32];
    uint8_t table[SMR_TABLE] = {0}, next[SMR_TABLE];
    bool agree = true, changed = true;
    int i = 0;
    for (; i < CONVERSATIONS && agree && changed; i++) {
        size_t n = random_below(one_in(16) ? LONG + 1 : 8);
        if (one_in(8)) draw_table(table);
        draw_row(&drawn, table, n);
        given g = all_of(table, SMR_SLOT * n);
        agree = agrees(&g, i & 1);
        memcpy(next, table_after, sizeof next);
        for (int k = 0; k < 3; k++) changed = changed && agrees_changed(g, n, k & 1);
        memcpy(table, next, sizeof table);
    }
    snprintf(name, sizeof name, "batch, conversation %d", i);
    check(agree, name, "as fed one by one");
    check(changed, name, "as fed one by one, changed");
}

/* Two batches one after the other are the one of both, wherever it is parted. */
static void test_parted(void)
{
    uint8_t start[SMR_TABLE], end[SMR_TABLE], slots[SMR_SLOT * LONG];
    bool agree = true, whole = true;
    for (int i = 0; i < PARTED; i++) {
        size_t n = random_below(1 + random_below(LONG + 1)), room = SMR_SLOT * n;
        draw_table(start);
        draw_row(&drawn, start, n);
        given g = all_of(start, room);
        whole = whole && agrees(&g, i & 1);
        memcpy(end, table_after, sizeof end);
        memcpy(slots, output_after, room);
        for (size_t k = 0; k <= n; k++) {
            size_t at = record_at(&drawn, k), half = SMR_SLOT * k;
            uint8_t *table = lend(0, SMR_TABLE, k & 1), *output = lend(2, room, k & 1);
            memcpy(table, start, SMR_TABLE);
            smr_batched one = smr_batch(table, SMR_TABLE, drawn.octets, at, output, half);
            smr_batched two = smr_batch(table, SMR_TABLE, drawn.octets + at, drawn.length - at,
                                        output + half, room - half);
            agree = agree && one.code == 0 && one.slots == k && two.code == 0 &&
                    two.slots == n - k && memcmp(table, end, SMR_TABLE) == 0 &&
                    memcmp(output, slots, room) == 0;
        }
    }
    check(whole, "batch, parted", "the whole");
    check(agree, "batch, parted", "two are the one of both");
}

/* A row cut at each octet: 30, or, between two records, those before it. */
static void test_prefixes(void)
{
    uint8_t table[SMR_TABLE];
    bool agree = true;
    for (int i = 0; i < PREFIXES; i++) {
        uint32_t n = random_below(13);
        draw_table(table);
        draw_row(&drawn, table, n);
        given g = all_of(table, SMR_SLOT * n);
        for (g.length = 0; g.length <= drawn.length; g.length++)
            agree = agree && agrees(&g, (int)g.length & 1);
    }
    check(agree, "batch", "cut at each octet");
}

/* Each length octet before each number of octets, which are 3F and may be records too. */
static void test_each_length(void)
{
    static const uint8_t fresh[SMR_TABLE];
    uint8_t octets[258];
    bool agree = true;
    memset(octets, 0x3F, sizeof octets);
    for (int says = 0; says < 256; says++) {
        octets[0] = (uint8_t)says;
        given g = {fresh, octets, SMR_TABLE, 0, SMR_SLOT * 5}; /* no row of them has more */
        for (g.length = 1; g.length <= sizeof octets; g.length++)
            agree = agree && agrees(&g, says & 1);
    }
    check(agree, "batch", "each length octet");
}

/* Rooms around that of the slots: 31 up to one octet less, then none is touched behind. */
static void test_rooms(void)
{
    uint8_t table[SMR_TABLE];
    bool agree = true;
    for (size_t n = 0; n <= LONG; n++) {
        size_t due = SMR_SLOT * n;
        draw_table(table);
        draw_row(&drawn, table, n);
        for (size_t room = due > 2 * SMR_SLOT ? due - 2 * SMR_SLOT : 0; room < due + 30; room++) {
            given g = all_of(table, room);
            agree = agree && agrees(&g, (int)room & 1);
        }
    }
    check(agree, "batch", "each room");
}

/* A table of another length, or with one octet changed: 28, whatever the records are. */
static void test_tables(void)
{
    static const uint8_t rows[][4] = {{0x03, 0x0B, 0x3A, 0x00}, {0x03, 0x0B, 0x3A}, {0x00}};
    uint8_t table[MOST_TABLE] = {0};
    bool lengths = true, octets = true;
    for (size_t length = 0; length <= MOST_TABLE; length++) {
        for (size_t k = 0; k < 3; k++) {
            given g = {table, rows[k], length, 4 - k, k == 0 ? SMR_SLOT : 0};
            lengths = lengths && agrees(&g, (int)k & 1);
            g.length = 0;
            lengths = lengths && agrees(&g, (int)k & 1);
        }
    }
    for (size_t i = 0; i < SMR_TABLE; i++) {
        for (int octet = 0; octet < 256; octet++) {
            given g = {table, rows[octet % 3], SMR_TABLE, octet % 2 == 0 ? 4 : 0, SMR_SLOT};
            table[i] = (uint8_t)octet;
            octets = octets && agrees(&g, octet & 1);
        }
        table[i] = 0;
    }
    check(lengths, "batch", "a table of each length");
    check(octets, "batch", "each octet of a table");
}

/* A long row, and the same with a fault behind or in its last record. */
static void test_many(void)
{
    uint8_t table[SMR_TABLE];
    draw_table(table);
    for (int before = 0; before < 2; before++) {
        draw_row(&drawn, table, MANY);
        given g = all_of(table, SMR_SLOT * MANY);
        check(agrees(&g, before), "batch of many", "all are fed");
        g.room--;
        check(agrees(&g, before), "batch of many", "an octet too little");
        g.room = SMR_SLOT * MANY + SMR_SLOT;
        check(agrees(&g, before), "batch of many", "a slot more");
        g.length--;
        check(agrees(&g, before), "batch of many", "the last is cut");
        g.length = record_at(&drawn, MANY - 1) + 1;
        check(agrees(&g, before), "batch of many", "only its length");
        drawn.octets[g.length - 1] = 0;
        check(agrees(&g, before), "batch of many", "the last is zero");
        g.length = drawn.length;
        check(agrees(&g, before), "batch of many", "its octets behind a zero");
    }
}

/* More than 16 bits can count: a menu, one-octet messages, and the menu's end. */
static void test_short(void)
{
    static const uint8_t fresh[SMR_TABLE], ended[] = {0x0B, 0x2A};
    spoken menu = a_message(0, 0, REGISTER, an_invoke(5, 60, asked(60)));
    drawn.length = 0;
    add_record(&drawn, menu.octets, menu.length);
    for (int i = 2; i < SHORT; i++) add_record(&drawn, ended, 1);
    add_record(&drawn, ended, sizeof ended);
    given g = all_of(fresh, SMR_SLOT * SHORT);
    check(agrees(&g, 0), "batch of many", "short ones");
    check(output_after[g.room - SMR_SLOT] == SMR_RELEASED, "batch of many", "the last is fed");
    g.room--;
    check(agrees(&g, 0), "batch of many", "an octet too little for short ones");
}

/* NULL where the length is 0. */
static void test_nothing(void)
{
    static const uint8_t record[] = {0x02, 0x0B, 0x3C};
    static uint8_t table[SMR_TABLE], closed[SMR_TABLE];
    uint8_t output[2] = {MARK, MARK};
    smr_batched b = smr_batch(table, sizeof table, NULL, 0, NULL, 0);
    check(b.code == 0 && b.slots == 0, "batch, null", "no records, no output");
    b = smr_batch(table, sizeof table, NULL, 0, output, sizeof output);
    check(b.code == 0 && b.slots == 0 && is_marked(output, 0, 2), "batch, null", "no records");
    b = smr_batch(table, sizeof table, record, sizeof record, NULL, 0);
    check(b.code == SMR_SHORT_OUTPUT && b.slots == 0, "batch, null", "no output");
    b = smr_batch(table, sizeof table, record, sizeof record - 1, NULL, 0);
    check(b.code == SMR_BAD_RECORD && b.slots == 0, "batch, null", "no output for a cut one");
    b = smr_batch(NULL, 0, NULL, 0, NULL, 0);
    check(b.code == SMR_DAMAGED && b.slots == 0, "batch, null", "no table");
    check(memcmp(table, closed, sizeof table) == 0, "batch, null", "nothing changes");
}

int main(void)
{
    test_nothing();
    test_tables();
    test_each_length();
    test_rooms();
    test_prefixes();
    test_parted();
    test_many();
    test_short();
    test_conversations();
    for (int k = 0; k < 8; k++)
        check(k == SMR_TOO_LONG ? verdicts[k] == 0 : verdicts[k] >= 100, "batch",
              "each verdict but 6, a hundred times");
    check(refused[SMR_DAMAGED] >= 100 && refused[SMR_BAD_RECORD] >= 100 &&
              refused[SMR_SHORT_OUTPUT] >= 100,
          "batch", "each refusal a hundred times");
    return checks_done();
}
