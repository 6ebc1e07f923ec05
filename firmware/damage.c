/* Images with octets changed. What is damaged is told a second time by fault_of, which goes
 * by the papers. */
#include "chance.h"
#include "check.h"
#include "drawn.h"
#include "image.h"
#include "lent.h"
#include "spoken.h"
#include "talk.h"

#include <stdio.h>
#include <string.h>

enum { DRAWN = 150000, ROOM = 4 };

static unsigned met[FAULTS];

/* So many questions of entry k; in entry 0 the last of four has the id 0, so that the place
 * is sound without its operation too. */
static side side_of(size_t count, bool own, size_t k)
{
    side to = {.count = 0};
    for (size_t i = 0; i < count; i++)
        add_question(&to, (int8_t)(uint8_t)(16 * k + PLACES - 1 - i), operation_at(k + i, own));
    return to;
}

/* All entries have four of each side; or from none to four, and one is closed. */
static void make_table(bool full, uint8_t *image)
{
    entry entries[ENTRIES];
    for (size_t k = 0; k < ENTRIES; k++) {
        entries[k].open = true;
        entries[k].own = side_of(full ? PLACES : k % 5, true, k);
        entries[k].peers = side_of(full ? PLACES : 3 * k / 4 % 5, false, k);
    }
    if (!full) memset(&entries[3], 0, sizeof entries[3]);
    put_table(entries, image);
}

/* A release from this image: refused with 28 and nothing touched if it is damaged; else done,
 * or refused with 22 where the entry is closed. */
static bool is_right(const uint8_t *image, uint8_t flag, uint8_t value, int before)
{
    uint8_t wanted[SMR_TABLE], code = SMR_DAMAGED;
    uint8_t *table = lend(0, SMR_TABLE, before), *buffer = lend(2, ROOM, before);
    size_t at = ENTRY * entry_at(flag, value);
    fault why = fault_of(image);
    spoken sent = none;
    met[why]++;
    memcpy(wanted, image, SMR_TABLE);
    memcpy(table, image, SMR_TABLE);
    memset(buffer, MARK, ROOM);
    if (why == SOUND) code = image[at] == 0 ? SMR_NOT_OPEN : 0;
    if (code == 0) {
        memset(wanted + at, 0, ENTRY);
        sent = a_message(1 - flag, value, RELEASE_COMPLETE, none);
    }
    smr_called c = smr_release(table, SMR_TABLE, flag, value, buffer, ROOM);
    return c.code == code && memcmp(table, wanted, SMR_TABLE) == 0 &&
           is_said(buffer, c.written, sent) && is_marked(buffer, sent.length, ROOM);
}

/* Each octet at each value; the entry that is released has the octet, or the next one has. */
static void test_each_octet(bool full)
{
    uint8_t image[SMR_TABLE];
    char name[24];
    make_table(full, image);
    check(fault_of(image) == SOUND, "damage", "sound at first");
    for (size_t i = 0; i < SMR_TABLE; i++) {
        uint8_t old = image[i], k = (uint8_t)(i / ENTRY), next = (uint8_t)((k + 1) % ENTRIES);
        bool right = true;
        for (int octet = 0; octet < 256; octet++) {
            image[i] = (uint8_t)octet;
            right = right && is_right(image, k < OURS, k % OURS, octet & 1) &&
                    is_right(image, next < OURS, next % OURS, octet & 1);
        }
        image[i] = old;
        snprintf(name, sizeof name, "damage, octet %zu", i);
        check(right, name, full ? "of a full table" : "of a mixed table");
    }
}

/* The code of one of the other six calls. */
static uint8_t code_of(int call, uint8_t *table, uint8_t *out)
{
    static const uint8_t empty[] = {0x0B, 0x3A, 0x00}, record[] = {0x03, 0x0B, 0x3A, 0x00};
    spoken p = asked(59);
    switch (call) {
    case 0: return smr_receive(table, SMR_TABLE, empty, sizeof empty, out, SMR_MESSAGE).code;
    case 1: return smr_begin(table, SMR_TABLE, 59, 1, p.octets, p.length, out, SMR_MESSAGE).code;
    case 2:
        return smr_invoke(table, SMR_TABLE, 0, 0, 59, 1, p.octets, p.length, out, SMR_MESSAGE).code;
    case 3: return smr_result(table, SMR_TABLE, 0, 0, 5, NULL, 0, out, SMR_MESSAGE).code;
    case 4: return smr_batch(table, SMR_TABLE, record, sizeof record, out, SMR_MESSAGE).code;
    default: return smr_error(table, SMR_TABLE, 0, 0, 5, 34, NULL, 0, out, SMR_MESSAGE).code;
    }
}

/* Each refuses a damaged image with 28 and touches nothing, and none so a sound one. */
static bool all_refuse(const uint8_t *image)
{
    bool damaged = fault_of(image) != SOUND, agree = true;
    for (int call = 0; call < 6; call++) {
        uint8_t *table = lend(0, SMR_TABLE, call & 1), out[SMR_MESSAGE];
        memcpy(table, image, SMR_TABLE);
        memset(out, MARK, sizeof out);
        agree = agree && (code_of(call, table, out) == SMR_DAMAGED) == damaged;
        if (damaged)
            agree = agree && memcmp(table, image, SMR_TABLE) == 0 && is_marked(out, 0, sizeof out);
    }
    return agree;
}

/* Two octets: an id and its operation. */
static void swap_places(uint8_t *one, uint8_t *other)
{
    uint8_t held[2];
    memcpy(held, one, 2);
    memcpy(one, other, 2);
    memcpy(other, held, 2);
}

/* One change to an entry: an octet, a place, an id, an operation, the state. */
static void disturb_entry(uint8_t *octets)
{
    uint8_t *start = octets + 1 + SIDE * random_below(2);
    uint8_t *place = start + 2 * random_below(PLACES), *other = start + 2 * random_below(PLACES);
    switch (random_below(8)) {
    case 0: octets[random_below(ENTRY)] = (uint8_t)random_below(256); break;
    case 1: octets[random_below(ENTRY)] = 0; break;
    case 2: octets[0] = (uint8_t)random_below(9); break;
    case 3: place[0] = other[0]; break;
    case 4: place[1] = other[1]; break;
    case 5: swap_places(place, other); break;
    case 6: place[0] = place[1] = 0; break;
    default: place[1] = operation_at(random_below(21), random_below(2) == 0);
    }
}

/* Sound tables with none to three changes, mostly in the entry that is released. */
static void test_drawn(void)
{
    uint8_t image[SMR_TABLE];
    bool sound = true, right = true, refused = true;
    for (int i = 0; i < DRAWN; i++) {
        uint8_t k = (uint8_t)random_below(ENTRIES);
        draw_table(image);
        sound = sound && fault_of(image) == SOUND;
        for (uint32_t n = random_below(4); n > 0; n--)
            disturb_entry(image + ENTRY * (random_below(4) == 0 ? random_below(ENTRIES) : k));
        right = right && is_right(image, k < OURS, k % OURS, i & 1);
        refused = refused && all_refuse(image);
    }
    check(sound, "damage", "drawn sound");
    check(right, "damage", "a release of what is drawn");
    check(refused, "damage", "every call on what is drawn");
}

/* A table of any other length is damaged, whatever it holds. */
static void test_lengths(void)
{
    uint8_t buffer[ROOM] = {MARK, MARK, MARK, MARK};
    for (size_t length = 0; length <= 2 * SMR_TABLE; length++) {
        for (int k = 0; k < 4; k++) {
            uint8_t *table = lend(0, length, k & 1);
            memset(table, k < 2 ? 0x00 : 0xFF, length);
            uint8_t code = smr_release(table, length, 1, 0, buffer, sizeof buffer).code;
            check(code == (length == SMR_TABLE && k < 2 ? SMR_NOT_OPEN : SMR_DAMAGED) &&
                      is_marked(buffer, 0, ROOM),
                  "damage", "a table of another length");
        }
    }
}

void test_damage(void)
{
    test_each_octet(true);
    test_each_octet(false);
    test_drawn();
    test_lengths();
    for (int why = 0; why < FAULTS; why++)
        check(met[why] >= 1000, "damage", "each fault a thousand times");
}
