#include "recorded.h"

#include "chance.h"
#include "drawn.h"
#include "smrcholet.h"

#include <stdio.h>
#include <stdlib.h>
#include <string.h>

void add_record(row *to, const uint8_t *message, size_t length)
{
    if (length == 0 || length > 255 || MOST_RECORDED - to->length < 1 + length) {
        puts("no room for a record");
        exit(2);
    }
    to->octets[to->length++] = (uint8_t)length;
    memcpy(to->octets + to->length, message, length);
    to->length += length;
}

/* Octets by chance, of our protocol mostly. */
static size_t make_noise(uint8_t *to)
{
    size_t n = 1 + random_below(255);
    for (size_t i = 0; i < n; i++) to[i] = (uint8_t)random_below(256);
    if (!one_in(4)) to[0] = (uint8_t)(to[0] | 0x0F) & 0xFB;
    return n;
}

/* An element behind it that is passed over, often up to the 255th octet. */
static size_t lengthen(uint8_t *to, size_t n)
{
    size_t value = one_in(2) ? 253 - n : random_below((uint32_t)(254 - n));
    to[n] = 0x7F;
    to[n + 1] = (uint8_t)value;
    memset(to + n + 2, 0, value);
    return n + 2 + value;
}

/* A message of one component or none, mostly as a side writes it. */
static size_t draw_message(const entry *account, bool asking, uint8_t *to)
{
    if (one_in(16)) return make_noise(to);
    step s = draw_received(account, asking);
    spoken made = a_message(s.flag, s.value, s.type, component_of(&s));
    memcpy(to, made.octets, made.length);
    switch (random_below(16)) {
    case 0:
        for (uint32_t k = 1 + random_below(3); k > 0; k--)
            to[random_below((uint32_t)made.length)] = (uint8_t)random_below(256);
        return made.length;
    case 1: return 1 + random_below((uint32_t)made.length);
    case 2: return lengthen(to, made.length);
    default: return made.length;
    }
}

void draw_row(row *to, const uint8_t *table, size_t count)
{
    uint8_t now[SMR_TABLE], message[255], reply[SMR_REPLY];
    entry account[ENTRIES];
    bool asking = !one_in(3);
    memcpy(now, table, sizeof now);
    to->length = 0;
    for (; count > 0; count--) {
        see_table(now, account);
        size_t n = draw_message(account, asking, message);
        add_record(to, message, n);
        smr_receive(now, sizeof now, message, n, reply, sizeof reply);
    }
}

size_t count_records(const uint8_t *octets, size_t length)
{
    size_t n = 0;
    for (; length > 0; n++) {
        size_t says = octets[0], left = length - 1;
        if (says == 0 || says > left) return NO_ROW;
        octets += 1 + says;
        length = left - says;
    }
    return n;
}

size_t record_at(const row *in, size_t n)
{
    size_t at = 0;
    for (; n > 0; n--) at += 1 + (size_t)in->octets[at];
    return at;
}
