/* Conversations: the table goes on from call to call, as in the modem. */
#include "talk.h"

#include "chance.h"
#include "check.h"
#include "image.h"
#include "lent.h"
#include "lists.h"
#include "smrcholet.h"
#include "spoken.h"

#include <stdio.h>
#include <string.h>

static const uint8_t menu[] = {0x0B, 0x3B, 0x1C, 0x10, 0xA1, 0x0E, 0x02, 0x01, 0x05, 0x02,
                               0x01, 0x3C, 0x30, 0x06, 0x04, 0x01, 0x0F, 0x04, 0x01, 0x41};
static const uint8_t text[] = {0x30, 0x06, 0x04, 0x01, 0x0F, 0x04, 0x01, 0x41};

/* A menu comes, comes again, and is answered. */
static void test_menu(void)
{
    uint8_t table[SMR_TABLE] = {0}, reply[SMR_REPLY], again[sizeof menu - 1];
    uint8_t out[SMR_MESSAGE];
    smr_received r = smr_receive(table, sizeof table, menu, sizeof menu, reply, sizeof reply);
    check(r.code == SMR_TAKEN && r.shown.id == 5, "menu", "taken");
    check(menu[r.text.string.start] == 0x41, "menu", "its string");

    smr_called c = smr_result(table, sizeof table, 0, 0, 5, text, sizeof text, out, sizeof out);
    check(c.code == 0 && c.written == 21, "menu", "answered");
    c = smr_result(table, sizeof table, 0, 0, 5, text, sizeof text, out, sizeof out);
    check(c.code == SMR_NO_INVOKE, "menu", "answered once");

    /* the same as FACILITY: the transaction is open, so it is taken, once */
    again[0] = 0x0B;
    again[1] = 0x3A;
    memcpy(again + 2, menu + 3, sizeof menu - 3);
    r = smr_receive(table, sizeof table, again, sizeof again, reply, sizeof reply);
    check(r.code == SMR_TAKEN, "menu", "a second one");
    r = smr_receive(table, sizeof table, again, sizeof again, reply, sizeof reply);
    check(r.code == SMR_RELEASED_REJECT && r.written == 12, "menu", "a duplicate");
    r = smr_receive(table, sizeof table, menu, sizeof menu, reply, sizeof reply);
    check(r.code == SMR_TAKEN, "menu", "from the start");
}

/* Seven values, an eighth begin refused, a released value taken again. */
static void test_values(void)
{
    uint8_t table[SMR_TABLE] = {0}, out[SMR_MESSAGE], old[SMR_TABLE];
    smr_called c;
    for (uint8_t v = 0; v < 7; v++) {
        c = smr_begin(table, sizeof table, 59, (int8_t)v, text, sizeof text, out, sizeof out);
        check(c.code == 0 && c.value == v && out[0] == (v << 4 | 0x0B), "values", "in order");
    }
    memcpy(old, table, sizeof old);
    c = smr_begin(table, sizeof table, 59, 7, text, sizeof text, out, sizeof out);
    check(c.code == SMR_NO_VALUE && c.written == 0, "values", "an eighth");
    check(memcmp(old, table, sizeof old) == 0, "values", "left alone");
    c = smr_release(table, sizeof table, 1, 3, out, sizeof out);
    check(c.code == 0 && c.written == 2 && out[0] == 0x3B, "values", "a release");
    c = smr_begin(table, sizeof table, 59, 7, text, sizeof text, out, sizeof out);
    check(c.code == 0 && c.value == 3, "values", "taken again");
}

/* We begin an operation, and this code comes back as its error: in FACILITY, or with a
 * release. The table and the reply are left as they became. */
static smr_received answer_with(uint8_t operation, uint8_t type, uint8_t code, uint8_t *table,
                                uint8_t *reply)
{
    uint8_t out[SMR_MESSAGE];
    spoken p = asked(operation), error = a_message(1, 0, type, an_error(-128, code, none));
    memset(table, 0, SMR_TABLE);
    smr_called c =
        smr_begin(table, SMR_TABLE, operation, -128, p.octets, p.length, out, sizeof out);
    if (c.code != 0) check(false, "errors", "begun");
    return smr_receive(table, SMR_TABLE, error.octets, error.length, reply, SMR_REPLY);
}

/* Each operation, each code: taken and shown if its list has it, else refused. */
static void test_errors(void)
{
    static const uint8_t closed[SMR_TABLE];
    uint8_t table[SMR_TABLE], reply[SMR_REPLY];
    for (size_t k = 0; k < BEGUN; k++) {
        bool taken = true, refused = true, ended = true;
        for (int code = 0; code < 256; code++) {
            bool fits = may_return(begun[k], (uint8_t)code);
            uint8_t problem = is_listed((uint8_t)code) ? 3 : 2;
            smr_received r = answer_with(begun[k], FACILITY, (uint8_t)code, table, reply);
            if (fits)
                taken = taken && r.code == SMR_TAKEN && r.shown.kind == SMR_ERROR &&
                        r.shown.code == code && r.shown.id == -128 && r.written == 0 &&
                        table[0] == 1;
            else
                refused = refused && r.code == SMR_RELEASED_REJECT && r.written == 12 &&
                          reply[9] == SMR_PROBLEM_ERROR && reply[11] == problem &&
                          r.shown.kind == SMR_NOTHING &&
                          memcmp(table, closed, sizeof closed) == 0;
            r = answer_with(begun[k], RELEASE_COMPLETE, (uint8_t)code, table, reply);
            ended = ended && r.code == SMR_RELEASED && r.written == 0 &&
                    r.shown.kind == (fits ? SMR_ERROR : SMR_NOTHING) &&
                    memcmp(table, closed, sizeof closed) == 0;
        }
        check(taken, "errors", "of its list: taken");
        check(refused, "errors", "of no list: refused");
        check(ended, "errors", "with a release");
    }
}

/* NULL with length 0, everywhere. */
static void test_nothing(void)
{
    uint8_t table[SMR_TABLE] = {0}, reply[SMR_REPLY];
    check(smr_receive(NULL, 0, NULL, 0, NULL, 0).code == SMR_DAMAGED, "null", "receive");
    check(smr_begin(NULL, 0, 59, 1, NULL, 0, NULL, 0).code == SMR_DAMAGED, "null", "begin");
    check(smr_invoke(NULL, 0, 0, 0, 59, 1, NULL, 0, NULL, 0).code == SMR_DAMAGED, "null", "invoke");
    check(smr_result(NULL, 0, 0, 0, 1, NULL, 0, NULL, 0).code == SMR_DAMAGED, "null", "result");
    check(smr_error(NULL, 0, 0, 0, 1, 1, NULL, 0, NULL, 0).code == SMR_DAMAGED, "null", "error");
    check(smr_release(NULL, 0, 0, 0, NULL, 0).code == SMR_DAMAGED, "null", "release");
    check(smr_receive(table, sizeof table, NULL, 0, NULL, 0).code == SMR_SHORT_BUFFER, "null",
          "no buffer");
    check(smr_receive(table, sizeof table, NULL, 0, reply, sizeof reply).code == SMR_IGNORED,
          "null", "no message");
    check(smr_begin(table, sizeof table, 59, 1, NULL, 0, NULL, 0).code == SMR_PARAMETER, "null",
          "no parameter");
}

/* Messages that are right from some table: a menu, a password asked for, a result,
 * an error, a Reject, a release. */
static const char *const corpus[] = {
    "0B3B1C10A10E02010502013C300604010F040141", "0B3A0BA1090201070201120A0100",
    "8B3A12A210020101300B02013B300604010F040141", "8B3A08A306020101020111",
    "0B3A08A406020105810100", "8B2A0802E09D1C05A203020101",
};

static uint8_t nibble(char c)
{
    return (uint8_t)(c <= '9' ? c - '0' : c - 'A' + 10);
}

/* One of them with octets changed, or cut, or in another transaction; or noise. */
static size_t disturb(uint8_t *to)
{
    const char *hex = corpus[random_below(sizeof corpus / sizeof *corpus)];
    bool noise = random_below(4) == 0;
    size_t n = noise ? random_below(258) : strlen(hex) / 2;
    for (size_t i = 0; i < n; i++)
        to[i] = noise ? (uint8_t)random_below(256)
                      : (uint8_t)(nibble(hex[2 * i]) << 4 | nibble(hex[2 * i + 1]));
    if (n > 0 && random_below(4) == 0) to[0] = (uint8_t)(0x0B | random_below(16) << 4);
    for (uint32_t k = random_below(3); k > 0 && n > 0; k--)
        to[random_below((uint32_t)n)] = (uint8_t)random_below(256);
    return random_below(8) == 0 ? random_below((uint32_t)n + 1) : n;
}

/* Noise from lent rooms whose guards would fault: the table never breaks. */
static void test_noise(void)
{
    static const char eight[] = "o0 own 1:59/2:17/3:11/4:10 peers 5:60/6:18/8:61/9:60 "
                                "n0 own 1:10/2:59 peers 6:61/8:18/9:60";
    static uint8_t made[300];
    unsigned counts[8] = {0};
    bool sound = true, kept = true;
    for (int i = 0; i < 300000; i++) {
        int before = i & 1;
        uint8_t *table = lend(0, SMR_TABLE, before), *reply = lend(2, SMR_REPLY, before);
        if (i % 100 < 2) read_table(i % 200 < 2 ? "o0 own 1:59" : eight, table);
        size_t n = disturb(made);
        uint8_t *message = lend(1, n, before);
        memcpy(message, made, n);
        memset(reply, MARK, SMR_REPLY);
        smr_received r = smr_receive(table, SMR_TABLE, message, n, reply, SMR_REPLY);
        sound = sound && r.code < 8 && r.shown.parameter.end <= n && r.text.tail.end <= n &&
                r.cause.contents.end <= n && fault_of(table) == SOUND;
        kept = kept && is_marked(reply, r.written, SMR_REPLY);
        if (r.code < 8) counts[r.code]++;
        /* both guards look at one table */
        memcpy(lend(0, SMR_TABLE, !before), table, SMR_TABLE);
    }
    check(sound, "noise", "a verdict, parts within, a sound table");
    check(kept, "noise", "octets behind the reply");
    for (int k = 0; k < 8; k++) check(counts[k] >= 100, "noise", "each verdict a hundred times");
}

int main(void)
{
    test_menu();
    test_values();
    test_errors();
    test_nothing();
    test_noise();
    test_four();
    test_wander();
    test_damage();
    return checks_done();
}
