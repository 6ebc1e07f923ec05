/* Long conversations by chance. After each call the table's octets must be those of the
 * account, and all that the call gave must be what the papers say. */
#include "account.h"
#include "check.h"
#include "drawn.h"
#include "lent.h"
#include "talk.h"

#include <stdio.h>
#include <string.h>

enum { STEPS = 400000 };

static entry account[ENTRIES];

/* What has been met, each at one of the four places or in general. */
enum {
    DUPLICATE,
    EQUAL_ID,
    LINKED,
    OTHER_LINKED,
    RESULT_CAME,
    ERROR_CAME,
    RESULT_SENT,
    ERROR_SENT,
    AT_A_PLACE,
    FIFTH_CAME = AT_A_PLACE,
    FIFTH_OF_OURS,
    EIGHT_WAIT,
    NOT_LINKED,
    MANY_END,
    MET
};
static const char *const names[MET] = {
    [DUPLICATE] = "a duplicate of each place",
    [EQUAL_ID] = "an equal id at each place",
    [LINKED] = "linked to each place",
    [OTHER_LINKED] = "linked to no 17 at each place",
    [RESULT_CAME] = "a result to each place",
    [ERROR_CAME] = "an error to each place",
    [RESULT_SENT] = "our result to each place",
    [ERROR_SENT] = "our error to each place",
    [FIFTH_CAME] = "a fifth that comes",
    [FIFTH_OF_OURS] = "a fifth of ours",
    [EIGHT_WAIT] = "eight that wait",
    [NOT_LINKED] = "linked to none of ours",
    [MANY_END] = "an end of many",
};
static unsigned met[MET][PLACES];

/* What a message met, by the entry as it was. */
static void note_received(const entry *e, const step *s, const outcome *o)
{
    size_t linked = place_of(&e->own, s->linked), place = place_of(&e->own, s->id);
    met[EIGHT_WAIT][0] += e->own.count + e->peers.count == 2 * PLACES;
    met[MANY_END][0] += o->code > SMR_IGNORED && e->own.count > 1 && e->peers.count > 1;
    if (o->code == SMR_RELEASED_REJECT && s->kind == SMR_INVOKE) {
        if (o->problem == 0) met[DUPLICATE][place_of(&e->peers, s->id)]++;
        if (o->problem == 3) met[FIFTH_CAME][0]++;
        if (o->problem == 5) met[NOT_LINKED][0]++;
        if (o->problem == 6) met[OTHER_LINKED][linked]++;
    }
    if (o->code != SMR_TAKEN) return;
    if (s->kind == SMR_INVOKE && s->has_linked) met[LINKED][linked]++;
    if (s->kind == SMR_RESULT) met[RESULT_CAME][place]++;
    if (s->kind == SMR_ERROR) met[ERROR_CAME][place]++;
}

/* And what a call of ours met. */
static void note_called(const entry *e, const step *s, const outcome *o)
{
    size_t own = place_of(&e->own, s->id), place = place_of(&e->peers, s->id);
    if (o->code == SMR_OUTSTANDING && own < e->own.count) met[EQUAL_ID][own]++;
    if (o->code == SMR_OUTSTANDING && own == e->own.count) met[FIFTH_OF_OURS][0]++;
    if (s->type != FACILITY || o->code != 0) return;
    if (s->kind == SMR_RESULT) met[RESULT_SENT][place]++;
    if (s->kind == SMR_ERROR) met[ERROR_SENT][place]++;
}

static bool shows_nothing(const smr_received *r)
{
    return r->shown.kind == SMR_NOTHING && !r->text.is_there;
}

/* The component as it came, and its text where it has one. */
static bool shows(const smr_received *r, const step *s, const uint8_t *message)
{
    const smr_component *c = &r->shown;
    bool invoke = s->kind == SMR_INVOKE, result = s->kind == SMR_RESULT;
    bool has_operation = invoke || (result && s->form != MISSING);
    bool text = s->form == SUITS && ((invoke && (s->operation == 60 || s->operation == 61)) ||
                                     (result && s->operation == 59));
    if (c->kind != s->kind || r->text.is_there != text) return false;
    if (s->kind == SMR_NOTHING) return true;
    if (text && message[r->text.string.start] != (invoke ? 0x41 : 0x31)) return false;
    return c->has_id && c->id == s->id && c->has_linked == s->has_linked &&
           c->linked == (s->has_linked ? s->linked : 0) && c->has_operation == has_operation &&
           c->operation == (has_operation ? s->operation : 0) &&
           c->code == (s->kind == SMR_ERROR ? s->code : 0);
}

static bool is_account(const uint8_t *table)
{
    uint8_t image[SMR_TABLE];
    put_table(account, image);
    return memcmp(table, image, sizeof image) == 0;
}

/* A message comes; seldom the reply buffer is too short, and nothing happens. */
static bool run_received(const step *s, uint8_t *table, int before)
{
    spoken made = a_message(s->flag, s->value, s->type, component_of(s));
    size_t room = one_in(64) ? SMR_REPLY - 1 : SMR_REPLY;
    uint8_t *message = lend(1, made.length, before), *reply = lend(2, room, before);
    entry old = *named(s, account);
    outcome o = room < SMR_REPLY ? only(SMR_SHORT_BUFFER) : expect_received(account, s);
    note_received(&old, s, &o);
    memcpy(message, made.octets, made.length);
    memset(reply, MARK, room);
    smr_received r = smr_receive(table, SMR_TABLE, message, made.length, reply, room);
    return r.code == o.code && is_said(reply, r.written, o.sent) &&
           is_marked(reply, r.written, room) &&
           (o.shows ? shows(&r, s, message) : shows_nothing(&r));
}

static smr_called call(const step *s, uint8_t *table, spoken p, uint8_t *buffer, size_t room)
{
    if (s->type == REGISTER)
        return smr_begin(table, SMR_TABLE, s->operation, s->id, p.octets, p.length, buffer, room);
    if (s->type == RELEASE_COMPLETE)
        return smr_release(table, SMR_TABLE, s->flag, s->value, buffer, room);
    if (s->kind == SMR_INVOKE)
        return smr_invoke(table, SMR_TABLE, s->flag, s->value, s->operation, s->id, p.octets,
                          p.length, buffer, room);
    if (s->kind == SMR_RESULT)
        return smr_result(table, SMR_TABLE, s->flag, s->value, s->id, p.octets, p.length, buffer,
                          room);
    return smr_error(table, SMR_TABLE, s->flag, s->value, s->id, s->code, p.octets, p.length,
                     buffer, room);
}

/* Our invokes need a parameter, so none is unsuited; an error's is one element. */
static spoken parameter_of(const step *s)
{
    static const spoken lone = {1, {0x05}};
    if (s->type == FACILITY && s->kind == SMR_ERROR) return s->form == SUITS ? none : lone;
    if (s->type == FACILITY && s->kind == SMR_RESULT)
        return s->form == SUITS ? answered(s->operation) : some;
    return s->form == SUITS ? asked(s->operation) : none;
}

/* A call of ours, often with the very room for what it sends, seldom with one less. */
static bool run_called(const step *s, uint8_t *table, int before)
{
    entry old[ENTRIES];
    size_t room = SMR_MESSAGE;
    memcpy(old, account, sizeof old);
    outcome o = expect_called(account, s);
    if (o.code == 0 && one_in(4)) room = o.sent.length;
    if (o.code == 0 && one_in(32)) {
        room = o.sent.length - 1;
        o = only(SMR_SHORT_BUFFER);
        memcpy(account, old, sizeof old);
    }
    if (s->value <= 6) note_called(old + entry_at(s->flag, s->value), s, &o);
    uint8_t *buffer = lend(2, room, before);
    memset(buffer, MARK, room);
    smr_called c = call(s, table, parameter_of(s), buffer, room);
    return c.code == o.code && c.value == o.value && is_said(buffer, c.written, o.sent) &&
           is_marked(buffer, c.written, room);
}

void test_wander(void)
{
    char name[32];
    int steps = 0;
    bool given = true, stands = true;
    memset(lend(0, SMR_TABLE, 1), 0, SMR_TABLE);
    for (; steps < STEPS && given && stands; steps++) {
        int before = steps & 1;
        bool asking = steps / 300 % 3 != 2;
        /* both guards look at one table */
        uint8_t *table = lend(0, SMR_TABLE, before);
        memcpy(table, lend(0, SMR_TABLE, !before), SMR_TABLE);
        if (one_in(2)) {
            step s = draw_received(account, asking);
            given = run_received(&s, table, before);
        } else {
            step s = draw_called(account, asking);
            given = run_called(&s, table, before);
        }
        stands = is_account(table);
    }
    snprintf(name, sizeof name, "wander, step %d", steps);
    check(given, name, "what a call gives");
    check(stands, name, "the table is the account");
    if (!given || !stands) return;
    for (int k = 0; k < MET; k++)
        for (int place = 0; place < (k < AT_A_PLACE ? PLACES : 1); place++)
            check(met[k][place] >= 100, "wander", names[k]);
}
