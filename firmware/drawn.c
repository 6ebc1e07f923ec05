#include "drawn.h"

#include "chance.h"
#include "lists.h"

#include <string.h>

static const uint8_t peers_ask[] = {18, 60, 61};

uint8_t operation_at(size_t i, bool own)
{
    return own ? begun[i % BEGUN] : peers_ask[i % sizeof peers_ask];
}

/* None to four questions, their ids from a few or from all. */
static side draw_side(bool own)
{
    side to = {.count = 0};
    for (uint32_t n = random_below(PLACES + 1); n > 0; n--) {
        int8_t id = (int8_t)random_below(random_below(2) == 0 ? 6 : 256);
        if (place_of(&to, id) < to.count) continue;
        add_question(&to, id, operation_at(random_below(21), own));
    }
    return to;
}

void draw_table(uint8_t *image)
{
    entry entries[ENTRIES];
    memset(entries, 0, sizeof entries);
    for (size_t k = 0; k < ENTRIES; k++) {
        if (random_below(4) == 0) continue;
        entries[k].open = true;
        entries[k].own = draw_side(true);
        entries[k].peers = draw_side(false);
    }
    put_table(entries, image);
}

bool one_in(uint32_t n) { return random_below(n) == 0; }

/* An id that waits on this side, or one that doesn't; seldom the other of both. */
static int8_t draw_id(const side *of, bool waits)
{
    int8_t id;
    if (one_in(16)) waits = !waits;
    if (waits && of->count > 0) return of->places[random_below((uint32_t)of->count)].id;
    do id = (int8_t)(one_in(2) ? random_below(8) : random_below(256));
    while (place_of(of, id) < of->count);
    return id;
}

static uint8_t operation_of(const side *in, int8_t id)
{
    size_t place = place_of(in, id);
    return place < in->count ? in->places[place].operation : 0;
}

/* An Invoke; where a 17 of ours waits it is often linked to it. */
static void draw_invoke(step *s, const entry *e)
{
    static const uint8_t often[] = {18, 18, 60, 60, 61, 38};
    s->id = draw_id(&e->peers, e->peers.count == PLACES && one_in(2));
    s->operation = one_in(32) ? (uint8_t)random_below(256) : often[random_below(sizeof often)];
    s->linked = draw_id(&e->own, true);
    bool fits = s->operation == 18 && operation_of(&e->own, s->linked) == 17;
    s->has_linked = one_in(fits ? 2 : 12);
    s->form = one_in(32) ? UNSUITED : SUITS;
}

static void draw_answer(step *s, const side *to)
{
    static const uint8_t often[] = {13, 34, 35, 36};
    s->id = draw_id(to, true);
    s->operation = one_in(32) ? (uint8_t)random_below(256) : operation_of(to, s->id);
    s->code = one_in(16) ? (uint8_t)random_below(256) : often[random_below(sizeof often)];
    s->form = one_in(8) ? (form)random_below(4) : SUITS;
}

/* A transaction: four of them often, value 7 seldom. */
static void draw_transaction(step *s)
{
    s->flag = (uint8_t)random_below(2);
    s->value = (uint8_t)(one_in(4) ? random_below(7) : random_below(2));
    if (one_in(128)) s->value = 7;
}

const entry *named(const step *s, const entry *account)
{
    static const entry closed;
    return s->value > 6 ? &closed : account + entry_at(s->flag, s->value);
}

step draw_received(const entry *account, bool asking)
{
    static const uint8_t types[] = {FACILITY, REGISTER, RELEASE_COMPLETE};
    step s = {.kind = SMR_NOTHING};
    draw_transaction(&s);
    const entry *e = named(&s, account);
    s.type = e->open ? FACILITY : REGISTER;
    if (one_in(64)) s.type = types[random_below(sizeof types)];
    if (one_in(asking ? 8 : 2)) s.kind = one_in(2) ? SMR_RESULT : SMR_ERROR;
    else if (!one_in(16)) s.kind = SMR_INVOKE;
    if (one_in(200)) s.kind = SMR_REJECT;
    /* most of what would only end the transaction is left out */
    if (s.kind == SMR_INVOKE && e->peers.count == PLACES && !one_in(8)) s.kind = SMR_NOTHING;
    if ((s.kind == SMR_RESULT || s.kind == SMR_ERROR) && e->own.count == 0 && !one_in(32))
        s.kind = SMR_NOTHING;
    if (s.kind == SMR_INVOKE) draw_invoke(&s, e);
    else draw_answer(&s, &e->own);
    return s;
}

step draw_called(const entry *account, bool asking)
{
    step s = {.type = FACILITY};
    draw_transaction(&s);
    const entry *e = named(&s, account);
    if (one_in(100)) s.type = RELEASE_COMPLETE;
    else if (one_in(s.flag == 1 && !e->open ? 2 : 32)) s.type = REGISTER;
    if (s.type == FACILITY && one_in(asking ? 4 : 2)) {
        s.kind = one_in(2) ? SMR_RESULT : SMR_ERROR;
        draw_answer(&s, &e->peers);
        return s;
    }
    s.kind = SMR_INVOKE;
    s.id = draw_id(&e->own, false);
    s.operation = one_in(3) ? 17 : begun[random_below(BEGUN)];
    if (one_in(32)) s.operation = (uint8_t)random_below(256);
    s.form = one_in(32) ? UNSUITED : SUITS;
    return s;
}

spoken component_of(const step *s)
{
    spoken parameter = s->form == UNSUITED ? some : asked(s->operation);
    if (s->kind == SMR_INVOKE)
        return s->has_linked ? a_linked_invoke(s->id, s->linked, s->operation, parameter)
                             : an_invoke(s->id, s->operation, parameter);
    if (s->kind == SMR_RESULT) {
        parameter = s->form == UNSUITED ? some : answered(s->operation);
        if (s->form == MISSING) return a_result(s->id, s->operation, none);
        if (s->form == BARE || parameter.length == 0) return a_bare_result(s->id, s->operation);
        return a_result(s->id, s->operation, parameter);
    }
    if (s->kind == SMR_ERROR) return an_error(s->id, s->code, s->form == UNSUITED ? some : none);
    return s->kind == SMR_REJECT ? a_reject(s->id, SMR_PROBLEM_GENERAL, 0) : none;
}
