#include "account.h"

#include "lists.h"

#include <string.h>

enum { NO_PROBLEM = 255 };

outcome only(uint8_t code) { return (outcome){.code = code}; }

/* Step 6 of an Invoke, in its order: the problem, if any. */
static uint8_t judge_invoke(const entry *e, const step *s)
{
    size_t place = place_of(&e->peers, s->id), linked = place_of(&e->own, s->linked);
    if (place < e->peers.count) return 0;
    if (e->peers.count == PLACES) return 3;
    if (!is_served(s->operation)) return 1;
    if (s->has_linked) {
        if (linked == e->own.count) return 5;
        if (e->own.places[linked].operation != 17) return 6;
        if (s->operation != 18) return 7;
    }
    return s->form == SUITS ? NO_PROBLEM : 2;
}

/* "17 requires a Password; 59 takes USSD-Res or none; 10 to 14 take any one element or none" */
static uint8_t judge_result(const entry *e, const step *s)
{
    size_t place = place_of(&e->own, s->id);
    if (place == e->own.count) return 0;
    uint8_t ours = e->own.places[place].operation;
    if (s->form != MISSING && s->operation != ours) return 2;
    if (s->form == UNSUITED && (ours == 17 || ours == 59)) return 2;
    return s->form != SUITS && ours == 17 ? 2 : NO_PROBLEM;
}

static uint8_t judge_error(const entry *e, const step *s)
{
    size_t place = place_of(&e->own, s->id);
    if (place == e->own.count) return 0;
    if (!is_listed(s->code)) return 2;
    return may_return(e->own.places[place].operation, s->code) ? NO_PROBLEM : 3;
}

static uint8_t judge(const entry *e, const step *s)
{
    if (s->kind == SMR_INVOKE) return judge_invoke(e, s);
    if (s->kind == SMR_RESULT) return judge_result(e, s);
    return s->kind == SMR_ERROR ? judge_error(e, s) : NO_PROBLEM;
}

/* The entry is closed, with whatever waits. */
static outcome end(entry *e, outcome with)
{
    memset(e, 0, sizeof *e);
    return with;
}

/* What a taken component changes. */
static outcome take(entry *e, const step *s)
{
    e->open = true;
    if (s->kind == SMR_INVOKE && is_waited_for(s->operation))
        add_question(&e->peers, s->id, s->operation);
    if (s->kind == SMR_RESULT || s->kind == SMR_ERROR)
        drop_place(&e->own, place_of(&e->own, s->id));
    return (outcome){.code = SMR_TAKEN, .shows = true};
}

/* Steps 5 and 6, on an entry that is open or may become so. */
static outcome expect_component(entry *e, const step *s)
{
    uint8_t ours = 1 - s->flag, problem = judge(e, s);
    bool is_shown = problem == NO_PROBLEM && s->kind != SMR_INVOKE;
    spoken release = a_message(ours, s->value, RELEASE_COMPLETE, none);
    if (s->type == RELEASE_COMPLETE)
        return end(e, (outcome){.code = SMR_RELEASED, .shows = is_shown});
    if (s->kind == SMR_REJECT)
        return end(e, (outcome){.code = SMR_REJECTED, .sent = release, .shows = true});
    if (problem == NO_PROBLEM) return take(e, s);
    spoken reject = a_reject(s->id, (uint8_t)(s->kind - SMR_INVOKE + SMR_PROBLEM_INVOKE), problem);
    return end(e, (outcome){.code = SMR_RELEASED_REJECT,
                            .problem = problem,
                            .sent = a_message(ours, s->value, RELEASE_COMPLETE, reject)});
}

/* Steps 2 and 3, then those. */
outcome expect_received(entry *account, const step *s)
{
    uint8_t ours = 1 - s->flag;
    if (s->value > 6) return only(SMR_IGNORED);
    entry *e = account + entry_at(s->flag, s->value);
    if (!e->open && (s->type == RELEASE_COMPLETE || (s->type == REGISTER && s->flag == 1)))
        return only(SMR_IGNORED);
    if (!e->open && s->type == FACILITY)
        return (outcome){.code = SMR_RELEASED_CAUSE, .sent = a_cause(ours, s->value, 81)};
    if (e->open && s->type == REGISTER)
        return end(e, (outcome){.code = SMR_RELEASED_CAUSE, .sent = a_cause(ours, s->value, 98)});
    return expect_component(e, s);
}

static outcome expect_begin(entry *account, const step *s)
{
    uint8_t value = 0;
    if (!is_begun(s->operation)) return only(SMR_NO_OPERATION);
    while (value < OURS && account[value].open) value++;
    if (value == OURS) return only(SMR_NO_VALUE);
    if (s->form != SUITS) return only(SMR_PARAMETER);
    account[value].open = true;
    add_question(&account[value].own, s->id, s->operation);
    spoken invoke = an_invoke(s->id, s->operation, asked(s->operation));
    return (outcome){.value = value, .sent = our_register(value, invoke)};
}

static outcome expect_invoke(entry *e, const step *s)
{
    size_t place = place_of(&e->own, s->id);
    if (e->own.count == PLACES || place < e->own.count) return only(SMR_OUTSTANDING);
    if (s->form != SUITS) return only(SMR_PARAMETER);
    add_question(&e->own, s->id, s->operation);
    spoken invoke = an_invoke(s->id, s->operation, asked(s->operation));
    return (outcome){.sent = a_message(1 - s->flag, s->value, FACILITY, invoke)};
}

/* "18 a Password; 60 USSD-Res or none; 61 none": the parameter is that of some operation. */
static bool suits_result(uint8_t operation, const step *s)
{
    bool password = s->operation == 17 || s->operation == 18;
    bool text = s->operation == 59 || s->operation == 60;
    if (operation == 18) return password;
    return s->operation == 61 || (text && operation == 60);
}

/* A result or an error of ours. */
static outcome expect_answer(entry *e, const step *s)
{
    size_t place = place_of(&e->peers, s->id);
    if (place == e->peers.count) return only(SMR_NO_INVOKE);
    uint8_t operation = e->peers.places[place].operation;
    if (s->form != SUITS || (s->kind == SMR_RESULT && !suits_result(operation, s)))
        return only(SMR_PARAMETER);
    drop_place(&e->peers, place);
    spoken component = s->kind == SMR_ERROR ? an_error(s->id, s->code, none)
                                            : a_result(s->id, operation, answered(s->operation));
    return (outcome){.sent = a_message(1 - s->flag, s->value, FACILITY, component)};
}

/* In the order of the refusals' numbers. */
outcome expect_called(entry *account, const step *s)
{
    if (s->type == REGISTER) return expect_begin(account, s);
    if (s->type == FACILITY && s->kind == SMR_INVOKE && !is_begun(s->operation))
        return only(SMR_NO_OPERATION);
    if (s->type == FACILITY && s->kind == SMR_ERROR && !is_listed(s->code))
        return only(SMR_NO_OPERATION);
    if (s->value > 6 || !account[entry_at(s->flag, s->value)].open) return only(SMR_NOT_OPEN);
    entry *e = account + entry_at(s->flag, s->value);
    if (s->type == FACILITY && s->kind == SMR_INVOKE) return expect_invoke(e, s);
    if (s->type == FACILITY) return expect_answer(e, s);
    return end(e, (outcome){.sent = a_message(1 - s->flag, s->value, RELEASE_COMPLETE, none)});
}
