#include "check.h"
#include "image.h"
#include "lent.h"
#include "lists.h"
#include "spoken.h"
#include "talk.h"

#include <stdio.h>
#include <string.h>

/* What is talked about is value 0, ours or the network's. These stay as they are
 * throughout, though they have the ids of the talk. */
#define OTHERS "o1 own 1:17/2:59 peers 5:18 n1 own 1:17 peers 5:60/6:61"

static uint8_t flag; /* 1 if the transaction is ours */
static entry wanted[ENTRIES], *now;
static uint8_t table[SMR_TABLE], out[SMR_MESSAGE];
static smr_received got;
static smr_called called;

/* The first thing that breaks a conversation is told; what follows from it isn't. */
static bool is_broken;
static void tell(bool holds, const char *what)
{
    if (!is_broken) check(holds, flag == 1 ? "four, in ours" : "four, in the network's", what);
    is_broken = is_broken || !holds;
}

static void read_words(const char *words, entry *to)
{
    char all[200];
    snprintf(all, sizeof all, "%s %s " OTHERS, flag == 1 ? "o0" : "n0", words);
    read_entries(all, to);
}

/* Open, with what these words say. */
static void start(const char *words)
{
    is_broken = false;
    read_words(words, wanted);
    put_table(wanted, table);
    now = wanted + entry_at(flag, 0);
}

static void close_now(void) { memset(now, 0, sizeof *now); }

static void start_closed(void)
{
    start("");
    close_now();
    put_table(wanted, table);
}

/* The table's octets are those of what must wait: no more, no less, in this order. */
static bool stands(void)
{
    uint8_t image[SMR_TABLE];
    put_table(wanted, image);
    return memcmp(table, image, sizeof image) == 0;
}

static bool stands_as(const char *words)
{
    read_words(words, wanted);
    return stands();
}

static bool sends(spoken message)
{
    return called.code == 0 && is_said(out, called.written, message);
}

/* Refused, and neither table nor buffer is touched. */
static bool is_refused(uint8_t refusal)
{
    return called.code == refusal && called.written == 0 && stands() &&
           is_marked(out, 0, sizeof out);
}

static void receive(uint8_t type, spoken facility)
{
    spoken message = a_message(flag, 0, type, facility);
    got = smr_receive(table, sizeof table, message.octets, message.length, out, SMR_REPLY);
}

/* A component that is taken and shown. */
static bool takes(spoken component, uint8_t kind, int8_t id)
{
    receive(FACILITY, component);
    return got.code == SMR_TAKEN && got.written == 0 && got.shown.kind == kind &&
           got.shown.id == id;
}

/* A component that is refused: the transaction is over, with all that waits in it. */
static bool rejects(spoken component, int8_t id, uint8_t tag, uint8_t problem)
{
    receive(FACILITY, component);
    close_now();
    return got.code == SMR_RELEASED_REJECT && got.shown.kind == SMR_NOTHING && stands() &&
           is_said(out, got.written,
                   a_message(1 - flag, 0, RELEASE_COMPLETE, a_reject(id, tag, problem)));
}

/* Our calls, with a parameter that suits or another. */
static void ask_with(int8_t id, uint8_t operation, spoken parameter)
{
    memset(out, MARK, sizeof out);
    called = smr_invoke(table, sizeof table, flag, 0, operation, id, parameter.octets,
                        parameter.length, out, sizeof out);
}

static void ask(int8_t id, uint8_t operation) { ask_with(id, operation, asked(operation)); }

static void answer(int8_t id, uint8_t operation)
{
    spoken parameter = answered(operation);
    memset(out, MARK, sizeof out);
    called = smr_result(table, sizeof table, flag, 0, id, parameter.octets, parameter.length, out,
                        sizeof out);
}

static void answer_with_error(int8_t id)
{
    memset(out, MARK, sizeof out);
    called = smr_error(table, sizeof table, flag, 0, id, 72, NULL, 0, out, sizeof out);
}

/* We ask, and it goes out and waits behind the others. */
static void check_asked(int8_t id, uint8_t operation)
{
    ask(id, operation);
    add_question(&now->own, id, operation);
    tell(sends(a_message(1 - flag, 0, FACILITY, an_invoke(id, operation, asked(operation)))),
         "we ask");
    tell(stands(), "it waits last");
}

/* We are asked, and it is shown and waits behind the others. */
static void check_comes(int8_t id, uint8_t operation)
{
    spoken invoke = an_invoke(id, operation, asked(operation));
    tell(takes(invoke, SMR_INVOKE, id), "we are asked");
    add_question(&now->peers, id, operation);
    tell(got.shown.operation == operation && stands(), "it waits last too");
}

/* We answer one that waits, and those behind it move up. */
static void check_answered(int8_t id, bool by_error)
{
    size_t place = place_of(&now->peers, id);
    uint8_t operation = now->peers.places[place].operation;
    if (by_error) answer_with_error(id);
    else answer(id, operation);
    drop_place(&now->peers, place);
    tell(sends(a_message(1 - flag, 0, FACILITY,
                         by_error ? an_error(id, 72, none)
                                  : a_result(id, operation, answered(operation)))),
         "our answer");
    tell(stands(), "the others move up");
}

/* One of ours is answered: the result or error is shown, and those behind it move up. */
static void check_answer_comes(int8_t id, bool by_error)
{
    size_t place = place_of(&now->own, id);
    uint8_t operation = now->own.places[place].operation;
    bool text = !by_error && operation == 59;
    tell(takes(by_error ? an_error(id, 34, none) : a_result(id, operation, answered(operation)),
               by_error ? SMR_ERROR : SMR_RESULT, id),
         "an answer");
    tell(got.text.is_there == text, "its text");
    drop_place(&now->own, place);
    tell(stands(), "the others of ours move up");
}

/* The first: a REGISTER of the network's, or ours and then a FACILITY. */
static void begin(void)
{
    now->open = true;
    if (flag == 1) {
        spoken parameter = asked(59);
        called = smr_begin(table, sizeof table, 59, 1, parameter.octets, parameter.length, out,
                           sizeof out);
        add_question(&now->own, 1, 59);
        tell(called.value == 0 && sends(our_register(0, an_invoke(1, 59, parameter))) && stands(),
             "we begin");
        check_comes(5, 60);
        return;
    }
    receive(REGISTER, an_invoke(5, 60, asked(60)));
    add_question(&now->peers, 5, 60);
    tell(got.code == SMR_TAKEN && stands(), "the network begins");
}

/* Four come in; a fifth, whatever it is, gets problem 3 and ends all. */
static void test_four_come(void)
{
    static const uint8_t fifth[] = {18, 38, 60, 61, 59, 99};
    for (size_t i = 0; i < sizeof fifth; i++) {
        start_closed();
        begin();
        check_comes(6, 18);
        check_comes(7, 61);
        check_comes(8, 60);
        tell(stands_as(flag == 1 ? "own 1:59 peers 5:60/6:18/7:61/8:60"
                                 : "peers 5:60/6:18/7:61/8:60"),
             "four, in order of arrival");
        tell(rejects(an_invoke(9, fifth[i], asked(fifth[i])), 9, SMR_PROBLEM_INVOKE, 3), "a fifth");
        /* the value is free for another */
        begin();
    }
}

/* None to four of the peer's. */
static const char *const rows[] = {"", "peers 5:60", "peers 5:60/6:18", "peers 5:60/6:18/7:61",
                                   "peers 5:60/6:18/7:61/8:60"};

/* What needs no place: 38 is taken beside three or less, and problem 1 comes as ever. */
static void test_no_place(void)
{
    for (int count = 0; count < PLACES; count++) {
        start(rows[count]);
        for (int k = 0; k < 2; k++)
            tell(takes(an_invoke(9, 38, none), SMR_INVOKE, 9) && stands(), "38 never waits");
        tell(rejects(an_invoke(9, 99, none), 9, SMR_PROBLEM_INVOKE, 1), "not served");
    }
}

/* A duplicate of each place, beside one to four that wait, whatever its operation. */
static void test_duplicates(void)
{
    static const uint8_t operations[] = {18, 38, 60, 61, 99};
    for (int8_t count = 1; count <= PLACES; count++) {
        for (int8_t id = 5; id < 5 + count; id++) {
            for (size_t k = 0; k < sizeof operations; k++) {
                spoken again = an_invoke(id, operations[k], asked(operations[k]));
                start(rows[count]);
                tell(rejects(again, id, SMR_PROBLEM_INVOKE, 0), "a duplicate");
            }
        }
    }
}

/* Whether the last eight bits are four places in some order, two bits each. */
static bool is_order(int order)
{
    int seen = 0;
    for (int i = 0; i < PLACES; i++) seen |= 1 << (order >> 2 * i & 3);
    return seen == 15;
}

/* Four are answered in every order, by results and errors: once each, and an id is free
 * again when it was answered. */
static void test_answers(void)
{
    for (int order = 0; order < 256; order++) {
        if (!is_order(order)) continue;
        start("own 5:17 peers 5:60/6:18/7:61/8:60");
        for (int i = 0; i < PLACES; i++) {
            int8_t id = (int8_t)(5 + (order >> 2 * i & 3));
            check_answered(id, (order >> i & 1) != 0);
            answer(id, 60);
            tell(is_refused(SMR_NO_INVOKE), "a second answer");
            answer_with_error(id);
            tell(is_refused(SMR_NO_INVOKE), "an error behind it");
        }
        tell(stands_as("own 5:17"), "all are answered");
        check_comes(5, 18);
        check_comes(0, 60);
    }
}

/* The kind of answer goes by the place with the id. */
static void test_kinds_of_answer(void)
{
    start("peers 5:60/6:18/7:61/8:60");
    memset(out, MARK, sizeof out);
    called = smr_result(table, sizeof table, flag, 0, 6, NULL, 0, out, sizeof out);
    tell(is_refused(SMR_PARAMETER), "a password is due");
    answer(6, 60);
    tell(is_refused(SMR_PARAMETER), "a password, no text");
    answer(7, 60);
    tell(is_refused(SMR_PARAMETER), "a notice has no answer");
    answer(8, 18);
    tell(is_refused(SMR_PARAMETER), "a text, no password");
    answer(1, 60);
    tell(is_refused(SMR_NO_INVOKE), "no such question");
    answer(0, 60);
    tell(is_refused(SMR_NO_INVOKE), "nor one with 0");
}

/* Four of ours go out. A fifth is refused, and so is an equal id beside one to four:
 * before a look at the parameter, behind 20, and nothing is changed. */
static void test_four_of_ours(void)
{
    static const int8_t ids[] = {1, -128, 0, 127};
    static const uint8_t operations[] = {17, 59, 11, 10};
    start("peers 1:60");
    for (int i = 0; i < PLACES; i++) {
        check_asked(ids[i], operations[i]);
        for (int k = 0; k <= i; k++) {
            for (int j = 0; j < BEGUN; j++) {
                ask(ids[k], begun[j]);
                tell(is_refused(SMR_OUTSTANDING), "an equal id");
            }
            ask_with(ids[k], 59, none);
            tell(is_refused(SMR_OUTSTANDING), "before the parameter");
            ask(ids[k], 60);
            tell(is_refused(SMR_NO_OPERATION), "behind the operation");
        }
    }
    tell(stands_as("own 1:17/-128:59/0:11/127:10 peers 1:60"), "four of ours");
    for (int id = -128; id < 128; id++) {
        ask((int8_t)id, 59);
        tell(is_refused(SMR_OUTSTANDING), "a fifth of ours");
    }
    /* where one was answered there is room for one, with any id but three */
    check_answer_comes(0, true);
    check_asked(0, 14);
    ask(5, 59);
    tell(is_refused(SMR_OUTSTANDING), "a fifth once more");
}

/* Four of ours are answered in every order, by results and errors; a second answer ends it. */
static void test_answers_come(void)
{
    for (int order = 0; order < 256; order++) {
        if (!is_order(order)) continue;
        for (int i = 0; i < PLACES; i++) {
            start("own 1:17/2:59/3:11/4:10 peers 2:61");
            for (int k = 0; k <= i; k++)
                check_answer_comes((int8_t)(1 + (order >> 2 * k & 3)), (order >> k & 1) != 0);
            int8_t id = (int8_t)(1 + (order >> 2 * i & 3));
            if (order >> i & 1)
                tell(rejects(an_error(id, 34, none), id, SMR_PROBLEM_ERROR, 0), "a second error");
            else
                tell(rejects(a_result(id, 0, none), id, SMR_PROBLEM_RESULT, 0), "a second result");
        }
    }
}

/* An answer is judged by the operation of its place alone, whatever else waits. */
static void test_operations(void)
{
    static const char row[] = "own 1:17/2:59/3:11/4:10 peers 5:60/6:18/7:61/8:60";
    static const uint8_t operations[] = {17, 59, 11, 10};
    for (int8_t id = 1; id <= PLACES; id++) {
        uint8_t operation = operations[id - 1];
        for (size_t k = 0; k < PLACES; k++) {
            if (operations[k] == operation) continue;
            start(row);
            tell(rejects(a_result(id, operations[k], answered(operations[k])), id,
                         SMR_PROBLEM_RESULT, 2),
                 "another's operation");
        }
        for (int code = 0; code < 256; code++) {
            spoken error = an_error(id, (uint8_t)code, none);
            start(row);
            if (may_return(operation, (uint8_t)code)) {
                drop_place(&now->own, (size_t)(id - 1));
                tell(takes(error, SMR_ERROR, id) && stands(), "an error of its list");
            } else {
                tell(rejects(error, id, SMR_PROBLEM_ERROR, is_listed((uint8_t)code) ? 3 : 2),
                     "an error of another's");
            }
        }
    }
}

/* A linked id at each place, with 17 at each place. */
static void test_linked(void)
{
    static const char *const ours[] = {"own 11:17/12:59/13:11/14:10 peers 3:60",
                                       "own 11:59/12:17/13:11/14:10 peers 3:60",
                                       "own 11:59/12:11/13:17/14:10 peers 3:60",
                                       "own 11:59/12:11/13:10/14:17 peers 3:60"};
    for (int seventeen = 0; seventeen < PLACES; seventeen++) {
        for (int place = 0; place < PLACES; place++) {
            int8_t linked = (int8_t)(11 + place);
            spoken invoke = a_linked_invoke(9, linked, 18, asked(18));
            start(ours[seventeen]);
            if (place == seventeen) {
                tell(takes(invoke, SMR_INVOKE, 9) && got.shown.has_linked &&
                         got.shown.linked == linked,
                     "linked to the 17");
                add_question(&now->peers, 9, 18);
                tell(stands(), "and it waits");
            } else {
                tell(rejects(invoke, 9, SMR_PROBLEM_INVOKE, 6), "linked to another");
            }
            start(ours[seventeen]);
            tell(rejects(a_linked_invoke(9, linked, 60, asked(60)), 9, SMR_PROBLEM_INVOKE,
                         place == seventeen ? 7 : 6),
                 "no getPassword");
        }
    }
}

/* No id of ours: of no one, of the peer's, of another transaction's, and the 0 of places
 * that aren't used. Where 0 is ours, it is found. */
static void test_not_linked(void)
{
    static const int8_t ids[] = {15, -1, 3, 1, 2, 0};
    for (size_t i = 0; i < sizeof ids; i++) {
        start("own 11:59/12:17 peers 3:60");
        tell(rejects(a_linked_invoke(9, ids[i], 18, asked(18)), 9, SMR_PROBLEM_INVOKE, 5),
             "linked to none");
    }
    start("own 11:59/0:17 peers 3:60");
    tell(takes(a_linked_invoke(9, 0, 18, asked(18)), SMR_INVOKE, 9) && got.shown.linked == 0,
         "linked to 0");
    start("own 11:59/12:17 peers 3:60/4:60/5:60/6:60");
    tell(rejects(a_linked_invoke(9, 12, 18, asked(18)), 9, SMR_PROBLEM_INVOKE, 3),
         "linked, but four wait");
}

/* Both sides fill up in turns, with the same ids. */
static void fill(void)
{
    start("");
    for (int8_t id = 1; id <= PLACES; id++) {
        check_asked(id, begun[id]);
        check_comes(id, id % 2 == 0 ? 60 : 18);
    }
}

/* Full on both sides: each end of it leaves nothing; until then each side goes on. */
static void test_eight(void)
{
    fill();
    tell(stands_as("own 1:11/2:12/3:13/4:14 peers 1:18/2:60/3:18/4:60"), "eight wait");
    ask(5, 59);
    tell(is_refused(SMR_OUTSTANDING), "full: a fifth of ours");
    tell(takes(none, SMR_NOTHING, 0) && stands(), "full: an empty message");
    check_answered(2, false);
    check_answer_comes(2, false);
    check_comes(2, 61);
    check_asked(2, 59);
    tell(stands_as("own 1:11/3:13/4:14/2:59 peers 1:18/3:18/4:60/2:61"), "eight again");
    tell(rejects(an_invoke(5, 60, asked(60)), 5, SMR_PROBLEM_INVOKE, 3), "all eight end");
}

/* What a message leaves of eight that wait, with this verdict and reply: nothing. */
static void check_end(uint8_t type, spoken facility, uint8_t verdict, spoken reply)
{
    fill();
    receive(type, facility);
    close_now();
    tell(got.code == verdict && is_said(out, got.written, reply) && stands(), "an end of eight");
}

static void test_ends(void)
{
    spoken two = a_result(1, 0, none), reject = a_reject(1, SMR_PROBLEM_RESULT, 2);
    uint8_t ours = 1 - flag;
    memcpy(two.octets + two.length, two.octets, two.length);
    two.length *= 2;
    check_end(FACILITY, two, SMR_RELEASED_CAUSE, a_cause(ours, 0, 29));
    check_end(0x3C, none, SMR_RELEASED_CAUSE, a_cause(ours, 0, 97));
    check_end(REGISTER, none, SMR_RELEASED_CAUSE, a_cause(ours, 0, 98));
    check_end(FACILITY, reject, SMR_REJECTED, a_message(ours, 0, RELEASE_COMPLETE, none));
    check_end(RELEASE_COMPLETE, none, SMR_RELEASED, none);
    check_end(RELEASE_COMPLETE, a_result(4, 14, some), SMR_RELEASED, none);
    tell(got.shown.kind == SMR_RESULT && got.shown.id == 4, "the last one's result");
    check_end(FACILITY, a_result(5, 14, some), SMR_RELEASED_REJECT,
              a_message(ours, 0, RELEASE_COMPLETE, a_reject(5, SMR_PROBLEM_RESULT, 0)));
    fill();
    called = smr_release(table, sizeof table, flag, 0, out, sizeof out);
    close_now();
    tell(sends(a_message(ours, 0, RELEASE_COMPLETE, none)) && stands(), "released");
}

/* All ids go round on both sides, three or four at a time: the oldest goes, or one behind it. */
static void test_round(void)
{
    start("own -3:59/-2:59/-1:59 peers -3:60/-2:60/-1:60");
    for (int i = 0; i < 512; i++) {
        int8_t id = (int8_t)(uint8_t)i;
        size_t place = (size_t)(i / 4 % PLACES);
        check_asked(id, begun[i % BEGUN]);
        check_comes(id, i % 3 == 0 ? 18 : i % 3 == 1 ? 60 : 61);
        check_answer_comes(now->own.places[place].id, i % 2 == 0);
        check_answered(now->peers.places[PLACES - 1 - place].id, i % 2 == 1);
    }
}

void test_four(void)
{
    for (flag = 0; flag < 2; flag++) {
        test_four_come();
        test_no_place();
        test_duplicates();
        test_answers();
        test_kinds_of_answer();
        test_four_of_ours();
        test_answers_come();
        test_operations();
        test_linked();
        test_not_linked();
        test_eight();
        test_ends();
        test_round();
    }
}
