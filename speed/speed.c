/* How long a call takes, in nanoseconds: the best of many runs, so that other work
 * on the machine is left out. With OSMO, libosmogsm's decoder beside it, on the
 * same message in the same run.
 *
 *   speed               each call that is measured: its function and its name
 *   speed NAME          our nanoseconds, and the decoder's, can't or -
 *   speed NAME ours N   N calls, CALLS at most, for counting instructions
 *   speed NAME its N    the same with the decoder */
#define _POSIX_C_SOURCE 199309L
#include "message.h"
#include "smrcholet.h"

#include <stdio.h>
#include <stdlib.h>
#include <string.h>
#include <time.h>

#ifdef OSMO
#include <osmocom/gsm/gsm0480.h>
#endif

enum { RUNS = 40000, CALLS = 200, MENU = 5, QUESTION = 1 };

/* An entry: its state, then four places for what we asked and four for what the peer did,
 * an id and an operation each. */
enum { OWN = 1, PEERS = 9, ENTRY = 17 };

/* A message, or one of our own calls, and the first entry of the table before it. */
typedef struct {
    const char *name, *function;
    uint8_t kind, first, type, scheme;
    size_t string, tail;
    uint8_t entry[ENTRY];
} step;

#define FRESH {0}
#define ASKED {3, [OWN] = QUESTION, 59}
#define WAITS {7, [OWN] = QUESTION, 59, [PEERS] = MENU, 60}
#define REGISTERS {3, [OWN] = QUESTION, 17}
#define WAITS_FOR_PASSWORD {7, [OWN] = QUESTION, 17, [PEERS] = MENU, 18}

static const step steps[] = {
    /* a network begins with a menu */
    {"W1", "smr_receive", SMR_INVOKE, 0x0B, 0x3B, 0x0F, 1, 0, FRESH},
    {"W1, scheme 44", "smr_receive", SMR_INVOKE, 0x0B, 0x3B, 0x44, 1, 0, FRESH},
    {"string of 114", "smr_receive", SMR_INVOKE, 0x0B, 0x3B, 0x44, 114, 0, FRESH},
    {"string of 120", "smr_receive", SMR_INVOKE, 0x0B, 0x3B, 0x44, 120, 0, FRESH},
    {"longest", "smr_receive", SMR_INVOKE, 0x0B, 0x3B, 0x44, 160, 73, FRESH},
    /* the usual conversation: we ask, are asked in turn, answer, and get our answer */
    {"begin", "smr_begin", SMR_NOTHING, 0, 0, 0, 0, 0, FRESH},
    {"menu of 1", "smr_receive", SMR_INVOKE, 0x8B, 0x3A, 0x44, 1, 0, ASKED},
    {"menu of 114", "smr_receive", SMR_INVOKE, 0x8B, 0x3A, 0x44, 114, 0, ASKED},
    {"result", "smr_result", SMR_NOTHING, 0, 0, 0, 0, 0, WAITS},
    {"end, result", "smr_receive", SMR_RESULT, 0x8B, 0x2A, 0x44, 1, 0, ASKED},
    {"end, error", "smr_receive", SMR_ERROR, 0x8B, 0x2A, 0, 0, 0, ASKED},
    {"error", "smr_receive", SMR_ERROR, 0x8B, 0x3A, 0, 0, 0, ASKED},
    /* a Password is asked for, and comes back as the result of our registerPassword */
    {"password out", "smr_result", SMR_NOTHING, 0, 0, 0, 0, 0, WAITS_FOR_PASSWORD},
    {"password in", "smr_receive", SMR_RESULT, 0x8B, 0x3A, 0, 0, 0, REGISTERS},
    /* a text is laid out on forty cells: one letter, and the longest */
    {"text of 1", "smr_cells", SMR_NOTHING, 0, 0, 0x0F, 1, 0, FRESH},
    {"text of 160", "smr_cells", SMR_NOTHING, 0, 0, 0x0F, 160, 0, FRESH},
};

/* Each call has a table of its own, made before the clock starts. */
static uint8_t tables[CALLS][SMR_TABLE], reply[SMR_REPLY], out[SMR_MESSAGE];
static const uint8_t text[] = {0x30, 0x06, 0x04, 0x01, 0x0F, 0x04, 0x01, 0x41};
static const uint8_t digits[] = {0x12, 0x04, 0x30, 0x39, 0x33, 0x31};
static unsigned kept; /* what a call gave is used, so that none is left out */

static void make_text(const step *s)
{
    static uint8_t octets[160];
    memset(octets, 0x41, sizeof octets);
    length = s->string;
    memcpy(message, octets, length);
    wrap(0x04);
    put(3, (uint8_t[]){0x04, 0x01, s->scheme});
    if (s->tail > 0) { /* one element, last */
        memset(message + length, 0, s->tail);
        message[length] = 0x04, message[length + 1] = (uint8_t)(s->tail - 2);
        length += s->tail;
    }
    wrap(0x30);
}

static void make_message(const step *s)
{
    length = 0;
    if (s->kind == SMR_INVOKE) {
        make_text(s);
        put(6, (uint8_t[]){0x02, 0x01, MENU, 0x02, 0x01, 60});
    } else if (s->kind == SMR_RESULT) {
        if (s->string > 0) make_text(s);
        else put(sizeof digits, digits);
        put(3, (uint8_t[]){0x02, 0x01, s->entry[OWN + 1]});
        wrap(0x30);
        put(3, (uint8_t[]){0x02, 0x01, QUESTION});
    } else {
        put(6, (uint8_t[]){0x02, 0x01, QUESTION, 0x02, 0x01, 34}); /* systemFailure */
    }
    wrap(s->kind);
    send(s->first, s->type);
}

static void receive(int i)
{
    smr_received r = smr_receive(tables[i], SMR_TABLE, message, length, reply, sizeof reply);
    kept += r.code + (unsigned)r.text.string.end;
}

static void begin(int i)
{
    kept += (unsigned)smr_begin(tables[i], SMR_TABLE, 59, QUESTION, text, sizeof text, out, sizeof out).written;
}

static void result(int i)
{
    kept += (unsigned)smr_result(tables[i], SMR_TABLE, 1, 0, MENU, text, sizeof text, out, sizeof out).written;
}

static void password(int i)
{
    kept += (unsigned)smr_result(tables[i], SMR_TABLE, 1, 0, MENU, digits, sizeof digits, out, sizeof out).written;
}

static void cells(int i)
{
    static uint8_t lines[SMR_LINE_OCTETS];
    static uint16_t characters[SMR_CHARACTERS];
    (void)i;
    smr_laid laid = smr_cells(0x0F, message, length, characters, SMR_CHARACTERS, lines, SMR_LINE_OCTETS);
    kept += (unsigned)(laid.code + laid.characters + laid.lines);
}

#ifdef OSMO
static struct ss_request request;

/* The decoder alone: its struct is left as it stands. */
static void decode(int i)
{
    (void)i;
    kept += (unsigned)gsm0480_decode_ss_request((const struct gsm48_hdr *)message, (uint16_t)length, &request) + request.opcode;
}

/* Whether it reads at least the id: of some messages it says so and reads nothing. */
static bool decodes(const step *s)
{
    memset(&request, 0xEE, sizeof request);
    return gsm0480_decode_ss_request((const struct gsm48_hdr *)message, (uint16_t)length, &request) == 1 &&
           request.invoke_id == (s->kind == SMR_INVOKE ? MENU : QUESTION);
}
#endif

static void make_tables(const step *s)
{
    memset(tables, 0, sizeof tables);
    for (int i = 0; i < CALLS; i++) memcpy(tables[i], s->entry, sizeof s->entry);
}

/* A message is taken and shown, or a call sends something: nothing else is measured. */
static bool is_done(const step *s, void (*call)(int))
{
    make_tables(s);
    if (call == cells) return smr_cells(s->scheme, message, length, NULL, 0, NULL, 0).code == SMR_SHORT_TEXT;
    if (call != receive) return call(0), tables[0][0] != s->entry[0];
    smr_received r = smr_receive(tables[0], SMR_TABLE, message, length, reply, sizeof reply);
    return r.code == (s->type == 0x2A ? SMR_RELEASED : SMR_TAKEN) && r.shown.kind == s->kind;
}

static double once(const step *s, void (*call)(int))
{
    struct timespec a, b;
    make_tables(s);
    clock_gettime(CLOCK_MONOTONIC, &a);
    for (int i = 0; i < CALLS; i++) call(i);
    clock_gettime(CLOCK_MONOTONIC, &b);
    return ((double)(b.tv_sec - a.tv_sec) * 1e9 + (double)(b.tv_nsec - a.tv_nsec)) / CALLS;
}

/* The best run of each, in turns: what slows the machine slows both. Where there
 * is no other, a word for it. */
static void measure(const step *s, void (*ours)(int), void (*its)(int), const char *word)
{
    double best = 1e9, other = 1e9;
    for (int i = 0; i < RUNS; i++) {
        double t = once(s, ours), u = its == NULL ? 0 : once(s, its);
        best = t < best ? t : best;
        other = u < other ? u : other;
    }
    printf("%.0f ", best);
    if (its == NULL) puts(word);
    else printf("%.0f\n", other);
}

int main(int argc, char **argv)
{
    const step *s = steps;
    for (size_t i = 0; i < sizeof steps / sizeof *steps; i++) {
        if (argc < 2) printf("%s %s\n", steps[i].function, steps[i].name);
        else if (strcmp(steps[i].name, argv[1]) == 0) s = &steps[i];
    }
    if (argc < 2) return 0;

    void (*ours)(int) = receive, (*its)(int) = NULL;
    const char *word = "-";
    if (s->kind != SMR_NOTHING) make_message(s);
    else if (s->string > 0) ours = cells, length = s->string, memset(message, 0x41, length);
    else if (strcmp(s->name, "begin") == 0) ours = begin;
    else ours = s->entry[PEERS + 1] == 18 ? password : result;
#ifdef OSMO
    if (s->kind != SMR_NOTHING) {
        word = "can't";
        its = argc > 3 || decodes(s) ? decode : NULL; /* no call more than are counted */
    }
#endif
    if (argc > 3) {
        make_tables(s);
        if (strcmp(argv[2], "its") == 0) ours = its;
        for (int i = 0, n = atoi(argv[3]); i < n && ours != NULL; i++) ours(i);
    } else if (is_done(s, ours)) {
        measure(s, ours, its, word);
    } else {
        puts("wrong -");
    }
    return 0;
}
