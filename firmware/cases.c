/* Runs the cases of a file: each call from its table, with what it must give. */
#include "check.h"
#include "image.h"
#include "lent.h"
#include "smrcholet.h"

#include <stdio.h>
#include <stdlib.h>
#include <string.h>

enum { MOST = 70000 };

typedef struct {
    uint8_t octets[MOST];
    size_t length;
} row;

/* The open entries of each table, with what waits in them. */
static const struct {
    const char *name, *entries;
} tables[] = {
    {"fresh", ""},
    {"open", "n0"},
    {"ownopen", "o0"},
    {"w1", "n0 peers 5:60"},
    {"peer18", "n0 peers 5:18"},
    {"peer61", "n0 peers 5:61"},
    {"own10", "o0 own 1:10"},
    {"own11", "o0 own 1:11"},
    {"own12", "o0 own 1:12"},
    {"own13", "o0 own 1:13"},
    {"own14", "o0 own 1:14"},
    {"own17", "o0 own 1:17"},
    {"own59", "o0 own 1:59"},
    {"both17", "o0 own 1:17 peers 7:18"},
    {"other17", "o0 o1 own 1:17"},
    {"full", "o0 o1 o2 o3 o4 o5 o6"},
    {"peers2", "n0 peers 5:60/6:18"},
    {"peers3", "n0 peers 5:60/6:18/7:61"},
    {"peers4", "n0 peers 5:60/6:18/7:61/8:60"},
    {"owns2", "o0 own 1:59/2:17"},
    {"owns3", "o0 own 1:17/2:59/3:11"},
    {"owns4", "o0 own 1:17/2:59/3:11/4:10"},
    {"eight", "o0 own 1:17/2:59/3:11/4:10 peers 5:60/6:18/7:61/8:60"},
    {"apart", "o0 own 1:59 o1 own 2:17"},
};

static int digit(char c)
{
    if (c >= '0' && c <= '9') return c - '0';
    if (c >= 'A' && c <= 'F') return c - 'A' + 10;
    if (c >= 'a' && c <= 'f') return c - 'a' + 10;
    return -1;
}

static void add(row *to, uint8_t octet, size_t times)
{
    for (size_t i = 0; i < times && to->length < MOST; i++) to->octets[to->length++] = octet;
}

/* Hex with blanks or without, zeros(N), text(N), any(N), none or empty, appended. */
static void read_octets(const char *word, row *to)
{
    size_t n;
    if (sscanf(word, "zeros(%zu)", &n) == 1) {
        add(to, 0x00, n);
    } else if (sscanf(word, "text(%zu)", &n) == 1) {
        add(to, 0x41, n);
    } else if (sscanf(word, "any(%zu)", &n) == 1) {
        add(to, 0x04, 1);
        if (n > 129) add(to, 0x81, 1);
        add(to, (uint8_t)(n > 129 ? n - 3 : n - 2), 1);
        add(to, 0x00, n > 129 ? n - 3 : n - 2);
    } else if (strcmp(word, "none") != 0 && strcmp(word, "empty") != 0) {
        for (word += strspn(word, " "); digit(word[0]) >= 0 && digit(word[1]) >= 0;
             word += 2 + strspn(word + 2, " "))
            add(to, (uint8_t)(digit(word[0]) * 16 + digit(word[1])), 1);
    }
}

/* The image of one entry, all others closed: o0=HEX or n0=HEX, in one word or several. How
 * many words it took. */
static int read_image(char **words, row *table)
{
    static row image;
    int taken = 1;
    image.length = 0;
    add(table, 0x00, SMR_TABLE);
    read_octets(words[0] + strlen("o0="), &image);
    while (image.length < ENTRY && words[taken] != NULL) read_octets(words[taken++], &image);
    check(image.length == ENTRY, words[0], "no entry");
    memcpy(table->octets + ENTRY * entry_at(words[0][0] == 'o', 0), image.octets, ENTRY);
    return taken;
}

/* The table that the words name, and how many words that took. */
static int read_lent_table(char **words, row *table)
{
    static char *damaged[] = {"n0=02", "0000000000000000", "0000000000000000", NULL};
    table->length = 0;
    if (strncmp(words[0], "o0=", 3) == 0 || strncmp(words[0], "n0=", 3) == 0)
        return read_image(words, table);
    if (strncmp(words[0], "zeros(", 6) == 0) {
        read_octets(words[0], table);
    } else if (strcmp(words[0], "short") == 0) {
        add(table, 0x00, SMR_TABLE - 1);
    } else if (strcmp(words[0], "damaged") == 0) {
        read_image(damaged, table);
    } else {
        for (size_t i = 0; i < sizeof tables / sizeof *tables; i++) {
            if (strcmp(tables[i].name, words[0]) != 0) continue;
            table->length = SMR_TABLE;
            read_table(tables[i].entries, table->octets);
        }
        check(table->length == SMR_TABLE, words[0], "no such table");
    }
    return 1;
}

static bool is_batch(const char *call) { return strcmp(call, "batch") == 0; }

/* What a call is lent. */
typedef struct {
    uint8_t *table, *message, *buffer;
    size_t table_length, message_length, buffer_length;
} loan;

/* What a call gave, of each kind; what a batch has written is its slots. */
typedef struct {
    smr_received got;
    uint8_t value;
    size_t entry, slots;
    bool kept; /* the table is unchanged */
} outcome;

static bool same(const uint8_t *message, smr_span span, const char *octets)
{
    static row wanted;
    wanted.length = 0;
    read_octets(octets, &wanted);
    return span.start <= span.end && span.end - span.start == wanted.length &&
           (wanted.length == 0 || memcmp(message + span.start, wanted.octets, wanted.length) == 0);
}

static bool same_octets(const uint8_t *octets, size_t length, const char *hex)
{
    return same(octets, (smr_span){0, length}, hex);
}

static bool is_number(bool there, int number, const char *wanted)
{
    return strcmp(wanted, "None") == 0 ? !there : there && number == atoi(wanted);
}

static bool is_word(bool holds, const char *wanted)
{
    return strcmp(wanted, holds ? "True" : "False") == 0;
}

/* The octets of one side of an entry are those of this list. */
static bool same_side(const uint8_t *octets, const char *list)
{
    uint8_t wanted[SIDE];
    side waiting = read_side(list);
    put_side(&waiting, wanted);
    return memcmp(octets, wanted, SIDE) == 0;
}

static bool same_table(const uint8_t *table, const char *entries)
{
    uint8_t wanted[SMR_TABLE];
    read_table(entries, wanted);
    return memcmp(table, wanted, SMR_TABLE) == 0;
}

static bool holds(const char *fact, const char *wanted, const outcome *o, const loan *l)
{
    const smr_received *r = &o->got;
    const uint8_t *message = l->message, *image = l->table + ENTRY * o->entry;
    if (strcmp(fact, "reply") == 0) return same_octets(l->buffer, r->written, wanted);
    if (strcmp(fact, "length") == 0) return r->written == (size_t)atoi(wanted);
    if (strcmp(fact, "slots") == 0) return o->slots == (size_t)atoi(wanted);
    if (strcmp(fact, "output") == 0) return same_octets(l->buffer, l->buffer_length, wanted);
    if (strcmp(fact, "table") == 0) return same_table(l->table, wanted);
    if (strcmp(fact, "entry") == 0) return same_octets(image, ENTRY, wanted);
    if (strcmp(fact, "open") == 0) return is_word(image[0] != 0, wanted);
    if (strcmp(fact, "own") == 0) return same_side(image + 1, wanted);
    if (strcmp(fact, "peers") == 0) return same_side(image + 1 + SIDE, wanted);
    if (strcmp(fact, "kept") == 0) return is_word(o->kept, wanted);
    if (strcmp(fact, "value") == 0) return o->value == atoi(wanted);
    if (strcmp(fact, "id") == 0) return is_number(r->shown.has_id, r->shown.id, wanted);
    if (strcmp(fact, "linked") == 0) return is_number(r->shown.has_linked, r->shown.linked, wanted);
    if (strcmp(fact, "operation") == 0)
        return is_number(r->shown.has_operation, r->shown.operation, wanted);
    if (strcmp(fact, "code") == 0) return r->shown.code == atoi(wanted);
    if (strcmp(fact, "problem") == 0)
        return same_octets((uint8_t[]){r->shown.tag, r->shown.problem}, 2, wanted);
    if (strcmp(fact, "parameter") == 0) return same(message, r->shown.parameter, wanted);
    if (strcmp(fact, "scheme") == 0)
        return r->text.is_there && same_octets(&r->text.scheme, 1, wanted);
    if (strcmp(fact, "string") == 0)
        return strcmp(wanted, "none") == 0
                   ? !r->text.is_there
                   : r->text.is_there && same(message, r->text.string, wanted);
    if (strcmp(fact, "tail") == 0)
        return r->text.is_there && r->text.tail.start == r->text.string.end &&
               same(message, r->text.tail, wanted);
    if (strcmp(fact, "cause") == 0)
        return strcmp(wanted, "none") == 0
                   ? !r->cause.is_there
                   : r->cause.is_there && same(message, r->cause.contents, wanted);
    if (strcmp(fact, "shows") == 0) {
        const char *kinds[] = {"invoke", "result", "error", "reject"};
        for (int i = 0; i < 4; i++)
            if (strcmp(wanted, kinds[i]) == 0) return r->shown.kind == SMR_INVOKE + i;
        return r->shown.kind == SMR_NOTHING && !r->text.is_there;
    }
    return false;
}

/* A batch; its entry is that of the first record. */
static outcome run_batch(const loan *l)
{
    outcome o;
    memset(&o, 0, sizeof o);
    smr_batched b = smr_batch(l->table, l->table_length, l->message, l->message_length, l->buffer,
                              l->buffer_length);
    o.got.code = b.code;
    o.got.written = SMR_SLOT * b.slots;
    o.slots = b.slots;
    if (l->message_length > 1)
        o.entry = entry_at(SMR_FLAG(l->message[1]), SMR_VALUE(l->message[1])) % ENTRIES;
    return o;
}

/* The call of this name, with its numbers. */
static outcome run(const char *call, const int *n, const loan *l)
{
    outcome o;
    smr_called c;
    if (is_batch(call)) return run_batch(l);
    memset(&o, 0, sizeof o);
    if (strcmp(call, "receive") == 0) {
        o.got = smr_receive(l->table, l->table_length, l->message, l->message_length, l->buffer,
                            l->buffer_length);
        if (l->message_length > 0)
            o.entry = entry_at(SMR_FLAG(l->message[0]), SMR_VALUE(l->message[0])) % ENTRIES;
        return o;
    }
    o.entry = entry_at((uint8_t)n[0], (uint8_t)n[1]) % ENTRIES;
    if (strcmp(call, "begin") == 0) {
        c = smr_begin(l->table, l->table_length, (uint8_t)n[0], (int8_t)n[1], l->message,
                      l->message_length, l->buffer, l->buffer_length);
        o.entry = c.value;
    } else if (strcmp(call, "invoke") == 0) {
        c = smr_invoke(l->table, l->table_length, (uint8_t)n[0], (uint8_t)n[1], (uint8_t)n[2],
                       (int8_t)n[3], l->message, l->message_length, l->buffer, l->buffer_length);
    } else if (strcmp(call, "result") == 0) {
        c = smr_result(l->table, l->table_length, (uint8_t)n[0], (uint8_t)n[1], (int8_t)n[2],
                       l->message, l->message_length, l->buffer, l->buffer_length);
    } else if (strcmp(call, "error") == 0) {
        c = smr_error(l->table, l->table_length, (uint8_t)n[0], (uint8_t)n[1], (int8_t)n[2],
                      (uint8_t)n[3], l->message, l->message_length, l->buffer, l->buffer_length);
    } else {
        c = smr_release(l->table, l->table_length, (uint8_t)n[0], (uint8_t)n[1], l->buffer,
                        l->buffer_length);
    }
    o.got.code = c.code;
    o.got.written = c.written;
    o.value = c.value;
    return o;
}

static int numbers_of(const char *call)
{
    if (strcmp(call, "receive") == 0 || is_batch(call)) return 0;
    if (strcmp(call, "begin") == 0 || strcmp(call, "release") == 0) return 2;
    return strcmp(call, "result") == 0 ? 3 : 4;
}

/* A slot has a verdict, 6 not among them, and zeros behind its reply. */
static bool is_slot(const uint8_t *octets)
{
    for (size_t i = 2 + octets[1]; i < SMR_SLOT; i++)
        if (octets[i] != 0) return false;
    return octets[1] <= SMR_REPLY && octets[0] <= SMR_OTHER_PROTOCOL && octets[0] != SMR_TOO_LONG;
}

/* What every call leaves alone: octets behind what is written, other entries, which a batch
 * may change too, and all of it where nothing may be sent or changed. And no call damages a
 * table. */
static void check_rest(const char *name, const char *call, const outcome *o, const uint8_t *old,
                       const loan *l)
{
    bool others = true, received = strcmp(call, "receive") == 0;
    check(is_marked(l->buffer, o->got.written, l->buffer_length), name,
          "octets behind the message");
    for (size_t i = 0; i < l->table_length; i++)
        others = others && (i / ENTRY == o->entry || old[i] == l->table[i]);
    if (!is_batch(call)) check(others, name, "another entry");
    for (size_t i = 0; i < o->slots && SMR_SLOT * i + SMR_SLOT <= l->buffer_length; i++)
        check(is_slot(l->buffer + SMR_SLOT * i), name, "a whole slot");
    if (o->got.code >= 20 || (received && (o->got.code == 1 || o->got.code >= 6)))
        check(o->kept && o->got.written == 0 && o->got.shown.kind == SMR_NOTHING, name,
              "nothing may change");
    if (o->got.code != SMR_DAMAGED)
        check(l->table_length == SMR_TABLE && fault_of(l->table) == SOUND, name, "a sound table");
}

/* Each fact behind the code, up to its comma. */
static void check_facts(const char *name, char *facts, const outcome *o, const loan *l)
{
    check(o->got.code == atoi(facts), name, "the code");
    for (char *f = strchr(facts, ','); f != NULL;) {
        char *fact = f + 1 + strspn(f + 1, " "), *wanted = strchr(fact, '=');
        f = strchr(fact, ',');
        if (f != NULL) *f = 0;
        *wanted++ = 0;
        check(holds(fact, wanted, o, l), name, fact);
    }
}

/* Octets lent, with what they are. */
static uint8_t *lend_row(int which, const row *of, int before)
{
    uint8_t *lent = lend(which, of->length, before);
    memcpy(lent, of->octets, of->length);
    return lent;
}

/* One case; with `before` the guard stands before what is lent. */
static void run_case(char *line, int before)
{
    static row message, old;
    char *words[64] = {0}, *facts = strstr(line, "-> ") + strlen("-> "), *name = strtok(line, " ");
    loan l = {.buffer_length = 300};
    int count = 0, at, n[4] = {0, 0, 0, 0};
    for (char *w = strtok(NULL, " "); w != NULL && strcmp(w, "->") != 0; w = strtok(NULL, " ")) {
        if (count == 0 && is_batch(w)) l.buffer_length = 60;
        if (sscanf(w, "buf=%zu", &l.buffer_length) == 1) continue;
        if (sscanf(w, "out=%zu", &l.buffer_length) == 1) continue;
        if (count < 63) words[count++] = w;
    }
    at = 1 + read_lent_table(words + 1, &old);
    for (int i = 0; i < numbers_of(words[0]) && at < count; i++) n[i] = atoi(words[at++]);
    message.length = 0;
    while (at < count) read_octets(words[at++], &message);

    l.table = lend_row(0, &old, before);
    l.table_length = old.length;
    l.message = lend_row(1, &message, before);
    l.message_length = message.length;
    l.buffer = lend(2, l.buffer_length, before);
    memset(l.buffer, MARK, l.buffer_length);
    outcome o = run(words[0], n, &l);
    o.kept = memcmp(old.octets, l.table, old.length) == 0;
    check_facts(name, facts, &o, &l);
    check_rest(name, words[0], &o, old.octets, &l);
}

int main(int argc, char **argv)
{
    static char line[4096];
    FILE *file = fopen(argc > 1 ? argv[1] : "cases.txt", "r");
    if (file == NULL) {
        puts("no cases");
        return 2;
    }
    for (int before = 0; before < 2; before++) {
        rewind(file);
        while (fgets(line, sizeof line, file) != NULL) {
            line[strcspn(line, "\n")] = 0;
            if (line[0] != 0 && line[0] != '#') run_case(line, before);
        }
    }
    fclose(file);
    return checks_done();
}
