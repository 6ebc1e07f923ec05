/* Runs the cases of a file: blocks begun and records added, with the answers and blocks that
 * there must be. Then goes over what no case has. */
#include "check.h"
#include "lent.h"
#include "noted.h"
#include "traced.h"
#include "worn.h"

#include <stdio.h>
#include <stdlib.h>
#include <string.h>

enum { MOST_BLOCKS = 8 };

/* The blocks so far, how many octets the last one has, and the last call's answer. */
static uint8_t file[MOST_BLOCKS][MOST_LENT];
static size_t blocks, last_length;
static smr_traced answer;
static int guards_before;

/* One call; it must answer and leave what the plain one does. */
static void begin_one(size_t length, uint32_t number, const char *name)
{
    if (blocks == MOST_BLOCKS) {
        puts("too many blocks");
        exit(2);
    }
    uint8_t *block = file[blocks++], again[MOST_LENT];
    last_length = length;
    memset(block, MARK, length);
    memcpy(again, block, length);
    check(begins_right(again, length, number, guards_before), name, "a block as it must be");
    answer = begin_lent(block, length, number, guards_before).got;
}

static void add_one(const noted_record *record, const char *name)
{
    uint8_t *block = file[blocks - 1], lent[MOST_LENT], again[MOST_LENT];
    memcpy(lent, block, last_length);
    memcpy(again, block, last_length);
    check(adds_right(again, last_length, record->direction, record->message, record->length,
                     guards_before),
          name, "a block as it must be");
    answer = add_lent(block, last_length, record->direction, record->message, record->length,
                      guards_before).got;
    if (answer.added) return;
    check(memcmp(block, lent, last_length) == 0, name, "not added: as lent");
}

/* As firmware keeps a trace: a block is begun where there is none, or where a record doesn't
 * fit. */
static void write_one(const noted_record *record, const char *name)
{
    answer = (smr_traced){0, false};
    if (blocks > 0) add_one(record, name);
    if (answer.code != 0 || answer.added) return;
    begin_one(SMR_BLOCK, (uint32_t)blocks, name);
    add_one(record, name);
    if (answer.code != 0) blocks--; /* it has no record */
}

/* write RECORDS, add BLOCK RECORDS, or begin LENGTH NUMBER; a refusal ends the row. */
static void run_call(char *call, const char *name)
{
    static noted_record record;
    const char *kind = strtok(call, " ");
    answer = (smr_traced){0, false};
    blocks = 0;
    if (strcmp(kind, "begin") == 0) {
        size_t length = strtoul(strtok(NULL, " "), NULL, 10);
        begin_one(length, (uint32_t)strtoul(strtok(NULL, " "), NULL, 10), name);
        return;
    }
    bool adds = strcmp(kind, "add") == 0;
    if (adds) last_length = read_block(strtok(NULL, " "), file[blocks++]);
    for (char *w = strtok(NULL, " "); w != NULL && answer.code == 0; w = strtok(NULL, " ")) {
        bool is_one = read_record(w, &record);
        check(is_one, name, "a record");
        for (size_t i = 0; is_one && i < record.times && answer.code == 0; i++) {
            if (adds) add_one(&record, name);
            else write_one(&record, name);
        }
    }
}

static bool holds(const char *fact)
{
    char used[64] = "";
    const char *wanted = strchr(fact, '=') + 1;
    if (strncmp(fact, "added=", 6) == 0) return answer.added == (strcmp(wanted, "true") == 0);
    if (strncmp(fact, "octets=", 7) == 0) return blocks * SMR_BLOCK == strtoul(wanted, NULL, 10);
    if (blocks == 0 || last_length != SMR_BLOCK) return false;
    if (strncmp(fact, "sum=", 4) == 0) return sum_of(file[0]) == strtoul(wanted, NULL, 16);
    if (strncmp(fact, "number=", 7) == 0)
        return number_of(file[blocks - 1]) == strtoul(wanted, NULL, 10);
    if (strncmp(fact, "used=", 5) != 0) return false;
    for (size_t i = 0; i < blocks; i++)
        sprintf(used + strlen(used), "%s%u", i == 0 ? "" : " ", used_of(file[i]));
    return strcmp(used, wanted) == 0;
}

static void run_case(const char *line)
{
    static char call[1024], facts[1024];
    char name[16];
    const char *arrow = strstr(line, " -> ");
    if (arrow == NULL || sscanf(line, "%15s", name) != 1) {
        check(false, line, "no case");
        return;
    }
    for (guards_before = 0; guards_before < 2; guards_before++) {
        snprintf(call, sizeof call, "%.*s", (int)(arrow - line), line);
        snprintf(facts, sizeof facts, "%s", arrow + strlen(" -> "));
        run_call(call + strlen(name) + 1, name);
        char *fact = strtok(facts, ",");
        check(answer.code == atoi(fact), name, line);
        check(answer.code == 0 || !answer.added, name, "refused: not added");
        while ((fact = strtok(NULL, ",")) != NULL) check(holds(fact + 1), name, fact + 1);
    }
}

int main(int argc, char **argv)
{
    static char line[1024];
    FILE *cases = fopen(argc > 1 ? argv[1] : "trace.txt", "r");
    if (cases == NULL) {
        puts("no cases");
        return 2;
    }
    while (fgets(line, sizeof line, cases) != NULL) {
        line[strcspn(line, "\n")] = 0;
        if (line[0] != 0 && line[0] != '#') run_case(line);
    }
    fclose(cases);
    wear();
    return checks_done();
}
