/* How deep each call goes: it runs on a painted stack, and the paint that is gone
 * is counted. Prints a line for each, in octets. */
#define _GNU_SOURCE
#include "block.h"
#include "image.h"
#include "smrcholet.h"

#include <stdio.h>
#include <string.h>
#include <ucontext.h>

enum { STACK = 65536, PAINT = 0xA5 };

static uint8_t stack[STACK] __attribute__((aligned(16)));
static ucontext_t here, there;
static uint8_t table[SMR_TABLE], buffer[SMR_MESSAGE];
static const uint8_t *given;
static size_t given_length;

/* One record of what is given, or a row of many. */
enum { MANY = 400 };
static uint8_t records[MANY * (1 + SMR_MESSAGE)], slots[MANY * SMR_SLOT];
static size_t records_length;

/* 160 octets of text, as one parameter; in an Invoke of 60 in a REGISTER. */
static uint8_t text[169], menu[182];
static const uint8_t guidance[] = {0x0A, 0x01, 0x00};
static const uint8_t answered[] = {0x8B, 0x3A, 0x05, 0xA2, 0x03, 0x02, 0x01, 0x01};
static const uint8_t ended[] = {0x8B, 0x2A, 0x08, 0x02, 0xE0, 0x9D, 0x1C, 0x05,
                                0xA2, 0x03, 0x02, 0x01, 0x01};
static const uint8_t rejected[] = {0x8B, 0x3A, 0x02, 0xA5, 0x00};

/* 160 octets of a string, and the room for what it becomes. */
static uint8_t string[160], lines[SMR_LINE_OCTETS];
static uint16_t characters[SMR_CHARACTERS];

/* A block of a trace, and the longest message that it may get. */
static uint8_t block[SMR_BLOCK], message[SMR_MESSAGE];

static void nothing(void) {}
static void receive(void) { smr_receive(table, SMR_TABLE, given, given_length, buffer, SMR_REPLY); }
static void batch(void) { smr_batch(table, SMR_TABLE, records, records_length, slots, sizeof slots); }
static void begin(void) { smr_begin(table, SMR_TABLE, 59, 1, text, sizeof text, buffer, sizeof buffer); }
static void invoke(void) { smr_invoke(table, SMR_TABLE, 0, 0, 59, 1, text, sizeof text, buffer, sizeof buffer); }
static void result(void) { smr_result(table, SMR_TABLE, 0, 0, 5, text, sizeof text, buffer, sizeof buffer); }
static void error(void) { smr_error(table, SMR_TABLE, 0, 0, 5, 1, guidance, sizeof guidance, buffer, sizeof buffer); }
static void release(void) { smr_release(table, SMR_TABLE, 0, 0, buffer, sizeof buffer); }
static void cells(void) { smr_cells(0x0F, string, sizeof string, characters, SMR_CHARACTERS, lines, sizeof lines); }
static void trace_begin(void) { smr_trace_begin(block, SMR_BLOCK, 1); }
static void trace_add(void) { smr_trace_add(block, SMR_BLOCK, 1, message, given_length); }

static size_t larger(size_t a, size_t b) { return a > b ? a : b; }

/* The octets that a call takes of a fresh stack, with these entries in the table. */
static size_t depth(void (*call)(void), const char *entries)
{
    size_t clean = 0;
    read_table(entries, table);
    memset(stack, PAINT, STACK);
    getcontext(&there);
    there.uc_stack.ss_sp = stack;
    there.uc_stack.ss_size = STACK;
    there.uc_link = &here;
    makecontext(&there, call, 0);
    swapcontext(&here, &there);
    while (clean < STACK && stack[clean] == PAINT) clean++;
    return STACK - clean;
}

/* The deepest of 256 strings, each of one octet over and over: all septets are among them. */
static size_t depth_of_cells(void)
{
    size_t deepest = 0;
    for (int octet = 0; octet < 256; octet++) {
        memset(string, octet, sizeof string);
        deepest = larger(deepest, depth(cells, ""));
    }
    return deepest;
}

/* The deepest of records added to a block until one doesn't fit, and of each fault of it. */
static size_t depth_of_trace_add(void)
{
    static const size_t lengths[] = {1, SMR_MESSAGE, 0};
    size_t deepest = 0;
    for (size_t k = 0; k < sizeof lengths / sizeof *lengths; k++) {
        given_length = lengths[k];
        plain_begin(block, SMR_BLOCK, 1);
        for (int i = 0; i < RECORDS; i++) deepest = larger(deepest, depth(trace_add, ""));
    }
    plain_add(block, SMR_BLOCK, 1, message, 1);
    block[RECORDS_AT] = 2; /* a record, then the use count, then the sum */
    for (unsigned used = 3; used < 1000; used += 700) {
        put_used(block, used);
        put_sum(block);
        deepest = larger(deepest, depth(trace_add, ""));
    }
    block[SUMMED]++;
    return larger(deepest, depth(trace_add, ""));
}

static void add_record(void)
{
    records[records_length++] = (uint8_t)given_length;
    memcpy(records + records_length, given, given_length);
    records_length += given_length;
}

static void print(const char *name, size_t octets)
{
    printf("stack of %-18s %5zu\n", name, octets);
}

int main(void)
{
    /* what is answered waits first, so that all others move up; what we ask has one place left */
    const char *fresh = "", *open = "o0 own 1:59/2:17/3:11/4:10 peers 5:60/6:18/7:61/8:60",
               *peer = "n0 own 2:17/3:11/4:10 peers 5:60/6:18/7:61/8:60";
    size_t none, deepest = 0, of_batch = 0, kinds;
    struct {
        const uint8_t *octets;
        size_t length;
    } messages[] = {{menu, sizeof menu}, {answered, sizeof answered}, {ended, sizeof ended},
                    {rejected, sizeof rejected}};

    memset(text, 0x41, sizeof text);
    memcpy(text, (uint8_t[]){0x30, 0x81, 0xA6, 0x04, 0x01, 0x0F, 0x04, 0x81, 0xA0}, 9);
    memcpy(menu, (uint8_t[]){0x0B, 0x3B, 0x1C, 0xB2, 0xA1, 0x81, 0xAF, 0x02, 0x01, 0x05, 0x02, 0x01, 0x3C}, 13);
    memcpy(menu + 13, text, sizeof text);

    none = depth(nothing, fresh);
    kinds = sizeof messages / sizeof *messages;
    for (size_t i = 0; i < kinds; i++) {
        const char *entries = i == 0 ? fresh : open;
        given = messages[i].octets;
        given_length = messages[i].length;
        deepest = larger(deepest, depth(receive, entries) - none);
        records_length = 0;
        add_record();
        of_batch = larger(of_batch, depth(batch, entries) - none);
    }
    /* many records go no deeper than one */
    for (size_t i = 1; i < MANY; i++) {
        given = messages[i % kinds].octets;
        given_length = messages[i % kinds].length;
        add_record();
    }
    of_batch = larger(of_batch, depth(batch, open) - none);
    print("smr_receive", deepest);
    print("smr_batch", of_batch);
    print("smr_begin", depth(begin, fresh) - none);
    print("smr_invoke", depth(invoke, peer) - none);
    print("smr_result", depth(result, peer) - none);
    print("smr_error", depth(error, peer) - none);
    print("smr_release", depth(release, peer) - none);
    print("smr_cells", depth_of_cells() - none);
    print("smr_trace_begin", depth(trace_begin, "") - none);
    print("smr_trace_add", depth_of_trace_add() - none);
    return 0;
}
