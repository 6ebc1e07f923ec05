#include "noted.h"

#include <stdio.h>
#include <stdlib.h>
#include <string.h>

/* Hex up to what is none, at most a block of it; returns how many octets. */
static unsigned read_hex(const char *at, uint8_t *octets)
{
    unsigned octet, count = 0;
    for (; count < RECORDS && sscanf(at, "%2x", &octet) == 1; at += 2)
        octets[count++] = (uint8_t)octet;
    return count;
}

static void change(const char *word, uint8_t *block)
{
    unsigned used;
    if (strncmp(word, "sum", 3) == 0) {
        block[SMR_BLOCK - 1]++;
        if (block[SMR_BLOCK - 1] == 0) block[SMR_BLOCK - 2]++;
        return;
    }
    if (sscanf(word, "used=%u", &used) == 1) {
        put_used(block, used);
    } else if (strncmp(word, "rest", 4) == 0) {
        block[RECORDS_AT + RECORDS - 1] = 1;
    } else {
        puts("no such change");
        exit(2);
    }
    put_sum(block);
}

size_t read_block(const char *word, uint8_t *block)
{
    if (word[0] == '+') {
        size_t octets = strtoul(word + 1, NULL, 10);
        memset(block, 0, octets);
        return octets;
    }
    memset(block, strcmp(word, "ff") == 0 ? 0xFF : 0, SMR_BLOCK);
    if (strcmp(word, "ff") == 0 || strcmp(word, "zero") == 0) return SMR_BLOCK;
    const char *records = strchr(word, ':');
    if (records == NULL) {
        puts("no such block");
        exit(2);
    }
    put_number(block, (uint32_t)strtoul(word, NULL, 10));
    put_used(block, read_hex(records + 1, block + RECORDS_AT));
    put_sum(block);
    for (const char *c = strchr(records + 1, ':'); c != NULL; c = strchr(c + 1, ':'))
        change(c + 1, block);
    return SMR_BLOCK;
}

bool read_record(const char *word, noted_record *record)
{
    const char *dot = strchr(word, '.');
    unsigned octet = 0x41;
    char *end;
    if (dot == NULL) return false;
    record->times = 1;
    if (word[0] == 'R' || word[0] == 'S') {
        record->direction = word[0] == 'S';
        record->length = read_hex(dot + 1, record->message);
        return true;
    }
    record->direction = (uint8_t)strtoul(word, NULL, 10);
    record->length = strtoul(dot + 1, &end, 10);
    if (*end == 'x') record->times = strtoul(end + 1, &end, 10);
    if (*end == '=') sscanf(end + 1, "%2x", &octet);
    if (record->length > sizeof record->message) return false;
    memset(record->message, (int)octet, record->length);
    return true;
}
