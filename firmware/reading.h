/* What a string must become: 03.38 and the request read a second time, in C. */
#ifndef READING_H
#define READING_H

#include <stddef.h>
#include <stdint.h>

enum { STRING = 300, CHARACTERS = 8 * STRING / 7, LINES = CHARACTERS + 1, CELLS = 40 };

/* Text and lines as smr_cells writes them, were there room for all. */
typedef struct {
    size_t characters;
    size_t lines;
    uint16_t text[CHARACTERS];
    uint8_t pairs[2 * LINES];
} reading;

/* Reads a string of scheme 0F, of at most STRING octets. */
void read_string(const uint8_t *string, size_t length, reading *to);

/* The code that a call must give, with this room for characters and lines. */
uint8_t code_of(const reading *of, uint8_t scheme, size_t text_length, size_t lines_length);

#endif
