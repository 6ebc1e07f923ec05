/* The packing of GSM 03.38: septet i is the bits 7i to 7i+6 of the octets, counted
 * from the low bit of the first. */
#ifndef SEPTETS_H
#define SEPTETS_H

#include <stddef.h>
#include <stdint.h>

enum { CR = 0x0D, ESCAPE = 0x1B };

/* Packs septets, with zeros as spare bits; how many octets they take. */
size_t pack(const uint8_t *septets, size_t count, uint8_t *octets);

/* The same as a sender does it: CR in seven spare bits, where zeros would read as @,
 * and another CR behind one that ends on an octet boundary. There must be room for
 * one more septet. */
size_t pack_said(uint8_t *septets, size_t count, uint8_t *octets);

/* How many septets so many octets hold, and one of them. */
size_t septets_in(size_t length);
uint8_t septet_at(const uint8_t *octets, size_t i);

#endif
