/* Bit by bit, as the sentence has it, and so unlike a program that shifts octets. */
#include "septets.h"

#include <stdbool.h>
#include <string.h>

size_t pack(const uint8_t *septets, size_t count, uint8_t *octets)
{
    size_t length = (7 * count + 7) / 8;
    memset(octets, 0, length);
    for (size_t bit = 0; bit < 7 * count; bit++)
        octets[bit / 8] |= (uint8_t)((septets[bit / 7] >> bit % 7 & 1) << bit % 8);
    return length;
}

size_t pack_said(uint8_t *septets, size_t count, uint8_t *octets)
{
    bool seven_spare = count % 8 == 7;
    bool looks_padded = count > 0 && count % 8 == 0 && septets[count - 1] == CR;
    septets[count] = CR;
    return pack(septets, seven_spare || looks_padded ? count + 1 : count, octets);
}

size_t septets_in(size_t length)
{
    return 8 * length / 7;
}

uint8_t septet_at(const uint8_t *octets, size_t i)
{
    uint8_t septet = 0;
    for (size_t k = 0, bit = 7 * i; k < 7; k++, bit++)
        septet |= (uint8_t)((octets[bit / 8] >> bit % 8 & 1) << k);
    return septet;
}
