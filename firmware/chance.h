/* Numbers by chance, the same in every run. */
#ifndef CHANCE_H
#define CHANCE_H

#include <stdint.h>

uint32_t random_below(uint32_t n);

#endif
