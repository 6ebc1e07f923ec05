/* Octets lent to a call, flush against a page that may not be touched. */
#ifndef LENT_H
#define LENT_H

#include <stdbool.h>
#include <stddef.h>
#include <stdint.h>

/* Room for `length` octets; one octet behind the last faults, or, with `before`,
 * one octet before the first. Each `which` (0 to 3) is a room of its own. */
uint8_t *lend(int which, size_t length, int before);

/* Octets that a call may write are marked before it; whether those from `from` on still are. */
enum { MARK = 0xEE };
bool is_marked(const void *octets, size_t from, size_t length);

#endif
