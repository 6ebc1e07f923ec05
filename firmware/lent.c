#define _DEFAULT_SOURCE
#include "lent.h"

#include <stdio.h>
#include <stdlib.h>
#include <sys/mman.h>
#include <unistd.h>

enum { ROOMS = 4, PAGES = 256 };

uint8_t *lend(int which, size_t length, int before)
{
    static uint8_t *rooms[ROOMS];
    size_t page = (size_t)sysconf(_SC_PAGESIZE);
    size_t inside = page * PAGES;
    if (rooms[which] == NULL) {
        uint8_t *all = mmap(NULL, inside + 2 * page, PROT_NONE,
                            MAP_PRIVATE | MAP_ANONYMOUS, -1, 0);
        if (all == MAP_FAILED ||
            mprotect(all + page, inside, PROT_READ | PROT_WRITE) != 0) {
            puts("no memory");
            exit(2);
        }
        rooms[which] = all + page;
    }
    if (length > inside) {
        puts("too much lent");
        exit(2);
    }
    return before ? rooms[which] : rooms[which] + inside - length;
}

bool is_marked(const void *octets, size_t from, size_t length)
{
    const uint8_t *at = octets;
    for (size_t i = from; i < length; i++)
        if (at[i] != MARK) return false;
    return from <= length;
}
