/* What held and what didn't. */
#ifndef CHECK_H
#define CHECK_H

#include <stdbool.h>

/* Counts; prints the name of what failed, in lines of at most forty cells. */
void check(bool holds, const char *name, const char *what);

/* The last line of every test; the exit status. */
int checks_done(void);

#endif
