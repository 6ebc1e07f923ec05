/* What the papers say of a step, beside a plain account of what waits: two lists for each
 * entry. The messages are whole, of our protocol, and have one component or none. */
#ifndef ACCOUNT_H
#define ACCOUNT_H

#include "image.h"
#include "spoken.h"

/* A parameter that suits; one that doesn't; of a result, a 30 without one, or no 30. */
typedef enum { SUITS, UNSUITED, BARE, MISSING } form;

/* A message that comes, or a call of ours: of its type too, where begin is a REGISTER and
 * release a RELEASE COMPLETE. A kind of 0 is an empty Facility value. */
typedef struct {
    uint8_t flag, value, type, kind, operation, code;
    int8_t id, linked;
    bool has_linked;
    form form;
} step;

/* What it must give; the number of the problem in a Reject. A component is shown as it
 * came, or not at all. */
typedef struct {
    uint8_t code, value, problem;
    spoken sent;
    bool shows;
} outcome;

/* What must come of it; what waits is changed. */
outcome expect_received(entry *account, const step *s);
outcome expect_called(entry *account, const step *s);
/* A refusal or a verdict, and nothing else. */
outcome only(uint8_t code);

#endif
