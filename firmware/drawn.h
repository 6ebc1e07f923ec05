/* Sound tables, messages and calls by chance. */
#ifndef DRAWN_H
#define DRAWN_H

#include "account.h"

bool one_in(uint32_t n);

/* An operation that may wait on its side, by a number. */
uint8_t operation_at(size_t i, bool own);
/* A sound table, some entries closed. */
void draw_table(uint8_t *image);

/* The entry that a step concerns; of value 7 a closed one. */
const entry *named(const step *s, const entry *account);
/* What comes, by what waits: mostly questions, or mostly answers. */
step draw_received(const entry *account, bool asking);
/* And what we call. */
step draw_called(const entry *account, bool asking);
/* The component of what comes. */
spoken component_of(const step *s);

#endif
