/* The parts of talk.c that have a file of their own. */
#ifndef TALK_H
#define TALK_H

/* Four questions at once on either side, step by step. */
void test_four(void);

/* Long conversations by chance, beside a plain account of what waits. */
void test_wander(void);

/* Damaged images: 28 exactly where the papers call them so. */
void test_damage(void);

#endif
