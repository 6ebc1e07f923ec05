/* Files by chance, the same in every run, to standard output. */
#ifndef DRAWN_H
#define DRAWN_H

/* A trace file of so many blocks, as the writer makes it. */
void draw_file(unsigned blocks);

/* A worn card of so many blocks, sound ones and all kinds of others, and a short one. */
void draw_card(unsigned blocks);

#endif
