/* The reader and salvage once more, in plain C over standard input, to hold the programs
 * against. */
#ifndef PLAIN_H
#define PLAIN_H

void plain_read(void);
void plain_salvage(void);

#endif
