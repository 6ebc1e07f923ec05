/* Blocks and records beyond the cases: each length, direction and octet, and by chance. */
#ifndef WORN_H
#define WORN_H

void wear(void);

#endif
