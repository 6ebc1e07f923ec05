/* Strings beyond the cases: each septet and pair, each scheme, each length. */
#ifndef SWEEP_H
#define SWEEP_H

void sweep(void);

#endif
