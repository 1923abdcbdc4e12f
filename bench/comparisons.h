/* Comparisons of two tables, measured. */
#ifndef COMPARISONS_H
#define COMPARISONS_H

#include "calls.h"

/* Compares tables by the calls of both, in turns within one run, and prints what each takes. Every answer of the two is
   compared, and every byte of the lists. */
void measure_comparisons(const struct calls *hand, const struct calls *proved);

#endif
