/* What trials met, for the driver and the recorder to tell. */
#ifndef MET_H
#define MET_H

#include "trial.h"

#include <stdio.h>

extern unsigned long compared[CALLS];

void note(const struct trial *t, const struct outcome *right); /* the answer and buffers that are right */
int print_met(FILE *to);                                       /* the number of refusal numbers and kinds that were not met */

#endif
