/* Trials written down with the answers and buffers that are right, for another program to try the same calls (tests/ports/replay.js). */
#ifndef RECORD_H
#define RECORD_H

#include "trial.h"

#include <stdio.h>

void record(FILE *to, uint64_t number, const struct trial *t, const struct outcome *right);

#endif
