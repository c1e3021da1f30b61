/*
 * Nivoplet: the checked run written to be fast, as the limit that tools/cost
 * holds the proved checker against.
 */
#ifndef NIVOPLET_FAST_H
#define NIVOPLET_FAST_H

#include "sim.h"

/* What checker_run of sim.h does, answers and leaves. */
struct check_result fast_run(struct checker *machine, uint32_t limit);

#endif
