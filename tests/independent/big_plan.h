/* The largest plan there is, 16 nodes and 127 rows, for drills and timings. */
#ifndef BIG_PLAN_H
#define BIG_PLAN_H

#include "reference.h"

void reference_big_plan(reference_plan *plan);

#endif
