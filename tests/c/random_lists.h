/* Random lists of calls, each compared call by call, struck out for a facility, and for some of them damaged at the end. */
#ifndef BILZHAAN_TESTS_RANDOM_LISTS_H
#define BILZHAAN_TESTS_RANDOM_LISTS_H

#include "compared_call.h"

extern long damaged_lists;

/* The list of this seed and number for these sizes, whichever lists were made before. */
struct random random_of_list(uint64_t seed, long number);
void random_list(struct list *l, struct random *r, int32_t facilities, int32_t services);

#endif
