/* The damaged part of a random list: words of the book that no calls make, and calls on them. */
#ifndef BILZHAAN_TESTS_DAMAGED_PART_H
#define BILZHAAN_TESTS_DAMAGED_PART_H

#include "compared_call.h"

void damaged_part(struct list *l, struct random *r, struct scene *scene);

#endif
