/* The list machine of documents 01 and 02: the opening's sizes and limits, and a list of accepted records. It has no table.
 * A model to compare answers with; it is slow on purpose and allocates as the list grows. */
#ifndef BILZHAAN_TESTS_LIST_MACHINE_H
#define BILZHAAN_TESTS_LIST_MACHINE_H

#include "bilzhaan.h"

struct list_machine {
    int32_t facilities, services;
    int32_t limits[6];
    uint8_t (*accepted)[112]; /* oldest first in memory; read from the end, newest first */
    size_t count, room;
};

/* The state after an opening that returned 0. */
void list_machine_open(struct list_machine *m, int32_t facilities, int32_t services, const int32_t limits[6]);

struct bilzhaan_answer list_machine_call(struct list_machine *m, const uint8_t *bytes, size_t length);

/* Refusals 2, 3 and 4, which the bytes, F and S alone decide; else 0. */
int list_machine_record_number(const uint8_t *bytes, size_t length, int32_t facilities, int32_t services);

/* A slot's next period, counted week by week from the slot's first; slots 0 to 335. */
int64_t list_machine_next_period(int64_t minute, int64_t slot);

void list_machine_close(struct list_machine *m);

#endif
