/* Dates and periods in plain C, to measure the library against.
 * The results of include/bilzhaan.h under names of its own; nothing about it is proved. */
#ifndef BILZHAAN_BENCH_PLAIN_CALENDAR_H
#define BILZHAAN_BENCH_PLAIN_CALENDAR_H

#include "bilzhaan.h"

struct bilzhaan_period plain_period_of(int32_t year, int32_t month, int32_t day, int32_t period);
struct bilzhaan_date plain_date_of(int32_t period);

#endif
