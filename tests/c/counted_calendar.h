/* The dates and periods of document 02, counted day by day from 1 January 2024. It has no formula for a date.
 * A model to compare answers with, for one thread: the first call counts the days. */
#ifndef BILZHAAN_TESTS_COUNTED_CALENDAR_H
#define BILZHAAN_TESTS_COUNTED_CALENDAR_H

#include "bilzhaan.h"

struct bilzhaan_period counted_period_of(int32_t year, int32_t month, int32_t day, int32_t period);
struct bilzhaan_date counted_date_of(int32_t period);

#endif
