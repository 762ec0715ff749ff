/* The dates and periods of document 02 as one would write them in C for speed: a table of the months, and no loop.
 * It shares no code with the counted calendar of the tests. */
#include "plain_calendar.h"

#include <stdbool.h>
#include <string.h>

enum {
    FIRST_YEAR = 2024, LAST_YEAR = 2099, PERIODS = 48, LAST_PERIOD = 1332431,
    FOUR_YEARS = 1461, /* days: every fourth of these years is a leap year, the first one too */
    ROOM = 16, /* a power of two, which indexes faster than 13 */
    REFUSED = 21
};

/* The days of a year before each month, and all its days; of a leap year in the second row. */
static const uint16_t days_before[2][ROOM] = {
    {0, 31, 59, 90, 120, 151, 181, 212, 243, 273, 304, 334, 365},
    {0, 31, 60, 91, 121, 152, 182, 213, 244, 274, 305, 335, 366},
};

static inline bool outside(int32_t n, int32_t low, int32_t high)
{
    return n < low || n > high;
}

/* Number and period are stored at once: gcc returns them in one register, which it would load while two stores are on
 * their way. */
static inline struct bilzhaan_period answer(uint32_t number, uint32_t period, uint32_t weekday)
{
    struct bilzhaan_period a;
    uint64_t both = (uint64_t)period << 32 | number;
    memcpy(&a, &both, sizeof both);
    a.weekday = (int32_t)weekday;
    return a;
}

struct bilzhaan_period plain_period_of(int32_t year, int32_t month, int32_t day, int32_t period)
{
    if (outside(year, FIRST_YEAR, LAST_YEAR) || outside(month, 1, 12) || outside(period, 1, PERIODS))
        return answer(REFUSED, 0, 0);
    const uint16_t *before = days_before[year % 4 == 0];
    if (outside(day, 1, before[month] - before[month - 1]))
        return answer(REFUSED, 0, 0);
    uint32_t years = (uint32_t)(year - FIRST_YEAR);
    uint32_t n = (FOUR_YEARS * years + 3) / 4 + before[month - 1] + (uint32_t)day - 1;
    return answer(0, PERIODS * n + (uint32_t)period - 1, n % 7);
}

struct bilzhaan_date plain_date_of(int32_t period)
{
    if (outside(period, 0, LAST_PERIOD))
        return (struct bilzhaan_date){REFUSED, 0, 0, 0, 0, 0};
    uint32_t n = (uint32_t)period / PERIODS;
    uint32_t years = 4 * n / FOUR_YEARS, rest = 4 * n % FOUR_YEARS / 4;
    const uint16_t *before = days_before[years % 4 == 0];
    uint32_t month = rest / 32; /* from 0: the right one, or the one before it */
    month += rest >= before[month + 1];
    return (struct bilzhaan_date){
        .number = 0,
        .year = (int32_t)(FIRST_YEAR + years),
        .month = (int32_t)month + 1,
        .day = (int32_t)(rest - before[month]) + 1,
        .period = (int32_t)((uint32_t)period % PERIODS) + 1,
        .weekday = (int32_t)(n % 7),
    };
}
