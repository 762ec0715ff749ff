/* The calendar of document 02, "Dates on the filing screen", from one date to the next; each quotation is from there.
 * Numbers stand as the paper prints them, so that a slip in the header's names can't hide here. */
#include "counted_calendar.h"

#include <stdbool.h>
#include <stdio.h>
#include <stdlib.h>

struct date {
    int32_t year, month, day, weekday;
};

/* "Day 0 is 1 January 2024, a Monday", "31 December 2099 is day 27,758" */
static const struct date first = {2024, 1, 1, 0};
enum { LAST_DAY = 27758 };

static struct date dates[LAST_DAY + 1]; /* by day number */
static int32_t days[76][13][32]; /* day numbers by year after 2024, month and day; -1 for no date */

/* "by the Gregorian rule" */
static bool is_leap(int32_t year)
{
    return year % 4 == 0 && (year % 100 != 0 || year % 400 == 0);
}

static int32_t month_length(int32_t year, int32_t month)
{
    switch (month) {
    case 2:
        return is_leap(year) ? 29 : 28;
    case 4: case 6: case 9: case 11:
        return 30;
    default:
        return 31;
    }
}

static struct date day_after(struct date d)
{
    d.weekday = d.weekday == 6 ? 0 : d.weekday + 1;
    d.day++;
    if (d.day > month_length(d.year, d.month)) {
        d.day = 1;
        d.month++;
    }
    if (d.month > 12) {
        d.month = 1;
        d.year++;
    }
    return d;
}

static void clear_days(void)
{
    for (int year = 0; year < 76; year++)
        for (int month = 0; month < 13; month++)
            for (int day = 0; day < 32; day++)
                days[year][month][day] = -1;
}

/* "for 2024 to 2099" */
static void count_days(void)
{
    int32_t n = 0;
    clear_days();
    for (struct date d = first; d.year <= 2099 && n <= LAST_DAY; d = day_after(d)) {
        dates[n] = d;
        days[d.year - 2024][d.month][d.day] = n;
        n++;
    }
    if (n != LAST_DAY + 1 || days[2099 - 2024][12][31] != LAST_DAY) {
        fprintf(stderr, "31 December 2099 isn't day 27,758 by counting\n");
        exit(2);
    }
}

static void count_once(void)
{
    static bool counted;
    if (!counted)
        count_days();
    counted = true;
}

/* "where the date doesn't exist, the year is outside 2024–2099": -1 */
static int32_t day_number(int32_t year, int32_t month, int32_t day)
{
    if (year < 2024 || year > 2099 || month < 1 || month > 12 || day < 1 || day > 31)
        return -1;
    return days[year - 2024][month][day];
}

/* "48 times the day number plus the period less 1" */
struct bilzhaan_period counted_period_of(int32_t year, int32_t month, int32_t day, int32_t period)
{
    struct bilzhaan_period a = {21, 0, 0};
    count_once();
    int32_t n = day_number(year, month, day);
    if (n < 0 || period < 1 || period > 48)
        return a;
    a.number = 0;
    a.period = 48 * n + (period - 1);
    a.weekday = dates[n].weekday;
    return a;
}

/* "P is below 0 or beyond the last date's" */
struct bilzhaan_date counted_date_of(int32_t period)
{
    struct bilzhaan_date a = {21, 0, 0, 0, 0, 0};
    count_once();
    if (period < 0 || period / 48 > LAST_DAY)
        return a;
    struct date d = dates[period / 48];
    a.number = 0;
    a.year = d.year;
    a.month = d.month;
    a.day = d.day;
    a.period = period % 48 + 1;
    a.weekday = d.weekday;
    return a;
}
