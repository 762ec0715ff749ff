/* Dates and periods both ways against Python's datetime, of the library, of the plain calendar and of the counted one: every
 * day and period of 2024 to 2099, the days of five years and the P of three months on either side, days that no month has,
 * words at and beyond the edges of every field, and random ones. Argument: the days that tests/datetime_days.py prints. Prints 'N passed, M failed'. */
#include "../../bench/plain_calendar.h"
#include "counted_calendar.h"

#include <inttypes.h>
#include <stdbool.h>
#include <stdio.h>

/* Document 02: "for 2024 to 2099", "periods 1 to 48", "31 December 2099 is day 27,758"; the last P of that day. */
enum { FIRST_YEAR = 2024, LAST_YEAR = 2099, DAY_PERIODS = 48, LAST_DAY = 27758, LAST_PERIOD = 1332431, REFUSED = 21 };

static long passed, failed;

static void check(bool ok, const char *what)
{
    if (ok) {
        passed++;
    } else if (failed++ < 20) {
        printf("not so: %s\n", what);
    }
}

/* ---- what datetime says ---- */

enum { FIRST_KNOWN = 2019, LAST_KNOWN = 2104, DAYS_BEFORE = 1826, DAYS_KNOWN = 31411 }; /* day 0 is days[DAYS_BEFORE] */

struct day {
    int32_t year, month, day, weekday, number;
};

static struct day days[DAYS_KNOWN];
static const struct day *day_of[LAST_KNOWN - FIRST_KNOWN + 1][12][31]; /* null where there is no such day */

/* False where the file isn't the days from 1 January 2019 to 31 December 2104 in their order. */
static bool read_days(FILE *file)
{
    for (int i = 0; i < DAYS_KNOWN; i++) {
        struct day *d = &days[i];
        if (fscanf(file, "%" SCNd32 " %" SCNd32 " %" SCNd32 " %" SCNd32 " %" SCNd32, &d->year, &d->month, &d->day, &d->weekday,
                   &d->number) != 5
            || d->number != i - DAYS_BEFORE || d->year < FIRST_KNOWN || d->year > LAST_KNOWN || d->month < 1 || d->month > 12
            || d->day < 1 || d->day > 31)
            return false;
        day_of[d->year - FIRST_KNOWN][d->month - 1][d->day - 1] = d;
    }
    int more;
    return fscanf(file, "%d", &more) == EOF;
}

static struct bilzhaan_period expected_period(int32_t year, int32_t month, int32_t day, int32_t period)
{
    struct bilzhaan_period none = {.number = REFUSED};
    if (year < FIRST_YEAR || year > LAST_YEAR || month < 1 || month > 12 || day < 1 || day > 31 || period < 1
        || period > DAY_PERIODS)
        return none;
    const struct day *found = day_of[year - FIRST_KNOWN][month - 1][day - 1];
    if (!found)
        return none;
    struct bilzhaan_period p = {.number = 0, .period = DAY_PERIODS * found->number + period - 1, .weekday = found->weekday};
    return p;
}

static struct bilzhaan_date expected_date(int32_t period)
{
    struct bilzhaan_date none = {.number = REFUSED};
    if (period < 0 || period > LAST_PERIOD)
        return none;
    const struct day *found = &days[DAYS_BEFORE + period / DAY_PERIODS];
    struct bilzhaan_date d = {.number = 0, .year = found->year, .month = found->month, .day = found->day,
                              .period = period % DAY_PERIODS + 1, .weekday = found->weekday};
    return d;
}

/* ---- who is asked ---- */

static const struct calendar {
    const char *name;
    struct bilzhaan_period (*period_of)(int32_t year, int32_t month, int32_t day, int32_t period);
    struct bilzhaan_date (*date_of)(int32_t period);
} calendars[] = {
    {"the library", bilzhaan_period_of, bilzhaan_date_of},
    {"the plain calendar", plain_period_of, plain_date_of},
    {"the counted calendar", counted_period_of, counted_date_of},
};

static const struct calendar *asked;

/* A date and period go to the P that datetime gives, or draw 21 beside zeros. */
static struct bilzhaan_period check_period(int32_t year, int32_t month, int32_t day, int32_t period)
{
    struct bilzhaan_period got = asked->period_of(year, month, day, period), e = expected_period(year, month, day, period);
    bool ok = got.number == e.number && got.period == e.period && got.weekday == e.weekday;
    char what[256] = "";
    if (!ok)
        snprintf(what, sizeof what, "%s: period %" PRId32 " of %" PRId32 "-%" PRId32 "-%" PRId32 " is %" PRIu32 " %" PRId32
                 " %" PRId32 ", expected %" PRIu32 " %" PRId32 " %" PRId32, asked->name, period, year, month, day, got.number,
                 got.period, got.weekday, e.number, e.period, e.weekday);
    check(ok, what);
    return got;
}

static struct bilzhaan_date check_date(int32_t period)
{
    struct bilzhaan_date got = asked->date_of(period), e = expected_date(period);
    bool ok = got.number == e.number && got.year == e.year && got.month == e.month && got.day == e.day
        && got.period == e.period && got.weekday == e.weekday;
    char what[256] = "";
    if (!ok)
        snprintf(what, sizeof what, "%s: P %" PRId32 " is %" PRIu32 " %" PRId32 "-%" PRId32 "-%" PRId32 " %" PRId32 " %" PRId32
                 ", expected %" PRIu32 " %" PRId32 "-%" PRId32 "-%" PRId32 " %" PRId32 " %" PRId32, asked->name, period,
                 got.number, got.year, got.month, got.day, got.period, got.weekday, e.number, e.year, e.month, e.day, e.period,
                 e.weekday);
    check(ok, what);
    return got;
}

/* ---- the tests ---- */

/* Every day that is known, with periods from -1 to 50: "Each date and period goes to one P and comes back". */
static void every_day(void)
{
    for (int i = 0; i < DAYS_KNOWN; i++)
        for (int32_t period = -1; period <= DAY_PERIODS + 2; period++) {
            struct bilzhaan_period p = check_period(days[i].year, days[i].month, days[i].day, period);
            if (p.number == 0) {
                struct bilzhaan_date d = asked->date_of(p.period);
                check(d.number == 0 && d.year == days[i].year && d.month == days[i].month && d.day == days[i].day
                          && d.period == period && d.weekday == p.weekday,
                      "a date and period come back");
            }
        }
}

/* Every P that has a date, and three months of them on either side. */
static void every_period(void)
{
    for (int32_t period = -90 * DAY_PERIODS; period <= LAST_PERIOD + 90 * DAY_PERIODS; period++) {
        struct bilzhaan_date d = check_date(period);
        if (d.number == 0) {
            struct bilzhaan_period p = asked->period_of(d.year, d.month, d.day, d.period);
            check(p.number == 0 && p.period == period && p.weekday == d.weekday, "a P comes back");
        }
    }
}

/* Months -1 to 14 and days -1 to 33 of every year that is known. */
static void days_that_no_month_has(void)
{
    for (int32_t year = FIRST_KNOWN; year <= LAST_KNOWN; year++)
        for (int32_t month = -1; month <= 14; month++)
            for (int32_t day = -1; day <= 33; day++)
                check_period(year, month, day, 1 + (day + 35) % DAY_PERIODS);
}

/* Each field at and beyond its edges, at words that hold such a value in their low bytes, and at the ends of int32_t. */
static const int32_t edges[] = {
    INT32_MIN, INT32_MIN + 1, INT32_MIN + 2024, -2024, -65536 + 2024, -256 + 1, -48, -1, 0, 1, 2, 4, 11, 12, 13, 28, 29, 30, 31, 32,
    47, 48, 49, 256 + 1, 2000, 2023, 2024, 2025, 2028, 2096, 2098, 2099, 2100, 2400, 65536 + 1, 65536 + 2024, INT32_MAX - 1, INT32_MAX};
enum { EDGES = sizeof edges / sizeof edges[0] };

static void edges_of_every_field(void)
{
    for (int y = 0; y < EDGES; y++)
        for (int m = 0; m < EDGES; m++)
            for (int d = 0; d < EDGES; d++)
                for (int q = 0; q < EDGES; q++)
                    check_period(edges[y], edges[m], edges[d], edges[q]);
    for (int i = 0; i < EDGES; i++)
        check_date(edges[i]);
    for (int bit = 20; bit < 31; bit++) /* a P of the calendar and a high bit */
        for (int64_t p = (INT64_C(1) << bit) - 2; p <= (INT64_C(1) << bit) + 2; p++) {
            check_date((int32_t)p);
            check_date((int32_t)-p);
            check_date((int32_t)(p - INT32_MAX - 1));
        }
}

static uint64_t random_state = 6;

static uint32_t random_word(void)
{
    random_state = random_state * UINT64_C(6364136223846793005) + UINT64_C(1442695040888963407);
    return (uint32_t)(random_state >> 32);
}

/* Mostly from lo to hi, else any word. */
static int32_t mostly(int32_t lo, int32_t hi)
{
    uint32_t word = random_word();
    return random_word() % 16 == 0 ? (int32_t)word : lo + (int32_t)(word % (uint32_t)(hi - lo + 1));
}

static void random_words(void)
{
    for (int i = 0; i < 1000000; i++) {
        check_period(mostly(FIRST_YEAR - 1, LAST_YEAR + 1), mostly(0, 13), mostly(0, 32), mostly(0, DAY_PERIODS + 1));
        check_date(mostly(-1000, LAST_PERIOD + 1000));
    }
}

/* By hand, with what the papers say of them. */
static void by_hand(void)
{
    static const struct {
        int32_t year, month, day, period, p, weekday;
    } known[] = {
        {2024, 1, 1, 1, 0, 0}, {2024, 1, 1, 48, 47, 0}, {2024, 1, 8, 5, 340, 0}, {2024, 2, 29, 1, 2832, 3},
        {2026, 11, 16, 24, 50423, 0}, {2099, 12, 31, 1, 48 * LAST_DAY, 3}, {2099, 12, 31, 48, LAST_PERIOD, 3},
    };
    for (size_t i = 0; i < sizeof known / sizeof known[0]; i++) {
        struct bilzhaan_period p = check_period(known[i].year, known[i].month, known[i].day, known[i].period);
        check(p.number == 0 && p.period == known[i].p && p.weekday == known[i].weekday, "a date that the papers name");
    }
    check(asked->period_of(2025, 2, 29, 1).number == REFUSED, "2025 has no 29 February");
    check(asked->period_of(2100, 1, 1, 1).number == REFUSED, "2100 is past the last year");
    check(asked->date_of(LAST_PERIOD + 1).number == REFUSED, "P 1,332,432 has no date");
}

int main(int count, char **arguments)
{
    FILE *file = count == 2 ? fopen(arguments[1], "r") : NULL;
    if (!file) {
        fprintf(stderr, "usage: dates_test DAYS\n");
        return 2;
    }
    check(read_days(file), "the file has every day of 2019 to 2104");
    fclose(file);
    if (failed == 0)
        for (size_t i = 0; i < sizeof calendars / sizeof calendars[0]; i++) {
            asked = &calendars[i];
            by_hand();
            every_day();
            every_period();
            days_that_no_month_has();
            edges_of_every_field();
            random_words();
        }
    printf("%ld passed, %ld failed\n", passed, failed);
    return failed != 0;
}
