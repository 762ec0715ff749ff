"""Dates and periods 1 to 48 as P, and back: the turns of days, months and years, leap days, weekdays, 21 in every way; and the P of a date in calls."""
from .form import GENERATION, LEAST, MOST, capability, clock, look_up, standing, variation

YEARS = range(2024, 2100)
MONTHS = (31, 28, 31, 30, 31, 30, 31, 31, 30, 31, 30, 31)
LAST_PERIOD = 1_332_431


def _days(year, month):
    """No year of 2024 to 2099 is a multiple of 100."""
    return MONTHS[month - 1] + (month == 2 and year % 4 == 0)


def _day_number(year, month, day):
    """The days of the years before, of the months before, and of this month."""
    years = sum(_days(y, m) for y in range(2024, year) for m in range(1, 13))
    return years + sum(_days(year, m) for m in range(1, month)) + day - 1


def _there_and_back(t, date, period):
    day = _day_number(*date)
    t.there_and_back(date, period, 48 * day + period - 1, day % 7)


def day_0(t):
    """1 January 2024 is day 0, a Monday; nothing is before it."""
    t.open(1, 1)
    t.there_and_back((2024, 1, 1), 1, 0, 0)
    t.there_and_back((2024, 1, 1), 48, 47, 0)
    t.there_and_back((2024, 1, 2), 1, 48, 1)
    t.date((2023, 12, 31), 48)
    t.period(-1)


def last_day(t):
    """31 December 2099 is day 27,758, a Thursday; nothing is after it."""
    t.open(1, 1)
    t.there_and_back((2099, 12, 31), 1, 48 * 27_758, 3)
    t.there_and_back((2099, 12, 31), 48, LAST_PERIOD, 3)
    t.date((2100, 1, 1), 1)
    t.period(LAST_PERIOD + 1)


def dates_to_look_up(t):
    """Dates with weekdays that any calendar shows: 16 November 2026 is day 1,050."""
    t.open(1, 1)
    for date, day, weekday in (((2024, 2, 29), 59, 3), ((2024, 3, 1), 60, 4), ((2024, 12, 25), 359, 2), ((2025, 3, 1), 425, 5),
                               ((2026, 11, 16), 1050, 0), ((2038, 1, 19), 5132, 1), ((2096, 2, 29), 26_357, 2)):
        for period in (1, 24, 48):
            t.there_and_back(date, period, 48 * day + period - 1, weekday)


def every_period_of_a_day(t):
    """Periods 1 to 48 of 16 November 2026, and those that a day doesn't have."""
    t.open(1, 1)
    for period in range(1, 49):
        t.there_and_back((2026, 11, 16), period, 50_400 + period - 1, 0)
    for period in (LEAST, -48, -1, 0, 49, 50, 256 + 24, 65536 + 24, MOST):
        t.date((2026, 11, 16), period)


def weekdays(t):
    """Three weeks from Monday to Sunday, over a leap day and over a year's end."""
    t.open(1, 1)
    for first in (0, 56, 364):  # 1 January, 26 February and 30 December 2024
        for day in range(first, first + 7):
            year, month, date = 2024, 1, day
            while date >= _days(year, month):
                date -= _days(year, month)
                year, month = (year + 1, 1) if month == 12 else (year, month + 1)
            t.there_and_back((year, month, date + 1), 20, 48 * day + 19, day % 7)


def turns_of_months(t):
    """The first and the last day of each month of a leap year and of others, and the days that it doesn't have."""
    t.open(1, 1)
    for year in (2024, 2025, 2026, 2027, 2096, 2099):
        for month in range(1, 13):
            _there_and_back(t, (year, month, 1), 1)
            _there_and_back(t, (year, month, _days(year, month)), 48)
            t.date((year, month, 0), 1)
            t.date((year, month, _days(year, month) + 1), 1)


def turns_of_years(t):
    """The last period of each year and the first of the next."""
    t.open(1, 1)
    for year in YEARS:
        _there_and_back(t, (year, 1, 1), 1)
        _there_and_back(t, (year, 12, 31), 48)


def leap_days(t):
    """29 February of each year: one of four has it."""
    t.open(1, 1)
    for year in YEARS:
        if year % 4 == 0:
            _there_and_back(t, (year, 2, 29), 30)
        else:
            t.date((year, 2, 29), 30)
        _there_and_back(t, (year, 3, 1), 30)


def no_such_dates(t):
    """Days that no month has, months that no year has, and years outside 2024 to 2099, each beside what is right."""
    t.open(1, 1)
    for month, day in ((2, 30), (4, 31), (6, 31), (9, 31), (11, 31), (1, 32), (12, 32), (13, 1), (0, 1), (-1, 1), (1, 0), (1, -1), (0, 0)):
        t.date((2024, month, day), 1)
    for year in (-2024, 0, 24, 1999, 2000, 2004, 2023, 2100, 2104, 2400):
        for month, day in ((1, 1), (2, 28), (2, 29), (12, 31)):
            t.date((year, month, day), 1)


def words_of_32_bits(t):
    """Each field at the ends of 32 bits, and where its low bytes alone are a year, a month, a day or a period."""
    t.open(1, 1)
    right = (2024, 2, 29, 48)
    t.date(right[:3], right[3], 2879, 3)
    for place in range(4):
        for word in (LEAST, LEAST + right[place], MOST, MOST - 48, right[place] + 2**8, right[place] + 2**16, right[place] - 2**16, -right[place]):
            wrong = [*right[:place], word, *right[place + 1:]]
            t.date(wrong[:3], wrong[3])
    for p in (LEAST, LEAST + 1, LEAST + 340, -340, -48, -2, 340 + 2**24, 2**24, 33_333_333, MOST - 1, MOST):
        t.period(p)


# ---- P of a date, in calls

def filed_by_date(t):
    """Offers for 16 November 2026, period 24: the standing offer of its weekday's slot, a variation of its P; another Monday's P is the slot's too."""
    t.open(1, 1)
    t.call(capability(0, GENERATION))
    t.call(clock(1440 * 1049))
    t.date((2026, 11, 16), 24, 50_423, 0)
    t.call(standing(0, 0, 23, [(4000, 70)]))
    t.call(look_up(0, 0, 50_423), 0, 3, 70)
    t.call(variation(0, 0, 50_423, [(4000, 80)]))
    t.call(look_up(0, 0, 50_423), 0, 4, 80)
    t.date((2026, 11, 23), 24, 50_759, 0)
    t.call(clock(1440 * 1051))
    t.call(look_up(0, 0, 50_759), 0, 1, 70)


def dates_know_no_clock(t):
    """A date has its P when the book refuses it with 10: begun, or past the horizon. After 2099 the book goes on, without dates."""
    t.open(1, 1)
    t.call(capability(0, GENERATION))
    t.call(clock(1440 * 1050))
    for date, period, p, weekday in (((2026, 11, 15), 48, 50_399, 6), ((2026, 11, 16), 1, 50_400, 0), ((2026, 11, 23), 1, 50_736, 0)):
        t.date(date, period, p, weekday)
        t.call(look_up(0, 0, p), 10)
    t.call(look_up(0, 0, 50_735), 19)
    t.call(clock(30 * LAST_PERIOD - 65))
    t.call(variation(0, 0, LAST_PERIOD, [(1, 5)]))
    t.call(variation(0, 0, LAST_PERIOD + 1, [(1, 6)]))
    t.call(look_up(0, 0, LAST_PERIOD), 0, 4, 5)
    t.call(look_up(0, 0, LAST_PERIOD + 1), 0, 4, 6)
    t.period(LAST_PERIOD, (2099, 12, 31), 48, 3)
    t.period(LAST_PERIOD + 1)
    t.words()
