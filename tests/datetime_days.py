#!/usr/bin/env python3
"""Days as Python's datetime counts them, for tests/c/dates_test.c: a line for each day of 2019 to 2104 with year, month, day, weekday
(Monday 0) and the days since 1 January 2024."""
from datetime import date, timedelta

day, first, end = date(2019, 1, 1), date(2024, 1, 1), date(2105, 1, 1)
while day < end:
    print(day.year, day.month, day.day, day.weekday(), (day - first).days)
    day += timedelta(days=1)
