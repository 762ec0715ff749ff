"""Times between a person's words and the record's whole numbers: minutes, periods and slots (document 01, "Units and time"), and dates
with their periods 1 to 48 (document 02, "Dates on the filing screen"). No other module knows where the calendar starts and ends."""
import datetime
import re

from records_amounts import MOST_WORD, BadArgument, whole, within, word

WEEKDAYS = ('Monday', 'Tuesday', 'Wednesday', 'Thursday', 'Friday', 'Saturday', 'Sunday')
FIRST_YEAR, LAST_YEAR = 2024, 2099
DAY_0, LAST_DATE = datetime.date(FIRST_YEAR, 1, 1), datetime.date(LAST_YEAR, 12, 31)
LAST_DAY = (LAST_DATE - DAY_0).days
LAST_DATED_PERIOD = 48 * LAST_DAY + 47
DATE_REFUSED = 21


# ---- reading

def date_refused(text):
    return BadArgument(f'{text} ({DATE_REFUSED})')


def date(text):
    """A date's day number."""
    match = re.fullmatch('([0-9]{4})-([0-9]{2})-([0-9]{2})', text)
    if not match:
        raise date_refused(f"'{text}' is no date YYYY-MM-DD")
    year, month, day = map(int, match.groups())
    if not FIRST_YEAR <= year <= LAST_YEAR:
        raise date_refused(f"'{text}': the year is outside {FIRST_YEAR} to {LAST_YEAR}")
    try:
        return (datetime.date(year, month, day) - DAY_0).days
    except ValueError:
        raise date_refused(f"'{text}' is no date") from None


def weekday(text):
    days = [name[:3].lower() for name in WEEKDAYS]
    if text.lower() not in days:
        raise BadArgument(f"'{text}' is not one of Mon, Tue, Wed, Thu, Fri, Sat, Sun")
    return days.index(text.lower())


def period_of(day, text):
    """P of a day number and a period of the day."""
    if not re.fullmatch('[0-9]{1,2}', text) or not 1 <= int(text) <= 48:
        raise date_refused(f"'{text}' is no period of the day, 1 to 48")
    return 48 * day + int(text) - 1


def time_of_day(text, whole_text):
    match = re.fullmatch(r'([0-9]{2}):([0-9]{2})', text)
    if not match or int(match.group(1)) > 23 or int(match.group(2)) > 59:
        raise BadArgument(f"'{whole_text}': '{text}' is not a time of day, 00:00 to 23:59")
    return 60 * int(match.group(1)) + int(match.group(2))


def minute(text):
    """A whole minute from the start of day 0, or DAY/HH:MM with the day's number or its date."""
    if '/' not in text:
        return word(text)
    day, time = text.split('/', 1)
    number = date(day) if '-' in day[1:] else within(whole(day), 0, MOST_WORD, 'day')
    return within(1440 * number + time_of_day(time, text), 0, MOST_WORD, 'minute')


def half_hour(minutes, text):
    if minutes % 30:
        raise BadArgument(f"'{text}': a period starts at :00 or :30")
    return minutes // 30


def period(text):
    """A period's number, or the DAY/HH:MM at which it starts."""
    return half_hour(minute(text), text) if '/' in text else word(text)


def slot(text):
    """A slot's number, or the weekday and time at which it starts: Mon/02:00."""
    if '/' not in text:
        return word(text)
    day, time = text.split('/', 1)
    return 48 * weekday(day) + half_hour(time_of_day(time, text), text)


# ---- showing

def show_date(day):
    """'' where the day has none."""
    return str(DAY_0 + datetime.timedelta(day)) if 0 <= day <= LAST_DAY else ''


def named_day(day):
    """A day by its date or, where it has none, by its number; and the other, or why it is missing."""
    number, named = f'day {day}', show_date(day)
    return (named, number) if named else (number, f'no date after {LAST_DATE}')


def show_time(minutes):
    return f'{minutes // 60:02d}:{minutes % 60:02d}'


def show_minute(value):
    if value < 0:
        return f'{value} (before day 0)'
    day = value // 1440
    name, beside = named_day(day)
    return f'{value} ({name}, {WEEKDAYS[day % 7]}, {show_time(value % 1440)}; {beside})'


def show_weekly(value):
    """A minute of any week, by weekday and time."""
    return f'{WEEKDAYS[value // 1440 % 7]}, {show_time(value % 1440)}'


def period_of_day(value):
    return value % 48 + 1


def show_half_hour(value):
    """A period or slot by its weekday."""
    start = 30 * (value % 48)
    return f'{WEEKDAYS[value // 48 % 7]}, period {period_of_day(value)}, {show_time(start)} to {show_time(start + 30)}'


def show_period(value):
    if value < 0:
        return f'{value} (before day 0)'
    name, beside = named_day(value // 48)
    return f'{value} ({name}, {show_half_hour(value)}; {beside}, slot {value % 336})'


def show_periods(first, last):
    """Both ends by number, and in brackets by date."""
    ends = [f'{named_day(value // 48)[0]} period {period_of_day(value)}' if value >= 0 else 'before day 0' for value in (first, last)]
    return f'periods {first} to {last} ({ends[0]} to {ends[1]})'


def show_slot(value):
    return f'{value} ({show_half_hour(value)})' if 0 <= value <= 335 else f'{value} (slots are 0 to 335)'
