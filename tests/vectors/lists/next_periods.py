"""A slot's next period: the least of the slot not yet begun, at the edges of periods, days, weeks and the clock's range; and the gate of standing offers by it."""
from itertools import count

from .form import GENERATION, capability, clock, filler, look_up, of_each_kind, standing, total

LAST_MINUTE = 1_000_000_000
FIRST_WEEK, MIDDLE_WEEK, LAST_WEEK = range(0, 336), range(16_666_666, 16_667_002), range(33_332_998, 33_333_334)


def _least(minute, slot):
    """Periods in turn from one that has begun: the first of the slot that starts after this minute."""
    return next(period for period in count(minute // 30) if period % 336 == slot and 30 * period > minute)


def _at_each_start(t, week):
    """Each period's own slot in the minute before it, in its first minute and in its second."""
    t.open(1, 1)
    for period in week:
        if period > 0:
            t.next(30 * period - 1, period % 336, period)
        t.next(30 * period, period % 336, period + 336)
        t.next(30 * period + 1, period % 336, period + 336)


def _every_slot(t, minute):
    t.open(1, 1)
    for slot in range(336):
        t.next(minute, slot, _least(minute, slot))


# ---- the period alone

def around_a_start(t):
    """Slot 4 in the minute before period 4 and in its first, slot 0 in the first minute of all, slot 335 around the week's last period."""
    t.open(1, 1)
    for minute, slot, period in ((119, 4, 4), (120, 4, 340), (0, 0, 336), (10_049, 335, 335), (10_050, 335, 671)):
        t.next(minute, slot, period)


def starts_of_the_first_week(t):
    """Each period of the first week around its start: its slot's next is itself, and from its first minute on the one a week later."""
    _at_each_start(t, FIRST_WEEK)


def starts_of_a_middle_week(t):
    """Each period of a week near minute 500,000,000 around its start."""
    _at_each_start(t, MIDDLE_WEEK)


def starts_of_the_last_week(t):
    """Each of the last 336 periods that begin by minute 1,000,000,000 around its start."""
    _at_each_start(t, LAST_WEEK)


def every_slot_at_the_first_minute(t):
    """Every slot at minute 0: period 0 alone has begun."""
    _every_slot(t, 0)


def every_slot_at_the_last_minute(t):
    """Every slot at minute 1,000,000,000, in period 33,333,333, of slot 117."""
    _every_slot(t, LAST_MINUTE)


def ends_of_days_and_weeks(t):
    """Around the ends of days and weeks, the slots on both sides and the week's first and last."""
    t.open(1, 1)
    for day in (1, 2, 6, 7, 8, 13, 14, 347_221, 347_222, 694_437, 694_438, 694_444):
        for minute in (1440 * day - 30, 1440 * day - 1, 1440 * day, 1440 * day + 1, 1440 * day + 29, 1440 * day + 30):
            for slot in sorted({(48 * day - 2) % 336, (48 * day - 1) % 336, 48 * day % 336, (48 * day + 1) % 336, 0, 335}):
                t.next(minute, slot, _least(minute, slot))


# ---- the gate by it

def _over_a_held_one(t, f, s, period):
    """Facility f's offers for the slot before and at the start of one of its periods, with what each leaves standing."""
    start, slot, quantity = 30 * period, period % 336, 1
    t.call(clock(start - 71))
    t.call(standing(f, s, slot, [(1, quantity)], filler(s)))
    for left, number in ((66, 0), (65, 0), (64, 17), (30, 17), (1, 17)):
        t.call(clock(start - left))
        t.next(start - left, slot, period)
        t.call(standing(f, s, slot, [(1, quantity + 1)], filler(s)), number)
        quantity += number == 0
        t.call(look_up(f, s, period), 0, 3 if left > 60 else 1, quantity)
    for late in (0, 1):
        t.call(clock(start + late))
        t.next(start + late, slot, period + 336)
        t.call(look_up(f, s, period), 10)
        t.call(standing(f, s, slot, [(1, quantity)], filler(s)), 18)
        t.call(standing(f, s, slot, [(1, quantity + 1)], filler(s)))
        quantity += 1
    t.call(clock(1440 * (period // 48 + 1)))  # from here on the period a week later is inside the horizon
    t.call(look_up(f, s, period + 336), 0, 1, quantity)
    t.call(total(s, period + 336), 0, 1, quantity)


def gate_in_the_first_weeks(t):
    """Offers over held ones by the slot's next period: a day's first and last slots, a week's, and one in between."""
    t.open(1, 1)
    t.call(capability(0, GENERATION))
    for period in (4, 95, 144, 335, 672, 769, 1343):  # 335 and 1343 end a week, 672 begins one
        _over_a_held_one(t, 0, 0, period)
    t.words()


def gate_by_kind(t):
    """Generation, load and link, by service: one rule for all."""
    of_each_kind(t)
    for day, (f, s) in enumerate(((0, 0), (0, 2), (0, 4), (1, 1), (1, 3), (2, 0))):
        _over_a_held_one(t, f, s, 48 * day + 47)
    t.words()


def gate_in_a_middle_week(t):
    """Offers over held ones near minute 500,000,000, over a week's end."""
    t.open(1, 1)
    t.call(capability(0, GENERATION))
    for day in (347_220, 347_221, 347_222):  # the first is a week's last
        _over_a_held_one(t, 0, 0, 48 * day + 47)
    t.words()


def gate_in_the_last_week(t):
    """Offers over held ones in the last days of the clock."""
    t.open(1, 1)
    t.call(capability(0, GENERATION))
    for day in (694_435, 694_437, 694_443):  # the first is a week's first
        _over_a_held_one(t, 0, 0, 48 * day)
    t.words()


def gate_at_the_last_minute(t):
    """At minute 1,000,000,000 the slots of two periods are closed: those that would start 20 and 50 minutes later."""
    t.open(1, 1)
    t.call(capability(0, GENERATION))
    slots = range(114, 124)
    for slot in slots:
        t.call(standing(0, 0, slot, [(1, 1)]))
    t.call(clock(LAST_MINUTE))
    for slot in slots:
        period = 33_333_216 + slot + (336 if slot <= 117 else 0)
        t.next(LAST_MINUTE, slot, period)
        t.call(standing(0, 0, slot, [(1, 2)]), 17 if slot in (118, 119) else 0)
        if slot > 117:
            t.call(look_up(0, 0, period), *((0, 1, 1) if slot in (118, 119) else (0, 3, 2)))
    t.words()


def minute_by_minute(t):
    """From minute to minute over the week's end, offers over held ones for its last slot and the first two: when each is closed."""
    t.open(1, 1)
    t.call(capability(0, GENERATION))
    held = {slot: 1 for slot in (335, 0, 1)}
    for slot in held:
        t.call(standing(0, 0, slot, [(1, 1)]))
    for minute in range(10_040, 10_086):  # 335 starts at 10,050, 336 at 10,080, 337 at 10,110
        t.call(clock(minute))
        for slot in held:
            closed = 30 * _least(minute, slot) - minute < 65
            t.call(standing(0, 0, slot, [(1, 3 - held[slot])]), 17 if closed else 0)
            if not closed:
                held[slot] = 3 - held[slot]
    t.words()
