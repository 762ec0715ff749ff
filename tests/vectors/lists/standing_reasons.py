"""Reasons of standing offers: a standing offer over a held one inside 65 minutes of its slot's next period, judged as a variation is."""
from .form import (GENERATION, LEAST, LOAD, MOST, STANDING_AT, VARIATION_AT, block, capability, clock, filler, look_up, notice, notices, notices_over_100,
                   of_each_kind, one_of_each, outage, pairs_at, standing, total, variation, with_bytes, with_words)

HELD = [(4000, 500), (5000, 200)]


def _again(f, s, slot, pairs, reason=0):
    return standing(f, s, slot, pairs, filler(s), reason=reason)


def _shut_over_50_tenths(t, f, s, period):
    """Half an hour before the period, over an offer of 50 tenths and with an outage over it, which a link can't have."""
    t.call(clock(30 * period - 30))
    t.call(_again(f, s, period, [(1, 50)]))
    t.call(outage(f, 30 * period - 30, 1), 7 if f == 2 else 0)


def _held(t, now, pairs=HELD, sizes=(1, 1)):
    """Generation's energy offer for slot 100, filed with the gate open; every notice over period 100 and an outage window from 98 to 100; the clock at `now`."""
    t.open(*sizes)
    t.call(capability(0, GENERATION))
    t.call(standing(0, 0, 100, pairs))
    notices(t, 100, 100)
    t.call(clock(2935))
    t.call(outage(0, 2935, 3))
    t.call(clock(now))


# ---- when a reason is asked for

def around_minute_56(t):
    """Slot 4 over a held offer: 55 is open; at 56 none draws 17, 7 draws 11, 2 in its window passes where the prices are kept; at 120 the next period is 340."""
    t.open(1, 1)
    t.call(capability(0, GENERATION))
    t.call(standing(0, 0, 4, HELD))
    t.call(clock(55))
    t.call(standing(0, 0, 4, [(4000, 500), (5000, 100)]))
    t.call(clock(56))
    t.call(_again(0, 0, 4, [(4000, 400)], 2), 17)
    t.call(outage(0, 56, 3))  # periods 2 to 4
    t.call(_again(0, 0, 4, [(4000, 400)]), 17)
    t.call(_again(0, 0, 4, [(4000, 400)], 7), 11)
    t.call(_again(0, 0, 4, [(4000, 450), (5000, 100)], 2), 17)  # the 451st tenth differs
    t.call(look_up(0, 0, 4), 0, 3, 600)
    t.call(_again(0, 0, 4, [(4000, 400)], 2))
    t.call(look_up(0, 0, 4), 0, 3, 400)
    t.call(clock(119))
    t.call(_again(0, 0, 4, [(4000, 100)]), 17)
    t.call(_again(0, 0, 4, [(4000, 100)], 2))
    t.call(look_up(0, 0, 4), 0, 3, 100)
    t.call(clock(120))
    t.call(_again(0, 0, 4, [(1, 800)]))
    t.call(_again(0, 0, 4, [(2, 700)], 2))
    t.call(_again(0, 0, 4, [(2, 600)], 7), 11)
    t.call(look_up(0, 0, 4), 10)
    t.call(clock(1440))
    t.call(look_up(0, 0, 340), 0, 1, 700)
    t.words()


def with_minutes_left(t):
    """No reason and one that holds, with 66, 65, 64, 30, 1 and no minutes to the slot's next period, by kind and service."""
    places = ((0, 0, 1), (0, 1, 1), (0, 4, 1), (1, 3, 6))
    t.open(2, 5)
    t.call(capability(0, GENERATION))
    t.call(capability(1, LOAD))
    for f, s, _ in places:
        t.call(_again(f, s, 100, [(1, 1)]))
    quantity = 1
    for left, number in ((66, 0), (65, 0), (64, 17), (30, 17), (1, 17), (0, 0)):
        t.call(clock(3000 - left))
        t.call(outage(1, 3000 - left, 3))
        for f, s, reason in places:
            quantity += 2
            t.call(_again(f, s, 100, [(1, quantity)]), number)
            t.call(_again(f, s, 100, [(1, quantity + 1)], reason))
    for f, s, _ in places:
        t.call(look_up(f, s, 100), 10)
    t.words()


def first_ones_inside_the_gate(t):
    """A first standing offer passes the gate with any reason from 0 to 6, whatever its kind and without any window; 7 and above draw 11."""
    of_each_kind(t)
    for reason in (*range(9), 128, 255):
        slot = 10 + reason
        t.call(clock(30 * slot - 1))
        for f, s in ((0, 0), (0, 2), (0, 4), (1, 1), (2, 0)):
            t.call(_again(f, s, slot, [(1, 5)], reason), 0 if reason <= 6 else 11)
            t.call(look_up(f, s, slot), *((0, 3, 5) if reason <= 6 else (19,)))
    t.words()


def open_ones(t):
    """Over a held offer with 65 minutes left any reason from 0 to 6 passes, whatever its kind, its windows and its prices; 7 and above draw 11."""
    of_each_kind(t)
    t.call(clock(2935))
    for f, s in ((0, 0), (0, 2), (0, 4), (1, 1), (2, 0)):
        t.call(_again(f, s, 100, [(1, 5)]))
        for reason in range(7):
            t.call(_again(f, s, 100, [(2 + reason, 10 + reason % 3)], reason))
            t.call(look_up(f, s, 100), 0, 3, 10 + reason % 3)
        for reason in (7, 255):
            t.call(_again(f, s, 100, [(1, 5)], reason), 11)
    t.words()


# ---- reasons by kind and service

def reasons_of_standing_offers_by_kind(t):
    """Each reason inside the gate by kind and service, every window over the period: less, as much and more than the held 50 tenths."""
    of_each_kind(t)
    notices(t, 0, 40_000_000)
    period = 1
    for f, s in ((0, 0), (0, 1), (0, 4), (1, 1), (1, 3), (2, 0)):
        for reason in range(7):
            for quantity in (40, 50, 60):
                period += 1
                _shut_over_50_tenths(t, f, s, period)
                holds = {0: False, 1: f == 0, 2: f == 0, 3: s == 0 and quantity < 50, 4: quantity > 50, 5: quantity > 50, 6: f == 1}[reason]
                t.call(_again(f, s, period, [(1, quantity)], reason), 17 if not holds else 18 if quantity == 50 else 0)
                t.call(look_up(f, s, period), 0, 3, quantity if holds else 50)
    t.words()


def without_windows(t):
    """Each reason inside the gate with no notice and no outage, or with another's alone: of generation 1 passes, and nothing else does."""
    t.open(3, 5)
    for f, w in enumerate((GENERATION, LOAD, GENERATION)):
        t.call(capability(f, w))
    for f, s in ((0, 0), (0, 3), (1, 3)):
        t.call(_again(f, s, 100, [(1, 50)]))
    t.call(clock(2950))
    for _ in range(2):
        for f, s in ((0, 0), (0, 3), (1, 3)):
            for reason in (0, 2, 3, 4, 5, 6):
                for quantity in (40, 60):
                    t.call(_again(f, s, 100, [(1, quantity)], reason), 17)
        t.call(_again(0, 0, 100, [(1, 60)], 1))
        t.call(_again(0, 0, 100, [(1, 50)], 1))
        t.call(outage(2, 2950, 3))
    t.words()


def notices_over_the_next_period(t):
    """Reasons 3, 4 and 5 with their notice before, after and over the slot's next period, with another kind's, and withdrawn."""
    t.open(1, 1)
    t.call(capability(0, GENERATION))
    t.call(standing(0, 0, 100, [(1, 50)]))
    t.call(clock(2950))

    def filed(pairs, reason):
        return _again(0, 0, 100, pairs, reason)

    notices_over_100(t, filed, ((3, 40, 4), (4, 60, 3), (5, 60, 3)), lambda reason: t.call(filed([(1, 50)], reason)))
    t.call(notice(5, 100, 100))
    t.call(filed([(1, 60)], 5))
    t.words()


def outages_over_the_next_period(t):
    """Reasons 2 and 6 with an outage window that ends before the slot's next period, starts with it, holds it, and of a newer outage that doesn't."""
    t.open(2, 5)
    t.call(capability(0, GENERATION))
    t.call(capability(1, LOAD))
    for f in (0, 1):
        for slot in (99, 100, 101):
            t.call(_again(f, 1, slot, [(1, 50)]))
    t.call(clock(2969))
    for f, reason in ((0, 2), (1, 6)):
        for minute, count, last in ((2_850, 3, 98), (2_939, 1, 98), (2_940, 1, 99), (2_940, 2, 100), (2_969, 3, 101), (2_909, 3, 99), (2_880, 2, 98)):
            t.call(outage(f, minute, count))
            for slot in (99, 100, 101):
                number = 0 if slot <= last else 17
                t.call(_again(f, 1, slot, [(1, 40)], reason), number)
                t.call(_again(f, 1, slot, [(1, 50)], reason), number)
    t.words()


def another_weeks_window(t):
    """Notices and outages over the slot's periods of the week before and the week after don't count: the next period alone is asked about."""
    t.open(1, 1)
    t.call(capability(0, GENERATION))
    t.call(standing(0, 0, 100, [(1, 50)]))
    t.call(clock(2950))
    t.call(outage(0, 2950, 3))
    for kind, quantity in ((3, 40), (4, 60), (5, 60)):
        t.call(notice(kind, 436, 436))
        t.call(_again(0, 0, 100, [(1, quantity)], kind), 17)
    t.call(clock(30 * 436 - 64))
    t.call(_again(0, 0, 100, [(1, 40)], 2), 17)  # the window is last week's, 99 to 101
    for kind, quantity in ((3, 40), (4, 60), (5, 61)):
        t.call(_again(0, 0, 100, [(1, quantity)], kind))
        t.call(notice(kind, 100, 100))
        t.call(_again(0, 0, 100, [(1, quantity - 1 if kind == 3 else quantity + 1)], kind), 17)
    t.call(look_up(0, 0, 436), 0, 3, 61)
    t.words()


# ---- the next period at the week's end and at the clock's

def slots_late_on_a_sunday(t):
    """Slots 0 to 3 late on a Sunday look to next week's first periods, slot 335 to this week's last: by windows over those, not over periods 0 to 3."""
    t.open(1, 1)
    t.call(capability(0, GENERATION))
    slots = (335, 0, 1, 2, 3)
    for slot in slots:
        t.call(standing(0, 0, slot, [(1, 50)]))
    t.call(clock(10_046))  # 335 starts at 10,050, 336 at 10,080, 337 at 10,110; 338 is open
    t.call(notice(4, 0, 3))
    for slot in slots:
        t.call(_again(0, 0, slot, [(1, 60)], 4), 17 if slot in (335, 0, 1) else 0)
    t.call(notice(4, 336, 337))
    for slot in slots:
        t.call(_again(0, 0, slot, [(1, 70)], 4), 17 if slot == 335 else 0)
    t.call(outage(0, 10_046, 1))  # 335
    for slot in slots:
        t.call(_again(0, 0, slot, [(1, 40)], 2), 17 if slot in (0, 1) else 0)
    t.call(clock(10_050))
    t.call(outage(0, 10_050, 3))  # 336 to 338
    for slot in slots:
        t.call(_again(0, 0, slot, [(1, 30)], 2))
        t.call(_again(0, 0, slot, [(1, 20)]), 17 if slot in (0, 1) else 0)
    for period, quantity in ((335, None), (336, 30), (337, 30), (338, 20), (339, 20)):
        t.call(look_up(0, 0, period), *((10,) if quantity is None else (0, 3, quantity)))
    t.words()


def slots_early_on_a_monday(t):
    """At minutes 0, 30 and 60 of the first week: slot 0's next period is 336 and open, those of slots 1 and 2 are inside the gate until they begin."""
    t.open(1, 1)
    t.call(capability(0, GENERATION))
    for slot in (0, 1, 2, 3):
        t.call(standing(0, 0, slot, [(1, 50)]))
    t.call(notice(3, 0, 2))
    for now, closed, quantity in ((0, (1, 2), 40), (30, (2, 3), 30), (60, (3,), 20)):
        t.call(clock(now))
        for slot in (0, 1, 2, 3):
            t.call(_again(0, 0, slot, [(1, quantity)]), 17 if slot in closed else 0)
            t.call(_again(0, 0, slot, [(1, quantity - 5)], 3), 17 if slot in closed and slot == 3 else 0)
    t.words()


def past_the_horizon(t):
    """A slot that has begun today looks to a period past the horizon, which is open: any reason passes, 10 isn't asked, and windows over it change nothing."""
    t.open(1, 1)
    t.call(capability(0, GENERATION))
    t.call(standing(0, 0, 4, [(1, 50)]))
    t.call(clock(120))
    for quantity, reason in enumerate((0, 1, 2, 3, 4, 5, 6), 60):
        t.call(_again(0, 0, 4, [(2, quantity)], reason))
    t.call(notice(3, 340, 340))
    t.call(_again(0, 0, 4, [(1, 67)], 3))
    t.call(variation(0, 0, 340, [(1, 1)], 3), 10)
    t.call(look_up(0, 0, 340), 10)
    t.call(clock(1440))
    t.call(look_up(0, 0, 340), 0, 1, 67)
    t.words()


def at_the_last_minute(t):
    """At minute 1,000,000,000, and with windows over the two periods that would start 20 and 50 minutes later."""
    t.open(1, 1)
    t.call(capability(0, GENERATION))
    slots = (117, 118, 119, 120)
    for slot in slots:
        t.call(standing(0, 0, slot, [(1, 50)]))
    t.call(clock(1_000_000_000))
    t.call(notice(4, 33_333_335, 40_000_000))
    for slot in slots:
        t.call(_again(0, 0, slot, [(1, 60)]), 17 if slot in (118, 119) else 0)
        t.call(_again(0, 0, slot, [(1, 61)], 4), 17 if slot == 118 else 0)
        t.call(_again(0, 0, slot, [(1, 40)], 2), 17 if slot in (118, 119) else 0)
    t.call(outage(0, 1_000_000_000, 1))
    t.call(_again(0, 0, 118, [(1, 40)], 2))
    t.call(_again(0, 0, 119, [(1, 40)], 2), 17)
    t.call(look_up(0, 0, 33_333_334), 0, 3, 40)
    t.call(look_up(0, 0, 33_333_335), 0, 3, 61)
    t.words()


# ---- old and new

def prices_of_standing_offers(t):
    """Inside the gate with reason 1, over 50.0 MW at 40.00 and 20.0 at 50.00: the tenths of both offers are compared, and no others."""
    tries = (([(4000, 300)], 0), ([(4000, 500), (5000, 300)], 0), ([(4000, 500), (5000, 200), (6000, 9)], 0), ([(4000, 1)], 0), ([(4001, 1)], 17),
             ([(3999, 1), (4000, 499)], 17), ([(4000, 501)], 17), ([(4000, 450), (5000, 300)], 17), ([(4000, 500), (5001, 1)], 17),
             ([(4000, 500), (5000, 199), (5001, 1)], 17), ([(4000, 500), (5000, 1)], 0), ([(4000, 500), (4999, 1)], 17), ([], 0))
    t.open(len(tries), 1)
    for f in range(len(tries)):
        t.call(capability(f, GENERATION))
        t.call(standing(f, 0, 4, HELD))
    t.call(clock(60))
    for f, (pairs, number) in enumerate(tries):
        t.call(_again(f, 0, 4, pairs, 1), number)
        t.call(look_up(f, 0, 4), 0, *((3, sum(quantity for _, quantity in pairs)) if number == 0 else (1, 700)))
    t.words()


def each_filing_is_the_next_ones_old(t):
    """Inside the gate each accepted offer is what the next one is held against: up by reason 4, down by 3, and dearer past what is left."""
    _held(t, 2950)
    for pairs, reason, number in (([(4000, 500), (5000, 201)], 4, 0), ([(4000, 500), (5000, 201)], 4, 17), ([(4000, 500), (5000, 202)], 5, 0), (HELD, 4, 17),
                                  ([(4000, 1)], 3, 0), ([(4000, 1), (9000, 600)], 4, 0), (HELD, 4, 17), (HELD, 1, 17), ([(4000, 1), (9000, 599)], 3, 0)):
        t.call(_again(0, 0, 100, pairs, reason), number)
    t.call(look_up(0, 0, 100), 0, 3, 600)
    t.words()


def old_is_held_behind_a_variation(t):
    """A variation hides the held offer: totals and prices are the held one's all the same; look-ups go on showing the variation, and then what was filed."""
    _held(t, 2935, [(4000, 50)])
    t.call(variation(0, 0, 100, [(9000, 60)]))
    t.call(clock(2950))
    for pairs, reason, number in (([(4000, 55)], 3, 17), ([(9000, 55)], 1, 17), ([(9000, 70)], 4, 17), ([(4000, 55)], 4, 0), ([(4000, 54)], 3, 0), ([(4000, 54)], 1, 18),
                                  ([(9000, 60)], 1, 17)):
        t.call(_again(0, 0, 100, pairs, reason), number)
        t.call(look_up(0, 0, 100), 0, 2, 60)
        t.call(total(0, 100), 0, 1, 60)
    t.call(clock(4320))
    t.call(look_up(0, 0, 436), 0, 1, 54)
    t.words()


def then_variations(t):
    """After a standing offer is revised inside the gate, a variation is judged by the revised one where it is in force, and a take-back goes back to it."""
    _held(t, 2950)
    t.call(_again(0, 0, 100, [(4000, 300)], 2))
    t.call(variation(0, 0, 100, [(4000, 301)], 3), 17)
    t.call(variation(0, 0, 100, [(4000, 299)], 3))
    t.call(_again(0, 0, 100, [(4000, 100)], 2))
    t.call(look_up(0, 0, 100), 0, 4, 299)
    t.call(variation(0, 0, 100, [], 4), 17)
    t.call(variation(0, 0, 100, [], 3))
    t.call(look_up(0, 0, 100), 0, 3, 100)
    t.words()


def a_variation_alone_is_no_held_offer(t):
    """A slot with a variation and no standing offer: a standing offer is a first, with any reason and price, and the next one meets the gate."""
    t.open(1, 1)
    t.call(capability(0, GENERATION))
    for slot in range(100, 107):
        t.call(variation(0, 0, slot, [(4000, 60)]))
    for reason, slot in enumerate(range(100, 107)):
        t.call(clock(30 * slot - 10))
        t.call(_again(0, 0, slot, [(1, 70)], reason))
        t.call(_again(0, 0, slot, [(1, 71)], reason), 0 if reason == 1 else 17)
        t.call(look_up(0, 0, slot), 0, 2, 60)
    t.words()


# ---- blank standing offers

def blank_over_a_held_offer(t):
    """A standing offer of blanks has total 0: 1, 2 and 3 pass it where they hold, of a load 6, of a link 3; 4 and 5 don't; it is in force with 0.0 MW."""
    of_each_kind(t)
    notices(t, 0, 40_000_000)
    period = 1
    for f, s, passing in ((0, 0, (1, 2, 3)), (0, 2, (1, 2)), (0, 4, (1, 2)), (1, 1, (6,)), (2, 0, (3,))):
        for reason in range(7):
            period += 1
            _shut_over_50_tenths(t, f, s, period)
            t.call(_again(f, s, period, [], reason), 0 if reason in passing else 17)
            t.call(look_up(f, s, period), 0, 3, 0 if reason in passing else 50)
            t.call(total(s, period), 0, 1, 0 if reason in passing else 50)
    t.words()


def over_a_held_blank(t):
    """A held offer of blanks inside the gate: sent again it draws 18 with 1 or 2, 11 with 7 and else 17; more passes by 1, 2, 4 and 5 at any price, by 3 nothing does."""
    _held(t, 2950, [])
    for reason, number in ((0, 17), (1, 18), (2, 18), (3, 17), (4, 17), (5, 17), (6, 17), (7, 11)):
        t.call(_again(0, 0, 100, [], reason), number)
    for reason in (0, 3, 6):
        t.call(_again(0, 0, 100, [(1, 1)], reason), 17)
    for reason, price in ((1, -450000), (2, 450000), (4, 7), (5, 8)):
        t.call(_again(0, 0, 100, [(price, 1)], reason))
        t.call(_again(0, 0, 100, [], 3))
    t.call(look_up(0, 0, 100), 0, 3, 0)
    t.words()


def other_prices_in_two_filings(t):
    """Inside the gate other prices draw 17; after an offer of blanks, or of one tenth, nothing or one tenth is left to compare."""
    _held(t, 2950)
    t.call(_again(0, 0, 100, [(9000, 700)], 1), 17)
    t.call(_again(0, 0, 100, [(4000, 1)], 1))
    t.call(_again(0, 0, 100, [(9000, 700)], 1), 17)
    t.call(_again(0, 0, 100, [(4000, 1), (9000, 699)], 1))
    t.call(_again(0, 0, 100, [], 1))
    t.call(_again(0, 0, 100, [(9000, 700)], 1))
    t.call(look_up(0, 0, 100), 0, 3, 700)
    t.words()


def tripped_set_stands_at_zero(t):
    """A set trips: a blank standing offer with reason 2 means 0.0 MW once its variation is taken back with the reason, and every week until it is revised."""
    _held(t, 2935)
    t.call(variation(0, 0, 100, [(4000, 300)]))
    t.call(clock(2950))
    t.call(_again(0, 0, 100, []), 17)
    t.call(_again(0, 0, 100, [], 2))
    t.call(look_up(0, 0, 100), 0, 2, 300)
    t.call(variation(0, 0, 100, []), 17)
    t.call(variation(0, 0, 100, [], 2))
    t.call(look_up(0, 0, 100), 0, 3, 0)
    t.call(total(0, 100), 0, 1, 0)
    t.call(clock(30 * 436 - 64))
    t.call(look_up(0, 0, 436), 0, 1, 0)
    t.call(_again(0, 0, 100, HELD), 17)
    t.call(_again(0, 0, 100, HELD, 2), 17)
    t.call(clock(30 * 436))
    t.call(_again(0, 0, 100, HELD))
    t.call(clock(1440 * 10))
    t.call(look_up(0, 0, 772), 0, 1, 700)
    t.words()


# ---- duplicates, the order of numbers, what stays

def duplicates_inside_the_gate(t):
    """The held offer sent again: 18 with 1, 2 or a load's 6 where they hold, else 17, as 3, 4 and 5 ask for another total; the reason is no part of the offer."""
    of_each_kind(t)
    notices(t, 0, 1000)
    places = ((0, 0, (1, 2)), (0, 3, (1, 2)), (1, 3, (6,)), (2, 0, ()))
    for f, s, _ in places:
        t.call(_again(f, s, 100, [(1, 50)], 5))
        for reason in range(7):
            t.call(_again(f, s, 100, [(1, 50)], reason), 18)
    t.call(clock(2950))
    for window in (False, True):
        for f, s, holding in places:
            if window and f < 2:
                t.call(outage(f, 2950, 2))
            for reason in range(7):
                t.call(_again(f, s, 100, [(1, 50)], reason), 18 if reason in holding and (window or reason == 1) else 17)
            t.call(_again(f, s, 100, [(1, 50)], 7), 11)
    t.call(with_bytes(_again(0, 0, 100, [(1, 50)], 2), {19: 1}))  # ramp up 1: another offer at the same prices
    t.words()


def the_reason_is_not_kept(t):
    """The same offer filed with one reason or another leaves the same words, with the gate open and inside it."""
    for now in (2935, 2950):
        for reason in ((0, 1, 2, 3, 4, 5, 6) if now == 2935 else (1, 2, 4, 5)):
            _held(t, now)
            t.call(_again(0, 0, 100, [(4000, 500), (5000, 201)], reason))
            t.call(look_up(0, 0, 100), 0, 3, 701)
            t.words(f'filed at {now}')


def order_of_numbers_inside_the_gate(t):
    """A standing offer inside the gate with everything wrong, mended one thing at a time; each refusal leaves all words as they were."""
    _held(t, 2950, sizes=(2, 5))
    t.words('all refused')
    worst = standing(0, 0, 336, [(450001, 801), (7, 0), (5, 4)], ramps=(51, 0), reason=7)
    for r, number in ((with_bytes(worst, {0: 0, 6: 2, 13: 1}), 2), (with_bytes(worst, {6: 2, 13: 1}), 3), (with_bytes(worst, {13: 1}), 4), (with_bytes(worst, {6: 1}), 5),
                      (worst, 10)):
        t.call(r, number)
    for pairs, ramps, reason, number in (([(450001, 801), (7, 0), (5, 4)], (51, 0), 2, 11), ([(6, 801), (7, 0), (5, 4)], (51, 0), 7, 11),
                                         ([(6, 801), (7, 0), (5, 4)], (51, 0), 2, 12), ([(6, 801), (5, 4)], (51, 0), 2, 13), ([(5, 801)], (51, 0), 2, 14),
                                         ([(5, 801)], (50, 40), 2, 16), ([(5, 800)], (50, 40), 2, 17), (HELD, (50, 40), 3, 17), (HELD, (0, 0), 3, 17),
                                         (HELD, (0, 0), 0, 17), (HELD, (0, 0), 2, 18)):
        t.call(standing(0, 0, 100, pairs, ramps=ramps, reason=reason), number)
    t.call(_again(0, 1, 100, [(5, 301)], 2), 16)
    t.call(standing(0, 1, 100, [(5, 301)], reason=2), 15)
    t.words('all refused')
    t.call(standing(0, 0, 100, HELD, ramps=(50, 40), reason=2))
    t.call(look_up(0, 0, 100), 0, 3, 700, ramps=(50, 40))
    t.call(capability(0, with_words(GENERATION, {12: 0})))
    t.call(_again(0, 0, 100, [], 2), 9)
    t.call(capability(0, with_words(GENERATION, {1: 100})))
    t.call(_again(0, 0, 100, [(4000, 101)], 2), 16)
    t.call(_again(0, 0, 100, [(4000, 100)], 2))
    t.words()


def fresh_inside_the_gate(t):
    """Accepted inside the gate an offer is fresh by its own minute; one refused with 17 or 18 freshens nothing."""
    _held(t, 2950)
    t.call(look_up(0, 0, 100), 0, 1, 700)
    t.call(_again(0, 0, 100, [(4000, 300)], 2))
    for now, first in ((2950, 3), (2954, 3), (2955, 1)):
        t.call(clock(now))
        t.call(look_up(0, 0, 100), 0, first, 300)
        t.call(_again(0, 0, 100, [(4000, 300)], 2), 18)
        t.call(_again(0, 0, 100, [(4000, 200)]), 17)
        t.call(look_up(0, 0, 100), 0, first, 300)
    t.words()


def only_that_standing_cell(t):
    """A standing offer with a reason changes its own cell: other slots, services and facilities, and the variation, stay."""
    t.open(3, 5)
    for f in range(3):
        t.call(capability(f, GENERATION))
    places = [(f, s, slot) for f in range(3) for s in (1, 2, 3) for slot in (99, 100, 101)]
    for f, s, slot in places:
        t.call(_again(f, s, slot, [(1, 50)]))
    t.call(variation(1, 2, 99, [(1, 55)], 0, 1))
    t.call(clock(2950))
    t.call(outage(1, 2950, 3))
    t.call(_again(1, 2, 100, [(1, 5)], 2))
    t.call(_again(0, 2, 100, [(1, 5)], 2), 17)
    for f, s, slot in places:
        t.call(look_up(f, s, slot), 0, *((3, 5) if (f, s, slot) == (1, 2, 100) else (2, 55) if (f, s, slot) == (1, 2, 99) else (1, 50)))
    t.call(total(2, 100), 0, 3, 105)
    t.words()


# ---- byte 12

def byte_12_of_each_call(t):
    """The record test of byte 12: any value in calls 3, 4, 6 and 7, of each service; in the others 4 unless it is 0."""
    t.open(1, 5)
    for r in one_of_each() + [standing(0, s, 4, [(1, 2)], filler(s)) for s in range(1, 5)] + [variation(0, s, 4, [(1, 2)], 0, filler(s)) for s in range(1, 5)]:
        for value in (0, 1, 6, 7, 128, 255):
            t.test(with_bytes(r, {12: value}), 1, 5, 0 if value == 0 or r[5] in (3, 4, 6, 7) else 4)


# ---- books that no list of calls leaves

def negative_quantities_held(t):
    """A held quantity below 0 counts as 0 in the gate, and its price isn't compared; look-ups add it as it is."""
    _held(t, 2950, [(4000, 70)])
    for pairs, tries in (([(4000, 70), (1, -50)], ((3, 17), (4, 17), (1, 0))), ([(4000, 69), (1, -50)], ((3, 17), (4, 0))), ([(1, -5), (4000, 71), (2, LEAST)], ((4, 17), (3, 0))),
                         ([(4000, -1)], ((3, 17), (5, 0))), ([(9, LEAST)] * 10, ((3, 17), (4, 0)))):
        for reason, number in tries:
            t.write({STANDING_AT + 3: 0, **pairs_at(STANDING_AT, pairs)})
            t.call(_again(0, 0, 100, [(4000, 70)], reason), number)
            t.call(look_up(0, 0, 100), 0, *((3, 70) if number == 0 else (1, sum(quantity for _, quantity in pairs))))
    t.words()


def large_quantities_held(t):
    """Held totals past 32 bits: the filed offer is the smaller, and its tenths alone are compared."""
    _held(t, 2950)
    for pairs in ([(4000, MOST)] * 10, [(4000, MOST), (5000, MOST), (0, LEAST)]):
        for offer, reason, number in (([(4000, 800)], 4, 17), ([(4001, 800)], 3, 17), ([(4000, 799), (5000, 1)], 3, 17), ([], 4, 17), ([(4000, 800)], 3, 0)):
            t.write(pairs_at(STANDING_AT, pairs))
            t.call(_again(0, 0, 100, offer, reason), number)
    t.words()


def falling_prices_held(t):
    """Held prices that fall or repeat, and blanks with a price, are walked as they stand, pair after pair."""
    _held(t, 2950)
    for pairs, offer, number in (([(5000, 10), (4000, 10)], [(5000, 10)], 0), ([(5000, 10), (4000, 10)], [(4000, 10), (5000, 10)], 17),
                                 ([(4000, 10), (9, 0), (4000, 10)], [(4000, 20)], 0), ([(9, 0), (4000, 10)], [(4000, 30)], 0), ([(9, 0), (4000, 10)], [(9, 1)], 17)):
        t.write(pairs_at(STANDING_AT, pairs))
        t.call(_again(0, 0, 100, offer, 1), number)
    t.words()


def stamps_that_hold_nothing(t):
    """A standing cell whose stamp isn't 1 holds nothing: what is filed there is a first, with any reason and price."""
    _held(t, 2950)
    for stamp in (0, 2, 101, -1, 257, LEAST, MOST):
        for reason in range(7):
            t.write({STANDING_AT: stamp})
            t.call(_again(0, 0, 100, [(1, 800)], 7), 11)
            t.call(_again(0, 0, 100, [(1, 800)], reason))
        t.call(_again(0, 0, 100, [(2, 800)], 1), 17)
    t.words()


def damaged_windows(t):
    """Windows that the host wrote, wide, empty and turned round; a link's outage window doesn't open 2 or 6, nor a load's 2, nor generation's 6."""
    of_each_kind(t)
    services = (0, 1, 0)
    for f in range(3):
        t.call(_again(f, services[f], 100, [(1, 50)]))
    t.call(clock(2950))
    quantity = 60
    for first, last, holds in ((LEAST, MOST, True), (100, 100, True), (101, 100, False), (LEAST, 99, False), (101, MOST, False), (MOST, LEAST, False)):
        t.write({5: first, 6: last, 7: first, 8: last, 9: first, 10: last})
        for f in range(3):
            t.write({block(f) + 17: first, block(f) + 18: last})
            for reason in (2, 6, 4, 5, 3):
                quantity += 1
                kept = holds and reason in {0: (2, 4, 5, 3), 1: (6, 4, 5), 2: (4, 5, 3)}[f]
                t.call(_again(f, services[f], 100, [(1, 5 if reason == 3 else quantity)], reason), 0 if kept else 17)
    t.words()


def variations_cell_damaged(t):
    """Whatever the variation's cell holds, a standing offer is judged by the held one."""
    _held(t, 2950, [(4000, 70)])
    for stamp, pairs in ((101, [(9, MOST)] * 10), (101, []), (1, [(4000, 1)]), (437, [(1, 5)]), (LEAST, [(9, -5)])):
        t.write({VARIATION_AT: stamp, **pairs_at(VARIATION_AT, pairs)})
        for offer, reason, number in (([(4000, 70)], 4, 17), ([(4000, 71)], 3, 17), ([(9, 71)], 4, 17), ([(4000, 71)], 4, 0), ([(4000, 70)], 3, 0)):
            t.call(_again(0, 0, 100, offer, reason), number)
    t.words()
