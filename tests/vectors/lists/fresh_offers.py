"""Offers too fresh for the schedule: word 0 by the age of the offer in force, the ramps and the minute that a cell keeps, and damaged books."""
from .form import (GENERATION, LEAST, MOST, STANDING_AT, VARIATION_AT, block, both, capability, cell, clock, filler, look_up, notice, of_each_kind, outage,
                   pairs_at, standing, total, variation, with_bytes, with_words)

FAST = with_words(GENERATION, {7: 9999, 8: 9999})  # the largest ramp maxima that a capability may have


def _word(kind, age):
    """Word 0 for an offer of this age: kind 1 is standing, 2 a variation."""
    return kind + 2 if age < 5 else kind


def _held_at(t, minute, F=1, S=1):
    """Facility 0 is generation, 70 tenths at 40.00 standing for slot 100 and 80 varied for period 101, both accepted at this minute, or before any clock."""
    t.open(F, S)
    t.call(capability(0, GENERATION))
    if minute is not None:
        t.call(clock(minute))
    t.call(standing(0, 0, 100, [(4000, 70)]))
    t.call(variation(0, 0, 101, [(4000, 80)]))


def _both_aged(t, age):
    t.call(look_up(0, 0, 100), 0, _word(1, age), 70)
    t.call(look_up(0, 0, 101), 0, _word(2, age), 80)


# ---- ages

def every_age(t):
    """Standing offer and variation of each service at ages 0 to 7 and far ones: fresh up to 4 minutes; totals don't know it."""
    t.open(1, 5)
    t.call(capability(0, GENERATION))
    t.call(clock(1000))
    for s in range(5):
        t.call(standing(0, s, 100, [(1, 7)], filler(s)))
        t.call(variation(0, s, 101, [(1, 8)], 0, filler(s)))
    for age in (0, 1, 2, 3, 4, 5, 6, 7, 30, 439, 440, 1999):
        t.call(clock(1000 + age))
        for s in range(5):
            t.call(look_up(0, s, 100), 0, _word(1, age), 7)
            t.call(look_up(0, s, 101), 0, _word(2, age), 8)
            t.call(total(s, 100), 0, 1, 7)
    t.words()


def every_kind(t):
    """Generation, load and link, each with offers of its own minute."""
    of_each_kind(t)
    for f, s in ((0, 4), (1, 2), (2, 0)):
        t.call(clock(2 * f))
        both(t, f, s, 100, [(1, 5)], 0, proportion=filler(s))
        t.call(standing(f, s, 101, [(1, 6)], filler(s)))
    for now in range(4, 12):
        t.call(clock(now))
        for f, s in ((0, 4), (1, 2), (2, 0)):
            t.call(look_up(f, s, 100), 0, _word(2, now - 2 * f), 5)
            t.call(look_up(f, s, 101), 0, _word(1, now - 2 * f), 6)
    t.words()


def before_any_clock(t):
    """Without a clock record the minute is 0: fresh up to minute 4."""
    _held_at(t, None)
    _both_aged(t, 0)
    t.words('minute 0')
    t.call(clock(0))
    _both_aged(t, 0)
    for now in (4, 5):
        t.call(clock(now))
        _both_aged(t, now)
    _held_at(t, 0)
    t.words('minute 0')


def clocks_that_stand_still(t):
    """The same minute filed again ages nothing, nor does a clock that is refused; what is filed then has the minute that stands."""
    _held_at(t, 1000)
    t.call(clock(1000))
    _both_aged(t, 0)
    for minute in (999, 1_000_000_001, MOST, -1):
        t.call(clock(minute), 6)
    _both_aged(t, 0)
    t.call(clock(1004))
    t.call(clock(1004))
    t.call(clock(1003), 6)
    _both_aged(t, 4)
    t.call(standing(0, 0, 102, [(1, 2)]))
    for now in (1005, 1008, 1009):
        t.call(clock(now))
        t.call(clock(1004), 6)
        _both_aged(t, now - 1000)
        t.call(look_up(0, 0, 102), 0, _word(1, now - 1004), 2)
    t.words()


def the_last_minutes(t):
    """Offers filed at 999,999,995, one more, and 1,000,000,000, looked up at the clock's last minute."""
    t.open(1, 1)
    t.call(capability(0, GENERATION))
    for minute in (999_999_995, 999_999_996, 1_000_000_000):
        t.call(clock(minute))
        t.call(variation(0, 0, 33_333_646 - 1_000_000_000 + minute, [(1, 5)]))
        t.call(standing(0, 0, (33_333_600 - 1_000_000_000 + minute) % 336, [(1, 6)]))
    for minute in (999_999_995, 999_999_996, 1_000_000_000):
        age = 1_000_000_000 - minute
        t.call(look_up(0, 0, 33_333_646 - age), 0, _word(2, age), 5)
        t.call(look_up(0, 0, 33_333_600 - age), 0, _word(1, age), 6)
    t.words()


# ---- which minute counts

def by_the_offer_in_force(t):
    """A fresh standing offer behind an old variation, and a fresh variation over an old standing offer: the one in force counts."""
    t.open(2, 1)
    for f in (0, 1):
        t.call(capability(f, GENERATION))
    t.call(clock(1000))
    t.call(standing(0, 0, 100, [(1, 5)]))
    t.call(variation(1, 0, 100, [(1, 6)]))
    t.call(clock(1003))
    t.call(variation(0, 0, 100, [(1, 7)]))
    t.call(standing(1, 0, 100, [(1, 8)]))
    for now in range(1003, 1010):
        t.call(clock(now))
        t.call(look_up(0, 0, 100), 0, _word(2, now - 1003), 7)
        t.call(look_up(1, 0, 100), 0, _word(2, now - 1000), 6)
        t.call(total(0, 100), 0, 2, 13)
    t.words()


def filed_again(t):
    """A variation filed again unchanged is accepted and fresh again; a standing offer so filed draws 18 and ages on."""
    _held_at(t, 1000)
    for now in (1001, 1004, 1005, 1007, 1100):
        t.call(clock(now))
        t.words(f'held {now}')
        t.call(standing(0, 0, 100, [(4000, 70)]), 18)
        t.words(f'held {now}')
        t.call(look_up(0, 0, 100), 0, _word(1, now - 1000), 70)
    t.call(look_up(0, 0, 101), 0, 2, 80)
    t.call(variation(0, 0, 101, [(4000, 80)]))
    for age in range(8):
        t.call(clock(1100 + age))
        t.call(look_up(0, 0, 101), 0, _word(2, age), 80)
    t.call(standing(0, 0, 100, [(4000, 71)]))
    t.call(look_up(0, 0, 100), 0, 3, 71)
    t.call(clock(1112))
    t.call(look_up(0, 0, 100), 0, 1, 71)
    t.call(standing(0, 0, 100, [(4000, 70)]))
    t.call(look_up(0, 0, 100), 0, 3, 70)
    t.words()


def refused_filings(t):
    """Filings that draw 2 to 5 and 9 to 18 freshen nothing: the held offers keep their words."""
    pairs = [(4000, 71)]
    standings = ((standing(0, 0, 100, pairs)[:111], 2), (standing(2, 0, 100, pairs), 3), (standing(0, 5, 100, pairs), 3), (standing(0, 0, 100, pairs, 1), 4),
                 (standing(1, 0, 100, pairs), 5), (standing(0, 4, 100, pairs), 9), (standing(0, 0, 436, pairs), 10), (standing(0, 0, 100, [(450001, 71)]), 11),
                 (standing(0, 0, 100, [(1, 0)]), 12), (standing(0, 0, 100, [(2, 1), (1, 1)]), 13), (standing(0, 0, 100, pairs, ramps=(51, 0)), 14),
                 (standing(0, 1, 100, pairs), 15), (standing(0, 0, 100, [(4000, 801)]), 16), (standing(0, 0, 35, pairs), 17),
                 (standing(0, 0, 100, [(4000, 70)]), 18))
    variations = ((variation(0, 0, 101, pairs, 7), 11), (variation(0, 0, 101, [(1, 0)]), 12), (variation(0, 0, 101, [(2, 1), (1, 1)]), 13),
                  (variation(0, 0, 101, pairs, ramps=(0, 41)), 14), (variation(0, 0, 101, [(4000, 801)]), 16), (variation(0, 0, 437 + 336, pairs), 10),
                  (variation(0, 0, 35, pairs), 17))
    _held_at(t, 1000, 2, 5)
    others = ((1, 100), (4, 100), (0, 35))  # the last of them inside the gate
    for s, slot in others:
        t.call(standing(0, s, slot, [(4000, 70)], filler(s)))
    t.call(capability(0, with_words(GENERATION, {16: 0})))
    for now in (1003, 1006):
        t.call(clock(now))
        t.words(f'refused at {now}')
        for r, number in standings + variations:
            t.call(r, number)
            _both_aged(t, now - 1000)
            for s, slot in others:
                t.call(look_up(0, s, slot), 0, _word(1, now - 1000), 70)
        t.words(f'refused at {now}')


def refused_in_the_gate(t):
    """A standing offer and a variation that draw 17 freshen nothing; the variation with its reason is fresh."""
    _held_at(t, 2930)
    t.call(clock(2966))
    t.words('gate')
    t.call(standing(0, 0, 100, [(4000, 71)]), 17)
    t.call(standing(0, 0, 100, [(4000, 70)]), 17)
    t.call(variation(0, 0, 101, [(4000, 81)]), 17)
    t.call(variation(0, 0, 101, [(4000, 80)]), 17)
    _both_aged(t, 36)
    t.words('gate')
    t.call(variation(0, 0, 101, [(4000, 80)], 1))
    t.call(look_up(0, 0, 101), 0, 4, 80)
    t.call(clock(2971))
    t.call(look_up(0, 0, 101), 0, 2, 80)
    t.words()


def the_gate_knows_no_age(t):
    """Old and new are compared whatever the minute of either: a variation over a fresh offer inside the gate, and one over an old one."""
    for held_at in (2930, 2970):
        t.open(1, 1)
        t.call(capability(0, GENERATION))
        t.call(clock(held_at))
        t.call(standing(0, 0, 100, [(4000, 70)]))
        t.call(clock(2970))
        t.call(notice(4, 100, 100))
        t.call(variation(0, 0, 100, [(4000, 70)], 4), 17)
        t.call(variation(0, 0, 100, [(4001, 71)], 4), 17)
        t.call(variation(0, 0, 100, [(4000, 71)], 4))
        t.call(look_up(0, 0, 100), 0, 4, 71)
        t.words()


def taken_back_to_the_standing_minute(t):
    """After a take-back the standing offer's own minute counts: at age 4 it is fresh, at 5 it isn't, with the gate open and inside it."""
    for filed, reason in ((1000, 0), (2930, 1)):
        for age in (0, 3, 4, 5, 6, 60):
            t.open(1, 1)
            t.call(capability(0, GENERATION))
            t.call(clock(filed))
            t.call(standing(0, 0, 100, [(4000, 70)]))
            t.call(variation(0, 0, 100, [(4000, 60)]))
            t.call(clock(filed + age))
            t.call(variation(0, 0, 100, [(4000, 61)], reason))
            t.call(look_up(0, 0, 100), 0, 4, 61)
            t.call(variation(0, 0, 100, [], reason))
            t.call(look_up(0, 0, 100), 0, _word(1, age), 70)
            t.words()


def the_minute_taken_back(t):
    """A take-back's cell is 24 zeros, its minute too; one that is refused leaves the variation its minute."""
    t.open(1, 1)
    t.call(capability(0, GENERATION))
    t.call(clock(2960))
    t.words('no variation')
    t.call(variation(0, 0, 102, [(4000, 60)]))
    t.call(variation(0, 0, 102))
    t.words('no variation')
    t.call(look_up(0, 0, 102), 19)
    t.call(clock(2965))
    t.call(variation(0, 0, 101, [(4000, 60)]))
    t.call(clock(2969))
    t.call(variation(0, 0, 101), 17)
    t.call(look_up(0, 0, 101), 0, 4, 60)
    t.call(clock(2970))
    t.call(variation(0, 0, 101), 17)
    t.call(look_up(0, 0, 101), 0, 2, 60)
    t.words()


def another_week(t):
    """A slot's cell used by one week's variation and then the next's: each shows its own minute, the standing offer between them its own."""
    _held_at(t, None)
    t.call(standing(0, 0, 101, [(1, 6)]))
    _both_aged(t, 0)
    for week, filed in ((1, 4320), (2, 14_400)):
        period = 101 + 336 * week
        t.call(clock(filed))
        t.call(look_up(0, 0, period), 0, 1, 5 + week)
        t.call(standing(0, 0, 101, [(1, 6 + week)]))
        t.call(look_up(0, 0, period), 0, 3, 6 + week)
        t.call(clock(filed + 3))
        t.call(variation(0, 0, period, [(1, 90 + week)]))
        for age in range(8):
            t.call(clock(filed + 3 + age))
            t.call(look_up(0, 0, period), 0, _word(2, age), 90 + week)
        t.words()


def a_slot_at_the_days_end(t):
    """A standing offer filed after its slot's period began is fresh for next week's period, which comes in at midnight."""
    t.open(1, 1)
    t.call(capability(0, GENERATION))
    t.call(clock(1436))
    t.call(standing(0, 0, 47, [(1, 5)]))
    t.call(look_up(0, 0, 383), 10)
    for now in range(1440, 1443):
        t.call(clock(now))
        t.call(look_up(0, 0, 383), 0, _word(1, now - 1436), 5)
    t.words()


def other_calls_age_nothing(t):
    """Capabilities, outages, notices, look-ups and totals between filing and look-up leave the age."""
    _held_at(t, 1000)
    for now in (1004, 1005):
        t.call(clock(now))
        for r in (capability(0, with_words(GENERATION, {1: 900})), outage(0, 1000, 3), notice(3, 1, 200), total(0, 100)):
            t.call(r, *((0, 1, 70) if r[5] == 9 else ()))
            _both_aged(t, now - 1000)
    t.words()


# ---- ramps and the cell's words

def ramps_shown(t):
    """Ramps at 0, 1 and 9,999, up and down apart, come back as they were filed, of a standing offer and a variation."""
    t.open(1, 1)
    t.call(capability(0, FAST))
    for slot, ramps in enumerate(((0, 0), (0, 1), (1, 0), (1, 2), (2, 1), (0, 9999), (9999, 0), (9999, 9999), (1, 9999), (9999, 1), (9998, 9999), (1000, 10)), 100):
        t.call(standing(0, 0, slot, [(1, 2)], ramps=ramps))
        t.call(look_up(0, 0, slot), 0, 3, 2, ramps)
        t.call(variation(0, 0, slot, [(1, 3)], ramps=ramps[::-1]))
        t.call(look_up(0, 0, slot), 0, 4, 3, ramps[::-1])
        t.call(standing(0, 0, slot, [(1, 2)], ramps=ramps), 18)
    both(t, 0, 0, 99, [(1, 2)], 14, ramps=(10_000, 0))
    both(t, 0, 0, 99, [(1, 2)], 14, ramps=(0, 10_000))
    t.words()


def ramps_in_a_duplicate(t):
    """Standing offers that differ in one ramp alone, or have the two the other way round, aren't equal."""
    t.open(1, 1)
    t.call(capability(0, FAST))
    for now, ramps in enumerate(((1, 2), (2, 1), (1, 1), (0, 1), (1, 0), (0, 9999), (1, 9999), (9999, 0), (9999, 9999), (0, 0))):
        t.call(clock(10 * now))
        t.call(standing(0, 0, 100, [(1, 2)], ramps=ramps))
        t.call(look_up(0, 0, 100), 0, 3, 2, ramps)
        t.call(clock(10 * now + 5))
        t.call(standing(0, 0, 100, [(1, 2)], ramps=ramps), 18)
        t.call(look_up(0, 0, 100), 0, 1, 2, ramps)
    t.words()


def no_ramps_but_energys(t):
    """Services 1 to 4 show 0 for both ramps, at any minute."""
    t.open(1, 5)
    t.call(capability(0, FAST))
    for now in (0, 1007, 123_456):
        t.call(clock(now))
        period = now // 30 + 100
        for s in (1, 2, 3, 4):
            t.call(standing(0, s, period % 336, [(1, 5)], filler(s)))
            t.call(look_up(0, s, period), 0, 3, 5, (0, 0))
            t.call(variation(0, s, period, [(1, 6)], 0, filler(s)))
            t.call(look_up(0, s, period), 0, 4, 6, (0, 0))
    t.words()


def the_cells_words(t):
    """What a filing leaves is what the host writes: stamp, proportion, ramp up times 10,000 plus ramp down, the minute, pairs."""
    minute = 12_345
    for f, s, offer, stamp, ramps in ((0, 0, standing, 1, (9999, 1)), (0, 0, standing, 1, (1, 9999)), (1, 0, variation, 501, (7, 0)), (1, 0, variation, 501, (0, 7)),
                                      (0, 3, standing, 1, (0, 0)), (1, 1, variation, 501, (0, 0)), (1, 4, variation, 501, (0, 0))):
        name = f'{f} {s} {stamp} {ramps}'
        for by_the_host in (False, True):
            t.open(2, 5)
            t.call(capability(f, FAST))
            t.call(clock(minute))
            if by_the_host:
                at = cell(2, 5, f, s, int(offer is variation), 164)
                t.write({at: stamp, at + 1: filler(s), at + 2: 10_000 * ramps[0] + ramps[1], at + 3: minute, **pairs_at(at, [(0, 5), (2, 6)])})
            else:
                t.call(offer(f, s, 164 if offer is standing else 500, [(0, 5), (2, 6)], proportion=filler(s), ramps=ramps))
            t.words(name)
            t.call(look_up(f, s, 500), 0, 3 if offer is standing else 4, 11, ramps)


# ---- damaged books

def ramps_word_damaged(t):
    """A damaged word 2 shows quotient and remainder by 10,000 rounded toward zero, of every service, standing offer and variation."""
    t.open(1, 5)
    t.call(capability(0, GENERATION))
    t.call(clock(1000))
    for s in range(5):
        both(t, 0, s, 100, [(1, 5)], 0, proportion=filler(s))
        t.call(standing(0, s, 101, [(1, 6)], filler(s)))
    for value, ramps in ((-12_345, (-1, -2345)), (-1, (0, -1)), (-9999, (0, -9999)), (-10_000, (-1, 0)), (-10_001, (-1, -1)), (-19_999, (-1, -9999)),
                         (LEAST, (-214_748, -3648)), (LEAST + 1, (-214_748, -3647)), (MOST, (214_748, 3647)), (9999, (0, 9999)), (10_000, (1, 0)),
                         (10_001, (1, 1)), (99_999_999, (9999, 9999)), (100_000_000, (10_000, 0)), (0, (0, 0))):
        for s in range(5):
            t.write({cell(1, 5, 0, s, 1, 100) + 2: value, cell(1, 5, 0, s, 0, 101) + 2: value})
            t.call(look_up(0, s, 100), 0, 4, 5, ramps)
            t.call(look_up(0, s, 101), 0, 3, 6, ramps)
    t.words()


def minute_damaged(t):
    """A damaged minute, counted in 64 bits: fresh where now less it is below 5, so a minute later than now is; the ramps stay."""
    for now, period in ((0, 100), (4, 100), (1000, 100), (1_000_000_000, 33_333_600)):
        slot = period % 336
        t.open(1, 1)
        t.call(capability(0, GENERATION))
        t.call(clock(now))
        t.call(standing(0, 0, slot, [(1, 5)], ramps=(50, 40)))
        t.call(variation(0, 0, period + 1, [(1, 6)], ramps=(40, 30)))
        standing_at, varied_at = cell(1, 1, 0, 0, 0, slot), cell(1, 1, 0, 0, 1, slot + 1)
        for minute in (now, now - 4, now - 5, now - 6, now + 1, now + 5, 0, -1, -4, -5, 1_000_000_000, 1_000_000_001, LEAST, LEAST + 4, MOST, MOST - 4):
            t.write({standing_at + 3: minute, varied_at + 3: minute})
            t.call(look_up(0, 0, period), 0, 3 if now - minute < 5 else 1, 5, (50, 40))
            t.call(look_up(0, 0, period + 1), 0, 4 if now - minute < 5 else 2, 6, (40, 30))
            t.call(total(0, period), 0, 1, 5)
        t.words()


def minutes_of_reserve_damaged(t):
    """Services 1 to 4 go by their cells' minutes too."""
    t.open(1, 5)
    t.call(capability(0, GENERATION))
    t.call(clock(1000))
    for s in (1, 2, 3, 4):
        t.call(standing(0, s, 100, [(1, 5)], filler(s)))
        for minute, first in ((996, 3), (995, 1), (1001, 3), (MOST, 3), (LEAST, 1), (-1, 1)):
            t.write({cell(1, 5, 0, s, 0, 100) + 3: minute})
            t.call(look_up(0, s, 100), 0, first, 5, (0, 0))
    t.words()


def clock_put_back_by_the_host(t):
    """The host puts the clock back: an offer whose minute is then yet to come is fresh, and so until five minutes past it."""
    _held_at(t, 1000)
    for now in (999, 0, 1004, 1005, 1003):
        t.write({4: now})
        _both_aged(t, now - 1000)
    t.words()


def ramp_maxima_past_9999(t):
    """Maxima above 9,999, which only the host can write, let ramps up to 9,999 pass: 10,000 and more draw 14, up and down apart."""
    slot = 100
    for word, place in ((7, 0), (8, 1)):
        t.open(1, 1)
        t.call(capability(0, FAST))
        for most in (9998, 9999, 10_000, 10_001, 99_999, MOST, 0, -1, -10_000, LEAST):
            t.write({block(0) + word: most})
            for ramp in (0, 9998, 9999, 10_000, 10_001, 214_748, MOST, -1, LEAST):
                ramps = (ramp, 5) if place == 0 else (5, ramp)
                passes = 0 <= ramp <= min(most, 9999)
                both(t, 0, 0, slot, [(1, 2)], 0 if passes else 14, ramps=ramps)
                if passes:
                    t.call(look_up(0, 0, slot), 0, 4, 2, ramps)
                    slot = 100 + (slot - 99) % 200
        t.words()


def both_ramp_maxima_past_9999(t):
    """Both maxima past 9,999: each ramp is held to 9,999, and 14 comes before 16."""
    t.open(1, 1)
    t.call(capability(0, GENERATION))
    t.write({block(0) + 7: MOST, block(0) + 8: MOST})
    for ramps, number in (((9999, 9999), 0), ((10_000, 9999), 14), ((9999, 10_000), 14), ((10_000, 10_000), 14), ((MOST, MOST), 14), ((0, MOST), 14), ((0, 0), 0)):
        both(t, 0, 0, 100, [(1, 2)], number, ramps=ramps)
        both(t, 0, 0, 101, [(1, 801)], number or 16, ramps=ramps)
    t.words()


def duplicates_of_damaged_ramps(t):
    """The test for a duplicate takes both ramps of a damaged word 2: no filing equals one below 0, and an equal one draws 18."""
    t.open(1, 1)
    t.call(capability(0, FAST))
    for value in (-1, -10_000, -10_001, -99_999_999, LEAST, MOST, 100_000_000, 10_000):
        for ramps in ((0, 0), (0, 1), (1, 0), (1, 1), (9999, 9999), (0, 9999)):
            t.call(clock(0))
            t.write({STANDING_AT: 0})
            t.call(standing(0, 0, 100, [(1, 2)], ramps=ramps))
            t.write({STANDING_AT + 2: value})
            t.call(standing(0, 0, 100, [(1, 2)], ramps=ramps), 18 if value == 10_000 * ramps[0] + ramps[1] else 0)
            t.call(look_up(0, 0, 100), 0, 3, 2, ramps)
    t.words()


def duplicates_of_damaged_minutes(t):
    """The test for a duplicate passes a damaged minute over, of every service: 18, and the words stay."""
    t.open(1, 5)
    t.call(capability(0, GENERATION))
    t.call(clock(1000))
    for s in range(5):
        filed = standing(0, s, 100, [(1, 2)], filler(s))
        t.call(filed)
        for minute, first in ((0, 1), (-1, 1), (995, 1), (996, 3), (1001, 3), (LEAST, 1), (MOST, 3)):
            t.write({cell(1, 5, 0, s, 0, 100) + 3: minute})
            t.words(f'{s} {minute}')
            t.call(filed, 18)
            t.words(f'{s} {minute}')
            t.call(look_up(0, s, 100), 0, first, 2)


def duplicates_of_reserve_with_ramps(t):
    """A word 2 other than 0 in a cell of services 1 to 4 equals no filing; the filing makes it 0 again, at its minute."""
    t.open(1, 5)
    t.call(capability(0, GENERATION))
    for s in (1, 2, 3, 4):
        filed, at = standing(0, s, 100, [(1, 2)], filler(s)), cell(1, 5, 0, s, 0, 100)
        t.call(filed)
        for value in (1, 10_000, -1, MOST):
            t.write({at + 2: value, at + 3: -77})
            t.call(filed)
            t.call(look_up(0, s, 100), 0, 3, 2, (0, 0))
            t.call(filed, 18)
    t.words()


def a_damaged_minute_written_over(t):
    """A filing writes all 24 words: whatever word 2 and the minute held, they are the filing's then; a take-back makes them 0."""
    for ramps_word, minute in ((0, 1000), (-1, MOST), (LEAST, LEAST), (MOST, -1)):
        t.open(1, 1)
        t.call(capability(0, GENERATION))
        t.call(clock(1000))
        t.write({VARIATION_AT: 101, VARIATION_AT + 2: ramps_word, VARIATION_AT + 3: minute, **pairs_at(VARIATION_AT, [(1, 9)])})
        t.call(variation(0, 0, 100, [(1, 5)], ramps=(3, 4)))
        t.words('written over')
        t.call(look_up(0, 0, 100), 0, 4, 5, (3, 4))
        t.write({VARIATION_AT + 2: ramps_word, VARIATION_AT + 3: minute})
        t.call(variation(0, 0, 100))
        t.words('emptied')


def books_by_version(t):
    """A head of version 1 or 3 is refused with 1, whatever its cells hold; of version 2 it is usable."""
    _held_at(t, 1000)
    for version in (1, 3, 0, -2, 2 << 16):
        t.write({1: version})
        t.words(f'version {version}')
        for r in (look_up(0, 0, 100), look_up(0, 0, 101), standing(0, 0, 100, [(1, 2)]), variation(0, 0, 101), total(0, 100), clock(1001), b''):
            t.call(r, 1)
        t.words(f'version {version}')
    t.write({1: 2})
    _both_aged(t, 0)
    t.call(with_bytes(look_up(0, 0, 100), {4: 2}), 2)  # a record's version is 1
    t.words()
