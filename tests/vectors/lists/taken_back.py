"""Variations taken back: a variation of blanks alone, with the gate open and inside it, over each thing that its cell and the standing cell may hold."""
from .form import (GENERATION, LEAST, LOAD, MOST, STANDING_AT, VARIATION_AT, block, capability, cell, clock, filler, look_up, notice, notices, outage, pairs_at,
                   standing, total, variation, with_bytes, with_words, withdrawal)


def _back(f, s, period, reason=0):
    """What takes the variation for the period back; generation's reserve has to carry a proportion."""
    return variation(f, s, period, [], reason, filler(s))


# ---- the gate open

def back_to_the_standing_offer(t):
    """Gate open, each service of both kinds: the standing offer answers again, and the words are those before the variation."""
    t.open(2, 5)
    t.call(capability(0, GENERATION))
    t.call(capability(1, LOAD))
    for f, s in ((0, 0), (0, 1), (0, 2), (0, 3), (0, 4), (1, 1), (1, 2), (1, 3)):
        t.call(standing(f, s, 60, [(4, 50)], filler(s)))
        t.words(f'before-{f}-{s}')
        t.call(variation(f, s, 60, [(4, 20), (5, 40)], 0, filler(s)))
        t.call(look_up(f, s, 60), 0, 4, 60)
        t.call(_back(f, s, 60))
        t.call(look_up(f, s, 60), 0, 3, 50)
        t.words(f'before-{f}-{s}')
    t.call(total(1, 60), 0, 2, 100)


def back_to_nothing(t):
    """No standing offer: after the take-back look-ups draw 19 and totals count one facility less."""
    t.open(2, 5)
    for f in (0, 1):
        t.call(capability(f, GENERATION))
    t.words('nothing filed')
    for s in range(5):
        for f in (0, 1):
            t.call(variation(f, s, 60, [(1, 30 + f)], 0, filler(s)))
        t.call(total(s, 60), 0, 2, 61)
        t.call(_back(0, s, 60))
        t.call(look_up(0, s, 60), 19)
        t.call(total(s, 60), 0, 1, 31)
        t.call(_back(1, s, 60))
        t.call(total(s, 60))
    t.words('nothing filed')


def nothing_to_take_back(t):
    """Gate open and no variation: accepted with any reason from 0 to 6, twice over, with a standing offer or none, and no word changes."""
    t.open(2, 1)
    for f in (0, 1):
        t.call(capability(f, GENERATION))
    t.call(standing(1, 0, 60, [(1, 5)]))
    t.words('nothing to take back')
    for f in (0, 1):
        for reason in (0, 0, 1, 2, 3, 4, 5, 6):
            t.call(_back(f, 0, 60, reason))
        t.call(_back(f, 0, 60, 7), 11)
        t.call(look_up(f, 0, 60), *((0, 3, 5) if f else (19,)))
    t.call(total(0, 60), 0, 1, 5)
    t.words('nothing to take back')


def another_weeks_variation_is_emptied(t):
    """The cell holds the slot's variation of the week before: the take-back empties it all the same."""
    for filed in (False, True):
        t.open(1, 5)
        t.call(capability(0, GENERATION))
        for s in (0, 2):
            t.call(standing(0, s, 4, [(1, 9)], filler(s)))
            if filed:
                t.call(variation(0, s, 4, [(1, 5)], 0, filler(s)))
        t.call(clock(1440))
        for s in (0, 2):
            t.call(_back(0, s, 340))
            t.call(look_up(0, s, 340), 0, 1, 9)
        t.words('a week later')


def the_newest_alone_counts(t):
    """Two variations and a take-back: the earlier one doesn't come back; the next variation counts again, and so by turns."""
    t.open(1, 1)
    t.call(capability(0, GENERATION))
    for standing_filed in (False, True):
        if standing_filed:
            t.call(standing(0, 0, 60, [(1, 9)]))
        t.call(variation(0, 0, 60, [(1, 5)]))
        t.call(variation(0, 0, 60, [(1, 6)]))
        t.call(_back(0, 0, 60))
        t.call(look_up(0, 0, 60), *((0, 3, 9) if standing_filed else (19,)))
        t.call(variation(0, 0, 60, [(2, 7)]))
        t.call(look_up(0, 0, 60), 0, 4, 7)
        t.call(_back(0, 0, 60))
        t.call(_back(0, 0, 60))
        t.call(total(0, 60), *((0, 1, 9) if standing_filed else ()))
    t.words()


def only_that_period(t):
    """Variations of the periods, services and facilities around the one taken back stay, and at the week's end slots 335 and 0."""
    t.open(3, 5)
    for f in range(3):
        t.call(capability(f, GENERATION))
    places = [(f, s, period) for f in range(3) for s in (1, 2, 3) for period in (59, 60, 61)]
    for f, s, period in places:
        t.call(variation(f, s, period, [(1, 5)], 0, 1))
    t.call(_back(1, 2, 60))
    for f, s, period in places:
        t.call(look_up(f, s, period), *((19,) if (f, s, period) == (1, 2, 60) else (0, 4, 5)))
    t.call(clock(1440))
    for s in (0, 4):
        for period in (334, 335, 336, 337):
            t.call(variation(2, s, period, [(1, 5)]))
        t.call(_back(2, s, 336))
        t.call(_back(2, s, 335))
        for period, answer in ((334, (0, 4, 5)), (335, (19,)), (336, (19,)), (337, (0, 4, 5))):
            t.call(look_up(2, s, period), *answer)
    t.words()


def the_least_that_is_no_take_back(t):
    """A tenth of a MW is a variation, after blanks 12; one of 0.0 MW for one period can't be filed, and a standing offer of 0.0 MW can."""
    t.open(1, 5)
    t.call(capability(0, GENERATION))
    for s in range(5):
        t.call(standing(0, s, 60, [(1, 9)], filler(s)))
        t.call(variation(0, s, 60, [(0, 1)], 0, filler(s)))
        for place in (1, 9 if s == 0 else 4):
            t.call(variation(0, s, 60, {place: (0, 2)}, 0, filler(s)), 12)
            t.call(look_up(0, s, 60), 0, 4, 1)
        t.call(_back(0, s, 60))
        t.call(look_up(0, s, 60), 0, 3, 9)
        t.call(standing(0, s, 60, [], filler(s)))
        t.call(look_up(0, s, 60), 0, 3, 0)
        t.call(total(s, 60), 0, 1, 0)
    t.words()


def back_to_a_standing_offer_of_blanks(t):
    """A standing offer of 0.0 MW is held, in force and counted after a take-back, gate open and shut; 17 and 18 know it."""
    t.open(2, 1)
    for f in (0, 1):
        t.call(capability(f, GENERATION))
    t.call(standing(0, 0, 60, []))
    t.call(standing(0, 0, 60, []), 18)
    for f in (0, 1):
        t.call(variation(f, 0, 60, [(1, 5)]))
    for f in (0, 1):
        t.call(_back(f, 0, 60))
        t.call(look_up(f, 0, 60), *((19,) if f else (0, 3, 0)))
    t.call(total(0, 60), 0, 1, 0)
    for f in (0, 1):
        t.call(variation(f, 0, 60, [(1, 5)]))
    t.call(notice(3, 60, 60))
    t.call(clock(1740))
    for f in (0, 1):
        t.call(_back(f, 0, 60), 17)
        t.call(_back(f, 0, 60, 3))
        t.call(_back(f, 0, 60, 3), 17)
        t.call(look_up(f, 0, 60), *((19,) if f else (0, 1, 0)))
    t.call(total(0, 60), 0, 1, 0)
    t.call(standing(0, 0, 60, [(1, 1)]), 17)
    t.call(standing(1, 0, 60, [(1, 1)]))
    t.words()


# ---- what refuses it

def what_refuses_a_take_back(t):
    """Numbers 3, 4, 5, 10, 11, 12, 14 and 15 of a take-back, from a book whose words stay; mended, it is accepted."""
    t.open(2, 5)
    t.call(capability(0, GENERATION))
    for s in range(5):
        t.call(standing(0, s, 60, [(4, 50)], filler(s)))
        t.call(variation(0, s, 60, [(5, 40)], 0, filler(s)))
    t.call(clock(100))
    t.words('refused')
    for s in range(5):
        pairs = 10 if s == 0 else 5
        t.call(_back(2, s, 60), 3)
        t.call(_back(1, s, 60), 5)
        t.call(with_bytes(_back(0, s, 60), {13: 1}), 4)
        t.call(with_bytes(_back(0, s, 60), {14 if s in (0, 4) else 16: 1}), 4)
        for period in (3, 0, -1, 336, LEAST, MOST):
            t.call(_back(0, s, period), 10)
        for reason in (7, 255):
            t.call(_back(0, s, 60, reason), 11)
        t.call(variation(0, s, 60, {pairs - 1: (450001, 0)}, 0, filler(s)), 11)
        for place in (0, pairs - 1):
            t.call(variation(0, s, 60, {place: (1, 0)}, 0, filler(s)), 12)
    for ramps in ((51, 0), (0, 41), (-1, 0), (0, -1), (MOST, MOST)):
        t.call(variation(0, 0, 60, ramps=ramps), 14)
    for s, most in ((1, 500), (2, 600), (3, 700)):
        for proportion in (0, most + 1, 65535):
            t.call(variation(0, s, 60, proportion=proportion), 15)
    t.call(look_up(0, 0, 60), 0, 2, 40)
    t.words('refused')
    t.call(variation(0, 0, 60, ramps=(50, 40)))
    for s, most in ((1, 500), (2, 600), (3, 700)):
        t.call(variation(0, s, 60, proportion=most))
        t.call(look_up(0, s, 60), 0, 1, 50)
    t.words()


def after_the_capability_shrank(t):
    """A mark cleared, a ramp or proportion maximum lowered since: 9, 14 and 15 bind the take-back; a lower total maximum doesn't."""
    t.open(1, 5)
    t.call(capability(0, GENERATION))
    for s in range(5):
        t.call(variation(0, s, 60, [(1, 50)], 0, 100 * filler(s), (50, 40) if s == 0 else (0, 0)))
    t.call(capability(0, with_words(GENERATION, {12: 0, 13: 0, 14: 0, 15: 0, 16: 0})))
    for s in range(5):
        t.call(_back(0, s, 60), 9)
        t.call(look_up(0, s, 60), 0, 4, 50)
    t.call(capability(0, with_words(GENERATION, {1: 0, 2: 0, 3: 0, 4: 0, 5: 0, 6: 0, 7: 10, 8: 10, 9: 10, 10: 10, 11: 10})))
    t.call(variation(0, 0, 60, ramps=(11, 0)), 14)
    t.call(variation(0, 0, 60, ramps=(0, 11)), 14)
    t.call(variation(0, 0, 60, ramps=(10, 10)))
    for s in (1, 2, 3):
        t.call(variation(0, s, 60, proportion=11), 15)
        t.call(variation(0, s, 60, proportion=10))
    t.call(_back(0, 4, 60))
    for s in range(5):
        t.call(look_up(0, s, 60), 19)
    t.words()


def a_loads_proportion(t):
    """A load's take-back may carry any proportion, and none of it stays."""
    t.open(1, 5)
    t.call(capability(0, LOAD))
    t.words('a load')
    for s in (1, 2, 3):
        for proportion in (0, 1, 1001, 65535):
            t.call(variation(0, s, 60, [(1, 5)], 0, 77))
            t.call(variation(0, s, 60, proportion=proportion))
    t.words('a load')


# ---- inside the gate

def gate_at_65_minutes_of_a_take_back(t):
    """A take-back with 65, 64 and 1 minutes to go and none, without a reason, with reason 1 and nothing to take back."""
    t.open(3, 1)
    for f in range(3):
        t.call(capability(f, GENERATION))
    for f in (0, 1):
        t.call(standing(f, 0, 100, [(1, 5)]))
        t.call(variation(f, 0, 100, [(1, 4)]))
    for left, number in ((65, 0), (64, 17), (1, 17)):
        t.call(clock(3000 - left))
        if left == 65:
            t.call(_back(0, 0, 100))
            t.call(look_up(0, 0, 100), 0, 1, 5)
        t.call(_back(2, 0, 100), number)
        t.call(_back(2, 0, 100, 1))
    t.call(_back(1, 0, 100), 17)
    t.call(look_up(1, 0, 100), 0, 2, 4)
    t.call(_back(1, 0, 100, 1))
    t.call(look_up(1, 0, 100), 0, 1, 5)
    t.call(clock(3000))
    t.call(_back(1, 0, 100, 1), 10)
    t.words()


def _by_reason(t, f, s, period, held):
    """Each reason over a variation of 50 tenths, `held` standing behind it (None: no standing offer), one price throughout."""
    for reason in range(7):
        period += 4
        t.call(clock(30 * period - 65))
        if held is not None:
            t.call(standing(f, s, period % 336, [(1, held)] if held else [], filler(s)))
        t.call(variation(f, s, period, [(1, 50)], 0, filler(s)))
        t.call(clock(30 * period - 30))
        if reason in (2, 6):
            t.call(_back(f, s, period, reason), 17)
            t.call(outage(f, 30 * period - 30, 1))
        after = held or 0
        holds = {0: False, 1: f == 0, 2: f == 0, 3: s == 0 and after < 50, 4: after > 50, 5: after > 50, 6: f == 1}[reason]
        t.call(_back(f, s, period, reason), 0 if holds else 17)
        t.call(look_up(f, s, period), *((0, 2, 50) if not holds else (19,) if held is None else (0, 1, held)))
    return period


def _reasons(t, f, s, all_held):
    t.open(2, 5)
    t.call(capability(0, with_words(GENERATION, {6: 300})))
    t.call(capability(1, LOAD))
    notices(t, 0, 40_000_000)
    period = 10
    for held in all_held:
        period = _by_reason(t, f, s, period, held)
    t.words()


def reasons_for_energy(t):
    """Energy of generation inside the gate, each reason, going back to more, as much, less, 0.0 MW and nothing: new is what stands afterwards."""
    _reasons(t, 0, 0, (60, 50, 40, 0, None))


def reasons_for_reserve_and_regulation(t):
    """Reserve and regulation of generation inside the gate, each reason, going back to more, to less or to nothing; 3 is for energy alone."""
    _reasons(t, 0, 2, (60, 40))
    _reasons(t, 0, 4, (60, None))


def reasons_for_a_load(t):
    """A load's reserve inside the gate, each reason, going back to more, less and nothing."""
    _reasons(t, 1, 1, (60, 40, None))


def nothing_to_take_back_inside_the_gate(t):
    """Inside the gate old and new are one offer, or none: reasons 1, 2 and 6 pass and change nothing; 0, 3, 4 and 5 draw 17."""
    t.open(4, 5)
    for f in range(4):
        t.call(capability(f, LOAD if f >= 2 else GENERATION))
    notices(t, 0, 1000)
    t.call(standing(0, 1, 100, [(1, 5), (2, 6)], 1))
    t.call(standing(2, 1, 100, [(1, 5), (2, 6)], 1))
    t.call(clock(2970))
    for f in range(4):
        t.call(outage(f, 2970, 1))
    t.words('nothing to take back inside')
    for f in range(4):
        for reason in range(7):
            t.call(_back(f, 1, 100, reason), 0 if reason in ((6,) if f >= 2 else (1, 2)) else 17)
        t.call(look_up(f, 1, 100), *((19,) if f % 2 else (0, 1, 11)))
    t.words('nothing to take back inside')


def prices_of_what_stands_afterwards(t):
    """Inside the gate with reason 1, variations over 50.0 MW at 40.00 and 20.0 at 50.00 standing: the tenths of both are compared."""
    tries = (([(4000, 300)], 0), ([(4000, 500), (5000, 200)], 0), ([(4000, 500), (5000, 300)], 0), ([(4000, 500), (5000, 200), (6000, 9)], 0), ([(4000, 1)], 0),
             ([(4001, 1)], 17), ([(3999, 1), (4000, 499)], 17), ([(4000, 501)], 17), ([(4000, 450), (5000, 300)], 17), ([(4000, 500), (5001, 1)], 17),
             ([(4000, 500), (5000, 199), (5001, 1)], 17), ([(4000, 500), (5000, 1)], 0), ([(4000, 500), (4999, 1)], 17))
    t.open(len(tries), 1)
    for f, (pairs, _) in enumerate(tries):
        t.call(capability(f, GENERATION))
        t.call(standing(f, 0, 4, [(4000, 500), (5000, 200)]))
        t.call(variation(f, 0, 4, pairs))
    t.call(clock(60))
    for f, (pairs, number) in enumerate(tries):
        t.call(_back(f, 0, 4, 1), number)
        t.call(look_up(f, 0, 4), 0, *((1, 700) if number == 0 else (2, sum(quantity for _, quantity in pairs))))
    t.words()


def then_another_variation(t):
    """After a take-back old is the standing offer: other prices draw 17, its first tenth and dearer ones pass; with none any price does."""
    t.open(2, 1)
    for f in (0, 1):
        t.call(capability(f, GENERATION))
    t.call(standing(0, 0, 100, [(4000, 500)]))
    for f in (0, 1):
        t.call(variation(f, 0, 100, [(4000, 300)]))
    t.call(clock(2970))
    for f in (0, 1):
        t.call(variation(f, 0, 100, [(3999, 1)], 1), 17)
        t.call(_back(f, 0, 100, 1))
        t.call(variation(f, 0, 100, [(3999, 1)], 1), 0 if f else 17)
    t.call(variation(0, 0, 100, [(4000, 300), (9000, 300)], 1), 17)
    t.call(variation(0, 0, 100, [(4000, 1)], 1))
    t.call(variation(0, 0, 100, [(4000, 1), (9000, 600)], 1))
    t.call(_back(0, 0, 100, 1), 17)
    t.call(_back(1, 0, 100, 1))
    t.call(variation(1, 0, 100, [(9000, 300)], 1))
    t.call(look_up(0, 0, 100), 0, 4, 601)
    t.call(look_up(1, 0, 100), 0, 4, 300)
    t.words()


def tripped_set_files_zeros(t):
    """A set trips and files zeros for the period with reason 2: accepted, and its standing offer stands again; 0.1 MW cuts it down."""
    t.open(1, 1)
    t.call(capability(0, GENERATION))
    t.call(standing(0, 0, 100, [(4000, 500), (5000, 200)]))
    t.call(clock(2950))
    t.call(outage(0, 2950, 2))
    t.call(variation(0, 0, 100, [(4000, 1)], 2))
    t.call(total(0, 100), 0, 1, 1)
    t.call(_back(0, 0, 100, 2))
    t.call(total(0, 100), 0, 1, 700)
    t.words()


def windows_of_a_take_back(t):
    """Notices that end before the period, start after it or hold it alone, a withdrawn notice 5, and outages that end before it or hold it."""
    t.open(1, 1)
    t.call(capability(0, GENERATION))
    t.call(standing(0, 0, 100, [(1, 50)]))
    t.call(variation(0, 0, 100, [(1, 20)]))
    t.call(clock(2950))
    for kind in (4, 5):
        for first, last, number in ((99, 99, 17), (101, 101, 17), (100, 100, 0)):
            t.call(notice(kind, first, last))
            t.call(_back(0, 0, 100, kind), number)
        t.call(variation(0, 0, 100, [(1, 20)], 1))
    t.call(withdrawal())
    t.call(_back(0, 0, 100, 5), 17)
    t.call(_back(0, 0, 100, 4))
    t.call(variation(0, 0, 100, [(1, 20)], 1))
    t.call(notice(3, 100, 100))
    t.call(_back(0, 0, 100, 3), 17)
    t.call(variation(0, 0, 100, [(1, 80)], 1))
    t.call(notice(3, 101, 200))
    t.call(_back(0, 0, 100, 3), 17)
    t.call(notice(3, 0, 100))
    t.call(_back(0, 0, 100, 3))
    t.call(variation(0, 0, 100, [(1, 80)], 1))
    for minute, count, number in ((2_950, 1, 17), (2_879, 3, 17), (2_950, 2, 0)):
        t.call(outage(0, minute, count))
        t.call(_back(0, 0, 100, 2), number)
    t.words()


# ---- books that no list of calls leaves

def _damaged_book(t):
    """Inside the gate for period 100: 70 tenths at 40.00 standing, 60 varied, every notice in place."""
    t.open(1, 1)
    t.call(capability(0, GENERATION))
    t.call(standing(0, 0, 100, [(4000, 70)]))
    t.call(variation(0, 0, 100, [(4000, 60)]))
    notices(t, 100, 100)
    t.call(clock(2990))


def blank_variation_held(t):
    """A stamped variation cell of blanks, which no call of this level leaves, is in force with sum 0 until it is taken back."""
    _damaged_book(t)
    for pairs in ([], [(7, 0)] * 10):
        for reason, number in ((0, 17), (3, 17), (4, 0), (5, 0), (1, 0)):
            t.write({VARIATION_AT: 101, VARIATION_AT + 1: 3, VARIATION_AT + 2: -4, VARIATION_AT + 3: 5, **pairs_at(VARIATION_AT, pairs)})
            t.call(look_up(0, 0, 100), 0, 2, 0)
            t.call(total(0, 100), 0, 1, 0)
            t.call(_back(0, 0, 100, reason), number)
            t.call(look_up(0, 0, 100), 0, *((2, 0) if number else (1, 70)))
    t.words('nothing varied')
    t.write({VARIATION_AT: 101})
    t.call(variation(0, 0, 100, [(9000, 1)], 1))
    t.call(look_up(0, 0, 100), 0, 4, 1)
    t.write({VARIATION_AT: 101, STANDING_AT: 0, **pairs_at(VARIATION_AT, [])})
    for reason in (3, 4, 5):
        t.call(_back(0, 0, 100, reason), 17)
    t.call(_back(0, 0, 100, 1))
    t.call(look_up(0, 0, 100), 19)


def standing_cell_without_its_stamp(t):
    """A standing cell whose stamp isn't 1 holds nothing to go back to: new has total 0, and no tenth of it is compared."""
    for stamp in (0, 2, -1, 101, 257, LEAST):
        _damaged_book(t)
        t.write({STANDING_AT: stamp})
        t.call(_back(0, 0, 100, 4), 17)
        t.call(_back(0, 0, 100, 3))
        t.call(look_up(0, 0, 100), 19)
        t.call(total(0, 100))
        t.call(_back(0, 0, 100, 3), 17)
    t.words()


def negative_quantities_to_go_back_to(t):
    """A standing quantity below 0 counts as 0 in the take-back's gate and its price isn't compared; look-ups add it as it is."""
    _damaged_book(t)
    for pairs, tries in (
            ([(4000, 70), (1, -50)], ((3, 17), (4, 0), (5, 0), (1, 0))),
            ([(4000, 61), (1, LEAST)], ((3, 17), (4, 0))),
            ([(4000, 60), (1, -50)], ((3, 17), (4, 17), (1, 0))),
            ([(4000, 59), (1, -1)], ((4, 17), (3, 0))),
            ([(9, -1), (4000, 70)], ((3, 17), (4, 0))),
            ([(4000, 30), (9, -7), (4000, 40)], ((3, 17), (4, 0))),
            ([(4000, 30), (9, 1), (4000, 40)], ((3, 17), (4, 17), (1, 17))),
            ([(4000, LEAST)] * 10, ((4, 17), (5, 17), (3, 0))),
            ([(4000, -1)], ((4, 17), (3, 0)))):
        t.write({**pairs_at(STANDING_AT, pairs), **pairs_at(VARIATION_AT, [(4000, 60)]), VARIATION_AT: 101})
        for reason, number in tries:
            t.write({VARIATION_AT: 101, **pairs_at(VARIATION_AT, [(4000, 60)])})
            t.call(_back(0, 0, 100, reason), number)
        number = tries[-1][1]
        t.call(look_up(0, 0, 100), 0, *((2, 60) if number else (1, sum(quantity for _, quantity in pairs))))
    t.words()


def negative_quantities_taken_back(t):
    """A variation quantity below 0 counts as 0 as well: old and new are both counted so."""
    _damaged_book(t)
    for varied, held, tries in (
            ([(4000, 71), (1, -50)], [(4000, 70)], ((4, 17), (3, 0))),
            ([(4000, 69), (1, -50)], [(4000, 70)], ((3, 17), (4, 0))),
            ([(1, -50), (4000, 70)], [(4000, 70), (1, -9)], ((3, 17), (4, 17), (1, 0))),
            ([(4000, LEAST)] * 10, [(9, LEAST)] * 10, ((3, 17), (4, 17), (1, 0))),
            ([(4000, -1)], [(9, 1)], ((3, 17), (4, 0)))):
        for reason, number in tries:
            t.write({VARIATION_AT: 101, **pairs_at(VARIATION_AT, varied), **pairs_at(STANDING_AT, held)})
            t.call(look_up(0, 0, 100), 0, 2, sum(quantity for _, quantity in varied))
            t.call(_back(0, 0, 100, reason), number)
    t.words()


def totals_past_32_bits(t):
    """Two held offers are compared, so both totals are counted in 64 bits: 2^32 isn't 0, and 2^32 + 60 isn't 60."""
    _damaged_book(t)
    two_to_32 = [(4000, MOST), (4000, MOST), (4000, 2)]
    for small, large in (([(4000, 60)], two_to_32), ([(4000, 60)], two_to_32 + [(4000, 60)]), (two_to_32, two_to_32 + [(4000, 1)]),
                         ([(4000, MOST)] * 9, [(4000, MOST)] * 10), ([(4000, MOST), (4000, 1)], [(4000, MOST), (4000, 2)]), ([], two_to_32)):
        for old, new, numbers in ((small, large, {3: 17, 4: 0, 5: 0}), (large, small, {3: 0, 4: 17, 5: 17})):
            for reason, number in numbers.items():
                t.write({VARIATION_AT: 101, **pairs_at(VARIATION_AT, old), **pairs_at(STANDING_AT, new)})
                t.call(_back(0, 0, 100, reason), number)
                t.call(look_up(0, 0, 100), 0, *((2, sum(quantity for _, quantity in old)) if number else (1, sum(quantity for _, quantity in new))))
    t.words()


def tenths_past_32_bits(t):
    """Two held offers that differ at a tenth past the 2^31st, the 2^32nd and the last of ten full pairs, or at none."""
    _damaged_book(t)
    for full in (1, 2, 3, 9):
        base = [(4000, MOST)] * full
        for varied, held, number in ((base + [(5000, 1)], base + [(5000, 1)], 0), (base + [(5000, 1)], base + [(5001, 1)], 17), (base, base + [(5001, 1)], 0),
                                     (base + [(5000, 1)], base, 0), (base + [(4000, 1)], base + [(5000, 1)], 17)):
            t.write({VARIATION_AT: 101, **pairs_at(VARIATION_AT, varied), **pairs_at(STANDING_AT, held)})
            t.call(_back(0, 0, 100, 1), number)
            t.call(look_up(0, 0, 100), 0, *((2, sum(quantity for _, quantity in varied)) if number else (1, sum(quantity for _, quantity in held))))
    t.words()


def prices_out_of_order_to_go_back_to(t):
    """Standing prices that fall, repeat or lie past the limits: compared in their order, tenth by tenth."""
    _damaged_book(t)
    for varied, held, number in (([(4000, 5), (3000, 5)], [(4000, 5), (3000, 6)], 0), ([(4000, 10)], [(4000, 5), (3000, 5)], 17),
                                 ([(4000, 10)], [(4000, 5), (4000, 5)], 0), ([(MOST, 5)], [(MOST, 4), (LEAST, 1)], 17), ([(MOST, 5)], [(MOST, 4)], 0),
                                 ([(4000, 5)], [(9000, 0), (4000, 5), (1, 0)], 0), ([(9000, 0), (4000, 5)], [(4000, 5)], 0)):
        t.write({VARIATION_AT: 101, **pairs_at(VARIATION_AT, varied), **pairs_at(STANDING_AT, held)})
        t.call(_back(0, 0, 100, 1), number)
        t.call(look_up(0, 0, 100), 0, *((2, sum(quantity for _, quantity in varied)) if number else (1, sum(quantity for _, quantity in held))))
    t.words()


def the_cells_24_words(t):
    """Whatever the variation cell's 24 words hold, stamps of other periods and of none too, a take-back makes them zeros and leaves their neighbours."""
    t.open(3, 5)
    t.call(capability(1, GENERATION))
    for s in (0, 3, 4):
        at = cell(3, 5, 1, s, 1, 60)
        t.write({at - 1: 7, at + 24: 8})
        t.words(f'emptied {s}')
        for stamp in (0, 1, 60, 61, 397, -1, LEAST, MOST):
            t.write({at: stamp, **{at + i: 1000 * s - i for i in range(1, 24)}})
            t.call(_back(1, s, 60))
            t.words(f'emptied {s}')
            t.call(look_up(1, s, 60), 19)


def a_period_yet_to_come_loses_the_cell(t):
    """The host left another period's variation in the slot's cell: the take-back empties it, and that period has the standing offer."""
    t.open(1, 1)
    t.call(capability(0, GENERATION))
    t.call(standing(0, 0, 100, [(1, 9)]))
    t.write({VARIATION_AT: 437, VARIATION_AT + 5: 8})
    t.call(look_up(0, 0, 100), 0, 3, 9)
    t.call(_back(0, 0, 100))
    t.call(clock(4320))
    t.call(look_up(0, 0, 436), 0, 1, 9)
    t.words()


def maxima_below_nothing(t):
    """Damaged maxima refuse a take-back: 14 and 15 as they stand, and 16 where the maximum is below 0."""
    t.open(1, 5)
    t.call(capability(0, GENERATION))
    for s in range(5):
        t.call(variation(0, s, 60, [(1, 5)], 0, filler(s)))
    for word, s, number in ((1, 0, 16), (2, 0, 16), (3, 1, 16), (4, 2, 16), (5, 3, 16), (6, 4, 16), (7, 0, 14), (8, 0, 14), (9, 1, 15), (10, 2, 15), (11, 3, 15)):
        for value in (-1, LEAST):
            t.write({block(0) + word: value})
            t.call(_back(0, s, 60), number)
        t.write({block(0) + word: GENERATION[word]})
        t.call(look_up(0, s, 60), 0, 4, 5)
    for s in range(5):
        t.call(_back(0, s, 60))
        t.call(look_up(0, s, 60), 19)
    t.words()
