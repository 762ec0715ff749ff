"""Books whose words no list of calls could have left: what the calls answer from them, by the words that are there."""
from .form import (GENERATION, LEAST, LOAD, MOST, STANDING_AT, VARIATION_AT, block, capability, cell, clock, look_up, notice, outage, pairs_at, standing,
                   total, variation, with_words, withdrawal)


def _energy_book(t, now, F=1, S=1):
    """Facility 0 is generation with 70 tenths at 40.00 standing for slot 100."""
    t.open(F, S)
    t.call(capability(0, GENERATION))
    t.call(standing(0, 0, 100, [(4000, 70)]))
    t.call(clock(now))


def variation_stamps(t):
    """A variation cell whose stamp names another period, or none: the standing offer answers; the named period finds it."""
    _energy_book(t, 0)
    t.call(variation(0, 0, 100, [(4000, 80)]))
    t.call(look_up(0, 0, 100), 0, 4, 80)
    for stamp in (0, 1, 2, 100, 102, 436, 437, 438, -101, -1, LEAST, MOST, 101 + 65536):
        t.write({VARIATION_AT: stamp})
        t.call(look_up(0, 0, 100), 0, 3, 70)
        t.call(total(0, 100), 0, 1, 70)
    t.write({VARIATION_AT: 101})
    t.call(look_up(0, 0, 100), 0, 4, 80)
    t.write({VARIATION_AT: 437, 4: 4320})
    t.call(look_up(0, 0, 436), 0, 2, 80)
    t.call(total(0, 436), 0, 1, 80)
    t.write({VARIATION_AT: 101})
    t.call(look_up(0, 0, 436), 0, 1, 70)
    t.call(variation(0, 0, 436, [(4000, 90)]))
    t.call(look_up(0, 0, 436), 0, 4, 90)
    t.words()


def standing_stamps(t):
    """A standing cell whose stamp isn't 1 holds nothing: 19, no count, and what is filed there is a first."""
    _energy_book(t, 0)
    for stamp in (0, 2, 3, -1, 101, 257, 65537, 1 << 24, LEAST, MOST):
        t.write({STANDING_AT: stamp, 4: 0})
        t.call(look_up(0, 0, 100), 19)
        t.call(total(0, 100))
        t.write({4: 2999})
        t.call(standing(0, 0, 100, [(4000, 70)]))
        t.call(standing(0, 0, 100, [(4000, 70)]), 17)
        t.call(look_up(0, 0, 100), 0, 3, 70)
    t.words()


def clock_put_back(t):
    """The host puts the clock back: a variation whose period had begun answers again, and its cell is its own."""
    _energy_book(t, 0)
    t.call(variation(0, 0, 100, [(4000, 80)]))
    t.call(clock(3000))
    t.call(look_up(0, 0, 100), 10)
    t.write({4: 2999})
    t.call(look_up(0, 0, 100), 0, 2, 80)
    t.call(clock(2998), 6)
    t.write({4: 0})
    t.call(variation(0, 0, 100, [(4000, 81)]))
    t.call(total(0, 100), 0, 1, 81)
    t.words()


def negative_quantities_in_the_gate(t):
    """A held quantity below 0 counts as 0 in the gate, its price isn't compared, and sums add it as it is."""
    _energy_book(t, 2990)
    t.call(notice(3, 100, 100))
    t.call(notice(4, 100, 100))
    for pairs, reasons in (
            ([(4000, 70), (1, -50)], ((4, [(4000, 70)], 17), (3, [(4000, 70)], 17), (4, [(4000, 71)], 0), (3, [(4000, 69)], 0), (4, [(4000, 21)], 17))),
            ([(9, -1), (4000, 70)], ((4, [(4000, 71)], 0), (4, [(9, 1), (4000, 70)], 17), (3, [(9, 1)], 17), (3, [(4000, 1)], 0))),
            ([(4000, 30), (5, LEAST), (4000, 40)], ((4, [(4000, 71)], 0), (3, [(4000, 69)], 0), (4, [(4000, 70)], 17), (1, [(4000, 31), (5000, 1)], 17))),
            ([(4000, LEAST)] * 10, ((4, [(1, 1)], 0), (3, [], 17), (4, [], 17), (1, [(7, 5)], 0))),
            ([(4000, -1)], ((3, [], 17), (4, [(5, 1)], 0)))):
        t.write({**pairs_at(STANDING_AT, pairs), VARIATION_AT: 0})
        quantities = sum(quantity for _, quantity in pairs)
        t.call(look_up(0, 0, 100), 0, 1, quantities)
        t.call(total(0, 100), 0, 1, quantities)
        for reason, new, number in reasons:
            t.call(variation(0, 0, 100, new, reason), number)
            if number == 0:
                t.write({VARIATION_AT: 0})
    t.words()


def negative_quantities_in_a_variation(t):
    """Negative quantities in the gate where the damaged offer is a variation, in the reserve's five pairs and in those it doesn't use."""
    t.open(1, 5)
    t.call(capability(0, GENERATION))
    t.call(clock(2900))
    t.call(variation(0, 1, 100, [(40, 70)], 0, 1))
    t.call(clock(2990))
    t.call(notice(5, 100, 100))
    at = cell(1, 5, 0, 1, 1, 100)
    t.write({at + 7: -30, at + 6: 5, at + 4 + 19: -1000})
    t.call(look_up(0, 1, 100), 0, 2, -960)
    t.call(total(1, 100), 0, 1, -960)
    t.call(variation(0, 1, 100, [(40, 70)], 5, 1), 17)
    t.call(variation(0, 1, 100, [(40, 71)], 5, 1))
    t.call(look_up(0, 1, 100), 0, 4, 71)
    t.write({at + 4 + 18: 40, at + 4 + 19: 9})
    t.call(look_up(0, 1, 100), 0, 4, 80)
    t.call(variation(0, 1, 100, [(40, 80)], 5, 1), 17)
    t.call(variation(0, 1, 100, [(40, 81)], 5, 1))
    t.words()


def sums_past_32_bits(t):
    """Ten quantities at either end of a word: look-up and total add in 64 bits, over seven facilities."""
    t.open(7, 1)
    for f in range(7):
        t.call(capability(f, GENERATION))
        t.call(standing(f, 0, 60, [(4000, 70)]))
    for quantity in (MOST, LEAST, 1 << 30, -1, 429496730):  # ten of the last are 4 above 2^32
        for f in range(7):
            t.write(pairs_at(cell(7, 1, f, 0, 0, 60), [(i, quantity) for i in range(10)]))
        t.call(look_up(0, 0, 60), 0, 3, 10 * quantity)
        t.call(look_up(6, 0, 60), 0, 3, 10 * quantity)
        t.call(total(0, 60), 0, 7, 70 * quantity)
    t.write(pairs_at(cell(7, 1, 3, 0, 0, 60), [(0, MOST), (0, LEAST)] * 5))
    t.call(look_up(3, 0, 60), 0, 3, -5)
    t.words()


def old_total_past_32_bits(t):
    """Inside the gate the held total is counted in 64 bits: one of 2^32 isn't 0, and one of 2^32 + 5 isn't 5."""
    _energy_book(t, 2990)
    t.call(notice(3, 100, 100))
    t.call(notice(4, 100, 100))
    for pairs in ([(4000, MOST)] * 10, [(4000, MOST), (4000, MOST), (4000, 2)], [(4000, MOST), (4000, MOST), (4000, 7)], [(4000, MOST), (4000, 1)], [(4000, 1 << 30)] * 4):
        t.write({**pairs_at(STANDING_AT, pairs), VARIATION_AT: 0})
        t.call(look_up(0, 0, 100), 0, 1, sum(quantity for _, quantity in pairs))
        t.call(variation(0, 0, 100, [(4000, 1)], 4), 17)
        t.call(variation(0, 0, 100, [(4000, 800)], 4), 17)
        t.call(variation(0, 0, 100, [(4001, 800)], 3), 17)
        t.call(variation(0, 0, 100, [(4000, 799), (4001, 1)], 3), 17)
        t.call(variation(0, 0, 100, [(4000, 800)], 3))
        t.call(look_up(0, 0, 100), 0, 4, 800)
    t.words()


def prices_out_of_order(t):
    """Held prices that fall, repeat, lie past the limits or stand on blanks: compared in their order, tenth by tenth."""
    _energy_book(t, 2990)
    for pairs, tries in (
            ([(4000, 5), (3000, 5)], (([(4000, 5)], 0), ([(4000, 6)], 17), ([(3000, 5), (4000, 5)], 17))),
            ([(4000, 5), (4000, 5)], (([(4000, 10)], 0), ([(4000, 9)], 0), ([(4000, 10), (4001, 1)], 0), ([(4000, 9), (4001, 1)], 17))),
            ([(9000, 0), (4000, 5), (1, 0)], (([(4000, 5)], 0), ([(9000, 5)], 17), ([(1, 1)], 17))),
            ([(MOST, 5)], (([(450000, 1)], 17), ([], 0))),
            ([(LEAST, 5)], (([(-450000, 1)], 17), ([], 0))),
            ([(0, 1)] * 10, (([(0, 10)], 0), ([(0, 11)], 0), ([(0, 1), (1, 9)], 17))),
            ([(i, 1) for i in range(9, -1, -1)], (([(9, 1)], 0), ([(9, 2)], 17), ([(0, 1)], 17)))):
        for new, number in tries:
            t.write({**pairs_at(STANDING_AT, pairs), VARIATION_AT: 0})
            t.call(variation(0, 0, 100, new, 1), number)
    t.words()


def windows_damaged(t):
    """Windows with first above last and at the ends of a word: a period is in one where first <= P <= last, whatever they hold."""
    t.open(2, 5)
    t.call(capability(0, GENERATION))
    t.call(capability(1, LOAD))
    t.call(standing(0, 0, 100, [(4000, 70)]))
    t.call(standing(1, 1, 100, [(4000, 70)]))
    t.call(clock(2990))
    windows = ((LEAST, MOST), (100, 100), (101, 100), (101, MOST), (LEAST, 99), (MOST, LEAST), (-5, 100), (100, MOST), (0, 0), (100, 99))
    for reason, at, f, s, quantity in ((3, 5, 0, 0, 60), (4, 7, 0, 0, 80), (5, 9, 0, 0, 80), (2, block(0) + 17, 0, 0, 70), (6, block(1) + 17, 1, 1, 70), (5, 9, 1, 1, 80)):
        for first, last in windows:
            t.write({at: first, at + 1: last, cell(2, 5, f, s, 1, 100): 0})
            t.call(variation(f, s, 100, [(4000, quantity)], reason), 0 if first <= 100 <= last else 17)
    t.call(withdrawal())
    t.call(outage(0, 2990, 3))
    t.call(notice(3, 1, 2))
    t.words()


def marks_damaged(t):
    """Marks other than 0 and 1 aren't 1: 9 for each service, by kind; a load with marks 0 and 4 set files by them."""
    t.open(2, 5)
    t.call(capability(0, GENERATION))
    t.call(capability(1, with_words(LOAD, {1: 500, 2: 500, 6: 500, 7: 5, 8: 5})))
    for s in range(5):
        proportion = 1 if 1 <= s <= 3 else 0
        for mark in (2, -1, 0, 257, LEAST, MOST):
            t.write({block(0) + 12 + s: mark, block(1) + 12 + s: mark})
            t.call(standing(0, s, 60, [(1, 2)], proportion), 9)
            t.call(variation(1, s, 60, [(1, 2)], 0, proportion), 9)
        t.write({block(0) + 12 + s: 1, block(1) + 12 + s: 1})
        t.call(standing(0, s, 60, [(1, 2)], proportion))
        t.call(variation(1, s, 60, [(1, 2)], 0, proportion))
        t.call(total(s, 60), 0, 2, 4)
    t.call(capability(1, with_words(LOAD, {12: 1})), 8)
    t.words()


def maxima_damaged(t):
    """Maxima below 0 refuse a blank offer too, with 14 or 16; maxima past any total let 999,990 tenths pass, and ramps of 9,999."""
    t.open(1, 5)
    t.call(capability(0, GENERATION))
    for word, s, number in ((1, 0, 16), (2, 0, 16), (3, 1, 16), (4, 2, 16), (5, 3, 16), (6, 4, 16), (7, 0, 14), (8, 0, 14)):
        proportion = 1 if 1 <= s <= 3 else 0
        for value in (-1, LEAST):
            t.write({block(0) + word: value})
            t.call(standing(0, s, 60, [], proportion), number)
            t.call(variation(0, s, 60, [], 0, proportion), number)
        t.write({block(0) + word: 0})
        t.call(standing(0, s, 60 + word, [], proportion))
        t.write({block(0) + word: MOST})
        t.call(standing(0, s, 70 + word, [], proportion, (9999 if word == 7 else 0, 9999 if word == 8 else 0)))
    t.call(variation(0, 0, 60, [(i, 99999) for i in range(10)]))
    t.call(look_up(0, 0, 60), 0, 4, 999_990)
    t.call(variation(0, 4, 60, [(i, 99999) for i in range(5)]))
    t.call(total(4, 60), 0, 1, 499_995)
    t.words()


def limits_damaged(t):
    """Limits that exclude 0 make every blank draw 11; limits at the ends of a word let any price pass; below 0, ten pairs may."""
    t.open(1, 5)
    t.call(capability(0, GENERATION))
    t.write({11: 1})
    t.call(variation(0, 0, 60, [(4000, 7)]), 11)
    t.call(variation(0, 0, 60, [(i + 1, 7) for i in range(10)]))
    t.write({11: -10, 12: -1})
    t.call(variation(0, 0, 61, []), 11)
    t.call(variation(0, 0, 61, [(i - 10, 7) for i in range(10)]))
    t.call(variation(0, 0, 61, [(i - 11, 7) for i in range(10)]), 11)
    t.write({11: LEAST, 12: MOST})
    t.call(variation(0, 0, 62, [(LEAST, 7), (MOST, 8)]))
    t.call(variation(0, 0, 62, [(MOST, 7), (LEAST, 8)]), 13)
    t.call(look_up(0, 0, 62), 0, 4, 15)
    t.write({11: 5, 12: -5})
    t.call(variation(0, 0, 63, [(0, 7)]), 11)
    for s in (1, 2, 3, 4):
        t.write({12 + s: -1})
        t.call(variation(0, s, 60, [], 0, 1 if s < 4 else 0), 11)
        t.write({12 + s: MOST})
        t.call(variation(0, s, 60, [(MOST, 7)], 0, 1 if s < 4 else 0))
        t.call(variation(0, s, 60, [(-1, 7)], 0, 1 if s < 4 else 0), 11)
    t.words()


def reserved_words(t):
    """Head words 17 to 63 and words 19 to 31 of a facility are never tested nor written."""
    _energy_book(t, 7, F=2)
    t.write({i: -i for i in range(17, 64)})
    t.write({block(f) + i: MOST - i for f in (0, 1) for i in range(19, 32)})
    t.call(look_up(0, 0, 100), 0, 1, 70)
    t.call(capability(0, with_words(GENERATION, {1: 900})))
    t.call(capability(1, GENERATION))
    t.call(outage(0, 7, 1))
    t.call(clock(8))
    t.call(notice(3, 1, 2))
    t.call(withdrawal())
    t.call(standing(1, 0, 100, [(4000, 5)]))
    t.call(variation(0, 0, 100, [(4000, 6)]))
    t.call(total(0, 100), 0, 2, 11)
    t.words()


def held_words_are_shown(t):
    """Proportion, ramps and pairs of a cell are shown whatever the service uses, and so are they taken by the test for a duplicate."""
    t.open(1, 5)
    t.call(capability(0, GENERATION))
    for s in range(5):
        proportion = 1 if 1 <= s <= 3 else 0
        at = cell(1, 5, 0, s, 0, 60)
        t.call(standing(0, s, 60, [(1, 2)], proportion))
        t.call(standing(0, s, 60, [(1, 2)], proportion), 18)
        for i in (1, 2, 3, 22, 23):
            held = {1: proportion, 2: 0, 3: 0, 22: 0, 23: 0}[i]
            t.write({at + i: -7 - i})
            t.call(look_up(0, s, 60), 0, 1 if i == 3 else 3, 2 - (30 if i == 23 else 0))
            t.write({at + i: held})
            t.call(standing(0, s, 60, [(1, 2)], proportion), 18)
        t.write({at + 23: 1})
        t.call(standing(0, s, 60, [(1, 2)], proportion))
        t.call(standing(0, s, 60, [(1, 2)], proportion), 18)
        t.write({at + i: 1000 + i for i in range(1, 24)})
        t.call(look_up(0, s, 60), 0, 3, sum(1005 + 2 * i for i in range(10)))
    t.words()


def cells_without_a_kind(t):
    """Filled cells of a facility that has no kind: counted by totals, 5 for look-ups, and there again once it has a kind."""
    t.open(3, 5)
    for f, s, h, stamp in ((0, 2, 0, 1), (1, 2, 1, 61), (2, 2, 0, 1), (2, 2, 1, 61)):
        t.write({cell(3, 5, f, s, h, 60): stamp, **pairs_at(cell(3, 5, f, s, h, 60), [(3, 10 + f + h)])})
    t.call(total(2, 60), 0, 3, 10 + 12 + 13)
    for f in range(3):
        t.call(look_up(f, 2, 60), 5)
    t.call(capability(0, GENERATION))
    t.call(capability(2, LOAD))
    t.call(look_up(0, 2, 60), 0, 3, 10)
    t.call(look_up(2, 2, 60), 0, 4, 13)
    t.call(standing(0, 2, 60, [(3, 10)], 0), 15)
    t.call(standing(2, 2, 60, [(3, 12)], 0), 18)
    t.words()


def words_past_n(t):
    """A host's words past N, written by it between calls, are neither read nor written."""
    t.open(1, 1, past=50)
    t.call(capability(0, GENERATION))
    t.write({16224 + i: -1 for i in range(0, 50, 7)})
    t.call(standing(0, 0, 335, [(1, 5)]))
    t.call(variation(0, 0, 335, [(1, 6)]))
    t.call(look_up(0, 0, 335), 0, 4, 6)
    t.call(total(0, 335), 0, 1, 6)
    t.words()
