"""Number 15, the reserve proportion: 0, 1, its maximum and one more, by class and kind, for calls 3 and 4."""
from .form import GENERATION, LEAST, LOAD, MOST, block, capability, clock, look_up, notice, standing, total, variation, with_words

TRIED = (0, 1, 2, 500, 501, 1000, 1001, 256, 65535)


def _generation(t, s):
    """The class's own maximum decides; the other classes' are 1,000 where it is lower, else 0."""
    t.open(1, 5)
    slot = 48
    for maximum in (0, 1, 500, 1000):
        others = {i: 1000 if maximum < 1000 else 0 for i in (9, 10, 11)}
        t.call(capability(0, with_words(GENERATION, {**others, 8 + s: maximum})))
        for proportion in TRIED:
            t.call(standing(0, s, slot, [(1, 5)], proportion), 0 if 1 <= proportion <= maximum else 15)
            slot += 1
    t.call(look_up(0, s, slot - 4), 0, 3, 5)
    t.call(look_up(0, s, slot - 3), 19)
    for period, proportion in ((48, 0), (49, 1), (50, 1000), (51, 1001)):
        t.call(variation(0, s, period, [(1, 6)], 0, proportion), 0 if 1 <= proportion <= 1000 else 15)
    t.words()


def generation_proportion_primary(t):
    """Generation, primary reserve: the class's own maximum decides, at 1, 500 and 1,000, and at 0 none passes."""
    _generation(t, 1)


def generation_proportion_secondary(t):
    """Generation, secondary reserve: the class's own maximum decides, at 1, 500 and 1,000, and at 0 none passes."""
    _generation(t, 2)


def generation_proportion_contingency(t):
    """Generation, contingency reserve: the class's own maximum decides, at 1, 500 and 1,000, and at 0 none passes."""
    _generation(t, 3)


def load_proportion(t):
    """A load's proportion isn't tested: 0, 1, past every maximum and 65,535 are held and shown as they came."""
    t.open(1, 5)
    for maximum in (0, 500):
        t.call(capability(0, with_words(LOAD, {9: maximum, 10: maximum, 11: maximum})))
        for s in (1, 2, 3):
            for i, proportion in enumerate((0, 1, 501, 1001, 65535)):
                period = 50 + 10 * (maximum // 500) + i
                t.call((standing if i % 2 else variation)(0, s, period, [(1, 5)], proportion=proportion))
                t.call(look_up(0, s, period), 0, 3 if i % 2 else 4, 5)
    t.words()


def proportion_in_a_duplicate(t):
    """Standing offers that differ in the proportion alone: not equal, for generation and load."""
    t.open(2, 5)
    t.call(capability(0, GENERATION))
    t.call(capability(1, LOAD))
    for f in (0, 1):
        t.call(standing(f, 1, 60, [(1, 5)], 300))
        t.call(standing(f, 1, 60, [(1, 5)], 300), 18)
        t.call(standing(f, 1, 60, [(1, 5)], 301))
        t.call(standing(f, 1, 60, [(1, 5)], 300))
        t.call(standing(f, 1, 60, [(1, 5)], 0), 15 if f == 0 else 0)
        t.call(standing(f, 1, 60, [(1, 5)], 0), 15 if f == 0 else 18)
    t.words()


def blank_offer_needs_a_proportion(t):
    """An all-blank reserve offer of generation with proportion 0 draws 15; with 1 it passes, and a standing one is in force with sum 0."""
    t.open(1, 5)
    t.call(capability(0, GENERATION))
    for s in (1, 2, 3):
        t.call(standing(0, s, 60), 15)
        t.call(variation(0, s, 60), 15)
        t.call(variation(0, s, 60, [], 0, 1))
        t.call(look_up(0, s, 60), 19)
        t.call(standing(0, s, 60, [], 1))
        t.call(look_up(0, s, 60), 0, 3, 0)
        t.call(total(s, 60), 0, 1, 0)
    t.words()


def proportion_among_the_rest(t):
    """A reserve offer with everything wrong, mended one thing at a time: the numbers rise past 15."""
    t.open(1, 5)
    t.call(capability(0, with_words(GENERATION, {13: 0})))
    t.call(clock(30 * 60 - 64))
    high = 400001
    t.call(variation(0, 1, -1, [(high, 301), (7, 0), (5, 4)], 7), 9)
    t.call(capability(0, GENERATION))
    t.call(variation(0, 1, -1, [(high, 301), (7, 0), (5, 4)], 7), 10)
    t.call(variation(0, 1, 60, [(high, 301), (7, 0), (5, 4)], 7), 11)
    t.call(variation(0, 1, 60, [(high, 301), (7, 0), (5, 4)], 6), 11)
    t.call(variation(0, 1, 60, [(high - 1, 301), (7, 0), (5, 4)], 6), 12)
    t.call(variation(0, 1, 60, [(high - 1, 301), (0, 0), (5, 4)], 6), 12)
    t.call(variation(0, 1, 60, [(high - 1, 301), (5, 4)], 6), 13)
    t.call(variation(0, 1, 60, [(4, 301), (5, 4)], 6), 15)
    t.call(variation(0, 1, 60, [(4, 301), (5, 4)], 6, 501), 15)
    t.call(variation(0, 1, 60, [(4, 301), (5, 4)], 6, 500), 16)
    t.call(variation(0, 1, 60, [(4, 296), (5, 4)], 6, 500), 17)
    t.call(variation(0, 1, 60, [(4, 296), (5, 4)], 1, 500))
    t.call(look_up(0, 1, 60), 0, 4, 300)
    t.call(standing(0, 1, 60, [(4, 301)], 501), 15)
    t.call(standing(0, 1, 60, [(4, 301)], 500), 16)
    t.call(standing(0, 1, 60, [(4, 300)], 500))
    t.call(standing(0, 1, 60, [(4, 300)], 501), 15)
    t.call(standing(0, 1, 60, [(4, 300)], 500), 17)
    t.call(standing(0, 1, 60, [(4, 299)], 0), 15)
    t.words()


def proportion_where_unused(t):
    """Energy and regulation use no proportion: either byte set draws 4; reserve uses no ramp and five pairs."""
    t.open(2, 5)
    t.call(capability(0, GENERATION))
    for s in (0, 4):
        for proportion in (1, 255, 256, 65535):
            t.call(standing(0, s, 60, [(1, 5)], proportion), 4)
            t.call(variation(0, s, 60, [(1, 5)], 0, proportion), 4)
        t.call(standing(0, s, 60, [(1, 5)]))
    for s in (1, 2, 3, 4):
        proportion = 0 if s == 4 else 1
        t.call(standing(0, s, 61, [(1, 5)], proportion, (1, 0)), 4)
        t.call(standing(0, s, 61, [(1, 5)], proportion, (0, 1)), 4)
        t.call(standing(0, s, 61, {5: (1, 5)}, proportion), 4)
        t.call(standing(0, s, 61, {9: (0, 1)}, proportion), 4)
        t.call(standing(0, s, 61, [(i, 1) for i in range(5)], proportion))
    t.words()


def maximum_lowered(t):
    """A capability that lowers the maximum leaves held offers in force; the same filed again draws 15."""
    t.open(1, 5)
    t.call(capability(0, GENERATION))
    t.call(standing(0, 2, 60, [(1, 5)], 600))
    t.call(variation(0, 2, 61, [(1, 5)], 0, 600))
    t.call(capability(0, with_words(GENERATION, {10: 599})))
    t.call(look_up(0, 2, 60), 0, 3, 5)
    t.call(look_up(0, 2, 61), 0, 4, 5)
    t.call(standing(0, 2, 60, [(1, 5)], 600), 15)
    t.call(variation(0, 2, 61, [(1, 5)], 0, 600), 15)
    t.call(standing(0, 2, 60, [(1, 5)], 599))
    t.call(capability(0, with_words(GENERATION, {10: 0})))
    t.call(standing(0, 2, 60, [(1, 5)], 1), 15)
    t.call(look_up(0, 2, 60), 0, 3, 5)
    t.words()


def maximum_damaged(t):
    """Maxima that only a damaged book holds: below 0 nothing passes; past 65,535 all but 0 does."""
    t.open(1, 5)
    t.call(capability(0, GENERATION))
    slot = 60
    for maximum in (-1, LEAST, 1001, 65534, MOST):
        t.write({block(0) + 8 + s: maximum for s in (1, 2, 3)})
        for s in (1, 2, 3):
            for proportion in (0, 1, 1001, 65535):
                t.call(standing(0, s, slot, [(1, 5)], proportion), 0 if 1 <= proportion <= maximum else 15)
                slot = 60 + (slot - 59) % 200
    t.words()


def proportion_inside_the_gate(t):
    """The gate compares totals and prices: a variation inside it may change the proportion alone, with a reason."""
    t.open(2, 5)
    t.call(capability(0, GENERATION))
    t.call(capability(1, LOAD))
    t.call(standing(0, 1, 60, [(1, 5)], 300))
    t.call(standing(1, 1, 60, [(1, 5)], 300))
    t.call(clock(30 * 60 - 30))
    t.call(variation(0, 1, 60, [(1, 5)], 0, 400), 17)
    t.call(variation(0, 1, 60, [(1, 5)], 1, 501), 15)
    t.call(variation(0, 1, 60, [(1, 5)], 1, 500))
    t.call(look_up(0, 1, 60), 0, 4, 5)
    t.call(variation(1, 1, 60, [(1, 5)], 1, 400), 17)
    t.call(variation(1, 1, 60, [(1, 5)], 6, 400), 17)
    t.call(notice(4, 60, 60))
    t.call(variation(1, 1, 60, [(1, 5)], 4, 400), 17)
    t.call(variation(1, 1, 60, [(1, 6)], 4, 65535))
    t.words()
