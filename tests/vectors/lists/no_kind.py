"""Number 5 for each call that draws it (3, 4, 5, 8), before any capability and from kinds that only a damaged book holds."""
from .form import GENERATION, LEAST, LINK, LOAD, MOST, block, capability, clock, look_up, outage, standing, total, variation, with_bytes, with_words


def _four(t, f, number=5, s=0):
    t.call(standing(f, s, 100, [(4000, 70)]), number)
    t.call(variation(f, s, 100, [(4000, 70)]), number)
    t.call(outage(f, 0, 1), number)
    t.call(look_up(f, s, 100), number)


def none_yet(t):
    """Before any capability, calls 3, 4, 5 and 8 draw 5 for each facility and service; a total draws none."""
    t.open(3, 5)
    for f in range(3):
        for s in range(5):
            _four(t, f, s=s)
    for s in range(5):
        t.call(total(s, 100))
    t.words()


def five_ahead_of_the_rest(t):
    """Without a kind, calls that would draw 7, 10, 11, 12, 13, 14, 15, 16, 17 or 19 draw 5."""
    t.open(1, 5)
    t.call(clock(50))
    for r in (outage(0, -1, 1), outage(0, 51, 1), outage(0, 0, 0), outage(0, 0, 49), outage(0, MOST, MOST), outage(0, LEAST, LEAST), standing(0, 0, 336),
              standing(0, 0, -1), variation(0, 0, 0), variation(0, 0, MOST), variation(0, 0, 100, reason=7), standing(0, 0, 1, [(4000, -1)]),
              standing(0, 0, 1, [(450001, 1)]), standing(0, 0, 1, [(1, 0)]), standing(0, 0, 1, [(2, 1), (1, 1)]), standing(0, 0, 1, [], ramps=(-1, -1)),
              standing(0, 1, 1, []), variation(0, 0, 2, [(1, 1)]), look_up(0, 0, 0), look_up(0, 0, -1), look_up(0, 0, MOST), look_up(0, 4, 100)):
        t.call(r, 5)
    t.words()


def lower_numbers_ahead_of_five(t):
    """Without a kind, 2, 3 and 4 still come first."""
    t.open(2, 5)
    for r in (standing(1, 0, 4), variation(1, 1, 4), outage(1, 0, 1), look_up(1, 2, 4)):
        t.call(r[:111], 2)
        t.call(with_bytes(r, {4: 2}), 2)
        t.call(with_bytes(r, {6: 2}), 3)
        t.call(with_bytes(r, {13: 1}), 4)
        t.call(with_bytes(r, {6: 2, 13: 1}), 3)
        t.call(r, 5)
    t.call(look_up(1, 5, 4), 3)
    t.call(with_bytes(outage(1, 0, 1), {7: 1}), 4)
    t.words()


def outage_without_a_kind(t):
    """An outage draws 5 before the facility's capability and after it what its minute and count draw; another facility's capability does nothing."""
    t.open(3, 1)
    t.call(clock(90))
    for minute, count in ((0, 1), (90, 3), (90, 48), (91, 1), (-1, 1), (0, 0)):
        t.call(outage(1, minute, count), 5)
    t.call(capability(0, GENERATION))
    t.call(outage(1, 0, 1), 5)
    t.call(outage(2, 0, 1), 5)
    t.call(outage(0, 0, 1))
    t.call(capability(1, with_words(LOAD, {})))
    t.call(capability(2, GENERATION))
    for f, minute, count, number in ((1, 0, 1, 0), (1, 90, 48, 0), (1, 90, 49, 7), (1, 91, 1, 7), (1, -1, 1, 7), (1, 0, 0, 7), (1, 0, 4, 0),
                                     (2, 90, 3, 0), (2, 90, 4, 7), (2, 0, 1, 0), (2, 90, 0, 7), (2, 90, -1, 7), (2, 89, 1, 0)):
        t.call(outage(f, minute, count), number)
    t.words()


def capability_refused_leaves_no_kind(t):
    """A capability that draws 8 gives no kind: calls after it still draw 5."""
    t.open(1, 5)
    for changes in ({0: 0}, {0: 4}, {0: -1}, {1: 100_000}, {16: 2}):
        t.call(capability(0, with_words(GENERATION, changes)), 8)
        _four(t, 0)
    t.call(capability(0, with_words(LOAD, {12: 1})), 8)
    _four(t, 0)
    t.call(capability(0, GENERATION))
    t.call(look_up(0, 0, 100), 19)
    t.words()


def kinds_only_a_damaged_book_holds(t):
    """Kinds 0, 4, -1, 2^31 - 1 and others draw 5 from each of the four calls; a total still counts the offers."""
    t.open(2, 5)
    t.call(capability(0, GENERATION))
    t.call(capability(1, LOAD))
    t.call(standing(0, 0, 100, [(4000, 70)]))
    t.call(standing(1, 1, 100, [(4000, 7)]))
    for kind in (0, 4, -1, MOST, LEAST, 5, 7, 255, 257, 258, 259, 65537, 1 << 24, -2):
        t.write({block(0): kind})
        _four(t, 0)
        t.call(total(0, 100), 0, 1, 70)
    t.words()
    t.write({block(0): 1})
    t.call(look_up(0, 0, 100), 0, 3, 70)
    for kind in (0, 4, -1, MOST):
        t.write({block(1): kind})
        _four(t, 1, s=1)
        t.call(total(1, 100), 0, 1, 7)
        t.call(look_up(0, 0, 100), 0, 3, 70)
    t.words()


def a_damaged_kind_is_not_held(t):
    """Over a kind that is none of 1, 2 and 3, a capability of any kind is accepted, and then held."""
    t.open(2, 5)
    t.call(capability(0, GENERATION))
    t.call(capability(0, LOAD), 8)
    for kind, filed, other in ((4, LOAD, GENERATION), (0, GENERATION, LOAD), (-1, LOAD, LINK), (MOST, LINK, LOAD), (LEAST, LOAD, GENERATION), (259, LINK, GENERATION)):
        t.write({block(0): kind})
        t.call(capability(0, with_words(filed, {0: 4})), 8)
        t.call(capability(0, filed))
        t.call(capability(0, other), 8)
        t.call(look_up(0, 1, 100), 19)
        t.words()


def kind_turned_by_the_host(t):
    """Generation made load in the words: outages of 48, reason 6 and no proportion test, on the marks that are there."""
    t.open(1, 5)
    t.call(capability(0, GENERATION))
    t.call(clock(100))
    t.call(outage(0, 100, 4), 7)
    t.write({block(0): 2})
    t.call(outage(0, 100, 48))
    t.call(outage(0, 100, 49), 7)
    t.call(standing(0, 1, 4, [(1, 5)]))
    t.call(variation(0, 0, 5, [(1, 5)], 1), 17)
    t.call(variation(0, 0, 5, [(1, 5)], 2), 17)
    t.call(variation(0, 0, 5, [(1, 5)], 6))
    t.call(capability(0, GENERATION), 8)
    t.write({block(0): 1})
    t.call(variation(0, 0, 5, [(1, 6)], 6), 17)
    t.call(variation(0, 0, 5, [(1, 6)], 2))
    t.call(standing(0, 1, 7, [(1, 5)]), 15)
    t.call(look_up(0, 0, 5), 0, 4, 6)
    t.words()


def one_facility_of_many(t):
    """In a book of seven only facility 3 has a kind: its neighbours draw 5."""
    t.open(7, 1)
    t.call(capability(3, GENERATION))
    for f in range(7):
        _four(t, f, 5) if f != 3 else t.call(look_up(3, 0, 100), 19)
    t.call(standing(3, 0, 100, [(1, 1)]))
    t.call(total(0, 100), 0, 1, 1)
    t.words()
