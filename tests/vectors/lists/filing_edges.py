"""Numbers 6 to 16 and 18 at their edges, on sound books: clock, notices, outages, capabilities, and what an offer may hold."""
from .form import (GENERATION, LEAST, LOAD, MOST, both, capability, clock, look_up, notice, outage, standing, total, variation, with_bytes, with_words,
                   withdrawal)

LARGE = (1, 99999, 99999, 99999, 99999, 99999, 99999, 9999, 9999, 1000, 1000, 1000, 1, 1, 1, 1, 1)


def clock_edges(t):
    """The clock at the same minute, one less, one more, its last minute, past it, and words of either sign."""
    t.open(1, 1)
    for minute, number in ((0, 0), (-1, 6), (LEAST, 6), (1_000_000_001, 6), (MOST, 6), (1, 0), (0, 6), (1, 0), (100, 0), (99, 6), (100, 0), (999_999_999, 0),
                           (1_000_000_001, 6), (1_000_000_000, 0), (999_999_999, 6), (1_000_000_000, 0), (1_000_000_001, 6), (0, 6), (-1, 6)):
        t.call(clock(minute), number)
    t.words()


def last_minute(t):
    """A sound book at minute 1,000,000,000: the last periods of all are filed for, looked up and totalled."""
    t.open(2, 5, past=1)
    t.call(capability(0, GENERATION))
    t.call(capability(1, LOAD))
    t.call(clock(1_000_000_000))
    # period 33,333,334 starts 20 minutes on; 33,333,647 is the horizon's last; their slots are 190 and 167
    for period, number in ((33_333_333, 10), (33_333_334, 17), (33_333_335, 17), (33_333_336, 0), (33_333_647, 0), (33_333_648, 10), (40_000_000, 10)):
        t.call(variation(0, 0, period, [(5, 6)]), number)
    t.call(look_up(0, 0, 33_333_647), 0, 4, 6)
    t.call(look_up(0, 0, 33_333_334), 19)
    t.call(standing(0, 0, 33_333_334 % 336, [(5, 7)]))
    t.call(look_up(0, 0, 33_333_334), 0, 3, 7)
    t.call(standing(0, 0, 33_333_334 % 336, [(5, 8)]), 17)
    t.call(standing(0, 0, 33_333_333 % 336, [(5, 8)]))
    t.call(standing(0, 0, 33_333_333 % 336, [(5, 9)]))
    t.call(outage(1, 1_000_000_000, 48))
    t.call(variation(1, 1, 33_333_335, [(5, 6)], 6))
    t.call(notice(5, 40_000_000, 40_000_000))
    t.call(total(0, 33_333_647), 0, 1, 6)
    t.call(total(1, 33_333_335), 0, 1, 6)
    t.words()


def notice_edges(t):
    """Notices by kind, first and last at 0 and 40,000,000 and past them, first above last; withdrawals of each reason."""
    t.open(1, 1)
    for first, last, number in ((0, 0, 0), (0, 40_000_000, 0), (40_000_000, 40_000_000, 0), (0, 40_000_001, 7), (40_000_001, 40_000_001, 7), (-1, 0, 7),
                                (-1, -1, 7), (LEAST, MOST, 7), (0, MOST, 7), (LEAST, 0, 7), (1, 0, 7), (5, 4, 7), (5, 5, 0), (5, 6, 0)):
        for kind in (3, 4, 5):
            t.call(notice(kind, first, last), number)
    for kind in (0, 1, 2, 6, 7, 255):
        t.call(notice(kind, 1, 2), 7)
        t.call(withdrawal(kind), 7)
    t.call(withdrawal(3), 7)
    t.call(withdrawal(4), 7)
    t.words()
    t.call(withdrawal(5))
    t.words()
    t.call(withdrawal(5))
    t.words()


def outage_edges(t):
    """Outages with the minute at 0, now and past it, and the count at 0, 1, 3, 4, 48 and 49, by kind; each accepted one replaces the last."""
    t.open(2, 1)
    t.call(capability(0, GENERATION))
    t.call(capability(1, LOAD))
    t.call(outage(0, 0, 1))
    t.call(outage(0, 1, 1), 7)
    t.call(clock(3000))
    for minute, count in ((0, 1), (3000, 1), (3001, 1), (-1, 1), (LEAST, 1), (MOST, 1), (3000, 3), (3000, 4), (3000, 0), (3000, -1), (3000, 48), (3000, 49),
                          (3000, MOST), (3000, LEAST), (29, 2), (30, 2), (2999, 2)):
        for f, most in ((0, 3), (1, 48)):
            t.call(outage(f, minute, count), 0 if 0 <= minute <= 3000 and 1 <= count <= most else 7)
        t.words()


def capability_words(t):
    """Each of W1 to W16 below its range, at both ends and past it."""
    t.open(1, 5)
    for i in range(1, 17):
        most = 99999 if i <= 6 else 9999 if i <= 8 else 1000 if i <= 11 else 1
        for value in (-1, 0, most, most + 1) + ((LEAST, MOST) if i in (1, 8, 11, 16) else ()):
            t.call(capability(0, with_words(GENERATION, {i: value})), 0 if 0 <= value <= most else 8)
    t.call(capability(0, LARGE))
    t.call(capability(0, [1] + [0] * 16))
    t.words()


def capability_kinds(t):
    """Kinds other than 1, 2 and 3, another kind than the held one, and the marks that a load may not set."""
    t.open(3, 5)
    for kind in (0, 4, 5, -1, 257, 258, 259, LEAST, MOST):
        t.call(capability(0, with_words(GENERATION, {0: kind})), 8)
    t.call(capability(0, GENERATION))
    t.call(capability(0, LOAD), 8)
    t.call(capability(0, GENERATION))
    t.call(capability(1, with_words(LOAD, {12: 1})), 8)
    t.call(capability(1, with_words(LOAD, {16: 1})), 8)
    t.call(capability(1, with_words(LOAD, {12: 1, 16: 1})), 8)
    t.call(capability(1, with_words(LOAD, {12: 2})), 8)
    t.call(capability(1, LOAD))
    t.call(capability(1, GENERATION), 8)
    t.call(capability(1, with_words(LARGE, {0: 2, 12: 0, 16: 0})))
    t.call(capability(2, with_words(GENERATION, {12: 0, 13: 0, 14: 0, 15: 0, 16: 0})))
    t.words()


def marks_by_service(t):
    """Each service with its mark alone set: the others draw 9, ahead of 10; a look-up and a total ask for no mark."""
    t.open(2, 5)
    for s in range(5):
        t.call(capability(0, with_words(GENERATION, {12 + k: int(k == s) for k in range(5)})))
        for k in range(5):
            proportion = 1 if 1 <= k <= 3 else 0
            both(t, 0, k, 60 + s, [(1, 2)], 0 if k == s else 9, proportion=proportion)
            if k != s:
                t.call(standing(0, k, 336, [(1, 2)], proportion), 9)
            t.call(look_up(0, k, 60 + s), *((0, 4, 2) if k == s else (19,)))
    t.call(look_up(0, 0, 60), 0, 4, 2)
    t.call(capability(1, LOAD))
    for s, number in ((0, 9), (1, 0), (2, 0), (3, 0), (4, 9)):
        both(t, 1, s, 60, [(1, 2)], number)
    t.words()


def slots_and_periods(t):
    """Slots at 0, 335, -1 and 336; periods begun, at the horizon and past it, on the first and the last minute of a day."""
    t.open(1, 1)
    t.call(capability(0, GENERATION))
    for slot, number in ((0, 0), (335, 0), (-1, 10), (336, 10), (LEAST, 10), (MOST, 10)):
        t.call(standing(0, 0, slot, [(1, 2)]), number)
    for now in (0, 29, 30, 1439, 1440, 10080):
        t.call(clock(now))
        begun, end = now // 30, 48 * (now // 1440 + 7)
        for period, number in ((begun, 10), (begun + 1, None), (end - 1, None), (end, 10)):
            held = period % 336 in (0, 335)
            t.call(look_up(0, 0, period), *((number,) if number else (0, 3 if now == 0 else 1, 2) if held else (19,)))
            t.call(total(0, period), *((number,) if number else (0, 1, 2) if held else (0, 0, 0)))
            if number:
                t.call(variation(0, 0, period, [(1, 3)]), number)
    for period in (-1, LEAST, MOST, 71_582_789, 143_165_577):  # 30·P is past 32 bits for the last three
        t.call(look_up(0, 0, period), 10)
        t.call(total(0, period), 10)
        t.call(variation(0, 0, period, [(1, 3)]), 10)
    t.words()


def reason_byte(t):
    """Gate open, the reason of a variation, of a standing offer over a held one and of a first one: 0 to 6 pass, 7 and above draw 11."""
    t.open(1, 5)
    t.call(capability(0, GENERATION))
    for s in (0, 4):
        t.call(standing(0, s, 60, [(1, 3)]))
        for i, reason in enumerate((0, 1, 2, 3, 4, 5, 6, 7, 8, 127, 128, 255)):
            number = 0 if reason <= 6 else 11
            t.call(variation(0, s, 60, [(1, 2)], reason), number)
            t.call(standing(0, s, 60, [(1, 4 + i)], reason=reason), number)
            t.call(standing(0, s, 70 + i, [(1, 3)], reason=reason), number)
    t.words()


def prices_at_the_limits(t):
    """Prices at each service's lowest and highest and one past, in the first and the last pair, where the lowest is no rise; limits are the opening's."""
    t.open(1, 5, (-7, 20, 21, 22, 23, 24))
    t.call(capability(0, LARGE))
    for s in range(5):
        lowest, highest = (-7 if s == 0 else 0), 20 + s
        more = {'proportion': 1} if 1 <= s <= 3 else {}
        before = [(lowest + i, 1) for i in range(9 if s == 0 else 4)]
        for i, (price, number) in enumerate(((lowest, 0), (highest, 0), (lowest - 1, 11), (highest + 1, 11), (LEAST, 11), (MOST, 11))):
            t.call(standing(0, s, 60 + i, [(price, 1)], **more), number)
            t.call(variation(0, s, 80 + i, before + [(price, 1)], **more), 13 if price == lowest else number)
    t.words()


def limits_all_zero(t):
    """Every limit 0: an offer can only be at price 0."""
    t.open(1, 5, (0,) * 6)
    t.call(capability(0, LARGE))
    for s in range(5):
        more = {'proportion': 1} if 1 <= s <= 3 else {}
        both(t, 0, s, 60, [(0, 5)], 0, **more)
        both(t, 0, s, 61, [(1, 5)], 11, **more)
        both(t, 0, s, 61, [(-1, 5)], 11, **more)
        both(t, 0, s, 61, [(0, 5), (0, 5)], 13, **more)
        both(t, 0, s, 61, [(0, 0)], 0, **more)
    t.words()


def quantities_at_the_edge(t):
    """Quantities 0, 1, 99,999, 100,000 and below 0, in the first and the last place; a blank with a price past the limits is 11, not 12."""
    t.open(1, 5)
    t.call(capability(0, LARGE))
    for s, pairs in ((0, 10), (1, 5), (4, 5)):
        more = {'proportion': 1} if s == 1 else {}
        for before in ([], [(i - pairs if s == 0 else i, 1) for i in range(pairs - 1)]):
            t.call(variation(0, s, 60, before + [(5, 99999 - len(before))], **more))
            t.call(variation(0, s, 61, before + [(5, 99999)], **more), 16 if before else 0)
            t.call(variation(0, s, 61, before + [(5, 100000)], **more), 11)
            t.call(variation(0, s, 61, before + [(5, -1)], **more), 11)
            t.call(variation(0, s, 61, before + [(5, 0)], **more), 12)
            t.call(variation(0, s, 61, before + [(500000, 0)], **more), 11)
        t.call(variation(0, s, 61, [(5, LEAST)], **more), 11)
        t.call(variation(0, s, 61, [(5, MOST)], **more), 11)
    t.words()


def prices_rise(t):
    """Rising, equal and falling prices, alone and with blanks after them; with a blank before or between them 12, whether they rise or not."""
    t.open(1, 5)
    t.call(capability(0, LARGE))
    slot = 60
    for pairs, number in (([(-2, 1), (-1, 1), (0, 1), (1, 1)], 0), ([(1, 1), (1, 1)], 13), ([(2, 1), (1, 1)], 13), ([(1, 1), None, (1, 1)], 12),
                          ([(1, 1), None, None, (2, 1)], 12), ([None, (5, 1), None, (4, 1)], 12), ({0: (5, 1), 9: (4, 1)}, 12), ({0: (5, 1), 9: (5, 1)}, 12),
                          ({0: (5, 1), 9: (6, 1)}, 12), ({8: (5, 1), 9: (5, 1)}, 12), ({8: (5, 1), 9: (6, 1)}, 12), ([(100, 1), None], 0), ([(-1, 5), None, (1, 5)], 12),
                          ([(-5, 1), None, (-6, 1)], 12), ([(-5, 1), (-6, 1)], 13), ([(-6, 1), (-5, 1), None], 0), ([(0, 1), (0, 1), None], 13), ([(0, 1), (-1, 1)], 13),
                          ([(i, 1) for i in range(10)], 0), ([(9 - i, 1) for i in range(10)], 13), ([(i if i < 9 else 8, 1) for i in range(10)], 13)):
        both(t, 0, 0, slot, pairs, number)
        slot += 1
    t.call(look_up(0, 0, 60), 0, 4, 4)
    t.words()


def ramps(t):
    """Energy ramps at 0, their maximum and one past, up and down apart, for maxima 0, 40, 50 and 9,999."""
    t.open(1, 1)
    slot = 60
    for up_most, down_most in ((50, 40), (0, 0), (9999, 0), (0, 9999)):
        t.call(capability(0, with_words(GENERATION, {7: up_most, 8: down_most})))
        for up, down in ((0, 0), (up_most, down_most), (up_most + 1, 0), (0, down_most + 1), (-1, 0), (0, -1), (up_most, 0), (0, down_most), (LEAST, 0), (0, MOST)):
            number = 0 if 0 <= up <= up_most and 0 <= down <= down_most else 14
            t.call((standing if slot % 2 else variation)(0, 0, slot, [(1, 2)], ramps=(up, down)), number)
            slot += 1
    t.words()


def totals_at_the_maxima(t):
    """The total at generation and combined maximum, at each reserve maximum and at regulation's, and one past."""
    t.open(2, 5)
    slot = 60
    for one, two in ((1300, 800), (800, 1300), (800, 800), (0, 800), (800, 0)):
        t.call(capability(0, with_words(GENERATION, {1: one, 2: two})))
        most = min(one, two)
        for pairs, number in (([(1, most)], 0), ([(1, most + 1)], 16), ([(1, most // 2), (2, most - most // 2 + 1)], 16)):
            both(t, 0, 0, slot, [p for p in pairs if p[1]], number)
            slot += 1
    t.call(capability(0, GENERATION))
    t.call(capability(1, LOAD))
    for f in (0, 1):
        for s, most in ((1, 300), (2, 310), (3, 320)):
            both(t, f, s, slot, [(1, most)], 0, proportion=1)
            both(t, f, s, slot + 1, [(1, most + 1)], 16, proportion=1)
            both(t, f, s, slot + 1, [(1, 1), (2, 1), (3, 1), (4, 1), (5, most - 3)], 16, proportion=1)
            both(t, f, s, slot + 2, [(1, 1), (2, 1), (3, 1), (4, 1), (5, most - 4)], 0, proportion=1)
    both(t, 0, 4, slot, [(1, 200)], 0)
    both(t, 0, 4, slot + 1, [(1, 201)], 16)
    t.call(capability(0, LARGE))
    both(t, 0, 0, slot + 5, [(i, 9999) for i in range(9)] + [(9, 9999 + 9)], 0)
    both(t, 0, 0, slot + 6, [(i, 9999) for i in range(9)] + [(9, 9999 + 10)], 16)
    both(t, 0, 0, slot + 6, [(i, 99999) for i in range(10)], 16)
    t.words()


def combined_maximum(t):
    """The combined maximum is held against energy's own total: reserve and regulation of the same period neither add to it nor are tested by it."""
    t.open(1, 5)
    t.call(capability(0, GENERATION))
    both(t, 0, 0, 60, [(1, 800)], 0)
    for s, most in ((1, 300), (2, 310), (3, 320)):
        both(t, 0, s, 60, [(1, most)], 0, proportion=1)
    both(t, 0, 4, 60, [(1, 200)], 0)
    both(t, 0, 0, 60, [(2, 800)], 0)
    t.call(capability(0, with_words(GENERATION, {2: 0})))
    both(t, 0, 0, 61, [(1, 1)], 16)
    both(t, 0, 1, 61, [(1, 300)], 0, proportion=1)
    both(t, 0, 4, 61, [(1, 200)], 0)
    t.words()


def energy_offer_mended(t):
    """An energy offer with everything wrong, mended one thing at a time: the numbers rise from 2 to 0, standing offer and variation."""
    worst, apart, fallen, high, good = [(450001, 801), (7, 0), (5, 4)], [(6, 801), None, (5, 4)], [(6, 801), (5, 4)], [(4, 801), (5, 4)], [(4, 796), (5, 4)]
    for offer in (standing, variation):
        t.open(1, 1)
        t.call(clock(30 * 60 - 64))
        r = offer(0, 0, -1, worst, ramps=(51, 0), reason=7)
        t.call(with_bytes(r, {0: 0, 6: 1, 13: 1}), 2)
        t.call(with_bytes(r, {6: 1, 13: 1}), 3)
        t.call(with_bytes(r, {13: 1}), 4)
        t.call(r, 5)
        t.call(capability(0, with_words(GENERATION, {12: 0})))
        t.call(r, 9)
        t.call(capability(0, GENERATION))
        t.call(r, 10)
        t.call(offer(0, 0, 60, worst, ramps=(51, 0), reason=7), 11)
        t.call(offer(0, 0, 60, [(4, 801), (7, 0), (5, 4)], ramps=(51, 0), reason=7), 11)
        t.call(offer(0, 0, 60, worst, ramps=(51, 0)), 11)
        t.call(offer(0, 0, 60, [(6, 801), (7, 0), (5, 4)], ramps=(51, 0)), 12)
        t.call(offer(0, 0, 60, apart, ramps=(51, 0)), 12)
        t.call(offer(0, 0, 60, fallen, ramps=(51, 0)), 13)
        t.call(offer(0, 0, 60, high, ramps=(51, 0)), 14)
        t.call(offer(0, 0, 60, high, ramps=(50, 41)), 14)
        t.call(offer(0, 0, 60, high, ramps=(50, 40)), 16)
        t.call(offer(0, 0, 60, good, ramps=(50, 40)), 17 if offer is variation else 0)
        if offer is variation:
            t.call(variation(0, 0, 60, good, 1, ramps=(50, 40)))
            t.call(look_up(0, 0, 60), 0, 4, 800)
        else:
            t.call(standing(0, 0, 60, good, ramps=(50, 40)), 17)
            t.call(standing(0, 0, 60, good, ramps=(50, 40), reason=1), 18)
            t.call(clock(30 * 60))
            t.call(standing(0, 0, 60, good, ramps=(50, 40)), 18)
        t.words()


def duplicates(t):
    """A standing offer equal to the held one but for one field is accepted; equal in all it draws 18; with a blank before one of its pairs 12."""
    t.open(2, 5)
    for f in (0, 1):
        t.call(capability(f, GENERATION))
    first = standing(0, 0, 60, [(4, 5), (6, 7)], ramps=(1, 2))
    t.call(first)
    t.call(first, 18)
    for other in (standing(0, 0, 60, [(4, 5), (6, 8)], ramps=(1, 2)), standing(0, 0, 60, [(4, 5), (7, 7)], ramps=(1, 2)), standing(0, 0, 60, [(3, 5), (6, 7)], ramps=(1, 2)),
                  standing(0, 0, 60, [(4, 5), (6, 7)], ramps=(0, 2)), standing(0, 0, 60, [(4, 5), (6, 7)], ramps=(1, 1)), standing(0, 0, 60, [(4, 5)], ramps=(1, 2)),
                  standing(0, 0, 60, [(4, 5), (6, 7), (7, 1)], ramps=(1, 2)), standing(0, 0, 60)):
        t.call(other)
        t.call(other, 18)
        t.call(first)
        t.call(first, 18)
    for pairs in ([(4, 5), None, (6, 7)], [None, (4, 5), (6, 7)], {0: (4, 5), 9: (6, 7)}):
        t.call(standing(0, 0, 60, pairs, ramps=(1, 2)), 12)
        t.call(first, 18)
    t.call(standing(0, 0, 61, [(4, 5), (6, 7)], ramps=(1, 2)))
    t.call(standing(1, 0, 60, [(4, 5), (6, 7)], ramps=(1, 2)))
    t.call(standing(0, 4, 60, [(4, 5), (6, 7)]))
    t.call(standing(0, 4, 60, [(4, 5), (6, 7)]), 18)
    t.call(variation(0, 0, 60, [(4, 5), (6, 7)], ramps=(1, 2)))
    t.call(variation(0, 0, 60, [(4, 5), (6, 7)], ramps=(1, 2)))
    t.call(first, 18)
    t.words()
