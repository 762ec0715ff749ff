"""The import link, kind 3: its capability, outages and offers by service, the reasons open to it, readings, and damaged books; beside generation and load."""
from .form import (GENERATION, LEAST, LINK, LOAD, MOST, block, both, capability, cell, clock, filler, look_up, notice, notices, notices_over_100, outage,
                   pairs_at, standing, total, variation, with_bytes, with_words)

BARE = (0,) * 17  # no kind, no maximum, no mark


# ---- capability

def every_set_of_marks(t):
    """Each of the 32 sets of marks, over no kind and over the kind held: a link may have the mark for energy or none, a load those for reserve."""
    t.open(4, 5)
    t.call(capability(3, LINK))
    for marks in range(32):
        set_marks = {12 + s: marks >> s & 1 for s in range(5)}
        for f, kind, number in ((0, 3, 0 if marks in (0, 1) else 8), (1, 2, 0 if marks & 17 == 0 else 8), (2, 1, 0), (3, 3, 0 if marks in (0, 1) else 8)):
            t.call(capability(f, with_words(BARE, {0: kind, **set_marks})), number)
    t.words()


def marks_past_one(t):
    """Marks of a link other than 0 and 1 draw 8 for each service, the first too."""
    t.open(1, 5)
    for s in range(5):
        for mark in (2, -1, 257, LEAST, MOST):
            t.call(capability(0, with_words(LINK, {12 + s: mark})), 8)
    t.call(look_up(0, 0, 100), 5)
    t.call(capability(0, LINK))
    t.words()


def other_fields_of_a_link(t):
    """W1 to W11 of a link have the ranges of any facility's, reserve and regulation maxima and proportions too, whatever it may offer."""
    t.open(1, 5)
    for i in range(1, 12):
        most = 99999 if i <= 6 else 9999 if i <= 8 else 1000
        for value in (-1, 0, most, most + 1, LEAST, MOST):
            t.call(capability(0, with_words(LINK, {i: value})), 0 if 0 <= value <= most else 8)
    t.call(capability(0, [3] + [99999] * 6 + [9999] * 2 + [1000] * 3 + [1, 0, 0, 0, 0]))
    t.call(capability(0, [3] + [0] * 16))
    t.words()


def each_kind_over_each(t):
    """A held kind stays: of 1, 2 and 3 over 1, 2 and 3 only the same is accepted, and kinds such as 0, 4 and -1 never are, over none either."""
    t.open(3, 5)
    for f, held in enumerate((1, 2, 3)):
        for kind in (0, 4, 5, -1, 259, LEAST, MOST):
            for words in (BARE, LINK, LOAD, GENERATION):
                t.call(capability(f, with_words(words, {0: kind})), 8)
            t.call(look_up(f, 0, 100), 5)
        t.call(capability(f, with_words(BARE, {0: held})))
        for kind in (1, 2, 3, 0, 4, -1, 259, LEAST, MOST):
            t.call(capability(f, with_words(BARE, {0: kind, 1: 7})), 0 if kind == held else 8)
        t.call(look_up(f, 0, 100), 19)
    t.words()


def one_service_book(t):
    """With S = 1 the marks for services 1 to 4 are tested all the same, and those services draw 3."""
    t.open(2, 1)
    for s in range(1, 5):
        t.call(capability(0, with_words(LINK, {12 + s: 1})), 8)
    t.call(capability(0, LINK))
    both(t, 0, 0, 60, [(1, 5)], 0)
    for s in range(1, 5):
        both(t, 0, s, 60, [(1, 5)], 3, proportion=filler(s))
        t.call(look_up(0, s, 60), 3)
    t.call(look_up(0, 0, 60), 0, 4, 5)
    t.words()


# ---- outages

def outages_of_a_link(t):
    """An outage of a link draws 7 at good and bad minutes and counts; without a kind it draws 5; generation and load have theirs."""
    t.open(4, 1)
    for f, w in enumerate((LINK, GENERATION, LOAD)):
        t.call(capability(f, w))
    for f in (0, 3):
        t.call(outage(f, 0, 1), 7 if f == 0 else 5)
    t.call(clock(3000))
    t.words('no outage')
    for minute in (0, 29, 2999, 3000, 3001, -1, LEAST, MOST):
        for count in (1, 2, 3, 4, 48, 49, 0, -1, LEAST, MOST):
            t.call(outage(0, minute, count), 7)
            t.call(outage(3, minute, count), 5)
    t.words('no outage')
    for minute, count in ((3000, 3), (3000, 4), (3000, 48), (3000, 49), (3001, 1), (3000, 0)):
        t.call(outage(1, minute, count), 0 if minute <= 3000 and 1 <= count <= 3 else 7)
        t.call(outage(2, minute, count), 0 if minute <= 3000 and 1 <= count <= 48 else 7)
    t.words()


def lower_numbers_ahead_of_seven(t):
    """Of a link's outage 2, 3 and 4 come first."""
    t.open(1, 1)
    t.call(capability(0, LINK))
    r = outage(0, 0, 1)
    t.call(r[:111], 2)
    t.call(with_bytes(r, {6: 1}), 3)
    t.call(with_bytes(r, {7: 1}), 4)
    t.call(with_bytes(r, {111: 1}), 4)
    t.call(r, 7)
    t.words()


# ---- offers

def offers_by_service(t):
    """A link's offers for services 1 to 4 draw 9, for energy they are accepted; with no mark all five draw 9."""
    t.open(2, 5)
    t.call(capability(0, LINK))
    t.call(capability(1, with_words(LINK, {12: 0})))
    for s in range(5):
        both(t, 0, s, 60, [(1, 5)], 0 if s == 0 else 9, proportion=filler(s))
        both(t, 1, s, 60, [(1, 5)], 9, proportion=filler(s))
    t.call(total(0, 60), 0, 1, 5)
    t.words()


def nine_ahead_of_the_rest(t):
    """A link's reserve and regulation draw 9 ahead of 10 to 18, whatever else is wrong; 3 and 4 come before it."""
    t.open(1, 5)
    t.call(capability(0, LINK))
    t.call(clock(100))
    for s in (1, 2, 3, 4):
        for r in (standing(0, s, -1), standing(0, s, 336), variation(0, s, 3), variation(0, s, MOST), variation(0, s, 60, reason=7), standing(0, s, 60, [(1, -1)]),
                  standing(0, s, 60, [(400004, 1)]), standing(0, s, 60, [(1, 0)]), standing(0, s, 60, [(2, 1), (1, 1)]), standing(0, s, 60, [(1, 99999)]),
                  variation(0, s, 4, [(1, 1)]), variation(0, s, 60), standing(0, s, 60)):
            t.call(r, 9)
            t.call(with_bytes(r, {13: 1}), 4)
        t.call(standing(1, s, 60), 3)
    t.words()


def energy_of_a_link(t):
    """A link's energy offers: numbers 10 to 13 and 18 as for any facility, at standing offer and variation."""
    t.open(1, 5)
    t.call(capability(0, LINK))
    both(t, 0, 0, 60, {i: (100 * i - 300, 80) for i in range(10)}, 0, ramps=(50, 40))
    t.call(look_up(0, 0, 60), 0, 4, 800)
    t.call(standing(0, 0, 60, {i: (100 * i - 300, 80) for i in range(10)}, ramps=(50, 40)), 18)
    for slot in (-1, 336):
        t.call(standing(0, 0, slot, [(1, 5)]), 10)
    for period in (0, -1, 336):
        t.call(variation(0, 0, period, [(1, 5)]), 10)
    t.call(variation(0, 0, 61, [(1, 5)], 7), 11)
    both(t, 0, 0, 61, [(450001, 5)], 11)
    both(t, 0, 0, 61, [(1, 100000)], 11)
    both(t, 0, 0, 61, [(1, 0)], 12)
    both(t, 0, 0, 61, [(2, 1), (1, 1)], 13)
    t.call(standing(0, 0, 61, [], proportion=1), 4)
    t.call(look_up(0, 0, 61), 19)
    t.words()


def ramps_of_a_link(t):
    """Ramps bind a link's energy: at 0, at each maximum and one past it, up and down apart."""
    t.open(1, 1)
    slot = 60
    for up_most, down_most in ((50, 40), (0, 0), (9999, 0), (0, 9999)):
        t.call(capability(0, with_words(LINK, {7: up_most, 8: down_most})))
        for up, down in ((0, 0), (up_most, down_most), (up_most + 1, 0), (0, down_most + 1), (-1, 0), (0, -1)):
            both(t, 0, 0, slot, [(1, 2)], 0 if 0 <= up <= up_most and 0 <= down <= down_most else 14, ramps=(up, down))
            slot += 1
    t.words()


def both_maxima_of_a_link(t):
    """A link's energy is held to W1 and to W2, whichever is lower; its other maxima say nothing."""
    t.open(1, 5)
    slot = 60
    for one, two in ((900, 800), (800, 900), (800, 800), (0, 800), (800, 0), (0, 0), (99999, 99999)):
        t.call(capability(0, with_words(LINK, {1: one, 2: two, 3: 0, 4: 0, 5: 0, 6: 0})))
        most = min(one, two)
        both(t, 0, 0, slot, [(1, most)] if most else [], 0)
        both(t, 0, 0, slot + 1, [(1, most), (2, 1)] if most else [(2, 1)], 16)
        slot += 2
    t.words()


def link_offer_mended(t):
    """A link's energy offer with everything wrong, mended one thing at a time: the numbers rise from 2 to 0, 15 never among them."""
    worst, apart, fallen, high, good = [(450001, 801), (7, 0), (5, 4)], [(6, 801), None, (5, 4)], [(6, 801), (5, 4)], [(4, 801), (5, 4)], [(4, 796), (5, 4)]
    t.open(1, 5)
    t.call(clock(30 * 60 - 64))
    t.call(notice(5, 60, 60))
    r = variation(0, 0, -1, worst, 7, ramps=(51, 0))
    t.call(with_bytes(r, {0: 0, 6: 1, 13: 1}), 2)
    t.call(with_bytes(r, {6: 1, 13: 1}), 3)
    t.call(with_bytes(r, {13: 1}), 4)
    t.call(r, 5)
    t.call(capability(0, with_words(LINK, {12: 0})))
    t.call(r, 9)
    t.call(capability(0, LINK))
    t.call(r, 10)
    t.call(variation(0, 0, 60, worst, 7, ramps=(51, 0)), 11)
    t.call(variation(0, 0, 60, worst, 2, ramps=(51, 0)), 11)
    t.call(variation(0, 0, 60, [(6, 801), (7, 0), (5, 4)], 2, ramps=(51, 0)), 12)
    t.call(variation(0, 0, 60, apart, 2, ramps=(51, 0)), 12)
    t.call(variation(0, 0, 60, fallen, 2, ramps=(51, 0)), 13)
    t.call(variation(0, 0, 60, high, 2, ramps=(51, 0)), 14)
    t.call(variation(0, 0, 60, high, 2, ramps=(50, 40)), 16)
    t.call(variation(0, 0, 60, good, 2, ramps=(50, 40)), 17)
    t.call(variation(0, 0, 60, good, 5, ramps=(50, 40)))
    t.call(look_up(0, 0, 60), 0, 4, 800)
    t.words()


# ---- the gate

def gate_at_65_minutes_of_a_link(t):
    """A link's variation with 65 minutes to go needs no reason and takes any from 0 to 6; with 64 none of 0, 1, 2 and 6 will do."""
    t.open(1, 1)
    t.call(capability(0, LINK))
    t.call(clock(2935))
    for reason in range(7):
        t.call(variation(0, 0, 100, [(1, 5 + reason)], reason))
    t.call(variation(0, 0, 100, [(1, 5)], 7), 11)
    t.call(look_up(0, 0, 100), 0, 4, 11)
    t.call(clock(2936))
    for reason in range(7):
        t.call(variation(0, 0, 100, [(1, 12)], reason), 17)
        t.call(variation(0, 0, 101, [(1, 12)], reason))
    t.call(clock(3000))
    t.call(variation(0, 0, 100, [(1, 12)], 5), 10)
    t.words()


def reasons_by_kind_with_a_link(t):
    """Each reason inside the gate by kind, every notice and outage in place: over 50 tenths a link passes with 3 for less, with 4 and 5 for more."""
    t.open(3, 5)
    for f, w in enumerate((LINK, GENERATION, LOAD)):
        t.call(capability(f, w))
    period = 10
    for f, s in ((0, 0), (1, 0), (2, 1)):
        for reason in range(7):
            for quantity in (40, 50, 60):
                period += 4
                t.call(clock(30 * period - 65))
                t.call(variation(f, s, period, [(1, 50)], 0, filler(s)))
                t.call(clock(30 * period - 30))
                notices(t, period, period)
                t.call(outage(f, 30 * period - 30, 1), 7 if f == 0 else 0)
                holds = {0: False, 1: f == 1, 2: f == 1, 3: s == 0 and quantity < 50, 4: quantity > 50, 5: quantity > 50, 6: f == 2}[reason]
                t.call(variation(f, s, period, [(1, quantity)], reason, filler(s)), 0 if holds else 17)
                t.call(look_up(f, s, period), 0, *((4, quantity) if holds else (2, 50)))
    t.words()


def notices_of_a_link(t):
    """Reasons 3, 4 and 5 of a link without the notice, with it before, after and over the period, of another kind, and withdrawn."""
    t.open(1, 1)
    t.call(capability(0, LINK))
    t.call(standing(0, 0, 100, [(1, 50)]))
    t.call(clock(2950))

    def back_again(reason):
        t.call(variation(0, 0, 100, [], reason))
        t.call(look_up(0, 0, 100), 0, 1, 50)

    notices_over_100(t, lambda pairs, reason: variation(0, 0, 100, pairs, reason), ((3, 40, 5), (4, 60, 3), (5, 60, 3)), back_again)
    t.words()


def prices_of_a_link(t):
    """Inside the gate a link keeps its prices tenth by tenth: more under notice 4, less under notice 3."""
    tries = ((4, [(4000, 500), (5000, 201)], 0), (4, [(4000, 499), (5000, 300)], 17), (4, [(4000, 500), (5001, 300)], 17), (4, [(4000, 500), (5000, 200), (6000, 1)], 0),
             (4, [(4000, 500), (5000, 200)], 17), (3, [(4000, 500), (5000, 199)], 0), (3, [(4000, 1)], 0), (3, [(3999, 1)], 17), (3, [(4000, 501)], 17), (3, [], 17))
    t.open(len(tries), 1)
    for f in range(len(tries)):
        t.call(capability(f, LINK))
        t.call(standing(f, 0, 4, [(4000, 500), (5000, 200)]))
    for kind in (3, 4):
        t.call(notice(kind, 4, 4))
    t.call(clock(60))
    for f, (reason, pairs, number) in enumerate(tries):
        t.call(variation(f, 0, 4, pairs, reason), number)
        t.call(look_up(f, 0, 4), 0, *((4, sum(quantity for _, quantity in pairs)) if number == 0 else (1, 700)))
    t.words()


def take_backs_of_a_link(t):
    """A link takes a variation back as others do: open without a reason; inside the gate by 3 to less, by 4 and 5 to more, never by 1, 2 and 6."""
    t.open(2, 1)
    for f in (0, 1):
        t.call(capability(f, LINK))
    t.call(standing(0, 0, 60, [(1, 50)]))
    for f in (0, 1):
        t.call(variation(f, 0, 60, [(1, 20)]))
        t.call(variation(f, 0, 60, []))
        t.call(look_up(f, 0, 60), *((19,) if f else (0, 3, 50)))
    notices(t, 0, 1000)
    for step, (varied, numbers) in enumerate(((20, {0: 17, 1: 17, 2: 17, 3: 17, 6: 17, 4: 0}), (20, {5: 0}), (50, {3: 17, 4: 17, 5: 17, 1: 17}), (80, {4: 17, 5: 17, 6: 17, 3: 0}))):
        period = 60 + 336 * (step + 1)
        t.call(clock(30 * period - 65))
        t.call(variation(0, 0, period, [(1, varied)]))
        t.call(notice(3, period, period))
        t.call(notice(4, period, period))
        t.call(notice(5, period, period))
        t.call(clock(30 * period - 20))
        for reason, number in numbers.items():
            t.call(variation(0, 0, period, [], reason), number)
        t.call(look_up(0, 0, period), 0, *((1, 50) if 0 in numbers.values() else (2, varied)))
        t.call(variation(1, 0, period, [], 1), 17)
        t.call(variation(1, 0, period, [], 3), 17)
    t.words()


def standing_offers_of_a_link(t):
    """A link's first standing offer passes the gate at any minute; over a held one and without a reason it is refused inside 65 minutes, notices or not."""
    t.open(1, 1)
    t.call(capability(0, LINK))
    notices(t, 0, 1000)
    t.call(clock(2999))
    t.call(standing(0, 0, 100, [(1, 50)]))
    t.call(standing(0, 0, 100, [(1, 60)]), 17)
    t.call(standing(0, 0, 100, [(1, 50)]), 17)
    t.call(clock(3000))
    t.call(standing(0, 0, 100, [(1, 50)]), 18)
    t.call(standing(0, 0, 100, [(1, 60)]))
    t.words()


# ---- readings

def look_ups_of_a_link(t):
    """A look-up of a link draws 5 before its kind, then 19 for each service, 10 for a period that has begun; its energy is shown whole."""
    t.open(1, 5)
    for s in range(5):
        t.call(look_up(0, s, 60), 5)
    t.call(capability(0, LINK))
    for s in range(5):
        t.call(look_up(0, s, 60), 19)
        t.call(look_up(0, s, 0), 10)
        t.call(look_up(0, s, 336), 10)
    t.call(standing(0, 0, 60, [(-7, 11), (8, 12)], ramps=(3, 4)))
    t.call(look_up(0, 0, 60), 0, 3, 23)
    t.call(variation(0, 0, 60, [(9, 13)], ramps=(5, 6)))
    t.call(look_up(0, 0, 60), 0, 4, 13)
    t.call(capability(0, with_words(LINK, {12: 0})))
    t.call(look_up(0, 0, 60), 0, 4, 13)
    t.call(variation(0, 0, 60, [(9, 14)]), 9)
    t.words()


def totals_with_links(t):
    """Totals count links among generation for energy, and none of them for reserve and regulation."""
    t.open(5, 5)
    for f, w in enumerate((LINK, GENERATION, LINK, LOAD, LINK)):
        t.call(capability(f, w))
    for f in (0, 1, 2):
        t.call((standing, variation, variation)[f](f, 0, 60, [(1, 10 + f)]))
    for s in (1, 2, 3):
        for f in (1, 3):
            t.call(standing(f, s, 60, [(1, 20 + f)], 1))
        t.call(standing(0, s, 60, [(1, 30)], 1), 9)
    t.call(total(0, 60), 0, 3, 33)
    for s in (1, 2, 3):
        t.call(total(s, 60), 0, 2, 44)
    t.call(total(4, 60))
    t.call(variation(2, 0, 60, []))
    t.call(total(0, 60), 0, 2, 21)
    t.words()


def links_alone(t):
    """A book of 64 links: each files energy, the total is over all, and no outage is taken for any."""
    t.open(64, 1)
    for f in range(64):
        t.call(capability(f, LINK))
        t.call(standing(f, 0, 335, [(f, 1 + f)]))
        t.call(outage(f, 0, 1), 7)
    t.call(total(0, 335), 0, 64, 2080)
    t.call(look_up(63, 0, 335), 0, 3, 64)
    t.words()


# ---- books that no list of calls leaves

def link_marks_damaged(t):
    """The host sets a link's marks for services 1 to 4: its offers draw 9 by its kind; those of generation and load go by the marks."""
    t.open(3, 5)
    for f, w in enumerate((LINK, GENERATION, with_words(LOAD, {1: 500, 2: 500, 6: 500}))):
        t.call(capability(f, w))
    t.write({block(f) + 12 + s: 1 for f in range(3) for s in range(5)})
    for s in range(5):
        for f in range(3):
            both(t, f, s, 60, [(1, 5)], 9 if f == 0 and s > 0 else 0, proportion=filler(s))
        t.call(total(s, 60), 0, *((3, 15) if s == 0 else (2, 10)))
    for mark in (0, 2, -1, 257, LEAST, MOST):
        t.write({block(0) + 12 + s: mark for s in range(5)})
        for s in range(5):
            both(t, 0, s, 60, [(1, 6)], 9, proportion=filler(s))
    t.call(capability(0, LINK))
    t.call(variation(0, 0, 60, [(1, 6)]))
    t.words()


def link_cells_damaged(t):
    """Filled cells of a link for services 1 to 4 are looked up and totalled as they stand; nothing can be filed over them."""
    t.open(2, 5)
    t.call(capability(0, LINK))
    for s in (1, 2, 3, 4):
        at, varied = cell(2, 5, 0, s, 0, 60), cell(2, 5, 0, s, 1, 61)
        t.write({at: 1, at + 1: 77, at + 2: -3, at + 3: 4, **pairs_at(at, [(5, 10 + s), (4, -3)]), varied: 62, **pairs_at(varied, [(MOST, MOST), (LEAST, 1)])})
        t.call(look_up(0, s, 60), 0, 3, 7 + s)
        t.call(look_up(0, s, 61), 0, 4, 1 << 31)
        t.call(look_up(0, s, 62), 19)
        t.call(total(s, 60), 0, 1, 7 + s)
        t.call(total(s, 61), 0, 1, 1 << 31)
        for mark in (0, 1):
            t.write({block(0) + 12 + s: mark})
            both(t, 0, s, 60, [(5, 1)], 9, proportion=filler(s))
            t.call(variation(0, s, 61, []), 9)
    t.words()


def generation_turned_into_a_link(t):
    """The host writes 3 over generation's kind: reserve draws 9 and outages 7; its window stays, but reasons 1, 2 and 6 are shut; 3, 4 and 5 are open."""
    t.open(1, 5)
    t.call(capability(0, GENERATION))
    t.call(standing(0, 0, 100, [(1, 50)]))
    t.call(standing(0, 1, 100, [(1, 50)], 1))
    t.call(clock(2980))
    t.call(outage(0, 2980, 3))
    notices(t, 100, 100)
    t.write({block(0): 3})
    t.words('turned')
    for reason in (0, 1, 2, 6):
        for quantity in (40, 50, 60):
            t.call(variation(0, 0, 100, [(1, quantity)], reason), 17)
    t.call(outage(0, 2980, 1), 7)
    for reason in range(7):
        t.call(variation(0, 1, 100, [(1, 60)], reason, 1), 9)
    for w in (GENERATION, LOAD, with_words(GENERATION, {0: 3})):
        t.call(capability(0, w), 8)
    t.words('turned')
    t.call(look_up(0, 1, 100), 0, 1, 50)
    t.call(variation(0, 0, 100, [(1, 40)], 3))
    t.call(variation(0, 0, 100, [(1, 41)], 4))
    t.call(variation(0, 0, 100, [(1, 42)], 5))
    t.call(capability(0, LINK))
    t.write({block(0): 1})
    t.call(variation(0, 0, 100, [(1, 42)], 2))
    t.call(outage(0, 2980, 1))
    t.words()


def link_turned_by_the_host(t):
    """The host writes another kind over a link's: what it may do follows the word; 4, 0, -1 and others are no kind, and any may be filed over them."""
    t.open(1, 5)
    t.call(capability(0, LINK))
    t.call(standing(0, 0, 60, [(1, 5)]))
    for kind in (4, 0, -1, 5, 255, 259, 65539, 3 << 24, -3, LEAST, MOST):
        t.write({block(0): kind})
        t.call(standing(0, 0, 61, [(1, 5)]), 5)
        t.call(variation(0, 1, 61, [(1, 5)]), 5)
        t.call(outage(0, 0, 1), 5)
        t.call(look_up(0, 0, 60), 5)
        t.call(total(0, 60), 0, 1, 5)
    for filed in (LINK, GENERATION, LOAD):
        t.write({block(0): 4})
        t.call(capability(0, filed))
        for other in (LINK, GENERATION, LOAD):
            t.call(capability(0, other), 0 if other is filed else 8)
    t.write({block(0): 3})
    t.call(outage(0, 0, 1), 7)
    t.write({block(0): 2})
    t.call(outage(0, 0, 48))
    t.write({block(0): 1})
    t.call(outage(0, 0, 48), 7)
    t.call(outage(0, 0, 3))
    t.words()


def load_marks_damaged(t):
    """A load with the marks for energy and regulation, which the host set, files by them: 14 and 16 bind it, 15 doesn't, reasons 3 to 6 are open to it."""
    t.open(1, 5)
    t.call(capability(0, with_words(LOAD, {1: 500, 2: 400, 6: 300, 7: 5, 8: 5})))
    for s in (0, 4):
        both(t, 0, s, 60, [(1, 5)], 9)
        t.write({block(0) + 12 + s: 1})
        both(t, 0, s, 60, [(1, 5)], 0)
    both(t, 0, 0, 61, [(1, 5)], 14, ramps=(6, 0))
    both(t, 0, 0, 61, [(1, 401)], 16)
    both(t, 0, 4, 61, [(1, 301)], 16)
    t.call(standing(0, 0, 100, [(1, 50)]))
    t.call(clock(2980))
    t.call(outage(0, 2980, 4))
    notices(t, 100, 100)
    for reason, quantity, number in ((0, 40, 17), (1, 40, 17), (2, 40, 17), (3, 40, 0), (4, 41, 0), (5, 42, 0), (6, 30, 0)):
        t.call(variation(0, 0, 100, [(1, quantity)], reason), number)
    t.call(capability(0, with_words(LOAD, {12: 1})), 8)
    t.words()


def link_maxima_damaged(t):
    """Maxima of a link that no call leaves: below 0 its blank offers draw 14 or 16; past any total 999,990 tenths pass, and ramps of 9,999."""
    t.open(1, 1)
    t.call(capability(0, LINK))
    for word, number in ((1, 16), (2, 16), (7, 14), (8, 14)):
        for value in (-1, LEAST):
            t.write({block(0) + word: value})
            both(t, 0, 0, 60, [], number)
        t.write({block(0) + word: MOST})
    for ramps in ((MOST, MOST), (10_000, 0), (0, 10_000)):
        both(t, 0, 0, 60, [], 14, ramps=ramps)
    both(t, 0, 0, 60, [(i, 99999) for i in range(10)], 0, ramps=(9999, 9999))
    t.call(look_up(0, 0, 60), 0, 4, 999_990)
    t.words()
