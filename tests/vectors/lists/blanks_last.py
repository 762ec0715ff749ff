"""Blank pairs come last: one before a filled pair draws 12. An offer held with such a blank, of an older or a damaged book, is walked to its last pair."""
from itertools import combinations

from .form import (GENERATION, LEAST, LINK, LOAD, MOST, both, capability, cell, clock, filler, look_up, notices, outage, pairs_at, standing, total, variation,
                   with_bytes, with_words)

USED = (10, 5, 5, 5, 5)  # pairs by service
BLANK = (0, 0)

# Over 50.0 MW at 40.00 and 20.0 at 50.00: what keeps their prices tenth by tenth, and what doesn't
KEPT = ([(4000, 500), (5000, 200)], [(4000, 500), (5000, 201)], [(4000, 500), (5000, 200), (6000, 1)], [(4000, 500), (5000, 1)], [(4000, 500)], [(4000, 1)])
CHANGED = ([(4000, 500), (5001, 1)], [(4000, 500), (4999, 1), (5000, 199)], [(4000, 501)], [(4000, 450), (5000, 300)], [(4000, 500), (5000, 199), (5001, 1)], [(3999, 1)])


def _tens(count, blank=None):
    """Ten tenths a pair at 0.01, 0.02 and so on; one of them may be blank."""
    return [BLANK if i == blank else (i + 1, 10) for i in range(count)]


def _closed(pairs):
    """The filled ones alone, in their order."""
    return [pair for pair in pairs if pair[1]]


def _sum(pairs):
    return sum(quantity for _, quantity in pairs)


def _last(pairs, price, quantity):
    """The last pair made dearer and larger by these."""
    return pairs[:-1] + [(pairs[-1][0] + price, pairs[-1][1] + quantity)]


def _generation(t):
    t.open(1, 5)
    t.call(capability(0, GENERATION))


def _shut(t, w=GENERATION):
    """Inside the gate of period 100, every notice over it and, but for a link, an outage."""
    t.open(1, 5)
    t.call(capability(0, w))
    notices(t, 100, 100)
    t.call(clock(2950))
    if w[0] != 3:
        t.call(outage(0, 2950, 2))


def _holds(s, h, pairs):
    """The words of facility 0's cell for slot 100 that hold these pairs."""
    at = cell(1, 5, 0, s, h, 100)
    return {at: 101 if h else 1, at + 1: filler(s), at + 3: 0, **pairs_at(at, pairs)}


def _empties(s, h):
    return {cell(1, 5, 0, s, h, 100): 0}


def _stands(s, pairs, reason=0):
    return standing(0, s, 100, pairs, filler(s), reason=reason)


def _varies(s, pairs, reason=0):
    return variation(0, s, 100, pairs, reason, filler(s))


def _over(t, s, h, held, call, number):
    """A filing over the one offer that is held, in the standing cell or the variation's."""
    t.write({**_holds(s, h, held), **_empties(s, 1 - h)})
    t.call(call, number)


def _back(t, s, varied, held, reason, number):
    """A take-back of one held offer to another, and what stands then."""
    t.write({**_holds(s, 0, held), **_holds(s, 1, varied)})
    t.call(_varies(s, [], reason), number)
    t.call(look_up(0, s, 100), 0, *((2, _sum(varied)) if number else (1, _sum(held))))


# ---- places

def a_blank_in_each_place(t):
    """Every pair filled but one: before the last pair it draws 12 in each place, of each service, by both calls; in the last place it passes."""
    _generation(t)
    for s in range(5):
        for place in range(USED[s]):
            both(t, 0, s, 60 + place, _tens(USED[s], place), 12 if place < USED[s] - 1 else 0, proportion=filler(s))
            t.call(look_up(0, s, 60 + place), *((19,) if place < USED[s] - 1 else (0, 4, 10 * place)))
    t.words()


def blanks_after_filled_pairs(t):
    """One pair filled, two and so on to all: whatever blanks follow, it passes, and the look-up answers each pair."""
    _generation(t)
    for s in range(5):
        for count in range(1, USED[s] + 1):
            both(t, 0, s, 60 + count, _tens(count), 0, proportion=filler(s))
            t.call(look_up(0, s, 60 + count), 0, 4, 10 * count)
            t.call(total(s, 60 + count), 0, 1, 10 * count)
    t.words()


def every_set_of_five_places(t):
    """Each of the 32 sets of filled places among five: those that come first pass, and no others."""
    _generation(t)
    for s in (2, 4):
        for filled in (places for count in range(6) for places in combinations(range(5), count)):
            t.call(_stands(s, {place: (place, 1 + place) for place in filled}), 0 if filled == tuple(range(len(filled))) else 12)
        t.call(look_up(0, s, 100), 0, 3, 15)
    t.words()


def every_two_places_of_ten(t):
    """Energy, every two filled places of ten: the first two pass, and no others; of one filled place the first."""
    _generation(t)
    for filled in (places for count in (1, 2) for places in combinations(range(10), count)):
        t.call(_varies(0, {place: (place, 1 + place) for place in filled}), 0 if filled in ((0,), (0, 1)) else 12)
    t.call(look_up(0, 0, 100), 0, 4, 3)
    t.words()


def all_pairs_blank(t):
    """Blanks alone are no fault: a standing offer of 0.0 MW, and a variation that takes one back; a price on any of them draws 12."""
    _generation(t)
    for s in range(5):
        t.call(_stands(s, []))
        t.call(_stands(s, []), 18)
        t.call(look_up(0, s, 100), 0, 3, 0)
        t.call(_varies(s, [(1, 5)]))
        for place in range(USED[s]):
            for call in (_stands, _varies):
                t.call(call(s, {place: (1, 0)}), 12)
        t.call(look_up(0, s, 100), 0, 4, 5)
        t.call(_varies(s, []))
        t.call(look_up(0, s, 100), 0, 3, 0)
    t.words()


def of_a_load_and_a_link(t):
    """A load's reserve and a link's energy: a blank before a filled pair draws 12, blanks last pass."""
    t.open(2, 5)
    t.call(capability(0, LOAD))
    t.call(capability(1, LINK))
    for f, s in ((0, 1), (0, 2), (0, 3), (1, 0)):
        for place in range(USED[s] - 1):
            both(t, f, s, 60, _tens(USED[s], place), 12)
        both(t, f, s, 60, _tens(USED[s] - 1), 0)
        t.call(look_up(f, s, 60), 0, 4, 10 * (USED[s] - 1))
    t.words()


def pairs_that_a_service_does_not_use(t):
    """Reserve and regulation use five pairs: a sixth draws 4, also after a blank; the five that are left zero after five filled ones are no fault."""
    _generation(t)
    for s in (1, 2, 3, 4):
        for place in (5, 9):
            both(t, 0, s, 60, {place: (1, 10)}, 4, proportion=filler(s))
            both(t, 0, s, 60, {**dict(enumerate(_tens(5))), place: (99, 10)}, 4, proportion=filler(s))
            both(t, 0, s, 60, {**dict(enumerate(_tens(5, 2))), place: (99, 10)}, 4, proportion=filler(s))
        both(t, 0, s, 60, _tens(5), 0, proportion=filler(s))
        both(t, 0, s, 61, _tens(5, 3), 12, proportion=filler(s))
    t.words()


# ---- beside other numbers

def a_fall_around_a_blank(t):
    """50.00, blank, 40.00 draws 12, where it drew 13; so do equal prices; without the blank, or with it last, they draw 13."""
    _generation(t)
    for s in (0, 1, 4):
        for one, two in ((5000, 4000), (4000, 4000), (4001, 4000), (4000, 4001)):
            number = 0 if one < two else 13
            both(t, 0, s, 60, [(one, 10), None, (two, 10)], 12, proportion=filler(s))
            both(t, 0, s, 60, [None, (one, 10), (two, 10)], 12, proportion=filler(s))
            both(t, 0, s, 60, [(one, 10), (two, 10), None, (9000, 10)], 12, proportion=filler(s))
            both(t, 0, s, 60, [(one, 10), (two, 10), None], number, proportion=filler(s))
            both(t, 0, s, 61, [(one, 10), (two, 10)], number, proportion=filler(s))
    t.words()


def out_of_range_around_a_blank(t):
    """11 comes before 12: a quantity or a price past its edge before the blank, on it and after it, and a reason of 7."""
    _generation(t)
    for s in (0, 2, 4):
        lowest, highest = (-450000, 450000) if s == 0 else (0, 400000 + s - 1)
        for place in range(4):
            for price, quantity in ((highest + 1, 10), (lowest - 1, 10), (5, -1), (5, 100000), (highest + 1, 0), (lowest - 1, 0)):
                pairs = [(1, 10), BLANK, (3, 10), BLANK]
                pairs[place] = (price, quantity)
                t.call(_varies(s, pairs), 11)
        t.call(_varies(s, [(1, 10), BLANK, (3, 10)], 7), 11)
        t.call(_varies(s, [(1, 10), BLANK, (highest, 99999)]), 12)
        t.call(_varies(s, [(highest, 0), BLANK, (lowest, 10)]), 12)
    t.words()


def a_price_on_a_blank(t):
    """A blank with a price draws 12 before filled pairs, between them and in every place after them; without the price it passes in the last places alone."""
    _generation(t)
    for s in (0, 3):
        for place in range(USED[s]):
            for count in (0, 2, USED[s] - 1):
                pairs = dict(enumerate(_tens(count)))
                t.call(_varies(s, {**pairs, place: (-1 if s == 0 else 1, 0)}), 12)
                t.call(_varies(s, {**pairs, place: BLANK}), 0 if place >= count - 1 else 12)
    t.words()


def higher_numbers_wait(t):
    """A blank before a filled pair beside 14, 15, 16, 17 and 18: 12; with the blank last each is drawn."""
    _generation(t)
    apart, last = [(1, 10), BLANK, (2, 10)], [(1, 10), (2, 10)]
    for pairs, numbers in ((apart, (12,) * 5), (last, (14, 15, 16, 16, 18))):
        if pairs is last:
            t.call(standing(0, 4, 60, pairs))
        t.call(standing(0, 0, 60, pairs, ramps=(51, 0)), numbers[0])
        t.call(standing(0, 1, 60, pairs), numbers[1])
        t.call(standing(0, 0, 60, pairs[:-1] + [(2, 791)]), numbers[2])
        t.call(standing(0, 4, 60, pairs[:-1] + [(2, 191)]), numbers[3])
        t.call(standing(0, 4, 60, pairs), numbers[4])
    t.call(clock(30 * 60 - 64))
    t.call(standing(0, 4, 60, apart), 12)
    t.call(standing(0, 4, 60, last), 17)
    t.call(variation(0, 4, 60, apart), 12)
    t.call(variation(0, 4, 60, last), 17)
    t.call(variation(0, 4, 60, last, 1))
    t.words()


def lower_numbers_first(t):
    """A blank before a filled pair beside 2, 3, 4, 5, 9 and 10: the lower number; mended one by one, 12 is the last."""
    t.open(1, 1)
    for offer in (standing, variation):
        r = offer(0, 0, -1, [BLANK, (1, 10)])
        t.call(with_bytes(r, {0: 0}), 2)
        t.call(with_bytes(r, {6: 1}), 3)
        t.call(with_bytes(r, {13: 1}), 4)
    both(t, 0, 0, -1, [BLANK, (1, 10)], 5)
    t.call(capability(0, with_words(GENERATION, {12: 0})))
    both(t, 0, 0, -1, [BLANK, (1, 10)], 9)
    t.call(capability(0, GENERATION))
    both(t, 0, 0, -1, [BLANK, (1, 10)], 10)
    both(t, 0, 0, 336, [BLANK, (1, 10)], 10)
    both(t, 0, 0, 100, [BLANK, (1, 10)], 12)
    t.words()


def the_record_test_knows_no_blanks(t):
    """The record test gives 0 for blanks anywhere: it asks 2, 3 and 4 alone."""
    t.open(1, 5)
    for s in range(5):
        for place in range(USED[s]):
            for offer in (standing, variation):
                t.test(offer(0, s, 100, _tens(USED[s], place), proportion=filler(s)), 1, 5, 0)


def nothing_moves(t):
    """What draws 12 leaves every word: the held standing offer and variation stay, as old as they were."""
    _generation(t)
    t.call(_stands(0, _tens(2)))
    t.call(_varies(0, _tens(3)))
    t.call(clock(4))
    t.words('nothing moves')
    for pairs in (_tens(10, 0), _tens(10, 5), [BLANK, (1, 1)], [BLANK] * 9 + [(1, 1)]):
        t.call(_stands(0, pairs), 12)
        t.call(_varies(0, pairs), 12)
        t.words('nothing moves')
    t.call(look_up(0, 0, 100), 0, 4, 30)
    t.call(clock(5))
    t.call(_varies(0, _tens(10, 5)), 12)
    t.call(look_up(0, 0, 100), 0, 2, 30)
    t.call(_varies(0, []))
    t.call(look_up(0, 0, 100), 0, 1, 20)


# ---- totals of what is filed

def totals_up_to_the_first_blank(t):
    """Each count of filled pairs at its maximum passes, and with a tenth more in the last of them draws 16: no pair before the first blank is left out."""
    _generation(t)
    for s, most in enumerate((800, 300, 310, 320, 200)):
        for count in range(1, USED[s] + 1):
            pairs = _tens(count - 1) + [(99, most - 10 * (count - 1))]
            both(t, 0, s, 60 + count, pairs, 0, proportion=filler(s))
            both(t, 0, s, 60 + count, _last(pairs, 0, 1), 16, proportion=filler(s))
            t.call(look_up(0, s, 60 + count), 0, 4, most)
    t.words()


def the_last_filled_pair_in_the_gate(t):
    """Inside the gate the last filled pair of a new offer decides: a tenth more passes with 4, a tenth less with 3, another price draws 17."""
    _shut(t)
    for count in (1, 2, 5, 9, 10):
        pairs = _tens(count)
        for call in (_stands, _varies):
            for other, reason, number in ((pairs, 4, 17), (pairs, 3, 17), (_last(pairs, 0, 1), 3, 17), (_last(pairs, 0, 1), 4, 0), (_last(pairs, 0, -1), 5, 17),
                                          (_last(pairs, 0, -1), 3, 0), (_last(pairs, 1, 0), 1, 17)):
                _over(t, 0, 0, pairs, call(0, other, reason), number)
    t.words()


def twelve_inside_the_gate(t):
    """Inside the gate a blank before a filled pair draws 12 with any reason from 0 to 6, whether it holds or not, over a held offer and over none."""
    _shut(t)
    for held in (False, True):
        if held:
            t.call(_stands(0, _tens(2)))
        for reason in range(7):
            t.call(_stands(0, [(1, 10), BLANK, (2, 11)], reason), 12)
            t.call(_varies(0, [(1, 10), BLANK, (2, 11)], reason), 12)
    t.call(_stands(0, [(1, 10), (2, 11)], 4))
    t.call(look_up(0, 0, 100), 0, 3, 21)
    t.words()


def no_take_back_by_a_tenth_after_blanks(t):
    """A variation of blanks and one tenth after them takes nothing back, gate open and shut; of blanks alone it does."""
    _generation(t)
    for s in range(5):
        t.call(_stands(s, [(1, 10)]))
        t.call(_varies(s, [(1, 20)]))
    for minute, reason in ((0, 0), (2950, 1)):
        t.call(clock(minute))
        for s in range(5):
            for place in (1, USED[s] - 1):
                t.call(_varies(s, {place: (1, 1)}, reason), 12)
            t.call(look_up(0, s, 100), 0, 4 if minute == 0 else 2, 20)
    for s in range(5):
        t.call(_varies(s, [], 1))
        t.call(look_up(0, s, 100), 0, 1, 10)
    t.words()


# ---- what is held with a blank before a filled pair: the host writes it, as an older book has it

def looked_up_as_held(t):
    """A held blank in each place before the last, in either cell: the look-up shows each pair where it is held, and sums and totals have them all."""
    _generation(t)
    t.call(clock(5))
    for s in range(5):
        for h in (0, 1):
            for place in range(USED[s] - 1):
                t.write({**_holds(s, h, _tens(USED[s], place)), **_empties(s, 1 - h)})
                t.call(look_up(0, s, 100), 0, 1 + h, 10 * (USED[s] - 1))
                t.call(total(s, 100), 0, 1, 10 * (USED[s] - 1))
    t.words()


def _old_whole(t, call, h, s):
    """The held blank first, among the others and before the last: the tenths after it keep their prices, and count in the total."""
    _shut(t)
    for place in (0, 2, USED[s] - 2):
        held = _tens(USED[s], place)
        same = _closed(held)
        for pairs, reason, number in ((same, 1, 0), (_last(same, 0, 1), 2, 0), (_last(same, 1, 0), 1, 17), (_last(same, 1, -9), 2, 17), (same, 3, 17), (same, 4, 17),
                                      (_last(same, 0, 1), 4, 0), (_last(same, 0, 1), 5, 0), (_last(same, 0, -1), 4, 17), (_last(same, 0, -1), 3, 17 if s else 0)):
            _over(t, s, h, held, call(s, pairs, reason), number)
    t.words()


def old_of_an_energy_variation(t):
    """Energy varied inside the gate over a standing offer with a blank before filled pairs: old is walked to its last pair, in its tenths and its total."""
    _old_whole(t, _varies, 0, 0)


def old_of_an_energy_standing_offer(t):
    """The same of a standing offer over the held one."""
    _old_whole(t, _stands, 0, 0)


def old_is_a_variation_with_a_blank(t):
    """The same of a variation over the variation in force."""
    _old_whole(t, _varies, 1, 0)


def old_of_reserve_and_regulation(t):
    """The same of five pairs: reserve varied over the standing offer, regulation over the variation, and both revised."""
    for call, h, s in ((_varies, 0, 1), (_varies, 1, 4), (_stands, 0, 3), (_stands, 0, 4)):
        _old_whole(t, call, h, s)


def _back_whole(t, s, places):
    """Variation and standing offer with a blank each, or without: both are walked whole where the one is taken back to the other."""
    _shut(t)
    for varied, held in places:
        for other, reason, number in ((held, 1, 0), (_last(held, 0, 1), 2, 0), (_last(held, 1, 0), 1, 17), (_last(held, 1, -9), 1, 17), (held, 3, 17), (held, 4, 17),
                                      (_last(held, 0, 1), 4, 0), (_last(held, 0, 1), 5, 0), (_last(held, 0, 1), 3, 17), (_last(held, 0, -1), 4, 17),
                                      (_last(held, 0, -1), 3, 17 if s else 0)):
            _back(t, s, varied, other, reason, number)
    t.words()


def new_after_a_take_back(t):
    """A variation taken back to a standing offer with a blank before filled pairs: new is that offer, and it is walked to its last pair; so is old."""
    for s in (0, 2):
        apart = [_tens(USED[s], place) for place in (0, 2, USED[s] - 2)]
        _back_whole(t, s, [(_closed(held), held) for held in apart] + [(varied, _closed(varied)) for varied in apart])


def blanks_in_both_held_offers(t):
    """Both the variation and the standing offer behind it have a blank, in places of their own: tenths are compared, not pairs."""
    three = [(1, 10), (2, 10), (3, 10)]
    spread = [[three[0], BLANK] + three[1:], [BLANK] * 7 + three, [three[0], BLANK, three[1], BLANK, BLANK, three[2]]]
    _back_whole(t, 0, [(varied, held) for varied in spread for held in spread if varied is not held])


def tenth_by_tenth_over_held_blanks(t):
    """Over 50.0 MW at 40.00 and 20.0 at 50.00, held third and eighth, first and last or last of all, reason 1: by variations, standing offers and take-backs."""
    _shut(t)
    for first, second in ((2, 7), (0, 9), (8, 9)):
        held = [BLANK] * first + [(4000, 500)] + [BLANK] * (second - first - 1) + [(5000, 200)]
        for pairs, number in [(pairs, 0) for pairs in KEPT] + [(pairs, 17) for pairs in CHANGED]:
            _over(t, 0, 0, held, _varies(0, pairs, 1), number)
            _over(t, 0, 0, held, _stands(0, pairs, 1), number)
            _back(t, 0, pairs, held, 1, number)
            _back(t, 0, held, pairs, 1, number)
    t.words()


def behind_a_variation(t):
    """A standing offer with a blank, behind a variation without one: a revision is held against the standing offer whole, another variation against the variation."""
    _shut(t)
    held = [(1, 10), BLANK, (2, 10)]
    for call, number in ((_stands(0, [(1, 10), (2, 11)], 4), 0), (_stands(0, [(1, 10), (2, 10)], 4), 17), (_stands(0, [(1, 10), (3, 1)], 1), 17),
                         (_varies(0, [(1, 10), (3, 1)], 1), 0), (_varies(0, [(1, 11)], 4), 0), (_varies(0, [(1, 9)], 4), 17)):
        t.write({**_holds(0, 0, held), **_holds(0, 1, [(1, 10)])})
        t.call(call, number)
    t.words()


def never_a_duplicate(t):
    """18: the held offer filed as it is draws 12; with its blank last it is another offer and accepted, and then a duplicate; so are its pairs before the blank."""
    _generation(t)
    for s in range(5):
        for place in range(USED[s] - 1):
            held = _tens(USED[s], place)
            t.write(_holds(s, 0, held))
            t.call(_stands(s, held), 12)
            t.call(_stands(s, _closed(held)))
            t.call(_stands(s, _closed(held)), 18)
            t.call(_stands(s, held), 12)
            t.write(_holds(s, 0, held))
            t.call(_stands(s, held[:place]))
    t.words()


def filed_over_a_held_blank(t):
    """An accepted filing leaves nothing of the older offer: the words are those of the same filing where none was held."""
    _generation(t)
    for s in range(5):
        for held in (None, _tens(USED[s], 1), _tens(10, 0), [BLANK] * 9 + [(7, 7)]):
            t.write({**(_holds(s, 0, held) if held else _empties(s, 0)), **(_holds(s, 1, held) if held else _empties(s, 1))})
            t.call(_stands(s, _tens(2)))
            t.call(_varies(s, _tens(3)))
            t.words(f'filed {s}')


def an_older_book_goes_on(t):
    """An older book: what it holds with blanks stands week after week, beside what is filed, until it is filed over."""
    t.open(2, 1)
    for f in (0, 1):
        t.call(capability(f, GENERATION))
        t.call(standing(f, 0, 100, _tens(4)))
    t.write(pairs_at(cell(2, 1, 0, 0, 0, 100), _tens(5, 2)))
    t.call(clock(1500))
    for week in range(3):
        period = 100 + 336 * week
        t.call(clock(30 * period - 1440))
        t.call(look_up(0, 0, period), 0, 1, 40)
        t.call(total(0, period), 0, 2, 80)
        t.call(standing(0, 0, 100, _tens(5, 2)), 12)
        t.call(variation(0, 0, period, _tens(5, 2)), 12)
        t.call(variation(0, 0, period, _closed(_tens(5, 2))))
        t.call(total(0, period), 0, 2, 80)
        t.call(clock(30 * period))
    t.call(standing(0, 0, 100, _closed(_tens(5, 2))))
    t.call(clock(30 * 1108 - 1440))
    t.call(look_up(0, 0, 1108), 0, 1, 40)
    t.words()


# ---- damaged books

def held_by_a_load_and_a_link(t):
    """A load's reserve with reason 6 and a link's energy with 3, 4 and 5, over a held blank: walked whole as a generation's is."""
    _shut(t, LOAD)
    held = [(1, 10), BLANK, BLANK, (2, 10)]
    for call in (_stands, _varies):
        for pairs, reason, number in (([(1, 10), (2, 10)], 6, 0), ([(1, 10), (3, 1)], 6, 17), ([(1, 10), (2, 11)], 4, 0), ([(1, 11)], 5, 17), ([(1, 10), (2, 10)], 5, 17)):
            _over(t, 1, 0, held, call(1, pairs, reason), number)
    _shut(t, LINK)
    for call in (_stands, _varies):
        for pairs, reason, number in (([(1, 10), (2, 9)], 3, 0), ([(1, 10), (2, 10)], 3, 17), ([(1, 10), (3, 1)], 3, 17), ([(1, 10), (2, 11)], 4, 0), ([(1, 10), (2, 11)], 5, 0),
                                      ([(1, 11)], 4, 17)):
            _over(t, 0, 0, held, call(0, pairs, reason), number)
    t.words()


def blanks_with_a_price_and_quantities_below_0(t):
    """Held between two filled pairs: a blank with a price and a quantity below 0 count for nothing in the gate, and the pair after them counts."""
    _shut(t)
    for between in ([(9, 0)], [(0, -5)], [(9, LEAST), BLANK], [BLANK, (1, -1), (9, 0)], [(MOST, 0)] * 8, [(LEAST, -1)] * 8):
        held = [(1, 10)] + between + [(2, 10)]
        for call in (_stands, _varies):
            for pairs, reason, number in (([(1, 10), (2, 10)], 1, 0), ([(1, 10), (2, 11)], 4, 0), ([(1, 10), (2, 10)], 4, 17), ([(1, 10), (3, 1)], 1, 17), ([(1, 10), (2, 9)], 3, 0)):
                _over(t, 0, 0, held, call(0, pairs, reason), number)
        _back(t, 0, [(1, 10), (2, 9)], held, 4, 0)
        _back(t, 0, [(1, 10), (3, 1)], held, 1, 17)
    t.words()


def filled_past_the_fifth_pair(t):
    """Reserve and regulation held with pairs past the fifth, after blanks: they count, in the tenths and in the total."""
    _shut(t)
    for s in (1, 2, 3, 4):
        for place in (5, 9):
            held = [(1, 10)] + [BLANK] * (place - 1) + [(2, 10)]
            for call in (_stands, _varies):
                for pairs, reason, number in (([(1, 10), (2, 11)], 5, 0), ([(1, 10), (2, 10)], 5, 17), ([(1, 10), (2, 5)], 1, 0), ([(1, 10), (3, 1)], 1, 17)):
                    _over(t, s, 0, held, call(s, pairs, reason), number)
            _back(t, s, [(1, 10), (2, 9)], held, 4, 0)
            _back(t, s, [(1, 11)], held, 1, 17)
    t.words()


def totals_past_32_bits_after_a_blank(t):
    """A held total past 32 bits, most of it after a blank: old and new are counted whole."""
    _shut(t)
    held = [(4000, 10), BLANK] + [(4000, MOST)] * 8
    for call in (_stands, _varies):
        _over(t, 0, 0, held, call(0, [(4000, 800)], 4), 17)
        _over(t, 0, 0, held, call(0, [(4000, 800)], 3), 0)
        _over(t, 0, 0, held, call(0, [(4000, 799), (4001, 1)], 1), 17)
    _back(t, 0, [(4000, 800)], held, 4, 0)
    _back(t, 0, _last(held, 0, -1), held, 4, 0)
    _back(t, 0, held, _last(held, 0, -1), 3, 0)
    _back(t, 0, held, _last(held, 1, 0), 1, 17)
    t.words()


def limits_that_exclude_the_blanks_price(t):
    """Damaged limits that exclude 0: any empty pair draws 11, last or not; without one the offer passes, and a blank at a price within them draws 12."""
    _generation(t)
    for lowest, highest in ((1, 1000), (-1000, -1), (MOST - 20, MOST), (LEAST, LEAST + 20)):
        t.write({11: lowest, 12: highest})
        full = [(lowest + i, 10) for i in range(10)]
        for count in range(10):
            t.call(_varies(0, full[:count]), 11)
        t.call(_varies(0, full))
        t.call(_varies(0, full[:4] + [BLANK] + full[5:]), 11)
        t.call(_varies(0, full[:4] + [(lowest, 0)] + full[5:]), 12)
        t.call(_varies(0, full[:9] + [(highest, 0)]), 12)
        t.call(_varies(0, full[::-1]), 13)
        t.call(_varies(0, full[:8] + [full[9], full[8]]), 13)
    for s in (1, 2, 3, 4):
        t.write({12 + s: -1})
        for pairs in ([], _tens(5), _tens(5, 2)):
            t.call(_varies(s, pairs), 11)
    t.words()
