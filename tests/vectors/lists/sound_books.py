"""Sound books over time: the paper's cases and worked run, weeks, gate closure and its reasons, notices, totals, nothing in force."""
from .form import GENERATION, LOAD, capability, clock, filler, look_up, notice, notices, outage, standing, total, variation, with_words, withdrawal

PROGRAM_LIMITS = (-450000, 450000, 450000, 450000, 450000, 450000)

# Offers filed over 50.0 MW at 40.00 and 20.0 at 50.00, with the number that each draws
TRIES = (([(4000, 500), (5000, 200)], 0), ([(4000, 500), (5000, 201)], 0), ([(4000, 499)], 0), ([(4000, 500)], 0), ([(4000, 499), (5000, 201)], 17),
         ([(4000, 501), (5000, 199)], 17), ([(4000, 501)], 17), ([(4000, 500), (5001, 200)], 17), ([(4000, 500), (4500, 1)], 17), ([], 0), ([(4000, 1)], 0),
         ([(3999, 1)], 17), ([(4000, 500), (5000, 200), (6000, 100)], 0), ([(3999, 250), (4000, 250)], 17), ([(4000, 250), (4001, 250)], 17),
         ([(4000, 500), (5000, 1), (5001, 1)], 17), ([(4000, 500), (5000, 300)], 0), ([(4000, 450), (5000, 300)], 17), ([(4000, 500), (5001, 1)], 17))


def worked_run(t):
    """Document 01's nine records in the program's book, and the words after each."""
    t.open(1, 1, PROGRAM_LIMITS)
    for r, answer in ((capability(0, [1, 1300, 800] + [0] * 9 + [1]), ()), (standing(0, 0, 4, [(4000, 500), (5000, 200)]), ()), (look_up(0, 0, 4), (0, 3, 700)),
                      (variation(0, 0, 4, [(4000, 300)]), ()), (look_up(0, 0, 4), (0, 4, 300)), (total(0, 4), (0, 1, 300)), (look_up(0, 0, 340), (10,)),
                      (clock(1440), ()), (look_up(0, 0, 340), (0, 1, 700))):
        t.call(r, *answer)
        t.words()


def _case(t, *calls):
    t.open(1, 1, PROGRAM_LIMITS)
    t.call(capability(0, with_words(GENERATION, {1: 1300, 2: 800})))
    for r, number in calls:
        t.call(r, number)
    t.words()


def papers_cases(t):
    """Document 01's cases, each on a book of its own."""
    _case(t, (standing(0, 0, 100, [(4000, 1300)]), 16), (standing(0, 0, 100, [(4000, 700)]), 0))
    _case(t, (standing(0, 0, 100, [(5000, 100), (4000, 100)]), 13), (standing(0, 0, 100, [(4000, 100), (5000, 100)]), 0))
    _case(t, (standing(0, 0, 100, [(10000, 500), (0, 0)]), 0), (standing(0, 0, 100, [(10000, 500), (5000, 0)]), 12), (standing(0, 0, 100, [(5000, 0)]), 12))
    _case(t, (clock(55), 0), (variation(0, 0, 4, [(4000, 100)]), 0))
    _case(t, (clock(56), 0), (variation(0, 0, 4, [(4000, 100)]), 17))
    _case(t, (clock(120), 0), (variation(0, 0, 4, [(4000, 100)]), 10))
    old = standing(0, 0, 4, [(4000, 500), (5000, 200)])
    _case(t, (old, 0), (notice(4, 4, 4), 0), (clock(60), 0), (variation(0, 0, 4, [(4000, 500), (5000, 300)], 4), 0))
    _case(t, (old, 0), (notice(4, 4, 4), 0), (clock(60), 0), (variation(0, 0, 4, [(4000, 450), (5000, 300)], 4), 17))


def slot_a_week_later(t):
    """A slot used again week after week: each variation answers for its own period alone, the standing offer for the others."""
    t.open(1, 5, past=3)
    t.call(capability(0, GENERATION))
    for s in (0, 3):
        t.call(standing(0, s, 4, [(4000, 200)], filler(s)))
        t.call(variation(0, s, 4, [(4000, 300)], 0, filler(s)))
        t.call(look_up(0, s, 4), 0, 4, 300)
        t.call(look_up(0, s, 340), 10)
    now = 0
    for week in range(1, 5):
        period = 4 + 336 * week
        now = 1440 * (7 * week - 6)
        t.call(clock(now))
        for s in (0, 3):
            t.call(look_up(0, s, period - 336), 10)
            t.call(look_up(0, s, period), 0, 1, 200)
            t.call(total(s, period), 0, 1, 200)
            t.call(variation(0, s, period, [(4000, 200 + week)], 0, filler(s)))
            t.call(look_up(0, s, period), 0, 4, 200 + week)
            t.call(total(s, period), 0, 1, 200 + week)
            t.call(look_up(0, s, period + 336), 10)
        t.words()


def slot_a_week_later_without_standing(t):
    """A slot used again a week later with no standing offer: nothing in force until the week's own variation."""
    t.open(1, 1)
    t.call(capability(0, GENERATION))
    t.call(variation(0, 0, 335, [(1, 9)]))
    t.call(look_up(0, 0, 335), 0, 4, 9)
    t.call(clock(30 * 335 - 1))
    t.call(look_up(0, 0, 335), 0, 2, 9)
    t.call(look_up(0, 0, 671), 10)
    t.call(clock(30 * 335))
    t.call(look_up(0, 0, 335), 10)
    t.call(clock(1440 * 7))
    t.call(look_up(0, 0, 671), 19)
    t.call(total(0, 671))
    t.call(variation(0, 0, 671, [(1, 8)]))
    t.call(look_up(0, 0, 671), 0, 4, 8)
    t.words()


def standing_and_variation_apart(t):
    """A variation leaves the standing offer as it was, and a standing offer the variation; a first standing offer may come after one."""
    t.open(2, 5)
    t.call(capability(0, GENERATION))
    t.call(variation(0, 0, 60, [(1, 5)]))
    t.call(look_up(0, 0, 60), 0, 4, 5)
    t.call(standing(0, 0, 60, [(1, 6)]))
    t.call(look_up(0, 0, 60), 0, 4, 5)
    t.call(variation(0, 0, 60, [(2, 7)]))
    t.call(variation(0, 0, 60))
    t.call(look_up(0, 0, 60), 0, 3, 6)
    t.call(total(0, 60), 0, 1, 6)
    t.call(variation(0, 0, 60, [(2, 1)]))
    t.call(standing(0, 0, 60, [(1, 8)]))
    t.call(look_up(0, 0, 60), 0, 4, 1)
    t.call(clock(1440))
    t.call(look_up(0, 0, 60), 0, 2, 1)
    t.call(clock(3600))
    t.call(look_up(0, 0, 60 + 336), 0, 1, 8)
    t.call(look_up(1, 0, 60 + 336), 5)
    t.call(look_up(0, 1, 60 + 336), 19)
    t.words()


def gate_at_65_minutes(t):
    """A variation with 66, 65, 64, 1 and no minutes to go, for each service of generation, without a reason and with reason 1."""
    t.open(1, 5)
    t.call(capability(0, GENERATION))
    for left, number in ((66, 0), (65, 0), (64, 17), (36, 17), (30, 17), (1, 17), (0, 10)):
        t.call(clock(30 * 100 - left))
        for s in range(5):
            t.call(variation(0, s, 100, [(1, 67 - left if left > 64 else 2)], 0, filler(s)), number)
        t.call(variation(0, 0, 100, [(1, 1)], 1), 10 if left == 0 else 0)
    t.words()


def standing_gate(t):
    """A standing offer without a reason over a held one, 66 to 0 minutes before the slot's next period; 17 comes before 18, a first one always passes."""
    t.open(2, 5)
    t.call(capability(0, GENERATION))
    t.call(standing(0, 0, 100, [(1, 1)]))
    quantity = 1
    for left, number in ((66, 0), (65, 0), (64, 17), (1, 17), (0, 0), (-29, 0)):
        t.call(clock(3000 - left))
        t.call(standing(0, 0, 100, [(1, quantity)]), 17 if number else 18)
        t.call(standing(0, 0, 100, [(1, quantity + 1)]), number)
        quantity += number == 0
        t.call(standing(0, 4, 100 - left, [(1, 1)]) if left > 0 else standing(0, 4, 200 - left, [(1, 1)]))
    t.call(clock(30 * 436 - 64))
    t.call(standing(0, 0, 100, [(1, 99)]), 17)
    t.call(clock(30 * 436))
    t.call(standing(0, 0, 100, [(1, 99)]))
    t.words()


def standing_gate_over_the_week(t):
    """Slots 0, 1 and 335 around the week's end: the next period not yet begun decides."""
    t.open(1, 1)
    t.call(capability(0, GENERATION))
    for slot in (0, 1, 2, 335):
        t.call(standing(0, 0, slot, [(1, 1)]))
    t.call(standing(0, 0, 0, [(1, 2)]))      # next is 336
    t.call(standing(0, 0, 1, [(1, 2)]), 17)  # 30 minutes
    t.call(standing(0, 0, 2, [(1, 2)]), 17)  # 60 minutes
    t.call(standing(0, 0, 335, [(1, 2)]))
    for now, numbers in ((10_015, (0, 0, 0, 17)), (10_016, (17, 0, 0, 17)), (10_045, (17, 0, 0, 17)), (10_046, (17, 17, 0, 17)), (10_050, (17, 17, 0, 0)),
                         (10_079, (17, 17, 17, 0)), (10_080, (0, 17, 17, 0)), (10_110, (0, 0, 17, 0))):
        t.call(clock(now))
        for slot, number in zip((0, 1, 2, 335), numbers):
            t.call(standing(0, 0, slot, [(1, now - 10_000)]), number)
    t.words()


def variation_hides_the_held_one(t):
    """A standing offer over a held one is gated even where a variation is in force; a slot with a variation alone counts as a first."""
    t.open(1, 1)
    t.call(capability(0, GENERATION))
    t.call(standing(0, 0, 100, [(1, 1)]))
    t.call(variation(0, 0, 100, [(1, 2)]))
    t.call(variation(0, 0, 101, [(1, 2)]))
    t.call(clock(2999))
    t.call(standing(0, 0, 100, [(1, 3)]), 17)
    t.call(standing(0, 0, 101, [(1, 3)]))
    t.call(look_up(0, 0, 101), 0, 2, 2)
    t.words()


def reasons_by_kind(t):
    """Each reason inside the gate, by kind and service, with every window over the period: more, less and as much as the held offer."""
    t.open(2, 5)
    t.call(capability(0, with_words(GENERATION, {6: 300})))
    t.call(capability(1, LOAD))
    notices(t, 0, 40_000_000)
    period = 1
    for f, services in ((0, (0, 1, 4)), (1, (1, 3))):
        for s in services:
            for reason in range(7):
                for quantity in (40, 50, 60):
                    period += 1
                    t.call(clock(30 * period - 30))
                    t.call(standing(f, s, period % 336, [(1, 50)], filler(s)))
                    if reason in (2, 6):
                        t.call(outage(f, 30 * period - 30, 1))
                    holds = {0: False, 1: f == 0, 2: f == 0, 3: s == 0 and quantity < 50, 4: quantity > 50, 5: quantity > 50, 6: f == 1}[reason]
                    t.call(variation(f, s, period, [(1, quantity)], reason, filler(s)), 0 if holds else 17)
    t.words()


def windows_at_their_edges(t):
    """Notices and outages that end just before the period, start just after it or hold it alone."""
    t.open(2, 5)
    t.call(capability(0, GENERATION))
    t.call(capability(1, LOAD))
    t.call(clock(30 * 100 - 50))  # minute 2,950 is in period 98: 100 starts in 50 minutes, an outage from here starts at 99
    for s in (0, 1):
        t.call(standing(0, s, 100, [(1, 50)], filler(s)))
    t.call(standing(1, 1, 100, [(1, 50)]))
    for kind, pairs in ((3, [(1, 40)]), (4, [(1, 60)]), (5, [(1, 70)])):
        for first, last in ((99, 99), (101, 101), (0, 99), (101, 40_000_000)):
            t.call(notice(kind, first, last))
            t.call(variation(0, 0, 100, pairs, kind), 17)
        t.call(notice(kind, 100, 100))
        t.call(variation(0, 0, 100, pairs, kind))
        t.call(variation(0, 0, 99, pairs, kind), 17)
    for f, reason, s in ((0, 2, 1), (1, 6, 1)):
        t.call(variation(f, s, 100, [(1, 10)], reason, 1), 17)
        for minute, count, number in ((2_950, 1, 17), (2_940, 1, 17), (2_939, 2, 17), (2_910, 2, 17), (2_910, 3, 0), (2_950, 2, 0), (2_879, 3, 17)):
            t.call(outage(f, minute, count))
            t.call(variation(f, s, 100, [(1, 10)], reason, 1), number)
    t.words()


def no_old_offer_inside_the_gate(t):
    """Nothing in force counts as a total of 0: reason 3 never holds, 4 and 5 for any total above 0."""
    t.open(3, 5)
    for f in range(3):
        t.call(capability(f, GENERATION))
    notices(t, 0, 1000)
    t.call(variation(0, 0, 1), 17)
    for reason in (3, 4, 5):
        t.call(variation(0, 0, 1, [], reason), 17)
    t.call(variation(0, 0, 1, [(7, 1)], 3), 17)
    t.call(variation(0, 0, 1, [(7, 1)], 4))
    t.call(variation(1, 0, 1, [(9, 2)], 5))
    t.call(variation(2, 0, 1, [], 1))
    t.call(look_up(2, 0, 1), 19)
    t.call(variation(2, 0, 1, [(3, 3)], 4))
    t.call(variation(2, 0, 1, [(3, 2)], 3))
    t.call(variation(2, 0, 1, [], 3))
    t.call(variation(2, 0, 1, [], 3), 17)
    t.call(variation(2, 0, 1, [(100, 1)], 5))
    t.call(total(0, 1), 0, 3, 4)
    t.words()


def prices_tenth_by_tenth(t):
    """Inside the gate with reason 1, each of many offers over 50.0 MW at 40.00 and 20.0 at 50.00: prices are compared tenth by tenth."""
    t.open(len(TRIES), 1)
    for f in range(len(TRIES)):
        t.call(capability(f, GENERATION))
        t.call(standing(f, 0, 4, [(4000, 500), (5000, 200)]))
    t.call(clock(60))
    for f, (pairs, number) in enumerate(TRIES):
        t.call(variation(f, 0, 4, pairs, 1), number)
    varied = [sum(quantity for _, quantity in pairs) for pairs, number in TRIES if number == 0 and pairs]
    t.call(total(0, 4), 0, len(TRIES), sum(varied) + 700 * (len(TRIES) - len(varied)))
    t.words()


def ten_pairs_inside_the_gate(t):
    """Ten pairs held, and ten filed inside the gate that differ in one price, one quantity or not at all."""
    held = [(i - 4, 10 + i) for i in range(10)]
    t.open(22, 1)
    for f in range(22):
        t.call(capability(f, GENERATION))
        t.call(standing(f, 0, 4, held))
    t.call(clock(60))
    for i in range(10):
        other_price = [(price - (k <= i), quantity) for k, (price, quantity) in enumerate(held)]
        t.call(variation(i, 0, 4, other_price, 1), 17)
        other_quantity = [(price, quantity + (k == i)) for k, (price, quantity) in enumerate(held)]
        t.call(variation(10 + i, 0, 4, other_quantity, 1), 0 if i == 9 else 17)
    t.call(variation(20, 0, 4, held, 1))
    t.call(variation(21, 0, 4, held[:9], 1))
    t.call(total(0, 4), 0, 22, 20 * 145 + 146 + 126)
    t.words()


def neighbouring_cells(t):
    """Every cell beside a held offer's is filled: the look-up, the total, the gate and the test for a duplicate keep to its own 24 words."""
    held, varied, more = ([(1, first), (2, 1), (3, 1), (4, 1), (5, last)] for first, last in ((8, 13), (9, 14), (9, 15)))
    t.open(3, 5)
    for f in range(3):
        t.call(capability(f, with_words(GENERATION, {9: 1000, 10: 1000, 11: 1000})))
    for f in range(3):
        for s in (1, 2, 3):
            for slot in (99, 100, 101):
                t.call(standing(f, s, slot, held, 1000))
                t.call(variation(f, s, slot, varied, 0, 999))
    t.call(standing(1, 1, 335, [(1, 11)], 1000))
    t.call(standing(1, 2, 0, [(1, 12)], 1000))
    t.call(variation(1, 1, 335, [(1, 13)], 0, 1000))
    t.call(clock(2970))
    t.call(notice(5, 100, 101))
    t.call(look_up(1, 2, 100), 0, 2, 26)
    t.call(look_up(1, 1, 335), 0, 2, 13)
    t.call(total(2, 100), 0, 3, 78)
    t.call(variation(1, 2, 100, varied, 5, 1), 17)
    t.call(variation(1, 2, 100, more, 5, 1))
    t.call(variation(2, 3, 101, more, 5, 1))
    t.call(total(2, 100), 0, 3, 79)
    t.call(standing(1, 2, 99, held, 1000), 18)
    t.call(standing(1, 2, 100, held, 1000), 17)
    t.words()


def an_earlier_variation_is_the_old(t):
    """Inside the gate the old offer is the variation in force, not the standing offer behind it."""
    t.open(1, 1)
    t.call(capability(0, GENERATION))
    t.call(standing(0, 0, 100, [(1, 50)]))
    t.call(variation(0, 0, 100, [(2, 60)]))
    t.call(notice(4, 100, 100))
    t.call(clock(2970))
    t.call(variation(0, 0, 100, [(1, 55)], 4), 17)
    t.call(variation(0, 0, 100, [(1, 61)], 4), 17)
    t.call(variation(0, 0, 100, [(2, 61)], 4))
    t.call(variation(0, 0, 100, [(2, 61)], 4), 17)
    t.call(variation(0, 0, 100, [], 1), 17)
    t.call(variation(0, 0, 100, [(9, 1)], 4), 17)
    t.call(variation(0, 0, 100, [(2, 1)], 1))
    t.call(variation(0, 0, 100, [(2, 1), (9, 1)], 4))
    t.call(look_up(0, 0, 100), 0, 4, 2)
    t.words()


def variation_after_a_withdrawal(t):
    """Notice 5 withdrawn: a variation by reason 5 draws 17; notices 3 and 4 stand; notice 5 again lets it pass."""
    t.open(1, 5)
    t.call(capability(0, GENERATION))
    t.call(clock(30 * 99))
    notices(t, 100, 101)
    t.call(variation(0, 0, 100, [(1, 50)], 5))
    t.call(withdrawal())
    t.words()
    t.call(variation(0, 0, 100, [(1, 60)], 5), 17)
    t.call(variation(0, 0, 100, [(1, 60)], 4))
    t.call(variation(0, 0, 100, [(1, 55)], 3))
    t.call(variation(0, 0, 100, [(1, 60)], 5), 17)
    t.call(notice(5, 101, 101))
    t.call(variation(0, 0, 100, [(1, 60)], 5), 17)
    t.call(variation(0, 0, 101, [(1, 60)], 5))
    t.call(notice(5, 100, 100))
    t.call(variation(0, 0, 100, [(1, 60)], 5))
    t.call(variation(0, 0, 101, [(1, 70)], 5), 17)
    t.call(withdrawal(4), 7)
    t.call(variation(0, 4, 100, [(1, 60)], 5))
    t.call(withdrawal())
    t.call(withdrawal())
    t.call(variation(0, 4, 100, [(1, 70)], 5), 17)
    t.words()


def notice_replaced(t):
    """A notice of a kind replaces that kind's last one, wholly, and no other kind's."""
    t.open(1, 1)
    t.call(capability(0, GENERATION))
    t.call(clock(30 * 99))
    t.call(notice(4, 100, 101))
    t.call(notice(3, 0, 1000))
    t.call(variation(0, 0, 100, [(1, 50)], 4))
    t.call(notice(4, 101, 101))
    t.call(variation(0, 0, 100, [(1, 60)], 4), 17)
    t.call(variation(0, 0, 101, [(1, 60)], 4))
    t.call(variation(0, 0, 100, [(1, 40)], 3))
    t.call(notice(3, 101, 101))
    t.call(variation(0, 0, 100, [(1, 30)], 3), 17)
    t.call(notice(5, 100, 100))
    t.call(variation(0, 0, 100, [(1, 50)], 4), 17)
    t.call(variation(0, 0, 100, [(1, 50)], 5))
    t.call(notice(4, 200, 100), 7)
    t.call(variation(0, 0, 101, [(1, 70)], 4))
    t.words()


def outage_kept_over_a_capability(t):
    """A capability leaves the outage window as it was, and offers in force where a mark is cleared or a maximum lowered."""
    t.open(1, 5)
    t.call(capability(0, GENERATION))
    t.call(clock(30 * 99))
    t.call(outage(0, 30 * 99, 1))
    t.call(capability(0, with_words(GENERATION, {1: 500})))
    t.words()
    t.call(variation(0, 0, 100, [(1, 500)], 2))
    t.call(capability(0, with_words(GENERATION, {1: 10, 12: 0})))
    t.call(look_up(0, 0, 100), 0, 4, 500)
    t.call(total(0, 100), 0, 1, 500)
    t.call(variation(0, 0, 100, [(1, 10)], 2), 9)
    t.call(capability(0, with_words(GENERATION, {1: 10})))
    t.call(variation(0, 0, 100, [(1, 11)], 2), 16)
    t.call(variation(0, 0, 100, [(1, 10)], 2))
    t.words()


def totals_by_facility(t):
    """Totals over facilities with a variation, a standing offer, a blank one, none, and no kind."""
    t.open(6, 5)
    for f in range(5):
        t.call(capability(f, LOAD if f == 4 else GENERATION))
    t.call(total(1, 60))
    t.call(standing(0, 1, 60, [(1, 10)], 1))
    t.call(standing(1, 1, 60, [(1, 20)], 1))
    t.call(variation(1, 1, 60, [(1, 25)], 0, 1))
    t.call(standing(2, 1, 60, [], 1))
    t.call(standing(4, 1, 60, [(1, 40)]))
    t.call(total(1, 60), 0, 4, 75)
    t.call(total(1, 61))
    t.call(total(0, 60))
    t.call(total(2, 60))
    t.call(variation(3, 1, 60, [(1, 1), (2, 2), (3, 3), (4, 4), (5, 5)], 0, 1))
    t.call(total(1, 60), 0, 5, 90)
    t.call(clock(3600))
    t.call(total(1, 60 + 336), 0, 4, 70)
    t.call(total(1, 60), 10)
    t.call(total(5, 100), 3)
    t.words()


def nothing_in_force(t):
    """Look-ups that draw 19: another facility, service or slot than the one filed for, and after a variation's period."""
    t.open(2, 5)
    for f in (0, 1):
        t.call(capability(f, GENERATION))
    t.call(standing(0, 2, 60, [(1, 1)], 1))
    t.call(variation(1, 3, 61, [(1, 1)], 0, 1))
    for f, s, period, answer in ((0, 2, 60, (0, 3, 1)), (1, 2, 60, (19,)), (0, 1, 60, (19,)), (0, 3, 60, (19,)), (0, 2, 59, (19,)), (0, 2, 61, (19,)),
                                 (1, 3, 61, (0, 4, 1)), (1, 3, 60, (19,)), (1, 3, 62, (19,)), (0, 3, 61, (19,)), (1, 4, 61, (19,))):
        t.call(look_up(f, s, period), *answer)
    t.call(clock(2 * 1440))
    t.call(look_up(1, 3, 61 + 336), 19)
    t.call(look_up(0, 2, 60 + 336), 0, 1, 1)
    t.words()


def refused_writes_nothing(t):
    """A run of refused calls of every number between two checksums that are the same; words past N stay."""
    t.open(1, 5, past=5)
    t.call(capability(0, GENERATION))
    t.call(standing(0, 0, 60, [(1, 5)]))
    t.call(clock(30 * 59))
    t.words()
    for r, number in ((b'', 2), (look_up(1, 0, 61), 3), (look_up(0, 5, 61), 3), (total(0, 61)[:111] + b'\x01', 4), (clock(0), 6), (outage(0, 9999, 1), 7),
                      (notice(2, 1, 2), 7), (withdrawal(0), 7), (capability(0, LOAD), 8), (standing(0, 0, 336), 10), (standing(0, 0, 70, [(450001, 1)]), 11),
                      (standing(0, 0, 70, [(1, 0)]), 12), (standing(0, 0, 70, [(1, 1), (1, 1)]), 13), (standing(0, 0, 70, ramps=(0, 41)), 14), (standing(0, 2, 70), 15),
                      (standing(0, 4, 70, [(1, 201)]), 16), (standing(0, 0, 60, [(1, 6)]), 17), (variation(0, 0, 60, [(1, 6)]), 17), (look_up(0, 1, 61), 19),
                      (look_up(0, 0, 60), None), (total(0, 60), None)):
        t.call(r, *((0, 1, 5) if number is None else (number,)))
    t.words()
    t.call(clock(30 * 60))
    t.call(standing(0, 0, 60, [(1, 5)]), 18)
    t.words()
