"""F 64: the largest books, at their first and last facility, service and slot."""
from .form import GENERATION, LOAD, block, capability, cell, clock, look_up, outage, standing, total, variation


def largest_book(t):
    """F 64, S 5: facilities 0 and 63, every service, slots 0 and 335, and facility 64, which is none; words past N stay."""
    t.open(64, 5, past=3)
    t.call(look_up(63, 4, 335), 5)
    t.call(total(4, 335))
    for f in (0, 63):
        t.call(capability(f, GENERATION))
    t.call(capability(62, LOAD))
    t.call(capability(64, GENERATION), 3)
    t.call(capability(255, GENERATION), 3)
    for f in (0, 62, 63):
        for s in (0, 1, 4):
            if f == 62 and s != 1:
                t.call(standing(f, s, 335, [(1, 5)]), 9)
                continue
            for slot in (0, 335):
                t.call(standing(f, s, slot, [(1, 10 + f + s)], 1 if s == 1 else 0))
            t.call(variation(f, s, 335, [(2, 100 + f + s)], 0, 1 if s == 1 else 0))
            t.call(look_up(f, s, 335), 0, 4, 100 + f + s)
    t.call(standing(64, 0, 335), 3)
    t.call(look_up(64, 4, 335), 3)
    t.call(outage(64, 0, 1), 3)
    t.call(standing(63, 4, 336), 10)
    t.call(look_up(63, 3, 335), 19)
    t.call(total(0, 335), 0, 2, 263)
    t.call(total(1, 335), 0, 3, 101 + 163 + 164)
    t.call(total(4, 335), 0, 2, 104 + 167)
    t.call(clock(30 * 335))
    t.call(outage(63, 30 * 335, 3))
    t.call(look_up(63, 4, 336), 0, 1, 77)
    t.call(variation(63, 4, 336, [(1, 70)]), 17)
    t.call(variation(63, 4, 336, [(1, 70)], 2))
    t.call(total(4, 336), 0, 2, 14 + 70)
    t.words()
    t.write({2: 65})
    t.call(total(4, 336), 1)
    t.write({2: 64, cell(64, 5, 63, 4, 1, 0): 0})
    t.call(look_up(63, 4, 336), 0, 1, 77)
    t.write({block(63): 4})
    t.call(look_up(63, 4, 336), 5)
    t.call(total(4, 336), 0, 2, 14 + 77)
    t.words()


def largest_book_one_too_few(t):
    """F 64, S 5 over one word fewer than it needs: refused, the words stay."""
    t.open(64, 5, past=-1, number=20)
    t.call(total(0, 1), 1)
    t.words()


def sixty_four_for_energy(t):
    """F 64, S 1, an offer in force for every facility: the total of all, and of all but those whose variation has gone by."""
    t.open(64, 1)
    for f in range(64):
        t.call(capability(f, GENERATION))
        t.call(standing(f, 0, 60, [(1, f + 1)]) if f % 2 else variation(f, 0, 60, [(1, f + 1)]))
    t.call(total(0, 60), 0, 64, 64 * 65 // 2)
    t.call(clock(2 * 1440))
    t.call(total(0, 60), 10)
    t.call(total(0, 60 + 336), 0, 32, sum(f + 1 for f in range(1, 64, 2)))
    t.call(look_up(62, 0, 60 + 336), 19)
    t.call(look_up(63, 0, 60 + 336), 0, 1, 64)
    t.words()
