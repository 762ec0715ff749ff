"""Number 1 in every way, from heads that a host damaged and words too few; each edge from both sides."""
from .form import (GENERATION, LEAST, LOAD, MARK, MOST, capability, clock, look_up, notice, one_of_each, outage, standing, total, variation,
                   with_bytes, withdrawal, words_needed)

# The head of a book for one facility and energy alone
HEAD = {0: MARK, 1: 2, 2: 1, 3: 1, 4: 0, 5: 1, 6: 0, 7: 1, 8: 0, 9: 1, 10: 0, 11: -5, 12: 5, 13: 5, 14: 5, 15: 5, 16: 5}


def _unusable(t, whole=False):
    """A few calls, good ones and damaged ones; with `whole` one of each and records of other lengths."""
    if whole:
        for r in one_of_each():
            t.call(r, 1)
        for length in (0, 1, 111):
            t.call(clock(7)[:length], 1)
        t.call(clock(7) + b'\x00', 1)
        t.call(with_bytes(clock(7), {5: 0}), 1)
        t.call(look_up(255, 255, 100), 1)
        t.call(with_bytes(clock(7), {13: 1}), 1)
    else:
        t.call(clock(1_000_000_000), 1)
        t.call(total(0, 100), 1)


def _start(t, F=2, S=5, now=7, past=0):
    t.open(F, S, past=past)
    t.call(capability(0, GENERATION))
    t.call(standing(0, 0, 100, [(4000, 70)]))
    t.call(variation(0, 0, 101, [(4000, 80)]))
    t.call(clock(now))


def _head_word(t, at, right, wrong):
    for i, value in enumerate(wrong):
        t.write({at: value})
        _unusable(t, whole=i == 0)
        t.words()
    t.write({at: right})
    t.call(look_up(0, 0, 100), 0, 1, 70)
    t.words()


def mark_wrong(t):
    """Head word 0 is another than 0x534F42: 1 ahead of any test of the record; put right, the book answers again."""
    _start(t)
    _head_word(t, 0, MARK, (0, 1, MARK + 1, MARK - 1, 0x424F53, 0x534F42 << 8 & MOST, -MARK, LEAST, MOST, 0x534F00, 0x004F42, -1))


def version_wrong(t):
    """Head word 1 is another than 2, as in a book of version 1; put right, the same words answer."""
    _start(t)
    _head_word(t, 1, 2, (1, 0, 3, -1, -2, 258, 65538, 2 << 24, LEAST, MOST))


def facilities_wrong(t):
    """Head word 2 is no F, or one whose words were not lent."""
    _start(t)
    _head_word(t, 2, 2, (0, 65, -1, -2, 3, 63, 64, 66, 256 + 2, 65536 + 2, LEAST, MOST, LEAST + 2))


def services_wrong(t):
    """Head word 3 is neither 1 nor 5."""
    _start(t)
    _head_word(t, 3, 5, (0, 2, 3, 4, 6, -1, -5, 256 + 5, 65536 + 1, LEAST, MOST, 10))


def services_too_many(t):
    """Head word 3 made 5 in the words of a book for one service."""
    _start(t, 2, 1)
    _head_word(t, 3, 1, (5, 0, 2))


def clock_wrong(t):
    """Head word 4 outside 0 to 1,000,000,000."""
    _start(t)
    _head_word(t, 4, 7, (-1, 1_000_000_001, 1_000_000_002, LEAST, MOST, -1_000_000_000))


def clock_first(t):
    """Head word 4 at 0: usable, and period 1 is the first not begun."""
    _start(t)
    t.write({4: 0})
    t.call(total(0, 0), 10)
    t.call(total(0, 1))
    t.call(look_up(0, 0, 100), 0, 3, 70)
    t.call(clock(0))
    t.words()

    # the last minute is in day 694,444: the horizon's end is 48·694,451 = 33,333,648


def clock_last(t):
    """Head word 4 at 1,000,000,000: usable; the last periods there are, and no other minute but the same."""
    _start(t)
    t.write({4: 1_000_000_000})
    t.call(total(0, 33_333_333), 10)
    t.call(total(0, 33_333_334))
    t.call(total(0, 33_333_647))
    t.call(total(0, 33_333_648), 10)
    t.call(total(0, MOST), 10)
    t.call(clock(1_000_000_000))
    t.call(clock(1_000_000_001), 6)
    t.call(clock(999_999_999), 6)
    t.call(variation(0, 0, 33_333_334, [(1, 1)]), 17)
    t.call(variation(0, 0, 33_333_335, [(1, 1)]), 17)
    t.call(variation(0, 0, 33_333_336, [(1, 1)]))
    t.call(variation(0, 0, 33_333_647, [(1, 2)]))
    t.call(look_up(0, 0, 33_333_336), 0, 4, 1)
    t.call(look_up(0, 0, 33_333_647), 0, 4, 2)
    t.call(outage(0, 1_000_000_000, 3))
    t.call(variation(0, 0, 33_333_334, [(1, 1)], 2))
    t.call(look_up(0, 0, 33_333_334), 0, 4, 1)
    t.words()


def head_for_fewer_facilities(t):
    """Head word 2 made 1 in a book of two: usable, with blocks and cells where a book of one has them."""
    _start(t)
    t.call(capability(1, LOAD))
    t.write({2: 1})
    t.call(look_up(1, 0, 100), 3)
    t.call(look_up(0, 4, 100), 19)
    # the cells of a book of one start where the block of facility 1 was: its 24 words and 8 more come before the first cell
    t.call(look_up(0, 0, 100), 19)
    t.call(standing(0, 0, 100, [(5000, 71)]))
    t.call(look_up(0, 0, 100), 0, 3, 71)
    t.words()
    t.write({2: 2})
    t.call(look_up(0, 0, 100), 0, 1, 70)
    t.words()


def head_for_one_service(t):
    """Head word 3 made 1 in a book of five services: usable, service 1 draws 3."""
    _start(t)
    t.write({3: 1})
    t.call(look_up(0, 1, 100), 3)
    t.call(look_up(0, 0, 100), 0, 1, 70)
    t.call(total(0, 101), 0, 1, 80)
    t.call(total(1, 101), 3)
    t.words()


def head_for_more_facilities(t):
    """Words past N as many as one more facility needs: head word 2 made 2 is usable, and the words past N are its cells."""
    _start(t, 1, 1, past=words_needed(2, 1) - words_needed(1, 1))
    t.write({2: 3})
    _unusable(t)
    t.write({2: 2})
    t.call(look_up(1, 0, 100), 5)
    t.call(capability(1, GENERATION))
    t.call(look_up(1, 0, 100), 19)
    t.call(standing(1, 0, 335, [(1, 2)]))
    t.call(variation(1, 0, 335, [(1, 3)]))
    t.call(look_up(1, 0, 335), 0, 4, 3)
    t.words()
    t.write({2: 1})
    t.call(look_up(1, 0, 100), 3)
    t.call(look_up(0, 0, 100), 0, 1, 70)
    t.words()


def words_one_too_few(t):
    """A right head over N - 1 words, written by the host: 1, whatever the record."""
    t.open(1, 1, past=-1, number=20)
    t.write(HEAD)
    _unusable(t, whole=True)
    t.words()
    t.open(1, 5, past=-1, number=20)
    t.write({**HEAD, 3: 5})
    _unusable(t, whole=True)
    t.words()


def words_just_enough(t):
    """A right head over N words that no opening wrote: usable, with the cells that its words happen to be."""
    t.open(2, 1, past=words_needed(1, 1) - words_needed(2, 1), number=20)
    t.write({**HEAD, 2: 2})
    _unusable(t)
    t.write(HEAD)
    t.call(clock(7))
    t.call(look_up(0, 0, 100), 5)
    t.call(capability(0, GENERATION))
    t.call(look_up(0, 0, 100), 19)
    t.call(standing(0, 0, 100, [(4, 70)]))
    t.call(look_up(0, 0, 100), 0, 3, 70)
    t.words()


def words_fewer_than_64(t):
    """A right head, or what of it fits, over 64, 63, 5, 1 and no words."""
    for lent in (64, 63, 62, 17, 5, 1, 0):
        t.open(1, 1, past=lent - words_needed(1, 1), number=20)
        fits = {i: value for i, value in HEAD.items() if i < lent}
        if fits:
            t.write(fits)
        _unusable(t, whole=lent in (0, 63))
        t.words()


def smaller_sizes_in_64_words(t):
    """Over 64 words, a head with F 0 and N 64: F isn't 1 to 64."""
    t.open(0, 1, past=64, number=20)
    t.write({**HEAD, 2: 0})
    _unusable(t, whole=True)
    t.write({**HEAD, 2: -1, 3: 5})
    _unusable(t)
    t.words()


def one_ahead_of_all(t):
    """A record that would draw any other number draws 1 from an unusable book, and its own number once the book is put right."""
    t.open(2, 5, past=1)
    t.call(capability(0, GENERATION))
    tries = [(clock(7)[:111], 2), (with_bytes(clock(7), {0: 0}), 2), (look_up(2, 0, 100), 3), (look_up(0, 5, 100), 3), (with_bytes(clock(7), {111: 1}), 4),
             (look_up(1, 0, 100), 5), (outage(1, 0, 1), 5), (clock(-1), 6), (withdrawal(4), 7), (notice(3, 5, 4), 7), (capability(0, LOAD), 8),
             (standing(0, 1, 336), 10), (total(0, 0), 10), (standing(0, 0, 4, [(4000, 100_000)]), 11), (standing(0, 0, 4, [(1, 0)]), 12),
             (standing(0, 0, 4, [(2, 1), (1, 1)]), 13), (standing(0, 0, 4, [(2, 1)], ramps=(51, 0)), 14), (standing(0, 1, 4, [(2, 1)]), 15),
             (standing(0, 0, 4, [(2, 801)]), 16), (variation(0, 0, 2, [(2, 1)]), 17), (look_up(0, 0, 4), 19)]
    t.write({1: 1})
    for r, number in tries:
        t.call(r, 1)
    t.write({1: 2})
    for r, number in tries:
        t.call(r, number)
    t.call(standing(0, 0, 4, [(2, 1)]))
    t.call(standing(0, 0, 4, [(2, 1)]), 18)
    t.write({64 + 12: 0})
    t.call(standing(0, 0, 4, [(2, 1)]), 9)
    t.words()
