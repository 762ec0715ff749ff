"""Openings: refusal 20 in every way, each edge from both sides, and the words that an opening writes or leaves."""
from .form import GENERATION, LEAST, LIMITS, MOST, capability, clock, look_up, one_of_each, total, words_needed

LARGEST = 10_000_000


def _refused(t, F, S, limits=LIMITS, past=0):
    t.open(F, S, limits, past, number=20)
    t.words()


def _with(i, value, start=LIMITS):
    return tuple(value if j == i else n for j, n in enumerate(start))


def opened_words(t):
    """The words that openings of several sizes write over words that held their own index; words past N keep theirs."""
    for F, S, past in ((1, 1, 0), (1, 1, 1), (1, 1, 100), (1, 5, 0), (1, 5, 7), (2, 1, 0), (2, 5, 3), (3, 5, 0), (7, 1, 24)):
        t.open(F, S, LIMITS, past)
        t.words()


def opened_book_answers(t):
    """A book just opened: no kind, nothing to total, clock 0, every window empty."""
    t.open(2, 5, past=2)
    for s in range(5):
        t.call(look_up(0, s, 1), 5)
        t.call(total(s, 1))
        t.call(total(s, 335))
        t.call(total(s, 336), 10)
        t.call(total(s, 0), 10)
    t.call(capability(0, GENERATION))
    for s in range(5):
        t.call(look_up(0, s, 1), 19)
        t.call(look_up(1, s, 1), 5)
    t.call(clock(0))
    t.words()


def facilities_refused(t):
    """F not 1 to 64, with as many words as a book of that F would need, or plenty; the words stay."""
    for F, S, lent in ((0, 1, 64), (0, 1, 16224), (0, 5, 80736), (-1, 1, 16224), (-1, 5, 80736), (65, 1, words_needed(65, 1)), (66, 1, 100000),
                       (65, 5, 100000), (100, 1, 16224), (128, 1, 16224), (255, 1, 16224), (256, 1, 16224), (257, 1, 16224), (65537, 1, 16224),
                       (MOST, 1, 16224), (MOST, 5, 16224), (LEAST, 1, 16224), (LEAST, 5, 16224), (LEAST + 1, 1, 16224), (-64, 5, 16224)):
        _refused(t, F, S, past=lent)


def services_refused(t):
    """S neither 1 nor 5, with as many words as a book of that S would need, or plenty; the words stay."""
    for F, S, lent in ((1, 0, 96), (1, 0, 16224), (1, 2, words_needed(1, 2)), (1, 3, words_needed(1, 3)), (1, 4, words_needed(1, 4)),
                       (1, 6, words_needed(1, 6)), (1, 7, 113000), (1, -1, 16224), (1, -5, 80736), (1, 257, 80736), (1, 261, 80736), (1, 65537, 80736),
                       (1, MOST, 16224), (1, LEAST, 16224), (2, 2, 65000), (3, 4, 200000), (5, 2, words_needed(5, 2)), (64, 0, 16224)):
        _refused(t, F, S, past=lent)


def sizes_given_for_each_other(t):
    """F and S both wrong, with no words, few and plenty; and 5 and 1 the other way about, which are two books."""
    for F, S, lent in ((0, 0, 0), (0, 0, 64), (65, 6, 16224), (-1, -1, 16224), (-1, -5, 100000), (MOST, MOST, 16224), (LEAST, LEAST, 16224),
                       (65, 0, 16224), (0, 2, 16224)):
        _refused(t, F, S, past=lent)
    t.open(5, 1)
    t.words()
    t.open(1, 5)
    t.words()


def sizes_at_the_edge(t):
    """F 1 and 64 with S 1, and F 1 and 2 with S 5, in just the words they need."""
    for F, S in ((1, 1), (64, 1), (63, 1), (1, 5), (2, 5)):
        t.open(F, S)
        t.words()


def words_too_few(t):
    """One word short, the words of a smaller book, of the head alone, one fewer, one and none: each refused, the words stay."""
    for F, S in ((1, 1), (2, 1), (1, 5), (2, 5), (3, 1), (64, 1)):
        _refused(t, F, S, past=-1)
    needed = words_needed(1, 1)
    for few in (2, 24, 16128, needed - 97, needed - 96, needed - 95, needed - 65, needed - 64, needed - 63, needed - 1, needed):
        _refused(t, 1, 1, past=-few)
    _refused(t, 2, 1, past=words_needed(1, 1) - words_needed(2, 1))
    _refused(t, 1, 5, past=words_needed(1, 1) - words_needed(1, 5))
    _refused(t, 5, 1, past=words_needed(1, 5) - words_needed(5, 1))
    _refused(t, 64, 5, past=words_needed(1, 1) - words_needed(64, 5))
    _refused(t, 64, 5, past=words_needed(64, 1) - words_needed(64, 5))


def words_enough(t):
    """N words, and more than N: accepted."""
    for F, S, past in ((1, 1, 0), (1, 1, 1), (1, 5, 0), (2, 1, 0), (3, 1, 16160)):
        t.open(F, S, past=past)
        t.words()


def limits_at_the_edge(t):
    """Each limit at 0 and at -10,000,000 or 10,000,000, alone and together: accepted and written as given."""
    for limits in ((0,) * 6, (-LARGEST,) + (LARGEST,) * 5, (-LARGEST, 0, 0, 0, 0, 0), (0, LARGEST, LARGEST, LARGEST, LARGEST, LARGEST), (-1, 1, 1, 1, 1, 1),
                   (-1, 0, 0, 0, 0, 0), (0, 1, 2, 3, 4, 5)):
        for F, S in ((1, 1), (1, 5)):
            t.open(F, S, limits)
            t.words()
    for i in range(6):
        for value in (0, -LARGEST if i == 0 else LARGEST, -LARGEST + 1 if i == 0 else LARGEST - 1):
            t.open(1, 5, _with(i, value))
            t.words()


def energy_limits_refused(t):
    """The lowest energy price above 0 or below -10,000,000, the highest below 0 or above 10,000,000, and both on one side of 0."""
    for value in (1, 2, LARGEST, LARGEST + 1, MOST, -LARGEST - 1, LEAST):
        _refused(t, 1, 5, _with(0, value))
        _refused(t, 1, 1, _with(0, value))
    for value in (-1, -LARGEST, -LARGEST - 1, LEAST, LARGEST + 1, MOST):
        _refused(t, 1, 5, _with(1, value))
        _refused(t, 1, 1, _with(1, value))
    for lowest, highest in ((-5, -1), (-LARGEST, -LARGEST), (1, 5), (LARGEST, LARGEST), (0, -1), (1, 0), (1, 1), (1, -1), (450000, -450000)):
        _refused(t, 1, 1, (lowest, highest, 0, 0, 0, 0))


def other_limits_refused(t):
    """The highest price of each of services 1 to 4 below 0 or above 10,000,000, in a book for one service too."""
    for i in (2, 3, 4, 5):
        for value in (-1, -LARGEST, LEAST, LARGEST + 1, MOST):
            _refused(t, 1, 5, _with(i, value))
        for value in (-1, LARGEST + 1):
            _refused(t, 1, 1, _with(i, value))


def all_wrong_at_once(t):
    """Sizes, words and limits wrong together: still 20."""
    _refused(t, 0, 2, (1, -1, -1, -1, -1, -1), 0)
    _refused(t, 65, 5, (LEAST, LEAST, LEAST, LEAST, LEAST, LEAST), 63)
    _refused(t, 1, 1, (MOST, MOST, MOST, MOST, MOST, MOST), -1)


def calls_after_a_refused_opening(t):
    """Words that no opening wrote are no book: every call draws 1, and the words stay."""
    for F, S, limits, past in ((1, 1, _with(0, 1), 0), (1, 1, LIMITS, -1), (2, 5, _with(5, -1), 0), (0, 1, LIMITS, 16224), (1, 1, LIMITS, -16224)):
        t.open(F, S, limits, past, number=20)
        for r in one_of_each():
            t.call(r, 1)
        t.call(b'', 1)
        t.words()
