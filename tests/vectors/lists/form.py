"""Records, places in the book's words and lines of the text form, for the lists of the other modules here (tests/vectors/README.md).

Each line is written with the number that the papers give it, and each look-up and total with its word 0 and sum, as the list's
author read them. make.py compares them with the answers.
"""

LEVEL = 7  # the first seven requests of document 02

LIMITS = (-450000, 450000, 400000, 400001, 400002, 400003)

GENERATION = (1, 1300, 800, 300, 310, 320, 200, 50, 40, 500, 600, 700, 1, 1, 1, 1, 1)
LOAD = (2, 0, 0, 300, 310, 320, 0, 0, 0, 0, 0, 0, 0, 1, 1, 1, 0)
LINK = (3, 900, 800, 300, 310, 320, 200, 50, 40, 500, 600, 700, 1, 0, 0, 0, 0)

LEAST, MOST = -2**31, 2**31 - 1
MARK = 0x534F42


def words_needed(F, S):
    return 64 + 32 * F + 16128 * F * S


def block(f):
    return 64 + 32 * f


def cell(F, S, f, s, h, slot):
    return 64 + 32 * F + 24 * (((f * S + s) * 2 + h) * 336 + slot)


# Facility 0's cells for energy and slot 100 in a book of one facility and one service
STANDING_AT, VARIATION_AT = cell(1, 1, 0, 0, 0, 100), cell(1, 1, 0, 0, 1, 100)


# ---- records ----

def _word(value):
    return (value % 2**32).to_bytes(4, 'big')


def record(call, facility=0, service=0, period=0, reason=0, proportion=0, ramps=(0, 0), a=0, b=0, w=()):
    w = list(w) + [0] * (20 - len(w))
    head = b'SOB\x00\x01' + bytes([call, facility, service]) + _word(period) + bytes([reason, 0]) + proportion.to_bytes(2, 'big')
    return head + b''.join(_word(n) for n in (*ramps, a, b, *w))


def clock(minute):
    return record(1, a=minute)


def capability(f, w):
    return record(2, f, w=w)


def with_words(w, changes):
    w = list(w)
    for i, value in changes.items():
        w[i] = value
    return w


def _pairs(pairs):
    """Pairs in their places: a list of (price, quantity), None for a blank, or {place: (price, quantity)}."""
    if isinstance(pairs, dict):
        pairs = [pairs.get(i) for i in range(10)]
    return [n for pair in pairs for n in pair or (0, 0)]


def standing(f, s, slot, pairs=(), proportion=0, ramps=(0, 0), reason=0):
    return record(3, f, s, slot, reason, proportion, ramps, w=_pairs(pairs))


def variation(f, s, period, pairs=(), reason=0, proportion=0, ramps=(0, 0)):
    return record(4, f, s, period, reason, proportion, ramps, w=_pairs(pairs))


def both(t, f, s, period, pairs, number, **more):
    """A standing offer and a variation of the same: the same number, where the gate has no part in it."""
    t.call(standing(f, s, period, pairs, **more), number)
    t.call(variation(f, s, period, pairs, **more), number)


def filler(s):
    """The least proportion that generation's offer for service s has to carry."""
    return 1 if 1 <= s <= 3 else 0


def pairs_at(at, pairs):
    """Words of all ten pairs of the cell at `at`."""
    pairs = list(pairs) + [(0, 0)] * (10 - len(pairs))
    return {at + 4 + i: n for i, n in enumerate(n for pair in pairs for n in pair)}


def outage(f, minute, count):
    return record(5, f, a=minute, b=count)


def notice(kind, first, last):
    return record(6, reason=kind, a=first, b=last)


def withdrawal(kind=5):
    return record(7, reason=kind)


def look_up(f, s, period):
    return record(8, f, s, period)


def total(s, period):
    return record(9, service=s, period=period)


def with_bytes(r, changes):
    r = bytearray(r)
    for i, value in changes.items():
        r[i] = value
    return bytes(r)


def one_of_each(period=100, slot=100):
    """A good record of each call for a book of any size, for facility 0 and energy."""
    return [clock(7), capability(0, GENERATION), standing(0, 0, slot, [(4000, 70)]), variation(0, 0, period, [(4000, 80)]), outage(0, 0, 1),
            notice(3, 4, 5), withdrawal(), look_up(0, 0, period), total(0, period)]

# ---- calls that lists share ----

def of_each_kind(t):
    """Facility 0 is a generation, 1 a load and 2 a link."""
    t.open(3, 5)
    for f, w in enumerate((GENERATION, LOAD, LINK)):
        t.call(capability(f, w))


def notices(t, first, last):
    """Every notice, over these periods."""
    for kind in (3, 4, 5):
        t.call(notice(kind, first, last))


def notices_over_100(t, filed, backs, back_again):
    """Over 50 tenths, inside the gate of period 100: `filed` with reasons 3, 4 and 5 without the notice, with it before, after and over the period, of another
    kind, and withdrawn; `backs` are reason, tenths, and the reason by which `back_again` restores the 50."""
    for reason, quantity, back in backs:
        t.call(filed([(1, quantity)], reason), 17)
        t.call(notice(back, 100, 100))
        t.call(filed([(1, quantity)], reason), 17)
        t.call(notice(back, 1, 2))
        for first, last, number in ((99, 99, 17), (101, 101, 17), (0, 99, 17), (101, 40_000_000, 17), (100, 100, 0), (99, 101, 0)):
            t.call(notice(reason, first, last))
            t.call(filed([(1, quantity)], reason), number)
            if number == 0:
                t.call(notice(back, 100, 100))
                back_again(back)
                t.call(notice(back, 1, 2))
        t.call(notice(reason, 1, 2))
    t.call(notice(5, 100, 100))
    t.call(withdrawal())
    t.call(filed([(1, 60)], 5), 17)


# ---- lines ----

class Script:
    def __init__(self):
        self.ids = []
        self.lines = []   # questions
        self.stated = []  # for each line a pattern of its answer; None for a comment
        self.equal = {}   # lines by a name that says they are answered alike

    def list(self, identity, sentence):
        assert ' ' not in identity and sentence.endswith('.') and sentence.isascii()
        self.ids.append(identity)
        self._line(f'# {identity}: {sentence}', None)

    def _line(self, text, stated):
        self.lines.append(text)
        self.stated.append(stated)

    def open(self, F, S, limits=LIMITS, past=0, number=0):
        self._line(f'open {LEVEL} {F} {S} {" ".join(map(str, limits))} {past} =', str(number))

    def call(self, r, number=0, first=0, sum=0, ramps=None):
        """`first` is word 0, and `ramps` words 2 and 3 where they are stated."""
        words_2_and_3 = r'( -?\d+){2}' if ramps is None else ' {} {}'.format(*ramps)
        self._line(f'call {r.hex() or "-"} =', rf'{number} {first} -?\d+{words_2_and_3}( -?\d+){{20}} {sum}')

    def test(self, r, F, S, number):
        self._line(f'test {r.hex() or "-"} {F} {S} =', str(number))

    def next(self, minute, slot, period):
        self._line(f'next {minute} {slot} =', str(period))

    def date(self, date, period, p=None, weekday=0):
        """`date` is (year, month, day), and the weekday 0 for Monday; without P, 21."""
        self._line('date {} {} {} {} ='.format(*date, period), '21 0 0' if p is None else f'0 {p} {weekday}')

    def period(self, p, date=None, period=0, weekday=0):
        """Without a date, 21."""
        self._line(f'period {p} =', '21 0 0 0 0 0' if date is None else '0 {} {} {} {} {}'.format(*date, period, weekday))

    def there_and_back(self, date, period, p, weekday):
        self.date(date, period, p, weekday)
        self.period(p, date, period, weekday)

    def write(self, words):
        self._line('write ' + ' '.join(f'{i} {value}' for i, value in words.items()) + ' =', '')

    def words(self, equal=None):
        """Words that are stated to be the same as at every other line of the file with this name."""
        if equal is not None:
            self.equal.setdefault(equal, []).append(len(self.lines))
        self._line('words =', r'\d+')
