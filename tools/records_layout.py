"""The record's 112 bytes, which of them each call uses, and the record test: refusals 2, 3 and 4 (document 01, "The record", "Parts").
Beside these, the refusals that can be told from a record alone, whatever the book holds."""
import struct
from collections import namedtuple
from functools import lru_cache

LENGTH = 112
# "Bytes 0-2 SOB; 3-4 version 1; 5 call; 6 facility; 7 service; 8-11 period word; 12 reason; 13 zero; 14-15 proportion;
# 16-19 ramp up; 20-23 ramp down; 24-27 A; 28-31 B; 32-111 words W0 to W19", most significant byte first.
FORM = struct.Struct('>3sHBBBiBBHiiii20i')
MARK, VERSION = b'SOB', 1
MOST_FACILITIES, MOST_SERVICES = 64, 5

CALLS = {1: 'clock', 2: 'capability', 3: 'standing', 4: 'variation', 5: 'outage', 6: 'notice', 7: 'withdrawal', 8: 'look-up', 9: 'total'}
SERVICES = ('energy', 'primary', 'secondary', 'contingency', 'regulation')
SERVICE_TEXTS = ('energy', 'primary reserve', 'secondary reserve', 'contingency reserve', 'regulation')
REASONS = ('none', 'synchronisation', 'outage', 'surplus', 'shortfall', 'status', 'load-outage')
NOTICES = {3: 'surplus', 4: 'shortfall', 5: 'status'}

BYTES = {
    'facility': range(6, 7), 'service': range(7, 8), 'period word': range(8, 12), 'reason': range(12, 13), 'byte 13': range(13, 14),
    'proportion': range(14, 16), 'ramp up': range(16, 20), 'ramp down': range(20, 24), 'A': range(24, 28), 'B': range(28, 32),
}

Record = namedtuple('Record', 'call facility service period reason proportion ramp_up ramp_down a b words')


def build(call, facility=0, service=0, period=0, reason=0, proportion=0, ramp_up=0, ramp_down=0, a=0, b=0, words=()):
    words = list(words) + [0] * (20 - len(words))
    return FORM.pack(MARK, VERSION, call, facility, service, period, reason, 0, proportion, ramp_up, ramp_down, a, b, *words)


def read(data):
    """The fields of 112 bytes, right or wrong."""
    _, _, call, facility, service, period, reason, _, proportion, up, down, a, b, *words = FORM.unpack(data)
    return Record(call, facility, service, period, reason, proportion, up, down, a, b, words)


def pairs_of(words):
    return list(zip(words[0::2], words[1::2]))


def filled_length(pairs):
    """How many there are up to the last that is not blank. 'A pair with quantity 0 is blank.'"""
    return max((place for place, (_, quantity) in enumerate(pairs, 1) if quantity), default=0)


def early_blanks(pairs):
    """The places, from 1, of blank pairs that stand before one that is not."""
    return [place for place, (_, quantity) in enumerate(pairs[:filled_length(pairs)], 1) if not quantity]


# ---- facility kinds

# What each may do: services it may be registered for, reasons open to it inside the gate, its longest outage in periods (0: none), and
# whether its reserve proportion is tested.
Kind = namedtuple('Kind', 'name marks reasons outage proportion')
KINDS = {
    1: Kind('generation', (0, 1, 2, 3, 4), (1, 2, 3, 4, 5), 3, True),
    2: Kind('load', (1, 2, 3), (3, 4, 5, 6), 48, False),
    3: Kind('link', (0,), (3, 4, 5), 0, False),
}
KIND_NAMES = {number: kind.name for number, kind in KINDS.items()}
OUTAGES = ', '.join(f'{kind.name} 1 to {kind.outage}' if kind.outage else f'{kind.name} none' for kind in KINDS.values())


def kinds_with(holds):
    """The names of those of which it holds."""
    return [kind.name for kind in KINDS.values() if holds(kind)]


def alternatives(words):
    *most, last = words
    return f"{', '.join(most)} or {last}" if most else last


# ---- "The nine calls and what they use"

USES = {
    1: ('A',), 2: ('facility',), 3: ('facility', 'service', 'period word', 'reason'), 4: ('facility', 'service', 'period word', 'reason'),
    5: ('facility', 'A', 'B'), 6: ('reason', 'A', 'B'), 7: ('reason',), 8: ('facility', 'service', 'period word'), 9: ('service', 'period word'),
}


def offer_fields(service):
    """'An offer for service 0 uses both ramps and ten pairs; for 1 to 3 the proportion and five pairs; for 4 five pairs.'"""
    if service == 0:
        return ('ramp up', 'ramp down'), 10
    return (('proportion',) if service <= 3 else ()), 5


def takes_back(r):
    """Whether it is a variation whose pairs are all blank, which means: no variation. One with a price on a blank is refused."""
    return r.call == 4 and r.service < 5 and not any(r.words[:2 * offer_fields(r.service)[1]])


@lru_cache(maxsize=None)
def used_bytes(call, service):
    fields, words = USES[call], 0
    if call == 2:
        words = 17
    if call in (3, 4):
        more, pairs = offer_fields(service)
        fields, words = fields + more, 2 * pairs
    return frozenset(place for field in fields for place in BYTES[field]) | frozenset(range(32, 32 + 4 * words))


def field_at(place):
    for name, places in BYTES.items():
        if place in places:
            return name
    return f'W{(place - 32) // 4}'


# ---- word 0 of a look-up

SCHEDULE_CUTOFF_MINUTES = 5

# The call that filed the offer in force, and whether it was accepted less than the cutoff before the clock.
InForce = namedtuple('InForce', 'call is_fresh')
IN_FORCE = {1: InForce(3, False), 2: InForce(4, False), 3: InForce(3, True), 4: InForce(4, True)}


# ---- the record test

def form_faults(data):
    """2 'not 112 bytes, or mark, version or call wrong'"""
    faults = []
    if len(data) != LENGTH:
        many = 'too few' if len(data) < LENGTH else 'too many'
        faults.append(f'{len(data)} bytes, {abs(LENGTH - len(data))} {many}')
    if data[0:3] != MARK:
        faults.append(f"mark {data[0:3].hex() or 'missing'}, not {MARK.hex()} (SOB)")
    if data[3:5] != VERSION.to_bytes(2, 'big'):
        faults.append(f"version {data[3:5].hex() or 'missing'}, not 0001")
    if len(data) < 6 or data[5] not in CALLS:
        faults.append(f"call {data[5] if len(data) > 5 else 'missing'}, not 1 to 9")
    return faults


def range_faults(record, facilities, services):
    """3 'facility >= F or service >= S, where used'"""
    faults = []
    if 'facility' in USES[record.call] and record.facility >= facilities:
        faults.append(f'facility {record.facility}, and F is {facilities}')
    if 'service' in USES[record.call] and record.service >= services:
        faults.append(f'service {record.service}, and S is {services}')
    return faults


def stray_bytes(data):
    """4 'an unused byte not zero': the places of such bytes."""
    used = used_bytes(data[5], data[7])
    return [place for place in range(6, LENGTH) if data[place] and place not in used]


def stray_faults(data):
    return [f'byte {place} ({field_at(place)}) is {data[place]}, unused and not zero' for place in stray_bytes(data)]


def are_sizes(facilities, services):
    return 1 <= facilities <= MOST_FACILITIES and services in (1, MOST_SERVICES)


def record_test(data, facilities, services):
    """The number 0, 2, 3, 4 or 20, and what draws it; 20 comes first."""
    if not are_sizes(facilities, services):
        return 20, [f'F {facilities}, S {services}: F is 1 to 64 and S is 1 or 5']
    faults = form_faults(data)
    if faults:
        return 2, faults
    faults = range_faults(read(data), facilities, services)
    if faults:
        return 3, faults
    faults = stray_faults(data)
    return (4, faults) if faults else (0, [])


# ---- refusals that follow from the record alone, in any book

LAST_CLOCK = 1_000_000_000
LAST_NOTICE_PERIOD = 40_000_000
LARGEST_LIMIT = 10_000_000
LAST_PERIOD = 48 * (LAST_CLOCK // 1440 + 7) - 1


def first_fault(tests):
    for applies, number, text in tests:
        if applies:
            return number, text
    return 0, ''


def outside(values, lowest, highest):
    return any(not lowest <= value <= highest for value in values)


def capability_fault(r):
    w = r.words
    kind = KINDS.get(w[0], KINDS[1])
    closed = [SERVICES[s] for s in range(5) if w[12 + s] and s not in kind.marks]
    return first_fault([
        (w[0] not in KINDS, 8, f"the kind is not {alternatives(f'{number} ({name})' for number, name in KIND_NAMES.items())}"),
        (outside(w[1:7], 0, 99_999), 8, 'a maximum is outside 0.0 to 9999.9 MW'),
        (outside(w[7:9], 0, 9_999), 8, 'a ramp maximum is outside 0.0 to 999.9 MW/min'),
        (outside(w[9:12], 0, 1_000), 8, 'a proportion maximum is outside 0.000 to 1.000'),
        (outside(w[12:17], 0, 1), 8, 'a mark is not 0 or 1'),
        (closed, 8, f"a {kind.name} may not be registered for {', '.join(closed)}")])


def period_tests(r):
    return [(r.period <= 0, 10, f'period {r.period} has begun at any clock'),
            (r.period > LAST_PERIOD, 10, f'period {r.period} is past the horizon at any clock')]


def offer_tests(r, by_calls):
    """Limits and maxima of a damaged book may be larger than any that calls leave."""
    pairs = pairs_of(r.words)
    prices = [price for price, quantity in pairs if quantity != 0]
    total = sum(quantity for _, quantity in pairs)
    lowest = -LARGEST_LIMIT if r.service == 0 else 0
    early = early_blanks(pairs)
    return [
        (r.reason > 6, 11, f'reason {r.reason} is above 6'),
        (outside([q for _, q in pairs], 0, 99_999), 11, 'a quantity is outside 0.0 to 9999.9 MW'),
        (by_calls and outside([p for p, _ in pairs], lowest, LARGEST_LIMIT), 11, 'a price is beyond any limits the book can be opened with'),
        (any(q == 0 and p != 0 for p, q in pairs), 12, 'a blank pair has a price'),
        (early, 12, f"a blank pair stands before a filled one, in place {', '.join(map(str, early))}: leave it out, or put it last"),
        (any(b <= a for a, b in zip(prices, prices[1:])), 13, 'prices of non-blank pairs do not strictly rise'),
        (outside((r.ramp_up, r.ramp_down), 0, 9_999), 14, 'a ramp rate is outside 0.0 to 999.9 MW/min'),
        (by_calls and total > 99_999, 16, f'the total, {total} tenths of a MW, is above any maximum')]


def any_book_refuses(data, by_calls=True):
    """A number and why: every book that only calls have written refuses the record with it, or with a lower one; else 0.
    Not by_calls: every book, damaged ones too."""
    number, faults = record_test(data, MOST_FACILITIES, MOST_SERVICES)
    if number:
        return number, faults[0]
    r = read(data)
    if r.call == 1:
        return first_fault([(outside([r.a], 0, LAST_CLOCK), 6, f'minute {r.a} is outside 0 to {LAST_CLOCK}')])
    if r.call == 2:
        return capability_fault(r)
    if r.call == 3:
        return first_fault([(outside([r.period], 0, 335), 10, f'slot {r.period} is outside 0 to 335')] + offer_tests(r, by_calls))
    if r.call == 4:
        return first_fault(period_tests(r) + offer_tests(r, by_calls))
    if r.call == 5:
        return first_fault([(outside([r.a], 0, LAST_CLOCK), 7, f'minute {r.a} is outside 0 to the clock'),
                            (not kinds_with(lambda kind: 1 <= r.b <= kind.outage), 7, f'{r.b} periods: {OUTAGES}')])
    if r.call == 6:
        return first_fault([(r.reason not in NOTICES, 7, f'notice {r.reason} is not 3, 4 or 5'),
                            (not 0 <= r.a <= r.b <= LAST_NOTICE_PERIOD, 7, f'not 0 <= first {r.a} <= last {r.b} <= {LAST_NOTICE_PERIOD}')])
    if r.call == 7:
        return first_fault([(r.reason != 5, 7, 'only notice 5, system status, can be withdrawn')])
    return first_fault(period_tests(r))
