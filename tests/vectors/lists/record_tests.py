"""The record test, of the bytes, F and S alone: 2, 3 and 4, and ahead of these 20; the calls give the same where the book is usable."""
from .form import (GENERATION, LEAST, MOST, capability, clock, look_up, notice, one_of_each, outage, record, standing, total, variation, with_bytes,
                   withdrawal)

# What each call uses, by byte: "The nine calls and what they use"
SHAPES = [(clock(7), [(24, 27)]),
          (capability(0, GENERATION), [(6, 6), (32, 99)]),
          (standing(0, 0, 4, [(1, 2)]), [(6, 12), (16, 23), (32, 111)]),
          (standing(0, 2, 4, [(1, 2)], 3), [(6, 12), (14, 15), (32, 71)]),
          (standing(0, 4, 4, [(1, 2)]), [(6, 12), (32, 71)]),
          (variation(0, 0, 4, [(1, 2)], 1), [(6, 12), (16, 23), (32, 111)]),
          (variation(0, 3, 4, [(1, 2)], 1, 3), [(6, 12), (14, 15), (32, 71)]),
          (variation(0, 4, 4, [(1, 2)], 1), [(6, 12), (32, 71)]),
          (outage(0, 5, 1), [(6, 6), (24, 31)]),
          (notice(4, 1, 2), [(12, 12), (24, 31)]),
          (withdrawal(), [(12, 12)]),
          (look_up(0, 0, 4), [(6, 11)]),
          (total(0, 4), [(7, 11)])]

GOOD = look_up(0, 0, 4)


def _uses(spans, at):
    return any(first <= at <= last for first, last in spans)


def record_lengths(t):
    """Lengths 0, 1, 5, 6, 111, 113 and others: 2, whatever the bytes there are; 112: not."""
    t.open(1, 1)
    for r in one_of_each():
        for length in (0, 1, 111):
            t.test(r[:length], 1, 1, 2)
        t.test(r, 1, 1, 0)
        t.test(r + b'\x00', 1, 1, 2)
    for length in (2, 5, 6, 12, 31, 32, 56, 110):
        t.test(clock(7)[:length], 1, 1, 2)
    for more in (2, 16, 112):
        t.test(clock(7) + b'\x00' * more, 1, 1, 2)
    t.test(clock(7) + clock(8), 64, 5, 2)
    t.test(bytes(112), 1, 1, 2)
    t.test(b'\xff' * 112, 1, 1, 2)
    t.test(b'\xff' * 112, 64, 5, 2)


def record_mark_and_version(t):
    """Each byte of mark and version with each bit turned, at 0 and at 255: 2."""
    t.open(1, 1)
    for at in range(5):
        for value in sorted({GOOD[at] ^ 1 << k for k in range(8)} | {0, 255} - {GOOD[at]}):
            if value != GOOD[at]:
                t.test(with_bytes(GOOD, {at: value}), 1, 1, 2)
    t.test(with_bytes(GOOD, {3: 1, 4: 0}), 1, 1, 2)
    t.test(with_bytes(GOOD, {3: 1, 4: 1}), 1, 1, 2)
    t.test(with_bytes(GOOD, {0: ord('B'), 2: ord('S')}), 1, 1, 2)
    t.test(with_bytes(GOOD, {0: ord('s'), 1: ord('o'), 2: ord('b')}), 1, 1, 2)
    t.test(GOOD, 1, 1, 0)


def record_call_byte(t):
    """Byte 5 at 0, 10 and above: 2; at 1 to 9, over zeros, what each call makes of them."""
    t.open(1, 1)
    for call in range(0, 14):
        t.test(record(call), 1, 1, 0 if 1 <= call <= 9 else 2)
        t.test(record(call), 64, 5, 0 if 1 <= call <= 9 else 2)
    for call in (16, 31, 32, 64, 127, 128, 129, 137, 200, 254, 255):
        t.test(record(call), 1, 1, 2)
        t.test(with_bytes(record(call), {6: 255, 111: 255}), 1, 1, 2)


def record_facility(t):
    """The facility at F - 1 and F in calls that use it: 0 and 3; in those that don't, any but 0 is 4."""
    t.open(1, 1)
    for r, spans in SHAPES:
        for F in (3, 64):
            if _uses(spans, 6):
                for f in (F - 1, F, 255):
                    t.test(with_bytes(r, {6: f}), F, 5, 0 if f < F else 3)
            else:
                for f in (1, F):
                    t.test(with_bytes(r, {6: f}), F, 5, 4)
    for f in (63, 64, 65, 127, 128):
        t.test(look_up(f, 0, 4), 64, 1, 0 if f < 64 else 3)


def record_service(t):
    """The service at S - 1 and S in calls that use it: 0 and 3; in those that don't, any but 0 is 4."""
    t.open(1, 1)
    for r in (standing(0, 0, 4), variation(0, 0, 4), look_up(0, 0, 4), total(0, 4)):
        for S in (1, 5):
            for s in (0, 1, 4, 5, 6, 255):
                t.test(with_bytes(r, {7: s}), 1, S, 0 if s < S else 3)
    for r in (clock(7), capability(0, GENERATION), outage(0, 5, 1), notice(4, 1, 2), withdrawal()):
        for S in (1, 5):
            for s in (1, 5):
                t.test(with_bytes(r, {7: s}), 1, S, 4)


def record_unused_bytes(t):
    """For each call, and offers by service: the first and last byte of every run that it uses or leaves unused, set."""
    t.open(1, 1)
    for r, spans in SHAPES:
        edges = {6, 7, 13, 111} | {at for first, last in spans for at in (first - 1, first, last, last + 1)}
        for at in sorted(edges):
            if at < 6 or at > 111:
                continue
            for value in (255,) if at % 3 else (1,):
                number = 0 if _uses(spans, at) else 4
                if at == 6 and number == 0 and value >= 2:
                    number = 3
                elif at == 7 and number == 0:
                    continue  # another service has another shape
                t.test(with_bytes(r, {at: value}), 2, 5, number)


def record_in_a_run_of_unused(t):
    """One bit in the midst of each long run of unused bytes: 4."""
    t.open(1, 1)
    for r, spans in SHAPES:
        unused = [at for at in range(6, 112) if not _uses(spans, at)]
        for at in unused[1::9]:
            t.test(with_bytes(r, {at: 1 << at % 8}), 1, 5, 4)


def record_sizes(t):
    """F not 1 to 64 or S neither 1 nor 5: 20, ahead of 2, 3 and 4, and of a good record; at 1 and 64, 1 and 5 not."""
    t.open(1, 1)
    bad = [GOOD, b'', GOOD[:111], with_bytes(GOOD, {0: 0}), with_bytes(GOOD, {5: 10}), with_bytes(GOOD, {6: 255}), with_bytes(GOOD, {111: 1})]
    for F, S in ((0, 1), (65, 1), (-1, 1), (1, 0), (1, 2), (1, 3), (1, 4), (1, 6), (1, -1), (1, -5), (0, 0), (65, 5), (0, 5), (64, 6), (64, 4), (MOST, 5), (LEAST, 1),
                 (1, MOST), (1, LEAST), (257, 1), (1, 257), (65537, 5), (64, 65541), (MOST, MOST), (LEAST, LEAST)):
        t.test(GOOD, F, S, 20)
        t.test(b'', F, S, 20)
    for r in bad:
        t.test(r, 65, 1, 20)
        t.test(r, 1, 4, 20)
        t.test(r, 0, 0, 20)
    for F, S in ((1, 1), (64, 1), (1, 5), (64, 5), (2, 1), (63, 5)):
        t.test(GOOD, F, S, 0)
        t.test(b'', F, S, 2)


def record_several_at_once(t):
    """Length, mark, facility and an unused byte wrong together: the lowest number, and mended in turn."""
    t.open(1, 1)
    worst = with_bytes(look_up(64, 5, 4), {0: 0, 13: 1})
    t.test(worst + b'\x00', 65, 5, 20)
    t.test(worst + b'\x00', 64, 5, 2)
    t.test(worst, 64, 5, 2)
    t.test(with_bytes(worst, {0: ord('S')}), 64, 5, 3)
    t.test(with_bytes(worst, {0: ord('S'), 6: 63}), 64, 5, 3)
    t.test(with_bytes(worst, {0: ord('S'), 7: 4}), 64, 5, 3)
    t.test(with_bytes(worst, {0: ord('S'), 6: 63, 7: 4}), 64, 5, 4)
    t.test(with_bytes(worst, {0: ord('S'), 6: 63, 7: 4, 13: 0}), 64, 5, 0)
    for offer in (standing, variation):
        t.test(offer(3, 1, 4, ramps=(1, 1), reason=1), 3, 5, 3)
        t.test(offer(2, 1, 4, ramps=(1, 1), reason=1), 3, 5, 4)
        for reason in (1, 255):
            t.test(offer(2, 1, 4, reason=reason), 3, 5, 0)
            t.test(offer(2, 1, 4, reason=reason), 3, 1, 3)


def record_test_and_call(t):
    """The same records tested and then called on a book of those sizes: the same number where it is 2, 3 or 4."""
    t.open(2, 5)
    for r, spans in SHAPES:
        for changed, number in ((r[:111], 2), (with_bytes(r, {4: 0}), 2), (with_bytes(r, {6: 2}), 3 if _uses(spans, 6) else 4),
                                (with_bytes(r, {13: 128}), 4)):
            t.test(changed, 2, 5, number)
            t.call(changed, number)
    t.words()
