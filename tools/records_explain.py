"""What a record says, in words: its fields, stray bytes, the record test, and the command that makes it again."""
from itertools import groupby

from records_amounts import show_mw, show_price, show_proportion, show_ramp
from records_dates import show_minute, show_period, show_periods, show_slot, show_weekly
from records_layout import (CALLS, KIND_NAMES, LENGTH, NOTICES, REASONS, SCHEDULE_CUTOFF_MINUTES, SERVICES, SERVICE_TEXTS, alternatives,
                            any_book_refuses, early_blanks, field_at, form_faults, kinds_with, offer_fields, pairs_of, read, record_test, stray_bytes,
                            takes_back)

CALL_TEXTS = {1: 'clock', 2: 'capability', 3: 'standing offer', 4: 'variation', 5: 'outage', 6: 'notice', 7: 'withdrawal', 8: 'look-up', 9: 'total'}
TAKES_BACK = 'takes the variation back: the standing offer stands again, if there is one'
FRESH = f'accepted less than {SCHEDULE_CUTOFF_MINUTES} minutes before the clock, so a market schedule made at that minute may leave it out'
REASON_TEXTS = ('no reason', 'synchronising profile', 'forced outage', 'energy surplus notice', 'shortfall notice', 'system status notice', 'outage of a load')
CAPABILITY = (
    ('max-generation', 'generation maximum', show_mw), ('max-combined', 'combined maximum', show_mw),
    ('max-primary', 'primary reserve maximum', show_mw), ('max-secondary', 'secondary reserve maximum', show_mw),
    ('max-contingency', 'contingency reserve maximum', show_mw), ('max-regulation', 'regulation maximum', show_mw),
    ('max-ramp-up', 'ramp-up maximum', show_ramp), ('max-ramp-down', 'ramp-down maximum', show_ramp),
    ('max-primary-proportion', 'primary proportion maximum', show_proportion),
    ('max-secondary-proportion', 'secondary proportion maximum', show_proportion),
    ('max-contingency-proportion', 'contingency proportion maximum', show_proportion))


# ---- records

def with_name(value, names):
    return f'{value} {names[value]}' if 0 <= value < len(names) else f'{value} (no such)'


def pair_rows(words, count):
    """Pairs one by one, runs of blanks together; past the service's count only those that hold something."""
    pairs = pairs_of(words)
    before_filled = {place: ', before a filled pair' for place in early_blanks(pairs)}
    rows = []
    for empty, run in groupby(enumerate(pairs, 1), lambda item: item[1] == (0, 0)):
        run = list(run)
        first, last = run[0][0], min(run[-1][0], count)
        if empty and first <= last:
            rows.append((f'pair {first}' if first == last else f'pairs {first} to {last}', 'blank' + before_filled.get(first, '')))
        if not empty:
            rows += [(f'pair {place}', f'{show_mw(quantity)} at {show_price(price)}'
                      + ('' if quantity else f" (blank, with a price{before_filled.get(place, '')})")) for place, (price, quantity) in run]
    return rows


def offer_rows(service, proportion, ramp_up, ramp_down, words):
    """A service's own fields, and others that hold something; all pairs where the service is not known."""
    fields, count = offer_fields(service) if service is not None else ((), 10)
    rows = []
    if 'proportion' in fields or proportion:
        rows.append(('proportion', show_proportion(proportion)))
    if 'ramp up' in fields or ramp_up or ramp_down:
        rows += [('ramp up', show_ramp(ramp_up)), ('ramp down', show_ramp(ramp_down))]
    return rows + pair_rows(words, count) + [('total', show_mw(sum(words[1::2])))]


def last_open(period):
    """'A variation is open when 30 P - now is 65 or more.'"""
    return 30 * period - 65


def open_row(period):
    last = last_open(period)
    text = f'up to minute {show_minute(last)}; after it with a reason only' if last >= 0 else 'at no minute; with a reason only'
    return 'gate open', text


def slot_open_row(slot):
    """The same by the slot's next period, for a standing offer over a held one."""
    closes, starts = show_weekly(last_open(slot) + 1), show_weekly(30 * slot)
    return 'gate open', f'but for {closes} until {starts} every week; then over a held offer with a reason only'


def capability_rows(words):
    marks = [f'{SERVICES[s]}{"" if mark == 1 else f" (mark {mark})"}' for s, mark in enumerate(words[12:17]) if mark]
    rows = [('kind', f'{words[0]} {KIND_NAMES.get(words[0], "(no such)")}')]
    rows += [(label, show(value)) for (_, label, show), value in zip(CAPABILITY, words[1:12])]
    return rows + [('registered for', ', '.join(marks) or 'nothing')]


def outage_window(minute, count):
    if minute < 0 or not kinds_with(lambda kind: 1 <= count <= kind.outage):
        return 'none'
    return show_periods(minute // 30 + 1, minute // 30 + count)


def of_kinds(text, what, holds):
    """A record doesn't say its facility's kind: the kinds that it may be of are named beside what tells them apart."""
    names = kinds_with(holds)
    return f'{text} ({what} {alternatives(names)})' if names else text


def reason_text(r):
    """Inside the gate: reason 3 is for energy alone, and a kind files only for the services that it may be registered for."""
    def opens(kind):
        return r.reason in kind.reasons and r.service in kind.marks and (r.reason != 3 or r.service == 0)
    text = with_name(r.reason, REASON_TEXTS)
    if 1 <= r.reason <= 6 and r.service < 5 and not kinds_with(opens):
        return f'{text} (open to no kind for this service)'
    return of_kinds(text, 'open to', opens)


def field_rows(r):
    """Each field that the record's call uses."""
    rows = []
    if r.call in (2, 3, 4, 5, 8):
        rows.append(('facility', str(r.facility)))
    if r.call in (8, 9):
        rows.append(('service', with_name(r.service, SERVICE_TEXTS)))
    if r.call in (3, 4):
        rows.append(('service', of_kinds(with_name(r.service, SERVICE_TEXTS), 'offered by', lambda kind: r.service in kind.marks)))
    if r.call == 3:
        rows.append(('slot', show_slot(r.period)))
    if r.call in (4, 8, 9):
        rows.append(('period', show_period(r.period)))
    if r.call in (3, 4):
        rows.append(('reason', reason_text(r)))
    if r.call == 4:
        rows.append(open_row(r.period))
    if r.call == 3 and 0 <= r.period <= 335:
        rows.append(slot_open_row(r.period))
    if r.call in (3, 4) and r.service < 5:
        rows += offer_rows(r.service, *used_offer(r))
    if takes_back(r):
        rows[-1] = ('means', f'accepted, it {TAKES_BACK}; not 0.0 MW')
    if r.call == 1:
        rows.append(('minute', show_minute(r.a)))
    if r.call == 2:
        rows += capability_rows(r.words)
    if r.call == 5:
        rows += [('minute', show_minute(r.a)), ('periods', of_kinds(str(r.b), 'for', lambda kind: 1 <= r.b <= kind.outage)),
                 ('window', outage_window(r.a, r.b))]
    if r.call in (6, 7):
        rows.append(('notice', f'{r.reason} {REASON_TEXTS[r.reason] if r.reason in NOTICES else "(no such)"}'))
    if r.call == 6:
        rows += [('first period', show_period(r.a)), ('last period', show_period(r.b))]
    return rows


def used_offer(r):
    """What the service uses of an offer's fields; the rest is stray, and listed as such."""
    fields, count = offer_fields(r.service)
    return (r.proportion if 'proportion' in fields else 0, r.ramp_up if 'ramp up' in fields else 0,
            r.ramp_down if 'ramp down' in fields else 0, r.words[:2 * count])


def aligned(rows):
    width = max((len(label) for label, _ in rows), default=0) + 2
    return [f'  {label:<{width}}{text}' for label, text in rows]


def number_text(number, faults):
    return f'{number}, passes' if number == 0 else f'{number}: ' + '; '.join(faults)


def stray_text(data):
    strays = stray_bytes(data)
    return '; '.join(f'byte {place} ({field_at(place)}) is {data[place]}' for place in strays) or 'none'


def explain_record(data, facilities, services):
    """Lines for one record, right or damaged."""
    number, faults = record_test(data, facilities, services)
    form = form_faults(data)
    call = data[5] if len(data) > 5 else None
    lines = [f'{CALL_TEXTS[call]} (call {call})' if call in CALLS else 'no record of the nine calls']
    rows = []
    if len(data) == LENGTH and call in CALLS:
        rows = field_rows(read(data))
        rows.append(('stray bytes', stray_text(data) if call not in (3, 4) or data[7] < 5 else 'not settled: no such service'))
    rows.append(('record test', f'F {facilities}, S {services}: {number_text(number, faults)}'))
    surely, why = any_book_refuses(data) if not form else (0, '')
    if number == 0 and surely:
        rows.append(('any book', f'refuses it with {surely} or a lower number: {why}'))
    words = command_for(data)
    if words:
        rows.append(('made by', ' '.join(words)))
    return lines + aligned(rows)


# ---- the command that makes a record

def pairs_words(words):
    pairs = pairs_of(words)
    while len(pairs) > 1 and pairs[-1] == (0, 0):
        pairs.pop()
    text = ','.join(f'{quantity}@{price}' for price, quantity in pairs)
    return [f'--pairs={text}'] if text.startswith('-') else ['--pairs', text]


def offer_words(r):
    words = []
    for option, value in (('--proportion', r.proportion), ('--ramp-up', r.ramp_up), ('--ramp-down', r.ramp_down)):
        words += [option, str(value)] if value else []
    return words + (['--take-back'] if takes_back(r) else pairs_words(r.words))


def capability_words(w):
    words = ['--kind', KIND_NAMES.get(w[0], str(w[0]))]
    for (option, _, _), value in zip(CAPABILITY, w[1:12]):
        words += [f'--{option}', str(value)] if value else []
    marks = [SERVICES[s] for s in range(5) if w[12 + s]]
    return words + (['--registered', ','.join(marks)] if marks else [])


def call_words(r):
    facility, service, period = ['--facility', str(r.facility)], ['--service', SERVICES[r.service % 5]], ['--period', str(r.period)]
    kind = ['--kind', NOTICES.get(r.reason, str(r.reason))]
    reason = ['--reason', REASONS[r.reason] if r.reason <= 6 else str(r.reason)] if r.reason else []
    return {
        1: lambda: ['--minute', str(r.a)], 2: lambda: facility + capability_words(r.words),
        3: lambda: facility + service + ['--slot', str(r.period)] + reason + offer_words(r), 4: lambda: facility + service + period + reason + offer_words(r),
        5: lambda: facility + ['--minute', str(r.a), '--periods', str(r.b)], 6: lambda: kind + ['--first', str(r.a), '--last', str(r.b)],
        7: lambda: kind, 8: lambda: facility + service + period, 9: lambda: service + period,
    }[r.call]()


def command_for(data):
    """The words that make these bytes again, or none: no command leaves stray bytes, a wrong mark or another service than 0 to 4."""
    if form_faults(data):
        return None
    r = read(data)
    if (r.call in (3, 4, 8, 9) and r.service > 4) or stray_bytes(data) or (r.call == 2 and any(mark not in (0, 1) for mark in r.words[12:17])):
        return None
    return [CALLS[r.call]] + call_words(r) + (['--anyway'] if any_book_refuses(data)[0] else [])

