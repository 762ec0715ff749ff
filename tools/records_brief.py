"""Records with their answers in a line each, in columns: a day's look-ups at a glance.
What every line would repeat stands once above them; a refusal's words stand where the pairs would."""
from collections import namedtuple

from records_amounts import show_mw, show_parts
from records_dates import WEEKDAYS, period_of_day, show_date, show_periods, show_time
from records_explain import CALL_TEXTS, FRESH, REASON_TEXTS, TAKES_BACK, outage_window, used_offer
from records_layout import (CALLS, IN_FORCE, KIND_NAMES, LENGTH, NOTICES, SERVICES, SERVICE_TEXTS, filled_length, pairs_of, read, record_test,
                            takes_back)
from records_refusals import REFUSALS, refusal_text

# Texts of a line's cells, '' where there is nothing to say; `pairs` are (price, quantity), `text` what stands in their place.
Row = namedtuple('Row', 'place call facility service period day of_day time answer mw pairs text')
SHARED = ('call', 'facility', 'service')
RIGHT = ('place', 'facility', 'period', 'day', 'of_day', 'mw')
LOOKED_UP = {first: CALLS[held.call] + (', fresh' if held.is_fresh else '') for first, held in IN_FORCE.items()}


# ---- a record's cells

def day_text(day):
    """Its date, or else its number, and its weekday."""
    return f'{show_date(day) or day} {WEEKDAYS[day % 7][:3]}'


def when(r):
    """Period, day, period of the day and time."""
    if r.call in (1, 5) and r.a >= 0:
        return '', day_text(r.a // 1440), '', show_time(r.a % 1440)
    if r.call not in (3, 4, 8, 9):
        return '', '', '', ''
    name = f'slot {r.period}' if r.call == 3 else str(r.period)
    if r.period < 0 or (r.call == 3 and r.period > 335):
        return name, '', '', ''
    day = WEEKDAYS[r.period // 48][:3] if r.call == 3 else day_text(r.period // 48)
    return name, day, str(period_of_day(r.period)), show_time(30 * (r.period % 48))


def capability_text(w):
    marks = [SERVICES[s] for s, mark in enumerate(w[12:17]) if mark]
    return f"{KIND_NAMES.get(w[0], f'kind {w[0]}')}, {show_mw(w[1])}, combined {show_mw(w[2])}, registered for {', '.join(marks) or 'nothing'}"


def said(r):
    """What a record that carries no offer files."""
    if takes_back(r):
        return TAKES_BACK
    if r.call == 2:
        return capability_text(r.words)
    if r.call == 5:
        return outage_window(r.a, r.b)
    if r.call == 6:
        return f"{REASON_TEXTS[r.reason] if r.reason in NOTICES else f'notice {r.reason}'}, {show_periods(r.a, r.b)}"
    return REASON_TEXTS[r.reason] if r.call == 7 and r.reason in NOTICES else ''


def record_row(place, data):
    """The cells that the record fills."""
    if len(data) != LENGTH or data[5] not in CALLS:
        return Row(place, 'no record', '', '', '', '', '', '', '', '', [], '')
    r = read(data)
    facility = str(r.facility) if r.call in (2, 3, 4, 5, 8) else ''
    service = (SERVICE_TEXTS[r.service] if r.service < 5 else str(r.service)) if r.call in (3, 4, 8, 9) else ''
    pairs, mw = [], ''
    if r.call in (3, 4) and r.service < 5 and not takes_back(r):
        words = used_offer(r)[3]
        pairs, mw = pairs_of(words), show_parts(sum(words[1::2]), 1)
    return Row(place, CALL_TEXTS[r.call], facility, service, *when(r), '', mw, pairs, said(r))


# ---- an answer's cells

def refused(row, number, call, faults):
    text = f"{REFUSALS[number].name}: {'; '.join(faults)}" if faults else refusal_text(number, call)
    return row._replace(answer=f'refused {number}', mw='', pairs=[], text=text)


def answered(row, answer, call, wrong):
    """The row with what the answer says."""
    if wrong:
        return row._replace(answer='damaged', mw='', pairs=[], text=f'answer {answer.number} {answer.words[0]} {answer.sum}: {wrong}')
    if call == 8:
        pairs = pairs_of(answer.words[4:]) if len(answer.words) == 24 else []
        return row._replace(answer=LOOKED_UP[answer.words[0]], mw=show_parts(answer.sum, 1), pairs=pairs)
    if call == 9:
        many = answer.words[0]
        return row._replace(answer='1 facility' if many == 1 else f'{many} facilities', mw=show_parts(answer.sum, 1))
    return row._replace(answer='accepted')


def row_of(place, data, answer, wrong, facilities, services):
    """`wrong` says why no book gives the answer. Without an answer, what the record test says."""
    row = record_row(place, data)
    call = data[5] if len(data) == LENGTH else None
    tested, faults = record_test(data, facilities, services)
    if answer is None:
        return refused(row, tested, call, faults) if tested else row
    if answer.number and not wrong:
        return refused(row, answer.number, call, faults if answer.number == tested else ())
    return answered(row, answer, call, wrong)


# ---- pairs that a short answer leaves out

class Filings:
    """The newest accepted offer of each standing place and of each period, as the records say."""

    def __init__(self):
        self.held = {}

    def take(self, r):
        place = (r.call, r.facility, r.service, r.period)
        if takes_back(r):
            self.held.pop(place, None)
        elif r.call in (3, 4) and r.service < 5:
            self.held[place] = used_offer(r)[3]

    def pairs(self, r, answer):
        """Those of the offer that a look-up says is in force; none if it was filed elsewhere."""
        call = IN_FORCE[answer.words[0]].call
        words = self.held.get((call, r.facility, r.service, r.period % 336 if call == 3 else r.period), [])
        return pairs_of(words) if sum(words[1::2]) == answer.sum else []


def with_filed_pairs(rows, records, answers):
    """An answer of three numbers has no pairs: they are those of the filing before it, while every answer is sound."""
    filings = Filings()
    for row, data, answer in zip(rows, records, answers):
        if row.answer == 'accepted':
            filings.take(read(data))
        if row.answer == 'damaged':
            filings = Filings()
        if row.answer in LOOKED_UP.values() and len(answer.words) == 1:
            row = row._replace(pairs=filings.pairs(read(data), answer))
        yield row


# ---- the table

def pair_texts(rows):
    """The pairs of each row but the blanks after its last filled one, aligned with those of the other rows, or its text."""
    shown = [[(show_parts(quantity, 1), show_parts(price, 2)) for place, (price, quantity) in enumerate(row.pairs, 1)
              if price or place <= filled_length(row.pairs)] for row in rows]
    widths = [(max(len(row[n][0]) for row in shown if n < len(row)), max(len(row[n][1]) for row in shown if n < len(row)))
              for n in range(max(map(len, shown)))]
    return [row.text or '  '.join(f'{quantity:>{left}} @ {price:>{right}}' for (quantity, price), (left, right) in zip(pairs, widths))
            for row, pairs in zip(rows, shown)], bool(widths)


def shared_text(row, names):
    return ', '.join(f'facility {row.facility}' if name == 'facility' else getattr(row, name) for name in names if getattr(row, name))


def brief_rows(records, answers, book):
    """Answers may be None; the book says which of them it never gives."""
    rows = [row_of(place, data, answer, '' if answer is None else book.wrong(data, answer), book.facilities, book.services)
            for place, (data, answer) in enumerate(zip(records, answers), 1)]
    return list(with_filed_pairs(rows, records, answers))


def brief_lines(rows, have_answers):
    """A line above for what all rows share, heads, a line for each row, and one below on what fresh means."""
    if not rows:
        return ['no records']
    shared = [name for name in SHARED if len({getattr(row, name) for row in rows}) == 1 and rows[0].call != 'no record']
    heads = {'place': 'no.', 'of_day': '1-48', 'answer': 'answer' if have_answers else 'record test', 'mw': 'MW'}
    if shared[:1] == ['call'] and rows[0].call == 'look-up' and have_answers:
        heads['answer'] = 'in force'
    columns = [name for name in Row._fields[:-2] if name not in shared and any(getattr(row, name) for row in rows)]
    texts, any_pairs = pair_texts(rows)
    table = [[heads.get(name, name) for name in columns] + ['pairs, MW @ $/MWh' if any_pairs else '']]
    table += [[str(getattr(row, name)) for name in columns] + [text] for row, text in zip(rows, texts)]
    widths = [max(len(line[n]) for line in table) for n in range(len(columns))]
    lines = ['  '.join([cell.rjust(width) if name in RIGHT else cell.ljust(width) for cell, name, width in zip(line, columns, widths)] + line[-1:]).rstrip()
             for line in table]
    below = [f'fresh: {FRESH}'] if any(row.answer.endswith(', fresh') for row in rows) else []
    return ([shared_text(rows[0], shared)] if shared_text(rows[0], shared) else []) + lines + below
