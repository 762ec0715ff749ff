"""What an answer says, in words: refusals, offers in force, totals. One that no book gives is called damaged, and why."""
from collections import namedtuple

from records_amounts import LEAST_WORD, MOST_WORD, BadArgument, show_mw, whole, within
from records_explain import CALL_TEXTS, FRESH, aligned, offer_rows
from records_layout import CALLS, IN_FORCE, MOST_FACILITIES, MOST_SERVICES, any_book_refuses, are_sizes, early_blanks, form_faults, pairs_of, record_test
from records_refusals import REFUSALS, SETTLED, draws

Answer = namedtuple('Answer', 'number words sum')


def read_answer(text):
    """'number word0 sum', or number, 24 words and sum."""
    numbers = [whole(part) for part in text.split()]
    if len(numbers) not in (3, 26):
        raise BadArgument(f'an answer is 3 numbers (number, word 0, sum) or 26 (number, 24 words, sum), not {len(numbers)}')
    within(numbers[0], 0, max(REFUSALS), 'number')
    for value in numbers[1:-1]:
        within(value, LEAST_WORD, MOST_WORD, 'word')
    within(numbers[-1], -2**63, 2**63 - 1, 'sum')
    return Answer(numbers[0], numbers[1:-1], numbers[-1])


# ---- damage

def look_up_damage(answer):
    if answer.words[0] not in IN_FORCE:
        return f'word 0 of a look-up is 1 to 4, not {answer.words[0]}'
    if len(answer.words) == 24 and sum(answer.words[5::2]) != answer.sum:
        return f'the quantities add up to {show_mw(sum(answer.words[5::2]))}'
    return ''


def total_damage(answer, facilities):
    if not 0 <= answer.words[0] <= facilities or any(answer.words[1:]):
        return f'a total counts 0 to {facilities} facilities in word 0, its other words are zero'
    return 'no facility has an offer, and there is a sum' if answer.words[0] == 0 and answer.sum else ''


def any_call_damage(answer, facilities):
    """A total has no words but the first."""
    if any(answer.words[1:]):
        return look_up_damage(answer)
    return look_up_damage(answer) and total_damage(answer, facilities)


def name_of_call(call):
    return f'a {CALL_TEXTS[call]}' if call in CALLS else f'call {call}, none of the nine,'


def damage(answer, call, facilities):
    """Why no book gives this answer; '' if one may. Without its call, any reading will do."""
    zeros = not any(answer.words) and answer.sum == 0
    if answer.number:
        if not zeros:
            return 'beside a refusal all words and the sum are zero'
        return '' if call is None or draws(call, answer.number) else f'{name_of_call(call)} never draws {answer.number}'
    if call is None:
        return '' if zeros else any_call_damage(answer, facilities)
    if call not in CALLS:
        return f'{name_of_call(call)} draws 2'
    if call == 8:
        return look_up_damage(answer)
    if call == 9:
        return total_damage(answer, facilities)
    return '' if zeros else 'beside this call all words and the sum are zero'


def contradiction(number, data, facilities, services):
    """Why a record's own bytes rule this number out; '' if they don't. F and S are None where they are not known:
    then 2 is sure, 3 is where no book has the facility or service, and in a smaller book 3 may come before 4."""
    known = facilities is not None and services is not None
    tested, _ = record_test(data, MOST_FACILITIES if facilities is None else facilities, MOST_SERVICES if services is None else services)
    if number == 1:
        return ''
    may_be = {tested} if known or tested != 4 else {3, 4}
    if tested == 0:
        may_be = set(range(20)) - ({2, 3, 4} if known else {2, 4})
    if number not in may_be:
        return f'the record test of this record gives {tested}'
    if tested:
        return ''
    surely, _ = any_book_refuses(data, by_calls=False)
    if surely and not 0 < number <= surely:
        return f'any book refuses this record with {surely} or a lower number'
    return f'no book refuses this record with {number}' if number in SETTLED.get(data[5], ()) and number != surely else ''


class Book:
    """What is known of the book: F and S for the record test, the largest where they are not given; and what follows for answers,
    which is nothing where no book has such an F and S."""

    def __init__(self, facilities=None, services=None):
        self.facilities = MOST_FACILITIES if facilities is None else facilities
        self.services = MOST_SERVICES if services is None else services
        there_is = are_sizes(self.facilities, self.services)
        self.given = (facilities, services) if there_is else (None, None)
        self.most = self.facilities if there_is else MOST_FACILITIES

    def wrong(self, data, answer):
        """Why no such book gives this answer to this record; '' if one may."""
        call = None if form_faults(data) else data[5]
        return contradiction(answer.number, data, *self.given) or damage(answer, call, self.most)


# ---- lines

def refusal_lines(answer):
    refusal = REFUSALS[answer.number]
    lines = [f'refused with {answer.number}, {refusal.name}; drawn by {refusal.drawn_by}']
    return lines + aligned([('means', refusal.means), ('to correct', refusal.correct), ('the book', 'unchanged')])


def look_up_lines(answer, service):
    held = IN_FORCE[answer.words[0]]
    lines = [f'the {CALL_TEXTS[held.call]} is in force, {show_mw(answer.sum)} in all' + (f'; {FRESH}' if held.is_fresh else '')]
    if held.call == 4 and answer.sum == 0:
        lines[0] += '; no filing leaves such a variation: the book is damaged'
    if early_blanks(pairs_of(answer.words[4:])):
        lines[0] += '; a blank stands before a filled pair: the offer is from an older library, or the book is damaged'
    if len(answer.words) == 24:
        lines += aligned(offer_rows(service, *answer.words[1:4], answer.words[4:])[:-1])
    return lines


def total_lines(answer):
    facilities = '1 facility has' if answer.words[0] == 1 else f'{answer.words[0]} facilities have'
    return [f'{facilities} an offer in force, {show_mw(answer.sum)} in all']


def any_call_lines(answer, service, facilities):
    """Each reading that is possible."""
    if not any(answer.words) and answer.sum == 0:
        return ['accepted; or, answering a total: no facility has an offer in force']
    is_look_up = answer.words[0] in IN_FORCE and (any(answer.words[1:]) or not look_up_damage(answer))
    look_up = look_up_lines(answer, service) if is_look_up else []
    total = [] if total_damage(answer, facilities) else total_lines(answer)
    if not (look_up and total):
        return look_up or ['answering a total: ' + line for line in total]
    return ['answering a look-up: ' + look_up[0], 'answering a total: ' + total[0]]


def answer_lines(answer, call, service, facilities):
    if answer.number:
        return refusal_lines(answer)
    if call is None:
        return any_call_lines(answer, service, facilities)
    if call == 8 and answer.words[0] in IN_FORCE:
        return look_up_lines(answer, service)
    if call == 9 and not total_damage(answer, facilities):
        return total_lines(answer)
    return ['accepted'] if call in CALLS and not damage(answer, call, facilities) else []


def explain_answer(answer, call=None, service=None, facilities=MOST_FACILITIES, wrong=''):
    """Lines for one answer; `wrong` is what its record says against it."""
    damaged = damage(answer, call, facilities)
    lines = [] if wrong and not damaged and answer.number == 0 else answer_lines(answer, call, service, facilities)
    return lines + ([f'damaged answer: {damaged or wrong}'] if damaged or wrong else [])
