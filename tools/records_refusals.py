"""The numbers 1 to 21 in words, and which call draws which.
Names and notes are those of include/bilzhaan.h, meanings and corrections those of docs/REFUSALS.md, which has the market's clauses beside them."""
from collections import namedtuple

from records_layout import USES

Refusal = namedtuple('Refusal', 'name note drawn_by means correct')

HOST, SENDER, OPERATOR, COORDINATOR = 'the host program', 'any sender', 'the system operator', 'the coordinator'
TELL = 'Nothing in the filing. Tell whoever runs the gateway.'

REFUSALS = {
    1: Refusal('book unusable', 'too few words, or mark, version, F, S or clock wrong', HOST,
               'The words lent are no usable book: fewer than 64, mark or version wrong, F not 1 to 64, S not 1 or 5, fewer words than F and S need,'
               ' or a clock outside 0 to 1,000,000,000.', TELL
               + ' After an update of the library it may be a book of version 1; its offers are filed again, in a new book.'),
    2: Refusal('not a record', 'not 112 bytes, or mark, version or call wrong', HOST,
               'Not a record: not 112 bytes, or mark, version or call (1 to 9) wrong.', 'The sending program or the line.'),
    3: Refusal('not in book', 'facility F or above, or service S or above, where used', SENDER,
               'Facility not below F or service not below S, where the call uses it.', 'Facility or service number.'),
    4: Refusal('unused byte', 'an unused byte not zero', SENDER,
               "A byte that the call, or the offer's service, does not use is not zero.", 'Clear it.'),
    5: Refusal('no kind', 'the facility has no kind: no capability yet, or damaged words', SENDER,
               'The facility has no kind: no capability was accepted for it (calls 3, 4, 5, 8).',
               'The facility number; or have its capability filed first.'),
    6: Refusal('clock refused', 'minute below the clock or above 1,000,000,000', 'the clock',
               'The minute is below the clock or above 1,000,000,000.', 'The minute. The same minute again is accepted.'),
    7: Refusal('notice refused', 'outage, notice or withdrawal out of range; any outage of a link', OPERATOR,
               'Outage: not 0 <= minute <= clock, or n outside 1 to 3 (load 1 to 48), or any of a link. Notice: kind not 3 to 5, or not 0 <= first <= last'
               ' <= 40,000,000. Withdrawal: kind not 5.', 'That value. A link has no outages here.'),
    8: Refusal('capability refused', 'kind, maxima or marks out of range, or another kind than the held one', OPERATOR,
               'Capability: kind not 1, 2 or 3, or not the kind held; a maximum outside 0 to 9,999.9 MW; a ramp maximum outside 0 to 999.9 MW/min;'
               ' a proportion maximum outside 0 to 1.000; a mark not 0 or 1; a load marked for energy or regulation; a link marked for anything but energy.',
               'That value. A kind, once held, never changes.'),
    9: Refusal('not registered', "the facility isn't registered for the service", COORDINATOR,
               "The facility isn't registered for the service: its mark is not 1; or it is a link, and the service is not energy.",
               'The service; or, where its kind may have the mark, have the capability filed with it.'),
    10: Refusal('period refused', 'no such slot; period begun or past the horizon (look-up and total too)', 'the coordinator or reader',
                'Standing offer: slot outside 0 to 335. Variation, look-up, total: the period has begun (30 P <= clock), or P >= 48 (d + 7),'
                " d being the clock's day.",
                'The slot or period. Variations, look-ups and totals are taken for periods that have not begun, up to the end of the sixth day after today.'),
    11: Refusal('out of range', 'reason, quantity or price', COORDINATOR,
                'Reason above 6; a quantity outside 0 to 9,999.9 MW; a price outside its limits (reserve and regulation from 0.00).'
                ' Blank pairs are tested too.', 'That value.'),
    12: Refusal('blank refused', "quantity 0 with a price, or before a pair that isn't blank", COORDINATOR,
                'A pair of 0.0 MW has a price, or stands before one that is not blank.',
                'Price 0.00, or give a quantity; blanks go after the last filled pair.'),
    13: Refusal("prices don't rise", '', COORDINATOR, 'Prices of the non-blank pairs do not strictly rise.',
                'Order them by price; join pairs of the same price.'),
    14: Refusal('ramp refused', '', COORDINATOR, "An energy offer's ramp-up or ramp-down rate is below 0, above its maximum or above 999.9 MW/min.",
                'The rate.'),
    15: Refusal('proportion refused', '', COORDINATOR,
                "Generation, reserve: the proportion is 0 or above the class's maximum. A load's isn't tested.",
                'The proportion, 0.001 up to the maximum.'),
    16: Refusal('above capacity', '', COORDINATOR,
                "The total is above the generation or the combined maximum (energy), or above the service's own.",
                'The quantities. A link needs both maxima filed.'),
    17: Refusal('gate closed', '', COORDINATOR,
                'Gate closure, less than 65 minutes left: a variation, or a standing offer over a held one, whose reason does not hold or that'
                ' changes a price already offered.',
                "A reason that holds, and prices kept; or, for a standing offer, wait until its slot's next period has begun."),
    18: Refusal('duplicate', 'the standing offer is the one that is held', COORDINATOR,
                'The standing offer equals the one held: proportion, ramps and every pair.', 'Nothing; it is held, and no fresher for it.'),
    19: Refusal('nothing in force', '', 'the reader', 'Look-up: no variation and no standing offer is in force.',
                'Nothing; none was accepted, or the variation was taken back.'),
    20: Refusal('opening refused', 'F, S, words too few, or limits', HOST,
                'Opening: F not 1 to 64, S not 1 or 5, too few words, a limit beyond +-100,000.00, not lowest <= 0 <= highest energy price,'
                ' or a highest price of services 1 to 4 below 0. The record test gives it for F or S.', TELL),
    21: Refusal('date refused', 'no date of 2024 to 2099, no period of 1 to 48, or P outside theirs', COORDINATOR,
                'No such date or period: the date does not exist, its year is outside 2024 to 2099, the period is outside 1 to 48, or P is below 0 or'
                ' above 1,332,431.', 'The date or the period.'),
}

# What a number that several calls draw says of one of them.
NOTES_BY_CALL = {
    (7, 5): 'outage out of range, or of a link', (7, 6): 'notice out of range', (7, 7): 'only system status can be withdrawn',
    (10, 3): 'no such slot', (10, 4): 'begun or past the horizon', (10, 8): 'begun or past the horizon', (10, 9): 'begun or past the horizon',
}

# From 5 on; an offer's own numbers are 9 to 18, of which 18 is for standing offers alone.
LATER = {1: {6}, 2: {8}, 3: {5, *range(9, 19)}, 4: {5, *range(9, 18)}, 5: {5, 7}, 6: {7}, 7: {7}, 8: {5, 10, 19}, 9: {10}}

# Of these, the ones that a record's own bytes settle, whatever the book holds: slot and pairs, notice and withdrawal.
SETTLED = {3: {10, 12, 13}, 4: {12, 13}, 6: {7}, 7: {7}}


def refusal_text(number, call):
    """The name, and in a few words more what it says of this call."""
    refusal = REFUSALS[number]
    note = NOTES_BY_CALL.get((number, call), refusal.note)
    return f'{refusal.name}: {note}' if note else refusal.name


def draws(call, number):
    """Whether some book refuses some record of this call with the number; a call that is none of the nine draws 1 or 2."""
    if call not in USES:
        return number in (1, 2)
    has_place = 'facility' in USES[call] or 'service' in USES[call]
    return number in (1, 2, 4) or (number == 3 and has_place) or number in LATER[call]
