"""Amounts between a person's words and the record's whole numbers (document 01, "Units and time").
Every amount is exact: there are no floating-point numbers, and what does not come out whole is refused."""
import argparse
import re

LEAST_WORD, MOST_WORD = -2**31, 2**31 - 1


class BadArgument(argparse.ArgumentTypeError):
    """One line for the person who gave the argument."""


# ---- reading

def number_of_digits(sign, digits):
    """No bound here has thirty digits, and no text of more is worth a line."""
    digits = digits.lstrip('0') or '0'
    if len(digits) > 30:
        raise BadArgument(f'a number of {len(digits)} digits, {sign}{digits[:10]}.., is outside every range there is')
    return int(sign + digits)


def whole(text):
    match = re.fullmatch(r'(-?)([0-9]+)', text)
    if not match:
        raise BadArgument(f"'{text}' is not a whole number")
    return number_of_digits(*match.groups())


def within(value, lowest, highest, what):
    if not lowest <= value <= highest:
        raise BadArgument(f'{what} {value} is outside {lowest} to {highest}')
    return value


def word(text):
    return within(whole(text), LEAST_WORD, MOST_WORD, 'a signed 32-bit word:')


def whole_parts(text, places, message):
    """A decimal number with at most so many places, counted in units of its last place."""
    match = re.fullmatch(r'(-?)([0-9]+)(?:\.([0-9]+))?', text)
    if not match:
        raise BadArgument(f"'{text}' is not a decimal number")
    sign, units, decimals = match.group(1), match.group(2), match.group(3) or ''
    if len(decimals) > places:
        raise BadArgument(f"'{text}': {message}")
    value = number_of_digits('', units) * 10**places + int(decimals.ljust(places, '0'))
    value = -value if sign else value
    if not LEAST_WORD <= value <= MOST_WORD:
        raise BadArgument(f"'{text}' is outside {show_parts(LEAST_WORD, places)} to {show_parts(MOST_WORD, places)}, what a record's word can hold")
    return value


def dollars(text):
    return whole_parts(text, 2, 'a price has at most two decimals, whole cents')


def megawatts(text):
    return whole_parts(text, 1, 'a quantity has at most one decimal, whole tenths of a MW')


def with_unit(text, units, parts, plain):
    """A plain whole number is in the record's unit; with a unit written after it, in that."""
    for unit in units:
        if text.endswith(unit):
            return parts(text[:-len(unit)])
    if re.fullmatch(r'-?[0-9]+\.[0-9]*', text):
        raise BadArgument(f"'{text}': write {plain}, or the unit: {text}{units[0]}")
    if not re.fullmatch('-?[0-9]+', text):
        raise BadArgument(f"'{text}' is not a whole number, nor one with {' or '.join(units)}")
    return word(text)


def quantity(text):
    return with_unit(text, ('MW',), megawatts, 'whole tenths of a MW')


def ramp(text):
    return with_unit(text, ('MW/min', 'MW'), megawatts, 'whole tenths of a MW per minute')


def percent(text):
    return whole_parts(text, 1, 'a proportion has at most one decimal of a percent, whole thousandths')


def proportion(text):
    return with_unit(text, ('%',), percent, 'whole thousandths')


def pair_list(text, read_quantity, read_price):
    """QUANTITY@PRICE, parted by commas, as (price, quantity): the record's order."""
    pairs = []
    for item in text.split(','):
        if item.count('@') != 1:
            raise BadArgument(f"'{item}' is not QUANTITY@PRICE")
        left, right = item.split('@')
        pairs.append((read_price(right), read_quantity(left)))
    return pairs


def pairs(text):
    return pair_list(text, word, word)


def mw_pairs(text):
    return pair_list(text, megawatts, dollars)


# ---- showing

def show_parts(value, places):
    units, decimals = divmod(abs(value), 10**places)
    return f"{'-' if value < 0 else ''}{units}.{decimals:0{places}d}"


def show_mw(tenths):
    return f'{show_parts(tenths, 1)} MW'


def show_ramp(tenths):
    return f'{show_parts(tenths, 1)} MW/min'


def show_price(cents):
    return f"{'-' if cents < 0 else ''}${show_parts(abs(cents), 2)}/MWh"


def show_proportion(thousandths):
    return show_parts(thousandths, 3)
