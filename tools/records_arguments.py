"""The words of tools/records.py's command line: commands, options and their --help.
Errors are one line; an option given twice, or an abbreviation, is one."""
import argparse
import re
from functools import lru_cache

from records_amounts import BadArgument, mw_pairs, pairs, proportion, quantity, ramp, whole, within, word
from records_dates import FIRST_YEAR, LAST_YEAR, date, minute, period, period_of, slot, weekday
from records_explain import CAPABILITY
from records_layout import CALLS, KINDS, KIND_NAMES, NOTICES, OUTAGES, REASONS, SERVICES, alternatives, kinds_with

TOP = '''\
usage: records.py COMMAND ..

Makes and explains records of the half-hour offer book. A record is 112 bytes, so it goes to a
file or a pipe, or with --hex to the screen; the program target/bin/offer_book files them.

{commands}

Each has its own --help. For example:
  records.py capability --facility 0 --kind generation --max-generation 130.0MW \\
      --max-combined 80.0MW --registered energy --append day.records
  records.py standing --facility 0 --service energy --slot Mon/02:00 \\
      --mw 50.0@40.00,20.0@50.00 --append day.records
  records.py variation --facility 0 --service energy --date 2026-11-16 --period 24 \\
      --pairs 300@4000 --hex
  records.py clock --minute 1/00:00 then total --service energy --period 340 > two.records
  records.py explain --brief day.records --answers day.answers
  records.py explain --answer 17 0 0

Amounts are exact. A plain whole number is in the record's unit: tenths of a MW, tenths of a MW
per minute, thousandths. With its unit written it is read in that: 130.0MW, 1.5MW/min, 62.5%.
Pairs are tenths@cents after --pairs, MW@dollars after --mw.
Minutes count from the start of day 0, Monday 2024-01-01, or are DAY/HH:MM, DAY a number or a
date. Period P starts at minute 30 P, or is the DAY/HH:MM of its start; beside --date it is one
of the day's, 1 to 48. Slots are 0 to 335, or Mon/02:00, or --weekday or --date with --period.
'then' joins several calls into one run of records. For FILE, - is standard input or output.

A record that any book refuses, whatever it holds, is not made unless --anyway is given.
Exit status: 0; 1 where explain --strict finds something wrong; else 2, with one line on
standard error, also where a reader such as head closes the pipe before all is written.
docs/REFUSALS.md explains the numbers.
'''


class HelpAsked(Exception):
    """The text of --help."""


class Help(argparse.Action):
    def __call__(self, parser, options, value, option=None):
        raise HelpAsked(parser.format_help())


class Parser(argparse.ArgumentParser):
    """Help goes the way of all output, and is as wide on every terminal."""

    def __init__(self, **settings):
        super().__init__(allow_abbrev=False, add_help=False,
                         formatter_class=lambda prog: argparse.RawDescriptionHelpFormatter(prog, width=96), **settings)
        self.add_argument('-h', '--help', action=Help, nargs=0, help='show this help')

    def error(self, message):
        raise BadArgument(f'{self.prog}: {message} (--help tells more)')


class TopParser(Parser):
    def format_help(self):
        return self.description


class Once(argparse.Action):
    """An option given twice is a slip, not a correction."""

    def __call__(self, parser, options, value, option=None):
        if getattr(options, self.dest, self.default) is not self.default:
            parser.error(f'{option} is given twice')
        setattr(options, self.dest, value)


# ---- words with names

def named(names, what):
    """A number of the table, or its name."""
    def of(text):
        for number, name in names.items():
            if text == name:
                return number
        if text.lstrip('-').isdigit():
            return word(text)
        raise BadArgument(f"'{text}' is no {what}: {', '.join(names.values())}, or a number")
    return of


def service(text):
    return within(named(dict(enumerate(SERVICES)), 'service')(text), 0, 4, 'service')


def facility(text):
    return within(whole(text), 0, 255, 'facility')


def reason(text):
    return within(named(dict(enumerate(REASONS)), 'reason')(text), 0, 255, 'reason')


def notice(text):
    return within(named(NOTICES, 'notice')(text), 0, 255, 'notice')


def call(text):
    return within(named(CALLS, 'call')(text), 0, 255, 'call')


def input_name(text):
    if text == '':
        raise BadArgument("an empty name: give a file's, or - for standard input")
    return text


def output_name(text):
    if text == '':
        raise BadArgument("an empty name: give a file's, or - for standard output")
    return text


def services(text):
    marks = [service(part) for part in text.split(',')]
    if len(set(marks)) < len(marks):
        raise BadArgument(f"'{text}' names a service twice")
    return marks


# ---- the arguments of each call

def add_output_options(parser):
    group = parser.add_argument_group('where the records go (standard output if nothing is said)')
    group.add_argument('--hex', action='store_true', help='write each record as a line of 224 hex digits')
    where = group.add_mutually_exclusive_group()
    where.add_argument('--out', type=output_name, metavar='FILE', action=Once, help='write to FILE, replacing it; - is standard output')
    where.add_argument('--append', type=output_name, metavar='FILE', action=Once, help='add to the end of FILE, which must hold whole records of the same form')
    where.add_argument('--terminal', action='store_true', help='write bytes even to a terminal')


def add_offer_options(parser, is_variation):
    parser.add_argument('--proportion', type=proportion, action=Once, metavar='N', help='reserve proportion, thousandths or with %%; a '
                        + alternatives(kinds_with(lambda kind: kind.proportion)) + ' facility must give one')
    parser.add_argument('--ramp-up', type=ramp, action=Once, metavar='N', help='energy ramp-up rate, tenths of a MW per minute or with MW/min; 0 if left out')
    parser.add_argument('--ramp-down', type=ramp, action=Once, metavar='N', help='energy ramp-down rate, likewise')
    either = parser.add_mutually_exclusive_group(required=True)
    either.add_argument('--pairs', type=pairs, action=Once, metavar='T@C,..', help='pairs, tenths of a MW @ cents per MWh: 500@4000,200@5000')
    either.add_argument('--mw', type=mw_pairs, action=Once, metavar='MW@$,..', help='pairs, MW @ dollars per MWh: 50.0@40.00,20.0@50.00')
    if is_variation:
        either.add_argument('--take-back', action='store_true', help='no pairs: takes the variation back, and the standing offer stands again')
    alone = ', and not alone: 0.0 MW cannot be filed for one period' if is_variation else '; alone they are an offer of 0.0 MW'
    parser.epilog = f'Ten pairs at most for energy, five for reserve and regulation; the rest are blank.\n0@0 is a blank pair. Blanks go last{alone}.'


OPTIONS = {
    '--facility': dict(type=facility, metavar='N', help='facility, from 0'),
    '--service': dict(type=service, metavar='SERVICE', help=', '.join(SERVICES) + ', or 0 to 4'),
    '--period': dict(metavar='P', help='period P, or DAY/HH:MM of its start; with --date 1 to 48'),
    '--date': dict(type=date, metavar='YYYY-MM-DD', help=f'date of {FIRST_YEAR} to {LAST_YEAR}: 2026-11-16'),
    '--slot': dict(type=slot, metavar='SLOT', help='slot 0 to 335, or weekday and time: Mon/02:00'),
    '--weekday': dict(type=weekday, metavar='DAY', help='Mon to Sun'),
    '--minute': dict(type=minute, metavar='M', help='minute from the start of day 0, or DAY/HH:MM'),
    '--periods': dict(type=word, metavar='N', help=f'count of periods after the one that holds the minute: {OUTAGES}'),
    '--first': dict(metavar='P', help='first period of the notice; with --date 1 to 48'),
    '--last': dict(metavar='P', help='last period of the notice, likewise'),
    '--last-date': dict(type=date, metavar='YYYY-MM-DD', help="the last period's date, where it is another"),
}

# command: what it is, its options
COMMANDS = {
    'clock': ('call 1: sets the clock', ['--minute']),
    'capability': ('call 2: files what a facility can do', ['--facility']),
    'standing': ('call 3: files a standing offer for a slot of every week', ['--facility', '--service']),
    'variation': ('call 4: files a variation for one period, or takes it back', ['--facility', '--service', '--period']),
    'outage': ('call 5: reports a forced outage', ['--facility', '--minute', '--periods']),
    'notice': ('call 6: files an advisory notice', ['--first', '--last']),
    'withdrawal': ('call 7: withdraws the system status notice', []),
    'look-up': ('call 8: asks which offer is in force', ['--facility', '--service', '--period']),
    'total': ('call 9: asks for the sum of the offers in force', ['--service', '--period']),
}

MAY_BE_GIVEN = {'variation': ['--date'], 'notice': ['--date', '--last-date'], 'look-up': ['--date'], 'total': ['--date']}


def add_call_options(name, parser):
    for option in COMMANDS[name][1]:
        parser.add_argument(option, action=Once, required=True, **OPTIONS[option])
    for option in MAY_BE_GIVEN.get(name, ()):
        parser.add_argument(option, action=Once, **OPTIONS[option])
    if name == 'standing':
        one = parser.add_mutually_exclusive_group(required=True)
        for option in ('--slot', '--weekday'):
            one.add_argument(option, action=Once, **OPTIONS[option])
        one.add_argument('--date', action=Once, type=date, metavar='YYYY-MM-DD', help='a date, of which the weekday alone counts: the offer stands every week')
        parser.add_argument('--period', action=Once, metavar='N', help='period 1 to 48 of that date or weekday')
    if name == 'capability':
        parser.add_argument('--kind', type=named(KIND_NAMES, 'kind'), action=Once, required=True, metavar='KIND',
                            help=', '.join(KIND_NAMES.values()) + f', or 1 to {len(KIND_NAMES)}')
        for option, label, _ in CAPABILITY:
            parser.add_argument(f'--{option}', type=amount_of(option), action=Once, metavar='N', help=f'{label}; 0 if left out')
        parser.add_argument('--registered', type=services, action=Once, metavar='SERVICE,..', help='services it is registered for' + ''.join(
            f"; a {kind.name}'s: {', '.join(SERVICES[s] for s in kind.marks)}" for kind in KINDS.values() if len(kind.marks) < len(SERVICES)))
        parser.epilog = "A link's import capacity is its generation maximum; the combined one binds its energy as well."
    if name in ('standing', 'variation'):
        asked = "needed less than 65 minutes before the " + ("slot's next period, over a held offer" if name == 'standing' else 'period')
        parser.add_argument('--reason', type=reason, action=Once, metavar='R', help=', '.join(REASONS) + f', or 0 to 6; {asked}')
    if name in ('notice', 'withdrawal'):
        parser.add_argument('--kind', type=notice, action=Once, required=name == 'notice', metavar='KIND',
                            help='surplus, shortfall or status, or 3 to 5' + ('' if name == 'notice' else '; status if left out, and no other can be withdrawn'))
    if name in ('standing', 'variation'):
        add_offer_options(parser, name == 'variation')
    parser.add_argument('--anyway', action='store_true', help='make a record that any book refuses')
    add_output_options(parser)


def amount_of(option):
    return proportion if option.endswith('proportion') else ramp if 'ramp' in option else quantity


def add_explain_options(parser):
    parser.add_argument('file', type=input_name, nargs='?', metavar='FILE',
                        help='records one after another, or lines of hex digits; - or nothing for standard input')
    parser.add_argument('--brief', action='store_true', help='one line a record with its answer, in columns')
    parser.add_argument('--answers', type=input_name, metavar='FILE', action=Once, help='answers, a line for each record')
    parser.add_argument('--facilities', type=word, action=Once, metavar='F', help="the book's F, 64 if left out")
    parser.add_argument('--services', type=word, action=Once, metavar='S', help="the book's S, 5 if left out")
    parser.add_argument('--strict', action='store_true',
                        help='exit status 1 where the record test refuses a record, or an answer is one that no book gives')
    parser.add_argument('--whole', action='store_true', help='take FILE as one record, whatever its length')
    parser.add_argument('--record', metavar='HEX', action=Once, help='one record in hex digits, in place of FILE')
    parser.add_argument('--answer', nargs='+', metavar='N', action=Once, help='an answer alone: number, word 0, sum; or number, 24 words, sum')
    parser.add_argument('--call', type=call, action=Once, metavar='CALL', help='the call that --answer answers: ' + ', '.join(CALLS.values()) + ', or 1 to 9')
    parser.add_argument('--damaged', action='store_true', help='let --call be none of the nine')
    parser.add_argument('--period', action=Once, metavar='P', help='a period alone: P, or DAY/HH:MM of its start; with --date 1 to 48')
    parser.add_argument('--date', action=Once, **OPTIONS['--date'])


@lru_cache(maxsize=1)
def parser_of_all():
    others = {'sample': "writes document 01's worked run, nine records", 'explain': 'says what records, answers and periods mean'}
    texts = {**{name: text for name, (text, _) in COMMANDS.items()}, **others}
    top = TopParser(prog='records.py', description=TOP.format(commands='\n'.join(f'  {name:<12}{text}' for name, text in texts.items())))
    commands = top.add_subparsers(dest='command', required=True, metavar='COMMAND', parser_class=Parser)
    parsers = {name: commands.add_parser(name, description=text) for name, text in texts.items()}
    for parser in parsers.values():
        parser.set_defaults(error=parser.error)
    for name in COMMANDS:
        add_call_options(name, parsers[name])
    add_output_options(parsers['sample'])
    add_explain_options(parsers['explain'])
    return top


def with_values(words):
    """What starts like a negative number is the value of the option before it; argparse takes -50@40 for an option."""
    joined = []
    for text in words:
        is_value = re.match(r'-[0-9.]', text) and not re.fullmatch(r'-[0-9]+|-[0-9]*\.[0-9]+', text)
        if is_value and joined and re.fullmatch(r'--[a-z-]+', joined[-1]):
            joined[-1] += '=' + text
        else:
            joined.append(text)
    return joined


# ---- periods, read once it is known what stands beside them

def settle_period(options, name, day):
    """Beside a day, one of its periods 1 to 48."""
    text = getattr(options, name)
    try:
        setattr(options, name, period(text) if day is None else period_of(day, text))
    except BadArgument as error:
        options.error(f'argument --{name}: {error}')


def settle_slot(options):
    """A weekday stands for its day of the first week."""
    if options.slot is not None:
        if options.period is not None:
            options.error('--period goes with --date or --weekday, not with --slot')
        return
    if options.period is None:
        options.error('--date and --weekday go with --period, 1 to 48')
    settle_period(options, 'period', options.weekday if options.date is None else options.date)
    options.slot = options.period % 336


def settle_notice(options):
    if options.last_date is not None and options.date is None:
        options.error('--last-date goes with --date')
    settle_period(options, 'first', options.date)
    settle_period(options, 'last', options.date if options.last_date is None else options.last_date)


def settled(options):
    if options.command == 'standing':
        settle_slot(options)
    elif options.command == 'notice':
        settle_notice(options)
    elif 'date' in options:
        if options.period is not None:
            settle_period(options, 'period', options.date)
        elif options.date is not None:
            options.error('--date goes with --period, 1 to 48')
    return options


def parse_run(words):
    """One set of options for each call of a run joined by 'then'."""
    runs = [[]]
    for text in words:
        if text == 'then':
            runs.append([])
        else:
            runs[-1].append(text)
    parser = parser_of_all()
    return [settled(parser.parse_args(with_values(run))) for run in runs]
