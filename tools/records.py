#!/usr/bin/env python3
"""Records for people: makes the 112-byte records of document 01's nine calls from words, and explains records and answers.
It files nothing: give what it writes to the program or the gateway. Python 3.8 or later, and its standard library alone."""
import sys

sys.dont_write_bytecode = True

from records_amounts import BadArgument, within  # noqa: E402
from records_answers import Book, damage, explain_answer, read_answer  # noqa: E402
from records_arguments import HelpAsked, parse_run  # noqa: E402
from records_brief import brief_lines, brief_rows  # noqa: E402
from records_dates import DATE_REFUSED, LAST_DATED_PERIOD, show_period  # noqa: E402
from records_explain import CAPABILITY, aligned, explain_record, open_row  # noqa: E402
from records_files import append_records, hex_bytes, read_records, read_answers  # noqa: E402
from records_layout import CALLS, LENGTH, SERVICES, any_book_refuses, build, form_faults, offer_fields, read, record_test  # noqa: E402
from records_refusals import REFUSALS  # noqa: E402
from records_streams import BadStream, complain, is_terminal, write_file, write_lines, write_output  # noqa: E402

# Document 01's worked run.
SAMPLE = '''\
capability --facility 0 --kind generation --max-generation 1300 --max-combined 800 --registered energy
then standing --facility 0 --service energy --slot 4 --pairs 500@4000,200@5000
then look-up --facility 0 --service energy --period 4
then variation --facility 0 --service energy --period 4 --pairs 300@4000
then look-up --facility 0 --service energy --period 4
then total --service energy --period 4
then look-up --facility 0 --service energy --period 340
then clock --minute 1440
then look-up --facility 0 --service energy --period 340'''


# ---- the nine calls

def offer(options):
    """Facility, service and reason; proportion, ramps and pairs, where the service uses them."""
    fields, count = offer_fields(options.service)
    name = SERVICES[options.service]
    for option, field in (('proportion', 'proportion'), ('ramp_up', 'ramp up'), ('ramp_down', 'ramp down')):
        if getattr(options, option) is not None and field not in fields:
            raise BadArgument(f"an offer for {name} has no {field}")
    pairs = options.pairs if options.pairs is not None else options.mw or []
    if options.command == 'variation' and not options.take_back and not any(value for pair in pairs for value in pair):
        raise BadArgument('a variation of 0.0 MW takes the variation back, and the standing offer stands again: give --take-back for that; '
                          'the least that can be filed is 0.1 MW')
    if len(pairs) > count:
        raise BadArgument(f'{len(pairs)} pairs, and an offer for {name} has {count}')
    return {'facility': options.facility, 'service': options.service, 'reason': options.reason or 0, 'proportion': within(options.proportion or 0, 0, 65535, 'proportion'),
            'ramp_up': options.ramp_up or 0, 'ramp_down': options.ramp_down or 0, 'words': [value for pair in pairs for value in pair]}


def capability(options):
    maxima = [getattr(options, option.replace('-', '_')) or 0 for option, _, _ in CAPABILITY]
    marks = [int(s in (options.registered or ())) for s in range(5)]
    return build(2, facility=options.facility, words=[options.kind] + maxima + marks)


BUILD = {
    'clock': lambda o: build(1, a=o.minute),
    'capability': capability,
    'standing': lambda o: build(3, period=o.slot, **offer(o)),
    'variation': lambda o: build(4, period=o.period, **offer(o)),
    'outage': lambda o: build(5, facility=o.facility, a=o.minute, b=o.periods),
    'notice': lambda o: build(6, reason=o.kind, a=o.first, b=o.last),
    'withdrawal': lambda o: build(7, reason=5 if o.kind is None else o.kind),
    'look-up': lambda o: build(8, facility=o.facility, service=o.service, period=o.period),
    'total': lambda o: build(9, service=o.service, period=o.period),
}


def make(options):
    data = BUILD[options.command](options)
    refusal, why = any_book_refuses(data)
    if refusal and not options.anyway:
        raise BadArgument(f'any book refuses this with {refusal} or a lower number: {why} (--anyway makes it all the same)')
    return data


def sample():
    return b''.join(make(options) for options in parse_run(SAMPLE.split()))


# ---- writing

def write_records(records, run):
    chosen = [o for o in run if o.out is not None or o.append is not None or o.terminal]
    if len(chosen) > 1:
        raise BadArgument('say once where the records go')
    where = (chosen or run)[0]
    as_hex = any(o.hex for o in run)
    data = ''.join(record.hex() + '\n' for record in records).encode() if as_hex else b''.join(records)
    if where.out not in (None, '-'):
        write_file(where.out, data, 'wb')
    elif where.append not in (None, '-'):
        append_records(where.append, data, as_hex)
    elif is_terminal(sys.stdout) and not as_hex and not where.terminal:
        raise BadArgument('records are bytes and this is a terminal: give --hex, --out FILE, --append FILE or --terminal')
    else:
        write_output([data])


# ---- explaining

def check_sources(options):
    """Each thing to be explained is given once, and from one place."""
    if options.period is not None:
        given = {name for name, value in vars(options).items() if value is not None and value is not False}
        if given - {'command', 'error', 'period', 'date'}:
            raise BadArgument('explain: --period stands alone, or with --date')
    elif options.answer is not None:
        if options.file is not None or options.record is not None or options.answers is not None or options.whole or options.brief:
            raise BadArgument('explain: --answer stands alone, or with --call')
        if options.call is not None and options.call not in CALLS and not options.damaged:
            raise BadArgument(f'explain: there is no call {options.call}: calls are 1 to 9 (--damaged explains it all the same)')
    elif options.call is not None or options.damaged:
        raise BadArgument('explain: --call and --damaged go with --answer')
    elif options.record is not None:
        if options.file is not None or options.whole:
            raise BadArgument('explain: --record stands without FILE and --whole')
    elif options.answers == '-' and options.file in (None, '-'):
        raise BadArgument('explain: standard input cannot hold the records and the answers')
    elif options.file is None and is_terminal(sys.stdin):
        raise BadArgument('explain: nothing to explain: give FILE, --record HEX or --answer N N N')


def period_lines(period):
    """A period past the last date is one all the same: the book's go on."""
    rows = [open_row(period)] if period >= 0 else []
    if not 0 <= period <= LAST_DATED_PERIOD:
        rows.append(('no date', f'{DATE_REFUSED}: {REFUSALS[DATE_REFUSED].note}'))
    return [f'period {show_period(period)}'] + aligned(rows)


def call_and_service(data):
    if form_faults(data):
        return None, None
    r = read(data)
    return r.call, r.service if r.service < 5 else None


def whole_lines(records, answers, book):
    for place, (data, (line, answer)) in enumerate(zip(records, answers), 1):
        first, *rest = explain_record(data, book.facilities, book.services)
        yield f'record {place}: {first}'
        yield from rest
        if answer is not None:
            yield f'  answer {line}'
            yield from ('    ' + text for text in explain_answer(answer, *call_and_service(data), book.most, book.wrong(data, answer)))


def wrong_places(records, answers, book):
    for place, (data, (_, answer)) in enumerate(zip(records, answers), 1):
        if record_test(data, book.facilities, book.services)[0]:
            yield f'record {place}'
        if answer is not None and book.wrong(data, answer):
            yield f'answer {place}'


def strict_status(wrong):
    """The status of --strict, and its line."""
    if wrong:
        more = f' and {len(wrong) - 5} more' if len(wrong) > 5 else ''
        complain(f"records.py: --strict: not right: {', '.join(wrong[:5])}{more}")
    return 1 if wrong else 0


def explain(options):
    """The exit status. Everything is read before anything is written."""
    check_sources(options)
    if options.period is not None:
        write_lines(period_lines(options.period))
        return 0
    book = Book(options.facilities, options.services)
    if options.answer is not None:
        answer = read_answer(' '.join(options.answer))
        write_lines(explain_answer(answer, options.call, None, book.most))
        return strict_status(['the answer'] if options.strict and damage(answer, options.call, book.most) else [])
    records = [hex_bytes(options.record, '--record')] if options.record is not None else read_records(options.file or '-', options.whole)
    answers = read_answers(options.answers, len(records)) if options.answers is not None else [(None, None)] * len(records)
    if options.brief:
        write_lines(brief_lines(brief_rows(records, [answer for _, answer in answers], book), options.answers is not None))
    else:
        write_lines(whole_lines(records, answers, book) if records else ['no records'])
    return strict_status(list(wrong_places(records, answers, book)) if options.strict else [])


# ---- the program

def run(arguments):
    """The exit status."""
    parsed = parse_run(arguments)
    if any(options.command == 'explain' for options in parsed):
        if len(parsed) > 1:
            raise BadArgument("explain stands alone, without 'then'")
        return explain(parsed[0])
    records = []
    for options in parsed:
        data = sample() if options.command == 'sample' else make(options)
        records += [data[start:start + LENGTH] for start in range(0, len(data), LENGTH)]
    write_records(records, parsed)
    return 0


def main(arguments):
    try:
        try:
            return run(arguments)
        except HelpAsked as asked:
            write_output([str(asked).encode()])
            return 0
    except (BadArgument, BadStream) as error:
        text = str(error)
        complain(text if text.startswith('records.py') else f'records.py: {text}')
    except MemoryError:
        complain('records.py: there is not enough memory')
    except KeyboardInterrupt:
        complain('records.py: interrupted')
    return 2


if __name__ == '__main__':
    sys.exit(main(sys.argv[1:]))
