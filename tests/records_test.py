"""Tests of tools/records.py: its bytes against hex written by hand, amounts, bad arguments, streams, explanations, the vectors;
and that its words are those of include/bilzhaan.h and docs/REFUSALS.md, whose sums are worked out again.
Run it directly, or with python3 -m unittest tests/records_test.py."""
import collections
import contextlib
import io
import itertools
import os
import pty
import random
import re
import resource
import shutil
import subprocess
import sys
import tempfile
import unittest
from decimal import Decimal

HERE = os.path.dirname(os.path.abspath(__file__))
ROOT = os.path.dirname(HERE)
TOOL = os.path.join(ROOT, 'tools', 'records.py')
sys.dont_write_bytecode = True
sys.path.insert(0, os.path.dirname(TOOL))

import records  # noqa: E402
import records_amounts  # noqa: E402
import records_dates  # noqa: E402
import records_layout  # noqa: E402
from records_answers import Book, explain_answer, read_answer  # noqa: E402
from records_arguments import COMMANDS, TOP  # noqa: E402
from records_brief import brief_lines, brief_rows  # noqa: E402
from records_explain import CAPABILITY, REASON_TEXTS, command_for, explain_record  # noqa: E402
from records_layout import KIND_NAMES, KINDS, any_book_refuses, build, read, record_test  # noqa: E402
from records_refusals import REFUSALS, draws  # noqa: E402

# Document 01, "Cases": "Output whole".
PRINTED = ['0 0 0', '0 0 0', '0 3 700', '0 0 0', '0 4 300', '0 1 300', '10 0 0', '0 0 0', '0 1 700']
FRESH = 'accepted less than 5 minutes before the clock, so a market schedule made at that minute may leave it out'


def run(words):
    """Status, standard output as bytes, standard error, of the tool's main."""
    output, errors = io.TextIOWrapper(io.BytesIO(), encoding='utf-8'), io.StringIO()
    with contextlib.redirect_stdout(output), contextlib.redirect_stderr(errors):
        status = records.main(words)
        output.flush()
    return status, output.buffer.getvalue(), errors.getvalue()


def contents(*path):
    with open(os.path.join(*path), 'rb') as file:
        return file.read()


def from_hex(text):
    return bytes.fromhex(''.join(line.split('#')[0] for line in text.splitlines()))


def head(text):
    """Bytes 0 to 31 in hex, and zeros after them."""
    return from_hex(text) + bytes(80)


class Tool(unittest.TestCase):
    def made(self, line):
        status, output, errors = run(line.split())
        self.assertEqual((status, errors), (0, ''), line)
        return output

    def explained(self, line):
        return self.made('explain ' + line).decode()

    def refused(self, words):
        """The one line of the error; nothing is written."""
        status, output, errors = run(words)
        self.assertEqual((status, output), (2, b''), words)
        self.assertTrue(errors.startswith('records.py') and errors.endswith('\n') and errors.count('\n') == 1, errors)
        return errors


class BytesByHand(Tool):
    def test_clock(self):
        want = head('534f42 0001 01 00 00 00000000 00 00 0000 00000000 00000000 3b9aca00 00000000')
        self.assertEqual(self.made('clock --minute 1000000000'), want)

    def test_capability(self):
        want = from_hex('''534f42 0001 02 3f 00 00000000 00 00 0000 00000000 00000000 00000000 00000000
            00000001 00000514 00000320 00000064 0000006e 00000078 00000082 0000000f 00000014
            000001f4 00000271 000003e8 00000001 00000001 00000000 00000001 00000001 00000000 00000000 00000000''')
        self.assertEqual(self.made(
            'capability --facility 63 --kind generation --max-generation 1300 --max-combined 800 --max-primary 100 --max-secondary 110'
            ' --max-contingency 120 --max-regulation 130 --max-ramp-up 15 --max-ramp-down 20 --max-primary-proportion 500'
            ' --max-secondary-proportion 625 --max-contingency-proportion 1000 --registered energy,primary,contingency,regulation'), want)

    def test_capability_of_a_load(self):
        want = from_hex('''534f42 0001 02 01 00 00000000 00 00 0000 00000000 00000000 00000000 00000000
            00000002 00000000 00000000 00000000 00000000 00000078 00000000 00000000 00000000 00000000
            00000000 00000000 00000000 00000000 00000000 00000001 00000000 00000000 00000000 00000000''')
        self.assertEqual(self.made('capability --facility 1 --kind load --max-contingency 12.0MW --registered 3'), want)

    def test_capability_of_a_link(self):
        want = from_hex('''534f42 0001 02 02 00 00000000 00 00 0000 00000000 00000000 00000000 00000000
            00000003 000003e8 000003e8 00000000 00000000 00000000 00000000 0000000a 0000000b 00000000
            00000000 00000000 00000001 00000000 00000000 00000000 00000000 00000000 00000000 00000000''')
        for kind in ('link', '3'):
            self.assertEqual(self.made(f'capability --facility 2 --kind {kind} --max-generation 100.0MW --max-combined 1000 --max-ramp-up 10'
                                       ' --max-ramp-down 1.1MW/min --registered energy'), want)

    def test_standing_offer_for_energy(self):
        want = from_hex('''534f42 0001 03 02 00 0000014f 00 00 0000 0000000f 00000014 00000000 00000000
            ffffffff 00000001 00000000 00000000 00000fa0 000001f4 00001388 000000c8 00000000 00000000
            00000000 00000000 00000000 00000000 00000000 00000000 00000000 00000000 0006ddd0 0001869e''')
        self.assertEqual(self.made('standing --facility 2 --service energy --slot 335 --ramp-up 15 --ramp-down 20'
                                   ' --pairs 1@-1,0@0,500@4000,200@5000,0@0,0@0,0@0,0@0,0@0,99998@450000 --anyway'), want)

    def test_standing_offer_for_reserve(self):
        want = from_hex('''534f42 0001 03 00 02 00000000 00 00 0271 00000000 00000000 00000000 00000000
            00000001 00000002 00000003 00000004 00000005 00000006 00000007 00000008 00000009 0000000a''' + '00000000' * 10)
        self.assertEqual(self.made('standing --facility 0 --service secondary --slot 0 --proportion 625 --pairs 2@1,4@3,6@5,8@7,10@9'), want)

    def test_standing_offer_with_a_reason(self):
        want = from_hex('''534f42 0001 03 05 00 00000004 02 00 0000 00000000 00000000 00000000 00000000
            00000fa0 0000012c''' + '00000000' * 18)
        for reason in ('outage', '2'):
            self.assertEqual(self.made(f'standing --facility 5 --service energy --slot 4 --reason {reason} --pairs 300@4000'), want)

    def test_variation(self):
        want = from_hex('''534f42 0001 04 05 00 00000154 04 00 0000 00000000 00000000 00000000 00000000
            fff92230 000001f4 00001388 0000012c''' + '00000000' * 16)
        self.assertEqual(self.made('variation --facility 5 --service energy --period 340 --reason shortfall --pairs 500@-450000,300@5000'), want)

    def test_variation_for_regulation(self):
        want = from_hex('''534f42 0001 04 00 04 00000004 06 00 0000 00000000 00000000 00000000 00000000
            00000000 00000064''' + '00000000' * 18)
        self.assertEqual(self.made('variation --facility 0 --service 4 --period 4 --reason 6 --pairs 100@0'), want)

    def test_variation_taken_back(self):
        want = head('534f42 0001 04 05 00 00000154 02 00 0000 0000000f 00000000 00000000 00000000')
        self.assertEqual(self.made('variation --facility 5 --service energy --period 340 --reason outage --ramp-up 15 --take-back'), want)
        want = head('534f42 0001 04 00 03 00000004 00 00 0001 00000000 00000000 00000000 00000000')
        self.assertEqual(self.made('variation --facility 0 --service contingency --period 4 --proportion 1 --take-back'), want)

    def test_outage(self):
        want = head('534f42 0001 05 02 00 00000000 00 00 0000 00000000 00000000 00000064 00000003')
        self.assertEqual(self.made('outage --facility 2 --minute 100 --periods 3'), want)

    def test_notice(self):
        want = head('534f42 0001 06 00 00 00000000 04 00 0000 00000000 00000000 00000004 02625a00')
        self.assertEqual(self.made('notice --kind shortfall --first 4 --last 40000000'), want)

    def test_withdrawal(self):
        want = head('534f42 0001 07 00 00 00000000 05 00 0000 00000000 00000000 00000000 00000000')
        self.assertEqual(self.made('withdrawal'), want)
        self.assertEqual(self.made('withdrawal --kind status'), want)

    def test_look_up(self):
        want = head('534f42 0001 08 3f 03 0000014f 00 00 0000 00000000 00000000 00000000 00000000')
        self.assertEqual(self.made('look-up --facility 63 --service contingency --period 335'), want)

    def test_total(self):
        want = head('534f42 0001 09 00 04 00000030 00 00 0000 00000000 00000000 00000000 00000000')
        self.assertEqual(self.made('total --service regulation --period 48'), want)


class DatesByHand(Tool):
    """Period 24 of 16 November 2026, a Monday, is 48 * 1050 + 23: c4f7, and slot 23."""

    def test_variation(self):
        want = from_hex('''534f42 0001 04 05 00 0000c4f7 00 00 0000 00000000 00000000 00000000 00000000
            00000fa0 0000012c''' + '00000000' * 18)
        for when in ('--date 2026-11-16 --period 24', '--period 24 --date=2026-11-16', '--period 2026-11-16/11:30', '--period 1050/11:30'):
            self.assertEqual(self.made(f'variation --facility 5 --service energy {when} --pairs 300@4000'), want, when)

    def test_look_up(self):
        want = head('534f42 0001 08 3f 03 0000c4f7 00 00 0000 00000000 00000000 00000000 00000000')
        self.assertEqual(self.made('look-up --facility 63 --service contingency --date 2026-11-16 --period 24'), want)

    def test_total(self):
        want = head('534f42 0001 09 00 04 0000c4f7 00 00 0000 00000000 00000000 00000000 00000000')
        self.assertEqual(self.made('total --service regulation --date 2026-11-16 --period 24'), want)

    def test_standing_offer(self):
        for slot, ways in (('00000017', ('--date 2026-11-16 --period 24', '--weekday Mon --period 24', '--period 24 --weekday mon', '--slot 23')),
                           ('0000014f', ('--date 2026-11-22 --period 48', '--weekday SUN --period 48')),
                           ('00000030', ('--date 2026-11-17 --period 1', '--weekday Tue --period 01'))):
            want = from_hex(f'''534f42 0001 03 05 00 {slot} 00 00 0000 00000000 00000000 00000000 00000000
                00000fa0 0000012c''' + '00000000' * 18)
            for when in ways:
                self.assertEqual(self.made(f'standing --facility 5 --service energy {when} --pairs 300@4000'), want, when)

    def test_notice(self):
        """On one date; over midnight."""
        want = head('534f42 0001 06 00 00 00000000 04 00 0000 00000000 00000000 0000c4f7 0000c4f8')
        for when in ('--date 2026-11-16 --first 24 --last 25', '--last 25 --first 24 --date 2026-11-16', '--first 2026-11-16/11:30 --last 2026-11-16/12:00'):
            self.assertEqual(self.made(f'notice --kind shortfall {when}'), want, when)
        want = head('534f42 0001 06 00 00 00000000 04 00 0000 00000000 00000000 0000c50f 0000c510')
        self.assertEqual(self.made('notice --kind shortfall --date 2026-11-16 --first 48 --last-date 2026-11-17 --last 1'), want)

    def test_minutes(self):
        """11:40 on that date is minute 30 * 50423 + 10: 1714fc."""
        want = head('534f42 0001 01 00 00 00000000 00 00 0000 00000000 00000000 001714fc 00000000')
        self.assertEqual(self.made('clock --minute 2026-11-16/11:40'), want)
        want = head('534f42 0001 05 02 00 00000000 00 00 0000 00000000 00000000 001714fc 00000003')
        self.assertEqual(self.made('outage --facility 2 --minute 2026-11-16/11:40 --periods 3'), want)


class WorkedRun(Tool):
    def test_nine_records(self):
        want = from_hex(contents(HERE, 'worked-run.hex').decode())
        self.assertEqual(len(want), 9 * 112)
        self.assertEqual(self.made('sample'), want)
        self.assertEqual(contents(ROOT, 'samples', 'worked-run.records'), want)

    def test_nine_lines(self):
        self.assertEqual(contents(ROOT, 'samples', 'worked-run.txt').decode(), '\n'.join(PRINTED) + '\n')

    def test_explained_with_its_answers(self):
        folder = os.path.join(ROOT, 'samples')
        text = self.explained(f'{folder}/worked-run.records --answers {folder}/worked-run.txt --facilities 1 --services 1')
        answers = re.findall(r'  answer (.*)\n    (.*)', text)
        self.assertEqual([line for line, _ in answers], PRINTED)
        self.assertEqual([words for _, words in answers], [
            'accepted', 'accepted', f'the standing offer is in force, 70.0 MW in all; {FRESH}', 'accepted', f'the variation is in force, 30.0 MW in all; {FRESH}',
            '1 facility has an offer in force, 30.0 MW in all',
            'refused with 10, period refused; drawn by the coordinator or reader',
            'accepted', 'the standing offer is in force, 70.0 MW in all'])
        self.assertEqual(text.count('F 1, S 1: 0, passes'), 9)


class Amounts(Tool):
    def test_mw_and_dollars_are_tenths_and_cents(self):
        start = 'standing --facility 0 --service energy --slot 4 '
        for people, units in (
                ('--mw 50.0@40.00,20.0@50.00', '--pairs 500@4000,200@5000'), ('--mw 50@40,20@50', '--pairs 500@4000,200@5000'),
                ('--mw 0.3@0.29,1.1@1.15', '--pairs 3@29,11@115'), ('--mw 9999.9@-4500.00', '--pairs 99999@-450000'),
                ('--mw 0.1@-0.01,0.1@0.1,0.0@0.00', '--pairs 1@-1,1@10,0@0'), ('--mw 0.7@-0.57 --ramp-up 1.5MW --ramp-down 0.3MW/min',
                                                                              '--pairs 7@-57 --ramp-up 15 --ramp-down 3')):
            self.assertEqual(self.made(start + people), self.made(start + units), people)

    def test_units_in_a_capability(self):
        self.assertEqual(
            self.made('capability --facility 0 --kind 1 --max-generation 130.0MW --max-combined 80MW --max-ramp-up 999.9MW/min --max-primary-proportion 62.5%'),
            self.made('capability --facility 0 --kind 1 --max-generation 1300 --max-combined 800 --max-ramp-up 9999 --max-primary-proportion 625'))

    def test_every_amount_comes_back(self):
        for cents in list(range(-450000, 450001, 97)) + list(range(-301, 302)):
            self.assertEqual(records_amounts.dollars(str(Decimal(cents).scaleb(-2))), cents)
            self.assertEqual(records_amounts.show_price(cents), f"{'-' if cents < 0 else ''}${Decimal(abs(cents)).scaleb(-2):.2f}/MWh")
        for tenths in list(range(0, 100000, 37)) + [99999]:
            self.assertEqual(records_amounts.megawatts(str(Decimal(tenths).scaleb(-1))), tenths)
            self.assertEqual(records_amounts.show_mw(tenths), f'{Decimal(tenths).scaleb(-1):.1f} MW')

    def test_times(self):
        for line, same in (
                ('clock --minute 1/00:00', 'clock --minute 1440'), ('clock --minute 0/00:55', 'clock --minute 55'),
                ('look-up --facility 0 --service 0 --period 7/02:00', 'look-up --facility 0 --service 0 --period 340'),
                ('standing --facility 0 --service 0 --slot Mon/02:00 --pairs 1@1', 'standing --facility 0 --service 0 --slot 4 --pairs 1@1'),
                ('standing --facility 0 --service 0 --slot sun/23:30 --pairs 1@1', 'standing --facility 0 --service 0 --slot 335 --pairs 1@1'),
                ('notice --kind 3 --first 0/00:30 --last 1/00:00', 'notice --kind surplus --first 1 --last 48')):
            self.assertEqual(self.made(line), self.made(same), line)


def counted_dates():
    """Those of 2024 to 2099, one by one."""
    return [f'{year}-{month:02d}-{day:02d}' for year in range(2024, 2100)
            for month, days in enumerate((31, 29 if year % 4 == 0 else 28, 31, 30, 31, 30, 31, 31, 30, 31, 30, 31), 1) for day in range(1, days + 1)]


class Calendar(Tool):
    """The dates that there are, and the vectors, both ways; everything else is 21."""
    WEEKDAYS = ('Monday', 'Tuesday', 'Wednesday', 'Thursday', 'Friday', 'Saturday', 'Sunday')

    def words(self, date, period):
        return ['total', '--service', 'energy', '--anyway', f'--date={date}', f'--period={period}']

    def test_every_date(self):
        dates = counted_dates()
        self.assertEqual([records_dates.date(text) for text in dates], list(range(27759)))
        self.assertEqual([records_dates.show_date(day) for day in range(-1, 27760)], ['', *dates, ''])

    def test_no_other_date(self):
        dates = set(counted_dates())
        for year, month, day in itertools.product(range(2022, 2102), range(14), range(33)):
            text = f'{year}-{month:02d}-{day:02d}'
            if text not in dates:
                why = ' is no date' if 2024 <= year <= 2099 else ': the year is outside 2024 to 2099'
                with self.assertRaisesRegex(records_amounts.BadArgument, rf"^'{text}'{why} \(21\)$"):
                    records_dates.date(text)

    def test_edges(self):
        for date, period, want in (('2024-01-01', '1', 0), ('2024-01-01', '48', 47), ('2024-01-02', '1', 48), ('2024-02-28', '48', 2831),
                                   ('2024-02-29', '1', 2832), ('2024-03-01', '1', 2880), ('2025-02-28', '48', 20399), ('2025-03-01', '1', 20400),
                                   ('2099-12-31', '1', 1332384), ('2099-12-31', '48', 1332431)):
            self.assertEqual(run(self.words(date, period)), (0, build(9, period=want), ''))
        for date, why in (('2025-02-29', ' is no date'), ('2026-04-31', ' is no date'), ('2100-01-01', ': the year is outside 2024 to 2099'),
                          ('2023-12-31', ': the year is outside 2024 to 2099'), ('0000-00-00', ': the year is outside 2024 to 2099')):
            self.assertIn(f"argument --date: '{date}'{why} (21)", self.refused(self.words(date, 1)))
        for period in ('0', '00', '49', '99', '-1', '100', '048', '1' * 500, '24.0', '1e1', '+1', ' 24', '24 ', '24\n', '\u0662\u0664', ''):
            self.assertIn('is no period of the day, 1 to 48 (21)', self.refused(self.words('2024-02-29', period)))

    def test_one_spelling(self):
        for text in ('2026-1-6', '20261116', '2026-11-16T11:30', '2026-11-16/11:30', '2026-11-16 ', ' 2026-11-16', '2026-11-16\n', '2026/11/16', '2026.11.16',
                     '16-11-2026', '26-11-16', '2026-11-016', '02026-11-16', '+2026-11-16', '-2026-11-16', '2026-11', '2026-W47-1', '2026-Nov-16',
                     '\u0662\u0660\u0662\u0666-11-16', '2026\u201011\u201016', ''):
            self.assertIn('is no date YYYY-MM-DD (21)', self.refused(self.words(text, 24)))

    def test_vectors(self):
        """'date year month day period = number P weekday', 'period P = number year month day period weekday'."""
        seen = collections.Counter()
        for line in contents(HERE, 'vectors', 'k6_dates.txt').decode().splitlines()[1:]:
            operation, answer = line.split(' = ')
            name, *given = operation.split()
            number, *values = map(int, answer.split())
            seen[name, number] += 1
            check = self.check_date if name == 'date' else self.check_period
            check([int(value) for value in given], number, values)
        self.assertEqual(seen, {('date', 0): 2558, ('date', 21): 149, ('period', 0): 2531, ('period', 21): 8})

    def check_date(self, given, number, answer):
        year, month, day, period = given
        words = self.words(f'{year:04d}-{month:02d}-{day:02d}', period)
        if number:
            self.assertIn('(21)', self.refused(words))
        else:
            self.assertEqual(run(words), (0, build(9, period=answer[0]), ''), words)
            standing = ['standing', '--facility', '0', '--service', 'energy', '--pairs', '1@1', *words[4:]]
            self.assertEqual(read(run(standing)[1]).period, 48 * answer[1] + period - 1, words)

    def check_period(self, given, number, answer):
        text = self.explained(f'--period {given[0]}')
        if number:
            self.assertIn(' 21: no date of 2024 to 2099', text)
        else:
            year, month, day, period, weekday = answer
            self.assertTrue(text.startswith(f'period {given[0]} ({year}-{month:02d}-{day:02d}, {self.WEEKDAYS[weekday]}, period {period}, '), (text, answer))


class BadArguments(Tool):
    OFFER = 'standing --facility 0 --service energy --slot 4 '
    SLOTTED = 'standing --facility 0 --service energy --pairs 1@1 '
    TOTAL = 'total --service energy '
    NOTICE = 'notice --kind status '
    TABLE = (
        ('', 'required: COMMAND'),
        ('offer --facility 0', "invalid choice: 'offer'"),
        ('clock', 'required: --minute'),
        ('clock --minute', 'expected one argument'),
        ('clock --minute 5 --minute 6', '--minute is given twice'),
        ('clock --minute 5 6', 'unrecognized arguments: 6'),
        ('clock --min 5', 'required: --minute'),
        ('clock --minute five', "'five' is not a whole number"),
        ('clock --minute 1e3', "'1e3' is not a whole number"),
        ('clock --minute 1_000', "'1_000' is not a whole number"),
        ('clock --minute ٣', 'is not a whole number'),
        ('clock --minute 2147483648', 'is outside -2147483648 to 2147483647'),
        ('clock --minute ' + '1234567890' * 3, '1' + '234567890' + '1234567890' * 2 + ' is outside -2147483648 to 2147483647'),
        ('clock --minute ' + '9' * 5000, 'a number of 5000 digits, 9999999999.., is outside every range'),
        ('clock --minute -1/00:00', 'day -1 is outside 0 to'),
        ('clock --minute 1000000001', 'refuses this with 6'),
        ('clock --minute -1', 'refuses this with 6'),
        ('clock --minute 1/24:00', 'is not a time of day'),
        ('clock --minute 1/9:00', 'is not a time of day'),
        ('clock --minute Mon/09:00', "'Mon' is not a whole number"),
        ('clock --minute 5 then', 'required: COMMAND'),
        ('clock --minute 5 then explain', "explain stands alone"),
        ('capability --facility 256 --kind load', 'facility 256 is outside 0 to 255'),
        ('capability --facility 64 --kind load', 'refuses this with 3'),
        ('capability --facility -1 --kind load', 'facility -1 is outside 0 to 255'),
        ('capability --facility 0 --kind pump', "'pump' is no kind: generation, load, link, or a number"),
        ('capability --facility 0 --kind 4', 'refuses this with 8 or a lower number: the kind is not 1 (generation), 2 (load) or 3 (link)'),
        ('capability --facility 0 --kind 0', 'refuses this with 8'),
        ('capability --facility 0 --kind load --registered energy', 'refuses this with 8 or a lower number: a load may not be registered for energy'),
        ('capability --facility 0 --kind link --registered primary', 'refuses this with 8 or a lower number: a link may not be registered for primary'),
        ('capability --facility 0 --kind link --registered 0,3,4', 'a link may not be registered for contingency, regulation'),
        ('capability --facility 0 --kind load --registered primary,1', 'names a service twice'),
        ('capability --facility 0 --kind load --registered primary,,', "is no service"),
        ('capability --facility 0 --kind 1 --max-generation 100000', 'refuses this with 8'),
        ('capability --facility 0 --kind 1 --max-generation 130.0', 'or the unit: 130.0MW'),
        ('capability --facility 0 --kind 1 --max-generation 130.05MW', 'at most one decimal'),
        ('capability --facility 0 --kind 1 --max-generation 130kW', "'130kW' is not a whole number"),
        ('capability --facility 0 --kind 1 --max-ramp-up 1000.0MW', 'refuses this with 8'),
        ('capability --facility 0 --kind 1 --max-primary-proportion 0.5', 'or the unit: 0.5%'),
        ('capability --facility 0 --kind 1 --max-primary-proportion 50.05%', 'at most one decimal of a percent'),
        ('capability --facility 0 --kind 1 --max-primary-proportion 1001', 'refuses this with 8'),
        (OFFER, 'one of the arguments --pairs --mw is required'),
        (OFFER + '--pairs 1@1 --mw 1@1', 'not allowed with argument'),
        (OFFER + '--pairs 500', "'500' is not QUANTITY@PRICE"),
        (OFFER + '--pairs 500@', "'' is not a whole number"),
        (OFFER + '--pairs 500@4000,', "'' is not QUANTITY@PRICE"),
        (OFFER + '--pairs 500@40@2', "is not QUANTITY@PRICE"),
        (OFFER + '--pairs 50.0@4000', "'50.0' is not a whole number"),
        (OFFER + '--mw 50.0@40.005', "'40.005': a price has at most two decimals"),
        (OFFER + '--mw 50.05@40.00', "'50.05': a quantity has at most one decimal"),
        (OFFER + '--mw 50.@40.00', "'50.' is not a decimal number"),
        (OFFER + '--mw 50.0@.5', "'.5' is not a decimal number"),
        (OFFER + '--mw 50.0@nan', "'nan' is not a decimal number"),
        (OFFER + '--mw 50.0@1e2', "'1e2' is not a decimal number"),
        (OFFER + '--mw 50.0@4,500.00', "'500.00' is not QUANTITY@PRICE"),
        (OFFER + '--mw 50.0@99999999999.00', "'99999999999.00' is outside -21474836.48 to 21474836.47"),
        (OFFER + '--mw 50.0@' + '1234567890' * 3 + '.00', 'is outside -21474836.48 to 21474836.47'),
        (OFFER + '--mw -50@40', 'refuses this with 11 or a lower number: a quantity is outside 0.0 to 9999.9 MW'),
        (OFFER + '--mw -50.0@40.00,1@50', 'a quantity is outside 0.0 to 9999.9 MW'),
        (OFFER + '--pairs -500@4000', 'a quantity is outside 0.0 to 9999.9 MW'),
        (OFFER + '--pairs 1@1 --ramp-up -1.5MW', 'a ramp rate is outside 0.0 to 999.9 MW/min'),
        (OFFER + '--pairs ' + ','.join(f'1@{n}' for n in range(1, 12)), '11 pairs, and an offer for energy has 10'),
        (OFFER + '--pairs 1@1 --proportion 500', 'an offer for energy has no proportion'),
        (OFFER + '--pairs 1@1 --ramp-up -1', 'refuses this with 14'),
        (OFFER + '--pairs 1@1 --ramp-up 10000', 'refuses this with 14'),
        (OFFER + '--pairs 1@1 --take-back', 'unrecognized arguments'), (OFFER + '--pairs 1@1 --reason 7', 'refuses this with 11'),
        (OFFER + '--pairs=-1@1', 'refuses this with 11'),
        (OFFER + '--pairs 100000@1', 'refuses this with 11'),
        (OFFER + '--pairs 1@10000001', 'refuses this with 11'),
        (OFFER + '--pairs 1@-10000001', 'refuses this with 11'),
        (OFFER + '--pairs 0@5000', 'refuses this with 12'),
        (OFFER + '--pairs 1@5000,1@4000', 'refuses this with 13'),
        (OFFER + '--pairs 1@5000,1@5000', 'refuses this with 13'),
        (OFFER + '--pairs 1@4000,0@0,1@5000',
         'refuses this with 12 or a lower number: a blank pair stands before a filled one, in place 2: leave it out, or put it last (--anyway'),
        (OFFER + '--pairs 1@5000,0@0,1@4000', 'refuses this with 12'),
        (OFFER + '--pairs 0@0,1@5000', 'a blank pair stands before a filled one, in place 1: leave'),
        (OFFER + '--mw 0@0,0.0@0.00,1@2,0@0,3@4,0@0', 'a blank pair stands before a filled one, in place 1, 2, 4: leave'),
        (OFFER + '--pairs 1@4000,0@5,1@5000', 'refuses this with 12 or a lower number: a blank pair has a price'),
        (OFFER + '--pairs 1@1,0@0,1@5 --ramp-up 10000', 'refuses this with 12'),
        (OFFER + '--pairs 99999@1,0@0,1@2', 'refuses this with 12'),
        (OFFER + '--pairs 1@1,0@0,1@5 --reason 7', 'refuses this with 11'),
        (OFFER + '--pairs 1@1,0@0,100000@5', 'refuses this with 11'),
        (OFFER + '--pairs 1@1,0@0,1@10000001', 'refuses this with 11'),
        (OFFER + '--pairs 99999@1,1@2', 'refuses this with 16'),
        ('standing --facility 0 --service reserve --slot 4 --pairs 1@1', "'reserve' is no service"),
        ('standing --facility 0 --service 5 --slot 4 --pairs 1@1', 'service 5 is outside 0 to 4'),
        ('standing --facility 0 --service energy --slot 336 --pairs 1@1', 'refuses this with 10'),
        ('standing --facility 0 --service energy --slot Mo/02:00 --pairs 1@1', "'Mo' is not one of Mon"),
        ('standing --facility 0 --service energy --slot Mon/02:15 --pairs 1@1', 'a period starts at :00 or :30'),
        ('standing --facility 0 --service primary --slot 4 --pairs 1@1 --ramp-up 5', 'an offer for primary has no ramp up'),
        ('standing --facility 0 --service primary --slot 4 --pairs 1@-1', 'refuses this with 11'),
        ('standing --facility 0 --service primary --slot 4 --pairs 1@1,0@0,0@0,0@0,1@2', 'in place 2, 3, 4: leave'),
        ('standing --facility 0 --service primary --slot 4 --pairs 1@1 --proportion 65536', 'proportion 65536 is outside 0 to 65535'),
        ('standing --facility 0 --service primary --slot 4 --pairs 1@1 --proportion -1', 'proportion -1 is outside 0 to 65535'),
        ('standing --facility 0 --service regulation --slot 4 --pairs 1@1 --proportion 5', 'an offer for regulation has no proportion'),
        ('standing --facility 0 --service regulation --slot 4 --pairs 1@1,1@2,1@3,1@4,1@5,1@6', '6 pairs, and an offer for regulation has 5'),
        ('variation --facility 0 --service energy --period 4 --pairs 1@1 --reason 7', 'refuses this with 11'),
        ('variation --facility 0 --service energy --period 4 --pairs 1@1 --reason 256', 'reason 256 is outside 0 to 255'),
        ('variation --facility 0 --service energy --period 4 --pairs 1@1 --reason trip', "'trip' is no reason"),
        ('variation --facility 0 --service energy --period 0 --pairs 1@1', 'refuses this with 10'),
        ('variation --facility 0 --service energy --slot 4 --pairs 1@1', 'required: --period'),
        ('variation --facility 0 --service energy --period 4', 'one of the arguments --pairs --mw --take-back is required'),
        ('variation --facility 0 --service energy --period 4 --pairs 0@0', 'give --take-back for that'),
        ('variation --facility 0 --service energy --period 4 --mw 0.0@0.00,0@0', 'the least that can be filed is 0.1 MW'),
        ('variation --facility 0 --service primary --period 4 --proportion 5 --pairs 0@0 --anyway', 'the standing offer stands again'),
        ('variation --facility 0 --service energy --period 4 --pairs 0@5', 'refuses this with 12'),
        ('variation --facility 0 --service energy --period 4 --pairs 1@1,0@0,1@5', 'refuses this with 12'),
        ('variation --facility 0 --service energy --period 4 --pairs 1@1 --take-back', 'not allowed with'),
        ('variation --facility 0 --service energy --period 4 --reason 7 --take-back', 'refuses this with 11'),
        (OFFER + '--take-back', 'required'),
        (TOTAL + '--date 2026-11-16 --date 2026-11-16 --period 24', '--date is given twice'),
        (TOTAL + '--date 2024-01-01 --date 2024-01-01 --period 24', '--date is given twice'),
        (TOTAL + '--date 2026-11-16 --period 24 --period 24', '--period is given twice'),
        (TOTAL + '--date 2026-11-16', 'required: --period'),
        (TOTAL + '--date 2026-11-16 --period 1050/11:30', "argument --period: '1050/11:30' is no period of the day, 1 to 48 (21)"),
        (TOTAL + '--date 2026-11-16 --period 2026-11-16/11:30', "'2026-11-16/11:30' is no period of the day, 1 to 48 (21)"),
        (TOTAL + '--date 2026-11-16 --period 11:30', "'11:30' is no period of the day"),
        (TOTAL + '--date 2026-11-16 --period x', "'x' is no period of the day"),
        (TOTAL + '--date 1050 --period 24', "argument --date: '1050' is no date YYYY-MM-DD (21)"),
        (TOTAL + '--date Mon --period 24', "'Mon' is no date YYYY-MM-DD (21)"),
        (TOTAL + '--date 2024-01-01 --period 1', 'refuses this with 10'),
        (TOTAL + '--weekday Mon --period 24', 'unrecognized arguments: --weekday'),
        (TOTAL + '--period 2026-11-16', "argument --period: '2026-11-16' is not a whole number"),
        (TOTAL + '--period 2025-02-29/11:30', "argument --period: '2025-02-29' is no date (21)"),
        (TOTAL + '--period 2026-11-16/11:45', 'a period starts at :00 or :30'),
        ('clock --minute 2100-01-01/00:00', "argument --minute: '2100-01-01': the year is outside 2024 to 2099 (21)"),
        ('clock --minute 2026-11-16/24:00', 'is not a time of day'),
        ('clock --date 2026-11-16 --minute 5', 'unrecognized arguments: --date'),
        (SLOTTED, 'one of the arguments --slot --weekday --date is required'),
        (SLOTTED + '--period 24', 'one of the arguments --slot --weekday --date is required'),
        (SLOTTED + '--slot 4 --period 24', '--period goes with --date or --weekday, not with --slot'),
        (SLOTTED + '--slot 4 --date 2026-11-16 --period 24', 'not allowed with argument --slot'),
        (SLOTTED + '--weekday Mon --slot 4', 'not allowed with argument --weekday'),
        (SLOTTED + '--date 2026-11-16 --weekday Mon --period 24', 'not allowed with argument --date'),
        (SLOTTED + '--date 2026-11-16', '--date and --weekday go with --period, 1 to 48'),
        (SLOTTED + '--weekday Mon', '--date and --weekday go with --period, 1 to 48'),
        (SLOTTED + '--weekday Monday --period 24', "'Monday' is not one of Mon"),
        (SLOTTED + '--weekday 0 --period 24', "'0' is not one of Mon"),
        (SLOTTED + '--weekday Mon --weekday Mon --period 24', '--weekday is given twice'),
        (SLOTTED + '--weekday Mon --period 49', "'49' is no period of the day, 1 to 48 (21)"),
        (SLOTTED + '--weekday Mon --period 0/11:30', "'0/11:30' is no period of the day"),
        (SLOTTED + '--slot 2026-11-16/11:30', "'2026-11-16' is not one of Mon"),
        (NOTICE + '--first 1 --last 2 --last-date 2026-11-16', '--last-date goes with --date'),
        (NOTICE + '--date 2026-11-16 --first 0 --last 2', "argument --first: '0' is no period of the day, 1 to 48 (21)"),
        (NOTICE + '--date 2026-11-16 --first 1 --last 49', "argument --last: '49' is no period of the day, 1 to 48 (21)"),
        (NOTICE + '--date 2026-11-16 --first 1 --last 50424', "argument --last: '50424' is no period of the day"),
        (NOTICE + '--date 2026-11-16 --first 1 --last-date 2026-11-17 --last 1051/00:00', "argument --last: '1051/00:00' is no period of the day"),
        (NOTICE + '--date 2026-11-16 --first 1 --last-date 2026-11-31 --last 1', "argument --last-date: '2026-11-31' is no date (21)"),
        (NOTICE + '--date 2026-11-16 --first 2 --last 1', 'refuses this with 7'),
        (NOTICE + '--date 2026-11-17 --first 1 --last-date 2026-11-16 --last 48', 'refuses this with 7'),
        (NOTICE + '--date 2026-11-16 --first 1', 'required: --last'),
        ('outage --facility 0 --minute 5 --periods 0', 'refuses this with 7'),
        ('outage --facility 0 --minute 5 --periods 49', 'refuses this with 7 or a lower number: 49 periods: generation 1 to 3, load 1 to 48, link none'),
        ('outage --facility 0 --minute -5 --periods 1', 'refuses this with 7'),
        ('notice --kind 2 --first 1 --last 2', 'refuses this with 7'),
        ('notice --kind status --first 3 --last 2', 'refuses this with 7'),
        ('notice --kind status --first -1 --last 2', 'refuses this with 7'),
        ('notice --kind status --first 1 --last 40000001', 'refuses this with 7'),
        ('notice --kind storm --first 1 --last 2', "'storm' is no notice"),
        ('withdrawal --kind shortfall', 'refuses this with 7'),
        ('look-up --facility 0 --service energy --period -1', 'refuses this with 10'),
        ('look-up --facility 0 --service energy --period 1/02:10', 'a period starts at :00 or :30'),
        ('total --facility 0 --service energy --period 4', 'unrecognized arguments'),
        ('total --service energy --period 33333648', 'refuses this with 10'),
        ('sample --out a --append b', 'not allowed with argument'),
        ('clock --minute 1 --out a then clock --minute 2 --out b', 'say once where the records go'),
        ('sample --out /no/such/folder/x', 'No such file'),
        ('explain /no/such/file', 'No such file'),
        ('explain --record 53x', 'not pairs of hex digits'),
        ('explain --answer 0 1', 'an answer is 3 numbers'),
        ('explain --answer 22 0 0', 'number 22 is outside 0 to 21'),
        ('explain --answer 0 x 0', "'x' is not a whole number"),
        ('explain --answer 0 2147483648 0', 'is outside'),
        ('explain --answer 0 1 700 --call clock --record 00', '--answer stands alone'),
        ('explain --record 00 --call clock', '--call and --damaged go with --answer'),
        ('explain --record 00 --damaged', '--call and --damaged go with --answer'),
        ('explain --record 00 file', '--record stands without FILE and --whole'),
        ('explain --record 00 --whole', '--record stands without FILE and --whole'),
        ('explain --answer 0 0 0 --brief', '--answer stands alone'),
        ('explain --answer 0 0 0 --answers x', '--answer stands alone'),
        ('explain --answer 0 0 0 --call 256', 'call 256 is outside 0 to 255'),
        ('explain --answer 0 0 0 --call lookup', "'lookup' is no call: clock, capability"),
        ('explain --answers -', 'standard input cannot hold the records and the answers'),
        ('explain - --answers -', 'standard input cannot hold the records and the answers'),
        ('explain --record 00 --facilities 1 --facilities 1', '--facilities is given twice'),
        ('explain --record 00 --facilities one', "'one' is not a whole number"),
        ('explain --date 2026-11-16', '--date goes with --period, 1 to 48'),
        ('explain --date 2026-11-16 --record 00', '--date goes with --period, 1 to 48'),
        ('explain --date 2025-02-29 --period 24', "'2025-02-29' is no date (21)"),
        ('explain --date 2026-11-16 --period 49', "'49' is no period of the day, 1 to 48 (21)"),
        ('explain --period 4 --period 4', '--period is given twice'),
        ('explain --period 2147483648', 'is outside'),
        *((f'explain --period 4 {more}', '--period stands alone, or with --date') for more in (
            'file', '-', '--brief', '--answers x', '--facilities 0', '--services 0', '--strict', '--whole', '--record 00', '--answer 0 0 0',
            '--date 2026-11-16 --record 00', '--call 1', '--damaged')),
    )

    def test_each(self):
        for line, message in self.TABLE:
            with self.subTest(line):
                self.assertIn(message, self.refused(line.split()))

    def test_each_bound_of_a_capability(self):
        """Refusal 8: 'W1-W6 outside 0-99,999; W7, W8 outside 0-9,999; W9-W11 outside 0-1,000; a mark not 0 or 1; load with mark 0 or 4 set'; a link
        'may have mark 0 only'."""
        tops = {1: 99999, 2: 99999, 3: 99999, 4: 99999, 5: 99999, 6: 99999, 7: 9999, 8: 9999, 9: 1000, 10: 1000, 11: 1000,
                12: 1, 13: 1, 14: 1, 15: 1, 16: 1}
        for kind, closed in ((1, ()), (2, (12, 16)), (3, (13, 14, 15, 16))):
            for place, top in tops.items():
                for value, fits in ((0, True), (top, place not in closed), (top + 1, False), (-1, False)):
                    words = [kind] + [0] * 16
                    words[place] = value
                    self.assertEqual(any_book_refuses(build(2, words=words))[0], 0 if fits else 8, words)

    def test_the_last_period_of_all_is_made(self):
        # The clock ends at 1,000,000,000, in day 694,444: P below 48 * 694,451.
        self.assertEqual(len(self.made('total --service energy --period 33333647')), 112)

    def test_anyway(self):
        self.assertEqual(self.made('clock --minute -1 --anyway'),
                         head('534f42 0001 01 00 00 00000000 00 00 0000 00000000 00000000 ffffffff 00000000'))

    def test_status_of_the_program(self):
        bad = subprocess.run([sys.executable, TOOL, 'clock', '--minute', 'x'], capture_output=True, check=False)
        self.assertEqual((bad.returncode, bad.stdout, bad.stderr.count(b'\n')), (2, b'', 1))
        good = subprocess.run([sys.executable, TOOL, 'withdrawal'], capture_output=True, check=False)
        self.assertEqual((good.returncode, len(good.stdout), good.stderr), (0, 112, b''))


class Help(Tool):
    def test_each_command_has_help(self):
        for name in [''] + list(COMMANDS) + ['sample', 'explain']:
            for option in ('--help', '-h'):
                text = self.made(f'{name} {option}').decode()
                self.assertIn(f'usage: records.py {name}'.strip(), text)
                self.assertLessEqual(text.count('\n'), 40, name)

    def test_where_blanks_go(self):
        for name, more in (('standing', '; alone they are an offer of 0.0 MW.'), ('variation', ', and not alone: 0.0 MW cannot be filed for one period.')):
            self.assertTrue(self.made(f'{name} --help').decode().endswith(f'the rest are blank.\n0@0 is a blank pair. Blanks go last{more}\n'))

    def test_one_screen(self):
        lines = self.made('--help').decode().splitlines()
        self.assertLessEqual(len(lines), 40)
        self.assertLessEqual(max(map(len, lines)), 96)

    def test_it_says_the_status_of_an_early_end(self):
        self.assertIn('else 2, with one line on\nstandard error, also where a reader such as head closes the pipe before all is written', TOP)

    def test_its_examples_work(self):
        lines = re.findall(r'^  records.py (.*)$', TOP.replace('\\\n', ' '), re.M)
        self.assertEqual(len(lines), 6)
        for line in lines:
            words = re.sub(r'(--append|>) \S+', '', line).split()
            if 'day.records' not in words:
                self.assertTrue(self.made(' '.join(words)), line)


class Writing(Tool):
    def setUp(self):
        self.folder = tempfile.TemporaryDirectory()
        self.addCleanup(self.folder.cleanup)
        self.file = os.path.join(self.folder.name, 'day.records')

    def test_hex(self):
        self.assertEqual(self.made('withdrawal --hex'), self.made('withdrawal').hex().encode() + b'\n')
        self.assertEqual(self.made('sample --hex').decode().split(), [self.made('sample')[n:n + 112].hex() for n in range(0, 9 * 112, 112)])

    def test_several_in_one_run(self):
        both = self.made('clock --minute 1 then withdrawal then sample')
        self.assertEqual(both, self.made('clock --minute 1') + self.made('withdrawal') + self.made('sample'))

    def test_none_is_written_if_one_is_wrong(self):
        self.refused(f'clock --minute 1 --out {self.file} then clock --minute x'.split())
        self.assertFalse(os.path.exists(self.file))

    def test_out_replaces_and_append_adds(self):
        self.assertEqual(self.made(f'clock --minute 1 --append {self.file}'), b'')
        self.assertEqual(self.made(f'clock --minute 2 --append {self.file}'), b'')
        self.assertEqual(contents(self.file), self.made('clock --minute 1 then clock --minute 2'))
        self.assertEqual(self.made(f'withdrawal --out {self.file}'), b'')
        self.assertEqual(contents(self.file), self.made('withdrawal'))

    def test_nothing_is_added_to_a_torn_file(self):
        with open(self.file, 'wb') as file:
            file.write(bytes(111))
        self.assertIn('111 bytes, not whole records', self.refused(f'withdrawal --append {self.file}'.split()))
        self.assertEqual(contents(self.file), bytes(111))

    def test_an_empty_name_is_an_error(self):
        self.assertIn('--out: an empty name', self.refused(['withdrawal', '--out', '']))
        self.assertIn('--append: an empty name', self.refused(['withdrawal', '--append', '']))
        self.assertIn('--out: an empty name', self.refused(['withdrawal', '--out=']))
        self.assertIn('FILE: an empty name', self.refused(['explain', '']))
        self.assertIn('--answers: an empty name', self.refused(['explain', self.file, '--answers', '']))

    def test_a_dash_is_standard_output(self):
        before = os.getcwd()
        os.chdir(self.folder.name)
        self.addCleanup(os.chdir, before)
        for option in ('--out', '--append'):
            self.assertEqual(self.made(f'withdrawal {option} -'), self.made('withdrawal'))
            self.assertEqual(self.made(f'withdrawal --hex {option} -'), self.made('withdrawal --hex'))
        self.assertEqual(os.listdir('.'), [])
        self.assertIn('say once', self.refused('withdrawal --out - then withdrawal --out -'.split()))

    def test_hex_and_bytes_are_not_mixed(self):
        for first, second, text in (('', '--hex', 'does not hold lines of hex digits'), ('--hex', '', 'holds lines of hex digits')):
            # 112 lines of 225 characters are also whole records' bytes.
            for many in (1, 112):
                self.made(' then '.join(['withdrawal'] * many) + f' {first} --out {self.file}')
                before = contents(self.file)
                self.assertIn(text, self.refused(f'withdrawal {second} --append {self.file}'.split()))
                self.assertEqual(contents(self.file), before)
                self.made(f'withdrawal {first} --append {self.file}')
                self.assertEqual(contents(self.file), before + self.made(f'withdrawal {first}'))

    def test_nothing_is_added_to_a_torn_line(self):
        self.made(f'withdrawal --hex --out {self.file}')
        os.truncate(self.file, 224)
        self.assertIn('ends inside a line', self.refused(f'withdrawal --hex --append {self.file}'.split()))

    def test_nothing_is_added_to_what_is_no_file_of_records(self):
        for form, held in (('', b'0 0 0\n' * 56), ('', bytes(112)), ('--hex', b'decade\n'), ('--hex', b'00' * 112 + b'\n')):
            with open(self.file, 'wb') as file:
                file.write(held)
            self.assertIn('does not start with a record', self.refused(f'withdrawal {form} --append {self.file}'.split()))
            self.assertEqual(contents(self.file), held)
        with open(self.file, 'wb') as file:
            file.write(b'\n 53 4F4 2')
        self.assertIn('does not hold lines', self.refused(f'withdrawal --hex --append {self.file}'.split()))
        with open(self.file, 'wb') as file:
            file.write(b'\n 53 4F 42\n')
        self.made(f'withdrawal --hex --append {self.file}')
        self.assertEqual(contents(self.file), b'\n 53 4F 42\n' + self.made('withdrawal --hex'))

    def test_an_empty_file_takes_either(self):
        for form in ('', '--hex'):
            open(self.file, 'wb').close()
            self.made(f'withdrawal {form} --append {self.file}')
            self.assertEqual(contents(self.file), self.made(f'withdrawal {form}'))

    def on_a_terminal(self, *words):
        ours, theirs = pty.openpty()
        try:
            done = subprocess.run([sys.executable, TOOL, *words], stdout=theirs, stderr=subprocess.PIPE, check=False)
            os.set_blocking(ours, False)
            try:
                written = os.read(ours, 4096)
            except BlockingIOError:
                written = b''
        finally:
            os.close(ours)
            os.close(theirs)
        return done.returncode, written, done.stderr

    def test_no_bytes_to_a_terminal_unless_asked(self):
        status, written, errors = self.on_a_terminal('withdrawal')
        self.assertEqual((status, written), (2, b''))
        self.assertIn(b'this is a terminal', errors)
        status, written, _ = self.on_a_terminal('withdrawal', '--hex')
        self.assertEqual((status, written.strip()), (0, self.made('withdrawal').hex().encode()))
        status, written, _ = self.on_a_terminal('withdrawal', '--terminal')
        self.assertEqual((status, written[:3]), (0, b'SOB'))


def small_files():
    resource.setrlimit(resource.RLIMIT_FSIZE, (200, 200))


class Streams(Tool):
    """Standard streams that are closed, full or endless: one line on standard error and status 2."""
    SAMPLE = os.path.join(ROOT, 'samples', 'worked-run.records')
    WRITING = (['sample'], ['sample', '--hex'], ['withdrawal', '--out', '-'], ['explain', SAMPLE], ['explain', '--brief', SAMPLE],
               ['explain', '--strict', '--record', '00'], ['explain', '--answer', '17', '0', '0'], ['explain', '--period', '4'], ['--help'], ['explain', '--help'])

    def ended(self, words, text, unbuffered='', **streams):
        """Python's own buffers are there, or not: an empty setting is none."""
        settings = {'stdout': subprocess.PIPE, 'stderr': subprocess.PIPE, 'timeout': 60, 'check': False, **streams}
        done = subprocess.run([sys.executable, TOOL, *words], env={**os.environ, 'PYTHONUNBUFFERED': unbuffered}, **settings)
        self.assertEqual((done.returncode, done.stderr), (2, f'records.py: {text}\n'.encode()), words)
        self.assertIn(done.stdout, (b'', None))

    def test_closed_output(self):
        for words in self.WRITING:
            self.ended(words, 'standard output is closed', stdout=None, preexec_fn=lambda: os.close(1))

    @unittest.skipUnless(os.path.exists('/dev/full'), 'no /dev/full here')
    def test_full_output(self):
        for words in self.WRITING:
            with open('/dev/full', 'wb') as full:
                self.ended(words, 'standard output: No space left on device', stdout=full)
            with open('/dev/full', 'wb') as full:
                self.ended(words, 'standard output: No space left on device', unbuffered='1', stdout=full)
        for option in ('--out', '--append'):
            self.ended(['sample', option, '/dev/full'], '/dev/full: No space left on device')

    def test_output_that_is_taken_in_part(self):
        for unbuffered in ('', '1'):
            with tempfile.TemporaryFile() as file:
                self.ended(['sample'], 'standard output: File too large', unbuffered, stdout=file, preexec_fn=small_files)

    def test_a_reader_that_has_gone(self):
        for words in self.WRITING:
            ours, theirs = os.pipe()
            os.close(ours)
            try:
                self.ended(words, 'standard output: Broken pipe', stdout=theirs)
            finally:
                os.close(theirs)

    def test_a_reader_that_goes_after_a_line(self):
        with tempfile.NamedTemporaryFile() as file:
            file.write(self.made('sample') * 100)
            file.flush()
            with subprocess.Popen([sys.executable, TOOL, 'explain', file.name], stdout=subprocess.PIPE, stderr=subprocess.PIPE) as tool:
                self.assertEqual(tool.stdout.readline(), b'record 1: capability (call 2)\n')
                tool.stdout.close()
                self.assertEqual((tool.stderr.read(), tool.wait(60)), (b'records.py: standard output: Broken pipe\n', 2))

    def test_output_that_cannot_be_written(self):
        with open(os.devnull, 'rb') as nothing:
            self.ended(['sample'], 'standard output: Bad file descriptor', stdout=nothing)

    def test_closed_output_that_is_not_used(self):
        with tempfile.NamedTemporaryFile() as file:
            done = subprocess.run([sys.executable, TOOL, 'sample', '--out', file.name], stderr=subprocess.PIPE, preexec_fn=lambda: os.close(1), check=False)
            self.assertEqual((done.returncode, done.stderr, contents(file.name)), (0, b'', self.made('sample')))

    def test_closed_input(self):
        for words in (['explain'], ['explain', '-'], ['explain', '--brief', '--whole'], ['explain', self.SAMPLE, '--answers', '-']):
            self.ended(words, 'standard input is closed', stdin=None, preexec_fn=lambda: os.close(0))

    def test_input_that_cannot_be_read(self):
        with open(os.devnull, 'wb') as nothing:
            self.ended(['explain'], 'standard input: Bad file descriptor', stdin=nothing)
        self.ended(['explain', HERE], f'{HERE}: Is a directory')

    def test_streams_that_do_not_wait(self):
        """A part of the input is not taken for the whole, nor a part of the output given for it."""
        for held in (b'', self.made('sample')[:336]):
            ours, theirs = os.pipe()
            os.set_blocking(ours, False)
            os.write(theirs, held)
            self.ended(['explain'], 'standard input: Resource temporarily unavailable', stdin=ours)
            os.close(theirs)
            os.close(ours)
        for unbuffered in ('', '1'):
            ours, theirs = os.pipe()
            os.set_blocking(theirs, False)
            with contextlib.suppress(BlockingIOError):
                while True:
                    os.write(theirs, bytes(512))
            done = subprocess.run([sys.executable, TOOL, 'sample'], stdout=theirs, stderr=subprocess.PIPE,
                                  env={**os.environ, 'PYTHONUNBUFFERED': unbuffered}, check=False)
            self.assertEqual((done.returncode, done.stderr.count(b'\n'), done.stderr[:28]), (2, 1, b'records.py: standard output:'))
            os.close(theirs)
            os.close(ours)

    @unittest.skipUnless(os.path.exists('/dev/zero'), 'no /dev/zero here')
    def test_zeros_without_end(self):
        text = 'has no end, or is no file of records: more than 56500000 bytes'
        for words in (['explain', '/dev/zero'], ['explain', '--brief', '/dev/zero'], ['explain', '--whole', '/dev/zero']):
            self.ended(words, f'/dev/zero {text}')
        with open('/dev/zero', 'rb') as zeros:
            self.ended(['explain'], f'standard input {text}', stdin=zeros)
        self.ended(['explain', self.SAMPLE, '--answers', '/dev/zero'], '/dev/zero has no end, or is no file of answers: more than 80000000 bytes')

    @unittest.skipUnless(shutil.which('yes'), 'no yes here')
    def test_lines_without_end(self):
        for said in ([], ['534f42']):
            with subprocess.Popen(['yes', *said], stdout=subprocess.PIPE) as yes:
                self.ended(['explain'], 'standard input has no end, or is no file of records: more than 56500000 bytes', stdin=yes.stdout)
                yes.stdout.close()

    def test_more_records_than_any_book_holds(self):
        with tempfile.NamedTemporaryFile() as file:
            file.truncate(112 * 250_001)
            self.ended(['explain', file.name], f'{file.name} has no end, or is no file of records: more than 250000 records')

    def test_closed_or_full_errors(self):
        """Nowhere to complain to: the status says it, and no complaint is among the records."""
        with open(os.devnull, 'rb') as nothing:
            for words in (['clock', '--minute', 'x'], ['explain', '/no/such/file'], ['offer']):
                for streams in ({'preexec_fn': lambda: os.close(2)}, {'stderr': nothing}):
                    done = subprocess.run([sys.executable, TOOL, *words], stdout=subprocess.PIPE, check=False, env={**os.environ, 'PYTHONUNBUFFERED': ''}, **streams)
                    self.assertEqual((done.returncode, done.stdout), (2, b''), words)

    def test_a_disk_that_fills_up_leaves_no_torn_record(self):
        with tempfile.TemporaryDirectory() as folder:
            name = os.path.join(folder, 'day.records')
            self.made(f'withdrawal --out {name}')
            self.ended(['withdrawal', '--append', name], f'{name}: File too large', preexec_fn=small_files)
            self.assertEqual(contents(name), self.made('withdrawal'))
            self.ended(['sample', '--out', name], f'{name}: File too large', preexec_fn=small_files)
            self.assertEqual(contents(name), b'')

    def test_one_line_whatever_the_words(self):
        for word in ('a\nb', '\x1b[31m', '\udc80', 'x' * 5000, '\r\n\r\n'):
            self.assertLess(len(self.refused(['explain', word])), 1100)
            self.refused(['clock', '--minute', word])
            self.refused([word])


def rows_of(text):
    """The label and text of each row of one explained record."""
    return dict(re.split(r'  +', line.strip(), maxsplit=1) for line in text.splitlines()[1:])


class Shown(Tool):
    def rows(self, line):
        return rows_of('\n'.join(explain_record(self.made(line), 64, 5)))

    def test_times(self):
        for line, label, text in (
                ('clock --minute 0', 'minute', '0 (2024-01-01, Monday, 00:00; day 0)'), ('clock --minute 1439', 'minute', '1439 (2024-01-01, Monday, 23:59; day 0)'),
                ('clock --minute 1440', 'minute', '1440 (2024-01-02, Tuesday, 00:00; day 1)'), ('clock --minute 11585', 'minute', '11585 (2024-01-09, Tuesday, 01:05; day 8)'),
                ('clock --minute -1 --anyway', 'minute', '-1 (before day 0)'),
                ('total --service 0 --period 340', 'period', '340 (2024-01-08, Monday, period 5, 02:00 to 02:30; day 7, slot 4)'),
                ('total --service 0 --period 335', 'period', '335 (2024-01-07, Sunday, period 48, 23:30 to 24:00; day 6, slot 335)'),
                ('total --service 0 --period 48', 'period', '48 (2024-01-02, Tuesday, period 1, 00:00 to 00:30; day 1, slot 48)'),
                ('total --service 0 --period -1 --anyway', 'period', '-1 (before day 0)'),
                ('standing --facility 0 --service 0 --slot 335 --pairs 1@1', 'slot', '335 (Sunday, period 48, 23:30 to 24:00)'),
                ('standing --facility 0 --service 0 --slot 48 --pairs 1@1', 'slot', '48 (Tuesday, period 1, 00:00 to 00:30)'),
                ('standing --facility 0 --service 0 --slot 336 --pairs 1@1 --anyway', 'slot', '336 (slots are 0 to 335)')):
            self.assertEqual(self.rows(line)[label], text, line)

    def test_dates(self):
        last, later = 'total --service 0 --period 1332431', 'total --service 0 --period 1332432'
        for line, label, text in (
                ('total --service 0 --period 50423', 'period', '50423 (2026-11-16, Monday, period 24, 11:30 to 12:00; day 1050, slot 23)'),
                (last, 'period', '1332431 (2099-12-31, Thursday, period 48, 23:30 to 24:00; day 27758, slot 191)'),
                (later, 'period', '1332432 (day 27759, Friday, period 1, 00:00 to 00:30; no date after 2099-12-31, slot 192)'),
                ('clock --minute 39972959', 'minute', '39972959 (2099-12-31, Thursday, 23:59; day 27758)'),
                ('clock --minute 39972960', 'minute', '39972960 (day 27759, Friday, 00:00; no date after 2099-12-31)'),
                ('variation --facility 0 --service 0 --period 50423 --pairs 1@1', 'gate open',
                 'up to minute 1512625 (2026-11-16, Monday, 10:25; day 1050); after it with a reason only'),
                ('standing --facility 0 --service 0 --slot 23 --pairs 1@1', 'slot', '23 (Monday, period 24, 11:30 to 12:00)'),
                ('outage --facility 0 --minute 1512700 --periods 3', 'window', 'periods 50424 to 50426 (2026-11-16 period 25 to 2026-11-16 period 27)'),
                ('outage --facility 0 --minute 1513439 --periods 2', 'window', 'periods 50448 to 50449 (2026-11-17 period 1 to 2026-11-17 period 2)'),
                ('outage --facility 0 --minute 39972930 --periods 1', 'window', 'periods 1332432 to 1332432 (day 27759 period 1 to day 27759 period 1)'),
                ('outage --facility 0 --minute -1 --periods 1 --anyway', 'window', 'none'),
                ('notice --kind 3 --first 50447 --last 50448', 'first period', '50447 (2026-11-16, Monday, period 48, 23:30 to 24:00; day 1050, slot 47)'),
                ('notice --kind 3 --first 50447 --last 50448', 'last period', '50448 (2026-11-17, Tuesday, period 1, 00:00 to 00:30; day 1051, slot 48)')):
            self.assertEqual(self.rows(line)[label], text, line)

    def test_a_period_alone(self):
        line = 'period 50423 (2026-11-16, Monday, period 24, 11:30 to 12:00; day 1050, slot 23)\n'
        for words in ('--period 50423', '--date 2026-11-16 --period 24', '--period 24 --date 2026-11-16', '--period 1050/11:30', '--period 2026-11-16/11:30'):
            self.assertEqual(self.explained(words), line +
                             '  gate open  up to minute 1512625 (2026-11-16, Monday, 10:25; day 1050); after it with a reason only\n', words)
        self.assertEqual(self.explained('--period 0'), 'period 0 (2024-01-01, Monday, period 1, 00:00 to 00:30; day 0, slot 0)\n'
                                                       '  gate open  at no minute; with a reason only\n')
        no_date = 'no date    21: no date of 2024 to 2099, no period of 1 to 48, or P outside theirs\n'
        self.assertEqual(self.explained('--period -1'), 'period -1 (before day 0)\n  ' + no_date.replace('    ', '  '))
        self.assertEqual(self.explained('--period 1332432'),
                         'period 1332432 (day 27759, Friday, period 1, 00:00 to 00:30; no date after 2099-12-31, slot 192)\n'
                         '  gate open  up to minute 39972895 (2099-12-31, Thursday, 22:55; day 27758); after it with a reason only\n  ' + no_date)
        self.assertNotIn('no date', self.explained('--period 1332431'))

    def test_last_open_minute(self):
        """'A variation is open when 30 P - now is 65 or more.'"""
        for period in list(range(1, 60)) + [340]:
            opened = [minute for minute in range(30 * period) if 30 * period - minute >= 65]
            text = self.rows(f'variation --facility 0 --service 0 --period {period} --pairs 1@1')['gate open']
            self.assertEqual(text.split(' (')[0], f'up to minute {opened[-1]}' if opened else 'at no minute; with a reason only')

    def test_weekly_gate(self):
        """The same by the slot's next period: 64 minutes of every week ask for a reason."""
        for slot, text in ((0, 'Sunday, 22:56 until Monday, 00:00'), (1, 'Sunday, 23:26 until Monday, 00:30'), (2, 'Sunday, 23:56 until Monday, 01:00'),
                           (3, 'Monday, 00:26 until Monday, 01:30'), (4, 'Monday, 00:56 until Monday, 02:00'), (48, 'Monday, 22:56 until Tuesday, 00:00'),
                           (335, 'Sunday, 22:26 until Sunday, 23:30')):
            rows = self.rows(f'standing --facility 0 --service 0 --slot {slot} --pairs 1@1')
            self.assertEqual(rows['gate open'], f'but for {text} every week; then over a held offer with a reason only')
        self.assertNotIn('gate open', self.rows('standing --facility 0 --service 0 --slot 336 --pairs 1@1 --anyway'))

    def test_a_variation_taken_back(self):
        for service, pairs in (('energy', 'pairs 1 to 10'), ('primary', 'pairs 1 to 5'), ('regulation', 'pairs 1 to 5')):
            rows = self.rows(f'variation --facility 0 --service {service} --period 4 --reason outage --take-back')
            self.assertEqual(rows['means'], 'accepted, it takes the variation back: the standing offer stands again, if there is one; not 0.0 MW')
            self.assertEqual(rows[pairs], 'blank')
            self.assertNotIn('total', rows)
            self.assertTrue(rows['made by'].endswith('--period 4 --reason outage --take-back'))
        rows = self.rows('standing --facility 0 --service energy --slot 4 --pairs 0@0')
        self.assertEqual((rows['total'], rows['made by']), ('0.0 MW', 'standing --facility 0 --service energy --slot 4 --pairs 0@0'))
        self.assertNotIn('means', rows)
        for pairs in ('1@0', '0@0,0@0,1@5 --anyway', '0@5 --anyway'):
            self.assertNotIn('means', self.rows(f'variation --facility 0 --service energy --period 4 --pairs {pairs}'))

    def test_kinds_that_a_record_may_be_of(self):
        """An offer, a reason and an outage name the kinds that they are open to; a capability says its own."""
        offers = ('generation or link', 'generation or load', 'generation or load', 'generation or load', 'generation')
        for service, kinds in enumerate(offers):
            for line in ('standing --slot 4', 'variation --period 4'):
                text = self.rows(f'{line} --facility 0 --service {service} --pairs 1@1')['service']
                self.assertTrue(text.endswith(f' (offered by {kinds})'), text)
            self.assertNotIn('(', self.rows(f'look-up --facility 0 --service {service} --period 4')['service'])
        names = ('no reason', 'synchronising profile', 'forced outage', 'energy surplus notice', 'shortfall notice', 'system status notice', 'outage of a load')
        no_kind = 'no kind for this service'
        energy = (None, 'generation', 'generation', 'generation or link', 'generation or link', 'generation or link', no_kind)
        reserve = (None, 'generation', 'generation', no_kind, 'generation or load', 'generation or load', 'load')
        regulation = (None, 'generation', 'generation', no_kind, 'generation', 'generation', no_kind)
        for service, kinds in enumerate((energy, reserve, reserve, reserve, regulation)):
            for reason, (name, to) in enumerate(zip(names, kinds)):
                for line in ('standing --slot 4', 'variation --period 4'):
                    text = self.rows(f'{line} --facility 0 --service {service} --reason {reason} --pairs 1@1')['reason']
                    self.assertEqual(text, f'{reason} {name} (open to {to})' if to else f'{reason} {name}')
        for count, text in ((1, '1 (for generation or load)'), (3, '3 (for generation or load)'), (4, '4 (for load)'), (48, '48 (for load)'), (49, '49'), (0, '0')):
            self.assertEqual(self.rows(f'outage --facility 0 --minute 5 --periods {count} --anyway')['periods'], text)
        rows = self.rows('capability --facility 0 --kind link --registered energy,regulation --anyway')
        self.assertEqual((rows['kind'], rows['any book']), ('3 link', 'refuses it with 8 or a lower number: a link may not be registered for regulation'))

    def test_what_any_book_refuses_is_said(self):
        rows = self.rows('standing --facility 0 --service energy --slot 4 --pairs 1@5000,1@4000 --anyway')
        self.assertEqual(rows['any book'], 'refuses it with 13 or a lower number: prices of non-blank pairs do not strictly rise')
        self.assertNotIn('any book', self.rows('withdrawal'))

    def test_from_standard_input(self):
        done = subprocess.run([sys.executable, TOOL, 'explain', '-'], input=self.made('sample'), capture_output=True, check=False)
        self.assertEqual((done.returncode, done.stdout.count(b'passes'), done.stderr), (0, 9, b''))
        nothing = subprocess.run([sys.executable, TOOL, 'explain'], input=b'', capture_output=True, check=False)
        self.assertEqual((nothing.returncode, nothing.stdout), (0, b'no records\n'))


    def test_from_hex_lines(self):
        """What --hex writes, on standard input or from a file, alone or with its answers."""
        for lines in (self.made('sample --hex'), self.made('sample --hex').upper().replace(b'\n', b'\r\n'), b'\n' + self.made('sample --hex') + b'\n \n'):
            done = subprocess.run([sys.executable, TOOL, 'explain'], input=lines, capture_output=True, check=False)
            self.assertEqual((done.returncode, done.stdout, done.stderr), (0, self.made(f'explain {Streams.SAMPLE}'), b''))
        with tempfile.NamedTemporaryFile() as file:
            file.write(self.made('sample --hex'))
            file.flush()
            answers = os.path.join(ROOT, 'samples', 'worked-run.txt')
            self.assertEqual(self.explained(f'{file.name} --answers {answers}'), self.explained(f'{Streams.SAMPLE} --answers {answers}'))
            self.assertEqual(self.explained(f'{file.name} --whole'), self.explained(f'{Streams.SAMPLE} --whole'))

    def test_damaged_hex_lines(self):
        lines = self.made('sample --hex').decode().splitlines()
        with tempfile.TemporaryDirectory() as folder:
            name = os.path.join(folder, 'day.hex')

            def explained(damaged):
                with open(name, 'w', encoding='ascii') as file:
                    file.write('\n'.join(lines[:2] + [damaged] + lines[3:]))
                return name
            text = self.explained(explained(lines[2][:-2]))
            self.assertEqual((text.count('passes'), text.count('F 64, S 5: 2: 111 bytes, 1 too few')), (8, 1))
            for damaged in (lines[2][:-1], lines[2] + 'x', 'x' + lines[2][1:]):
                self.assertIn(f'{name}, line 3: not pairs of hex digits', self.refused(['explain', explained(damaged)]))

    def test_answers_on_standard_input(self):
        done = subprocess.run([sys.executable, TOOL, 'explain', Streams.SAMPLE, '--answers', '-'], input='\n'.join(PRINTED).encode(),
                              capture_output=True, check=False)
        self.assertEqual((done.returncode, done.stdout.count(b'  answer '), done.stderr), (0, 9, b''))

    def test_answers_that_do_not_fit(self):
        with tempfile.NamedTemporaryFile() as file:
            for text, message in (('0 0 0\n' * 8, 'has 8 answers, and there are 9 records'), ('0 0 0\n' * 10, 'has 10 answers'),
                                  ('0 0 0\n' * 8 + '0 0\n', 'line 9: an answer is 3 numbers'), ('0 0 0\n\n' + '0 0 0\n' * 7, 'line 2: an answer is 3 numbers'),
                                  ('0 0 0\n' * 4 + '0 x 0\n' + '0 0 0\n' * 4, "line 5: 'x' is not a whole number"), ('\u00e9\n' * 9, 'line 1: ')):
                with open(file.name, 'w', encoding='utf-8') as answers:
                    answers.write(text)
                self.assertIn(message, self.refused(['explain', Streams.SAMPLE, '--answers', file.name]))


class Blanks(Tool):
    """'Refusal 12 also applies where a blank pair stands before a non-blank one.'"""

    def offers(self, filled, service, **fields):
        """A standing offer and a variation with these pairs filled, at rising prices."""
        words = [word for place, is_filled in enumerate(filled, 1) for word in ((100 * place, place) if is_filled else (0, 0))]
        return [build(call, service=service, period=4, words=words, **fields) for call in (3, 4)]

    def test_every_way_to_leave_pairs_blank(self):
        for service, count in enumerate((10, 5, 5, 5, 5)):
            for filled in itertools.product((False, True), repeat=count):
                early = [place for place in range(1, count + 1) if not filled[place - 1] and any(filled[place:])]
                for data in self.offers(filled, service):
                    self.check_offer(data, early)

    def check_offer(self, data, early):
        """The early blanks draw 12 and are shown, and the others aren't."""
        number, why = any_book_refuses(data)
        self.assertEqual(number, 12 if early else 0, data.hex())
        self.assertEqual(re.findall(r'in place (.*):', why), [', '.join(map(str, early))] if early else [])
        lines = explain_record(data, 64, 5)
        shown = collections.defaultdict(list)
        for first, last, text in re.findall(r'^  pairs? (\d+)(?: to (\d+))? +(.*)$', '\n'.join(lines), re.M):
            shown['filled' if ' at $' in text else text] += range(int(first), int(last or first) + 1)
        self.assertEqual(shown.pop('blank, before a filled pair', []), early, data.hex())
        self.assertLessEqual(set(shown), {'filled', 'blank'})
        rows = rows_of('\n'.join(lines))
        self.assertEqual(('any book' in rows, rows['made by'].endswith(' --anyway')), (bool(early), bool(early)))

    def test_what_comes_before_and_after(self):
        """11 before it; 13, 14 and 16 after it. A price on a blank is 12 as well."""
        for number, fields in (
                (11, {'reason': 7}), (11, {'words': [1, 1, 0, 0, 2, 100000]}), (11, {'words': [1, 1, 0, 0, 2, -1]}), (11, {'words': [1, 1, 0, 0, 10000001, 1]}),
                (11, {'words': [1, 1, 10000001, 0, 2, 1]}), (12, {}), (12, {'words': [2, 1, 0, 0, 1, 1]}), (12, {'words': [1, 1, 0, 0, 1, 1]}),
                (12, {'words': [1, 1, 5, 0, 2, 1]}), (12, {'words': [1, 1, 5, 0]}), (12, {'ramp_up': 10000}), (12, {'ramp_down': -1}),
                (12, {'words': [1, 99999, 0, 0, 2, 1]}), (13, {'words': [2, 1, 1, 1, 0, 0]}), (14, {'words': [1, 1, 0, 0], 'ramp_up': 10000}),
                (16, {'words': [1, 99999, 2, 1, 0, 0]}), (0, {'words': [1, 99998, 2, 1, 0, 0]}), (0, {'words': []})):
            for call in (3, 4):
                self.assertEqual(any_book_refuses(build(call, period=4, **{'words': [1, 1, 0, 0, 2, 1], **fields}))[0], number, fields)

    def test_one_with_a_price(self):
        rows = rows_of('\n'.join(explain_record(build(3, words=[5000, 500, 700, 0, 0, 0, 6000, 200, 800, 0]), 64, 5)))
        self.assertEqual([rows[f'pair {place}'] for place in range(1, 6)], [
            '50.0 MW at $50.00/MWh', '0.0 MW at $7.00/MWh (blank, with a price, before a filled pair)', 'blank, before a filled pair',
            '20.0 MW at $60.00/MWh', '0.0 MW at $8.00/MWh (blank, with a price)'])

    def test_pairs_that_the_service_does_not_use(self):
        """One past the fifth is a stray byte of a reserve offer; no blank stands before it."""
        data = build(3, service=1, proportion=1, words=[100, 1] + [0] * 8 + [200, 1])
        text = '\n'.join(explain_record(data, 64, 5))
        self.assertEqual((rows_of(text)['pairs 2 to 5'], record_test(data, 64, 5)[0]), ('blank', 4))
        self.assertNotIn('filled', text)

    def test_blanks_last_are_as_if_left_out(self):
        start = 'standing --facility 0 --service energy --slot 4 --pairs '
        for pairs, same in (('500@4000,200@5000,0@0', '500@4000,200@5000'), ('0@0,0@0', '0@0'), ('1@1' + ',0@0' * 9, '1@1')):
            self.assertEqual(self.made(start + pairs), self.made(start + same), pairs)


class DamagedRecords(Tool):
    STANDING = 'standing --facility 3 --service primary --slot 4 --proportion 500 --mw 5.0@1.00'

    def explained_bytes(self, data, options=''):
        return self.explained(f'--record {data.hex()} {options}')

    def test_right(self):
        rows = rows_of(self.explained_bytes(self.made(self.STANDING)))
        self.assertEqual((rows['stray bytes'], rows['record test']), ('none', 'F 64, S 5: 0, passes'))

    def test_short_and_long(self):
        data = self.made(self.STANDING)
        self.assertIn('F 64, S 5: 2: 111 bytes, 1 too few', self.explained_bytes(data[:-1]))
        self.assertIn('F 64, S 5: 2: 113 bytes, 1 too many', self.explained_bytes(data + b'\0'))
        self.assertIn('F 64, S 5: 2: 224 bytes, 112 too many', self.explained_bytes(data + data))
        self.assertIn('5 bytes, 107 too few; call missing, not 1 to 9', self.explained_bytes(data[:5]))
        self.assertIn('mark 53, not 534f42 (SOB); version missing', self.explained_bytes(data[:1]))

    def test_every_length(self):
        data = self.made(self.STANDING)
        for length in range(1, 225):
            text = self.explained_bytes((data + data)[:length])
            self.assertEqual('passes' in text, length == 112, length)

    def test_a_stream_ends_with_a_short_one(self):
        with tempfile.NamedTemporaryFile() as file:
            file.write(self.made('sample')[:-1])
            file.flush()
            text = self.explained(file.name)
            self.assertEqual((text.count('record '), text.count('passes')), (9 + 9, 8))
            self.assertIn('record 9: look-up (call 8)\n  record test  F 64, S 5: 2: 111 bytes, 1 too few\n', text)
            self.assertIn('record 1: capability (call 2)\n  record test  F 64, S 5: 2: 1007 bytes, 895 too many\n', self.explained(f'{file.name} --whole'))

    def test_form(self):
        data = bytearray(self.made(self.STANDING))
        for place, value, text in ((0, 0x54, 'mark 544f42, not 534f42'), (2, 0, 'mark 534f00'), (3, 1, 'version 0101, not 0001'),
                                   (4, 2, 'version 0002, not 0001'), (5, 0, 'call 0, not 1 to 9'), (5, 10, 'call 10, not 1 to 9')):
            damaged = bytearray(data)
            damaged[place] = value
            self.assertIn('F 64, S 5: 2: ' + text, self.explained_bytes(damaged))

    def test_facility_and_service(self):
        data = self.made(self.STANDING)
        for options, text in (('--facilities 4 --services 5', 'F 4, S 5: 0, passes'), ('--facilities 3 --services 5', 'F 3, S 5: 3: facility 3, and F is 3'),
                              ('--facilities 4 --services 1', 'F 4, S 1: 3: service 1, and S is 1'), ('--facilities 0 --services 5', 'F 0, S 5: 20:'),
                              ('--facilities 65', 'F 65, S 5: 20:'), ('--facilities -1', 'F -1, S 5: 20:'), ('--services 2', 'F 64, S 2: 20:')):
            self.assertIn(text, self.explained_bytes(data, options))
        self.assertIn('F 0, S 5: 20:', self.explained_bytes(data[:5], '--facilities 0'))

    def test_each_stray_byte(self):
        """Every unused byte from 6 on of a record of each kind, set alone, is named; used ones are not."""
        used = {
            'clock --minute 5': {24, 25, 26, 27},
            'capability --facility 0 --kind 1': {6} | set(range(32, 100)),
            'standing --facility 0 --service energy --slot 4 --pairs 1@1': set(range(6, 13)) | set(range(16, 24)) | set(range(32, 112)),
            'standing --facility 0 --service primary --slot 4 --pairs 1@1': set(range(6, 13)) | {14, 15} | set(range(32, 72)),
            'standing --facility 0 --service contingency --slot 4 --pairs 1@1': set(range(6, 13)) | {14, 15} | set(range(32, 72)),
            'standing --facility 0 --service regulation --slot 4 --pairs 1@1': set(range(6, 13)) | set(range(32, 72)),
            'variation --facility 0 --service energy --period 4 --pairs 1@1': set(range(6, 13)) | set(range(16, 24)) | set(range(32, 112)),
            'variation --facility 0 --service secondary --period 4 --pairs 1@1': set(range(6, 13)) | {14, 15} | set(range(32, 72)),
            'variation --facility 0 --service regulation --period 4 --pairs 1@1': set(range(6, 13)) | set(range(32, 72)),
            'outage --facility 0 --minute 5 --periods 1': {6} | set(range(24, 32)),
            'notice --kind 3 --first 1 --last 1': {12} | set(range(24, 32)),
            'withdrawal': {12},
            'look-up --facility 0 --service energy --period 4': set(range(6, 12)),
            'total --service energy --period 4': set(range(7, 12)),
        }
        for line, places in used.items():
            data = self.made(line)
            for place in set(range(6, 112)) - {7}:
                damaged = bytearray(data)
                damaged[place] |= 1
                text = '\n'.join(explain_record(bytes(damaged), 64, 5))
                self.assertEqual(f'F 64, S 5: 4: byte {place} (' in text, place not in places, (line, place))
                self.assertEqual(re.search(r'stray bytes +none', text) is not None, place in places, (line, place))

    def test_fields_of_stray_bytes(self):
        data = bytearray(self.made('standing --facility 0 --service regulation --slot 4 --pairs 1@1'))
        data[13], data[15], data[72], data[111] = 7, 8, 9, 10
        text = rows_of(self.explained_bytes(data))['stray bytes']
        self.assertEqual(text, 'byte 13 (byte 13) is 7; byte 15 (proportion) is 8; byte 72 (W10) is 9; byte 111 (W19) is 10')

    def test_no_command_makes_a_damaged_record(self):
        data = bytearray(self.made('withdrawal'))
        data[13] = 1
        self.assertNotIn('made by', self.explained_bytes(data))


class RoundTrip(Tool):
    """What is put in comes back: from the explanation's rows, and as the command that makes the same bytes."""

    def setUp(self):
        self.random = random.Random(20240101)

    def check(self, words, want):
        status, data, errors = run(words)
        self.assertEqual((status, errors), (0, ''), words)
        text = '\n'.join(explain_record(data, 64, 5))
        rows = rows_of(text)
        for label, value in want.items():
            self.assertEqual(rows[label].split(' (')[0], value, (words, text))
        self.assertEqual(run(rows['made by'].split())[1], data, words)

    def amount(self, value, places, unit):
        """A whole number, or the same amount with its unit."""
        return str(value) if self.random.random() < 0.5 else f'{Decimal(value).scaleb(-places):.{places}f}{unit}'

    def pairs(self, count, lowest, blanks_last):
        """Prices rise and the total is at most 9,999.9 MW, so that any book might take them where blanks go last."""
        number = self.random.randint(1, count)
        prices = sorted(self.random.sample(range(lowest, 450001), number))
        quantities = [self.random.choice((0, self.random.randint(1, 99999 // count))) for _ in prices]
        pairs = [(quantity, price if quantity else 0) for price, quantity in zip(prices, quantities)]
        return sorted(pairs, key=lambda pair: pair[0] == 0) if blanks_last else pairs

    def offer(self, service, blanks_last=True):
        pairs = self.pairs(10 if service == 0 else 5, -450000 if service == 0 else 0, blanks_last)
        show = [(f'{Decimal(q).scaleb(-1):.1f}', Decimal(p).scaleb(-2)) for q, p in pairs]
        if self.random.random() < 0.5:
            words = ['--pairs', ','.join(f'{q}@{p}' for q, p in pairs)]
        else:
            words = ['--mw', ','.join(f'{q}@{p:.2f}' for q, p in show)]
        want = {f'pair {n}': f"{q} MW at {'-' if p < 0 else ''}${abs(p):.2f}/MWh" for n, (q, p) in enumerate(show, 1) if Decimal(q)}
        want['total'] = f'{Decimal(sum(q for q, _ in pairs)).scaleb(-1):.1f} MW'
        if service == 0:
            up, down = self.random.randint(0, 9999), self.random.randint(0, 9999)
            words += ['--ramp-up', self.amount(up, 1, 'MW/min'), '--ramp-down', self.amount(down, 1, 'MW')]
            want.update({'ramp up': f'{Decimal(up).scaleb(-1):.1f} MW/min', 'ramp down': f'{Decimal(down).scaleb(-1):.1f} MW/min'})
        if 1 <= service <= 3:
            proportion = self.random.randint(0, 1000)
            words += ['--proportion', self.amount(proportion, 1, '%')]
            want['proportion'] = f'{Decimal(proportion).scaleb(-3):.3f}'
        return words, want

    def test_offers(self):
        names = ('energy', 'primary reserve', 'secondary reserve', 'contingency reserve', 'regulation')
        for _ in range(150):
            facility, service, reason = self.random.randint(0, 63), self.random.randint(0, 4), self.random.randint(0, 6)
            slot, period = self.random.randint(0, 335), self.random.randint(1, 33333647)
            who = ['--facility', str(facility), '--service', self.random.choice((str(service), names[service].split()[0]))]
            named = {'facility': str(facility), 'service': f'{service} {names[service]}'}
            words, want = self.offer(service)
            want['reason'] = f'{reason} ' + ('no reason', 'synchronising profile', 'forced outage', 'energy surplus notice', 'shortfall notice',
                                             'system status notice', 'outage of a load')[reason]
            words += ['--reason', str(reason)]
            self.check(['standing', *who, '--slot', str(slot), *words], {**named, **want, 'slot': str(slot)})
            if want['total'] == '0.0 MW':
                words, want = ['--take-back', *words[2:]], {label: text for label, text in want.items() if label != 'total'}
            self.check(['variation', *who, '--period', str(period), *words], {**named, **want, 'period': str(period)})
            self.check(['look-up', *who, '--period', str(period)], {**named, 'period': str(period)})
            self.check(['total', *who[2:], '--period', str(period)], {'service': named['service'], 'period': str(period)})

    def test_offers_with_blanks_anywhere(self):
        for _ in range(100):
            service = self.random.randint(0, 4)
            words, want = self.offer(service, blanks_last=False)
            words = ['--facility', '0', '--service', str(service), '--anyway', *words]
            self.check(['standing', '--slot', '4', *words], want)
            if want['total'] != '0.0 MW':
                self.check(['variation', '--period', '4', *words], want)

    def test_capabilities(self):
        maxima = [f'max-{name}' for name in ('generation', 'combined', 'primary', 'secondary', 'contingency', 'regulation')]
        labels = ['generation maximum', 'combined maximum', 'primary reserve maximum', 'secondary reserve maximum', 'contingency reserve maximum',
                  'regulation maximum']
        for _ in range(100):
            facility, number = self.random.randint(0, 63), self.random.randint(1, 3)
            kind = ('generation', 'load', 'link')[number - 1]
            words = ['capability', '--facility', str(facility), '--kind', self.random.choice((kind, str(number)))]
            want = {'facility': str(facility), 'kind': f'{number} {kind}'}
            for option, label in zip(maxima, labels):
                value = self.random.randint(0, 99999)
                words += [f'--{option}', self.amount(value, 1, 'MW')]
                want[label] = f'{Decimal(value).scaleb(-1):.1f} MW'
            for name in ('up', 'down'):
                value = self.random.randint(0, 9999)
                words += [f'--max-ramp-{name}', self.amount(value, 1, 'MW/min')]
                want[f'ramp-{name} maximum'] = f'{Decimal(value).scaleb(-1):.1f} MW/min'
            for name in ('primary', 'secondary', 'contingency'):
                value = self.random.randint(0, 1000)
                words += [f'--max-{name}-proportion', self.amount(value, 1, '%')]
                want[f'{name} proportion maximum'] = f'{Decimal(value).scaleb(-3):.3f}'
            able = {'generation': ('energy', 'primary', 'secondary', 'contingency', 'regulation'), 'load': ('primary', 'secondary', 'contingency'),
                    'link': ('energy',)}[kind]
            marks = [name for name in able if self.random.random() < 0.5]
            words += ['--registered', ','.join(marks)] if marks else []
            want['registered for'] = ', '.join(marks) or 'nothing'
            self.check(words, want)

    def test_clocks_outages_and_notices(self):
        for _ in range(100):
            minute, count, facility = self.random.randint(0, 10**9), self.random.randint(1, 48), self.random.randint(0, 63)
            self.check(['clock', '--minute', str(minute)], {'minute': str(minute)})
            self.check(['outage', '--facility', str(facility), '--minute', str(minute), '--periods', str(count)],
                       {'facility': str(facility), 'minute': str(minute), 'periods': str(count),
                        'window': f'periods {minute // 30 + 1} to {minute // 30 + count}'})
            first, last = sorted(self.random.randint(0, 40_000_000) for _ in range(2))
            kind, text = self.random.choice(((3, 'energy surplus'), (4, 'shortfall'), (5, 'system status')))
            self.check(['notice', '--kind', str(kind), '--first', str(first), '--last', str(last)],
                       {'notice': f'{kind} {text} notice', 'first period': str(first), 'last period': str(last)})

    def test_dates(self):
        dates = counted_dates()
        for _ in range(100):
            (day, number), (last_day, last) = sorted((self.random.randint(1, 27758), self.random.randint(1, 48)) for _ in range(2))
            period, last_period = 48 * day + number - 1, 48 * last_day + last - 1
            which, when = ['--service', 'energy'], ['--date', dates[day], '--period', str(number)]
            self.check(['total', *which, *when], {'period': str(period)})
            self.check(['look-up', '--facility', '5', *which, *when], {'period': str(period)})
            self.check(['variation', '--facility', '5', *which, *when, '--pairs', '1@1'], {'period': str(period)})
            self.check(['standing', '--facility', '5', *which, *when, '--pairs', '1@1'], {'slot': str(48 * (day % 7) + number - 1)})
            self.check(['notice', '--kind', '3', '--date', dates[day], '--first', str(number), '--last-date', dates[last_day], '--last', str(last)],
                       {'first period': str(period), 'last period': str(last_period)})

    def test_any_fields_at_all(self):
        """Words a book refuses come back too, with --anyway."""
        edge = (0, 1, -1, 2**31 - 1, -2**31, 99999, 100000)
        for _ in range(150):
            service, word = self.random.randint(0, 4), lambda: self.random.choice(edge + (self.random.randint(-2**31, 2**31 - 1),))
            fields = {'facility': self.random.randint(0, 255), 'service': service, 'period': word(), 'reason': self.random.randint(0, 255)}
            fields['words'] = [word() for _ in range(self.random.randint(0, 20 if service == 0 else 10))]
            if service == 0:
                fields.update(ramp_up=word(), ramp_down=word())
            if 1 <= service <= 3:
                fields['proportion'] = self.random.randint(0, 65535)
            for data in (build(3, **fields), build(4, **fields), build(1, a=word()),
                         build(5, facility=fields['facility'], a=word(), b=word()), build(6, reason=self.random.randint(0, 255), a=word(), b=word()),
                         build(2, facility=fields['facility'], words=[word() for _ in range(12)] + [self.random.randint(0, 1) for _ in range(5)])):
                words = command_for(data)
                self.assertEqual(run(words), (0, data, ''), words)


class Answers(Tool):
    LOOK_UP = '0 2 0 15 20 4000 500 -5000 200' + ' 0' * 16 + ' 700'

    def test_every_refusal(self):
        for number in range(1, 22):
            name, _, who, means, correct = REFUSALS[number]
            text = self.explained(f'--answer {number} 0 0')
            self.assertEqual(text, f'refused with {number}, {name}; drawn by {who}\n  means       {means}\n  to correct  {correct}\n  the book    unchanged\n')
            self.assertEqual(self.explained(f'--answer {number}' + ' 0' * 25), text)
        self.assertEqual(sorted(REFUSALS), list(range(1, 22)))

    def test_who_draws_which(self):
        want = {'the host program': {1, 2, 20}, 'any sender': {3, 4, 5}, 'the clock': {6}, 'the system operator': {7, 8},
                'the coordinator': {*range(9, 19), 21} - {10}, 'the coordinator or reader': {10}, 'the reader': {19}}
        for who, numbers in want.items():
            self.assertEqual({number for number, refusal in REFUSALS.items() if refusal.drawn_by == who}, numbers)

    def test_three_numbers(self):
        for line, text in (
                ('0 0 0', 'accepted; or, answering a total: no facility has an offer in force'),
                ('0 1 700', 'answering a look-up: the standing offer is in force, 70.0 MW in all\nanswering a total: 1 facility has an offer in force, 70.0 MW in all'),
                ('0 2 300', 'answering a look-up: the variation is in force, 30.0 MW in all\nanswering a total: 2 facilities have an offer in force, 30.0 MW in all'),
                ('0 3 700', f'answering a look-up: the standing offer is in force, 70.0 MW in all; {FRESH}'
                            '\nanswering a total: 3 facilities have an offer in force, 70.0 MW in all'),
                ('0 5 999999', 'answering a total: 5 facilities have an offer in force, 99999.9 MW in all'),
                ('0 1 700 --call look-up', 'the standing offer is in force, 70.0 MW in all'),
                ('0 2 1 --call 8', 'the variation is in force, 0.1 MW in all'),
                ('0 3 1 --call 8', f'the standing offer is in force, 0.1 MW in all; {FRESH}'),
                ('0 4 1 --call 8', f'the variation is in force, 0.1 MW in all; {FRESH}'),
                ('0 4 1 --call 9', '4 facilities have an offer in force, 0.1 MW in all'),
                ('0 1 0 --call 8', 'the standing offer is in force, 0.0 MW in all'),
                ('0 2 0 --call 8', 'the variation is in force, 0.0 MW in all; no filing leaves such a variation: the book is damaged'),
                ('0 3 0 --call 8', f'the standing offer is in force, 0.0 MW in all; {FRESH}'),
                ('0 4 0 --call 8', f'the variation is in force, 0.0 MW in all; {FRESH}; no filing leaves such a variation: the book is damaged'),
                ('0 2 0 --call 9', '2 facilities have an offer in force, 0.0 MW in all'),
                ('0 1 300 --call total', '1 facility has an offer in force, 30.0 MW in all'),
                ('0 0 0 --call total', '0 facilities have an offer in force, 0.0 MW in all'),
                ('0 0 0 --call standing', 'accepted')):
            self.assertEqual(self.explained(f'--answer {line}'), text + '\n', line)

    def test_all_words_of_a_look_up(self):
        self.assertEqual(self.explained(f'--answer {self.LOOK_UP}').splitlines(), [
            'the variation is in force, 70.0 MW in all', '  ramp up        1.5 MW/min', '  ramp down      2.0 MW/min',
            '  pair 1         50.0 MW at $40.00/MWh', '  pair 2         20.0 MW at -$50.00/MWh', '  pairs 3 to 10  blank'])
        reserve = '0 1 625 0 0 100 50' + ' 0' * 18 + ' 50'
        self.assertEqual(explain_answer(read_answer(reserve), 8, 2), ['the standing offer is in force, 5.0 MW in all', '  proportion    0.625',
                                                         '  pair 1        5.0 MW at $1.00/MWh', '  pairs 2 to 5  blank'])

    def test_a_held_blank_before_a_filled_pair(self):
        """Held offers are not tested again: an older book has it, so the answer is no damaged one."""
        words = '0 0 0 4000 500 0 0 0 0 5000 200' + ' 0' * 12 + ' 700'
        why = 'a blank stands before a filled pair: the offer is from an older library, or the book is damaged'
        rows = ['  pair 1         50.0 MW at $40.00/MWh', '  pairs 2 to 3   blank, before a filled pair', '  pair 4         20.0 MW at $50.00/MWh',
                '  pairs 5 to 10  blank']
        for first, text in ((1, 'the standing offer is in force, 70.0 MW in all'), (2, 'the variation is in force, 70.0 MW in all'),
                            (3, f'the standing offer is in force, 70.0 MW in all; {FRESH}'), (4, f'the variation is in force, 70.0 MW in all; {FRESH}')):
            for call in ('', ' --call look-up'):
                self.assertEqual(self.explained(f'--strict --answer 0 {first} {words}{call}').splitlines(), [f'{text}; {why}', *rows])
        reserve = read_answer('0 1 1 0 0 100 5 200 0 300 6 0 0 400 7' + ' 0' * 10 + ' 18')
        self.assertEqual(explain_answer(reserve, 8, 1), [
            f'the standing offer is in force, 1.8 MW in all; {why}', '  proportion  0.001', '  pair 1      0.5 MW at $1.00/MWh',
            '  pair 2      0.0 MW at $2.00/MWh (blank, with a price, before a filled pair)', '  pair 3      0.6 MW at $3.00/MWh',
            '  pair 4      blank, before a filled pair', '  pair 5      0.7 MW at $4.00/MWh'])
        for line in ('0 1 700 --call 8', self.LOOK_UP, '0 1' + ' 0' * 24 + ' --call 8', '0 1 0 0 0 -100 5 0 5 100 5' + ' 0' * 14 + ' 15'):
            self.assertNotIn('filled', self.explained(f'--answer {line}'))

    def test_damaged(self):
        for line in ('17 1 0', '17 0 5', '21 0 0 --call look-up', '0 1 700 --call clock', '0 5 700 --call look-up', '0 0 700 --call look-up', '0 65 0 --call total', '0 -1 0',
                     self.LOOK_UP[:-3] + '701', '0 1 1' + ' 0' * 22 + ' 5 --call total'):
            self.assertIn('damaged answer', self.explained(f'--answer {line}'), line)


    def test_a_call_that_is_none_of_the_nine(self):
        for number in (0, 10, 77, 255):
            self.assertIn(f'there is no call {number}: calls are 1 to 9 (--damaged', self.refused(f'explain --answer 0 0 0 --call {number}'.split()))
            self.assertEqual(self.explained(f'--answer 0 0 0 --call {number} --damaged'), f'damaged answer: call {number}, none of the nine, draws 2\n')
            self.assertIn(f'call {number}, none of the nine, never draws 17', self.explained(f'--answer 17 0 0 --call {number} --damaged'))
            self.assertNotIn('damaged', self.explained(f'--answer 2 0 0 --call {number} --damaged'))
        self.assertEqual(self.explained('--answer 0 0 0 --call 1 --damaged'), 'accepted\n')

    def test_which_call_draws_which(self):
        """Document 01: 5 'calls 3, 4, 5, 8'; 10 'also calls 8 and 9'; 18 'standing offer'; 19 'call 8'."""
        offer = {9, 10, 11, 12, 13, 14, 15, 16, 17}
        for call, numbers in {1: {6}, 2: {3, 8}, 3: {3, 5, 18} | offer, 4: {3, 5} | offer, 5: {3, 5, 7}, 6: {7}, 7: {7},
                              8: {3, 5, 10, 19}, 9: {3, 10}}.items():
            self.assertEqual({number for number in range(1, 22) if draws(call, number)}, {1, 2, 4} | numbers, call)

    def test_more_facilities_than_the_book_has(self):
        self.assertEqual(self.explained('--answer 0 3 30 --call total --facilities 3'), '3 facilities have an offer in force, 3.0 MW in all\n')
        self.assertIn('damaged answer: a total counts 0 to 3 facilities', self.explained('--answer 0 4 30 --call total --facilities 3'))
        self.assertIn('damaged answer: a total counts 0 to 64 facilities', self.explained('--answer 0 65 30 --call total --facilities 65'))


class Strict(Tool):
    """--strict: status 1 and one line where a record or an answer is no such thing; what is printed stays the same."""
    LOOK_UP = 'look-up --facility 3 --service primary --period 4'

    def statuses(self, line, text=''):
        loose, strict = run(['explain', *line.split()]), run(['explain', '--strict', *line.split()])
        self.assertEqual((loose[0], loose[2]), (0, ''), line)
        self.assertEqual(strict, (1 if text else 0, loose[1], f'records.py: --strict: not right: {text}\n' if text else ''), line)
        brief = run(['explain', '--strict', '--brief', *line.split()]) if '--answer ' not in line else strict
        self.assertEqual((brief[0], brief[2]), (strict[0], strict[2]), line)

    def test_records(self):
        data = self.made(self.LOOK_UP)
        self.statuses(f'--record {data.hex()}')
        self.statuses(f'--record {data[:-1].hex()}', 'record 1')
        self.statuses(f'--record {data.hex()}00', 'record 1')
        self.statuses(f'--record 54{data.hex()[2:]}', 'record 1')
        self.statuses(f'--record {data.hex()[:-1]}1', 'record 1')
        self.statuses(f'--record {data.hex()} --facilities 4 --services 5')
        self.statuses(f'--record {data.hex()} --facilities 3', 'record 1')
        self.statuses(f'--record {data.hex()} --services 1', 'record 1')
        self.statuses(f'--record {data.hex()} --services 2', 'record 1')

    def test_answers(self):
        for line in ('0 0 0', '0 1 700', '17 0 0', '19 0 0 --call look-up', '0 0 0 --call clock'):
            self.statuses(f'--answer {line}')
        for line in ('17 1 0', '0 0 7', '0 0 0 --call look-up', '17 0 0 --call look-up', '0 1 0 --call clock', '0 0 0 --call 77 --damaged',
                     '0 4 30 --call total --facilities 3'):
            self.statuses(f'--answer {line}', 'the answer')

    def test_answers_of_records(self):
        right, stray = self.made(self.LOOK_UP), bytearray(self.made(self.LOOK_UP))
        stray[13] = 1
        for data, answer, sizes, wrong in (
                (right, '0 1 5', '', []), (right, '3 0 0', '', []), (right, '2 0 0', '', ['answer']), (right, '4 0 0', '', ['answer']),
                (right, '1 0 0', '', []), (right, '20 0 0', '', ['answer']), (right, '21 0 0', '', ['answer']), (right, '3 0 0', '--facilities 4 --services 5', ['answer']),
                (right, '0 1 5', '--facilities 3 --services 5', ['record', 'answer']), (right, '3 0 0', '--facilities 3 --services 5', ['record']),
                (right[:-1], '2 0 0', '', ['record']), (right[:-1], '0 1 5', '', ['record', 'answer']), (right[:-1], '1 0 0', '', ['record']),
                (stray, '4 0 0', '', ['record']), (stray, '3 0 0', '', ['record']), (stray, '0 1 5', '', ['record', 'answer']),
                (stray, '3 0 0', '--facilities 64 --services 5', ['record', 'answer']),
                (right, '0 1 5', '--services 2', ['record']), (right[:-1], '0 0 0', '--services 2', ['record', 'answer'])):
            with tempfile.NamedTemporaryFile('w') as file:
                file.write(answer)
                file.flush()
                self.statuses(f'--record {bytes(data).hex()} --answers {file.name} {sizes}', ', '.join(f'{what} 1' for what in wrong))

    def test_numbers_that_a_record_rules_out(self):
        """What its own bytes draw in any book, or never draw; a damaged book's limits and maxima may let anything through."""
        early_blank, blank_alone, rising = [1, 1, 0, 0, 2, 1], [], [1, 1, 2, 1, 0, 0]
        later = {5, 9, 11, 14, 15, 16, 17}
        for data, numbers in (
                (build(3, period=4, words=early_blank), {1, 3, 5, 9, 11, 12}), (build(4, period=4, words=early_blank), {1, 3, 5, 9, 10, 11, 12}),
                (build(3, period=4, words=[5, 0]), {1, 3, 5, 9, 11, 12}), (build(4, period=4, words=[2, 1, 1, 1]), {1, 3, 5, 9, 10, 11, 13}),
                (build(4, period=4, words=early_blank, ramp_up=-1), {1, 3, 5, 9, 10, 11, 12}),
                (build(4, period=4, words=early_blank, reason=7), {1, 3, 5, 9, 10, 11}),
                (build(3, period=4, words=rising), {0, 1, 3, 18} | later), (build(3, period=4, words=blank_alone), {0, 1, 3, 18} | later),
                (build(4, period=4, words=rising), {0, 1, 3, 10} | later), (build(4, period=4, words=blank_alone), {0, 1, 3, 10} | later),
                (build(4, period=4, words=rising, ramp_up=10000), {1, 3, 5, 9, 10, 11, 14}), (build(3, period=336, words=rising), {1, 3, 5, 9, 10}),
                (build(4, words=rising), {1, 3, 5, 9, 10}), (build(3, words=[10000001, 1]), {0, 1, 3, 18} | later),
                (build(3, words=[1, 99999, 2, 1]), {0, 1, 3, 18} | later), (build(4, period=4, words=[10000001, 1]), {0, 1, 3, 10} | later),
                (build(1, a=-1), {1, 6}), (build(1), {0, 1, 6}), (build(2, words=[4]), {1, 3, 8}), (build(2, words=[1]), {0, 1, 3, 8}),
                (build(5, b=49), {1, 3, 5, 7}), (build(5, b=1), {0, 1, 3, 5, 7}), (build(6, reason=6), {1, 7}), (build(6, reason=3), {0, 1}),
                (build(7), {1, 7}), (build(7, reason=5), {0, 1}), (build(8), {1, 3, 5, 10}), (build(8, period=1), {0, 1, 3, 5, 10, 19}),
                (build(9), {1, 3, 10})):
            for book, left_out in ((Book(), set()), (Book(64, 5), {3})):
                may_be = {number for number in range(22) if not book.wrong(data, read_answer(f'{number} {int(data[5] == 8 and not number)} 0'))}
                self.assertEqual(may_be, numbers - left_out, data.hex())

    def test_what_is_said_of_a_number_ruled_out(self):
        filed = build(3, period=4, words=[1, 1, 0, 0, 2, 1])
        for data, answer, text in (
                (filed, '0 0 0', '\n  answer 0 0 0\n    damaged answer: any book refuses this record with 12 or a lower number\n'),
                (filed, '13 0 0', '    the book    unchanged\n    damaged answer: any book refuses this record with 12 or a lower number\n'),
                (filed, '12 0 0', '      the book    unchanged\n'),
                (build(3, period=4), '12 0 0', '      the book    unchanged\n    damaged answer: no book refuses this record with 12\n')):
            with tempfile.NamedTemporaryFile('w') as file:
                file.write(answer)
                file.flush()
                self.assertTrue(self.explained(f'--record {data.hex()} --answers {file.name}').endswith(text), answer)
                self.statuses(f'--record {data.hex()} --answers {file.name}', 'answer 1' if 'damaged' in text else '')

    def test_what_no_record_can_be_answered(self):
        with tempfile.NamedTemporaryFile('w') as file:
            file.write('0 0 0')
            file.flush()
            self.assertTrue(self.explained(f'--record 00 --answers {file.name}').endswith(
                '\n  answer 0 0 0\n    damaged answer: the record test of this record gives 2\n'))

    def test_several(self):
        with tempfile.NamedTemporaryFile() as file:
            file.write(bytes(112 * 7) + self.made('sample'))
            file.flush()
            self.statuses(file.name, 'record 1, record 2, record 3, record 4, record 5 and 2 more')


class Brief(Tool):
    """explain --brief: a line a record."""

    def table(self, line, answers):
        status, data, errors = run(line.split())
        self.assertEqual((status, errors), (0, ''))
        with tempfile.NamedTemporaryFile() as file, tempfile.NamedTemporaryFile('w') as lines:
            file.write(data)
            file.flush()
            if answers is None:
                return self.explained(f'--brief {file.name}').splitlines()
            lines.write('\n'.join(answers))
            lines.flush()
            return self.explained(f'--brief {file.name} --answers {lines.name}').splitlines()

    def test_a_day_of_look_ups(self):
        """Facility and service stand once; pairs are aligned; a refusal's words stand in the pairs' place."""
        look_up = 'look-up --facility 2 --service energy --period '
        zeros = ' 0' * 16
        self.assertEqual(self.table(' then '.join(look_up + period for period in ('96', '97', '98', '99', '1000')), [
            '0 1 0 15 15 4000 500 5000 200' + zeros + ' 700', '0 2 0 15 15 -450000 99 4000 1200' + zeros + ' 1299',
            '0 1' + ' 0' * 24, '19' + ' 0' * 25, '10' + ' 0' * 25]), [
                'look-up, facility 2, energy',
                'no.  period             day  1-48  time   in force       MW  pairs, MW @ $/MWh',
                '  1      96  2024-01-03 Wed     1  00:00  standing     70.0  50.0 @    40.00   20.0 @ 50.00',
                '  2      97  2024-01-03 Wed     2  00:30  variation   129.9   9.9 @ -4500.00  120.0 @ 40.00',
                '  3      98  2024-01-03 Wed     3  01:00  standing      0.0',
                '  4      99  2024-01-03 Wed     4  01:30  refused 19         nothing in force',
                '  5    1000  2024-01-21 Sun    41  20:00  refused 10         period refused: begun or past the horizon'])

    def test_fresh_offers(self):
        """What fresh means stands once, below."""
        line = ' then '.join(f'look-up --facility 2 --service energy --period {period}' for period in (96, 97, 98))
        self.assertEqual(self.table(line, ['0 3 0 15 15 4000 500' + ' 0' * 18 + ' 500', '0 2 30', '0 4' + ' 0' * 23 + ' 0']), [
            'look-up, facility 2, energy',
            'no.  period             day  1-48  time   in force            MW  pairs, MW @ $/MWh',
            '  1      96  2024-01-03 Wed     1  00:00  standing, fresh   50.0  50.0 @ 40.00',
            '  2      97  2024-01-03 Wed     2  00:30  variation          3.0',
            '  3      98  2024-01-03 Wed     3  01:00  variation, fresh   0.0',
            f'fresh: {FRESH}'])

    def test_the_worked_run(self):
        """An answer of three numbers has no pairs: they are those of the filing before it."""
        self.assertEqual(self.table('sample', PRINTED), [
            'no.  call            facility  service  period             day  1-48  time   answer              MW  pairs, MW @ $/MWh',
            '  1  capability             0                                                accepted                generation, 130.0 MW, combined 80.0 MW, registered for energy',
            '  2  standing offer         0  energy   slot 4             Mon     5  02:00  accepted          70.0  50.0 @ 40.00  20.0 @ 50.00',
            '  3  look-up                0  energy        4  2024-01-01 Mon     5  02:00  standing, fresh   70.0  50.0 @ 40.00  20.0 @ 50.00',
            '  4  variation              0  energy        4  2024-01-01 Mon     5  02:00  accepted          30.0  30.0 @ 40.00',
            '  5  look-up                0  energy        4  2024-01-01 Mon     5  02:00  variation, fresh  30.0  30.0 @ 40.00',
            '  6  total                     energy        4  2024-01-01 Mon     5  02:00  1 facility        30.0',
            '  7  look-up                0  energy      340  2024-01-08 Mon     5  02:00  refused 10              period refused: begun or past the horizon',
            '  8  clock                                      2024-01-02 Tue        00:00  accepted',
            '  9  look-up                0  energy      340  2024-01-08 Mon     5  02:00  standing          70.0  50.0 @ 40.00  20.0 @ 50.00',
            f'fresh: {FRESH}'])

    def test_a_variation_taken_back(self):
        """It is no offer of 0.0 MW, and a look-up after it has the standing offer's pairs."""
        varied, read_it = 'variation --facility 0 --service energy --period 4 ', 'look-up --facility 0 --service energy --period 4'
        line = ' then '.join(('standing --facility 0 --service energy --slot 4 --pairs 500@4000', varied + '--pairs 300@4000', varied + '--take-back', read_it,
                              varied + '--reason outage --take-back', 'standing --facility 0 --service energy --slot 5 --pairs 0@0'))
        self.assertEqual(self.table(line, ['0 0 0', '0 0 0', '0 0 0', '0 1 500', '17 0 0', '0 0 0']), [
            'facility 0, energy',
            'no.  call            period             day  1-48  time   answer        MW  pairs, MW @ $/MWh',
            '  1  standing offer  slot 4             Mon     5  02:00  accepted    50.0  50.0 @ 40.00',
            '  2  variation            4  2024-01-01 Mon     5  02:00  accepted    30.0  30.0 @ 40.00',
            '  3  variation            4  2024-01-01 Mon     5  02:00  accepted          takes the variation back: the standing offer stands again, if there is one',
            '  4  look-up              4  2024-01-01 Mon     5  02:00  standing    50.0  50.0 @ 40.00',
            '  5  variation            4  2024-01-01 Mon     5  02:00  refused 17        gate closed',
            '  6  standing offer  slot 5             Mon     6  02:30  accepted     0.0'])
        self.assertEqual(self.table(varied + '--take-back', None)[-1],
                         '  1       4  2024-01-01 Mon     5  02:00  takes the variation back: the standing offer stands again, if there is one')
        damaged = self.table(varied + '--pairs 300@4000 then ' + varied + '--take-back then ' + read_it, ['0 0 0', '0 0 0', '0 2 300'])
        self.assertTrue(damaged[-1].endswith('variation  30.0'))

    def test_blanks_before_filled_pairs(self):
        """They stand in their places, in filings and in look-ups; those after the last filled pair are left out."""
        filed, read_it = 'standing --facility 0 --service energy --slot 4 --anyway --mw ', 'look-up --facility 0 --service energy --period 4'
        line = ' then '.join((filed + '50@40,0@0,0@0,120@50', filed + '50@40,120@50,0@0', filed + '0@0,0@7', read_it, read_it))
        held = '0 1 0 0 0 4000 500 0 0 0 0 5000 1200' + ' 0' * 12 + ' 1700'
        self.assertEqual(self.table(line, None)[2:], [
            '  1  standing offer  slot 4             Mon     5  02:00  170.0  50.0 @ 40.00    0.0 @  0.00  0.0 @ 0.00  120.0 @ 50.00',
            '  2  standing offer  slot 4             Mon     5  02:00  170.0  50.0 @ 40.00  120.0 @ 50.00',
            '  3  standing offer  slot 4             Mon     5  02:00    0.0   0.0 @  7.00',
            '  4  look-up              4  2024-01-01 Mon     5  02:00',
            '  5  look-up              4  2024-01-01 Mon     5  02:00'])
        self.assertEqual(self.table(line, ['12 0 0', '0 0 0', '12 0 0', held, '0 1 1700'])[2:], [
            "  1  standing offer  slot 4             Mon     5  02:00  refused 12         blank refused: quantity 0 with a price, or before a pair that isn't blank",
            '  2  standing offer  slot 4             Mon     5  02:00  accepted    170.0  50.0 @ 40.00  120.0 @ 50.00',
            "  3  standing offer  slot 4             Mon     5  02:00  refused 12         blank refused: quantity 0 with a price, or before a pair that isn't blank",
            '  4  look-up              4  2024-01-01 Mon     5  02:00  standing    170.0  50.0 @ 40.00    0.0 @  0.00  0.0 @ 0.00  120.0 @ 50.00',
            '  5  look-up              4  2024-01-01 Mon     5  02:00  standing    170.0  50.0 @ 40.00  120.0 @ 50.00'])
        self.assertTrue(self.table(filed + '1@-1,2@0,0@0', None)[-1].endswith('  3.0  1.0 @ -1.00  2.0 @ 0.00'))
        self.assertEqual(self.table(filed + '50@40,0@0,120@50', ['13 0 0'])[-1],
                         '  1  slot 4  Mon     5  02:00  damaged  answer 13 0 0: any book refuses this record with 12 or a lower number')

    def test_calls_without_an_offer(self):
        line = ('outage --facility 1 --minute 100 --periods 3 then notice --kind shortfall --first 9 --last 4 --anyway then withdrawal'
                ' then total --service regulation --period 5')
        self.assertEqual(self.table(line, ['0 0 0', '7 0 0', '0 0 0', '0 2 30']), [
            'no.  call        facility  service     period             day  1-48  time   answer         MW',
            '  1  outage             1                      2024-01-01 Mon        01:40  accepted           periods 4 to 6 (2024-01-01 period 5 to 2024-01-01 period 7)',
            '  2  notice                                                                 refused 7          notice refused: notice out of range',
            '  3  withdrawal                                                             accepted           system status notice',
            '  4  total                 regulation       5  2024-01-01 Mon     6  02:30  2 facilities  3.0'])

    def test_dates(self):
        """The last one, and the day's number after it; a notice over midnight."""
        line = ('total --service 0 --period 1332431 then total --service 0 --period 1332432 then clock --minute 39972960 then notice --kind surplus'
                ' --date 2026-11-16 --first 48 --last-date 2026-11-17 --last 1 then standing --facility 0 --service 0 --weekday Thu --period 24 --pairs 1@1'
                ' then notice --kind surplus --first -1 --last 5 --anyway then standing --facility 0 --service 0 --slot 336 --pairs 1@1 --anyway')
        self.assertEqual(self.table(line, None), [
            'no.  call            facility  service    period             day  1-48  time    MW  pairs, MW @ $/MWh',
            '  1  total                     energy    1332431  2099-12-31 Thu    48  23:30',
            '  2  total                     energy    1332432       27759 Fri     1  00:00',
            '  3  clock                                             27759 Fri        00:00',
            '  4  notice                                                                         energy surplus notice, periods 50447 to 50448'
            ' (2026-11-16 period 48 to 2026-11-17 period 1)',
            '  5  standing offer         0  energy   slot 167             Thu    24  11:30  0.1  0.1 @ 0.01',
            '  6  notice                                                                         energy surplus notice, periods -1 to 5'
            ' (before day 0 to 2024-01-01 period 6)',
            '  7  standing offer         0  energy   slot 336                               0.1  0.1 @ 0.01'])

    def test_a_link(self):
        line = ('capability --facility 1 --kind link --max-generation 100MW --max-combined 100MW --registered energy'
                ' then outage --facility 1 --minute 100 --periods 3 then standing --facility 1 --service primary --slot 4 --pairs 1@1')
        self.assertEqual(self.table(line, ['0 0 0', '7 0 0', '9 0 0']), [
            'facility 1',
            'no.  call            service          period             day  1-48  time   answer',
            '  1  capability                                                            accepted   link, 100.0 MW, combined 100.0 MW, registered for energy',
            '  2  outage                                   2024-01-01 Mon        01:40  refused 7  notice refused: outage out of range, or of a link',
            "  3  standing offer  primary reserve  slot 4             Mon     5  02:00  refused 9  not registered: the facility isn't registered for the service"])

    def test_without_answers(self):
        self.assertEqual(self.table('variation --facility 0 --service primary --period 5 --proportion 5 --mw 1@2,3@4,0@0', None), [
            'variation, facility 0, primary reserve', 'no.  period             day  1-48  time    MW  pairs, MW @ $/MWh',
            '  1       5  2024-01-01 Mon     6  02:30  4.0  1.0 @ 2.00  3.0 @ 4.00'])
        self.assertEqual(self.explained('--brief --record 534f').splitlines(), [
            'no.  call       record test', '  1  no record  refused 2    not a record: 2 bytes, 110 too few; mark 534f, not 534f42 (SOB); version missing, not 0001;'
            ' call missing, not 1 to 9'])
        self.assertEqual(self.table('sample', None)[2], '  2  standing offer         0  energy   slot 4             Mon     5  02:00  70.0  50.0 @ 40.00  20.0 @ 50.00')

    def test_damage(self):
        self.assertEqual(self.table('withdrawal then withdrawal', ['0 1 0', '17 0 0'])[-2:], [
            '  1  damaged  answer 0 1 0: beside this call all words and the sum are zero', '  2  damaged  answer 17 0 0: a withdrawal never draws 17'])
        self.assertEqual(self.table('look-up --facility 0 --service 0 --period -1 --anyway', ['10 0 0'])[-1:], [
            '  1      -1  refused 10  period refused: begun or past the horizon'])

    def test_a_filing_elsewhere(self):
        """A look-up whose sum is not the filing's answers from another one: no pairs are shown."""
        line = 'standing --facility 0 --service 0 --slot 4 --pairs 5@1 then look-up --facility 0 --service 0 --period 4'
        self.assertTrue(self.table(line, ['0 0 0', '0 1 5'])[-1].endswith('0.5  0.5 @ 0.01'))
        self.assertTrue(self.table(line, ['0 0 0', '0 1 6'])[-1].endswith('standing  0.6'))
        self.assertTrue(self.table(line, ['17 0 0', '0 1 5'])[-1].endswith('standing    0.5'))
        self.assertTrue(self.table(line, ['0 0 0', '0 2 5'])[-1].endswith('variation  0.5'))
        self.assertTrue(self.table(line.replace(' then ', ' then withdrawal then '), ['0 0 0', '0 9 9', '0 1 5'])[-1].endswith('standing  0.5'))

    def test_one_line_each_whatever_the_bytes(self):
        chance = random.Random(7)
        sample = self.made('sample')
        for _ in range(300):
            data = bytearray(sample)
            for _ in range(chance.randint(0, 40)):
                data[chance.randrange(len(data))] = chance.choice((0, 1, 2, 9, 255, chance.randint(0, 255)))
            pieces = [bytes(data[n:n + 112]) for n in range(0, len(data) - chance.randint(0, 112), 112)]
            answers = [read_answer(f"{chance.randint(0, 21)} {chance.choice((0, 0, 1, 2, 3, 4, 5))} {chance.choice((0, 0, 700))}") for _ in pieces]
            for given in (answers, [None] * len(pieces)):
                lines = brief_lines(brief_rows(pieces, given, Book()), given is answers)
                self.assertEqual(lines[-1] == f'fresh: {FRESH}', any(', fresh' in line for line in lines[:-1]))
                self.assertIn(len(lines) - (lines[-1] == f'fresh: {FRESH}') - len(pieces), (1, 2))
                self.assertTrue(all(line == line.rstrip() and line.isprintable() for line in lines))


class Vectors(Tool):
    """tests/vectors: NAME.in holds lists (F, S, six limits, count; then each record with its length before it), NAME.out an answer a line."""

    def lists(self, name):
        return (item[1:] for item in self.numbered(name))

    def numbered(self, name):
        """The list's number; record, F, S, answer."""
        data, answers = contents(HERE, 'vectors', name + '.in'), iter(contents(HERE, 'vectors', name + '.out').decode().splitlines())
        place = 0

        def word():
            nonlocal place
            place += 4
            return int.from_bytes(data[place - 4:place], 'big', signed=True)
        number = 0
        while place < len(data):
            facilities, services, *_, count = [word() for _ in range(9)]
            number += 1
            for _ in range(count):
                length = word()
                place += length
                yield number, data[place - length:place], facilities, services, next(answers)
        self.assertIsNone(next(answers, None))

    def program(self, name):
        data, answers = contents(HERE, 'vectors', name + '.in'), contents(HERE, 'vectors', name + '.out').decode().splitlines()
        pieces = [data[start:start + 112] for start in range(0, len(data), 112)]
        self.assertEqual(len(pieces), len(answers))
        return [(piece, 1, 1, answer) for piece, answer in zip(pieces, answers)]

    def check(self, items):
        """The record test agrees with the agreed answers, and so does what is said of any book."""
        seen = set()
        for place, (data, facilities, services, answer) in enumerate(dict.fromkeys(items)):
            number = int(answer.split()[0])
            seen.add(number)
            tested, _ = record_test(data, facilities, services)
            self.assertEqual(tested, number if number in (2, 3, 4) else 0, (data.hex(), answer))
            surely, _ = any_book_refuses(data)
            self.assertTrue(surely == 0 or 0 < number <= surely, (data.hex(), answer, surely))
            self.assertIn(f'F {facilities}, S {services}: {tested}', '\n'.join(explain_record(data, facilities, services)))
            given = read_answer(answer)
            for book in (Book(), Book(facilities, services)):
                lines = explain_answer(given, *records.call_and_service(data), book.most, book.wrong(data, given))
                self.assertNotIn('damaged', ' '.join(lines), (data.hex(), answer))
            words = command_for(data)
            if words and place % 5 == 0:
                self.assertEqual(b''.join(records.make(options) for options in records.parse_run(words)), data)
        return seen

    def test_every_byte(self):
        self.assertLessEqual({0, 2, 3, 4}, self.check(self.lists('every_byte')))

    def test_five_services(self):
        self.assertEqual(self.check(self.lists('five_services')), set(range(20)) - {1})

    def test_one_service(self):
        self.assertLessEqual({0, 2, 3, 4, 17}, self.check(self.lists('one_service')))

    def test_variations_taken_back(self):
        self.assertLessEqual({0, 14, 15, 17, 19}, self.check(self.lists('k1_calls')))

    def test_links(self):
        self.assertLessEqual({0, 5, 7, 8, 9, 14, 16, 17, 19}, self.check(self.lists('k2_calls')))

    def test_fresh_offers(self):
        items = list(self.lists('k3_calls'))
        self.assertLessEqual({0, 14, 17, 18, 19}, self.check(items))
        looked_up = {answer.split()[1] for data, _, _, answer in items if data[5:6] == b'\x08' and answer.startswith('0 ')}
        self.assertEqual(looked_up, {'1', '2', '3', '4'})

    def test_standing_offers_with_reasons(self):
        self.assertLessEqual({0, 11, 17, 18}, self.check(self.lists('k5_calls')))

    def test_blanks_go_last(self):
        self.assertLessEqual({0, 11, 12, 13}, self.check(self.lists('k7_calls')))

    def test_every_byte_with_a_link(self):
        self.assertLessEqual({0, 2, 3, 4, 11, 17}, self.check(self.lists('k3_every_byte')))

    def test_pairs_of_short_answers(self):
        """Told the first word and the sum alone, the pairs of the filings are those of the whole answer."""
        for name, least in (('one_service', 100), ('five_services', 100), ('k1_calls', 100), ('k2_calls', 100), ('k3_calls', 100), ('k7_calls', 100)):
            seen = 0
            for _, items in itertools.groupby(self.numbered(name), lambda item: item[0]):
                pieces, answers = zip(*((item[1], read_answer(item[4])) for item in items))
                short = [answer._replace(words=answer.words[:1]) for answer in answers]
                for whole, part in zip(brief_rows(pieces, answers, Book()), brief_rows(pieces, short, Book())):
                    self.assertEqual([pair for pair in whole.pairs if pair[1]], [pair for pair in part.pairs if pair[1]])
                    self.assertEqual(whole[:-2], part[:-2])
                    seen += whole.call == 'look-up' and bool(part.pairs)
            self.assertGreater(seen, least)

    def test_program(self):
        self.check(self.program('program_31'))
        self.check(self.program('program_34'))
        self.check(self.program('k1_program'))
        self.check(self.program('k2_program'))
        self.check(self.program('k3_program'))
        self.check(self.program('k5_program'))
        self.check(self.program('k7_program'))


class Header(unittest.TestCase):
    """include/bilzhaan.h: the tool's places, numbers and words are those of its enums."""

    def setUp(self):
        self.text = contents(ROOT, 'include', 'bilzhaan.h').decode()
        self.numbers = {name: int(value) for name, value in re.findall(r'\bBILZHAAN_(\w+) = (\d+)', self.text)}

    def these(self, *names):
        return [self.numbers[name] for name in names]

    def after(self, first, count):
        """The names of one enum from `first` on, in order."""
        names = list(self.numbers)
        return names[names.index(first):][:count]

    def test_sizes_and_bounds(self):
        energy, primary = records_layout.offer_fields(0)[1], records_layout.offer_fields(1)[1]
        self.assertEqual(self.these('RECORD_BYTES', 'FACILITIES_MOST', 'SERVICES_ALL', 'PAIRS_ENERGY', 'PAIRS_OTHER', 'CLOCK_LAST',
                                    'NOTICE_PERIOD_LAST', 'LIMIT_LARGEST', 'SCHEDULE_CUTOFF_MINUTES', 'YEAR_FIRST', 'YEAR_LAST', 'DATED_PERIOD_LAST'),
                         [records_layout.LENGTH, records_layout.MOST_FACILITIES, records_layout.MOST_SERVICES, energy, primary, records_layout.LAST_CLOCK,
                          records_layout.LAST_NOTICE_PERIOD, records_layout.LARGEST_LIMIT, records_layout.SCHEDULE_CUTOFF_MINUTES,
                          records_dates.FIRST_YEAR, records_dates.LAST_YEAR, records_dates.LAST_DATED_PERIOD])
        self.assertEqual(records_dates.period_of(1, '1'), self.numbers['DAY_PERIODS'])
        self.assertEqual([record_test(build(1), 1, services)[0] for services in self.these('SERVICES_ONE', 'SERVICES_ALL')], [0, 0])
        self.assertEqual(records_dates.period('0/00:30') * self.numbers['PERIOD_MINUTES'], records_dates.minute('0/00:30'))
        self.assertIn(f"slot {1000 % self.numbers['WEEK_SLOTS']})", records_dates.show_period(1000))
        rows = '\n'.join(explain_record(build(4, period=100), 64, 5))
        self.assertIn(f"up to minute {100 * self.numbers['PERIOD_MINUTES'] - self.numbers['GATE_MINUTES']} ", rows)

    def test_places(self):
        """Each field, made alone, changes bytes from its place on and none before."""
        plain = build(0)
        for name, width, fields in (
                ('CALL', 1, {'call': 255}), ('FACILITY', 1, {'facility': 255}), ('SERVICE', 1, {'service': 255}), ('PERIOD', 4, {'period': -1}),
                ('REASON', 1, {'reason': 255}), ('PROPORTION', 2, {'proportion': 65535}), ('RAMP_UP', 4, {'ramp_up': -1}), ('RAMP_DOWN', 4, {'ramp_down': -1}),
                ('A', 4, {'a': -1}), ('B', 4, {'b': -1}), ('W0', 80, {'words': [-1] * 20})):
            data = build(**{'call': 0, **fields})
            start = self.numbers[f'AT_{name}']
            self.assertEqual([place for place in range(112) if data[place] != plain[place]], list(range(start, start + width)), name)
        self.assertEqual(plain[self.numbers['AT_MARK']:][:3], b'SOB')
        self.assertEqual(plain[self.numbers['AT_VERSION']:][:2], b'\0\1')

    def test_calls(self):
        names = [name for name in self.numbers if name.startswith('CALL_')]
        self.assertEqual({self.numbers[name]: name[5:].lower().replace('_', '-') for name in names}, records_layout.CALLS)

    def test_services_kinds_reasons_and_notices(self):
        services = self.after('ENERGY', 5)
        self.assertEqual(self.these(*services), [0, 1, 2, 3, 4])
        self.assertEqual([name.lower().replace('_', ' ') for name in services], list(records_layout.SERVICE_TEXTS))
        self.assertEqual(records_layout.KIND_NAMES, {self.numbers[name]: name.lower() for name in self.after('GENERATION', 3)})
        reasons = self.after('REASON_NONE', 7)
        self.assertEqual(self.these(*reasons), list(range(7)))
        for name, word in zip(reasons, records_layout.REASONS):
            self.assertTrue(name[7:].lower().replace('_', '-').endswith(word), (name, word))
        notices = [name for name in self.numbers if name.startswith('NOTICE_') and name not in ('NOTICE_PERIOD_LAST', 'NOTICE_REFUSED')]
        self.assertEqual(sorted(self.these(*notices)), sorted(records_layout.NOTICES))
        for name in notices:
            self.assertTrue(name.lower().endswith(records_layout.NOTICES[self.numbers[name]]), name)

    def test_words_of_a_capability(self):
        """Each option fills the word that the header names."""
        words = [option.replace('-', '_').upper() for option, _, _ in CAPABILITY]
        first = {'MAX_PRIMARY': 'MAX_RESERVE', 'MAX_PRIMARY_PROPORTION': 'MAX_PROPORTION'}
        for place, name in enumerate(words, 1):
            if not name.startswith(('MAX_SECONDARY', 'MAX_CONTINGENCY')):
                self.assertEqual(self.numbers[f'W_{first.get(name, name)}'], place, name)
        self.assertEqual(self.numbers['W_REGISTERED'], len(words) + 1)
        self.assertEqual(self.numbers['CAPABILITY_WORDS'], len(words) + 6)
        for line, place in (('--kind 1', 'KIND'), ('--kind 1 --max-regulation 5', 'MAX_REGULATION'), ('--kind 1 --registered energy', 'REGISTERED')):
            status, data, _ = run(f'capability --facility 0 {line}'.split())
            self.assertEqual((status, read(data).words[self.numbers[f'W_{place}']] > 0), (0, True))

    def test_numbers_names_and_notes(self):
        """The enum of numbers, line by line: number, name, and what its comment says."""
        numbers = self.text[self.text.index('BILZHAAN_ACCEPTED = 0'):]
        lines = re.findall(r'BILZHAAN_(\w+) = (\d+),? *(?:/\* (.*?) \*/)?\n', numbers[:numbers.index('};')])
        self.assertEqual(len(lines), 22)
        for name, number, note in lines[1:]:
            refusal = REFUSALS[int(number)]
            self.assertEqual((refusal.name.replace("'", '').replace(' ', '_').upper(), refusal.note), (name, note))

    def test_in_force(self):
        for name, text in (('STANDING_IN_FORCE', 'standing offer'), ('VARIATION_IN_FORCE', 'variation')):
            for fresh, more in (('', ''), ('FRESH_', f'; {FRESH}')):
                answer = read_answer(f'0 {self.numbers[fresh + name]} 7')
                self.assertEqual(explain_answer(answer, 8), [f'the {text} is in force, 0.7 MW in all{more}'])
        self.assertEqual(self.these(*self.after('STANDING_IN_FORCE', 4)), list(records_layout.IN_FORCE))


class RefusalsPage(unittest.TestCase):
    """docs/REFUSALS.md: a row for each number and reason, and its table of gate closure and its date worked out again."""

    def setUp(self):
        self.text = contents(ROOT, 'docs', 'REFUSALS.md').decode()
        self.rows = [[cell.strip() for cell in line.strip('|').split('|')] for line in self.text.splitlines() if line.startswith('| ')]
        self.reasons, self.kinds = self.table('Reason'), self.table('Kind')

    def table(self, head):
        """The rows of the table whose first column has this head."""
        start = next(place for place, row in enumerate(self.rows) if row[0] == head)
        return list(itertools.takewhile(lambda row: row[0][0].isdigit(), self.rows[start + 1:]))

    def test_a_row_for_each(self):
        numbers = [int(row[0]) for row in self.rows if len(row) == 5 and row[0].isdigit()]
        self.assertEqual(numbers, list(range(1, 22)))
        self.assertEqual([int(row[0].split()[0]) for row in self.reasons], list(range(1, 7)))
        self.assertEqual([row[0] for row in self.kinds], [f'{number} {name}' for number, name in KIND_NAMES.items()])

    def test_who_draws_which(self):
        for row in self.rows:
            if len(row) == 5 and row[0].isdigit():
                self.assertEqual('the ' + row[1].replace(', ', ' or ') if row[1] != 'any sender' else row[1], REFUSALS[int(row[0])].drawn_by)

    def test_its_words_are_the_tools(self):
        """What a number means and what to correct."""
        def ascii_of(text):
            for sign, plain in (('\u2264', '<='), ('\u2265', '>='), ('\u00b7', ' '), ('\u00b1', '+-')):
                text = text.replace(sign, plain)
            return text
        for row in self.rows:
            if len(row) == 5 and row[0].isdigit():
                refusal, means = REFUSALS[int(row[0])], ascii_of(row[2])
                self.assertEqual((refusal.means, refusal.correct), (means, ascii_of(row[3])))

    def test_reasons(self):
        texts = [row[0].split(maxsplit=1)[1] for row in self.reasons]
        self.assertEqual([text.replace(' notice', '') for text in REASON_TEXTS[1:]], texts)

    def test_kinds_are_the_tools(self):
        """What each kind may do, in its own table and in the columns of the reasons'."""
        marks = {(0, 1, 2, 3, 4): 'any', (1, 2, 3): 'primary, secondary, contingency', (0,): 'energy'}
        for column, (row, kind) in enumerate(zip(self.kinds, KINDS.values()), 1):
            self.assertEqual(row[2:5], [marks[kind.marks], ', '.join(map(str, kind.reasons)), f'1 to {kind.outage}' if kind.outage else 'none'])
            self.assertEqual(row[5] == 'tested', kind.proportion)
            open_to = [number for number, reason in enumerate(self.reasons, 1) if reason[column] == 'open']
            self.assertEqual((open_to, {reason[column] for reason in self.reasons}), (list(kind.reasons), {'open', 'shut'}))
        self.assertEqual(next(row for row in self.rows if row[0] == 'Reason')[1:4], [name.capitalize() for name in KIND_NAMES.values()])

    def test_its_date(self):
        """The sentence's day, P, weekday and slot, and its options."""
        said = re.search(r'period (\d+) of 16 November 2026 is on day (\d+), P (\d+), and on a (\w+), slot (\d+)\.', self.text)
        of_day, day, period, weekday, slot = said.groups()
        self.assertEqual(int(day), counted_dates().index('2026-11-16'))
        self.assertEqual(records_dates.show_period(int(period)), f'{period} (2026-11-16, {weekday}, period {of_day}, 11:30 to 12:00; day {day}, slot {slot})')
        self.assertIn(f'`--date 2026-11-16 --period {of_day}`', self.text)
        self.assertIn(f'`--period {period}`', self.text)

    def test_gate_closure(self):
        days = ('Mon', 'Tue', 'Wed', 'Thu', 'Fri', 'Sat', 'Sun')

        def at(minute):
            return f'{days[minute // 1440 % 7]} {minute % 1440 // 60:02d}:{minute % 60:02d}'
        rows = [row for row in self.rows if len(row) == 7 and row[0].isdigit()]
        self.assertGreaterEqual(len(rows), 5)
        for row in rows:
            period = int(row[0])
            start = 30 * period
            taken = next(minute for minute in range(0, 100 * 1440, 1440) if period < 48 * (minute // 1440 + 7))
            opened = [minute for minute in range(start) if start - minute >= 65]
            last = f'{opened[-1]} ({at(opened[-1])})' if opened else 'never open'
            closes = opened[-1] + 1 if opened else 0
            self.assertEqual(row[1:], [f'day {start // 1440}, {at(start)}', str(start), str(taken), last, f'{closes} ({at(closes)})', str(start)])


if __name__ == '__main__':
    unittest.main()
