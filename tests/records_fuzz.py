"""Random command lines, random and damaged files, and closed, full, endless and abandoned streams for tools/records.py.
A case fails on a traceback, on more or less than one line of complaint, on a file changed in vain, on status 0 where output was lost, and on an
offer made unasked with a blank before a filled pair.
Arguments: seconds (10), seed (1), and the number of one case to run it alone. Last line: 'N passed, M failed'."""
import collections
import contextlib
import io
import os
import random
import resource
import subprocess
import sys
import tempfile
import time

HERE = os.path.dirname(os.path.abspath(__file__))
TOOL = os.path.join(os.path.dirname(HERE), 'tools', 'records.py')
sys.dont_write_bytecode = True
sys.path.insert(0, os.path.dirname(TOOL))

import records  # noqa: E402
from records_arguments import COMMANDS  # noqa: E402
from records_files import is_hex  # noqa: E402
from records_layout import LENGTH, SERVICES, build, read  # noqa: E402

# One case in so many is a process of its own, with streams of its own.
STREAMS_EVERY = 20

JUNK = (
    '', '-', '--', '-1', '-50@40', '-1.5MW/min', '-1/00:00', '0', '1', '2', '4', '64', '255', '256', '336', '1000000001', '2147483648', 'x', '9' * 29, '9' * 5000,
    '0' * 50 + '1', '1e3', '1.', '.5', '1@', '@1', '1@1,', '1@1@1', ',', '=', '%', 'MW', '1.5MW', '0.05MW', '62.5%', 'Mon/02:00', '1/24:00', '//',
    '2026-11-16', '2026-1-6', '2025-02-29', '2100-01-01', '2026-11-16/11:30', '\u0662\u0660\u0662\u0666-11-16',
    '\n', 'a\nb', '\r', '\t', '\x1b[1m', '\udcff', '\u0663', '\u00e9', '%s', '{}', 'a b', 'then', '-h', '--help', '--hex', '--out', '--answer', '--strict',
    '--anyway', '--take-back', '--no-such', 'explain', 'clock', '/no/such/file', '/dev/null', '/dev/full', '.', 'ff' * 112, '534f42')
DATES = ('2024-01-01', '2024-02-29', '2026-11-16', '2099-12-31', '2025-02-29', '2100-01-01')
VALUES = {
    '--facility': ('0', '1', '63', '64', '255'), '--service': ('energy', 'primary', 'regulation', '0', '3', '4'),
    '--period': ('1', '4', '24', '48', '49', '340', '7/02:00', '2026-11-16/11:30', '33333647', '0'), '--slot': ('0', '4', '335', 'Mon/02:00', 'sun/23:30', '336'),
    '--minute': ('0', '5', '1440', '1/00:00', '2026-11-16/11:40', '1000000000', '-1'), '--periods': ('1', '3', '48', '49'),
    '--first': ('0', '4', '1/00:00'), '--last': ('4', '48', '40000000', '2026-11-16/11:30'),
    '--date': DATES, '--last-date': DATES, '--weekday': ('Mon', 'sun', 'Monday'),
    '--kind': ('generation', 'load', 'link', '1', '2', '3', '4', 'surplus', 'shortfall', 'status', '5'),
    '--registered': ('energy', 'primary,secondary', '0,1,2,3,4', '3'),
    '--max-generation': ('1300', '130.0MW', '100000'), '--max-combined': ('800', '80MW'), '--max-ramp-up': ('15', '1.5MW/min', '1000.0MW'),
    '--max-primary-proportion': ('500', '62.5%', '1001'), '--reason': ('0', '6', 'shortfall', 'none', '7'), '--proportion': ('1', '1000', '62.5%', '65536'),
    '--ramp-up': ('0', '15', '1.5MW', '10000'), '--ramp-down': ('0', '20', '2MW/min'),
    '--pairs': ('500@4000,200@5000', '0@0', '0@0,0@0', '1@-1,0@0,5@9', '0@0,5@9', '1@-1,5@9,0@0', '1@9,0@0,5@-1', '1@-1,0@4,5@9', '-5@1', '1@2,1@2'),
    '--mw': ('50.0@40.00,20.0@50.00', '50.0@40.00,0@0,20.0@50.00', '50.0@40.00,0.0@0.00', '0.1@-0.01', '-50@40', '9999.9@4500'),
    '--call': ('look-up', 'total', 'clock', '3', '9', '77'), '--facilities': ('1', '64', '0', '65'), '--services': ('1', '5', '2'),
}
MORE = {
    'capability': ('--max-generation', '--max-combined', '--max-ramp-up', '--max-primary-proportion', '--registered'), 'withdrawal': ('--kind',),
    'standing': ('--reason', '--proportion', '--ramp-up', '--ramp-down', '--mw'),
    'variation': ('--reason', '--proportion', '--ramp-up', '--ramp-down', '--mw', '--date'), 'notice': ('--date', '--last-date'),
    'look-up': ('--date',), 'total': ('--date',),
}
NEEDED = {'capability': ('--kind',), 'notice': ('--kind',), 'standing': ('--pairs',), 'variation': ('--pairs',)}
SLOTS = (('--slot',), ('--date', '--period'), ('--weekday', '--period'))

SAMPLE = records.sample()
LOST = ('closed', 'full', 'gone', 'read-only', 'small')
SMALL = 100
UNREADABLE = ('closed', 'endless', 'write-only')


class Case:
    """One command line with its files and standard input, all drawn from the seed and the case's number."""

    def __init__(self, seed, number):
        self.chance = random.Random(f'{seed}/{number}')
        self.files = {}
        self.input = self.records()
        self.words = self.command()

    def one_in(self, many):
        return self.chance.randrange(many) == 0

    # ---- files

    def damaged(self, data):
        data = bytearray(data)
        for _ in range(self.chance.randint(1, 30)):
            if data:
                data[self.chance.randrange(len(data))] = self.chance.choice((0, 1, 9, 255, self.chance.randrange(256)))
        return bytes(data)

    def offer(self):
        """Blank and filled pairs in any order, here and there with a price on a blank or more pairs than the service uses."""
        pairs = [self.chance.choice(((0, 0), (0, 0), (100 * place, 5), (100 * place, 5), (100, 0))) for place in range(self.chance.randint(0, 10))]
        return build(self.chance.choice((3, 4)), service=self.chance.choice((0, 0, 1, 4)), period=4, words=[word for pair in pairs for word in pair])

    def records(self):
        """Bytes that may be records, in one form or the other."""
        data = SAMPLE[:LENGTH * self.chance.randint(0, 9)]
        data += b''.join(self.offer() for _ in range(self.chance.choice((0, 0, 1, 3))))
        if self.one_in(2):
            data = self.damaged(data)
        if self.one_in(6):
            data = data[:self.chance.randint(0, len(data))]
        if self.one_in(8):
            data = bytes(self.chance.randrange(256) for _ in range(self.chance.randint(0, 300)))
        if self.one_in(3):
            ends = (b'\n', b'\n', b'\n', b'\r\n', b' ', b'')
            data = b''.join(data[n:n + LENGTH].hex().encode() + self.chance.choice(ends) for n in range(0, len(data), LENGTH))
            data = self.damaged(data) if self.one_in(4) else data
        return data

    def answers(self):
        def answer():
            number, first = self.chance.choice((0, 0, self.chance.randint(0, 21))), self.chance.choice((0, 1, 2, 3, 4, 5, -1))
            total = self.chance.choice((0, 700, -5, 10**10))
            middle = [self.chance.choice((0, 0, 500, 2**31 - 1)) for _ in range(23)] if self.one_in(3) else []
            return ' '.join(map(str, [number, first if number == 0 or self.one_in(5) else 0, *middle, total if number == 0 else 0]))
        lines = [answer() if not self.one_in(60) else self.chance.choice(JUNK) for _ in range(self.chance.choice((0, 1, 9, 9, 9)))]
        return '\n'.join(lines).encode('utf-8', 'surrogateescape') + self.chance.choice((b'\n', b'\n', b''))

    def file(self, data):
        name = f'file{len(self.files)}'
        self.files[name] = data
        return name

    # ---- words

    def value(self, option):
        if self.one_in(12):
            return self.chance.choice(JUNK)
        text = self.chance.choice(VALUES[option])
        if self.one_in(15):
            place = self.chance.randint(0, len(text))
            text = text[:place] + self.chance.choice(('0', '9', '-', '.', '@', ',', '/', ' ', 'M', '\n')) + text[place + self.chance.randint(0, 1):]
        return text

    def output_words(self):
        words = ['--hex'] if self.one_in(3) else []
        if self.one_in(3):
            option = self.chance.choice(('--out', '--append'))
            words += [option, self.chance.choice(('-', '', 'new', '/dev/full', '/dev/null', self.file(self.records()), self.file(self.records())))]
        return words + (['--terminal'] if self.one_in(9) else [])

    def offer_words(self):
        """An offer that is sound but for blanks before filled pairs."""
        pairs = ','.join(self.chance.choice(('0@0', f'5@{place}')) for place in range(self.chance.randint(1, 5)))
        where = self.chance.choice((['standing', '--slot', '4'], ['variation', '--period', '4']))
        return [*where, '--facility', '0', '--service', self.chance.choice(SERVICES), self.chance.choice(('--pairs', '--mw')), pairs]

    def call_words(self):
        if self.one_in(8):
            return self.offer_words() + (['--anyway'] if self.one_in(3) else []) + (self.output_words() if self.one_in(2) else [])
        name = self.chance.choice((*COMMANDS, 'sample'))
        if name == 'sample':
            return [name, *self.output_words()]
        options = [*COMMANDS[name][1], *NEEDED.get(name, ()), *(option for option in MORE.get(name, ()) if self.one_in(4))]
        options += self.chance.choice(SLOTS) if name == 'standing' else ()
        words = [name]
        for option in options:
            words += [option, self.value(option)]
        return words + (['--anyway'] if self.one_in(2) else []) + (self.output_words() if self.one_in(2) else [])

    def explain_words(self):
        words = ['explain']
        source = self.chance.randrange(9)
        if source == 0:
            words += ['--answer', *self.chance.choice(('0 0 0', '17 0 0', '0 1 700', '0 3 700', '0 4 0', '0 2' + ' 5' * 24, '9 9', '-1 0 0', '0 -1 0', '0 0 ' + '9' * 29)).split()]
            words += ['--call', self.value('--call')] if self.one_in(2) else []
            words += ['--damaged'] if self.one_in(3) else []
        elif source == 1:
            words += ['--record', self.chance.choice((SAMPLE[:LENGTH].hex(), self.damaged(SAMPLE[LENGTH:2 * LENGTH]).hex(), '', '5', '534f42', 'x'))]
        elif source == 2:
            words += self.chance.choice(([''], ['nothing'], ['.'], ['/dev/null']))
        elif source == 3:
            words += ['--period', self.value('--period'), *(['--date', self.value('--date')] if self.one_in(2) else [])]
            return words if self.one_in(2) else words + self.chance.choice((['--strict'], ['file'], ['--answer', '0', '0', '0']))
        elif source <= 5:
            words += self.chance.choice(([], ['-']))
        else:
            words.append(self.file(SAMPLE if self.one_in(2) else self.records()))
        words += ['--answers', self.chance.choice(('-', '', self.file(self.answers()), self.file(self.answers())))] if self.one_in(2) else []
        for option in ('--facilities', '--services'):
            words += [option, self.value(option)] if self.one_in(4) else []
        return words + [option for option in ('--brief', '--strict', '--whole') if self.one_in(4)]

    def command(self):
        if self.one_in(40):
            words = [self.chance.choice((*COMMANDS, 'explain', '--help', '')), self.chance.choice(('--help', '-h'))]
        elif self.one_in(2):
            words = self.explain_words()
        else:
            words = self.call_words()
            while self.one_in(4):
                words += ['then', *self.call_words()]
        if self.one_in(6):
            place = self.chance.randint(0, len(words))
            words[place:place + self.chance.randint(0, 1)] = [self.chance.choice(JUNK)] * self.chance.randint(0, 2)
        return words

    # ---- running

    def write_files(self):
        for name in os.listdir('.'):
            os.unlink(name)
        for name, data in self.files.items():
            with open(name, 'wb') as file:
                file.write(data)

    def run_inside(self):
        """Status, output, complaint, and whether standard input was asked for."""
        self.write_files()
        source = io.BytesIO(self.input)
        output, errors = io.TextIOWrapper(io.BytesIO(), encoding='utf-8'), io.StringIO()
        before, sys.stdin = sys.stdin, io.TextIOWrapper(Asked(source), encoding='utf-8')
        try:
            with contextlib.redirect_stdout(output), contextlib.redirect_stderr(errors):
                status = records.main(list(self.words))
            return status, output.buffer.getvalue(), errors.getvalue(), sys.stdin.buffer.asked
        finally:
            sys.stdin = before


class Asked(io.BufferedReader):
    asked = False

    def __init__(self, source):
        super().__init__(source)

    def read(self, size=-1):
        self.asked = True
        return super().read(size)


# ---- judging

def complaint_fault(status, errors):
    if 'Traceback' in errors:
        return 'a traceback'
    if status not in (0, 1, 2):
        return f'status {status}'
    if status == 0:
        return 'status 0 and a complaint' if errors else ''
    right = errors.startswith('records.py') and errors.endswith('\n') and errors.count('\n') == 1
    return '' if right else f'not one line of complaint: {errors[:200]!r}'


def output_fault(words, status, output):
    """What is written is whole: records, lines of 224 digits, or lines of plain text."""
    if status == 2:
        return 'output beside status 2' if output else ''
    if words[0] == 'explain' or '--help' in words or '-h' in words:
        return '' if output.endswith(b'\n') and output.isascii() else 'an explanation that is no text'
    if is_hex(output):
        if not output.endswith(b'\n') or any(len(line) != 2 * LENGTH for line in output.decode().split('\n')[:-1]):
            return 'torn lines'
        output = bytes.fromhex(output.decode())
    return 'torn records' if len(output) % LENGTH else blanks_fault(words, output)


def blanks_fault(words, data):
    """Filled pairs come first, unless --anyway is given."""
    for r in (read(data[start:start + LENGTH]) for start in range(0, len(data), LENGTH)):
        filled = [quantity != 0 for quantity in r.words[1::2]]
        if r.call in (3, 4) and '--anyway' not in words and filled != sorted(filled, reverse=True):
            return 'a blank before a filled pair'
    return ''


def files_fault(case, status):
    """After a refusal every file is as it was; after an addition it starts as it did."""
    for name, data in case.files.items():
        with open(name, 'rb') as file:
            held = file.read()
        if held != data and (status == 2 or ('--out' not in case.words and not held.startswith(data))):
            return f'{name} is changed'
        added = held[len(data):] if '--append' in case.words and held.startswith(data) else b''
        if added and data and is_hex(added) != is_hex(data):
            return f'{name} is of two forms'
        if added and len(held) % LENGTH and not is_hex(added):
            return f'{name} is torn'
    return 'a file is left behind' if status == 2 and set(os.listdir('.')) - set(case.files) else ''


def inside_fault(case, seen):
    status, output, errors, _ = case.run_inside()
    seen[f'status {status}'] += 1
    return complaint_fault(status, errors) or output_fault(case.words, status, output) or files_fault(case, status)


# ---- streams of a process

class Opened:
    """The standard streams of one run, by name; 'closed' ones are closed in the process itself."""

    def __init__(self, case, names):
        self.names, self.numbers = names, {}
        self.small = tempfile.TemporaryFile()
        self.data = tempfile.TemporaryFile()
        self.data.write(case.input)
        self.data.flush()
        self.data.seek(0)

    def number(self, stream):
        name = self.names[stream]
        if stream == 0 and name == 'data':
            return self.data.fileno()
        if name == 'small':
            return os.dup(self.small.fileno())
        if name == 'gone':
            reader, writer = os.pipe()
            os.close(reader)
            return writer
        paths = {'closed': (os.devnull, os.O_RDWR), 'full': ('/dev/full', os.O_WRONLY), 'read-only': (os.devnull, os.O_RDONLY),
                 'write-only': (os.devnull, os.O_WRONLY), 'endless': ('/dev/zero', os.O_RDONLY)}
        return os.open(*paths[name]) if name in paths else subprocess.PIPE

    def run(self, words, unbuffered):
        numbers = [self.number(stream) for stream in range(3)]

        def prepare():
            if self.names[1] == 'small':
                resource.setrlimit(resource.RLIMIT_FSIZE, (SMALL, SMALL))
            for stream in range(3):
                if self.names[stream] == 'closed':
                    os.close(stream)
        try:
            return subprocess.run([sys.executable, TOOL, *words], stdin=numbers[0], stdout=numbers[1], stderr=numbers[2], preexec_fn=prepare,
                                  env={**os.environ, 'PYTHONUNBUFFERED': unbuffered}, timeout=120, check=False)
        finally:
            self.data.close()
            self.small.close()
            for number in numbers[1:] + ([numbers[0]] if self.names[0] != 'data' else []):
                if number >= 0:
                    os.close(number)


def stream_fault(case, seen):
    """The same as inside where no stream that it needs fails; else status 2 and one line."""
    status, output, _, asked = case.run_inside()
    while not output and not asked and not case.one_in(20):
        case.words = case.command()
        status, output, _, asked = case.run_inside()
    bad_input = case.one_in(2 if asked else 10)
    names = [case.chance.choice(UNREADABLE) if bad_input else 'data', 'pipe' if bad_input and asked else case.chance.choice(('pipe', *LOST)),
             case.chance.choice(('pipe', 'pipe', 'pipe', 'closed', 'full'))]
    if names[1] == 'small' and len(output) <= SMALL:
        names[1] = 'pipe'
    lost = (asked and names[0] in UNREADABLE) or (bool(output) and names[1] in LOST)
    case.write_files()
    done = Opened(case, names).run(case.words, case.chance.choice(('', '1')))
    said = done.stderr.decode(errors='replace') if names[2] == 'pipe' else None
    seen['runs with something lost' if lost else 'runs with nothing lost'] += 1
    place = f'streams {names}: '
    if lost and done.returncode != 2:
        return f'{place}status {done.returncode} where something was lost'
    if not lost and done.returncode != status:
        return f'{place}status {done.returncode}, and {status} elsewhere'
    if names[1] == 'pipe' and done.stdout != (b'' if lost else output):
        return f'{place}other output than elsewhere'
    if said is not None:
        return place + complaint_fault(done.returncode, said) if complaint_fault(done.returncode, said) else ''
    return ''


# ---- the run

def fault_of(seed, number, seen):
    case = Case(seed, number)
    try:
        fault = stream_fault(case, seen) if number % STREAMS_EVERY == 0 else inside_fault(case, seen)
    except (Exception, SystemExit) as error:  # pylint: disable=broad-except
        fault = f'{type(error).__name__}: {error}'
    return f'case {number} of seed {seed}: {case.words}: {fault}' if fault else ''


def main(arguments):
    seconds, seed = float(arguments[0]) if arguments else 10, int(arguments[1]) if len(arguments) > 1 else 1
    numbers = [int(arguments[2])] if len(arguments) > 2 else range(10**9)
    end, passed, failed, seen = time.monotonic() + seconds, 0, 0, collections.Counter()
    with tempfile.TemporaryDirectory() as folder:
        before = os.getcwd()
        os.chdir(folder)
        for number in numbers:
            if time.monotonic() > end:
                break
            fault = fault_of(seed, number, seen)
            passed, failed = passed + (not fault), failed + bool(fault)
            if fault and failed <= 10:
                print(fault.encode('ascii', 'backslashreplace').decode())
        os.chdir(before)
    print(', '.join(f'{many} {what}' for what, many in sorted(seen.items())))
    print(f'{passed} passed, {failed} failed')
    return 1 if failed or not passed else 0


if __name__ == '__main__':
    sys.exit(main(sys.argv[1:]))
