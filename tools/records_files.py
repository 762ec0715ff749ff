"""Files of records and of answers: records as bytes or as lines of hex digits, answers as lines; within bounds, and never torn or mixed."""
import os
import re

from records_amounts import BadArgument
from records_answers import read_answer
from records_layout import LENGTH, MARK
from records_streams import BadStream, name_of_input, read_ends, read_input, write_file

# Every cell of the largest book, 64 * 5 * 2 * 336, filed once, and more. A line of hex digits has two line ends at most.
MOST_RECORDS = 250_000
MOST_RECORD_BYTES = (2 * LENGTH + 2) * MOST_RECORDS
MOST_ANSWER_BYTES = 320 * MOST_RECORDS


def is_hex(data):
    """Lines of hex digits, as --hex writes them: no record of version 1 starts with six digits."""
    return re.match(rb'\s*([0-9A-Fa-f]{2}\s*){3}', data) is not None


def has_mark(start, as_hex):
    """Whether a file that starts so starts with a record; hex digits are known to be such."""
    return (bytes.fromhex(b''.join(start.split())[:6].decode()) if as_hex else start).startswith(MARK)


def append_records(name, data, as_hex):
    """A record after a torn one, bytes after hex digits, or either after other text, would never be read as such."""
    length = os.path.getsize(name) if os.path.isfile(name) else 0
    if length:
        start, end = read_ends(name, 64)
        if as_hex and not is_hex(start):
            raise BadArgument(f'{name} does not hold lines of hex digits: nothing is added (leave out --hex if it holds records)')
        if as_hex and not end.endswith(b'\n'):
            raise BadArgument(f'{name} ends inside a line: nothing is added')
        if not as_hex and is_hex(start):
            raise BadArgument(f'{name} holds lines of hex digits: nothing is added (--hex adds to it)')
        if not as_hex and length % LENGTH:
            raise BadArgument(f'{name} has {length} bytes, not whole records of {LENGTH}: nothing is added')
        if not has_mark(start, as_hex):
            raise BadArgument(f'{name} does not start with a record: nothing is added')
    write_file(name, data, 'ab')


def hex_bytes(text, what):
    try:
        return bytes.fromhex(text)
    except ValueError:
        raise BadArgument(f'{what}: not pairs of hex digits') from None


def split_records(data, whole, what):
    """Records one after another, or a line of hex digits each; `whole` is one of any length."""
    if not is_hex(data):
        return [data] if whole else [data[start:start + LENGTH] for start in range(0, len(data), LENGTH)]
    text = data.decode('ascii', 'replace')
    if whole:
        return [hex_bytes(text, what)]
    return [hex_bytes(line, f'{what}, line {number}') for number, line in enumerate(text.split('\n'), 1) if line.strip()]


def read_records(name, whole):
    records = split_records(read_input(name, MOST_RECORD_BYTES, 'records'), whole, name_of_input(name))
    if len(records) > MOST_RECORDS:
        raise BadStream(f'{name_of_input(name)} has no end, or is no file of records: more than {MOST_RECORDS} records')
    return records


def read_answers(name, count):
    """One for each of so many records, as it stands and as read."""
    lines = read_input(name, MOST_ANSWER_BYTES, 'answers').decode('ascii', 'replace').split('\n')
    lines = lines[:-1] if lines[-1] == '' else lines
    if len(lines) != count:
        raise BadArgument(f'{name_of_input(name)} has {len(lines)} answers, and there are {count} records')
    answers = []
    for number, line in enumerate(lines, 1):
        try:
            answers.append((' '.join(line.split()), read_answer(line)))
        except BadArgument as error:
            raise BadArgument(f'{name_of_input(name)}, line {number}: {error}') from None
    return answers
