"""Files and standard streams, read within bounds and written whole. What is closed, full or endless ends the run with one line.
'-' is standard input where something is read, standard output where something is written."""
import errno
import os
import stat
import sys
from itertools import islice


class BadStream(Exception):
    """One line on a file or a stream that could not be read or written."""


def why(error):
    return error.strerror or str(error)


def not_yet():
    return BlockingIOError(errno.EAGAIN, os.strerror(errno.EAGAIN))


def is_terminal(stream):
    return stream is not None and stream.isatty()


def forget(stream):
    """What is left unwritten in a stream that failed must not fail once more at exit."""
    try:
        os.dup2(os.open(os.devnull, os.O_WRONLY), stream.fileno())
    except OSError:
        pass


# ---- reading

def name_of_input(name):
    return 'standard input' if name == '-' else name


def does_wait(stream):
    """False for a stream that says that it has nothing yet, rather than wait."""
    try:
        return os.get_blocking(stream.fileno())
    except OSError:
        return True


def read_up_to(stream, most):
    """A stream that does not wait has ended only when it says so."""
    data = b''
    while True:
        part = stream.read(most - len(data))
        if part is None:
            raise not_yet()
        data += part
        if not part or len(data) == most or does_wait(stream):
            return data


def read_input(name, most, what):
    """All bytes of a file, or of standard input; more than `most` are never read."""
    try:
        if name != '-':
            with open(name, 'rb') as file:
                data = read_up_to(file, most + 1)
        elif sys.stdin is None:
            raise BadStream('standard input is closed')
        else:
            data = read_up_to(sys.stdin.buffer, most + 1)
    except OSError as error:
        raise BadStream(f'{name_of_input(name)}: {why(error)}') from None
    if len(data) > most:
        raise BadStream(f'{name_of_input(name)} has no end, or is no file of {what}: more than {most} bytes')
    return data


def read_ends(name, most):
    """The first and the last bytes of a file."""
    try:
        with open(name, 'rb') as file:
            start = file.read(most)
            file.seek(-len(start), os.SEEK_END)
            return start, file.read(most)
    except OSError as error:
        raise BadStream(f'{name}: {why(error)}') from None


# ---- writing

def put(write, data):
    """All of it, also where a write takes only a part, as it does unbuffered."""
    left = memoryview(data)
    while left:
        taken = write(left)
        if taken is None:
            raise not_yet()
        left = left[taken:]


def write_output(chunks):
    """Standard output takes every chunk, or the run says that it did not."""
    if sys.stdout is None:
        raise BadStream('standard output is closed')
    try:
        for chunk in chunks:
            put(sys.stdout.buffer.write, chunk)
        sys.stdout.buffer.flush()
    except OSError as error:
        forget(sys.stdout)
        raise BadStream(f'standard output: {why(error)}') from None


def write_lines(lines):
    """Many lines a write."""
    lines = iter(lines)
    write_output(''.join(f'{line}\n' for line in part).encode() for part in iter(lambda: list(islice(lines, 500)), []))


def write_whole(number, data):
    """All of it into an open file; after a failure a regular file has the length that it had."""
    status = os.fstat(number)
    try:
        put(lambda part: os.write(number, part), data)
    except OSError:
        if stat.S_ISREG(status.st_mode):
            os.ftruncate(number, status.st_size)
        raise


def write_file(name, data, mode):
    """Mode 'wb' replaces the file, 'ab' adds to it."""
    try:
        with open(name, mode, buffering=0) as file:
            write_whole(file.fileno(), data)
    except OSError as error:
        raise BadStream(f'{name}: {why(error)}') from None


def one_line(text):
    """No line ends or controls, and of a very long text its two ends."""
    if len(text) > 1000:
        text = f'{text[:700]} .. {text[-200:]}'
    return ''.join(c if c.isprintable() else c.encode('unicode_escape').decode() for c in text)


def complain(text):
    """The one line on standard error, where there is one."""
    if sys.stderr is None:
        return
    try:
        sys.stderr.write(one_line(text) + '\n')
        sys.stderr.flush()
    except OSError:
        forget(sys.stderr)
