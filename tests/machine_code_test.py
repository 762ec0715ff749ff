#!/usr/bin/env python3
"""Reads the machine code of a slot's next period as built for C: "work it out by remainder arithmetic alone, with no if, match or
loop in that step". Every instruction of it is one of a few that read no flags, nor memory but fixed places of the stack, so none of them jumps or chooses.

The function for C is read whole; in the call, into which it is compiled, the run from the division by 30, over the remainder by 336, to
the gate's comparison of minutes. The reader is tried on C functions that give the same periods: those that decide otherwise must be refused.
Argument: the static library; or `--with-if` and an archive whose function decides by an `if`. Last line: 'N passed, M failed'."""
import collections
import ctypes
import os
import re
import shutil
import subprocess
import sys

OUT = os.path.join(os.path.dirname(os.path.dirname(os.path.abspath(__file__))), 'target', 'ctest', 'machine_code')

Instruction = collections.namedtuple('Instruction', 'address name operands')

# Not sar, cdq and `and`, which make a mask of a sign; nor div, which a remainder by a constant doesn't take.
PLAIN = set('mov movabs lea add sub inc dec neg mul imul shl shr xor nop endbr64 ret'.split())


def is_plain(code, at):
    name, operands = code[at].name, code[at].operands
    if name == 'shr':
        return is_of_a_quotient(code, at)
    # The compiler keeps registers on the stack; half of one is its sign, and where a register picks the place it may be a table of answers.
    if name == 'mov':
        operands = re.sub(r'\bQWORD PTR \[rsp([+-]0x[0-9a-f]*[08])?\]', '', operands)
    if name == 'add':  # of one that is read, not added to
        operands = re.sub(r',QWORD PTR \[rsp([+-]0x[0-9a-f]*[08])?\]$', '', operands)
    return name in PLAIN and (name in ('lea', 'nop') or not re.search(r'\[|PTR|[c-gs]s:', operands))


def is_of_a_quotient(code, at):
    """Of a shift to the right: by half a register's bits or more it leaves the signs of a difference, which is a comparison with 0,
    but for the upper part of a product, which is a quotient; by all but one it leaves a sign in any case."""
    to, _, by = code[at].operands.rpartition(',')
    bits = 64 if re.fullmatch(r'r([a-z]{2}|\d+)', to) else 32 if re.fullmatch(r'e[a-z]{2}|r\d+d', to) else 0
    if not re.fullmatch(r'\d+|0x[0-9a-f]+', by) or int(by, 0) >= bits - 1:
        return False
    before = [i for i in code[:at] if re.match(to + r'\b', i.operands) or to == 'rdx' and i.name == 'mul']
    return int(by, 0) < bits // 2 or bool(before) and before[-1].name in ('imul', 'mul')


def refused(code):
    return [f'{i.address:x}: {i.name} {i.operands}' for at, i in enumerate(code) if not is_plain(code, at)]


def objdump(path, *options):
    environment = dict(os.environ, LC_ALL='C')
    return subprocess.run(['objdump', '-w', *options, path], check=True, capture_output=True, text=True, env=environment).stdout.splitlines()


def functions(path):
    """Instructions by function, of an object or an archive whose functions have each a section of its own."""
    found, code = {}, []
    for line in objdump(path, '-d', '-M', 'intel', '--no-show-raw-insn'):
        start = re.fullmatch(r'[0-9a-f]+ <(.+)>:', line)
        instruction = re.fullmatch(r' *([0-9a-f]+):\t(\S+) *(.*?)', line)
        if start:
            code = found.setdefault(start[1], [])
        elif instruction:
            code.append(Instruction(int(instruction[1], 16), instruction[2], instruction[3].strip()))
    return found


def jumped_to(path, function, code):
    """Where a jump within the function may end: those that name their place, and the entries of its jump tables. An entry is relative
    to its table's start, which the code names."""
    places = {int(i.operands.split()[0], 16) for i in code if re.fullmatch(r'[0-9a-f]+ <.*>', i.operands)}
    section, starts, entries = '', [], []
    for line in objdump(path, '-r'):
        section = line[len('RELOCATION RECORDS FOR ['):-2] if line.startswith('RELOCATION') else section
        entry = re.fullmatch(r'([0-9a-f]+) \S+ +(\S+?)([+-]0x[0-9a-f]+)?', line)
        if entry and section == '.text.' + function and entry[2] == '.rodata.' + function:
            starts.append(int(entry[3] or '0', 16) + 4)
        elif entry and section == '.rodata.' + function and entry[2] == '.text.' + function:
            entries.append((int(entry[1], 16), int(entry[3] or '0', 16)))
    tables = sum(i.name == 'jmp' and '<' not in i.operands for i in code)
    assert len(starts) >= tables and bool(entries) == bool(tables), 'a jump table that this reader does not find'
    return places | {to - at + max(start for start in starts if start <= at) for at, to in entries}


passed = failed = 0


def check(ok, what, *said):
    global passed, failed
    passed, failed = passed + bool(ok), failed + (not ok)
    if not ok:
        print('not so: ' + what, *said, sep='\n  ')


# ---- the library

# Divisions by 30 and by 336 are multiplications by these; 336 times the second quotient is then taken off.
BY_30, BY_336, WEEK = hex(2**36 // 30 + 1), hex(2**64 // 336 + 1), hex(336)


def has(instruction, constant):
    return instruction.operands.split(',')[-1] == constant


def steps(code):
    """Runs from the start of a division by 30, over the remainder by 336 that follows it, to the next comparison or the end."""
    for i, instruction in enumerate(code):
        if has(instruction, BY_336):
            first = max((k for k in range(i) if has(code[k], BY_30)), default=None)
            product = next((k for k in range(i, len(code)) if code[k].name == 'imul' and has(code[k], WEEK)), None)
            end = next((k for k in range(product or len(code), len(code)) if code[k].name in ('cmp', 'ret')), None)
            if first is not None and end is not None:
                yield code[first:end]


def test_function(code):
    check([i.name for i in code if i.name == 'ret'] == ['ret'] and code[-1].name == 'ret', 'bilzhaan_next_period is one run that ends in its only ret')
    check(len(list(steps(code))) == 1, 'bilzhaan_next_period divides by 30 and takes the remainder by 336')
    check(not refused(code), 'bilzhaan_next_period has plain arithmetic alone', *refused(code))


def test_call(library, code):
    runs = list(steps(code))
    check(len(runs) == 1, f'the step is found once in bilzhaan_call, and not {len(runs)} times')
    places = jumped_to(library, 'bilzhaan_call', code)
    check(places <= {i.address for i in code}, 'each place that bilzhaan_call jumps to is an instruction')
    for run in runs:
        after = run[max(k for k, i in enumerate(run) if has(i, WEEK)):]
        check(any(has(i, '0x5') and i.name == 'shl' or has(i, '0x1e') for i in after), 'the step in bilzhaan_call is read up to the start of its period')
        check(not refused(run), 'the step in bilzhaan_call has plain arithmetic alone', *refused(run))
        entered = [hex(place) for place in sorted(places) if run[0].address < place <= run[-1].address]
        check(not entered, 'nothing jumps into the step in bilzhaan_call', *entered)


# ---- the reader

AHEAD = 'uint32_t first = minute / 30 + 1; int32_t ahead = (int32_t)slot - (int32_t)(first % 336); '
ACCEPTED = {
    'one_remainder': 'uint64_t first = minute / 30 + 1; return (uint32_t)(first + (slot + 335 * first) % 336);',
    'a_slot_kept': 'volatile uint64_t kept = slot; uint64_t read = kept, first = minute / 30 + 1; __asm__("" : "+r"(read)); return (uint32_t)(first + (read + 335 * first) % 336);',
}
REFUSED = {
    'an_if': AHEAD + 'if (ahead < 0) ahead += 336; return first + (uint32_t)ahead;',
    'a_choice': AHEAD + 'return first + (uint32_t)(ahead < 0 ? ahead + 336 : ahead);',
    'a_switch': AHEAD + 'switch (ahead >> 31) { case 0: return first + (uint32_t)ahead; default: return first + (uint32_t)ahead + 336; }',
    'a_loop': 'uint32_t next = slot; while (30 * next <= minute) next += 336; return next;',
    'a_comparison': AHEAD + 'return first + (uint32_t)(ahead + 336 * (ahead < 0));',
    'a_comparison_of_64_bits': AHEAD + 'int64_t wide = ahead; return (uint32_t)(first + wide + 336 * (wide < 0));',
    'a_sum_compared': 'uint32_t first = minute / 30 + 1, sum = slot + 336 - first % 336; return first + sum - 336 * (sum >= 336);',
    'a_mask': AHEAD + 'return first + (uint32_t)(ahead + (336 & ahead >> 31));',
    'a_sign': AHEAD + 'return first + (uint32_t)ahead + 336 * ((uint32_t)ahead >> 31);',
    'a_table': AHEAD + 'static const uint32_t weeks[2] = {336, 0}; return first + (uint32_t)ahead + weeks[1 + (ahead >> 31)];',
    'a_table_on_the_stack': AHEAD + 'uint32_t weeks[2] = {336, 0}; __asm__("" : "+m"(weeks)); return first + (uint32_t)ahead + weeks[(uint32_t)(ahead + 336) / 336];',
    'a_half_on_the_stack': 'uint64_t first = minute / 30 + 1; volatile union { uint64_t whole; uint32_t half[2]; } ahead; ahead.whole = slot - first % 336; return (uint32_t)(first + ahead.whole) - 336 * ahead.half[1];',
    'a_half_by_a_shift': 'uint64_t first = minute / 30 + 1, ahead = slot - first % 336; return (uint32_t)(first + ahead) - 336 * (uint32_t)(ahead >> 32);',
    'a_division': 'uint64_t first = minute / 30 + 1, week = 336; __asm__("" : "+r"(week)); return (uint32_t)(first + (slot + 335 * first) % week);',
}


def compiled(compiler, level):
    """The functions above: their instructions, and the library to call them in."""
    base = os.path.join(OUT, compiler + level)
    with open(base + '.c', 'w') as file:
        file.write('#include <stdint.h>\n')
        for name, body in {**ACCEPTED, **REFUSED}.items():
            file.write(f'uint32_t {name}(uint32_t minute, uint32_t slot) {{ {body} }}\n')
    subprocess.run([compiler, level, '-fPIC', '-ffunction-sections', '-c', base + '.c', '-o', base + '.o'], check=True)
    subprocess.run([compiler, '-shared', base + '.o', '-o', base + '.so'], check=True)
    return functions(base + '.o'), ctypes.CDLL(base + '.so')


def gives_periods(function):
    minutes = [0, 1, 29, 30, 119, 120, 10049, 10050, 10079, 10080, 10081, 499999979, 499999980, 10**9]
    return all(30 * period > minute >= 30 * (period - 336) and period % 336 == slot
               for minute in minutes for slot in (0, 1, 4, 117, 118, 334, 335) for period in [function(minute, slot)])


def test_reader():
    for compiler in filter(shutil.which, ('gcc', 'clang')):
        for level in ('-O1', '-O2', '-O3'):
            code, library = compiled(compiler, level)
            for name in {**ACCEPTED, **REFUSED}:
                check(gives_periods(library[name]), f'{name} by {compiler} {level} gives the periods')
            for name in ACCEPTED:
                check(not refused(code[name]), f'{name} by {compiler} {level} is accepted', *refused(code[name]))
            for name in REFUSED:
                check(refused(code[name]), f'{name} by {compiler} {level} is refused')


def test_with_if(archive):
    linked = os.path.join(OUT, 'with_if.so')
    subprocess.run(['gcc', '-shared', '-Wl,--whole-archive', archive, '-Wl,--no-whole-archive', '-o', linked], check=True)
    check(gives_periods(ctypes.CDLL(linked)['bilzhaan_next_period']), 'the function with an `if` gives the periods')
    check(refused(functions(archive)['bilzhaan_next_period']), 'the function with an `if` is refused')


def main():
    with_if = sys.argv[1:2] == ['--with-if']
    if len(sys.argv) != 2 + with_if:
        sys.exit('usage: tests/machine_code_test.py LIBRARY.a, or --with-if ARCHIVE.a')
    os.makedirs(OUT, exist_ok=True)
    if with_if:
        test_with_if(sys.argv[2])
    else:
        code = functions(sys.argv[1])
        test_function(code.get('bilzhaan_next_period', []))
        test_call(sys.argv[1], code.get('bilzhaan_call', []))
        test_reader()
    print(f'{passed} passed, {failed} failed')
    sys.exit(failed != 0)


if __name__ == '__main__':
    main()
