#!/usr/bin/env python3
"""Counts the places of docs/DESIGN-PASS.md in the Rattle sources: python3 tools/design_places.py [-v] [COMMIT]

Each point has the patterns by which its places are found; -v lists the places. With a commit, that commit's sources are read.
A pattern finds forms, not faults: what it finds stands on the page as changed, or as kept with its reason.
"""
import re
import subprocess
import sys
from collections import defaultdict

TYPES = r'(?:u8|u16|u32|u64|usize|i8|i16|i32|i64)'

# Point: (what is counted, pattern over a line of code without its comment)
LINES = {
    1: [
        ('a number that says a refusal or none', re.compile(r'\) -> (?:u8|u32)\b')),
        ('a number constant for a kind, a service or a refusal', re.compile(r'^\s*pub const [A-Z_]+: u(?:8|32) = \d+;')),
        ('an own enum of the shape of Option', re.compile(r'^\s*(?:Nothing|None|Nil|Empty),$')),
        ('a number or flag field beside a value', re.compile(r'^\s*(?:pub )?(?:number: u\d+|\w+: bool),$')),
    ],
    3: [
        ('a for over a range of indices', re.compile(r'\bfor \w+ in [^{]*\.\.')),
        ('a while', re.compile(r'\bwhile\b')),
    ],
    4: [
        ('a cast', re.compile(rf'\bas {TYPES}\b')),
        ('a comparison of the fields of a newtype', re.compile(r'\w\.0 (?:==|<|<=) |(?:==|<|<=) \w+(?:\.\w+)*\.0\b')),
        ('a struct or enum without derives', re.compile(r'^\s*pub (?:struct|enum)|^(?:struct|enum)')),
        ('a function that is a conversion or a comparison of the library', re.compile(r'\bfn (?:wide|long|nat|counted|less|smaller|is_equal|is_zero|same_price|copy_words|size_of|join_\w+|signed_from|half_at|four_at)\b')),
    ],
    6: [
        ('a place in a buffer lent beside it', re.compile(r'\bfn \w+.*&mut \[\w+\], at: usize')),
        ('an index into the words kept for later', re.compile(r'\((?:usize)\),$')),
    ],
    7: [
        ('a match whose arms call functions', re.compile(r'^\s*(?:\d+|[\w:]+(?:\(\w*\))?) => (?:return )?[\w:]+\((?!\))')),
    ],
}


def sources(commit):
    if commit:
        names = subprocess.run(['git', 'ls-tree', '-r', '--name-only', commit, 'crates'], check=True, capture_output=True, text=True).stdout.split()
        for name in sorted(n for n in names if re.fullmatch(r'crates/\w+/src/.*\.rt', n)):
            yield name, subprocess.run(['git', 'show', f'{commit}:{name}'], check=True, capture_output=True, text=True).stdout
    else:
        names = subprocess.run(['git', 'ls-files', '-co', '--exclude-standard', 'crates'], check=True, capture_output=True, text=True).stdout.split()
        for name in sorted(n for n in names if re.fullmatch(r'crates/\w+/src/.*\.rt', n)):
            with open(name, encoding='utf-8') as f:
                yield name, f.read()


def code(line):
    """A line without its comment."""
    return line.split('//')[0].rstrip()


def functions(name, text):
    """(file, line, name, signature, clauses, body) of each function."""
    lines = text.split('\n')
    i = 0
    while i < len(lines):
        m = re.match(r'^(\s*)(?:pub(?:\([a-z]+\))? )?(?:const )?(?:extern "C" )?fn (\w+)', lines[i])
        if not m:
            i += 1
            continue
        indent, start, head = m.group(1), i, []
        while not (lines[i].strip() == '{' or code(lines[i]).endswith('{') and not re.search(r'(requires|ensures)\b.*\{$', lines[i])) and not lines[i].startswith(indent + '}'):
            head.append(code(lines[i]))
            i += 1
        head.append(code(lines[i]).rstrip('{'))
        body = []
        i += 1
        while i < len(lines) and lines[i] != indent + '}':
            body.append(code(lines[i]))
            i += 1
        signature = ' '.join(h.strip() for h in head if not re.match(r'\s*(requires|ensures)\b', h))
        clauses = [h.strip() for h in head if re.match(r'\s*(requires|ensures)\b', h)]
        yield name, start + 1, m.group(2), signature, clauses, '\n'.join(body)


def shape(text):
    """A body with its names, numbers and types taken out, where it is long enough to tell."""
    out = re.sub(r'\b[a-zA-Z_]\w*\b', 'x', text)
    out = re.sub(r'\b\d\w*\b', '0', out)
    out = re.sub(r'(?:x::)+x', 'x', out)
    return re.sub(r'\s+', ' ', out).strip()


def places(commit):
    found = defaultdict(list)
    all_functions = []
    for name, text in sources(commit):
        crate = name.split('/')[1]
        lines = text.split('\n')
        in_type = False
        for n, line in enumerate(lines, 1):
            c = code(line)
            if re.match(r'\s*(?:pub )?(?:struct|enum)\b', c):
                in_type = c.endswith('{')
            elif re.match(r'\s*}', c):
                in_type = False
            if re.match(r'\s*(requires|ensures|ghost)\b', c):
                continue
            for point, kinds in LINES.items():
                for what, pattern in kinds:
                    if not pattern.search(c):
                        continue
                    if what == 'a number or flag field beside a value' and not in_type:
                        continue
                    if what == 'a struct or enum without derives' and re.match(r'\s*#\[derive', lines[n - 2]):
                        continue
                    found[point, what].append(f'{name}:{n}: {c.strip()}')
        all_functions += list(functions(name, text))

    # 1: flags and numbers among the parameters
    for f in all_functions:
        for flag in re.findall(r'\b\w+: bool\b|\bnumber: u(?:8|32)\b', f[3]):
            found[1, 'a flag or number parameter'].append(f'{f[0]}:{f[1]}: {f[2]} {flag}')

    # 2: bodies of one shape, of the same crate or not
    by_shape = defaultdict(list)
    for f in all_functions:
        by_shape[re.sub(r'\bx\b(?=:)', 'x', shape(f[3].split('fn ')[1])) + ' | ' + shape(f[5])].append(f)
    for group in by_shape.values():
        if len(group) > 1:
            found[2, 'functions of one shape'] += [f'{g[0]}:{g[1]}: {g[2]}' for g in group]

    # 5: facts in three contracts or more, parameters in three signatures or more
    facts = defaultdict(list)
    groups = defaultdict(list)
    alone = defaultdict(int)
    for f in all_functions:
        crate = f[0].split('/')[1]
        said = set()
        for clause in f[4]:
            m = re.match(r'requires\b[^{]*\{ (.*) \}$', clause)
            if m:
                for fact in m.group(1).split(' × '):
                    said.add(re.sub(r'\b(?:self|\w+)\.(now|old|new)\b', r'_.\1', fact.strip().strip('()')))
        for fact in said:
            facts[crate, fact].append(f)
        names = re.findall(r'(\w+): ', f[3])
        for name in names:
            alone[crate, name] += 1
        for a in range(len(names)):
            for b in range(a + 1, len(names)):
                groups[crate, names[a], names[b]].append(f)
    for (crate, fact), fs in facts.items():
        if len(fs) >= 3:
            found[5, 'a fact in three contracts or more'].append(f'{crate}: {fact} ({len(fs)})')
    # always: wherever the rarer of the two stands
    for (crate, a, b), fs in groups.items():
        if len(fs) >= 3 and len(fs) == min(alone[crate, a], alone[crate, b]):
            found[5, 'two parameters that always stand together, in three signatures or more'].append(f'{crate}: {a}, {b} ({len(fs)})')
    return found


def proofs(commit):
    """Answers, lemmas and lines of the proofs, of all crates with code."""
    pattern = r'crates/(\w+)/proofs/.*\.antt'
    if commit:
        names = subprocess.run(['git', 'ls-tree', '-r', '--name-only', commit, 'crates'], check=True, capture_output=True, text=True).stdout.split()
    else:
        names = subprocess.run(['git', 'ls-files', '-co', '--exclude-standard', 'crates'], check=True, capture_output=True, text=True).stdout.split()
    with_code = {n.split('/')[1] for n in names if re.fullmatch(r'crates/\w+/src/.*\.rt', n)} - {'offer_rules', 'book_rules', 'cases', 'calendar_rules'}
    answers = lemmas = lines = 0
    for name in names:
        m = re.fullmatch(pattern, name)
        if not m or m.group(1) not in with_code:
            continue
        text = subprocess.run(['git', 'show', f'{commit}:{name}'], check=True, capture_output=True, text=True).stdout if commit else open(name, encoding='utf-8').read()
        lines += text.count('\n')
        heads = len(re.findall(r'^\s*(?:abbrev |unfoldable )?(?:pub )?[^\s:()]+ :[ \n]', text, re.M))
        if name.endswith(('/Answers.antt', '/Invariants.antt')):
            answers += heads
        else:
            lemmas += heads
    return answers, lemmas, lines


def main():
    args = [a for a in sys.argv[1:] if a != '-v']
    found = places(args[0] if args else None)
    for (point, what), where in sorted(found.items()):
        print(f'{point} {what}: {len(where)}')
        if '-v' in sys.argv:
            for w in where:
                print(f'    {w}')
    print('8 answers and invariants: %d, lemmas: %d, lines of proof: %d' % proofs(args[0] if args else None))


if __name__ == '__main__':
    main()
