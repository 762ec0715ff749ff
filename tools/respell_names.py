#!/usr/bin/env python3
"""Brings the names of this repository's own definitions and lemmas to snake case: `is-excepted` is `is_excepted`, `eqZ` is `eq_z`.

usage: tools/respell_names.py [--dry]     once, at the top of a checkout, after port.py

A name is the repository's own where one of its .antt files declares it: a definition, a lemma, a record's field, a parameter. Names that a file imports from the
kit stay, as do goals and steps that the prover names. Of Rattle sources clauses alone are turned; of texts, names in backquotes; of must-fail edits the lines
'old:' and 'new:', names in backquotes and those that 'Fails:' lists. What port.py respells in sources but not in edits and texts is respelled here too.
"""
import collections
import os
import re
import sys

WORD = re.compile(r"[^\W\d][\w'ℤℕ]*(?:-[\w'ℤℕ]+)*")
HEAD = r"(?:(?:pub|abbrev|unfoldable|data|record|module|where|let|open)\s+)*"
DECLARED = re.compile(r"^\s*" + HEAD + r"((?:[^\W\d][\w'ℤℕ-]*\s+)*[^\W\d][\w'ℤℕ-]*)\s*:(?!=)", re.M)
BOUND = re.compile(r"[({]((?:[^\W\d][\w'ℤℕ-]*\s+)*[^\W\d][\w'ℤℕ-]*)\s*:(?!=)")
LAMBDA = re.compile(r"λ\s+([^.()]*)\.")
IMPORT = re.compile(r"^use\s+([\w.+'◌-]+)\.\{([^}]*)\}", re.M)
FUNCTION = re.compile(r"/proofs/(?!Lib)[+a-z_0-9]+/")
# What port.py respelled because a library spells it so.
PORTED = """
abs-neg add-at add-total after-is after-same and-left and-right apart-from at-after at-key at-least at-other at-place at-same below-power both-say by-4 by-kind
cast-fits cell-in clear-spec copied-all copy-more count-less count-same differ-new down-fits each-fits end-is end-of enum-told equal-words fill-more first-of
found-at found-back found-from found-in four-bytes from-first from-one from-start held-at held-back in-order is-call is-empty-spec is-open is-right kind-row
left-after length-before length-digits lent-back less-none line-of look-up mul-at mul-words no-call no-more no-number no-other no-other-count no-row none-after
none-before none-left none-other none-out none-yet not-call number-digits number-is number-of number-same numbers-more numbers-of one-key one-more one-set one-
word-more open-spec opening-of or-else or-left or-right or-same out-of-range own-held pairs-first pairs-of part-apart place-inside place-is quotient-fits rest-
in room-in row-of run-more run-of run-spec same-length same-word set-more signed-decimal size-of slot-is slot-of so-far split-at start-of sum-back sum-fits sum-
is sum-less sum-more sum-of sum-same there-and-back to-end to-last toNat too-short turned-down up-fits width-of with-byte word-at word-back word-bytes word-kept
word-of-part words-are words-more words-of write-cell written-all leZ ltZ
""".split()


def files(endings, folder="crates"):
    for at, inner, names in os.walk(folder):
        inner[:] = sorted(x for x in inner if x not in ("out", ".git", "target"))
        for name in sorted(names):
            if name.endswith(endings):
                yield os.path.join(at, name)


def read(path):
    with open(path, encoding="utf-8") as f:
        return f.read()


def snake(name):
    name = re.sub(r"(?<=[a-z0-9])([A-Z])", lambda m: "_" + m.group(1).lower(), name.replace("-", "_"))
    return re.sub(r"(?<=_)([A-Z])(?![A-Za-z])", lambda m: m.group(1).lower(), name)


def without_comments(text):
    return re.sub(r"--.*", "", text)


def own_names():
    own, foreign = set(), collections.defaultdict(set)
    for path in files(".antt"):
        text = without_comments(read(path))
        for at, names in IMPORT.findall(text):
            if not at.startswith("Rattle.") or at.startswith(("Rattle.std", "Rattle.core")):
                for name in names.split(","):
                    foreign[name.split(" as ")[0].strip()].add(path)
        for pattern in (DECLARED, BOUND, LAMBDA):
            for names in pattern.findall(text):
                own |= set(names.split())
    return {n for n in own if re.match(r"[a-z]", n) and snake(n) != n}, foreign


def respelled(text, names):
    return WORD.sub(lambda m: names.get(m.group(0), m.group(0)), text)


def in_backquotes(text, names):
    return re.sub(r"`[^`\n]+`", lambda m: respelled(m.group(0), names), text)


def turn_antt(text, names):
    lines = []
    for line in text.split("\n"):
        code, dashes, comment = line.partition("--")
        lines.append(respelled(code, names) + dashes + in_backquotes(comment, names))
    return "\n".join(lines)


def turn_rt(text, names):
    lines = []
    for line in text.split("\n"):
        code, slashes, comment = line.partition("//")
        if '"' not in code:
            code = respelled(code, {k: v for k, v in names.items() if k in code})
        lines.append(code + slashes + in_backquotes(comment, names))
    return "\n".join(lines)


def turn_edit(text, names):
    lines = []
    for line in text.split("\n"):
        if line.startswith(("old:", "new:")):
            line = re.sub(r"\((\w+) \.([\w-]+)\)", r"\1.\2", respelled(line, names))
            line = re.sub(r"_([-+*/%<≤≡∷&|]+)_", r"◌\1◌", line)
        elif line.startswith("Fails:"):
            line = respelled(line, names)
        else:
            line = in_backquotes(line, names)
        lines.append(line)
    return "\n".join(lines)


def main():
    dry = "--dry" in sys.argv
    own, foreign = own_names()
    names = {n: snake(n) for n in own if n not in foreign}
    together = collections.defaultdict(list)
    for old, new in names.items():
        together[new].append(old)
    for new, olds in sorted(together.items()):
        if len(olds) > 1:
            print("fall together:", new, olds)
    print("imported from the kit somewhere, so kept:", sorted(n for n in own if n in foreign))
    used = set()
    for path in files(".antt"):
        used |= set(WORD.findall(without_comments(read(path))))
    print("in use already:", sorted(old for old, new in names.items() if new in used))
    everywhere = dict({n: snake(n) for n in PORTED}, getD="get_or", **names)
    turns = [(p, turn_antt, names) for p in files(".antt")] + [(p, turn_rt, names) for p in files(".rt")] + [(p, turn_edit, everywhere) for p in files(".edit")]
    turns += [(p, in_backquotes, everywhere) for p in files(".md", "docs")] + [("README.md", in_backquotes, everywhere)]
    turned = 0
    for path, turn, to in turns:
        old = read(path)
        new = turn(old, to)
        if new != old:
            turned += 1
            if not dry:
                with open(path, "w", encoding="utf-8") as f:
                    f.write(new)
    print(f"{len(names)} names, {turned} files")


if __name__ == "__main__":
    main()
