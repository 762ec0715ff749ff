#!/usr/bin/env python3
"""Makes the scripts of this folder, NAME.txt from lists/NAME.py: `make.py SCRIPTS_TEST`, the program that tests/run.sh builds as
target/ctest/scripts_test, which runs the library, the plain book and the list machine and stops where they part.

With `--check` nothing is written: status 1 where a file isn't what would be made.
"""
import argparse
import inspect
import os
import re
import subprocess
import sys

HERE = os.path.dirname(os.path.abspath(__file__))
sys.path.insert(0, HERE)

from lists import (blanks_last, damaged_books, dates, filing_edges, fresh_offers, largest_book, links, next_periods, no_kind,  # noqa: E402
                   openings, proportions, record_tests, sound_books, standing_reasons, taken_back, unusable_books)
from lists.form import Script  # noqa: E402

FILES = {module.__name__.split('.')[-1]: module for module in
         (openings, unusable_books, record_tests, no_kind, proportions, filing_edges, sound_books, taken_back, links, fresh_offers,
          next_periods, standing_reasons, blanks_last, dates, damaged_books, largest_book)}


def script_of(module):
    """Each public function of the module is a list: its name the id, its docstring the sentence."""
    script = Script()
    for name, function in vars(module).items():
        if inspect.isfunction(function) and function.__module__ == module.__name__ and not name.startswith('_'):
            script.list(name.replace('_', '-'), function.__doc__)
            function(script)
    return script


def answered(program, name, script):
    """The script with its answers; it ends the program where the books part, or an answer isn't the one that the list states."""
    questions = '\n'.join(script.lines) + '\n'
    ran = subprocess.run([program, '--answers'], input=questions, capture_output=True, text=True)
    if ran.returncode != 0:
        sys.exit(f'{name}: the books part, or a line is wrong:\n{ran.stderr}')
    lines = ran.stdout.splitlines()
    assert len(lines) == len(script.lines)
    wrong = []
    for place, (question, line, stated) in enumerate(zip(script.lines, lines, script.stated), 1):
        assert line.startswith(question)
        answer = line[len(question) + 1:]
        if stated is not None and not re.fullmatch(stated, answer):
            wrong.append(f'{name}.txt:{place}: stated {stated}, answered {answer}')
    for places in script.equal.values():
        if len({lines[place] for place in places}) > 1:
            wrong.append(f"{name}.txt: stated to be the same: lines {', '.join(str(place + 1) for place in places)}")
    if wrong:
        sys.exit('\n'.join(wrong[:20]))
    return ran.stdout


def main():
    parser = argparse.ArgumentParser(description=__doc__.split('\n')[0])
    parser.add_argument('program', help='scripts_test')
    parser.add_argument('--check', action='store_true')
    arguments = parser.parse_args()
    ids, differs = [], []
    for name, module in FILES.items():
        script = script_of(module)
        ids += script.ids
        text = answered(arguments.program, name, script)
        path = os.path.join(HERE, name + '.txt')
        if arguments.check:
            with open(path, encoding='ascii') as file:
                if file.read() != text:
                    differs.append(name)
        else:
            with open(path, 'w', encoding='ascii') as file:
                file.write(text)
    assert len(ids) == len(set(ids)), 'an id of two lists'
    if differs:
        sys.exit('not as made: ' + ', '.join(differs))


if __name__ == '__main__':
    main()
