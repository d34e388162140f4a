#!/usr/bin/env python3
"""Runs the built program on the cases of tests/, side by side on all processors.

    tools/run_tests.py PROGRAM [GROUP | GROUP/NAME ..]

Status, standard output and standard error must be exactly those of the case; tests/README.md says how a case looks. Prints the
first differences, 'N passed, M failed' and how many calls these made, and ends with 1 where a case failed or there was none.
"""

import concurrent.futures
import glob
import os
import subprocess
import sys
import tempfile

TESTS = os.path.join(os.path.dirname(os.path.dirname(os.path.abspath(__file__))), 'tests')
SHOWN = 10
LONGEST = 600
SECONDS = 120


class Case:
    """The calls of a case, and what each of them must answer: its output, its error text and its status."""

    def __init__(self, path):
        self.folder = os.path.dirname(path)
        self.base, kind = os.path.splitext(path)
        self.name = os.path.relpath(self.base, TESTS)
        lines = self.text(kind).decode().splitlines()
        self.calls = [lines] if kind == '.args' else [line.split() for line in lines]
        self.wanted = self.text('.out'), self.text('.err'), int(self.text('.status') or 0)
        self.rows = self.base + '.rows' if os.path.exists(self.base + '.rows') else None
        self.table = self.base + '.table' if os.path.exists(self.base + '.table') else None

    def text(self, kind):
        """The bytes of this file of the case; nothing where it has no such file."""
        path = self.base + kind
        if not os.path.exists(path):
            return b''
        with open(path, 'rb') as file:
            return file.read()

    def answer(self, program, words):
        """What a call answers; of a module that it writes, where the case has rows, what that shows over them."""
        got = answer(program, words, self.folder)
        if not self.rows or got[1:] != (b'', 0):
            return got
        with tempfile.NamedTemporaryFile(suffix='.v') as module:
            module.write(got[0])
            module.flush()
            return answer(program, ['sim', module.name, self.rows], self.folder)

    def texts(self):
        """The texts of the table, each with what its call must answer."""
        found = []
        for line in self.text('.table').decode().splitlines():
            if line.startswith('    '):
                found[-1][1].append(line[4:] + '\n')
            elif line and not line.startswith('# '):
                found.append((line, []))
        return [(text, self.wanted_below(''.join(below).encode())) for text, below in found]

    def wanted_below(self, below):
        """What is wanted of a text below which this stands."""
        out, err, status = self.wanted
        return (out, err, status) if not below else (out, below, status) if status else (below, err, status)

    def asked(self):
        """Each call with the text that it is about, if it has one, and with what it must answer."""
        if self.table:
            return [(words, text, wanted) for words in self.calls for text, wanted in self.texts()]
        return [(words, None, self.wanted) for words in self.calls]

    def answer_about(self, program, words, text):
        """What a call answers about a text in its frame, without the name of that file."""
        with tempfile.NamedTemporaryFile('w', suffix='.x', encoding='utf-8') as file:
            file.write(framed(self.folder, words, text))
            file.flush()
            out, err, status = answer(program, [file.name if word.startswith('@') else word for word in words], self.folder)
            return out, err.removeprefix(file.name.encode() + b': '), status

    def difference(self, program):
        """The first call that answers otherwise, with what it answers; None where none does."""
        asked = self.asked()
        for words, text, wanted in asked:
            got = self.answer(program, words) if text is None else self.answer_about(program, words, text)
            if got != wanted:
                return '%s: %s\n  got    %s\n  wanted %s' % (self.name, text or ' '.join(words), shown(got), shown(wanted))
        return None if asked else '%s: no call' % self.name


def framed(folder, words, text):
    """The text in its frame: the file behind the `@` of a word, where it stands in place of the `@` there; `@` alone is none."""
    (frame,) = [word[1:] for word in words if word.startswith('@')]
    if not frame:
        return text
    with open(os.path.join(folder, frame), encoding='utf-8') as file:
        return file.read().replace('@', text, 1)


def shown(given):
    out, err, status = given
    return ('%d %r %r' % (status, err, out))[:LONGEST]


def answer(program, words, folder):
    """What the program answers in that folder."""
    try:
        done = subprocess.run([program, *words], cwd=folder, stdin=subprocess.DEVNULL, capture_output=True, check=False,
                              timeout=SECONDS)
    except subprocess.TimeoutExpired:
        return b'', b'no answer', -1
    return done.stdout, done.stderr, done.returncode


def files(*kinds):
    return sorted(path for kind in kinds for path in glob.glob(os.path.join(TESTS, '*', '*' + kind)))


def cases(names=()):
    """The cases of these groups, or with these names; all where none is named."""
    found = [Case(path) for path in files('.args', '.calls')]
    return [case for case in found if not names or case.name in names or os.path.dirname(case.name) in names]


def strays():
    """What is wanted of a case that isn't there."""
    bases = {case.base for case in cases()}
    return [path for path in files('.out', '.err', '.status', '.rows', '.table') if os.path.splitext(path)[0] not in bases]


def case_of(name):
    """The case GROUP/NAME."""
    (found,) = cases([name])
    return found


def contents(name):
    """The text of a file of tests/."""
    with open(os.path.join(TESTS, name), encoding='utf-8') as file:
        return file.read()


def main():
    program, found = os.path.abspath(sys.argv[1]), cases(sys.argv[2:])
    with concurrent.futures.ThreadPoolExecutor(os.cpu_count()) as workers:
        differences = [said for said in workers.map(lambda case: case.difference(program), found) if said]
    differences += ['%s: no such case' % os.path.relpath(path, TESTS) for path in strays()]
    for said in differences[:SHOWN]:
        print(said)
    calls = sum(len(case.asked()) for case in found)
    print('%d passed, %d failed, %d calls' % (max(0, len(found) - len(differences)), len(differences), calls))
    sys.exit(bool(differences) or not found)


if __name__ == '__main__':
    main()
