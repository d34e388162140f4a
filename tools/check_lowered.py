#!/usr/bin/env python3
"""Runs the lowered and the optimised package of each design that is run, and compares what they come to with what the design does.

    tools/check_lowered.py PROGRAM [FILE ..]

Designs are those of tests/ and of examples/ that are run with success, and those of the lists of cases FILE, one a line in JSON. Of each:
`ir` and `opt` write a package; a run of either writes, byte by byte, what is wanted of the design's run (for examples/ the file that stands there);
`opt` of the package that `ir` wrote is what `opt` of the design writes; and `schedule` and `verilog` of the design are those of its optimised package.
Prints each call that answers otherwise, and ends with 1 if there is one.
"""

import json
import os
import shutil
import subprocess
import sys
import tempfile
from pathlib import Path

from designs import ACTIVATIONS

TOP = Path(__file__).resolve().parent.parent
CLOCKS = ('100000', '900')


def runs_of_tests():
    """The runs of designs in tests/ that end with 0: a folder, the words, and the output that is wanted."""
    for path in sorted([*TOP.glob('tests/*/*.args'), *TOP.glob('tests/*/*.calls')]):
        if path.with_suffix('.status').exists() or not path.with_suffix('.out').exists():
            continue
        text = path.read_text()
        for words in [text.split('\n')[:-1]] if path.suffix == '.args' else [line.split() for line in text.splitlines()]:
            if words[:1] == ['run'] and '--from' not in words and words[1].endswith('.x') and not any(word[:1] == '@' or '=' in word for word in words):
                yield path.parent, words, path.with_suffix('.out').read_bytes()


def runs_of_examples():
    """The runs of the designs in examples/, each with its inputs and its output beside it."""
    for path in sorted(TOP.glob('examples/*/*.x')):
        given, wanted = path.with_suffix('.in'), path.with_suffix('.out')
        if given.exists() and wanted.exists():
            yield path.parent, ['run', path.name, given.name, '--activations', str(ACTIVATIONS)], wanted.read_bytes()


def runs_of_cases(path, folder):
    """The runs of a list of cases, whose files are put into a folder of their own."""
    for k, line in enumerate(path.read_text().splitlines()):
        case = json.loads(line)
        words = case['words']
        if words[:1] == ['run'] and '--from' not in words and case['status'] == 0:
            own = folder / str(k)
            own.mkdir()
            for name, text in case['files'].items():
                (own / name).write_text(text)
            yield own, words, case['out'].encode()


def option(words, name):
    return words[words.index(name):words.index(name) + 2] if name in words else []


def answer(program, folder, words):
    ran = subprocess.run([program, *words], cwd=folder, capture_output=True, timeout=120)
    return ran.returncode, ran.stdout, ran.stderr


def faults_of(program, folder, words, wanted, scratch):
    """What is wrong with the packages of the design of one run."""
    design, top = words[1], option(words, '--top')
    rest = [word for word in words[2:] if word not in top]
    packages = {}
    for command in ('ir', 'opt'):
        status, text, error = answer(program, folder, [command, design, *top])
        if status:
            yield f'{command} ends with {status}: {error.decode(errors="replace").strip()}'
            return
        packages[command] = scratch / f'{command}.ir'
        packages[command].write_bytes(text)
        if answer(program, folder, ['run', '--from', 'ir', str(packages[command]), *rest]) != (0, wanted, b''):
            yield f'the run of what {command} writes comes to something else'
    if answer(program, folder, ['opt', str(packages['ir']), '--from', 'ir']) != (0, packages['opt'].read_bytes(), b''):
        yield 'opt of what ir writes is something else than opt of the design'
    for clock in CLOCKS:
        own = answer(program, folder, ['schedule', design, *top, '--clock', clock])
        read = answer(program, folder, ['schedule', str(packages['opt']), '--clock', clock, '--from', 'ir'])
        if own != read:
            yield f'schedule at {clock} is something else than that of what opt writes'
        own = answer(program, folder, ['verilog', design, *top, '--clock', clock])
        read = answer(program, folder, ['verilog', str(packages['opt']), '--clock', clock, '--from', 'ir'])
        if own[:2] != read[:2]:
            yield f'verilog at {clock} is something else than that of what opt writes'


def main():
    program, files = os.path.abspath(sys.argv[1]), [Path(it).resolve() for it in sys.argv[2:]]
    scratch, tried, wrong = Path(tempfile.mkdtemp()), 0, 0
    try:
        runs = [*runs_of_tests(), *runs_of_examples()]
        for k, path in enumerate(files):
            folder = scratch / f'cases{k}'
            folder.mkdir()
            runs += runs_of_cases(path, folder)
        for folder, words, wanted in runs:
            tried += 1
            for fault in faults_of(program, folder, words, wanted, scratch):
                wrong += 1
                print(f'{folder}: {" ".join(words)}: {fault}')
    finally:
        shutil.rmtree(scratch)
    print(f'{tried} runs, {wrong} answers wrong')
    return 1 if wrong or not tried else 0


if __name__ == '__main__':
    sys.exit(main())
