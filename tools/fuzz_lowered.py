#!/usr/bin/env python3
"""Compares runs of random designs with runs of the packages that `ir` and `opt` write of them.

    tools/fuzz_lowered.py PROGRAM COUNT SEED

The designs are the well-formed texts of tools/fuzz_rules.py that `check` accepts; their inputs hold random words of the types that the package
declares. Prints each design of which a package does something else, at the end how many were tried, and ends with 1 if there is one.
"""

import random
import re
import shutil
import sys
import tempfile
from pathlib import Path

from check_lowered import answer, faults_of
from fuzz_rules import Maker

INPUT = re.compile(r'^chan (\w+)\((.*), id=\d+, kind=input', re.M)
ACTIVATIONS = '3'


def parts_of(text):
    """The parts between the outermost commas of the inside of a tuple type."""
    parts, depth, last = [], 0, ''
    for char in text:
        depth += (char in '([') - (char in ')]')
        if char == ',' and depth == 0:
            parts.append(last.strip())
            last = ''
        else:
            last += char
    return parts + [last.strip()] if last.strip() else parts


def word_of(rng, type_text):
    """A random word of a type as IR writes it."""
    array = re.fullmatch(r'(.*)\[(\d+)\]', type_text)
    if array and array[1] != 'bits':
        return '[' + ', '.join(word_of(rng, array[1]) for _ in range(int(array[2]))) + ']'
    if array:
        return hex(rng.choice((0, 1, rng.getrandbits(int(array[2])), 2 ** int(array[2]) - 1)))
    return '(' + ', '.join(word_of(rng, part) for part in parts_of(type_text[1:-1])) + ')'


def inputs_of(rng, package):
    """A file with some words for each input of a package."""
    lines = []
    for name, type_text in INPUT.findall(package):
        lines += ['chan ' + name, *[word_of(rng, type_text) for _ in range(rng.randint(0, 5))]]
    return ''.join(line + '\n' for line in lines)


def main():
    program, count, rng = sys.argv[1], int(sys.argv[2]), random.Random(int(sys.argv[3]))
    folder, tried, wrong, refused = Path(tempfile.mkdtemp()), 0, 0, 0
    try:
        while tried < count:
            (folder / 'f.x').write_text(Maker(rng, wild=False).module())
            if answer(program, folder, ['check', 'f.x'])[0]:
                refused += 1
                continue
            tried += 1
            package = answer(program, folder, ['ir', 'f.x'])[1].decode()
            (folder / 'in.txt').write_text(inputs_of(rng, package))
            words = ['run', 'f.x', 'in.txt', '--activations', ACTIVATIONS]
            status, wanted, error = answer(program, folder, words)
            found = [f'the run ends with {status}: {error.decode()}'] if status else [*faults_of(program, folder, words, wanted, folder)]
            if found:
                wrong += 1
                print((folder / 'f.x').read_text(), *found, sep='\n')
    finally:
        shutil.rmtree(folder)
    print(f'{tried} designs, {refused} more refused, {wrong} of which a package does something else')
    return 1 if wrong or not tried else 0


if __name__ == '__main__':
    sys.exit(main())
