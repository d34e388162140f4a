#!/usr/bin/env python3
"""Works the vectors of xb_bits' and xb_value's operations again, by Python's whole numbers, and compares.

usage: bits_vectors.py [--print]

Each text of tests/dslx/bits_of_another_program.table is a vector: a constant that says of an operation on numbers which number it
gives, or how two numbers compare; each call NAME_are(&rt, alloc, ..) in crates/base_tests/src/flat_words.rt is two widths or a width and
a count, a flat word, and the text of the value in it. It fails where what is wanted is not what the formulas below give. With --print
each vector is printed.
"""
import os
import re
import sys

TOP = os.path.join(os.path.dirname(os.path.abspath(__file__)), '..')
WORDS = os.path.join(TOP, 'crates', 'base_tests', 'src', 'flat_words.rt')
TABLE = os.path.join(TOP, 'tests', 'dslx', 'bits_of_another_program.table')


def signed(width, a):
    return a - (1 << width) if a >> (width - 1) else a


def bits(width, a):
    """The digits of a number, the lowest first."""
    return [a >> k & 1 for k in range(width)]


def zeros(digits):
    """How many of the digits are 0 before the first 1."""
    return digits.index(1) if 1 in digits else len(digits)


def ones(width):
    return (1 << width) - 1


TWO = {
    '+': lambda w, a, b: (a + b) & ones(w),
    '-': lambda w, a, b: (a - b) & ones(w),
    '*': lambda w, a, b: (a * b) & ones(w),
    '/': lambda w, a, b: a // b if b else ones(w),
    '%': lambda w, a, b: a % b if b else 0,
    '&': lambda w, a, b: a & b,
    '|': lambda w, a, b: a | b,
    '^': lambda w, a, b: a ^ b,
}
SHIFTS = {
    '<<': lambda w, a, k: (a << min(k, w)) & ones(w),
    '>>': lambda w, a, k: a >> min(k, w),
}
ONE = {
    '!': lambda w, a: a ^ ones(w),
    '-': lambda w, a: -a & ones(w),
    'clz': lambda w, a: zeros(bits(w, a)[::-1]),
    'ctz': lambda w, a: zeros(bits(w, a)),
    'rev': lambda w, a: int(''.join(map(str, bits(w, a))), 2),
    'and_reduce': lambda w, a: int(all(bits(w, a))),
    'or_reduce': lambda w, a: int(any(bits(w, a))),
    'xor_reduce': lambda w, a: sum(bits(w, a)) % 2,
}


def number(text):
    """A number as the tests write it."""
    text = text.strip().replace('_', '')
    terms = {'MAX': ones(128), 'TOP': 1 << 127}
    return eval(text, {'__builtins__': {}}, terms)  # numbers, MAX, TOP and operators


COMPARED = {'<': lambda a, b: a < b, '<=': lambda a, b: a <= b, '>': lambda a, b: a > b, '>=': lambda a, b: a >= b}
# a number of so many bits
N = r'u(\d+):(0x[0-9a-f]+)'
# each form of a vector, with the width and the number that are wanted last where it is an equation, and what it gives for its numbers
FORMS = [
    (rf'{N} ([-+*/%&|^]) {N}', lambda w, a, op, v, b: (w, TWO[op](w, a, b))),
    (rf'{N} (<<|>>) {N}', lambda w, a, op, v, k: (w, SHIFTS[op](w, a, k))),
    (rf'\({N} as s(\d+) >> {N}\) as u(\d+)', lambda w, a, s, v, k, u: (u, (signed(w, a) >> min(k, w)) & ones(u))),
    (rf'(!|-){N}', lambda op, w, a: (w, ONE[op](w, a))),
    (rf'(clz|ctz|rev)\({N}\)', lambda op, w, a: (w, ONE[op](w, a))),
    (rf'(\w+_reduce)\({N}\)', lambda op, w, a: (1, ONE[op](w, a))),
    (rf'{N} (\+\+) {N}', lambda w, a, op, v, b: (w + v, a << v | b)),
    (rf'{N}\[(\d+):(\d+)\]', lambda w, a, low, high: (high - low, a >> low & ones(high - low))),
    (rf'{N}\[{N} \+: u(\d+)\]', lambda w, a, v, k, u: (u, a >> min(k, w) & ones(u))),
    (rf'{N} as u(\d+)', lambda w, a, u: (u, a & ones(u))),
    (rf'{N} as s(\d+) as u(\d+)', lambda w, a, s, u: (u, signed(w, a) & ones(u))),
    (rf'{N} (<|<=|>|>=) {N}', lambda w, a, op, v, b: COMPARED[op](a, b)),
    (rf'{N} as s(\d+) (<|<=|>|>=) {N} as s(\d+)', lambda w, a, s, op, v, b, t: COMPARED[op](signed(w, a), signed(v, b))),
]


def given(text):
    """An operator or a function, or a number."""
    return int(text, 0) if text[0].isdigit() else text


def holds(vector):
    """Whether a vector is so; False too where it has none of the forms."""
    left, equation, right = vector.partition(' == ')
    for form, works in FORMS:
        found = re.fullmatch(form, left)
        if found:
            got = works(*map(given, found.groups()))
            return got == tuple(map(given, re.fullmatch(N, right).groups())) if equation else got is True
    return False


def number_text(width, value):
    """A number of so many bits, each hexadecimal digit of which is written."""
    return '0x%0*x' % ((width + 3) // 4, value)


def parts(widths, word):
    """The numbers side by side in a word, the first in its high places."""
    texts = []
    for width in reversed(widths):
        texts.insert(0, number_text(width, word & ones(width)))
        word >>= width
    return ', '.join(texts)


FLAT = {
    'halves': lambda high, low, word: '(%s)' % parts([high, low], word),
    'rows': lambda width, count, word: '[%s]' % parts([width] * count, word),
}


def flat_words():
    """How many vectors of flat words there are, and how many are wrong."""
    text = open(WORDS, encoding='utf-8').read()
    count = wrong = 0
    for name, arguments, want in re.findall(r'^    (\w+)_are\(\s*&rt,\s*alloc,([^"]*),\s*"([^"]*)",?\s*\)\?;', text, re.M):
        given = [number(a) for a in arguments.split(',') if a.strip()]
        got = FLAT[name](*given)
        count += 1
        if '--print' in sys.argv:
            print(name, *map(hex, given), '->', got)
        if got != want:
            wrong += 1
            print('%s %s: %s is wanted, %s is worked' % (name, ' '.join(map(hex, given)), want, got))
    return count, wrong


def main():
    count, wrong = flat_words()
    lines = open(TABLE, encoding='utf-8').read().splitlines()
    for vector in [line.removeprefix('const A = ').removesuffix(';') for line in lines if line and not line.startswith('#')]:
        count += 1
        if '--print' in sys.argv:
            print(vector)
        if not holds(vector):
            wrong += 1
            print('%s: that is not what is worked' % vector)
    print('%d vectors, %d wrong' % (count, wrong))
    return 1 if wrong or not count else 0


if __name__ == '__main__':
    sys.exit(main())
