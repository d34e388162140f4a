#!/usr/bin/env python3
"""Works constant expressions of DSLX by Python's whole numbers, as texts of a case of tests/dslx.

usage: const_vectors.py [--write]

Each text of tests/dslx/constants_of_another_program.table is one whose last item is a constant that is to be true: an
expression, made at random of the constructs below, is to equal the number that is worked here. Numbers are kept as what they
are, negative ones too, and not as words: a value is brought into its type's range where one is made. It fails where the file
has other rows; with --write it writes them.
"""
import os
import sys

FILE = os.path.join(os.path.dirname(os.path.abspath(__file__)), '..', 'tests', 'dslx', 'constants_of_another_program.table')
ROWS = 8
WIDTHS = (1, 2, 3, 7, 8, 9, 31, 32, 33, 63, 64, 65, 127, 128)
HEAD = ('fn more<N: u32>(x: uN[N]) -> uN[N] { x + uN[N]:1 } fn wider<N: u32, M: u32 = {N + u32:1}>(x: uN[N]) -> uN[M] { (x as uN[M]) + (x as uN[M]) } '
        'fn at<K: u32>(a: u8[K], i: u8) -> u8 { a[i] } ')


class Dice:
    """Numbers at random, the same ones on each machine."""

    def __init__(self, seed):
        self.state = seed

    def below(self, most):
        self.state = (self.state * 6364136223846793005 + 1442695040888963407) % 2 ** 64
        return (self.state >> 24) % most

    def of(self, things):
        return things[self.below(len(things))]


def ranged(signed, width, number):
    """The number of that type that is the same modulo 2^width."""
    number %= 1 << width
    return number - (1 << width) if signed and number >> (width - 1) else number


def digits(width, number):
    """The binary digits of a number, the highest first."""
    return format(number % (1 << width), '0%db' % width)


def type_text(signed, width):
    return '%s%d' % ('s' if signed else 'u', width)


def number_text(signed, width, number):
    return '%s:%d' % (type_text(signed, width), number)


class Maker:
    """Expressions with their values. Each method that is named for a construct gives both, for a type that is wanted."""

    def __init__(self, dice):
        self.dice = dice
        self.names = []
        self.count = 0

    def width(self):
        return self.dice.of(WIDTHS)

    def literal(self, signed, width):
        edges = (0, 1, (1 << width) - 1, 1 << (width - 1), (1 << (width - 1)) - 1, self.dice.below(1 << min(width, 40)))
        number = ranged(signed, width, self.dice.of(edges))
        return number_text(signed, width, number), number

    def value(self, signed, width, depth):
        known = [name for name in self.names if name[1:3] == (signed, width)]
        if known and self.dice.below(2):
            name = self.dice.of(known)
            return name[0], name[3]
        if depth == 0:
            return self.literal(signed, width)
        made = [self.sum, self.prefix, self.logic, self.shift, self.cast, self.choice, self.block, self.match, self.loop]
        made += [] if signed else [self.quotient, self.part, self.slice, self.counted]
        made += [self.joined] if not signed and width > 1 else []
        made += [self.compared, self.reduced, self.both] if (signed, width) == (False, 1) else []
        made += [self.element, self.call_at] if (signed, width) == (False, 8) else []
        made += [self.call] if not signed else []
        return self.dice.of(made)(signed, width, depth - 1)

    def two(self, signed, width, depth):
        (a, x), (b, y) = self.value(signed, width, depth), self.value(signed, width, depth)
        return '(%s)' % a, '(%s)' % b, x, y

    def sum(self, signed, width, depth):
        a, b, x, y = self.two(signed, width, depth)
        op, number = self.dice.of((('+', x + y), ('-', x - y), ('*', x * y)))
        return '%s %s %s' % (a, op, b), ranged(signed, width, number)

    def logic(self, signed, width, depth):
        a, b, x, y = self.two(signed, width, depth)
        op, number = self.dice.of((('&', x & y), ('|', x | y), ('^', x ^ y)))
        return '%s %s %s' % (a, op, b), ranged(signed, width, number)

    def prefix(self, signed, width, depth):
        a, x = self.value(signed, width, depth)
        op, number = self.dice.of((('-', -x), ('!', -x - 1)))
        return '%s(%s)' % (op, a), ranged(signed, width, number)

    def quotient(self, signed, width, depth):
        a, b, x, y = self.two(signed, width, depth)
        if self.dice.below(2):
            return '%s / %s' % (a, b), x // y if y else (1 << width) - 1
        return '%s %% %s' % (a, b), x % y if y else 0

    def shift(self, signed, width, depth):
        (a, x), (b, amount) = self.value(signed, width, depth), self.value(False, self.width(), 0)
        amount = min(amount, 200)
        if self.dice.below(2):
            return '(%s) << (%s)' % (a, b), ranged(signed, width, x * 2 ** amount)
        return '(%s) >> (%s)' % (a, b), x // 2 ** amount

    def cast(self, signed, width, depth):
        from_signed, from_width = bool(self.dice.below(2)), self.width()
        a, x = self.value(from_signed, from_width, depth)
        return '(%s) as %s' % (a, type_text(signed, width)), ranged(signed, width, x)

    def joined(self, signed, width, depth):
        low = 1 + self.dice.below(width - 1)
        (a, x), (b, y) = self.value(False, width - low, depth), self.value(False, low, depth)
        return '(%s) ++ (%s)' % (a, b), x * 2 ** low + y

    def slice(self, signed, width, depth):
        whole = width + self.dice.below(129 - width)
        start = self.dice.below(whole - width + 1)
        a, x = self.value(bool(self.dice.below(2)), whole, depth)
        return '(%s)[%d:%d]' % (a, start, start + width), x // 2 ** start % 2 ** width

    def part(self, signed, width, depth):
        whole = self.width()
        (a, x), (b, start) = self.value(False, whole, depth), self.value(False, self.width(), 0)
        return '(%s)[%s +: u%d]' % (a, b, width), x // 2 ** min(start, 200) % 2 ** width

    def counted(self, signed, width, depth):
        a, x = self.value(False, width, depth)
        word = digits(width, x)
        name, number = self.dice.of((('clz', width - len(word.lstrip('0'))), ('ctz', width - len(word.rstrip('0'))), ('rev', int(word[::-1], 2))))
        return '%s(%s)' % (name, a), ranged(signed, width, number)

    def reduced(self, signed, width, depth):
        of_sign, of_width = bool(self.dice.below(2)), self.width()
        a, x = self.value(of_sign, of_width, depth)
        word = digits(of_width, x)
        name, holds = self.dice.of((('and_reduce', '0' not in word), ('or_reduce', '1' in word), ('xor_reduce', word.count('1') % 2 == 1)))
        return '%s(%s)' % (name, a), int(holds)

    def compared(self, signed, width, depth):
        a, b, x, y = self.two(bool(self.dice.below(2)), self.width(), depth)
        op, holds = self.dice.of((('<', x < y), ('<=', x <= y), ('>', x > y), ('>=', x >= y), ('==', x == y), ('!=', x != y)))
        return '%s %s %s' % (a, op, b), int(holds)

    def both(self, signed, width, depth):
        a, b, x, y = self.two(False, 1, depth)
        op, number = self.dice.of((('&&', x and y), ('||', x or y)))
        return '%s %s %s' % (a, op, b), number

    def choice(self, signed, width, depth):
        (c, holds), (a, x), (b, y) = self.value(False, 1, depth), self.value(signed, width, depth), self.value(signed, width, depth)
        return 'if %s { %s } else { %s }' % (c, a, b), x if holds else y

    def fresh(self):
        self.count += 1
        return 'v%d' % self.count

    def block(self, signed, width, depth):
        """A name for a value, which hides an older one now and then."""
        of_sign, of_width = bool(self.dice.below(2)), self.width()
        a, x = self.value(of_sign, of_width, depth)
        name = self.dice.of(self.names)[0] if self.names and self.dice.below(3) == 0 else self.fresh()
        before = self.names
        self.names = [other for other in before if other[0] != name] + [(name, of_sign, of_width, x)]
        b, y = self.value(signed, width, depth)
        self.names = before
        return '{ let %s = %s; %s }' % (name, a, b), y

    def match(self, signed, width, depth):
        of_sign, of_width = bool(self.dice.below(2)), self.width()
        a, x = self.value(of_sign, of_width, depth)
        arms, found = [], None
        for _ in range(2):
            patterns = [self.literal(of_sign, of_width) for _ in range(1 + self.dice.below(2))]
            b, y = self.value(signed, width, 0)
            arms.append('%s => %s' % (' | '.join(text for text, _ in patterns), b))
            found = y if found is None and x in [number for _, number in patterns] else found
        name, before = self.fresh(), self.names
        self.names = before + [(name, of_sign, of_width, x)]
        b, y = self.value(signed, width, depth)
        self.names = before
        return 'match %s { %s, %s => %s }' % (a if a.isalnum() else '(%s)' % a, ', '.join(arms), name, b), y if found is None else found

    def loop(self, signed, width, depth):
        """The accumulated value times a number, and the index, for each turn."""
        (a, x), (b, factor) = self.value(signed, width, depth), self.literal(signed, width)
        from_sign, start, turns = bool(self.dice.below(2)), self.dice.below(5) - 2, self.dice.below(5)
        start = start if from_sign else abs(start)
        i, acc, kind = self.fresh(), self.fresh(), type_text(signed, width)
        text = 'for (%s, %s): (%s, %s) in %s..%s { %s * %s + (%s as %s) }(%s)' % (
            i, acc, type_text(from_sign, 9), kind, number_text(from_sign, 9, start), number_text(from_sign, 9, start + turns), acc, b, i, kind, a)
        for index in range(start, start + turns):
            x = ranged(signed, width, x * factor + index)
        return text, x

    def element(self, signed, width, depth):
        """One of several elements, some of them repeated or put anew."""
        values = [self.value(False, 8, 0) for _ in range(1 + self.dice.below(3))]
        numbers, size = [number for _, number in values], len(values) + self.dice.below(3)
        text = 'u8[%d]:[%s, ...]' % (size, ', '.join(text for text, _ in values))
        numbers += [numbers[-1]] * (size - len(numbers))
        if self.dice.below(2):
            (b, place), (c, new) = self.literal(False, self.dice.of((2, 9, 64))), self.value(False, 8, depth)
            text = 'update(%s, %s, %s)' % (text, b, c)
            numbers = [new if k == place else number for k, number in enumerate(numbers)]
        b, place = self.literal(False, self.dice.of((2, 9, 128)))
        return '(%s)[%s]' % (text, b), numbers[min(place, size - 1)]

    def call_at(self, signed, width, depth):
        values = [self.value(False, 8, depth) for _ in range(1 + self.dice.below(3))]
        b, place = self.literal(False, 8)
        return 'at([%s], %s)' % (', '.join(text for text, _ in values), b), values[min(place, len(values) - 1)][1]

    def call(self, signed, width, depth):
        a, x = self.value(False, width, depth)
        if width > 1 and self.dice.below(2):
            b, y = self.value(False, width - 1, depth)
            return 'wider(%s)' % b, ranged(False, width, 2 * y)
        return 'more(%s)' % a, ranged(False, width, x + 1)


def row(seed, construct):
    """A row whose outermost construct is this one."""
    dice = Dice(seed)
    maker = Maker(dice)
    small, byte = (False, 1), (False, 8)
    signed, width = {'compared': small, 'reduced': small, 'both': small, 'element': byte, 'call_at': byte}.get(construct, (bool(dice.below(2)), maker.width()))
    signed = signed and construct not in ('quotient', 'part', 'slice', 'counted', 'joined', 'call')
    width = max(width, 2) if construct == 'joined' else width
    text, number = getattr(maker, construct)(signed, width, 2)
    head = HEAD if 'more(' in text or 'wider(' in text or 'at(' in text else ''
    return '%sconst A = (%s) == %s;' % (head, text, number_text(signed, width, number))


CONSTRUCTS = ('sum', 'logic', 'prefix', 'quotient', 'shift', 'cast', 'joined', 'slice', 'part', 'counted', 'reduced', 'compared', 'both',
              'choice', 'block', 'match', 'loop', 'element', 'call_at', 'call')


def rows(construct):
    """Rows of a construct, the shortest of three each, since long ones say little more."""
    first = 1 + 1000 * CONSTRUCTS.index(construct)
    return [min((row(first + 3 * n + j, construct) for j in range(3)), key=len) for n in range(ROWS)]


def file_text():
    parts = ['# %s\n%s\n' % (construct, '\n'.join(rows(construct))) for construct in CONSTRUCTS]
    return '\n'.join(['# Written by tools/const_vectors.py: expressions, made at random, by the construct that stands outermost.\n'] + parts)


def main():
    if '--write' in sys.argv[1:]:
        open(FILE, 'w', encoding='utf-8').write(file_text())
    elif not os.path.exists(FILE) or open(FILE, encoding='utf-8').read() != file_text():
        sys.exit('the vectors of constants are not those of tools/const_vectors.py')
    print('%d constants worked' % (ROWS * len(CONSTRUCTS)))


if __name__ == '__main__':
    main()
