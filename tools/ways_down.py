#!/usr/bin/env python3
"""Says what the lists of crates.txt cost a gate.

usage: ways_down.py [COUNT]

Twice for each crate that it proves, the kit (rattle-kit-13b) makes a sum of all files of the crate and of those below it, and it
goes every way down through the lists of crates.txt, without memory: a crate that two others name is read twice, and so is all
below it, each time. This prints how many files that is for a gate, the COUNT crates with the most (15 if left out), and the
COUNT names in the lists that cost most among those that can be spared: what is named is below another name of that list, so it
need not stand there if that one passes on (`pub use`) what the crate takes of it. A file takes some 50 millionths of a second.
"""
import os
import sys

TOP = os.path.join(os.path.dirname(os.path.abspath(__file__)), '..')
PARTS = ('src', 'specs', 'proofs')
SECONDS = 0.00005


def lists():
    """Each crate with the crates that it names."""
    lines = (line.partition('#')[0].partition(':') for line in open(os.path.join(TOP, 'crates.txt'), encoding='utf-8'))
    named = {head.split()[0]: rest.split() for head, _, rest in lines if head.strip()}
    return {crate: [name for name in names if name in named] for crate, names in named.items()}


def files(crate):
    """How many files the crate is proved from."""
    return sum(len(names) for part in PARTS for _, _, names in os.walk(os.path.join(TOP, 'crates', crate, part)))


def lowest_first(named):
    order = {}

    def visit(crate):
        if crate not in order:
            for name in named[crate]:
                visit(name)
            order[crate] = True

    for crate in named:
        visit(crate)
    return list(order)


def main():
    count = int(sys.argv[1]) if len(sys.argv) > 1 else 15
    named = lists()
    order = lowest_first(named)
    below, read, ways = {}, {}, {}
    for crate in order:
        below[crate] = set(named[crate]).union(*(below[name] for name in named[crate]))
        read[crate] = files(crate) + sum(read[name] for name in named[crate])
        ways[crate] = 1
    for crate in reversed(order):
        for name in named[crate]:
            ways[name] += ways[crate]
    total = 2 * sum(read.values())
    print('%d files are read in a gate, some %d seconds of one processor' % (total, total * SECONDS))
    for crate in sorted(order, key=read.get, reverse=True)[:count]:
        print('%10d  %s' % (2 * read[crate], crate))
    spared = [(2 * ways[crate] * read[name], crate, name) for crate in order for name in named[crate]
              if any(name in below[other] for other in named[crate])]
    print('\nwhat can be spared')
    for cost, crate, name in sorted(spared, reverse=True)[:count]:
        print('%10d  %s, named by %s' % (cost, name, crate))


main()
