#!/usr/bin/env python3
"""Lists where the time of a crate's check went, by functions and parts of their proofs.

usage: part_times.py FOLDER [COUNT]

FOLDER is where a check of the crate from nothing kept what it checked, with one job: crates/NAME/out/incremental, once
`rt check --jobs 1` has run in the crate's folder and no such folder was there before. The prover writes each module there when
it is checked, so the time from one file to the next is the time of that module, where little else works on the machine.
It prints the COUNT dearest functions, and then the dearest modules, 20 if left out, in seconds.
"""
import collections
import glob
import os
import re
import sys


def modules(folder):
    """The modules that were checked, in order, each with the seconds that it took."""
    paths = glob.glob(os.path.join(folder, '**', '*.oantt'), recursive=True)
    times = sorted((os.stat(path).st_mtime, os.path.basename(path)) for path in paths)
    for (before, _), (now, name) in zip(times, times[1:]):
        yield now - before, re.sub(r'^Rattle-\w+-|\.oantt$', '', name)


def function_of(module):
    """The function that a module is a part of: `proofs.file.function.Part` or `specs.contracts.file.function.Part`."""
    words = [word for word in module.split('.') if word not in ('proofs', 'specs', 'contracts')]
    return '.'.join(words[:2])


def main():
    if len(sys.argv) not in (2, 3):
        sys.exit(__doc__)
    count = int(sys.argv[2]) if len(sys.argv) == 3 else 20
    found = list(modules(sys.argv[1]))
    functions = collections.Counter()
    for seconds, module in found:
        functions[function_of(module)] += seconds
    print('%d modules in %.0f seconds' % (len(found), sum(seconds for seconds, _ in found)))
    for function, seconds in functions.most_common(count):
        print('%8.1f  %s' % (seconds, function))
    print()
    for seconds, module in sorted(found, reverse=True)[:count]:
        print('%8.1f  %s' % (seconds, module))


main()
