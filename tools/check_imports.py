#!/usr/bin/env python3
"""Says whether each crate knows the crates below it by their public contracts alone.

usage: check_imports.py

It fails where a crate imports another one's proofs but for those below proofs/Lemmas, or what another one keeps for
itself in a module Inner of specs/. What the kit makes of a type, that threads may share it, is public where the type is.
"""
import glob
import os
import re
import sys

PRIVATE = re.compile(r'\bRattle\.(\w+)\.(proofs\.[\w.]+|specs\.(?:\w+\.)*Inner\b[\w.]*)')
PUBLIC = re.compile(r'proofs\.Lemmas\b|.*\.(TheSendSync|TheLaws\.TheKnot)$')


def foreign(path, crates):
    """The lines of a file that import what another crate keeps for itself."""
    own = path.split(os.sep)[1]
    for number, line in enumerate(open(path, encoding='utf-8'), 1):
        for crate, module in PRIVATE.findall(line):
            module = module.rstrip('.')
            if crate in crates and crate != own and not PUBLIC.match(module):
                yield '%s:%d: %s.%s' % (path, number, crate, module)


def main():
    os.chdir(os.path.join(os.path.dirname(os.path.abspath(__file__)), '..'))
    crates = set(os.listdir('crates'))
    paths = sorted(glob.glob('crates/*/**/*.antt', recursive=True) + glob.glob('crates/*/**/*.rt', recursive=True))
    paths = [path for path in paths if path.split(os.sep)[2] in ('src', 'specs', 'proofs')]
    found = [line for path in paths for line in foreign(path, crates)]
    if found:
        sys.exit('\n'.join(found + ['%d imports of what another crate keeps for itself' % len(found)]))


main()
