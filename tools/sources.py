"""What the program `xls` is made from, and where what is made of it is kept, for `tools/run_unproved.py` and `./build`.

A key of a crate is a sum of its files, of its line of crates.txt, of the keys of those below it and of the kit: what is kept
under a key was made from just these. All is kept in the user's folder for such things, beside no checkout, so that each
checkout of the same sources has it.
"""

import contextlib
import fcntl
import hashlib
import os
import shutil
import sys

TOP = os.path.dirname(os.path.dirname(os.path.realpath(__file__)))
PROGRAM = 'xls'
PARTS = ('src', 'specs', 'proofs')


def used(top):
    """The crates that each crate uses, and its line in crates.txt."""
    lines = {}
    with open(f'{top}/crates.txt', encoding='utf-8') as file:
        for line in file:
            head, colon, _ = line.partition('#')[0].partition(':')
            if colon:
                lines[head.split()[0]] = line.strip()
    uses = {name: [it for it in line.partition(':')[2].split() if it in lines] for name, line in lines.items()}
    return uses, lines


def below(uses, name=PROGRAM):
    """The crates below this one, each after those that it uses, and then the crate itself."""
    found = {}
    for it in uses[name]:
        found.update(dict.fromkeys(below(uses, it)))
    return [*found, name]


def files(top, name):
    found = []
    for part in PARTS:
        for at, _, names in os.walk(f'{top}/crates/{name}/{part}'):
            found += [f'{at}/{it}' for it in names]
    return sorted(found)


def kit():
    """What tells one kit from another, or an end where there is none."""
    command = shutil.which('rt')
    if not command:
        raise SystemExit('xls: the command rt of the Rattle kit has to be on the path')
    command = os.path.realpath(command)
    return command, os.stat(command).st_size, os.stat(command).st_mtime_ns


def keys(top):
    """The key of the program and of each crate below it, lowest first."""
    uses, lines = used(top)
    found, of_kit = {}, kit()
    for name in below(uses):
        made = hashlib.sha256(repr((of_kit, lines[name], [found[it] for it in uses[name]])).encode())
        for path in files(top, name):
            with open(path, 'rb') as file:
                made.update(repr((os.path.relpath(path, top), file.read())).encode())
        found[name] = made.hexdigest()[:32]
    return found


def kept(what):
    """The folder in which things of this kind are kept."""
    home = os.environ.get('XDG_CACHE_HOME') or os.path.expanduser('~/.cache')
    folder = os.path.realpath(f'{home}/xls/{what}')
    os.makedirs(folder, exist_ok=True)
    return folder


@contextlib.contextmanager
def alone(folder):
    """Waits until no other command is at work on what this folder keeps."""
    with open(f'{folder}/lock', 'w', encoding='utf-8') as file:
        try:
            fcntl.flock(file, fcntl.LOCK_EX | fcntl.LOCK_NB)
        except BlockingIOError:
            print('xls: waiting for another command that makes the program', file=sys.stderr, flush=True)
            fcntl.flock(file, fcntl.LOCK_EX)
        yield


def forget(folder, most):
    """Removes what was used least lately, down to so many."""
    there = [it.path for it in os.scandir(folder) if it.is_dir()]
    for path in sorted(there, key=os.path.getmtime, reverse=True)[most:]:
        shutil.rmtree(path, ignore_errors=True)
