#!/usr/bin/env python3
"""Runs the program `xls` where there is no proved one of these sources: with no proof, but checked as it runs.

    tools/run_unproved.py [WORD..]

`rt try` compiles the sources to a program that stops at an index out of bounds, an overflow, a failed unwrap or a bad access. It
runs that in a folder of its own and keeps no file. So it's told to read a pipe as its design, and while it waits there, its file
is copied. The copy is kept for the next run of the same sources, and takes this process's place, with the words, the folder
and the streams of who called.
"""

import contextlib
import json
import os
import shutil
import signal
import subprocess
import sys
import tempfile
import time

sys.dont_write_bytecode = True
sys.path.insert(0, os.path.dirname(os.path.realpath(__file__)))
from sources import PROGRAM, TOP, alone, forget, kept, keys

MOST = 4
MAKING = 'xls: there is no proved program of these sources, so one is made with no proof, in two to four minutes'
UNPROVED = 'xls: this run is checked (an index out of bounds, an overflow or a failed unwrap ends it), but not proved: ./build proves it'


def say(text):
    with contextlib.suppress(OSError, AttributeError):
        sys.stderr.write(text + '\n')
        sys.stderr.flush()


def holds(number, pipe):
    return pipe in [os.readlink(f'/proc/{number}/fd/{it}') for it in os.listdir(f'/proc/{number}/fd')]


def started(pipe, building):
    """The words with which the program was started, once it has the pipe open; None where `rt try` ends before that."""
    while building.poll() is None:
        for number in filter(str.isdigit, os.listdir('/proc')):
            with contextlib.suppress(OSError):
                if int(number) != os.getpid() and holds(number, pipe):
                    with open(f'/proc/{number}/cmdline', 'rb') as file:
                        return [os.fsdecode(it) for it in file.read().split(b'\0')[:-1]]
        time.sleep(0.2)
    return None


@contextlib.contextmanager
def trying(pipe, said):
    """Has `rt try` run the program on the pipe, and ends it."""
    # (held for writing, so that the program waits there)
    held = os.open(pipe, os.O_RDWR)
    streams = {'stdin': subprocess.DEVNULL, 'stdout': said, 'stderr': said}
    building = subprocess.Popen(['rt', 'try', '--', 'check', pipe], cwd=f'{TOP}/crates/{PROGRAM}', **streams)
    try:
        yield building
    finally:
        os.close(held)
        building.terminate()
        building.wait()


def compile_into(folder):
    """Puts the program into the folder, and returns the words before it that start it."""
    pipe = f'{folder}/design'
    os.mkfifo(pipe)
    with tempfile.TemporaryFile() as said:
        with trying(pipe, said) as building:
            words = started(pipe, building)
            if words:
                shutil.copy(words[-3], f'{folder}/program')
        if not words:
            said.seek(0)
            say(said.read().decode(errors='replace') + 'xls: `rt try` made no program of these sources')
            raise SystemExit(1)
    os.remove(pipe)
    return words[:-3]


def make(place):
    """Makes the program, and keeps it at this place with the words that start it."""
    folder = f'{place}.new'
    shutil.rmtree(folder, ignore_errors=True)
    os.mkdir(folder)
    try:
        words = [*compile_into(folder), f'{place}/program']
        with open(f'{folder}/words', 'w', encoding='utf-8') as file:
            json.dump(words, file)
        os.rename(folder, place)
    finally:
        shutil.rmtree(folder, ignore_errors=True)


def start(words):
    # (Python ignores these signals, and the program would inherit that)
    for it in (signal.SIGPIPE, signal.SIGXFSZ):
        signal.signal(it, signal.SIG_DFL)
    os.execv(words[0], [*words, *sys.argv[1:]])


def main():
    # (so that `rt try` ends with it)
    for it in (signal.SIGINT, signal.SIGTERM):
        signal.signal(it, lambda number, _: sys.exit(128 + number))
    key, store = keys(TOP)[PROGRAM], kept('unproved')
    place, proved = f'{store}/{key}', f'{kept("proved")}/{PROGRAM}-{key}/{PROGRAM}'
    if os.path.exists(proved):
        start([proved])
    if not os.path.exists(place):
        with alone(store):
            if not os.path.exists(place):
                say(MAKING)
                make(place)
                forget(store, MOST)
    os.utime(place)
    say(UNPROVED)
    with open(f'{place}/words', encoding='utf-8') as file:
        start(json.load(file))


if __name__ == '__main__':
    main()
