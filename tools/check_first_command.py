#!/usr/bin/env python3
"""Runs `./xls` with the proved program, and `./xls` and `./build` where there is none, over a kit that is played.

    tools/check_first_command.py

With the proved program: words with spaces, names relative to the folder, both streams and the status are the user's, and nothing
more is said. Where there is none, on copies of the two scripts with three small crates: a run is said to be unproved, one program
serves all runs of the same sources, and one that fails to be made is told; a build proves each crate once and after those that
it uses, goes on where it was interrupted or failed, and its program is started in silence until a source changes.
Prints the first check that fails, and ends with 1.
"""

import os
import shutil
import signal
import subprocess
import sys
import tempfile
import time

TOP = os.path.dirname(os.path.dirname(os.path.abspath(__file__)))
DESIGN = os.path.join(TOP, 'examples', 'inc.x')
UNPROVED = b'but not proved: ./build proves it\n'
CRATES = 'low:\nmiddle: low\nxls: middle low\nother: low\n'
# Plays the kit: its program is `cat`, a library is an empty folder, and a crate with a file `wait` takes its time.
KIT = """#!/bin/sh
name=$(basename "$PWD")
echo "$1 $name" >>"$PLAYED"
if grep -q wrong src/*.rt; then echo "error in $name"; exit 1; fi
case $1 in
try) cp "$(command -v cat)" "$PLAYED.program"; shift 3; "$PLAYED.program" - "$@" </dev/null ;;
lib) if [ -e src/wait ]; then exec sleep 60; fi; mkdir -p out/rlib/"$name".rlib ;;
run) mkdir -p out; cp "$(command -v cat)" out/xls ;;
esac
"""


def check(holds, *told):
    if not holds:
        print('the first command:', *told)
        raise SystemExit(1)


def run(words, folder, text=b'', environment=None):
    ran = subprocess.run(words, cwd=folder, input=text, capture_output=True, env=environment, timeout=120)
    return ran.returncode, ran.stdout, ran.stderr


def with_the_proved_program(room):
    shutil.copy(DESIGN, f'{room}/a design.x')
    xls = f'{TOP}/xls'
    for words, text, wanted in [
        (['check', 'a design.x'], b'', (0, b'ok procs 1 channels 2\n', b'')),
        (['check', '/dev/stdin'], b'proc', (6, b'', b'/dev/stdin: syntax at 4\n')),
        (['check', 'none.x'], b'', (4, b'', b'cannot read none.x\n')),
        (['check', ''], b'', (4, b'', b'cannot read \n')),
    ]:
        got = run([xls, *words], room, text)
        check(got == wanted, words, got)


class Copy:
    """The scripts in a folder of their own, over three small crates and a kit that is played."""

    def __init__(self, room):
        self.room, self.top, self.played = room, f'{room}/top', f'{room}/played'
        os.makedirs(f'{self.top}/tools')
        for it in ('xls', 'build', 'HANDLES', 'tools/sources.py', 'tools/run_unproved.py'):
            shutil.copy(f'{TOP}/{it}', f'{self.top}/{it}')
        self.write('top/crates.txt', CRATES)
        for it in ('low', 'middle', 'xls', 'other'):
            self.write(f'top/crates/{it}/src/lib.rt', f'// {it}\n')
        self.write('kit/rt', KIT)
        os.chmod(f'{room}/kit/rt', 0o755)
        self.environment = {**os.environ, 'PATH': f'{room}/kit:{os.environ["PATH"]}', 'PLAYED': self.played, 'XDG_CACHE_HOME': f'{room}/kept'}

    def write(self, name, text):
        os.makedirs(os.path.dirname(f'{self.room}/{name}'), exist_ok=True)
        with open(f'{self.room}/{name}', 'w', encoding='utf-8') as file:
            file.write(text)

    def calls(self):
        """What the kit was called for since it was last asked."""
        try:
            with open(self.played, encoding='utf-8') as file:
                found = file.read().splitlines()
            os.remove(self.played)
            return found
        except FileNotFoundError:
            return []

    def xls(self, *words, text=b''):
        return run([f'{self.top}/xls', *words], self.room, text, self.environment)

    def build(self):
        return run([f'{self.top}/build', '--jobs', '2'], self.room, b'', self.environment)


def unproved(copy):
    copy.write('a text', 'text\n')
    status, out, err = copy.xls('a text')
    check((status, out) == (0, b'text\n') and err.endswith(UNPROVED), status, out, err)
    check(copy.calls() == ['try xls'], 'rt try is called once')
    status, out, err = copy.xls('-', 'none', text=b'given')
    check((status, out) == (1, b'given') and err.count(b'\n') == 2 and UNPROVED in err, status, out, err)
    check(copy.calls() == [], 'the same sources are compiled once')
    copy.write('top/crates/low/src/lib.rt', 'wrong\n')
    copy.write('top/crates/xls/src/lib.rt', 'wrong\n')
    status, out, err = copy.xls('a text')
    check((status, out) == (1, b'') and b'error in xls\n' in err and UNPROVED not in err, status, out, err)
    copy.calls()


def interrupted(copy):
    copy.write('top/crates/low/src/lib.rt', '// low again\n')
    copy.write('top/crates/xls/src/lib.rt', '// xls again\n')
    copy.write('top/crates/middle/src/wait', '')
    streams = {'stdout': subprocess.PIPE, 'stderr': subprocess.PIPE}
    building = subprocess.Popen([f'{copy.top}/build'], cwd=copy.room, env=copy.environment, start_new_session=True, **streams)
    calls, began = [], time.time()
    while 'lib middle' not in calls and time.time() < began + 60:
        time.sleep(0.05)
        calls += copy.calls()
    os.killpg(building.pid, signal.SIGTERM)
    said, complained = building.communicate(timeout=60)
    check(building.returncode == 143 and b'1 of 3 crates done, 2 left: low' in said, building.returncode, said, complained)
    check(b'goes on from there' in said and calls == ['lib low', 'lib middle'], calls, said)


def built(copy):
    os.remove(f'{copy.top}/crates/middle/src/wait')
    copy.write('top/crates/middle/src/lib.rt', 'wrong\n')
    status, out, err = copy.build()
    check(status == 1 and b'1 of 3 crates done, 2 left\n' in out and b'error in middle\n' in out, status, out, err)
    copy.write('top/crates/middle/src/lib.rt', '// middle\n')
    status, out, err = copy.build()
    check(status == 0 and b'3 of 3 crates done, 0 left: xls' in out, status, out, err)
    check(copy.calls() == ['lib middle', 'lib middle', 'run xls'], 'what was proved is proved once')
    check(copy.xls('-', text=b'given') == (0, b'given', b''), 'a proved program says no more')
    status, out, err = copy.build()
    check(status == 0 and copy.calls() == [], 'where all is proved nothing is proved again', status, out, err)


def changed(copy):
    copy.write('top/crates/low/specs/New.antt', '-- new\n')
    check(UNPROVED in copy.xls('a text')[2] and copy.calls() == ['try xls'], 'a program of other sources is not proved')
    os.remove(f'{copy.top}/crates/low/specs/New.antt')
    check(copy.xls('-', text=b'given') == (0, b'given', b''), 'the sources are those that were proved')
    check(copy.build()[0] == 0 and copy.calls() == [], 'what was proved is kept')


def main():
    with tempfile.TemporaryDirectory() as room:
        with_the_proved_program(room)
    with tempfile.TemporaryDirectory() as room:
        copy = Copy(room)
        for step in (unproved, interrupted, built, changed):
            step(copy)
    print('the first command: as wanted')
    return 0


if __name__ == '__main__':
    sys.exit(main())
