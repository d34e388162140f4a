#!/usr/bin/env python3
"""Checks what `./xls` shows at a terminal behind the program's line (tools/show_error.py).

    tools/check_show_error.py [PROGRAM]

Each case of tests/ with a file NAME.shown is called with a terminal of 80 columns as its standard error: behind the line of NAME.err
must stand NAME.shown, and the status is NAME.status. The answer is played from these files, and given by PROGRAM too if there is
one. Besides, with programs that are played: names and files that no case can have, output that comes piece by piece, signals, the
script `./xls` at a terminal and elsewhere. Each refusal of all cases has a sentence and its place is found, and docs/rules.txt has
the rules and limits that the sources name.
Prints the first check that fails, and ends with 1.
"""

import contextlib
import fcntl
import os
import pty
import re
import shutil
import signal
import struct
import subprocess
import sys
import tempfile
import termios
import threading
import time

sys.dont_write_bytecode = True
import rules
import show_error
from run_tests import cases, framed

TOP = os.path.dirname(os.path.dirname(os.path.abspath(__file__)))
SHOW = [sys.executable, f'{TOP}/tools/show_error.py']
ENVIRONMENT = {**os.environ, 'NO_COLOR': '', 'PYTHONUTF8': '1'}
SECONDS = 60
# Plays a program: what the files of a case say, whatever the words are.
PLAYER = """#!/bin/sh
if [ -e "$PLAYED.out" ]; then cat "$PLAYED.out"; fi
if [ -e "$PLAYED.err" ]; then cat "$PLAYED.err" >&2; fi
exit "$(cat "$PLAYED.status")"
"""
DESIGN = b'proc join {}\n'
HEAD = f'error[rule 2]: {rules.row_of("language rules", "2")[1]}\n'.encode()
PLACE = b':1:6\n  |\n1 | proc join {}\n  |      ^^^^\n'


def check(holds, *told):
    if not holds:
        print('what is shown of an error:', *told)
        raise SystemExit(1)


def heeds_signals():
    """Takes signals as a shell's command does, whatever who called this script ignores."""
    for it in (signal.SIGINT, signal.SIGQUIT, signal.SIGTERM, signal.SIGHUP):
        signal.signal(it, signal.SIG_DFL)


class AtTerminal:
    """A program whose standard error is a terminal of 80 columns."""

    def __init__(self, words, folder, environment=None, **more):
        self.terminal, end = pty.openpty()
        modes = termios.tcgetattr(end)
        modes[1] &= ~termios.OPOST
        termios.tcsetattr(end, termios.TCSANOW, modes)
        fcntl.ioctl(end, termios.TIOCSWINSZ, struct.pack('HHHH', 24, 80, 0, 0))
        streams = {'stdin': subprocess.DEVNULL, 'stdout': subprocess.PIPE, 'stderr': end, **more}
        self.process = subprocess.Popen(words, cwd=folder, env={**ENVIRONMENT, **(environment or {})}, preexec_fn=heeds_signals, **streams)
        os.close(end)
        self.said = b''
        self.reader = threading.Thread(target=self.read, daemon=True)
        self.reader.start()

    def read(self):
        # (a terminal without its other end is an error)
        with contextlib.suppress(OSError):
            while piece := os.read(self.terminal, 1 << 16):
                self.said += piece

    def says(self, what):
        """Waits until this was said."""
        until = time.time() + SECONDS
        while what not in self.said and time.time() < until:
            time.sleep(0.01)
        return what in self.said

    def ends(self, text=None):
        """Its status, its output and what it said."""
        try:
            out, _ = self.process.communicate(text, timeout=SECONDS)
        except subprocess.TimeoutExpired:
            self.process.kill()
            check(False, self.process.args, 'does not end, and said', self.said)
        self.reader.join(SECONDS)
        os.close(self.terminal)
        return self.process.returncode, out, self.said


def script(path, text):
    os.makedirs(os.path.dirname(path), exist_ok=True)
    with open(path, 'w', encoding='utf-8') as file:
        file.write(text)
    os.chmod(path, 0o755)
    return path


def put(path, data):
    with open(path, 'wb') as file:
        file.write(data)


def the_cases(room, program):
    """Each case with a file .shown, played and answered by the program."""
    player = script(f'{room}/player', PLAYER)
    found = [it for it in cases() if os.path.exists(f'{it.base}.shown')]
    check(found, 'there is no case')
    for case in found:
        out, err, status = case.wanted
        for it in [player] + [program] * bool(program):
            got = AtTerminal([*SHOW, it, *case.calls[0]], case.folder, {'PLAYED': case.base}).ends()
            wanted = status, out, err + case.text('.shown')
            check(got == wanted, f'{case.name}, by {it}:\n got    {got}\n wanted {wanted}')
    return len(found)


class Playing:
    """A program in a folder of its own that says what it is told to."""

    def __init__(self, room):
        self.room, self.program = room, script(f'{room}/player', PLAYER)

    def plays(self, err, status=7):
        put(f'{self.room}/it.err', err)
        put(f'{self.room}/it.status', str(status).encode())

    def shows(self, words, err, status=7, environment=None, **more):
        """What is shown behind these lines."""
        self.plays(err, status)
        got = AtTerminal([*SHOW, self.program, *words], self.room, {'PLAYED': f'{self.room}/it', **(environment or {})}, **more).ends()
        check(got[:2] == (status, b'') and got[2].startswith(err), words, got)
        return got[2][len(err):]


def names_and_files(room):
    """Names that hold what a line may say, or what moves a cursor; files that can't be read again; lines that name no text."""
    play = Playing(room)
    for name, told in [(b'a: rule 1 at 0..5', b'a: rule 1 at 0..5'), (b'a\n.x', 'a␊.x'.encode()), (b'\xff.x', '\ufffd.x'.encode()),
                       (b'\x1b[2J.x', '␛[2J.x'.encode())]:
        put(os.fsencode(room) + b'/' + name, DESIGN)
        got = play.shows([b'check', name], name + b': rule 2 at 5..9\n')
        check(got == HEAD + b' --> ' + told + PLACE, name, got)
    without = HEAD + b' --> %s\n'
    os.mkfifo(f'{room}/fifo')
    for name in ('none.x', '/dev/null', 'fifo', room):
        got = play.shows(['check', name], f'{name}: rule 2 at 5..9\n'.encode())
        check(got == without % name.encode(), name, got)
    put(f'{room}/short.x', b'proc')
    got = play.shows(['check', 'short.x'], b'short.x: rule 2 at 5..9\n')
    check(got == without % b'short.x', 'a file that was changed', got)
    for line, status in [(b'cannot read short.x\n', 4), (b'short.x: rule 2 at 5..9\n', 4), (b'short.x: rule 2 at 5..9', 7), (b'other.x: rule 2 at 5..9\n', 7),
                         (b'', 7), (b'short.x: limit: 3, at most 2\n', 8), (b'not short.x: rule 2 at 0..4\n', 7), (b'out of memory\n', 3)]:
        check(play.shows(['check', 'short.x'], line, status) == b'', line, status)
    put(f'{room}/.x', b'no proc')
    got = play.shows(['run', 'a\n.x', '.x', '--activations', '1'], b'a\n.x: rule 2 at 5..9\n')
    check(got == HEAD + ' --> a␊.x'.encode() + PLACE, 'two names that end alike', got)
    got = play.shows(['check', 'a: rule 1 at 0..5'], b'xls: this run is not proved\na: rule 1 at 0..5: rule 2 at 5..9\n')
    check(got == HEAD + b' --> a: rule 1 at 0..5' + PLACE, 'behind another line', got)


def the_pages(room):
    """What README.md shows of a refusal at a terminal."""
    with open(f'{TOP}/examples/inc.x', 'rb') as file:
        put(f'{room}/wide.x', file.read().replace(b'x + u8:1', b'x + u9:1'))
    got = Playing(room).shows(['check', 'wide.x'], b'wide.x: rule 12 at 168..176\n').decode()
    with open(f'{TOP}/README.md', encoding='utf-8') as file:
        check(f'```\n{got}```\n' in file.read(), 'README.md shows other lines than', got)


def streams_and_colours(room):
    """A file that is an open pipe or the standard input, and colours."""
    play = Playing(room)
    put(f'{room}/join.x', DESIGN)
    with open(f'{room}/join.x', 'rb') as file:
        got = play.shows(['check', '/dev/stdin'], b'/dev/stdin: rule 2 at 5..9\n', stdin=file)
        check(got == HEAD + b' --> /dev/stdin' + PLACE, 'a file as the standard input', got)
    end, start = os.pipe()
    os.write(start, b'7')
    os.close(start)
    shutil.copy(play.program, f'{room}/reader')
    script(f'{room}/reader', f'#!/bin/sh\necho "read $(cat /dev/fd/{end})"\necho "/dev/fd/{end}: rule 2 at 5..9" >&2\nexit 7\n')
    got = AtTerminal([*SHOW, f'{room}/reader', 'check', f'/dev/fd/{end}'], room, pass_fds=[end]).ends()
    os.close(end)
    check(got == (7, b'read 7\n', b'/dev/fd/%d: rule 2 at 5..9\n%s --> /dev/fd/%d\n' % (end, HEAD, end)), 'a pipe', got)
    bare = {it: ENVIRONMENT[it] for it in ENVIRONMENT if it not in ('NO_COLOR', 'TERM')}
    play.plays(b'join.x: syntax at 0\n', 6)
    words = ['/usr/bin/env', '-i', *(f'{name}={value}' for name, value in bare.items()), f'PLAYED={room}/it', 'TERM=xterm', *SHOW, play.program, 'check', 'join.x']
    sentence = rules.row_of('statuses', '6')[1].encode()
    blue = b'\x1b[1;34m%s\x1b[0m'
    wanted = b'\x1b[1;31merror[syntax]\x1b[0m\x1b[1m: %s\x1b[0m\n %s join.x:1:1\n  %s\n%s proc join {}\n  %s \x1b[1;31m^^^^\x1b[0m\n' % (
        sentence, blue % b'-->', blue % b'|', blue % b'1 |', blue % b'|')
    got = AtTerminal(words, room).ends()
    check(got == (6, b'', b'join.x: syntax at 0\n' + wanted), 'colours', got)


def pieces_and_signals(room):
    """What is written comes at once, and the program's end by a signal is the script's end."""
    slow = script(f'{room}/slow', '#!/bin/sh\necho early >&2\nread it\necho "$it"\nhead -c 100000 /dev/zero\necho late >&2\nexit 3\n')
    running = AtTerminal([*SHOW, slow], room, stdin=subprocess.PIPE)
    check(running.says(b'early\n'), 'the first line comes late')
    check(running.ends(b'given\n') == (3, b'given\n' + bytes(100000), b'early\nlate\n'), 'what is written piece by piece', running.said)
    killed = script(f'{room}/killed', '#!/bin/sh\necho ready >&2\nkill -USR1 $$\n')
    check(AtTerminal([*SHOW, killed], room).ends() == (-signal.SIGUSR1, b'', b'ready\n'), 'the end by a signal')
    waits = script(f'{room}/waits', '#!/bin/sh\ntrap "echo told; exit 5" TERM\necho ready >&2\nfor it in $(seq 1000); do sleep 0.05; done\n')
    running = AtTerminal([*SHOW, waits], room)
    check(running.says(b'ready\n'), 'nothing is said')
    running.process.terminate()
    check(running.ends() == (5, b'told\n', b'ready\n'), 'a signal is passed on', running.said)
    # (a terminal sends its signal to the whole group)
    waits = script(f'{room}/waits', '#!/bin/sh\necho ready >&2\nexec sleep 60\n')
    running = AtTerminal([*SHOW, waits], room, start_new_session=True)
    check(running.says(b'ready\n'), 'nothing is said')
    os.killpg(running.process.pid, signal.SIGINT)
    check(running.ends() == (-signal.SIGINT, b'', b'ready\n'), 'an interrupt', running.said)
    ignoring = ['/bin/sh', '-c', 'trap "" INT TERM; exec "$@"', 'sh', *SHOW, slow]
    running = AtTerminal(ignoring, room, start_new_session=True, stdin=subprocess.PIPE)
    check(running.says(b'early\n'), 'nothing is said')
    os.killpg(running.process.pid, signal.SIGINT)
    running.process.terminate()
    check(running.ends(b'given\n') == (3, b'given\n' + bytes(100000), b'early\nlate\n'), 'ignored signals', running.said)


def the_script(room):
    """`./xls` over a program that is played: at a terminal, elsewhere, and where there is no Python."""
    for it in ('xls', 'tools/show_error.py', 'tools/rules.py', 'docs/rules.txt'):
        os.makedirs(os.path.dirname(f'{room}/top/{it}'), exist_ok=True)
        shutil.copy(f'{TOP}/{it}', f'{room}/top/{it}')
    put(f'{room}/top/crates.txt', b'xls:\n')
    script(f'{room}/top/crates/xls/src/main.rt', '')
    script(f'{room}/top/crates/xls/out/xls', PLAYER + '# newer\n')
    play, line, words = Playing(room), b'a design.x: rule 2 at 5..9\n', [f'{room}/top/xls', 'check', 'a design.x']
    play.plays(line)
    put(f'{room}/it.out', b'some output\n')
    put(f'{room}/a design.x', DESIGN)
    os.makedirs(f'{room}/bin')
    for it in ('sh', 'cat', 'find', 'head', 'dirname'):
        os.symlink(shutil.which(it), f'{room}/bin/{it}')
    played = {'PLAYED': f'{room}/it'}
    got = AtTerminal(words, room, played).ends()
    check(got == (7, b'some output\n', line + HEAD + b' --> a design.x' + PLACE), './xls at a terminal', got)
    got = AtTerminal(words, room, {**played, 'PATH': f'{room}/bin'}).ends()
    check(got == (7, b'some output\n', line), './xls without Python', got)
    ran = subprocess.run(words, cwd=room, env={**ENVIRONMENT, **played}, capture_output=True, check=False, timeout=SECONDS)
    check((ran.returncode, ran.stdout, ran.stderr) == (7, b'some output\n', line), './xls elsewhere', ran)


def calls_of(case, room):
    """The words of each call of a case, with a file where they are about a text of its table, and the line and status that are wanted."""
    for words, text, (_, err, status) in case.asked():
        if text is not None:
            path = f'{room}/text.x'
            put(path, framed(case.folder, words, text).encode())
            words = [path if it.startswith('@') else it for it in words]
            err = f'{path}: '.encode() + err if err else err
        yield words, err, status


def all_refusals(room):
    """Each refusal of a case has a sentence of the table, and a line of its text where it names a place."""
    for case in cases():
        os.chdir(case.folder)
        for words, err, status in calls_of(case, room):
            found = show_error.read(status, err.decode(), words)
            check(bool(found) == (status in show_error.LINES), case.name, err, 'is read as', found)
            if found:
                refusal, _, text = found
                check('docs/rules.txt' not in refusal.sentence, case.name, refusal)
                check(bool(refusal.span) == (status != 8) and bool(show_error.line_of(text, refusal.span)) == (status != 8), case.name, refusal)
    os.chdir(TOP)


def sentences():
    """The table has the limits that the program names and the rules of the whole language, as the sources have them."""
    with open(f'{TOP}/crates/xb_span/src/limit.rt', encoding='utf-8') as file:
        words = re.findall(r'What::\w+ => "(\w+)"', file.read())
    limits = {row.split(' ')[0].strip('`') for name, rows in rules.tables().items() if name.endswith(' limits') for row in rows[1:]}
    check({*words} == limits, 'the limits', sorted({*words} ^ limits))
    with open(f'{TOP}/crates/dslx_meaning/specs/Rules/RuleNumbers.antt', encoding='utf-8') as file:
        numbers = re.findall(r'^[A-Z_]+ = (\d+)$', file.read(), re.M)
    check(numbers == [row.split(' ')[0] for row in rules.tables()['language rules'][1:]], 'the rules of the whole language', numbers)


def main():
    program = os.path.abspath(sys.argv[1]) if len(sys.argv) > 1 else None
    if program and not os.path.exists(program):
        print(f'there is no {program}, so its answers are played')
        program = None
    sentences()
    with tempfile.TemporaryDirectory() as room:
        all_refusals(room)
    with tempfile.TemporaryDirectory() as room:
        count = the_cases(room, program)
    for step in (names_and_files, the_pages, streams_and_colours, pieces_and_signals, the_script):
        with tempfile.TemporaryDirectory() as room:
            step(room)
    print(f'what is shown of errors: {count} cases, as wanted')
    return 0


if __name__ == '__main__':
    sys.exit(main())
