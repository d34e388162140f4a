#!/usr/bin/env python3
"""Runs a program with the words of `xls`, and shows behind its line what place of which text it refused.

    tools/show_error.py PROGRAM [WORD..]

`./xls` calls it where standard error is a terminal. The program has the words, streams and signals of who called, what it writes to
standard error is passed on as it comes, and its status is the status. Where it refused a text there follow, in the form of `rustc`,
the sentence of docs/rules.txt, the file, line and column, and the line with the place marked:

    error[rule 12]: operands of `+` that aren't of one bit type
     --> wide.x:6:18
      |
    6 |     send(tok, b, x + u9:1);
      |                  ^^^^^^^^ the sum

Columns are counted in characters. No place is shown of a limit, which names none, nor of a text that can't be read again, such as a
pipe. There are colours where NO_COLOR isn't set. (It goes by old Pythons too, as `./xls` doesn't ask which one there is.)
"""

import contextlib
import os
import re
import resource
import signal
import stat
import subprocess
import sys
import unicodedata
from typing import NamedTuple, Optional

sys.dont_write_bytecode = True
import rules

# (how much is kept of what the program writes, read of a file, and looked at of a line on each side)
KEPT, FILE_LIMIT, SEEN = 1 << 20, 4_194_304, 1 << 16
# (how wide a terminal is that doesn't say it, and how wide each is taken to be at the least)
WIDTH, LEAST = 140, 40
TAB, MORE = '    ', '...'
RED, BLUE, BOLD = '1;31', '1;34', '1'
CAUSES = {'takes': '1', 'needs': '2', 'interval': '3'}
WORD = re.compile(rb'\w*')
GAP = rb'(?:\s|//[^\n]*)'


class Refusal(NamedTuple):
    """What was refused: a code and a sentence of the cause, the bytes that are named, and what stands beside their mark."""

    code: str
    sentence: str
    span: Optional[tuple] = None
    label: str = ''


# ---- what the program's line says

def files(words):
    """The files that the words of a call name."""
    found, rest = [], iter(words[1:])
    for word in rest:
        if word == '--':
            return found + [*rest]
        if not word.startswith('--'):
            found.append(word)
        elif '=' not in word:
            next(rest, None)
    return found


def language(words):
    """The language of a call's first file."""
    options = words[:words.index('--')] if '--' in words else words
    if words[:1] == ['sim']:
        return 'verilog'
    if '--from=ir' in options or ('--from', 'ir') in zip(options, options[1:]):
        return 'ir'
    return 'language'


def row_in(tables, key):
    """The row of this number or word in the first of these tables that has it."""
    found = (rules.row_of(name, key) for name in tables)
    return next((it for it in found if it), [key, 'docs/rules.txt lacks this cause'])


def syntax(found, words, text):
    span, label = token_at(text, int(found['at'])) if text is not None else (None, '')
    return Refusal('syntax', row_in(['statuses'], '6')[1], span, label)


def broken(found, words, text):
    names = [f'{it} rules' for it in (language(words), 'language', 'ir', 'verilog')]
    part = rules.cell_in(names, found['key'], 'named at')
    return Refusal(f'rule {found["key"]}', row_in(names, found['key'])[1], (int(found['at']), int(found['end'])), part or '')


def over(found, words, text):
    row = row_in([f'{language(words)} limits', 'row file limits', 'file limits'], found['key'])
    return Refusal(f'limit {found["key"]}', f'{row[1]}: {found["found"]}')


def infeasible(found, words, text):
    row = row_in(['schedule causes'], CAUSES[found['key']])
    proc, node = (os.fsencode(it or '') for it in (found['proc'], found['node']))
    if language(words) == 'language':
        # (a design has no nodes; a path begins with its top)
        told = ' '.join(filter(None, (found['proc'] if '.' in found['proc'] else '', found['node'], found['told'])))
        return Refusal('infeasible', row[1], outside_comments(text or b'', b'proc%s+(%s)(?!\\w)' % (GAP, re.escape(proc.split(b'.')[0])), 0), told)
    return Refusal('infeasible', row[1], definition(text or b'', proc, node), found['told'])


def at_input(found, words, text):
    row = row_in(['row file causes' if words[:1] == ['sim'] else 'channel file causes'], found['key'])
    at = int(found['at'])
    return Refusal(f'input {found["key"]}', f'the line {row[1]}', (at, ((text or b'') + b'\n').find(b'\n', at)))


# By the status: how the program's line ends behind the name of its file, and what that says.
LINES = {
    6: (re.compile(r': syntax at (?P<at>\d+)\n\Z', re.A), syntax),
    7: (re.compile(r': rule (?P<key>\d+) at (?P<at>\d+)\.\.(?P<end>\d+)\n\Z', re.A), broken),
    8: (re.compile(r': limit (?P<key>\w+): (?P<found>\d+, at most \d+)\n\Z', re.A), over),
    9: (re.compile(r'(?<![^\n])infeasible: (?P<proc>[\w./]+): (?:(?P<node>[\w./]+) )?(?P<told>(?P<key>takes|needs|interval) \d.*)\n\Z', re.A), infeasible),
    10: (re.compile(r': input (?P<key>\w+) at (?P<at>\d+)\n\Z', re.A), at_input),
}


def read(status, said, words):
    """The refusal that the last line says, with its file and the text there; None where it refuses no text."""
    pattern, meaning = LINES.get(status, (None, None))
    found = pattern.search(said) if pattern else None
    if not found:
        return None
    # (a schedule's line names no file)
    named = files(words)[:1] if status == 9 else [it for it in files(words) if ('\n' + said[:found.start()]).endswith('\n' + it)]
    if not named:
        return None
    file = max(named, key=len)
    text = content(file)
    return meaning(found, words, text), file, text


# ---- places in texts

def content(name):
    """The bytes of a file; None where it can't be read a second time."""
    with contextlib.suppress(OSError, ValueError):
        if stat.S_ISREG(os.stat(name).st_mode):
            with open(name, 'rb') as file:
                return file.read(FILE_LIMIT)
    return None


def token_at(text, at):
    """The word or the character that begins here, and what is to be said of it."""
    if at == len(text):
        return (at, at), 'the text ends here'
    end = WORD.match(text, at).end()
    if end > at:
        return (at, end), ''
    for size in range(1, 5):
        with contextlib.suppress(UnicodeDecodeError):
            text[at:at + size].decode()
            return (at, at + size), ''
    return (at, at + 1), 'not UTF-8'


def definition(text, proc, node):
    """Where an IR text defines this node of this proc, or the proc itself where no node is named."""
    head = outside_comments(text, b'(proc%s+%s)%s*\\(' % (GAP, re.escape(proc), GAP), 0)
    return outside_comments(text, b'(%s)%s*:' % (re.escape(node), GAP), head[1]) if head and node else head


def outside_comments(text, form, start):
    """Where the group of a form first stands, as whole words of an IR text; None where it doesn't."""
    found = re.compile(rb'//[^\n]*|(?<![\w./])' + form).finditer(text, start)
    return next((it.span(1) for it in found if it[1]), None)


class Line(NamedTuple):
    """The line where a span begins: its number, the span's column, what stands before, in and behind it, and how many lines follow."""

    number: int
    column: int
    before: str
    marked: str
    behind: str
    more: int


def line_of(text, span):
    """The line of a span; None where the text has no such place."""
    if text is None or span is None or span[0] > len(text):
        return None
    at, end = span
    # (what stands behind the last line feed is shown behind the last line)
    if at == len(text) and text.endswith(b'\n'):
        at -= 1
    start = text.rfind(b'\n', 0, at) + 1
    stop = (text + b'\n').index(b'\n', at)
    before, marked, behind = text[start:at], text[at:min(end, stop)], text[max(at, min(end, stop)):stop]
    more = text.count(b'\n', at, max(at, end)) if marked else 0
    if more:
        marked = marked.rstrip()
    if behind or not marked:
        behind = without_cr(behind)
    if not marked and not behind:
        before = without_cr(before)
    column = 1 + len(before.decode('utf-8', 'replace'))
    return Line(1 + text.count(b'\n', 0, start), column, visible(before[-SEEN:]), visible(marked[:SEEN]), visible(behind[:SEEN]), more)


def without_cr(line):
    return line[:-1] if line.endswith(b'\r') else line


# ---- what is shown

def visible(text):
    """Bytes as a terminal shows them: tabs as blanks, and other controls as pictures of them, as a text may hold what moves the cursor."""
    return ''.join(it if it.isprintable() else picture(it) for it in text.decode('utf-8', 'replace').replace('\t', TAB))


def picture(it):
    return chr(0x2400 + ord(it)) if it < ' ' else '\u2421' if it == '\x7f' else '\ufffd'


def columns(text):
    """How many columns of a terminal a text takes."""
    if len(text) == len(text.encode()):
        return len(text)
    return sum(2 if unicodedata.east_asian_width(it) in 'WF' else not unicodedata.combining(it) for it in text)


def beginning(text, room):
    """As much of a text as takes no more columns than these."""
    while text and columns(text) > room:
        text = text[:min(len(text) - 1, room)]
    return text


def cut(before, marked, behind, room):
    """The parts of a line, so cut that they fit and the mark is seen."""
    if columns(before + marked + behind) <= room:
        return before, marked, behind
    if columns(before + marked + MORE) > room and columns(before) > room // 4:
        before = MORE + beginning(before[::-1], room // 4)[::-1]
    kept = beginning(marked, room - columns(before + MORE))
    behind = marked[len(kept):] + behind
    if columns(before + kept + behind) > room:
        behind = beginning(behind, room - columns(before + kept + MORE)) + MORE
    return before, kept, behind


def shown(refusal, file, text, width, paint):
    """The lines that are shown of a refusal."""
    name = visible(os.fsencode(file))
    line = line_of(text, refusal.span)
    head = paint(RED, f'error[{refusal.code}]') + paint(BOLD, f': {refusal.sentence}')
    if not line:
        return [head, f' {paint(BLUE, "-->")} {name}', *(f'  {paint(BLUE, "=")} {it}' for it in [refusal.label] if it and not refusal.span)]
    margin = ' ' * len(str(line.number))
    before, marked, behind = cut(line.before, line.marked, line.behind, width - len(margin) - 3)
    more = f'and {line.more} more line{"s"[:line.more > 1]}' if line.more else ''
    mark = f'{"^" * max(1, columns(marked))} {", ".join(it for it in (refusal.label, more) if it)}'.rstrip()
    return [
        head,
        f'{margin}{paint(BLUE, "-->")} {name}:{line.number}:{line.column}',
        f'{margin} {paint(BLUE, "|")}',
        f'{paint(BLUE, f"{line.number} |")} {before}{marked}{behind}'.rstrip(),
        f'{margin} {paint(BLUE, "|")} {" " * columns(before)}{paint(RED, mark)}',
    ]


# ---- running the program

def pass_on(text):
    """Writes bytes to standard error, whatever becomes of them."""
    with contextlib.suppress(OSError):
        while text:
            text = text[os.write(2, text):]


def heed(numbers, what):
    """Does this at these signals, but for those that who called ignores."""
    for it in numbers:
        if signal.getsignal(it) is not signal.SIG_IGN:
            signal.signal(it, what)


def run(words):
    """The program's status, and the end of what it wrote to standard error."""
    # (a terminal sends these two to the program as well; a handler isn't inherited, as what ignores them would be)
    heed((signal.SIGINT, signal.SIGQUIT), lambda *_: None)
    # (its files may be the caller's pipes, as in `./xls check <(cat design.x)`)
    child = subprocess.Popen(words, stderr=subprocess.PIPE, close_fds=False)
    heed((signal.SIGTERM, signal.SIGHUP), lambda number, _: child.send_signal(number))
    said = b''
    for piece in iter(lambda: os.read(child.stderr.fileno(), 1 << 16), b''):
        pass_on(piece)
        said = (said + piece)[-KEPT:]
    return child.wait(), said


def leave(status):
    """Ends as the program did: with its status, or by the signal that ended it."""
    if status < 0:
        resource.setrlimit(resource.RLIMIT_CORE, (0, 0))
        with contextlib.suppress(OSError):
            signal.signal(-status, signal.SIG_DFL)
        os.kill(os.getpid(), -status)
    sys.exit(status)


def terminal():
    """How wide the terminal is, and what paints a text there."""
    try:
        width = os.get_terminal_size(2).columns or WIDTH
    except OSError:
        width = WIDTH
    plain = 'NO_COLOR' in os.environ or os.environ.get('TERM') == 'dumb'
    return max(width, LEAST), lambda colour, text: text if plain or not text else f'\x1b[{colour}m{text}\x1b[0m'


def main():
    words = sys.argv[2:]
    status, said = run(sys.argv[1:])
    # (whatever comes of what is shown, the status is the program's)
    try:
        found = read(status, os.fsdecode(said), words)
        if found:
            pass_on(''.join(f'{it}\n' for it in shown(*found, *terminal())).encode(sys.stderr.encoding, 'replace'))
    finally:
        leave(status)


if __name__ == '__main__':
    main()
