#!/usr/bin/env python3
"""Measures what the gate costs, crate by crate.

usage: gate_times.py [--busy] [NAME..]

It runs `rt ci`, which proves and tries all from nothing (with `--anew`, where the kit keeps what earlier runs proved),
watches the prover's processes, and writes docs/GATE_TIMES.md: the seconds of processor time that each crate's proof, its
tests and its must-fail edits took. With names it runs `rt ci --anew NAME..` (these crates and those below them), where the
kit takes names, and writes anew the rows of the page that it measured. Beside other work the same proof takes up to half as
much processor time again, so the machine should be idle; where it isn't, --busy marks the rows with a star. It ends with
the status of `rt ci`.
"""
import collections
import os
import subprocess
import sys
import time

TICKS = os.sysconf('SC_CLK_TCK')
KINDS = ('check', 'tests', 'edits')
PAGE = 'docs/GATE_TIMES.md'


def processes():
    """Of each process its parent, its own processor time, when it began, and its words."""
    found = {}
    for pid in filter(str.isdigit, os.listdir('/proc')):
        try:
            stat = open('/proc/%s/stat' % pid).read()
            words = open('/proc/%s/cmdline' % pid, 'rb').read().decode(errors='replace').split('\0')
        except OSError:
            continue
        fields = stat[stat.rindex(')') + 2:].split()
        found[int(pid)] = (int(fields[1]), sum(map(int, fields[11:13])) / TICKS, fields[19], words)
    return found


def descends(pid, root, found):
    while pid in found:
        if pid == root:
            return True
        pid = found[pid][0]
    return False


def kind_of(words):
    """The crate that a process of the prover works on, and for what; None where it is another process."""
    if len(words) < 4 or os.path.basename(words[0]) != 'rattle' or words[2] != '--crate-name':
        return None
    return words[3], 'edits' if words[1] == 'check' else 'tests' if '--test' in words else 'check'


def work_of(pid, found):
    """What a process works on: its own words say so, or those of the nearest process above it that says so."""
    while pid in found:
        parent, _, _, words = found[pid]
        what = kind_of(words)
        if what:
            return what
        pid = parent
    return None


def watch(command):
    """Runs the command; gives its status, the seconds by the clock, and the processor time of each crate and kind."""
    start = time.monotonic()
    spent = {}
    gate = subprocess.Popen(command)
    while gate.poll() is None:
        found = processes()
        for pid, (_, seconds, began, _) in found.items():
            what = work_of(pid, found)
            if what and descends(pid, gate.pid, found):
                spent[what, pid, began] = seconds
        time.sleep(0.3)
    totals = collections.Counter()
    for (what, _, _), seconds in spent.items():
        totals[what] += seconds
    return gate.returncode, time.monotonic() - start, totals


def rows_of(totals, mark):
    """The rows of a run: a crate, its mark, and its seconds of each kind."""
    return {crate: (mark, [round(totals[crate, kind]) for kind in KINDS]) for crate, _ in totals}


def rows_of_page(text):
    """The rows that a page shows."""
    cells = (line.strip('| ').split(' | ') for line in text.splitlines() if line.startswith('| '))
    named = ((row[0].partition(' '), row[1:4]) for row in cells if row[1].isdigit() and row[0] != 'all')
    return {crate: (mark, [int(cell) for cell in times]) for (crate, _, mark), times in named}


def crates():
    """The names of the crates that the repository lists."""
    lines = (line.split(':')[0].split() for line in open('crates.txt', encoding='utf-8') if not line.startswith('#'))
    return [words[0] for words in lines if words]


def page(clock, rows):
    rows = {crate: rows[crate] for crate in crates() if crate in rows}
    missing = [crate for crate in crates() if crate not in rows]
    ordered = [((crate + ' ' + mark).strip(), times) for crate, (mark, times) in rows.items()]
    ordered.sort(key=lambda row: -sum(row[1]))
    ordered.append(('all', [sum(times[i] for _, times in rows.values()) for i in range(len(KINDS))]))
    out = ['# What the gate costs', '',
           'Written by tools/gate_times.py: seconds of processor time of a run from nothing. A crate whose check passes 180',
           'seconds is to be split or made cheaper. A star: measured beside other work, where the same proof takes up to half as',
           'much again; all other rows are from an otherwise idle machine.', '', clock, '',
           '| crate | check | tests | edits | all |', '|---|---|---|---|---|']
    out += ['| %s | %d | %d | %d | %d |' % (crate, *times, sum(times)) for crate, times in ordered]
    if missing:
        out += ['', 'Not measured yet: %s.' % ', '.join('`%s`' % crate for crate in missing)]
    return '\n'.join(out) + '\n'


def clock_of_page(text):
    """The line of a page that says how long its run of all crates took; empty where there is none."""
    return next((line for line in text.splitlines() if ' by the clock' in line), '')


def gate():
    """The words of a gate from nothing."""
    told = subprocess.run(['rt', 'help'], capture_output=True, text=True)
    return ['rt', 'ci'] + ['--anew'] * ('--anew' in told.stdout + told.stderr)


def main():
    os.chdir(os.path.join(os.path.dirname(os.path.abspath(__file__)), '..'))
    mark = '*' if '--busy' in sys.argv[1:] else ''
    names = [word for word in sys.argv[1:] if word != '--busy']
    status, clock, totals = watch([*gate(), *names])
    rows = rows_of(totals, mark)
    line = '%d processors; the last run of all crates took %d minutes by the clock.' % (os.cpu_count(), clock / 60)
    if names:
        shown = open(PAGE, encoding='utf-8').read()
        rows = {**rows_of_page(shown), **rows}
        line = clock_of_page(shown)
    open(PAGE, 'w', encoding='utf-8').write(page(line, rows))
    sys.exit(status)


if __name__ == '__main__':
    main()
