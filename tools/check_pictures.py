#!/usr/bin/env python3
"""Reads what waves.py and stages.py make of what the program writes, and compares it with that.

    tools/check_pictures.py PROGRAM

From a VCD file the cycle text is made again, so that each word that went through a channel comes from the channel's three signals: of the
examples, and of random modules. From an SVG each node's stage, delay and slack are read, and where its bar begins: of the examples and of the
procs of tests/schedule, at clocks from the slowest node's delay on. Slack is what the longest of all paths leaves, tried one by one. The picture of
docs/SCHEDULE.md is the one that is drawn. Prints what differs first, and ends with 1.
"""
import glob
import os
import random
import re
import subprocess
import sys
import tempfile
import xml.etree.ElementTree

sys.dont_write_bytecode = True
import stages
import waves
from compare_iverilog import Module, random_rows, row_file

TOP = os.path.dirname(os.path.dirname(os.path.abspath(__file__)))
DRAWN = 'examples/chain.ir', 200, 'docs/pictures/chain.svg'
MODULES, ROWS = 20, 40
LABEL = re.compile(r'(\S+)  (\d+) ps, slack (\d+)$')
NAME = re.compile(r'[a-z_]+\.\d+')


class Differs(Exception):
    """What a picture says otherwise than the text that it was made from."""


def same(what, got, wanted):
    if got != wanted:
        raise Differs(f'{what}\n--- wanted\n{wanted}\n--- got\n{got}')


def written(program, *words):
    done = subprocess.run([program, *map(str, words)], cwd=TOP, capture_output=True, text=True, check=False)
    same(' '.join(map(str, words)), (done.returncode, done.stderr), (0, ''))
    return done.stdout


def text_of(path):
    with open(os.path.join(TOP, path), encoding='utf-8') as file:
        return file.read()


# ---- waves


def cycles_of(vcd):
    """The signals of a VCD file with their widths, and what they show as the clock falls: a value, or None for an unknown one."""
    head, _, body = vcd.partition('$enddefinitions $end\n')
    names = {name: (signal, int(width)) for width, name, signal in re.findall(r'^\$var wire (\d+) (\S+) (\S+)(?: \[\d+:0\])? \$end$', head, re.M)}
    shown, cycles, now = {}, [], -1
    for line in body.splitlines():
        value, name = re.fullmatch(r'(?:b(?=.* )|(?=[^b#])|(?=#))([01x]+|#\d+) ?(\S*)', line).groups()
        if line[0] == '#':
            same('a time behind the one before', now < int(line[1:]), True)
            now = int(line[1:])
            continue
        signal, width = names[name]
        same(f'the digits of {signal}', len(value) <= width, True)
        shown[signal] = None if 'x' in value else int(value, 2)
        if (signal, value) == ('clk', '0'):
            cycles.append(dict(shown))
    return dict(names.values()), cycles


def cycle_text(module, vcd):
    """What `sim` writes, by the waves alone; the module says only which channels are inputs."""
    widths, cycles = cycles_of(vcd)
    channels = [it[:-len('_data')] for it in widths if it.endswith('_data')]
    inputs = {it for it in channels if re.search(rf'\binput\s+wire\s+{it}_vld\b', module)}
    moved, lines = {it: [] for it in channels}, []

    def word(channel, cycle):
        return f'0x{cycle[channel + "_data"]:0{(widths[channel + "_data"] + 3) // 4}x}'
    for i, cycle in enumerate(cycles):
        line = str(i)
        for it in channels:
            if it in inputs:
                line += f' {it}!' if cycle[it + '_rdy'] else ''
            elif cycle[it + '_vld']:
                line += f' {it}={word(it, cycle)}'
            if cycle['rst']:
                moved[it] = []
            elif cycle[it + '_vld'] and cycle[it + '_rdy']:
                moved[it].append(word(it, cycle))
        lines.append(line)
    return '\n'.join(lines + [' '.join([f'moved {it} {len(words)}:', *words]) for it, words in moved.items()]) + '\n'


def check_waves(program, path, rows):
    wanted = written(program, 'sim', path, rows)
    words = [sys.executable, os.path.join(TOP, 'tools', 'waves.py'), path, rows, '-']
    vcd = subprocess.run(words, cwd=TOP, input=wanted, capture_output=True, text=True, check=True).stdout
    same(f'the waves of {path} and {rows}', cycle_text(text_of(path), vcd), wanted)


def check_random_waves(program, folder, seed):
    rng = random.Random(seed)
    module = Module(rng)
    rows = row_file(module.channels, random_rows(rng, module.channels, ROWS))
    for name, text in (('m.v', module.text()), ('r.txt', rows)):
        with open(os.path.join(folder, name), 'w', encoding='utf-8') as file:
            file.write(text)
    wanted = written(program, 'sim', os.path.join(folder, 'm.v'), os.path.join(folder, 'r.txt'))
    vcd = '\n'.join(waves.vcd('T', waves.channels_of(module.text()), list(waves.rows_of(rows)), list(waves.cycles_of(wanted))))
    same(f'the waves of a random module, {seed}', cycle_text(module.text(), vcd), wanted)


# ---- stages


def bars_of(picture):
    """Of each proc of an SVG its line, and of each node its label, its stage and where its bar begins and ends in the column."""
    for proc in xml.etree.ElementTree.fromstring(picture).iter('{http://www.w3.org/2000/svg}g'):
        head, columns, bar, nodes = None, [], None, []
        for shape in proc:
            if shape.tag.endswith('rect'):
                bar = float(shape.get('x')), float(shape.get('width'))
            elif shape.tag.endswith('text') and head is None:
                head = shape.text
            elif shape.tag.endswith('text') and bar is None:
                same('a column', shape.text, f'stage {len(columns)}')
                columns.append(float(shape.get('x')))
            elif shape.tag.endswith('text'):
                stage = max(i for i, x in enumerate(columns) if x <= bar[0])
                nodes.append((LABEL.match(shape.text).groups(), stage, bar[0] - columns[stage], bar[1]))
        yield head, nodes


def operands_of(text):
    """Of each proc's nodes the nodes that stand behind its `=`, in a printed text."""
    found = []
    for line in text.splitlines():
        if line.startswith('proc '):
            found.append({})
        elif found and NAME.match(line.strip()):
            name, *rest = NAME.findall(line.partition('channel=')[0])
            found[-1][name] = rest[rest.index(name) + 1:] if name in rest else rest
    return found


def paths_to(name, near):
    """All paths that end with this node, as lists of nodes."""
    return [[*path, name] for it in near[name] for path in paths_to(it, near)] + [[name]]


def check_proc(head, nodes, operands, clock):
    """A proc's bars; answers its schedule's lines."""
    delays, at = {name: int(delay) for (name, delay, _), *_ in nodes}, {name: stage for (name, *_), stage, *_ in nodes}
    near = {name: [it for it in operands[name] if at[it] == at[name]] for name in at}
    behind = {name: [it for it in at if name in near[it]] for name in at}
    line, slow = head.partition(', clock ')[0], max(delays.values(), default=0)
    # (a bar is two wide at least, and tells nothing then)
    scale = next((width / delays[name] for (name, *_), _, _, width in nodes if delays[name] == slow and width > 2), 0)
    for (name, _, slack), _, begins, width in nodes:
        before = max(sum(delays[it] for it in path) for path in paths_to(name, near))
        after = max(sum(delays[it] for it in path) for path in paths_to(name, behind))
        same(f'{line}: slack of {name}', int(slack), clock - before - after + delays[name])
        if scale:
            close = abs(begins - scale * (before - delays[name])) < 0.5 and abs(width - max(2, scale * delays[name])) < 0.5
            same(f'{line}: the bar of {name} is where its time is', close, True)
    return [line, *(f'  {name} {stage}' for name, stage in at.items())], slow


def check_stages(program, path, clock):
    """A schedule's picture; answers the delay of the slowest node."""
    wanted, text, lines, slow = written(program, 'schedule', path, '--clock', clock, '--from', 'ir'), text_of(path), [], 0
    picture = '\n'.join(stages.svg(stages.procs_of(text), list(stages.schedules_of(wanted)), clock))
    for (head, nodes), operands in zip(bars_of(picture), operands_of(text)):
        told, delay = check_proc(head, nodes, operands, clock)
        lines, slow = lines + told, max(slow, delay)
    same(f'the stages of {path} at {clock}', '\n'.join(lines) + '\n', wanted)
    return slow


def check_slowest(program, path, clock):
    """The program itself says how long the slowest node takes, where the clock is shorter."""
    done = subprocess.run([program, 'schedule', path, '--clock', str(clock - 1), '--from', 'ir'], cwd=TOP, capture_output=True, text=True, check=False)
    same(f'the slowest node of {path}', done.stderr.rstrip('\n').partition(' takes ')[2], f'{clock} ps, clock {clock - 1}')


def check_drawn(program):
    path, clock, drawn = DRAWN
    words = [sys.executable, os.path.join(TOP, 'tools', 'stages.py'), path, str(clock), '-']
    schedule = written(program, 'schedule', path, '--clock', clock, '--from', 'ir')
    same(drawn, text_of(drawn), subprocess.run(words, cwd=TOP, input=schedule, capture_output=True, text=True, check=True).stdout)


def main():
    program, count = os.path.abspath(sys.argv[1]), 0
    check_waves(program, 'examples/counter.v', 'examples/rows.txt')
    check_waves(program, 'examples/chain.v', 'examples/chain_rows.txt')
    for name in ('rows_with_repeats', 'word_in_a_reset', 'words_offered_in_two_rows'):
        check_waves(program, 'tests/sim/pass.v', f'tests/sim/{name}.txt')
    with tempfile.TemporaryDirectory() as folder:
        for seed in range(MODULES):
            check_random_waves(program, folder, seed)
    check_drawn(program)
    for path in sorted(glob.glob('examples/*.ir', root_dir=TOP) + glob.glob('tests/schedule/*.ir', root_dir=TOP)):
        slow = check_stages(program, path, 1000000)
        if slow > 1:
            check_slowest(program, path, slow)
        for clock in {slow, slow * 2} - {0}:
            check_stages(program, path, clock)
            count += 1
    print(f'{5 + MODULES} waves and {count} schedules are drawn as they are')


if __name__ == '__main__':
    try:
        main()
    except Differs as why:
        sys.exit(str(why))
