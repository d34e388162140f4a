#!/usr/bin/env python3
"""Draws what `xls schedule` writes: an SVG of each proc's nodes in their stages, with the slack of each.

usage: stages.py FILE CLOCK SCHEDULE [> STAGES.svg]

FILE is the IR text, CLOCK the picoseconds that `schedule` was given, SCHEDULE what it wrote (- is standard input), as in

    ./xls schedule examples/chain.ir --clock 200 --from ir | tools/stages.py examples/chain.ir 200 - > chain.svg

Each stage is a column, and a node a bar in it, as long as it takes and where it begins at the earliest. A node's slack is what the longest path
through it inside its stage leaves of the clock; bars without slack are dark. Delays are those of docs/SCHEDULE.md.
"""
import re
import sys
from html import escape

sys.dont_write_bytecode = True
from fuzz_schedule import BY_RESULT, delay_of

# The head of a proc, and a node, whose `id` is its last attribute. White space is free.
PART = re.compile(r"""\bproc\s+(?P<proc>[A-Za-z_][\w./]*)\s*\(\s*st\s*:\s*(?P<state>[^=]*?)\s*,\s*init\s*=
    | (?P<op>[a-z_]+)\.(?P<id>\d+)\s*:\s*(?P<ty>[^=]*?)\s*=\s*(?P=op)\s*\((?P<inside>.*?)\bid\s*=\s*(?P=id)\s*\)""", re.X | re.S)
STAGE = re.compile(r'  (\S+) (\d+)$')
OPERANDS = ('predicate', 'default', 'cases', 'indices')
COLUMN, ROW, MARGIN, LABEL, LETTER = 330, 18, 16, 190, 7


class Node:
    """A line of a proc: its operation, its name, the width that its delay goes by, and the nodes that it takes values from."""

    def __init__(self, op, name, operands):
        self.op, self.name, self.operands = op, name, operands
        self.delay = self.stage = self.before = self.behind = 0

    def slack(self, clock):
        return clock - self.before - self.delay - self.behind


def width_of(ty):
    """The flat width of a type's text: bits[N], (T, ..), T[N], token."""
    ty = ''.join(ty.split())
    array = re.fullmatch(r'(.*)\[(\d+)\]', ty)
    if array and array.group(1) != 'bits':
        return width_of(array.group(1)) * int(array.group(2))
    if array:
        return int(array.group(2))
    return 0 if ty == 'token' else sum(width_of(it) for it in parts_of(ty[1:-1]))


def parts_of(text):
    """What stands between the outer commas of a text."""
    parts, depth, start = [], 0, 0
    for i, c in enumerate(text):
        depth += (c in '([') - (c in ')]')
        if c == ',' and depth == 0:
            parts.append(text[start:i])
            start = i + 1
    return [it for it in parts + [text[start:]] if it.strip()]


def operands_of(inside):
    """What stands between a node's brackets: its operands, and all that it takes values from, those of attributes too."""
    plain, more = [], []
    for part in map(str.strip, parts_of(inside)):
        key, equals, value = part.partition('=')
        if not equals:
            plain.append(part)
        elif key.strip() in OPERANDS:
            more += [it.strip() for it in value.strip(' []\n\t\r').split(',')]
    return plain, plain + more


def procs_of(text):
    """The procs of an IR text: each name with its nodes in line order."""
    procs, nodes, types = {}, [], {}
    for part in PART.finditer(re.sub(r'//[^\n]*', '', text)):
        if part['proc']:
            nodes = procs[part['proc']] = []
            types = {'st': part['state']}
        else:
            plain, operands = operands_of(part['inside'])
            made = Node(part['op'], f'{part["op"]}.{part["id"]}', [it for it in operands if it != 'st'])
            made.delay = delay_of(made.op, width_of(part['ty'] if made.op in BY_RESULT or not plain else types[plain[0]]))
            nodes.append(made)
            types[made.name] = part['ty']
    return procs


def schedules_of(text):
    """Of each proc the line of its stages and interval, and the stages of its nodes."""
    head, stages = None, {}
    for line in text.split('\n'):
        if line.startswith('proc '):
            if head:
                yield head, stages
            head, stages = line, {}
        elif STAGE.match(line):
            name, stage = STAGE.match(line).groups()
            stages[name] = int(stage)
    if head:
        yield head, stages


def time(nodes, stages):
    """Sets of each node its stage, and how long the longest paths before and behind it take inside this stage."""
    by_name = {node.name: node for node in nodes}
    for node in nodes:
        node.stage = stages[node.name]
        near = [by_name[it] for it in node.operands if stages[it] == node.stage]
        node.before = max((it.before + it.delay for it in near), default=0)
    for node in reversed(nodes):
        for it in node.operands:
            if stages[it] == node.stage:
                by_name[it].behind = max(by_name[it].behind, node.delay + node.behind)


def left_of(node, clock):
    """Where a node's bar begins, and how wide it is."""
    scale = (COLUMN - LABEL - MARGIN) / clock
    return MARGIN + node.stage * COLUMN + node.before * scale, max(node.delay * scale, 2)


def label(node, clock):
    return f'{node.name}  {node.delay} ps, slack {node.slack(clock)}'


def bar(node, row, clock):
    """A node in its row: its bar, and its name with its delay and slack."""
    x, wide = left_of(node, clock)
    y = 3 * MARGIN + row * ROW
    shade = 215 - round(175 * (1 - node.slack(clock) / clock))
    yield f'<rect x="{x:.1f}" y="{y}" width="{wide:.1f}" height="{ROW - 6}" fill="rgb({shade},{shade},235)" stroke="#446"/>'
    yield f'<text x="{x + wide + 4:.1f}" y="{y + ROW - 8}">{escape(label(node, clock))}</text>'


def picture(head, nodes, clock, top):
    """A proc: its line, its stages as columns, its nodes in line order."""
    stages = max((node.stage for node in nodes), default=0) + 1
    height = 3 * MARGIN + len(nodes) * ROW
    yield f'<g transform="translate(0,{top})"><text x="{MARGIN}" y="{MARGIN}" font-weight="bold">{escape(head)}, clock {clock} ps</text>'
    for stage in range(stages):
        x = MARGIN + stage * COLUMN
        yield f'<text x="{x}" y="{2 * MARGIN + 4}">stage {stage}</text><line x1="{x - 6}" y1="{2 * MARGIN - 10}" x2="{x - 6}" y2="{height}" stroke="#999"/>'
    for row, node in enumerate(nodes):
        yield from bar(node, row, clock)
    yield '</g>'


def width_of_picture(head, nodes, clock):
    """How wide a proc is, with what stands behind its bars."""
    ends = [sum(left_of(node, clock)) + LETTER * len(label(node, clock)) for node in nodes]
    return round(max([LETTER * len(f'{head}, clock {clock} ps'), *ends])) + 2 * MARGIN


def svg(procs, schedules, clock):
    shapes, top, wide = [], 0, 0
    for head, stages in schedules:
        nodes = procs.get(head.split(' ')[1], [])
        if [node.name for node in nodes] != list(stages):
            sys.exit(f'{head}: the schedule is of another package')
        time(nodes, stages)
        if any(node.slack(clock) < 0 for node in nodes):
            sys.exit(f'{head}: the schedule is of a longer clock than {clock} ps')
        shapes += picture(head, nodes, clock, top)
        top += 4 * MARGIN + len(nodes) * ROW
        wide = max(wide, width_of_picture(head, nodes, clock))
    yield f'<svg xmlns="http://www.w3.org/2000/svg" width="{wide}" height="{top}" font-family="monospace" font-size="11">'
    yield '<rect width="100%" height="100%" fill="white"/>'
    yield from shapes
    yield '</svg>'


def text_of(path):
    return sys.stdin.read() if path == '-' else open(path, encoding='utf-8').read()


def main():
    if len(sys.argv) != 4 or not sys.argv[2].isdigit():
        sys.exit(__doc__.strip().split('\n')[2])
    procs, schedules = procs_of(text_of(sys.argv[1])), list(schedules_of(text_of(sys.argv[3])))
    print('\n'.join(svg(procs, schedules, int(sys.argv[2]))))


if __name__ == '__main__':
    main()
