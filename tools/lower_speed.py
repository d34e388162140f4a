#!/usr/bin/env python3
"""Measures the lowering: of each design of examples/ and of a generated one of 1 MB the nodes before and after `opt`, the seconds and the memory.

    tools/lower_speed.py PROGRAM

The generated design has 250 parametric functions and 250 others, and 200 procs in a chain of channels, each with two calls put in place; comments
fill it up to 1 MB. Prints a row for each design: nodes of `ir`, nodes of `opt`, and of either the seconds of processor time and the megabytes at most.
Ends with 1 where a command doesn't end with 0.
"""

import os
import re
import subprocess
import sys
import tempfile
from pathlib import Path

import check_speed

TOP = Path(__file__).resolve().parent.parent
NODE = re.compile(rb'^  [\w.]+: .*id=\d+\)$', re.M)
STAGES = 200


def chain():
    """A proc that starts all stages, each of which sends what the next one receives."""
    channels = ''.join(f'    let (to_{n}, from_{n}) = chan<u32>("between_{n}");\n' for n in range(1, STAGES))
    ends = ['words', *[f'from_{n}' for n in range(1, STAGES)]], [*[f'to_{n}' for n in range(1, STAGES)], 'sums']
    spawns = ''.join(f'    spawn Stage_{n}({ends[0][n]}, {ends[1][n]});\n' for n in range(STAGES))
    return f'proc Chain {{\n  config(words: chan<u32> in, sums: chan<u32> out) {{\n{channels}{spawns}    ()\n  }}\n  init {{ () }}\n  next(state: ()) {{ }}\n}}\n'


def generated():
    """The generated design of 1 MB."""
    parts = ''.join([check_speed.FUNCTION.format(n=n) for n in range(250)] + [check_speed.PROC.format(n=n) for n in range(STAGES)])
    top, filler = chain(), '// ' + 90 * '-' + '\n'
    return parts + (1_000_000 - len(parts) - len(top)) // len(filler) * filler + top


def measured(program, command, path):
    """The number of nodes that a command writes, its seconds and its megabytes."""
    with tempfile.TemporaryFile() as out:
        child = subprocess.Popen([program, command, path], stdout=out)
        _, status, usage = os.wait4(child.pid, 0)
        if status:
            sys.exit(f'{command} {path} ends with {os.waitstatus_to_exitcode(status)}')
        out.seek(0)
        return len(NODE.findall(out.read())), usage.ru_utime + usage.ru_stime, usage.ru_maxrss // 1024


def main():
    program = os.path.abspath(sys.argv[1])
    with tempfile.TemporaryDirectory() as folder:
        large = Path(folder) / 'generated.x'
        large.write_text(generated())
        for path in [*sorted(TOP.glob('examples/*/*.x')), large]:
            nodes, seconds, memory = measured(program, 'ir', path)
            fewer, more, most = measured(program, 'opt', path)
            print(f'{path.stem}: {nodes:,} nodes ({seconds:.2f} s, {memory} MB), {fewer:,} after opt ({more:.2f} s, {most} MB)', flush=True)


if __name__ == '__main__':
    main()
