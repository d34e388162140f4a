#!/usr/bin/env python3
"""Gives printed blocks to Icarus Verilog, Verilator and Yosys, with all warnings on, and simulates them by Icarus and by `xls sim`.

    tools/check_tools.py PROGRAM [--packages N] [--jobs N]

The blocks are those of the examples at three clocks each, and of N random packages (30) of `fuzz_blocks.py`. It needs `iverilog`, `vvp`,
`verilator` and `yosys` (Debian: packages of these names; tried with 11.0, 5.006 and 0.23), and is run by hand. The calls are

    iverilog -g2005 -Wall NAME.v
    verilator --lint-only -Wall NAME.v
    yosys -q -p "read_verilog NAME.v; hierarchy -check -top NAME; proc; check -assert"

Two warnings of Verilator are about what a design asks for, and are counted: UNUSEDSIGNAL of a value, or of bits of one, that nothing
reads, and CMPCONST of a comparison that is the same whatever its operands. Any other word from a tool, or another line of `vvp` than of `sim`
from the first reset on, is a difference. It prints these, and ends with status 1 if there was one.
"""

import argparse
import concurrent.futures
import os
import random
import re
import subprocess
import sys
import tempfile
from collections import Counter

import block_model as block
import check_blocks
import compare_iverilog
import fuzz_blocks as fuzz
import ir_model as ir

DESIGNS_OWN = ["UNUSEDSIGNAL", "CMPCONST"]


class Ports:
    """What the test bench of compare_iverilog.py asks of a module: its channels."""

    def __init__(self, package):
        self.channels = [(c.name, c.kind == "input", ir.flat_width(c.ty)) for c in block.outer(package.channels)]


def said(words, folder):
    done = subprocess.run(words, cwd=folder, capture_output=True, text=True, check=False)
    return done.stdout + done.stderr, done.returncode


def warnings(folder, name, module):
    """What the tools say of a module that isn't its design's own doing, and a count of what is."""
    file, wrong, counted = f"{name}.v", [], Counter()
    for words in (["iverilog", "-g2005", "-Wall", "-o", "/dev/null", file],
                  ["yosys", "-q", "-p", f"read_verilog {file}; hierarchy -check -top {name}; proc; check -assert"]):
        text, status = said(words, folder)
        if text.strip() or status:
            wrong.append(f"{words[0]}: {status} {text[:300]}")
    text, _ = said(["verilator", "--lint-only", "-Wall", file], folder)
    for kind, rest in re.findall(r"^%(?:Warning|Error)-?(\w*): (.*)", text, re.M):
        counted[kind] += kind in DESIGNS_OWN
        unread = re.search(r"Signal is not used: '(\w+)'", rest)
        if kind and kind not in DESIGNS_OWN or unread and unread.group(1) in module.read():
            wrong.append(f"verilator: {kind} {rest}")
        elif not kind and not rest.startswith("Exiting due to"):
            wrong.append(f"verilator: {rest}")
    return wrong, counted


def simulated(program, folder, package, text, rows):
    """Where Icarus and `sim` differ from the first reset on."""
    fuzz.put(folder, "t.v", re.sub(r"^module \w+", "module T", text))
    fuzz.put(folder, "r.txt", block.rows_text(rows))
    drives = [(row.reset, [row.offered.get(name) if is_input else name in row.ready for name, is_input, _ in Ports(package).channels]) for row in rows]
    theirs = compare_iverilog.icarus(folder, Ports(package), drives)
    ours, failed = fuzz.called(program, folder, "sim t.v r.txt")
    if failed:
        return [failed]
    first = min(i for i, row in enumerate(rows) if row.reset)
    return [f"sim: {one}, icarus: {other}" for one, other in list(zip(ours.splitlines(), theirs))[first:] if one != other]


def example(name, clock):
    return f"{name}.ir at {clock}", check_blocks.package_of(name), clock, random.Random(f"{name} {clock}")


def some(seed):
    rng = random.Random(seed)
    package = fuzz.some_package(rng)
    return f"seed {seed}", package, fuzz.some_pipelines(rng, package)[0], rng


def compared(program, named):
    """What is wrong of a package at a clock, and what is its design's own."""
    title, package, clock, rng = named
    rows = fuzz.some_rows(rng, package, 5) + fuzz.fed_rows(rng, package, 20, False)
    with tempfile.TemporaryDirectory() as folder:
        fuzz.put(folder, "f.ir", ir.text_of(package))
        text, failed = fuzz.called(program, folder, f"verilog f.ir --clock {clock} --from ir")
        if failed:
            return title, [failed], Counter()
        module = block.Module(text)
        fuzz.put(folder, module.name + ".v", text)
        wrong, counted = warnings(folder, module.name, module)
        return title, wrong + simulated(program, folder, package, text, rows), counted


def main():
    ap = argparse.ArgumentParser(description=__doc__.splitlines()[0])
    ap.add_argument("program")
    ap.add_argument("--packages", type=int, default=30)
    ap.add_argument("--jobs", type=int, default=1)
    asked = ap.parse_args()
    program = os.path.abspath(asked.program)
    blocks = [example(name, clock) for name in sorted(check_blocks.CLOCKS) for clock in check_blocks.CLOCKS[name]]
    blocks += [some(seed) for seed in range(asked.packages)]
    failed, counted = 0, {True: Counter(), False: Counter()}
    with concurrent.futures.ProcessPoolExecutor(asked.jobs) as pool:
        for title, wrong, counts in pool.map(compared, [program] * len(blocks), blocks):
            counted[title.startswith("seed")].update(counts)
            if counts and not title.startswith("seed"):
                print(f"{title}: {dict(counts)}", flush=True)
            if wrong:
                failed += 1
                print(f"=== {title}\n" + "".join(f"  {line[:300]}\n" for line in wrong[:4]), flush=True)
    print(f"{len(blocks)} blocks, {failed} differ; of designs' own doing: examples {dict(counted[False])}, random packages {dict(counted[True])}")
    sys.exit(1 if failed else 0)


if __name__ == "__main__":
    main()
