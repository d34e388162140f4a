#!/usr/bin/env python3
"""Schedules random IR packages, and compares what the program writes with what Python finds (written from docs/SCHEDULE.md).

    tools/fuzz_schedule.py PROGRAM FROM TO

For each seed from FROM up to TO there is one package, random demands and some more that just fit or just don't. Python knows no order
of nodes and no times: it begins with all nodes in stage 0 and, while a schedule isn't legal, moves a node that no legal schedule has so
early. Prints the first few that differ, and ends with 1.
"""

import os
import random
import subprocess
import sys
import tempfile

import ir_model as ir
from fuzz_ir import some_package

ADDED = ["add", "sub", "neg"]
ORDERED = "ult ule ugt uge slt sle sgt sge".split()
PICKED = "shll shrl shra dynamic_bit_slice array_index array_update".split()
BY_RESULT = ADDED + "umul udiv umod and or xor not".split()


def delay_of(op, width):
    digits = width.bit_length()
    if op in ADDED + ORDERED:
        return 40 + 10 * digits
    if op == "umul":
        return 80 + 40 * digits
    if op in ("udiv", "umod"):
        return 100 * width
    if op in ("eq", "ne"):
        return 20 + 10 * digits
    if op in ("and", "or", "xor", "not"):
        return 20
    if op == "sel":
        return 40
    if op in PICKED:
        return 20 * digits
    return 10 * digits if op in ir.REDUCE else 0


class Timed:
    """A proc: the delays of its nodes, the places of their operands and of its sites."""

    def __init__(self, proc):
        self.proc = proc
        types = {"st": proc.state, **{node.name: node.ty for node in proc.nodes}}
        place = {node.name: i for i, node in enumerate(proc.nodes)}
        self.delays, self.sources, self.sites = [], [], []
        for i, node in enumerate(proc.nodes):
            ty = node.ty if node.op in BY_RESULT or not node.operands else types[node.operands[0]]
            self.delays.append(delay_of(node.op, ir.flat_width(ty)))
            self.sources.append([place[operand] for operand in node.all_operands() if operand != "st"])
            if node.op in ("receive", "send"):
                self.sites.append(i)
        self.next = None if proc.next == "st" else place[proc.next]

    def is_send(self, i):
        return self.proc.nodes[i].op == "send"

    def longest(self, stages, i):
        """How long the longest path takes that ends with node i inside its stage."""
        times, waiting = {}, [i]
        while waiting:
            j = waiting[-1]
            near = [k for k in self.sources[j] if stages[k] == stages[j]]
            if all(k in times for k in near):
                times[waiting.pop()] = self.delays[j] + max([times[k] for k in near], default=0)
            else:
                waiting += [k for k in near if k not in times]
        return times[i]

    def at_least(self, stages, i, clock):
        """A stage before which node i stands in no legal schedule whose stages are these at least."""
        least = max([stages[i]] + [stages[j] for j in self.sources[i]])
        for j in self.sites:
            if i in self.sites and j < i:
                least = max(least, stages[j] + (self.is_send(j) and not self.is_send(i)))
        return stages[i] + 1 if least == stages[i] and clock < self.longest(stages, i) else least

    def least(self, clock):
        stages, moved = [0] * len(self.delays), True
        while moved:
            moved = False
            for i in reversed(range(len(stages))):
                least = self.at_least(stages, i, clock)
                moved, stages[i] = moved or least != stages[i], least
        return stages

    def turn(self, stages):
        receives = [stages[i] for i in self.sites if not self.is_send(i)]
        return max(receives[-1] if receives else 0, 0 if self.next is None else stages[self.next])


def node_text(node):
    return f"{node.op}.{node.number}"


def cause_of(timed, clock, most, interval):
    """Why a proc has no legal schedule, or None; and its least stages."""
    nodes = timed.proc.nodes
    for node, delay in zip(nodes, timed.delays):
        if clock < delay:
            return f"{node_text(node)} takes {delay} ps, clock {clock}", None
    stages = timed.least(clock)
    depth = max(stages, default=0) + 1
    for node, stage in zip(nodes, stages):
        if most <= stage:
            return f"{node_text(node)} needs {depth} stages, given {most}", stages
    turn = timed.turn(stages) + 1
    return (f"interval {turn}, given {interval}" if interval < turn else None), stages


def wanted(package, clock, most, interval):
    out = ""
    for proc in package.procs:
        timed = Timed(proc)
        cause, stages = cause_of(timed, clock, most, interval)
        if cause is not None:
            return "", f"infeasible: {proc.name}: {cause}\n", 9
        out += f"proc {proc.name} stages {max(stages, default=0) + 1} interval {timed.turn(stages) + 1}\n"
        out += "".join(f"  {node_text(node)} {stage}\n" for node, stage in zip(proc.nodes, stages))
    return out, "", 0


def demands(rng, package):
    """Clocks, stages and intervals: random ones, and such that one proc just has a schedule or just has none."""
    timed = Timed(rng.choice(package.procs))
    slowest = max(timed.delays + [1])
    for clock in (rng.randint(1, 2000), slowest, max(slowest - 1, 1), slowest + rng.randint(0, 300), 1000000):
        yield clock, 64, 64
        if max(timed.delays + [0]) <= clock:
            stages = timed.least(clock)
            depth, turn = max(stages, default=0) + 1, timed.turn(stages) + 1
            for most, interval in ((depth, turn), (depth - 1, turn), (depth, turn - 1)):
                if 1 <= most <= 64 and 1 <= interval <= 64:
                    yield clock, most, interval


def main():
    program, first, last = os.path.abspath(sys.argv[1]), int(sys.argv[2]), int(sys.argv[3])
    calls, refused, differing = 0, 0, 0
    with tempfile.TemporaryDirectory() as folder:
        for seed in range(first, last):
            rng = random.Random(seed)
            package = some_package(rng)
            with open(os.path.join(folder, "f.ir"), "w", encoding="utf-8") as file:
                file.write(ir.text_of(package))
            for clock, most, interval in demands(rng, package):
                words = f"schedule f.ir --clock {clock} --stages {most} --ii {interval} --from ir"
                done = subprocess.run([program, *words.split()], cwd=folder, capture_output=True, text=True, check=False)
                want, got = wanted(package, clock, most, interval), (done.stdout, done.stderr, done.returncode)
                calls, refused = calls + 1, refused + (want[2] != 0)
                if got != want:
                    differing += 1
                    print(f"=== seed {seed}: {words}\n{ir.text_of(package)}--- wanted {want}\n--- got {got}")
            if differing >= 3:
                break
    if differing:
        sys.exit(1)
    print(f"{last - first} packages, {calls} calls, of which {refused} were refused: none differs")


if __name__ == "__main__":
    main()
