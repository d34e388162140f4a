#!/usr/bin/env python3
"""Prints the blocks of random IR packages by `xls verilog`, simulates them by `xls sim`, and compares what they do with docs/BLOCKS.md.

    tools/fuzz_blocks.py PROGRAM FROM TO [--jobs N] [--keep FOLDER]

For each seed from FROM up to TO there is a package of some procs, a clock that just fits or is longer, and rows: offers and stalls in
bursts, resets, and at the end each word offered and taken for a long time. Python (tools/block_model.py) runs the package as a network
with FIFOs of any depth over the words that the inputs took. Compared are:

- the module's name and ports, the number of its registers, and the combinational paths between ports;
- what moved behind each reset at each port: a prefix of what the network sends there, and no word that it wouldn't receive;
- that offers stand, and that nothing is driven in reset;
- that in the long end each output gets as far as a run with FIFOs of the package's own depths does;
- the cycle of each word of a proc without inner channels that is always fed from its reset on.

Prints the first few that differ, and ends with 1.
"""

import argparse
import concurrent.futures
import itertools
import os
import random
import subprocess
import sys
import tempfile
from collections import Counter

import block_model as block
import fuzz_ir
import ir_model as ir
from block_model import Row
from ir_model import Channel, Package, Proc, bits

MOST_STAGES = 64
FED_ACTIVATIONS = 6
TIMED_ACTIVATIONS = 12
QUICK = "add sub and or xor".split()


# ---- packages


class Writer(fuzz_ir.Writer):
    """Writes few divisions and products of wide numbers: they'd be slower than all else, and leave one stage to the rest."""

    def binary(self):
        first = self.bits()
        op = self.rng.choice(ir.BINARY if self.width(first) <= 4 or self.rng.random() < 0.05 else QUICK)
        self.add(op, self.types[first], [first, self.of_type(self.types[first])])


def some_proc(rng, name, sites):
    """A proc with these sites, pairs of a channel and whether it is received from."""
    state = fuzz_ir.some_type(rng) if rng.random() < 0.8 else ("tuple", [])
    writer = Writer(rng, state)
    most = rng.choice([2, 4, 8])
    for _ in range(rng.randint(0, most)):
        writer.pure()
    token = writer.add("after_all", ir.TOKEN, []) if sites or rng.random() < 0.5 else None
    for channel, receives in sites:
        for _ in range(rng.randint(0, most)):
            writer.pure()
        token = writer.site(channel, receives, token)
    for _ in range(rng.randint(0, most)):
        writer.pure()
    return Proc(name, state, fuzz_ir.some_constant(rng, state), writer.nodes, rng.choice(writer.those(lambda ty: ty == state)))


def some_channel(rng, number):
    kind = rng.choice(["input", "output", "inner", "inner"])
    name = rng.choice(["c%d", "P.0/c%d", "id%d"] if kind == "inner" else ["c%d", "chan%d", "st_%d"]) % number
    return Channel(name, fuzz_ir.some_type(rng), number, kind, rng.choice([1, 1, 2, 3]) if kind == "inner" else None)


def some_package(rng):
    count = rng.choice([1, 1, 2, 3, 4])
    channels, sites = [some_channel(rng, number) for number in range(rng.randint(1, 3 + count))], [[] for _ in range(count)]
    for channel in channels:
        if channel.kind != "output" and rng.random() < 0.95:
            rng.choice(sites).append((channel, True))
        if channel.kind != "input" and rng.random() < 0.95:
            rng.choice(sites).append((channel, False))
    for own in sites:
        rng.shuffle(own)
        if rng.random() < 0.6:
            own.sort(key=lambda site: not site[1])
    return Package("Main", channels, [some_proc(rng, rng.choice(["P%d", "Main.%d", "a/b%d"]) % i, own) for i, own in enumerate(sites)])


def some_pipelines(rng, package):
    """A clock at which each proc has stages enough, as short as may be in most cases, and the pipelines."""
    slowest = max([1] + [delay for proc in package.procs for delay in block.Timed(proc).delays])
    clock = rng.choice([slowest, slowest, slowest + rng.randint(0, 60), 2 * slowest, 1000000])
    while True:
        pipelines = block.pipelines_of(package, clock)
        if max(pipeline.depth for pipeline in pipelines) <= MOST_STAGES:
            return clock, pipelines
        clock *= 2


# ---- rows


def some_words(rng, package, chances):
    return {c.name: rng.getrandbits(ir.flat_width(c.ty)) for c in package.channels if c.kind == "input" and rng.random() < chances[c.name]}


def some_rows(rng, package, bursts):
    """Rows before a reset, the reset, and bursts of offers and stalls, resets among them."""
    rows, outputs = [], [c.name for c in package.channels if c.kind == "output"]
    resets = rng.choice([0, 0, 0.02, 0.05])
    for burst in range(bursts):
        chances = {c.name: rng.choice([0, 0.2, 0.5, 0.8, 1]) for c in package.channels}
        words, stays = {}, rng.choice([0, 0, 0.5, 0.9])
        for k in range(rng.randint(6, 16)):
            if rng.random() >= stays:
                words = some_words(rng, package, chances)
            rows.append(Row(burst == 1 and k == 0 or rng.random() < resets, words, [name for name in outputs if rng.random() < chances[name]]))
    return rows


def fed_cycles(pipelines):
    """So many cycles are enough for some activations of each proc, whatever is inside at first."""
    return sum((FED_ACTIVATIONS + pipeline.depth) * (pipeline.depth + 2 * len(pipeline.sites) + 2) for pipeline in pipelines)


def fed_rows(rng, package, count, reset):
    """Rows in which each input has a word and each output is ready."""
    always, outputs = dict.fromkeys([c.name for c in package.channels], 1), [c.name for c in package.channels if c.kind == "output"]
    rows = [Row(True, some_words(rng, package, always), outputs)] if reset else []
    return rows + [Row(False, some_words(rng, package, always), outputs) for _ in range(count)]


# ---- what is wrong


class Judge:
    """Compares what a block did over rows with what it has to do; `wrong` has what differs."""

    def __init__(self, package, pipelines, rows, cycles):
        self.package, self.pipelines, self.rows, self.cycles = package, pipelines, rows, cycles
        self.outer = block.outer(package.channels)
        self.last = max(i for i, row in enumerate(rows) if row.reset)
        self.wrong = []

    def want(self, name, got, wanted):
        if got != wanted:
            self.wrong.append(f"{name}: {got}, wanted {wanted}")

    def module(self, module):
        self.want("name", module.name, self.package.name + "_top")
        self.want("ports", module.ports, block.ports_wanted(self.package))
        most = block.most_registers(self.package, self.pipelines)
        if len(module.registers) > most:
            self.wrong.append(f"{len(module.registers)} registers, at most {most}")
        allowed = block.ways_allowed(self.package, self.pipelines)
        for name, way, _ in module.ports:
            if way == "output":
                self.want(f"{name} depends on", sorted(module.reaches(name) - allowed.get(name, set())), [])

    def shown(self):
        """Each cycle by itself and beside the next one."""
        self.want("cycles", len(self.cycles.cycles), len(self.rows))
        first = min(i for i, row in enumerate(self.rows) if row.reset)
        for i, (row, (asks, valid)) in enumerate(zip(self.rows, self.cycles.cycles)):
            if row.reset:
                self.want(f"driven in reset, cycle {i}", (asks, valid), (set(), {}))
            following = self.rows[i + 1] if i + 1 < len(self.rows) else Row(True)
            for name, word in valid.items():
                if i > first and name not in row.ready and not following.reset:
                    self.want(f"offer of {name} that stands, cycle {i + 1}", self.cycles.cycles[i + 1][1].get(name), word)

    def parts(self):
        """The first row and the number of rows behind each reset, up to the next one."""
        resets = [i for i, row in enumerate(self.rows) if row.reset] + [len(self.rows)]
        return [(one + 1, other - one - 1) for one, other in zip(resets, resets[1:])]

    def moves(self, start, count):
        """The words that moved in so many rows from one on, and in which of them."""
        words, when = {c.name: [] for c in self.outer}, {c.name: [] for c in self.outer}
        for i in range(start, start + count):
            row, (asks, valid) = self.rows[i], self.cycles.cycles[i]
            for channel in self.outer:
                name = channel.name
                word = row.offered.get(name) if channel.kind == "input" else valid.get(name)
                if word is not None and name in (asks if channel.kind == "input" else row.ready):
                    words[name].append(word)
                    when[name].append(i - start)
        return words, when

    def network(self, words, count):
        """The words of so many rows behind a reset are fronts of the network's, and it receives all that were taken."""
        counts = {name: len(moved) for name, moved in words.items()}
        inputs = {c.name: words[c.name] for c in self.outer if c.kind == "input"}
        run = block.Run(self.package, inputs, count, block.ENDLESS).until(counts)
        for channel in self.outer:
            self.want(f"words of {channel.name}", words[channel.name], run.words(channel)[:len(words[channel.name])])

    def progress(self, words):
        """As much moved as in a run with the package's own depths, in which the inputs don't end."""
        more = {c.name: words[c.name] + [0] * len(self.rows) for c in self.outer if c.kind == "input"}
        run = block.Run(self.package, more, FED_ACTIVATIONS).whole()
        for channel in self.outer:
            if len(words[channel.name]) < run.count(channel):
                self.wrong.append(f"{channel.name} moved {len(words[channel.name])} words, wanted {run.count(channel)}")

    def steady(self, words, when):
        """The cycle of each word of a proc that waits for nobody, from a reset on."""
        inputs = {c.name: words[c.name] for c in self.outer if c.kind == "input"}
        run = block.Run(self.package, inputs, TIMED_ACTIVATIONS, block.ENDLESS).whole()
        inner = {c.name for c in self.package.channels if c.kind == "inner"}
        for pipeline in self.pipelines:
            if any(node.attributes["channel"] in inner for node, _ in pipeline.sites):
                continue
            for node, stage in pipeline.sites:
                name = node.attributes["channel"]
                activations = run.activations[name, "recv" if node.op == "receive" else "send"]
                cycles = [i * pipeline.interval + stage for i in activations if i * pipeline.interval + stage < len(self.rows) - self.last - 1]
                self.want(f"cycles of {name}", when[name][:len(cycles)], cycles)

    def all(self, module, fed_from_reset):
        """All of this; the words that moved since the last reset."""
        self.module(module)
        self.shown()
        for start, count in self.parts():
            words, when = self.moves(start, count)
            self.network(words, count)
        self.want("moved", self.cycles.moved, words)
        self.progress(words)
        if fed_from_reset:
            self.steady(words, when)
        return words


# ---- the program


def called(program, folder, words):
    done = subprocess.run([program, *words.split()], cwd=folder, capture_output=True, text=True, check=False)
    return done.stdout, f"{words}: status {done.returncode} {done.stderr.strip()}" if done.returncode else None


def put(folder, name, text):
    with open(os.path.join(folder, name), "w", encoding="utf-8") as file:
        file.write(text)


def compared(program, folder, seed):
    """What is wrong of the package of a seed, and counts of what it has."""
    rng = random.Random(seed)
    package = some_package(rng)
    clock, pipelines = some_pipelines(rng, package)
    reset = rng.random() < 0.5
    rows = some_rows(rng, package, rng.randint(4, 7)) + fed_rows(rng, package, fed_cycles(pipelines), reset)
    put(folder, "f.ir", ir.text_of(package))
    put(folder, "f.txt", block.rows_text(rows))
    depth, interval = max(pipeline.depth for pipeline in pipelines), max(pipeline.interval for pipeline in pipelines)
    text, failed = called(program, folder, f"verilog f.ir --clock {clock} --stages {depth} --ii {interval} --from ir")
    put(folder, "f.v", text)
    out, failed = (None, failed) if failed else called(program, folder, "sim f.v f.txt")
    if failed:
        return [failed], {}
    judge = Judge(package, pipelines, rows, block.Cycles(out))
    words = judge.all(block.Module(text), reset)
    return judge.wrong, {f"interval {min(interval, 4)}": 1, f"stages {min(depth, 8)}": 1, "words": sum(map(len, words.values())), "rows": len(rows)}


def tried(program, seed, keep):
    """The same, in a folder that is kept where one is named."""
    if keep:
        folder = os.path.join(keep, str(seed))
        os.makedirs(folder, exist_ok=True)
        return compared(program, folder, seed)
    with tempfile.TemporaryDirectory() as folder:
        return compared(program, folder, seed)


def main():
    ap = argparse.ArgumentParser(description=__doc__.splitlines()[0])
    ap.add_argument("program")
    ap.add_argument("first", type=int)
    ap.add_argument("last", type=int)
    ap.add_argument("--jobs", type=int, default=1)
    ap.add_argument("--keep", help="a folder for all files")
    asked = ap.parse_args()
    program, seeds, differing, counted = os.path.abspath(asked.program), range(asked.first, asked.last), 0, Counter()
    with concurrent.futures.ProcessPoolExecutor(asked.jobs) as pool:
        for seed, (wrong, counts) in zip(seeds, pool.map(tried, itertools.repeat(program), seeds, itertools.repeat(asked.keep))):
            counted.update(counts)
            if wrong:
                differing += 1
                print(f"=== seed {seed}\n" + "".join(f"  {line[:400]}\n" for line in wrong[:5]), flush=True)
            if differing >= 3:
                pool.shutdown(cancel_futures=True)
                break
    if differing:
        sys.exit(1)
    print(f"{len(seeds)} packages: none differs")
    print(", ".join(f"{name}: {counted[name]}" for name in sorted(counted)) + " (packages whose longest interval and pipeline is this, or more)")


if __name__ == "__main__":
    main()
