#!/usr/bin/env python3
"""Measures what `xls verilog` takes for large packages, beside `xls schedule` of the same: processor time, the most memory, and what is printed.

    tools/block_speed.py PROGRAM [NODES ..]

Forms: `chain`, adders in a row in 64 stages; `wide`, inverters side by side and a tree of xors, in one stage; `procs`, a hundred procs in a row
with FIFOs between; `live`, values that 64 stages carry on to the last one. By hand; with the proved program alone do the numbers say something.
"""

import os
import subprocess
import sys
import tempfile

HEAD = ["  after_all.1: token = after_all(id=1)", "  receive.2: (token, bits[8]) = receive(after_all.1, channel={}, id=2)",
        "  tuple_index.3: token = tuple_index(receive.2, index=0, id=3)", "  tuple_index.4: bits[8] = tuple_index(receive.2, index=1, id=4)"]


class Proc:
    """The lines of a proc that receives x, works on it and sends the result."""

    def __init__(self, name, from_, to):
        self.lines, self.to = [f"proc {name}(st: (), init=()) {{"] + [line.format(from_) for line in HEAD], to
        self.count = 4

    def add(self, op, *operands):
        self.count += 1
        self.lines.append(f"  {op}.{self.count}: bits[8] = {op}({', '.join(operands)}, id={self.count})")
        return f"{op}.{self.count}"

    def sent(self, operand):
        self.count += 1
        return self.lines + [f"  send.{self.count}: token = send(tuple_index.3, {operand}, channel={self.to}, id={self.count})", "  next(st)", "}"]


def in_a_row(proc, count, op):
    last = "tuple_index.4"
    for _ in range(count):
        last = proc.add(op, last, *["tuple_index.4"] * (op != "not"))
    return proc.sent(last)


def package(procs, channels=2):
    kinds = ["input"] + ["inner, depth=1"] * (channels - 2) + ["output"]
    lines = ["package T"] + [f"chan c{i}(bits[8], id={i}, kind={kind})" for i, kind in enumerate(kinds)]
    return "\n".join(lines + [line for proc in procs for line in proc]) + "\n"


def chain(nodes):
    return package([in_a_row(Proc("P", "c0", "c1"), nodes, "add")]), -(-nodes // 64) * 80


def folded(proc, level):
    while len(level) > 1:
        level = [proc.add("xor", *level[i:i + 2]) if level[i + 1:i + 2] else level[i] for i in range(0, len(level), 2)]
    return proc.sent(level[0])


def wide(nodes):
    proc = Proc("P", "c0", "c1")
    return package([folded(proc, [proc.add("not", "tuple_index.4") for _ in range(nodes // 2)])]), 1000


def procs(nodes):
    return package([in_a_row(Proc(f"P{i}", f"c{i}", f"c{i + 1}"), nodes // 100, "not") for i in range(100)], 101), 20 * (nodes // 6400 + 1)


def live(nodes):
    proc, last = Proc("P", "c0", "c1"), "tuple_index.4"
    kept = [proc.add("not", last) for _ in range(nodes // 128)]
    for _ in range(60):
        last = proc.add("add", last, "tuple_index.4")
    return package([folded(proc, [proc.add("xor", last, value) for value in kept])]), 80


def timed(program, folder, command, clock):
    words = ["/usr/bin/time", "-f", "%U %M", program, *f"{command} f.ir --clock {clock} --from ir".split()]
    done = subprocess.run(words, cwd=folder, capture_output=True, text=True, check=False)
    seconds, memory = done.stderr.split("\n")[-2].split(" ")
    return done, f"{command} {seconds} s {int(memory) // 1024} MB"


def main():
    program = os.path.abspath(sys.argv[1])
    for form in (chain, wide, procs, live):
        for nodes in map(int, sys.argv[2:] or ["1000", "10000", "80000"]):
            text, clock = form(nodes)
            with tempfile.TemporaryDirectory() as folder:
                with open(os.path.join(folder, "f.ir"), "w", encoding="utf-8") as file:
                    file.write(text)
                _, one = timed(program, folder, "schedule", clock)
                done, other = timed(program, folder, "verilog", clock)
            registers, wires = done.stdout.count("\nreg "), done.stdout.count("\nwire ")
            said = f"{registers} registers, {wires} wires, {len(done.stdout)} bytes" if done.returncode == 0 else done.stderr.split("\n")[0]
            print(f"{form.__name__} {nodes}: {len(text)} bytes of IR; {one}, {other}; {said}", flush=True)


if __name__ == "__main__":
    main()
