#!/usr/bin/env python3
"""Prints the blocks of the examples by `xls verilog`, simulates them by `xls sim`, and compares them with what Python works out.

    tools/check_blocks.py PROGRAM            the checks
    tools/check_blocks.py PROGRAM --table    registers and wires of each example at three clocks, for docs/BLOCKS.md
    tools/check_blocks.py --cases            writes the cases tests/verilog/*_always_fed, by no program

Each example is printed at three clocks and simulated over rows with stalls and resets, by the checks of `fuzz_blocks.py`. Beside these
the words of fir.ir, arbiter.ir and crc.ir are those of the functions below, which know no IR (the sums of crc.ir are zlib's).
"""

import os
import random
import sys
import tempfile
import zlib

import block_model as block
import fuzz_blocks as fuzz
import ir_model as ir

EXAMPLES = os.path.join(os.path.dirname(os.path.dirname(os.path.abspath(__file__))), "examples")
CLOCKS = {"arbiter": (70, 140, 1000), "ask": (100, 200, 1000), "chain": (100, 200, 1000), "crc": (60, 240, 1000), "fir": (320, 420, 1000),
          "sum": (100, 200, 1000), "two": (80, 200, 1000)}


def signed(number, width):
    return number - 2 ** width if number >> width - 1 else number


def filtered(words):
    """The filter of fir.ir: four products, added."""
    line = [0, 0, 0] + [signed(word, 16) for word in words]
    return [sum(c * line[i + 3 - k] for k, c in enumerate((3, -5, 11, 2))) % 2 ** 32 for i in range(len(words))]


def granted(words):
    """The grants of arbiter.ir: the next place behind the last grant, round the ring of four, that asks."""
    grants, last = [], 3
    for word in words:
        places = [(last + 1 + i) % 4 for i in range(4)]
        asks = [place for place in places if word >> place & 1]
        if asks:
            last = asks[0]
            grants.append(1 << last)
    return grants


def sums(words):
    """The sums of crc.ir: of each message zlib's."""
    found, message = [], []
    for word in words:
        message.append(word >> 1)
        if word & 1:
            found.append(zlib.crc32(bytes(message)))
            message = []
    return found


WORKED = {"fir": ("x", "y", filtered), "arbiter": ("requests", "grant", granted), "crc": ("bytes", "sum", sums)}


def package_of(name):
    with open(os.path.join(EXAMPLES, name + ".ir"), encoding="utf-8") as file:
        return block.package_of(file.read())


def printed(program, folder, name, clock):
    """The printed block of an example, or why there is none."""
    return fuzz.called(program, folder, f"verilog {EXAMPLES}/{name}.ir --clock {clock} --from ir")


def wrong_of(program, folder, name, clock):
    """What is wrong of an example at a clock."""
    rng, package = random.Random(f"{name} {clock}"), package_of(name)
    pipelines = block.pipelines_of(package, clock)
    rows = fuzz.some_rows(rng, package, 12) + fuzz.fed_rows(rng, package, fuzz.fed_cycles(pipelines), True)
    text, failed = printed(program, folder, name, clock)
    if not failed:
        fuzz.put(folder, "f.v", text)
        fuzz.put(folder, "f.txt", block.rows_text(rows))
        out, failed = fuzz.called(program, folder, "sim f.v f.txt")
    if failed:
        return [failed]
    judge = fuzz.Judge(package, pipelines, rows, block.Cycles(out))
    words = judge.all(block.Module(text), True)
    if name in WORKED:
        taken, sent, function = WORKED[name]
        wanted = function(words[taken])
        judge.want(f"words of {sent} by hand", words[sent], wanted[:len(words[sent])])
        latest = max(pipeline.depth for pipeline in pipelines)
        if len(words[sent]) < len(wanted) - latest or not words[sent]:
            judge.wrong.append(f"{sent}: {len(words[sent])} words of {len(wanted)}")
    return judge.wrong


def row_of(program, folder, name, clock):
    """A row of the table."""
    package = package_of(name)
    pipelines = block.pipelines_of(package, clock)
    text, failed = printed(program, folder, name, clock)
    if failed:
        raise SystemExit(failed)
    module = block.Module(text)
    stages = " + ".join(str(pipeline.depth) for pipeline in pipelines)
    intervals = " + ".join(str(pipeline.interval) for pipeline in pipelines)
    most = block.most_registers(package, pipelines)
    return f"| `{name}.ir` | {clock} | {stages} | {intervals} | {len(module.registers)} | {most} | {sum(module.registers.values())} | {len(module.wires)} |"


# ---- cases


def shown_always(package, clock, words, function):
    """What `sim` shows of a proc with one input and one output behind a reset, where each word lies ready and each is taken: activation i
    receives in the stage of its receive, i intervals later than the first, and its word is valid in the stage of its send. Behind the last word
    the next activation asks on."""
    pipeline, = block.pipelines_of(package, clock)
    (_, first), (_, last) = pipeline.sites
    into, out = block.outer(package.channels)
    inputs = {into.name: words}
    run = block.Run(package, inputs, len(words), block.ENDLESS).whole()
    sent = dict(zip(run.activations[out.name, "send"], function(words)))
    asks = {i * pipeline.interval + first for i in range(len(words))}
    valid = {i * pipeline.interval + last: word for i, word in sent.items()}
    lines, count = ["0"], max([*asks, *valid]) + 1
    asks |= set(range(len(words) * pipeline.interval + first, count))
    for cycle in range(count):
        line = f"{cycle + 1}" + (f" {into.name}!" if cycle in asks else "")
        lines.append(line + (f" {out.name}={ir.value_text(valid[cycle], ir.bits(ir.flat_width(out.ty)))}" if cycle in valid else ""))
    moved = [(into, words), (out, [valid[cycle] for cycle in sorted(valid)])]
    lines += [" ".join([f"moved {c.name} {len(found)}:"] + [ir.value_text(word, ir.bits(ir.flat_width(c.ty))) for word in found]) for c, found in moved]
    rows = ["R"] + [f"- {into.name}=0x{words[cycle // pipeline.interval]:x} {out.name}!" for cycle in range(len(words) * pipeline.interval)]
    rows = rows[:count + 1] + [f"- {out.name}!"] * (count + 1 - len(rows))
    return rows, lines


CASES = {"fir": (320, [1, 0, 0, 0, 0, 0xffff, 0x8000, 0x7fff]), "arbiter": (70, [0b0101, 0b0101, 0, 0b1111, 0b1111, 0b0001, 0b1000, 0b1110]),
         "crc": (60, [byte << 1 | (i == 8) for i, byte in enumerate(b"123456789")] + [ord("a") << 1 | 1])}


def write_cases():
    folder = os.path.join(os.path.dirname(EXAMPLES), "tests", "verilog")
    os.makedirs(folder, exist_ok=True)
    for name, (clock, words) in CASES.items():
        rows, lines = shown_always(package_of(name), clock, words, WORKED[name][2])
        base = f"{name}_always_fed"
        fuzz.put(folder, base + ".args", "\n".join(["verilog", f"../../examples/{name}.ir", "--clock", str(clock), "--from", "ir"]) + "\n")
        fuzz.put(folder, base + ".rows", "".join(row + "\n" for row in rows))
        fuzz.put(folder, base + ".out", "".join(line + "\n" for line in lines))


def main():
    if sys.argv[1:] == ["--cases"]:
        write_cases()
        return
    program, failed, count = os.path.abspath(sys.argv[1]), 0, 0
    with tempfile.TemporaryDirectory() as folder:
        for name in sorted(CLOCKS):
            for clock in CLOCKS[name]:
                if sys.argv[2:] == ["--table"]:
                    print(row_of(program, folder, name, clock))
                    continue
                count += 1
                for line in wrong_of(program, folder, name, clock)[:3]:
                    failed += 1
                    print(f"{name}.ir at {clock}: {line[:400]}")
    if failed:
        sys.exit(1)
    if count:
        print(f"{count} blocks of the examples do what Python works out")


if __name__ == "__main__":
    main()
