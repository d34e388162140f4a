#!/usr/bin/env python3
"""Runs one network by several numbers of workers, and compares what is written byte for byte.

    tools/compare_workers.py PROGRAM [--times 200] [--procs 255] [--words 100000] [--work 0] [--workers 1,2,4]

The network is an IR package: a row of procs, each of which receives a word, steps it WORK + 1 times and sends it on. The
channels between them have depths of 1 to 5, and so many words go in at the front that WORDS go over all channels. What must be
written is computed here, from the package's meaning. Prints the first run that differs, and ends with 1; else, for each number of
workers, the least and the middle of the times that the runs took, and how many times faster that is than by the first number.
"""

import argparse
import os
import subprocess
import sys
import tempfile
import time

MASK = 2**32 - 1


def package(procs, work):
    lines = ["package Row", "chan c0(bits[32], id=0, kind=input)"]
    for c in range(1, procs):
        lines.append(f"chan c{c}(bits[32], id={c}, kind=inner, depth={c % 5 + 1})")
    lines.append(f"chan c{procs}(bits[32], id={procs}, kind=output)")
    for p in range(procs):
        lines += [
            f"proc P{p}(st: bits[32], init={p}) {{",
            "  after_all.1: token = after_all(id=1)",
            f"  receive.2: (token, bits[32]) = receive(after_all.1, channel=c{p}, id=2)",
            "  tuple_index.3: token = tuple_index(receive.2, index=0, id=3)",
            "  tuple_index.4: bits[32] = tuple_index(receive.2, index=1, id=4)",
            "  literal.5: bits[32] = literal(value=5, id=5)",
            "  add.6: bits[32] = add(tuple_index.4, st, id=6)",
        ]
        name, at = "add.6", 7
        for _ in range(work):
            lines.append(f"  umul.{at}: bits[32] = umul({name}, literal.5, id={at})")
            lines.append(f"  add.{at + 1}: bits[32] = add(umul.{at}, st, id={at + 1})")
            name, at = f"add.{at + 1}", at + 2
        lines.append(f"  send.{at}: token = send(tuple_index.3, {name}, channel=c{p + 1}, id={at})")
        lines.append("  next(st)")
        lines.append("}")
    return "\n".join(lines) + "\n"


def stepped(word, state, work):
    word = (word + state) & MASK
    for _ in range(work):
        word = (word * 5 + state) & MASK
    return word


def outcome(procs, words, work):
    """What is written once all words have gone through."""
    shown = lambda words: "".join(f" 0x{word:08x}" for word in words)
    count, lines = len(words), [f"in c0 {len(words)}:{shown(words)}"]
    for p in range(procs):
        words = [stepped(word, p, work) for word in words]
        head = f"out c{p + 1} {count}" if p + 1 == procs else f"chan c{p + 1} {count}/{count}"
        lines.append(f"{head}:{shown(words)}")
    lines += [f"proc P{p} state 0x{p:08x} done" for p in range(procs)]
    return "\n".join(lines) + "\n"


def run(program, count, workers, folder):
    words = ["run", "row.ir", "words.txt", "--activations", str(count), "--from", "ir", "--workers", str(workers)]
    begin = time.monotonic()
    done = subprocess.run([program, *words], cwd=folder, capture_output=True, timeout=3600)
    return done, time.monotonic() - begin


def compare(program, said, folder):
    count = -(-said.words // (said.procs + 1))
    words = [(0x9E3779B1 * (k + 1)) & MASK for k in range(count)]
    with open(os.path.join(folder, "row.ir"), "w", encoding="utf-8") as file:
        file.write(package(said.procs, said.work))
    with open(os.path.join(folder, "words.txt"), "w", encoding="utf-8") as file:
        file.write("chan c0\n" + "".join(f"0x{word:08x}\n" for word in words))
    expected = outcome(said.procs, words, said.work).encode()
    took = {workers: [] for workers in said.workers}
    for number in range(said.times):
        for workers in said.workers:
            done, seconds = run(program, count, workers, folder)
            if (done.returncode, done.stdout, done.stderr) != (0, expected, b""):
                print(f"run {number} by {workers} workers: status {done.returncode}, {len(done.stdout)} bytes, {done.stderr[:200]!r}")
                return 1
            took[workers].append(seconds)
    first = sorted(took[said.workers[0]])
    for workers in said.workers:
        times = sorted(took[workers])
        middle, ratio = times[len(times) // 2], first[0] / times[0]
        print(f"{workers} workers: {times[0]:.2f} s at least, {middle:.2f} s in the middle, {ratio:.2f} times as fast")
    print(f"{said.times} runs each of {said.procs} procs, {count * (said.procs + 1)} words: all alike")
    return 0


def main():
    reader = argparse.ArgumentParser(usage=__doc__)
    reader.add_argument("program")
    reader.add_argument("--times", type=int, default=200)
    reader.add_argument("--procs", type=int, default=255)
    reader.add_argument("--words", type=int, default=100_000)
    reader.add_argument("--work", type=int, default=0)
    reader.add_argument("--workers", type=lambda text: [int(word) for word in text.split(",")], default=[1, 2, 4])
    said = reader.parse_args()
    with tempfile.TemporaryDirectory() as folder:
        return compare(os.path.abspath(said.program), said, folder)


if __name__ == "__main__":
    sys.exit(main())
