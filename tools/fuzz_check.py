#!/usr/bin/env python3
"""Compares what `check` answers to random texts of whole DSLX with what the second reader says (tools/dslx_reader.py).

    tools/fuzz_check.py PROGRAM COUNT SEED

The texts are those of tools/fuzz_rules.py, which holds the same reader against the definitions. Prints each text that is answered
otherwise, and ends with 1 if there is one.
"""

import os
import random
import subprocess
import sys
import tempfile
import threading
from collections import Counter

import dslx_reader
import fuzz_rules

MOST = {**dslx_reader.LIMITS, "nesting": 128, "instances": dslx_reader.MOST_INSTANCES, "procs": dslx_reader.MOST_PROCS,
        "channels": dslx_reader.MOST_CHANNELS}
STATUSES = {"syntax": 6, "rule": 7, "limit": 8}


def wanted(text):
    """The status, the output and the error line for the reader's answer."""
    answer = dslx_reader.answer_of(text)
    kind, *words = answer.split()
    if kind == "ok":
        return 0, answer + "\n", ""
    line = f"limit {words[0]}: {words[1]}, at most {MOST[words[0]]}" if kind == "limit" else answer
    return STATUSES[kind], "", f"f.x: {line}\n"


def answered(program, text, folder):
    """The same of the program."""
    with open(os.path.join(folder, "f.x"), "wb") as file:
        file.write(text.encode("latin-1"))
    done = subprocess.run([program, "check", "f.x"], cwd=folder, capture_output=True, text=True, check=False)
    return done.returncode, done.stdout, done.stderr


def fuzz(program, count, seed):
    """How many texts are answered otherwise."""
    rng, base, told, differing = random.Random(seed), list(fuzz_rules.examples()), Counter(), 0
    with tempfile.TemporaryDirectory() as folder:
        for number in range(count):
            text = fuzz_rules.text_of(rng, base)
            want, got = wanted(text), answered(program, text, folder)
            told[want[0]] += 1
            if got != want:
                differing += 1
                print(f"=== {number}: {got}, wanted {want}\n{text}\n", flush=True)
    print(f"{count} texts of seed {seed}, {differing} answered otherwise; by status:", dict(sorted(told.items())))
    return differing


def main():
    sys.setrecursionlimit(1000000)
    threading.stack_size(1 << 29)
    found = []
    thread = threading.Thread(target=lambda: found.append(fuzz(os.path.abspath(sys.argv[1]), int(sys.argv[2]), int(sys.argv[3]))))
    thread.start()
    thread.join()
    sys.exit(found != [0])


if __name__ == "__main__":
    main()
