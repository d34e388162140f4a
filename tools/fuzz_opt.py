#!/usr/bin/env python3
"""Optimises random IR packages, runs what comes out, and compares that with what Python works out of the package before (tools/ir_model.py).

    tools/fuzz_opt.py PROGRAM FROM TO

For each seed from FROM up to TO there is one package with its channel file. The text that `opt` writes is run; its outcome must be that
of the model for the package as it was, and what `opt` writes of that text must be the text itself. Prints the first few that differ,
and ends with 1.
"""

import os
import random
import subprocess
import sys
import tempfile

import fuzz_ir
import ir_model as ir


def optimised(program, folder, text):
    """What `opt` writes of a text; None where it refuses it."""
    with open(os.path.join(folder, "o.ir"), "w", encoding="utf-8") as file:
        file.write(text)
    done = subprocess.run([program, "opt", "o.ir", "--from", "ir"], cwd=folder, capture_output=True, text=True, check=False)
    return done.stdout if done.returncode == 0 else None


def differs(program, folder, seed):
    """What is wrong with the optimised package of a seed; None where nothing is."""
    rng = random.Random(seed)
    package = fuzz_ir.some_package(rng)
    inputs, words = fuzz_ir.some_words(rng, package)
    activations, depth = rng.randint(1, 6), rng.choice([None, None, 1, 2, 5])
    text = optimised(program, folder, ir.text_of(package))
    if text is None:
        return "the package is refused"
    wanted = (ir.outcome_of(package, inputs, activations, depth), "", 0)
    got = fuzz_ir.Compared(program, folder).answer(text, words, activations, depth)
    if got != wanted:
        return f"wanted {wanted}, got {got}\n{ir.text_of(package)}--- optimised\n{text}--- words\n{words}"
    return None if optimised(program, folder, text) == text else f"not the same when it is optimised again\n{text}"


def main():
    program, first, last = os.path.abspath(sys.argv[1]), int(sys.argv[2]), int(sys.argv[3])
    wrong = 0
    with tempfile.TemporaryDirectory() as folder:
        for seed in range(first, last):
            found = differs(program, folder, seed)
            if found:
                print(f"=== seed {seed}: {found}")
                wrong += 1
            if wrong == 3:
                break
    if wrong:
        sys.exit(1)
    print(f"{last - first} packages mean the same when they are optimised, and are optimised then")


if __name__ == "__main__":
    main()
