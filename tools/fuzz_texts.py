#!/usr/bin/env python3
"""Compares what the program answers to random texts with what the second readers say (tools/second_readers.py).

    tools/fuzz_texts.py PROGRAM COUNT SEED

The package, the module, the channel file and the row file of tools/check_cuts.py, each changed COUNT times: bytes, tokens and lines are left
out, put in and exchanged. Channel files and row files must be answered exactly, and so must packages and modules that are out of form; of
others the answer must be one that a text of their language may have. Prints each that is answered otherwise, and ends with 1 if there is
one. (Designs: `fuzz_check.py`; packages by their rules: `fuzz_ir.py`.)
"""

import os
import random
import re
import shutil
import sys
import tempfile
from collections import Counter
from functools import partial

import check_cuts
import second_readers as readers
from run_tests import answer, shown

TOKEN = re.compile(rb"[A-Za-z_0-9.$']+|\s|.", re.S)
BYTES = b"\0\t\n\r \"#$'/0x\\`\x7f\x80\xc3\xff"


# ---- Changes of a text

def another_byte(rng, text):
    at = rng.randrange(len(text))
    return text[:at] + bytes([rng.choice(text + BYTES)]) + text[at + 1:]


def one_byte_more(rng, text):
    at = rng.randrange(len(text))
    return text[:at] + bytes([rng.choice(BYTES)]) + text[at:]


def one_byte_less(rng, text):
    at = rng.randrange(len(text))
    return text[:at] + text[at + 1:]


def of_parts(parts, glue, rng, text):
    """A part of the text stands in place of another, before it, or not at all."""
    found = parts(text)
    at = rng.randrange(len(found))
    found[at:at + rng.randrange(2)] = rng.choice([[], [rng.choice(found)]])
    return glue.join(found)


TOKENS = partial(of_parts, TOKEN.findall, b"")
LINES = partial(of_parts, lambda text: text.split(b"\n"), b"\n")
CHANGES = [another_byte, one_byte_more, one_byte_less, TOKENS, TOKENS, TOKENS, LINES]


def changed(rng, text):
    for _ in range(rng.choice([1, 1, 1, 2, 3])):
        text = rng.choice(CHANGES)(rng, text)
    return text


# ---- What is wanted

def in_form(reader, text):
    """What is given for a text that is out of form; None for any other."""
    try:
        reader(text)
    except readers.Fault as fault:
        return check_cuts.line_of(fault)
    return None


def is_of_a_text(text, got):
    """Whether a package or a module in form may be answered so."""
    out, err, status = got
    if status == 0:
        return out != b"" and err == b""
    rule = re.fullmatch(rb"f\.x: rule [0-9]+ at ([0-9]+)\.\.([0-9]+)\n", err)
    limit = re.fullmatch(rb"f\.x: limit [a-z]+: [0-9]+, at most [0-9]+\n", err)
    other = re.fullmatch(rb"a_little_of_all\.txt: input [a-z]+ at [0-9]+\n", err)
    return out == b"" and bool(rule and status == 7 and int(rule[1]) < int(rule[2]) <= len(text) or limit and status == 8 or other and status == 10)


SUBJECTS = [
    ("ir/a_little_of_all", ".ir", partial(in_form, readers.read_ir)),
    ("sim/a_little_of_all", ".v", partial(in_form, readers.read_verilog)),
    ("inputs/a_little_of_all", ".txt", check_cuts.channels),
    ("rows/a_little_of_all", ".txt", check_cuts.rows),
]


def fuzz(program, name, kind, wanted, count, rng):
    """How many texts are answered otherwise."""
    subject, told, differing = check_cuts.of_case(name, kind, lambda _, __: wanted), Counter(), 0
    with tempfile.TemporaryDirectory() as parent:
        folder = shutil.copytree(subject.folder, os.path.join(parent, "files"))
        for _ in range(count):
            text = changed(rng, subject.text)
            with open(os.path.join(folder, check_cuts.CUT), "wb") as file:
                file.write(text)
            got, want = answer(program, subject.words, folder), wanted(text)
            told[got[2]] += 1
            is_right = is_of_a_text(text, got) if want is None else got == (want[0].encode(), want[1].encode(), want[2])
            if not is_right:
                differing += 1
                print(f"=== {name}: {shown(got)}, wanted {want}\n{text!r}\n", flush=True)
    print(f"{name}: {count} texts, {differing} answered otherwise; by status:", dict(sorted(told.items())))
    return differing


def main():
    program, count, rng = os.path.abspath(sys.argv[1]), int(sys.argv[2]), random.Random(int(sys.argv[3]))
    sys.exit(sum(fuzz(program, *subject, count, rng) for subject in SUBJECTS) > 0)


if __name__ == "__main__":
    main()
