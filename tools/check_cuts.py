#!/usr/bin/env python3
"""Runs the built program over texts that are cut after each of their bytes.

    tools/check_cuts.py PROGRAM

A design, a package, a module, a channel file and a row file, each with a little of all that it may have, stand among the cases of tests/.
What each cut must give is known without the program: `dslx_reader.py` and `second_readers.py` find the first fault of its text, and what
a text without one gives stands beside it or is worked here. Output, error line and status must be just that. Prints the first cuts that
are answered otherwise, and ends with 1 where there is one. (`check_ir.py` cuts another package.)
"""

import concurrent.futures
import os
import re
import shutil
import sys
import tempfile
from functools import partial
from typing import Callable, NamedTuple

import dslx_reader
import fuzz_check
import second_readers as readers
from dslx_syntax import Refused
from run_tests import SHOWN, TESTS, answer, case_of, shown

# The cuts of a text are tried in so many shares, side by side.
SHARES = 4 * os.cpu_count()
CUT = "f.x"

# ---- What is wanted of a cut: its output, its error line and its status. Of an output of which nothing is said here there is None.


def line_of(fault):
    """What is given for a text with this fault."""
    return "", f"{CUT}: {fault.cause} at {fault.place}\n", 6 if fault.cause == "syntax" else 10


def checked(text):
    """What `check` gives for a design."""
    try:
        status, out, err = fuzz_check.wanted(dslx_reader.read_text(text))
    except Refused as refused:
        return "", f"{CUT}: {refused}\n", 6
    return out, err, status


def design(whole, outcome, text):
    """A run. Where the last proc isn't there yet the one before is the top, and has no input of the name in the channel file."""
    out, err, status = checked(text)
    if status:
        return out, err, status
    is_whole = text.split() == whole.split()
    return (outcome, "", 0) if is_whole else ("", "a_little_of_all.txt: input name at 0\n", 10)


def package(outcome, text):
    """A run. Where the second proc isn't there yet it receives nothing, and isn't in the outcome."""
    try:
        readers.read_ir(text)
    except readers.Fault as fault:
        return line_of(fault)
    if text.count(b"next(st)"):
        return outcome, "", 0
    first, _ = re.sub("(chan c [0-9]*)/[0-9]*", r"\1/0", outcome).rsplit("proc", 1)
    return first, "", 0


def passed(text):
    """What the other commands give for a package."""
    try:
        readers.read_ir(text)
    except readers.Fault as fault:
        return line_of(fault)
    return None, "", 0


def module(outcome, text):
    try:
        readers.read_verilog(text)
    except readers.Fault as fault:
        return line_of(fault)
    return outcome, "", 0


def stream(direction, name, words, form):
    return f"{direction} {name} {len(words)}:" + "".join(" " + readers.value_text(word, form) for word in words) + "\n"


def channels(text):
    """A run of a proc that takes words of `a` and of `x` in turn, and passes each on."""
    forms = {"a": 8, "x": ("(", [1, ("[", [5, 5])])}
    try:
        found = readers.read_channels(text, forms)
    except readers.Fault as fault:
        return line_of(fault)
    turns = min(len(found["a"]), len(found["x"]))
    at = "x" if len(found["a"]) > turns else "a"
    words = {"a": found["a"][:turns + 1], "x": found["x"][:turns]}
    lines = [stream(direction, shown_as, words[name], forms[name])
             for direction, names in (("in", "ax"), ("out", "by")) for shown_as, name in zip(names, "ax")]
    return "".join(lines) + f"proc Main state () stalled {turns} recv {at}\n", "", 0


def rows(text):
    """A simulation of wires, through which each word goes straight. What was transferred is counted from the last reset on."""
    try:
        found = readers.read_rows(text, {"a": 8}, {"b"})
    except readers.Fault as fault:
        return line_of(fault)
    lines, moved = [], []
    for number, (is_reset, offered, ready) in enumerate(found):
        words = list(offered.values())
        is_ready = "b" in ready
        lines.append(str(number) + " a!" * is_ready + "".join(" b=" + readers.value_text(word, 8) for word in words) + "\n")
        moved = [] if is_reset else moved + words * is_ready
    return "".join(lines) + stream("moved", "a", moved, 8) + stream("moved", "b", moved, 8), "", 0


# ---- The texts that are cut

class Subject(NamedTuple):
    """A text, the words of a call that reads it as the file `CUT`, the folder of its other file, and what a cut of it must give."""
    what: str
    text: bytes
    words: list
    folder: str
    wanted: Callable


def contents(path):
    with open(path, "rb") as file:
        return file.read()


def of_case(name, kind, wanted):
    """The file of this kind of the case, in the case's call."""
    case = case_of(name)
    path = case.base + kind
    words = [CUT if word == os.path.basename(path) else word for word in case.calls[0]]
    return Subject(name, contents(path), words, case.folder, wanted(case, contents(path)))


def of_words(name, words, wanted):
    """A file of tests/ in a call of these words."""
    return Subject(f"{name}, {words}", contents(os.path.join(TESTS, name)), words.split(), TESTS, wanted)


def outcome_of(case):
    return case.wanted[0].decode()


def printed(program):
    """The module that the program writes of the adders of a package, over rows that let two words through."""
    folder = os.path.join(TESTS, "verilog")
    text, _, _ = answer(program, ["verilog", "chain.ir", "--clock", "100", "--from", "ir"], folder)
    case = case_of("verilog/pipeline_of_three_stages")
    return Subject("a module that was printed", text, ["sim", CUT, os.path.basename(case.rows)], folder, partial(module, outcome_of(case)))


def subjects(program):
    return [
        of_words("dslx/a_little_of_all.x", f"check {CUT}", checked),
        of_case("dslx/a_little_of_all", ".x", lambda case, text: partial(design, text, outcome_of(case))),
        of_words("designs/inc.x", f"check {CUT}", checked),
        of_case("ir/a_little_of_all", ".ir", lambda case, _: partial(package, outcome_of(case))),
        of_words("ir/a_little_of_all.ir", f"opt {CUT} --from ir", passed),
        of_words("ir/a_little_of_all.ir", f"schedule {CUT} --clock 1000 --from ir", passed),
        of_words("ir/a_little_of_all.ir", f"verilog {CUT} --clock 1000 --from ir", passed),
        of_case("sim/a_little_of_all", ".v", lambda case, _: partial(module, outcome_of(case))),
        printed(program),
        of_case("inputs/a_little_of_all", ".txt", lambda _, __: channels),
        of_case("rows/a_little_of_all", ".txt", lambda _, __: rows),
    ]


# ---- Trying them

def difference(program, subject, folder, cut):
    """How a cut is answered otherwise; None where it isn't."""
    with open(os.path.join(folder, CUT), "wb") as file:
        file.write(cut)
    out, err, status = answer(program, subject.words, folder)
    wanted_out, wanted_err, wanted_status = subject.wanted(cut)
    is_said = wanted_out is not None
    wanted = wanted_out.encode() if is_said else out, wanted_err.encode(), wanted_status
    if (out, err, status) == wanted and (is_said or out):
        return None
    return f"{subject.what}, cut after {len(cut)} bytes:\n  got    {shown((out, err, status))}\n  wanted {shown(wanted)}"


def try_share(program, subject, share):
    """The first difference among a share of the cuts of a text, and how many cuts were tried."""
    tried = 0
    with tempfile.TemporaryDirectory() as folder:
        for word in subject.words:
            if os.path.isfile(os.path.join(subject.folder, word)):
                shutil.copy(os.path.join(subject.folder, word), folder)
        for end in range(share, len(subject.text) + 1, SHARES):
            tried += 1
            said = difference(program, subject, folder, subject.text[:end])
            if said:
                return said, tried
    return None, tried


def main():
    program = os.path.abspath(sys.argv[1])
    shares = [(subject, share) for subject in subjects(program) for share in range(SHARES)]
    with concurrent.futures.ProcessPoolExecutor() as pool:
        found = list(pool.map(partial(try_share, program), *zip(*shares)))
    differences = [said for said, _ in found if said]
    for said in differences[:SHOWN]:
        print(said)
    print(f"{len(shares) // SHARES} texts, cut in {sum(tried for _, tried in found)} places: {len(differences)} shares with a difference")
    sys.exit(bool(differences))


if __name__ == "__main__":
    main()
