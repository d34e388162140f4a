#!/usr/bin/env python3
"""Runs the built program where no file of tests/ can show what it does.

    tools/check_program.py PROGRAM

Directories, files at the limit and past it, designs and outputs that are too long to keep, full devices, closed streams, outputs
that break off, and a limit of memory. Prints the first case that differs, and ends with 1.
"""

import os
import resource
import signal
import subprocess
import sys
import tempfile

from run_tests import case_of, contents

DESIGN = contents("designs/inc.x")
IN_TEXT = contents("designs/in.txt")
RUN = "run inc.x in.txt --activations 5"
OUTCOME = case_of("designs/run").wanted[0].decode()
USAGE = case_of("words/no_words").wanted[1].decode()
PAST_LIMIT = "limit file: 4194305, at most 4194304\n"

# what it is, the words, the error line, the status
CASES = [
    ("a directory", "check directory", "cannot read directory\n", 4),
    ("a directory as the first file", "run directory in.txt --activations 5", "cannot read directory\n", 4),
    ("a directory as the second file", "run inc.x directory --activations 5", "cannot read directory\n", 4),
    ("a file at the limit, without a proc", "check limit.x", "limit.x: rule 32 at 0..0\n", 7),
    ("a file past the limit", "check big.x", "big.x: " + PAST_LIMIT, 8),
    ("a file past the limit, before a second that isn't there", "run big.x missing.txt --activations 5", "big.x: " + PAST_LIMIT, 8),
    ("a second file past the limit", "run inc.x big.x --activations 5", "big.x: " + PAST_LIMIT, 8),
    ("a second file past the limit, before a design of no form", "run proc.x big.x --activations 5", "big.x: " + PAST_LIMIT, 8),
    ("a package past the limit of files", "run big.x in.txt --activations 3 --from ir", "big.x: " + PAST_LIMIT, 8),
]

# ---- texts that are too long to keep


def many(count, ends, body):
    """A proc with so many outputs."""
    outs = [f"c{i}: chan<u1> out" for i in range(count)]
    names = ", ".join(f"c{i}" for i in range(count))
    sends = " ".join(f"send(join(), c{i}, u1:1);" for i in range(body))
    return f"proc P {{ {'; '.join(outs)}; config({', '.join(outs)}) {{ ({names}) }} init {{ () }} next(s: ()) {{ {sends} }} }}"


def functions(count):
    """So many functions."""
    return "".join(f"fn f{i}() -> u8 {{ u8:1 }}\n" for i in range(count))


def changed(old, new):
    assert old in DESIGN
    return DESIGN.replace(old, new, 1)


def broken(text):
    """The line for the number that is too large in a text."""
    at = text.index("u1:2")
    return f"rule 6 at {at}..{at + 4}"


LETS = "init { " + "let _ = u8:1; " * 32767
WRONG = many(1025, 1025, 1).replace("u1:1);", "u1:2);")
# what it is, the design, its output, its line behind the file's name, the status
LONG = [
    ("65,536 nodes", changed("init { ()", LETS + "()"), "ok procs 1 channels 2\n", "", 0),
    ("65,537 nodes or more", changed("init { ()", LETS + "let _ = u8:1; ()"), "", "limit size: 65537, at most 65536", 8),
    ("1,024 channels", many(1024, 1024, 1), "ok procs 1 channels 1024\n", "", 0),
    ("1,025 channels", many(1025, 1025, 1), "", "limit channels: 1025, at most 1024", 8),
    ("a rule before the channels", WRONG, "", broken(WRONG), 7),
    ("4,096 instances", functions(4095) + DESIGN, "ok procs 1 channels 2\n", "", 0),
    ("4,097 instances", functions(4096) + DESIGN, "", "limit instances: 4097, at most 4096", 8),
    ("4,097 procs, before all rules", "".join(f"proc P{i} {{ config() {{ }} init {{ x }} next(s: ()) {{ }} }}\n" for i in range(4097)),
     "", "limit instances: 4097, at most 4096", 8),
]


def row_of(count):
    """A package of procs in a row, each of which passes on what it receives, between an input and an output."""
    kinds = ["input"] + ["inner, depth=1"] * (count - 1) + ["output"]
    chans = "".join(f"chan c{i}(bits[8], id={i}, kind={kind})\n" for i, kind in enumerate(kinds))
    return "package Row\n" + chans + "".join(f"""proc P{i}(st: bits[1], init=0) {{
  after_all.1: token = after_all(id=1)
  receive.2: (token, bits[8]) = receive(after_all.1, channel=c{i}, id=2)
  tuple_index.3: token = tuple_index(receive.2, index=0, id=3)
  tuple_index.4: bits[8] = tuple_index(receive.2, index=1, id=4)
  send.5: token = send(tuple_index.3, tuple_index.4, channel=c{i + 1}, id=5)
  next(st)
}}
""" for i in range(count))


def chain(count):
    """A design with a constant for which so many calls are open at once: each function adds 1 to what the one before it gives."""
    functions = "".join(f"fn f{i + 1}(x: u32) -> u32 {{ f{i}(x) + u32:1 }} " for i in range(count))
    proc = "proc Main { b: chan<bool> out; config(b: chan<bool> out) { (b,) } init { () } next(s: ()) { send(join(), b, A); } }\n"
    return f"fn f0(x: u32) -> u32 {{ x }} {functions}const A = f{count}(u32:0) == u32:{count};\n{proc}"


def adders(count):
    """A package of so many adders of 32 bits, each behind the one before."""
    nodes = "".join(f"  add.{i}: bits[32] = add({f'add.{i - 1}' if i > 2 else 'literal.1'}, literal.1, id={i})\n"
                    for i in range(2, count + 2))
    literal = "  literal.1: bits[32] = literal(value=1, id=1)\n"
    return f"package A\nproc A(st: bits[32], init=0) {{\n{literal}{nodes}  next(add.{count + 1})\n}}\n"


def differs(what, got, wanted):
    if got != wanted:
        print(f"{what}: got {got!r:.2000}, wanted {wanted!r:.2000}")
        sys.exit(1)


def written(folder, files):
    """The folder, with these files."""
    for name, text in files.items():
        with open(os.path.join(folder, name), "w", encoding="utf-8") as file:
            file.write(text)
    return folder


def lay_out(folder):
    files = {"inc.x": DESIGN, "in.txt": IN_TEXT, "output.txt": "chan b", "proc.x": "proc", "big.x": " " * 4194305,
             "limit.x": " " * 4194304}
    written(folder, files)
    os.mkdir(os.path.join(folder, "directory"))


def answer(program, folder, words):
    done = subprocess.run([program, *words.split()], cwd=folder, capture_output=True, text=True, check=False)
    return done.stdout, done.stderr, done.returncode


def check_cases(program, folder):
    for what, words, err, status in CASES:
        differs(what, answer(program, folder, words), ("", err, status))
    for what, text, out, line, status in LONG:
        got = answer(program, written(folder, {"f.x": text}), "check f.x")
        differs(what, got, (out, line and f"f.x: {line}\n", status))


def check_long_row(program, folder, procs=200, count=1000):
    """Many procs pass many words on, and each channel has shown them all."""
    words = [f"0x{k % 251:02x}" for k in range(count)]
    written(folder, {"row.ir": row_of(procs), "row.txt": "\n".join(["chan c0", *words])})
    shown = f"{count}: " + " ".join(words)
    streams = [f"in c0 {shown}", *(f"chan c{i} {count}/{shown}" for i in range(1, procs)), f"out c{procs} {shown}"]
    outcome = "\n".join(streams + [f"proc P{i} state 0x0 done" for i in range(procs)]) + "\n"
    got = answer(program, folder, f"run row.ir row.txt --activations {count} --from ir")
    differs("a long row of procs", got, (outcome, "", 0))


def check_chain(program, folder):
    """Two thousand calls are open at once."""
    got = answer(program, written(folder, {"chain.x": chain(2000)}), "run chain.x /dev/null --activations 1")
    differs("a chain of calls", got, ("out b 1: 0x1\nproc Main state () done\n", "", 0))


def check_many_stages(program, folder, count=65535):
    """Each adder fills a cycle, and only 64 stages may be given."""
    got = answer(program, written(folder, {"adders.ir": adders(count)}), "schedule adders.ir --clock 100 --from ir")
    differs("a row of adders", got, ("", f"infeasible: A: add.66 needs {count} stages, given 64\n", 9))


def check_many_cycles(program, folder, count=1048576):
    """As many cycles as there may be, each with its line."""
    module = "module T(input wire clk, input wire rst);\nendmodule\n"
    got = answer(program, written(folder, {"idle.v": module, "rows.txt": f"- x{count}"}), "sim idle.v rows.txt")
    differs("many cycles", got, ("".join(f"{i}\n" for i in range(count)), "", 0))


def check_streams(program, folder):
    """An output that fails is named; an error stream that fails changes nothing."""
    words = [program, *RUN.split()]
    with open("/dev/full", "w", encoding="utf-8") as full:
        done = subprocess.run(words, cwd=folder, stdout=full, stderr=subprocess.PIPE, text=True, check=False)
        differs("a full device", (done.stderr, done.returncode), ("cannot write\n", 5))
        done = subprocess.run(words, cwd=folder, stdout=full, stderr=full, check=False)
        differs("two full devices", done.returncode, 5)
        done = subprocess.run([program], cwd=folder, stdout=subprocess.PIPE, stderr=full, text=True, check=False)
        differs("an error line on a full device", (done.stdout, done.returncode), ("", 2))
        done = subprocess.run(words, cwd=folder, stdout=subprocess.PIPE, stderr=full, text=True, check=False)
        differs("an output beside a full device", (done.stdout, done.returncode), (OUTCOME, 0))
        faulty = [program, *RUN.replace("in.txt", "output.txt").split()]
        done = subprocess.run(faulty, cwd=folder, stdout=full, stderr=subprocess.PIPE, text=True, check=False)
        differs("words at fault, before a full device", (done.stderr, done.returncode), ("output.txt: input name at 0\n", 10))
    shell = ["sh", "-c", 'exec "$0" "$@" >&-', *words]
    done = subprocess.run(shell, cwd=folder, stderr=subprocess.PIPE, text=True, check=False)
    differs("a closed output", (done.stderr, done.returncode), ("cannot write\n", 5))
    shell = ["sh", "-c", 'exec "$0" 2>&-', program]
    differs("a closed error stream", subprocess.run(shell, cwd=folder, check=False).returncode, 2)


def fronts(program, folder, words, room):
    """What files with room for so many bytes get of the output and of the error line, and the status."""

    def set_limit():
        signal.signal(signal.SIGXFSZ, signal.SIG_IGN)
        resource.setrlimit(resource.RLIMIT_FSIZE, (room, room))

    paths = [os.path.join(folder, name) for name in ("front", "error")]
    with open(paths[0], "wb") as out, open(paths[1], "wb") as err:
        done = subprocess.run([program, *words.split()], cwd=folder, stdout=out, stderr=err, preexec_fn=set_limit, check=False)
    texts = []
    for path in paths:
        with open(path, encoding="utf-8") as file:
            texts.append(file.read())
    return (*texts, done.returncode)


def check_fronts(program, folder):
    """Of an output that breaks off a front is kept, and the error line may break off, too."""
    differs("room for three bytes", fronts(program, folder, RUN, 3), ("in ", "can", 5))
    differs("room for the error line alone", fronts(program, folder, RUN, 13), (OUTCOME[:13], "cannot write\n", 5))
    differs("no room for an error line", fronts(program, folder, "", 0), ("", "", 2))
    differs("room for a front of an error line", fronts(program, folder, "", 5), ("", USAGE[:5], 2))


def check_memory(program, folder):
    """Under a limit of memory that the words pass, the status is 3, also where the line can't be written."""
    words = [program, *["x" * 100] * 15000]
    statuses = set()
    with open("/dev/full", "w", encoding="utf-8") as full:
        for kilobytes in range(4000, 12000, 500):
            limit = kilobytes * 1024

            def set_limit(limit=limit):
                resource.setrlimit(resource.RLIMIT_AS, (limit, limit))

            done = subprocess.run(words, cwd=folder, stdin=subprocess.DEVNULL, stdout=subprocess.DEVNULL, stderr=full,
                                  preexec_fn=set_limit, check=False)
            statuses.add(done.returncode)
    # 127 is the loader's, where not even the program fits.
    differs("want of memory", statuses - {127}, {2, 3})


def main():
    program = os.path.abspath(sys.argv[1])
    with tempfile.TemporaryDirectory() as folder:
        lay_out(folder)
        for check in (check_cases, check_long_row, check_chain, check_many_stages, check_many_cycles, check_streams, check_fronts,
                      check_memory):
            check(program, folder)
    print(f"{len(CASES) + len(LONG)} cases, long texts, streams and memory: the program answers as it should")


if __name__ == "__main__":
    main()
