#!/usr/bin/env python3
"""Measures reading and running IR texts, beside the same proc hand-written in Rust.

    tools/ir_speed.py PROGRAM

Prints the least seconds of processor time of some calls: 4 MiB of IR read and verified, and 1,000 activations of a proc of 65,536
nodes. The program in Rust is compiled by `rustc -O`; it must come to the same state, else the script ends with 1.
"""

import os
import subprocess
import sys
import tempfile

FILE = 4194304
NODES = 65536
ACTIVATIONS = 1000

HEAD = """package Speed
chan a(bits[32], id=0, kind=input)
chan b(bits[32], id=1, kind=output)
proc Speed(st: bits[32], init=1) {
  after_all.1: token = after_all(id=1)
  receive.2: (token, bits[32]) = receive(after_all.1, channel=a, id=2)
  tuple_index.3: token = tuple_index(receive.2, index=0, id=3)
  tuple_index.4: bits[32] = tuple_index(receive.2, index=1, id=4)
  literal.5: bits[32] = literal(value=7, id=5)
  literal.6: bits[32] = literal(value=2654435761, id=6)
"""

# The four nodes of a turn, by the one before.
TURN = [("add", "%s, literal.5"), ("xor", "%s, st"), ("umul", "%s, literal.6"), ("sub", "%s, st")]

RUST = """
fn activation(state: u32, word: u32) -> u32 {
    let mut x = word;
    for _ in 0..TURNS {
        x = x.wrapping_add(7);
        x ^= state;
        x = x.wrapping_mul(2654435761);
        x = x.wrapping_sub(state);
    }
    x
}

fn main() {
    let mut state = 1;
    let mut sent = 0;
    for word in 0..ACTIVATIONS {
        sent = activation(state, word);
        state = sent;
    }
    println!("{sent:#010x}");
}
"""


def package(turns):
    """The text of a proc of so many turns; it has four nodes a turn and seven more."""
    lines, before, number = [HEAD], "tuple_index.4", 7
    for _ in range(turns):
        for op, operands in TURN:
            lines.append(f"  {op}.{number}: bits[32] = {op}({operands % before}, id={number})\n")
            before, number = f"{op}.{number}", number + 1
    lines.append(f"  send.{number}: token = send(tuple_index.3, {before}, channel=b, id={number})\n  next({before})\n}}\n")
    return "".join(lines)


def largest():
    """The largest package that fits a file."""
    low, high = 1, 100000
    while low + 1 < high:
        middle = (low + high) // 2
        if len(package(middle)) <= FILE:
            low = middle
        else:
            high = middle
    return package(low)


def seconds(words, folder, status):
    """The least processor time of three calls, and what the last one wrote."""
    least = None
    for _ in range(3):
        with open(os.path.join(folder, "out"), "wb") as out:
            call = subprocess.Popen(words, cwd=folder, stdout=out, stderr=subprocess.DEVNULL)
            _, ended, used = os.wait4(call.pid, 0)
        if os.waitstatus_to_exitcode(ended) != status:
            print(f"{words}: ended with {os.waitstatus_to_exitcode(ended)}")
            sys.exit(1)
        taken = used.ru_utime + used.ru_stime
        least = taken if least is None else min(least, taken)
    with open(os.path.join(folder, "out"), encoding="utf-8") as out:
        return least, out.read()


def write(folder, name, text):
    with open(os.path.join(folder, name), "w", encoding="utf-8") as file:
        file.write(text)


def main():
    program = os.path.abspath(sys.argv[1])
    turns = (NODES - 7) // 4
    with tempfile.TemporaryDirectory() as folder:
        large = largest()
        write(folder, "large.ir", large)
        write(folder, "wrong.txt", "chan nothing\n")
        # The words are refused behind the package, so that the call only reads and verifies it.
        read, _ = seconds([program, *"run large.ir wrong.txt --activations 1 --from ir".split()], folder, 10)
        print(f"{len(large)} bytes, {large.count('id=')} lines: read and verified in {read:.3f} s, {len(large) / read / 1e6:.1f} MB/s")

        write(folder, "run.ir", package(turns))
        write(folder, "words.txt", "chan a\n" + "".join(f"0x{word:x}\n" for word in range(ACTIVATIONS)))
        run = [program, *f"run run.ir words.txt --activations {ACTIVATIONS} --from ir".split()]
        one = [program, *"run run.ir words.txt --activations 1 --from ir".split()]
        all_of_it, shown = seconds(run, folder, 0)
        first, _ = seconds(one, folder, 0)
        write(folder, "speed.rs", RUST.replace("TURNS", str(turns)).replace("ACTIVATIONS", str(ACTIVATIONS)))
        subprocess.run(["rustc", "-O", "-o", "speed", "speed.rs"], cwd=folder, check=True)
        rust, sent = seconds(["./speed"], folder, 0)
        state = f"proc Speed state {sent.strip()} done\n"
        if not shown.endswith(state):
            print(f"Rust came to {sent.strip()}, and the program wrote {shown[-100:]}")
            sys.exit(1)
        print(f"{4 * turns + 7} nodes, {ACTIVATIONS} activations: {all_of_it:.2f} s, with 1 activation {first:.2f} s; in Rust {rust:.3f} s: "
              f"{(all_of_it - first) / rust:.0f} times")


if __name__ == "__main__":
    main()
