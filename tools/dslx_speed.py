#!/usr/bin/env python3
"""Measures reading DSLX texts of 4 MiB into their trees, and texts that are long or hostile.

    tools/dslx_speed.py CLONE

CLONE is a clone of this repository in which `rt lib` was run in crates/dslx_parser. The script adds the program dslx_speed to it, which
prints the number of items of a text or why it is refused, builds it by `rt run`, and prints the least seconds of processor time of three
runs on each text: to cut it into tokens, and to read it whole. Each run has 256 KB of stack. Where an answer isn't what is due, the
script ends with 1.
"""

import os
import resource
import subprocess
import sys

FILE = 4194304
STACK = 262144
DEEP = "limit nesting: 129, at most 128"

PROGRAM = """//! Reads a DSLX text from standard input, or with a word only cuts it into tokens, and prints what it has.
#![tactic(auto)]

ghost use Rattle.std.specs.Prelude.{◌<◌, ◌^◌, length};

use dslx_parser::read;
use dslx_token::tokens;
use std::env;
use std::io::{self, Read};
use std::process::ExitCode;

fn main(rt: HostRuntime) -> ExitCode {
    match answer(&rt) {
        Ok(()) => ExitCode::from(0),
        Err(_) => ExitCode::from(1),
    }
}

fn answer(rt: &HostRuntime) -> io::Result<()> {
    let words: Vec<String> = env::args(rt)?.skip(1).collect(rt.alloc())?;
    let mut text = String::new(rt.alloc());
    rt.stdin().read_to_string(&mut text)?;
    if text.len() >= 4_294_967_296 {
        return Ok(());
    }
    if words.is_empty() {
        read_text(rt, text.as_str())
    } else {
        cut_text(rt, text.as_str())
    }
}

fn read_text(rt: &HostRuntime, text: &str) -> io::Result<()>
    requires { length text.now < 2 ^ 32 }
{
    match read(rt.alloc(), text) {
        Ok(parsed) => println!(rt; "{} items", parsed.module.items.len())?,
        Err(error) => println!(rt; "{error}")?,
    }
    Ok(())
}

fn cut_text(rt: &HostRuntime, text: &str) -> io::Result<()>
    requires { length text.now < 2 ^ 32 }
{
    match tokens(rt.alloc(), text) {
        Ok(found) => println!(rt; "{} tokens", found.len())?,
        Err(error) => println!(rt; "{error}")?,
    }
    Ok(())
}
"""

LINE = "dslx_speed: dslx_parser dslx_token dslx_tree base xb_span\n"

DECLARED = """struct Config { base: u32, limit: u32 }
fn default_config() -> Config { Config { base: u32:0, limit: u32:0 } }
"""

# Two functions as a designer writes them.
WRITTEN = """// Adds the two words of a pair, and says whether the sum wraps.
fn checked_sum<WIDTH: u32>(left: uN[WIDTH], right: uN[WIDTH]) -> (bool, uN[WIDTH]) {
    let total = left + right;
    let wraps = total < left || total < right;
    (wraps, total)
}

fn select_word(words: u32[4], at: u2, enabled: bool) -> u32 {
    let word = words[at];
    let (wraps, total) = checked_sum<u32:32>(word, u32:0x1234_5678);
    if enabled && !wraps {
        total & u32:0xffff
    } else {
        match at {
            u2:0 | u2:1 => word >> u8:4,
            _ => Config { base: word, limit: total, ..default_config() }.base,
        }
    }
}

"""

# The same sort of text without a blank that isn't needed.
DENSE = ("fn f<N:u32>(x:u8,y:(u16,T)[4])->u8{let(a,b):(u8,u16)=(x,y.1[2]as u16);if a==u8:3&&x<b{x+f<N>(a,b)*u8:0x2f}"
         "else{match b{u16:1|u16:2=>a,_=>S{x,y:a}.x}}}")


def filled(before, unit, behind=""):
    """A text of at most FILE bytes with as many units as fit, and how many they are."""
    count = (FILE - len(before) - len(behind)) // len(unit)
    return before + count * unit + behind, count


def texts():
    """The texts, each with its name and with what is due."""
    text, count = filled(DECLARED, WRITTEN)
    yield "functions as they are written", text, f"{2 + 2 * count} items"
    text, count = filled("type T=u8;struct S{x:u8,y:u8}", DENSE)
    yield "functions without blanks", text, f"{2 + count} items"
    text, count = filled("", "const A = 1;")
    yield "constants", text, f"{count} items"
    yield "one list of numbers", filled("const A=[", "1,", "1];")[0], "1 items"
    yield "one block of statements", filled("fn f(){", "x;", "}")[0], "1 items"
    yield "1,000,000 items (10 MB)", 1000000 * "const A=1;", "1000000 items"
    yield "a chain of 1,000,000 `+`", "const A=1" + 1000000 * "+1" + ";", DEEP
    yield "`-` alone", filled("const A=", "-")[0], DEEP
    yield "`{` alone", filled("const A=", "{")[0], DEEP
    yield "`else if` without end", filled("const A=", "if x{1}else ")[0], DEEP
    yield "sizes of a type", filled("type T=u8", "[1]", ";")[0], DEEP


def limit_stack():
    resource.setrlimit(resource.RLIMIT_STACK, (STACK, STACK))


def measured(program, words, text):
    """What the program prints, and the least seconds of processor time of three runs."""
    least, printed = None, None
    for _ in range(3):
        before = resource.getrusage(resource.RUSAGE_CHILDREN)
        run = subprocess.run([program] + words, input=text, capture_output=True, preexec_fn=limit_stack, check=False)
        after = resource.getrusage(resource.RUSAGE_CHILDREN)
        taken = after.ru_utime + after.ru_stime - before.ru_utime - before.ru_stime
        least = taken if least is None else min(least, taken)
        printed = run.stdout.decode().strip() if run.returncode == 0 else f"status {run.returncode}"
    return printed, least


def build(clone):
    """Adds the program to the clone and builds it; the path of what was built."""
    folder = os.path.join(clone, "crates", "dslx_speed")
    os.makedirs(os.path.join(folder, "src"), exist_ok=True)
    for name, text in (("src/main.rt", PROGRAM), ("stdin", "const A = 1;\n"), ("stdout", "1 items\n")):
        with open(os.path.join(folder, name), "w", encoding="utf-8") as file:
            file.write(text)
    crates = os.path.join(clone, "crates.txt")
    with open(crates, encoding="utf-8") as file:
        lines = file.read()
    if LINE not in lines:
        with open(crates, "a", encoding="utf-8") as file:
            file.write(LINE)
    subprocess.run(["rt", "run", "--jobs", "1"], cwd=folder, check=True, stdout=subprocess.DEVNULL)
    return os.path.join(folder, "out", "dslx_speed")


def main():
    if len(sys.argv) != 2:
        sys.exit(__doc__)
    program, odd = build(os.path.abspath(sys.argv[1])), 0
    for name, text, due in texts():
        _, cut = measured(program, ["tokens"], text.encode())
        printed, whole = measured(program, [], text.encode())
        odd += printed != due
        verdict = "" if printed == due else f": {printed}, and not {due}"
        print(f"{name}: tokens {cut:.2f} s, whole {whole:.2f} s, {len(text) / whole / 1e6:.1f} MB/s{verdict}", flush=True)
    sys.exit(1 if odd else 0)


if __name__ == "__main__":
    main()
