#!/usr/bin/env python3
"""Measures `xls check` on a generated design of 1 MB, and on texts that are as long or as hostile as a text may be.

    tools/check_speed.py PROGRAM [NAME..]

prints for each text the answer, the seconds of processor time and the memory at most. An answer that isn't the one due (worked by hand,
beside each text), or one that takes more than a minute, ends the script with 1. With names only the texts whose names hold one of them are tried.
"""

import os
import resource
import subprocess
import sys
import tempfile
import time

SECONDS = 60
STACK = 8 << 20

# The last proc of a text is its top: one proc, one channel.
TOP = """proc Top {
  words: chan<u32> out;
  config(words: chan<u32> out) { (words,) }
  init { u32:0 }
  next(count: u32) { let sent = send(join(), words, count); count + u32:1 }
}
"""
OK = "ok procs 1 channels 1"

FUNCTION = """// The sum of two words of a pair, and whether it wraps; and a word of four, chosen by its number.
fn sum_{n}<WIDTH: u32>(left: uN[WIDTH], right: uN[WIDTH]) -> (bool, uN[WIDTH]) {{
  let total = left + right;
  let wraps = total < left || total < right;
  (wraps, total)
}}
fn word_{n}(words: u32[4], at: u2, enabled: bool) -> u32 {{
  let word = words[at];
  let (wraps, total) = sum_{n}<u32:32>(word, u32:0x1234_5678);
  let doubled = for (turn, seen): (u32, u32) in u32:0..u32:4 {{
    if turn == u32:2 {{ seen + word }} else {{ seen ^ total }}
  }}(total);
  if enabled && !wraps {{
    doubled & u32:0xffff
  }} else {{
    match at {{
      u2:0 | u2:1 => word >> u8:4,
      _ => total - word,
    }}
  }}
}}
"""

PROC = """proc Stage_{n} {{
  words: chan<u32> in;
  sums: chan<u32> out;
  config(words: chan<u32> in, sums: chan<u32> out) {{ (words, sums) }}
  init {{ u32:0 }}
  next(held: u32) {{
    let (token, word) = recv(join(), words);
    let sum = word_{n}(u32[4]:[word, held, u32:3, u32:5], word as u2, held > u32:7);
    let sent = send_if(token, sums, sum != u32:0, sum + held);
    if sum > held {{ sum }} else {{ held }}
  }}
}}
"""


def design():
    """500 functions, half of them parametric, and 200 procs, filled up to 1 MB with comments as a designer's files have them."""
    parts = [FUNCTION.format(n=n) for n in range(250)] + [PROC.format(n=n) for n in range(200)]
    text = "".join(parts)
    filler = "// " + 90 * "-" + "\n"
    return text + (1_000_000 - len(text) - len(TOP)) // len(filler) * filler + TOP


def dense():
    """The same functions and procs as often as fit into 1 MB."""
    parts, size, n = [], len(TOP), 0
    while n < 4000:
        part = FUNCTION.format(n=n) + (PROC.format(n=n) if n % 2 else "")
        if size + len(part) > 1_000_000 or 2 * n + 2 > 4000:
            break
        parts.append(part)
        size += len(part)
        n += 1
    return "".join(parts) + TOP


def name(n):
    """A short name by a number."""
    digits = "0123456789abcdefghijklmnopqrstuvwxyz"
    text = ""
    while n or not text:
        n, digit = divmod(n, 36)
        text = digits[digit] + text
    return "k" + text


def constants(count, is_forward):
    """Constants of which each names the one before, from the first on or from the last on."""
    lines = ["const k0=u8:1;\n"] + [f"const {name(n)}={name(n - 1)};\n" for n in range(1, count)]
    return "".join(lines if is_forward else reversed(lines)) + TOP


def doubled_types(levels):
    """A type that stands for twice 2^(levels - 1) words."""
    lines = ["type T0 = u8;\n"] + [f"type T{n} = (T{n - 1}, T{n - 1});\n" for n in range(1, levels + 1)]
    return "".join(lines) + TOP


def doubled_calls(levels):
    """Functions that call the one before twice."""
    lines = ["fn f0(x: u8) -> u8 { x }\n"] + [f"fn f{n}(x: u8) -> u8 {{ f{n - 1}(f{n - 1}(x)) }}\n" for n in range(1, levels + 1)]
    return "".join(lines) + TOP


def doubled_spawns(levels):
    """Procs that spawn the one before twice."""
    text = "proc P0 { config() { } init { () } next(s: ()) { () } }\n"
    for n in range(1, levels + 1):
        text += f"proc P{n} {{ config() {{ spawn P{n - 1}(); spawn P{n - 1}(); }} init {{ () }} next(s: ()) {{ () }} }}\n"
    return text


def instances(count):
    """Functions without parametrics, which with the top are one more than count."""
    return "".join(f"fn f{n}() -> u8 {{ u8:1 }}\n" for n in range(count)) + TOP


def nested(opening, inner, closing, depth):
    """Brackets in brackets, in the value of a constant."""
    return f"const A = {depth * opening}{inner}{depth * closing};\n" + TOP


def chain(operator, count):
    """A chain of one operator that stays within the nesting by parentheses in groups is none: chains nest to the left."""
    return "const A = u8:1" + count * f" {operator} u8:1" + ";\n" + TOP


def texts():
    """Each text with its name and the answer due: what standard output or the line of standard error has behind the file's name."""
    yield "a design of 1 MB", design(), OK
    yield "a dense design of 1 MB", dense(), OK
    yield "200,000 constants forward", constants(200_000, True), OK
    yield "200,000 constants backward", constants(200_000, False), OK
    yield "a type of 2^60 leaves", doubled_types(60), f"limit leaves: 512, at most 256"
    yield "calls that double 60 times", doubled_calls(60), "limit size: 65537, at most 65536"
    yield "spawns that double 60 times", doubled_spawns(60), "limit procs: 257, at most 256"
    yield "4,096 instances", instances(4095), OK
    yield "4,097 instances", instances(4096), "limit instances: 4097, at most 4096"
    yield "parentheses 120 deep", nested("(", "u8:1", ")", 120), OK
    yield "parentheses 130 deep", nested("(", "u8:1", ")", 130), "limit nesting: 129, at most 128"
    yield "tuples 130 deep", nested("(", "u8:1", ",)", 130), "limit nesting: 129, at most 128"
    yield "arrays 130 deep", nested("[", "u8:1", "]", 130), "limit nesting: 129, at most 128"
    yield "blocks 130 deep", nested("{", "u8:1", "}", 130), "limit nesting: 129, at most 128"
    yield "a chain of 500,000 `+`", chain("+", 500_000), "limit nesting: 129, at most 128"


def answer(program, text):
    """What `check` answers, its seconds of processor time and its memory."""
    with tempfile.NamedTemporaryFile("w", suffix=".x", encoding="utf-8") as file:
        file.write(text)
        file.flush()

        def limited():
            resource.setrlimit(resource.RLIMIT_STACK, (STACK, STACK))

        began = time.time()
        run = subprocess.Popen([program, "check", file.name], stdout=subprocess.PIPE, stderr=subprocess.PIPE, preexec_fn=limited)
        try:
            out, errors = run.communicate(timeout=SECONDS)
        except subprocess.TimeoutExpired:
            run.kill()
            run.communicate()
            return "no answer", time.time() - began
        said = (out or errors).decode().strip()
        return said.removeprefix(file.name + ": ") if said else f"status {run.returncode}", time.time() - began


def main():
    if len(sys.argv) < 2:
        sys.exit(__doc__)
    program, wanted = os.path.abspath(sys.argv[1]), sys.argv[2:]
    odd, before = 0, resource.getrusage(resource.RUSAGE_CHILDREN)
    for title, text, due in texts():
        if wanted and not any(word in title for word in wanted):
            continue
        given, _ = answer(program, text)
        after = resource.getrusage(resource.RUSAGE_CHILDREN)
        taken = after.ru_utime + after.ru_stime - before.ru_utime - before.ru_stime
        before = after
        fits = given == due or (due.startswith("limit") and given.split(" at ")[0] == due)
        odd += not fits
        verdict = "" if fits else f": {given}, and not {due}"
        print(f"{title}: {len(text):,} bytes, {taken:.2f} s, {len(text) / taken / 1e6:.2f} MB/s, at most {after.ru_maxrss // 1024} MB so far{verdict}", flush=True)
    sys.exit(1 if odd else 0)


if __name__ == "__main__":
    main()
