#!/usr/bin/env python3
"""Measures what a run costs: reading words, steps of a network, and writing the outcome; and a filter beside a program in Rust.

usage: run_speed.py PROGRAM

PROGRAM is `xls`. Each call is made three times, and the least processor time counts. `rustc` compiles the filter in Rust, which
reads the same channel file and writes the same line; where the two lines differ, or a run doesn't end with 0, the script ends with 1.
"""
import os
import random
import resource
import subprocess
import sys
import tempfile

INC = """proc Inc { a: chan<u8> in; b: chan<u8> out;
  config(a: chan<u8> in, b: chan<u8> out) { (a, b) }
  init { () }
  next(s: ()) { let (t, x) = recv(join(), a); send(t, b, x + u8:1); } }
"""

COUNT = """proc Count {
  config() { () }
  init { u32:0 }
  next(s: u32) { s + u32:1 } }
"""

SEND = """proc Send { b: chan<u8> out;
  config(b: chan<u8> out) { (b,) }
  init { u8:0 }
  next(s: u8) { send(join(), b, s); s + u8:1 } }
"""

TAPS = [-3, 11, 12, -5, 7, 1, -9, 4, 2, -6, 8, 3, -1, 10, -2, 5]

FIR = """const TAPS = s8[16]:[%s];

fn weighted_sum(window: s16[16]) -> s32 {
  for (i, sum) in u32:0..u32:16 {
    sum + (window[i] as s32) * (TAPS[i] as s32)
  }(s32:0)
}

proc Fir {
  samples: chan<s16> in;
  filtered: chan<s32> out;

  config(samples: chan<s16> in, filtered: chan<s32> out) { (samples, filtered) }

  init { s16[16]:[0, ...] }

  next(window: s16[16]) {
    let (token, sample) = recv(join(), samples);
    let shifted = s16[16]:[sample, %s];
    send(token, filtered, weighted_sum(shifted));
    shifted
  }
}
""" % (', '.join(f's8:{tap}' for tap in TAPS), ', '.join(f'window[u32:{i}]' for i in range(15)))

RUST = """use std::io::{Read, Write};
const TAPS: [i32; 16] = [%s];
fn main() {
    let mut text = String::new();
    std::fs::File::open(std::env::args().nth(1).unwrap()).unwrap().read_to_string(&mut text).unwrap();
    let mut window = [0i16; 16];
    let mut out = Vec::with_capacity(text.len() * 4);
    let mut count = 0;
    for line in text.lines().skip(1) {
        let sample = u16::from_str_radix(&line[2..], 16).unwrap() as i16;
        window.copy_within(0..15, 1);
        window[0] = sample;
        let sum: i32 = window.iter().zip(TAPS).map(|(x, c)| i32::from(*x).wrapping_mul(c)).sum();
        write!(out, " 0x{:08x}", sum as u32).unwrap();
        count += 1;
    }
    let mut stdout = std::io::stdout().lock();
    write!(stdout, "out filtered {count}:").unwrap();
    stdout.write_all(&out).unwrap();
    stdout.write_all(b"\\n").unwrap();
}
""" % ', '.join(map(str, TAPS))


def called(words, most=3):
    """What a call writes, its least processor time, and the most memory of any child so far in kilobytes."""
    least, written = None, None
    for _ in range(most):
        before = resource.getrusage(resource.RUSAGE_CHILDREN)
        run = subprocess.run(words, capture_output=True, check=False)
        after = resource.getrusage(resource.RUSAGE_CHILDREN)
        if run.returncode:
            sys.exit(f'{words} ended with {run.returncode}: {run.stderr.decode()}')
        taken = after.ru_utime + after.ru_stime - before.ru_utime - before.ru_stime
        least = taken if least is None else min(least, taken)
        written = run.stdout
    return written, least, after.ru_maxrss


def shown(what, count, seconds):
    print(f'{what}: {count:,}, {seconds:.3f} s, {seconds / count * 1e9:.0f} ns each', flush=True)


def main():
    if len(sys.argv) != 2:
        sys.exit(__doc__)
    program = os.path.abspath(sys.argv[1])
    with tempfile.TemporaryDirectory() as folder:
        os.chdir(folder)
        for name, text in (('inc.x', INC), ('count.x', COUNT), ('send.x', SEND), ('fir.x', FIR), ('fir.rs', RUST)):
            with open(name, 'w', encoding='utf-8') as file:
                file.write(text)
        drawn = random.Random(1)
        with open('words', 'w', encoding='utf-8') as file:
            file.write('chan a\n' + ''.join(f'0x{drawn.randrange(256):02x}\n' for _ in range(800000)))
        with open('samples', 'w', encoding='utf-8') as file:
            file.write('chan samples\n' + ''.join(f'0x{drawn.randrange(16):x}\n' for _ in range(1000000)))
        size = os.path.getsize('words')
        _, read, _ = called([program, 'run', 'inc.x', 'words', '--activations', '1'])
        shown('words read', 800000, read)
        _, counted, _ = called([program, 'run', 'count.x', '/dev/null', '--activations', '1000000'])
        shown('activations that only count', 1000000, counted)
        _, sent, _ = called([program, 'run', 'send.x', '/dev/null', '--activations', '1000000'])
        shown('words sent and written', 1000000, sent)
        _, whole, memory = called([program, 'run', 'inc.x', 'words', '--activations', '1000000'])
        shown('words through inc.x', 800000, whole)
        print(f'most memory: {memory / 1024:.0f} MB, {memory * 1024 / 800000:.0f} bytes a word, the file {size / 800000:.0f}')
        subprocess.run(['rustc', '-O', 'fir.rs', '-o', 'fir'], check=True)
        text, rust, _ = called(['./fir', 'samples'])
        shown('samples, the filter in Rust', 1000000, rust)
        written, filtered, _ = called([program, 'run', 'fir.x', 'samples', '--activations', '1000000'], 1)
        shown('samples, the filter of 16 taps', 1000000, filtered)
        print(f'{filtered / rust:.1f} times the program in Rust')
        if text not in written:
            sys.exit('the two write different words')


if __name__ == '__main__':
    main()
