#!/usr/bin/env python3
"""check_gen.py PROGRAM [--seeds N] [--procs K ..]: `gen` writes what a model of its designs says.

    tools/check_gen.py crates/xls/out/xls                       a few seeds, as in .ci/run
    tools/check_gen.py PROGRAM --seeds 100 --procs 1 8 255      a hundred, and how long each number of procs takes

The model is written from what docs/COMMANDS.md says of `gen`: a chain of procs, each of which makes one word of one word. It runs no text of a
design, so what the program reads, lowers, optimises, schedules and simulates is compared with arithmetic alone. The text of a design, as that page
gives it, is also run by `run`, and each of its procs is to have one stage."""
import argparse, concurrent.futures, os, subprocess, sys, tempfile, time

LEVELS = ["dslx", "ir", "opt", "threads", "verilog"]
WORD = 2**32


def numbers(seed, count):
    """The numbers of so many procs."""
    x = seed
    for _ in range(count):
        x = (1103515245 * x + 12345) % 2**31
        yield x


def through(number, words):
    """What a proc with this number makes of words."""
    kind = number // 65536 % 4
    if kind == 3:
        total, made = 0, []
        for word in words:
            total = (total + word) % WORD
            made.append(total)
        return made
    step = [lambda x: x + number, lambda x: x ^ number, lambda x: x - number][kind]
    return [step(word) % WORD for word in words]


def expected(seed, procs):
    """The five lines."""
    words = list(range(64))
    for number in numbers(seed, procs):
        words = through(number, words)
    return "".join(f"{level} words 64 sum {sum(words) % WORD}\n" for level in LEVELS)


def text_of(seed, procs):
    """The design's text."""
    procs_of, links = [], []
    for i, number in enumerate(numbers(seed, procs)):
        kind = number // 65536 % 4
        made = [f"x + u32:{number}", f"x ^ u32:{number}", f"x - u32:{number}", "s + x"][kind]
        procs_of.append(f"""proc P{i} {{ a: chan<u32> in; b: chan<u32> out;
  config(a: chan<u32> in, b: chan<u32> out) {{ (a, b) }}
  init {{ u32:0 }}
  next(s: u32) {{ let (t, x) = recv(join(), a); let y = {made}; send(t, b, y); {"y" if kind == 3 else "s"} }} }}
""")
        given = "a" if i == 0 else f"c{i}"
        depth, n = 1 + number // 1048576 % 8, i + 1
        links.append(f"spawn P{i}({given}, b);" if n == procs else f'let (p{n}, c{n}) = chan<u32, u32:{depth}>("c{n}"); spawn P{i}({given}, p{n});')
    return "".join(procs_of) + "proc Main {\n  config(a: chan<u32> in, b: chan<u32> out) { " + " ".join(links) + " }\n  init { () }\n  next(s: ()) { s } }\n"


def text_is_odd(program, seed, procs):
    """Whether a run of the design's text as this writes it gives other words, or a proc has more than one stage."""
    with tempfile.TemporaryDirectory() as folder:
        design, inputs = os.path.join(folder, "gen.x"), os.path.join(folder, "gen.in")
        with open(design, "w", encoding="utf-8") as file:
            file.write(text_of(seed, procs))
        with open(inputs, "w", encoding="utf-8") as file:
            file.write("chan a\n" + "".join(f"0x{word:08x}\n" for word in range(64)))
        words = list(range(64))
        for number in numbers(seed, procs):
            words = through(number, words)
        ran = subprocess.run([program, "run", design, inputs, "--activations", "64"], capture_output=True, text=True).stdout.splitlines()
        timed = subprocess.run([program, "schedule", design, "--clock", "1000"], capture_output=True, text=True).stdout.splitlines()
        heads = [line for line in timed if line.startswith("proc ")]
        sent = "out b 64: " + " ".join(f"0x{word:08x}" for word in words)
        return ran[1:2] != [sent] or len(heads) != procs + 1 or any(" stages 1 " not in head for head in heads)


def tried(program, seed, procs):
    """What differs, and the seconds of processor time."""
    before = time.time()
    run = subprocess.run([program, "gen", "--seed", str(seed), "--procs", str(procs)], capture_output=True, text=True)
    if (run.returncode, run.stdout, run.stderr) == (0, expected(seed, procs), ""):
        return None, time.time() - before
    return f"gen --seed {seed} --procs {procs}: status {run.returncode}\n{run.stdout}{run.stderr}", time.time() - before


def main():
    words = argparse.ArgumentParser()
    words.add_argument("program")
    words.add_argument("--seeds", type=int, default=4)
    words.add_argument("--procs", type=int, nargs="+", default=[1, 2, 8])
    said = words.parse_args()
    assert expected(7, 1).splitlines()[0] == "dslx words 64 sum 454382816", "the model is wrong"
    program = os.path.abspath(said.program)
    seeds = [7, 0, 2**31 - 1] + list(range(1, 2**31, 2**31 // max(said.seeds - 3, 1)))
    odd = 0
    for procs in (1, 2, 9):
        if text_is_odd(program, 7, procs):
            odd += 1
            print(f"the text of {procs} procs runs otherwise, or isn't one stage a proc")
    with concurrent.futures.ThreadPoolExecutor(os.cpu_count()) as pool:
        for procs in said.procs:
            answers = list(pool.map(lambda seed: tried(program, seed, procs), seeds[: said.seeds]))
            for text, _ in answers:
                if text:
                    odd += 1
                    print(text)
            print(f"{procs} procs: {len(answers)} designs, {max(seconds for _, seconds in answers):.2f} seconds at most")
    print(f"{odd} differ")
    sys.exit(1 if odd else 0)


main()
