#!/usr/bin/env python3
"""Runs the built program with each of its allocations failing in turn, alone and with all behind it.

    tools/check_memory.py PROGRAM

Whichever allocation fails, the program must end with status 3, its line and no output, or answer as if none had failed. The
allocations of the C library are counted and failed by a small library that is loaded before it, which `cc` compiles; without `cc`
nothing is tested, which is said. Prints the first that differ, and ends with 1 where there is one.
"""

import concurrent.futures
import itertools
import os
import shutil
import subprocess
import sys
import tempfile
from functools import partial
from typing import NamedTuple

from run_tests import SHOWN, answer as answer_of, case_of, shown

FAILING = r"""
#define _GNU_SOURCE
#include <errno.h>
#include <fcntl.h>
#include <stddef.h>
#include <stdio.h>
#include <stdlib.h>
#include <sys/syscall.h>
#include <unistd.h>

void *__libc_malloc(size_t);
void *__libc_calloc(size_t, size_t);
void *__libc_realloc(void *, size_t);
void *__libc_memalign(size_t, size_t);

static unsigned long made, failing;
static int with_rest;

/* Whether this allocation fails: it is the one to fail, or one behind it where these fail too. Threads may ask at once. */
static int fails(void) {
  unsigned long number = __atomic_add_fetch(&made, 1, __ATOMIC_SEQ_CST);
  if (number == 1) {
    with_rest = getenv("WITH_REST") != NULL;
    failing = strtoul(getenv("FAILING"), NULL, 10);
  }
  if (with_rest ? number < failing : number != failing) return 0;
  errno = ENOMEM;
  return 1;
}

void *malloc(size_t size) { return fails() ? NULL : __libc_malloc(size); }
void *calloc(size_t count, size_t size) { return fails() ? NULL : __libc_calloc(count, size); }
void *realloc(void *old, size_t size) { return fails() ? NULL : __libc_realloc(old, size); }
void *memalign(size_t align, size_t size) { return fails() ? NULL : __libc_memalign(align, size); }
void *aligned_alloc(size_t align, size_t size) { return memalign(align, size); }

int posix_memalign(void **at, size_t align, size_t size) {
  *at = memalign(align, size);
  return *at ? 0 : ENOMEM;
}

/* Says at the end how many there were. */
__attribute__((destructor)) static void tell(void) {
  unsigned long count = made;
  int file = open(getenv("MADE"), O_WRONLY | O_CREAT | O_TRUNC, 0600);
  dprintf(file, "%lu", count);
  close(file);
}

/* A program that may start threads ends so, past all destructors. */
void _exit(int status) {
  tell();
  syscall(SYS_exit_group, status);
  __builtin_unreachable();
}
"""

# the cases of tests/ whose first call is tried, and where that writes a module the simulation of it too
CASES = [
    "designs/last_proc_is_the_top",
    "designs/words_of_two_inputs",
    "designs/run",
    "designs/run_by_several_workers",
    "dslx/a_little_of_all",
    "dslx/two_procs_that_wait",
    "ir/a_little_of_all",
    "ir/run_of_a_package",
    "ir/two_procs_deeper",
    "ir_texts/operand_that_comes_later",
    "words/ir",
    "designs/optimised_design",
    "designs/schedule_of_a_design",
    "designs/packages_of_a_word_too_deep",
    "verilog/design_of_two_procs",
    "schedule/schedule",
    "schedule/too_few_stages",
    "verilog/request_before_reply",
    "verilog/pipeline_of_three_stages",
    "verilog/depth_past_the_limit",
    "opt/optimised_package",
    "sim/a_little_of_all",
    "sim/simulation",
    "rows/one_cycle_too_many",
    "words/gen",
    "gen/one_proc",
    "designs/no_such_file",
    "designs/text_that_is_no_design",
    "design_texts/name_that_nothing_declares",
    "inputs/channel_twice_without_words",
]
WANTING = (b"", b"out of memory\n", 3)

# The allocations of a call are tried in so many shares, side by side.
SHARES = 2 * os.cpu_count()


class Call(NamedTuple):
    """A call in a folder, and what it answers with ample memory."""
    name: str
    words: list
    folder: str
    right: tuple


class Share(NamedTuple):
    """How many allocations failed in a share, how many of these the program said so of, and what differed."""
    failed: int
    wanting: int
    difference: str


def build_library(folder):
    source = os.path.join(folder, "failing.c")
    with open(source, "w", encoding="utf-8") as file:
        file.write(FAILING)
    library = os.path.join(folder, "failing.so")
    subprocess.run(["cc", "-O1", "-shared", "-fPIC", "-fno-builtin", "-o", library, source], check=True)
    return library


def calls_of(program, folder):
    """The calls of all cases; a module that is written is kept in the folder."""
    for name in CASES:
        case = case_of(name)
        words = case.calls[0]
        if not case.rows:
            yield Call(name, words, case.folder, case.wanted)
            continue
        right = answer_of(program, words, case.folder)
        module = os.path.join(folder, name.replace("/", "_") + ".v")
        with open(module, "wb") as file:
            file.write(right[0])
        yield Call(name, words, case.folder, right)
        yield Call(name + ", simulated", ["sim", module, case.rows], case.folder, case.wanted)


def answer(program, call, folder, library, failing, with_rest):
    """What the program answers where this allocation fails, and perhaps all behind it, and how many it asked for."""
    env = {"LD_PRELOAD": library, "FAILING": str(failing), "MADE": os.path.join(folder, "made")}
    if with_rest:
        env["WITH_REST"] = "1"
    done = subprocess.run([program, *call.words], cwd=call.folder, env=env, stdin=subprocess.DEVNULL, capture_output=True, check=False)
    with open(env["MADE"], encoding="utf-8") as file:
        return (done.stdout, done.stderr, done.returncode), int(file.read())


def try_share(program, library, call, with_rest, share):
    """Fails a share of the allocations of a call, up to the first that it doesn't ask for: then it must answer right."""
    wanting = failed = 0
    with tempfile.TemporaryDirectory() as folder:
        for failing in itertools.count(1 + share, SHARES):
            got, made = answer(program, call, folder, library, failing, with_rest)
            if got not in (call.right, WANTING) or made < failing and got != call.right:
                behind = " and all behind it" * with_rest
                return Share(failed, wanting, f"{call.name}: with allocation {failing}{behind} failing {shown(got)}")
            if made < failing:
                return Share(failed, wanting, "")
            failed += 1
            wanting += got == WANTING


def main():
    program = os.path.abspath(sys.argv[1])
    if shutil.which("cc") is None:
        print("want of memory isn't tested: there is no cc")
        return
    with tempfile.TemporaryDirectory() as folder, concurrent.futures.ThreadPoolExecutor(os.cpu_count()) as pool:
        trying = partial(try_share, program, build_library(folder))
        tried = list(itertools.product(calls_of(program, folder), (False, True), range(SHARES)))
        found = list(pool.map(trying, *zip(*tried)))
    said = [share.difference for share in found if share.difference]
    for (call, with_rest), shares in itertools.groupby(zip(tried, found), lambda pair: pair[0][:2]):
        if not any(share.wanting for _, share in shares):
            said.append(f"{call.name}: never status 3" + " with all behind an allocation failing" * with_rest)
    for line in said[:SHOWN]:
        print(line)
    print(f"{sum(share.failed for share in found)} times memory was refused: {len(said)} times the program neither said so nor answered all the same")
    sys.exit(bool(said))


if __name__ == "__main__":
    main()
