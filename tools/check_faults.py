#!/usr/bin/env python3
"""Runs the built program while each of its loads and each of its outputs fails in turn.

    tools/check_faults.py PROGRAM

A call of each command has each of its files unreadable in each of several ways, vanish while it runs, come byte by byte, or be as long
as a file may be and longer; and its output closed, full or broken off after some bytes. A call of each status has both streams fail. What
is wanted are the outputs of tests/ and the lines of docs/COMMANDS.md. Prints the first call that is answered otherwise, and ends with 1.
"""

import array
import contextlib
import fcntl
import os
import resource
import shutil
import signal
import subprocess
import sys
import tempfile
import termios
import time

from run_tests import answer, case_of, shown

SECONDS = 60
FILE_LIMIT = 4194304
UNWRITTEN = b"cannot write\n"

# A case of tests/ for each command, and what its first call writes is what all of it may write.
WORKING = [
    "designs/check",
    "designs/run",
    "dslx/two_procs_that_wait",
    "ir/two_procs_deeper",
    "words/ir",
    "designs/optimised_design",
    "schedule/schedule",
    "opt/optimised_package",
    "verilog/pipeline_of_three_stages",
    "sim/simulation",
]
# A case for each status but 3, which is in check_memory.py, and 5, which is what is tried here.
REFUSED = [
    "words/no_words",
    "designs/no_such_file",
    "designs/text_that_is_no_design",
    "designs/sum_of_two_widths",
    "design_texts/33_sites",
    "verilog/depth_past_the_limit",
    "schedule/too_few_stages",
    "designs/file_that_names_an_output",
    "sim/rows_that_are_at_fault",
]

# ---- Calls


class Call:
    """The first call of a case, in a folder of its own."""

    def __init__(self, program, name, folder):
        case = case_of(name)
        self.name, self.program, self.words = name, program, case.calls[0]
        self.folder = shutil.copytree(case.folder, os.path.join(folder, name))
        self.files = [at for at, word in enumerate(self.words) if os.path.isfile(os.path.join(self.folder, word))]
        # (the text of a module stands nowhere: run_tests.py looks at what it does)
        self.out, self.err, self.status = answer(program, self.words, self.folder) if case.rows else case.wanted

    def path(self, name):
        return os.path.join(self.folder, name)

    def with_file(self, number, name):
        """The words, where this is the name of one of the files."""
        at = self.files[number]
        return [*self.words[:at], name, *self.words[at + 1:]]

    def start(self, words=None, **streams):
        return subprocess.Popen([self.program, *(words or self.words)], cwd=self.folder, stdin=subprocess.DEVNULL, **streams)

    def differs(self, what, got, wanted):
        if got != wanted:
            print(f"{self.name}, {what}:\n  got    {shown(got)}\n  wanted {shown(wanted)}")
            sys.exit(1)


def contents(path):
    with open(path, "rb") as file:
        return file.read()


def answered(started):
    """What a started program answers; of a stream that isn't a pipe nothing."""
    out, err = started.communicate(timeout=SECONDS)
    return out or b"", err or b"", started.returncode


# ---- Loads

def unreadable(folder):
    """Names of files that can't be read, each with what is wrong; root may read what is closed to others."""
    os.mkdir(os.path.join(folder, "directory"))
    os.symlink("loop", os.path.join(folder, "loop"))
    os.symlink("nowhere", os.path.join(folder, "dangling"))
    with open(os.path.join(folder, "plain"), "w", encoding="utf-8"):
        pass
    return {"missing": "that isn't there", "directory": "that is a directory", "directory/missing": "that isn't in a directory",
            "plain/missing": "in what is no directory", "plain/": "that is no directory", "loop": "that links to itself",
            "dangling": "that links to nothing", "n" * 300: "of too long a name", "": "without a name",
            "/proc/self/mem": "that opens, and whose first byte can't be read"}


def check_loads(call):
    """Each file fails in each way; a later one that fails too isn't named, nor is what is wrong with an earlier one."""
    ways = unreadable(call.folder)
    for number in range(len(call.files)):
        for name, what in ways.items():
            wanted = b"", f"cannot read {name}\n".encode(), 4
            words = call.with_file(number, name)
            call.differs(f"a file {what}", answer(call.program, words, call.folder), wanted)
            for other, at in enumerate(call.files):
                if other != number:
                    words[at] = "dangling" if other > number else "plain"
            call.differs(f"a file {what} beside another", answer(call.program, words, call.folder), wanted)
    return 2 * len(ways) * len(call.files)


def wait_until(is_so):
    end = time.monotonic() + SECONDS
    while not is_so():
        if time.monotonic() > end:
            raise TimeoutError
        time.sleep(0.001)


def is_empty(pipe):
    """Whether all that was written to a pipe was read."""
    left = array.array("i", [0])
    fcntl.ioctl(pipe, termios.FIONREAD, left)
    return left[0] == 0


def fed(call, number, pieces, behind):
    """What a call answers one of whose files is a pipe, which gives these pieces one by one; `behind` is done before it ends."""
    path = call.path("pipe")
    os.mkfifo(path)
    started = call.start(call.with_file(number, "pipe"), stdout=subprocess.PIPE, stderr=subprocess.PIPE)
    pipe = os.open(path, os.O_RDWR)
    for piece in pieces:
        os.write(pipe, piece)
        wait_until(lambda: is_empty(pipe))
    os.unlink(path)
    behind()
    os.close(pipe)
    return answered(started)


def check_pipes(call):
    """A file that comes byte by byte, and that is removed before its end, is read; one that vanishes before its load isn't."""
    texts = [contents(call.path(call.words[at])) for at in call.files]
    for number, text in enumerate(texts):
        # (an empty pipe doesn't show whether it was opened)
        if text:
            got = fed(call, number, [text[k:k + 1] for k in range(len(text))], lambda: None)
            call.differs("a file that comes byte by byte", got, (call.out, b"", 0))
    if len(texts) == 2:
        second = call.words[call.files[1]]
        got = fed(call, 0, [texts[0]], lambda: os.unlink(call.path(second)))
        call.differs("a file that vanishes while the first is read", got, (b"", f"cannot read {second}\n".encode(), 4))


def check_sizes(call):
    """A file that a comment fills up to the limit is read, one with a byte more isn't, nor is one without an end."""
    past = f"limit file: {FILE_LIMIT + 1}, at most {FILE_LIMIT}\n"
    for number, at in enumerate(call.files):
        text = contents(call.path(call.words[at]))
        begun = text + (b"\n#" if call.words[at].endswith((".txt", ".rows", "empty")) else b"\n//")
        for name, size in (("fits", FILE_LIMIT), ("passes", FILE_LIMIT + 1)):
            with open(call.path(name), "wb") as file:
                file.write(begun.ljust(size, b"x"))
        got = answer(call.program, call.with_file(number, "fits"), call.folder)
        call.differs("a file at the limit", got, (call.out, b"", 0))
        for name in ("passes", "/dev/zero"):
            got = answer(call.program, call.with_file(number, name), call.folder)
            call.differs("a file past the limit", got, (b"", f"{name}: {past}".encode(), 8))


# ---- Outputs

def limited(room):
    """Has files take so many bytes and no more."""
    def limit():
        signal.signal(signal.SIGXFSZ, signal.SIG_IGN)
        resource.setrlimit(resource.RLIMIT_FSIZE, (room, room))
    return limit


def check_rooms(call):
    """Of an output for which there is too little room a front is written."""
    for room in sorted({0, 1, 3, len(call.out) // 2, len(call.out) - 1, len(call.out)}):
        with open(call.path("front"), "wb") as front:
            got = answered(call.start(stdout=front, stderr=subprocess.PIPE, preexec_fn=limited(room)))
        got = (contents(call.path("front")), *got[1:])
        is_enough = room == len(call.out)
        call.differs(f"room for {room} bytes", got, (call.out, b"", 0) if is_enough else (call.out[:room], UNWRITTEN, 5))


@contextlib.contextmanager
def closed_pipe():
    """A pipe that nobody reads."""
    reading, writing = os.pipe()
    os.close(reading)
    with os.fdopen(writing, "wb") as stream:
        yield stream


@contextlib.contextmanager
def full_pipe():
    """A pipe that is full, and in which a write doesn't wait for room."""
    reading, writing = os.pipe()
    os.set_blocking(writing, False)
    with contextlib.suppress(BlockingIOError):
        while True:
            os.write(writing, b"x")
    with os.fdopen(reading), os.fdopen(writing, "wb", buffering=0) as stream:
        yield stream


# What is wrong with a stream, and how such a one is made; each takes no byte.
FAILING = {
    "a full device": lambda: open("/dev/full", "wb", buffering=0),
    "a file that is open for reading": lambda: open("/dev/null", "rb", buffering=0),
    "a pipe that nobody reads": closed_pipe,
    "a full pipe": full_pipe,
}
STREAMS = ["stdout", "stderr"]


def failing(call, streams):
    """What a call answers, and what is wrong with them, where these of its streams fail in each way; last where they are closed."""
    for what, make in FAILING.items():
        with make() as stream:
            given = {name: stream if name in streams else subprocess.PIPE for name in STREAMS}
            yield what, answered(call.start(**given))
    given = {name: None if name in streams else subprocess.PIPE for name in STREAMS}
    numbers = [1 + STREAMS.index(name) for name in streams]
    yield "a closed stream", answered(call.start(preexec_fn=lambda: [os.close(number) for number in numbers], **given))


def check_streams(call):
    """An output that fails is named, but not in place of what is refused; an error stream that fails changes nothing."""
    unwritten = (b"", UNWRITTEN, 5) if call.status == 0 else (b"", call.err, call.status)
    for what, got in failing(call, ["stdout"]):
        call.differs(f"{what} for the output", got, unwritten)
    for what, got in failing(call, ["stderr"]):
        call.differs(f"{what} for the error line", got, (call.out, b"", call.status))
    for what, got in failing(call, STREAMS):
        call.differs(f"{what} for both", got, (b"", b"", unwritten[2]))


def check_breaking(program, folder, count=100000):
    """A long output whose pipe is closed behind three bytes."""
    with open(os.path.join(folder, "idle.v"), "w", encoding="utf-8") as file:
        file.write("module T(input wire clk, input wire rst);\nendmodule\n")
    with open(os.path.join(folder, "rows.txt"), "w", encoding="utf-8") as file:
        file.write(f"- x{count}")
    words = [program, "sim", "idle.v", "rows.txt"]
    started = subprocess.Popen(words, cwd=folder, stdout=subprocess.PIPE, stderr=subprocess.PIPE, bufsize=0)
    front = started.stdout.read(3)
    started.stdout.close()
    err = started.stderr.read()
    got = front, err, started.wait(SECONDS)
    if got != (b"0\n1", UNWRITTEN, 5):
        print(f"a pipe that is closed behind three bytes: got {got}")
        sys.exit(1)


def main():
    program, count = os.path.abspath(sys.argv[1]), 0
    with tempfile.TemporaryDirectory() as folder:
        for name in WORKING:
            call = Call(program, name, folder)
            check_rooms(call)
            check_streams(call)
            count += check_loads(call)
            check_sizes(call)
            check_pipes(call)
        for name in REFUSED:
            check_streams(Call(program, name, folder))
        check_breaking(program, folder)
    print(f"{count} loads failed, and outputs of {len(WORKING)} calls and {len(REFUSED)} refusals: the program says so")


if __name__ == "__main__":
    main()
