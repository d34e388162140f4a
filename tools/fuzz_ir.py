#!/usr/bin/env python3
"""Runs random IR packages, right and wrong ones, and compares what the program says with what Python does (tools/ir_model.py).

    tools/fuzz_ir.py PROGRAM FROM TO

For each seed from FROM up to TO there is one package with its channel file. Its outcome is compared with that of the model. Then some
of its parts are changed, and the refusal, or the outcome where the package is still right, is compared with the model's; last a few of
the bytes of its text are changed, and the program must end with one of the statuses of a text, and a place within it. Prints the
first few that differ, and ends with 1.
"""

import copy
import os
import random
import re
import subprocess
import sys
import tempfile

import ir_model as ir
from ir_model import TOKEN, Channel, Node, Package, Proc, bits

LAST = 2 ** 32 - 1
WIDTHS = [1, 1, 2, 3, 4, 7, 8, 8, 16, 31, 32, 63, 64, 65, 127, 128]


def some_type(rng, depth=2, most=128):
    """A type with bits in it, of so many at most."""
    kind = rng.random()
    if depth == 0 or kind < 0.6 or most < 4:
        return bits(rng.choice([w for w in WIDTHS if w <= most]))
    if kind < 0.8:
        parts = []
        for _ in range(rng.randint(1, 3)):
            parts.append(("tuple", []) if rng.random() < 0.1 else some_type(rng, depth - 1, most // 4))
        return ("tuple", parts + [bits(1)])
    size = rng.randint(1, 3)
    return ("array", some_type(rng, depth - 1, most // size), size)


def some_constant(rng, ty):
    if ty[0] == "bits":
        return rng.choice([0, 1, 2 ** ty[1] - 1, rng.getrandbits(ty[1]), rng.getrandbits(ty[1])]) % 2 ** min(ty[1], 128)
    if ty[0] == "array":
        return ("[", [some_constant(rng, ty[1]) for _ in range(ty[2])])
    return ("(", [some_constant(rng, part) for part in ty[1]])


class Writer:
    """Writes the nodes of a proc."""

    def __init__(self, rng, state):
        self.rng, self.types, self.nodes, self.number = rng, {"st": state}, [], 0

    def add(self, op, ty, operands, **attributes):
        self.number += self.rng.choice([1, 1, 1, 2, 5])
        node = Node(op, self.number, ty, operands, attributes)
        self.nodes.append(node)
        self.types[node.name] = ty
        return node.name

    def those(self, test):
        return [name for name, ty in self.types.items() if test(ty)]

    def of_type(self, ty):
        """An operand of a type, which is written as a literal where there is none."""
        found = self.those(lambda other: other == ty)
        if found and self.rng.random() < 0.9:
            return self.rng.choice(found)
        return self.add("literal", ty, [], value=some_constant(self.rng, ty))

    def bits(self):
        found = self.those(ir.is_bits)
        if found and self.rng.random() < 0.9:
            return self.rng.choice(found)
        return self.of_type(bits(self.rng.choice(WIDTHS)))

    def width(self, operand):
        return self.types[operand][1]

    def pure(self):
        """One node of some operation."""
        rng = self.rng
        write = rng.choice([self.binary, self.binary, self.unary, self.compare, self.shift, self.reduce, self.concat, self.slice, self.dynamic,
                            self.extend, self.select, self.tuple, self.array, self.part, self.part, self.element, self.update, self.literal])
        write()

    def binary(self):
        first = self.bits()
        self.add(self.rng.choice(ir.BINARY), self.types[first], [first, self.of_type(self.types[first])])

    def unary(self):
        first = self.bits()
        self.add(self.rng.choice(ir.UNARY), self.types[first], [first])

    def compare(self):
        first = self.bits()
        self.add(self.rng.choice(ir.COMPARE), bits(1), [first, self.of_type(self.types[first])])

    def shift(self):
        first, amount = self.bits(), self.bits()
        self.add(self.rng.choice(ir.SHIFT), self.types[first], [first, amount])

    def reduce(self):
        self.add(self.rng.choice(ir.REDUCE), bits(1), [self.bits()])

    def concat(self):
        operands = [self.bits() for _ in range(self.rng.randint(1, 3))]
        width = sum(map(self.width, operands))
        if width <= 128:
            self.add("concat", bits(width), operands)

    def slice(self):
        operand = self.bits()
        width = self.rng.randint(1, self.width(operand))
        self.add("bit_slice", bits(width), [operand], start=self.rng.randint(0, self.width(operand) - width), width=width)

    def dynamic(self):
        width = self.rng.choice(WIDTHS)
        operands = [self.bits(), self.bits()]
        self.add("dynamic_bit_slice", bits(width), operands, width=width)

    def extend(self):
        operand = self.bits()
        width = self.rng.randint(self.width(operand), 128)
        self.add(self.rng.choice(ir.EXTEND), bits(width), [operand], new_bit_count=width)

    def select(self):
        selector, first = self.bits(), self.rng.choice(list(self.types))
        ty = self.types[first]
        others = self.those(lambda other: other == ty)
        count = self.rng.randint(1, min(4, 2 ** self.width(selector)))
        cases = [self.rng.choice(others) for _ in range(count)]
        default = self.rng.choice(others) if count < 2 ** self.width(selector) else None
        self.add("sel", ty, [selector], cases=cases, default=default)

    def tuple(self):
        operands = [self.rng.choice(list(self.types)) for _ in range(self.rng.randint(0, 3))]
        ty = ("tuple", [self.types[operand] for operand in operands])
        if ir.leaves(ty) < 40 and ir.levels(ty) < 10:
            self.add("tuple", ty, operands)

    def array(self):
        first = self.rng.choice(self.those(lambda ty: ir.marks(ty)[0] and ir.leaves(ty) < 10 and ir.levels(ty) < 10) or [None])
        if first is not None:
            others = self.those(lambda other: other == self.types[first])
            operands = [first] + [self.rng.choice(others) for _ in range(self.rng.randint(0, 2))]
            self.add("array", ("array", self.types[first], len(operands)), operands)

    def part(self):
        found = self.those(lambda ty: ty[0] == "tuple" and ty[1])
        if found:
            operand = self.rng.choice(found)
            index = self.rng.randrange(len(self.types[operand][1]))
            self.add("tuple_index", self.types[operand][1][index], [operand], index=index)

    def element(self):
        found = self.those(lambda ty: ty[0] == "array")
        if found:
            operand = self.rng.choice(found)
            self.add("array_index", self.types[operand][1], [operand], indices=self.bits())

    def update(self):
        found = self.those(lambda ty: ty[0] == "array" and self.those(lambda other: other == ty[1]))
        if found:
            operand = self.rng.choice(found)
            element = self.rng.choice(self.those(lambda other: other == self.types[operand][1]))
            self.add("array_update", self.types[operand], [operand, element], indices=self.bits())

    def literal(self):
        ty = some_type(self.rng)
        self.add("literal", ty, [], value=some_constant(self.rng, ty))

    def site(self, channel, receives, token):
        """A site behind this token; answers the token behind it."""
        rng = self.rng
        predicate = self.of_type(bits(1)) if rng.random() < 0.5 else None
        if receives:
            name = self.add("receive", ("tuple", [TOKEN, channel.ty]), [token], predicate=predicate, channel=channel.name)
            if rng.random() < 0.9:
                self.add("tuple_index", channel.ty, [name], index=1)
            return self.add("tuple_index", TOKEN, [name], index=0)
        value = self.of_type(channel.ty)
        return self.add("send", TOKEN, [token, value], predicate=predicate, channel=channel.name)


def some_proc(rng, name, sites):
    """A proc with these sites, pairs of a channel and whether it is received from."""
    state = some_type(rng) if rng.random() < 0.85 else ("tuple", [])
    writer = Writer(rng, state)
    for _ in range(rng.randint(0, 3)):
        writer.pure()
    token = writer.add("after_all", TOKEN, []) if sites or rng.random() < 0.5 else None
    for channel, receives in sites:
        for _ in range(rng.randint(0, 4)):
            writer.pure()
        token = writer.site(channel, receives, token)
    for _ in range(rng.randint(0, 5)):
        writer.pure()
    return Proc(name, state, some_constant(rng, state), writer.nodes, rng.choice(writer.those(lambda ty: ty == state)))


def some_package(rng):
    channels, count = [], rng.randint(1, 3)
    sites = [[] for _ in range(count)]
    for number in range(rng.randint(0, 6)):
        kind = rng.choice(["input", "output", "inner", "inner"])
        name = rng.choice(["c%d", "P.0/c%d", "id%d"] if kind == "inner" else ["c%d", "chan%d", "st%d"]) % number
        channel = Channel(name, some_type(rng), number, kind, rng.randint(1, 3) if kind == "inner" else None)
        channels.append(channel)
        if kind != "output" and rng.random() < 0.95:
            sites[rng.randrange(count)].append((channel, True))
        if kind != "input" and rng.random() < 0.95:
            sites[rng.randrange(count)].append((channel, False))
    for own in sites:
        rng.shuffle(own)
    return Package("Main", channels, [some_proc(rng, rng.choice(["P%d", "Main.%d", "a/b%d"]) % i, own) for i, own in enumerate(sites)])


def some_words(rng, package):
    """The words of some inputs, and their channel file."""
    inputs, lines = {}, []
    for channel in rng.sample(package.channels, len(package.channels)):
        if channel.kind == "input" and rng.random() < 0.9:
            words = [ir.value_of(some_constant(rng, channel.ty)) for _ in range(rng.randint(0, 5))]
            inputs[channel.name] = words
            lines += [f"chan {channel.name}"] + [ir.value_text(word, channel.ty) for word in words]
    return inputs, "".join(line + "\n" for line in lines)


# ---- changes


def another_type(rng, ty):
    return rng.choice([some_type(rng), bits(0), bits(129), bits(rng.choice(WIDTHS)), ("array", ty, 0), ("array", ty, 2), ("array", ("tuple", []), 1),
                       ("tuple", [ty]), ("tuple", [ty, TOKEN]), TOKEN, ("array", bits(1), 257), ("tuple", []), ("array", bits(64), 3)])


def another_operand(rng, proc):
    names = [node.name for node in proc.nodes]
    return rng.choice(names + ["st", ("add", 77777), ("not", 1)] if names else ["st", ("add", 77777)])


def another_constant(rng, constant, ty):
    return rng.choice([some_constant(rng, some_type(rng)), 2 ** 128 - 1, 2 ** 64, ("(", []), ("[", []), ("(", [constant]), ("[", [constant]),
                       some_constant(rng, ty) if ir.marks(ty)[2] and not ir.marks(ty)[1] else 0])


def change_node(rng, package, proc):
    node = rng.choice(proc.nodes)
    keys = [key for key, value in node.attributes.items()]
    what = rng.choice(["type", "operand", "operand", "drop", "add", "number", "op"] + keys * 2)
    if what == "type":
        node.ty = another_type(rng, node.ty)
    elif what == "operand" and node.operands:
        node.operands[rng.randrange(len(node.operands))] = another_operand(rng, proc)
    elif what == "drop" and node.operands:
        node.operands.pop(rng.randrange(len(node.operands)))
    elif what == "add":
        node.operands.insert(rng.randint(0, len(node.operands)), another_operand(rng, proc))
    elif what == "number":
        node.number = rng.choice([0, 1, node.number - 1 if node.number else 0, min(node.number + 1, LAST), min(node.number + 2, LAST), LAST])
    elif what == "op":
        for group in (ir.BINARY, ir.UNARY, ir.COMPARE, ir.SHIFT, ir.REDUCE, ir.EXTEND, ["tuple", "array", "concat"], ["receive", "send"],
                      ["array_index", "array_update"]):
            if node.op in group:
                node.op = rng.choice(group)
    elif what in ("start", "width", "new_bit_count", "index"):
        node.attributes[what] = rng.choice([0, 1, node.attributes[what] + 1, max(node.attributes[what] - 1, 0), 2 ** 64, 2 ** 128 - 1])
    elif what in ("indices", "predicate", "default"):
        gone = what != "indices" and rng.random() < 0.3
        node.attributes[what] = None if gone else another_operand(rng, proc)
    elif what == "cases":
        cases = node.attributes["cases"]
        if cases and rng.random() < 0.5:
            cases[rng.randrange(len(cases))] = another_operand(rng, proc)
        else:
            node.attributes["cases"] = cases[1:] if rng.random() < 0.5 else cases + [another_operand(rng, proc)]
    elif what == "value":
        node.attributes["value"] = another_constant(rng, node.attributes["value"], node.ty)
    elif what == "channel":
        node.attributes["channel"] = rng.choice([channel.name for channel in package.channels] + ["nowhere"])


def change_nodes(rng, proc):
    """Another order, a node twice, or one that is gone."""
    what, place = rng.random(), rng.randrange(len(proc.nodes))
    if what < 0.3:
        proc.nodes.pop(place)
    elif what < 0.5:
        node = copy.deepcopy(proc.nodes[place])
        node.number = min(proc.nodes[-1].number + 1, LAST)
        proc.nodes.append(node)
    elif what < 0.7:
        proc.nodes.insert(place, copy.deepcopy(rng.choice(proc.nodes)))
    elif what < 0.85:
        first, second = rng.randrange(len(proc.nodes)), rng.randrange(len(proc.nodes))
        proc.nodes[first], proc.nodes[second] = proc.nodes[second], proc.nodes[first]
    else:
        proc.nodes.append(Node("after_all", min(proc.nodes[-1].number + 1, LAST), TOKEN, []))


def change_channel(rng, package):
    channel = rng.choice(package.channels)
    what = rng.choice(["type", "type", "name", "number", "kind", "depth"])
    if what == "type":
        channel.ty = another_type(rng, channel.ty)
    elif what == "name":
        channel.name = rng.choice([rng.choice(package.channels).name, "a.b", "a/b", "next"])
    elif what == "number":
        channel.number = rng.choice([0, 1, min(channel.number + 1, LAST), LAST])
    elif what == "kind":
        channel.kind = rng.choice(["input", "output", "inner"])
        channel.depth = rng.choice([1, 2]) if channel.kind == "inner" else None
    elif channel.kind == "inner":
        channel.depth = rng.choice([0, 4096, 4097, 2 ** 64, 2 ** 128 - 1])


def change_proc(rng, package, proc):
    what = rng.choice(["name", "state", "init", "next", "package"])
    if what == "name":
        proc.name = rng.choice(package.procs).name
    elif what == "state":
        proc.state = another_type(rng, proc.state)
    elif what == "init":
        proc.init = another_constant(rng, proc.init, proc.state)
    elif what == "next":
        proc.next = another_operand(rng, proc)
    else:
        package.name = rng.choice(["a.b", "a/b", "package"])


def change(rng, package):
    proc, what = rng.choice(package.procs), rng.random()
    if what < 0.6 and proc.nodes:
        change_node(rng, package, proc)
    elif what < 0.75 and proc.nodes:
        change_nodes(rng, proc)
    elif what < 0.87 and package.channels:
        change_channel(rng, package)
    else:
        change_proc(rng, package, proc)


# ---- the program


class Compared:
    def __init__(self, program, folder):
        self.program, self.folder, self.differing = program, folder, 0

    def answer(self, text, words, activations, depth):
        for name, content in (("f.ir", text), ("f.txt", words)):
            with open(os.path.join(self.folder, name), "w", encoding="utf-8") as file:
                file.write(content)
        call = [self.program, *f"run f.ir f.txt --activations {activations} --from ir".split()]
        call += ["--depth", str(depth)] if depth else []
        done = subprocess.run(call, cwd=self.folder, capture_output=True, text=True, check=False)
        return done.stdout, done.stderr, done.returncode

    def same(self, seed, package, inputs, words, activations, depth):
        fault = ir.fault_of(package)
        if fault is None:
            wanted = (ir.outcome_of(package, inputs, activations, depth), "", 0)
        else:
            wanted = ("", f"f.ir: {fault[0]}\n", fault[1])
        got = self.answer(ir.text_of(package), words, activations, depth)
        if got != wanted:
            self.differing += 1
            print(f"=== seed {seed}, {activations} activations, depth {depth}\n{ir.text_of(package)}--- words\n{words}--- wanted {wanted}\n--- got {got}")
        return fault is None

    def stands(self, seed, text):
        """A text of any bytes is read or refused at a place within it."""
        out, err, status = self.answer(text, "", 1, None)
        place = re.fullmatch(r"f\.ir: (?:syntax at (\d+)|rule 5[1-5] at \d+\.\.(\d+)|limit [a-z]+: \d+, at most \d+)\n", err)
        right = (status, err) == (0, "") if place is None else \
            status in (6, 7, 8) and out == "" and all(int(end) <= len(text.encode()) for end in place.groups() if end)
        if not right:
            self.differing += 1
            print(f"=== seed {seed}, changed bytes\n{text}--- got {(out, err, status)}")


def changed_bytes(rng, text):
    pieces = ["(", ")", "[", "]", "{", "}", ",", "=", ":", ".", " ", "/", "//", "0x", "99", "id", "st", "é", "\n", "bits", "next", "proc"]
    for _ in range(rng.randint(1, 3)):
        at = rng.randrange(len(text) + 1)
        text = text[:at] + rng.choice(["", rng.choice(pieces)]) + text[at + rng.randint(0, 4):]
    return text


def compare(compared, seed):
    """The package of a seed, a changed one, and its text with changed bytes; answers how many were refused."""
    rng = random.Random(seed)
    package = some_package(rng)
    inputs, words = some_words(rng, package)
    activations, depth = rng.randint(1, 6), rng.choice([None, None, 1, 2, 5])
    if not compared.same(seed, package, inputs, words, activations, depth):
        print(f"seed {seed}: the package is refused")
        compared.differing += 1
    changed = copy.deepcopy(package)
    for _ in range(rng.choice([1, 1, 1, 2, 3])):
        change(rng, changed)
    refused = not compared.same(seed, changed, {}, "", activations, depth)
    compared.stands(seed, changed_bytes(rng, ir.text_of(package)))
    return refused


def main():
    program, first, last = os.path.abspath(sys.argv[1]), int(sys.argv[2]), int(sys.argv[3])
    refused = 0
    with tempfile.TemporaryDirectory() as folder:
        compared = Compared(program, folder)
        for seed in range(first, last):
            refused += compare(compared, seed)
            if compared.differing >= 3:
                break
    if compared.differing:
        sys.exit(1)
    print(f"{last - first} packages and as many changed ones, of which {refused} were refused: none differs")


if __name__ == "__main__":
    main()
