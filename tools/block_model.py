"""What a block does at its ports, in Python: which words it may move, in which cycles, over which combinational paths, with how many registers.

Written from docs/BLOCKS.md, docs/IR.md and docs/SCHEDULE.md over `ir_model.py` (the network) and `fuzz_schedule.py` (the stages). It knows
nothing of how a block is made.
"""

import re

import ir_model as ir
from fuzz_schedule import Timed

ENDLESS = 10 ** 9


# ---- texts


def type_of(text):
    """The type that a text begins with, and the rest of it."""
    text = text.lstrip(" ,")
    if text.startswith("("):
        parts, text = [], text[1:]
        while not text.startswith(")"):
            part, text = type_of(text)
            parts.append(part)
        ty, text = ("tuple", parts), text[1:]
    elif text.startswith("token"):
        ty, text = ir.TOKEN, text[5:]
    else:
        width, text = re.match(r"bits\[(\d+)\](.*)", text, re.S).groups()
        ty = ir.bits(int(width))
    while text.startswith("["):
        size, text = re.match(r"\[(\d+)\](.*)", text, re.S).groups()
        ty = ("array", ty, int(size))
    return ty, text


def constant_of(text):
    """The written value that a text begins with, and the rest of it."""
    text = text.lstrip(" ,")
    if text[0] not in "([":
        number = re.match(r"\w+", text).group()
        return int(number, 0), text[len(number):]
    open_, parts, text = text[0], [], text[1:]
    while text[0] not in ")]":
        part, text = constant_of(text)
        parts.append(part)
    return (open_, parts), text[1:]


def operand_of(text):
    op, _, number = text.partition(".")
    return "st" if text == "st" else (op, int(number))


def node_of(line):
    """The node of a line in its printed form."""
    head, _, rest = line.strip().partition(": ")
    ty, rest = type_of(rest)
    op, number = operand_of(head)
    inside = rest[rest.index("(") + 1:rest.rindex(", id=") if ", id=" in rest else rest.rindex("id=")]
    attributes = {}
    for key, value in re.findall(r"(\w+)=(\[[^\]]*\]|.*?)(?=, \w+=|$)", inside):
        if key == "value":
            attributes[key] = constant_of(value)[0]
        elif key in ("cases", "indices"):
            operands = [operand_of(it) for it in value.strip("[]").split(", ")]
            attributes[key] = operands if key == "cases" else operands[0]
        elif key in ("default", "predicate"):
            attributes[key] = operand_of(value)
        else:
            attributes[key] = value if key == "channel" else int(value)
    plain = re.sub(r"(^|, )\w+=.*", "", inside)
    return ir.Node(op, number, ty, [operand_of(it) for it in plain.split(", ") if it], attributes)


def package_of(text):
    """The package of a text in its printed form, comments aside."""
    package = None
    for line in re.sub(r" *//[^\n]*", "", text).split("\n"):
        first = line.strip().partition(" ")[0]
        if first == "package":
            package = ir.Package(line.split(" ")[1], [], [])
        elif first == "chan":
            name, rest = re.match(r"chan ([^(]*)\((.*)", line).groups()
            ty, rest = type_of(rest)
            kind, depth = re.search(r"kind=(\w+)(?:, depth=(\d+))?", rest).groups()
            package.channels.append(ir.Channel(name, ty, len(package.channels), kind, int(depth) if depth else None))
        elif first == "proc":
            name, rest = re.match(r"proc ([^(]*)\(st: (.*)", line).groups()
            ty, rest = type_of(rest)
            package.procs.append(ir.Proc(name, ty, constant_of(rest.partition("init=")[2])[0], [], None))
        elif first.startswith("next("):
            package.procs[-1].next = operand_of(first[5:-1])
        elif "." in first:
            package.procs[-1].nodes.append(node_of(line))
    return package


# ---- words


def flat(value, ty):
    """The number of a value's flat word: the first part in the high bits."""
    if ty[0] == "bits":
        return value
    number = 0
    for part, of in zip(value, [ty[1]] * ty[2] if ty[0] == "array" else ty[1]):
        number = number << ir.flat_width(of) | flat(part, of)
    return number


def unflat(number, ty):
    """The value of a type whose flat word this is."""
    if ty[0] == "bits":
        return number
    parts, left = [], ir.flat_width(ty)
    for of in [ty[1]] * ty[2] if ty[0] == "array" else ty[1]:
        left -= ir.flat_width(of)
        parts.append(unflat(number >> left & 2 ** ir.flat_width(of) - 1, of))
    return parts


# ---- the network


class Run:
    """A run of a package's procs: what lies in its channels, and which activation of its proc each event belongs to."""

    def __init__(self, package, inputs, activations, depth=None):
        """`inputs` has flat words by the names of inputs; `depth` is that of all inner channels, where it isn't their own."""
        words = {c.name: [unflat(word, c.ty) for word in inputs.get(c.name, [])] for c in package.channels if c.kind == "input"}
        self.fifos = {c.name: ir.Fifo(c, depth or c.depth, words.get(c.name, [])) for c in package.channels}
        self.shows = [{"state": None, "waits": "done"} for _ in package.procs]
        self.activations = {(c.name, way): [] for c in package.channels for way in ("recv", "send")}
        self.going = [ir.running(proc, self.fifos, activations, shown) for proc, shown in zip(package.procs, self.shows)]

    def turn(self):
        """Lets each proc make an event, if it can; answers whether one could."""
        moved = False
        for place, steps in enumerate(self.going):
            event = None if steps is None else next(steps, None)
            if event is None:
                self.going[place] = None
            elif event:
                moved = True
                _, activation, way, channel = self.shows[place]["waits"].split(" ")
                self.activations[channel, way].append(int(activation))
        return moved

    def count(self, channel):
        """How many words went through an outer channel."""
        fifo = self.fifos[channel.name]
        return fifo.received if channel.kind == "input" else len(fifo.words)

    def words(self, channel):
        fifo = self.fifos[channel.name]
        return [flat(word, channel.ty) for word in fifo.words[:self.count(channel)]]

    def until(self, wanted):
        """Goes on until so many words went through each outer channel, or nothing more goes."""
        while any(self.count(channel) < wanted.get(channel.name, 0) for channel in outer(self.package_channels())) and self.turn():
            pass
        return self

    def package_channels(self):
        return [fifo.channel for fifo in self.fifos.values()]

    def whole(self):
        while self.turn():
            pass
        return self


def outer(channels):
    return [channel for channel in channels if channel.kind != "inner"]


# ---- pipelines


class Pipeline:
    """A proc with its stages: those of its sites, its interval, and the leaves that are carried from stage to stage."""

    def __init__(self, proc, clock):
        timed = Timed(proc)
        self.proc, self.stages = proc, timed.least(clock)
        self.depth, self.turn = max(self.stages, default=0) + 1, timed.turn(self.stages)
        self.interval = self.turn + 1
        self.sites = [(proc.nodes[i], self.stages[i]) for i in timed.sites]

    def carried(self):
        """For each stage but the last the leaves of values that stand there or earlier, and that a later stage reads; the next state's up to
        the stage that gives the turn."""
        stage_of = {"st": 0, **{node.name: stage for node, stage in zip(self.proc.nodes, self.stages)}}
        leaves_of = {"st": ir.leaves(self.proc.state), **{node.name: ir.leaves(node.ty) for node in self.proc.nodes}}
        last = dict(stage_of)
        for node, stage in zip(self.proc.nodes, self.stages):
            for operand in node.all_operands():
                last[operand] = max(last[operand], stage)
        last[self.proc.next] = max(last[self.proc.next], self.turn)
        return [sum(leaves_of[name] for name in stage_of if stage_of[name] <= k < last[name]) for k in range(self.depth - 1)]

    def registers(self):
        """The most registers of the pipeline: its state's leaves, the turn, its stages, its sites, its receives, and what is carried."""
        receives = sum(node.op == "receive" for node, _ in self.sites)
        return ir.leaves(self.proc.state) + 1 + self.depth + len(self.sites) + receives + sum(self.carried())


def pipelines_of(package, clock):
    return [Pipeline(proc, clock) for proc in package.procs]


def most_registers(package, pipelines):
    queues = sum(channel.depth + 2 for channel in package.channels if channel.kind == "inner")
    return queues + sum(pipeline.registers() for pipeline in pipelines)


def ways_allowed(package, pipelines):
    """For each signal that a block drives, those from outside on which it may depend in the same cycle."""
    allowed = {}
    channels = {channel.name: channel for channel in package.channels}
    for pipeline in pipelines:
        sites = [(node.op, channels[node.attributes["channel"]], stage) for node, stage in pipeline.sites]
        for place, (op, channel, stage) in enumerate(sites):
            before = [(other_op, other) for other_op, other, at in sites[:place] if at == stage and other.kind != "inner"]
            ways = {"rst"} | {f"{other.name}_{end}" for other_op, other in before for end in (("data", "vld") if other_op == "receive" else ("rdy",))}
            for end in ("rdy",) if op == "receive" else ("data", "vld"):
                allowed[f"{channel.name}_{end}"] = ways
    return allowed


# ---- printed modules


class Module:
    """A printed module: its name, its ports in their order, its registers, wires and drivers."""

    def __init__(self, text):
        text = re.sub(r"//[^\n]*", "", text)
        self.name = re.match(r"\s*module (\w+)", text).group(1)
        head, _, body = text.partition(");")
        self.ports = [(name, way, int(top or 0) + 1) for way, top, name in re.findall(r"\b(input|output) wire (?:\[(\d+):0\] )?(\w+)", head)]
        found = re.findall(r"\b(reg|wire) (?:\[(\d+):0\] )?(\w+);", body)
        self.registers = {name: int(top or 0) + 1 for kind, top, name in found if kind == "reg"}
        self.wires = {name: int(top or 0) + 1 for kind, top, name in found if kind == "wire"}
        self.drivers = {name: names_in(driver) for name, driver in re.findall(r"\bassign (\w+) = ([^;]*);", body)}
        self.sets = [names_in(value) for _, value in re.findall(r"\b(\w+) <= ([^;]*);", body)]

    def read(self):
        """All names that are read somewhere."""
        return set().union(*self.drivers.values(), *self.sets)

    def reaches(self, output):
        """The ports from which this one is driven in the same cycle."""
        inputs = {name for name, way, _ in self.ports if way == "input"}
        seen, waiting = set(), [output]
        while waiting:
            for name in self.drivers.get(waiting.pop(), ()):
                if name not in seen:
                    seen.add(name)
                    waiting.append(name)
        return seen & inputs


def names_in(text):
    return set(re.findall(r"(?<![\w'$])[A-Za-z_]\w*", text))


def ports_wanted(package):
    ports = [("clk", "input", 1), ("rst", "input", 1)]
    for channel in outer(package.channels):
        along, back = ("input", "output") if channel.kind == "input" else ("output", "input")
        ports += [(f"{channel.name}_data", along, ir.flat_width(channel.ty)), (f"{channel.name}_vld", along, 1), (f"{channel.name}_rdy", back, 1)]
    return ports


# ---- rows and cycles


class Row:
    """What the outside does in a cycle: whether it resets, the words offered by the names of inputs, and the outputs that it is ready for."""

    def __init__(self, reset=False, words=(), ready=()):
        self.reset, self.offered, self.ready = reset, dict(words), set(ready)

    def text(self):
        items = ["R" if self.reset else "-"] + [f"{name}=0x{word:x}" for name, word in self.offered.items()]
        return " ".join(items + [f"{name}!" for name in sorted(self.ready)])


def rows_text(rows):
    return "".join(row.text() + "\n" for row in rows)


class Cycles:
    """What `sim` wrote: in each cycle the inputs that the module was ready for and the words at its outputs, and what moved."""

    def __init__(self, text):
        self.cycles, self.moved = [], {}
        for line in text.split("\n"):
            first, *items = line.split(" ")
            if first == "moved":
                self.moved[items[0]] = [int(word, 16) for word in items[2:]]
            elif first:
                valid = dict(item.split("=") for item in items if "=" in item)
                self.cycles.append(({item[:-1] for item in items if item.endswith("!")}, {name: int(word, 16) for name, word in valid.items()}))
