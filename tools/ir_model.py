"""IR packages in Python: their text with the places of their lines, the fault that is named, and the outcome of a run.

Written from docs/IR.md and docs/FORMATS.md, not from the definitions that the prover reads. Types are `("bits", W)`, `("tuple", [T, ..])`,
`("array", T, N)` and `("token",)`; values are numbers, lists of values for tuples and arrays, and `[]` for a token.
"""

MOST = {"width": 128, "leaves": 256, "levels": 64, "word": 128, "depth": 4096, "sites": 32}
FOUND_MOST = 2 ** 64 - 1
TOKEN = ("token",)

BINARY = "add sub umul udiv umod and or xor".split()
UNARY = "not neg reverse".split()
COMPARE = "eq ne ult ule ugt uge slt sle sgt sge".split()
SHIFT = "shll shrl shra".split()
REDUCE = "and_reduce or_reduce xor_reduce".split()
EXTEND = "zero_ext sign_ext".split()


def bits(width):
    return ("bits", width)


class Node:
    """A node: its operation, id, type and operands, each `st` or a pair of operation and id, and its attributes by their names."""

    def __init__(self, op, number, ty, operands, attributes=()):
        self.op, self.number, self.ty, self.operands, self.attributes = op, number, ty, list(operands), dict(attributes)

    @property
    def name(self):
        return (self.op, self.number)

    def all_operands(self):
        return (self.operands + self.attributes.get("cases", [])
                + [self.attributes[key] for key in ("default", "indices", "predicate") if self.attributes.get(key) is not None])


class Proc:
    def __init__(self, name, state, init, nodes, last):
        self.name, self.state, self.init, self.nodes, self.next = name, state, init, nodes, last


class Channel:
    """A channel, of kind input, output or inner."""

    def __init__(self, name, ty, number, kind, depth=None):
        self.name, self.ty, self.number, self.kind, self.depth = name, ty, number, kind, depth


class Package:
    def __init__(self, name, channels, procs):
        self.name, self.channels, self.procs = name, channels, procs


# ---- texts


def type_text(ty):
    sizes = ""
    while ty[0] == "array":
        sizes = f"[{ty[2]}]" + sizes
        ty = ty[1]
    if ty[0] == "bits":
        return f"bits[{ty[1]}]" + sizes
    return ("token" if ty[0] == "token" else "(" + ", ".join(map(type_text, ty[1])) + ")") + sizes


def constant_text(constant):
    """A written value: a number, ("(", [..]) or ("[", [..])."""
    if isinstance(constant, int):
        return str(constant)
    open_, parts = constant
    return open_ + ", ".join(map(constant_text, parts)) + (")" if open_ == "(" else "]")


def operand_text(operand):
    return operand if operand == "st" else f"{operand[0]}.{operand[1]}"


def attribute_text(key, value):
    if key in ("cases", "indices"):
        operands = value if key == "cases" else [value]
        return f"{key}=[{', '.join(map(operand_text, operands))}]"
    if key in ("default", "predicate"):
        return f"{key}={operand_text(value)}"
    return f"{key}={constant_text(value) if key == 'value' else value}"


def node_text(node):
    parts = [operand_text(operand) for operand in node.operands]
    parts += [attribute_text(key, value) for key, value in node.attributes.items() if value is not None]
    return f"{node.op}.{node.number}: {type_text(node.ty)} = {node.op}({', '.join(parts + [f'id={node.number}'])})"


def channel_text(channel):
    depth = f", depth={channel.depth}" if channel.kind == "inner" else ""
    return f"chan {channel.name}({type_text(channel.ty)}, id={channel.number}, kind={channel.kind}{depth})"


def head_text(proc):
    return f"proc {proc.name}(st: {type_text(proc.state)}, init={constant_text(proc.init)}) {{"


def lines_of(package):
    """Each line of the text with what it is."""
    yield f"package {package.name}", "package", package
    for channel in package.channels:
        yield channel_text(channel), "channel", channel
    for proc in package.procs:
        yield head_text(proc), "head", proc
        for node in proc.nodes:
            yield "  " + node_text(node), "node", node
        yield f"  next({operand_text(proc.next)})", "next", proc
        yield "}", "end", proc


def text_of(package):
    return "".join(line + "\n" for line, _, _ in lines_of(package))


# ---- rules and limits


def marks(ty):
    """Whether a type has bits, whether it has a token, and whether its sizes and elements are allowed."""
    if ty[0] == "bits":
        return True, False, ty[1] > 0
    if ty[0] == "token":
        return False, True, True
    if ty[0] == "array":
        has_bits, token, sound = marks(ty[1])
        return has_bits, token, sound and ty[2] > 0 and has_bits
    parts = [marks(part) for part in ty[1]]
    return any(p[0] for p in parts), any(p[1] for p in parts), all(p[2] for p in parts)


def widths(ty):
    if ty[0] == "bits":
        return [ty[1]]
    if ty[0] == "array":
        return widths(ty[1])
    return [w for part in (ty[1] if ty[0] == "tuple" else []) for w in widths(part)]


def flat_width(ty):
    if ty[0] == "bits":
        return ty[1]
    if ty[0] == "array":
        return ty[2] * flat_width(ty[1])
    return sum(map(flat_width, ty[1])) if ty[0] == "tuple" else 0


def leaves(ty):
    if ty[0] == "bits":
        return 1
    if ty[0] == "array":
        return ty[2] * leaves(ty[1])
    return sum(map(leaves, ty[1])) if ty[0] == "tuple" else 0


def levels(ty):
    if ty[0] == "array":
        return 1 + levels(ty[1])
    return 1 + max([levels(part) for part in ty[1]], default=0) if ty[0] == "tuple" else 0


def fits(constant, ty):
    """Whether a written value has the type, in which no token is."""
    if ty[0] == "bits":
        return isinstance(constant, int) and constant < 2 ** min(ty[1], 128)
    if ty[0] == "token" or isinstance(constant, int):
        return False
    open_, parts = constant
    if ty[0] == "tuple":
        return open_ == "(" and len(parts) == len(ty[1]) and all(map(fits, parts, ty[1]))
    return open_ == "[" and len(parts) == ty[2] and all(fits(part, ty[1]) for part in parts)


def is_bits(ty):
    return ty[0] == "bits"


def fits_table(node, types, attribute_types, channel):
    """Rule 52 of a node whose operands are all there."""
    op, result, attributes = node.op, node.ty, node.attributes
    count = len(types)

    def index():
        return attribute_types["indices"][0]

    if op in BINARY:
        return count == 2 and is_bits(result) and all(t == result for t in types)
    if op in UNARY:
        return count == 1 and is_bits(result) and types[0] == result
    if op in COMPARE:
        return count == 2 and is_bits(types[0]) and types[0] == types[1] and result == bits(1)
    if op in SHIFT:
        return count == 2 and is_bits(result) and types[0] == result and is_bits(types[1])
    if op == "concat":
        return count >= 1 and all(map(is_bits, types)) and result == bits(sum(t[1] for t in types))
    if op == "bit_slice":
        return count == 1 and is_bits(types[0]) and result == bits(attributes["width"]) \
            and attributes["start"] + attributes["width"] <= types[0][1]
    if op == "dynamic_bit_slice":
        return count == 2 and all(map(is_bits, types)) and result == bits(attributes["width"])
    if op in EXTEND:
        return count == 1 and is_bits(types[0]) and result == bits(attributes["new_bit_count"]) and types[0][1] <= attributes["new_bit_count"]
    if op == "sel":
        cases = len(attributes["cases"])
        return count == 1 and is_bits(types[0]) and 1 <= cases <= 2 ** min(types[0][1], 128) \
            and (attributes.get("default") is not None) == (cases < 2 ** min(types[0][1], 128)) \
            and all(t == result for t in attribute_types["cases"] + attribute_types["default"])
    if op == "tuple":
        return result == ("tuple", types)
    if op == "array":
        return count >= 1 and result == ("array", types[0], count) and all(t == types[0] for t in types)
    if op == "tuple_index":
        return count == 1 and types[0][0] == "tuple" and attributes["index"] < len(types[0][1]) and types[0][1][attributes["index"]] == result
    if op == "array_index":
        return count == 1 and types[0][0] == "array" and types[0][1] == result and is_bits(index())
    if op == "array_update":
        return count == 2 and types[0][0] == "array" and types[0] == result and types[0][1] == types[1] and is_bits(index())
    if op in REDUCE:
        return count == 1 and is_bits(types[0]) and result == bits(1)
    if op == "literal":
        return count == 0
    if op == "after_all":
        return count == 0 and result == TOKEN
    if count != (1 if op == "receive" else 2) or types[0] != TOKEN or any(t != bits(1) for t in attribute_types["predicate"]):
        return False
    if channel is None:
        return True
    if op == "receive":
        return result == ("tuple", [TOKEN, channel.ty])
    return result == TOKEN and types[1] == channel.ty


class Judge:
    """The checks of a package, line by line."""

    def __init__(self, package):
        self.package = package
        self.channels, self.procs = [], []
        self.ends = set()
        self.types, self.nodes, self.last_site, self.after_all = {}, [], None, False

    def limits(self, ty, own=0):
        passed = [("width", w) for w in sorted(widths(ty))]
        return passed + [("leaves", leaves(ty)), ("levels", levels(ty) - own)]

    def package_line(self, package):
        return {51: "." in package.name or "/" in package.name}, []

    def channel(self, channel):
        outer = channel.kind != "inner"
        has_bits, token, sound = marks(channel.ty)
        broken = {51: channel.name in self.channels or channel.number != len(self.channels)
                  or outer and ("." in channel.name or "/" in channel.name),
                  55: not (has_bits and sound) or token or channel.depth == 0}
        self.channels.append(channel.name)
        return broken, self.limits(channel.ty) + [("word", flat_width(channel.ty)), ("depth", channel.depth or 0)]

    def head(self, proc):
        _, token, sound = marks(proc.state)
        broken = {51: proc.name in self.procs, 55: not sound or token or not fits(proc.init, proc.state)}
        self.procs.append(proc.name)
        self.types, self.nodes, self.last_site, self.after_all = {"st": proc.state}, [], None, False
        self.sites = 0
        return broken, self.limits(proc.state)

    def chained(self, node):
        """Whether the token of a site is that of the site before, or the `after_all`."""
        token = node.operands[0] if node.operands else None
        at = next((other for other in self.nodes if other.name == token), None)
        if at is None:
            return False
        if self.last_site is None:
            return at.op == "after_all"
        if self.last_site.op == "send":
            return at is self.last_site
        return at.op == "tuple_index" and at.attributes["index"] == 0 and at.operands == [self.last_site.name]

    def node(self, node):
        known = all(operand in self.types for operand in node.all_operands())
        rises = not self.nodes or self.nodes[-1].number < node.number
        broken = {51: not (known and rises)}
        channel = next((c for c in self.package.channels if c.name == node.attributes.get("channel")), None)
        if known:
            types = [self.types[operand] for operand in node.operands]
            attribute_types = {"cases": [self.types[o] for o in node.attributes.get("cases", [])]}
            for key in ("default", "indices", "predicate"):
                operand = node.attributes.get(key)
                attribute_types[key] = [] if operand is None else [self.types[operand]]
            broken[52] = not fits_table(node, types, attribute_types, channel)
        site = node.op in ("receive", "send")
        if node.op == "after_all":
            broken[53] = self.after_all
            self.after_all = True
        if site:
            end = (channel and channel.name, node.op)
            wrong = channel is None or channel.kind == ("output" if node.op == "receive" else "input")
            broken[53] = not self.chained(node)
            broken[54] = wrong or end in self.ends
            self.ends.add(end)
            self.last_site, self.sites = node, self.sites + 1
        _, token, sound = marks(node.ty)
        broken[55] = not sound or node.op == "literal" and (token or not fits(node.attributes["value"], node.ty))
        if node.name not in self.types:
            self.types[node.name] = node.ty
        self.nodes.append(node)
        return broken, self.limits(node.ty, 1 if node.op == "receive" else 0)

    def next(self, proc):
        known = proc.next in self.types
        return {51: not known, 55: known and self.types[proc.next] != proc.state}, []

    def end(self, _):
        return {}, [("sites", min(self.sites, 33))]


def fault_of(package):
    """The line that a refusal writes behind the file's name, and its status; None where the package breaks no rule and passes no limit."""
    judge, at = Judge(package), 0
    for line, what, part in lines_of(package):
        broken, limits = getattr(judge, {"package": "package_line"}.get(what, what))(part)
        rules = [rule for rule, is_broken in sorted(broken.items()) if is_broken]
        start = at + len(line) - len(line.lstrip(" "))
        if rules:
            return f"rule {rules[0]} at {start}..{at + len(line)}", 7
        for limit, found in limits:
            found = min(found, FOUND_MOST)
            if found > MOST[limit]:
                return f"limit {limit}: {found}, at most {MOST[limit]}", 8
        at += len(line) + 1
    return None


# ---- meaning


def signed(x, width):
    return x - 2 ** width if x >> (width - 1) else x


def zero(ty):
    if ty[0] == "bits":
        return 0
    if ty[0] == "array":
        return [zero(ty[1])] * ty[2]
    return list(map(zero, ty[1])) if ty[0] == "tuple" else []


def value_of(constant):
    return constant if isinstance(constant, int) else list(map(value_of, constant[1]))


def number_op(op, x, y, width):
    """An operation of two numbers of a width, modulo its power of two."""
    whole = {"add": x + y, "sub": x - y, "umul": x * y, "and": x & y, "or": x | y, "xor": x ^ y,
             "udiv": x // y if y else -1, "umod": x % y if y else 0}[op]
    return whole % 2 ** width


def compared(op, x, y, width):
    if op[0] == "s":
        x, y = signed(x, width), signed(y, width)
    return int({"eq": x == y, "ne": x != y, "lt": x < y, "le": x <= y, "gt": x > y, "ge": x >= y}[op if op in ("eq", "ne") else op[1:]])


def shifted(op, x, amount, width):
    amount = min(amount, width)
    if op == "shll":
        return (x << amount) % 2 ** width
    return (x >> amount) if op == "shrl" else (signed(x, width) >> amount) % 2 ** width


def node_value(node, value, width_at):
    """The value of a node that is no site; `value` and `width_at` are those of operands."""
    op, attributes = node.op, node.attributes
    args = [value(operand) for operand in node.operands]
    width = node.ty[1] if node.ty[0] == "bits" else None
    if op in BINARY:
        return number_op(op, args[0], args[1], width)
    if op in UNARY:
        digits = format(args[0], "b").zfill(width)
        return {"not": 2 ** width - 1 - args[0], "neg": -args[0] % 2 ** width, "reverse": int(digits[::-1], 2)}[op]
    if op in COMPARE:
        return compared(op, args[0], args[1], width_at(node.operands[0]))
    if op in SHIFT:
        return shifted(op, args[0], args[1], width)
    if op in REDUCE:
        ones, all_of = bin(args[0]).count("1"), width_at(node.operands[0])
        return int({"and_reduce": ones == all_of, "or_reduce": ones > 0, "xor_reduce": ones % 2 == 1}[op])
    if op == "concat":
        return int("".join(format(x, "b").zfill(width_at(o)) for x, o in zip(args, node.operands)), 2)
    if op == "bit_slice":
        return (args[0] >> attributes["start"]) % 2 ** width
    if op == "dynamic_bit_slice":
        return (args[0] >> min(args[1], 256)) % 2 ** width
    if op in EXTEND:
        return args[0] if op == "zero_ext" else signed(args[0], width_at(node.operands[0])) % 2 ** width
    if op == "sel":
        cases = attributes["cases"]
        return value(cases[args[0]] if args[0] < len(cases) else attributes["default"])
    if op in ("tuple", "array"):
        return args
    if op == "tuple_index":
        return args[0][attributes["index"]]
    if op == "array_index":
        return args[0][min(value(attributes["indices"]), len(args[0]) - 1)]
    if op == "array_update":
        index = value(attributes["indices"])
        return [args[1] if i == index else x for i, x in enumerate(args[0])]
    return [] if op == "after_all" else value_of(attributes["value"])


class Fifo:
    """A channel in a run: the words that were sent and how many were received."""

    def __init__(self, channel, depth, words):
        self.channel, self.depth, self.words, self.received = channel, depth, list(words), 0

    def has_word(self):
        return self.received < len(self.words)

    def has_room(self):
        return self.channel.kind == "output" or len(self.words) < self.received + self.depth


def running(proc, fifos, activations, shows):
    """Goes on with a proc up to each event that it waits for; `shows` keeps its state and what it waits for."""
    types = {node.name: node.ty for node in proc.nodes}
    types["st"] = proc.state
    state = value_of(proc.init)
    for activation in range(activations):
        shows["state"] = state
        values = {"st": state}
        for node in proc.nodes:
            if node.op not in ("receive", "send"):
                values[node.name] = node_value(node, values.__getitem__, lambda operand: types[operand][1])
                continue
            predicate = node.attributes.get("predicate")
            fifo = fifos[node.attributes["channel"]]
            is_on = predicate is None or values[predicate] == 1
            if node.op == "receive":
                word = zero(fifo.channel.ty)
                if is_on:
                    shows["waits"] = f"stalled {activation} recv {fifo.channel.name}"
                    while not fifo.has_word():
                        yield False
                    word = fifo.words[fifo.received]
                    fifo.received += 1
                values[node.name] = [[], word]
            else:
                if is_on:
                    shows["waits"] = f"stalled {activation} send {fifo.channel.name}"
                    while not fifo.has_room():
                        yield False
                    fifo.words.append(values[node.operands[1]])
                values[node.name] = []
            if is_on:
                yield True
        state = values[proc.next]
    shows["state"], shows["waits"] = state, "done"


def value_text(value, ty):
    if ty[0] == "bits":
        return "0x" + format(value, "x").zfill((ty[1] + 3) // 4)
    if ty[0] == "array":
        return "[" + ", ".join(value_text(x, ty[1]) for x in value) + "]"
    return "(" + ", ".join(map(value_text, value, ty[1])) + ")"


def stream_text(fifo):
    channel = fifo.channel
    words = fifo.words[:fifo.received] if channel.kind == "input" else fifo.words
    counts = {"input": f"in {channel.name} {fifo.received}", "output": f"out {channel.name} {len(fifo.words)}",
              "inner": f"chan {channel.name} {len(fifo.words)}/{fifo.received}"}[channel.kind]
    return counts + ":" + "".join(" " + value_text(word, channel.ty) for word in words)


def outcome_of(package, inputs, activations, depth=None):
    """The outcome text of a run, with words for some inputs by their names, and a depth for all inner channels perhaps."""
    fifos = {c.name: Fifo(c, depth or c.depth, inputs.get(c.name, [])) for c in package.channels}
    shows = [{"state": value_of(p.init), "waits": "done"} for p in package.procs]
    going = [running(p, fifos, activations, shown) for p, shown in zip(package.procs, shows)]
    moved = True
    while moved:
        moved = False
        for place, steps in enumerate(going):
            while steps is not None:
                event = next(steps, None)
                if event is None:
                    going[place] = steps = None
                elif event:
                    moved = True
                else:
                    break
    lines = [stream_text(fifos[c.name]) for c in package.channels]
    lines += [f"proc {p.name} state {value_text(shown['state'], p.state)} {shown['waits']}" for p, shown in zip(package.procs, shows)]
    return "".join(line + "\n" for line in lines)
