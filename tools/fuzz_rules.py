#!/usr/bin/env python3
"""Random DSLX texts through the definitions of specs/ and through the second reader, which are to give one answer.

    tools/fuzz_rules.py COUNT SEED

Half of the texts are well-formed: examples of tools/dslx_examples.txt that are joined, and texts of its own making. In the
others one token is exchanged for a like one, swapped with another, dropped or doubled. Each text that is in the grammar goes
through the definitions (`refusal_of`, and the network's counts where nothing is refused) by tools/spec_run.py, and through
tools/dslx_reader.py. A text on which they differ is printed with both answers, at the end what was tried.
The definitions are loaded once; each text has a process of its own, with so many seconds of its own time at most.
"""

import os
import random
import re
import resource
import sys
import threading
from collections import Counter

import dslx_reader
import dslx_terms
import spec_run

TABLE = os.path.join(os.path.dirname(os.path.abspath(__file__)), "dslx_examples.txt")
LONGEST_EXAMPLE, LONGEST_TEXT, MOST_SECONDS = 900, 1500, 20
PIECE = re.compile(r'\s+|//[^\n]*|0x[0-9a-fA-F_]+|0b[01_]+|[0-9][0-9_]*|[A-Za-z_]\w*|"\w+"|'
                   r"\.\.\.|\.\.|::|\+:|\+\+|->|=>|==|!=|<=|>=|<<|>>|&&|\|\||.")
OPERATORS = set("+ - * / % & | ^ ++ << >> == != < <= > >= && ||".split())
COMMON = "u8 u16 u1 s8 uN sN bool 0 1 2 8 9 200 256 A N x f true E S () join recv send a b s t as -".split()


# ---- Texts of its own making

class Maker:
    """Makes a module of well-typed items. Types are tuples: ("u", 8), ("s", 8), ("tuple", ..), ("array", T, N), ("struct", NAME)
    and ("enum", NAME). With `wild` an expression is now and then of another type than is wanted."""

    def __init__(self, rng, wild):
        self.rng, self.wild, self.count = rng, wild, 0
        self.constants, self.functions, self.procs = [], [], []
        self.structs, self.enums, self.aliases = {}, {}, []

    def fresh(self, letter):
        self.count += 1
        return f"{letter}{self.count}"

    def pick(self, *choices):
        return self.rng.choice(choices)

    def module(self):
        makers = [self.constant] * 3 + [self.enum] + [self.struct] + [self.alias] + [self.function] * 2 + [self.parametric] * 2
        items = [self.rng.choice(makers)() for _ in range(self.rng.randint(1, 5))]
        procs = [self.proc() for _ in range(self.rng.choice((1, 1, 1, 2)))]
        if self.rng.random() < 0.5:
            self.rng.shuffle(items)
        return "\n".join(items + procs + ([self.network()] if self.rng.random() < 0.5 else []))

    # -- types

    def type(self, depth=1):
        kinds = ["u"] * 4 + ["s"] * 2 + (["tuple", "array"] if depth else [])
        kinds += ["struct"] * bool(self.structs) + ["enum"] * bool(self.enums)
        kind = self.rng.choice(kinds)
        if kind in ("u", "s"):
            return kind, self.pick(1, 1, 2, 3, 8, 8, 8, 16, 32)
        if kind == "tuple":
            return "tuple", tuple(self.type(depth - 1) for _ in range(self.rng.randint(1, 3)))
        if kind == "array":
            return "array", self.type(depth - 1), self.rng.randint(1, 3)
        return kind, self.rng.choice(list(self.structs if kind == "struct" else self.enums))

    def written(self, t, plain=False):
        same = [name for name, other in self.aliases if other == t]
        if same and not plain and self.rng.random() < 0.5:
            return self.rng.choice(same)
        if t[0] in ("u", "s"):
            sizes = [name for name, other, value in self.constants if other[0] == "u" and value == t[1]]
            if sizes and self.rng.random() < 0.3:
                return f"{t[0]}N[{self.rng.choice(sizes)}]"
            forms = [f"{t[0]}{t[1]}"] * 4 + [f"{t[0]}N[{t[1]}]"] + [f"bits[u32:{t[1]}]"] * (t[0] == "u")
            return self.rng.choice(forms + ["bool"] * 3 * (t == ("u", 1)))
        if t[0] == "tuple":
            return "(%s,)" % ", ".join(self.written(p) for p in t[1])
        return f"{self.written(t[1])}[{t[2]}]" if t[0] == "array" else t[1]

    def number(self, t):
        low, high = (-(1 << t[1] - 1), (1 << t[1] - 1) - 1) if t[0] == "s" else (0, (1 << t[1]) - 1)
        return self.rng.choice([low, high, min(1, high), self.rng.randint(low, high)])

    def base_of(self, name):
        """A type that may stand before a number: no tuple."""
        text = self.written(name)
        return text if not text.startswith("(") else self.written(name, plain=True)

    # -- expressions

    def expr(self, t, scope, depth):
        if self.wild and self.rng.random() < 0.03:
            t = self.type()
        ways = [self.literal] * 2 + [self.known] * 3
        if depth > 0:
            ways += [self.if_, self.match, self.block, self.loop, self.called, self.made, self.made, self.made]
        for _ in range(8):
            text = self.rng.choice(ways)(t, scope, depth - 1)
            if text:
                return text
        return self.literal(t, scope, 0)

    def literal(self, t, scope, depth):
        if t[0] in ("u", "s"):
            return f"{self.base_of(t)}:{self.number(t)}"
        if t[0] == "enum":
            return f"{t[1]}::{self.rng.choice(self.enums[t[1]][1])}"
        if t[0] == "tuple":
            return "(%s,)" % ", ".join(self.expr(p, scope, depth) for p in t[1])
        if t[0] == "array":
            parts = [self.expr(t[1], scope, depth) for _ in range(t[2])]
            return "[%s]" % ", ".join(parts) if self.rng.random() < 0.5 else self.typed_array(t, scope, depth)
        return self.struct_value(t, scope, depth)

    def typed_array(self, t, scope, depth):
        if t[1][0] in ("u", "s") and self.rng.random() < 0.7:
            parts = [str(max(0, self.number(t[1]))) for _ in range(t[2])]
        else:
            parts = [self.expr(t[1], scope, depth) for _ in range(t[2])]
        element = self.written(t[1])
        is_typed = element[0] not in "(SE"  # before `:` a name is a type only where it is a `type`'s
        if is_typed and self.rng.random() < 0.3:
            parts = parts[:1] + ["..."]
        return f"{element}[{t[2]}]:[{', '.join(parts)}]" if is_typed else f"[{', '.join(parts)}]"

    def struct_value(self, t, scope, depth):
        fields = self.structs[t[1]]
        parts = [f"{name}: {self.expr(f, scope, depth)}" for name, f in fields]
        self.rng.shuffle(parts)
        rest = self.known(t, scope, 0)
        if rest and self.rng.random() < 0.5:
            parts = parts[1:] + [f"..{rest}"]
        return f"{t[1]} {{ {', '.join(parts)} }}"

    def known(self, t, scope, _depth):
        names = [name for name, other in scope if other == t] + [name for name, other, _ in self.constants if other == t]
        return self.rng.choice(names) if names else None

    def if_(self, t, scope, depth):
        condition = self.expr(("u", 1), scope, depth)
        other = self.if_(t, scope, depth - 1) if depth > 0 and self.rng.random() < 0.2 else f"{{ {self.expr(t, scope, depth)} }}"
        return f"if ({condition}) {{ {self.expr(t, scope, depth)} }} else {other}"

    def block(self, t, scope, depth):
        inner, text = list(scope), ""
        for _ in range(self.rng.randint(0, 2)):
            bound, name = self.type(), self.fresh("v")
            written = f": {self.written(bound)}" if self.rng.random() < 0.3 else ""
            value = self.expr(bound, inner, depth)
            if bound[0] == "tuple" and self.rng.random() < 0.6:
                names = [self.fresh("v") for _ in bound[1]]
                text += f"let ({', '.join(names)},){written} = {value}; "
                inner += zip(names, bound[1])
            else:
                text += f"let {name}{written} = {value}; "
                inner.append((name, bound))
        return f"{{ {text}{self.expr(t, inner, depth)} }}"

    def match(self, t, scope, depth):
        what = self.type()
        arms, inner = [], list(scope)
        if what[0] == "enum" and self.rng.random() < 0.7:
            arms = [f"{what[1]}::{m} => {self.expr(t, scope, depth)}" for m in self.enums[what[1]][1]]
        elif what[0] in ("u", "s"):
            for _ in range(self.rng.randint(0, 2)):
                patterns = " | ".join(self.literal(what, scope, 0) for _ in range(self.rng.randint(1, 2)))
                arms.append(f"{patterns} => {self.expr(t, scope, depth)}")
        if not arms or what[0] != "enum" or self.rng.random() < 0.3:
            name = self.pick("_", self.fresh("v"))
            inner += [(name, what)] if name != "_" else []
            arms.append(f"{name} => {self.expr(t, inner, depth)}")
        return f"match ({self.expr(what, scope, depth)}) {{ {', '.join(arms)} }}"

    def loop(self, t, scope, depth):
        kind, i, acc = ("u", self.pick(3, 8)), self.fresh("i"), self.fresh("c")
        low = self.rng.randint(0, 2)
        body = self.expr(t, scope + [(i, kind), (acc, t)], depth)
        return (f"for ({i}, {acc}) in {self.base_of(kind)}:{low}..{self.base_of(kind)}:{low + self.rng.randint(0, 4)} "
                f"{{ {body} }}({self.expr(t, scope, depth)})")

    def called(self, t, scope, depth):
        fitting = [f for f in self.functions if f[2] == t]
        if fitting:
            name, arguments, _ = self.rng.choice(fitting)
            return f"{name}({', '.join(self.expr(a, scope, depth) for a in arguments)})"
        generic = [name for name in self.functions if name[1] is None]
        if generic and t[0] == "u":
            name = self.rng.choice(generic)[0]
            given = self.pick("", f"<u32:{t[1]}>")
            return f"{name}{given}({self.expr(t, scope, depth)})"
        return None

    def made(self, t, scope, depth):
        """By an operator or a builtin."""
        e = self.expr
        if t[0] not in ("u", "s"):
            if t[0] == "array":
                return f"update({e(t, scope, depth)}, {e(('u', 2), scope, depth)}, {e(t[1], scope, depth)})"
            return None
        ways = [f"({e(t, scope, depth)} {self.pick('+', '-', '*', '&', '|', '^')} {e(t, scope, depth)})",
                f"({e(t, scope, depth)} {self.pick('<<', '>>')} {e(('u', self.pick(3, 8)), scope, depth)})",
                f"({self.pick('-', '!')}{self.pick('clz', 'ctz', 'rev')}({e(t, scope, depth)}))",
                f"(({e(self.pick(('u', 8), ('s', 3)), scope, depth)}) as {self.written(t)})",
                f"([{e(t, scope, depth)}, {e(t, scope, depth)}][{e(('u', 2), scope, depth)}])",
                f"(({e(t, scope, depth)}, {e(self.type(0), scope, depth)}).0)"]
        if t[0] == "u":
            start = self.rng.randint(0, 3)
            ways += [f"(({e(('u', 32), scope, depth)})[{start}:{start + t[1]}])" if t[1] < 29 else ways[0],
                     f"(({e(('s', 16), scope, depth)})[{e(('u', 3), scope, depth)} +: u{t[1]}])",
                     f"({e(t, scope, depth)} {self.pick('/', '%')} {e(t, scope, depth)})"]
            if t[1] > 1:
                ways.append(f"({e(('u', 1), scope, depth)} ++ {e(('u', t[1] - 1), scope, depth)})")
        if t == ("u", 1):
            kind = self.pick(("u", 8), ("s", 3))
            ways += [f"({e(kind, scope, depth)} {self.pick('==', '!=', '<', '<=', '>', '>=')} {e(kind, scope, depth)})",
                     f"({e(t, scope, depth)} {self.pick('&&', '||')} {e(t, scope, depth)})",
                     f"{self.pick('and_reduce', 'or_reduce', 'xor_reduce')}({e(kind, scope, depth)})"]
        return self.rng.choice(ways)

    # -- items

    def constant(self):
        name = self.fresh("A")
        if self.rng.random() < 0.4:
            value = self.pick(1, 2, 3, 8)
            self.constants.append((name, ("u", 32), value))
            return f"const {name} = u32:{value};"
        t = self.type()
        text = f"const {name}{self.pick('', ': ' + self.written(t))} = {self.expr(t, [], 1)};"
        self.constants.append((name, t, None))
        return text

    def enum(self):
        name, base = self.fresh("E"), (self.pick("u", "s"), self.pick(2, 3, 8))
        members = {self.fresh("M"): value for value in self.rng.sample(range(2 if base[1] == 2 else 4), self.rng.randint(1, 2))}
        self.enums[name] = base, list(members)
        parts = [f"{m} = {self.pick(str(v), f'{base[0]}{base[1]}:{v}')}" for m, v in members.items() if base[0] == "u" or v < 2]
        parts = parts or [f"{m} = 0" for m in list(members)[:1]]
        self.enums[name] = base, [p.split()[0] for p in parts]
        return f"enum {name}: {self.written(base)} {{ {', '.join(parts)} }}"

    def struct(self):
        name = self.fresh("S")
        fields = [(self.fresh("d"), self.type()) for _ in range(self.rng.randint(1, 3))]
        text = f"struct {name} {{ {', '.join(f'{n}: {self.written(t)}' for n, t in fields)} }}"
        self.structs[name] = fields
        return text

    def alias(self):
        t, name = self.type(), self.fresh("T")
        text = f"type {name} = {self.written(t)};"
        if t[0] != "struct":
            self.aliases.append((name, t))
        return text

    def function(self):
        name, result = self.fresh("f"), self.type()
        arguments = [(self.fresh("x"), self.type()) for _ in range(self.rng.randint(0, 2))]
        heads = ", ".join(f"{n}: {self.written(t)}" for n, t in arguments)
        text = f"fn {name}({heads}) -> {self.written(result)} {{ {self.expr(result, arguments, self.pick(1, 1, 2))} }}"
        self.functions.append((name, [t for _, t in arguments], result))
        return text

    def parametric(self):
        name = self.fresh("g")
        self.functions.append((name, None, None))
        return self.rng.choice([
            f"fn {name}<N: u32>(x: uN[N]) -> uN[N] {{ x {self.pick('+', '-', '&')} uN[N]:1 }}",
            f"fn {name}<N: u32, K: u32 = {{N + u32:1}}>(x: uN[N]) -> uN[N] {{ let y = x as uN[K]; (y >> u8:1) as uN[N] }}",
            f"fn {name}<N: u32, K: u32 = {{N}}>(x: bits[N]) -> uN[K] {{ match x {{ uN[N]:0 => uN[K]:1, _ => x as uN[K] }} }}",
            f"fn {name}<N: u32>(x: uN[N]) -> uN[N] {{ for (i, c) in u32:0..N {{ c + (i as uN[N]) }}(x) }}"])

    def word(self):
        return self.pick(("u", 8), ("u", 8), ("u", 1), ("s", 3), ("tuple", (("u", 8), ("u", 1))))

    def proc(self):
        name, state = self.fresh("P"), self.pick(None, ("u", 8), self.type())
        ends = [(self.fresh("m"), self.word(), self.pick("in", "out")) for _ in range(self.rng.randint(1, 3))]
        self.procs.append((name, ends))
        declared = [f"{n}: chan<{self.written(t)}> {way}" for n, t, way in ends]
        scope, tokens, text = [("st", state)] if state else [], [], ""
        for n, t, way in ends:
            first = self.rng.choice(tokens + ["join()", "join(%s)" % ", ".join(tokens[-1:])])
            token, got = self.fresh("k"), self.fresh("w")
            if way == "in":
                conditional = f"recv_if({first}, {n}, {self.expr(('u', 1), scope, 1)}, {self.expr(t, scope, 1)})"
                effect = self.pick(f"recv({first}, {n})", conditional)
                text += f"let ({token}, {got}) = {effect}; "
                scope, tokens = scope + [(got, t)], tokens + [token]
            else:
                value = self.expr(t, scope, 1)
                conditional = f"send_if({first}, {n}, {self.expr(('u', 1), scope, 1)}, {value})"
                text += self.pick(f"send({first}, {n}, {value}); ", f"let {token} = {conditional}; ")
        init = self.expr(state, [], 1) if state else "()"
        last = self.expr(state, scope, 1) if state else self.pick("()", "")
        members = " ".join(d + ";" for d in declared)
        return (f"proc {name} {{ {members} config({', '.join(declared)}) {{ ({', '.join(n for n, _, _ in ends)},) }} "
                f"init {{ {init} }} next(st: {self.written(state) if state else '()'}) {{ {text}{last} }} }}")

    def network(self):
        """A proc that starts others: what one of them sends another may receive, the rest goes outside."""
        name, text, outside = self.fresh("Q"), "", []
        for child, ends in self.rng.sample(self.procs, self.rng.randint(1, len(self.procs))):
            given = []
            for _, t, way in ends:
                end = self.fresh("z")
                if self.rng.random() < 0.5:
                    outside.append(f"{end}: chan<{self.written(t)}> {way}")
                else:
                    other = self.fresh("z")
                    sender, receiver = (end, other) if way == "out" else (other, end)
                    depth = self.pick("", ", 2", ", u32:3")
                    text += f"let ({sender}, {receiver}) = chan<{self.written(t)}{depth}>(\"{end}\"); "
                    text += f"spawn {self.sink(t, way)}({other}); "
                given.append(end)
            text += f"spawn {child}({', '.join(given)}); "
        sinks = "".join(self.sinks.values()) if hasattr(self, "sinks") else ""
        return f"{sinks}\nproc {name} {{ config({', '.join(outside)}) {{ {text}() }} init {{ () }} next(st: ()) {{ }} }}"

    def sink(self, t, way):
        """A proc with one end, of the other direction."""
        if not hasattr(self, "sinks"):
            self.sinks = {}
        if (t, way) not in self.sinks:
            name, other = self.fresh("R"), "in" if way == "out" else "out"
            end = f"c: chan<{self.written(t)}> {other}"
            self.sinks[t, way] = f"proc {name} {{ {end}; config({end}) {{ (c,) }} init {{ () }} next(st: ()) {{ }} }}\n"
        return self.sinks[t, way].split()[1]


# ---- Changes of a token

def is_like(a, b):
    """Whether two tokens are of one sort."""
    if a[0].isdigit() or b[0].isdigit():
        return a[0].isdigit() and b[0].isdigit()
    if a[0].isalpha() or b[0].isalpha():
        return a[0].isalpha() and b[0].isalpha()
    return (a in OPERATORS) == (b in OPERATORS)


def tokens_in(text):
    return [p for p in PIECE.findall(text) if not p.isspace() and not p.startswith("//")]


def change(rng, text, others):
    """The text with one token exchanged for a like one, swapped with one, dropped or doubled."""
    pieces = PIECE.findall(text)
    places = [i for i, p in enumerate(pieces) if not p.isspace() and not p.startswith("//")]
    if not places:
        return text
    i, way = rng.choice(places), rng.random()
    if way < 0.55:
        source = rng.choice([COMMON, COMMON, tokens_in(text), tokens_in(text), tokens_in(rng.choice(others))])
        like = [t for t in source if is_like(t, pieces[i]) and t != pieces[i]]
        if like:
            pieces[i] = rng.choice(like)
    elif way < 0.8:
        like = [j for j in places if is_like(pieces[j], pieces[i]) and pieces[j] != pieces[i]]
        if like:
            j = rng.choice(like)
            pieces[i], pieces[j] = pieces[j], pieces[i]
    elif way < 0.9:
        pieces[i] = ""
    else:
        pieces[i] = f"{pieces[i]} {pieces[i]}"
    return "".join(pieces)


def examples():
    with open(TABLE, encoding="utf-8") as file:
        for part in re.split(r"\n\s*\n", file.read().strip()):
            lines = part.split("\n")
            if len(lines) >= 3 and lines[1].split()[0] in ("ok", "rule", "limit"):
                text = dslx_terms.expand("\n".join(lines[2:]))
                if len(text) < LONGEST_EXAMPLE:
                    yield text


def text_of(rng, base):
    """A text: half of them have a token changed."""
    if rng.random() < 0.3:
        text = Maker(rng, wild=rng.random() < 0.5).module()
    elif rng.random() < 0.4:
        text = f"{rng.choice(base)} {rng.choice(base)}"
    else:
        text = rng.choice(base)
    for _ in range(rng.choice((1, 1, 1, 2)) if rng.random() < 0.5 else 0):
        text = change(rng, text, base)
    return text


# ---- Both answers

def by_definitions(text):
    """The definitions' answer, in the reader's form."""
    module = spec_run.tree_module()
    node = spec_run.Parser(spec_run.lex(dslx_terms.Reader(text).module()), module).expr(frozenset())
    tree = spec_run.Thunk(lambda: spec_run.evaluate(module, node, {}))

    def told(path, word):
        return spec_run.force(spec_run.apply(spec_run.lookup(spec_run.load(path), word), (tree, spec_run.NONE)))
    found = told("dslx_meaning.specs.Rules.NetworkLimits", "refusal_of")
    if found.name == "None":
        net = told("dslx_meaning.specs.Network", "network_of")
        return "ok procs %d channels %d" % tuple(len(spec_run.force(net[part])) for part in ("procs", "chans"))
    words = spec_run.fault_text(found).split()
    if words[0] == "rule":
        return "rule %s at %s..%s" % tuple(words[1:])
    at = spec_run.force(spec_run.force(found.args[0]).args[0]) if words[1] in dslx_reader.LIMITS else 0
    return "limit %s %s at %s" % (words[1], words[2], at)


def apart(run, text):
    """The answer of a process of its own."""
    reads, writes = os.pipe()
    child = os.fork()
    if child == 0:
        resource.setrlimit(resource.RLIMIT_CPU, (MOST_SECONDS, MOST_SECONDS))
        try:
            answer = run(text)
        except BaseException as error:  # all that goes wrong is an answer
            answer = "error %s: %s" % (type(error).__name__, str(error)[:200])
        os.write(writes, answer.encode())
        os._exit(0)
    os.close(writes)
    answer = os.read(reads, 65536).decode()
    os.close(reads)
    os.waitpid(child, 0)
    return answer or "too slow"


def fuzz(count, seed):
    rng, base, told, differences = random.Random(seed), list(examples()), Counter(), 0
    for text in base[:40]:
        by_definitions(text)
    for number in range(count):
        text = text_of(rng, base)
        while len(text) > LONGEST_TEXT:
            text = text_of(rng, base)
        if number % 25 == 24:
            print(number + 1, "tried", file=sys.stderr, flush=True)
        got = apart(dslx_reader.answer_of, text)
        words = got.split()
        told[" ".join(words[:2]) if words[0] in ("rule", "limit") else words[0]] += 1
        if words[0] == "syntax" or words[:2] == ["limit", "nesting"]:
            continue
        wanted = apart(by_definitions, text)
        if wanted == "too slow":
            told["too slow for the definitions"] += 1
        elif wanted != got:
            differences += 1
            print(f"=== {number}: the definitions: {wanted}; the reader: {got}\n{text}\n", flush=True)
    read = count - told["syntax"] - told["limit nesting"]
    print(f"{count} texts of seed {seed}, {read} in the grammar, {differences} differences")
    print("; ".join(f"{kind}: {n}" for kind, n in told.most_common()), flush=True)


def main():
    fuzz(int(sys.argv[1]), int(sys.argv[2]))


if __name__ == "__main__":
    sys.modules["spec_run"] = spec_run
    sys.setrecursionlimit(1000000)
    threading.stack_size(1 << 29)
    thread = threading.Thread(target=main)
    thread.start()
    thread.join()
