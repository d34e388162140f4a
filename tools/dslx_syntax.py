#!/usr/bin/env python3
"""Tokens, trees and a parser of whole DSLX texts, for tools/dslx_reader.py: written from docs/LANGUAGE.md and docs/dslx.grammar.

A text is a string of a character for each byte. `Parser(text).module()` gives its items, or raises `Refused` with the answer.
"""

import re
from dataclasses import dataclass, make_dataclass

KEYWORDS = set("as bits bool chan config const else enum false fn for if in init let match next out proc pub spawn struct true "
               "type uN sN".split())
MOST_NESTING = 128


class Refused(Exception):
    """The answer is known at once."""


# ---- Tokens

BLANK = re.compile(r"(?:[ \t\r\n]|//[^\n]*)*")
TOKEN = re.compile(r"""(?P<word>[A-Za-z_][A-Za-z0-9_]*)
    | (?P<number>0x[0-9a-fA-F][0-9a-fA-F_]*|0b[01][01_]*|(?!0[xb])[0-9][0-9_]*)
    | (?P<string>"[A-Za-z_][A-Za-z0-9_]*")
    | (?P<mark>\.\.\.|::|\.\.|\+:|\+\+|->|&&|\|\||==|!=|<=|>=|<<|>>|=>|[()\[\]{}<>,;:.+\-*/%&|^!=])""", re.X)
NAMES = ("NAME", "TYPENAME", "FUNNAME", "STRUCTNAME", "BOTHNAME")
BASE_KEYWORDS = ("UNSIGNED", "SIGNED", "uN", "sN", "bits", "bool")


@dataclass
class Token:
    """A token; its kind is its own text for keywords and marks."""
    kind: str
    text: str
    start: int
    end: int


def number_of(text):
    digits = text.replace("_", "")
    return int(digits, 0) if digits[:2] in ("0x", "0b") else int(digits)


def kind_of_word(word):
    if word == "_" or word in KEYWORDS:
        return word
    sized = re.fullmatch(r"([us])([1-9][0-9]{0,2})", word)
    if sized and int(sized[2]) <= 128:
        return "UNSIGNED" if sized[1] == "u" else "SIGNED"
    return "NAME"


def tokens_of(text):
    """All tokens and the end of the text; a character that begins none, and a number out of form, is refused."""
    found, at = [], BLANK.match(text).end()
    while at < len(text):
        match = TOKEN.match(text, at)
        if match is None:
            raise Refused(f"syntax at {at}")
        end, kind = match.end(), match.lastgroup
        if kind == "number" and (number_of(match[0]) >= 1 << 128 or re.match("[A-Za-z]", text[end:end + 1])):
            raise Refused(f"syntax at {at}")
        kind = {"word": kind_of_word(match[0]), "mark": match[0], "number": "NUMBER", "string": "STRING"}[kind]
        found.append(Token(kind, match[0], at, end))
        at = BLANK.match(text, end).end()
    found.append(Token("END", "", len(text), len(text)))
    tell_names_apart(found)
    return found


def tell_names_apart(tokens):
    """Gives names, `<` and `{` the kinds that the grammar asks for; the names that the text declares settle them."""
    declared = {kind: set() for kind in ("fn", "proc", "struct", "type", "const", "enum")}
    for before, token in zip(tokens, tokens[1:]):
        if before.kind in declared and token.kind == "NAME":
            declared[before.kind].add(token.text)
    called = declared["fn"] | declared["proc"]
    before = "END"
    for token in tokens:
        if token.kind == "NAME" and before not in (".", "::", "as", "->"):
            if token.text in declared["type"]:
                token.kind = "TYPENAME"
            elif token.text in called:
                token.kind = "BOTHNAME" if token.text in declared["struct"] else "FUNNAME"
            elif token.text in declared["struct"]:
                token.kind = "STRUCTNAME"
        elif token.kind == "<" and before in ("FUNNAME", "BOTHNAME"):
            token.kind = "ARGS"
        elif token.kind == "{" and before in ("STRUCTNAME", "BOTHNAME"):
            token.kind = "FIELDS"
        before = token.kind


# ---- The tree

@dataclass(eq=False)
class Node:
    """A part of the text with its place; each is equal to itself alone."""
    start: int
    end: int


def node(name, fields="", base=Node):
    """A sort of parts with these fields."""
    return make_dataclass(name, [(field, object) for field in fields.split()], bases=(base,), eq=False)


Ident = node("Ident", "name")

# Types as they are written.
WrittenBits = node("WrittenBits", "signed width")  # u8, s8, bool
WrittenSized = node("WrittenSized", "signed width")  # uN[..], sN[..], bits[..]
WrittenName = node("WrittenName", "name")
WrittenTuple = node("WrittenTuple", "parts")
WrittenArray = node("WrittenArray", "element size")

# Expressions. Where a part may be left out it is None.
UntypedLiteral = node("UntypedLiteral", "value")
Literal = node("Literal", "type value")
Truth = node("Truth", "value")
ArrayLiteral = node("ArrayLiteral", "type elements repeats")
Name = node("Name", "name")
Member = node("Member", "enum member")
Call = node("Call", "callee args operands")
TupleExpr = node("TupleExpr", "parts")
StructExpr = node("StructExpr", "struct fields rest")  # the fields as pairs of a name and an expression
Block = node("Block", "statements result")
Let = node("Let", "pattern type value")
If = node("If", "condition then other")
Match = node("Match", "scrutinee arms")
Arm = node("Arm", "patterns value")
For = node("For", "index accumulator type low high body initial")
Index = node("Index", "base index")
Slice = node("Slice", "base low high")
PartSelect = node("PartSelect", "base offset type")  # x[i +: T]
Field = node("Field", "base field")  # the field a name or a number
Unary = node("Unary", "op operand")
Binary = node("Binary", "op left right")
Cast = node("Cast", "operand type")

# Patterns.
WildPattern = node("WildPattern")
NamePattern = node("NamePattern", "name")
LiteralPattern = node("LiteralPattern", "type value")
TruthPattern = node("TruthPattern", "value")
MemberPattern = node("MemberPattern", "enum member")
TuplePattern = node("TuplePattern", "parts")

# Items and what they have.
Parametric = node("Parametric", "name type default")
Typed = node("Typed", "name type")  # an argument of a function, a field of a struct, the state
End = node("End", "name type sends")  # a member of a proc, or a parameter of its `config`
Item = node("Item", "name")
Function = node("Function", "parametrics arguments result body", Item)
Constant = node("Constant", "type value", Item)
Alias = node("Alias", "type", Item)
Struct = node("Struct", "fields", Item)
EnumItem = node("EnumItem", "base members", Item)  # the members as pairs of a name and an expression
MadeChannel = node("MadeChannel", "sender receiver type depth depth_end string")  # the depth ends behind its braces
Spawn = node("Spawn", "callee args ends")
Config = node("Config", "ends statements result")
Proc = node("Proc", "parametrics members config init state next", Item)


# ---- The parser

LEVELS = (("*", "/", "%"), ("+", "-", "++"), ("<<", ">>"), ("&",), ("^",), ("|",),
          ("==", "!=", "<", "<=", ">", ">="), ("&&",), ("||",))
BINDS = {op: len(LEVELS) - i for i, level in enumerate(LEVELS) for op in level}


class Parser:
    """Reads a module; the first token with which no text goes on is refused, or one before it that is nested too deep."""

    def __init__(self, text):
        self.tokens, self.place = tokens_of(text), 0
        self.marks = [0]  # operators and the like that were read directly inside each open bracket, the file's first
        self.heads = 0  # of `if`, `match` and `for` that are open here

    @property
    def kind(self):
        return self.tokens[self.place].kind

    @property
    def here(self):
        return self.tokens[self.place].start

    @property
    def behind(self):
        """Where the last token ended."""
        return self.tokens[self.place - 1].end

    def take(self, *kinds, mark=False, in_angles=False):
        """The next token, of one of these kinds. A `mark` nests what comes behind it; a `,` in angles ends no marks."""
        token = self.tokens[self.place]
        if token.kind not in kinds:
            raise Refused(f"syntax at {token.start}")
        if sum(self.marks) + len(self.marks) - 1 + self.heads > MOST_NESTING:
            raise Refused(f"limit nesting {MOST_NESTING + 1} at {token.start}")
        self.place += 1
        if mark or token.kind == "[":
            self.marks[-1] += 1
        if token.kind in ("(", "[", "{", "FIELDS"):
            self.marks.append(0)
        elif token.kind in (")", "]", "}"):
            self.marks.pop()
        elif token.kind in (";", "=>") or token.kind == "," and not in_angles:
            self.marks[-1] = 0
        return token

    def all(self, *kinds):
        for kind in kinds:
            self.take(kind)

    def ident(self):
        token = self.take(*NAMES)
        return Ident(token.start, token.end, token.text)

    def list(self, close, read):
        """`list(x)` and what closes it."""
        parts = []
        while self.kind != close:
            parts.append(read())
            if self.kind != ",":
                break
            self.take(",")
        self.take(close)
        return parts

    def module(self):
        items = []
        while self.kind != "END":
            self.marks[-1] = 0
            if self.kind == "pub":
                self.take("pub")
            items.append(self.item())
        return items

    def item(self):
        readers = {"fn": self.function, "proc": self.proc, "const": self.constant, "type": self.alias, "struct": self.struct,
                   "enum": self.enum}
        token = self.take(*readers)
        return readers[token.kind](token.start, self.ident())

    def function(self, start, name):
        parametrics = self.parametrics()
        self.take("(")
        arguments = self.list(")", self.typed)
        result = None
        if self.kind == "->":
            self.take("->")
            result = self.type()
        body = self.block()
        return Function(start, self.behind, name, parametrics, arguments, result, body)

    def parametrics(self):
        if self.kind not in ("<", "ARGS"):
            return []
        self.take("<", "ARGS")
        found = [self.parametric()]
        while self.kind == ",":
            self.take(",", in_angles=True)
            found.append(self.parametric())
        self.take(">")
        return found

    def parametric(self):
        name = self.ident()
        self.take(":")
        written, default = self.type(), None
        if self.kind == "=":
            self.all("=", "{")
            default = self.expr()
            self.take("}")
        return Parametric(name.start, self.behind, name, written, default)

    def typed(self):
        name = self.ident()
        self.take(":")
        written = self.type()
        return Typed(name.start, self.behind, name, written)

    def constant(self, start, name):
        written = None
        if self.kind == ":":
            self.take(":")
            written = self.type()
        self.take("=")
        value = self.expr()
        self.take(";")
        return Constant(start, self.behind, name, written, value)

    def alias(self, start, name):
        self.take("=")
        written = self.type()
        self.take(";")
        return Alias(start, self.behind, name, written)

    def struct(self, start, name):
        self.take("{", "FIELDS")
        fields = self.list("}", self.typed)
        return Struct(start, self.behind, name, fields)

    def enum(self, start, name):
        self.take(":")
        base = self.type()
        self.take("{", "FIELDS")
        members = self.list("}", self.enum_member)
        return EnumItem(start, self.behind, name, base, members)

    def enum_member(self):
        name = self.ident()
        self.take("=")
        return name, self.expr()

    def proc(self, start, name):
        parametrics = self.parametrics()
        self.take("{", "FIELDS")
        members = []
        while self.kind in NAMES:
            members.append(self.end())
            self.take(";")
        readers = {"config": self.config, "init": self.init, "next": self.next}
        parts = {}
        while readers:
            token = self.take(*readers)
            parts[token.kind] = readers.pop(token.kind)(token.start)
        self.take("}")
        return Proc(start, self.behind, name, parametrics, members, parts["config"], parts["init"], *parts["next"])

    def end(self):
        name = self.ident()
        self.all(":", "chan", "<")
        written = self.type()
        self.take(">")
        direction = self.take("in", "out")
        return End(name.start, direction.end, name, written, direction.kind == "out")

    def config(self, start):
        self.take("(")
        ends = self.list(")", self.end)
        self.take("{")
        statements = []
        while self.kind in ("let", "spawn"):
            statements.append(self.made_channel() if self.kind == "let" else self.spawn())
        result = []
        if self.kind == "(":
            self.take("(")
            result = self.list(")", self.ident)
        self.take("}")
        return Config(start, self.behind, ends, statements, result)

    def made_channel(self):
        start = self.take("let").start
        self.take("(")
        sender = self.ident()
        self.take(",")
        receiver = self.ident()
        self.all(")", "=", "chan", "<")
        written, depth = self.type(), None
        if self.kind == ",":
            self.take(",", in_angles=True)
            depth = self.arg()
        depth_end = self.behind
        self.all(">", "(")
        token = self.take("STRING")
        self.all(")", ";")
        string = Ident(token.start, token.end, token.text)
        return MadeChannel(start, self.behind, sender, receiver, written, depth, depth_end, string)

    def spawn(self):
        start = self.take("spawn").start
        callee = self.ident()
        args = self.args() if self.kind in ("<", "ARGS") else []
        self.take("(")
        ends = self.list(")", self.ident)
        self.take(";")
        return Spawn(start, self.behind, callee, args, ends)

    def init(self, _start):
        return self.block()

    def next(self, _start):
        self.take("(")
        state = self.typed()
        self.take(")")
        return state, self.block()

    def args(self):
        self.take("<", "ARGS")
        found = [self.arg()]
        while self.kind == ",":
            self.take(",", in_angles=True)
            found.append(self.arg())
        self.take(">")
        return found

    def arg(self):
        start = self.here
        if self.kind == "NUMBER":
            return self.untyped()
        if self.kind == "{":
            self.take("{")
            value = self.expr()
            self.take("}")
            return value
        if self.kind in BASE_KEYWORDS:
            written = self.type()
        else:
            name = self.ident()
            if self.kind not in ("[", ":"):
                return Name(name.start, name.end, name.name)
            written = self.sizes(WrittenName(name.start, name.end, name.name))
        self.take(":")
        value = self.signed()
        return Literal(start, self.behind, written, value)

    def signed(self):
        negative = self.kind == "-"
        if negative:
            self.take("-")
        number = number_of(self.take("NUMBER").text)
        return -number if negative else number

    def untyped(self):
        token = self.take("NUMBER")
        return UntypedLiteral(token.start, token.end, number_of(token.text))

    def type(self):
        return self.sizes(self.base_type())

    def base_type(self):
        token = self.take(*BASE_KEYWORDS, *NAMES, "(")
        if token.kind in ("UNSIGNED", "SIGNED"):
            return WrittenBits(token.start, token.end, token.kind == "SIGNED", int(token.text[1:]))
        if token.kind == "bool":
            return WrittenBits(token.start, token.end, False, 1)
        if token.kind in NAMES:
            return WrittenName(token.start, token.end, token.text)
        if token.kind == "(":
            parts = self.list(")", self.type)
            return WrittenTuple(token.start, self.behind, parts)
        self.take("[")
        width = self.expr()
        self.take("]")
        return WrittenSized(token.start, self.behind, token.kind == "sN", width)

    def sizes(self, written):
        while self.kind == "[":
            self.take("[")
            size = self.expr()
            self.take("]")
            written = WrittenArray(written.start, self.behind, written, size)
        return written

    def block(self):
        start = self.take("{").start
        statements, result = [], None
        while self.kind != "}":
            if self.kind == "let":
                statements.append(self.let())
                continue
            result = self.expr()
            if self.kind != ";":
                break
            self.take(";")
            statements.append(result)
            result = None
        self.take("}")
        return Block(start, self.behind, statements, result)

    def let(self):
        start = self.take("let").start
        pattern, written = self.let_pattern()
        if written is None and self.kind == ":":
            self.take(":")
            written = self.type()
        self.take("=")
        value = self.expr()
        self.take(";")
        return Let(start, self.behind, pattern, written, value)

    def let_pattern(self):
        """A pattern, and the annotation where it had to be read to tell that a name isn't a type."""
        if self.kind not in NAMES or self.tokens[self.place + 1].kind != ":":
            return self.pattern(), None
        name = self.ident()
        self.take(":")
        if self.kind in ("-", "NUMBER"):
            value = self.signed()
            return LiteralPattern(name.start, self.behind, WrittenName(name.start, name.end, name.name), value), None
        return NamePattern(name.start, name.end, name.name), self.type()

    def pattern(self):
        start, kind = self.here, self.kind
        if kind == "(":
            self.take("(")
            parts = self.list(")", self.pattern)
            return TuplePattern(start, self.behind, parts)
        if kind in BASE_KEYWORDS:
            return self.literal_pattern(start, self.type())
        token = self.take("_", "true", "false", *NAMES)
        if kind == "_":
            return WildPattern(start, token.end)
        if kind in ("true", "false"):
            return TruthPattern(start, token.end, kind == "true")
        if self.kind == "::":
            self.take("::")
            member = self.ident()
            return MemberPattern(start, self.behind, Ident(start, token.end, token.text), member)
        if self.kind in (":", "["):
            return self.literal_pattern(start, self.sizes(WrittenName(start, token.end, token.text)))
        return NamePattern(start, token.end, token.text)

    def literal_pattern(self, start, written):
        self.take(":")
        value = self.signed()
        return LiteralPattern(start, self.behind, written, value)

    def expr(self, loosest=1):
        """An expression of operators that bind at least so tightly."""
        start = self.here
        left = self.operand()
        while BINDS.get(self.kind, 0) >= loosest:
            op = self.take(self.kind, mark=True).kind
            right = self.expr(BINDS[op] + 1)
            left = Binary(start, self.behind, op, left, right)
        return left

    def operand(self):
        start = self.here
        value = self.prefixed()
        while self.kind == "as":
            self.take("as", mark=True)
            written = self.type()
            value = Cast(start, self.behind, value, written)
        return value

    def prefixed(self):
        start = self.here
        if self.kind not in ("-", "!"):
            return self.posts(start, self.atom())
        op = self.take("-", "!", mark=True).kind
        operand = self.prefixed()
        return Unary(start, self.behind, op, operand)

    def posts(self, start, base):
        while self.kind in ("[", "."):
            if self.kind == ".":
                self.take(".", mark=True)
                token = self.take("NUMBER", *NAMES)
                part = number_of(token.text) if token.kind == "NUMBER" else token.text
                base = Field(start, self.behind, base, part)
            else:
                base = self.indexed(start, base)
        return base

    def indexed(self, start, base):
        self.take("[")
        first = self.expr()
        kind = self.take("]", ":", "+:").kind
        if kind == "]":
            return Index(start, self.behind, base, first)
        second = self.expr() if kind == ":" else self.type()
        self.take("]")
        return (Slice if kind == ":" else PartSelect)(start, self.behind, base, first, second)

    def atom(self):
        start, kind = self.here, self.kind
        if kind == "NUMBER":
            return self.untyped()
        if kind in BASE_KEYWORDS or kind == "TYPENAME":
            written = self.type()
            self.take(":")
            if self.kind == "[":
                return self.elements(start, written)
            value = self.signed()
            return Literal(start, self.behind, written, value)
        readers = {"[": lambda: self.elements(start, None), "(": self.parenthesis, "{": self.block, "if": self.if_,
                   "match": self.match, "for": self.for_}
        if kind in readers:
            return readers[kind]()
        token = self.take("true", "false", *NAMES)
        if kind in ("true", "false"):
            return Truth(start, token.end, kind == "true")
        return self.named(Ident(start, token.end, token.text))

    def named(self, name):
        """What begins with a name that is no type's."""
        if self.kind == "::":
            self.take("::")
            member = self.ident()
            return Member(name.start, self.behind, name, member)
        if self.kind == "FIELDS":
            return self.struct_value(name)
        if self.kind not in ("(", "ARGS"):
            return Name(name.start, name.end, name.name)
        args = self.args() if self.kind == "ARGS" else []
        self.take("(")
        operands = self.list(")", self.expr)
        return Call(name.start, self.behind, name, args, operands)

    def struct_value(self, name):
        self.take("FIELDS")
        fields, rest = [], None
        while self.kind != "}":
            if self.kind == "..":
                self.take("..")
                rest = self.expr()
                break
            part = self.ident()
            value = Name(part.start, part.end, part.name)
            if self.kind == ":":
                self.take(":")
                value = self.expr()
            fields.append((part, value))
            if self.kind != ",":
                break
            self.take(",")
        self.take("}")
        return StructExpr(name.start, self.behind, name, fields, rest)

    def elements(self, start, written):
        self.take("[")
        found, repeats = [self.expr()], False
        while self.kind == ",":
            self.take(",")
            if self.kind == "...":
                self.take("...")
                repeats = True
                if self.kind == ",":
                    self.take(",")
                break
            if self.kind == "]":
                break
            found.append(self.expr())
        self.take("]")
        return ArrayLiteral(start, self.behind, written, found, repeats)

    def parenthesis(self):
        start = self.take("(").start
        if self.kind == ")":
            self.take(")")
            return TupleExpr(start, self.behind, [])
        first = self.expr()
        if self.take(")", ",").kind == ")":
            return first
        parts = [first] + self.list(")", self.expr)
        return TupleExpr(start, self.behind, parts)

    def head(self, keyword):
        start = self.take(keyword).start
        self.heads += 1
        return start

    def if_(self):
        start = self.head("if")
        condition = self.expr()
        self.heads -= 1
        then = self.block()
        self.take("else", mark=True)
        other = self.if_() if self.kind == "if" else self.block()
        return If(start, self.behind, condition, then, other)

    def match(self):
        start = self.head("match")
        scrutinee = self.expr()
        self.heads -= 1
        self.take("{")
        arms = self.list("}", self.arm)
        return Match(start, self.behind, scrutinee, arms)

    def arm(self):
        start = self.here
        patterns = [self.pattern()]
        while self.kind == "|":
            self.take("|")
            patterns.append(self.pattern())
        self.take("=>")
        value = self.expr()
        return Arm(start, self.behind, patterns, value)

    def for_(self):
        start = self.head("for")
        self.take("(")
        index = self.pattern()
        self.take(",")
        accumulator = self.pattern()
        self.take(")")
        written = None
        if self.kind == ":":
            self.take(":")
            written = self.type()
        self.take("in")
        low = self.expr()
        self.take("..")
        high = self.expr()
        self.heads -= 1
        body = self.block()
        self.take("(")
        initial = self.expr()
        self.take(")")
        return For(start, self.behind, index, accumulator, written, low, high, body, initial)
