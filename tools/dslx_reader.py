#!/usr/bin/env python3
"""A second reader and checker of whole DSLX texts, written from docs/LANGUAGE.md, not from the definitions.

    tools/dslx_reader.py FILE            says what it finds of one text
    tools/dslx_reader.py --table TABLE   holds the answers of a table of examples (dslx_examples.txt) against its own

An answer is `ok procs P channels C`, `rule R at FROM..TO`, `limit NAME FOUND at POS` (where the part ends; 0 for what has no
place) or `syntax at POS`. What the definitions come to at random texts is held against it by tools/fuzz_rules.py.

tools/dslx_syntax.py parses the text. Each item is judged once, each function and proc once for each list of its parametric
arguments. What is known of a part is its type, or None where it has none. Faults are kept with the text that has them (`Unit`),
so that only those of checked texts are named.
"""

import re
import sys
import threading
from contextlib import contextmanager
from dataclasses import dataclass, field
from enum import Enum, auto
from functools import lru_cache
from itertools import product

from dslx_syntax import (Alias, ArrayLiteral, BINDS, Binary, Block, Call, Cast, Constant, EnumItem, Field, For, Function, Ident, If,
                         Index, Let, Literal, LiteralPattern, MadeChannel, Match, Member, MemberPattern, MOST_NESTING, Name,
                         NamePattern, Node, Parser, PartSelect, Proc, Refused, Slice, Spawn, Struct, StructExpr, Truth,
                         TruthPattern, TupleExpr, TuplePattern, Unary, UntypedLiteral, WildPattern, WrittenArray, WrittenBits,
                         WrittenName, WrittenSized, WrittenTuple)

EFFECTS = {"recv": 2, "recv_if": 4, "send": 3, "send_if": 4}
BUILTINS = {"clz": 1, "ctz": 1, "rev": 1, "and_reduce": 1, "or_reduce": 1, "xor_reduce": 1, "update": 3}
RESERVED = {"join", *EFFECTS, *BUILTINS}
LIMITS = {"width": 128, "leaves": 256, "levels": 64, "word": 128, "turns": 1024, "size": 65536, "sites": 32, "depth": 4096}
MOST_INSTANCES, MOST_PROCS, MOST_CHANNELS = 4096, 256, 1024
MOST_FOUND = 2 ** 64 - 1
RUNAWAY = 5 * MOST_INSTANCES  # so many instances are never judged only because a call breaks a rule


# ---- Types and values

class Type:
    """What a value is: its leaves, its levels, its flat bits, and the least width of a leaf that is past the limit (or None)."""
    leaves, levels, flat, too_wide = 0, 0, 0, None


class Bits(Type):
    def __init__(self, signed, width):
        self.signed, self.width, self.leaves, self.flat = signed, width, 1, width
        self.too_wide = width if width > LIMITS["width"] else None

    def holds(self, number):
        """Whether a number lies in it; the width may be too great to compute with."""
        if self.signed:
            return (number if number >= 0 else -1 - number).bit_length() < self.width
        return number >= 0 and number.bit_length() <= self.width

    def wrap(self, number):
        number &= (1 << self.width) - 1
        return number - (1 << self.width) if self.signed and number >> self.width - 1 else number


def least(numbers):
    return min((n for n in numbers if n is not None), default=None)


class Composite(Type):
    def measure(self, parts):
        self.leaves, self.flat = sum(p.leaves for p in parts), sum(p.flat for p in parts)
        self.levels = 1 + max((p.levels for p in parts), default=0)
        self.too_wide = least(p.too_wide for p in parts)


class TupleOf(Composite):
    def __init__(self, parts):
        self.parts = parts
        self.measure(parts)


class ArrayOf(Composite):
    def __init__(self, element, size):
        self.element, self.size = element, size
        self.measure((element,))
        self.leaves, self.flat = size * element.leaves, size * element.flat


class StructOf(Composite):
    """The type of a struct; equal to itself alone."""

    def __init__(self, fields):
        self.fields = fields
        self.measure(tuple(fields.values()))


class EnumOf(Type):
    """The type of an enum; equal to itself alone. Members without a value have None."""

    def __init__(self, base, members):
        self.base, self.members = base, members
        self.leaves, self.flat, self.too_wide = 1, base.width, base.too_wide


class TokenType(Type):
    pass


class Pair(Type):
    """What a receive gives: a token and the word. The pair adds no level."""

    def __init__(self, word):
        self.word = word
        self.leaves, self.levels, self.flat, self.too_wide = word.leaves, word.levels, word.flat, word.too_wide


# Equal types are one object.
bits = lru_cache(None)(Bits)
tuple_of = lru_cache(None)(TupleOf)
array_of = lru_cache(None)(ArrayOf)
pair_of = lru_cache(None)(Pair)
U1, UNIT, TOKEN_TYPE = bits(False, 1), tuple_of(()), TokenType()


def is_bits(t):
    return isinstance(t, Bits)


def is_unsigned(t):
    return isinstance(t, Bits) and not t.signed


@dataclass(frozen=True)
class Value:
    """A value with its type: a whole number (of bits and enums, negative where it is) or the values' data of its parts."""
    type: Type
    data: object


def values_of(t):
    """The data of all values of a small type; of an enum all numbers of its width."""
    if isinstance(t, EnumOf):
        return values_of(t.base)
    if isinstance(t, Bits):
        return [t.wrap(n) for n in range(1 << t.width)]
    return list(product(*map(values_of, parts_of(t))))


def parts_of(t):
    """The types of the parts of a composite type."""
    if isinstance(t, ArrayOf):
        return (t.element,) * t.size
    return tuple(t.fields.values()) if isinstance(t, StructOf) else t.parts


# ---- What is found

@dataclass(frozen=True, order=True)
class Fault:
    """Ordered as they are named: by the end of the part, rules before limits, by number, then the first start or least number."""
    end: int
    is_limit: bool
    number: int
    start_or_found: int

    def answer(self):
        if self.is_limit:
            return f"limit {list(LIMITS)[self.number]} {min(self.start_or_found, MOST_FOUND)} at {self.end}"
        return f"rule {self.number} at {self.start_or_found}..{self.end}"


@dataclass
class Unit:
    """What is found in one text, a whole item or a part of it: its faults, whether some part has no type, what it reaches; and
    `elsewhere`, what stands in other declarations and is found at a call that has no instance of them."""
    faults: list = field(default_factory=list)
    is_missing: bool = False
    reached: list = field(default_factory=list)
    elsewhere: list = field(default_factory=list)

    def rules(self):
        return sum(not f.is_limit for f in self.faults)

    def absorb(self, other):
        self.faults += other.faults
        self.is_missing |= other.is_missing
        self.reached += other.reached
        self.elsewhere += other.elsewhere


@dataclass
class Notes:
    """What judging a text has found of its parts, for evaluating them: types, constants, callees, constants in patterns."""
    types: dict = field(default_factory=dict)
    constants: dict = field(default_factory=dict)
    callees: dict = field(default_factory=dict)
    patterns: dict = field(default_factory=dict)


# What a name that is bound around a place stands for.

@dataclass(frozen=True)
class Local:
    type: Type  # or None


@dataclass(frozen=True)
class ParametricValue:
    type: Type  # or None
    value: Value  # or None


@dataclass(frozen=True)
class ConfigEnd:
    type: Type  # or None
    sends: bool


@dataclass(frozen=True)
class Scope:
    """The names that are bound around a place, and the channels that effects see there."""
    names: dict
    channels: dict = field(default_factory=dict)

    def bind(self, bound):
        """What is bound hides what had its name, a channel too."""
        channels = {n: c for n, c in self.channels.items() if n not in bound}
        return Scope({**self.names, **bound}, channels)

    def parametrics(self):
        return {n: b.value for n, b in self.names.items() if isinstance(b, ParametricValue)}


class Place(Enum):
    """Where an expression stands, as tokens and effects see it."""
    VALUE = auto()
    LET = auto()  # the whole value of a `let`
    TOP_LET = auto()  # and that at the top of `next`
    TOP_STATEMENT = auto()
    TOKEN = auto()  # an operand of `join`, or an effect's first argument
    PART = auto()  # before `.0` and `.1`


# ---- Names of the text alone

class Mentions:
    """Which names a text uses, as what: it knows what is bound inside the text, and which names of patterns are constants."""

    def __init__(self, constants):
        self.constants = constants  # the names of constants

    def of_item(self, item):
        if isinstance(item, Constant):
            return self.of_type(item.type, ()) + self.of_expr(item.value, ())
        if isinstance(item, Alias):
            return self.of_type(item.type, ())
        if isinstance(item, Struct):
            return [u for f in item.fields for u in self.of_type(f.type, ())]
        if isinstance(item, EnumItem):
            return self.of_type(item.base, ()) + [u for _, value in item.members for u in self.of_expr(value, ())]
        found, bound = [], set()
        for p in item.parametrics:
            found += self.of_type(p.type, bound) + self.of_expr(p.default, bound)
            bound = bound | {p.name.name}
        return found + (self.of_function(item, bound) if isinstance(item, Function) else self.of_proc(item, bound))

    def of_function(self, item, bound):
        found = [u for a in item.arguments for u in self.of_type(a.type, bound)] + self.of_type(item.result, bound)
        return found + self.of_expr(item.body, bound | {a.name.name for a in item.arguments})

    def of_proc(self, item, bound):
        found = [u for end in item.members + item.config.ends for u in self.of_type(end.type, bound)]
        found += self.of_type(item.state.type, bound) + self.of_expr(item.init, bound)
        found += self.of_expr(item.next, bound | {item.state.name.name})
        bound = bound | {end.name.name for end in item.config.ends}
        for s in item.config.statements:
            if isinstance(s, Spawn):
                found.append(("proc", s.callee.name))
                found += [u for a in s.args for u in self.of_expr(a, bound)]
            else:
                found += self.of_type(s.type, bound) + self.of_expr(s.depth, bound)
                bound = bound | {s.sender.name, s.receiver.name}
        return found

    def of_type(self, t, bound):
        if isinstance(t, WrittenName):
            return [("type", t.name)]
        if isinstance(t, WrittenSized):
            return self.of_expr(t.width, bound)
        if isinstance(t, WrittenTuple):
            return [u for p in t.parts for u in self.of_type(p, bound)]
        if isinstance(t, WrittenArray):
            return self.of_type(t.element, bound) + self.of_expr(t.size, bound)
        return []

    def of_pattern(self, p, bound):
        """What a pattern uses, and the names that it binds."""
        if isinstance(p, NamePattern):  # a constant's name stands for it, also where a local hides it
            return ([("constant", p.name)], set()) if p.name in self.constants else ([], {p.name})
        if isinstance(p, LiteralPattern):
            return self.of_type(p.type, bound), set()
        if isinstance(p, MemberPattern):
            return [("enum", p.enum.name)], set()
        found, names = [], set()
        for part in p.parts if isinstance(p, TuplePattern) else []:
            uses, binds = self.of_pattern(part, bound)
            found, names = found + uses, names | binds
        return found, names

    def of_expr(self, e, bound):
        if e is None or isinstance(e, (UntypedLiteral, Truth)):
            return []
        if isinstance(e, Name):
            return [] if e.name in bound else [("value", e.name)]
        if isinstance(e, Literal):
            return self.of_type(e.type, bound)
        if isinstance(e, Member):
            return [("enum", e.enum.name)]
        special = {Call: self.of_call, Block: self.of_block, Match: self.of_match, For: self.of_for}.get(type(e))
        if special:
            return special(e, bound)
        found = [("struct", e.struct.name)] if isinstance(e, StructExpr) else []
        found += self.of_type(getattr(e, "type", None), bound)
        return found + [u for part in children(e) for u in self.of_expr(part, bound)]

    def of_call(self, e, bound):
        operands, found = e.operands, []
        if e.callee.name not in RESERVED:
            found.append(("function", e.callee.name))
        if e.callee.name in EFFECTS and len(operands) > 1 and isinstance(operands[1], Name):
            if operands[1].name not in bound:
                found.append(("channel", operands[1].name))
            operands = operands[:1] + operands[2:]
        return found + [u for part in e.args + operands for u in self.of_expr(part, bound)]

    def of_block(self, e, bound):
        found = []
        for s in e.statements:
            if isinstance(s, Let):
                uses, names = self.of_pattern(s.pattern, bound)
                found += self.of_type(s.type, bound) + self.of_expr(s.value, bound) + uses
                bound = set(bound) | names
            else:
                found += self.of_expr(s, bound)
        return found + self.of_expr(e.result, bound)

    def of_match(self, e, bound):
        found = self.of_expr(e.scrutinee, bound)
        for arm in e.arms:
            inside = set(bound)
            for p in arm.patterns:
                uses, names = self.of_pattern(p, bound)
                found, inside = found + uses, inside | names
            found += self.of_expr(arm.value, inside)
        return found

    def of_for(self, e, bound):
        found = [u for part in (e.low, e.high, e.initial) for u in self.of_expr(part, bound)] + self.of_type(e.type, bound)
        uses, names = self.of_pattern(e.index, bound)
        inside = set(bound) | names
        more, names = self.of_pattern(e.accumulator, inside)
        return found + uses + more + self.of_expr(e.body, inside | names)


def children(e):
    """The expressions that an expression is made of; those of types and patterns aside."""
    if isinstance(e, Call):
        return e.operands
    if isinstance(e, TupleExpr):
        return e.parts
    if isinstance(e, ArrayLiteral):
        return e.elements
    if isinstance(e, StructExpr):
        return [value for _, value in e.fields] + ([e.rest] if e.rest else [])
    names = {If: ("condition", "then", "other"), Index: ("base", "index"), Slice: ("base", "low", "high"),
             PartSelect: ("base", "offset"), Field: ("base",), Unary: ("operand",), Binary: ("left", "right"), Cast: ("operand",)}
    return [getattr(e, name) for name in names.get(type(e), ())]


# ---- Judging

class Judge:
    """Judges one text, or a part of it that has to be constant, at known parametrics; what it finds goes into its unit.

    `expr`, `type` and `pattern` give the type of a part, or None where it has none."""

    def __init__(self, checker, owner, unit=None, notes=None):
        self.checker, self.owner = checker, owner
        self.unit = Unit() if unit is None else unit
        self.notes = Notes() if notes is None else notes
        self.sites = set()  # the channels that have a site before

    # -- faults

    def broken(self, rule, part):
        self.unit.faults.append(Fault(part.end, False, rule, part.start))

    def counted(self, limit, found, end):
        if found > LIMITS[limit]:
            self.unit.faults.append(Fault(end, True, list(LIMITS).index(limit), found))

    def measured(self, t, end):
        """The limits of a type, at the end of what has it."""
        if t.too_wide is not None:
            self.counted("width", t.too_wide, end)
        self.counted("leaves", t.leaves, end)
        self.counted("levels", t.levels, end)

    def missing(self):
        self.unit.is_missing = True

    # -- names

    def used(self, kinds, ident):
        """The item that a use means: of a kind that fits (rule 1), and in no cycle with the text that it stands in (rule 3)."""
        item = self.checker.first.get(ident.name)
        if not isinstance(item, kinds):
            self.broken(1, ident)
        elif self.checker.is_cyclic(self.owner, item):
            self.broken(3, ident)
        else:
            return item
        return None

    def declared(self, idents, are_bindings=True):
        """Rule 2 of one list: twice in it, the name of a builtin, and for bindings the name of an item."""
        seen = set()
        for ident in idents:
            is_item = are_bindings and ident.name in self.checker.first
            if ident.name in seen or ident.name in RESERVED or is_item:
                self.broken(2, ident)
            seen.add(ident.name)

    # -- types as they are written

    def type(self, t, scope):
        if isinstance(t, WrittenBits):
            found = bits(t.signed, t.width)
        elif isinstance(t, WrittenSized):
            width = self.size(t.width, scope)
            found = width and bits(t.signed, width)
        elif isinstance(t, WrittenArray):
            element, size = self.inner_type(t.element, scope), self.size(t.size, scope)
            found = array_of(element, size) if element and size else None
        elif isinstance(t, WrittenTuple):
            parts = [self.inner_type(p, scope) for p in t.parts]
            found = tuple_of(tuple(parts)) if None not in parts else None
        else:
            item = self.used((Alias, Struct, EnumItem), t)
            found = item and self.checker.type_of(item)
        if found is None:
            self.missing()
        else:
            self.measured(found, t.end)
        self.notes.types[t] = found
        return found

    def inner_type(self, t, scope):
        """A type that may not be `()`: a part of another one, an argument's, a field's, a parametric's, a channel's (rule 31)."""
        found = self.type(t, scope)
        if found is UNIT:
            self.broken(31, t)
            return None
        return found

    def channel_type(self, t, scope):
        found = self.inner_type(t, scope)
        if found is not None:
            self.counted("word", found.flat, t.end)
        return found

    def size(self, e, scope):
        """A width or a size: unsigned and not 0 (rule 4)."""
        value = self.constant(e, scope, untyped=True)
        if value is None:
            return None
        if not isinstance(value, int) and not is_unsigned(value.type) or number_in(value) == 0:
            self.broken(4, e)
            return None
        return number_in(value)

    # -- what has to be constant

    def constant(self, e, scope, untyped=False):
        """The value of what has to be constant, or None; a number without a type is a plain int where one may stand.

        Its own text and all that it reaches are to break no rule and pass no limit, and each part to have a type."""
        if untyped and isinstance(e, UntypedLiteral):
            self.notes.constants[e] = e.value
            return e.value
        inner = Judge(self.checker, self.owner, notes=self.notes)
        found = inner.expr(e, scope)
        for kind, name in self.checker.mentions.of_expr(e, ()):
            is_local = kind == "value" and isinstance(scope.names.get(name), (Local, ConfigEnd))
            if is_local or kind == "channel" and (name in scope.channels or name in scope.names):
                inner.broken(5, e)
                break
        inner.sized(e)
        value = inner.value_of(e, scope) if found else None
        self.unit.absorb(inner.unit)
        if value is None:
            self.missing()
        self.notes.constants[e] = value
        return value

    def value_of(self, e, scope):
        """The value of what this judge alone has judged, or None."""
        if self.unit.faults or self.unit.is_missing or not all(i.is_sound() for i in self.unit.reached):
            return None
        return Evaluator(self.checker, self.notes).expr(e, scope.parametrics())

    def sized(self, e):
        """The limit `size` of a body or of what has to be constant, where it has a size: nothing that it reaches is broken."""
        size = None
        if not self.unit.rules() and not self.unit.is_missing and all(i.size() is not None for i in self.unit.reached):
            size = Sizes(self.notes).expr(e)
            if size > LIMITS["size"]:
                self.counted("size", LIMITS["size"] + 1, e.end)
        return size

    # -- expressions

    def expr(self, e, scope, place=Place.VALUE):
        found = EXPRESSIONS[type(e)](self, e, scope, place)
        if not self.may_stand(found, e, place):
            self.broken(28, e)
            found = None
        if found is None:
            self.missing()
        else:
            self.measured(found, e.end)
        return found

    def may_stand(self, found, e, place):
        """Whether a token or a receive's pair may stand here; an effect that is a statement drops its own."""
        if found is TOKEN_TYPE or isinstance(found, Pair):
            is_dropped = place is Place.TOP_STATEMENT and isinstance(e, Call) and e.callee.name in EFFECTS
            taken_by = Place.TOKEN if found is TOKEN_TYPE else Place.PART
            return is_dropped or place in (Place.LET, Place.TOP_LET, taken_by)
        return True

    def untyped_literal(self, e, _scope, _place):
        self.broken(7, e)

    def literal(self, e, scope, _place):
        return self.number_of_type(e, self.type(e.type, scope), e.value)

    def number_of_type(self, part, t, number):
        """Rule 6: a number's type is bits, and has it."""
        if t is not None and not (is_bits(t) and t.holds(number)):
            self.broken(6, part)
            return None
        return t

    def truth(self, _e, _scope, _place):
        return U1

    def array_literal(self, e, scope, _place):
        if e.type is None:
            return self.untyped_array(e, scope)
        t = self.type(e.type, scope)
        is_array = isinstance(t, ArrayOf)
        element, is_fine = t.element if is_array else None, is_array
        for part in e.elements:
            if isinstance(part, UntypedLiteral):
                is_fine &= self.number_of_type(part, element, part.value) is not None
            else:
                is_fine &= self.wanted(part, self.expr(part, scope), element)
        if t is None:
            return None
        if not is_array:
            self.broken(9, e)
        elif len(e.elements) > t.size or len(e.elements) < t.size and not e.repeats:
            self.broken(21, e)
        elif is_fine:
            return t
        return None

    def untyped_array(self, e, scope):
        """The first element decides; where it has no type the others aren't compared."""
        found = [self.inner_value(part, scope) for part in e.elements]
        is_fine = None not in found
        for part, t in zip(e.elements[1:], found[1:]):
            is_fine &= self.wanted(part, t, found[0])
        if e.repeats:
            self.broken(21, e)
        elif is_fine:
            return array_of(found[0], len(found))
        return None

    def inner_value(self, e, scope):
        """An element of a tuple or of an array without a type: not `()` (rule 31)."""
        found = self.expr(e, scope)
        if found is UNIT:
            self.broken(31, e)
            return None
        return found

    def wanted(self, part, found, wanted):
        """Rule 9: whether a part has the wanted type; broken only where both are there."""
        if found is not None and wanted is not None and found is not wanted:
            self.broken(9, part)
        return found is not None and found is wanted

    def name(self, e, scope, _place):
        bound = scope.names.get(e.name)
        if isinstance(bound, Local):
            return bound.type
        if isinstance(bound, ParametricValue):
            return bound.type if bound.value is not None else None
        if bound is not None:  # an end of `config` is no value
            self.broken(1, e)
            return None
        item = self.used(Constant, e)
        value = item and self.checker.constant(item).value
        return value.type if value else None

    def member(self, e, _scope, _place):
        item = self.used(EnumItem, e.enum)
        if item is None:
            return None
        if all(name.name != e.member.name for name, _ in item.members):
            self.broken(1, e.member)
            return None
        t = self.checker.type_of(item)
        return t if t is not None and t.members[e.member.name] is not None else None

    def tuple_expr(self, e, scope, _place):
        parts = [self.inner_value(p, scope) for p in e.parts]
        return tuple_of(tuple(parts)) if None not in parts else None

    def struct_expr(self, e, scope, _place):
        """What the struct's text declares is known also where it is no type: rules 1 and 22."""
        item = self.used(Struct, e.struct)
        t = item and self.checker.type_of(item)
        declared = {f.name.name for f in item.fields} if item else set()
        is_fine = t is not None
        for name, value in e.fields:
            if item and name.name not in declared:
                self.broken(1, name)
                is_fine = False
            wanted = t.fields.get(name.name) if t else None
            is_fine &= self.wanted(value, self.expr(value, scope), wanted)
        if e.rest is not None:
            is_fine &= self.wanted(e.rest, self.expr(e.rest, scope), t)
        written = [name.name for name, _ in e.fields]
        if item and (len(set(written)) < len(written) or e.rest is None and not declared <= set(written)):
            self.broken(22, e)
            return None
        return t if is_fine else None

    def block(self, e, scope, _place):
        return self.statements(e, scope, is_next=False)

    def statements(self, e, scope, is_next):
        """A block has its last expression's type where its statements break no rule, even where one of them lacks a type."""
        before = self.unit.rules()
        for s in e.statements:
            if isinstance(s, Let):
                scope = self.let(s, scope, Place.TOP_LET if is_next else Place.LET)
            else:
                self.expr(s, scope, Place.TOP_STATEMENT if is_next else Place.VALUE)
        is_fine = self.unit.rules() == before
        found = UNIT if e.result is None else self.expr(e.result, scope)
        return found if is_fine else None

    def let(self, s, scope, place):
        """Gives the scope behind it. The pattern's own numbers see what is bound around the whole pattern."""
        written = None if s.type is None else self.type(s.type, scope)
        found = self.expr(s.value, scope, place)
        if s.type is not None and not self.wanted(s.value, found, written):
            found = None
        return scope.bind(self.pattern(s.pattern, found, scope, may_fail=False))

    def if_(self, e, scope, _place):
        is_fine = self.condition(e.condition, scope)
        then, other = self.expr(e.then, scope), self.expr(e.other, scope)
        if then is None or other is None:
            return None
        if then is not other:
            self.broken(25, e)
            return None
        return then if is_fine else None

    def condition(self, e, scope):
        found = self.expr(e, scope)
        if found is not None and found is not U1:
            self.broken(15, e)
        return found is U1

    def index(self, e, scope, _place):
        base, index = self.expr(e.base, scope), self.expr(e.index, scope)
        if base is not None and not isinstance(base, ArrayOf) or index is not None and not is_unsigned(index):
            self.broken(19, e)
            return None
        return base.element if base and index else None

    def slice(self, e, scope, _place):
        """Rule 18. A bound that is negative, past the width or no number is wrong whatever the other one is."""
        base = self.expr(e.base, scope)
        bounds = [self.constant(bound, scope, untyped=True) for bound in (e.low, e.high)]
        is_wrong = base is not None and not is_bits(base)
        for bound in bounds:
            if bound is not None:
                is_wrong |= not isinstance(bound, int) and not is_bits(bound.type) or number_in(bound) < 0
                is_wrong |= is_bits(base) and not is_wrong and number_in(bound) > base.width
        if not is_wrong and None not in bounds:
            is_wrong = number_in(bounds[0]) >= number_in(bounds[1])
        if is_wrong:
            self.broken(18, e)
            return None
        return bits(False, number_in(bounds[1]) - number_in(bounds[0])) if base and None not in bounds else None

    def part_select(self, e, scope, _place):
        base, offset, t = self.expr(e.base, scope), self.expr(e.offset, scope), self.type(e.type, scope)
        if (base is not None and not is_bits(base) or offset is not None and not is_unsigned(offset)
                or t is not None and not is_unsigned(t)):
            self.broken(18, e)
            return None
        return t if base and offset else None

    def field(self, e, scope, _place):
        is_part = e.field in (0, 1)
        base = self.expr(e.base, scope, Place.PART if is_part else Place.VALUE)
        if base is None:
            return None
        if isinstance(base, Pair):
            return (TOKEN_TYPE, base.word)[e.field]
        if isinstance(base, TupleOf) and isinstance(e.field, int) and e.field < len(base.parts):
            return base.parts[e.field]
        if isinstance(base, StructOf) and e.field in base.fields:
            return base.fields[e.field]
        self.broken(19, e)
        return None

    def unary(self, e, scope, _place):
        found = self.expr(e.operand, scope)
        if found is not None and not is_bits(found):
            self.broken(11, e)
            return None
        return found

    def binary(self, e, scope, _place):
        if e.op in ("&&", "||"):
            left, right = self.condition(e.left, scope), self.condition(e.right, scope)
            return U1 if left and right else None
        left, right = self.expr(e.left, scope), self.expr(e.right, scope)
        if e.op in ("<<", ">>"):
            is_fine = self.operand(e.left, left, is_bits, 16) & self.operand(e.right, right, is_unsigned, 16)
            return left if is_fine else None
        if e.op == "++":
            is_fine = self.operand(e.left, left, is_unsigned, 17) & self.operand(e.right, right, is_unsigned, 17)
            return bits(False, left.width + right.width) if is_fine else None
        if left is None or right is None:
            return None
        rule, fits = 12, is_bits(left)
        if e.op in ("/", "%"):
            rule, fits = 13, is_unsigned(left)
        elif BINDS[e.op] == BINDS["=="]:
            rule, fits = 14, is_bits(left) or e.op in ("==", "!=") and isinstance(left, EnumOf)
        if not fits or left is not right:
            self.broken(rule, e)
            return None
        return U1 if rule == 14 else left

    def operand(self, part, found, fits, rule):
        """Whether an operand is there and fits; broken at itself where it doesn't."""
        if found is not None and not fits(found):
            self.broken(rule, part)
            return False
        return found is not None

    def cast(self, e, scope, _place):
        source, target = self.expr(e.operand, scope), self.type(e.type, scope)
        if source is not None and not isinstance(source, (Bits, EnumOf)) or target is not None and not is_bits(target):
            self.broken(20, e)
            return None
        return target if source else None

    # -- matches, loops and patterns

    def match(self, e, scope, _place):
        t = self.expr(e.scrutinee, scope)
        before, is_missing, values, binds = self.unit.rules(), False, [], False
        for arm in e.arms:
            bound = {}
            for p in arm.patterns:
                names = self.pattern(p, t, scope)
                binds |= len(arm.patterns) > 1 and bool(names)
                bound = {**names, **bound}  # of two that bind one name it is the first one's
                is_missing |= self.is_missing(p)
            values.append((arm.value, scope.bind(bound)))
        is_fine = self.unit.rules() == before and not is_missing and t is not None
        types = [self.expr(value, inside) for value, inside in values]
        is_wrong = not e.arms or binds or None not in types and any(found is not types[0] for found in types)
        if is_wrong or is_fine and not self.is_exhaustive(e, t):
            self.broken(24, e)
            return None
        return types[0] if is_fine and None not in types else None

    def is_missing(self, p):
        """Whether a pattern has in it a constant without a value, or a number of a type that isn't there."""
        if isinstance(p, TuplePattern):
            return any(map(self.is_missing, p.parts))
        if isinstance(p, LiteralPattern):
            return self.notes.types[p.type] is None
        return p in self.notes.patterns and self.notes.patterns[p] is None

    def is_exhaustive(self, e, t):
        """Of an enum each member, of a type of at most 8 bits each number is matched; of others the last arm fits all."""
        if isinstance(t, EnumOf):
            if None in t.members.values():
                return True
            numbers = t.members.values()
        elif t.flat <= 8:
            numbers = values_of(t)
        else:
            return any(map(self.is_irrefutable, e.arms[-1].patterns))
        evaluator = Evaluator(self.checker, self.notes)
        patterns = [p for arm in e.arms for p in arm.patterns]
        return all(any(evaluator.fits(p, Value(t, n)) is not None for p in patterns) for n in numbers)

    def is_irrefutable(self, p):
        if isinstance(p, TuplePattern):
            return all(map(self.is_irrefutable, p.parts))
        return isinstance(p, WildPattern) or isinstance(p, NamePattern) and p not in self.notes.patterns

    def for_(self, e, scope, _place):
        low, high = self.constant(e.low, scope), self.constant(e.high, scope)
        range_type = None
        if low is not None and high is not None:
            if is_bits(low.type) and low.type is high.type:
                range_type = low.type
                self.counted("turns", high.data - low.data, e.end)
            else:
                self.broken(26, e)
        is_fine = range_type is not None
        initial = self.expr(e.initial, scope)
        if e.type is not None:
            written = self.type(e.type, scope)
            is_fine &= written is not None
            if range_type and initial and written:
                is_fine &= self.wanted(e, tuple_of((range_type, initial)), written)
        before = self.unit.rules()
        inside = scope.bind(self.pattern(e.index, range_type, scope, may_fail=False))
        inside = inside.bind(self.pattern(e.accumulator, initial, inside, may_fail=False))
        is_fine &= self.unit.rules() == before
        is_fine &= self.wanted(e.body, self.expr(e.body, inside), initial)
        return initial if is_fine else None

    def pattern(self, p, t, scope, may_fail=True):
        """What a whole pattern binds, with types. Rule 2 for its names, 8 for its shape and for what may fail."""
        names = []
        bound = self.part_of_pattern(p, t, scope, may_fail, names)
        self.declared(names)
        return bound

    def part_of_pattern(self, p, t, scope, may_fail, names):
        if isinstance(p, WildPattern):
            return {}
        if isinstance(p, TuplePattern):
            parts = (TOKEN_TYPE, t.word) if isinstance(t, Pair) else t.parts if isinstance(t, TupleOf) else None
            if t is not None and (parts is None or len(parts) != len(p.parts)):
                self.broken(8, p)
                parts = None
            bound = {}
            for part, inner in zip(p.parts, parts or [None] * len(p.parts)):
                bound = {**self.part_of_pattern(part, inner, scope, may_fail, names), **bound}
            return bound
        if isinstance(p, NamePattern) and not isinstance(self.checker.first.get(p.name), Constant):
            names.append(Ident(p.start, p.end, p.name))
            return {p.name: Local(t)}
        found = self.type_of_constant(p, scope)
        if not may_fail or found is not None and t is not None and found is not t:
            self.broken(8, p)
        return {}

    def type_of_constant(self, p, scope):
        """The type of a pattern that is one value."""
        if isinstance(p, TruthPattern):
            return U1
        if isinstance(p, LiteralPattern):
            return self.number_of_type(p, self.type(p.type, scope), p.value)
        if isinstance(p, MemberPattern):
            found = self.member(p, scope, None)
            self.notes.patterns[p] = found and Value(found, found.members[p.member.name])
        else:
            item = self.used(Constant, p)
            self.notes.patterns[p] = item and self.checker.constant(item).value
        value = self.notes.patterns[p]
        if value is None:
            self.missing()
        return value.type if value else None

    # -- calls

    def call(self, e, scope, place):
        word = e.callee.name
        if word in EFFECTS:
            return self.effect(e, scope, place)
        args = [self.constant(a, scope) for a in e.args]
        if word == "join":
            return self.join(e, scope)
        operands = [self.expr(o, scope) for o in e.operands]
        if word in BUILTINS:
            return self.builtin(e, operands)
        item = self.checker.first.get(word)
        if not isinstance(item, Function):
            self.broken(1, e.callee)
            return None
        return self.call_of_function(e, item, args, operands)

    def call_of_function(self, e, item, args, operands):
        instance, types = self.instantiate(e, item, args, [a.type for a in item.arguments], operands, len(operands))
        is_fine = instance is not None
        for part, found, wanted in zip(e.operands, operands, types):
            if found is None or wanted is not None and not self.wanted(part, found, wanted):
                is_fine = False
        self.notes.callees[e] = instance
        return instance.result if is_fine else None

    def join(self, e, scope):
        found = [self.token(o, scope) for o in e.operands]
        if e.args:
            self.broken(10, e)
            return None
        return TOKEN_TYPE if all(found) else None

    def token(self, e, scope):
        """An operand of `join`, or an effect's first argument: a token (rule 9)."""
        return self.wanted(e, self.expr(e, scope, Place.TOKEN), TOKEN_TYPE)

    def builtin(self, e, operands):
        word = e.callee.name
        if len(operands) != BUILTINS[word] or e.args:
            self.broken(10, e)
            return None
        if word != "update":
            is_fine = self.operand(e.operands[0], operands[0], is_bits, 27)
            return (U1 if word.endswith("_reduce") else operands[0]) if is_fine else None
        array, index, value = operands
        is_fine = self.operand(e.operands[0], array, lambda t: isinstance(t, ArrayOf), 27)
        is_fine &= self.operand(e.operands[1], index, is_unsigned, 27)
        if isinstance(array, ArrayOf):
            is_fine &= self.operand(e.operands[2], value, lambda t: t is array.element, 27)
        return array if is_fine and value else None

    def effect(self, e, scope, place):
        """An effect's second argument names its channel; rules 28 and 29 are the call's."""
        word, is_fine = e.callee.name, True
        for a in e.args:
            self.constant(a, scope)
        is_counted = len(e.operands) == EFFECTS[word] and not e.args
        channel = None
        types = []
        for i, part in enumerate(e.operands):
            if i == 1 and isinstance(part, Name):
                channel = scope.channels.get(part.name)
                if channel is None:
                    self.broken(1, part)
                types.append(None)
            elif i == 0:
                types.append(self.expr(part, scope, Place.TOKEN))
            else:
                types.append(self.expr(part, scope))
        if not is_counted:
            self.broken(10, e)
            is_fine = False
        else:
            is_fine &= self.wanted(e.operands[0], types[0], TOKEN_TYPE)
            is_fine &= self.effect_operands(word, e.operands, types, channel)
            is_fine &= self.is_site(e, channel)
        if place not in (Place.TOP_LET, Place.TOP_STATEMENT):
            self.broken(28, e)
            is_fine = False
        if channel is None or channel.type is None or not is_fine:
            return None
        return TOKEN_TYPE if word.startswith("send") else pair_of(channel.type)

    def effect_operands(self, word, operands, types, channel):
        is_fine = True
        if word.endswith("_if"):
            if types[2] is not None and types[2] is not U1:
                self.broken(15, operands[2])
            is_fine = types[2] is U1
        if word != "recv":
            is_fine &= self.wanted(operands[-1], types[-1], channel.type if channel else None)
        return is_fine

    def is_site(self, e, channel):
        """Rule 29: the channel is a member, of this direction, and has no site before."""
        named = e.operands[1]
        if isinstance(named, Name) and channel is None:
            return False
        if channel is None or channel.sends != e.callee.name.startswith("send") or named.name in self.sites:
            self.broken(29, e)
            return False
        self.sites.add(named.name)
        return True

    # -- instances

    def instantiate(self, e, item, args, written, operands, count):
        """What a call or `spawn` of so many operands makes of a declaration: the instance (None where it has none), and the types
        that are wanted of its operands (None where they aren't known). Rules 3 and 10 are the call's."""
        nothing = [None] * count
        is_cyclic = self.checker.is_cyclic(self.owner, item)
        if is_cyclic:
            self.broken(3, e)
        if count != len(written) or len(args) > len(item.parametrics):
            self.broken(10, e)
            return None, nothing
        if is_cyclic and self.checker.is_looking:
            return None, nothing  # types and values take no second look
        with self.checker.looking(self.checker.is_looking or is_cyclic):
            instance, types = self.judge_instance(e, item, args, written, operands, is_cyclic)
        return instance, types or nothing

    def judge_instance(self, e, item, args, written, operands, is_cyclic):
        trial = Judge(self.checker, item)
        scope, state = self.parametrics(e, item, args, written, operands, trial)
        if state == "rule 10":
            self.broken(10, e)
            return None, None
        if state == "complete" and not is_cyclic:
            instance = self.checker.instance(item, tuple(b.value for b in scope.names.values()))
            self.unit.reached.append(instance)
            return instance, instance.wanted
        if not is_cyclic:
            self.unit.elsewhere.append(trial.unit)
        quiet = Judge(self.checker, item)
        return None, [quiet.type(t, scope) for t in written]

    def parametrics(self, e, item, args, written, operands, trial):
        """The parametrics of a call from left to right: whether they are `complete`, one is `missing`, or some breaks `rule 10`.

        Behind the first one without a value nothing of the declaration is judged (`trial` does that); a given argument is where
        its parametric's type is known, and rule 10 needs no values of others."""
        scope, state = Scope({}), "complete"
        for i, p in enumerate(item.parametrics):
            judge = trial if state == "complete" else Judge(self.checker, item)
            t, value, found = judge.inner_type(p.type, scope), None, "missing"
            if i >= len(args):
                value, found = self.ungiven(p, t, written, operands, judge, scope)
            elif args[i] is not None and t is not None and self.wanted(e.args[i], args[i].type, t):
                value, found = args[i], "complete"
            state = max(state, found, key=("complete", "missing", "rule 10").index)
            scope = scope.bind({p.name.name: ParametricValue(t, value)})
        return scope, state

    def ungiven(self, p, t, written, operands, judge, scope):
        """A parametric that isn't given: what the operands infer, or else its default. In a type past the limit on widths it has no value."""
        inferred = set()
        for w, found in zip(written, operands):
            if found is None and might_give(w, p.name.name):
                return None, "missing"
            inferred |= inferred_by(w, found, p.name.name)
        if len(inferred) > 1 or not inferred and p.default is None:
            return None, "rule 10"
        if inferred and t is not None:
            number = inferred.pop()
            if not is_bits(t) or not t.holds(number):
                return None, "rule 10"
            return (Value(t, number), "complete") if t.too_wide is None else (None, "missing")
        value = None if inferred else judge.constant(p.default, scope)
        is_fine = value is not None and t is not None and judge.wanted(p.default, value.type, t)
        return (value, "complete") if is_fine else (None, "missing")


def number_in(value):
    """A constant's number; of what isn't a number 1, which breaks no rule by itself."""
    if isinstance(value, int):
        return value
    return value.data if is_bits(value.type) else 1


def is_parametric(e, name):
    return isinstance(e, Name) and e.name == name


def might_give(t, name):
    """Whether an operand of this written type might give the parametric."""
    if isinstance(t, WrittenSized):
        return is_parametric(t.width, name)
    if isinstance(t, WrittenArray):
        return is_parametric(t.size, name) or might_give(t.element, name)
    return isinstance(t, WrittenTuple) and any(might_give(p, name) for p in t.parts)


def inferred_by(t, found, name):
    """The numbers that an operand of this type gives a parametric of the written type; what doesn't match gives none."""
    if isinstance(t, WrittenSized) and is_bits(found) and found.signed == t.signed and is_parametric(t.width, name):
        return {found.width}
    if isinstance(t, WrittenArray) and isinstance(found, ArrayOf):
        own = {found.size} if is_parametric(t.size, name) else set()
        return own | inferred_by(t.element, found.element, name)
    if isinstance(t, WrittenTuple) and isinstance(found, TupleOf) and len(t.parts) == len(found.parts):
        return {n for p, f in zip(t.parts, found.parts) for n in inferred_by(p, f, name)}
    return set()


EXPRESSIONS = {
    UntypedLiteral: Judge.untyped_literal, Literal: Judge.literal, Truth: Judge.truth, ArrayLiteral: Judge.array_literal,
    Name: Judge.name, Member: Judge.member, Call: Judge.call, TupleExpr: Judge.tuple_expr, StructExpr: Judge.struct_expr,
    Block: Judge.block, If: Judge.if_, Match: Judge.match, For: Judge.for_, Index: Judge.index, Slice: Judge.slice,
    PartSelect: Judge.part_select, Field: Judge.field, Unary: Judge.unary, Binary: Judge.binary, Cast: Judge.cast}


# ---- Evaluating, and sizes

class Evaluator:
    """The values of expressions that were judged and found without fault."""

    def __init__(self, checker, notes):
        self.checker, self.notes = checker, notes

    def expr(self, e, env):
        if isinstance(e, Name):
            return env[e.name] if e.name in env else self.checker.constant(self.checker.first[e.name]).value
        if isinstance(e, Literal):
            return Value(self.notes.types[e.type], e.value)
        if isinstance(e, Truth):
            return Value(U1, int(e.value))
        if isinstance(e, Member):
            t = self.checker.type_of(self.checker.first[e.enum.name])
            return Value(t, t.members[e.member.name])
        evaluate = {Call: self.call, ArrayLiteral: self.array, TupleExpr: self.tuple, StructExpr: self.struct, Block: self.block,
                    If: self.if_, Match: self.match, For: self.for_, Index: self.index, Slice: self.slice,
                    PartSelect: self.part_select, Field: self.field, Unary: self.unary, Binary: self.binary, Cast: self.cast}
        return evaluate[type(e)](e, env)

    def array(self, e, env):
        if e.type is None:
            values = [self.expr(part, env) for part in e.elements]
            return Value(array_of(values[0].type, len(values)), tuple(v.data for v in values))
        t = self.notes.types[e.type]
        data = [part.value if isinstance(part, UntypedLiteral) else self.expr(part, env).data for part in e.elements]
        return Value(t, tuple(data + [data[-1]] * (t.size - len(data))))

    def tuple(self, e, env):
        values = [self.expr(part, env) for part in e.parts]
        return Value(tuple_of(tuple(v.type for v in values)), tuple(v.data for v in values))

    def struct(self, e, env):
        t = self.checker.type_of(self.checker.first[e.struct.name])
        data = dict(zip(t.fields, self.expr(e.rest, env).data)) if e.rest is not None else {}
        data.update((name.name, self.expr(value, env).data) for name, value in e.fields)
        return Value(t, tuple(data[name] for name in t.fields))

    def block(self, e, env):
        for s in e.statements:
            if isinstance(s, Let):
                env = {**env, **self.fits(s.pattern, self.expr(s.value, env))}
        return Value(UNIT, ()) if e.result is None else self.expr(e.result, env)

    def if_(self, e, env):
        return self.expr(e.then if self.expr(e.condition, env).data else e.other, env)

    def match(self, e, env):
        value = self.expr(e.scrutinee, env)
        for arm in e.arms:
            for p in arm.patterns:
                bound = self.fits(p, value)
                if bound is not None:
                    return self.expr(arm.value, {**env, **bound})
        return self.expr(e.arms[-1].value, env)

    def fits(self, p, value):
        """What a pattern binds, or None where it doesn't fit."""
        if isinstance(p, WildPattern):
            return {}
        if isinstance(p, TuplePattern):
            bound = {}
            for part, t, data in zip(p.parts, value.type.parts, value.data):
                inner = self.fits(part, Value(t, data))
                if inner is None:
                    return None
                bound = {**inner, **bound}
            return bound
        if isinstance(p, LiteralPattern):
            return {} if value.data == p.value else None
        if isinstance(p, TruthPattern):
            return {} if value.data == int(p.value) else None
        if p in self.notes.patterns:
            return {} if value.data == self.notes.patterns[p].data else None
        return {p.name: value}

    def for_(self, e, env):
        low, high = self.notes.constants[e.low], self.notes.constants[e.high]
        value = self.expr(e.initial, env)
        for n in range(low.data, high.data):
            bound = {**self.fits(e.index, Value(low.type, n)), **self.fits(e.accumulator, value)}
            value = self.expr(e.body, {**env, **bound})
        return value

    def call(self, e, env):
        operands = [self.expr(o, env) for o in e.operands]
        word = e.callee.name
        if word == "join":
            return Value(TOKEN_TYPE, None)
        if word in BUILTINS:
            return self.builtin(word, *operands)
        return self.notes.callees[e].call(operands)

    def builtin(self, word, x, *more):
        if word == "update":
            index, value = more
            data = list(x.data)
            if index.data < len(data):
                data[index.data] = value.data
            return Value(x.type, tuple(data))
        width = x.type.width
        digits = format(x.data % (1 << width), f"0{width}b")
        if word in ("clz", "ctz"):
            zeros = digits if word == "clz" else digits[::-1]
            return Value(x.type, x.type.wrap(len(zeros) - len(zeros.lstrip("0"))))
        if word == "rev":
            return Value(x.type, x.type.wrap(int(digits[::-1], 2)))
        ones = digits.count("1")
        return Value(U1, {"and_reduce": int(ones == width), "or_reduce": int(ones > 0), "xor_reduce": ones % 2}[word])

    def index(self, e, env):
        base, index = self.expr(e.base, env), self.expr(e.index, env)
        return Value(base.type.element, base.data[min(index.data, len(base.data) - 1)])

    def slice(self, e, env):
        base = self.expr(e.base, env)
        low, high = (number_in(self.notes.constants[bound]) for bound in (e.low, e.high))
        return self.part_of(base, low, bits(False, high - low))

    def part_select(self, e, env):
        return self.part_of(self.expr(e.base, env), self.expr(e.offset, env).data, self.notes.types[e.type])

    def part_of(self, base, start, t):
        whole = base.data % (1 << base.type.width)
        return Value(t, t.wrap(whole >> min(start, base.type.width)))

    def field(self, e, env):
        base = self.expr(e.base, env)
        if isinstance(base.type, StructOf):
            return Value(base.type.fields[e.field], base.data[list(base.type.fields).index(e.field)])
        return Value(base.type.parts[e.field], base.data[e.field])

    def unary(self, e, env):
        value = self.expr(e.operand, env)
        return Value(value.type, value.type.wrap(-value.data if e.op == "-" else ~value.data))

    def cast(self, e, env):
        t = self.notes.types[e.type]
        return Value(t, t.wrap(self.expr(e.operand, env).data))

    def binary(self, e, env):
        left, right = self.expr(e.left, env), self.expr(e.right, env)
        a, b, t = left.data, right.data, left.type
        if e.op in ("==", "!=", "<", "<=", ">", ">=", "&&", "||"):
            truth = {"==": a == b, "!=": a != b, "<": a < b, "<=": a <= b, ">": a > b, ">=": a >= b, "&&": a and b, "||": a or b}
            return Value(U1, int(bool(truth[e.op])))
        if e.op == "++":
            return Value(bits(False, t.width + right.type.width), a << right.type.width | b)
        if e.op in ("<<", ">>"):
            amount = min(b, t.width)
            return Value(t, t.wrap(a << amount if e.op == "<<" else a >> amount))
        if e.op == "/":
            return Value(t, a // b if b else t.wrap(-1))
        if e.op == "%":
            return Value(t, a % b if b else 0)
        return Value(t, t.wrap({"+": a + b, "-": a - b, "*": a * b, "&": a & b, "|": a | b, "^": a ^ b}[e.op]))


class Sizes:
    """The size of what was judged: each expression and pattern is 1, a call has its body besides, a `for` its turns."""

    def __init__(self, notes):
        self.notes = notes

    def expr(self, e):
        if isinstance(e, Block):
            size = 1 + (0 if e.result is None else self.expr(e.result))
            return size + sum(self.pattern(s.pattern) + self.expr(s.value) if isinstance(s, Let) else self.expr(s)
                              for s in e.statements)
        if isinstance(e, Match):
            arms = sum(sum(map(self.pattern, arm.patterns)) + self.expr(arm.value) for arm in e.arms)
            return 1 + self.expr(e.scrutinee) + arms
        if isinstance(e, For):
            turn = 1 + self.pattern(e.index) + self.pattern(e.accumulator) + self.expr(e.body)
            turns = max(0, self.notes.constants[e.high].data - self.notes.constants[e.low].data)
            return 1 + sum(map(self.expr, (e.low, e.high, e.initial))) + turns * turn
        size = 1 + sum(map(self.expr, children(e)))
        callee = self.notes.callees.get(e)
        return size + (callee.size() if callee else 0)

    def pattern(self, p):
        return 1 + (sum(map(self.pattern, p.parts)) if isinstance(p, TuplePattern) else 0)


# ---- Items, instances and the module

@dataclass
class JudgedItem:
    """What a constant, type, struct or enum comes to, with what was found in it."""
    unit: Unit
    value: object  # a constant's Value, a type's Type; None where it has none


class Instance:
    """A function or proc at its parametric arguments. What calls need of it is judged at once, its body when it is asked for."""

    def __init__(self, checker, item, values):
        self.checker, self.item, self.values = checker, item, values
        self.wanted, self.result = [None] * len(self.given()), None
        self.judge = Judge(checker, item)
        self.scope = Scope({})
        self.is_judged, self.known_size, self.known_sound = False, None, None
        self.spawned, self.made = [], 0  # of a proc

    def given(self):
        return self.item.arguments if isinstance(self.item, Function) else self.item.config.ends

    def judge_head(self):
        """Parametrics, with their defaults, used or not; the types of operands, and the result's."""
        judge, item = self.judge, self.item
        judge.declared([p.name for p in item.parametrics])
        for p, value in zip(item.parametrics, self.values):
            t = judge.inner_type(p.type, self.scope)
            if p.default is not None:
                default = judge.constant(p.default, self.scope)
                judge.wanted(p.default, default and default.type, t)
            self.scope = self.scope.bind({p.name.name: ParametricValue(value.type, value)})
        if isinstance(item, Function):
            judge.declared([a.name for a in item.arguments])
            self.wanted = [judge.inner_type(a.type, self.scope) for a in item.arguments]
            self.result = UNIT if item.result is None else judge.type(item.result, self.scope)
        else:
            self.wanted = [judge.channel_type(end.type, self.scope) for end in item.config.ends]
        judge.unit.is_missing = False  # only the parts of a body have to have types

    def judged(self):
        if not self.is_judged:
            self.is_judged = True
            self.checker.count_judged()
            self.judge_body() if isinstance(self.item, Function) else self.judge_proc()
        return self.judge.unit

    def judge_body(self):
        bound = {a.name.name: Local(t) for a, t in zip(self.item.arguments, self.wanted)}
        body = self.item.body
        self.judge.wanted(body, self.judge.expr(body, self.scope.bind(bound)), self.result)
        self.known_size = self.judge.sized(body)

    def size(self):
        self.judged()
        return self.known_size

    def is_sound(self):
        """Whether nothing that it reaches breaks a rule or passes a limit, and each part has a type."""
        if self.known_sound is None:
            unit = self.judged()
            self.known_sound = not unit.faults and not unit.is_missing and all(i.is_sound() for i in unit.reached)
        return self.known_sound

    def call(self, operands):
        env = {p.name.name: value for p, value in zip(self.item.parametrics, self.values)}
        env.update((a.name.name, value) for a, value in zip(self.item.arguments, operands))
        return Evaluator(self.checker, self.judge.notes).expr(self.item.body, env)

    # -- procs

    def judge_proc(self):
        item, judge = self.item, self.judge
        judge.declared([m.name for m in item.members])
        judge.declared([item.state.name])
        members = {}
        for m in item.members:
            t = judge.channel_type(m.type, self.scope)
            members.setdefault(m.name.name, ConfigEnd(t, m.sends))
        state = judge.type(item.state.type, self.scope)
        sight = Scope(self.scope.names, members)
        self.judge_block(item.init, sight, state, is_next=False)
        self.judge_block(item.next, sight.bind({item.state.name.name: Local(state)}), state, is_next=True)
        statements = [s.value if isinstance(s, Let) else s for s in item.next.statements]
        sites = sum(isinstance(e, Call) and e.callee.name in EFFECTS for e in statements)
        if sites > LIMITS["sites"]:
            judge.counted("sites", LIMITS["sites"] + 1, item.end)
        ConfigJudge(self, list(members.values())).run()

    def judge_block(self, block, scope, state, is_next):
        """`init` or `next`: a text of its own, of the state's type."""
        inner = Judge(self.checker, self.item, notes=self.judge.notes)
        if is_next:
            found = inner.statements(block, scope, is_next=True)
            inner.measured(found, block.end) if found else inner.missing()
        else:
            found = inner.expr(block, scope)
        inner.wanted(block, found, state)
        inner.sized(block)
        self.judge.unit.absorb(inner.unit)


class ConfigJudge:
    """Judges a `config`: what it makes and starts, and that each end is used once (rule 30)."""

    def __init__(self, instance, members):
        self.instance, self.members = instance, members
        self.judge, self.item = instance.judge, instance.item
        self.ends, self.uses = {}, {}
        self.scope = instance.scope

    def run(self):
        config = self.item.config
        made = [s for s in config.statements if isinstance(s, MadeChannel)]
        self.judge.declared([e.name for e in config.ends] + [i for s in made for i in (s.sender, s.receiver)])
        strings = set()
        for s in made:
            if s.string.name in strings:
                self.judge.broken(2, s.string)
            strings.add(s.string.name)
        for end, t in zip(config.ends, self.instance.wanted):
            self.put(end.name, ConfigEnd(t, end.sends))
        for s in config.statements:
            self.make(s) if isinstance(s, MadeChannel) else self.spawn(s)
        self.instance.made = len(made)
        result = [self.use(ident) for ident in config.result]
        if any(self.uses[name] != 1 for name in self.ends) or not self.are_members(result):
            self.judge.broken(30, config)

    def put(self, ident, end):
        """An end hides a parametric of its name for what stands behind it."""
        if ident.name not in self.ends:
            self.ends[ident.name], self.uses[ident.name] = end, 0
        self.scope = self.scope.bind({ident.name: end})

    def use(self, ident):
        """An end that is used, or None: it is to be declared before (rule 1)."""
        if ident.name not in self.ends:
            self.judge.broken(1, ident)
            return None
        self.uses[ident.name] += 1
        return self.ends[ident.name]

    def are_members(self, result):
        """Whether these are ends of the members' types and directions, in order, as far as it is known."""
        return len(result) == len(self.members) and all(e is None or fits_end(e, m) for e, m in zip(result, self.members))

    def make(self, s):
        t = self.judge.channel_type(s.type, self.scope)
        depth = None if s.depth is None else self.judge.size(s.depth, self.scope)
        if depth is not None:
            self.judge.counted("depth", depth, s.depth_end)
        self.put(s.sender, ConfigEnd(t, True))
        self.put(s.receiver, ConfigEnd(t, False))

    def spawn(self, s):
        judge = self.judge
        args = [judge.constant(a, self.scope) for a in s.args]
        ends = [self.use(ident) for ident in s.ends]
        callee = judge.checker.first.get(s.callee.name)
        if not isinstance(callee, Proc):
            judge.broken(1, s.callee)
            return
        written = callee.config.ends
        instance, types = judge.instantiate(s, callee, args, [e.type for e in written], [], len(ends))
        if len(ends) == len(written) and not self.is_rule_10(s):
            for ident, end, wanted, t in zip(s.ends, ends, written, types):
                if end is not None and not fits_end(end, ConfigEnd(t, wanted.sends)):
                    judge.broken(9, ident)
        self.instance.spawned.append(instance)

    def is_rule_10(self, s):
        return any(f.number == 10 and (f.start_or_found, f.end) == (s.start, s.end) for f in self.judge.unit.faults)


def fits_end(end, wanted):
    """Whether an end has a member's direction and, where both are known, its type."""
    return end.sends == wanted.sends and (end.type is None or wanted.type is None or end.type is wanted.type)


class Checker:
    """A module: its items, what they come to, and the instances of its functions and procs."""

    def __init__(self, items):
        self.items, self.first = items, {}
        for item in items:
            self.first.setdefault(item.name.name, item)
        self.mentions = Mentions({name for name, item in self.first.items() if isinstance(item, Constant)})
        self.reach, self.judged_items, self.instances, self.judged_count = {}, {}, {}, 0
        self.is_looking = False  # a call that breaks rule 3 looks at a declaration

    # -- rule 3

    @contextmanager
    def looking(self, is_looking):
        before, self.is_looking = self.is_looking, is_looking
        yield
        self.is_looking = before

    def mentioned(self, item):
        """The items that the text of an item names as what they are."""
        kinds = {"value": Constant, "constant": Constant, "function": Function, "proc": Proc, "struct": Struct, "enum": EnumItem,
                 "type": (Alias, Struct, EnumItem)}
        found = []
        for kind, name in self.mentions.of_item(item):
            other = self.first.get(name)
            if kind in kinds and isinstance(other, kinds[kind]):
                found.append(other)
        return found

    def reached_by(self, item):
        if item not in self.reach:
            seen, todo = set(), [item]
            while todo:
                for other in self.mentioned(todo.pop()):
                    if other not in seen:
                        seen.add(other)
                        todo.append(other)
            self.reach[item] = seen
        return self.reach[item]

    def is_cyclic(self, owner, item):
        """Whether an item that is used in the owner's text reaches the owner."""
        return item is owner or owner in self.reached_by(item)

    # -- items

    def constant(self, item):
        return self.judged_item(item, self.judge_constant)

    def type_of(self, item):
        """The type that a type, struct or enum is; None where its declaration breaks a rule."""
        readers = {Alias: self.judge_alias, Struct: self.judge_struct, EnumItem: self.judge_enum}
        return self.judged_item(item, readers[type(item)]).value

    def judged_item(self, item, read):
        if item not in self.judged_items:
            judge = Judge(self, item)
            value = read(judge, item)
            self.judged_items[item] = JudgedItem(judge.unit, value)
        return self.judged_items[item]

    def judge_constant(self, judge, item):
        scope = Scope({})
        written = None if item.type is None else judge.type(item.type, scope)
        found = judge.expr(item.value, scope)
        judge.sized(item.value)
        value = judge.value_of(item.value, scope) if found else None
        if value is None or item.type is None or judge.wanted(item.value, value.type, written):
            return value
        return None

    def judge_alias(self, judge, item):
        return judge.type(item.type, Scope({}))

    def judge_struct(self, judge, item):
        judge.declared([f.name for f in item.fields], are_bindings=False)
        fields = {}
        for f in item.fields:
            t = judge.inner_type(f.type, Scope({}))
            fields.setdefault(f.name.name, t)
        if not fields:
            judge.broken(31, item)
        if judge.unit.rules() or None in fields.values():
            return None
        found = StructOf(fields)
        judge.measured(found, item.end)
        return found

    def judge_enum(self, judge, item):
        judge.declared([name for name, _ in item.members], are_bindings=False)
        base, members = judge.type(item.base, Scope({})), {}
        for name, e in item.members:
            members.setdefault(name.name, self.judge_member(judge, e, base))
        numbers = [n for n in members.values() if n is not None]
        if not item.members or base is not None and not is_bits(base) or len(set(numbers)) < len(numbers):
            judge.broken(23, item)
        return EnumOf(base, members) if base is not None and not judge.unit.rules() else None

    def judge_member(self, judge, e, base):
        """The number of a member, or None: one without a type takes the enum's (rule 6), any other has it (rule 9). No number past the limit on widths is one."""
        value = judge.constant(e, Scope({}), untyped=True)
        if value is None or base is None:
            return None
        if isinstance(value, int):
            if not is_bits(base):
                return None
            return value if judge.number_of_type(e, base, value) is not None and base.too_wide is None else None
        return value.data if judge.wanted(e, value.type, base) and is_bits(base) else None

    # -- instances

    def instance(self, item, values):
        key = item, values
        if key not in self.instances:
            self.instances[key] = Instance(self, item, values)
            with self.looking(False):
                self.instances[key].judge_head()
        return self.instances[key]

    def count_judged(self):
        self.judged_count += 1
        if self.judged_count > RUNAWAY:
            raise Refused(f"limit instances {MOST_INSTANCES + 1} at 0")

    # -- the answer

    def answer(self, top=None):
        """The answer for the module; its top is the proc of this name, or its last one."""
        units, instances = [], []
        judge = Judge(self, None)
        judge.declared([item.name for item in self.items], are_bindings=False)
        for item in self.items:
            if isinstance(item, (Function, Proc)):
                if not item.parametrics:
                    instances.append(self.instance(item, ()))
            else:
                self.constant(item) if isinstance(item, Constant) else self.type_of(item)
                units.append(self.judged_items[item].unit)
        top = self.top(judge, top)
        units.append(judge.unit)
        faults = self.all_faults(units, instances)
        if faults:
            raise Refused(min(faults).answer())
        procs, channels = self.network(top, {})
        if procs > MOST_PROCS:
            raise Refused(f"limit procs {MOST_PROCS + 1} at 0")
        channels += len(top.item.config.ends)
        if channels > MOST_CHANNELS:
            raise Refused(f"limit channels {MOST_CHANNELS + 1} at 0")
        return f"ok procs {procs} channels {channels}"

    def top(self, judge, name):
        """The top at its defaults (rule 32)."""
        procs = [item for item in self.items if isinstance(item, Proc)]
        item = self.first.get(name) if name is not None else procs[-1] if procs else None
        if item is None:
            judge.broken(32, Node(0, 0))
            return None
        if not isinstance(item, Proc) or any(p.default is None for p in item.parametrics):
            judge.broken(32, item.name)
            return None
        instance, _ = judge.judge_instance(item.name, item, [], [], [], is_cyclic=False)
        return instance

    def all_faults(self, units, instances):
        """The faults of all that is checked: of these, and of what they reach."""
        faults, seen, todo = [], set(), list(instances)
        while units or todo:
            while units:
                unit = units.pop()
                faults += unit.faults
                todo += unit.reached
                units += unit.elsewhere
            if todo:
                instance = todo.pop()
                if instance not in seen:
                    seen.add(instance)
                    if len(seen) > MOST_INSTANCES:
                        raise Refused(f"limit instances {MOST_INSTANCES + 1} at 0")
                    units.append(instance.judged())
        return faults

    def network(self, instance, known):
        """How many procs there are at and below an instance, and how many channels they make."""
        if instance not in known:
            below = [self.network(child, known) for child in instance.spawned]
            known[instance] = 1 + sum(p for p, _ in below), instance.made + sum(c for _, c in below)
        return known[instance]


def answer_of(text, top=None):
    """The answer for a text, whose characters are bytes."""
    try:
        return Checker(Parser(text).module()).answer(top)
    except Refused as refused:
        return str(refused)


def read_text(data):
    """Bytes as a text of a character each; what isn't UTF-8 is refused at the first byte that isn't."""
    try:
        data.decode("utf-8")
    except UnicodeDecodeError as error:
        raise Refused(f"syntax at {error.start}") from None
    return data.decode("latin-1")


# ---- The commands

def examples_of(path):
    """The examples of a table with what is wanted of them (tools/spec_run.py says how a table is written)."""
    import dslx_terms
    with open(path, encoding="utf-8") as file:
        for part in re.split(r"\n\s*\n", file.read().strip()):
            name, wanted, *lines = part.split("\n")
            yield name.strip(), wanted.strip(), dslx_terms.expand("\n".join(lines))


def short(answer):
    """An answer in the table's form, without counts and the places of limits."""
    words = answer.split()
    if words[0] == "ok":
        return "ok"
    if words[0] == "rule":
        return f"rule {words[1]} {words[3].replace('..', ' ')}"
    if words[0] == "limit":
        most = {**LIMITS, "instances": MOST_INSTANCES, "procs": MOST_PROCS, "channels": MOST_CHANNELS, "nesting": MOST_NESTING}
        return f"limit {words[1]} {words[2]} {most[words[1]]}"
    return answer


def value_answer(text):
    """The constant X of a text, as a table wants it."""
    checker = Checker(Parser(text).module())
    value = checker.constant(checker.first["X"]).value
    if value is None or not is_bits(value.type):
        return str(value)
    return f"value {str(value.type.signed).lower()} {value.type.width} {value.data % (1 << value.type.width)}"


def try_table(path):
    tried = wrong = 0
    for name, wanted, text in examples_of(path):
        kind, got = wanted.split()[0], short(answer_of(text))
        if kind == "value" and got == "ok":
            got = value_answer(text)
        elif kind not in ("ok", "rule", "limit"):
            continue
        tried += 1
        if got != wanted:
            wrong += 1
            print(f"{name}: {got}, wanted {wanted}\n    {text}")
    print(f"{tried} examples, {wrong} wrong")


def main():
    if len(sys.argv) == 3 and sys.argv[1] == "--table":
        try_table(sys.argv[2])
    else:
        with open(sys.argv[1], "rb") as file:
            try:
                print(answer_of(read_text(file.read())))
            except Refused as refused:
                print(refused)


if __name__ == "__main__":
    sys.setrecursionlimit(1000000)
    threading.stack_size(1 << 29)
    thread = threading.Thread(target=main)
    thread.start()
    thread.join()
