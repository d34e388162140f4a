#!/usr/bin/env python3
"""Runs the built program over IR texts at fault: each rule and limit at each place where it can stand, texts cut short, and hostile ones.

    tools/check_ir.py PROGRAM

The line at fault stands between « and », which are left out of the file; docs/IR.md says which rule or limit it breaks. Prints the
first case that differs, and ends with 1.
"""

import os
import subprocess
import sys
import tempfile
import time

from run_tests import contents

CHAIN = contents('ir/chain.ir')

# ---- single lines at fault

# Nodes stand behind these, with ids from 9 on.
GIVEN = """package P
chan a(bits[8], id=0, kind=input)
chan b(bits[8], id=1, kind=output)
chan c(bits[8], id=2, kind=inner, depth=1)
proc P(st: bits[8], init=0) {
  after_all.1: token = after_all(id=1)
  literal.2: bits[1] = literal(value=1, id=2)
  literal.3: bits[3] = literal(value=5, id=3)
  literal.4: (bits[8], bits[1]) = literal(value=(7, 1), id=4)
  literal.5: bits[8][3] = literal(value=[1, 2, 3], id=5)
  literal.6: bits[2] = literal(value=2, id=6)
  NODES
  next(st)
}
"""


def with_nodes(nodes):
    return GIVEN.replace("NODES", nodes)


def with_channels(channels, nodes=""):
    return "package P\n%s\nproc P(st: bits[8], init=0) {\n  %s next(st)\n}\n" % (channels, nodes)


# Each of these nodes is a whole line that breaks rule 52.
UNFIT = """
add.9: bits[8] = add(id=9)
add.9: bits[8] = add(st, id=9)
add.9: bits[8] = add(st, st, st, id=9)
add.9: bits[9] = add(st, st, id=9)
add.9: bits[8][1] = add(st, st, id=9)
add.9: (bits[8]) = add(st, st, id=9)
add.9: token = add(st, st, id=9)
add.9: bits[8] = add(literal.4, st, id=9)
add.9: bits[8] = add(st, literal.5, id=9)
add.9: bits[8] = add(st, after_all.1, id=9)
sub.9: bits[8] = sub(st, literal.3, id=9)
umul.9: bits[11] = umul(st, literal.3, id=9)
udiv.9: bits[8] = udiv(st, literal.3, id=9)
umod.9: bits[3] = umod(st, literal.3, id=9)
and.9: bits[1] = and(st, literal.2, id=9)
or.9: bits[8] = or(st, literal.2, id=9)
xor.9: bits[7] = xor(st, st, id=9)
not.9: bits[7] = not(st, id=9)
not.9: bits[8] = not(st, st, id=9)
neg.9: bits[9] = neg(st, id=9)
neg.9: (bits[8], bits[1]) = neg(literal.4, id=9)
reverse.9: bits[8] = reverse(literal.3, id=9)
eq.9: bits[8] = eq(st, st, id=9)
eq.9: bits[1] = eq(st, literal.3, id=9)
eq.9: bits[1] = eq(literal.4, literal.4, id=9)
eq.9: bits[1] = eq(st, id=9)
ne.9: bits[1] = ne(literal.5, literal.5, id=9)
ult.9: bits[1] = ult(literal.3, st, id=9)
ule.9: bits[2] = ule(st, st, id=9)
ugt.9: bits[1] = ugt(st, literal.2, id=9)
uge.9: bits[1] = uge(st, st, st, id=9)
slt.9: bits[8] = slt(st, st, id=9)
sle.9: bits[1] = sle(literal.2, st, id=9)
sgt.9: bits[1] = sgt(after_all.1, after_all.1, id=9)
sge.9: (bits[1]) = sge(st, st, id=9)
shll.9: bits[3] = shll(st, literal.3, id=9)
shll.9: bits[8] = shll(st, literal.4, id=9)
shrl.9: bits[8] = shrl(st, id=9)
shrl.9: bits[8] = shrl(literal.3, st, id=9)
shra.9: bits[8] = shra(st, after_all.1, id=9)
concat.9: bits[8] = concat(id=9)
concat.9: bits[10] = concat(st, literal.3, id=9)
concat.9: bits[9] = concat(literal.4, id=9)
bit_slice.9: bits[4] = bit_slice(st, start=5, width=4, id=9)
bit_slice.9: bits[3] = bit_slice(st, start=5, width=2, id=9)
bit_slice.9: bits[1] = bit_slice(st, start=8, width=1, id=9)
bit_slice.9: bits[2] = bit_slice(st, start=18446744073709551615, width=2, id=9)
bit_slice.9: bits[2] = bit_slice(st, start=340282366920938463463374607431768211455, width=2, id=9)
bit_slice.9: bits[3] = bit_slice(st, st, start=0, width=3, id=9)
bit_slice.9: bits[3] = bit_slice(literal.4, start=0, width=3, id=9)
dynamic_bit_slice.9: bits[3] = dynamic_bit_slice(st, literal.3, width=4, id=9)
dynamic_bit_slice.9: bits[3] = dynamic_bit_slice(st, width=3, id=9)
dynamic_bit_slice.9: bits[3] = dynamic_bit_slice(st, literal.4, width=3, id=9)
dynamic_bit_slice.9: bits[3] = dynamic_bit_slice(literal.5, st, width=3, id=9)
zero_ext.9: bits[7] = zero_ext(st, new_bit_count=7, id=9)
zero_ext.9: bits[9] = zero_ext(st, new_bit_count=10, id=9)
zero_ext.9: bits[9] = zero_ext(st, st, new_bit_count=9, id=9)
sign_ext.9: bits[2] = sign_ext(literal.3, new_bit_count=2, id=9)
sign_ext.9: bits[9] = sign_ext(literal.4, new_bit_count=9, id=9)
sel.9: bits[8] = sel(literal.2, cases=[st], id=9)
sel.9: bits[8] = sel(literal.2, cases=[st, st], default=st, id=9)
sel.9: bits[8] = sel(literal.2, cases=[st, st, st], id=9)
sel.9: bits[8] = sel(literal.2, cases=[], default=st, id=9)
sel.9: bits[8] = sel(literal.2, cases=[st, literal.3], id=9)
sel.9: bits[8] = sel(literal.2, cases=[st], default=literal.3, id=9)
sel.9: bits[3] = sel(literal.2, cases=[st, st], id=9)
sel.9: bits[8] = sel(literal.4, cases=[st, st], id=9)
sel.9: bits[8] = sel(literal.2, literal.2, cases=[st, st], id=9)
tuple.9: () = tuple(st, id=9)
tuple.9: bits[8] = tuple(st, id=9)
tuple.9: (bits[8], bits[8]) = tuple(st, id=9)
tuple.9: (bits[8], bits[3]) = tuple(literal.3, st, id=9)
array.9: bits[8][0] = array(id=9)
array.9: bits[8][3] = array(st, st, id=9)
array.9: bits[8][2] = array(st, literal.3, id=9)
array.9: bits[8][2][1] = array(st, st, id=9)
array.9: (bits[8], bits[8]) = array(st, st, id=9)
tuple_index.9: bits[8] = tuple_index(literal.4, index=2, id=9)
tuple_index.9: bits[8] = tuple_index(literal.4, index=1, id=9)
tuple_index.9: bits[8] = tuple_index(literal.4, index=340282366920938463463374607431768211455, id=9)
tuple_index.9: bits[8] = tuple_index(literal.5, index=0, id=9)
tuple_index.9: bits[8] = tuple_index(literal.4, literal.4, index=0, id=9)
array_index.9: bits[3] = array_index(literal.5, indices=[st], id=9)
array_index.9: bits[8] = array_index(literal.5, indices=[literal.4], id=9)
array_index.9: bits[8] = array_index(literal.4, indices=[st], id=9)
array_index.9: bits[8] = array_index(literal.5, st, indices=[st], id=9)
array_update.9: bits[8][3] = array_update(literal.5, literal.3, indices=[st], id=9)
array_update.9: bits[8][3] = array_update(literal.5, st, indices=[literal.5], id=9)
array_update.9: bits[8][3] = array_update(literal.5, indices=[st], id=9)
array_update.9: bits[8][2] = array_update(literal.5, st, indices=[st], id=9)
array_update.9: bits[8] = array_update(st, st, indices=[st], id=9)
and_reduce.9: bits[8] = and_reduce(st, id=9)
or_reduce.9: bits[1] = or_reduce(st, st, id=9)
xor_reduce.9: bits[1] = xor_reduce(literal.4, id=9)
literal.9: bits[8] = literal(st, value=0, id=9)
after_all.9: bits[8] = after_all(id=9)
after_all.9: token = after_all(after_all.1, id=9)
receive.9: bits[8] = receive(after_all.1, channel=a, id=9)
receive.9: (token, bits[7]) = receive(after_all.1, channel=a, id=9)
receive.9: (bits[8], bits[8]) = receive(after_all.1, channel=a, id=9)
receive.9: (token, bits[8], ()) = receive(after_all.1, channel=a, id=9)
receive.9: (token, bits[8]) = receive(channel=a, id=9)
receive.9: (token, bits[8]) = receive(st, channel=a, id=9)
receive.9: (token, bits[8]) = receive(after_all.1, st, channel=a, id=9)
receive.9: (token, bits[8]) = receive(after_all.1, predicate=st, channel=a, id=9)
send.9: bits[8] = send(after_all.1, st, channel=b, id=9)
send.9: token = send(after_all.1, channel=b, id=9)
send.9: token = send(st, after_all.1, channel=b, id=9)
send.9: token = send(after_all.1, literal.3, channel=b, id=9)
send.9: token = send(after_all.1, st, predicate=literal.6, channel=b, id=9)
send.9: token = send(st, st, channel=x, id=9)
not.9: bits[0] = not(st, id=9)
""".strip().split("\n")

# Each of these nodes breaks no rule.
FIT = """
shll.9: bits[8] = shll(st, literal.3, id=9)
concat.9: bits[8] = concat(st, id=9)
bit_slice.9: bits[8] = bit_slice(st, start=0, width=8, id=9)
dynamic_bit_slice.9: bits[12] = dynamic_bit_slice(st, literal.3, width=12, id=9)
zero_ext.9: bits[8] = zero_ext(st, new_bit_count=8, id=9)
sel.9: (bits[8], bits[1]) = sel(st, cases=[literal.4], default=literal.4, id=9)
sel.9: token = sel(literal.2, cases=[after_all.1, after_all.1], id=9)
tuple.9: () = tuple(id=9)
tuple.9: () = tuple(id=9) tuple.10: (token, ()) = tuple(after_all.1, tuple.9, id=10)
array_index.9: bits[8] = array_index(literal.5, indices=[st], id=9)
literal.9: () = literal(value=(), id=9)
literal.9: (bits[1], ()) = literal(value=(0x1, ()), id=9)
literal.9: bits[128] = literal(value=0xffffffffffffffffffffffffffffffff, id=9)
literal.4294967295: bits[8] = literal(value=0255, id=4294967295)
""".strip().split("\n")

RECEIVE = "receive.9: (token, bits[8]) = receive(after_all.1, channel=a, id=9)"
SEND = "send.9: token = send(after_all.1, st, channel=b, id=9)"

# The nodes, and the cause that the marked line has.
NODES = [
    ("«not.6: bits[8] = not(st, id=6)»", "rule 51"),
    ("«not.5: bits[8] = not(st, id=5)»", "rule 51"),
    ("not.10: bits[8] = not(st, id=10) «not.9: bits[8] = not(st, id=9)»", "rule 51"),
    ("«not.9: bits[8] = not(not.9, id=9)»", "rule 51"),
    ("«not.9: bits[8] = not(neg.10, id=9)» neg.10: bits[8] = neg(st, id=10)", "rule 51"),
    ("not.9: bits[8] = not(st, id=9) «not.10: bits[8] = not(neg.9, id=10)»", "rule 51"),
    ("«add.9: bits[8] = add(st, add.7, id=9)»", "rule 51"),
    ("«sel.9: bits[8] = sel(literal.2, cases=[st, not.7], id=9)»", "rule 51"),
    ("«sel.9: bits[8] = sel(literal.2, cases=[st], default=not.7, id=9)»", "rule 51"),
    ("«array_index.9: bits[8] = array_index(literal.5, indices=[not.7], id=9)»", "rule 51"),
    ("«receive.9: (token, bits[8]) = receive(after_all.1, predicate=not.7, channel=a, id=9)»", "rule 51"),
    ("«send.9: token = send(after_all.1, st, predicate=not.7, channel=b, id=9)»", "rule 51"),
    ("«after_all.9: token = after_all(id=9)»", "rule 53"),
    (RECEIVE + " «after_all.10: token = after_all(id=10)»", "rule 53"),
    ("tuple.9: (token) = tuple(after_all.1, id=9) tuple_index.10: token = tuple_index(tuple.9, index=0, id=10) "
     "«send.11: token = send(tuple_index.10, st, channel=b, id=11)»", "rule 53"),
    ("sel.9: token = sel(literal.2, cases=[after_all.1, after_all.1], id=9) "
     "«receive.10: (token, bits[8]) = receive(sel.9, channel=a, id=10)»", "rule 53"),
    (SEND + " «receive.10: (token, bits[8]) = receive(after_all.1, channel=a, id=10)»", "rule 53"),
    (RECEIVE + " «send.10: token = send(after_all.1, st, channel=b, id=10)»", "rule 53"),
    (RECEIVE + " tuple_index.10: token = tuple_index(receive.9, index=0, id=10) tuple.11: (token) = tuple(tuple_index.10, id=11) "
     "tuple_index.12: token = tuple_index(tuple.11, index=0, id=12) «send.13: token = send(tuple_index.12, st, channel=b, id=13)»",
     "rule 53"),
    (RECEIVE + " tuple_index.10: token = tuple_index(receive.9, index=0, id=10) "
     "send.11: token = send(tuple_index.10, st, channel=b, id=11) "
     "«send.12: token = send(tuple_index.10, st, channel=c, id=12)»", "rule 53"),
    ("«receive.9: (token, bits[8]) = receive(after_all.1, channel=b, id=9)»", "rule 54"),
    ("«send.9: token = send(after_all.1, st, channel=a, id=9)»", "rule 54"),
    ("«receive.9: (token, bits[5]) = receive(after_all.1, channel=x, id=9)»", "rule 54"),
    ("«send.9: token = send(after_all.1, literal.3, channel=x, id=9)»", "rule 54"),
    (SEND + " «send.10: token = send(send.9, st, channel=b, id=10)»", "rule 54"),
    (RECEIVE + " tuple_index.10: token = tuple_index(receive.9, index=0, id=10) "
     "«receive.11: (token, bits[8]) = receive(tuple_index.10, channel=a, id=11)»", "rule 54"),
    ("send.9: token = send(after_all.1, st, channel=c, id=9) «send.10: token = send(send.9, st, channel=c, id=10)»", "rule 54"),
    ("«literal.9: bits[8] = literal(value=256, id=9)»", "rule 55"),
    ("«literal.9: bits[8] = literal(value=(), id=9)»", "rule 55"),
    ("«literal.9: bits[8] = literal(value=(1), id=9)»", "rule 55"),
    ("«literal.9: bits[8] = literal(value=[1], id=9)»", "rule 55"),
    ("«literal.9: bits[0] = literal(value=0, id=9)»", "rule 55"),
    ("«literal.9: (bits[8], bits[1]) = literal(value=(1, 2), id=9)»", "rule 55"),
    ("«literal.9: (bits[8], bits[1]) = literal(value=(1), id=9)»", "rule 55"),
    ("«literal.9: (bits[8], bits[1]) = literal(value=(1, 1, 1), id=9)»", "rule 55"),
    ("«literal.9: (bits[8], bits[1]) = literal(value=[1, 1], id=9)»", "rule 55"),
    ("«literal.9: (bits[8], bits[1]) = literal(value=3, id=9)»", "rule 55"),
    ("«literal.9: bits[8][2] = literal(value=[1], id=9)»", "rule 55"),
    ("«literal.9: bits[8][2] = literal(value=[1, 2, 3], id=9)»", "rule 55"),
    ("«literal.9: bits[8][2] = literal(value=(1, 2), id=9)»", "rule 55"),
    ("«literal.9: bits[8][2] = literal(value=[1, 256], id=9)»", "rule 55"),
    ("«literal.9: bits[8][3][2] = literal(value=[[1, 2], [3, 4], [5, 6]], id=9)»", "rule 55"),
    ("literal.9: bits[8][3][2] = literal(value=[[1, 2, 3], [4, 5, 6]], id=9)", "ok"),
    ("«literal.9: bits[8][0] = literal(value=[], id=9)»", "rule 55"),
    ("«literal.9: ()[3] = literal(value=[(), (), ()], id=9)»", "rule 55"),
    ("«literal.9: (bits[8], ()[1]) = literal(value=(1, [()]), id=9)»", "rule 55"),
    ("«literal.9: token = literal(value=(), id=9)»", "rule 55"),
    ("«literal.9: (token, bits[1]) = literal(value=((), 1), id=9)»", "rule 55"),
    ("«array.9: token[1] = array(after_all.1, id=9)»", "rule 55"),
    ("tuple.9: () = tuple(id=9) «array.10: ()[1] = array(tuple.9, id=10)»", "rule 55"),
    ("tuple.9: (token, bits[8]) = tuple(after_all.1, st, id=9) array.10: (token, bits[8])[1] = array(tuple.9, id=10)", "ok"),
    # A line's least rule, and the first line with a fault.
    ("«not.6: bits[7] = not(not.7, id=6)»", "rule 51"),
    ("«literal.9: bits[129] = literal(st, value=0, id=9)»", "rule 52"),
    ("«literal.9: bits[129] = literal(value=(), id=9)»", "rule 55"),
    ("«send.9: token = send(after_all.1, literal.3, channel=a, id=9)»", "rule 52"),
    ("«literal.9: bits[8] = literal(value=256, id=9)» not.9: bits[8] = not(st, id=9)", "rule 55"),
    ("literal.9: bits[129] = literal(value=0, id=9) not.9: bits[8] = not(st, id=9)", "limit width: 129, at most 128"),
    # Limits.
    ("literal.9: bits[1][256] = literal(value=[%s], id=9)" % ", ".join("0" * 256), "ok"),
    ("literal.9: bits[1][257] = literal(value=[%s], id=9)" % ", ".join("0" * 257), "limit leaves: 257, at most 256"),
    ("literal.9: bits[1]%s = literal(value=%s0%s, id=9)" % ("[1]" * 64, "[" * 64, "]" * 64), "ok"),
    ("literal.9: bits[1]%s = literal(value=%s0%s, id=9)" % ("[1]" * 65, "[" * 65, "]" * 65), "limit levels: 65, at most 64"),
    ("literal.9: %s%s = literal(value=%s%s, id=9)" % ("(" * 64, ")" * 64, "(" * 64, ")" * 64), "ok"),
    ("literal.9: %s%s = literal(value=%s%s, id=9)" % ("(" * 65, ")" * 65, "(" * 65, ")" * 65), "limit levels: 65, at most 64"),
    ("literal.9: (bits[300], bits[200]) = literal(value=(0, 0), id=9)", "limit width: 200, at most 128"),
    ("zero_ext.9: bits[129] = zero_ext(st, new_bit_count=129, id=9)", "limit width: 129, at most 128"),
    ("zero_ext.9: bits[18446744073709551621] = zero_ext(st, new_bit_count=18446744073709551621, id=9)",
     "limit width: 18446744073709551615, at most 128"),
    ("literal.9: bits[129][257] = literal(value=[%s], id=9)" % ", ".join("0" * 257), "limit width: 129, at most 128"),
]

# Texts of channels.
CHANNELS = [
    ("«chan a.b(bits[8], id=0, kind=input)»", "rule 51"),
    ("«chan a/b(bits[8], id=0, kind=output)»", "rule 51"),
    ("chan a/b.c(bits[8], id=0, kind=inner, depth=1)", "ok"),
    ("chan a(bits[8], id=0, kind=input)\n«chan a(bits[8], id=1, kind=output)»", "rule 51"),
    ("chan P(bits[8], id=0, kind=input)", "ok"),
    ("«chan a(bits[8], id=1, kind=input)»", "rule 51"),
    ("chan a(bits[8], id=0, kind=input)\n«chan b(bits[8], id=0, kind=input)»", "rule 51"),
    ("chan a(bits[8], id=0, kind=input)\n«chan b(bits[8], id=2, kind=input)»", "rule 51"),
    ("chan a(bits[8], id=000, kind=input)", "ok"),
    ("«chan a((), id=0, kind=input)»", "rule 55"),
    ("«chan a(((), ()), id=0, kind=input)»", "rule 55"),
    ("chan a(((), bits[1]), id=0, kind=input)", "ok"),
    ("«chan a(()[3], id=0, kind=output)»", "rule 55"),
    ("«chan a(token, id=0, kind=input)»", "rule 55"),
    ("«chan a((token, bits[8]), id=0, kind=input)»", "rule 55"),
    ("«chan a(bits[0], id=0, kind=input)»", "rule 55"),
    ("«chan a(bits[8][0], id=0, kind=input)»", "rule 55"),
    ("«chan a(bits[8][2][0], id=0, kind=input)»", "rule 55"),
    ("«chan a(bits[8], id=0, kind=inner, depth=0)»", "rule 55"),
    ("«chan a(bits[129], id=1, kind=input)»", "rule 51"),
    ("«chan a((bits[129], token), id=0, kind=input)»", "rule 55"),
    ("chan a(bits[129], id=0, kind=input)", "limit width: 129, at most 128"),
    ("chan a(bits[128], id=0, kind=input)", "ok"),
    ("chan a((bits[128], bits[1]), id=0, kind=input)", "limit word: 129, at most 128"),
    ("chan a(bits[1][128], id=0, kind=input)", "ok"),
    ("chan a(bits[1][129], id=0, kind=input)", "limit word: 129, at most 128"),
    ("chan a(bits[1][257], id=0, kind=input)", "limit leaves: 257, at most 256"),
    ("chan a(bits[1]%s, id=0, kind=input)" % ("[1]" * 64), "ok"),
    ("chan a(bits[1]%s, id=0, kind=input)" % ("[1]" * 65), "limit levels: 65, at most 64"),
    ("chan a(bits[1]%s, id=0, kind=input)" % ("[4]" * 70), "limit leaves: 18446744073709551615, at most 256"),
    ("chan a(bits[1]%s, id=0, kind=input)" % ("[1]" * 1000000), "limit levels: 1000000, at most 64"),
    ("chan a(bits[8], id=0, kind=inner, depth=4096)", "ok"),
    ("chan a(bits[8], id=0, kind=inner, depth=4097)", "limit depth: 4097, at most 4096"),
    ("chan a(bits[8], id=0, kind=inner, depth=4722366482869645213696)", "limit depth: 18446744073709551615, at most 4096"),
    ("chan a(bits[8][20], id=0, kind=inner, depth=5000)", "limit word: 160, at most 128"),
]

# Whole texts.
TEXTS = [
    ("«package a.b» proc P(st: (), init=()) { next(st) }", "rule 51"),
    ("«package a/b» proc P(st: (), init=()) { next(st) }", "rule 51"),
    ("package P proc a/b.c(st: (), init=()) { next(st) }", "ok"),
    ("package P proc P(st: (), init=()) { next(st) } «proc P(st: (), init=()) {» next(st) }", "rule 51"),
    ("package P proc P(st: bits[1], init=0) { not.5: bits[1] = not(st, id=5) next(st) } "
     "proc Q(st: bits[1], init=0) { not.1: bits[1] = not(st, id=1) next(not.1) }", "ok"),
    ("package P proc P(st: bits[1], init=0) { not.5: bits[1] = not(st, id=5) next(st) } "
     "proc Q(st: bits[1], init=0) { «next(not.5)» }", "rule 51"),
    ("package P proc P(st: (), init=()) { «next(add.1)» }", "rule 51"),
    ("package P «proc P(st: bits[8], init=256) {» next(st) }", "rule 55"),
    ("package P «proc P(st: bits[8], init=()) {» next(st) }", "rule 55"),
    ("package P «proc P(st: bits[0], init=0) {» next(st) }", "rule 55"),
    ("package P «proc P(st: (bits[8], bits[1]), init=(0, 2)) {» next(st) }", "rule 55"),
    ("package P «proc P(st: bits[8][2], init=[0]) {» next(st) }", "rule 55"),
    ("package P «proc P(st: token, init=()) {» next(st) }", "rule 55"),
    ("package P «proc P(st: ()[2], init=[(), ()]) {» next(st) }", "rule 55"),
    ("package P proc P(st: bits[8], init=0) { literal.1: bits[9] = literal(value=0, id=1) «next(literal.1)» }", "rule 55"),
    ("package P proc P(st: (), init=()) { tuple.1: (()) = tuple(st, id=1) «next(tuple.1)» }", "rule 55"),
    ("package P proc P(st: bits[129], init=0) { next(st) }", "limit width: 129, at most 128"),
    ("package P proc P(st: bits[1][257], init=[%s]) { next(st) }" % ", ".join("0" * 257), "limit leaves: 257, at most 256"),
    ("package P proc P(st: (bits[128], bits[128]), init=(0, 1)) { next(st) }", "ok"),
    # Two procs at one end.
    ("package P chan c(bits[1], id=0, kind=inner, depth=1) "
     "proc P(st: bits[1], init=0) { after_all.1: token = after_all(id=1) "
     "send.2: token = send(after_all.1, st, channel=c, id=2) next(st) } "
     "proc Q(st: bits[1], init=0) { after_all.1: token = after_all(id=1) "
     "«send.2: token = send(after_all.1, st, channel=c, id=2)» next(st) }", "rule 54"),
    ("package P chan c(bits[1], id=0, kind=inner, depth=1) "
     "proc P(st: bits[1], init=0) { after_all.1: token = after_all(id=1) "
     "send.2: token = send(after_all.1, st, channel=c, id=2) "
     "receive.3: (token, bits[1]) = receive(send.2, channel=c, id=3) next(st) }", "ok"),
    # The place of a fault of the grammar.
    ("package P proc P(st: ()", "syntax at 23"),
    ("package P proc P(st: (), init=()) { next(st) } x", "syntax at 47"),
    ("package P chan a(bits[1], id=4294967296, kind=input) proc P(st: (), init=()) { next(st) }", "syntax at 29"),
    ("package P chan a(bits[1], id=0, kind=inner) proc P(st: (), init=()) { next(st) }", "syntax at 42"),
    ("package P chan a(bits[1], id=0, kind=input, depth=1) proc P(st: (), init=()) { next(st) }", "syntax at 42"),
    ("package P", "syntax at 9"),
    ("", "syntax at 0"),
    ("package P proc P(st: (), init=()) { next(st) } // é\n", "ok"),
    ("package é proc P(st: (), init=()) { next(st) }", "syntax at 8"),
]


def one_send(number, channel):
    before = "after_all.1" if number == 2 else "send.%d" % (number - 1)
    return "send.%d: token = send(%s, st, channel=%s, id=%d)" % (number, before, channel, number)


def with_sites(count):
    channels = "\n".join("chan c%d(bits[8], id=%d, kind=output)" % (i, i) for i in range(count))
    nodes = "after_all.1: token = after_all(id=1) " + " ".join(one_send(i + 2, "c%d" % i) for i in range(count))
    return with_channels(channels, nodes)


def with_procs(count, states="()"):
    return "package P\n" + "\n".join("proc P%d(st: (), init=%s) { next(st) }" % (i, states) for i in range(count))


def with_many_channels(count):
    return with_channels("\n".join("chan c%d(bits[8], id=%d, kind=input)" % (i, i) for i in range(count)))


def many_nodes(count):
    nodes = "\n  ".join("not.%d: bits[8] = not(%s, id=%d)" % (i, "st" if i == 1 else "not.%d" % (i - 1), i)
                        for i in range(1, count + 1))
    return with_channels("", nodes)


FILE = 4194304


def filled(text, byte):
    """The text, its last line break filled up to the largest file."""
    return text[:-1] + byte * (FILE - len(text.encode())) + "\n"


COUNTS = [
    ("32 sites", with_sites(32), "ok"),
    ("33 sites", with_sites(33), "limit sites: 33, at most 32"),
    ("256 procs", with_procs(256), "ok"),
    ("257 procs", with_procs(257), "limit procs: 257, at most 256"),
    ("1,024 channels", with_many_channels(1024), "ok"),
    ("1,025 channels", with_many_channels(1025), "limit channels: 1025, at most 1024"),
    ("257 procs with faults", with_procs(257, "1"), "rule 55 at 10..35"),
    ("65,536 nodes", many_nodes(65536), "ok"),
    ("128 brackets", "package P proc P(st: " + "(" * 126 + "x", "syntax at 147"),
    ("100,000 brackets", "package P proc P(st: " + "(" * 100000, "limit nesting: 129, at most 128"),
    ("100,000 brackets of arrays", "package P proc P(st: bits[1], init=" + "[" * 100000, "limit nesting: 129, at most 128"),
    ("brackets behind a fault", "package P proc P(st= " + "(" * 100000, "syntax at 19"),
    ("4 MiB of blanks", filled(CHAIN, " "), "ok"),
    ("4 MiB of a comment", filled(CHAIN[:-1] + "//\n", "x"), "ok"),
    ("4 MiB of one name", "package " + "a" * (FILE - 8), "syntax at 4194304"),
    ("4 MiB of one number", "package P chan a(bits[" + "0" * (FILE - 22), "syntax at 4194304"),
    ("4 MiB of digits", "package P chan a(bits[" + "9" * (FILE - 22), "syntax at 22"),
    ("4 MiB of brackets", "(" * FILE, "syntax at 0"),
    ("4 MiB of bytes that are no characters", "package P " + "\udcff" * (FILE - 10), "syntax at 10"),
]


def spot(text):
    """The text without its marks, and the bytes between them."""
    if "«" not in text:
        return text, None
    start = len(text[:text.index("«")].encode())
    text = text.replace("«", "", 1)
    end = len(text[:text.index("»")].encode())
    return text.replace("»", "", 1), (start, end)


def cases():
    """What each case is, its text, and the cause with its place, or `ok`."""
    for nodes in UNFIT:
        yield nodes, with_nodes("«" + nodes + "»"), "rule 52"
    for nodes in FIT:
        yield nodes, with_nodes(nodes), "ok"
    for nodes, cause in NODES:
        yield nodes, with_nodes(nodes), cause
    for channels, cause in CHANNELS:
        yield channels, with_channels(channels), cause
    for text, cause in TEXTS:
        yield text, text, cause
    yield from COUNTS


STATUS = {"syntax": 6, "rule": 7, "limit": 8}


def answer(program, folder, text):
    with open(os.path.join(folder, "f.ir"), "wb") as file:
        file.write(text.encode("utf-8", "surrogateescape"))
    words = [program, "run", "f.ir", "empty", "--activations", "1", "--from", "ir"]
    done = subprocess.run(words, cwd=folder, capture_output=True, check=False, timeout=60)
    return done.stdout.decode(), done.stderr.decode(), done.returncode


def check_cases(program, folder):
    count = 0
    for what, marked, cause in cases():
        text, span = spot(marked)
        began = time.monotonic()
        out, err, status = answer(program, folder, text)
        taken = time.monotonic() - began
        if cause == "ok":
            wanted = ("", 0)
        else:
            place = " at %d..%d" % span if span else ""
            wanted = ("f.ir: %s%s\n" % (cause, place), STATUS[cause.split(" ")[0]])
        if (err, status) != wanted or (out == "") != (status != 0):
            print("%.200s: got %r, wanted %r" % (what, (err, status), wanted))
            sys.exit(1)
        # Linear time: the largest file takes well under a second alone on a machine.
        if taken > 30:
            print("%.200s: %d seconds" % (what, taken))
            sys.exit(1)
        count += 1
    return count


def check_cuts(program, folder):
    """A text cut after each of its bytes is a syntax fault within what is left, but where white space alone was cut off."""
    whole = len(CHAIN.rstrip())
    for at in range(len(CHAIN)):
        out, err, status = answer(program, folder, CHAIN[:at])
        if at >= whole:
            right = status == 0 and err == ""
        else:
            right = status == 6 and out == "" and err.startswith("f.ir: syntax at ") and int(err.split(" ")[-1]) <= at
        if not right:
            print("cut after %d bytes: got %r" % (at, (out, err, status)))
            sys.exit(1)
    return len(CHAIN)


def main():
    program = os.path.abspath(sys.argv[1])
    with tempfile.TemporaryDirectory() as folder:
        with open(os.path.join(folder, "empty"), "w", encoding="utf-8"):
            pass
        count = check_cases(program, folder)
        cuts = check_cuts(program, folder)
    print(f"{count} IR texts and {cuts} cut ones: the program answers as it should")


if __name__ == "__main__":
    main()
