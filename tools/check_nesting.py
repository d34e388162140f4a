#!/usr/bin/env python3
"""Runs `check` of the built program on texts whose parts are repeated: as deep as tokens may be nested, deeper, and far deeper.

    tools/check_nesting.py PROGRAM

In each line below what stands behind the first `#` and behind the third one is repeated. Prints each text that is answered otherwise
than it is to be, and ends with 1 if there is one.
"""

import concurrent.futures
import os
import subprocess
import sys
import tempfile

OVER = 'f.x: limit nesting: 129, at most 128\n'
FAR = 20000
MANY = 1000

# how often the parts may be repeated, and the texts
DEEP = [
    # one bracket, mark or head each time
    (128, '''const A = #(#1#)#;
const A = #(#1#,)#;
const A = #{#1#}#;
const A = #x(#1#)#;
const A = #S { x: #1# }#; struct S {}
const A = #f<{#1#}>()#; fn f() {}
fn f() #{ let x = #1#; }#
type T = #(#u8#)#;
const A = #-#1##;
const A = #!#1##;
const A = 1# + 1###;
const A = 1# < 1###;
const A = 1# | 1###;
const A = 1# as u8###;
const A = x#.y###;
const A = #match x { _ => #1# }#;
const A = #match #x# {}#;'''),
    # the same, and one more where it is deepest
    (127, '''const A = match x { #(#a#)# => 1 };
const A = #if x { 1 } else #{ 1 }##;
const A = #if #x# { 1 } else { 1 }#;
const A = #for (i, s) in #x#..x { s }(0)#;
const A = x#[1]###;
type T = u8#[1]###;
const A = (1# + 1###);'''),
    # the same, and two more there: a `,` between `<` and `>` ends no mark
    (126, '''const A = (1# + f<1, 2>()###); fn f() {}'''),
    # a bracket and a mark each time
    (64, '''const A = #[#1#]#;
const A = #x[#1#]#;
const A = #uN[#1#]:1#;
const A = #(1 + #1#)#;'''),
]

# Marks that count no more behind a `,`, a `;`, a `=>` or an item, and brackets that are closed.
NEVER = '''const A = (1# + 1, 1###);
const A = x(1# + 1, 1###);
fn f() {# x + 1; ###}
const A = match x {# _ => 1 + 1, ###};
# const A = 1 + 1; ###
# const A = -{ -x; match x {} }; ###
const A = (# (x), ###);
type T = (# u8[1], ###);'''

# At one token the syntax comes first; a token that is nested too deep comes before a later fault.
FIRST = [
    ('const A = #(##;#', (6, 'f.x: syntax at 139\n')),
    ('const A = #(#(;##', (8, OVER)),
    ('const A = #(#1 1##', (8, OVER)),
]


def repeated(line, count):
    """The text of a line, with so many of what is repeated."""
    parts = line.split('#')
    return ''.join(part * count if place % 2 else part for place, part in enumerate(parts))


def answer(program, text):
    """The status and the error line of `check` for a text."""
    with tempfile.TemporaryDirectory() as folder:
        with open(os.path.join(folder, 'f.x'), 'w', encoding='utf-8') as file:
            file.write(text)
        done = subprocess.run([program, 'check', 'f.x'], cwd=folder, stdin=subprocess.DEVNULL, capture_output=True, text=True, check=False)
        return done.returncode, done.stderr


def is_read(got):
    """Whether it is the answer for a text that is in the grammar, whatever rules it breaks."""
    status, err = got
    return status in (0, 7) or status == 8 and not err.startswith('f.x: limit nesting')


def texts():
    """What is to be tried: a line, how often its parts are repeated, and what the answer is to be; None for any of a text that is read."""
    for most, table in DEEP:
        for line in table.splitlines():
            yield line, most, None
            yield line, most + 1, (8, OVER)
            yield line, FAR, (8, OVER)
    for line in NEVER.splitlines():
        yield line, MANY, None
    for line, wanted in FIRST:
        yield line, 129, wanted


def odd(program, line, count, wanted):
    """The line with its answer where that isn't what it is to be."""
    got = answer(program, repeated(line, count))
    holds = is_read(got) if wanted is None else got == wanted
    return None if holds else f'{line} {count} times: {got}, wanted {wanted or "a text that is read"}'


def main():
    program, found = os.path.abspath(sys.argv[1]), list(texts())
    with concurrent.futures.ThreadPoolExecutor(os.cpu_count()) as workers:
        wrong = [said for said in workers.map(lambda text: odd(program, *text), found) if said]
    for said in wrong:
        print(said)
    print(f'{len(found)} texts nested, {len(wrong)} answered otherwise')
    sys.exit(bool(wrong))


if __name__ == '__main__':
    main()
