#!/usr/bin/env python3
"""Simulates random modules of the Verilog subset by `xls sim` and by Icarus Verilog, and compares every cycle.

    tools/compare_iverilog.py [--xls PROGRAM] [--modules N] [--rows N] [--seed N] [--keep FOLDER]
    tools/compare_iverilog.py --speed [--xls PROGRAM] [--assignments N] [--rows N] [--shape chains|layers] [--runs N]

It needs `iverilog` and `vvp` (Debian: the package iverilog). Each module is reset in its first row, since Icarus has four states and
registers are x before; rows are compared from the second on. Divisions stand under a test that the divisor isn't 0, or are by
a literal. It prints each difference, and ends with status 1 if there was one. With --speed it times both on one module of many
assignments, some runs in turn. It is run by hand, and is no part of the gate.
"""
import argparse
import os
import random
import resource
import subprocess
import sys
import tempfile

BINARY = ['+', '-', '*', '&', '|', '^']
COMPARE = ['==', '!=', '<', '<=', '>', '>=']
WIDTHS = [1, 1, 2, 3, 7, 8, 8, 16, 31, 32, 33, 63, 64, 65, 127, 128]


class Module:
    """A random module: its channels, its declarations and its text."""

    def __init__(self, rng):
        self.rng = rng
        self.channels = []  # (name, is_input, width)
        self.widths = {'rst': 1}  # what may be read
        self.declared, self.assigned, self.resets, self.clocks = [], [], [], []
        self.count = 0
        self.make()

    def fresh(self):
        self.count += 1
        return 'n_%d' % (self.count - 1)

    def literal(self, width):
        top = (1 << width) - 1
        value = self.rng.choice([0, 1, top, self.rng.randint(0, top), min(top, self.rng.randint(0, 200))])
        return "%d'd%d" % (width, value)

    def of_width(self, width):
        names = [n for n, w in self.widths.items() if w == width]
        if names and self.rng.random() < 0.8:
            return self.rng.choice(names)
        return self.literal(width)

    def any_name(self, least=1):
        names = [n for n, w in self.widths.items() if w >= least]
        return self.rng.choice(names) if names else None

    def wire(self, width, text):
        name = self.fresh()
        self.declared.append('wire %s%s;' % (span(width), name))
        self.assigned.append('assign %s = %s;' % (name, text))
        self.widths[name] = width
        return name

    def name_of(self, width):
        names = [n for n, w in self.widths.items() if w == width]
        return self.rng.choice(names) if names else self.wire(width, self.literal(width))

    def simple(self, width):
        kind = self.rng.randrange(7)
        if kind == 0:
            return self.of_width(width)
        if kind == 1:
            return '%s%s' % (self.rng.choice(['~', '-']), self.of_width(width))
        if kind == 2:
            return '%s %s %s' % (self.of_width(width), self.rng.choice(['<<', '>>']), self.amount())
        if kind == 3 and width == 1:
            wide = self.rng.choice(WIDTHS)
            return '%s %s %s' % (self.of_width(wide), self.rng.choice(COMPARE), self.of_width(wide))
        if kind == 4 and width == 1:
            return '%s%s' % (self.rng.choice('&|^'), self.of_width(self.rng.choice(WIDTHS)))
        if kind == 5:
            name = self.any_name(max(2, width))
            if name:
                low = self.rng.randint(0, self.widths[name] - width)
                return '%s[%d:%d]' % (name, low + width - 1, low)
        if kind == 6 and width > 1:
            parts, left = [], width
            while left:
                part = self.rng.randint(1, left)
                parts.append(self.of_width(part))
                left -= part
            return '{%s}' % ', '.join(parts)
        return '%s %s %s' % (self.of_width(width), self.rng.choice(BINARY), self.of_width(width))

    def amount(self):
        return self.of_width(self.rng.choice([1, 3, 7, 8, 33]))

    def expression(self, width):
        kind = self.rng.randrange(8)
        if kind == 0:
            return '%s ? %s : %s' % (self.of_width(1), self.simple(width), self.simple(width))
        if kind == 1:
            return '$signed(%s) >>> %s' % (self.name_of(width), self.amount())
        if kind == 2 and width == 1:
            wide = self.rng.choice(WIDTHS)
            return '$signed(%s) %s $signed(%s)' % (self.name_of(wide), self.rng.choice(COMPARE[2:]), self.name_of(wide))
        if kind == 3:
            divisor = self.name_of(width)
            some = self.wire(1, "%s != %d'd0" % (divisor, width))
            return "%s ? %s %s %s : %d'd0" % (some, self.of_width(width), self.rng.choice('/%'), divisor, width)
        return self.simple(width)

    def make(self):
        rng = self.rng
        for k in range(rng.randint(1, 3)):
            name, is_input, width = 'c%d' % k, rng.random() < 0.5, rng.choice(WIDTHS)
            self.channels.append((name, is_input, width))
            if is_input:
                self.widths[name + '_data'] = width
                self.widths[name + '_vld'] = 1
            else:
                self.widths[name + '_rdy'] = 1
        registers = []
        for _ in range(rng.randint(0, 5)):
            name, width = self.fresh(), rng.choice(WIDTHS)
            self.declared.append('reg %s%s;' % (span(width), name))
            self.widths[name] = width
            registers.append((name, width))
        for _ in range(rng.randint(1, 25)):
            width = rng.choice(WIDTHS)
            self.wire(width, self.expression(width))
        for name, is_input, width in self.channels:
            if is_input:
                self.assigned.append('assign %s_rdy = %s;' % (name, self.of_width(1)))
            else:
                self.assigned.append('assign %s_data = %s;' % (name, self.expression(width)))
                self.assigned.append('assign %s_vld = %s;' % (name, self.of_width(1)))
        for name, width in registers:
            self.resets.append('%s <= %s;' % (name, self.literal(width)))
            self.clocks.append('%s <= %s;' % (name, self.of_width(width)))
        rng.shuffle(self.assigned)

    def ports(self):
        out = ['input wire clk', 'input wire rst']
        for name, is_input, width in self.channels:
            here, there = ('input', 'output') if is_input else ('output', 'input')
            out += ['%s wire %s%s_data' % (here, span(width), name), '%s wire %s_vld' % (here, name), '%s wire %s_rdy' % (there, name)]
        return out

    def text(self):
        clocked = []
        if self.resets:
            clocked = ['always @(posedge clk) begin if (rst) begin'] + self.resets + ['end else begin'] + self.clocks + ['end end']
        return '\n'.join(['module T(%s);' % ', '.join(self.ports())] + self.declared + self.assigned + clocked + ['endmodule', ''])


def span(width):
    return '' if width == 1 else '[%d:0] ' % (width - 1)


def random_rows(rng, channels, count):
    """Rows as (reset, [offered word or None, or ready]), the first with reset."""
    rows = []
    for k in range(count):
        drives = []
        for _, is_input, width in channels:
            if is_input:
                drives.append(rng.randint(0, (1 << width) - 1) if rng.random() < 0.6 else None)
            else:
                drives.append(rng.random() < 0.6)
        rows.append((k == 0 or rng.random() < 0.03, drives))
    return rows


def row_file(channels, rows):
    lines = []
    for reset, drives in rows:
        items = ['R' if reset else '-']
        for (name, is_input, _), drive in zip(channels, drives):
            if is_input and drive is not None:
                items.append('%s=0x%x' % (name, drive))
            if not is_input and drive:
                items.append('%s!' % name)
        lines.append(' '.join(items))
    return '\n'.join(lines) + '\n'


def bench(module, rows):
    """A test bench that writes the rows' lines as `xls sim` does, but for the `moved` lines."""
    out = ['module bench;', 'reg clk = 0;', 'reg rst;', 'integer number = 0;']
    links = ['.clk(clk)', '.rst(rst)']
    show = []
    for name, is_input, width in module.channels:
        inside, outside = ('reg', 'wire') if is_input else ('wire', 'reg')
        out += ['%s %s%s_data;' % (inside, span(width), name), '%s %s_vld;' % (inside, name), '%s %s_rdy;' % (outside, name)]
        links += ['.%s_%s(%s_%s)' % (name, end, name, end) for end in ('data', 'vld', 'rdy')]
        if is_input:
            show.append('if (%s_rdy !== 1\'b0) $write(" %s%%s", %s_rdy === 1\'b1 ? "!" : "?");' % (name, name, name))
        else:
            show.append('if (%s_vld !== 1\'b0) $write(" %s%%s0x%%h", %s_vld === 1\'b1 ? "=" : "?", %s_data);' % (name, name, name, name))
    out += ['T dut(%s);' % ', '.join(links), 'task step; begin #1 $write("%0d", number);'] + show
    out += ['$write("\\n"); number = number + 1; clk = 1; #1 clk = 0; #1; end endtask', 'initial begin']
    for reset, drives in rows:
        sets = ['rst = %d;' % reset]
        for (name, is_input, width), drive in zip(module.channels, drives):
            if is_input:
                sets.append("%s_data = %d'd%d; %s_vld = %d;" % (name, width, drive or 0, name, drive is not None))
            else:
                sets.append('%s_rdy = %d;' % (name, drive))
        out.append(' '.join(sets) + ' step;')
    return '\n'.join(out + ['end', 'endmodule', ''])


def moved(channels, rows, lines):
    """The `moved` lines, by the lines of the rows."""
    words = {name: [] for name, _, _ in channels}
    for (reset, drives), line in zip(rows, lines):
        shown = line.split()[1:]
        for (name, is_input, width), drive in zip(channels, drives):
            if reset:
                words[name] = []
            elif is_input and drive is not None and name + '!' in shown:
                words[name].append('0x%0*x' % ((width + 3) // 4, drive))
            elif not is_input and drive:
                words[name] += [s.split('=')[1] for s in shown if s.startswith(name + '=')]
    return [' '.join(['moved %s %d:' % (name, len(words[name]))] + words[name]) for name, _, _ in channels]


def icarus(folder, module, rows):
    with open(os.path.join(folder, 'bench.v'), 'w') as f:
        f.write(bench(module, rows))
    subprocess.run(['iverilog', '-g2005', '-o', 'bench.vvp', 'bench.v', 't.v'], cwd=folder, check=True)
    lines = subprocess.run(['vvp', '-n', 'bench.vvp'], cwd=folder, check=True, capture_output=True, text=True).stdout.splitlines()
    return lines + moved(module.channels, rows, lines)


def large(assignments, shape):
    """A module of so many assignments of 32 bits over 16 registers, all of which change in each cycle. As `chains` each wire reads one
    wire or register that changes and a literal, so that a simulator that goes by events evaluates each assignment once a cycle; as `layers`
    it reads two of the 16 before, and such a simulator may evaluate it anew for each of the two."""
    rng = random.Random(assignments)
    registers = ['r_%d' % k for k in range(16)]
    names, text = list(registers), ['module T(input wire clk, input wire rst, output wire [31:0] b_data, output wire b_vld, input wire b_rdy);']
    text += ['reg [31:0] %s;' % name for name in registers]
    wires = ['n_%d' % k for k in range(assignments - 2)]
    text += ['wire [31:0] %s;' % name for name in wires]
    for name in wires:
        layer = names[len(names) // 16 * 16 - 16:len(names) // 16 * 16]
        one, other = (names[-16], "32'd%d" % rng.getrandbits(32)) if shape == 'chains' else (rng.choice(layer), rng.choice(layer))
        text.append('assign %s = %s %s %s;' % (name, one, rng.choice('+-^'), other))
        names.append(name)
    text += ['assign b_data = %s;' % names[-1], "assign b_vld = 1'd1;", 'always @(posedge clk) begin if (rst) begin']
    text += ["%s <= 32'd%d;" % (name, rng.getrandbits(32)) for name in registers] + ['end else begin']
    text += ['%s <= %s;' % (name, wire) for name, wire in zip(registers, names[-16:])] + ['end end', 'endmodule', '']
    return '\n'.join(text)


def timed(words, folder):
    """The processor's time that a program takes, and the lines that it writes."""
    began = resource.getrusage(resource.RUSAGE_CHILDREN).ru_utime
    out = subprocess.run(words, cwd=folder, check=True, capture_output=True, text=True).stdout
    return resource.getrusage(resource.RUSAGE_CHILDREN).ru_utime - began, out.splitlines()


def speed(program, assignments, rows, shape, runs):
    with tempfile.TemporaryDirectory() as folder:
        with open(os.path.join(folder, 't.v'), 'w') as f:
            f.write(large(assignments, shape))
        with open(os.path.join(folder, 'r.txt'), 'w') as f:
            f.write('R\n- x%d\n' % rows)
        with open(os.path.join(folder, 'bench.v'), 'w') as f:
            f.write('''module bench;
reg clk = 0; reg rst = 1; integer number = 0; wire [31:0] b_data; wire b_vld;
T dut(.clk(clk), .rst(rst), .b_data(b_data), .b_vld(b_vld), .b_rdy(1'b0));
initial begin
  repeat (%d) begin #1 $write("%%0d b=0x%%h\\n", number, b_data); number = number + 1; clk = 1; #1 clk = 0; rst = 0; #1; end
end
endmodule
''' % (rows + 1))
        subprocess.run(['iverilog', '-g2005', '-o', 'bench.vvp', 'bench.v', 't.v'], cwd=folder, check=True)
        same = True
        for _ in range(runs):
            ours, mine = timed([program, 'sim', 't.v', 'r.txt'], folder)
            theirs, other = timed(['vvp', '-n', 'bench.vvp'], folder)
            same = same and mine[1:rows + 1] == other[1:rows + 1]
            print('%d assignments in %s, %d rows: xls %.2f s, vvp %.2f s of the processor, %s'
                  % (assignments, shape, rows, ours, theirs, 'the same lines' if same else 'other lines'), flush=True)
        return same


def main():
    ap = argparse.ArgumentParser(description=__doc__.splitlines()[0])
    ap.add_argument('--xls', default='./xls')
    ap.add_argument('--modules', type=int, default=200)
    ap.add_argument('--rows', type=int)
    ap.add_argument('--speed', action='store_true')
    ap.add_argument('--assignments', type=int, default=1000)
    ap.add_argument('--shape', choices=['chains', 'layers'], default='chains')
    ap.add_argument('--runs', type=int, default=3)
    ap.add_argument('--seed', type=int, default=1)
    ap.add_argument('--keep')
    a = ap.parse_args()
    program, differ = os.path.abspath(a.xls), 0
    if a.speed:
        sys.exit(0 if speed(program, a.assignments, a.rows or 100000, a.shape, a.runs) else 1)
    a.rows = a.rows or 60
    for k in range(a.modules):
        rng = random.Random('%d %d' % (a.seed, k))
        module = Module(rng)
        rows = random_rows(rng, module.channels, a.rows)
        with tempfile.TemporaryDirectory() as folder:
            folder = os.path.join(a.keep, str(k)) if a.keep else folder
            os.makedirs(folder, exist_ok=True)
            with open(os.path.join(folder, 't.v'), 'w') as f:
                f.write(module.text())
            with open(os.path.join(folder, 'r.txt'), 'w') as f:
                f.write(row_file(module.channels, rows))
            theirs = icarus(folder, module, rows)
            ours = subprocess.run([program, 'sim', 't.v', 'r.txt'], cwd=folder, capture_output=True, text=True)
            lines = ours.stdout.splitlines()
            if ours.returncode != 0 or lines[1:] != theirs[1:]:
                differ += 1
                print('module %d of seed %d differs: status %d %s' % (k, a.seed, ours.returncode, ours.stderr.strip()))
                for one, other in zip(lines[1:], theirs[1:]):
                    if one != other:
                        print('  xls:    %s\n  icarus: %s' % (one, other))
                        break
    print('%d modules of %d rows, %d differ' % (a.modules, a.rows, differ))
    sys.exit(1 if differ else 0)


if __name__ == '__main__':
    main()
