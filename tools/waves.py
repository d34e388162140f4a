#!/usr/bin/env python3
"""Makes a VCD file, as GTKWave and Surfer open it, of what `xls sim` writes.

usage: waves.py MODULE ROWS CYCLES [> WAVES.vcd]

MODULE and ROWS are the files that `sim` was given, CYCLES is what it wrote (- is standard input), as in

    ./xls sim examples/counter.v examples/rows.txt | tools/waves.py examples/counter.v examples/rows.txt - > counter.vcd

A row takes ten nanoseconds. `clk` rises at its beginning, and all else stands from then on: `rst`, and of each channel its `data`, `vld` and
`rdy`. The cycle text has the word of an output only while it is valid, so `data` of an output is x while `vld` is 0.
"""
import itertools
import re
import sys

PORT = re.compile(r'\b(input|output)\s+wire\s*(?:\[\s*(\d+)\s*:\s*0\s*\])?\s*(\w+)')
PERIOD, HALF = 10, 5


class Channel:
    """A channel of the module: its direction as the module sees it, and how many bits its words have."""

    def __init__(self, name, is_input, width):
        self.name, self.is_input, self.width = name, is_input, width


def without_comments(text):
    return re.sub(r'//[^\n]*', '', text)


def channels_of(text):
    """The channels of a module, in the order of its ports."""
    head = text.partition(';')[0]
    ports = [(name, direction == 'input', int(top or 0) + 1) for direction, top, name in PORT.findall(head)]
    return [Channel(name[:-len('_data')], is_input, width) for name, is_input, width in ports if name.endswith('_data')]


def rows_of(text):
    """What the outside does in each cycle: whether it resets, the words that it offers, and the outputs that it is ready for."""
    for line in text.split('\n'):
        if not line or line.startswith('#'):
            continue
        first, *items = line.split(' ')
        times = int(items.pop()[1:]) if items and re.fullmatch(r'x\d+', items[-1]) else 1
        words = {name: int(value, 16) for name, _, value in (it.partition('=') for it in items) if value}
        ready = {it[:-1] for it in items if it.endswith('!')}
        yield from itertools.repeat((first == 'R', words, ready), times)


def cycles_of(text):
    """What the module shows in each cycle: the inputs that it is ready for, and the words at its outputs."""
    for line in text.split('\n'):
        if re.match(r'\d', line):
            items = line.split(' ')[1:]
            yield {it[:-1] for it in items if it.endswith('!')}, {name: int(value, 16) for name, _, value in (it.partition('=') for it in items) if value}


def signals_of(channels):
    """Each signal with its width: the clock, the reset, and three of each channel."""
    yield 'clk', 1
    yield 'rst', 1
    for channel in channels:
        yield channel.name + '_data', channel.width
        yield channel.name + '_vld', 1
        yield channel.name + '_rdy', 1


def values_of(channels, row, shown):
    """The values of all signals but the clock in a cycle; None for what the texts don't say."""
    (reset, offered, wanted), (ready, valid) = row, shown
    values = {'rst': int(reset)}
    for channel in channels:
        words, takers = (offered, ready) if channel.is_input else (valid, wanted)
        values[channel.name + '_data'] = words.get(channel.name, 0 if channel.is_input else None)
        values[channel.name + '_vld'] = int(channel.name in words)
        values[channel.name + '_rdy'] = int(channel.name in takers)
    return values


def identifier(index):
    """A short name of printable characters, as a VCD has it for each signal."""
    digits = ''
    while True:
        digits += chr(33 + index % 94)
        index //= 94
        if index == 0:
            return digits


def change(value, width, name):
    if width == 1:
        return ('x' if value is None else str(value)) + name
    return 'b' + ('x' if value is None else format(value, 'b')) + ' ' + name


def vcd(module, channels, rows, cycles):
    """The lines of the file: its head, and at each time what changes."""
    signals = dict(signals_of(channels))
    names = {signal: identifier(i) for i, signal in enumerate(signals)}
    yield '$timescale 1ns $end'
    yield f'$scope module {module} $end'
    for signal, width in signals.items():
        yield f'$var wire {width} {names[signal]} {signal}{f" [{width - 1}:0]" if width > 1 else ""} $end'
    yield '$upscope $end'
    yield '$enddefinitions $end'
    before, at = {}, 0
    for at, (row, shown) in enumerate(zip(rows, cycles)):
        yield f'#{PERIOD * at}'
        yield '1' + names['clk']
        values = values_of(channels, row, shown)
        for signal, value in values.items():
            if signal not in before or before[signal] != value:
                yield change(value, signals[signal], names[signal])
        yield f'#{PERIOD * at + HALF}'
        yield '0' + names['clk']
        before = values
    yield f'#{PERIOD * (at + 1)}'


def text_of(path):
    return sys.stdin.read() if path == '-' else open(path, encoding='utf-8').read()


def main():
    if len(sys.argv) != 4:
        sys.exit(__doc__.strip().split('\n')[2])
    module, rows, cycles = map(text_of, sys.argv[1:])
    module, rows, cycles = without_comments(module), list(rows_of(rows)), list(cycles_of(cycles))
    if len(rows) != len(cycles):
        sys.exit(f'{len(rows)} rows, but {len(cycles)} cycles: the cycle text is of other rows')
    name = re.search(r'\bmodule\s+(\w+)', module).group(1)
    print('\n'.join(vcd(name, channels_of(module), rows, cycles)))


if __name__ == '__main__':
    main()
