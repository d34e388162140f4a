#!/usr/bin/env python3
"""The five designs of examples/ and what runs of them come to, worked by models that are written here and not by the program.

usage: designs.py            holds each NAME.out against its model
       designs.py --write    writes NAME.in and NAME.out anew
       designs.py --meaning  also has the definitions of DSLX run each design, by spec_run.py (a minute)
       designs.py --program PROGRAM  also has the program `xls` run each, in one thread and in four

A model is a network of Python generators, one a proc, over FIFOs; beside it what its outputs have to be is worked in closed form: a
convolution, zlib's CRC-32, the clients in turn.
"""
import os
import random
import re
import subprocess
import sys
import threading
import zlib

TOP = os.path.normpath(os.path.join(os.path.dirname(os.path.abspath(__file__)), '..'))
ACTIVATIONS = 40


# ---- Networks of generators

class Channel:
    """A FIFO: an input has all its words from the first, an output room for any number."""

    def __init__(self, name, kind, show, words=(), depth=1):
        self.name, self.kind, self.show, self.depth = name, kind, show, depth
        self.sent, self.received = list(words), 0

    def text(self):
        shown = self.sent[:self.received] if self.kind == 'in' else self.sent
        count = {'in': self.received, 'out': len(self.sent), 'chan': '%d/%d' % (len(self.sent), self.received)}[self.kind]
        return ' '.join(['%s %s %s:' % (self.kind, self.name, count)] + [self.show(w) for w in shown])


class Process:
    """A proc: `activation(state)` yields (channel,) to receive and (channel, word) to send, and returns the next state."""

    def __init__(self, path, state, show, activation):
        self.path, self.state, self.show, self.activation = path, state, show, activation
        self.ended, self.open, self.waits = 0, None, None

    def goes(self):
        """Makes one event, if it can."""
        if self.open is None:
            if self.ended == ACTIVATIONS:
                return False
            self.open = self.activation(self.state)
            return self.resume(None)
        channel, *word = self.waits
        if not word:
            if channel.received == len(channel.sent):
                return False
            channel.received += 1
            return self.resume(channel.sent[channel.received - 1])
        if channel.kind == 'chan' and len(channel.sent) - channel.received == channel.depth:
            return False
        channel.sent.append(word[0])
        return self.resume(None)

    def resume(self, word):
        try:
            self.waits = self.open.send(word)
        except StopIteration as end:
            self.state, self.open, self.ended = end.value, None, self.ended + 1
        return True

    def text(self):
        if self.ended == ACTIVATIONS:
            how = 'done'
        else:
            how = 'stalled %d %s %s' % (self.ended, 'send' if self.waits[1:] else 'recv', self.waits[0].name)
        return 'proc %s state %s %s' % (self.path, self.show(self.state), how)


def outcome(channels, processes):
    while any([p.goes() for p in processes]):
        pass
    return ''.join(x.text() + '\n' for x in channels + processes)


def hexadecimal(bits):
    return lambda word: '0x%0*x' % (-(-bits // 4), word % 2 ** bits)


def record(*shows):
    return lambda words: '(%s)' % ', '.join(show(w) for show, w in zip(shows, words))


def array(show):
    return lambda words: '[%s]' % ', '.join(show(w) for w in words)


def nothing(_):
    return '()'


def idle(state):
    return state
    yield


# ---- The designs: the words of their inputs, and what a run comes to

def fir(chance):
    taps = [-3, 11, 12, -5]
    samples = [chance.choice([0, 1, -1, 32767, -32768, chance.randrange(-32768, 32768)]) for _ in range(24)]
    given = Channel('samples', 'in', hexadecimal(16), samples)
    filtered = Channel('filtered', 'out', hexadecimal(32))

    def activation(window):
        sample = yield (given,)
        window = [sample] + window[:3]
        yield (filtered, sum(tap * x for tap, x in zip(taps, window)))
        return window

    text = outcome([given, filtered], [Process('Fir', [0] * 4, array(hexadecimal(16)), activation)])
    padded = [0] * 3 + samples
    assert filtered.sent == [sum(taps[k] * padded[n + 3 - k] for k in range(4)) for n in range(len(samples))]
    return [given], text


def arbiter(chance):
    masks = [chance.choice([0, 1, 15, chance.randrange(16)]) for _ in range(28)]
    last, served = 3, []
    for mask in masks:
        turn = [c % 4 for c in range(last + 1, last + 5) if mask >> c % 4 & 1]
        served += turn[:1]
        last = (turn or [last])[0]
    words = [[chance.randrange(256) for _ in range(served.count(c) + 1)] for c in range(4)]
    waiting = Channel('waiting', 'in', hexadecimal(4), masks)
    clients = [Channel('abcd'[c], 'in', hexadecimal(8), words[c]) for c in range(4)]
    granted = Channel('granted', 'out', record(hexadecimal(2), hexadecimal(8)))

    def activation(last):
        mask = yield (waiting,)
        client = next((c % 4 for c in range(last + 1, last + 5) if mask >> c % 4 & 1), None)
        if client is None:
            return last
        word = yield (clients[client],)
        yield (granted, (client, word))
        return client

    text = outcome([waiting] + clients + [granted], [Process('Arbiter', 3, hexadecimal(2), activation)])
    assert [client for client, _ in granted.sent] == served
    return [waiting] + clients, text


def systolic(chance):
    weights = [7, 100, 50000, 1]
    samples = [chance.choice([0, 1, 65535, chance.randrange(65536)]) for _ in range(20)]
    given, sums = Channel('samples', 'in', hexadecimal(16), samples), Channel('sums', 'out', hexadecimal(32))
    xs = [Channel('Row/x%d' % i, 'chan', hexadecimal(16), depth=2) for i in range(5)]
    partials = [Channel('Row/sum%d' % i, 'chan', hexadecimal(32), depth=2) for i in range(5)]

    def first(state):
        sample = yield (given,)
        yield (xs[0], sample)
        yield (partials[0], 0)
        return state

    def cell(i):
        def activation(before):
            sample = yield (xs[i],)
            partial = yield (partials[i],)
            yield (xs[i + 1], before)
            yield (partials[i + 1], (partial + sample * weights[i]) % 2 ** 32)
            return sample
        return activation

    def last(state):
        yield (xs[4],)
        total = yield (partials[4],)
        yield (sums, total)
        return state

    cells = [Process('Row.%d' % (i + 1), 0, hexadecimal(16), cell(i)) for i in range(4)]
    text = outcome([given, sums] + xs + partials,
                   [Process('Row', (), nothing, idle), Process('Row.0', (), nothing, first)] + cells + [Process('Row.5', (), nothing, last)])
    padded = [0] * 3 + samples
    assert sums.sent == [sum(weights[k] * padded[n + 3 - k] for k in range(4)) % 2 ** 32 for n in range(len(samples))]
    return [given], text


def crc32(chance):
    frames = [b'123456789', b'a', bytes(4), bytes(chance.randrange(256) for _ in range(12)), b'xls']
    words = [(byte, int(i == len(frame) - 1)) for frame in frames for i, byte in enumerate(frame)][:-1]
    given = Channel('bytes', 'in', record(hexadecimal(8), hexadecimal(1)), words)
    checksums = Channel('checksums', 'out', hexadecimal(32))

    def activation(checksum):
        byte, is_last = yield (given,)
        left = checksum ^ byte
        for _ in range(8):
            left = left >> 1 ^ (0xEDB88320 if left & 1 else 0)
        if is_last:
            yield (checksums, left ^ 0xFFFFFFFF)
            return 0xFFFFFFFF
        return left

    text = outcome([given, checksums], [Process('Crc32', 0xFFFFFFFF, hexadecimal(32), activation)])
    assert checksums.sent == [zlib.crc32(frame) for frame in frames[:-1]]
    return [given], text


def ring(chance):
    flag, address, byte = hexadecimal(1), hexadecimal(2), hexadecimal(8)
    wishes = [[(int(chance.random() < 0.7), chance.choice([x for x in range(3) if x != s]), chance.randrange(256)) for _ in range(9)] for s in range(3)]
    given = [Channel('wishes%d' % s, 'in', record(flag, address, byte), wishes[s]) for s in range(3)]
    taken = [Channel('taken%d' % s, 'out', byte) for s in range(3)]
    links = [Channel('Ring/from%d' % s, 'chan', record(flag, address, byte)) for s in range(3)]

    def station(s):
        def activation(is_first):
            frame = (0, 0, 0) if s == 0 and is_first else (yield (links[s - 1],))
            if frame[0] and frame[1] == s:
                yield (taken[s], frame[2])
                frame = (0, 0, 0)
            wish = yield (given[s],)
            if not frame[0]:
                frame = wish if wish[0] else (0, 0, 0)
            yield (links[s], frame)
            return 0
        return activation

    stations = [Process('Ring.%d' % s, 1, flag, station(s)) for s in range(3)]
    text = outcome(given + taken + links, [Process('Ring', (), nothing, idle)] + stations)
    frame, wanted = None, [[], [], []]
    for turn in range(28):
        s, visit = turn % 3, turn // 3
        if frame and frame[0] == s:
            wanted[s].append(frame[1])
            frame = None
        if frame is None and turn < 27 and wishes[s][visit][0]:
            frame = wishes[s][visit][1:]
    assert [c.sent for c in taken] == wanted
    return given, text


DESIGNS = {'fir': fir, 'arbiter': arbiter, 'systolic': systolic, 'crc32': crc32, 'ring': ring}


# ---- Files

def path(name, ending):
    return os.path.join(TOP, 'examples', name, name + ending)


def file_text(channels):
    return ''.join('chan %s\n' % c.name + ''.join(c.show(w) + '\n' for w in c.sent) for c in channels)


def meaning(name, channels):
    """What the definitions come to."""
    import spec_run
    import dslx_terms
    source = re.sub(r'//[^\n]*', '', open(path(name, '.x'), encoding='utf-8').read())
    words = ' ; '.join(' '.join([c.name] + [c.show(w).replace(' ', '') for w in c.sent]) for c in channels)
    m = spec_run.tree_module()
    node = spec_run.Parser(spec_run.lex(dslx_terms.Reader(source).module()), m).expr(frozenset())
    given = 'run %d %s ' % (ACTIVATIONS, words)
    got = spec_run.answer(spec_run.Thunk(lambda: spec_run.evaluate(m, node, {})), given + '|')
    return ''.join(line + '\n' for line in got.partition('| ')[2].split(' / '))


def written(program, name, workers):
    """What the program writes of a run of the design."""
    words = [program, 'run', path(name, '.x'), path(name, '.in'), '--activations', str(ACTIVATIONS), '--workers', workers]
    ran = subprocess.run(words, capture_output=True, text=True)
    return ran.stdout + ran.stderr


def main():
    wrong = 0
    for name, model in DESIGNS.items():
        channels, text = model(random.Random(name))
        wanted = {'.in': file_text(channels), '.out': text}
        if '--write' in sys.argv:
            for ending, content in wanted.items():
                with open(path(name, ending), 'w', encoding='utf-8') as file:
                    file.write(content)
        for ending, content in wanted.items():
            if open(path(name, ending), encoding='utf-8').read() != content:
                print('%s%s is not what the model says' % (name, ending))
                wrong += 1
        if '--program' in sys.argv:
            for workers in ('1', '4'):
                got = written(sys.argv[sys.argv.index('--program') + 1], name, workers)
                if got != text:
                    print('%s: the program writes, by %s workers,\n%s' % (name, workers, got))
                    wrong += 1
        if '--meaning' in sys.argv:
            got = meaning(name, channels)
            if got != text:
                print('%s: the definitions come to\n%s' % (name, got))
                wrong += 1
    print('%d designs, %d wrong' % (len(DESIGNS), wrong))
    STATUS.append(1 if wrong else 0)


STATUS = []

if __name__ == '__main__':
    sys.path.insert(0, os.path.dirname(os.path.abspath(__file__)))
    sys.setrecursionlimit(1000000)
    threading.stack_size(1 << 29)
    thread = threading.Thread(target=main)
    thread.start()
    thread.join()
    sys.exit(STATUS[0] if STATUS else 1)
