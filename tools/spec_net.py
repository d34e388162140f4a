"""Runs networks of definitions, for `spec_run.py`: procs by turns, until none can go."""
import re

from spec_run import apply, force


def width(ty):
    """How many bits a type's flat words have."""
    ty = force(ty)
    if ty.name == 'Bits':
        return force(ty.args[0])
    if ty.name == 'Tuple':
        return sum(width(t) for t in force(ty.args[0]))
    return force(ty.args[1]) * width(ty.args[0])


def parts(ty):
    """The types of the parts of a tuple or an array."""
    return force(ty.args[0]) if ty.name == 'Tuple' else [ty.args[0]] * force(ty.args[1])


def digits(bits, number):
    return '0x%0*x' % ((bits + 3) // 4, number)


def bracketed(name, texts):
    return ('(%s)' if name == 'Tuple' else '[%s]') % ', '.join(texts)


def word_text(ty, number):
    """A flat word as the text of the value that it holds."""
    ty = force(ty)
    if ty.name == 'Bits':
        return digits(force(ty.args[0]), number)
    texts, left = [], width(ty)
    for part in parts(ty):
        left -= width(part)
        texts.append(word_text(part, number >> left & (1 << width(part)) - 1))
    return bracketed(ty.name, texts)


def value_text(value):
    value = force(value)
    if value.name == 'Bits':
        word = force(value.args[0])
        return digits(force(word['width']), force(word['value']))
    return bracketed(value.name, [value_text(v) for v in force(value.args[0])])


def word_of(ty, text):
    """The flat word of the value that a text is."""
    number = 0
    leaves = iter(re.findall(r'0x[0-9a-fA-F]+', text))

    def put(ty):
        nonlocal number
        ty = force(ty)
        if ty.name == 'Bits':
            number = number << force(ty.args[0]) | int(next(leaves), 16)
        else:
            for part in parts(ty):
                put(part)
    put(ty)
    return {'width': width(ty), 'value': number}


def name_of(record, field):
    return ''.join(chr(force(c)) for c in force(force(record)[field]))


class Proc:
    """A proc of a network where it stands: its state, how many activations it ended, what it received in this one, its site."""

    def __init__(self, head, behavior):
        self.head, self.behavior = force(head), force(behavior)
        self.sites = force(self.behavior['sites'])
        self.state, self.ends, self.words, self.site = self.head['init'], 0, [], 0

    def next(self):
        """What it does next, and at which channel; nothing where the activation ends."""
        while self.site < len(self.sites):
            turn = force(apply(force(self.behavior['turn']), (self.state, self.words, self.site)))
            if turn.name != 'Skip':
                return turn, force(force(self.sites[self.site])['chan'])
            self.site += 1
        return None, None

    def end(self):
        self.state = apply(force(self.behavior['next_state']), (self.state, self.words))
        self.ends, self.words, self.site = self.ends + 1, [], 0


class Chan:
    def __init__(self, chan, words):
        chan = force(chan)
        self.name, self.ty, self.kind, self.depth = name_of(chan, 'name'), chan['ty'], force(chan['kind']).name, force(chan['depth'])
        self.sent, self.received = [word_of(self.ty, w) for w in words.get(self.name, [])], 0

    def is_full(self):
        return self.kind == 'Inner' and len(self.sent) - self.received >= self.depth

    def text(self):
        head = {'Input': 'in %s %d:' % (self.name, self.received), 'Output': 'out %s %d:' % (self.name, len(self.sent)),
                'Inner': 'chan %s %d/%d:' % (self.name, len(self.sent), self.received)}[self.kind]
        shown = self.sent[:self.received] if self.kind == 'Input' else self.sent
        return ''.join([head] + [' ' + word_text(self.ty, force(w['value'])) for w in shown])


def goes(proc, chans, most):
    """One event of a proc, if it can make one."""
    if proc.ends == most:
        return False
    turn, place = proc.next()
    if turn is None:
        proc.end()
        return True
    chan = chans[place]
    if turn.name == 'Receive':
        if chan.received == len(chan.sent):
            return False
        proc.words = proc.words + [chan.sent[chan.received]]
        chan.received += 1
    else:
        if chan.is_full():
            return False
        word = force(turn.args[0])
        assert force(word['width']) == width(chan.ty)
        chan.sent.append({'width': force(word['width']), 'value': force(word['value'])})
    proc.site += 1
    return True


def stall(proc, chans):
    turn, place = proc.next()
    return 'stalled %d %s %s' % (proc.ends, 'recv' if turn.name == 'Receive' else 'send', chans[place].name)


def run(net, behaviors, words, most):
    """The lines of a run of at most so many activations, where the inputs have these words."""
    net = force(net)
    chans = [Chan(c, words) for c in force(net['chans'])]
    procs = [Proc(h, b) for h, b in zip(force(net['procs']), force(behaviors))]
    while any([goes(p, chans, most) for p in procs]):
        pass
    return [c.text() for c in chans] + ['proc %s state %s %s' % (
        name_of(p.head, 'path'), value_text(p.state), 'done' if p.ends == most else stall(p, chans)) for p in procs]
