#!/usr/bin/env python3
"""Runs definitions of specs/ as programs, so that they can be tried at examples.

usage: spec_run.py TABLE .. [--NAME ..]

It reads the definitions of `dslx_meaning`, `dslx_parser` (depths) and `dslx_core` (and of the crates below them) as they stand, evaluates them at the
texts of each TABLE, and compares what they come to with what the table wants. It is a help while definitions are written;
nothing rests on it. A NAME is an example that is tried alone.

A table is docs/rules.txt, whose examples of the language's rules are tried, or has paragraphs. Each is a line with a name, a line with what is wanted, and the lines of a text (`dslx_terms.py`):
`ok`, `rule R FROM TO` or `limit WORD FOUND MOST`: what the text is refused for; `value SIGNED WIDTH NUMBER`: the constant X;
`sent TURN`: what the first proc does at its first site; `turns WORDS | TURNS ; STATE`: its activation over words of 8 bits;
`height N`: how high the text's tree is; `core NAME ARGUMENT .. ; .. | EXPRESSION`: what the last of these instances of functions becomes;
`steps NAME ARGUMENT ..; INSTANCES | STEP; .. => EXPRESSION`: what the statements of that proc become behind these instances; `net PROCS | CHANNELS`: the network; `made PROC ARGUMENT .., .. ; FUNCTION ARGUMENT .., .. | PROCS | CHANNELS`: the network of what these instances become, the last proc being the top; `run ACTIVATIONS CHANNEL VALUE .. ; .. | LINE / ..`: what is left after a run over these words.
"""
import os
import re
import sys
import threading

import dslx_terms

ROOT = os.path.join(os.path.dirname(os.path.abspath(__file__)), '..', 'crates')


class Con:
    __slots__ = ('name', 'args')

    def __init__(self, name, args=()):
        self.name, self.args = name, list(args)

    def __repr__(self):
        return self.name + ''.join(' (%r)' % (force(a),) for a in self.args)


class Fn:
    """A function that waits for `arity` arguments."""
    __slots__ = ('arity', 'run', 'args')

    def __init__(self, arity, run, args=()):
        self.arity, self.run, self.args = arity, run, args


class Thunk:
    __slots__ = ('run', 'value')

    def __init__(self, run):
        self.run, self.value = run, None


def force(x):
    while type(x) is Thunk:
        if x.run is not None:
            run, x.run = x.run, None
            x.value = force(run())
        x = x.value
    return x


def apply(f, args):
    f = force(f)
    while args:
        if type(f) is Con:
            return Con(f.name, f.args + list(args))
        if type(f) is not Fn:
            raise TypeError('no function: %r at %r' % (f, args))
        have = f.args + tuple(args)
        if len(have) < f.arity:
            return Fn(f.arity, f.run, have)
        args = have[f.arity:]
        f = force(f.run(*have[:f.arity]))
    return f


def fn(arity):
    return lambda run: Fn(arity, run)


def native(arity, run):
    """A function of values."""
    return Fn(arity, lambda *a: run(*[force(x) for x in a]))


def deep(x):
    x = force(x)
    if isinstance(x, list):
        return [deep(y) for y in x]
    return x


NONE, UNIT = Con('None'), Con('tt')


def some(x):
    return Con('Some', [x])


def lazy_map(f, xs):
    return [Thunk(lambda x=x: apply(f, (x,))) for x in force(xs)]


def concat(xss):
    return [y for x in xss for y in force(x)]


def order(x, y):
    return Con('Less') if x < y else Con('Equal') if x == y else Con('Greater')


def whole(z):
    z = force(z)
    n = force(z.args[0])
    return n if z.name == 'pos' else -n - 1


def integer(n):
    return Con('pos', [n]) if n >= 0 else Con('negsuc', [-n - 1])


def get(xs, i):
    return some(xs[i]) if i < len(xs) else NONE


STD = {
    'zero': 0, 'suc': native(1, lambda n: n + 1), 'pred': native(1, lambda n: max(n - 1, 0)),
    'true': True, 'false': False, '[]': [], 'None': NONE, 'Some': Con('Some'), 'tt': UNIT,
    'pos': Con('pos'), 'negsuc': Con('negsuc'), 'Less': Con('Less'), 'Equal': Con('Equal'), 'Greater': Con('Greater'),
    'not': native(1, lambda b: not b), 'min': native(2, min), 'max': native(2, max),
    'map': Fn(2, lazy_map), 'flat_map': Fn(2, lambda f, xs: concat(lazy_map(f, xs))),
    'length': native(1, len), 'reverse': native(1, lambda xs: xs[::-1]), 'sum': native(1, lambda xs: sum(force(x) for x in xs)),
    'slice_get': native(2, get), 'get_or': native(3, lambda xs, i, d: xs[i] if i < len(xs) else d),
    'set': native(3, lambda xs, i, v: xs[:i] + [v] + xs[i + 1:] if i < len(xs) else xs),
    'take': native(2, lambda n, xs: xs[:n]), 'drop': native(2, lambda n, xs: xs[n:]),
    'nat_lt': native(2, lambda a, b: a < b), 'nat_le': native(2, lambda a, b: a <= b),
    'bytes_eq': native(2, lambda a, b: deep(a) == deep(b)),
    'list_any': Fn(2, lambda f, xs: any(force(apply(f, (x,))) for x in force(xs))),
    'list_all': Fn(2, lambda f, xs: all(force(apply(f, (x,))) for x in force(xs))),
    'option_map': Fn(2, lambda f, o: NONE if force(o).name == 'None' else some(Thunk(lambda: apply(f, (force(o).args[0],))))),
    'unwrap_or': Fn(2, lambda o, d: d if force(o).name == 'None' else force(o).args[0]),
    'codes': native(1, lambda s: s), 'decimal': native(1, lambda n: [ord(c) for c in str(n)]),
    'bit_and': native(2, lambda a, b: a & b), 'bit_or': native(2, lambda a, b: a | b), 'bit_xor': native(2, lambda a, b: a ^ b),
    'count_ones': native(1, lambda a: bin(a).count('1')), 'bit_at': native(2, lambda a, i: a >> i & 1),
    'int_shr': native(2, lambda z, k: integer(whole(z) >> k)),
    'nat_cmp': native(2, order), 'int_cmp': native(2, lambda a, b: order(whole(a), whole(b))),
    'slice_cmp': native(3, lambda f, a, b: order(deep(a), deep(b))), 'is_lt': native(1, lambda o: o.name == 'Less'),
    'zip': native(2, lambda a, b: list(zip(a, b))),
}
for _word in ('ℕ ℤ List Option Bool Unit Type').split():
    STD[_word] = UNIT

OPS = {
    '∷': (1, 'r', 60, Fn(2, lambda a, b: [a] + force(b))),
    '++': (1, 'r', 60, native(2, lambda a, b: a + b)),
    '+': (1, 'l', 65, native(2, lambda a, b: a + b)), '-': (1, 'l', 65, native(2, lambda a, b: max(a - b, 0))),
    '-ℤ': (1, 'l', 65, native(2, lambda a, b: integer(whole(a) - whole(b)))),
    '*': (1, 'l', 70, native(2, lambda a, b: a * b)), '/': (1, 'l', 70, native(2, lambda a, b: a // b if b else 0)),
    '%': (1, 'l', 70, native(2, lambda a, b: a % b if b else a)), '^': (1, 'r', 75, native(2, lambda a, b: a ** b)),
    '==': (1, 'n', 50, native(2, lambda a, b: a == b)),
    '&&': (1, 'r', 35, Fn(2, lambda a, b: force(a) and force(b))), '||': (1, 'r', 30, Fn(2, lambda a, b: force(a) or force(b))),
    '≡': (1, 'n', 20, None), '<': (1, 'n', 20, None), '≤': (1, 'n', 20, None), '×': (1, 'r', 15, None), '→': (1, 'r', 5, None),
    '↔': (1, 'n', 10, None),
}

# ---- the types whose values are trees: for each constructor, or for the fields of a record, what its parts are
S, L, O = (lambda s: ('S', s)), (lambda d: ('L', d)), (lambda d: ('O', d))
X = ('_',)
E, B, TE, P = S('Expr'), S('Block'), S('TypeExpr'), S('Pattern')
ORDER = 'Stmt Node Shape TypeNode Block Let Arg Arm Expr FieldValue For Number Pattern TypeExpr'.split()
SORTS = {
    'Stmt': {'Let': [S('Let')], 'Bare': [E]},
    'Node': {'Number': [S('Number')], 'Bool': [X], 'Array': [O(TE), L(E), X], 'Name': [X], 'Member': [X, X],
             'Call': [X, L(S('Arg')), L(E)], 'Tuple': [L(E)], 'Struct': [X, L(S('FieldValue')), O(E)], 'Block': [B],
             'If': [E, B, E], 'Match': [E, L(S('Arm'))], 'For': [S('For')], 'Index': [E, E], 'Slice': [E, E, E],
             'Part': [E, E, TE], 'Field': [E, X], 'Element': [E, X, X], 'Prefix': [X, E], 'Cast': [E, TE], 'Binary': [X, E, E]},
    'Shape': {'Wild': [], 'Bool': [X], 'Number': [S('Number')], 'Name': [X], 'Member': [X, X], 'Tuple': [L(P)]},
    'TypeNode': {'Bits': [X, X], 'Wide': [X, E], 'Bool': [], 'Name': [X], 'Tuple': [L(TE)], 'Array': [TE, E]},
    'Block': ('span', X, 'statements', L(S('Stmt')), 'value', O(E)),
    'Let': ('span', X, 'pattern', P, 'ty', O(TE), 'value', E),
    'Arg': ('span', X, 'value', E), 'Arm': ('patterns', L(P), 'value', E), 'Expr': ('span', X, 'node', S('Node')),
    'FieldValue': ('name', X, 'value', O(E)),
    'For': ('index', P, 'accumulator', P, 'ty', O(TE), 'from', E, 'to', E, 'body', B, 'start', E),
    'Number': ('ty', O(TE), 'is_negative', X, 'value', X), 'Pattern': ('span', X, 'shape', S('Shape')),
    'TypeExpr': ('span', X, 'node', S('TypeNode')),
    'DslxType': {'Bits': [X, X], 'Tuple': [L(S('DslxType'))], 'Array': [S('DslxType'), X], 'Struct': [X, X, L(S('DslxType'))],
                 'Enum': [X, X, X], 'Token': []},
    'DslxValue': {'Bits': [X, X], 'Tuple': [L(S('DslxValue'))], 'Array': [L(S('DslxValue'))],
                  'Struct': [X, X, L(S('DslxValue'))], 'Enum': [X, X, X], 'Token': []},
    'Ty': {'Bits': [X], 'Tuple': [L(S('Ty'))], 'Array': [S('Ty'), X]},
    'Value': {'Bits': [X], 'Tuple': [L(S('Value'))], 'Array': [L(S('Value'))]},
    'CoreShape': {'Wild': [], 'Bound': [], 'Equal': [X], 'Tuple': [L(S('CoreShape'))]},
}


def change(d, x, to):
    """The part with each tree in it replaced."""
    if d == X:
        return x
    if d[0] == 'S':
        return Thunk(lambda: to(d[1], x))
    if d[0] == 'L':
        return Thunk(lambda: [change(d[1], y, to) for y in force(x)])
    return Thunk(lambda: NONE if force(x).name == 'None' else some(change(d[1], force(x).args[0], to)))


def level(sort, x, to):
    """One level of a tree with its parts replaced."""
    x, d = force(x), SORTS[sort]
    if isinstance(d, dict):
        return Con(x.name, [change(p, a, to) for p, a in zip(d[x.name], x.args)])
    return {f: change(p, x[f], to) for f, p in zip(d[::2], d[1::2])}


def fold(sort):
    sorts = ORDER if sort in ORDER else [sort]
    n = len(sorts)

    def run(*args):
        steps = dict(zip(sorts, args[n:2 * n]))

        def to(s, x):
            return apply(steps[s], (level(s, x, to),))
        return to(sort, args[2 * n])
    return Fn(2 * n + 1, run)


def mapped(sort):
    n = len(ORDER)

    def run(*args):
        steps = dict(zip(ORDER, args[2 * n:3 * n]))
        return level(sort, args[3 * n], lambda s, x: apply(steps[s], (x,)))
    return Fn(3 * n + 1, run)


IDENTITY = Fn(1, lambda x: x)

# ---- reading
NAME = re.compile(r'"(?:[^"\\]|\\.)*"|--[^\n]*|[(){}\[\],;]|[^\s(){}.;,"\[\]]+|\.(?=\S)|\.|\[|\]')


def lex(text):
    """Tokens of a line: (text, begins right behind the one before, column)."""
    toks, i = [], 0
    for line_no, line in enumerate(text.split('\n')):
        pos = 0
        while pos < len(line):
            if line[pos].isspace():
                pos += 1
                continue
            if line.startswith('[]', pos):
                tok = '[]'
            else:
                tok = NAME.match(line, pos).group(0)
            if tok.startswith('--'):
                break
            glued = pos > 0 and not line[pos - 1].isspace()
            toks.append((tok, glued, pos, line_no))
            pos += len(tok)
    return toks


class Scope:
    """A module: what its names are."""

    def __init__(self, path):
        self.path, self.names, self.modules = path, {}, {}


class Parser:
    def __init__(self, toks, module):
        self.t, self.i, self.m = toks, 0, module

    def peek(self):
        return self.t[self.i][0] if self.i < len(self.t) else None

    def take(self, word=None):
        tok = self.t[self.i][0]
        if word is not None and tok != word:
            raise SyntaxError('%s: %r where %r was wanted: %s' % (self.m.path, tok, word, [x[0] for x in self.t[max(0, self.i - 12):self.i + 5]]))
        self.i += 1
        return tok

    def glued_dot(self):
        return self.peek() == '.' and self.t[self.i][1] and self.i + 1 < len(self.t) and self.t[self.i + 1][1]

    def expr(self, env):
        tok = self.peek()
        if tok == 'λ':
            return self.lam(env)
        if tok == 'let':
            self.take()
            name = self.take()
            inner = env | {name}
            if self.peek() == ':':
                while self.peek() != '=':
                    self.take()
            self.take('=')
            value = self.expr(env)
            self.take('in')
            body = self.expr(inner)
            return ('let', name, value, body)
        if tok == 'if':
            self.take()
            c = self.expr(env)
            self.take('then')
            a = self.expr(env)
            self.take('else')
            return ('if', c, a, self.expr(env))
        return self.ops(env, 0)

    def lam(self, env):
        self.take('λ')
        names = []
        while self.peek() != '.':
            if self.peek() == '(':
                self.take()
                while self.peek() != ':':
                    names.append(self.take())
                depth = 1
                while depth:
                    t = self.take()
                    depth += (t == '(') - (t == ')')
            else:
                names.append(self.take())
        self.take('.')
        return ('lam', names, self.expr(env | set(names)))

    def ops(self, env, least):
        left = self.app(env)
        while self.peek() in OPS:
            _, side, prec, f = OPS[self.peek()]
            if prec < least:
                break
            op = self.take()
            right = self.expr(env) if self.peek() in ('λ', 'let', 'if') else self.ops(env, prec if side == 'r' else prec + 1)
            left = ('op', op, left, right)
        return left

    STOP = {')', '}', ']', ',', ';', 'then', 'else', 'in', 'where', '=', '|', '↦', ':', None}

    def app(self, env):
        f = self.atom(env)
        args = []
        while True:
            tok = self.peek()
            if tok in ('λ', 'let'):
                args.append(self.expr(env))
                break
            if tok in self.STOP or tok in OPS or tok == '.':
                break
            args.append(self.atom(env))
        return ('app', f, args) if args else f

    def atom(self, env):
        tok = self.take()
        if tok == '(':
            parts = [self.expr(env)]
            if self.peek() == ':':
                while self.peek() != ')':
                    self.take()
            while self.peek() == ',':
                self.take()
                if self.peek() != ')':
                    parts.append(self.expr(env))
            self.take(')')
            node = parts[0] if len(parts) == 1 else ('tuple', parts)
        elif tok == 'record':
            base = None
            if self.peek() != '{':
                base = self.atom(env)
            self.take('{')
            fields = []
            while self.peek() != '}':
                name = self.take()
                self.take('=')
                fields.append((name, self.expr(env)))
                if self.peek() == ';':
                    self.take()
            self.take('}')
            node = ('record', base, fields)
        elif tok == 'elim':
            node = self.elim(env)
        elif tok.startswith('"'):
            node = ('lit', [c for c in tok[1:-1].encode()])
        elif re.match(r'\d', tok):
            node = ('lit', int(tok.replace('_', ''), 0))
        elif tok == '{':
            while self.take() != '}':
                pass
            return ('lit', UNIT)
        else:
            if tok not in env:
                while self.glued_dot() and tok in self.m.modules:
                    self.take('.')
                    tok = tok + '.' + self.take()
                    break
                while self.glued_dot() and tok.endswith('-F'):
                    self.take('.')
                    tok = self.take().split('::')[-1]
                    node = ('con', tok)
                    return node
                node = ('global', tok)
            else:
                node = ('var', tok)
        while self.glued_dot():
            self.take('.')
            node = ('field', node, self.take())
        return node

    def elim(self, env):
        x = self.atom(env)
        self.take('[')
        cases = []
        while self.peek() != ']':
            if self.peek() == '|':
                self.take()
            pat = self.pattern_app()
            self.take('↦')
            body = self.expr(env | bound(pat))
            cases.append((pat, body))
        self.take(']')
        return ('elim', x, cases)

    # ---- patterns
    def pattern_app(self):
        left = self.pattern_head()
        if self.peek() == '∷':
            self.take()
            return ('cons', left, self.pattern_app())
        return left

    def pattern_head(self):
        p = self.pattern()
        if p[0] == 'con':
            args = []
            while self.peek() not in (')', ',', '∷', '↦', '=', None, '|', '.'):
                args.append(self.pattern())
            return ('con', p[1], args)
        return p

    def pattern(self):
        tok = self.take()
        if tok == '(':
            parts = [self.pattern_app()]
            while self.peek() == ',':
                self.take()
                parts.append(self.pattern_app())
            self.take(')')
            return parts[0] if len(parts) == 1 else ('tuple', parts)
        if tok == '_':
            return ('any',)
        if tok == '[]':
            return ('nil',)
        if tok in ('true', 'false'):
            return ('bool', tok == 'true')
        if tok == 'zero':
            return ('zero',)
        if tok == 'suc':
            return ('con', 'suc', [])
        while self.glued_dot():
            self.take('.')
            tok = tok + '.' + self.take()
        if '.' in tok:
            return ('con', tok.split('.')[-1].split('::')[-1], [])
        if is_constructor(self.m, tok):
            return ('con', tok, [])
        return ('var', tok)


def is_constructor(module, name):
    return module.names.get(name) == ('constructor',) or name in ('Some', 'None', 'pos', 'negsuc', 'Less', 'Equal', 'Greater') and name in module.names


def bound(pat):
    if pat[0] == 'var':
        return {pat[1]}
    if pat[0] == 'cons':
        return bound(pat[1]) | bound(pat[2])
    if pat[0] in ('con',):
        return set().union(*[bound(p) for p in pat[2]]) if pat[2] else set()
    if pat[0] == 'tuple':
        return set().union(*[bound(p) for p in pat[1]])
    return set()


def match(pat, x, env):
    kind = pat[0]
    if kind == 'var':
        env[pat[1]] = x
        return True
    if kind == 'any':
        return True
    x = force(x)
    if kind == 'nil':
        return x == []
    if kind == 'cons':
        return isinstance(x, list) and x != [] and match(pat[1], x[0], env) and match(pat[2], x[1:], env)
    if kind == 'bool':
        return x is pat[1]
    if kind == 'zero':
        return x == 0
    if kind == 'tuple':
        return all(match(p, y, env) for p, y in zip(pat[1], x))
    if pat[1] == 'suc':
        return x > 0 and match(pat[2][0], x - 1, env)
    return x.name == pat[1] and all(match(p, y, env) for p, y in zip(pat[2], x.args))


MODULES = {}


def load(path):
    """The module of a path below Rattle, as `xb_bits.specs.Word`."""
    if path in MODULES:
        return MODULES[path]
    m = MODULES[path] = Scope(path)
    crate, _, rest = path.partition('.')
    if crate in ('std', 'core', 'std_alloc'):
        m.names = {k: ('native', v) for k, v in STD.items()}
        for c in ('Some', 'None', 'Less', 'Equal', 'Greater', 'pos', 'negsuc'):
            m.names[c] = ('constructor',)
        return m
    if 'declared' in rest:
        return m
    file = os.path.join(ROOT, crate, *rest.split('.')) + '.antt'
    text = open(file, encoding='utf-8').read()
    chunks, lines = [], text.split('\n')
    for line in lines:
        if line.strip().startswith('--') or not line.strip():
            continue
        if line[0] not in ' \t})':
            chunks.append([line])
        elif chunks:
            chunks[-1].append(line)
    for chunk in chunks:
        if chunk[0].startswith('use ') or chunk[0].startswith('pub use '):
            use(m, ' '.join(chunk))
    sigs = set()
    for chunk in chunks:
        head = chunk[0]
        words = head.split()
        if words[0] in ('use', 'pub', 'abbrev', 'unfoldable') or words[0] in ('data', 'record'):
            if 'data' in words[:3]:
                for line in chunk[1:]:
                    for c in line.partition(':')[0].split():
                        m.names[c] = ('constructor',)
                continue
            if 'record' in words[:2]:
                continue
            if 'use' in words[:2] or 'mod' in words[:2]:
                continue
            name = re.sub(r'^((abbrev|unfoldable|pub)\s+)*', '', head).split()[0]
            sigs.add(name)
            m.names.setdefault(name, ('clauses', []))
            continue
    for chunk in chunks:
        name = chunk[0].split()[0]
        if name in sigs and not re.match(r'(abbrev|unfoldable|pub|use|data|record)\b', chunk[0]):
            m.names[name][1].append(chunk)
    return m


def use(m, text):
    text = re.sub(r'^(pub )?use ', '', text).strip()
    as_ = re.match(r'^Rattle\.(\S+) as (\S+)$', text)
    if as_:
        m.modules[as_.group(2)] = as_.group(1)
        return
    braces = re.match(r'^(?:Rattle\.)?(\S+)\.\{(.*)\}$', text)
    path, names = braces.group(1), [n.strip() for n in braces.group(2).split(',')]
    for n in names:
        n = n.split(' as ')[-1]
        m.names.setdefault(n, ('from', path, n))
        if '.declared.' in path and not re.match(r'^(fold|map|out|roll)-', n):
            sort = path.split('.')
            if n not in sort or sort[-1] == n and n in SORTS.get(n, {}):
                m.names[n] = ('constructor',) if not n.endswith('-F') else ('type',)
            if n == sort[-1] and n not in ('Token',):
                m.names[n] = ('type',)
        elif path.split('.')[0] in ('std', 'core') and n in ('Some', 'None', 'Less', 'Equal', 'Greater', 'pos', 'negsuc'):
            m.names[n] = ('constructor',)
        elif '.declared.' not in path:
            other = load(path)
            if other.names.get(n) == ('constructor',):
                m.names[n] = ('constructor',)


def lookup(m, name):
    if '.' in name:
        head, _, rest = name.partition('.')
        path = m.modules[head]
        if '.declared.' in path:
            return Con(rest)
        return lookup(load(path), rest)
    entry = m.names.get(name)
    if entry is None:
        if name in STD:
            return STD[name]
        raise NameError('%s: %s' % (m.path, name))
    if entry[0] == 'value':
        return entry[1]
    if entry[0] == 'native':
        return entry[1]
    if entry[0] == 'constructor':
        return STD.get(name, Con(name))
    if entry[0] == 'type':
        return UNIT
    if entry[0] == 'from':
        word = re.match(r'^(fold|map|out|roll)-(\w+)$', name)
        if '.declared.' in entry[1] or word:
            kind, sort = word.group(1), word.group(2)
            sort = 'CoreShape' if (sort, entry[1].partition('.')[0]) == ('Shape', 'dslx_core') else sort
            return fold(sort) if kind == 'fold' else mapped(sort) if kind == 'map' else IDENTITY
        return lookup(load(entry[1]), entry[2])
    value = compile_clauses(m, name, entry[1])
    m.names[name] = ('value', value)
    return value


def compile_clauses(m, name, chunks, outer=frozenset()):
    """A definition from its clauses."""
    clauses = [clause(m, name, chunk, outer) for chunk in chunks]
    if not clauses:
        return UNIT
    arity = len(clauses[0][0])

    def make(env0):
        def run(*args):
            for pats, body, helpers in clauses:
                env = dict(env0)
                if all(match(p, a, env) for p, a in zip(pats, args)):
                    for h, build in helpers:
                        env[h] = build(env)
                    return evaluate(m, body, env)
            raise ValueError('no clause of %s at %r' % (name, [force(a) for a in args]))
        return Fn(arity, run) if arity else Thunk(run)
    return make({}) if not outer else make


def clause(m, name, lines, outer):
    """A clause: its patterns, its body, and its `where` helpers."""
    for k, line in enumerate(lines):
        if re.match(r'^\s+where\s*$', line):
            break
    else:
        k = len(lines)
    p = Parser(lex('\n'.join(lines[:k])), m)
    p.take(name)
    pats = []
    while p.peek() != '=':
        pats.append(p.pattern())
    p.take('=')
    names = set(outer).union(*[bound(x) for x in pats]) if pats else set(outer)
    helpers = []
    rest = lines[k + 1:]
    if rest:
        indent = len(rest[0]) - len(rest[0].lstrip())
        groups = []
        for line in rest:
            if len(line) - len(line.lstrip()) == indent and line[indent] not in '})':
                groups.append([line[indent:]])
            else:
                groups[-1].append(line[indent:])
        order_, table = [], {}
        for g in groups:
            h = g[0].split()[0]
            if h not in table:
                table[h] = []
                order_.append(h)
            else:
                table[h].append(g)
        seen = set(names)
        for h in order_:
            seen.add(h)
            helpers.append((h, helper(m, h, table[h], frozenset(seen))))
        names |= set(order_)
    body = p.expr(frozenset(names))
    if p.peek() is not None:
        raise SyntaxError('%s: %s: left: %s' % (m.path, name, [x[0] for x in p.t[p.i:p.i + 10]]))
    return pats, body, helpers


def helper(m, name, chunks, seen):
    make = compile_clauses(m, name, chunks, seen)

    def build(env):
        inner = dict(env)
        value = make(inner)
        inner[name] = value
        return value
    return build


def delay(m, node, env):
    kind = node[0]
    if kind == 'lit':
        return node[1]
    if kind == 'var':
        return env[node[1]]
    return Thunk(lambda: evaluate(m, node, env))


def evaluate(m, node, env):
    while True:
        kind = node[0]
        if kind == 'lit':
            return node[1]
        if kind == 'var':
            return force(env[node[1]])
        if kind == 'con':
            return Con(node[1])
        if kind == 'global':
            return force(lookup(m, node[1]))
        if kind == 'app':
            f = evaluate(m, node[1], env)
            return apply(f, [delay(m, a, env) for a in node[2]])
        if kind == 'op':
            f = OPS[node[1]][3]
            if f is None:
                return UNIT
            return apply(f, (delay(m, node[2], env), delay(m, node[3], env)))
        if kind == 'if':
            node = node[2] if evaluate(m, node[1], env) else node[3]
            continue
        if kind == 'let':
            env = dict(env)
            env[node[1]] = delay(m, node[2], {k: v for k, v in env.items()})
            node = node[3]
            continue
        if kind == 'lam':
            names, body = node[1], node[2]

            def run(*args, env=env, names=names, body=body):
                inner = dict(env)
                inner.update(zip(names, args))
                return evaluate(m, body, inner)
            return Fn(len(names), run)
        if kind == 'tuple':
            return tuple(delay(m, x, env) for x in node[1])
        if kind == 'record':
            r = dict(evaluate(m, node[1], env)) if node[1] is not None else {}
            for f, e in node[2]:
                r[f] = delay(m, e, env)
            return r
        if kind == 'field':
            r = evaluate(m, node[1], env)
            return force(r[int(node[2])] if isinstance(r, tuple) else r[node[2]])
        if kind == 'elim':
            x = evaluate(m, node[1], env)
            for pat, body in node[2]:
                inner = dict(env)
                if match(pat, x, inner):
                    env, node = inner, body
                    break
            else:
                raise ValueError('no case')
            continue
        raise ValueError(kind)


def show(x):
    x = force(x)
    if isinstance(x, dict):
        return '{%s}' % ', '.join('%s=%s' % (k, show(v)) for k, v in x.items())
    if isinstance(x, list):
        if x and all(isinstance(force(y), int) and not isinstance(force(y), bool) and 32 <= force(y) < 127 for y in x):
            return '"%s"' % ''.join(chr(force(y)) for y in x)
        return '[%s]' % ', '.join(show(y) for y in x)
    if isinstance(x, tuple):
        return '(%s)' % ', '.join(show(y) for y in x)
    if isinstance(x, Con):
        return x.name + ''.join(' (%s)' % show(a) for a in x.args)
    return repr(x)


def tree_module():
    m = Scope('tree')
    m.modules = {'s': 'x.declared.Stmt', 'n': 'x.declared.Node', 'p': 'x.declared.Shape', 't': 'x.declared.TypeNode',
                 'd': 'x.declared.Definition', 'm': 'x.declared.ConfigStatement', 'o': 'x.declared.Binary'}
    for w in ('Minus', 'Not', 'In', 'Out'):
        m.names[w] = ('constructor',)
    for sort in ORDER:
        m.names['roll-' + sort] = ('from', 'x.declared.X', 'roll-' + sort)
    return m


def fault_text(f):
    f = force(f)
    if f.name == 'None':
        return 'ok'
    f = force(f.args[0])
    a = [force(x) for x in f.args]
    if f.name == 'Broken':
        return 'rule %d %d %d' % (force(a[0]['0']), force(a[1]['from']), force(a[1]['to']))
    limit = a[-1]
    return 'limit %s %d %d' % (force(limit['what']).name.lower(), force(limit['found']), force(limit['most']))


def answer(module, wanted):
    kind, top = wanted.split()[0], NONE
    if kind in ('ok', 'rule', 'limit'):
        f = lookup(load('dslx_meaning.specs.Rules.NetworkLimits'), 'refusal_of')
        return fault_text(apply(f, (module, top)))
    if kind == 'value':
        items = apply(lookup(load('dslx_meaning.specs.Items'), 'meanings_of'), (module,))
        v = force(apply(force(items['constant']), ([ord('X')],)))
        b = force(v.args[0]).args
        return 'value %s %d %d' % (str(force(b[0])).lower(), force(force(b[1])['width']), force(force(b[1])['value']))
    if kind == 'height':
        return 'height %d' % force(apply(lookup(load('dslx_parser.specs.Depths.TreeDepths'), 'tree_depth'), (module,)))
    if kind == 'core':
        return core_text(module, wanted)
    if kind == 'steps':
        return steps_text(module, wanted)
    if kind == 'sent':
        net = load('dslx_meaning.specs.Network')
        bs = force(apply(lookup(net, 'behaviors_of'), (module, top)))
        b = force(bs[0])
        head = force(force(apply(lookup(net, 'network_of'), (module, top)))['procs'])[0]
        turn = force(apply(force(b['turn']), (force(force(head)['init']), [], 0)))
        return 'sent ' + show(turn)
    if kind == 'net':
        return 'net ' + net_words(apply(lookup(load('dslx_meaning.specs.Network'), 'network_of'), (module, top)))
    if kind == 'made':
        return made_text(module, wanted)
    if kind == 'turns':
        # what the first proc does in an activation from its opening state over the words of 8 bits
        words = [{'width': 8, 'value': int(w, 0)} for w in wanted.partition('|')[0].split()[1:]]
        net = load('dslx_meaning.specs.Network')
        b = force(force(apply(lookup(net, 'behaviors_of'), (module, top)))[0])
        init = force(force(force(apply(lookup(net, 'network_of'), (module, top)))['procs'])[0])['init']
        turns = [show(apply(force(b['turn']), (init, words, i))) for i in range(len(force(b['sites'])))]
        return '%s| %s ; %s' % (wanted.partition('|')[0], ', '.join(turns), show(apply(force(b['next_state']), (init, words))))
    if kind == 'run':
        import spec_net
        given = wanted.partition('|')[0]
        words = {part.split()[0]: part.split()[1:] for part in given.partition(' ')[2].partition(' ')[2].split(';') if part.strip()}
        net = load('dslx_meaning.specs.Network')
        lines = spec_net.run(apply(lookup(net, 'network_of'), (module, top)), apply(lookup(net, 'behaviors_of'), (module, top)), words, int(given.split()[1]))
        return '%s| %s' % (given, ' / '.join(lines))
    raise ValueError(wanted)


def net_words(n):
    n = force(n)
    procs = ' '.join('%s(%s)' % (text(p, 'path'), ' '.join('%s%d' % ('!' if force(force(s)['sends']) else '?', force(force(s)['chan']))
                                                           for s in force(force(p)['sites']))) for p in force(n['procs']))
    chans = ' '.join('%s:%s:%d' % (text(c, 'name'), force(force(c)['kind']).name, force(force(c)['depth'])) for c in force(n['chans']))
    return '%s | %s' % (procs, chans)


def made_text(module, wanted):
    """The network of the checked text that is made of instances of procs over instances of functions."""
    given = wanted.partition(' |')[0]
    items = apply(lookup(load('dslx_meaning.specs.Items'), 'meanings_of'), (module,))
    procs, _, functions = given.partition(' ')[2].partition(';')
    functions = instances_of(module, items, [i for i in functions.split(',') if i.strip()])
    named = [{'name': list(i.split()[0].encode()), 'parametric_args': parametric_args_of(i)} for i in procs.split(',')]
    table = force(apply(lookup(load('dslx_core.specs.Networks.Procs'), 'procs_from'), (module, items, functions, [], named)))
    proc = force(apply(lookup(load('dslx_meaning.specs.Network'), 'as_proc'),
                       (apply(lookup(load('dslx_meaning.specs.Items'), 'item_named'), (named[-1]['name'], force(module)['items'])),))).args[0]
    making = load('dslx_core.specs.Networks.Assembly')
    outer = force(apply(lookup(making, 'lower_outers'), (items, proc)))
    if 'None' in (table.name, outer.name):
        return given + ' | none'
    design = {'name': named[-1]['name'], 'outer': outer.args[0], 'functions': [], 'procs': apply(lookup(making, 'instances_alone'), (table.args[0],))}
    return '%s | %s' % (given, net_words(apply(lookup(load('dslx_core.specs.Designs'), 'core_network'), (design,))))


def instances_of(module, items, words):
    """The instances of functions of these names and number arguments, or None."""
    instances = [{'name': list(i.split()[0].encode()), 'parametric_args': parametric_args_of(i)} for i in words]
    table = force(apply(lookup(load('dslx_core.specs.Lowering.Functions'), 'instances_from'), (module, items, [], instances)))
    return None if table.name == 'None' else table.args[0]


def parametric_args_of(words):
    return [Con('Bits', [False, {'width': 32, 'value': int(n)}]) for n in words.split()[1:]]


def core_text(module, wanted):
    given = wanted.partition(' |')[0]
    items = apply(lookup(load('dslx_meaning.specs.Items'), 'meanings_of'), (module,))
    table = instances_of(module, items, given.partition(' ')[2].split(';'))
    if table is None:
        return given + ' | none'
    return given + ' | ' + core_words(force(force(force(table)[-1])['function'])['body'])


def steps_text(module, wanted):
    """The steps of the first proc of a text, behind instances of functions."""
    given = wanted.partition(' |')[0]
    items = apply(lookup(load('dslx_meaning.specs.Items'), 'meanings_of'), (module,))
    first, _, others = given.partition(' ')[2].partition(';')
    table = instances_of(module, items, [i for i in others.split(';') if i.strip()])
    name = list(first.split()[0].encode())
    proc = [force(force(i)['definition']).args[0] for i in force(force(module)['items']) if force(force(i)['definition']).name == 'Proc']
    proc = [p for p in proc if deep(force(force(p)['name'])['name']) == name][0]
    steps = load('dslx_core.specs.Lowering.Steps')
    known = apply(lookup(steps, 'proc_globals'), (module, items, table, proc, parametric_args_of(first)))
    got = force(apply(lookup(steps, 'lower_next'), (known, proc)))
    if got.name == 'None':
        return given + ' | none'
    got = force(got.args[0])
    return '%s | %s => %s' % (given, '; '.join(step_words(s) for s in force(got['steps'])), core_words(got['next']))


def step_words(s):
    s = force(s)
    if s.name == 'Bind':
        return core_words(s)
    r = force(s.args[0])
    condition = force(r['condition'])
    if condition.name == 'Some':
        condition = force(condition.args[0])
        parts = list(condition) if isinstance(condition, tuple) else [condition]
    else:
        parts = []
    shown = [r['member'], r['word']] + parts if s.name == 'Receive' else [r['member']] + parts + [r['word']]
    return '%s%s(%s)' % (s.name, 'If' if parts else '', ', '.join(core_words(x) for x in shown + [r['shape']]))


def core_words(x):
    """A core expression: each kind with its parts, words as WIDTH:NUMBER."""
    x = force(x)
    if isinstance(x, dict):
        if 'width' in x:
            return '%d:%d' % (force(x['width']), force(x['value']))
        return '%s => %s' % (' | '.join(core_words(s) for s in force(x['shapes'])), core_words(x['value']))
    if isinstance(x, list):
        return '[%s]' % ', '.join(core_words(y) for y in x)
    if isinstance(x, Con):
        return x.name + ('(%s)' % ', '.join(core_words(a) for a in x.args) if x.args else '')
    return str(x)


def text(record, field):
    return ''.join(chr(force(c)) for c in force(force(record)[field]))


STATUS = []


def main():
    bad = count = 0
    only = [a[2:] for a in sys.argv[1:] if a.startswith('--')]
    for path in [a for a in sys.argv[1:] if not a.startswith('--')]:
        for name, wanted, text in dslx_terms.examples(path):
            if only and name not in only:
                continue
            m = tree_module()
            try:
                term = dslx_terms.Reader(text).module()
                node = Parser(lex(term), m).expr(frozenset())
                got = answer(Thunk(lambda: evaluate(m, node, {})), wanted)
            except Exception as e:
                if only:
                    raise
                got = 'error %s: %s' % (type(e).__name__, str(e)[:300])
            count += 1
            if got != wanted:
                bad += 1
                print('%s: %s, wanted %s\n    %s' % (name, got, wanted, text))
    print('%d examples, %d wrong' % (count, bad))
    STATUS.append(1 if bad or not count else 0)


if __name__ == '__main__':
    sys.modules['spec_run'] = sys.modules[__name__]  # what spec_net imports
    sys.setrecursionlimit(1000000)
    threading.stack_size(1 << 29)
    t = threading.Thread(target=main)
    t.start()
    t.join()
    sys.exit(STATUS[0] if STATUS else 1)
