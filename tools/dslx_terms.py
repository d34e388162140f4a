#!/usr/bin/env python3
"""DSLX texts as terms of the trees of `dslx_tree`, for `spec_run.py`.

A text may use `Next(..)`, `Ends(..)` and `One(T, E)`, which stand for the procs that are written below. It is to be in the
grammar: the reader of the program is `dslx_parser`.
"""
import re

import rules

NEXT = 'proc M { config() { () } init { () } next(s: ()) { %s } }'
ENDS = ('proc M { a: chan<u8> in; b: chan<u8> out; config(a: chan<u8> in, b: chan<u8> out) { (a, b) } init { () } '
        'next(s: ()) { %s } }')
ONE = ('proc Main { b: chan<%s> out; config(b: chan<%s> out) { (b,) } init { () } next(s: ()) { send(join(), b, %s); } }')
TOKEN = re.compile(r'\s+|//[^\n]*|(0x[0-9a-fA-F_]+|0b[01_]+|[0-9][0-9_]*)|([A-Za-z_]\w*)|"(\w+)"|'
                   r'(\.\.\.|\.\.|::|\+:|\+\+|->|=>|==|!=|<=|>=|<<|>>|&&|\|\||[()\[\]{}<>,;:.+\-*/%&|^!=])')
TOP = 'proc Top { config() { } init { () } next(s: ()) { () } }'
LEVELS = [['*', '/', '%'], ['+', '-', '++'], ['<<', '>>'], ['&'], ['^'], ['|'],
          ['==', '!=', '<', '<=', '>', '>='], ['&&'], ['||']]
BINARY = {'*': 'Mul', '/': 'Div', '%': 'Rem', '+': 'Add', '-': 'Sub', '++': 'Concat', '<<': 'Shl', '>>': 'Shr', '&': 'And',
          '^': 'Xor', '|': 'Or', '==': 'Eq', '!=': 'Ne', '<': 'Lt', '<=': 'Le', '>': 'Gt', '>=': 'Ge', '&&': 'Both',
          '||': 'Either'}


def expand(text):
    """The text with the shorthand forms written out."""
    for word, form in (('Next', NEXT), ('Ends', ENDS), ('One', ONE)):
        at = re.search(r'(?<![\w])%s\(' % word, text)
        if at:
            depth, i = 1, at.end()
            comma = None
            while depth:
                c = text[i]
                depth += (c in '([{') - (c in ')]}')
                if c == ',' and depth == 1 and comma is None:
                    comma = i
                i += 1
            inside = text[at.end():i - 1]
            if word == 'One':
                t, e = text[at.end():comma], text[comma + 1:i - 1].strip()
                inside = ONE % (t, t, e)
            else:
                inside = form % inside
            text = text[:at.start()] + inside + text[i:]
    return text


class Reader:
    def __init__(self, text):
        self.toks = []
        i = 0
        while i < len(text):
            m = TOKEN.match(text, i)
            if not m:
                raise SyntaxError('%d: %r' % (i, text[i:i + 20]))
            if m.group(1):
                self.toks.append(('num', m.group(1), i, m.end()))
            elif m.group(2):
                self.toks.append(('name', m.group(2), i, m.end()))
            elif m.group(3) is not None:
                self.toks.append(('str', m.group(3), i, m.end()))
            elif m.group(4):
                self.toks.append(('op', m.group(4), i, m.end()))
            i = m.end()
        self.toks.append(('end', '', len(text), len(text)))
        self.i = 0
        self.kinds = {}
        for a, b in zip(self.toks, self.toks[1:]):
            if a[1] in ('fn', 'proc', 'struct', 'type', 'const', 'enum') and b[0] == 'name':
                self.kinds.setdefault(b[1], set()).add(a[1])

    def is_a(self, name, *kinds):
        """Whether some item of this name is of one of these kinds."""
        return not self.kinds.get(name, set()).isdisjoint(kinds)

    def peek(self, k=0):
        return self.toks[min(self.i + k, len(self.toks) - 1)]

    def at(self, *words):
        t = self.peek()
        return t[0] in ('op', 'name') and t[1] in words

    def take(self, word=None):
        t = self.peek()
        if word is not None and t[1] != word:
            raise SyntaxError('%d: %r where %r was wanted' % (t[2], t[1], word))
        self.i += 1
        return t

    def eat(self, word):
        if self.at(word):
            self.i += 1
            return True
        return False

    def start(self):
        return self.peek()[2]

    def end(self):
        return self.toks[self.i - 1][3]

    def span(self, start):
        return 'record { from = %d; to = %d }' % (start, self.end())

    def ident(self):
        t = self.take()
        if t[0] != 'name':
            raise SyntaxError('%d: %r is no name' % (t[2], t[1]))
        return '(record { span = record { from = %d; to = %d }; name = codes "%s" })' % (t[2], t[3], t[1])

    def listed(self, close, part):
        parts = []
        while not self.at(close):
            parts.append(part())
            if not self.eat(','):
                break
        self.take(close)
        return items(parts)

    # ---- types
    def bits(self, word):
        m = re.match(r'([us])([1-9][0-9]*)$', word)
        return m and int(m.group(2)) <= 128 and m

    def type(self):
        start = self.start()
        t = self.take()
        m = t[0] == 'name' and self.bits(t[1])
        if m:
            node = 't.Bits %s %s' % ('true' if m.group(1) == 's' else 'false', m.group(2))
        elif t[1] in ('uN', 'sN', 'bits'):
            self.take('[')
            e = self.expr()
            self.take(']')
            node = 't.Wide %s %s' % ('true' if t[1] == 'sN' else 'false', e)
        elif t[1] == 'bool':
            node = 't.Bool'
        elif t[1] == '(':
            node = 't.Tuple %s' % self.listed(')', self.type)
        elif t[0] == 'name':
            node = 't.Name (codes "%s")' % t[1]
        else:
            raise SyntaxError('%d: %r begins no type' % (t[2], t[1]))
        ty = '(roll-TypeExpr (record { span = %s; node = %s }))' % (self.span(start), node)
        while self.at('['):
            self.take('[')
            e = self.expr()
            self.take(']')
            ty = '(roll-TypeExpr (record { span = %s; node = t.Array %s %s }))' % (self.span(start), ty, e)
        return ty

    def begins_type(self):
        """Whether a type in front of `:` begins here in an expression."""
        t = self.peek()
        return t[0] == 'name' and (self.is_base(t[1]) or self.is_a(t[1], 'type'))

    def is_base(self, word):
        return self.bits(word) or word in ('uN', 'sN', 'bits', 'bool')

    # ---- expressions
    def number(self, ty, start):
        negative = self.eat('-')
        value = whole(self.take()[1])
        number = 'roll-Number (record { ty = %s; is_negative = %s; value = %d })' % (
            'Some %s' % ty if ty else 'None', 'true' if negative else 'false', value)
        return '(%s)' % number

    def mk(self, start, node):
        return '(roll-Expr (record { span = %s; node = %s }))' % (self.span(start), node)

    def elems(self, ty, start):
        self.take('[')
        parts, dots = [], 'false'
        while not self.at(']'):
            if self.eat('...'):
                dots = 'true'
                self.eat(',')
                break
            parts.append(self.expr())
            if not self.eat(','):
                break
        self.take(']')
        return self.mk(start, 'n.Array %s %s %s' % ('(Some %s)' % ty if ty else 'None', items(parts), dots))

    def args(self):
        if not self.eat('<'):
            return '[]'
        parts = []
        while True:
            start = self.start()
            if self.eat('{'):
                e = self.expr()
                self.take('}')
            elif self.peek()[0] == 'num':
                e = self.mk_number(None, start)
            elif self.is_base(self.peek()[1]) or self.peek(1)[1] in (':', '['):
                ty = self.type()
                self.take(':')
                e = self.mk_number(ty, start)
            else:
                name = self.take()[1]
                e = self.mk(start, 'n.Name (codes "%s")' % name)
            parts.append('(roll-Arg (record { span = %s; value = %s }))' % (self.span(start), e))
            if not self.eat(','):
                break
        self.take('>')
        return items(parts)

    def mk_number(self, ty, start):
        number = self.number(ty, start)
        return self.mk(start, 'n.Number %s' % number)

    def atom(self):
        start = self.start()
        t = self.peek()
        if t[0] == 'num':
            return self.mk_number(None, start)
        if t[1] == '[':
            return self.elems(None, start)
        if t[1] in ('true', 'false'):
            self.take()
            return self.mk(start, 'n.Bool %s' % t[1])
        if t[1] == '(':
            self.take()
            if self.eat(')'):
                return self.mk(start, 'n.Tuple []')
            e = self.expr()
            if self.eat(')'):
                return e
            self.take(',')
            rest = []
            while not self.at(')'):
                rest.append(self.expr())
                if not self.eat(','):
                    break
            self.take(')')
            return self.mk(start, 'n.Tuple %s' % items([e] + rest))
        if t[1] == '{':
            b = self.block()
            return self.mk(start, 'n.Block %s' % b)
        if t[1] == 'if':
            return self.if_()
        if t[1] == 'match':
            self.take()
            e = self.expr()
            self.take('{')
            arms = self.listed('}', self.arm)
            return self.mk(start, 'n.Match %s %s' % (e, arms))
        if t[1] == 'for':
            return self.for_()
        if self.begins_type():
            ty = self.type()
            self.take(':')
            if self.at('['):
                return self.elems(ty, start)
            return self.mk_number(ty, start)
        if t[0] != 'name':
            raise SyntaxError('%d: %r begins no expression' % (t[2], t[1]))
        name = self.ident()
        if self.eat('::'):
            a = self.ident()
            return self.mk(start, 'n.Member %s %s' % (name, a))
        if self.at('(') or (self.at('<') and self.is_a(t[1], 'fn', 'proc')):
            numbers = self.args() if self.at('<') else '[]'
            self.take('(')
            es = self.listed(')', self.expr)
            return self.mk(start, 'n.Call %s %s %s' % (name, numbers, es))
        if self.at('{') and self.is_a(t[1], 'struct'):
            self.take('{')
            fields, rest = [], 'None'
            while not self.at('}'):
                if self.eat('..'):
                    rest = '(Some %s)' % self.expr()
                    break
                f = self.ident()
                value = 'Some %s' % self.expr() if self.eat(':') else 'None'
                fields.append('(roll-FieldValue (record { name = %s; value = %s }))' % (f, value))
                if not self.eat(','):
                    break
            self.take('}')
            return self.mk(start, 'n.Struct %s %s %s' % (name, items(fields), rest))
        return self.mk(start, 'n.Name (codes "%s")' % t[1])

    def if_(self):
        start = self.start()
        self.take('if')
        c = self.expr()
        a = self.block()
        self.take('else')
        if self.at('if'):
            b = self.if_()
        else:
            at = self.start()
            b = self.mk_block(at)
        return self.mk(start, 'n.If %s %s %s' % (c, a, b))

    def mk_block(self, at):
        b = self.block()
        return self.mk(at, 'n.Block %s' % b)

    def arm(self):
        pats = [self.pattern()]
        while self.eat('|'):
            pats.append(self.pattern())
        self.take('=>')
        e = self.expr()
        return '(roll-Arm (record { patterns = %s; value = %s }))' % (items(pats), e)

    def for_(self):
        start = self.start()
        self.take('for')
        self.take('(')
        p = self.pattern()
        self.take(',')
        q = self.pattern()
        self.take(')')
        ty = 'Some %s' % self.type() if self.eat(':') else 'None'
        self.take('in')
        a = self.expr()
        self.take('..')
        b = self.expr()
        body = self.block()
        self.take('(')
        e = self.expr()
        self.take(')')
        f = ('(roll-For (record { index = %s; accumulator = %s; ty = %s; «from» = %s; to = %s; body = %s; start = %s }))'
             % (p, q, ty, a, b, body, e)).replace('«from»', 'from')
        return self.mk(start, 'n.For %s' % f)

    def post(self):
        start = self.start()
        e = self.atom()
        while True:
            if self.eat('['):
                a = self.expr()
                if self.eat(':'):
                    b = self.expr()
                    self.take(']')
                    e = self.mk(start, 'n.Slice %s %s %s' % (e, a, b))
                elif self.eat('+:'):
                    ty = self.type()
                    self.take(']')
                    e = self.mk(start, 'n.Part %s %s %s' % (e, a, ty))
                else:
                    self.take(']')
                    e = self.mk(start, 'n.Index %s %s' % (e, a))
            elif self.at('.') and self.peek(1)[0] in ('num', 'name'):
                self.take()
                if self.peek()[0] == 'num':
                    t = self.take()
                    e = self.mk(start, 'n.Element %s (record { from = %d; to = %d }) %d' % (e, t[2], t[3], whole(t[1])))
                else:
                    f = self.ident()
                    e = self.mk(start, 'n.Field %s %s' % (e, f))
            else:
                return e

    def prefix(self):
        start = self.start()
        if self.at('-', '!'):
            o = self.take()[1]
            e = self.prefix()
            return self.mk(start, 'n.Prefix %s %s' % ('Minus' if o == '-' else 'Not', e))
        return self.post()

    def cast(self):
        start = self.start()
        e = self.prefix()
        while self.eat('as'):
            ty = self.type()
            e = self.mk(start, 'n.Cast %s %s' % (e, ty))
        return e

    def expr(self, level=8):
        if level < 0:
            return self.cast()
        start = self.start()
        e = self.expr(level - 1)
        while self.peek()[0] == 'op' and self.peek()[1] in LEVELS[level]:
            o = self.take()[1]
            r = self.expr(level - 1)
            e = self.mk(start, 'n.Binary o.%s %s %s' % (BINARY[o], e, r))
        return e

    # ---- patterns and blocks
    def pattern(self):
        start = self.start()
        t = self.peek()
        if t[1] == '_':
            self.take()
            shape = 'p.Wild'
        elif t[1] in ('true', 'false'):
            self.take()
            shape = 'p.Bool %s' % t[1]
        elif t[1] == '(':
            self.take()
            shape = 'p.Tuple %s' % self.listed(')', self.pattern)
        elif self.peek(1)[1] == '::':
            e = self.ident()
            self.take('::')
            a = self.ident()
            shape = 'p.Member %s %s' % (e, a)
        elif self.is_base(t[1]) or self.peek(1)[1] == '[' or (
                self.peek(1)[1] == ':' and (self.peek(2)[0] == 'num' or self.peek(2)[1] == '-')):
            ty = self.type()
            self.take(':')
            shape = 'p.Number %s' % self.number(ty, start)
        else:
            self.take()
            shape = 'p.Name (codes "%s")' % t[1]
        return '(roll-Pattern (record { span = %s; shape = %s }))' % (self.span(start), shape)

    def block(self):
        start = self.start()
        self.take('{')
        statements, value = [], 'None'
        while not self.at('}'):
            at = self.start()
            if self.eat('let'):
                p = self.pattern()
                ty = 'Some %s' % self.type() if self.eat(':') else 'None'
                self.take('=')
                e = self.expr()
                self.take(';')
                statements.append('(s.Let (roll-Let (record { span = %s; pattern = %s; ty = %s; value = %s })))' % (self.span(at), p, ty, e))
            else:
                e = self.expr()
                if self.eat(';'):
                    statements.append('(s.Bare %s)' % e)
                else:
                    value = 'Some %s' % e
                    break
        self.take('}')
        return '(roll-Block (record { span = %s; statements = %s; value = %s }))' % (self.span(start), items(statements), value)

    # ---- items
    def parameters(self):
        if not self.eat('<'):
            return '[]'
        parts = []
        while True:
            name = self.ident()
            self.take(':')
            ty = self.type()
            default = 'None'
            if self.eat('='):
                self.take('{')
                default = 'Some %s' % self.expr()
                self.take('}')
            parts.append('(record { name = %s; ty = %s; default = %s })' % (name, ty, default))
            if not self.eat(','):
                break
        self.take('>')
        return items(parts)

    def field(self):
        name = self.ident()
        self.take(':')
        return '(record { name = %s; ty = %s })' % (name, self.type())

    def end_(self):
        name = self.ident()
        self.take(':')
        self.take('chan')
        self.take('<')
        ty = self.type()
        self.take('>')
        d = {'in': 'In', 'out': 'Out'}[self.take()[1]]
        return '(record { name = %s; word = %s; direction = %s })' % (name, ty, d)

    def config(self):
        start = self.start()
        self.take('config')
        self.take('(')
        ends = self.listed(')', self.end_)
        self.take('{')
        makings, result = [], '[]'
        while not self.at('}'):
            at = self.start()
            if self.eat('let'):
                self.take('(')
                p = self.ident()
                self.take(',')
                c = self.ident()
                self.take(')')
                self.take('=')
                self.take('chan')
                self.take('<')
                ty = self.type()
                depth = 'None'
                if self.at(','):
                    self.toks[self.i] = ('op', '<') + self.toks[self.i][2:]
                    depth = 'Some %s' % re.sub(r'^\((.*) ∷ \[\]\)$', r'\1', self.args())
                else:
                    self.take('>')
                self.take('(')
                t = self.take()
                self.take(')')
                self.take(';')
                string = '(record { span = record { from = %d; to = %d }; name = codes "%s" })' % (t[2], t[3], t[1])
                makings.append('(m.Channel (record { span = %s; sender = %s; receiver = %s; word = %s; depth = %s; name = %s }))'
                               % (self.span(at), p, c, ty, depth, string))
            elif self.eat('spawn'):
                target = self.ident()
                arguments = self.args()
                self.take('(')
                ends_ = self.listed(')', self.ident)
                self.take(';')
                makings.append('(m.Spawn (record { span = %s; target = %s; arguments = %s; ends = %s }))'
                               % (self.span(at), target, arguments, ends_))
            else:
                self.take('(')
                result = self.listed(')', self.ident)
                break
        self.take('}')
        return '(record { span = %s; ends = %s; config_statements = %s; result = %s })' % (self.span(start), ends, items(makings), result)

    def proc(self, start):
        name = self.ident()
        parameters = self.parameters()
        self.take('{')
        members, parts = [], {}
        while not self.at('config', 'init', 'next'):
            members.append(self.end_())
            self.take(';')
        while not self.at('}'):
            at = self.start()
            if self.at('config'):
                parts['config'] = self.config()
            elif self.eat('init'):
                parts['init'] = self.block()
            else:
                self.take('next')
                self.take('(')
                state = self.ident()
                self.take(':')
                ty = self.type()
                self.take(')')
                body = self.block()
                parts['next'] = '(record { span = %s; state = %s; ty = %s; body = %s })' % (self.span(at), state, ty, body)
        self.take('}')
        return 'd.Proc (record { span = %s; name = %s; parametrics = %s; members = %s; config = %s; init = %s; next = %s })' % (
            self.span(start), name, parameters, items(members), parts['config'], parts['init'], parts['next'])

    def item(self):
        public = 'true' if self.eat('pub') else 'false'
        start = self.start()
        word = self.take()[1]
        if word == 'fn':
            name = self.ident()
            parameters = self.parameters()
            self.take('(')
            arguments = self.listed(')', self.field)
            result = 'Some %s' % self.type() if self.eat('->') else 'None'
            body = self.block()
            d = 'd.Function (record { span = %s; name = %s; parametrics = %s; arguments = %s; result = %s; body = %s })' % (
                self.span(start), name, parameters, arguments, result, body)
        elif word == 'proc':
            d = self.proc(start)
        elif word == 'const':
            name = self.ident()
            ty = 'Some %s' % self.type() if self.eat(':') else 'None'
            self.take('=')
            e = self.expr()
            self.take(';')
            d = 'd.Constant (record { span = %s; name = %s; ty = %s; value = %s })' % (self.span(start), name, ty, e)
        elif word == 'type':
            name = self.ident()
            self.take('=')
            ty = self.type()
            self.take(';')
            d = 'd.Alias (record { span = %s; name = %s; ty = %s })' % (self.span(start), name, ty)
        elif word == 'struct':
            name = self.ident()
            self.take('{')
            fields = self.listed('}', self.field)
            d = 'd.Struct (record { span = %s; name = %s; fields = %s })' % (self.span(start), name, fields)
        elif word == 'enum':
            name = self.ident()
            self.take(':')
            ty = self.type()
            self.take('{')

            def member():
                a = self.ident()
                self.take('=')
                return '(record { name = %s; value = %s })' % (a, self.expr())
            members = self.listed('}', member)
            d = 'd.Enum (record { span = %s; name = %s; base = %s; members = %s })' % (self.span(start), name, ty, members)
        else:
            raise SyntaxError('%r begins no item' % word)
        return '(record { is_public = %s; definition = %s })' % (public, d)

    def module(self):
        parts = []
        while self.peek()[0] != 'end':
            parts.append(self.item())
        return 'record { items = %s }' % items(parts)


def whole(number):
    """The value of a number's token: `007` is 7."""
    digits = number.replace('_', '')
    return int(digits, 0) if digits[:2] in ('0x', '0b') else int(digits)


def items(parts):
    return '(%s)' % ' ∷ '.join(list(parts) + ['[]']) if parts else '[]'


def examples(path):
    """The texts of a table, each with its name and what is wanted: of docs/rules.txt those that stand beside the rules of the language."""
    with open(path, encoding='utf-8') as file:
        written = file.read()
    if path.endswith('rules.txt'):
        for number, _, text, line in map(rules.cells, rules.tables()['language rules'][1:]):
            text = text.strip('`')
            yield f'rule_{number}', re.sub(r' at |\.\.', ' ', line.strip('`')), text if 'proc' in text else f'{text} {TOP}'
    else:
        for part in re.split(r'\n\s*\n', written.strip()):
            name, wanted, *lines = part.split('\n')
            yield name.strip(), wanted.strip(), expand('\n'.join(lines))
