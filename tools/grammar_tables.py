#!/usr/bin/env python3
"""Writes the tables of a grammar from its text, for a crate over `base::grammar`.

usage: grammar_tables.py GRAMMAR CRATE[/MODULE] [--kinds WHOLE OWNER] [--check]

GRAMMAR has a line `name = symbols | symbols | ..` for each nonterminal, the start first. An alternative with no
symbols derives nothing, `#` starts a comment, and an indented line goes on with the one above it. A symbol with no
line of its own is a kind of token. In the module MODULE (A/B where it is nested) of CRATE, the folder of a crate (crates/NAME), it writes
src/MODULE/generated/: `kind.rt`, `nonterminal.rt` and `production.rt`, which name the numbers, and `tables.rt`; and
specs/MODULE/Rules.antt, the rules by these names. Without a module they stand in src/ and specs/ of the crate itself. With --check nothing is written, and the exit status says whether these files are what would be written.

The kinds are numbered in the order of their names, with the mark at the end of each text, END, behind them. With
--kinds they are those of another grammar, WHOLE, in the module OWNER (CRATE/MODULE), and `kind.rt` is not written. The nonterminals
and the productions are numbered in the order of the text. Conflicts are reported, and fail. Nothing but
specs/Rules.antt rests on this script: the prover tests the tables and the names against the rules there.
"""
import os
import sys


def read(path):
    """The productions, each a head and a body, in the order of the text."""
    text = ''
    for line in open(path, encoding='utf-8'):
        line = line.split('#')[0].rstrip()
        if line:
            text += ' ' + line.strip() if line[0].isspace() else '\n' + line
    productions = []
    for line in text.strip().split('\n'):
        head, bodies = line.split('=', 1)
        productions += [(head.strip(), body.split()) for body in bodies.split('|')]
    return productions


class Grammar:
    def __init__(self, productions, kinds=None):
        self.productions = productions
        self.nonterminals = list(dict.fromkeys(head for head, _ in productions))
        names = {symbol for _, body in productions for symbol in body}
        self.kinds = kinds or sorted(names - set(self.nonterminals)) + ['END']
        unknown = names - set(self.nonterminals) - set(self.kinds)
        assert not unknown, 'neither nonterminals nor kinds: ' + ' '.join(sorted(unknown))
        self.nullable = set()
        self.first = {n: set() for n in self.nonterminals}
        self.follow = {n: set() for n in self.nonterminals}
        self.follow[self.nonterminals[0]].add('END')
        while self.grow():
            pass

    def begins(self, body, behind):
        """The kinds that may begin the body where these stand behind it."""
        out = set(behind)
        for symbol in reversed(body):
            if symbol not in self.first:
                out = {symbol}
            elif symbol in self.nullable:
                out = self.first[symbol] | out
            else:
                out = set(self.first[symbol])
        return out

    def grow(self):
        def size():
            return (len(self.nullable), sum(map(len, self.first.values())), sum(map(len, self.follow.values())))

        before = size()
        for head, body in self.productions:
            if all(symbol in self.nullable for symbol in body):
                self.nullable.add(head)
            self.first[head] |= self.begins(body, ())
            for i, symbol in enumerate(body):
                if symbol in self.follow:
                    self.follow[symbol] |= self.begins(body[i + 1:], self.follow[head])
        return size() != before

    def chosen(self, head, body):
        return self.begins(body, self.follow[head])

    def conflicts(self):
        found = []
        for i, (head, body) in enumerate(self.productions):
            for other_head, other in self.productions[:i]:
                both = self.chosen(head, body) & self.chosen(head, other) if head == other_head else ()
                if both:
                    found.append('%s: %s / %s before %s' % (head, shown(other), shown(body), ' '.join(sorted(both))))
        return found


def shown(body):
    return ' '.join(body) or '(nothing)'


def production_names(grammar):
    """A constant's name for each production: its nonterminal, and how the body begins where there are several."""
    heads = [head for head, _ in grammar.productions]
    names = []
    for head, body in grammar.productions:
        begin = body[0].upper() if body else 'NONE'
        names.append(head.upper() if heads.count(head) == 1 else head.upper() + '__' + begin)
    assert len(set(names)) == len(names), 'two productions of one name'
    return names


def first_line(source):
    return 'Written by tools/grammar_tables.py from %s.' % source


def constants(about, source, kind, rows):
    """A file of numbers: of each row a name, and a line about it where there is one."""
    out = ['//! ' + first_line(source), '//!', '//! %s.' % about, '']
    for number, (name, line) in enumerate(rows):
        out += ['/// %s' % line] if line else []
        out += ['pub const %s: %s = %d;' % (name, kind, number)]
        out += [''] if number + 1 < len(rows) else []
    return '\n'.join(out) + '\n'


def tables(grammar, source, owner):
    kinds = set(grammar.kinds)
    bit = {name: i for i, name in enumerate(grammar.kinds)}
    heads = [head for head, _ in grammar.productions]
    names = ['use super::nonterminal;', 'use %s::kind;' % owner.replace('/', '::')] if owner else ['use super::{kind, nonterminal};']
    out = ['//! ' + first_line(source), '//!', '//! The tables of the grammar.', '', *names, 'use base::grammar::Symbol::{Nonterminal, Terminal};',
            'use base::grammar::{Production, Span, Symbol};', '',
           '/// The bodies of the productions, one behind the other.',
           'pub static SYMBOLS: [Symbol; %d] = [' % sum(len(body) for _, body in grammar.productions)]
    for head, body in grammar.productions:
        out += ['    // %s = %s' % (head, shown(body))]
        out += ['    %s,' % ('Terminal(kind::%s)' % s if s in kinds else 'Nonterminal(nonterminal::%s)' % s.upper())
                for s in body]
    out += ['];', '', '/// The productions, with the kinds before which each is taken.',
            'pub static PRODUCTIONS: [Production; %d] = [' % len(heads)]
    at = 0
    for head, body in grammar.productions:
        chosen = sum(1 << bit[name] for name in grammar.chosen(head, body))
        out += ['    // %s = %s' % (head, shown(body)), '    Production {',
                '        head: nonterminal::%s,' % head.upper(), '        first: %d,' % at,
                '        end: %d,' % (at + len(body)), '        chosen: 0x%x,' % chosen, '    },']
        at += len(body)
    out += ['];', '', '/// Where the alternatives of each nonterminal stand.',
            'pub static SPANS: [Span; %d] = [' % len(grammar.nonterminals)]
    for name in grammar.nonterminals:
        places = [i for i, head in enumerate(heads) if head == name]
        assert places == list(range(places[0], places[-1] + 1)), 'two lines for ' + name
        fields = ['first: %d' % places[0], 'end: %d' % (places[-1] + 1)]
        out += ['    // %s' % name]
        if len(', '.join(fields)) <= 18:
            out += ['    Span { %s },' % ', '.join(fields)]
        else:
            out += ['    Span {'] + ['        %s,' % field for field in fields] + ['    },']
    return '\n'.join(out + ['];', ''])


def rules(grammar, names, source, crate, owner):
    """The rules by their names, as a definition for the prover; crate and owner are CRATE or CRATE/MODULE."""
    def declared(home, name):
        crate, _, module = home.partition('/')
        path = '.'.join([crate, 'specs.declared', *(module.split('/') if module else []), 'generated', name])
        return 'use Rattle.%s.TheConstants as %s' % (path, name)

    out = ['-- ' + first_line(source),
           '-- The rules of the grammar by their names.',
           'use Rattle.std.specs.Prelude.{ℕ, List, [], ◌∷◌}',
           'use Rattle.base.specs.Grammar.Syntax.{NamedRule, named}',
           'use Rattle.base.specs.declared.grammar.table.Symbol.TheVariants.{Terminal, Nonterminal}',
           declared(owner or crate, 'kind'), declared(crate, 'nonterminal'), declared(crate, 'production'), '']
    if not owner:
        out += ['-- the kinds of token by their names, in the order of these names, with the end mark behind them',
                'unfoldable pub kinds : List ℕ',
                'kinds = %s ∷ []' % ' ∷ '.join('kind.' + name for name in grammar.kinds), '']
    out += ['-- the nonterminals by their names, the start first',
            'unfoldable pub nonterminals : List ℕ',
            'nonterminals = %s ∷ []' % ' ∷ '.join('nonterminal.' + n.upper() for n in grammar.nonterminals), '',
            '-- of each rule the name, the nonterminal, and what it may be rewritten to',
            'unfoldable pub named_rules : List NamedRule', 'named_rules =']
    for (head, body), name in zip(grammar.productions, names):
        symbols = ['Nonterminal nonterminal.' + s.upper() if s in grammar.first else 'Terminal kind.' + s for s in body]
        symbols = '(%s ∷ [])' % ' ∷ '.join(symbols) if body else '[]'
        out += ['    named production.%s nonterminal.%s %s ∷' % (name, head.upper(), symbols)]
    return '\n'.join(out + ['    []', ''])


def files(grammar, source, crate, owner):
    names = production_names(grammar)
    shown_rules = ['`%s = %s`' % (head, shown(body)) for head, body in grammar.productions]
    kinds = constants('The kinds of token', source, 'u8', [(name, None) for name in grammar.kinds])
    heads = [(name.upper(), None) for name in grammar.nonterminals]
    module = crate.partition('/')[2]
    generated = 'src/%s/generated/' % module if module else 'src/generated/'
    named = 'specs/%s/Rules.antt' % '/'.join(map(str.capitalize, module.split('/'))) if module else 'specs/Rules.antt'
    return {
        **({} if owner else {generated + 'kind.rt': kinds}),
        generated + 'nonterminal.rt': constants('The nonterminals', source, 'u8', heads),
        generated + 'production.rt': constants('The productions', source, 'u16', list(zip(names, shown_rules))),
        generated + 'tables.rt': tables(grammar, source, owner),
        named: rules(grammar, names, source, crate, owner),
    }


def main():
    words = sys.argv[1:]
    check = '--check' in words
    words = [word for word in words if word != '--check']
    kinds = owner = None
    if '--kinds' in words:
        at = words.index('--kinds')
        kinds, owner = Grammar(read(words[at + 1])).kinds, words[at + 2]
        del words[at:at + 3]
    source, home = words
    folder, module = home.split('/')[:2], home.split('/')[2:]
    crate = '/'.join([folder[1], *module])
    folder = os.path.join(*folder)
    grammar = Grammar(read(source), kinds)
    conflicts = grammar.conflicts()
    if conflicts:
        sys.exit('\n'.join(conflicts))
    for name, text in files(grammar, 'docs/' + os.path.basename(source), crate, owner).items():
        path = os.path.join(folder, name)
        if not check:
            os.makedirs(os.path.dirname(path), exist_ok=True)
            open(path, 'w', encoding='utf-8').write(text)
        elif open(path, encoding='utf-8').read() != text:
            sys.exit('%s is not what %s gives' % (path, source))


main()
