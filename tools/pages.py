#!/usr/bin/env python3
"""Writes the tables of the pages that stand between two markers, and says whether the pages speak of what is there.

usage: pages.py [--check]

The table of crates of docs/ARCHITECTURE.md has each crate of crates.txt with the first sentence of its source and the crates that it
stands on (but for those that stand below another one of them). All others are those of docs/rules.txt, each in one page. With --check
nothing is written, and it fails where a table isn't that. It also fails where a page (README.md, docs/*.md, tools/README.md)

- has a link to a file or a heading that isn't there, or to a source that lacks a name in backticks of the link's text;
- names a path in backticks that isn't there;
- is longer than it may be;

where a table of docs/PROVED.md names as a contract what is no function, clause or type of the row's files and no word of any
specs/, or as a mutant what stands in no must-fail/ or mutants/; where README.md lacks a crate of the kit that is used; and where
tools/README.md lacks a tool.
"""
import functools
import glob
import os
import re
import sys

sys.dont_write_bytecode = True
import rules

MAP, PROVED, TOOLS = 'docs/ARCHITECTURE.md', 'docs/PROVED.md', 'tools/README.md'
CRATES, RULES = 'crates', 'docs/rules.txt'
WRITTEN = re.compile(r'(<!-- ([\w ]+): written by tools/pages\.py(?: from docs/rules\.txt)? -->\n\n).*?(\n\n<!-- \2: end -->)', re.S)
MOST = 95
SIZES = {'docs/DECISIONS.md': 26000, 'docs/PROVING.md': 20000, 'README.md': 8_000, MAP: 20_480, PROVED: 40_000}
LINK = re.compile(r'\[([^\]]*)\]\(([^)\s]+)\)')
NAME = re.compile(r'`(\w+)`')
PATH = re.compile(r'`((?:crates|docs|tools|examples|\.ci)/[^`\s]*|crates\.txt|HANDLES)[^`]*`')
DEFINED = r'\b(?:fn|struct|enum|trait|type|const|mod|ensures|requires) %s\b'
VARIANT = r'^\s+%s\s*[,({]'
WORD = re.compile(r'^\s*(?:(?:abbrev|unfoldable|pub|record|data) )+\(?([A-Z]\w*)', re.M)


@functools.cache
def text_of(path):
    with open(path, encoding='utf-8') as file:
        return file.read()


def crates():
    """Each crate with the libraries of its line, and those of them that are the kit's."""
    lines = [line.partition('#')[0].partition(':') for line in text_of('crates.txt').splitlines()]
    uses = {head.split()[0]: rest.split() for head, colon, rest in lines if colon}
    return {name: [it for it in below if it in uses] for name, below in uses.items()}, {it for below in uses.values() for it in below} - {*uses}


def what_it_is(name):
    """The first sentence of a crate's source."""
    path = next(it for it in (f'crates/{name}/src/lib.rt', f'crates/{name}/src/main.rt') if os.path.exists(it))
    head = re.match(r'(?://!.*\n)*', text_of(path)).group()
    paragraph = ' '.join(head.partition('//!\n')[0].replace('//!', '').split())
    sentence = re.split(r'\. (?=[A-Z])|, in a crate of their own', paragraph)[0].rstrip('.')
    return sentence.partition(':')[0] if len(sentence) > MOST else sentence


def table():
    """The rows of the table of crates, and the crates that are tests alone."""
    uses, _ = crates()
    closed = {}
    for name, below in uses.items():
        closed[name] = {*below}.union(*(closed[it] for it in below))
    tests = [name for name in uses if name.endswith(('_samples', '_tests'))]
    rows = ['| crate | what it is | stands on |', '|---|---|---|']
    for name, below in uses.items():
        if name not in tests:
            direct = [it for it in below if not any(it in closed[other] for other in below)]
            rows.append(f'| `{name}` | {what_it_is(name)} | {" ".join(direct)} |')
    return '\n'.join([*rows, '', f'Tests alone: {", ".join(f"`{name}`" for name in tests)}.'])


def slugs(page):
    """The anchors of a page's headings."""
    heads = re.findall(r'^#+ (.*)$', text_of(page), re.M)
    return {re.sub(r'[^\w\- ]', '', head.lower()).replace(' ', '-') for head in heads}


def is_defined(name, path):
    """Whether a source, or one of a folder, has this function, clause, type or variant."""
    paths = [path] if path.endswith('.rt') else glob.glob(f'{path}/**/*.rt', recursive=True)
    form = f'(?:{DEFINED}|{VARIANT})' % (name, name) if name[0].isupper() else DEFINED % name
    return any(re.search(form, text_of(it), re.M) for it in paths)


@functools.cache
def spec_words():
    """All words in capitals that specs/ define: records, relations, types."""
    return {word for path in glob.glob('crates/*/specs/**/*.antt', recursive=True) for word in WORD.findall(text_of(path))}


@functools.cache
def mutants():
    return {os.path.basename(path)[:-len('.edit')] for it in ('must-fail', 'mutants') for path in glob.glob(f'crates/*/{it}/*.edit')}


def targets(page, part):
    """The links of a part of a page: text, file, anchor."""
    for told, link in LINK.findall(part):
        if '://' not in link:
            path, _, anchor = link.partition('#')
            yield told, os.path.normpath(os.path.join(os.path.dirname(page), path)) if path else page, anchor


def spread(path):
    """The paths that one with `{a,b}` stands for."""
    before, brace, rest = path.partition('{')
    inner, _, after = rest.partition('}')
    return [f'{before}{it}{after}' for it in inner.split(',')] if brace else [path]


def links_at_fault(page):
    text = re.sub(r'^    .*$', '', text_of(page), flags=re.M)
    for told, path, anchor in targets(page, text):
        if not os.path.exists(path):
            yield f'{page}: no {path}'
        elif anchor and anchor not in slugs(path):
            yield f'{page}: no heading {anchor} in {path}'
        elif path.endswith('.rt'):
            yield from (f'{page}: no {name} in {path}' for name in NAME.findall(told) if not is_defined(name, path))
    for path in (it for found in PATH.findall(text) for it in spread(found)):
        if '/out' not in path and not glob.glob(path):
            yield f'{page}: no {path}'


def rows():
    """The rows of the tables of contracts: their files, the cell of contracts, the cell of mutants."""
    heads, files = [], []
    for line in text_of(PROVED).splitlines():
        cells = [it.strip() for it in line.strip('|').split('|')] if line.startswith('|') else []
        if not cells:
            heads = []
        elif not heads:
            heads = cells
        elif heads[0] == 'where' and not cells[0].startswith('---'):
            files = [path for _, path, _ in targets(PROVED, cells[0])] or files
            inner = [path for _, path, _ in targets(PROVED, cells[1])]
            yield files + inner, cells[1], cells[2] if heads[2].startswith('refused') else ''


def contracts_at_fault():
    for files, contracts, refused in rows():
        for name in NAME.findall(contracts):
            if name not in spec_words() and not any(is_defined(name, path) for path in files if not path.endswith('.antt')):
                yield f'{PROVED}: {name} is in none of {" ".join(files)}'
        yield from (f'{PROVED}: no mutant {name}' for name in NAME.findall(refused) if name not in mutants())
    yield from (f'{PROVED}: no mutant {name}' for name in re.findall(r'\(refused: `(\w+)`', text_of(PROVED)) if name not in mutants())


def sizes_at_fault():
    for page, most in SIZES.items():
        size = os.path.getsize(page)
        if size > most:
            yield f'{page}: {size} bytes, at most {most}'


def kit_at_fault():
    told = text_of('README.md')
    yield from (f'README.md: the kit\'s {name} is used, and not named' for name in sorted(crates()[1]) if f'`{name}`' not in told)
    for path in sorted(glob.glob('tools/*.*')):
        if path != TOOLS and f'`{os.path.basename(path)}`' not in text_of(TOOLS):
            yield f'{TOOLS}: no {path}'


def written(name):
    """The table of this name, as a page has it; None where there is none."""
    if name == CRATES:
        return table()
    return rules.markdown(name) if name in rules.tables() else None


def write_tables(pages, checks):
    """Writes the tables, or says which aren't what they should be."""
    wrong, found = [f'{RULES}: {it}' for it in rules.faults()], []
    for page in pages:
        text = text_of(page)
        names = [name for _, name, _ in WRITTEN.findall(text)]
        wrong += [f'{page}: no table {name}' for name in names if written(name) is None]
        wanted = WRITTEN.sub(lambda it: f'{it[1]}{written(it[2])}{it[3]}', text)
        if wanted != text and checks:
            wrong.append(f'{page}: a table is not what tools/pages.py writes')
        elif wanted != text:
            with open(page, 'w', encoding='utf-8') as file:
                file.write(wanted)
        found += names
    return wrong + [f'the table {name} is in {found.count(name)} pages' for name in [CRATES, *rules.tables()] if found.count(name) != 1]


def main():
    os.chdir(os.path.join(os.path.dirname(os.path.abspath(__file__)), '..'))
    checks = sys.argv[1:] == ['--check']
    pages = ['README.md', *sorted(glob.glob('docs/*.md')), TOOLS]
    wrong = write_tables(pages, checks)
    text_of.cache_clear()
    wrong += [line for page in pages for line in links_at_fault(page)]
    wrong += [*contracts_at_fault(), *sizes_at_fault(), *kit_at_fault()]
    print('\n'.join(wrong + [f'{len(pages)} pages, {len(wrong)} wrong']))
    return 1 if wrong else 0


if __name__ == '__main__':
    sys.exit(main())
