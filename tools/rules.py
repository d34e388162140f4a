"""Reads docs/rules.txt, the tables of what the program refuses, for tools/pages.py and tools/show_error.py."""

import functools
import os
import re

PATH = os.path.join(os.path.dirname(os.path.dirname(os.path.realpath(__file__))), 'docs', 'rules.txt')
HEAD = re.compile(r'\[([\w ]+)\] (.*)')


@functools.lru_cache(maxsize=None)
def tables():
    """Each table by its name: its head and its rows as they are written."""
    found = {}
    with open(PATH, encoding='utf-8') as file:
        for line in file.read().splitlines():
            head = HEAD.fullmatch(line)
            if head:
                rows = found[head.group(1)] = [head.group(2)]
            elif line and not line.startswith('#'):
                rows.append(line)
    return found


def cells(row):
    """The cells of a row, as they are meant."""
    return [it.replace(r'\|', '|') for it in row.split(' | ')]


def row_of(name, key):
    """The cells of the row of a table that begins with this number or word; None where there is none."""
    return next((found for found in map(cells, tables()[name][1:]) if found[0].strip('`') == key), None)


def cell_in(names, key, head):
    """What stands below this head in the row of this number or word, in the first of these tables that has the row; None where nothing does."""
    name = next((it for it in names if row_of(it, key)), None)
    heads = cells(tables()[name][0]) if name else []
    return row_of(name, key)[heads.index(head)] if head in heads else None


def markdown(name):
    """A table as the pages show it."""
    head, *rows = tables()[name]
    return '\n'.join([f'| {head} |', '|' + '---|' * len(cells(head)), *(f'| {it} |' for it in rows)])


def faults():
    """Rows with more or fewer cells than their head, and numbers and words that stand twice in a table."""
    for name, (head, *rows) in tables().items():
        yield from (f'{name}: not as many cells as the head: {it}' for it in rows if len(cells(it)) != len(cells(head)))
        keys = [cells(it)[0] for it in rows]
        yield from (f'{name}: {it} stands twice' for it in sorted({it for it in keys if keys.count(it) > 1}))
