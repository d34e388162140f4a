#!/usr/bin/env python3
"""Refuses a word that the specs/ of two crates define.

usage: check_names.py

A word is a name in capitals that a file below a crate's specs/ defines: a record, a relation by cases, a relation, a type.
Each is defined in one crate alone, but for those that docs/ARCHITECTURE.md lists under "Words that several crates have". It
also says which entries of that list one crate alone defines, or none: they may go.
"""
import collections
import glob
import os
import re
import sys

PAGE = 'docs/ARCHITECTURE.md'
HEADING = '### Words that several crates have'
DEFINITION = re.compile(r'\s*(?:abbrev |unfoldable )?(?:pub )?(?:record |data )?([A-Z]\w*)(?= [^=]*:|$)')


def words_of(path):
    """The words that a file defines."""
    for line in open(path, encoding='utf-8'):
        if re.match(r'\s*(?:abbrev |unfoldable )?pub (?!use |mod )|\s*(?:record|data) ', line):
            found = DEFINITION.match(line)
            if found:
                yield found.group(1)


def definitions():
    """The crates that define each word."""
    crates = collections.defaultdict(set)
    for path in glob.glob('crates/*/specs/**/*.antt', recursive=True):
        for word in words_of(path):
            crates[word].add(path.split(os.sep)[1])
    return crates


def listed():
    """The words that the page says several crates have."""
    page = open(PAGE, encoding='utf-8').read()
    part = page.partition(HEADING)[2].partition('\n#')[0]
    return {word for line in re.findall(r'^- .*$', part, re.M) for word in re.findall(r'`([A-Z]\w*)`', line)}


def main():
    os.chdir(os.path.join(os.path.dirname(os.path.abspath(__file__)), '..'))
    crates, own = definitions(), listed()
    wrong = ['%s is a word of %s' % (word, ' and '.join(sorted(crates[word])))
             for word in sorted(crates) if len(crates[word]) > 1 and word not in own]
    stale = ['%s lists %s, which is no word of two crates' % (PAGE, word)
             for word in sorted(own) if len(crates.get(word, ())) < 2]
    print('\n'.join(wrong + stale + ['%d words of specs, %d wrong' % (len(crates), len(wrong))]))
    return 1 if wrong or not crates else 0


if __name__ == '__main__':
    sys.exit(main())
