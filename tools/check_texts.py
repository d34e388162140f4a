#!/usr/bin/env python3
"""Runs `check` of the built program over many DSLX texts, and compares what it answers with what is wanted.

    tools/check_texts.py PROGRAM FILE ..

A FILE is a table as `spec_run.py` reads it, docs/rules.txt among them (its texts that are `ok` or refused for a `rule` or a `limit` are tried), or a list of cases, one a
line in JSON (those whose words begin with `check`). Prints each text that is answered otherwise, and ends with 1 if there is one.
"""

import json
import os
import subprocess
import sys
import tempfile

import dslx_terms


def wanted_line(wanted):
    """The status and the error line for what a table wants; nothing where it wants something else."""
    words = wanted.split()
    if words == ['ok']:
        return 0, ''
    if words[0] == 'rule':
        return 7, 'f.x: rule %s at %s..%s\n' % tuple(words[1:])
    if words[0] == 'limit':
        return 8, 'f.x: limit %s: %s, at most %s\n' % tuple(words[1:])
    return None


def texts_of_table(path):
    """The texts of a table, each with its name, words, files, status, and error line."""
    for name, wanted, text in dslx_terms.examples(path):
        due = wanted_line(wanted)
        if due:
            yield name, ['check', 'f.x'], {'f.x': text}, due[0], None, due[1]


def cases_of_list(path):
    """The same of a list of cases, with the output that is wanted."""
    with open(path, encoding='utf-8') as file:
        for line in file:
            case = json.loads(line)
            if case['words'][0] == 'check':
                yield case['name'], case['words'], case['files'], case['status'], case['out'], case['err']


def answer(program, words, files):
    """The status, the output and the error line of a call where these files stand."""
    with tempfile.TemporaryDirectory() as folder:
        for name, text in files.items():
            with open(os.path.join(folder, name), 'w', encoding='utf-8', newline='') as file:
                file.write(text)
        ran = subprocess.run([program, *words], cwd=folder, capture_output=True, text=True, timeout=60)
        return ran.returncode, ran.stdout, ran.stderr


def main():
    program = os.path.abspath(sys.argv[1])
    count = bad = 0
    for path in sys.argv[2:]:
        for name, words, files, status, out, err in (cases_of_list if path.endswith('.jsonl') else texts_of_table)(path):
            got = answer(program, words, files)
            count += 1
            if (got[0], got[2]) != (status, err) or out is not None and got[1] != out:
                bad += 1
                print('%s: %r, wanted %r' % (name, got, (status, out, err)))
    print('%d texts, %d answered otherwise' % (count, bad))
    return 1 if bad or not count else 0


if __name__ == '__main__':
    sys.exit(main())
