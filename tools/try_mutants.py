#!/usr/bin/env python3
"""Tries the mutants of crates: wrong bodies that the prover must refuse and that the gate doesn't try.

usage: try_mutants.py [--jobs N] [--ci] [NAME..]

A mutant is an edit crates/NAME/mutants/*.edit, in the form of a must-fail edit. The crates are copied to a temporary folder, and
there the mutants of the crates NAME (of all, if none is named) stand in place of their must-fail edits; the checkout isn't touched.
Those that each change the body of another function, and nothing else, are tried together: all in one copy, by the proofs of these
functions alone (`rt check --only`). A proof rests on the function's own body and on the contracts of others, so what is said at a
function is of its own mutant; a mutant of which a round says nothing goes into the next, and one that is proved, or of which nothing is said
alone, is tried as the others are. Each of these is first tried by the proofs of the functions that it changes. Then `rt check`
proves a crate of which some are left as it stands, and `rt must-fail` tries these by the whole crate. They take libraries that a checkout
on this machine built of the same text, and build the others one by one. With --ci it is one `rt ci NAME..` of the copy, with all mutants: that
proves the crates and all below them side by side, tests included, and keeps on this machine what it proved. N is how many processors to use,
else as many as there are.

For each mutant it prints what it came to: refused, by the function whose proof failed (or the file of specs or lemmas); refused at a limit of
the prover; refused for a name that a proof file cites and the edit took away, which says little; not refused; or not applicable: it can't be
applied or read, its check came to no end, or the crate isn't proved as it stands. That is kept in tools/mutants_tried.txt (crate, mutant, outcome,
function), where the lines of the crates that were tried are written anew, crate by crate (with --ci at the end), so that runs in parts add
up. It ends with 1 where some mutant is not refused or not applicable.
"""
import argparse
import collections
import glob
import os
import re
import shutil
import subprocess
import sys
import tempfile

TOP = os.path.normpath(os.path.join(os.path.dirname(os.path.abspath(__file__)), '..'))
PAGE = os.path.join(TOP, 'tools', 'mutants_tried.txt')
REFUSED, AT_LIMIT, FOR_A_NAME = 'refused', 'refused at a limit', 'refused for a name'
MISSED, NOT_APPLICABLE = 'NOT REFUSED', 'NOT APPLICABLE'
# A line of rt on one edit, and the place that it names.
RESULT = re.compile(r'rt: must-fail (\w+)/(\S+)\.edit: (.*)')
PLACE = re.compile(r'(?:\./)?((?:src|specs|proofs)/\S+?\.(?:rt|antt)):(\d+):\d+:')

# A function of a source file with its indent, and the type and trait of an impl.
FUNCTION = re.compile(r'^( *)(?:pub(?:\([a-z]+\))? )?(?:const )?fn (\w+)', re.M)
IMPL = re.compile(r'^impl(?:<[^{]*?>)? (?:(?:\w+::)*(\w+)(?:<[^{]*?>)? for )?(?:\w+::)*(\w+)', re.M)
# What the prover says of a place: that it refuses something there, or whatever it notes; that a proof file lost a name; that it can't read a text.
OPEN = re.compile(r'(note: )?\S+:\d+:\d+: (error|it is not proved)')
TOLD = re.compile(OPEN.pattern + r'|note: \S+:\d+:\d+: ')
OF_A_NAME = re.compile(r'(note: )?(\./)?proofs/.*(has no field|is not in scope|has no `|was not admitted)')
UNREAD = re.compile(r'(\./)?(src|specs)/\S+:\d+:\d+: error: ([^`]|.*(is not in scope|has no field|is no name))')
NOT_PROVED = ('not proved', 'no proof')

# A part of a source file, and what stands there in its place.
Change = collections.namedtuple('Change', 'path start end new')
Tried = collections.namedtuple('Tried', 'crate mutant outcome where')


def read(*path):
    """The text of a file."""
    with open(os.path.join(*path), encoding='utf-8') as file:
        return file.read()


def mutants():
    """The names of the mutants of each crate that has some."""
    found = collections.defaultdict(list)
    for path in sorted(glob.glob(os.path.join(TOP, 'crates', '*', 'mutants', '*.edit'))):
        folder, name = os.path.split(path)
        found[os.path.basename(os.path.dirname(folder))].append(name[:-len('.edit')])
    return found


def copy_crates(room, names):
    """Copies the crates without what checks left there, with the mutants of the named ones as the only must-fail edits."""
    def left_out(folder, _):
        return ['out', 'must-fail'] if os.path.dirname(folder) == os.path.join(TOP, 'crates') else []

    shutil.copytree(os.path.join(TOP, 'crates'), os.path.join(room, 'crates'), ignore=left_out)
    for file in ('crates.txt', 'HANDLES'):
        shutil.copy(os.path.join(TOP, file), room)
    for name in names:
        os.rename(os.path.join(room, 'crates', name, 'mutants'), os.path.join(room, 'crates', name, 'must-fail'))


def last(pattern, text, at):
    """The last match that starts at or before an offset; None where there is none."""
    found = [it for it in pattern.finditer(text) if it.start() <= at]
    return found[-1] if found else None


def path_of(source, text, at):
    """The path of the function in which an offset of a source file stands, below its crate or the end of it, as `rt check --only` takes it."""
    path = os.path.splitext(source)[0].split('/')[1:]
    path = path[:-1] if path[-1] in ('lib', 'main') else path
    function = last(FUNCTION, text, at)
    if not function:
        return '::'.join(path)
    owner = last(IMPL, text, function.start()) if function[1] else None
    if owner and not re.search(r'\b(struct|enum) %s\b' % owner[2], text):
        # (the prover names it by the module of the type)
        path = []
    return '::'.join(path + ([owner[2] + (owner[1] or '')] if owner else []) + [function[2]])


def is_in_body(text, start, end):
    """Whether a part of a source file stands in the body of a function that no constant calls."""
    function = last(FUNCTION, text, start)
    if not function or 'const fn' in function[0]:
        return False
    begin = re.compile(r'^%s(?=\S).*\{$' % function[1], re.M).search(text, function.start())
    return bool(begin) and begin.end() <= start and end <= text.find('\n%s}\n' % function[1], begin.end())


def where(crate, said):
    """The function whose proof is said to fail, as file.Type.function, or the file of specs or lemmas."""
    place = PLACE.search(said)
    if not place:
        return ''
    folder, _, path = os.path.splitext(place[1])[0].partition('/')
    words = path.split('/')
    if folder == 'src':
        text = read(TOP, 'crates', crate, place[1])
        words = path_of(place[1], text, len('\n'.join(text.split('\n')[:int(place[2])]))).split('::')
    elif folder == 'specs':
        words.insert(0, folder)
    elif words[-1][0].isupper() and len(words) > 1 and words[0][0].islower():
        words.pop()
    return '.'.join(words)


def tried(line):
    """What a line of rt says of a mutant; None where it says something else."""
    found = RESULT.match(line)
    if not found:
        return None
    crate, mutant, said = found.groups()
    if not said.startswith('refused'):
        return Tried(crate, mutant, MISSED if said.startswith('NOT REFUSED') else NOT_APPLICABLE, '')
    if 'only by a limit of the prover' in said:
        outcome = AT_LIMIT
    else:
        outcome = FOR_A_NAME if 'only because a proof file names' in said else REFUSED
    return Tried(crate, mutant, outcome, where(crate, said))


def changes(room, crate, mutant):
    """What a mutant changes in its crate, pair by pair; none where it can't be applied."""
    path, old, text, found = '', '', '', []
    for line in read(room, 'crates', crate, 'must-fail', mutant + '.edit').split('\n'):
        word, _, rest = line.partition(':')
        rest = rest[1:]
        if word == 'file':
            path = rest.strip()
            text = read(room, 'crates', crate, path)
        elif word == 'old':
            old = rest
        elif word == 'new':
            if text.count(old) != 1:
                return []
            found.append(Change(path, text.index(old), text.index(old) + len(old), rest))
    return found


def function_of(room, crate, mutant):
    """The path of the function whose body is all that a mutant changes; '' where it changes something else."""
    paths = set()
    for it in changes(room, crate, mutant):
        text = read(room, 'crates', crate, it.path)
        paths.add(path_of(it.path, text, it.start) if it.path.startswith('src/') and is_in_body(text, it.start, it.end) else '')
    return paths.pop() if len(paths) == 1 else ''


def checked(room, crate, made, paths, jobs):
    """The status of `rt check` of the functions of these paths, and its lines, where these changes are made."""
    folder, before = os.path.join(room, 'crates', crate), {it.path: read(room, 'crates', crate, it.path) for it in made}
    after = dict(before)
    for it in sorted(made, reverse=True):
        after[it.path] = after[it.path][:it.start] + it.new + after[it.path][it.end:]
    command = ['rt', 'check'] + (['--jobs', str(jobs)] if jobs else []) + [word for path in paths for word in ('--only', path)]
    try:
        for path, text in after.items():
            open(os.path.join(folder, path), 'w', encoding='utf-8').write(text)
        ran = subprocess.run(command, cwd=folder, stdout=subprocess.PIPE, stderr=subprocess.STDOUT, text=True, errors='replace')
    finally:
        for path, text in before.items():
            open(os.path.join(folder, path), 'w', encoding='utf-8').write(text)
    return ran.returncode, ran.stdout.split('\n')


def of_function(crate, mutant, path, lines):
    """What the lines of a check say of a mutant of this function, with no outcome where it is proved; None where they don't tell."""
    stands = [it.groups() for it in (re.match(r'fn (\S+): (.*)', line) for line in lines) if it]
    names = [name for name, _ in stands if ('::' + name).endswith('::' + path)]
    name = '%s::%s' % (crate, path) if '%s::%s' % (crate, path) in names else ''.join(names[:1])
    stands = [said for it, said in stands if name and (it + '::').startswith(name + '::')]
    place = name.partition('::')[2].replace('::', '.')
    if stands and all(said == 'proved' for said in stands):
        return Tried(crate, mutant, '', place)
    own = [it for it in lines if OPEN.match(it) and (where(crate, it) == path.replace('::', '.') or (where(crate, it) + '.').startswith(place + '.'))]
    # (what rests on the proof of another function, which a mutant may change, tells nothing)
    if not own or not any(said.startswith(NOT_PROVED) for said in stands) or any('not admitted' in it or UNREAD.match(it) for it in own):
        return None
    return Tried(crate, mutant, FOR_A_NAME if all(OF_A_NAME.match(it) for it in own) else REFUSED, place)


def together(crate, part, room, jobs):
    """What mutants come to of which each changes the body of another function; nothing is said of one that another hides."""
    made = [it for mutant in part for it in changes(room, crate, mutant)]
    _, lines = checked(room, crate, made, part.values(), jobs)
    found = [it for it in (of_function(crate, mutant, path, lines) for mutant, path in part.items()) if it]
    names = list(part)
    if found or len(names) == 1:
        return found or [Tried(crate, names[0], '', '')]
    halves = [{name: part[name] for name in half} for half in (names[::2], names[1::2])]
    return together(crate, halves[0], room, jobs) + together(crate, halves[1], room, jobs)


def in_rounds(crate, mutants, room, jobs):
    """What the mutants come to that each change the body of one function alone, tried in rounds of one for each function."""
    left = {mutant: function_of(room, crate, mutant) for mutant in mutants}
    left = {mutant: path for mutant, path in left.items() if path}
    found = []
    while left:
        first = {path: mutant for mutant, path in reversed(left.items())}
        print('%s: trying %d of its mutants together' % (crate, len(first)), flush=True)
        new = together(crate, {mutant: path for path, mutant in first.items()}, room, jobs)
        found += [it for it in new if it.outcome]
        left = {mutant: path for mutant, path in left.items() if mutant not in {it.mutant for it in new}}
    return found


def by_function(crate, mutant, room, jobs):
    """What a mutant comes to by the proofs of the functions that it changes; None where these don't refuse it."""
    made = changes(room, crate, mutant)
    if not made or any(not it.path.startswith('src/') for it in made):
        return None
    paths = [path_of(it.path, read(room, 'crates', crate, it.path), it.start) for it in made]
    status, lines = checked(room, crate, made, paths, jobs)
    refused = [it for it in lines if re.match(r'fn \S+: (%s)' % '|'.join(NOT_PROVED), it)] if status == 1 else []
    told = [it for it in lines if TOLD.match(it)] if refused else []
    if all(OF_A_NAME.match(it) for it in told) or any(UNREAD.match(it) for it in told):
        return None
    return Tried(crate, mutant, REFUSED, refused[0].split(': ')[0].partition('::')[2].replace('::', '.'))


def is_proved(crate, room, jobs):
    """Whether the crate is proved as it stands; the mutants are then tried over what this check keeps."""
    print('%s: checking it as it stands' % crate, flush=True)
    command = ['rt', 'check'] + (['--jobs', str(jobs)] if jobs else [])
    ran = subprocess.run(command, cwd=os.path.join(room, 'crates', crate), stdout=subprocess.PIPE, stderr=subprocess.STDOUT,
                         text=True, errors='replace')
    if ran.returncode:
        print(ran.stdout + '%s: not proved, so its mutants are not tried' % crate, flush=True)
    return ran.returncode == 0


def run(command, room, jobs):
    """Runs the command in the copy, printing the kit's own lines as they come; gives what they say of mutants."""
    words = dict(os.environ, **({'RT_JOBS': str(jobs)} if jobs else {}))
    found = []
    with subprocess.Popen(command, cwd=room, env=words, stdout=subprocess.PIPE, stderr=subprocess.STDOUT, text=True,
                          errors='replace') as process:
        for line in process.stdout:
            if line.startswith('rt: '):
                print(line, end='', flush=True)
            found.append(tried(line))
    return [one for one in found if one]


def tried_by_function(crate, mutants, room, jobs):
    """Tries the mutants of a crate by the functions that they change; those that are refused leave the copy."""
    found = in_rounds(crate, mutants, room, jobs)
    left = [mutant for mutant in mutants if mutant not in {one.mutant for one in found}]
    if left:
        print('%s: trying %d of its mutants by the functions that they change' % (crate, len(left)), flush=True)
    found += [one for one in (by_function(crate, mutant, room, jobs) for mutant in left) if one]
    for one in found:
        print('rt: %s/%s: %s' % (crate, one.mutant, one.outcome), flush=True)
        os.remove(os.path.join(room, 'crates', crate, 'must-fail', one.mutant + '.edit'))
    return found


def completed(found, wanted):
    """What was tried, and the mutants that nothing was said of."""
    said = {(one.crate, one.mutant): one for one in found}
    every = [(crate, mutant) for crate, names in wanted.items() for mutant in names]
    return [said.get(one, Tried(*one, NOT_APPLICABLE, '')) for one in every]


def keep(found, every):
    """Writes the lines of the crates that were tried anew; lines of crates that have no mutants go."""
    lines = open(PAGE, encoding='utf-8').read().splitlines() if os.path.exists(PAGE) else []
    anew = {one.crate for one in found}
    kept = [line for line in lines if line.split()[0] in every and line.split()[0] not in anew]
    kept += [' '.join(filter(None, [one.crate, one.mutant, one.outcome, one.where])) for one in found]
    with open(PAGE, 'w', encoding='utf-8') as file:
        file.write('\n'.join(sorted(kept)) + '\n')


def words():
    parser = argparse.ArgumentParser(description=__doc__, formatter_class=argparse.RawDescriptionHelpFormatter)
    parser.add_argument('--jobs', type=int)
    parser.add_argument('--ci', action='store_true')
    parser.add_argument('names', nargs='*', metavar='NAME')
    return parser.parse_args()


def main():
    said, every = words(), mutants()
    lacking = [name for name in said.names if name not in every]
    if lacking:
        sys.exit('no mutants in crates/%s' % lacking[0])
    names = said.names or sorted(every)
    parts = [names] if said.ci else [[name] for name in names]
    found = []
    with tempfile.TemporaryDirectory(prefix='mutants-') as room:
        copy_crates(room, names)
        for part in parts:
            new = [] if said.ci else tried_by_function(part[0], every[part[0]], room, said.jobs)
            if said.ci or len(new) < len(every[part[0]]) and is_proved(part[0], room, said.jobs):
                new += run(['rt', 'ci' if said.ci else 'must-fail', *part], room, said.jobs)
            new = completed(new, {name: every[name] for name in part})
            keep(new, every)
            found += new
    print()
    for one in found:
        print('%s/%s: %s%s' % (one.crate, one.mutant, one.outcome, one.where and ', by ' + one.where))
    counts = collections.Counter(one.outcome for one in found)
    print(', '.join('%d %s' % (count, outcome) for outcome, count in counts.items()))
    sys.exit(1 if counts[MISSED] or counts[NOT_APPLICABLE] else 0)


if __name__ == '__main__':
    main()
