#!/usr/bin/env python3
"""mutate.py: what if a definition were wrong? Changes the definitions of a crate's specs/, one change at a
time, and asks the prover about each. A change that leaves every theorem proved is one that nothing guards.

    mutate.py CRATE [--file PART] [--only REGEX] [--sample N] [--seed S] [--jobs J] [--list]

Each change is tried on copies, outside the checkout: on CRATE, then on each crate of definitions and theorems
that rests on it (one that has specs/Paper), until one refuses. `rt check` checks them over copies of
their out/ folders, so only what rests on the changed definition is checked again.

The changes, all on the right sides of definitions: an operator (`ltb` to `leb`, + to -, `min` to `max`, <
to ≤); a number to one more and one less; true to false; a field to the next one of its record and type; a
condition to its contrary, which swaps the branches; one operand of `also` left out; the right side of a
clause to that of the next clause.

--file: only files whose name has this in it. --only: only changes whose entry (see below) this regular
expression finds something in. --sample: so many of them, by the seed. --list: prints them and tries none.
--jobs: how many at a time (1). Worked figures, comments and imports are not changed.

tools/mutations.txt has the changes that are known to be left: dead by the definitions around them, or out
of reach; a line each: definition | line | line after the change | reason. Exit status 1 where another one
is left."""
import argparse
import atexit
import concurrent.futures
import glob
import os
import random
import re
import shutil
import subprocess
import sys
import tempfile

KNOWN = 'tools/mutations.txt'
SKIPPED = re.compile(r'(Worked\w*|Figures|Lib)\.antt$')
SWAPS = {'ltb': 'leb', 'leb': 'ltb', 'eqb': 'leb', 'min': 'max', 'max': 'min', 'bit_and': 'bit_or', 'bit_or': 'bit_and',
         'true': 'false', 'false': 'true', '+': '-', '-': '+', '*': '+', '/': '%', '%': '/', '<': '≤', '≤': '<'}
# where a name that a change brings in comes from
HOME = 'Rattle.std.specs.Prelude'
TOKEN = re.compile(r'''0x[0-9A-Fa-f_]+|[^\s(){};,]+|[(){};,]''')


def read(path):
    with open(path) as f:
        return f.read()


def write(path, text):
    with open(path, 'w') as f:
        f.write(text)


# ---- the repository
DEPENDS = {m.group(1): m.group(2).split() for m in re.finditer(r'^(\w+)(?: staticlib)?:([^#\n]*)', read('crates.txt'), re.M)}


def rests_on(name, other):
    return any(d == other or rests_on(d, other) for d in DEPENDS.get(name, []))


def is_theory(name):
    return os.path.isdir('crates/%s/specs/Paper' % name)


def tried_on(crate):
    above = [c for c in DEPENDS if rests_on(c, crate) and is_theory(c) and os.path.isdir('crates/%s/proofs' % c)]
    return [crate] + sorted(above, key=lambda c: sum(rests_on(c, d) for d in above))


def records(crate):
    """For each field the next one of its record and type, of the crate and those that it rests on."""
    kind = lambda t: 'ℕ' if re.fullmatch(r'u\d+|usize|ℕ', t) else t
    found, others = [], {}
    for name in [c for c in DEPENDS if c == crate or rests_on(crate, c)]:
        for path in glob.glob('crates/%s/src/*.rt' % name):
            found += [re.findall(r'^\s*(?:pub )?(\w+): ([^,\n]+),', b, re.M) for b in re.findall(r'struct \w+ \{(.*?)\n\}', read(path), re.S)]
        for path in glob.glob('crates/%s/specs/**/*.antt' % name, recursive=True):
            found += [re.findall(r'^  pub (\S+) : (.+)$', b, re.M) for b in re.findall(r'^pub record .*? where\n((?:  .*\n)+)', read(path), re.M)]
    for fields in found:
        for i, (name, type_) in enumerate(fields):
            same = [n for n, t in fields[i + 1:] + fields[:i] if kind(t) == kind(type_)]
            others.setdefault(name, set()).update(same[:1])
    return others


# ---- the changes of a file: (from, to, new text, names that it brings in)
def clauses(text):
    """The clauses of the definitions: name, where the right side begins and ends."""
    plain = re.sub(r'--.*', lambda m: ' ' * len(m.group()), text)
    names = set(re.findall(r'^(?:abbrev |unfoldable )?(?:pub )?(\S+) :', plain, re.M))
    for m in re.finditer(r'^(\S+)([^\n=]*?) =(?=\s)((?:[^\n]*)(?:\n[ \t]+[^\n]*)*)', plain, re.M):
        if m.group(1) in names:
            yield m.group(1), m.start(3), m.end(3), plain


def operand(tokens, i, step):
    """The last token of the operand that stands after the i-th (step 1) or before it (step -1)."""
    depth = 0
    while 0 <= i + step < len(tokens):
        word = tokens[i + step].group()
        depth += step * ((word in '({') - (word in ')}'))
        if depth < 0 or depth == 0 and word in ('also', 'when', 'then', 'else', ';', ','):
            break
        i += step
    return tokens[i]


def of_clause(plain, start, end, fields):
    tokens = [m for m in TOKEN.finditer(plain, start, end)]
    for i, m in enumerate(tokens):
        word = m.group()
        if word in SWAPS:
            yield m.start(), m.end(), SWAPS[word], [SWAPS[word]]
        elif re.fullmatch(r'\d+|0x[0-9A-Fa-f_]+', word):
            n = int(word.replace('_', ''), 0)
            yield m.start(), m.end(), str(n + 1), []
            if n > 0:
                yield m.start(), m.end(), str(n - 1), []
        elif not word.startswith('Rattle.') and re.fullmatch(r"[\w']*(?:\.[a-z]\w*)+", word):
            for part in re.finditer(r'\.([a-z]\w*)', word):
                for other in sorted(fields.get(part.group(1), [])):
                    yield m.start() + part.start(), m.start() + part.end(), '.' + other, []
        elif word == 'when':
            nested = 0
            for t in tokens[i + 1:]:
                nested += (t.group() == 'when') - (t.group() == 'then')
                if nested < 0:
                    yield m.end(), t.start(), ' not (%s) ' % ' '.join(plain[m.end():t.start()].split()), ['not']
                    break
        elif word == 'also':
            yield operand(tokens, i, -1).start(), tokens[i + 1].start(), '', []
            yield m.start(), operand(tokens, i, 1).end(), '', []


def changes(path, fields):
    text = read(path)
    all_clauses = list(clauses(text))
    for k, (name, start, end, plain) in enumerate(all_clauses):
        for change in of_clause(plain, start, end, fields):
            yield (path, name) + change
        if k + 1 < len(all_clauses) and all_clauses[k + 1][0] == name:
            other = plain[all_clauses[k + 1][1]:all_clauses[k + 1][2]].rstrip()
            if other.split() != plain[start:end].split():
                yield path, name, start, start + len(plain[start:end].rstrip()), other, []


def changed(text, start, end, new, brings):
    out = text[:start] + new + text[end:]
    for word in brings:
        spelled = word if word[0].isalpha() else '◌%s◌' % word
        if not re.search(r'^(?:pub )?use .*[{, ]%s[,}]' % re.escape(spelled), text, re.M):
            out = 'use %s.{%s}\n' % (HOME, spelled) + out
    return out


def key(change):
    """What a line of tools/mutations.txt names: the definition, the line, and the line after."""
    path, name, start, end, new, _ = change
    text = read(path)
    low, high = text.rfind('\n', 0, start) + 1, text.find('\n', end)
    squeeze = lambda s: ' '.join(re.sub(r'--.*', '', s).split())
    return name, squeeze(text[low:high]), squeeze(text[low:start] + new + text[end:high])


# ---- trying one
def room(top, crates):
    """A repository of its own for a job: copies of the crates, and of what is proved already."""
    where = tempfile.mkdtemp(dir=top)
    needed = [c for c in DEPENDS if c in crates or any(rests_on(d, c) for d in crates)]
    write(os.path.join(where, 'crates.txt'), ''.join('%s: %s\n' % (c, ' '.join(DEPENDS[c])) for c in needed))
    for c in needed:
        shutil.copytree('crates/' + c, os.path.join(where, 'crates', c))
    return where


def verdict(where, crates, change):
    """untyped: an error in specs/ says that the changed definition is none. undecided: no verdict was given."""
    path, _, start, end, new, brings = change
    text = read(path)
    write(os.path.join(where, path), changed(text, start, end, new, brings))
    try:
        for crate in crates:
            # a change must not be judged by what an earlier one left behind
            out = os.path.join('crates', crate, 'out')
            shutil.rmtree(os.path.join(where, out), ignore_errors=True)
            if os.path.isdir(out):
                shutil.copytree(out, os.path.join(where, out))
            said = subprocess.run(['rt', 'check'], cwd=os.path.join(where, 'crates', crate), stdout=subprocess.PIPE, stderr=subprocess.STDOUT, text=True).stdout
            if re.search(r'/specs/\S+: error', said):
                return 'untyped'
            last = re.findall(r'^logic=(\S+)', said, re.M)[-1:]    # the crate's own; those that it rests on come before
            if last != ['proved']:
                return 'refused' if last == ['not-proved'] else 'undecided'
        return 'survives'
    finally:
        write(os.path.join(where, path), text)


def main():
    words = argparse.ArgumentParser()
    words.add_argument('crate')
    words.add_argument('--list', action='store_true')
    for option, usual in (('file', ''), ('only', ''), ('sample', 10 ** 9), ('seed', 1), ('jobs', 1)):
        words.add_argument('--' + option, default=usual, type=type(usual))
    asked = words.parse_args()
    fields = records(asked.crate)
    files = sorted(p for p in glob.glob('crates/%s/specs/**/*.antt' % asked.crate, recursive=True)
                   if not SKIPPED.search(p) and asked.file in os.path.basename(p))
    made = list({(c[0], changed(read(c[0]), *c[2:])): c for p in files for c in changes(p, fields)}.values())
    made = [c for c in made if re.search(asked.only, ' | '.join(key(c)))]
    if asked.sample < len(made):
        made = random.Random(asked.seed).sample(made, asked.sample)
    if asked.list:
        for change in made:
            print(' | '.join(key(change)))
        print('mutate.py: %d changes' % len(made))
        return 0
    known = {tuple(part.strip() for part in line.split(' | ')[:3]) for line in read(KNOWN).split('\n') if not line.startswith('#')}
    crates = tried_on(asked.crate)
    for crate in crates:        # the out/ folders that are copied
        if subprocess.run(['rt', 'check'], cwd='crates/' + crate, capture_output=True).returncode:
            sys.exit('mutate.py: %s is not proved as it stands' % crate)
    top = tempfile.mkdtemp()
    atexit.register(shutil.rmtree, top, True)
    rooms = [room(top, crates) for _ in range(asked.jobs)]
    count, left = {'survives': 0, 'refused': 0, 'untyped': 0, 'undecided': 0}, []

    def try_one(change):
        where = rooms.pop()
        try:
            return change, verdict(where, crates, change)
        finally:
            rooms.append(where)
    with concurrent.futures.ThreadPoolExecutor(asked.jobs) as jobs:
        for change, said in jobs.map(try_one, made):
            count[said] += 1
            if said in ('survives', 'undecided'):
                mark = 'NO VERDICT' if said == 'undecided' else 'known' if key(change) in known else 'NOT KNOWN'
                left += [change] if mark == 'NOT KNOWN' else []
                print('%s: %s: %s' % (mark, os.path.relpath(change[0], 'crates'), ' | '.join(key(change))), flush=True)
    print('mutate.py: %d changes on %s: %d refused by the proofs, %d no definitions, %d undecided, %d left, %d not known'
          % (len(made), ', '.join(crates), count['refused'], count['untyped'], count['undecided'], count['survives'], len(left)))
    return 1 if left or count['undecided'] else 0


sys.exit(main())
