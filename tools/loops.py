#!/usr/bin/env python3
"""loops.py: no loop over milliseconds, and no recursion, in the code of the panel. A contract is an equation
and says nothing of time, so this is looked for in the source. Every loop of crates/*/src must stand in
tools/loops.txt, a line a loop, with its head as it stands in the source and what it goes over; a listed
function may gain no other, and no head may change unseen. A chain of an iterator is a loop, and so is a
method of a slice or an array that goes over all of it; of an Option's `map` and its like the list says so. A
function of an impl or a trait goes by the name of its type or trait too. No function may call itself,
directly or by way of others; a call `x.f(..)` or `<T>::f(..)` is taken for one of every method `f` that the
crates declare, and so is `Trait::f(..)`; `Type::f(..)` for one of the type's own and of every trait's.
Exit status 1 where that fails.

loops.py --edits FOLDER: each FOLDER/*.edit, in the form of the must-fail edits but with the file's path from the
top, is laid alone on a copy of the sources, and has to be refused. Exit status 1 where one is not."""
import glob
import os
import re
import subprocess
import sys
import tempfile


def refuses(edit):
    """Whether an edit is refused; a text that does not stand once in its file is a fault too."""
    said = dict(re.findall(r'^(file|old|new): (.*)$', open(edit).read(), re.M))
    text = open(said['file']).read()
    if text.count(said['old']) != 1:
        return False
    with tempfile.TemporaryDirectory() as copy:
        for path in glob.glob('crates/*/src/*.rt') + ['tools/loops.txt']:
            os.makedirs(os.path.join(copy, os.path.dirname(path)), exist_ok=True)
            changed = text.replace(said['old'], said['new']) if path == said['file'] else open(path).read()
            with open(os.path.join(copy, path), 'w') as f:
                f.write(changed)
        here = os.path.abspath(__file__)
        ran = subprocess.run([sys.executable, here], cwd=copy, stdout=subprocess.PIPE, text=True)
        return ran.returncode == 1 and 'loops.py: FAILED' in ran.stdout


if sys.argv[1:2] == ['--edits']:
    edits = sorted(glob.glob(sys.argv[2] + '/*.edit'))
    passed = [edit for edit in edits if not refuses(edit)]
    for edit in passed:
        print('loops.py: %s is not refused' % edit)
    print('loops.py: %d of %d edits refused' % (len(edits) - len(passed), len(edits)))
    sys.exit(1 if passed or not edits else 0)

known = {}
for line in open('tools/loops.txt'):
    line = line.split('#')[0].strip()
    if line:
        name, head, _ = [part.strip() for part in line.split('|')]
        known.setdefault(name, []).append(head)

# loops by a keyword, and the methods that go over what they are called on
LOOPS = re.compile(r'\b((?:while|loop)\b[^;]*?|for\b(?:[^;{]*?|[^;\n]*?)\bin\b[^;]*?)\{')
METHODS = re.compile(
    r'\.(?:(?:all|any|fold|try_fold|reduce|map|flat_map|filter_map|map_while|scan|and_then|filter|for_each'
    r'|try_for_each|sum|product|count|last|nth|position|rposition|find|find_map|partition|skip_while'
    r'|take_while|unzip|fill|copy_from_slice|clone_from_slice|copy_within|rotate_left|rotate_right|reverse'
    r'|starts_with|ends_with|contains|zip|collect|min_by|max_by|min_by_key|max_by_key|rev|eq|ne|lt|le|gt|ge'
    r'|cmp|sort|sort_by|sort_unstable|binary_search)(?:::<[^()]*>)?\(|(?:min|max)\(\))')
# an impl or a trait with its type's or its own name
BLOCK = re.compile(
    r'^( *)(?:pub(?:\(\w+\))? )?(?:impl(?:<[^{]*?>)? (?:[^{]*? for )?[^\w{]*(?:\w+::)*(\w+)|trait (\w+))'
    r'[^{]*\{\n(.*?)^\1\}', re.M | re.S)
OPENS = {')': '(', ']': '['}


def chain_from(text, at):
    """Where the chain begins whose method's dot stands at `at`: back over names, calls and indices."""
    i = at
    while True:
        while i > 0 and text[i - 1].isspace():
            i -= 1
        before = i
        while i > 0 and text[i - 1] in OPENS:
            deep, closed = 1, text[i - 1]
            i -= 1
            while i > 0 and deep:
                i -= 1
                deep += (text[i] == closed) - (text[i] == OPENS[closed])
        while i > 0 and (text[i - 1].isalnum() or text[i - 1] in '_?:>'
                         or text[i - 1] == '<' and '>' in text[i:before]):
            i -= 1
        j = i
        while j > 0 and text[j - 1].isspace():
            j -= 1
        if i == before or j == 0 or text[j - 1] != '.' or text[j - 2:j] == '..':
            return i
        i = j - 1


bodies, loops, brought, kinds, methods, traits = {}, {}, {}, {}, {}, set()
for path in sorted(glob.glob('crates/*/src/*.rt')):
    crate = path.split('/')[1]
    text = re.sub(r'//.*', '', open(path).read())
    # which crate a name comes from that the file brings in
    names = {}
    for source, rest in re.findall(r'^use (\w+)::([^;]*);', text, re.M):
        for name in re.findall(r'(\w+)(?=\s*[,}]|$)', rest):
            names[name] = source
    blocks = [(m.start(4), m.end(4), m.group(2) or m.group(3)) for m in BLOCK.finditer(text)]
    traits |= {m.group(3) for m in BLOCK.finditer(text) if m.group(3)}
    starts = [(m.start(), m.group(1)) for m in re.finditer(r'\bfn (\w+)\s*(?:<[^()]*>)?\s*\(', text)]
    for (at, name), (end, _) in zip(starts, starts[1:] + [(len(text), '')]):
        kind = next((k for a, b, k in blocks if a <= at < b), None)
        key = '%s::%s::%s' % (crate, kind, name) if kind else '%s::%s' % (crate, name)
        body = text[text.index('{\n', at):end] if '{\n' in text[at:end] else ''
        bodies[key] = bodies.get(key, '') + body
        brought.setdefault(key, {}).update(names)
        kinds[key] = kind
        if kind:
            methods.setdefault(name, set()).add(key)
        found = [(m.start(), m.group(1)) for m in LOOPS.finditer(body)]
        chains = {}
        for m in METHODS.finditer(body):
            if not any(a <= m.start() < a + len(h) for a, h in found):
                chains[chain_from(body, m.start())] = m.end() - 1
        found += [(a, body[a:b].rstrip('(')) for a, b in chains.items()]
        heads = [' '.join(head.split()).replace(' .', '.') for _, head in sorted(found)]
        if heads:
            loops[key] = loops.get(key, []) + heads

faults = []
for name in sorted(set(loops) | set(known)):
    have, listed = loops.get(name, []), known.get(name, [])
    if have != listed:
        faults.append('%s has the loops %s, and tools/loops.txt lists %s' % (name, have or 'none', listed or 'none'))

# who calls whom: a call is `f(` or `module::f(` within a crate, `crate::..::f(`, `Type::f(` or `x.f(`
crates = {name.split('::')[0] for name in bodies}
types = {kind for kind in kinds.values() if kind} - traits
calls = {}
for name, body in bodies.items():
    calls[name] = set()
    for function in re.findall(r'(?:(?<!\.)\.|>::)\s*(\w+)\s*(?:::<[^()]*>)?\(', body):
        calls[name] |= methods.get(function, set())
    for path, function in re.findall(r'(?<!\w)(?<!(?<!\.)\.)((?:\w+::)*)(\w+)\s*(?:::<[^()]*>)?\(', body):
        owner = path.split('::')[-2] if path else ''
        owner = kinds[name] if owner == 'Self' else owner
        if owner[:1].isupper() or owner in types:
            declared = methods.get(function, ())
            calls[name] |= {key for key in declared if owner not in types or kinds[key] in traits | {owner}}
            continue
        first = path.split('::')[0] or function
        first = brought[name].get(first, first)
        called = '%s::%s' % (first if first in crates else name.split('::')[0], function)
        if called in bodies:
            calls[name].add(called)


def reaches(start):
    seen, todo = set(), list(calls[start])
    while todo:
        name = todo.pop()
        if name not in seen:
            seen.add(name)
            todo += calls[name]
    return seen


for name in sorted(calls):
    if name in reaches(name):
        faults.append('%s calls itself, directly or by way of others' % name)
for fault in faults:
    print('loops.py: ' + fault)
print('loops.py: %d functions, %d loops, none over milliseconds, no recursion' % (len(bodies), sum(map(len, loops.values()))) if not faults else 'loops.py: FAILED')
sys.exit(1 if faults else 0)
