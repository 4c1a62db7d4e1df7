#!/usr/bin/env python3
"""widths.py: the level formula is reckoned in 32 bits (§4 of the change requests).

A contract is an equation between numbers and says nothing of how many bits hold them. So this is looked for
in the source: every function that the formula is made of (those below and all that they call) must stand in
tools/widths.txt with the types of its parameters and its result as they stand in the source, and with each
expression of 64 bits that it makes. Exit status 1 where that fails."""
import glob
import re
import sys

# Progress_Value of a movement, and when so many units of its way are gone (the count of lit milliseconds)
FORMULA = ['output_value::reached', 'output_light::first_gone_at', 'output_light::gone_at']
# of a movement these are in 32 bits; its end is a moment, in 64
FIELDS = {'start': 'u32', 'target': 'u32', 'length': 'u32', 'over': 'u64'}

known = {}
for line in open('tools/widths.txt'):
    line = line.split('#')[0].strip()
    if line:
        name, types, widened, _ = [part.strip() for part in line.split('|')]
        known[name] = (types, widened)

functions, source = {}, ''
for path in sorted(glob.glob('crates/*/src/*.rt')):
    crate = path.split('/')[1]
    text = re.sub(r'//.*', '', open(path).read())
    source += text
    starts = [m.start() for m in re.finditer(r'\bfn \w+\s*\(', text)]
    for at, end in zip(starts, starts[1:] + [len(text)]):
        head = re.match(r'fn (\w+)\s*\((.*?)\)(?:\s*->\s*(\w+(?:<\w+>)?))?\s', text[at:end], re.S)
        if head:
            taken = [part.split(':')[1].strip() for part in head.group(2).split(',') if ':' in part]
            types = '%s -> %s' % (', '.join(taken), head.group(3))
            body = text[text.index('{\n', at):end] if '{\n' in text[at:end] else ''
            # what stands before `as u64` (a name, a field, a call, or something in brackets), what is widened
            # by `u64::from`, the moment of a record, and a variable that is said to be wide
            widened = re.findall(r'((?:[\w.]+(?:\([^()]*\))?|\([^()]*(?:\([^()]*\)[^()]*)*\)))\s+as u64', body)
            widened += re.findall(r'u64::from\(((?:[^()]|\([^()]*(?:\([^()]*\))?[^()]*\))*)\)', body)
            widened += re.findall(r'\w+\.over\b', body) + re.findall(r'let (?:mut )?(\w+)\s*:\s*u64', body)
            widened = sorted(re.sub(r'\s+', '', part) for part in widened)
            functions['%s::%s' % (crate, head.group(1))] = (types, ', '.join(widened) or 'none', body)

crates = {name.split('::')[0] for name in functions}
todo, formula = list(FORMULA), set()
while todo:
    name = todo.pop()
    if name not in formula:
        formula.add(name)
        for path, function in re.findall(r'\b((?:\w+::)*)(\w+)\s*\(', functions.get(name, ('', '', ''))[2]):
            first = path.split('::')[0]
            called = '%s::%s' % (first if first in crates else name.split('::')[0], function)
            if called in functions:
                todo.append(called)

faults = []
for name in sorted(formula | set(known)):
    have, listed = functions.get(name, (None, None, ''))[:2], known.get(name, (None, None))
    if name not in formula:
        faults.append('%s is listed in tools/widths.txt and is not called by the formula' % name)
    elif have != listed:
        faults.append('%s has %s and widens %s, and tools/widths.txt lists %s and %s' % ((name,) + have + listed))
movement = re.search(r'pub struct Movement \{(.*?)\}', source, re.S)
for field, kind in FIELDS.items():
    if not movement or not re.search(r'\b%s: %s,' % (field, kind), movement.group(1)):
        faults.append('the field %s of Movement is no %s' % (field, kind))
for fault in faults:
    print('widths.py: ' + fault)
print('widths.py: %d functions of the level formula take and give what is listed' % len(formula) if not faults else 'widths.py: FAILED')
sys.exit(1 if faults else 0)
