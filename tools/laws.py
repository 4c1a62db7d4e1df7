#!/usr/bin/env python3
"""laws.py [--check]: write proofs/Laws.antt of each crate of definitions (crates/lighting_*). For each definition of its specs/ that goes by
clauses on a variant, its law f_on: where the argument is k, f of it is f of k. Code proofs cite it at the variant that a match has found. The
prover checks each law, and nothing else comes of the files. With --check nothing is written, and a stale file is an error."""
import glob
import re
import sys

# definitions that no code implements
WITHOUT_CODE = {'Plain', 'Demand'}
# those that code implements and that unfold everywhere
OPEN = {'row_of', 'number_of'}
# what the laws name of the library, by its own modules
LIBRARY = {'ℕ': 'Prim.Native.Nat', 'Bool': 'mathlib.Core.Bool', 'List': 'mathlib.Core.List', 'Option': 'Rattle.std.specs.Prelude'}
TOP = '-- Made by tools/laws.py: each definition by clauses, at the variant that a match has found.'


def snake(name):
    return re.sub(r'(?<=[a-z0-9])[A-Z]', lambda m: '_' + m[0].lower(), name)


def laws_of(crate):
    laws, names, definitions, types = [], [], {}, {}
    for path in sorted(glob.glob('crates/%s/specs/*/*.antt' % crate)):
        folder, module = path.split('/')[-2], path.split('/')[-1][:-5]
        if module in WITHOUT_CODE:
            continue
        here = 'Rattle.%s.specs.%s.%s' % (crate, folder, module)
        text = open(path).read()
        for m in re.finditer(r'^(?:unfoldable|abbrev) pub (\w+) : (.*)\n((?:.+\n?)*)', text, re.M):
            name, signature, body = m.groups()
            if m.group().startswith('abbrev') and name not in OPEN:
                continue
            parts = [p.strip() for p in signature.split(' → ')]
            arguments, result = parts[:-1], parts[-1]
            clauses = [l for l in body.split('\n') if l.startswith(name + ' ')]
            if len(clauses) < 2:
                continue
            patterns = re.findall(r'\([^()]*\)|[^\s()]+', clauses[0].split(' =')[0])[1:]
            split = [i for i, p in enumerate(patterns) if re.match(r'\(?[A-Z]', p)]
            if len(split) != 1:
                continue
            at = split[0]
            before = ['x%d' % i for i in range(len(arguments))]
            after = list(before)
            after[at] = 'k'
            binders = ' '.join('(%s : %s)' % b for b in zip(before, arguments))
            laws.append(
                'pub {law} : {bind} (k : {type}) (r : {result}) → {x} ≡ k → r ≡ {f} {after} → r ≡ {f} {before}\n{law} {before} k r e p = rw e p\n'.format(
                    f=name, law=snake(name) + '_on', bind=binders, type=arguments[at], result=result, x=before[at], after=' '.join(after), before=' '.join(before)))
            definitions.setdefault(here, []).append(name)
            names += re.findall(r'[A-Z]\w*|ℕ', signature)
        for used, group in re.findall(r'^(?:pub )?use (.*)\.\{([^}]*)\}', text, re.M):
            if 'TheVariants' not in used:
                for n in (n.strip() for n in group.split(',')):
                    if re.match(r'([A-Z]\w*|ℕ)$', n):
                        types.setdefault(LIBRARY.get(n, used), set()).add(n)
        own = re.findall(r'^(?:abbrev )?pub (?:record )?([A-Z]\w*) ', text, re.M)
        types.setdefault(here, set()).update(own)
    lines = [TOP, 'use mathlib.Core.Path.{◌≡◌}']
    seen = set()
    for module in sorted(set(definitions) | set(types)):
        group = definitions.get(module, []) + sorted(t for t in types.get(module, ()) if t in names and t not in seen)
        seen.update(group)
        if group:
            lines.append('use %s.{%s}' % (module, ', '.join(group)))
    return '\n'.join(lines) + '\n\n' + '\n'.join(laws)


for crate in sorted(path.split('/')[1] for path in glob.glob('crates/lighting_*/specs')):
    out = 'crates/%s/proofs/Laws.antt' % crate
    text = laws_of(crate)
    if '--check' in sys.argv:
        # the layout is rt fmt's
        if open(out).read().split() != text.split():
            sys.exit('laws.py: %s is stale: run tools/laws.py' % out)
    else:
        open(out, 'w').write(text)
