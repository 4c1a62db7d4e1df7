#!/usr/bin/env python3
"""trust.py [--check] [LOG]: what a reader must believe, counted, into docs/TRUST.md between its two marks.

It counts the lines of the definitions, of the statement of demand 3 and of the contracts of `panel::start` and `panel::frame`, and the functions of each
crate. A foreign function (a block `extern`), an axiom or a hole in any crate is an error. With LOG, what `rt ci` printed, it is an error too if a crate is
not proved there (or kept), or rests on contracts of C functions of the kit's libraries other than those of the three programs' input and output below.
The tests of a crate are a program of their own, which rt makes of them, and are held to theirs.
With --check nothing is written, and a stale count is an error too."""
import glob
import os
import re
import sys

# the contracts of the kit's C functions that a program's input and output rest on, through `std`, and no
# others
IO = ['libc::read', 'libc::write', 'os::c::__xpg_strerror_r', 'os::c::rattle_errno']
AXIOMS = {'replay': IO + ['os::c::rattle_arg', 'os::c::rattle_set_errno'], 'bench_figures': IO, 'lent_tables': IO}
# what the tests of a crate rest on: they write what they found, and one that fails ends its program
WRITTEN = ['libc::write', 'os::c::rattle_arg', 'os::c::rattle_errno', 'os::c::rattle_set_errno']
TESTS = {'lent_rows': WRITTEN + ['std::process::c::abort']}
PAGE = 'docs/TRUST.md'
BEGIN, END = '<!-- made by tools/trust.py -->', '<!-- to here -->'


def read(path):
    with open(path) as f:
        return f.read()


def lines(text):
    """Lines that say something: no comment, no blank, no import."""
    return sum(1 for line in text.split('\n') if line.strip() and not re.match(r'\s*(--|//|use |pub use |ghost use |mod |pub mod )', line))


def folder(path):
    files = sorted(glob.glob(path + "/*.antt"))
    return len(files), sum(lines(read(f)) for f in files)


def contract(function):
    """A public operation's lines from its name to its body."""
    source = read('crates/panel/src/lib.rt')
    start = source.index('pub fn %s(' % function)
    return lines(source[start:source.index('\n{', start)])


def crates():
    return [m.group(1) for m in re.finditer(r'^(\w+)(?: staticlib)?:', read('crates.txt'), re.M)]


def code(path):
    """A file without its comments and strings."""
    text = re.sub(r'//.*' if path.endswith('.rt') else r'(?m)(?:^|(?<=\s))--.*$', '', read(path))
    return re.sub(r'"(?:[^"\\\n]|\\.)*"', '""', text)


def without_tests(text):
    """Code without its test modules."""
    return re.sub(r'(?ms)^#\[cfg\(test\)\]\nmod \w+ \{\n.*?^\}$', '', text)


functions, faults = 0, []
for name in crates():
    for path in sorted(glob.glob('crates/%s/**/*.rt' % name, recursive=True)):
        if '/out/' not in path:
            functions += len(re.findall(r'\bfn \w+', without_tests(code(path))))
            if re.search(r'\bextern\s*(?:""\s*)?\{', code(path)):
                faults.append('%s declares foreign functions' % path)
    for path in sorted(glob.glob('crates/%s/**/*.antt' % name, recursive=True)):
        if '/out/' not in path:
            if re.search(r'(?m)^\s*(?:(?:pattern|unfoldable|abbrev|pub) )*axiom ', code(path)):
                faults.append('%s has an axiom' % path)
            if re.search(r'(?:^|[\s(])\?(?:[\s)]|$)', code(path)):
                faults.append('%s has a hole' % path)
for path in [word for word in sys.argv[1:] if word != '--check']:
    log = read(path)
    proved = set(re.findall(r'^rt: (\w+) (?:proved|is kept: .*)$', log, re.M))
    faults += ['%s is not proved by %s' % (name, path) for name in crates() if name not in proved]
    # rt names three functions of a library, and counts them all
    for name, tests, said in re.findall(r'^== (\w+)(: its tests)?\n((?:(?!== |rt: \w+ (?:proved|NOT PROVED)).*\n)*)', log, re.M):
        may = (TESTS if tests else AXIOMS).get(name, [])
        named = [one.strip() for group in re.findall(r'^axioms \w+: (\w.*) \(', said, re.M) if '::' in group for one in group.split(',')]
        counted = max([int(count) for count in re.findall(r'^logic=.* axioms=(\d+)', said, re.M)], default=0)
        if counted != len(may) or set(named) - set(may) - {'...'} or re.search(r'^logic=.* foreign=', said, re.M):
            rests = (name + tests, counted, named or 'none', may or 'none')
            faults.append('%s rests on %d axioms, among them %s, and may on %s' % rests)
for fault in faults:
    print('trust.py: ' + fault)

paper, engine = folder('crates/lighting_*/specs/Paper'), folder('crates/lighting_*/specs/Engine')
rows = [
    ('the paper as definitions', '`specs/Paper` of `crates/lighting_*`', '%d in %d files' % (paper[1], paper[0])),
    ('of these the statement of demand 3', '`lighting_panel/specs/Paper/Demand.antt`', str(lines(read('crates/lighting_panel/specs/Paper/Demand.antt')))),
    ('the engine as definitions: for demand 3 nobody need believe them', '`specs/Engine` of `crates/lighting_*`', '%d in %d files' % (engine[1], engine[0])),
    ('the types', '`src/` of `crates/lighting_*`', str(sum(lines(read(p)) for p in glob.glob('crates/lighting_*/src/*.rt')))),
    ('the contract of `panel::start`', '`crates/panel/src/lib.rt`', str(contract('start'))),
    ('the contract of `panel::frame`', '`crates/panel/src/lib.rt`', str(contract('frame'))),
]
made = ['| what | where | lines |', '|---|---|---|'] + ['| %s | %s | %s |' % row for row in rows] + ['']
made += ['%d functions in %d crates are proved. No crate has an axiom, a hole or a foreign function of its own.' % (functions, len(crates()))]
made += ['Axioms of the kit, contracts of C functions that nothing proves, on which a crate rests through `std`:', '', '| crate | axioms |', '|---|---|']
for row, table in [('`%s`', AXIOMS), ('the tests of `%s`, a program that rt makes', TESTS)]:
    for name, names in sorted(table.items()):
        listed = ', '.join('`%s`' % a for a in sorted(names))
        made += ['| %s | %d: %s |' % (row % name, len(names), listed)]
made += ['| every other crate, and its tests | none |']
text = '\n'.join([BEGIN, ''] + made + ['', END])
page = read(PAGE)
start, end = page.index(BEGIN), page.index(END) + len(END)
if '--check' in sys.argv:
    if page[start:end] != text:
        faults.append('stale')
        print('trust.py: %s is stale: run tools/trust.py' % PAGE)
else:
    with open(PAGE, 'w') as f:
        f.write(page[:start] + text + page[end:])
print('trust.py: %d functions in %d crates; no axiom, no hole, no foreign function' % (functions, len(crates())) if not faults else 'trust.py: FAILED')
sys.exit(1 if faults else 0)
