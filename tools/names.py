#!/usr/bin/env python3
"""names.py: every name that the pages put between backquotes is there: a definition, theorem, type or field of antt,
a function, a must-fail edit, a crate or a file. And every block of docs/TOUR.md that comes after a line which ends in
`FILE`: stands in FILE; a line `..` in it leaves something out. Exit status 1 where one is not."""
import glob
import os
import re
import sys

PAGES = ['README.md', 'docs/PROMISES.md', 'docs/CHANGING.md', 'docs/TRUST.md', 'docs/DECISIONS.md', 'docs/DESIGN.md',
         'docs/TOUR.md', 'docs/SUPPLY.md', 'docs/FRAMES.md']
QUOTES = 'docs/TOUR.md'
# words that are no names of the repository: of the language, the toolchain, the text of lists, the papers
OTHERS = set('''requires ensures unfolding abbrev unfoldable search rules simp cc rw omega let if match while loop for use mod pub fn struct enum const f32 u8 u16 u32 u64 bool usize
process abort
libc read write os c __xpg_strerror_r rattle_arg rattle_errno rattle_set_errno std result pv inprocess stdin stdout also to_bits refl tagged Relay frame_tags name old: new: DEFINITION_on rt cargo valgrind python3 target main returns old new to start frame'''.split())


def read(path):
    with open(path, errors='replace') as f:
        return f.read()


# the sources, and not what rt keeps of them beside
def sources(kind):
    return [path for path in glob.glob('crates/**/*.' + kind, recursive=True) if '/out/' not in path]


known = set(os.listdir('crates'))
for path in sources('antt'):
    text = read(path)
    known.update(re.findall(r'^\s*(?:unfoldable |abbrev |infix\w* \d+ )*(?:pub )?(?:record |data )?([\w′″₀-₉-]+)(?= :| \()', text, re.M))
    known.update(re.findall(r'^\s*(?:pub )?([\w-]+) :', text, re.M))
for path in sources('rt'):
    text = read(path)
    known.update(re.findall(r'\b(?:fn|struct|enum|const|mod) (\w+)', text))
    known.update(re.findall(r'^\s*(?:pub )?(\w+):', text, re.M))
    known.update(re.findall(r'^\s+(\w+)(?:\(|,| \{)', text, re.M))
files = {os.path.relpath(os.path.join(root, name)) for top in ('crates', 'docs', 'tests', 'tools', 'examples', '.ci') for root, _, names in os.walk(top) if 'target' not in root and '/out/' not in root + '/' for name in names}
edits = {(p.split('/')[1], os.path.basename(p)[:-5]) for p in files if p.endswith('.edit')}


def there(name):
    if re.search(r'[ *<>|=(){}"$&\[]|\.\.', name) or re.match(r'^[-\d"\'.:#]', name) or not re.search(r'[A-Za-z]{2}', name):
        return True
    # what a build makes
    if re.match(r'^(tests/)?target/|^crates/\w+/out/', name):
        return True
    if name in known or name in OTHERS or name in files or os.path.exists(name) or os.path.exists(name.rstrip('/')):
        return True
    if '::' in name:
        return all(part in known or part in OTHERS for part in name.split('::'))
    # a field of a variable
    if re.match(r'^[a-z]\.\w+$', name):
        return name[2:] in known or name[2:] in OTHERS
    if '/' in name:
        first, last = name.split('/', 1)
        return (first, last) in edits or any(p.endswith('/' + name) for p in files) or any(('/' + name.strip('/') + '/') in '/' + p for p in files)
    if name.endswith('.antt') or name.endswith('.rt') or '.' in name:
        return any(p.endswith('/' + name) for p in files) or name in files
    return name in {e for _, e in edits} or re.match(r'^[A-Za-z0-9]+$', name) is not None and name.isupper()


faults = []
for page in PAGES:
    if os.path.exists(page):
        for number, line in enumerate(re.sub(r'(?m)^(?:    |```).*$', '', read(page)).split('\n'), 1):
            faults += ['%s:%d: %s' % (page, number, name) for name in re.findall(r'`([^`]+)`', line) if not there(name)]
# quotations: blanks and ends of lines do not count, since long lines are broken on the page
quoted = 0
for said in re.finditer(r'`([\w./-]+)`:\n\n((?:    .*\n)+)', read(QUOTES)):
    quoted += 1
    text = ''.join(read(said[1]).split()) if os.path.exists(said[1]) else ''
    for part in re.split(r'(?m)^ *\.\.\n', said[2]):
        if not text or ''.join(part.split()) not in text:
            faults.append('%s: quoted from %s: %s' % (QUOTES, said[1], part.strip().split('\n')[0]))
if quoted < 10:
    faults.append('%s: %d quotations found' % (QUOTES, quoted))
for fault in faults:
    print('names.py: not there: ' + fault)
print('names.py: every name of the pages is there' if not faults else 'names.py: FAILED')
sys.exit(1 if faults else 0)
