#!/usr/bin/env python3
"""columns.py: no line of a page has more than 110 columns, but the rows of tables, and no comment of a .rt or .antt
file or a tool that people write. Exit status 1 where one has."""
import glob
import sys

MOST = 110
pages = ['README.md', *glob.glob('docs/**/*.md', recursive=True), *glob.glob('examples/*'), 'tools/README.md', 'tests/README.md']
marks = {'.rt': '//', '.antt': '--', '.py': '#'}
long = []


def look(path, counts):
    with open(path, errors='replace') as file:
        for number, line in enumerate(file, 1):
            columns = len(line.rstrip('\n'))
            if columns > MOST and counts(line.lstrip()):
                long.append('%s:%d: %d columns' % (path, number, columns))


for page in sorted(set(pages)):
    look(page, lambda line: not line.startswith('|'))
for path in sorted([*glob.glob('crates/**/*.rt', recursive=True), *glob.glob('crates/**/*.antt', recursive=True), *glob.glob('tools/*.py')]):
    # what rt keeps of the sources
    if '/out/' in path:
        continue
    mark = marks[path[path.rindex('.'):]]
    with open(path) as file:
        # what a tool writes says so in its first line
        if ' by tools/' not in file.readline():
            look(path, lambda line: line.startswith(mark))
for line in long:
    print('columns.py: ' + line)
print('columns.py: no line has more than %d columns' % MOST if not long else 'columns.py: FAILED, %d lines' % len(long))
sys.exit(1 if long else 0)
