#!/usr/bin/env python3
"""seconds.py FILE: pass standard input on, line by line, and write into FILE when each line of a crate, an edit or a program came.
seconds.py --table FILE TESTS: print where the gate's seconds went, from that file and from lines 'SECONDS NAME' of TESTS.
For information alone: nothing fails by a time. rt runs several checks at a time and says of none how long it took, so the table has when the
last crates were proved. It tells of all edits when the last one was tried, and of all programs when the last one had run."""
import re
import sys
import time

PATTERNS = (
    ('kept', re.compile(r'^rt: (\w+) is kept: ')),
    ('proved', re.compile(r'^rt: (\w+)(?:: its tests are)? (?:NOT )?(?:proved|PROVED)')),
    ('edit', re.compile(r'^rt: must-fail (\w+)/')),
    ('program', re.compile(r'^rt: (\w+) ran(?: |,)')),
)


def follow(path):
    began = time.time()
    with open(path, 'w') as kept:
        for line in sys.stdin:
            sys.stdout.write(line)
            sys.stdout.flush()
            for sort, pattern in PATTERNS:
                found = pattern.match(line)
                if found:
                    kept.write('%s %s %.0f\n' % (sort, found.group(1), time.time() - began))
                    break
        kept.write('end - %.0f\n' % (time.time() - began))


def table(path, tests):
    rows = [line.split() for line in open(path)]
    of = lambda sort: [row for row in rows if row[0] == sort]
    crates, last = of('proved'), lambda sort, least: max([int(row[2]) for row in of(sort)], default=least)
    proved = max(last('proved', 0), last('kept', 0))
    tried = last('edit', proved)
    others = [line.split(None, 1) for line in open(tests)]
    print('where the seconds went')
    print('  proving %d crates (%d more are kept from earlier runs): %d s; the last ones came after' % (len(crates), len(of('kept')), proved))
    for row in sorted(crates, key=lambda row: -int(row[2]))[:8]:
        print('      %4s s  %s' % (row[2], row[1]))
    print('  then the %d must-fail edits that were not yet tried beside them: %d s' % (len(of('edit')), tried - proved))
    print('  programs: %d s' % (last('end', tried) - tried))
    print('  tests after that: %d s' % sum(int(row[0]) for row in others))
    for seconds, name in sorted(others, key=lambda row: -int(row[0]))[:5]:
        print('      %4s s  %s' % (seconds, name.strip()))


if sys.argv[1] == '--table':
    table(sys.argv[2], sys.argv[3])
else:
    follow(sys.argv[1])
