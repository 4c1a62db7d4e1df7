#!/usr/bin/env python3
"""frames.py: what pages show of frames, run. The lines of the blocks of docs/FRAMES.md that are frames with
answers are one list over 16 outputs, and so are those of docs/SUPPLY.md over one, each with a tenant
station (§8): `replay` must give each answer. examples/frames.txt must be the list of docs/FRAMES.md
(--write makes it). Each row of its 'Properties' is read on a fresh output, written with 0, and written with
the ends of its range and what lies next to them: the columns 'fresh', 'writable' and 'range' must be true.
Every kind and every property that `replay` knows, and no other, has its row. Every kind and every refusal
but 1 and 17 has an example; a kind's bytes are those of its frames. 17 is a start's: a list whose first
line has a number out of range ends in it. Exit status 1 where something is not so."""
import re
import struct
import subprocess
import sys

PAGE, LIST, PROGRAM = 'docs/FRAMES.md', 'examples/frames.txt', 'target/bin/replay'
HEAD = '# The frames of docs/FRAMES.md in its order, without the answers: tools/frames.py --write makes this file.\n'
# a frame in hex, its answer, and what the page says beside them
FRAME = r'^((?:[0-9A-F]{2})+(?: (?:[0-9A-F]{2})+)*|-) +(Done|Absent|Value [0-9A-F]{8}|Refused \d+)(?:  +(.*))?$'

# refusals that a start meets, and no frame
STARTS = {17: ('outputs 0', 'outputs 65', 'outputs 1 stations 33', 'outputs 1 fade 99', 'outputs 1 fade 14400001', 'outputs 1 duration 86400001')}

faults = []


def answers(text):
    run = subprocess.run([PROGRAM], input=text, capture_output=True, text=True)
    return run.stdout.split('\n--\n')[0].split('\n')


def shown_on(page, heading):
    """The frames that a page shows, as (line, frame, answer), and the list that they are."""
    shown, text = [], heading + '\n'
    if '`%s`' % heading not in open(page).read():
        faults.append('%s: does not say that its list begins with %s' % (page, heading))
    with open(page) as lines:
        for line, words in enumerate(lines, 1):
            block = re.match(r'^    +(\S.*?)\s*$', words)
            frame = block and re.match(FRAME, block[1])
            if frame:
                shown.append((line, frame[1], frame[2]))
                text += ('# %s\n' % frame[3] if frame[3] else '') + frame[1] + '\n'
            elif block and re.match(r'^([0-9A-F]{2}|-)( |$)', block[1]):
                faults.append('%s:%d: a frame without an answer' % (page, line))
    given = answers(text)
    if len(given) != len(shown):
        faults.append('%s: %d answers to %d frames' % (page, len(given), len(shown)))
    for (line, frame, said), answer in zip(shown, given):
        if said != answer:
            faults.append('%s:%d: %s is answered %s' % (page, line, frame, answer))
    return shown, text


shown, text = shown_on(PAGE, 'outputs 16 tenants 20')
also_shown, _ = shown_on('docs/SUPPLY.md', 'outputs 1 tenants 4')
if len(also_shown) < 5:
    faults.append('docs/SUPPLY.md: %d frames found' % len(also_shown))

# the list of the page
if '--write' in sys.argv[1:]:
    with open(LIST, 'w') as file:
        file.write(HEAD + text)
with open(LIST) as file:
    if file.read() != HEAD + text:
        faults.append('%s is another list: tools/frames.py --write' % LIST)

# its tables
rows = []  # (line of the page, first property, last, fresh, writable, value, range)
kind_rows, refusal_rows = {}, set()
with open(PAGE) as page:
    for line, words in enumerate(page, 1):
        cells = [cell.strip() for cell in words.strip().strip('|').split('|')]
        if len(cells) == 6 and re.match(r'^[0-9A-F]{2}( to [0-9A-F]{2})?$', cells[0]):
            ends = [int(number, 16) for number in cells[0].split(' to ')]
            fresh = cells[4].split(' ')[0].strip('`')
            rows.append((line, ends[0], ends[-1], fresh, cells[5], cells[2], cells[3]))
        elif len(cells) == 5 and re.match(r'^[0-9A-F]{2}$', cells[0]):
            kind_rows[cells[0]] = int(cells[3])
        elif len(cells) == 3 and cells[0].isdigit() and cells[2] in ('yes', 'no'):
            refusal_rows.add(int(cells[0]))
            if (cells[2] == 'yes') != (int(cells[0]) >= 9 and int(cells[0]) not in STARTS):
                faults.append('%s:%d: whether refusal %s uses up the number' % (PAGE, line, cells[0]))
for line, frame, answer in shown:
    if answer not in ('Refused 2', 'Refused 3') and kind_rows.get(frame[:2]) != len(frame.replace(' ', '')) // 2:
        faults.append('%s:%d: %s has not the bytes of its kind' % (PAGE, line, frame))

# each property of a fresh output, read, and then written with 0
numbers = [number for _, first, last, *_ in rows for number in range(first, last + 1)]
asked = ''.join('05 00 %08X 000000000000 00 %02X\n' % (k, number) for k, number in enumerate(numbers, 1))
asked += ''.join('04 01 %08X 000000000000 00 %02X 00000000\n' % (k, number) for k, number in enumerate(numbers, 1))
given = answers('outputs 1\n' + asked)
for line, first, last, fresh, writable, _, _ in rows:
    for number in range(first, last + 1):
        place = numbers.index(number)
        read, written = given[place], given[len(numbers) + place]
        if read != ('Absent' if fresh == 'Absent' else 'Value ' + fresh):
            faults.append('%s:%d: property %02X of a fresh output reads %s' % (PAGE, line, number, read))
        if writable not in ('yes', 'no') or (writable == 'no') != (written == 'Refused 9'):
            faults.append('%s:%d: property %02X written with 0: %s' % (PAGE, line, number, written))



def edges(value, span):
    """What is written, with the answers that the row allows: the ends of the range, and what is next to them."""
    ends = re.match(r'^([\d.]+)(?: (?:to|or) ([\d,.]*\d))?', span)
    if not ends:
        return [(0, {'no range on the page'})]
    low, high = ends[1], (ends[2] or ends[1]).replace(',', '')
    taken = {'Done'} | ({'Refused 16'} if 'above' in span or 'below' in span else set())
    if value.startswith('REAL'):
        low, high = (int.from_bytes(struct.pack('>f', float(end)), 'big') for end in (low, high))
        outside, refused = [low - 1 if low else 0x80000001, high + 1], {'Refused 11'}
    else:
        low, high = int(low), int(high)
        outside, refused = [high + 1] + ([low - 1] if low else []), {'Refused 12'}
    if 'not 6' in span:
        outside, refused = outside + [6], {'Refused 10'}
    return [(bits, taken) for bits in (low, high)] + [(bits, refused) for bits in outside]


for line, number, _, _, writable, value, span in rows:
    for bits, allowed in edges(value, span) if writable == 'yes' else []:
        answer = answers('outputs 1\n04 00 00000001 000000000000 00 %02X %08X\n' % (number, bits))[0]
        if answer not in allowed:
            faults.append('%s:%d: property %02X written with %08X: %s' % (PAGE, line, number, bits, answer))

# what replay knows: a kind, if a frame that is too long is refused for its length; a property, if it is read
known_kinds = {'%02X' % k for k, answer in enumerate(answers(
    'outputs 1\n' + ''.join('%02X' % k + '00' * 99 + '\n' for k in range(256)))) if answer == 'Refused 3'}
known_properties = {k for k, answer in enumerate(answers(
    'outputs 1\n' + ''.join('05 00 %08X 000000000000 00 %02X\n' % (k + 1, k) for k in range(256))))
    if answer != 'Refused 9'}
kinds = {frame[:2] for _, frame, answer in shown if answer not in ('Refused 2', 'Refused 3')}
refused = {int(answer.split()[1]) for _, _, answer in shown if answer.startswith('Refused')}
refusals = set(range(2, max(refusal_rows) + 1)) - set(STARTS)
for number, headings in STARTS.items():
    for heading in headings:
        line = answers(heading + '\n')[0]
        if not re.match(r'^line 1: .*: Refused %d$' % number, line):
            faults.append('%s: %s is answered %s' % (PAGE, heading, line))
for what, missing in (('example of kind', known_kinds - kinds), ('row of kind', known_kinds - set(kind_rows)),
                      ('kind in replay', set(kind_rows) - known_kinds),
                      ('example of refusal', refusals - refused), ('row of refusal', ({1} | refusals | refused | set(STARTS)) - refusal_rows),
                      ('row of property', {'%02X' % number for number in known_properties - set(numbers)}),
                      ('property in replay', {'%02X' % number for number in set(numbers) - known_properties})):
    faults += ['%s: no %s %s' % (PAGE, what, name) for name in sorted(missing)]
for fault in faults:
    print('frames.py: ' + fault)
count = (len(shown) + len(also_shown), len(numbers))
print('frames.py: %d frames, %d properties: as the pages say' % count if not faults else 'frames.py: FAILED')
sys.exit(1 if faults else 0)
