#!/usr/bin/env python3
"""programs.py [--frames N] [--rounds R] [--instructions] PROGRAM..: replay programs side by side, over the streams of `bench --write`.
Prints a table of microseconds of user time a frame, the best of R rounds, the rounds of all programs taken in turn; with --instructions also a table
of instructions a frame, counted by valgrind --tool=callgrind over a shorter stream. Each program reads the same list and writes the same text;
the answers are compared, or the times mean nothing."""
import argparse
import glob
import os
import re
import resource
import subprocess
import sys
import tempfile

here = os.path.dirname(os.path.abspath(__file__))
parser = argparse.ArgumentParser()
parser.add_argument('--frames', type=int, default=100000)
parser.add_argument('--rounds', type=int, default=5)
parser.add_argument('--instructions', action='store_true')
parser.add_argument('programs', nargs='+')
wanted = parser.parse_args()


def streams(folder, frames):
    subprocess.run([os.path.join(here, '../target/release/bench'), '--write', folder, '--frames', str(frames)], check=True, stdout=subprocess.DEVNULL)
    lists = glob.glob(os.path.join(folder, '*.list'))
    return sorted(lists, key=lambda path: (int(re.search(r'-(\d+)\.list$', path).group(1)), path))


def count(path):
    return sum(1 for line in open(path)) - 1


def seconds(program, path):
    before = resource.getrusage(resource.RUSAGE_CHILDREN).ru_utime
    with open(path) as text:
        out = subprocess.run([program], stdin=text, stdout=subprocess.PIPE, check=True).stdout
    return resource.getrusage(resource.RUSAGE_CHILDREN).ru_utime - before, out


def instructions(program, path, folder):
    with open(path) as text:
        told = subprocess.run(['valgrind', '--tool=callgrind', '--callgrind-out-file=' + os.path.join(folder, 'callgrind'), program],
                              stdin=text, stdout=subprocess.DEVNULL, stderr=subprocess.PIPE, check=True).stderr.decode()
    return int(re.search(r'Collected : (\d+)', told).group(1))


def table(title, rows):
    names = [os.path.basename(program) for program in wanted.programs]
    print('\n%s\n\n| stream | outputs | %s | %s |\n|---|---|%s---|' % (title, ' | '.join(names), ' / '.join((names[0], names[-1])), '---|' * len(names)))
    for path, values in rows:
        name, outputs = re.search(r'([^/]+)-(\d+)\.list$', path).groups()
        ratio = '%.2f' % (values[0] / values[-1]) if values[-1] else '-'
        print('| %s | %s | %s | %s |' % (name.replace('2-40', '2^40').replace('-', ' '), outputs, ' | '.join('%.4g' % v for v in values), ratio))


with tempfile.TemporaryDirectory() as folder:
    rows = []
    for path in streams(folder, wanted.frames):
        # a stream of far jumps comes to the end of time in some hundred frames: too few to time, and counted below
        if count(path) < 5000:
            continue
        best, texts = [None] * len(wanted.programs), set()
        for _ in range(wanted.rounds):
            for i, program in enumerate(wanted.programs):
                took, out = seconds(program, path)
                best[i] = took if best[i] is None else min(best[i], took)
                texts.add(out)
        if len(texts) != 1:
            sys.exit('programs.py: the programs answer otherwise on ' + path)
        rows.append((path, [1e6 * b / count(path) for b in best]))
    table('Microseconds of user time a frame, text included', rows)
if wanted.instructions:
    with tempfile.TemporaryDirectory() as folder:
        rows = [(path, [instructions(program, path, folder) / count(path) for program in wanted.programs]) for path in streams(folder, 2000)]
        table('Instructions a frame, text and start included', rows)
