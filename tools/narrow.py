#!/usr/bin/env python3
"""narrow.py [FOLDER ...]: the level formula on processors of 32 bits (§4 of the change requests). For each folder, a checkout of this repository (here, if none is
named), the functions `output_value::reached` (Progress_Value of a movement) and `output_light::lit_moving` (the lit milliseconds of a stretch of it) are compiled for
each processor by the kit's own compiler, and the instructions of one call are counted, for movements of each sort. What each call gives is compared with a number.
Dividing 64 bits is a call of the compiler's library on these processors: a `d` says that it is called, and its own instructions are not counted.
The compiler is given what `rt try` hands to it in crates/replay (a file module.bc beside it), without what is said there of the processor and of each function.
Needs qemu-arm and qemu-i386 (Debian: qemu-user, tried with 7.2) and nm. Nothing is proved by this, and the gate does not run it."""
import glob
import os
import re
import shutil
import subprocess
import sys
import tempfile

FUNCTIONS = {'output_value::reached': 'reached(t, m)', 'output_light::lit_moving': 'lit_moving(t, 100, m)'}
# the compiler's names for a processor, the linker's, who runs it, the library's division, how a program ends
PROCESSORS = {
    'ARM Cortex-M3': (['--target=thumbv7m-none-linux-gnueabi'], 'armelf_linux_eabi', ['qemu-arm', '-cpu', 'max'], '__aeabi_uldivmod',
                      'movs r7, #1; movs r0, #0; svc 0'),
    'i686': (['--target=i686-unknown-linux-gnu', '-march=i686'], 'elf_i386', ['qemu-i386'], '__udivdi3', 'movl $1, %eax; xorl %ebx, %ebx; int $0x80'),
}
FADE, RAMP = 0, 1
PERCENT = 65536
# what, then start, target, length, pace and rate of a movement, and how many of its milliseconds are gone; by
# hand, the level then, and how many of the next 100
# milliseconds are lit
MOVEMENTS = [
    ('fade, 0 to 50 percent', 0, 50 * PERCENT, 1000, FADE, 0, 333, 1091174, 100),
    ('fade, 50 to 0 percent', 50 * PERCENT, 0, 1000, FADE, 0, 333, 2185626, 100),
    ('fade, 20 to 50 percent', 20 * PERCENT, 50 * PERCENT, 1000, FADE, 0, 333, 1965424, 100),
    ('ramp, 0 to 100 percent', 0, 100 * PERCENT, 800000, RAMP, PERCENT // 8, 333333, 2730663, 100),
    ('ramp, 100 to 0 percent', 100 * PERCENT, 0, 800000, RAMP, PERCENT // 8, 333333, 3822937, 100),
]
NAMES = 'START TARGET LENGTH PACE RATE GONE'.split()

# Without a C library: the program calls one function once and ends, in an endless loop if what came is not
# what was reckoned by hand. Panel time is past 2^40, so
# that no half of it is 0
PROGRAM = r'''
typedef unsigned int u32;
typedef unsigned long long u64;
struct movement { u32 owner, start, target, length; u64 over; u32 pace, rate; };
u32 reached(u64 t, const struct movement *m) __asm__("output_value::reached");
u64 lit_moving(u64 from, u64 n, const struct movement *m) __asm__("output_light::lit_moving");
void *memcpy(void *to, const void *from, u32 n) { char *a = to; const char *b = from; while (n--) *a++ = *b++; return to; }
__attribute__((used)) u64 divide(u64 n, u64 by) {
  u64 quotient = 0, rest = 0;
  for (int i = 63; i >= 0; i--) {
    rest = rest << 1 | (n >> i & 1);
    if (rest >= by) { rest -= by; quotient |= 1ULL << i; }
  }
  return quotient;
}
#ifdef __arm__
__attribute__((naked)) void __aeabi_uldivmod(void) { __asm__("push {r4, lr}; bl divide; pop {r4, pc}"); }
#else
u64 __udivdi3(u64 n, u64 by) { return divide(n, by); }
#endif
__attribute__((noinline)) u64 called(const struct movement *m, u64 t) { return CALL; }
void _start(void) {
  struct movement m = {15, START, TARGET, LENGTH, 1099511627776 + LENGTH, PACE, RATE};
  if (called(&m, 1099511627776 + GONE) == RESULT) __asm__ volatile(END);
  for (;;) __asm__ volatile("");
}
'''


def run(words):
    return subprocess.run(words, check=True, capture_output=True, text=True, timeout=60).stdout


def kit_that_keeps(work):
    """A copy of the kit by links, whose compiler keeps each module that it is given: the program's as it is, before anything was made of it, is among them."""
    kit = os.path.dirname(os.path.dirname(os.path.realpath(run(['sh', '-c', 'command -v rt']).strip())))
    copy = os.path.join(work, 'kit')
    tools = os.path.join('toolchain', 'bin')
    for inside in ('', 'bin', 'toolchain', tools):
        os.makedirs(os.path.join(copy, inside))
        for name in os.listdir(os.path.join(kit, inside)):
            one, other = os.path.join(kit, inside, name), os.path.join(copy, inside, name)
            # the scripts of rt look for the kit where they themselves lie
            if inside == 'bin' and name.startswith('rt') and os.path.isfile(one):
                shutil.copy(one, other)
            elif os.path.join(inside, name) not in ('bin', 'toolchain', tools) and inside != tools:
                os.symlink(one, other)
    compiler = os.path.join(kit, tools, 'clang')
    for name in os.listdir(os.path.join(kit, tools)):
        wrapper, one = os.path.join(copy, tools, name), os.path.join(kit, tools, name)
        with open(wrapper, 'w') as file:
            file.write('#!/bin/bash\n[ -f module.bc ] && cp module.bc %s/module-$$.bc\nexec -a "$0" %s "$@"\n' % (work, one))
        os.chmod(wrapper, 0o755)
    return copy, compiler


def functions_of(folder, work):
    """The two functions of a checkout, for any processor: what is made for this one alone is taken out, and nothing else is kept."""
    kit, compiler = kit_that_keeps(work)
    said = subprocess.run([os.path.join(kit, 'bin', 'rt'), 'try'], cwd=os.path.join(folder, 'crates', 'replay'), stdin=subprocess.DEVNULL, capture_output=True, text=True)
    path, text = os.path.join(work, 'module.ll'), ''
    for module in sorted(glob.glob(os.path.join(work, 'module-*.bc'))):
        run([compiler, '-S', '-emit-llvm', '-x', 'ir', module, '-o', path, '-O0'])
        with open(path) as file:
            found = file.read()
        if not text and all('@"%s"(' % name in found for name in FUNCTIONS):
            text = found
    if not text:
        sys.exit('narrow.py: `rt try` in %s/crates/replay compiled no such functions: %s' % (folder, said.stdout + said.stderr))
    text = re.sub(r'^target (?:datalayout|triple).*$', '', text, flags=re.M)
    text = re.sub(r'^attributes #(\d+) = \{.*$', r'attributes #\1 = { nounwind }', text, flags=re.M)
    text = re.sub(r'^define (?!internal)', 'define internal ', text, flags=re.M)
    for name in FUNCTIONS:
        text = re.sub(r'^define internal ([^@\n]*@"%s")' % name, r'define \1', text, flags=re.M)
    with open(path, 'w') as file:
        file.write(text)
    return path, compiler


def counted(processor, movement, name, made, work, compiler):
    words, emulation, runner, division, end = PROCESSORS[processor]
    given = dict(zip(NAMES, movement[1:]), CALL=FUNCTIONS[name], RESULT=movement[7 + list(FUNCTIONS).index(name)], END='"%s"' % end)
    program = os.path.join(work, 'call')
    with open(program + '.c', 'w') as file:
        file.write(PROGRAM)
    run([compiler] + words + ['-O1', '-ffreestanding', '-fno-pic', '-c', program + '.c', '-o', program + '.o'] + ['-D%s=%s' % pair for pair in given.items()])
    run(['bash', '-c', 'exec -a ld.lld "$@"', 'sh', compiler, '-m', emulation, '--gc-sections', '-e', '_start', '-o', program, program + '.o', made])
    run(runner + ['-singlestep', '-d', 'exec,nochain', '-D', program + '.trace', program])
    places = {}
    for line in run(['nm', '-S', program]).splitlines():
        parts = line.split(maxsplit=3)
        if len(parts) == 4:
            # the lowest bit of an address says that the code is Thumb
            places[parts[3]] = range(int(parts[0], 16) & ~1, (int(parts[0], 16) & ~1) + int(parts[1], 16))
    with open(program + '.trace') as file:
        steps = [int(place, 16) for place in re.findall(r'\[[0-9a-f]+/([0-9a-f]+)/', file.read())]
    spent = {place: sum(step in steps_of for step in steps) for place, steps_of in places.items()}
    # what the compiler did not put in place counts too
    own = sum(n for place, n in spent.items() if place not in ('_start', 'called', 'divide', division))
    return '%d%s' % (own, ' d' if spent.get(division) else '')


for folder in sys.argv[1:] or ['.']:
    with tempfile.TemporaryDirectory() as work:
        source, compiler = functions_of(folder, work)
        print(os.path.abspath(folder) if folder != '.' else 'here')
        for processor, (words, *_) in PROCESSORS.items():
            made = os.path.join(work, 'functions.o')
            run([compiler] + words + ['-Wno-override-module', '-O3', '-fno-pic', '-ffunction-sections', '-c', '-x', 'ir', source, '-o', made])
            print('  %-24s %-24s %s' % (processor, *FUNCTIONS))
            for movement in MOVEMENTS:
                cells = [counted(processor, movement, name, made, work, compiler) for name in FUNCTIONS]
                print('  %-24s %-24s %s' % (movement[0], *cells))
