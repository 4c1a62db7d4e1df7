#!/usr/bin/env python3
"""forms.py [--list] [POINT ..]: counts the places in src/ whose form an older Rattle left behind, by the points
of docs/DESIGN-PASS.md, and with --list prints each. It reads text alone: a place that it finds may have its
reason (a comment that begins with 'Stays:')."""
import collections
import glob
import re
import sys

FILES = {path: open(path).read() for path in sorted(glob.glob('crates/*/src/**/*.rt', recursive=True))}
CODE = {path: re.sub(r'//[^\n]*', lambda m: ' ' * len(m.group()), text) for path, text in FILES.items()}
FUNCTION = re.compile(
    r'^[ ]*(?:pub )?(?:extern "C" )?fn (\w+)(?:<[^>]*>)?\(([^{]*?)\)(?:\s*->\s*([^{;]*?))?'
    r'((?:\s*(?:requires|ensures)[^\n]*)*)\s*\{\n', re.M | re.S)


WORDS = 'if else match while for in let mut return true false as T N'.split()
# a choice of the lesser or the greater, one less, a difference or a sum that stops at an end
ORDERS = [
    r'if (\w+(?:\.\w+)?) (?:<|<=) (\w+(?:\.\w+)?)(?: as \w+)? \{ [\w. -]+(?: as \w+)? \} else \{ [\w. -]+ \}',
    r'if \w+ == 0 \{ 0 \} else \{ \w+ - 1 \}',
    r'if \w+ (?:<|<=) (?:\w+ - \w+|\d+) \{ [^{}]*\} else \{ [^{}]*\}',
    r'if \w+ < \w+ - \w+ \{ return [^{}]*; \} \w+',
]
EQUALITY = r'(?:if .*?\{ return false; \} )?(?:let mut i: usize = 0; )?while .*'


def functions():
    for path, code in CODE.items():
        for m in FUNCTION.finditer(code):
            indent = re.match(r' *', m.group().split('\n')[0]).group()
            end = code.find('\n%s}\n' % indent, m.end() - 1)
            yield path, m, code[m.end():end + 1]


def place(path, at):
    return '%s:%d' % (path, FILES[path].count('\n', 0, at) + 1)


def found(pattern, only=lambda path, m: True):
    return ['%s %s' % (place(path, m.start()), m.group().strip().split('\n')[0][:80])
            for path, code in CODE.items() for m in re.finditer(pattern, code, re.M) if only(path, m)]


def own_options():
    """own enums of two variants, of which one holds nothing, a fault or a refusal's number"""
    places = []
    for path, code in CODE.items():
        for m in re.finditer(r'^pub enum (\w+) \{(.*?)\n\}', code, re.M | re.S):
            variants = [v.strip() for v in re.split(r',\s*(?![^({]*[)}])', m.group(2)) if v.strip()]
            holds = [bool(re.search(r'[({]', v)) for v in variants]
            fault = any(re.match(r'\w+\((u8|\w*Fault|\w*Refusal)\)$', v) for v in variants)
            if len(variants) == 2 and any(holds) and (not all(holds) or fault):
                places.append('%s enum %s' % (place(path, m.start()), m.group(1)))
    return places


def codes():
    """numbers of refusals, and functions that answer a number for none"""
    answers = ['%s fn %s' % (place(p, m.start()), m.group(1)) for p, m, b in functions()
               if (m.group(3) or '').strip() in ('u8', 'u32') and re.search(r'refusal|hex_value', m.group(1))]
    return (found(r'\b(?:Refuse|Bad|TurnedDown|Unreadable|Refused|Err)\(\d+\)')
            + found(r'^\s*(?:Answer::)?Refused\(u8\)|^\s*(?:Refuse|Bad|TurnedDown|Unreadable)\(u8\)')
            + answers)


def flags():
    """a flag beside a value in a struct: what the value is worth depends on the flag"""
    return found(r'^    (?:pub )?(?:more|good|open|named|letter|no_\w+): (?:bool|u8)')


def twins():
    """functions of a body that is another's but for names, types, sizes and constants"""
    groups = collections.defaultdict(list)
    for path, m, body in functions():
        flat = re.sub(r'\b(?:u8|u16|u32|u64|usize|f32|bool)\b', 'T', re.sub(r'\b\d[\d_xA-Fa-f.]*\b', 'N', body))
        flat = re.sub(r'\b[A-Za-z_]\w*\b', lambda w: w.group() if w.group() in WORDS else 'x', flat)
        flat = re.sub(r'\s+', '', flat)
        if len(flat) > 24:
            groups[flat, len(m.group(2).split(','))].append('%s fn %s' % (place(path, m.start()), m.group(1)))
    return [' = '.join(g) for g in groups.values() if len(g) > 1]


def index_loops():
    return found(r'^\s*while [^{]*\{', lambda p, m: 'let ' not in m.group())


def by_hand():
    """orders, sums that stop, conversions and copies that std or a derive has"""
    places = []
    for path, m, body in functions():
        name = '%s fn %s' % (place(path, m.start()), m.group(1))
        flat = ' '.join(body.split())
        if any(re.fullmatch(order, flat) for order in ORDERS):
            places.append(name + ': order or sum')
        elif re.fullmatch(r'\w+ as \w+', flat):
            places.append(name + ': conversion')
        elif re.fullmatch(r'\w+\.\w+', flat):
            places.append(name + ': field')
        if re.fullmatch(EQUALITY, flat) and '!=' in flat and 'true' in flat.split()[-1:]:
            places.append(name + ': equality')
        copies = re.findall(r'\b(\w+): (\w+)\.(\w+)\b', body)
        same = collections.Counter(v for f, v, g in copies if f == g)
        for v, n in same.items():
            if n >= 2:
                places.append('%s: %d fields of %s copied' % (name, n, v))
        lets = [l for l in re.findall(r'^\s*let (\w+) = (\w+)\.(\w+);', body, re.M)]
        if len(lets) >= 2:
            places.append('%s: %d fields read into locals' % (name, len(lets)))
    return places


def pyramids():
    """conditions joined by ifs whose other branch is a constant"""
    return found(r'^[^\n]*else \{\s*(?:false|true)\s*\}')


def repeated():
    """clauses that stand in three functions or more"""
    clauses = collections.defaultdict(list)
    for path, m, body in functions():
        for c in re.findall(r'requires (?:\w+ )?\{ (.*) \}', m.group(4) or ''):
            clauses[c].append('%s fn %s' % (place(path, m.start()), m.group(1)))
    return ['%s: %d functions, the first is %s' % (c, len(f), f[0]) for c, f in clauses.items() if len(f) > 2]


def together():
    """parameters of a crate that always travel together, through three functions or more"""
    where = collections.defaultdict(set)
    for path, m, body in functions():
        crate = path.split('/')[1]
        for p in re.split(r',\s*(?![^<(\[]*[>)\]])', m.group(2)):
            if ':' in p:
                where[crate, re.sub(r'\s+', ' ', p.strip())].add((path, m.group(1)))
    sets = collections.defaultdict(list)
    for (crate, p), f in where.items():
        if len(f) > 2:
            sets[crate, frozenset(f)].append(p)
    return ['%s: %s: %d functions' % (crate, ', '.join(ps), len(f))
            for (crate, f), ps in sets.items() if len(ps) > 1]


def buffers():
    """a buffer with a mark or a length beside it"""
    return (found(r'page: &mut \[u8\],\s*(?:at|mark): usize')
            + found(r'^    (?:pub )?(?:bytes|numbers): \[\w+; \w+\],\n\s*(?:pub )?(?:count|length|from|open)'))


def switches():
    """a number or a flag that says which step is to run"""
    places = []
    for path, m, body in functions():
        flags_ = re.findall(r'(\w+): bool', m.group(2))
        for f in flags_:
            if re.search(r'if %s \{' % f, body):
                places.append('%s fn %s by %s' % (place(path, m.start()), m.group(1), f))
        if re.search(r'match k \{\s*0 => \w+\(', body):
            places.append('%s fn %s by a number' % (place(path, m.start()), m.group(1)))
    return places


POINTS = {
    '1': [('own enums of the shape of Option or Result', own_options), ('numbers of refusals', codes), ('flags beside values', flags)],
    '2': [('groups of twins', twins)],
    '3': [('loops that are no `for`', index_loops)],
    '4': [('orders, sums, conversions, equalities and copies by hand', by_hand), ('conditions joined by ifs', pyramids)],
    '5': [('clauses that repeat', repeated), ('parameters that travel together', together)],
    '6': [('buffers with a length beside', buffers)],
    '7': [('switches', switches)],
}


def main():
    wanted = [a for a in sys.argv[1:] if a in POINTS] or list(POINTS)
    for point in wanted:
        for name, count in POINTS[point]:
            places = count()
            print('%s %s: %d' % (point, name, len(places)))
            if '--list' in sys.argv:
                for p in places:
                    print('    ' + p)


main()
