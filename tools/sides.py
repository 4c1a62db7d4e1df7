#!/usr/bin/env python3
"""sides.py FOLDER: what changed since the checkout FOLDER, old and new side by side, as docs/DESIGN-PASS.md ends with it: public types and functions with
their clauses, definitions of specs/, and statements of lemmas that other files may cite. A line that begins with '-' is the old one, with '+' the new one."""
import glob
import os
import re
import sys
import textwrap


def code_of(path):
    return re.sub(r'//[^\n]*', '', open(path).read())


def public(root):
    items = {}
    for path in sorted(glob.glob(root + '/crates/*/src/**/*.rt', recursive=True)):
        crate, module = path[len(root):].split('/')[2], os.path.basename(path)[:-3]
        text, owner = code_of(path), ''
        where = crate if module in ('lib', 'main') else crate + '::' + module
        for m in re.finditer(r'^(?:(impl[^\n]*?) \{$|( *)(pub (?:extern "C" )?(?:const )?(?:fn|struct|enum|type|const|trait) [^\n]*))', text, re.M):
            if m.group(1):
                owner = re.sub(r'impl(?:<[^>]*>)? ', '', m.group(1)).strip()
                continue
            if not m.group(2):
                owner = ''
            start = m.start(3)
            line = m.group(3)
            kind = re.search(r'\b(fn|struct|enum|type|const|trait) (\w+)', line)
            if kind.group(1) == 'fn':
                end = re.compile(r'\n%s\{\n|\{\n' % m.group(2)).search(text, start).start()
                body = text[start:end]
            elif kind.group(1) in ('struct', 'enum', 'trait'):
                end = text.find('\n%s}' % m.group(2), start)
                body = text[start:end + 2 + len(m.group(2))]
            else:
                body = text[start:text.find(';', start) + 1]
            name = '%s::%s%s' % (where, owner + '::' if owner else '', kind.group(2))
            items[name] = ' '.join(re.sub(r'\s+', ' ', body).split()).replace('( ', '(').replace(', )', ')')
    return items


def statements(root, folder):
    items = {}
    for path in sorted(glob.glob(root + '/crates/*/%s/**/*.antt' % folder, recursive=True)):
        inner = path[len(root) + 8:]
        if folder == 'proofs' and (inner.count('/') > 2 and inner.split('/')[0][:9] != 'lighting_' and not inner.split('/')[2][0].isupper()):
            continue
        if os.path.basename(path) in ('Lib.antt', 'Laws.antt', 'Figures.antt'):
            continue
        if folder == 'proofs' and os.path.basename(path) in ('Answers.antt', 'Invariants.antt'):
            continue
        lines = [l.split('--')[0].rstrip() for l in open(path)]
        i = 0
        while i < len(lines):
            m = re.match(r'( *)((?:unfoldable |abbrev )?pub (?:data |record )?(?:ruleset )?(\S+) (?::|.*).*)', lines[i])
            if not m or ' use ' in lines[i] or re.match(r' *pub (use|mod) ', lines[i]):
                i += 1
                continue
            block, j = [lines[i].strip()], i + 1
            while j < len(lines) and lines[j].strip():
                s = lines[j].strip()
                if folder == 'proofs' and (s.startswith('unfolding ') or re.match(r'%s(?: |$)' % re.escape(m.group(3)), s)):
                    break
                if re.match(r'(?:unfoldable |abbrev )?pub ', s) and len(lines[j]) - len(lines[j].lstrip()) <= len(m.group(1)):
                    break
                block.append(s)
                j += 1
            items['%s %s' % (inner, m.group(3))] = ' '.join(b for b in block if not b.startswith('unfolding '))
            i = j
    return items


def wrapped(sign, text):
    return textwrap.wrap(text, 106, initial_indent=sign + ' ', subsequent_indent=sign + '     ', break_long_words=False, break_on_hyphens=False)


def main():
    root, here = sys.argv[1].rstrip('/'), os.getcwd()
    for title, old, new in [
        ('Public types and functions', public(root), public(here)),
        ('Definitions', statements(root, 'specs'), statements(here, 'specs')),
        ('Statements of lemmas and theorems', statements(root, 'proofs'), statements(here, 'proofs')),
    ]:
        changed = [n for n in old if n in new and old[n] != new[n]]
        gone, fresh = [n for n in old if n not in new], [n for n in new if n not in old]
        print('### %s\n\nOf %d there stand %d word for word, %d changed, %d went, %d are new.\n' % (title, len(old), len(old) - len(changed) - len(gone), len(changed), len(gone), len(fresh)))
        for heading, names in (('Changed', changed), ('Gone', gone), ('New', fresh)):
            if names:
                print('%s:\n\n```diff' % heading)
                last = None
                for n in names:
                    group = n.split('::')[0].split(' ')[0]
                    if group != last:
                        print('@@ ' + group)
                        last = group
                    if n in old:
                        print('\n'.join(wrapped('-', old[n])))
                    if n in new:
                        print('\n'.join(wrapped('+', new[n])))
                print('```\n')


main()
