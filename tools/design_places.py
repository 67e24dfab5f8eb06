#!/usr/bin/env python3
"""Lists the places in src/ (and for point 8 in proofs/) that the design pass asks about: docs/DESIGN-PASS.md says what each point is.

    python3 tools/design_places.py [--list] [FOLDER]

FOLDER is a checkout, the current folder if none is given. With --list each place is printed, else the counts alone.
The static libraries (crates/*_archive) are left out: they have C's signatures and nothing else.
"""
import glob
import os
import re
import sys
from collections import defaultdict


def sources(top):
    for path in sorted(glob.glob(os.path.join(top, 'crates', '*', 'src', '**', '*.rt'), recursive=True)):
        crate = path.split(os.sep + 'crates' + os.sep)[1].split(os.sep)[0]
        if crate.endswith('_archive'):
            continue
        text = open(path, encoding='utf-8').read()
        # comments go, lines stay
        yield os.path.relpath(path, top), re.sub(r'//[^\n]*', '', text)


def line(text, at):
    return text.count('\n', 0, at) + 1


def matches(files, pattern, flags=re.M):
    return [(p, line(t, m.start()), m.group(0).strip().split('\n')[0]) for p, t in files for m in re.finditer(pattern, t, flags)]


def bodies(files):
    """Each fn: path, line, name, parameters, clauses, body."""
    for p, t in files:
        for m in re.finditer(r'\bfn (\w+)(?:<[^>]*>)?\s*\(', t):
            i, depth = m.end(), 1
            while depth and i < len(t):
                depth += {'(': 1, ')': -1}.get(t[i], 0)
                i += 1
            params = t[m.end():i - 1]
            j = i
            while j < len(t):
                if t[j] == '{':
                    before = t[t.rfind('\n', 0, j) + 1:j].strip()
                    depth, k = 1, j + 1
                    while depth and k < len(t):
                        depth += {'{': 1, '}': -1}.get(t[k], 0)
                        k += 1
                    if re.match(r'(requires|ensures)\b', before):
                        j = k
                        continue
                    yield p, line(t, m.start()), m.group(1), params, t[i:j], t[j:k]
                    break
                if t[j] == ';':
                    break
                j += 1


def option_shaped(files):
    found = []
    for p, t in files:
        for m in re.finditer(r'enum (\w+)(?:<[^>]*>)?\s*\{(.*?)\n\}', t, re.S):
            variants = re.findall(r'^\s+(\w+)\s*(\([^)]*\)|\{[^}]*\})?,?$', m.group(2), re.M)
            with_value = [v for v in variants if v[1]]
            if len(variants) == 2 and len(with_value) == 1:
                found.append((p, line(t, m.start()), 'enum ' + m.group(1)))
    return found


def shape(body):
    names, out = {}, []
    for token in re.findall(r'[A-Za-z_]\w*|\d\w*|\S', body):
        if re.match(r'[A-Za-z_]', token) and token not in ('if', 'else', 'match', 'let', 'mut', 'return', 'while', 'for', 'in', 'as', 'Ok', 'Err', 'Some', 'None'):
            out.append('n%d' % names.setdefault(token, len(names)))
        elif token[0].isdigit():
            out.append('0')
        else:
            out.append(token)
    return tuple(out)


def twins(files):
    groups = defaultdict(list)
    for p, l, name, params, clauses, body in bodies(files):
        s = shape(body)
        if len(s) >= 24:
            groups[s].append((p, l, name))
    return [(g[0][0], g[0][1], ' = '.join('%s:%s' % (os.path.basename(os.path.dirname(os.path.dirname(x[0]))), x[2]) for x in g)) for g in groups.values() if len(g) > 1]


def repeated_facts(files):
    where = defaultdict(list)
    for p, l, name, params, clauses, body in bodies(files):
        for c in re.findall(r'requires \w*\s*\{(.*?)\}\s*$', clauses, re.M):
            for fact in re.split(r' × ', c):
                fact = re.sub(r'\.(now|old|new|entry)\b', '', fact).strip().strip('()').strip()
                where[(p.split(os.sep)[1], fact)].append((p, l, name))
    return [(v[0][0], v[0][1], '%d times: %s' % (len(v), k[1])) for k, v in where.items() if len(v) >= 3]


def travelling(files):
    runs = defaultdict(set)
    for p, l, name, params, clauses, body in bodies(files):
        names = [re.sub(r'\s*:.*', '', x.strip()) for x in params.split(',') if ':' in x]
        for n in range(4, len(names) + 1):
            for i in range(len(names) - n + 1):
                runs[tuple(names[i:i + n])].add((p, l, name))
    wide = {k: v for k, v in runs.items() if len(v) >= 3}
    longest = [k for k in wide if not any(k != o and wide[o] >= wide[k] and ' '.join(k) in ' '.join(o) for o in wide)]
    return [(sorted(wide[k])[0][0], sorted(wide[k])[0][1], '%d functions: %s' % (len(wide[k]), ', '.join(k))) for k in longest]


def main():
    args = [a for a in sys.argv[1:] if a != '--list']
    top = args[0] if args else '.'
    files = list(sources(top))
    proofs = [p for p in glob.glob(os.path.join(top, 'crates', '*', 'proofs', '**', '*.antt'), recursive=True)
              if re.search(r'/(Answers|Invariants|Proof)\.antt$', p)]
    points = [
        ('1 enums of the shape of Option or Result', option_shaped(files)),
        ('1 constants that are codes', matches(files, r'^pub const [A-Z_]+: u32 = \d+;')),
        ('1 structs with a number given back', matches(files, r'^\s+pub(?:\(crate\))? number: u32,|^\s+number: u32,')),
        ('1 functions that answer a number given back', [(p, l, n) for p, l, n, a, c, b in bodies(files) if re.match(r'\s*-> u32', c) and re.search(r'numbers::|refus|\.number|number\(', b)]),
        ('1 tests of a number given back', matches(files, r'(?:!=|==) numbers::DONE|\bnumber (?:!=|==) 0\b')),
        ('1 a flag or a count with a value beside', matches(files, r'^\s+pub (?:waiting|open|found|count): u\d+,')),
        ('1 numbers for kinds', matches(files, r'\b(?:strobes|masking|half|select|phase|blank|persistent|tag|update|stop): u(?:8|32)\b')),
        ('2 functions of one shape', twins(files)),
        ('3 while and loop', matches(files, r'\bwhile\b[^\n]*|\bloop \{')),
        ('4 copies before use', matches(files, r'let (?:mut )?(\w+) = [\w.]+\.\1;')),
        ('4 fields copied one by one', matches(files, r'^\s+(\w+): self\.\1,')),
        ('4 conversions by hand', [(p, l, n) for p, l, n, a, c, b in bodies(files) if re.match(r'(of|take|hand|number_of|hand_\w+|take_\w+|answer\w*|excluded\w*)$', n)]),
        ('4 printing by hand', [(p, l, n) for p, l, n, a, c, b in bodies(files) if n.startswith('say') or n in ('digit',)]),
        ('5 facts required by three or more functions', repeated_facts(files)),
        ('5 four or more parameters that travel together', travelling(files)),
        ('6 a buffer with a place beside', [(p, l, n) for p, l, n, a, c, b in bodies(files) if re.search(r'&mut \[\w+\],\s*(at|base|to)\b: usize', a)]),
        ('7 a match that chooses a step', matches(files, r'\bmatch (?:tag|select|cycle|asked|call)\b[^\n]*')),
    ]
    for name, places in points:
        print('%4d  %s' % (len(places), name))
        if '--list' in sys.argv:
            for p, l, text in places:
                print('        %s:%d  %s' % (p, l, text))
    print('%4d  8 files of answers and invariants, %d lines' % (len(proofs), sum(len(open(p, encoding='utf-8').readlines()) for p in proofs)))


main()
