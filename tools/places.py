#!/usr/bin/env python3
"""Lists the places that docs/DESIGN-PASS.md counts: python3 tools/places.py [FOLDER]

Prints a heading for each point and a line FILE:LINE: TEXT for each place. A place is one that a reader should look at; whether it is
one to change is said in docs/DESIGN-PASS.md. Tests and tables are left out.
"""
import collections
import glob
import os
import re
import sys

TOP = sys.argv[1] if len(sys.argv) > 1 else '.'

LINES = {
    '1 numbers and flags for kinds and refusals, matches that a method of Option or Result says': [
        r'\bkind: u32|\btable: u32|\bwhich: u32|\bgenerator: u32|number: u64|\) -> u64$|-> Result<bool',
        r'limit == 0|const UNKNOWN|0x9000_0000 =>|match word >> 28',
        r'Ok\(_\) => 0|Err\(_\) => 1|None => 0,|None => Err\(|Err\(_\) => Err\(|None => false|Some\(\w+\) => Ok\(|Ok\(\w+\) => Ok\(\w+\)',
    ],
    '3 loops that count by hand': [r'for \w+ in [\w.]+\.\.', r'^\s+loop \{', r'\bwhile\b'],
    '4 equality, conversion and printing by hand': [
        r'fn (same|refused|outcome_of|count_refusals|digit|is_zero|tell|at_place)\(', r'\bas_trace\b.*=>',
        r'saturating_add\(tally|saturating_add\(1\)',
    ],
    '6 buffers with a length or a place beside them': [
        r'\bkey_len: usize|\biv_len: usize|\blen: usize', r'buffer: &mut \[u8\], at: usize|replies: &mut \[u8\], at: usize|^\s+at: usize,',
        r'\[0(u8)?; (255|LONGEST)\]|let mut bytes = \[0u8; 32\]',
    ],
    '7 switches on which step to run': [r'match (generator|table|which|self) \{\s*$', r'match read_word'],
}


def sources():
    for path in sorted(glob.glob(os.path.join(TOP, 'crates/*/src/**/*.rt'), recursive=True)):
        if not path.endswith('tests.rt'):
            yield os.path.relpath(path, TOP), open(path).read().split('#[cfg(test)]\nmod tests {')[0]


def functions(text):
    lines = text.split('\n')
    for start, line in enumerate(lines):
        m = re.match(r'^( *)(pub(\(crate\))? |final |pub extern "C" )*fn (\w+)', line)
        if not m:
            continue
        indent, begun, body, whole = m.group(1), None, [], []
        for at in range(start, len(lines)):
            whole.append(lines[at])
            if begun is not None:
                body.append(lines[at])
            elif lines[at] == indent + '{' or lines[at].endswith(' {'):
                begun = at
            if lines[at] in (indent + '}', indent + '{}') or (begun is None and lines[at] == ''):
                break
        yield m.group(4), start + 1, '\n'.join(whole), '\n'.join(body)


def shape(body):
    out = []
    for token in re.findall(r'\w+|[^\w\s]', re.sub(r'//.*', '', body)):
        if re.fullmatch(r'[0-9][\w]*', token):
            token = 'n'
        elif re.match(r'\w', token) and token not in ('let', 'mut', 'for', 'in', 'if', 'else', 'match', 'return', 'self'):
            token = 'i'
        out.append(token)
    text = ' '.join(out)
    return re.sub(r'(n , )+n', 'n ..', re.sub(r'(i , )+i', 'i ..', text))


def main():
    for title, patterns in LINES.items():
        if title.startswith('3'):
            twins()
        print('##', title)
        count = 0
        for path, text in sources():
            for number, line in enumerate(text.split('\n'), 1):
                if not line.lstrip().startswith('//') and any(re.search(p, line) for p in patterns):
                    print(f'{path}:{number}: {line.strip()}')
                    count += 1
        print('places:', count)
        if title.startswith('4'):
            repeated()


def twins():
    print('## 2 functions of one shape (names and numbers left out)')
    groups = collections.defaultdict(list)
    for path, text in sources():
        for name, number, _, body in functions(text):
            key = shape(body)
            if key.count(' ') > 14:
                groups[key].append(f'{path}:{number} {name}')
    shown = [g for g in groups.values() if len(g) > 1]
    for g in sorted(shown):
        print(' ~ '.join(g))
    print('places:', sum(len(g) - 1 for g in shown))


def repeated():
    print('## 5 facts in the contracts of three or more functions of a crate, and parameters that go together in three or more')
    facts, groups = collections.defaultdict(set), collections.defaultdict(set)
    for path, text in sources():
        crate = path.split('/')[1]
        for name, number, whole, _ in functions(text):
            for clause in re.findall(r'(?:requires|ensures)[^{]*\{(.*)\}', whole):
                if 'requires' in whole:
                    for fact in re.findall(r'requires[^{]*\{(.*)\}', whole):
                        for part in re.split(r' × ', fact):
                            facts[crate, part.strip(' ()')].add(f'{path}:{number}')
                for view in re.findall(r'view G\.Generator\.state \w+|state_of self|G\.Generator\.state generator', clause):
                    facts[crate, re.sub(r'\w+$', '_', view)].add(f'{path}:{number}')
            head = re.search(r'fn \w+(?:<[^(]*>)?\((.*?)\)(?: ->|\s*$|\s*\n| \{)', whole, re.S)
            names = tuple(sorted(re.findall(r'(\w+): ', head.group(1)))) if head else ()
            for i in range(len(names)):
                for j in range(i + 1, len(names)):
                    groups[crate, names[i], names[j]].add(f'{path}:{number}')
    count = 0
    for key, places in sorted(facts.items()):
        if len(places) > 2:
            print(key[0], ':', key[1], ':', len(places))
            count += 1
    for key, places in sorted(groups.items()):
        if len(places) > 2:
            print(key[0], ': parameters', key[1], 'and', key[2], ':', len(places))
            count += 1
    print('places:', count)


main()
