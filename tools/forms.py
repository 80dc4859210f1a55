#!/usr/bin/env python3
"""Counts the places of older forms in crates/*/src, a row for each point of docs/DESIGN-PASS.md.

    python3 tools/forms.py            counts for each point and crate
    python3 tools/forms.py -v POINT   the places of one point, as file:line: text

The folder of crates is this checkout's, or the one that CRATES in the environment names (a commit's, unpacked by git archive).

A place is one match of a pattern; what a pattern can't tell (whether a form is meant) is told in docs/DESIGN-PASS.md.
"""
import os, re, sys
from collections import defaultdict

ROOT = os.environ.get('CRATES') or os.path.join(os.path.dirname(os.path.abspath(__file__)), '..', 'crates')

def sources():
    for crate in sorted(os.listdir(ROOT)):
        for folder, _, names in sorted(os.walk(os.path.join(ROOT, crate, 'src'))):
            for name in sorted(names):
                if name.endswith('.rt'):
                    yield crate, os.path.join(folder, name)

PATTERNS = {
    # an Option or Result taken apart by hand where `?`, `map`, `ok_or`, `is_some`, `unwrap_or` says the same
    '1-option': [r'let (?:Some|Ok)\([^)]*\) =[^;]*? else \{\s*return (?:None|Err\([^;]*\)|Ok\(None\));\s*\}',
                 r'\n\s*None\s*=>\s*(?:None|false|true|Err\([^\n]*\)|0|1|\w+::\w+),?(?=\n)',
                 r'if let Err\((\w+)\) = [^{]*\{\s*return Err\(\1\);\s*\}'],
    # numbers for kinds: the first arm of a match on a number
    '1-code': [r'match [^{\n]*\{\n\s*\d+ =>'],
    # a flag in a struct
    '1-flag': [r'\n    (?:pub )?\w+: bool,(?=\n(?:    [^\n]*\n)*\}\n)'],
    # Option in Option
    '1-nested': [r'-> Option<Option<'],
    # loops by hand: a counter in a while, a range that only indexes
    '3-while': [r'\bwhile (?!let)[^{]*\{'],
    '3-range': [r'for \w+ in [^{\n]*\.\.[^{\n]*\{'],
    '4-convert': [r'fn (?:\w+_number|\w+_in|\w+_held|\w+_operand|\w*_text|told|copy|bit|tag|operand|plain_symbol|known|shown|operator|access|is_word)\b'],
    '6-height': [r'(\w+): &(?:mut )?\[u64\],\s*(?:\w+: (?:&Name|Name|usize),\s*)?(?:top|height|count|to|n|size|number|at|base|k|from)\w*: usize'],
    '7-switch': [r'fn (?:step|perform|statement|eval|instr|slot|symbol_of|slot_of|role_of|note|classify)\('],
}

def functions(text):
    for m in re.finditer(r'fn (\w+)(?:<[^>]*>)?\((.*?)\)(?:\s*->\s*[^{;\n]*)?\n?((?:\s*(?:requires|ensures)[^\n]*\n)*)', text, re.S):
        yield m

def repeated():
    """5: clauses and pairs of parameters that stand in three or more functions of a crate."""
    clauses, params = defaultdict(list), defaultdict(list)
    for crate, path in sources():
        text = open(path).read()
        for m in functions(text):
            line = text.count('\n', 0, m.start()) + 1
            where = f'{os.path.relpath(path, ROOT)}:{line}: {m.group(1)}'
            for c in re.finditer(r'(requires|ensures)\s+(?:\w+\s+)?\{(.*)\}', m.group(3)):
                clauses[crate, c.group(1), re.sub(r'\s+', ' ', c.group(2)).strip()].append(where)
            names = [re.sub(r"'\w+ ", '', re.sub(r'\s+', ' ', p)).strip() for p in re.split(r',(?![^<]*>)', m.group(2)) if ':' in p]
            for i in range(len(names)):
                for j in range(i + 1, len(names)):
                    params[crate, tuple(sorted((names[i], names[j])))].append(where)
    return ({k: v for k, v in clauses.items() if len(v) >= 3}, {k: v for k, v in params.items() if len(v) >= 3})

def places(point):
    for crate, path in sources():
        text = open(path).read()
        for pattern in PATTERNS[point]:
            for m in re.finditer(pattern, text):
                line = text.count('\n', 0, m.start()) + 1 + (m.group(0)[0] == '\n')
                yield crate, f'{os.path.relpath(path, ROOT)}:{line}: {" ".join(m.group(0).split())[:110]}'

def main():
    clauses, params = repeated()
    if len(sys.argv) > 2:
        point = sys.argv[2]
        if point in ('5-clause', '5-pair'):
            for k, v in sorted((clauses if point == '5-clause' else params).items(), key=lambda kv: -len(kv[1])):
                print(f'{len(v):3} {k}'); [print('       ' + w) for w in v]
        else:
            for _, p in places(point): print(p)
        return
    crates = [c for c in sorted(os.listdir(ROOT))]
    for point in PATTERNS:
        counts = defaultdict(int)
        for crate, _ in places(point): counts[crate] += 1
        print(f'{point:10} {sum(counts.values()):4}  ' + ', '.join(f'{c} {counts[c]}' for c in crates if counts[c]))
    def answers(crate):
        for folder, _, names in os.walk(os.path.join(ROOT, crate, 'proofs')):
            for name in names:
                if name == 'Answers.antt':
                    yield from re.findall(r'^pub .*', open(os.path.join(folder, name)).read(), re.M)
    counts = {c: len(list(answers(c))) for c in crates}
    print(f'{"8-answer":10} {sum(counts.values()):4}  ' + ', '.join(f'{c} {n}' for c, n in counts.items() if n))
    for name, table in (('5-clause', clauses), ('5-pair', params)):
        counts = defaultdict(int)
        for k in table: counts[k[0]] += 1
        print(f'{name:10} {sum(counts.values()):4}  ' + ', '.join(f'{c} {counts[c]}' for c in crates if counts[c]))

main()
