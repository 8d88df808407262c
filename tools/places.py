#!/usr/bin/env python3
"""Lists the places in crates/*/src that docs/history/DESIGN-PASS.md counts.

    python3 tools/places.py [TREE] [POINT..]

TREE is a checkout (default: this one); a point is a number from 1 to 7. It prints each place and a count for each point.
Point 8 is counted by lines of proofs. Tests are left out of no point.
"""
import collections
import glob
import os
import re
import sys


def functions(text):
    """Yields (line, name, head, body) of each function with a body."""
    for m in re.finditer(r'\bfn\s+(\w+)', text):
        depth, i, head_end = 0, m.end(), None
        while i < len(text):
            c = text[i]
            if c in '([':
                depth += 1
            elif c in ')]':
                depth -= 1
            elif c == ';' and depth == 0 and head_end is None:
                break
            elif c == '{' and depth == 0:
                before = text[m.end():i].rstrip().rsplit('\n', 1)[-1]
                if re.search(r'(requires|ensures\*?)(\s+\w+)?$', before):
                    i = closing(text, i)
                else:
                    end = closing(text, i)
                    yield text.count('\n', 0, m.start()) + 1, m.group(1), text[m.start():i], text[i + 1:end]
                    break
            i += 1


def closing(text, i):
    depth = 0
    while i < len(text):
        if text[i] == '{':
            depth += 1
        elif text[i] == '}':
            depth -= 1
            if depth == 0:
                return i
        i += 1
    return i


KEEP = set('fn let mut if else match for in while loop return break continue true false self Self as matches'.split())


def shape(body):
    words = re.findall(r'[A-Za-z_]\w*|\d[\w]*|"[^"]*"|\S', body)
    return tuple(w if w in KEEP else 'i' if re.match(r'[A-Za-z_]', w) else 'n' if w[0].isdigit() else 's' if w[0] == '"' else w for w in words)


CONSTANT = re.compile(r'(\(?-?\d[\w, ]*\)?|"[^"]*"|true|false|None|(Some|Ok|Err)\([\w:]+\)|[A-Z]\w*::\w+|\w+ as \w+|place)\s*,?$')


def strip(text):
    return re.sub(r'//[^\n]*', '', text)


def main():
    args = sys.argv[1:]
    tree = args.pop(0) if args and not args[0].isdigit() else os.path.join(os.path.dirname(__file__), '..')
    wanted = set(map(int, args)) or set(range(1, 8))
    files = {}
    for path in sorted(glob.glob(os.path.join(tree, 'crates/*/src/**/*.rt'), recursive=True)):
        files[os.path.relpath(path, tree)] = strip(open(path).read())
    found = collections.defaultdict(list)

    def lines(point, pattern, what):
        for path, text in files.items():
            for n, line in enumerate(text.split('\n'), 1):
                if re.search(pattern, line):
                    found[point].append(f'{path}:{n}: {what}: {line.strip()}')

    # 1: numbers for kinds and refusals, flags, Results and Options that are taken apart only to be passed on
    lines(1, r'\b(kind|form|layer|stop|call)\s*:\s*u\d+\b', 'number for a kind')
    lines(1, r'^\s+(pub\s+)?\w+\s*:\s*bool,', 'flag')
    lines(1, r'\bErr\((_|\w+)\)\s*=>\s*(return\b.*)?(Err|Ok|refused|writeln)|\bNone\s*=>\s*return\b', 'passed on by hand')
    lines(1, r'let (Ok|Some)\(.*\belse \{', 'let else')
    lines(1, r'\bif\b.*\.is_err\(\)', 'tested, then passed on')
    # 2: functions of one shape
    shapes = collections.defaultdict(list)
    for path, text in files.items():
        for n, name, head, body in functions(text):
            s = shape(body)
            if len(s) >= 12:
                shapes[s].append(f'{path}:{n}: {name}')
    for s, group in sorted(shapes.items(), key=lambda x: x[1]):
        if len(group) > 1:
            found[2].append('one shape: ' + ' | '.join(group))
    # 3: loops
    lines(3, r'\bfor \w+ in [\w.()]*\.\.', 'counted for')
    lines(3, r'\bwhile\b', 'while')
    lines(3, r'^\s*loop\b', 'loop')
    lines(3, r'^\s*(at|n|k|i|d|count|needed|at) [+-]= 1;', 'counted by hand')
    # 4: a function that is one match from patterns to constants; From and printing by hand are what is wanted
    for path, text in files.items():
        for n, name, head, body in functions(text):
            m = re.match(r'\s*(?:f\.write_str\()?match \S+ \{(.*)\}\)?\s*$', body, re.S)
            arms = [a for a in m.group(1).strip().split('\n') if '=>' in a] if m else []
            if arms and all(CONSTANT.match(a.split('=>', 1)[1].strip()) for a in arms):
                found[4].append(f'{path}:{n}: {name}: one match to constants')
    lines(4, r'\bimpl (PartialEq|Eq|Ord|PartialOrd|Clone|Hash|Default)\b', 'derivable impl')
    # 5: clauses that stand three times or more, and parameters that three functions or more take together
    clauses = collections.defaultdict(list)
    pairs = collections.defaultdict(list)
    for path, text in files.items():
        crate = path.split('/')[1]
        for n, name, head, body in functions(text):
            for c in re.findall(r'(requires|ensures)\*?(?:\s+\w+)?\s*\{(.*)\}', head):
                clauses[crate, c[0], c[1].strip()].append(f'{path}:{n}: {name}')
            params = re.match(r'fn\s+\w+(?:<[^()]*>)?\s*\((.*?)\)\s*(->|requires|ensures|where|$)', head, re.S)
            if params:
                names = re.findall(r'(\w+)\s*:\s*([^,]+)', params.group(1))
                keys = sorted(a + ': ' + ' '.join(t.split()) for a, t in names)
                for i in range(len(keys)):
                    for j in range(i + 1, len(keys)):
                        pairs[crate, keys[i], keys[j]].append(f'{path}:{n}: {name}')
    for key, where in sorted(clauses.items()):
        if len(where) >= 3:
            found[5].append(f'{key[0]}: {key[1]} {{ {key[2]} }} stands {len(where)} times')
    for key, where in sorted(pairs.items()):
        if len(where) >= 3:
            found[5].append(f'{key[0]}: ({key[1]}, {key[2]}) together {len(where)} times')
    # 6: fields that are arrays, counts beside them, arrays of equal length beside one another
    lines(6, r'^\s+(pub(\(crate\))?\s+)?\w+\s*:\s*\[[\w:]+; \w+\],', 'array in a struct')
    lines(6, r'^\s+(pub(\(crate\))?\s+)?(\w*_count|depth|len|length)\s*:\s*usize,', 'length beside a buffer')
    # 7: a match whose arms all call
    for path, text in files.items():
        for n, name, head, body in functions(text):
            m = re.match(r'\s*match \S+ \{(.*)\}\s*$', body, re.S)
            if m:
                arms = re.findall(r'=>\s*([^\n]*)', m.group(1))
                calls = [a for a in arms if re.match(r'[\w:.]+\(', a) and not re.match(r'(Some|Ok|Err|None|write!|writeln!)\b', a)]
                if len(calls) >= 2 and len(calls) >= len(arms) - 1:
                    found[7].append(f'{path}:{n}: {name}: {len(arms)} arms')
    for point in sorted(wanted):
        for place in found[point]:
            print(f'{point} {place}')
        print(f'point {point}: {len(found[point])}')


main()
