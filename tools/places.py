#!/usr/bin/env python3
"""Counts the places of docs/DESIGN-PASS.md in crates/*/src: python3 tools/places.py [COMMIT] [-v]. Without a commit it reads the checkout; -v lists them."""
import collections
import glob
import re
import subprocess
import sys

ARGS = [a for a in sys.argv[1:] if a != '-v'] if __name__ == '__main__' else []
VERBOSE = '-v' in sys.argv


def sources():
    if not ARGS:
        for path in sorted(glob.glob('crates/*/src/*.rt')):
            yield path, open(path, encoding='utf-8').read()
        return
    listed = subprocess.run(['git', 'ls-tree', '-r', '--name-only', ARGS[0], 'crates'], capture_output=True, text=True, check=True)
    for path in sorted(listed.stdout.split()):
        if re.fullmatch(r'crates/[^/]+/src/.*\.rt', path):
            text = subprocess.run(['git', 'show', ARGS[0] + ':' + path], capture_output=True, text=True, check=True)
            yield path, text.stdout


def plain(text):
    return re.sub(r'//[^\n]*', '', text)


def closing(text, start):
    depth = 0
    for k in range(start, len(text)):
        if text[k] in '({[':
            depth += 1
        elif text[k] in ')}]':
            depth -= 1
            if depth == 0:
                return k
    return len(text)


class Function:
    """A function: its crate, its name, its parameters, its clauses and its body."""

    def __init__(self, path, text, match):
        self.crate = path.split('/')[1]
        self.name = match.group(1)
        opening = text.index('(', match.end(1))
        end = closing(text, opening)
        inside = re.split(r',(?![^\[<(]*[\])>])', text[opening + 1:end])
        self.params = [re.sub(r"'\w+ ", '', ' '.join(p.split())) for p in inside if ':' in p]
        at, self.clauses, head = end, [], ''
        while True:
            brace = text.find('{', at)
            if brace < 0:
                break
            head = text[at:brace]
            end = closing(text, brace)
            if not re.search(r'(requires|ensures)[\w ]*$', head):
                break
            self.clauses.append((re.search(r'(requires|ensures)', head).group(1), ' '.join(text[brace + 1:end].split())))
            at = end + 1
        self.body = text[brace:end + 1] if brace >= 0 else ''


def functions():
    for path, text in sources():
        text = plain(text)
        for match in re.finditer(r'\bfn (\w+)', text):
            yield Function(path, text, match)


def matching(pattern):
    return [f'{path}: {line.strip()}' for path, text in sources() for line in plain(text).split('\n') if re.search(pattern, line)]


def enums():
    found = []
    for path, text in sources():
        for match in re.finditer(r'(?:pub )?enum (\w+) \{(.*?)\n\}', plain(text), re.S):
            variants = [v.strip() for v in re.split(r',\n', match.group(2)) if v.strip()]
            found.append(f'{path}: {match.group(1)}: ' + ' | '.join(' '.join(v.split()) for v in variants))
    return found


def index_loops():
    found = []
    for function in functions():
        for match in re.finditer(r'while ([^{]*)\{', function.body):
            body = function.body[match.end() - 1:closing(function.body, match.end() - 1)]
            names = re.findall(r'\b([a-z]\w*)\b', match.group(1))
            if any(re.search(rf'\b{n} [+-]= \d+;', body) for n in names):
                found.append(f'{function.crate}::{function.name}: while {match.group(1).strip()}')
    return found


def other_loops():
    counted = set(index_loops())
    return [x for x in (f'{f.crate}::{f.name}: while {m.strip()}' for f in functions() for m in re.findall(r'while ([^{]*)\{', f.body)) if x not in counted]


KEYWORDS = {'let', 'mut', 'while', 'if', 'else', 'return', 'match', 'as', 'for', 'in', 'true', 'false', 'continue', 'break'}


def twins():
    shapes = collections.defaultdict(list)
    for function in functions():
        tokens = re.findall(r"\w+|[^\w\s]", function.body)
        shape = ' '.join(t if t in KEYWORDS or not re.match(r'\w', t) else '1' if t[0].isdigit() else 'x' for t in tokens)
        if len(tokens) >= 24:
            shapes[shape + ' / ' + str(len(function.params))].append(f'{function.crate}::{function.name}')
    return ['  '.join(v) for v in shapes.values() if len(v) > 1]


BY_HAND = r'fn (same\w*|is_word|larger|least|less|one_less|one_more|copy\w*|clear_\w+|set_place|place|tag_of|number_of|value_of|\w+_number|of_\w+|from_\w+|put_(?!slot|from|along|target|end)\w+|is_\w+)\('


def bundles():
    groups = collections.defaultdict(set)
    for function in functions():
        params = function.params
        for k in range(len(params) - 2):
            groups[' , '.join(params[k:k + 3])].add(f'{function.crate}::{function.name}')
    return [f'{len(v)} {k}' for k, v in sorted(groups.items(), key=lambda x: -len(x[1])) if len(v) >= 3]


def facts():
    groups = collections.Counter()
    for function in functions():
        for kind, clause in function.clauses:
            if kind == 'requires':
                groups.update(set(re.split(r' × ', clause)))
    return [f'{n} {k}' for k, n in groups.most_common() if n >= 3]


POINTS = [
    ('1 own enums (those of the shape of Option or Result are named on the page)', enums),
    ('1 lines with a number for an end or a refusal', lambda: matching(
        r'^ *(return )?(3[1-7]|255);?$|=> (3[1-7]|255),$|end: (0|3[67])|Ended\(3[1-7]\)|if (e|a|b|n|met|d|full|end|number|v|w) (==|!=) (0|1|2|3[1-7]|255) ')),
    ('1 lines with a number for a kind', lambda: matching(
        r'\b(k|kind|tag|last|kind_at|[a-z]\.kind|j)\b (==|<|<=|!=) [0-9]+|[0-9]+ (<=|<) (k|kind|tag)\b|(expect|pass|pass_two|pass_frame|skip)\([a-z., ]*, [0-9]+|^ +[0-9=.]+ => ')),
    ('2 groups of functions of one shape', twins),
    ('3 loops that count an index', index_loops),
    ('3 other loops (while)', other_loops),
    ('4 equality, order, copying, conversion, printing by hand', lambda: matching(BY_HAND)),
    ('5 three parameters that travel together through three functions or more', bundles),
    ('5 facts that three functions or more ask for', facts),
    ('6 parallel arrays, a buffer with a length or a position beside it', lambda: [
        f'{f.crate}::{f.name}' for f in functions() if re.search(r'begins: .*ends: |\bm: &mut \[u8\][^,]*, (limit: usize, )?at: usize|out: &mut \[u8\], used', ', '.join(f.params))]),
    ('7 a number, flag or enum that says which step to run', lambda: matching(r'\bown: bool|kind: u32,? ')),
]

if __name__ == '__main__':
    for name, count in POINTS:
        places = count()
        print(f'{len(places):5}  {name}')
        if VERBOSE:
            for place in places:
                print('        ' + place)
