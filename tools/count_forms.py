#!/usr/bin/env python3
"""Counts the places of src/ that docs/DESIGN-PASS.md speaks of, point by point: tools/count_forms.py [--list] [FOLDER]
FOLDER is another checkout, the one that the tool stands in where none is given. --list shows each place."""
import re
import sys
from pathlib import Path

KEYWORDS = set('as break const continue else enum false fn for if impl in let loop match mod move mut pub ref return self Self struct true type use where while'.split())
TOKEN = re.compile(r'''b?"(?:\\.|[^"])*"|b?'(?:\\.|[^'])'|[A-Za-z_][A-Za-z_0-9]*|\d[\dA-Za-z_]*|::|->|=>|==|!=|<=|>=|\+=|-=|&&|\|\||\.\.|\S''')


class Function:
    """A function of a file: its head (with contract) and its body, and the line that it begins at."""

    def __init__(self, path, line, head, body):
        self.path, self.line, self.head, self.body = path, line, head, body
        self.name = re.search(r'\bfn (\w+)', head).group(1)

    def place(self):
        return f'{self.path}:{self.line} {self.name}'

    def shape(self):
        """The body with each name and number taken away: twins have one shape."""
        return ' '.join(t if not re.match(r'\w', t) or t in KEYWORDS else 'x' for t in TOKEN.findall(self.body))


def functions(path, text):
    lines, i = text.split('\n'), 0
    while i < len(lines):
        start = re.match(r'(\s*)(pub )?(const )?fn ', lines[i])
        if not start:
            i += 1
            continue
        indent, j = start.group(1), i
        while lines[j] != indent + '{' and not lines[j].endswith((' {', ';')) and not (j == i and lines[j].endswith('}')):
            j += 1
        k = j
        if lines[j].endswith('{'):
            while lines[k] != indent + '}':
                k += 1
        yield Function(path, i + 1, '\n'.join(lines[i:j + 1]), '\n'.join(lines[j + 1:k]))
        i = k + 1


def found(files, pattern):
    for path, text in files:
        for hit in re.finditer(pattern, text, re.M):
            yield f'{path}:{text[:hit.start()].count(chr(10)) + 1} {hit.group(0).strip()[:80]}'


def parameters(f):
    """The names of a function's parameters."""
    return re.findall(r'(\w+): ', f.head.split(' -> ')[0].split('\n    requires')[0].split('\n    ensures')[0])


def main():
    args = [a for a in sys.argv[1:] if a != '--list']
    top = Path(args[0]) if args else Path(__file__).resolve().parent.parent
    if not (top / 'crates').is_dir():
        sys.exit(__doc__)
    files = [(p.relative_to(top), re.sub(r'//.*|#\[.*', '', p.read_text())) for p in sorted(top.glob('crates/*/src/*.rt'))]
    fns = [f for path, text in files for f in functions(path, text)]
    shapes = {}
    for f in fns:
        if len(TOKEN.findall(f.body)) >= 20:
            shapes.setdefault(f.shape(), []).append(f)
    twins = [f.place() for group in shapes.values() if len(group) > 1 for f in group]
    loops = []
    for f in fns:
        body = f.body.split('\n')
        for n, line in enumerate(body):
            start = re.match(r"( *)(?:(?:'\w+: )?(while .*)|(?:.* = )?(loop)) \{$", line)
            if start:
                end = next(m for m in range(n, len(body)) if re.match(start.group(1) + r'\}', body[m]))
                counted = any(re.search(r'\b(\w+) (?:[+-]= 1|= \1 [+-] 1);', b) for b in body[n:end])
                loops.append((f'{f.place()}: {line.strip()}', counted))
    together = {
        'rec, at, count': [f for f in fns if {'rec', 'at', 'count'} <= set(parameters(f))],
        'five names of files': [f for f in fns if {'store_after', 'journal_after'} <= set(parameters(f))],
        'p, places': [f for f in fns if {'p', 'places'} <= set(parameters(f))],
    }
    counts = [
        ('1a', 'own enums of the shape of Option or Result', list(found(files, r'^(?:pub )?enum (?:Found|ReadName|ReadCell|Walked|Piece|Pause)\b'))),
        ('1b', 'places that make or match one of them', list(found(files, r'\b(?:Found|ReadName|ReadCell|Walked|Piece|Pause)::\w+'))),
        ('1c', 'a flag beside the value that it is of', list(found(files, r'^    (?:pub )?(?:(?:found|given|defaulted|references): bool|(?:piece|pause): \w+)'))),
        ('1d', 'a refusal that is none, or asked whether it is one', list(found(files, r'Refusal::Accepted|is_accepted\('))),
        ('1e', 'answers built by functions in place of Ok and Err', list(found(files, r'answer::(?:accepted|refused|carrying|with_gone)\('))),
        ('1f', 'a kind or an operation as a number', list(found(files, r'\bmatch (?:kind|k|operation) \{|kind == \d|\bk: u8|kind: u8'))),
        ('2', 'functions whose bodies differ in names and numbers alone', twins),
        ('3', 'loops over an index counted by hand', [place for place, counted in loops if counted]),
        ('3b', 'other loops that are no `for`', [place for place, counted in loops if not counted]),
        ('4a', 'an own order, and its arms', list(found(files, r'\bOrder::\w+|enum Order'))),
        ('4b', 'numbers compared by a function of its own', list(found(files, r'\bfn compare_(?:words|integers|booleans)|compare_(?:words|integers|booleans)\('))),
        ('4c', 'a test that answers true or false by arms or ifs', list(found(files, r'=> (?:true|false),|return (?:true|false);'))),
        ('4d', 'bytes copied, cleared or compared by hand', list(found(files, r'\[\w+(?: \+ \w+)?\] = (?:\w+\[\w+(?: \+ \w+)?\]|0);|bytes::(?:copy|wide)\('))),
        ('5a', 'functions of record, position and count', [f.place() for f in together['rec, at, count']]),
        ('5b', 'functions of the names of files', [f.place() for f in together['five names of files']]),
        ('5c', 'functions of profile and places', [f.place() for f in together['p, places']]),
        ('6', 'an array with the length of what counts beside it', list(found(files, r'^    (?:pub )?\w+: \[\w+; \w+\],\n    (?:pub )?count: usize'))),
        ('7', 'a switch over the steps of a request', list(found(files, r'\bmatch (?:k|operation) \{'))),
    ]
    for point, what, places in counts:
        print(f'{point:3} {len(places):4}  {what}')
        if '--list' in sys.argv:
            for place in places:
                print(f'          {place}')
    hand = list(top.glob('crates/*/proofs/**/Proof.antt'))
    written = [p for name in ('Invariants', 'Answers') for p in top.glob(f'crates/*/proofs/**/{name}.antt') if p.parent.parent.name != 'proofs' or p.parent.name.islower()]
    laws = list(top.glob('crates/*/proofs/*.antt'))
    size = lambda ps: sum(len(p.read_text().splitlines()) for p in ps)
    print(f'8   {len(hand):4}  proofs that walk the code by hand, of {size(hand)} lines')
    print(f'8b  {len(written):4}  files of invariants and answers, of {size(written)} lines')
    print(f'8c  {len(laws):4}  files of laws, of {size(laws)} lines')


main()
