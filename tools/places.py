#!/usr/bin/env python3
"""Lists the places in src/ that an older form of the language may have left: `python3 tools/places.py [POINT ..]`.

Each point is a rule that a machine can apply; docs/DESIGN-PASS.md judges what it finds. Run it at the repository's top, or with
`--at FOLDER` on another checkout."""
import collections
import glob
import os
import re
import sys

top = '.'
args = sys.argv[1:]
if '--at' in args:
    k = args.index('--at')
    top = args[k + 1]
    del args[k:k + 2]
wanted = [int(a) for a in args] or [1, 2, 3, 4, 5, 6, 7, 8]


def code(line):
    return re.sub(r'//.*', '', line)


class Function:
    def __init__(self, path, line, head, body):
        self.path, self.line, self.head, self.body = path, line, head, body
        self.name = re.search(r'\bfn (\w+)', head).group(1)

    def where(self):
        return f'{self.path}:{self.line} {self.name}'

    def parameters(self):
        text = self.head[self.head.index('fn '):]
        k = text.index('(')
        depth, end = 0, k
        for end in range(k, len(text)):
            depth += text[end] in '([<'
            depth -= text[end] in ')]' or text[end] == '>' and text[end - 1] != '-'
            if depth == 0:
                break
        out = []
        for part in re.split(r',(?![^<(\[]*[>)\]])', text[k + 1:end]):
            part = ' '.join(part.split())
            if ':' in part:
                name, kind = part.split(':', 1)
                out.append((name.replace('mut ', '').strip(), kind.strip()))
        return out

    def result(self):
        text = re.split(r'\n\s*(?:requires|ensures|where)\b', self.head)[0]
        text = text[text.index('fn '):]
        m = re.search(r'\)\s*->\s*(.*)$', ' '.join(text.split()))
        return m.group(1).rstrip(' {') if m else ''

    def requires(self):
        return [' '.join(m.split()) for m in re.findall(r'requires(?: \w+)? \{ (.*) \}', self.head)]


def functions():
    found = []
    for path in sorted(glob.glob(os.path.join(top, 'crates/*/src/**/*.rt'), recursive=True)):
        lines = open(path).read().split('\n')
        short = os.path.relpath(path, top)
        i = 0
        while i < len(lines):
            m = re.match(r'(\s*)(pub(\(crate\))? )?(const )?fn \w+', lines[i])
            if not m:
                i += 1
                continue
            pad = m.group(1)
            head = []
            j = i
            while j < len(lines) and not re.match(pad + r'\{\}?$', lines[j]) and not code(lines[j]).rstrip().endswith('{') and not lines[j].rstrip().endswith(';'):
                head.append(lines[j])
                j += 1
            if j < len(lines) and not re.match(pad + r'\{\}?$', lines[j]):
                head.append(lines[j])
            body = []
            if j < len(lines) and not lines[j].rstrip().endswith((';', '{}')):
                j += 1
                while j < len(lines) and lines[j] != pad + '}':
                    body.append(lines[j])
                    j += 1
            found.append(Function(short, i + 1, '\n'.join(head), '\n'.join(code(b) for b in body)))
            i = j + 1
    return found


def lines_with(pattern, skip=None):
    for path in sorted(glob.glob(os.path.join(top, 'crates/*/src/**/*.rt'), recursive=True)):
        for number, line in enumerate(open(path), 1):
            text = code(line)
            if re.search(pattern, text) and not (skip and re.search(skip, text)):
                yield f'{os.path.relpath(path, top)}:{number} {text.strip()}'


def point_1(fs):
    """Answers true or false beside a value that it writes; a flag in a tuple; number codes; own enums of two or three cases."""
    for f in fs:
        lent = [n for n, k in f.parameters() if k.startswith('&mut')] + (['self'] if re.search(r'\(&mut self', f.head) else [])
        if f.result() == 'bool' and lent:
            yield f'{f.where()}: true or false beside {", ".join(lent)}'
        if re.search(r'\(bool,', f.result()) or re.search(r'\bbool\b.*\bbool\b', ' '.join(k for _, k in f.parameters())):
            yield f'{f.where()}: a flag in {f.result() or "its parameters"}'
        if re.fullmatch(r'(Result<)?\(?(u32|u64|u8)(, usize)?\)?(, \w+>)?', f.result()) and re.search(r'key|number|outcome|refusal|arity|places|kind|form|code', f.name):
            yield f'{f.where()}: a number for a kind, a word or an answer: {f.result()}'
    for path in sorted(glob.glob(os.path.join(top, 'crates/*/src/**/*.rt'), recursive=True)):
        text = re.sub(r'//.*', '', open(path).read())
        for m in re.finditer(r'enum (\w+)[^{]*\{(.*?)\n\}', text, re.S):
            cases = re.findall(r'^    (\w+)(\([^)]*\))?', m.group(2), re.M)
            if len(cases) <= 3:
                yield f'{os.path.relpath(path, top)} enum {m.group(1)}: {", ".join(a + b for a, b in cases)}'


def shape(f):
    text = re.sub(r'"[^"]*"', '"', f.body)
    text = re.sub(r"b?'(\\.|[^'])'", '0', text)
    text = re.sub(r'\b\d[\d_a-fx]*\b', '0', text)
    text = re.sub(r'\b[a-z_]\w*\b', lambda m: m.group(0) if m.group(0) in ('if', 'else', 'match', 'for', 'in', 'return', 'let', 'mut', 'while') else 'x', text)
    text = re.sub(r'\b[A-Z]\w*\b', 'T', text)
    return ' '.join(text.split())


def point_2(fs):
    """Functions of one name and shape, or of one shape of three lines and more."""
    groups = collections.defaultdict(list)
    for f in fs:
        s = shape(f)
        if len(s) > 60 or (len(s) > 12 and len(f.body.split('\n')) >= 1):
            groups[s if len(s) > 60 else (f.name, s)].append(f)
    for s, group in groups.items():
        if len(group) > 1:
            yield ' = '.join(f.where() for f in group)
    types = collections.defaultdict(list)
    for line in lines_with(r'^\s*(pub(\(crate\))? )?(struct|enum|trait) \w+'):
        types[re.search(r'(struct|enum|trait) (\w+)', line).group(2)].append(line.split(' ')[0])
    for name, where in types.items():
        if len(where) > 1:
            yield f'type {name}: ' + ' = '.join(where)


def point_3(fs):
    """Loops over a range of indices, while, loop, places counted beside a loop, enumerate into another table."""
    yield from lines_with(r'\bfor \w+ in [\w.()]+\.\.|\bwhile\b|\bloop \{|\.enumerate\(\)')
    for f in fs:
        if re.search(r'\bfor\b|\bwhile\b', f.body):
            for m in re.finditer(r'(\w+) \+= 1;|(\w+) = \w+\.(wrapping|saturating)_add\(1\)', f.body):
                yield f'{f.where()}: counts {m.group(1) or m.group(2)} by hand'


def point_4(fs):
    """Equality field by field, classes of bytes, errors passed on by match, text put together by functions."""
    yield from lines_with(r'self\.\w+ == \w+ && self\.\w+ ==|>= b\'|<= b\'')
    yield from lines_with(r'Err\(.*\) => (return )?(Err\(|\w+::Refused|\w+::\w+\()|Ok\(\(\)\) => Ok\(\(\)\)')
    for f in fs:
        if re.search(r'_text$|^write_|^answer_of$|^as_|^to_', f.name) and 'Formatter' not in f.head.split('ensures')[0]:
            yield f'{f.where()}: makes text or converts by a function of its own'


def point_5(fs):
    """A requires that stands in three functions of a crate and more; two parameters that stand together in four and more."""
    by_crate = collections.defaultdict(list)
    for f in fs:
        by_crate[f.path.split('/')[1]].append(f)
    for crate, group in by_crate.items():
        facts = collections.defaultdict(set)
        together = collections.defaultdict(set)
        for f in group:
            for r in f.requires():
                for part in re.split(r' × ', r):
                    facts[re.sub(r'\.(old|now|new)\b', '', part).strip('() ')].add(f.name)
            ps = [f'{n}: {k}' for n, k in f.parameters()]
            for a in range(len(ps)):
                for b in range(a + 1, len(ps)):
                    together[(ps[a], ps[b])].add(f.name)
        for fact, names in facts.items():
            if len(names) >= 3:
                yield f'{crate}: requires {fact} in {", ".join(sorted(names))}'
        for pair, names in together.items():
            if len(names) >= 4:
                yield f'{crate}: ({pair[0]}) with ({pair[1]}) in {", ".join(sorted(names))}'


def point_6(fs):
    """Tables of fixed size in structs and in functions, and the lists that stand side by side."""
    yield from lines_with(r'(: |= |mut )\[[^\]]+; [A-Z_0-9a-z]+\]', r'^\s*(const|pub const|pub type|type)|assert|&\[|fn |for ')
    yield from lines_with(r'^\s*pub \w+: Vec<')


def point_7(fs):
    """A parameter that says which step to run: true or false, or an enum that one function takes apart; pointers to functions."""
    for f in fs:
        for n, k in f.parameters():
            if k == 'bool':
                yield f'{f.where()}: {n}: bool'
            if re.fullmatch(r'(Topic|Family|Step|Mode|\w+Kind)', k) or k.startswith('fn('):
                yield f'{f.where()}: {n}: {k}'
    yield from lines_with(r'\bdyn \w+|: fn\(')


def point_8(fs):
    """Files of answers and of invariants, and their lines, by crate; the stopgap words for lists by recursion."""
    for crate in sorted(os.listdir(os.path.join(top, 'crates'))):
        count = collections.Counter()
        for path in glob.glob(os.path.join(top, 'crates', crate, 'proofs/**/*.antt'), recursive=True):
            text = open(path).read()
            count['files'] += 1
            count['lines'] += text.count('\n')
            count['answers'] += len(re.findall(r'^pub [\w-]+ : goal\.', text, re.M))
            count['searches'] += len(re.findall(r'= search rules$', text, re.M))
            count['stopgap'] += len(re.findall(r'ByRecursion', text))
        for path in glob.glob(os.path.join(top, 'crates', crate, 'specs/**/*.antt'), recursive=True):
            count['stopgap'] += len(re.findall(r'ByRecursion', open(path).read()))
        if count:
            yield f'{crate}: ' + ', '.join(f'{n} {count[n]}' for n in ('files', 'lines', 'answers', 'searches', 'stopgap'))


fs = functions()
for point in wanted:
    rule = globals()[f'point_{point}']
    places = list(rule(fs))
    print(f'== {point}: {len(places)}: {rule.__doc__}')
    for place in places:
        print('  ' + place)
