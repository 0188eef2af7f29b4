#!/usr/bin/env python3
"""Counts, for docs/DESIGN-PASS.md, the places in crates/*/src where an older form of the language may stand.

python3 tools/count_places.py          a line for each kind of place, with its number
python3 tools/count_places.py -l KIND  each place of one kind, as file:line
"""
import collections
import glob
import re
import sys

FN = re.compile(r'^( *)(?:pub(?:\([a-z]+\))? )?(?:const )?fn (\w+)')


def sources():
    for path in sorted(glob.glob('crates/*/src/**/*.rt', recursive=True)):
        with open(path) as f:
            yield path, [re.sub(r'//.*', '', line.rstrip('\n')) for line in f]


def functions(lines):
    """(first line, name, signature, body) of each function."""
    i = 0
    while i < len(lines):
        m = FN.match(lines[i])
        if not m:
            i += 1
            continue
        indent, start = m.group(1), i
        j = i
        while j < len(lines) and not (lines[j].rstrip() == indent + '}' or lines[j].rstrip().endswith(' }') and j == i):
            j += 1
        text = lines[start:j + 1]
        open_at = next((k for k, t in enumerate(text) if t.rstrip() == indent + '{' or (t.rstrip().endswith('{') and k >= 0
                        and not re.match(r'\s*(requires|ensures)', t))), 0)
        yield start + 1, m.group(2), text[:open_at + 1], text[open_at + 1:]
        i = j + 1


def flags(path, lines):
    """a struct with a bool and another field beside it"""
    text = '\n'.join(lines)
    for m in re.finditer(r'struct (\w+)[^{;(]*\{(.*?)\n\s*\}', text, re.S):
        fields = re.findall(r'(\w+): ([^\n]+),', m.group(2))
        if any(t == 'bool' for _, t in fields) and len(fields) > 1:
            yield text[:m.start()].count('\n') + 1


def numbers(path, lines):
    """a constant of a run of three or more numbers: kinds, codes, parts, places"""
    at = []
    for i, line in enumerate(lines):
        if re.match(r'\s*(?:pub )?const \w+: u(?:8|16|32|size) = \d+;', line):
            at.append(i)
    run = []
    for i in at + [10 ** 9]:
        if run and i - run[-1] > 3:
            if len(run) >= 3:
                yield from (k + 1 for k in run)
            run = []
        run.append(i)


def refusals(path, lines):
    """a refusal as a bare number"""
    for start, name, sig, body in functions(lines):
        for k, line in enumerate(body):
            if re.search(r'Refused\(\d|say\(REFUSED, \d', line) or ('refusal' in name and re.search(r'return \d+;|=> \d+,', line)):
                yield start + len(sig) + k


def enums(path, lines):
    """an enum of the project's own"""
    for i, line in enumerate(lines):
        if re.match(r'\s*(?:pub )?enum \w+', line):
            yield i + 1


def codes(path, lines):
    """a code, stage or kind compared with a written number"""
    for i, line in enumerate(lines):
        if re.search(r'\b(?:code|stage|kind)\b(?:\(\))? (?:==|!=|<=|<|>|>=) \d|\d (?:==|!=|<=|<|>|>=) \w+\.(?:code|stage|kind)\b', line):
            yield i + 1


def normal(body, sig):
    words = re.findall(r'\w+|[^\s\w]', ' '.join(sig[:1] + sig[1:] + body))
    out = []
    skip = 0
    for w in words:
        if re.match(r'[A-Za-z_]\w*$', w) and w not in KEPT:
            out.append('x')
        elif re.match(r'\d', w):
            out.append('0')
        else:
            out.append(w)
    return ' '.join(out)


KEPT = set('fn pub let mut if else while for in match return true false struct as loop break continue'.split())
TWINS = None


def twins(path, lines):
    """a function whose text is another's, names, types and numbers aside"""
    global TWINS
    if TWINS is None:
        TWINS = set()
        seen = {}
        for p, ls in sources():
            for start, name, sig, body in functions(ls):
                code = [t for t in body if t.strip() not in ('', '}')]
                if len(code) < 3:
                    continue
                sig = [t for t in sig if not re.match(r'\s*(requires|ensures)', t)]
                key = normal(body, sig)
                if key in seen:
                    TWINS.add((p, start))
                seen.setdefault(key, (p, start))
    for p, start in TWINS:
        if p == path:
            yield start


def index_loops(path, lines):
    """a while whose body steps an index by one"""
    for i, line in enumerate(lines):
        m = re.match(r'(\s*)while\b', line)
        if not m:
            continue
        for j in range(i + 1, len(lines)):
            if lines[j].rstrip() == m.group(1) + '}':
                break
            if re.search(r'\b(\w+) [+-]= \d+;|\b(\w+) = (?:\2 [+-] \d+|plus\(\2, \d+\)|minus\(\2, \d+\)|after_pair\(\2\));', lines[j]):
                yield i + 1
                break


def other_loops(path, lines):
    """any other while"""
    stepped = set(index_loops(path, lines))
    for i, line in enumerate(lines):
        if re.match(r'\s*while\b', line) and i + 1 not in stepped:
            yield i + 1


def copied(path, lines):
    """a value copied field by field"""
    run = []
    for i, line in enumerate(lines + ['']):
        m = re.match(r'\s*(\w+): (\w+)\.(\w+),$', line)
        if m and m.group(1) == m.group(3):
            run.append(i)
            continue
        if re.match(r'\s*\w+: .*,$', line) and run:
            continue
        if len(run) >= 3:
            yield run[0] + 1
        run = []


def repeated(path, lines):
    """a field written as 'f: f,'"""
    for i, line in enumerate(lines):
        if re.match(r'\s*(\w+): \1,$', line) and any(re.search(r'\{$', lines[k]) for k in range(max(0, i - 9), i)):
            yield i + 1


def by_hand(path, lines):
    """a function named as if it compares, copies or prints by hand"""
    for start, name, sig, body in functions(lines):
        if re.match(r'(lesser|greater|least|smaller|larger|min|max|lower|higher|equal|same|is_same|are_same|copy|decimal|digits?|worth|'
                    r'push\w*|put_number|show_number|write_number|say_number|reason)(_\w+)?$', name):
            yield start


def travelling(path, lines):
    """a function with the parameters store and m"""
    for start, name, sig, body in functions(lines):
        text = ' '.join(sig)
        if re.search(r'store: &(mut )?\[u32\]', text) and re.search(r'\bm: usize', text):
            yield start


def arrays(path, lines):
    """a word of an array by a constant's place: get(b, PLACE)"""
    for i, line in enumerate(lines):
        if re.search(r'\b(get|put|set|raise|field|set_field|count|add|note)\((&?(mut )?\w+, )+[A-Z][A-Z_]+\b', line):
            yield i + 1


def buffers(path, lines):
    """a buffer with a length or place beside it"""
    for start, name, sig, body in functions(lines):
        text = ' '.join(sig)
        if re.search(r': &(mut )?(Text|Bytes|\[u8; ?\w+\])', text) and re.search(r'\b(at|from|length|len|n|i): u(size|32)', text):
            yield start


def switches(path, lines):
    """a function with two 'if a == B { return f(..); }' or more"""
    for start, name, sig, body in functions(lines):
        n = sum(1 for k, t in enumerate(body[:-1])
                if re.match(r'\s*if [\w.]+ (==|<=) [\w:]+ \{$', t) and re.match(r'\s*return \w[\w:.]*\(.*', body[k + 1]))
        if n >= 2:
            yield start


def answers():
    n = b = 0
    for path in glob.glob('crates/*/proofs/*/*.antt'):
        with open(path) as f:
            for line in f:
                n += bool(re.match(r'(abbrev )?pub \S+ : goal\.', line))
    return n


KINDS = [
    (1, 'enums', enums), (1, 'flags', flags), (1, 'numbers', numbers), (1, 'refusals', refusals), (1, 'codes', codes),
    (2, 'twins', twins), (3, 'index_loops', index_loops), (3, 'other_loops', other_loops),
    (4, 'copied', copied), (4, 'repeated', repeated), (4, 'by_hand', by_hand),
    (5, 'travelling', travelling), (6, 'arrays', arrays), (6, 'buffers', buffers), (7, 'switches', switches),
]

if len(sys.argv) > 2:
    for point, kind, find in KINDS:
        if kind == sys.argv[2]:
            for path, lines in sources():
                for at in sorted(find(path, lines)):
                    print(f'{path}:{at}: {lines[at - 1].strip()}')
else:
    for point, kind, find in KINDS:
        total = sum(len(list(find(path, lines))) for path, lines in sources())
        print(f'{point}  {kind:12} {total:5}  {find.__doc__}')
    print(f'8  answers      {answers():5}  an answer or invariant in a proof of a function')
