#!/usr/bin/env python3
"""Counts the places of docs/DESIGN-PASS.md in src/: `python3 tools/design_pass.py [-v] [POINT ..]`, from the top of the repository.

One line a point, and with -v a line a place. It reads text: what it finds is a place to look at, and the page says of each what became
of it. Points 1 to 8 are those of the page.
"""
import collections
import glob
import re
import sys

SOURCES = sorted(f for f in glob.glob('crates/*/src/**/*.rt', recursive=True))
PROOFS = sorted(f for f in glob.glob('crates/*/proofs/**/*.antt', recursive=True))


class Function:
    """A function: where it stands, its name, parameters, answer, clauses and body, as text."""

    def __init__(self, place, name, parameters, answer, clauses, body):
        self.place, self.name, self.parameters = place, name, parameters
        self.answer, self.clauses, self.body = answer, clauses, body


def matching(text, i):
    """The place behind the bracket that closes the one at i."""
    pairs = {'(': ')', '{': '}', '[': ']', '<': '>'}
    close, depth = pairs[text[i]], 0
    for j in range(i, len(text)):
        if text[j] == text[i]:
            depth += 1
        elif text[j] == close:
            depth -= 1
            if depth == 0:
                return j + 1
    return len(text)


def without_comments(text):
    return re.sub(r'//[^\n]*', '', text)


def split_parameters(text):
    parts, depth, start = [], 0, 0
    for i, c in enumerate(text):
        if c in '([{<':
            depth += 1
        elif c in ')]}>' and text[i - 1] != '-':
            depth -= 1
        elif c == ',' and depth == 0:
            parts.append(text[start:i])
            start = i + 1
    parts.append(text[start:])
    return [re.sub(r'^(mut )', '', ' '.join(p.split())) for p in parts if p.strip()]


def functions():
    for f in SOURCES:
        raw = open(f).read()
        text = without_comments(raw)
        for m in re.finditer(r'\bfn (\w+)', text):
            i = m.end()
            if i < len(text) and text[i] == '<':
                i = matching(text, i)
            if i >= len(text) or text[i] != '(':
                continue
            end = matching(text, i)
            parameters = split_parameters(text[i + 1:end - 1])
            j, clauses = end, []
            head = re.match(r'\s*(?:->\s*([^{;]*?))?\s*(?=(requires|ensures|\{|;|where)\b|\{|;)', text[end:])
            answer = (head.group(1) or '').strip() if head else ''
            j = end + (head.end() if head else 0)
            while True:
                c = re.match(r'\s*(requires|ensures)\*?\s*(\w+\s*)?\{', text[j:])
                if not c:
                    break
                k = j + c.end() - 1
                stop = matching(text, k)
                clauses.append((c.group(1), ' '.join(text[k + 1:stop - 1].split())))
                j = stop
            b = re.match(r'\s*\{', text[j:])
            body = ''
            if b:
                k = j + b.end() - 1
                body = text[k:matching(text, k)]
            line = text[:m.start()].count('\n') + 1
            yield Function(f'{f[7:]}:{line}', m.group(1), parameters, answer, clauses, body)


def enums():
    for f in SOURCES:
        text = without_comments(open(f).read())
        for m in re.finditer(r'\benum (\w+)[^{]*\{', text):
            body = text[m.end():matching(text, m.end() - 1) - 1]
            yield f'{f[7:]}:{text[:m.start()].count(chr(10)) + 1}', m.group(1), split_parameters(body)


def point_1():
    """Enums of two cases of which one or both hold a value (Option, Result), fields and tests that answer a number for none, numbers
    for kinds as constants."""
    for place, name, cases in enums():
        holds = [bool(re.search(r'[({]', c)) for c in cases]
        if len(cases) == 2 and any(holds) and not re.search(r'\{', ''.join(cases)):
            yield place, f'enum {name} of two cases: {", ".join(cases)}'
    for f in functions():
        if re.search(r'(_test|refusal)$', f.name) and f.answer in ('u8', 'Result<Form, u8>'):
            yield f.place, f'fn {f.name} answers the number of a refusal'
        if re.search(r'\bRefused\((u8|\d+)\)', f.body) and f.answer in ('Answer', 'Verdict', 'Wrapping', 'Listing', 'Outcome'):
            yield f.place, f'fn {f.name} answers {f.answer}'
    for s in SOURCES:
        text = without_comments(open(s).read())
        for m in re.finditer(r'^(?:pub )?const ((?:OP|DECORATION|STORAGE_CLASS|IMAGE_FORMAT|DIM|CAPABILITY)_\w+|SINT|UINT|FLOAT|SIGNED|UNSIGNED|WITH_SAMPLER|WITHOUT_SAMPLER|RESULT|TYPED_RESULT|ONE_MORE|ANY_MORE|NONE): u(?:8|32) =', text, flags=re.M):
            yield f'{s[7:]}:{text[:m.start()].count(chr(10)) + 1}', f'const {m.group(1)}, a number for a kind'
        for m in re.finditer(r'^\s*pub (refused|failed|open|kind|first|second|available): (u8|bool|u64|u32|usize),', text, flags=re.M):
            yield f'{s[7:]}:{text[:m.start()].count(chr(10)) + 1}', f'field {m.group(1)}: {m.group(2)}, a flag or a number for none'


def shape(body):
    """A body with its names and numbers put away."""
    words = re.findall(r"'?\w+|\S", re.sub(r'\b(self)\b', 'x', body))
    keep = {'if', 'else', 'while', 'for', 'in', 'match', 'return', 'let', 'mut', 'as', 'loop', 'break', 'continue', 'true', 'false', '_'}
    return ' '.join(w if (w in keep or not re.match(r"'?\w", w)) else ('0' if w[0].isdigit() else 'x') for w in words)


def point_2():
    """Functions whose bodies are the same but for names, types and numbers, and that are more than a call."""
    by_shape = collections.defaultdict(list)
    for f in functions():
        s = shape(f.body)
        if len(s.split()) >= 40:
            by_shape[s].append(f)
    for group in by_shape.values():
        for f in group[1:]:
            yield f.place, f'fn {f.name}, a twin of {group[0].name} ({group[0].place})'


def point_3():
    """Loops that count by hand."""
    for s in SOURCES:
        for n, line in enumerate(open(s).read().split('\n'), 1):
            if re.match(r"\s*('\w+: )?while (?!let)", line):
                yield f'{s[7:]}:{n}', line.strip()


def point_4():
    """Conversions, comparisons, copies and prints written by hand: functions from one case or number to another with an arm each,
    and text put byte by byte."""
    for f in functions():
        arms = re.findall(r'=>', f.body)
        one_match = re.match(r'\{\s*match \w+ \{', f.body)
        small = len(f.parameters) == 1 and f.answer in ('u8', 'u16', 'u32', 'u64', 'usize', 'bool', 'ScalarKind', 'ImageDimension', 'AddressSpace')
        if one_match and small and len(arms) >= 3 and not re.search(r'\w\(', re.sub(r'\w+::\w+\(', '', f.body)):
            yield f.place, f'fn {f.name}({f.parameters[0]}) -> {f.answer}, an arm each'
        if re.search(r'text\[[^\]]*\] =', f.body):
            yield f.place, f'fn {f.name} puts text byte by byte'


def clause_shape(text):
    return re.sub(r'\b(s|sheet)\.now\b', 'S', re.sub(r'\b(b|body)\.now\b', 'B', text))


def conjuncts(text):
    parts, depth, start = [], 0, 0
    for i, c in enumerate(text):
        if c in '([{':
            depth += 1
        elif c in ')]}':
            depth -= 1
        elif c == '×' and depth == 0:
            parts.append(text[start:i])
            start = i + 1
    parts.append(text[start:])
    out = []
    for p in parts:
        p = p.strip()
        if p.startswith('(') and matching(p, 0) == len(p):
            out += conjuncts(p[1:-1])
        else:
            out.append(p)
    return out


def point_5():
    """Facts that three or more functions require, and parameters of three or more that go together through three or more functions."""
    facts = collections.defaultdict(list)
    groups = collections.defaultdict(list)
    for f in functions():
        for kind, text in f.clauses:
            if kind == 'requires':
                for c in set(conjuncts(clause_shape(text))):
                    facts[c].append(f)
        names = [p for p in f.parameters if ':' in p]
        for i in range(len(names) - 2):
            groups[tuple(re.sub(r"'\w+ ", '', re.sub(r'^\w+: ', '', n)) + ' ' + n.split(':')[0] for n in names[i:i + 3])].append(f)
    for c, fs in sorted(facts.items(), key=lambda x: -len(x[1])):
        if len(fs) >= 3:
            yield fs[0].place, f'required {len(fs)} times: {c}'
    for g, fs in sorted(groups.items(), key=lambda x: -len(x[1])):
        if len(fs) >= 3:
            yield fs[0].place, f'together {len(fs)} times: {", ".join(g)}'


def point_6():
    """A slice and a number beside it that says how much of it counts; tables of indexes."""
    for f in functions():
        names = [p.split(':')[0].strip() for p in f.parameters]
        types = [p.split(':', 1)[1].strip() if ':' in p else '' for p in f.parameters]
        for i in range(len(names) - 1):
            if re.match(r"&(mut )?\[\w+\]$", types[i]) and types[i + 1] == 'usize' and re.match(r'(n|m|ntypes|nremaps|count|n\w*|at|start)$', names[i + 1]) and names[i + 1] not in ('at', 'start'):
                yield f.place, f'fn {f.name}: {names[i]} with {names[i + 1]} beside it'


def point_7():
    """Numbers that say which step to run."""
    for f in functions():
        tested = re.findall(r'\bif (\w+) == (\d+) \{', f.body)
        names = collections.Counter(n for n, _ in tested)
        for n, k in names.items():
            if k >= 3:
                yield f.place, f'fn {f.name}: {k} tests of {n}'


def point_8():
    """Answers of proofs/, and those that cite Rattle's own names."""
    for f in PROOFS:
        text = open(f).read()
        answers = re.findall(r'^pub [^\s:]+ : goal\.', text, flags=re.M)
        if f.endswith(('Answers.antt', 'Proof.antt')):
            for _ in answers:
                yield f[7:], 'an answer'
        for m in re.findall(r'\b(?:true-raw|false-raw|in_default-own|struct_known\S*|known_told\S*|enum_told|enum_known)', text):
            yield f[7:], f"cites Rattle's own name {m}"


def main():
    arguments = [a for a in sys.argv[1:] if a != '-v']
    wanted = [int(a) for a in arguments] or list(range(1, 9))
    for n in wanted:
        places = list(globals()[f'point_{n}']())
        print(f'point {n}: {len(places)}')
        if '-v' in sys.argv:
            for place, what in places:
                print(f'    {place}: {what}')


main()
