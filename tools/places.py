#!/usr/bin/env python3
"""Lists the places in src/ that may still have an older form, one a line, and how many there are.

    tools/places.py POINT [FOLDER]

POINT is one of the words below; FOLDER the top of the tree that is read, this one if none is given. docs/DESIGN-PASS.md says which
of the places are read as one of its points.

    enums     the enums that are declared
    flags     fields of structs that are a bool
    codes     functions that answer a number and return two different ones in digits, one of them over 1; refusals by their number
    nones     functions that answer a number and hand out a constant or a count that stands for none
    kinds     kinds of records by their number: constants, and where these are used
    twins     functions that are alike but for names, constants, numbers and types
    loops     loops by `while` and `loop` in which a variable goes up or down by a fixed number
    whiles    the other loops by `while` and `loop`
    shapes    functions that compare, order, copy, convert or print by hand
    groups    parameters that stand together in the heads of five functions or more, with how many
    clauses   facts that stand in the clauses of three functions or more, with how many
    tables    arrays that are declared beside others of the same length; lengths beside buffers
    steps     functions that choose what to run by comparing one number with four or more
"""
import collections
import pathlib
import re
import sys

HEAD = re.compile(r'^(\s*)(?:pub(?:\(crate\))? )?(?:extern "C" )?fn (\w+)')


class Function:
    def __init__(self, path, line, name, text, comment):
        self.path, self.line, self.name, self.text, self.comment = path, line, name, text, comment
        head, _, rest = text.partition('\n' + re.match(r'\s*', text).group(0) + '{\n')
        if not rest:
            head, _, rest = text.partition('{\n')
        self.head, self.body = head, rest
        self.signature = re.split(r'\n\s*(?:requires|ensures)\b', head)[0]
        answer = re.search(r'-> ([^\n{]+)', self.signature)
        self.answer = answer.group(1).strip() if answer else ''

    def place(self):
        return f'{self.path}:{self.line} {self.name}'


def sources(top):
    for path in sorted(pathlib.Path(top).glob('crates/*/src/*.rt')):
        yield path.relative_to(top), path.read_text().split('\n')


def functions(top):
    for path, lines in sources(top):
        i = 0
        while i < len(lines):
            m = HEAD.match(lines[i])
            if m:
                end = i
                while end < len(lines) and lines[end] != m.group(1) + '}' and not (end > i and HEAD.match(lines[end])):
                    end += 1
                if end < len(lines) and lines[end] == m.group(1) + '}':
                    above = i
                    while lines[above - 1].strip().startswith('//'):
                        above -= 1
                    yield Function(path, i + 1, m.group(2), '\n'.join(lines[i:end + 1]), ' '.join(lines[above:i]))
                    i = end
            i += 1


def lines_with(top, pattern):
    for path, lines in sources(top):
        for i, line in enumerate(lines):
            if not line.strip().startswith('//') and re.search(pattern, line):
                yield f'{path}:{i + 1} {line.strip()}'


def enums(top):
    return lines_with(top, r'^\s*(pub(\(crate\))? )?enum ')


def flags(top):
    return lines_with(top, r'^\s*(pub )?\w+: bool,$')


def codes(top):
    for f in functions(top):
        if f.answer in ('usize', 'u8', 'u16', 'u32', 'u64'):
            given = set(re.findall(r'return (\d+);', f.body)) | set(re.findall(r'^\s*(\d+)$', f.body, re.M))
            given |= set(re.findall(r'=> (\d+),', f.body)) | set(re.findall(r'\{ (\d+) \}', f.body))
            if len(given) > 1 and any(int(n) > 1 for n in given):
                yield f.place()
    yield from lines_with(top, r'\bnumber: \d+,?$|\bnumber: \d+, place|stopped\(spot, \d+\)|\bnumber = \d+;')


def nones(top):
    for f in functions(top):
        if f.answer in ('usize', 'u8', 'u16', 'u32'):
            if re.search(r'return (NONE|NO_[A-Z]+|ANSWERS);|^\s*(NONE|NO_[A-Z]+)$', f.body, re.M):
                yield f.place()
            elif re.search(r'\b(none|NONE|where all)\b', f.comment):
                yield f.place()


def kinds(top):
    words = 'SORT|CONSTRUCTOR|NONTERMINAL|RULE|STATES|TRANSITION|TYPE|BINDING|PATH'
    yield from lines_with(top, rf'(pub const ({words}): usize|place_at\((\w+, )+({words})\)|kind == ({words})|^\s*({words}) =>)')


def twins(top):
    groups = collections.defaultdict(list)
    for f in functions(top):
        text = re.sub(r'\n\s*(requires|ensures)\b.*', '', f.text)
        text = text.replace(f.name, 'F')
        text = re.sub(r'\b[A-Z][A-Z0-9_]+\b|\b\d+(u8|u16|u32|u64|usize)?\b', 'N', text)
        text = re.sub(r'\b(u8|u16|u32|u64|usize)\b', 'T', text)
        text = re.sub(r'b?"[^"]*"', 'S', text)
        for old in ('tiny', 'small', 'modest', 'plain', 'broad', 'middle', 'wide', 'all', 'few', 'some', 'long', 'short', 'large', 'any'):
            text = re.sub(rf'\b{old}_(\w+)', r'X_\1', text)
        groups[' '.join(text.split())].append(f)
    for group in groups.values():
        if len(group) > 1 and len(group[0].body) > 30:
            yield f'{len(group)}: ' + ', '.join(f.place() for f in group)


def loops_by(top, counting):
    step = re.compile(r'^\s*(\w+) (?:=\s*\1\s*[+-]\s*[0-9A-Z_]+|[+-]= [0-9A-Z_]+);', re.M)
    for path, lines in sources(top):
        for i, line in enumerate(lines):
            m = re.match(r'^(\s*)(while|loop)\b(.*)', line)
            if m:
                end = i
                while lines[end] != m.group(1) + '}':
                    end += 1
                body = '\n'.join(lines[i + 1:end])
                if bool(any(re.search(rf'\b{v}\b', m.group(3)) for v in step.findall(body))) == counting:
                    yield f'{path}:{i + 1} {line.strip()}'


def shapes(top):
    for f in functions(top):
        if re.match(r'(same|precedes|larger|narrow|clear|wide|from_byte|from_word|decimal|put|matches_at|words_of|verdict_of|of_path|of_bindings|stopped|head_code|has_room)', f.name):
            yield f.place()


def groups(top):
    counted = collections.Counter()
    for f in functions(top):
        names = sorted(set(re.findall(r'\b([a-z]\w*): &', f.signature)))
        for i, a in enumerate(names):
            for b in names[i + 1:]:
                counted[f'{a}, {b}'] += 1
    for pair, n in counted.most_common():
        if n >= 5:
            yield f'{n}: {pair}'


def clauses(top):
    counted = collections.Counter()
    for f in functions(top):
        facts = set()
        for clause in re.findall(r'(?:requires|ensures)(?: \w+)? \{ (.*) \}$', f.text, re.M):
            for fact in clause.split(' × '):
                facts.add(fact.strip('() '))
        for fact in facts:
            counted[fact] += 1
    for fact, n in counted.most_common():
        if n >= 3:
            yield f'{n}: {fact}'


def tables(top):
    for path, lines in sources(top):
        lengths = collections.defaultdict(list)
        for i, line in enumerate(lines):
            m = re.match(r'^(?:pub )?const (\w+): \[(\w+); (\w+)\]', line) or re.match(r'^\s*let mut (\w+) = \[(\w+); (\w+)\]', line)
            if m:
                lengths[m.group(3)].append(f'{path}:{i + 1} {m.group(1)}')
        for places in lengths.values():
            if len(places) > 1:
                yield f'{len(places)}: ' + ', '.join(places)
    for f in functions(top):
        names = re.findall(r'\b(\w+): &(?:mut )?\[', f.signature)
        if re.search(r'\b(n|length): usize', f.signature) and any(x in ('flags', 'letters', 'buffer', 'name') for x in names):
            yield f.place()


def steps(top):
    for f in functions(top):
        tests = collections.Counter(re.findall(r'if (\w+) == [A-Z0-9_]+ \{', f.body))
        if tests and max(tests.values()) >= 3:
            yield f.place()


POINTS = {
    'enums': enums, 'flags': flags, 'codes': codes, 'nones': nones, 'kinds': kinds, 'twins': twins,
    'loops': lambda top: loops_by(top, True), 'whiles': lambda top: loops_by(top, False), 'shapes': shapes, 'groups': groups,
    'clauses': clauses, 'tables': tables, 'steps': steps,
}

if __name__ == '__main__':
    if len(sys.argv) < 2 or sys.argv[1] not in POINTS:
        sys.exit(__doc__)
    top = sys.argv[2] if len(sys.argv) > 2 else pathlib.Path(__file__).resolve().parent.parent
    found = list(POINTS[sys.argv[1]](top))
    print(*found, sep='\n')
    print(len(found))
