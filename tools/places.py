#!/usr/bin/env python3
"""Lists the places in crates/*/src that docs/DESIGN-PASS.md counts, point by point.

    tools/places.py [--folder FOLDER] [POINT ..]

It goes by the text alone: what it lists are candidates, and the page says which of them are places.
"""
import argparse
import collections
import difflib
import pathlib
import re

NAME = r'[A-Za-z_]\w*'
HEAD = re.compile(r'(\s*)(?:pub(?:\(\w+\))? )?(?:final )?fn (' + NAME + r')')


def sources(folder):
    return sorted(pathlib.Path(folder, 'crates').glob('*/src/**/*.rt'))


def bare(text):
    """The text without comments, each line kept."""
    return re.sub(r'//[^\n]*', '', text)


def functions(path):
    """(name, line, text from the head to the closing brace) of each function with a body."""
    lines = bare(path.read_text()).split('\n')
    for at, line in enumerate(lines):
        head = HEAD.match(line)
        if head is None:
            continue
        start = next((n for n in range(at, len(lines)) if re.search(r';\s*$', lines[n]) or re.search(r'\{\s*$', lines[n])), None)
        if start is None or not re.search(r'\{\s*$', lines[start]):
            continue
        end = next(n for n in range(start, len(lines)) if lines[n] == head.group(1) + '}')
        yield head.group(2), at + 1, '\n'.join(lines[at:end + 1])


def is_clause(line):
    return re.match(r'\s*(requires|ensures)\b', line)


def grep(files, pattern):
    for path in files:
        for number, line in enumerate(bare(path.read_text()).split('\n'), 1):
            if re.search(pattern, line) and not is_clause(line):
                yield f'{path}:{number}: {line.strip()}'


def show(title, lines):
    lines = list(lines)
    print(f'  {title}: {len(lines)}')
    for line in lines:
        print(f'    {line}')


def point1(files):
    show('enums', grep(files, r'^\s*(pub(\(\w+\))? )?enum '))
    show('answers of bool by what changes something', grep(files, r'fn \w+\(&mut self.*-> bool'))
    show('errors as an Option', grep(files, r'Option<(Refusal|\w*Fault)>'))
    show('an Option or a Result taken apart and put together again',
         grep(files, r'\bNone => (None|Err\()|\bErr\(\w+\) => (Err\(|None)|\bNone => return None|^\s*return None;$'))
    show('a flag, or a number, beside a value in a struct', grep(files, r'^\s+(pub(\(\w+\))? )?\w+: (bool|Option<u8>|Vec<u16>|\[u16; \w+\]),$|\(\w+, bool\)'))
    show('numbers matched as kinds', grep(files, r'^\s+(\d+|\w+::\w+)( \| \d+)* => (Some\(\w|\d+,|\w+::\w+,)'))


def shape(text):
    """The tokens of a function, with names and numbers told apart only by where they stand first."""
    body = '\n'.join(line for line in text.split('\n') if not is_clause(line))
    seen = {}
    keep = {'fn', 'pub', 'crate', 'let', 'mut', 'for', 'in', 'while', 'if', 'else', 'match', 'return', 'self', 'Self', 'Ok', 'Err', 'Some', 'None', 'as'}
    return [t if t in keep or not re.match(r'\w', t) else seen.setdefault(t, f'n{len(seen)}')
            for t in re.findall(r'\w+|[^\w\s]', body)]


def point2(files):
    all_of = [(f'{path}:{line} {name}', shape(text)) for path in files for name, line, text in functions(path)]
    all_of = [(where, tokens) for where, tokens in all_of if len(tokens) >= 30]
    pairs = []
    for i, (one, a) in enumerate(all_of):
        for other, b in all_of[i + 1:]:
            if abs(len(a) - len(b)) * 8 > len(a) + len(b):
                continue
            match = difflib.SequenceMatcher(None, a, b, autojunk=False)
            if match.real_quick_ratio() > 0.9 and match.quick_ratio() > 0.9 and match.ratio() > 0.9:
                pairs.append(f'{one} = {other}')
    show('pairs of functions of nearly one shape', pairs)


def point3(files):
    show('loops over a range of numbers', grep(files, r'^\s*for \w+ in .*\.\.'))
    show('loops with a condition', grep(files, r'^\s*while '))
    show('numbers counted up by hand', grep(files, r'^\s*\w+ \+= 1;|^\s*(\w+(\.\w+)?) = \1\.(saturating|wrapping)_add\(1\)'))


def point4(files):
    show('equality', grep(files, r'fn (same\w*|is|eq|\w+_eq)\b'))
    show('conversion', grep(files, r'fn (from_\w+|to_\w+|\w+_of|of|value|number|kind|answer|weight|action|label|set|dotted)\b[^;]*\(&?(self|\w+: [\w&]+)(, \w+: \w+)?\) ->'))
    show('printing', grep(files, r"fn (write_\w+|print_\w+|\w*name)\b|fn \w+\(.*\) -> &'static str"))


def clauses(text):
    for line in text.split('\n'):
        found = re.match(r'\s*(requires|ensures)\s+(?:\w+ )?\{ (.*) \}$', line)
        if found:
            for fact in re.split(r' × ', found.group(2)):
                yield re.sub(r'\.(now|old|new)\b', '', fact).strip('() ')


def parameters(text):
    found = re.search(r'fn ' + NAME + r'(?:<.*?>)?\((.*?)\)', text, re.S)
    names = re.findall(r'(\w+): ', found.group(1)) if found else []
    return [name for name in names if name not in ('rt', 'heap', 'f')]


def point5(files):
    facts, groups = collections.defaultdict(set), collections.defaultdict(set)
    for path in files:
        crate = path.parts[path.parts.index('crates') + 1]
        for name, line, text in functions(path):
            for fact in clauses(text):
                if '≡' in fact or '≤' in fact or '<' in fact or ' ' in fact:
                    if not re.match(r'result\b', fact):
                        facts[crate, fact].add(f'{path.name}:{line} {name}')
            names = parameters(text)
            for i, one in enumerate(names):
                for other in names[i + 1:]:
                    groups[crate, f'{one}, {other}'].add(f'{path.name}:{line} {name}')
    show('facts in the clauses of three functions or more',
         sorted(f'{crate}: {fact}: {len(where)}' for (crate, fact), where in facts.items() if len(where) >= 3))
    show('parameters together in three functions or more',
         sorted(f'{crate}: {pair}: {len(where)}' for (crate, pair), where in groups.items() if len(where) >= 3))


def point6(files):
    show('arrays in structs', grep(files, r'^\s+(pub(\(\w+\))? )?\w+: \[\w+; \w+\],$'))
    show('vectors of numbers or rows in structs', grep(files, r'^\s+(pub(\(\w+\))? )?\w+: Vec<(usize|u\d+|Row)>,$'))
    show('lengths and counts beside', grep(files, r'^\s+(pub(\(\w+\))? )?(len|length|count|limit|free): usize,$'))


def point7(files):
    show('function pointers, boxed or not', grep(files, r'\bfn\(|dyn '))
    show('a match whose arms call one function each', grep(files, r'^\s+\w+::\w+(\(\w*\))? => (rule\.\w+ = |Ok\(\w+::\w+\(\w+\()'))


def point8(folder):
    for crate in sorted(pathlib.Path(folder, 'crates').iterdir()):
        files = sorted(crate.glob('proofs/**/*.antt'))
        lines = sum(path.read_text().count('\n') for path in files)
        answers = sum(path.name == 'Answers.antt' for path in files)
        print(f'  {crate.name}: {len(files)} files, {answers} of answers, {lines} lines')


def main():
    parser = argparse.ArgumentParser(description=__doc__.split('\n')[0])
    parser.add_argument('--folder', default='.')
    parser.add_argument('points', nargs='*', type=int, default=[])
    given = parser.parse_args()
    files = sources(given.folder)
    points = {1: point1, 2: point2, 3: point3, 4: point4, 5: point5, 6: point6, 7: point7}
    for number in given.points or range(1, 9):
        print(f'point {number}')
        if number == 8:
            point8(given.folder)
        else:
            points[number](files)


if __name__ == '__main__':
    main()
