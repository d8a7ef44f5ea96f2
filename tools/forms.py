#!/usr/bin/env python3
"""Counts, in crates/*/src, the places of each point of docs/DESIGN-PASS.md.

usage: python3 tools/forms.py [FOLDER]            the counts of the tree in FOLDER (here, if none is given)
       python3 tools/forms.py --list N [FOLDER]   the places of point N, a line each
"""
import collections
import glob
import os
import re
import sys


def sources(folder):
    for path in sorted(glob.glob(os.path.join(folder, 'crates/*/src/**/*.rt'), recursive=True)):
        with open(path, encoding='utf-8') as file:
            yield os.path.relpath(path, folder), file.read()


def bare(text):
    """The text without its comments."""
    return re.sub(r'//[^\n]*', '', text)


def items(text, word):
    """Each item that begins with this word: its name and its text."""
    start = r'^(?:pub(?:\(crate\))? )?(?:extern "C" )?%s (\w+)' % word
    for found in re.finditer(start, text, re.M):
        end = re.search(r'^\}', text[found.start():], re.M)
        if end:
            yield found.group(1), text[found.start():found.start() + end.end()]


def functions(text):
    return items(bare(text), 'fn')


def variants(body):
    return re.findall(r'^    (\w+)(\([^\n]*\))?,', bare(body), re.M)


def point1(path, text):
    for name, body in items(text, 'enum'):
        kinds = variants(body)
        if any(kind == 'Refused' for kind, _ in kinds):
            yield f'{path}: enum {name} has a variant for a refusal'
        elif len(kinds) == 2 and sum(bool(held) for _, held in kinds) == 1:
            yield f'{path}: enum {name} is an Option'
        elif len(kinds) == 2 and all(held for _, held in kinds):
            yield f'{path}: enum {name} is a Result'
    for name, body in items(text, 'struct'):
        if re.search(r': bool,', body):
            yield f'{path}: struct {name} has a flag beside its values'
    for line in bare(text).split('\n'):
        if re.search(r'Refused\([1-8]\)', line) or re.search(r'^\s*(return )?[1-8];?$', line) or re.search(r'=> [1-8],$', line):
            if 'Refused' in line or 'codes' in path or 'engine' in path or 'told' in path:
                yield f'{path}: a refusal by its number: {line.strip()}'
        if re.match(r'pub const \w+: u32 = \d+;', line) and 'accounts' in path:
            yield f'{path}: a kind by its number: {line.strip()}'


def shape(body):
    """A function without its names, numbers and contract."""
    code = body[body.index('\n{'):] if '\n{' in body else body[body.index('{'):]
    return re.sub(r'\s+', ' ', re.sub(r'\b\w+\b', '_', code)), code.count('\n')


def point2(all_sources):
    groups = collections.defaultdict(list)
    for path, text in all_sources:
        for name, body in functions(text):
            if 'extern "C"' in body.split('\n')[0] or path.endswith('main.rt'):
                continue
            form, lines = shape(body)
            if lines > 4:
                groups[os.path.dirname(os.path.dirname(path)), form].append((path, name))
    for (_, form), found in groups.items():
        if len(found) > 1:
            for path, name in found:
                yield f'{path}: {name} has the shape of {", ".join(other for _, other in found if other != name) or name}'


def point3(path, text):
    for number, line in enumerate(text.split('\n'), 1):
        if re.match(r'\s*while ', line):
            yield f'{path}:{number}: {line.strip()}'


HAND = r'(wide8?|number|number_of|word_of|flag|flag_of|larger|sum_of|add_sat|sub_sat|count_up|count_down|same_bytes|\w+_equal|table_handle|str_handle|ud_handle)'


def point4(path, text):
    for name, body in functions(text):
        if re.fullmatch(HAND, name) and not re.search(r'\.(saturating_\w+|max|min)\(|s == t', body):
            yield f'{path}: {name} compares, orders or converts by hand'
    for line in bare(text).split('\n'):
        if 'std::num::' in line:
            yield f'{path}: {line.strip()}'


def point5(all_sources):
    clauses = collections.defaultdict(list)
    for path, text in all_sources:
        for name, body in functions(text):
            for clause in re.findall(r'^    requires (?:\w+ )?(\{.*\})$', body, re.M):
                clauses[re.sub(r'\b(old|now)\b', '_', clause)].append(f'{path}: {name} {clause}')
    for clause, found in clauses.items():
        if len(found) > 2:
            yield from found


def point6(path, text):
    for name, body in functions(text):
        head = body.split('{')[0]
        if re.search(r'\b(out|line|text|part|s|made): &(mut )?\[u\d+\],\s*(at|count|n|end|number)\b: (usize|u32)', head):
            yield f'{path}: {name} takes a buffer with a length or a place beside it'


def point7(path, text):
    for name, body in functions(text):
        for found in re.findall(r'match (\w+(?:::get\([^)]*\))?|base::get\([^)]*\)) \{\s*\n\s*\d+ =>', body):
            yield f'{path}: {name} goes by the number {found}'


def places(folder):
    all_sources = list(sources(folder))
    each = {1: point1, 3: point3, 4: point4, 6: point6, 7: point7}
    for point in range(1, 8):
        if point in each:
            yield point, [place for path, text in all_sources for place in each[point](path, text)]
        else:
            yield point, list((point2 if point == 2 else point5)(all_sources))
    answers = glob.glob(os.path.join(folder, 'crates/*/proofs/**/Answers.antt'), recursive=True)
    lines = sum(sum(1 for _ in open(path, encoding='utf-8')) for path in answers)
    yield 8, [f'{len(answers)} files of answers, {lines} lines']


def main(words):
    wanted = int(words.pop(1)) if words[:1] == ['--list'] and len(words) > 1 else None
    if words[:1] == ['--list']:
        words.pop(0)
    for point, found in places(words[0] if words else '.'):
        if wanted is None:
            print(f'{point}. {found[0] if point == 8 else len(found)}')
        elif point == wanted:
            print('\n'.join(found))


main(sys.argv[1:])
