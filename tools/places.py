#!/usr/bin/env python3
"""Counts in the sources of the crates the places that docs/DESIGN-PASS.md tells of: python3 tools/places.py [POINT] lists them, too."""
import os
import re
import sys
from collections import defaultdict

KEYWORDS = set('as break const continue else enum extern false fn for if impl in let loop match mod move mut pub ref return self Self static struct trait true type unsafe use where while'.split())


def sources():
    for folder, _, files in sorted(os.walk('crates')):
        if re.fullmatch(r'crates/\w+/src', folder):
            for name in sorted(files):
                if name.endswith('.rt'):
                    path = os.path.join(folder, name)
                    with open(path, encoding='utf-8') as file:
                        yield path, re.sub(r'//[^\n]*', '', file.read())


def closing(text, at, left, right):
    depth = 0
    for i in range(at, len(text)):
        depth += (text[i] == left) - (text[i] == right)
        if depth == 0:
            return i
    return len(text)


def functions():
    """Each function: path, line, name, parameters, result, clauses, body."""
    for path, text in sources():
        for found in re.finditer(r'\bfn (\w+)', text):
            opened = text.index('(', found.end())
            end = closing(text, opened, '(', ')')
            result = re.match(r'\s*->\s*([^\n{]+)', text[end + 1:])
            at = end + 1 + (result.end() if result else 0)
            clauses = ''
            while True:
                clause = re.match(r'\s*(requires|ensures)[\w ]*\{', text[at:])
                if not clause:
                    break
                stop = closing(text, at + clause.end() - 1, '{', '}') + 1
                clauses += ' '.join(text[at:stop].split()) + '\n'
                at = stop
            body = text.index('{', at) if '{' in text[at:] else at
            stop = closing(text, body, '{', '}') + 1
            line = text.count('\n', 0, found.start()) + 1
            yield path, line, found.group(1), ' '.join(text[opened + 1:end].split()), (result.group(1).strip() if result else ''), clauses, text[body:stop]


def shape(text):
    """A body with its names and numbers replaced by where they first stood."""
    names = {}
    tokens = re.findall(r"b'[^']*'|b?\"[^\"]*\"|\w+|[^\w\s]", text)
    return ' '.join(t if t in KEYWORDS or not re.match(r"\w|b?\"", t) else 'x%d' % names.setdefault(t, len(names)) for t in tokens), len(tokens)


def enums():
    for path, text in sources():
        for found in re.finditer(r'\benum (\w+)(?:<[^>]*>)? \{([^}]*)\}', text):
            variants = [v.strip() for v in re.split(r',(?![^(]*\))', found.group(2)) if v.strip()]
            if len(variants) == 2 and any('(' in v for v in variants):
                yield path, found.group(1), ' | '.join(variants)


def fields(pattern):
    for path, text in sources():
        for found in re.finditer(r'\bstruct (\w+) \{([^}]*)\}', text):
            for field in re.findall(r'(\w+): (\w+)', found.group(2)):
                if re.fullmatch(pattern, ': '.join(field)):
                    yield path, found.group(1), ': '.join(field)


def numbered():
    """Functions that answer 0 or the number of a check."""
    for path, line, name, _, result, clauses, body in functions():
        if result == 'u64' and re.search(r'\breturn \d+;|return [A-Z_]{5,};|=> \d+,|\n\s+\d+\n', body) and re.search(r'\breturn (1|check|[2-9]|1[0-8]|[A-Z_]{5,});|\n\s+0\n\s*\}$', body) and re.search('check|return 1;|return 9;|Writes|told|Carries|StepsWords|put', clauses + body):
            yield path, name, result


def kinds():
    for path, line, name, parameters, *_ in functions():
        for found in re.findall(r'\b(?:kind|form): u64', parameters):
            yield path, name, found
    yield from fields(r'(kind|form): u64')
    for path, text in sources():
        for found in re.findall(r'const (VIEW|VOTE|VC|QC): u64', text):
            yield path, found, 'const'


def twins():
    groups = defaultdict(list)
    for path, line, name, parameters, result, _, body in functions():
        text, size = shape(parameters + result + body)
        if size >= 24:
            groups[text].append((path, name))
    for found in groups.values():
        if len(found) > 1:
            for path, name in found:
                yield path, name, 'as ' + ', '.join(other for _, other in found if other != name)


def counted_loops():
    for path, line, name, _, _, _, body in functions():
        for found in re.finditer(r'\bwhile ([^{]*)\{', body):
            inner = body[found.end():closing(body, found.end() - 1, '{', '}')]
            variables = set(re.findall(r'\b\w+\b', found.group(1)))
            step = [v for v, _ in re.findall(r'\b(\w+) [+-]= (1|[A-Z_]+);', inner) if v in variables]
            if step:
                yield path, name, 'while ' + found.group(1).strip()


def other_loops():
    counted = set((p, n, w) for p, n, w in counted_loops())
    for path, line, name, _, _, _, body in functions():
        for found in re.finditer(r'\b(while ([^{]*)|loop )\{', body):
            what = found.group(1).strip()
            if (path, name, what) not in counted:
                yield path, name, what


def by_hand():
    for path, line, name, _, result, _, body in functions():
        flat = ' '.join(body.split())
        if re.fullmatch(r'\{ if (\w+) < ([\w:]+) \{ return (\1|\2); \} (\1|\2) \}', flat):
            yield path, name, 'min or max'
        elif re.fullmatch(r'\{ if \w+ \{ return 1; \} 0 \}', flat):
            yield path, name, 'a flag as a number'
        elif re.fullmatch(r'\{ match \w+ \{( [\w:]+(\(_(, _)*\))? => (true|false),)+ \} \}', flat):
            yield path, name, 'which variant'
        elif re.fullmatch(r'\{ if (\w+) < (\w+) \{ return 0; \} \1 - \2 \}', flat):
            yield path, name, 'a difference that stops at 0'
        elif re.fullmatch(r'\{ [\w:]+ \{( \w+: (0|\[0; \d+\]|[\w:]+::none\(\)|[\w:]+::Away),)+ \} \}', flat) or re.search(r'^(none|no_setup|no_table|unopened)$', name):
            yield path, name, 'a value of zeros'
        for found in re.findall(r'std::num::wrapping_\w+', body):
            yield path, name, found
    for path, line, name, parameters, result, _, body in functions():
        if name in ('head_of', 'gather', 'stored_as', 'settled_as', 'wrapping_mul', 'make', 'own_table'):
            yield path, name, 'a conversion or a method of the library'


def repeated_fields():
    for path, text in sources():
        for found in re.findall(r'\b(\w+): \1,\n', text):
            yield path, found, 'field: field'


def early_returns():
    for path, line, name, _, _, _, body in functions():
        for found in re.findall(r'if [^{]*\{\s*return (?:true|false);\s*\}', body):
            yield path, name, ' '.join(found.split())


def travelling():
    groups = {'clocks and views': ('clocks', 'views'), 'tally and network': ('tally', 'network'), 'plan and faulty': ('plan', 'faulty')}
    for path, line, name, parameters, *_ in functions():
        for title, (a, b) in groups.items():
            if re.search(r'\b%s: ' % a, parameters) and re.search(r'\b%s: ' % b, parameters):
                yield path, name, title


def facts():
    seen = defaultdict(list)
    for path, line, name, _, _, clauses, _ in functions():
        for clause in clauses.splitlines():
            found = re.match(r'requires[\w ]*\{ (.*) \}$', clause)
            if found:
                for part in re.split(r' × ', found.group(1)):
                    part = part.strip()
                    while part.startswith('(') and closing(part, 0, '(', ')') == len(part) - 1:
                        part = part[1:-1]
                    part = re.sub(r'\b(head|setup)\.(plan|faulty)', r'\2', part)
                    part = re.sub(r'\.(old|now)\b', '', part)
                    seen[part].append((path, name))
    for part, places in seen.items():
        if len(places) > 2:
            for path, name in places:
                yield path, name, part


def lengths():
    for path, line, name, parameters, result, *_ in functions():
        if re.search(r'\bnetwork: ', parameters) and re.search(r'\bheld: ', parameters):
            yield path, name, 'network and held'
        elif re.search(r'\b(window|text|out): &(mut )?\[u8\]', parameters) and re.search(r'\b(unused|filled|used|k|at): usize', parameters):
            yield path, name, 'bytes and a place among them'
    for path, text in sources():
        for found in re.findall(r'= (\[0(?:u\d+)?; [^\]]+\]);', text):
            yield path, '', found


def switches():
    for path, line, name, parameters, _, _, body in functions():
        for flag in re.findall(r'\b(reporting|whole|stage|opened|late|formed|broken): bool', parameters):
            yield path, name, flag


def proofs():
    for folder, _, files in os.walk('crates'):
        if '/proofs' in folder and '/out' not in folder and 'Answers.antt' in files:
            with open(os.path.join(folder, 'Answers.antt'), encoding='utf-8') as file:
                for found in re.findall(r'^pub ([^\s:]+) : goal\.', file.read(), flags=re.M):
                    yield folder, found, 'an answer'


POINTS = [
    ('1 enums of two variants, one with a value', enums),
    ('1 structs with a flag or a check beside values', lambda: list(fields(r'(check: u64|settled: u64|\w+: bool)'))),
    ('1 functions that answer 0 or a check', numbered),
    ('1 kinds as numbers', kinds),
    ('2 functions of one shape', twins),
    ('3 loops that count by hand', counted_loops),
    ('3 other while and loop', other_loops),
    ('4 by hand', by_hand),
    ('4 field: field', repeated_fields),
    ('4 early return of true or false', early_returns),
    ('5 parameters that travel together', travelling),
    ('5 facts in three or more contracts', facts),
    ('6 lengths beside buffers, fixed buffers', lengths),
    ('7 flags that switch', switches),
    ('8 answers', proofs),
]

if __name__ == '__main__':
    for title, places in POINTS:
        found = list(places())
        print('%4d  %s' % (len(found), title))
        if len(sys.argv) > 1 and title.startswith(sys.argv[1]):
            for path, name, what in found:
                print('        %s %s %s' % (path.replace('crates/', ''), name, what))
