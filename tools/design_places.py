#!/usr/bin/env python3
"""Counts the places of docs/DESIGN-PASS.md: tools/design_places.py [TREE [KIND]]. With a kind it prints each of its places."""
import collections, pathlib, re, sys

TREE = pathlib.Path(sys.argv[1] if len(sys.argv) > 1 else '.')
SHOWN = sys.argv[2] if len(sys.argv) > 2 else ' '
FILES = sorted(p for p in TREE.glob('crates/*/src/*.rt') if p.name != 'expected.rt')
TEXT = {p.relative_to(TREE): p.read_text() for p in FILES}

# Each a search over whole files, whose matches are places.
SEARCHES = {
    'cases: enums of two cases, of which one has a value': r'enum \w+ \{\n(?=(?:    [^\n]*\n){2}\})[^}]*\([^}]*\}',
    'cases: let else that gives an error or none by hand':
        r'let (?:Some|Ok)\(\w+\) = [^;]*? else \{\n\s*return (?:Err\((?:Refusal|Fault)::[^;]*|None|Ok\(\(\)\));\n\s*\};',
    'cases: match that is a method of Option or Result':
        r'(?:None|Err\(\w+\)) => (?:return )?(?:Err\((?:\w+::)+\w+(?:\(\w+\))?\)|Err\(\w+\)|None|NO_\w+|Some\(\w+\)),?\n'
        r'|Some\(\w+\) => Some\([^\n]*\),\n|Ok\(\w+\) => None,\n',
    'cases: numbers for refusals or kinds':
        r'Err\(\d+\)|Err\(\(\d+, \d+\)\)|-> (?:u32|Result<u32, u32>) \{|kept: u32, cancelled: u32|(?<=[a-z], )\d\d\)\?;',
    'cases: a flag or a zero with a value beside it': r'spent: bool|run\.length == 0',
    'loops: loops that count by hand': r'while [^\n]*\{|\bloop \{|for \w+ in \(?(?:\d+|[a-z_]+)\.\.[^\n]*\{|(?:place|code|number) = \w+\.saturating_add\(1\)',
    'loops: loops that search, test or add': r'for [^\n]* in [^\n]*\{\n(?:\s*let [^\n]*\n)?\s*(?:if [^\n]*\{\n\s*(?:return|check)|\w+ = \w+\.saturating_add\()',
    'traits: equality, conversion or printing by hand':
        r'fn (?:is_same|answer_of|number_of|refusal_of|name_of|named|name|number_or_refusal|call_of|tuples_of|check_same)\b[^\n]*'
        r'|struct \w+(?:Text|Words)\b|impl From<(?:io::Error|Refusal)> for Fault',
    'traits: values of all zeros by hand': r'const (?:NONE|BLANK|NO_\w+|FIRST|ZEROS)\b',
    'buffers: buffers with a length beside, parallel lists': r'\[(?:Level|Loan); \d+\]|levels: &\[Level\],? count|calls: &\[Call<\'?_?>\],? *\n? *answers: &\[Answer\]|line: u32,\n',
    'switches: a flag that says which step to run': r'known: bool|whole: bool',
    'switches: the cases of Call taken apart to run them': r'Call::Keep \{ loan \} => \w+\.keep',
}
# Names declared in more than one file (main, fmt and the like apart).
NAME = re.compile(r'^\s*(?:pub(?:\(crate\))? )?(?:fn|struct|enum|const) (\w+)', re.M)
COMMON = {'main', 'fmt', 'from', 'next', 'drop', 'ask', 'range', 'format_of', 'try_from', 'run', 'of', 'read', 'USAGE', 'NAME'}


def show(title, places):
    print(f'{len(places):4}  {title}')
    if title.split(':')[0] == SHOWN:
        for place in places:
            print(f'        {place}')


for title, pattern in SEARCHES.items():
    show(title, [f'{path}:{text.count(chr(10), 0, m.start()) + 1}' for path, text in TEXT.items() for m in re.finditer(pattern, text)])

declared = collections.defaultdict(set)
for path, text in TEXT.items():
    for name in NAME.findall(text):
        declared[name].add(str(path))
show('twins: names declared in two files or more', [f'{n}: {", ".join(sorted(ps))}' for n, ps in sorted(declared.items()) if len(ps) > 1 and n not in COMMON])

facts, groups = collections.defaultdict(set), collections.defaultdict(set)
for path, text in TEXT.items():
    for m in re.finditer(r'\bfn (\w+)', text):
        head = re.split(r'\n *\{\n| \{\n|;\n', text[m.start():m.start() + 4000])[0]
        where = f'{path}:{m.group(1)}'
        for fact in re.findall(r'requires[\w ]*\{ [(]*([A-Z]\w+)', head):
            facts[fact].add(where)
        names = sorted(set(re.findall(r'(\w+): ', re.split(r'\n *(?:requires|ensures)', head)[0])) - {'rt', 'heap'})
        for i, a in enumerate(names):
            for b in names[i + 1:]:
                groups[a, b].add(where)
show('facts: a fact that three functions or more require', [f'{f}: {len(w)}' for f, w in sorted(facts.items()) if len(w) > 2])
show('facts: two parameters that three functions or more take together', [f'{a}, {b}: {len(w)}' for (a, b), w in sorted(groups.items()) if len(w) > 2])

answers = [n for p in TREE.glob('crates/*/proofs/**/*.antt') if 'expected' not in str(p) for n in re.findall(r'^pub [^\s:]+ : goal\.', p.read_text(), re.M)]
show('proofs: answers', answers)
