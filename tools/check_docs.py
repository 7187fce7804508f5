#!/usr/bin/env python3
"""Sees that README.md is short, that its code stands in crates/example, and that what the documents name is there.

Prints a line for each problem, and the status is 1 then. The pages that tell of the past may name what is gone.
"""
import pathlib
import re
import sys

ROOT = pathlib.Path(__file__).resolve().parent.parent
README = ROOT / 'README.md'
EXAMPLE = ROOT / 'crates/example/src/main.rt'
MOST_WORDS = 1200
PAST = {'PORT.md', 'DESIGN-PASS.md'}
NAMED = re.compile(r'\b(?:docs|tools|crates|planted)/[\w./-]*\w')


def problems():
    readme = README.read_text()
    count = len(readme.split())
    if count > MOST_WORDS:
        yield f'README.md has {count} words, more than {MOST_WORDS}'
    blocks = re.findall(r'^```rust\n(.*?)^```$', readme, re.DOTALL | re.MULTILINE)
    if not blocks:
        yield 'README.md shows no code'
    for block in blocks:
        if block not in EXAMPLE.read_text():
            yield f'README.md has code that does not stand in crates/example: {block.splitlines()[0]}'
    pages = [page for page in sorted((ROOT / 'docs').glob('*.md')) if page.name not in PAST]
    for page in pages:
        if f'docs/{page.name}' not in readme:
            yield f'README.md does not name docs/{page.name}'
    for page in [README, *pages]:
        for name in sorted(set(NAMED.findall(page.read_text()))):
            if not (ROOT / name).exists():
                yield f'{page.relative_to(ROOT)} names {name}, which is not there'


def main():
    found = list(problems())
    for problem in found:
        print(problem)
    sys.exit(bool(found))


if __name__ == '__main__':
    main()
