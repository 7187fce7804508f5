#!/usr/bin/env python3
"""Brings this repository's own definitions and lemmas to the spelling of today's Rattle: words in snake case, types in camel case.

usage: python3 tools/respell.py [--check]      at the top of the repository, once, after the kit's port.py

Whole words turn, in specs/, proofs/ and src/, but not in strings: a word in lower camel case, as 'factsRead' to 'facts_read' (code has
none); a name with dashes that this repository defines, as 'touching-append' to 'touching_append', or 'Chain-of' to 'ChainOf' where it
is a type. Goals, which Rattle names, keep their dashes. A second run changes nothing. --check writes nothing and prints the table.
"""
import glob
import re
import sys

WORD = re.compile(r"[^\s(){}.;,@\"«»]+")
QUIET = re.compile(r'"(?:[^"\\\n]|\\.)*"')
DEFINED = re.compile(r"^\s*(?:(?:abbrev|unfoldable|pub)\s+)*(" + WORD.pattern + r")(?:\s+\{[^}\n]*\})?\s+:(?=\s)", re.M)
DECLARED = re.compile(r"^\s*(?:pub )?(?:record|data) (" + WORD.pattern + ")", re.M)
GOAL = re.compile(r"goal\.(" + WORD.pattern + ")")
COMMENT = re.compile(r"(?<![^\s(){}.;,@\"«»])--[^\n]*")
CAMEL = re.compile(r"[a-z][a-z0-9]*(?:[A-Z][a-z0-9]*)+'*$")

# A definition with the name of a tactic. In src/ that word is the tactic.
TACTIC = {"first_of": "first_refusal"}

# Names that would fall together with another, or that name a word of std by its older name.
OTHER = {
    "all-counted": "all_counted_lem",
    "all-stand": "all_stand_lem",
    "carried-out": "carried_out_lem",
    "is-outside-row": "is_outside_row_lem",
    "is-some": "is_some_lem",
    "level-at": "level_at_lem",
    "same-name": "same_name_lem",
    "undone-stock": "undone_stock_lem",
    "getD-map-loan": "get_or_map_loan",
    "getD-paste-above": "get_or_paste_above",
    "getD-paste-below": "get_or_paste_below",
    "getD-paste-in": "get_or_paste_in",
}


def snake(name):
    return re.sub(r"(?<=[a-z0-9])([A-Z])", r"_\1", name).lower().replace("-", "_")


def camel(name):
    return "".join(part[:1].upper() + part[1:] for part in name.split("-"))


def turned(name, defined, other):
    bare = name.rstrip("':")
    rest = name[len(bare):]
    if bare in other:
        return other[bare] + rest
    if CAMEL.match(bare):
        return snake(bare) + rest
    if "-" in bare and bare in defined:
        return (camel(bare) if bare[:1].isupper() else snake(bare)) + rest
    return name


def files(kind):
    return sorted(glob.glob(f"crates/*/{kind}", recursive=True))


def main():
    antt = files("specs/**/*.antt") + files("proofs/**/*.antt")
    rust = files("src/**/*.rt")
    defined, goals = set(), set()
    for path in antt:
        with open(path) as f:
            code = COMMENT.sub(" ", QUIET.sub(" ", f.read()))
        goals |= set(GOAL.findall(code))
        defined |= set(DEFINED.findall(code)) | set(DECLARED.findall(code))
    defined -= goals
    table, fallen = {}, []

    def respell(text, other):
        def word(m):
            old = m.group(0)
            new = turned(old, defined, other)
            if new != old:
                table[old] = new
            return new

        # strings stay as they are
        out, at = [], 0
        for q in QUIET.finditer(text):
            out.append(WORD.sub(word, text[at:q.start()]))
            out.append(q.group(0))
            at = q.end()
        out.append(WORD.sub(word, text[at:]))
        return "".join(out)

    texts = {}
    for path in antt + rust:
        with open(path) as f:
            old = f.read()
        texts[path] = (old, respell(old, OTHER | TACTIC if path.endswith(".antt") else OTHER))
    words = {}
    for path, (old, _) in texts.items():
        for m in WORD.finditer(QUIET.sub(" ", old)):
            words.setdefault(m.group(0), set()).add(path)
    for old, new in sorted(table.items()):
        both = words.get(new, set()) & words.get(old, set())
        if both:
            fallen.append((old, new, sorted(both)))
    if "--check" in sys.argv:
        for old, new in sorted(table.items()):
            print(old, new)
        for old, new, paths in fallen:
            print("FALLS TOGETHER:", old, new, *paths)
        return
    for path, (old, new) in texts.items():
        if new != old:
            with open(path, "w") as f:
                f.write(new)
    print(f"respell: {len(table)} names")


main()
