#!/usr/bin/env python3
"""Tries the planted bugs: small wrong bodies of functions, which the proof of their crate must refuse.

usage: tools/plant_bugs.py [CRATE..] [--only WORD] [--jobs N] [--count]

planted/CRATE.txt has the bugs of a library crate, in blocks with a blank line between them:

    # Layout::length: the bytes of an element
    file: src/layout.rt
    old: self.table.length
    new: self.table.stride

The first line has the function in whose body the bug lies, public or not, and what is wrong; the others the file, in the crate's
folder, a text that stands in it exactly once, and what stands there instead. More pairs of an old and a new text may follow, each
applied to what those before it made.

Each bug is tried on a copy of the repository, alone, and `rt check` judges it:

    refused   a fact is no longer proved; the line that says which follows, after 'false' if the check found values that break it
    PASSED    the crate is still proved: its contracts let the bug through
    BAD       nothing is shown: the bug cannot be applied or lies elsewhere, or the check fell for another reason

It ends with status 1 where a bug PASSED or is BAD. --only tries those with WORD in their first line. --jobs is how many checks
run at once, 2 if it is not given.

--count tries nothing. It prints for each public function how many edits of the gate (must-fail/) and how many planted bugs lie in
its body, and how many bugs lie in other functions. It ends with status 1 where one cannot be applied, or where a public function has
fewer than three. planted/FEWER.txt excuses a function of which three cannot be made, by a line 'Type::function: reason'.
"""
import argparse
import concurrent.futures
import os
import pathlib
import queue
import re
import shutil
import signal
import subprocess
import sys
import tempfile
import time

ROOT = pathlib.Path(__file__).resolve().parent.parent
LIBRARIES = ["refusal", "formats", "shelf", "listing", "painters", "orders", "trace", "dds", "loans"]
WANTED = 3

# Comments, strings and characters, in which a brace is no brace.
QUIET = re.compile(r"//[^\n]*|b?\"(?:\\.|[^\"\\])*\"|b?'(?:\\.|[^'\\\n])'", re.S)
OPENING, CLOSING = "([{", ")]}"


# ---- the functions of a crate

def bare(text):
    """The text with comments, strings and characters blanked out, at the same places."""
    return QUIET.sub(lambda found: re.sub(r"[^\n]", " ", found[0]), text)


def closing(text, place):
    """The place of the bracket that closes the one at a place."""
    depth = 0
    for at in range(place, len(text)):
        depth += (text[at] in OPENING) - (text[at] in CLOSING)
        if depth == 0:
            return at
    raise ValueError("a bracket is not closed")


def body_of(text, place):
    """Where the body of the function whose `fn` ends at a place begins and ends; none where it has no body. The braces of its
    clauses come before: each has the word `requires` or `ensures` in front."""
    since = place
    while place < len(text):
        if text[place] == ";":
            return None
        if text[place] in OPENING:
            end = closing(text, place)
            if text[place] == "{":
                if not re.search(r"\b(requires|ensures)\b", text[since:place]):
                    return place, end + 1
                since = end + 1
            place = end
        place += 1
    return None


def owner_of(header):
    """The type that an `impl` is for, and the trait's own type arguments, as in `From<Refusal>`."""
    header = re.sub(r"^\s*<[^>]*>", "", header)
    of_trait, _, of_type = header.rpartition(" for ")
    arguments = re.search(r"<(?!')([^<>]*)>", of_trait)
    return re.match(r"\s*(?:\w+::)*(\w+)", of_type)[1], bool(of_trait), f"<{arguments[1]}>" if arguments else ""


def exported(crate):
    """The names that a crate hands out: what its lib.rt declares `pub`, or uses `pub`."""
    text = bare((ROOT / "crates" / crate / "src/lib.rt").read_text())
    names = re.findall(r"^pub (?:struct|enum|trait|fn|const|type) (\w+)", text, re.M)
    for used in re.findall(r"^pub use \w+(?:::\w+)*::(\{[^}]*\}|\w+);", text, re.M):
        names += re.findall(r"\w+", used)
    return set(names)


VISIBLE = r"(pub(?:\(crate\))? )?"


def functions_in(text, names):
    """The functions of a file's text: of each its name, where its body begins and ends, and whether it is public. `names` are exported."""
    text = bare(text)
    found = []
    place = 0
    # Top-level items alone begin at a line's beginning.
    for item in re.finditer(rf"^(?:{VISIBLE}fn (\w+)|impl\b([^{{]*)\{{)", text, re.M):
        if item.start() < place:
            continue
        if item[2]:
            span = body_of(text, item.end())
            if span:
                found.append((item[2], *span, item[1] == "pub " and item[2] in names))
            continue
        place = closing(text, item.end() - 1)
        owner, is_trait, arguments = owner_of(item[3])
        # The members of an impl stand four spaces in. Those of a trait's impl have no `pub`, and are as public as the type.
        for member in re.compile(rf"^    {VISIBLE}fn (\w+)", re.M).finditer(text, item.end(), place):
            span = body_of(text, member.end())
            if span:
                found.append((f"{owner}::{member[2]}{arguments}", *span, owner in names and (is_trait or member[1] == "pub ")))
    return found


def functions_of(crate):
    """The public functions of a crate by name, each with its file and line."""
    names = exported(crate)
    found = {}
    for path in sorted((ROOT / "crates" / crate / "src").glob("**/*.rt")):
        text = path.read_text()
        for name, begin, _, is_public in functions_in(text, names):
            if is_public:
                found[name] = f"{path.relative_to(ROOT / 'crates' / crate)}:{text.count(chr(10), 0, begin) + 1}"
    return found


# ---- bugs

class Bug:
    """A planted bug, or an edit of the gate: pairs of an old and a new text, each in a file of a crate."""

    def __init__(self, crate, block):
        self.crate, self.title, self.pairs = crate, "", []
        file, old = None, None
        for line in block.splitlines():
            word, _, rest = line.partition(" ")
            if word == "#":
                self.title = rest
            elif word == "file:":
                file = rest
            elif word == "old:":
                old = rest
            elif word == "new:" and file and old:
                self.pairs.append((file, old, rest))
                old = None
            else:
                raise ValueError(f"{crate}: a line begins with none of '# ', 'file: ', 'old: ' and the 'new: ' of an 'old: ': {line}")

    @property
    def function(self):
        """The function that the first line names."""
        return self.title.partition(": ")[0]

    def applied(self):
        """The texts of the files with the bug, and in which functions' bodies its pairs lie. Each pair applies to what those before
        it made."""
        names = exported(self.crate)
        folder = ROOT / "crates" / self.crate
        texts = {file: (folder / file).read_text() for file, _, _ in self.pairs}
        was = dict(texts)
        touched = set()
        for file, old, new in self.pairs:
            text = texts[file]
            if text.count(old) != 1:
                raise ValueError(f"'{old}' stands in {file} {text.count(old)} times, and not once")
            place = text.index(old)
            touched |= {name for name, begin, end, _ in functions_in(text, names) if begin <= place and place + len(old) <= end}
            texts[file] = text.replace(old, new)
        if texts == was:
            raise ValueError("it changes nothing")
        if self.title and self.function not in touched:
            raise ValueError("it does not lie in that function's body")
        return texts, touched


def planted_in(crate):
    """The planted bugs of a crate."""
    path = ROOT / "planted" / f"{crate}.txt"
    blocks = re.split(r"\n\s*\n", path.read_text().strip()) if path.exists() else []
    return [Bug(crate, block) for block in blocks]


def edits_in(crate):
    """The edits of the gate that change a file of src/."""
    edits = [Bug(crate, path.read_text()) for path in sorted((ROOT / "crates" / crate / "must-fail").glob("*.edit"))]
    return [edit for edit in edits if all(file.startswith("src/") for file, _, _ in edit.pairs)]


# ---- counting

def count(crates):
    """Prints how many bugs lie in each public function's body, and returns whether each has as many as are wanted."""
    path = ROOT / "planted/FEWER.txt"
    fewer = dict(line.split(": ", 1) for line in path.read_text().splitlines() if line) if path.exists() else {}
    is_well = True
    total = [0, 0, 0, 0]
    for crate in crates:
        functions = functions_of(crate)
        gate, planted, inner = dict.fromkeys(functions, 0), dict.fromkeys(functions, 0), 0
        for counts, bugs in (gate, edits_in(crate)), (planted, planted_in(crate)):
            for bug in bugs:
                try:
                    touched = bug.applied()[1]
                except (ValueError, OSError) as error:
                    print(f"{crate}: BAD {bug.title or bug.pairs}: {error}")
                    is_well = False
                    continue
                inside = [name for name in ([bug.function] if bug.title else touched) if name in functions]
                for name in inside:
                    counts[name] += 1
                inner += bool(bug.title and not inside)
        for name, where in functions.items():
            few = gate[name] + planted[name] < WANTED
            told = f": fewer: {fewer[name]}" if few and name in fewer else ": FEWER THAN THREE" if few else ""
            is_well &= not few or name in fewer
            if few:
                fewer.pop(name, None)
            print(f"{crate} {name} ({where}): {gate[name]} of the gate, {planted[name]} planted{told}")
        counted = len(functions), sum(gate.values()), sum(planted.values()), inner
        total = [one + more for one, more in zip(total, counted)]
    for name in fewer if crates == LIBRARIES else ():
        print(f"planted/FEWER.txt: {name} has enough, or is no public function")
        is_well = False
    print(
        f"{total[0]} public functions; in their bodies {total[1]} edits of the gate and {total[2]} planted bugs, "
        f"and {total[3]} planted in other functions"
    )
    return is_well


# ---- trying

def below(crate):
    """The crates that a crate uses, also through others, by crates.txt."""
    lines = (line.partition(":") for line in (ROOT / "crates.txt").read_text().splitlines() if not line.startswith("#"))
    uses = {name.split()[0]: rest.split() for name, _, rest in lines if name.strip()}
    found = set()
    left = [crate]
    while left:
        more = set(uses.get(left.pop(), [])) - found
        found |= more
        left += more
    return found


def copied(to, crates):
    """Makes a copy of the repository as it stands. Of what rt keeps of checks (out/), it has that of the crates and of those below."""
    wanted = {str(ROOT / "crates" / name) for crate in crates for name in (crate, *below(crate))}

    def left_out(folder, names):
        return [name for name in names if name in (".git", "target") or name == "out" and folder not in wanted]

    shutil.copytree(ROOT, to, ignore=left_out)


def linked(one, other):
    """Copies a file to a job's copy: what was proved by a link, since a check replaces such a file and changes none."""
    if one.endswith(".oantt"):
        os.link(one, other)
    else:
        shutil.copy2(one, other)


def checked(folder, jobs):
    """What `rt check` in a crate's folder says, with so many processes of its own, and its status."""
    how = {"stdin": subprocess.DEVNULL, "stdout": subprocess.PIPE, "stderr": subprocess.STDOUT, "errors": "replace"}
    ran = subprocess.run(["rt", "check", "--jobs", str(jobs)], cwd=folder, **how)
    return ran.stdout, ran.returncode


# What rt prints of a text that it cannot compile.
NOT_COMPILED = re.compile(r".*\berror\[[\w-]+\].*")
# What it prints of a fact of the code that is not proved.
NOT_PROVED = re.compile(r"note: (src/\S+:\d+:\d+: (?:it is not proved|`search` found no proof) .*)")
# What it prints of a written proof that fails. One that names what the bug took away shows nothing of the fact.
NAME_AWAY = r"has no field|has no `|is not in scope|was not admitted"
NOT_SHOWN = re.compile(rf"(?:\./)?(proofs/\S+:\d+:\d+: error: (?!.*(?:{NAME_AWAY})).*)")
FAILED = re.compile(r"(.*: error: .*|fn .*: no proof: .*)")
# What is said of a fact that the check found values against.
FALSE = "false: "


def verdict(said, status):
    """What a check's words come to: 'refused', 'PASSED' or 'BAD', and the line that tells why."""
    if status == 0:
        return "PASSED", "the crate is still proved"
    lines = said.splitlines()
    first = lambda form: next((found for found in map(form.match, lines) if found), None)
    bad = first(NOT_COMPILED)
    if bad:
        return "BAD", bad[0]
    if status != 1 or not any(line.startswith("logic=not-proved") for line in lines):
        return "BAD", f"no verdict, status {status}: {lines[-1] if lines else ''}"
    fact = first(NOT_PROVED)
    if fact:
        values = any("allow values at which this goal is false" in line for line in lines if NOT_PROVED.match(line))
        return "refused", (FALSE if values else "") + re.sub(r"; the facts known there .*|; `search` .*", "", fact[1])
    shown = first(NOT_SHOWN)
    if shown:
        return "refused", shown[1]
    bad = first(FAILED)
    return "BAD", f"no fact is named: {bad[0] if bad else lines[-1]}"


def tried(bug, copy, kept):
    """Tries a bug on a copy, whose check begins with what was kept of the crate as it stands, and puts all back."""
    try:
        texts, _ = bug.applied()
    except (ValueError, OSError) as error:
        return "BAD", str(error)
    folder = copy / "crates" / bug.crate
    was = {file: (folder / file).read_text() for file in texts}
    shutil.rmtree(folder / "out/incremental", ignore_errors=True)
    shutil.copytree(kept / "crates" / bug.crate / "out/incremental", folder / "out/incremental", copy_function=linked)
    try:
        for file, text in texts.items():
            (folder / file).write_text(text)
        return verdict(*checked(folder, 1))
    finally:
        for file, text in was.items():
            (folder / file).write_text(text)


def try_all(bugs, jobs):
    """Tries the bugs, several at once, each job on a copy of its own. Returns whether all were refused."""
    began = time.time()
    # The copies go away also where the run is ended from outside.
    signal.signal(signal.SIGTERM, lambda *_: sys.exit(143))
    found, false = {"refused": 0, "PASSED": 0, "BAD": 0}, 0
    with tempfile.TemporaryDirectory(prefix="planted-") as room:
        kept = pathlib.Path(room, "kept")
        crates = list(dict.fromkeys(bug.crate for bug in bugs))
        copied(kept, crates)
        for crate in crates:
            said, status = checked(kept / "crates" / crate, jobs)
            if status:
                sys.exit(f"{said}\n{crate} is not proved as it stands")
        print(f"proved as it stands, in {time.time() - began:.0f} s", flush=True)
        copies = queue.Queue()
        for number in range(jobs):
            copy = pathlib.Path(room, str(number))
            # What was kept of a crate's own check is put there anew before each try.
            shutil.copytree(kept, copy, ignore=shutil.ignore_patterns("incremental"), copy_function=linked)
            copies.put(copy)

        def one(bug):
            copy = copies.get()
            try:
                return tried(bug, copy, kept)
            finally:
                copies.put(copy)

        with concurrent.futures.ThreadPoolExecutor(jobs) as pool:
            for bug, (kind, why) in zip(bugs, pool.map(one, bugs)):
                found[kind] += 1
                false += why.startswith(FALSE)
                print(f"{kind} {bug.crate} {bug.title}: {why}", flush=True)
    minutes, seconds = divmod(round(time.time() - began), 60)
    told = ", ".join(f"{much} {kind}" for kind, much in found.items())
    print(f"{len(bugs)} bugs: {told}, {false} of the refused with values that break the fact; {minutes} min {seconds} s with {jobs} jobs")
    return found["refused"] == len(bugs)


def main():
    words = argparse.ArgumentParser(description=__doc__, formatter_class=argparse.RawDescriptionHelpFormatter)
    words.add_argument("crates", nargs="*", metavar="CRATE", help="the library crates to look at; all of them if none is named")
    words.add_argument("--only", metavar="WORD", default="", help="try only bugs with WORD in their first line")
    words.add_argument("--jobs", type=int, default=2, metavar="N", help="how many checks run at once")
    words.add_argument("--count", action="store_true", help="try nothing, and count the bugs of each public function")
    given = words.parse_args()
    unknown = [crate for crate in given.crates if crate not in LIBRARIES]
    if unknown:
        words.error(f"no library crate: {unknown[0]}")
    crates = given.crates or LIBRARIES
    if given.count:
        return count(crates)
    bugs = [bug for crate in crates for bug in planted_in(crate) if given.only in bug.title]
    if not bugs:
        words.error("no planted bug is of that name")
    return try_all(bugs, given.jobs)


if __name__ == "__main__":
    sys.exit(0 if main() else 1)
