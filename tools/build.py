#!/usr/bin/env python3
"""Proves and builds programs, and the crates that they use: build.py NAME..

Prints a line for each crate as it is proved: its name, the seconds that it took, and how many are left. What the prover says goes into
target/build.log, whose end is shown where a crate fails; the status is 1 then. The programs come into target/bin.
"""
import pathlib
import shutil
import subprocess
import sys
import time

ROOT = pathlib.Path(__file__).resolve().parent.parent
LOG = ROOT / 'target/build.log'
# How much of the log is shown where a crate fails.
LINES = 40


def crates_of(names):
    """The crates to prove, in the order of crates.txt, which has the lowest first."""
    lines = (line.split('#')[0].split(':') for line in (ROOT / 'crates.txt').read_text().splitlines())
    uses = {line[0].strip(): line[1].split() for line in lines if len(line) == 2}
    unknown = [name for name in names if name not in uses]
    if unknown:
        sys.exit(f'no crate of crates.txt: {" ".join(unknown)}')
    wanted = {*names, *(low for name in names for low in uses[name])}
    return [name for name in uses if name in wanted]


def command_for(folder):
    """A program is run when it is linked: without input, and one that wants arguments is asked for its usage, so each ends at once."""
    if not (folder / 'src/main.rt').exists():
        return ['rt', 'lib']
    return ['rt', 'run', *(['--', '--help'] if (folder / 'args').exists() else [])]


def prove(name, log):
    """Whether a crate is proved and built."""
    folder = ROOT / 'crates' / name
    log.write(f'== {name}\n')
    log.flush()
    return subprocess.run(command_for(folder), cwd=folder, stdin=subprocess.DEVNULL, stdout=log, stderr=log).returncode == 0


def main():
    names = sys.argv[1:]
    crates = crates_of(names)
    if shutil.which('rt') is None:
        sys.exit('rt, the command of the Rattle kit, is not on the path')
    (ROOT / 'target/bin').mkdir(parents=True, exist_ok=True)
    print(f'Proving and building {len(crates)} crates; what the prover says goes into target/build.log')
    for at, name in enumerate(crates, 1):
        print(f'  {name:<12}', end='', flush=True)
        start = time.monotonic()
        with LOG.open('w' if at == 1 else 'a') as log:
            proved = prove(name, log)
        seconds = time.monotonic() - start
        if not proved:
            print(f'FAILED after {seconds:.0f} s; target/build.log ends', flush=True)
            print('\n'.join(LOG.read_text(errors='replace').splitlines()[-LINES:]), file=sys.stderr)
            sys.exit(1)
        print(f'proved in {seconds:4.0f} s, {len(crates) - at} left', flush=True)
    for name in names:
        shutil.copy(ROOT / 'crates' / name / 'out' / name, ROOT / 'target/bin' / name)


if __name__ == '__main__':
    main()
