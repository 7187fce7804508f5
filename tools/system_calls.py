#!/usr/bin/env python3
"""Shows what the programs leave where they are ended, or a system call fails, at any moment: system_calls.py FOLDER, with the built programs.

strace (Debian's package strace) tells the system calls of an ordinary run, in their order. In the trace the written file must be synced
before it is renamed, and both the renaming and the sync of its folder must come before the line that says that it stands. Then the program is
run again for each of these calls: killed as it enters it, and with the call failing. Each time the file must stand as before or whole,
that line must be printed only where it stands whole, and an ordinary run after it must do its work. Files are made in the current folder.
"""
import os
import pathlib
import re
import shutil
import subprocess
import sys

ROOT = pathlib.Path(__file__).resolve().parent.parent
OLDER = b'older\n'
# What a failing call answers. A close that fails loses nothing, and what is unlinked first need not be there.
ERRORS = {'openat': 'EACCES', 'read': 'EIO', 'write': 'ENOSPC', 'fsync': 'EIO', 'rename': 'EIO', 'unlink': 'EACCES', 'close': 'EIO'}
HARMLESS = 'unlink', 'close'


def painted(data, strokes):
    """A file with bytes laid over it."""
    for place, laid in strokes:
        data = data[:place] + laid + data[place + len(laid):]
    return data


class Program:
    """A program that writes a file: the file that it reads, what it is run with, the file that it writes, the line that says so, and
    whether a part that a killed run left stops it."""

    def __init__(self, folder, name, read, args, orders, written, strokes, told, stopped):
        self.command, self.orders, self.told, self.stopped = [str(folder / name), *args], orders, told, stopped
        self.name, self.read, self.texture = name, read.name, read.read_bytes()
        self.written, self.whole = pathlib.Path('run', written), painted(self.texture, strokes)
        self.part = pathlib.Path('run', written + '.part')
        self.problems = []

    def fresh(self, before=None):
        """A folder with the texture, and with what stood in the place of the written file."""
        shutil.rmtree('run', ignore_errors=True)
        self.written.parent.mkdir(parents=True)
        pathlib.Path('run', self.read).write_bytes(self.texture)
        if before is not None:
            self.written.write_bytes(before)

    def run(self, *strace):
        """The status, and what was printed on standard output and error."""
        before = ['strace', '-qq', '-s', '4096', *strace] if strace else []
        ran = subprocess.run([*before, *self.command], cwd='run', input=self.orders, capture_output=True, timeout=20)
        return ran.returncode, ran.stdout.decode(), ran.stderr.decode()

    def traced(self):
        """The lines of the trace of an ordinary run."""
        self.fresh()
        self.want(self.is_done(*self.run('-y', '-o', '../trace')), 'an ordinary run')
        return pathlib.Path('trace').read_text().splitlines()

    def want(self, holds, what):
        if not holds:
            self.problems.append(what)
        return holds

    def stands(self):
        """What stands in the place of the written file; nothing where there is none."""
        return self.written.read_bytes() if self.written.exists() else None

    def is_done(self, status, out, error):
        """A run did all its work."""
        return status == 0 and self.told in out and error == '' and self.stands() == self.whole and not self.part.exists()

    def is_sound(self, before, out):
        """The written file stands as before or whole, whole where it was told, and the texture is as it was."""
        untouched = pathlib.Path('run', self.read).read_bytes() == self.texture
        return untouched and self.stands() in ([self.whole] if self.told in out else [before, self.whole])

    def again(self):
        """An ordinary run does its work, or says that the part of a killed run stands in its way, and does it once that is removed."""
        if self.stopped and self.part.exists():
            before, left = self.stands(), self.part.read_bytes()
            status, out, error = self.run()
            said = status == 1 and self.told not in out and error.count('\n') == 1 and self.part.name in error
            if not said or self.stands() != before or self.part.read_bytes() != left:
                return False
            self.part.unlink()
        return self.is_done(*self.run())


def calls_in(trace):
    """The system calls of a trace, each with its count so far, behind the one that starts the program."""
    seen, calls = {}, []
    for line in trace:
        name = line.split('(')[0]
        seen[name] = seen.get(name, 0) + 1
        calls.append((name, seen[name], line[:100]))
    return [call for call in calls if call[0] != 'execve']


def order_of(program, trace):
    """What is done with the written file, in order, each once."""
    part, written, folder = (re.escape(str(path.resolve())) for path in (program.part, program.written, program.written.parent))
    name = re.escape(str(program.written.relative_to('run')))
    forms = {
        'part written': rf'write\(\d+<{part}>, .* = \d+$',
        'part synced': rf'fsync\(\d+<{part}>\) += 0$',
        'renamed': rf'rename\("{name}\.part", "{name}"\) += 0$',
        'folder synced': rf'fsync\(\d+<{folder}>\) += 0$',
        'told': rf'write\(1<.*{re.escape(program.told)}.* = \d+$',
    }
    found = [what for line in trace for what, form in forms.items() if re.match(form, line)]
    return [what for at, what in enumerate(found) if found[:at][-1:] != [what]], list(forms)


def kill_at_each(program, calls):
    """Ends it as it enters each call, with nothing and with an older file in the written one's place."""
    killed = 0
    for before in None, OLDER:
        for name, count, line in calls:
            program.fresh(before)
            status, out, error = program.run('-o', '/dev/null', '-e', f'inject={name}:signal=KILL:when={count}')
            killed += status == -9
            program.want(status == -9 and error == '' and program.is_sound(before, out), f'killed at {line}')
            program.want(program.again(), f'the run after one killed at {line}')
    return f'killed at each of its {len(calls)} system calls, {killed} times'


def fail_each(program, calls):
    """Has each call on files fail, from the one that opens the texture on."""
    first = next(at for at, call in enumerate(calls) if call[0] == 'openat' and program.read in call[2])
    failing = [call for call in calls[first:] if call[0] in ERRORS]
    for before in None, OLDER:
        for name, count, line in failing:
            program.fresh(before)
            status, out, error = program.run('-o', '/dev/null', '-e', f'inject={name}:error={ERRORS[name]}:when={count}')
            told = status == 1 and program.told not in out and error.count('\n') == 1 and error.startswith(program.name + ': ')
            sound = program.is_sound(before, out) and not program.part.exists()
            program.want(program.is_done(status, out, error) if name in HARMLESS else told and sound, f'{ERRORS[name]} from {line}')
            program.want(program.again(), f'the run after {ERRORS[name]} from {line}')
    return f'each of its {len(failing)} system calls on files fails'


def main():
    folder = pathlib.Path(sys.argv[1]).resolve()
    texture, cube = ROOT / 'crates/cuivakko/data/master.dds', ROOT / 'crates/retouch/data/cube-rgb.dds'
    tint = [(place, bytes.fromhex('2040f0802040f080')) for place in (128, 160)]
    day = b'L 0 1 0 7\nP 1 7 0 5 414243\nK 1\n'
    programs = [
        Program(folder, 'cuivakko', texture, [], day, 'shipped.dds', [(141, b'ABC')], 'ship', False),
        Program(folder, 'retouch', cube, ['cube-rgb.dds', 'out.dds'], None, 'out.dds', tint, 'write out.dds', True),
        Program(folder, 'retouch', cube, ['cube-rgb.dds', 'sub/out.dds'], None, 'sub/out.dds', tint, 'write sub/out.dds', True),
    ]
    failed = False

    def tell(program, what, seen):
        nonlocal failed
        failed |= bool(program.problems)
        print(f'{"FAIL" if program.problems else "ok  "}  {program.name} {what}: {"; ".join(program.problems[:3]) or seen}', flush=True)
        program.problems = []

    for program in programs:
        trace = program.traced()
        order, wanted = order_of(program, trace)
        program.want(order == wanted, ', '.join(order))
        tell(program, f'writes {program.written.relative_to("run")}', ', '.join(order))
        calls = calls_in(trace)
        if program.written.parent == pathlib.Path('run'):
            tell(program, kill_at_each(program, calls), 'as before or whole, told only where whole, and the next run works')
            tell(program, fail_each(program, calls), 'status 1 and one line of error, as before or whole, and the next run works')
    sys.exit(failed)


if __name__ == '__main__':
    main()
