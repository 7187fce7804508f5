#!/usr/bin/env python3
"""Writes the data of crates/busy_day, a day with thirty loans out and strokes mixed, and crates/busy_day/stdout, what must come of it.

The texture is a cube of 16 by 16 pixels of 32 bits with five levels: thirty pieces, all of which are lent. The orders are random with a
fixed seed, malformed lines and orders that are refused among them. What is printed and the shipped file come from tools/loan_model.py;
that a line is malformed is known because it was spoiled here. None of the project's code is used.
"""
import pathlib
import random
import struct

from loan_model import Job, counted

CRATE = pathlib.Path(__file__).resolve().parent.parent / 'crates/busy_day'
SIDE, LEVELS, FACES = 16, 5, 6
MARKS, SPACE, LONGEST = 64, 4096, 16384
# each makes a line that spells no order
SPOILS = [lambda l: l + ' ', lambda l: ' ' + l, lambda l: l.lower(), lambda l: l.replace(' ', '  ', 1), lambda l: l + '\r', lambda l: l[0] + ' 0' + l[2:],
          lambda l: '', lambda l: l + '0x', lambda l: l[:-1] + 'G', lambda l: l.replace(' ', '\t', 1), lambda l: l[0] + l[2:], lambda l: l[0]]


class Cube:
    def __init__(self):
        head = struct.pack('<4s7I', b'DDS ', 124, 0x21007, SIDE, SIDE, 0, 0, LEVELS) + bytes(44)
        head += struct.pack('<8I', 32, 0x41, 0, 32, 0xff0000, 0xff00, 0xff, 0xff000000)
        head += struct.pack('<5I', 0x401008, 0xfe00, 0, 0, 0)
        self.areas, pixels = {}, b''
        for face in range(FACES):
            for level in range(LEVELS):
                row_bytes, rows = counted(('Linear', 32), SIDE >> level, SIDE >> level)
                self.areas[face, level, 0] = len(head) + len(pixels), row_bytes, rows
                pixels += bytes((face * 37 + level * 11 + at * 5) % 251 for at in range(row_bytes * rows))
        self.bytes = head + pixels


def line_of(call):
    name, *rest = call
    if name == 'Paint':
        return 'P %d %d %d %d ' % tuple(rest[:4]) + rest[4].hex()
    if name == 'Loan' and rest[1] == rest[2] == 0 and rest[0] % 2:
        return 'L %d %d' % (rest[0], rest[3])
    return name[0] + ''.join(' %d' % number for number in rest)


def wish(dice, job, cube):
    """A call, mostly one that can be carried out."""
    loans = list(job.loans)
    loan = dice.choice(loans) if loans and dice.random() < 0.95 else dice.randrange(0, 40)
    piece, borrower = job.loans.get(loan, ((0, 0, 0), 7))
    if dice.random() < 0.04:
        borrower += 1
    row_bytes, rows = cube.areas[piece][1:]
    kind = dice.random()
    if kind < 0.60:
        first = dice.randrange(row_bytes)
        length = min(dice.choice([1, 2, 4, 4, 8, 16]), row_bytes - first) + (dice.random() < 0.03)
        return 'Paint', loan, borrower, dice.randrange(rows) + (dice.random() < 0.03), first, bytes(dice.randrange(256) for _ in range(length))
    if kind < 0.86:
        return 'Undo', loan, borrower
    if kind < 0.90:
        return 'Loan', dice.randrange(7), dice.randrange(6), dice.randrange(10) == 0, dice.randrange(1, 9)
    return ('Keep', loan) if kind < 0.955 else ('Cancel', loan)


def main():
    dice, cube = random.Random(1912), Cube()
    job, lines, printed = Job(cube, MARKS, SPACE), [], []

    def order(call):
        line = line_of(call)
        if dice.random() < 0.04:
            lines.append(dice.choice(SPOILS)(line))
            printed.append('no 26')
            return
        done, number = job.answer(call)
        lines.append(line)
        printed.append(f'{"ok" if done else "no"} {number}')

    for at, piece in enumerate(cube.areas):
        while piece not in [p for p, _ in job.loans.values()]:
            order(('Loan', *piece, at % 8 + 1))
    assert len(job.loans) == 30
    most = 0
    while sum(len(line) + 1 for line in lines) < LONGEST - 700:
        order(wish(dice, job, cube))
        most = max(most, len(job.undoable()))
    while job.loans:
        order((dice.choice(['Keep', 'Cancel']), dice.choice(list(job.loans))))
    text = '\n'.join(lines)
    assert len(text) <= LONGEST and most == MARKS
    file = job.file()
    data = CRATE / 'data'
    data.mkdir(parents=True, exist_ok=True)
    (data / 'master.dds').write_bytes(cube.bytes)
    (data / 'orders.txt').write_bytes(text.encode())
    changed = [(place, old, new) for place, (old, new) in enumerate(zip(cube.bytes, file)) if old != new]
    out = printed + ['ship'] + ['%d: %02x %02x' % change for change in changed]
    (CRATE / 'stdout').write_text(''.join(line + '\n' for line in out))
    refusals = sorted({line for line in printed if line.startswith('no')})
    print(len(text), 'bytes,', len(lines), 'orders,', len(changed), 'changed bytes,', job.granted, 'loans,', refusals)


main()
