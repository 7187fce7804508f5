#!/usr/bin/env python3
"""Writes crates/retouch/stdout, what the program retouch prints of crates/retouch/data/cube-rgb.dds.

The steps are written down here a second time; their answers, the file after them and who painted its bytes come from
tools/loan_model.py, and the words of the refusals from the table in docs/RULES.md. The sample's header is read here: a cube of
uncompressed faces. None of the project's code is used.
"""
import itertools
import pathlib
import re
import struct

from loan_model import Job, counted

ROOT = pathlib.Path(__file__).resolve().parent.parent
CRATE = ROOT / 'crates/retouch'
NAME, OUT = (CRATE / 'args').read_text().split()
TINT, SHADE = bytes.fromhex('2040f0802040f080'), bytes.fromhex('101010c0')
MEANINGS = {int(number): words.replace(',', '') if number in ('1', '15') else words
            for number, words in re.findall(r'^\| (\d+) \| (.*) \|$', (ROOT / 'docs/RULES.md').read_text().split('## 7.')[1].split('## 8.')[0], re.M)}
# what the number of an answer counts
COUNTED = {'Loan': 'loan', 'Paint': 'undoable', 'Undo': 'undoable', 'Keep': 'out', 'Cancel': 'out'}


class Cube:
    def __init__(self, data):
        height, width = struct.unpack_from('<2I', data, 12)
        levels, = struct.unpack_from('<I', data, 28)
        flags, _, bits = struct.unpack_from('<3I', data, 80)
        caps2, = struct.unpack_from('<I', data, 112)
        assert caps2 & 0xfe00 == 0xfe00 and not flags & 0x4
        self.bytes, self.areas, place = data, {}, 128
        for face in range(6):
            for level in range(max(levels, 1)):
                row_bytes, rows = counted(('Linear', bits), max(1, width >> level), max(1, height >> level))
                self.areas[face, level, 0] = place, row_bytes, rows
                place += row_bytes * rows
        assert place == len(data)


def piece_at(cube, place):
    for piece, (begin, row_bytes, rows) in cube.areas.items():
        if begin <= place < begin + row_bytes * rows:
            return '%d %d %d' % piece, place - begin


def words_of(call):
    name, *rest = call
    if name == 'Loan':
        return 'loan of piece {} {} {} to borrower {}'.format(*rest)
    if name == 'Paint':
        return 'paint in loan {} by borrower {}, row {}, first {}, {} bytes'.format(*rest[:4], len(rest[4]))
    return {'Undo': 'undo in loan {} by borrower {}', 'Keep': 'keep of loan {}', 'Cancel': 'cancel of loan {}'}[name].format(*rest)


def lines_of(cube):
    yield f'open {NAME}: {len(cube.bytes)} bytes'
    job, last, borrowers = Job(cube, 16, 256), list(cube.areas)[-1], {}
    for call in [('Loan', 0, 0, 0, 1), ('Loan', *last, 2), ('Loan', 0, 0, 0, 2), ('Paint', 1, 1, 0, 0, TINT), ('Paint', 1, 2, 0, 0, SHADE),
                 ('Paint', 2, 2, 0, 0, TINT), ('Paint', 1, 1, 1, 0, TINT), ('Paint', 1, 1, 0, 0, SHADE), ('Undo', 1, 1),
                 ('Paint', 2, 2, 0, 0, SHADE), ('Keep', 1), ('Paint', 1, 1, 0, 0, SHADE), ('Cancel', 2)]:
        done, number = job.answer(call)
        if done and call[0] == 'Loan':
            borrowers[number] = call[4]
        answer = f'{COUNTED[call[0]]} {number}' if done else f'refusal {number}: {MEANINGS[number]}'
        yield f'{words_of(call):<54}  {answer}'
    after = job.file()
    places = [place for place in range(len(after)) if after[place] != cube.bytes[place]]
    for _, run in itertools.groupby(enumerate(places), lambda pair: pair[1] - pair[0]):
        run = [place for _, place in run]
        piece, offset = piece_at(cube, run[0])
        stroke = [s for s in job.strokes if s.stands and s.place <= run[0] < s.place + len(s.data)][-1]
        yield f'changed: {len(run)} bytes from place {run[0]} on, piece {piece} offset {offset}, by borrower {borrowers[stroke.loan]} in loan {stroke.loan}'
    yield f'changed: {len(places)} bytes in all'
    granted, kept, cancelled, out = job.report()
    assert out == 0
    yield f'ship: {granted} loans granted, {kept} kept, {cancelled} cancelled'
    yield f'write {OUT}: {len(after)} bytes'


cube = Cube((CRATE / 'data' / NAME).read_bytes())
(CRATE / 'stdout').write_text('\n'.join(lines_of(cube)) + '\n')
