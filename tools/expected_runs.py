#!/usr/bin/env python3
"""Writes crates/loans_tests/src/expected.rt, the values that the tests of the crate loans expect.

They are computed by models of the rules in docs/RULES.md that use none of the project's code:
  - the job of tools/loan_model.py, which tells file and shelves from the strokes and never puts a byte back;
  - `follow`, for shelves that were altered and are the job's all the same, where a call follows what stands on the shelves. It does
    put bytes back. Both are run on every script and must agree.
The answers of the scripts with edges are written by hand beside each call, and the model must give the same. The other scripts are
random with a fixed seed. Original bytes are small letters, strokes capitals and digits. Run rt fmt afterwards.
"""
import itertools
import pathlib
import random
import string
import struct

from loan_model import Job, counted

OUT = pathlib.Path(__file__).resolve().parent.parent / 'crates/loans_tests/src/expected.rt'
HUGE = 2 ** 64 - 1


# The refusals by their numbers, from the tenth on.
REFUSALS = dict(enumerate(['NoSuchPiece', 'PastFileEnd', 'OtherLength', 'PieceOut', 'TooManyLoans', 'NumbersUsedUp', 'LoanNotOut', 'OtherBorrower',
                           'ForeignShelves', 'OutsideRow', 'NoSpace', 'NothingToUndo', 'OtherDocket', 'LoansOut'], 10))


class Texture:
    """A file: its head, its pieces' names and, of each, place, row bytes and rows, and the bytes of each piece."""

    def __init__(self, name, head, format, sides, levels, elements, depth=1):
        self.name, self.head, self.format = name, head, format
        self.areas, self.bytes = {}, bytearray(head)
        source = random.Random(name)
        for element in range(elements):
            for level in range(levels):
                w, h, d = (max(1, side >> level) for side in (*sides, depth))
                for part in range(d):
                    row_bytes, rows = counted(format, w, h)
                    self.areas[element, level, part] = len(self.bytes), row_bytes, rows
                    self.bytes += bytes(source.choice(string.ascii_lowercase.encode()) for _ in range(row_bytes * rows))

    def cut(self, file):
        """A file's head, and the bytes of each of its pieces."""
        assert file[:len(self.head)] == self.head
        return [bytes(file[place:place + row_bytes * rows]) for place, row_bytes, rows in self.areas.values()]


def head(width, height, levels, flags, code, bits, caps2=0, depth=0, extended=b''):
    first = struct.pack('<4s7I', b'DDS ', 124, 0x1007 | (0x800000 if depth else 0), height, width, 0, depth, levels) + bytes(44)
    return first + struct.pack('<II4s5I', 32, flags, code, bits, 0, 0, 0, 0) + struct.pack('<5I', 0, caps2, 0, 0, 0) + extended


DX10 = struct.pack('<5I', 28, 3, 0, 3, 0)
TINY = Texture('TINY', head(4, 4, 3, 0x4, b'DXT1', 0), ('Block', 8), (4, 4), 3, 1)
ARRAY = Texture('ARRAY', head(4, 3, 3, 0x4, b'DX10', 0, extended=DX10), ('Linear', 32), (4, 3), 3, 3)
CUBE = Texture('CUBE', head(5, 5, 2, 0x40, bytes(4), 24, caps2=0xfe00), ('Linear', 24), (5, 5), 2, 6)
VOLUME = Texture('VOLUME', head(2, 2, 3, 0x40, bytes(4), 8, caps2=0x200000, depth=20), ('Linear', 8), (2, 2), 3, 1, depth=20)
TEXTURES = [TINY, ARRAY, CUBE, VOLUME]


def are_ours(job, stock):
    """Shelves are the job's: refusal 18 where this does not hold."""
    (marks, kept), (own, covered) = stock, job.stock()
    if len(marks) != len(own) or len(kept) != len(covered) or sum(length for _, _, length in marks) != len(kept):
        return False
    for loan, place, length in marks:
        if loan not in job.loans or length == 0:
            return False
        begin, row_bytes, rows = job.texture.areas[job.loans[loan][0]]
        if place < begin or place + length > begin + row_bytes * rows:
            return False
    return all([m[0] for m in marks].count(loan) == [m[0] for m in own].count(loan) for loan in job.loans)


def taken(file, stock, loan, count, restore):
    """The loan's newest `count` marks leave the shelves, the newest first; where `restore`, their bytes go back into the file."""
    file, (marks, kept) = bytearray(file), stock
    entries, at = [], 0
    for mark in marks:
        entries.append((mark, kept[at:at + mark[2]]))
        at += mark[2]
    for _ in range(count):
        newest = max(k for k, (mark, _) in enumerate(entries) if mark[0] == loan)
        (_, place, length), covered = entries.pop(newest)
        if restore:
            file[place:place + length] = covered
    return bytes(file), ([mark for mark, _ in entries], b''.join(covered for _, covered in entries))


def follow(job, file, stock, call):
    """File and shelves after a call that is carried out, by what stands on the shelves."""
    name, loan = call[:2]
    count = [mark[0] for mark in stock[0]].count(loan)
    if name == 'Paint':
        place, row_bytes, _ = job.texture.areas[job.loans[loan][0]]
        _, _, _, row, first, data = call
        place += row * row_bytes + first
        laid = file[:place] + data + file[place + len(data):]
        return laid, (stock[0] + [(loan, place, len(data))], stock[1] + file[place:place + len(data)])
    return taken(file, stock, loan, 1 if name == 'Undo' else count, name != 'Keep')


def painters(job, borrowers):
    """From the file's first byte on, how many bytes have one painter, and the loan and borrower of the newest stroke over them."""
    owners = [None] * len(job.texture.bytes)
    for stroke in job.strokes:
        if stroke.stands:
            owners[stroke.place:stroke.place + len(stroke.data)] = [(stroke.loan, borrowers[stroke.loan])] * len(stroke.data)
    return [(len(list(run)), owner) for owner, run in itertools.groupby(owners)]


def scrapped(job):
    """The file after every loan that is out was cancelled, the youngest loan first; they share no byte."""
    file, stock = job.file(), job.stock()
    for loan in sorted(job.loans, reverse=True):
        file, stock = taken(file, stock, loan, [mark[0] for mark in stock[0]].count(loan), True)
    assert stock == ([], b'')
    return file


class Script:
    def __init__(self, name, comment, texture, marks, space):
        self.name, self.comment, self.job, self.lines = name, comment, Job(texture, marks, space), []
        self.most_out = 0

    def add(self, call):
        job = self.job
        file, stock = job.file(), job.stock()
        carried = None
        if call[0] != 'Loan' and call[1] in job.loans:
            carried = follow(job, file, stock, call) if call[0] in ('Keep', 'Cancel') or job.undoable(call[1]) or call[0] == 'Paint' else None
        done, number = job.answer(call)
        self.most_out = max(self.most_out, len(job.loans))
        assert (job.file(), job.stock()) == (carried if done and call[0] != 'Loan' else (file, stock)), (call, done, number)
        self.lines.append((call, done, number))
        return done, number

    def by_hand(self, *rows):
        """Calls with the answers that they must have: a number, or 'no' and the refusal's number."""
        for call, answer in rows:
            done, number = self.add(call)
            assert answer == (number if done else f'no {number}'), (self.name, call, answer, done, number)
        return self


def random_call(source, job, most_bytes, weights):
    """A call that is mostly carried out, and sometimes off by one or by a name."""
    loans, pieces = list(job.loans), list(job.texture.areas)
    odd = source.random() < 0.12
    kind = source.choices(['Loan', 'Paint', 'Undo', 'Keep', 'Cancel'], weights)[0]
    if kind == 'Loan' or not loans:
        return ('Loan', *(source.choice([(6, 0, 0), (0, 3, 0), (0, 0, 20)]) if odd else source.choice(pieces)), source.randrange(5))
    loan = source.choice([0, source.randrange(1, job.granted + 2), 65536]) if odd else source.choice(loans)
    piece, borrower = job.loans.get(loan, (pieces[0], 4))
    if source.random() < 0.05:
        borrower += 1
    if kind in ('Keep', 'Cancel'):
        return kind, loan
    if kind == 'Undo':
        return kind, loan, borrower
    _, row_bytes, rows = job.texture.areas[piece]
    first = source.randrange(row_bytes)
    length = source.randrange(1, min(row_bytes - first, most_bytes) + 1) + (source.random() < 0.05)
    data = ''.join(source.choice(string.ascii_uppercase + string.digits) for _ in range(length)).encode()
    return kind, loan, borrower, source.randrange(rows) + (source.random() < 0.05), first, data


def at_random(name, comment, texture, marks, space, count, most_bytes, weights=(6, 14, 6, 2, 2)):
    script, source = Script(name, comment, texture, marks, space), random.Random(name)
    for _ in range(count):
        script.add(random_call(source, script.job, most_bytes, weights))
    return script


EXAMPLE = Script('EXAMPLE', 'The worked example of docs/ORDERS.md.', TINY, 64, 4096).by_hand(
    (('Loan', 0, 1, 0, 7), 1), (('Loan', 0, 1, 0, 8), 'no 13'), (('Paint', 1, 7, 0, 6, b'\xaa\xbb'), 1),
    (('Paint', 1, 7, 0, 7, b'\xaa\xbb'), 'no 19'), (('Undo', 1, 7), 0), (('Keep', 1), 0), (('Undo', 1, 7), 'no 16'))
NO_CALLS = Script('NO_CALLS', 'No calls at all, on shelves with no memory.', TINY, 0, 0)
ROWS = Script('ROWS', 'The ends of rows and of a piece, and who may paint.', ARRAY, 16, 64).by_hand(
    (('Paint', 1, 7, 0, 0, b'A'), 'no 16'), (('Loan', 2, 0, 0, 2 ** 32 - 1), 1), (('Loan', 3, 0, 0, 7), 'no 10'), (('Loan', 2, 3, 0, 7), 'no 10'),
    (('Loan', 2, 0, 1, 7), 'no 10'), (('Paint', 1, 2 ** 32 - 1, 0, 0, b'ABCDEFGHIJKLMNOP'), 1),
    (('Paint', 1, 2 ** 32 - 1, 0, 0, b'ABCDEFGHIJKLMNOPQ'), 'no 19'), (('Paint', 1, 2 ** 32 - 1, 1, 1, b'ABCDEFGHIJKLMNOP'), 'no 19'),
    (('Paint', 1, 2 ** 32 - 1, 2, 15, b'Z'), 2), (('Paint', 1, 2 ** 32 - 1, 2, 16, b'Z'), 'no 19'), (('Paint', 1, 2 ** 32 - 1, 3, 0, b'Z'), 'no 19'),
    (('Paint', 1, 2 ** 32 - 1, 2 ** 32 - 1, 0, b'Z'), 'no 19'), (('Paint', 1, 2 ** 32 - 1, 0, 2 ** 32 - 1, b'Z'), 'no 19'),
    (('Paint', 1, 2 ** 32 - 1, 0, 0, b''), 'no 19'), (('Paint', 1, 2 ** 32 - 1, 0, 16, b''), 'no 19'), (('Paint', 1, 0, 3, 0, b''), 'no 17'),
    (('Paint', 0, 7, 0, 0, b'A'), 'no 16'), (('Paint', 65537, 2 ** 32 - 1, 0, 0, b'A'), 'no 16'), (('Undo', 1, 0), 'no 17'), (('Undo', 2, 0), 'no 16'),
    (('Undo', 1, 2 ** 32 - 1), 1), (('Undo', 1, 2 ** 32 - 1), 0), (('Undo', 1, 2 ** 32 - 1), 'no 21'), (('Undo', 1, 0), 'no 17'),
    (('Keep', 0), 'no 16'), (('Cancel', 2), 'no 16'), (('Cancel', 1), 0), (('Cancel', 1), 'no 16'), (('Keep', 1), 'no 16'),
    (('Loan', 2, 0, 0, 7), 2), (('Paint', 1, 2 ** 32 - 1, 0, 0, b'A'), 'no 16'), (('Paint', 2, 7, 0, 0, b'A'), 1))
SPACE = Script('SPACE', 'Space exactly as long as the stroke, and one byte less; space that is freed serves again.', ARRAY, 3, 6).by_hand(
    (('Loan', 0, 0, 0, 7), 1), (('Loan', 1, 0, 0, 8), 2), (('Paint', 1, 7, 0, 0, b'ABCDEFG'), 'no 20'), (('Paint', 1, 7, 0, 0, b'ABCDEF'), 1),
    (('Paint', 2, 8, 0, 0, b'G'), 'no 20'), (('Undo', 1, 7), 0), (('Paint', 1, 7, 0, 0, b'ABCD'), 1), (('Paint', 2, 8, 1, 0, b'EFG'), 'no 20'),
    (('Paint', 2, 8, 1, 0, b'EF'), 1), (('Paint', 2, 8, 1, 0, b'E'), 'no 20'), (('Keep', 1), 1), (('Paint', 2, 8, 1, 1, b'GHIJ'), 2),
    (('Paint', 2, 8, 0, 0, b''), 'no 19'), (('Cancel', 2), 0), (('Loan', 0, 0, 0, 9), 3), (('Paint', 3, 9, 0, 2, b'KLMNOP'), 1))
MARKS = Script('MARKS', 'The marks shelf full with space for bytes left.', ARRAY, 2, 64).by_hand(
    (('Loan', 0, 0, 0, 7), 1), (('Loan', 0, 1, 0, 7), 2), (('Paint', 1, 7, 0, 0, b'A'), 1), (('Paint', 2, 7, 0, 0, b'B'), 1),
    (('Paint', 1, 7, 0, 0, b'C'), 'no 20'), (('Paint', 2, 7, 1, 0, b'C'), 'no 19'), (('Cancel', 1), 1), (('Paint', 2, 7, 0, 0, b'C'), 2),
    (('Paint', 2, 7, 0, 0, b'D'), 'no 20'), (('Undo', 2, 7), 1), (('Paint', 2, 7, 0, 1, b'D'), 2), (('Keep', 2), 0))
NO_SHELVES = Script('NO_SHELVES', 'Shelves with no memory: loans, but no strokes.', ARRAY, 0, 0).by_hand(
    (('Loan', 0, 0, 0, 7), 1), (('Paint', 1, 7, 0, 0, b'A'), 'no 20'), (('Paint', 1, 7, 3, 0, b'A'), 'no 19'), (('Undo', 1, 7), 'no 21'),
    (('Cancel', 1), 0), (('Loan', 0, 0, 0, 7), 2), (('Keep', 2), 0))
VOLUME_PIECES = list(VOLUME.areas)
FULL_HOUSE = Script('FULL_HOUSE', '32 loans out, and one more.', VOLUME, 8, 16).by_hand(
    *((('Loan', *piece, 5), number + 1) for number, piece in enumerate(VOLUME_PIECES[:32])),
    (('Loan', *VOLUME_PIECES[32], 5), 'no 14'), (('Loan', *VOLUME_PIECES[31], 5), 'no 13'), (('Loan', 0, 2, 5, 5), 'no 10'),
    (('Paint', 32, 5, 0, 0, b'A'), 1), (('Paint', 1, 5, 1, 0, b'BC'), 1), (('Keep', 17), 31), (('Loan', *VOLUME_PIECES[32], 6), 33),
    (('Loan', *VOLUME_PIECES[16], 6), 'no 14'), (('Paint', 33, 6, 0, 0, b'D'), 1), (('Paint', 17, 5, 0, 0, b'D'), 'no 16'), (('Undo', 32, 5), 0),
    (('Cancel', 1), 31), (('Cancel', 32), 30), (('Loan', *VOLUME_PIECES[16], 6), 34), (('Loan', *VOLUME_PIECES[0], 6), 35),
    (('Loan', *VOLUME_PIECES[34], 6), 'no 14'))
SCRIPTS = [
    EXAMPLE, NO_CALLS, ROWS, SPACE, MARKS, NO_SHELVES, FULL_HOUSE,
    at_random('CUBE_RUN', 'Calls on a cube of two levels.', CUBE, 64, 1000, 120, 15),
    at_random('VOLUME_RUN', 'Calls on a volume of 35 slices, with many loans out.', VOLUME, 64, 200, 120, 2, (20, 14, 6, 1, 1)),
    at_random('NEARLY_FULL', 'Calls on an array with shelves that are often full.', ARRAY, 5, 24, 110, 9),
]

# What altered shelves are tried on: loans 1 and 2 with two strokes each, loan 4 with none, loan 3 kept.
BASE = Script('BASE', 'What is out when shelves are altered.', ARRAY, 16, 64).by_hand(
    (('Loan', 0, 0, 0, 7), 1), (('Loan', 1, 0, 0, 8), 2), (('Loan', 0, 1, 0, 7), 3), (('Paint', 1, 7, 0, 3, b'ABCD'), 1),
    (('Paint', 3, 7, 0, 0, b'XY'), 1), (('Paint', 2, 8, 1, 0, b'EFG'), 1), (('Paint', 1, 7, 0, 5, b'HI'), 2), (('Loan', 2, 2, 0, 9), 4),
    (('Keep', 3), 3), (('Paint', 2, 8, 2, 12, b'JKLM'), 2))
MARKS_OF_BASE, KEPT_OF_BASE = BASE.job.stock()
ONE, TWO = (ARRAY.areas[piece][0] for piece in ((0, 0, 0), (1, 0, 0)))
A, B, C, D = MARKS_OF_BASE


def placed(mark, place=None, length=None, loan=None):
    return (mark[0] if loan is None else loan, mark[1] if place is None else place, mark[2] if length is None else length)


FOREIGN = [
    ('none at all', [], b''),
    ('one mark less, with its bytes', [A, B, C], KEPT_OF_BASE[:9]),
    ('one mark more, none of the bytes', [placed(A, length=2), placed(A, place=A[1] + 2, length=2), B, C, D], KEPT_OF_BASE),
    ('one byte more, under a longer mark', [placed(A, length=5), B, C, D], KEPT_OF_BASE + b'q'),
    ('one byte less, under a shorter mark', [placed(A, length=3), B, C, D], KEPT_OF_BASE[:-1]),
    ('three marks of loan 1 and one of loan 2', [A, placed(A, length=3), C, D], KEPT_OF_BASE),
    ('a mark of loan 4, which has no stroke', [placed(A, place=ARRAY.areas[2, 2, 0][0], loan=4), B, C, D], KEPT_OF_BASE),
    ('a mark of length 0', [placed(A, length=0), B, C, placed(D, place=TWO, length=8)], KEPT_OF_BASE),
    ('a mark of a number not yet given', [placed(A, loan=5), B, C, D], KEPT_OF_BASE),
    ('a mark of the loan that was kept', [placed(A, place=ARRAY.areas[0, 1, 0][0], loan=3), B, C, D], KEPT_OF_BASE),
    ('a mark of loan 0', [placed(A, loan=0), B, C, D], KEPT_OF_BASE),
    ('a mark that begins a byte before its piece', [placed(A, place=ONE - 1), B, C, D], KEPT_OF_BASE),
    ('a mark that ends a byte past its piece', [A, B, C, placed(D, place=TWO + 48 - 3)], KEPT_OF_BASE),
    ("a mark in another loan's piece", [A, placed(B, place=ONE), C, D], KEPT_OF_BASE),
    ('a mark at the last place of all', [placed(A, place=HUGE), B, C, D], KEPT_OF_BASE),
    ('a mark of the greatest length', [placed(A, length=HUGE), B, C, D], KEPT_OF_BASE),
    ('lengths of one byte too many', [placed(A, length=5), B, C, D], KEPT_OF_BASE),
    ('lengths of one byte too few', [placed(A, length=3), B, C, D], KEPT_OF_BASE),
]
for words, marks, kept in FOREIGN:
    assert not are_ours(BASE.job, (marks, kept)), words

PASSING = [
    ('other kept bytes', [A, B, C, D], b'zyxwvutsrqpon'),
    ('the marks in another order', [C, D, A, B], KEPT_OF_BASE),
    ("a mark over two rows, and one that ends with its piece", [placed(A, place=ONE + 13, length=5), placed(B, place=TWO + 46, length=2), C, D],
     KEPT_OF_BASE),
    ('a mark that begins and one that ends with the piece, over all of its rows', [placed(A, place=ONE, length=1), B,
                                                                                      placed(C, place=ONE + 43, length=5), D], KEPT_OF_BASE),
]
PASSING_CALLS = [
    [('Undo', 1, 7), ('Cancel', 2)],
    [('Undo', 1, 7), ('Undo', 2, 8), ('Cancel', 1), ('Keep', 1), ('Paint', 2, 8, 0, 0, b'NOP')],
    [('Cancel', 1), ('Cancel', 2), ('Cancel', 4)],
    [('Cancel', 1), ('Undo', 1, 7)],
]


def after_scrap(stock):
    """The file after a scrap on altered shelves."""
    file = BASE.job.file()
    for loan in BASE.job.loans:
        file, stock = taken(file, stock, loan, [mark[0] for mark in stock[0]].count(loan), True)
    return file


def after_passing(stock, call):
    """What a call on altered shelves leaves, and answers: the loan's marks on the shelves after it, or how many loans are then out."""
    job = BASE.job
    assert are_ours(job, stock)
    file, (marks, kept) = follow(job, job.file(), stock, call)
    name, loan = call[:2]
    answer = len(job.loans) - 1 if name in ('Keep', 'Cancel') else [mark[0] for mark in marks].count(loan)
    granted, kept_loans, cancelled, out = job.report()
    ends = {'Keep': (granted, kept_loans + 1, cancelled, out - 1), 'Cancel': (granted, kept_loans, cancelled + 1, out - 1)}
    return answer, file, marks, kept, ends.get(name, job.report())


# Which refusal comes first, on shelves that are not the job's (the first of FOREIGN).
FIRST_OF = [
    (('Paint', 3, 9, 9, 9, b''), 'no 16'), (('Paint', 1, 8, 9, 9, b''), 'no 17'), (('Paint', 1, 7, 9, 9, b''), 'no 18'), (('Undo', 3, 9), 'no 16'),
    (('Undo', 4, 7), 'no 17'), (('Undo', 4, 9), 'no 18'), (('Keep', 3), 'no 16'), (('Keep', 4), 'no 18'), (('Cancel', 3), 'no 16'),
    (('Cancel', 4), 'no 18'), (('Loan', 0, 0, 0, 1), 'no 13'), (('Loan', 3, 0, 0, 1), 'no 10'),
]
# The same calls on a file of another length.
FIRST_AT_OTHER_LENGTH = [
    (('Paint', 3, 9, 9, 9, b''), 'no 12'), (('Paint', 1, 7, 0, 0, b'A'), 'no 12'), (('Undo', 3, 9), 'no 12'), (('Undo', 1, 7), 'no 12'),
    (('Cancel', 3), 'no 12'), (('Cancel', 1), 'no 12'), (('Keep', 3), 'no 16'), (('Keep', 4), 'no 18'), (('Loan', 0, 0, 0, 1), 'no 13'),
]


def text(data):
    return 'b"' + ''.join(chr(b) if 32 <= b < 127 and b not in b'"\\' else '\\0' if b == 0 else f'\\x{b:02x}' for b in data) + '"'


def parts(items):
    return '&[' + ', '.join(text(item) for item in items) + ']'


def marks_text(marks):
    return '&[' + ', '.join(f"({loan}, {'usize::MAX' if place == HUGE else place}, {'usize::MAX' if length == HUGE else length})"
                            for loan, place, length in marks) + ']'


def number_text(number):
    return 'u32::MAX' if number == 2 ** 32 - 1 else str(number)


def line_text(call):
    name, *arguments = call
    return f"Line::{name}({', '.join(text(a) if isinstance(a, bytes) else number_text(a) for a in arguments)})"


def row_text(call, done, number):
    return f"({line_text(call)}, {f'Ok({number})' if done else f'Err(Refusal::{REFUSALS[number]})'})"


def hand_row(call, answer):
    return row_text(call, False, int(answer.split()[1]))


def report_text(granted, kept, cancelled, out):
    return f'Report {{ granted: {granted}, kept: {kept}, cancelled: {cancelled}, out: {out} }}'


def state_text(texture, file, marks, kept, report):
    return (f'State {{ pieces: {parts(texture.cut(file))}, marks: {marks_text(marks)}, kept: {text(kept)}, '
            f'report: {report_text(*report)} }}')


def painters_text(runs):
    return ', '.join(f'({length}, {"None" if owner is None else "Some((%s))" % ", ".join(map(number_text, owner))})' for length, owner in runs)


def script_text(script, lines=None):
    job = script.job
    rows = lines or '&[' + ',\n'.join(row_text(*line) for line in script.lines) + ']'
    kind, size = job.texture.format
    borrowers = {number: call[4] for call, done, number in script.lines if done and call[0] == 'Loan'}
    return f"""// {script.comment}
pub const {script.name}: Script<'static> = Script {{
    head: {job.texture.name}_HEAD,
    format: FormatName::{kind}({size}),
    before: {job.texture.name}_PIECES,
    marks: {job.marks},
    space: {job.space},
    lines: {rows},
    after: {state_text(job.texture, job.file(), *job.stock(), job.report())},
    painters: &[{painters_text(painters(job, borrowers))}],
    scrapped: {parts(job.texture.cut(scrapped(job)))},
}};
"""


def stock_text(words, marks, kept):
    return f'// {words}\n({marks_text(marks)}, {text(kept)})'


def trial_text(words, marks, kept, call):
    answer, *after = after_passing((marks, kept), call)
    return (f'// {words}\nTrial {{ stock: ({marks_text(marks)}, {text(kept)}), line: {line_text(call)}, answer: {answer}, '
            f'after: {state_text(ARRAY, *after)} }}')


def table_text(comment, name, kind, items):
    return f"// {comment}\npub const {name}: &[{kind}] = &[\n" + ',\n'.join(items) + '\n];\n'


def head_text(texture):
    chunks = [bytes(texture.head[at:at + 32]) for at in range(0, len(texture.head), 32)]
    pieces = texture.cut(bytes(texture.bytes))
    return f"pub const {texture.name}_HEAD: &[&[u8]] = {parts(chunks)};\n\npub const {texture.name}_PIECES: &[&[u8]] = {parts(pieces)};\n"


SECTIONS = [
    """// Written by tools/expected_runs.py, which says how the values were computed.
use crate::scripts::Line;
use crate::scripts::Row;
use crate::scripts::Script;
use crate::scripts::State;
use crate::scripts::Stock;
use crate::scripts::Trial;
use formats::FormatName;
use loans::Report;
use refusal::Refusal;
""",
    *map(head_text, TEXTURES), *map(script_text, SCRIPTS), script_text(BASE, 'BASE_LINES'),
    table_text("The parts of BASE by themselves, since a function that names a constant is checked with all of it.", 'BASE_LINES', "Row<'static>",
               [row_text(*line) for line in BASE.lines]),
    f"pub const BASE_STOCK: Stock<'static> = ({marks_text(MARKS_OF_BASE)}, {text(KEPT_OF_BASE)});\n",
    f"pub const BASE_SCRAPPED: &[&[u8]] = {parts(ARRAY.cut(scrapped(BASE.job)))};\n",
    table_text("Shelves that are not the job's after BASE.", 'FOREIGN', "Stock<'static>", [stock_text(*row) for row in FOREIGN]),
    table_text("Shelves that are the job's after BASE, though altered; a call, and what it leaves.", 'PASSING', "Trial<'static>",
               [trial_text(*row, call) for row, calls in zip(PASSING, PASSING_CALLS) for call in calls]),
    table_text("The same shelves, and the pieces after a scrap.", 'PASSING_SCRAPS', "(Stock<'static>, &'static [&'static [u8]])",
               [f'// {row[0]}\n(({marks_text(row[1])}, {text(row[2])}), {parts(ARRAY.cut(after_scrap(row[1:])))})' for row in PASSING]),
    table_text("Calls on the first of FOREIGN.", 'FIRST_OF', "Row<'static>", [hand_row(*row) for row in FIRST_OF]),
    table_text("Calls on the first of FOREIGN with a file of another length.", 'FIRST_AT_OTHER_LENGTH', "Row<'static>",
               [hand_row(*row) for row in FIRST_AT_OTHER_LENGTH]),
]
OUT.write_text('\n'.join(SECTIONS))
for script in SCRIPTS:
    refused = [number for _, done, number in script.lines if not done]
    print(script.name, len(script.lines), 'calls, refused', {number: refused.count(number) for number in sorted(set(refused))},
          'report', script.job.report(), 'marks', len(script.job.stock()[0]), 'most out', script.most_out)
