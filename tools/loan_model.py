"""A model of jobs, loans, strokes and shelves by docs/RULES.md, for the scripts that compute what tests and programs must give.

A job remembers each stroke with what it covered, and tells the file and the shelves from the strokes alone: the file is the opened
one with the standing strokes laid over it in their order, the shelves are those of the undoable strokes. Nothing is ever put back.
So the bytes after an undo or a cancel come from another direction than in the library, which restores them.
"""
MOST_OUT, MOST_NUMBERS = 32, 65535


def counted(format, w, h):
    """Row bytes and rows of an image, by counting the bytes of its pixels, or the blocks that some pixel lies in."""
    kind, size = format
    if kind == 'Block':
        return size * len({x // 4 for x in range(w)}), len({y // 4 for y in range(h)})
    return sum(size // 8 for _ in range(w)), h


class Stroke:
    def __init__(self, loan, place, data, covered):
        self.loan, self.place, self.data, self.covered, self.stands = loan, place, data, covered, True


class Refused(Exception):
    pass


def refuse_where(*tests):
    """The first refusal that applies."""
    for applies, number in tests:
        if applies:
            raise Refused(number)


class Job:
    """A texture has its `bytes`, and `areas`: by the name of a piece its place, row bytes and rows."""

    def __init__(self, texture, marks, space):
        self.texture, self.marks, self.space = texture, marks, space
        self.loans, self.strokes, self.granted, self.kept, self.cancelled = {}, [], 0, 0, 0

    def file(self):
        file = bytearray(self.texture.bytes)
        for stroke in self.strokes:
            if stroke.stands:
                file[stroke.place:stroke.place + len(stroke.data)] = stroke.data
        return bytes(file)

    def undoable(self, loan=None):
        return [s for s in self.strokes if s.stands and s.loan in self.loans and loan in (None, s.loan)]

    def stock(self):
        strokes = self.undoable()
        return [(s.loan, s.place, len(s.data)) for s in strokes], b''.join(s.covered for s in strokes)

    def report(self):
        return self.granted, self.kept, self.cancelled, len(self.loans)

    def loan(self, element, level, part, borrower):
        piece = element, level, part
        refuse_where((piece not in self.texture.areas, 10), (piece in [p for p, _ in self.loans.values()], 13),
                     (len(self.loans) == MOST_OUT, 14), (self.granted == MOST_NUMBERS, 15))
        self.granted += 1
        self.loans[self.granted] = piece, borrower
        return self.granted

    def paint(self, loan, borrower, row, first, data):
        refuse_where((loan not in self.loans, 16))
        piece, owner = self.loans[loan]
        place, row_bytes, rows = self.texture.areas[piece]
        marks, covered = self.stock()
        refuse_where((owner != borrower, 17), (not data or row >= rows or first + len(data) > row_bytes, 19),
                     (len(marks) == self.marks or len(covered) + len(data) > self.space, 20))
        place += row * row_bytes + first
        self.strokes.append(Stroke(loan, place, data, self.file()[place:place + len(data)]))
        return len(self.undoable(loan))

    def undo(self, loan, borrower):
        refuse_where((loan not in self.loans, 16))
        refuse_where((self.loans[loan][1] != borrower, 17), (not self.undoable(loan), 21))
        self.undoable(loan)[-1].stands = False
        return len(self.undoable(loan))

    def keep(self, loan):
        refuse_where((loan not in self.loans, 16))
        del self.loans[loan]
        self.kept += 1
        return len(self.loans)

    def cancel(self, loan):
        refuse_where((loan not in self.loans, 16))
        for stroke in self.undoable(loan):
            stroke.stands = False
        del self.loans[loan]
        self.cancelled += 1
        return len(self.loans)

    def answer(self, call):
        name, *arguments = call
        try:
            return True, {'Loan': self.loan, 'Paint': self.paint, 'Undo': self.undo, 'Keep': self.keep, 'Cancel': self.cancel}[name](*arguments)
        except Refused as refused:
            return False, refused.args[0]
