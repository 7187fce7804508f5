//! The job of one opened file: loans, strokes, and the two shelves of what can be undone.

use crate::format::Format;
use crate::header::FileHead;
use crate::layout::{Area, Layout, Piece};
use crate::refusal::Refusal;

pub type Answer = Result<u32, Refusal>;

#[derive(Clone, Copy)]
pub struct Painting<'a> {
    pub loan: u32,
    pub borrower: u32,
    pub row: u32,
    pub first: u32,
    pub bytes: &'a [u8],
}

#[derive(Clone, Copy)]
pub enum Call<'a> {
    Loan { piece: Piece, borrower: u32 },
    Paint(Painting<'a>),
    Undo { loan: u32, borrower: u32 },
    Keep { loan: u32 },
    Cancel { loan: u32 },
}

#[derive(Clone, Copy)]
pub struct Mark {
    pub loan: u32,
    pub place: usize,
    pub length: usize,
}

/// The marks of the undoable strokes, the oldest first, and in the same order the bytes that they covered.
pub struct Shelves {
    pub marks: Vec<Mark>,
    pub kept: Vec<u8>,
    most_marks: usize,
    most_kept: usize,
}

impl Shelves {
    pub fn new(most_marks: usize, most_kept: usize) -> Shelves {
        Shelves {
            marks: Vec::with_capacity(most_marks),
            kept: Vec::with_capacity(most_kept),
            most_marks,
            most_kept,
        }
    }

    pub fn clear(&mut self) {
        self.marks.clear();
        self.kept.clear();
    }

    fn has_room(&self, length: usize) -> bool {
        self.marks.len() < self.most_marks && length <= self.most_kept - self.kept.len()
    }

    fn put(&mut self, mark: Mark, covered: &[u8]) {
        self.marks.push(mark);
        self.kept.extend_from_slice(covered);
    }

    /// Puts the newest stroke of a loan back and takes it off the shelves.
    fn take_back(&mut self, file: &mut [u8], loan: u32) -> Result<(), Refusal> {
        let mut begin = self.kept.len();
        let position = self
            .marks
            .iter()
            .rposition(|mark| {
                begin -= mark.length;
                mark.loan == loan
            })
            .ok_or(Refusal::NothingToUndo)?;
        let mark = self.marks.remove(position);
        let covered = begin..begin + mark.length;
        file[mark.place..mark.place + mark.length].copy_from_slice(&self.kept[covered.clone()]);
        self.kept.drain(covered);
        Ok(())
    }

    /// Puts all strokes of a loan back, the newest first.
    fn restore(&self, file: &mut [u8], loan: u32) {
        let mut end = self.kept.len();
        for mark in self.marks.iter().rev() {
            let begin = end - mark.length;
            if mark.loan == loan {
                file[mark.place..mark.place + mark.length].copy_from_slice(&self.kept[begin..end]);
            }
            end = begin;
        }
    }

    /// Takes all strokes of a loan off the shelves.
    fn drop_loan(&mut self, loan: u32) {
        let (mut begin, mut end) = (0, 0);
        self.marks.retain(|mark| {
            let stays = mark.loan != loan;
            if stays {
                self.kept.copy_within(begin..begin + mark.length, end);
                end += mark.length;
            }
            begin += mark.length;
            stays
        });
        self.kept.truncate(end);
    }
}

struct Loan {
    number: u32,
    borrower: u32,
    piece: Piece,
    area: Area,
    strokes: u32,
}

impl Loan {
    /// Where the stroke lies in the file.
    fn place_of(&self, painting: &Painting<'_>) -> Result<usize, Refusal> {
        let length = painting.bytes.len();
        let end = painting.first as usize + length;
        if length == 0 || painting.row >= self.area.rows || end > self.area.row_bytes as usize {
            return Err(Refusal::OutsideRow);
        }
        let row = painting.row as usize * self.area.row_bytes as usize;
        Ok(self.area.place as usize + row + painting.first as usize)
    }
}

#[derive(Clone, Copy)]
pub struct Report {
    pub granted: u32,
    pub kept: u32,
    pub cancelled: u32,
    pub out: u32,
}

pub struct Job {
    layout: Layout,
    loans: Vec<Loan>,
    granted: u32,
    kept: u32,
    cancelled: u32,
}

const MOST_LOANS: usize = 32;
const MOST_NUMBERS: u32 = 65_535;

impl Job {
    pub fn open(file: &[u8], format: Format) -> Result<Job, Refusal> {
        Ok(Job {
            layout: Layout::read_with(FileHead::of(file), format)?,
            loans: Vec::with_capacity(MOST_LOANS),
            granted: 0,
            kept: 0,
            cancelled: 0,
        })
    }

    pub fn report(&self) -> Report {
        Report {
            granted: self.granted,
            kept: self.kept,
            cancelled: self.cancelled,
            out: self.loans.len() as u32,
        }
    }

    pub fn call(&mut self, file: &mut [u8], shelves: &mut Shelves, call: &Call<'_>) -> Answer {
        match *call {
            Call::Loan { piece, borrower } => self.loan(piece, borrower),
            Call::Paint(painting) => self.paint(file, shelves, painting),
            Call::Undo { loan, borrower } => self.undo(file, shelves, loan, borrower),
            Call::Keep { loan } => self.keep(shelves, loan),
            Call::Cancel { loan } => self.cancel(file, shelves, loan),
        }
    }

    fn loan(&mut self, piece: Piece, borrower: u32) -> Answer {
        let area = self.layout.place_of(piece)?;
        if self.loans.iter().any(|loan| loan.piece == piece) {
            return Err(Refusal::PieceOut);
        }
        if self.loans.len() >= MOST_LOANS {
            return Err(Refusal::TooManyLoans);
        }
        if self.granted >= MOST_NUMBERS {
            return Err(Refusal::NumbersUsedUp);
        }
        self.granted += 1;
        self.loans.push(Loan {
            number: self.granted,
            borrower,
            piece,
            area,
            strokes: 0,
        });
        Ok(self.granted)
    }

    fn check_length(&self, file: &[u8]) -> Result<(), Refusal> {
        if file.len() as u64 == self.layout.length() {
            Ok(())
        } else {
            Err(Refusal::OtherLength)
        }
    }

    fn position_of(&self, number: u32) -> Result<usize, Refusal> {
        self.loans
            .iter()
            .position(|loan| loan.number == number)
            .ok_or(Refusal::LoanNotOut)
    }

    fn held(&mut self, file: &[u8], number: u32, borrower: u32) -> Result<&mut Loan, Refusal> {
        self.check_length(file)?;
        let position = self.position_of(number)?;
        let loan = &mut self.loans[position];
        if loan.borrower != borrower {
            return Err(Refusal::OtherBorrower);
        }
        Ok(loan)
    }

    fn paint(&mut self, file: &mut [u8], shelves: &mut Shelves, painting: Painting<'_>) -> Answer {
        let loan = self.held(file, painting.loan, painting.borrower)?;
        let place = loan.place_of(&painting)?;
        let length = painting.bytes.len();
        if !shelves.has_room(length) {
            return Err(Refusal::NoSpace);
        }
        let mark = Mark {
            loan: painting.loan,
            place,
            length,
        };
        let target = &mut file[place..place + length];
        shelves.put(mark, target);
        target.copy_from_slice(painting.bytes);
        loan.strokes += 1;
        Ok(loan.strokes)
    }

    fn undo(&mut self, file: &mut [u8], shelves: &mut Shelves, loan: u32, borrower: u32) -> Answer {
        let held = self.held(file, loan, borrower)?;
        shelves.take_back(file, loan)?;
        held.strokes -= 1;
        Ok(held.strokes)
    }

    fn keep(&mut self, shelves: &mut Shelves, loan: u32) -> Answer {
        let position = self.position_of(loan)?;
        shelves.drop_loan(loan);
        self.loans.remove(position);
        self.kept += 1;
        Ok(self.loans.len() as u32)
    }

    fn cancel(&mut self, file: &mut [u8], shelves: &mut Shelves, loan: u32) -> Answer {
        self.check_length(file)?;
        let position = self.position_of(loan)?;
        shelves.restore(file, loan);
        shelves.drop_loan(loan);
        self.loans.remove(position);
        self.cancelled += 1;
        Ok(self.loans.len() as u32)
    }
}

/// Opens a job on a file, and makes the calls in order on it and on shelves that are empty.
pub fn run(
    file: &mut [u8],
    shelves: &mut Shelves,
    format: Format,
    calls: &[Call<'_>],
) -> Result<(Job, Vec<Answer>), Refusal> {
    let mut job = Job::open(file, format)?;
    let answers = calls
        .iter()
        .map(|call| job.call(file, shelves, call))
        .collect();
    Ok((job, answers))
}
