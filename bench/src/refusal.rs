//! Why a call is turned down, by the number that the rules give it.

#[derive(Clone, Copy, PartialEq, Eq, Debug)]
pub enum Refusal {
    WrongLength = 1,
    WrongMagic = 2,
    WrongHeaderSize = 3,
    ShortExtendedHeader = 4,
    UnknownFormat = 5,
    NoShape = 6,
    OutOfRange = 7,
    TooManyLevels = 8,
    WrongEnd = 9,
    NoSuchPiece = 10,
    PastFileEnd = 11,
    OtherLength = 12,
    PieceOut = 13,
    TooManyLoans = 14,
    NumbersUsedUp = 15,
    LoanNotOut = 16,
    OtherBorrower = 17,
    OutsideRow = 19,
    NoSpace = 20,
    NothingToUndo = 21,
}

impl Refusal {
    pub fn number(self) -> u32 {
        self as u32
    }
}
