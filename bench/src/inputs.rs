//! The inputs of the workloads. The program `bench` of the library makes the same, by the same draws in the same order.

use crate::header::FileHead;
use crate::job::{Call, Painting};
use crate::layout::Piece;

/// A linear congruential generator with Knuth's factor; a draw is its upper 31 bits.
pub struct Random(u64);

impl Random {
    pub fn new() -> Random {
        Random(0x9e37_79b9_7f4a_7c15)
    }

    pub fn below(&mut self, limit: u32) -> u32 {
        self.0 = self
            .0
            .wrapping_mul(6_364_136_223_846_793_005)
            .wrapping_add(1_442_695_040_888_963_407);
        (self.0 >> 33) as u32 % limit
    }

    pub fn bytes(&mut self, count: usize) -> Vec<u8> {
        (0..count).map(|_| self.below(256) as u8).collect()
    }
}

/// A checksum over numbers, as FNV-1a does it over bytes.
pub struct Sum(u64);

impl Sum {
    pub fn new() -> Sum {
        Sum(0xcbf2_9ce4_8422_2325)
    }

    pub fn add(&mut self, value: u64) {
        self.0 = (self.0 ^ value).wrapping_mul(0x100_0000_01b3);
    }

    pub fn value(&self) -> u64 {
        self.0
    }
}

/// The first 148 bytes of a file, and its length.
pub struct Sample {
    bytes: [u8; 148],
    length: u64,
}

impl Sample {
    pub fn head(&self) -> FileHead<'_> {
        FileHead {
            bytes: &self.bytes,
            length: self.length,
        }
    }

    /// The same head of a file that is one byte longer.
    pub fn longer(self) -> Sample {
        Sample {
            length: self.length + 1,
            ..self
        }
    }

    /// A file with this head and random pixel data.
    pub fn file(&self, random: &mut Random) -> Vec<u8> {
        let mut file = random.bytes(self.length as usize);
        file[..148].copy_from_slice(&self.bytes);
        file
    }
}

/// The fields of a header that count.
#[derive(Clone, Copy)]
struct Fields {
    header_size: u32,
    flags: u32,
    height: u32,
    width: u32,
    depth: u32,
    levels: u32,
    pixel_flags: u32,
    code: u32,
    bits: u32,
    caps2: u32,
    dxgi: u32,
    dimension: u32,
    misc: u32,
    array_size: u32,
}

const BLANK: Fields = Fields {
    header_size: 124,
    flags: 0,
    height: 64,
    width: 256,
    depth: 0,
    levels: 9,
    pixel_flags: 0x4,
    // DXT1
    code: 0x3154_5844,
    bits: 0,
    caps2: 0,
    dxgi: 0,
    dimension: 0,
    misc: 0,
    array_size: 0,
};

/// The code is DX10.
const EXTENDED: Fields = Fields {
    code: 0x3031_5844,
    dimension: 3,
    array_size: 1,
    ..BLANK
};

const RGB: Fields = Fields {
    height: 256,
    pixel_flags: 0x40,
    bits: 24,
    ..BLANK
};

const VOLUME: Fields = Fields {
    flags: 0x80_0000,
    height: 64,
    width: 64,
    depth: 4,
    levels: 7,
    caps2: 0x20_0000,
    ..RGB
};

const CUBE: Fields = Fields {
    height: 256,
    dxgi: 95,
    misc: 0x4,
    ..EXTENDED
};

const ARRAY: Fields = Fields {
    height: 128,
    width: 128,
    levels: 8,
    dxgi: 61,
    array_size: 12,
    ..EXTENDED
};

impl Fields {
    fn sample(&self, length: u64) -> Sample {
        let words = [
            (0, 0x2053_4444),
            (4, self.header_size),
            (8, self.flags),
            (12, self.height),
            (16, self.width),
            (24, self.depth),
            (28, self.levels),
            (76, 32),
            (80, self.pixel_flags),
            (84, self.code),
            (88, self.bits),
            (112, self.caps2),
            (128, self.dxgi),
            (132, self.dimension),
            (136, self.misc),
            (140, self.array_size),
        ];
        let mut bytes = [0; 148];
        for (place, word) in words {
            bytes[place..place + 4].copy_from_slice(&u32::to_le_bytes(word));
        }
        Sample { bytes, length }
    }
}

/// Heads that open, each with its file's length.
const OPENED: [(Fields, u64); 6] = [
    (BLANK, 11_080),
    (RGB, 262_271),
    (
        Fields {
            dxgi: 77,
            ..EXTENDED
        },
        22_052,
    ),
    (VOLUME, 56_447),
    (CUBE, 524_596),
    (ARRAY, 262_288),
];

/// Heads that are refused, with 9 8 7 5 6 3 4 1.
const REFUSED: [(Fields, u64); 8] = [
    (BLANK, 11_081),
    (
        Fields {
            height: 4,
            width: 4,
            levels: 4,
            ..BLANK
        },
        200,
    ),
    (
        Fields {
            width: 16_385,
            ..BLANK
        },
        11_080,
    ),
    (
        Fields {
            code: 0x3149_5441,
            ..BLANK
        },
        11_080,
    ),
    (
        Fields {
            height: 128,
            ..CUBE
        },
        524_596,
    ),
    (
        Fields {
            header_size: 123,
            ..BLANK
        },
        11_080,
    ),
    (CUBE, 140),
    (BLANK, 100),
];

pub fn handful() -> Vec<Sample> {
    OPENED
        .iter()
        .chain(&REFUSED)
        .map(|(fields, length)| fields.sample(*length))
        .collect()
}

/// An array of rows of 16,384 bytes, with so many levels of each.
pub fn array(elements: u32, levels: u32) -> Sample {
    let fields = Fields {
        height: 1,
        width: 16_384,
        levels,
        dxgi: 61,
        array_size: elements,
        ..EXTENDED
    };
    let chain: u64 = (0..levels).map(|level| 16_384u64 >> level).sum();
    fields.sample(148 + u64::from(elements) * chain)
}

/// Forty images of 8 rows of 4,096 bytes.
pub fn canvas() -> Sample {
    let fields = Fields {
        height: 8,
        width: 4_096,
        levels: 1,
        dxgi: 61,
        array_size: 40,
        ..EXTENDED
    };
    fields.sample(148 + 40 * 8 * 4_096)
}

/// How long a stroke is, how many there are, and after how many a loan is handed in; 0 is never.
#[derive(Clone, Copy)]
pub struct Plan {
    pub length: u32,
    pub strokes: u32,
    pub every: u32,
}

/// A list of calls, and what it needs to go on. Each of 32 borrowers has one loan out, of the element of the borrower's number.
struct Script<'a> {
    random: Random,
    ink: &'a [u8],
    length: u32,
    granted: u32,
    numbers: [u32; 32],
    calls: Vec<Call<'a>>,
}

impl<'a> Script<'a> {
    fn ask_for(&mut self, element: u32, borrower: u32) {
        let piece = Piece {
            element,
            level: 0,
            slice: 0,
        };
        self.calls.push(Call::Loan { piece, borrower });
    }

    fn lend(&mut self, borrower: u32) {
        self.granted += 1;
        self.numbers[borrower as usize] = self.granted;
        self.ask_for(borrower, borrower);
    }

    fn undo(&mut self, borrower: u32) {
        let loan = self.numbers[borrower as usize];
        self.calls.push(Call::Undo { loan, borrower });
    }

    /// All 32 loans, one more, and one of no piece.
    fn begin(&mut self) {
        for borrower in 0..32 {
            self.lend(borrower);
        }
        self.ask_for(32, 32);
        self.ask_for(40, 40);
    }

    /// One stroke in sixteen is another borrower's, and one in twenty-five lies in a ninth row, which no piece has.
    fn paint(&mut self, borrower: u32) {
        let stranger = self.random.below(16) == 0;
        let row = self.random.below(100) / 12;
        let first = self.random.below(4_097 - self.length);
        let from = self.random.below(4_096) as usize;
        self.calls.push(Call::Paint(Painting {
            loan: self.numbers[borrower as usize],
            borrower: if stranger { 99 } else { borrower },
            row,
            first,
            bytes: &self.ink[from..from + self.length as usize],
        }));
    }

    /// A stroke, and in half of the cases an undo, mostly of the same borrower.
    fn stroke(&mut self) {
        let borrower = self.random.below(32);
        self.paint(borrower);
        match self.random.below(16) {
            0..7 => self.undo(borrower),
            7 => {
                let other = self.random.below(32);
                self.undo(other);
            }
            _ => {}
        }
    }

    /// Hands a loan in, kept or cancelled in turn, and lends the piece again; each is tried once more.
    fn hand_in(&mut self, turn: u32) {
        let borrower = turn % 32;
        let loan = self.numbers[borrower as usize];
        self.calls.push(if turn % 2 == 0 {
            Call::Keep { loan }
        } else {
            Call::Cancel { loan }
        });
        self.undo(borrower);
        self.lend(borrower);
        self.ask_for(borrower, borrower);
    }

    fn go_on(&mut self, plan: Plan) {
        for stroke in 1..=plan.strokes {
            self.stroke();
            if plan.every != 0 && stroke % plan.every == 0 {
                self.hand_in(stroke / plan.every);
            }
        }
    }
}

/// The calls of a plan. The ink has 8,192 bytes.
pub fn calls(plan: Plan, ink: &[u8]) -> Vec<Call<'_>> {
    let mut script = Script {
        random: Random::new(),
        ink,
        length: plan.length,
        granted: 0,
        numbers: [0; 32],
        calls: Vec::new(),
    };
    script.begin();
    script.go_on(plan);
    script.calls
}

#[cfg(test)]
mod tests {
    use super::*;
    use crate::layout::Layout;

    #[test]
    fn the_handful_opens_or_is_refused_as_it_says() {
        let refusals: Vec<u32> = handful()
            .iter()
            .map(|sample| Layout::read(sample.head()).map_or_else(|no| no.number(), |_| 0))
            .collect();
        assert_eq!(refusals, [0, 0, 0, 0, 0, 0, 9, 8, 7, 5, 6, 3, 4, 1]);
    }

    #[test]
    fn the_volume_has_eleven_pieces() {
        let layout = Layout::read(VOLUME.sample(56_447).head()).unwrap();
        assert_eq!(layout.piece_count(), 11);
    }

    #[test]
    fn bytes_of_a_chain_are_told_by_level_and_offset() {
        let layout = Layout::read(BLANK.sample(11_080).head()).unwrap();
        let owner = |place| {
            layout
                .whose(place)
                .map(|found| found.map(|(piece, at)| (piece.level, at)))
        };
        assert_eq!(owner(11_063), Ok(Some((6, 7))));
        assert_eq!(owner(11_064), Ok(Some((7, 0))));
        assert_eq!(owner(127), Ok(None));
        assert_eq!(owner(11_080).unwrap_err().number(), 11);
    }
}
