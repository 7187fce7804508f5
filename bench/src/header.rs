//! The DDS header: its fields, its format and its shape.

use crate::format::Format;
use crate::refusal::Refusal;

/// A file's first 148 bytes, or all of a shorter one, and the file's length.
#[derive(Clone, Copy)]
pub struct FileHead<'a> {
    pub bytes: &'a [u8],
    pub length: u64,
}

impl<'a> FileHead<'a> {
    pub fn of(file: &'a [u8]) -> FileHead<'a> {
        FileHead {
            bytes: &file[..file.len().min(148)],
            length: file.len() as u64,
        }
    }

    /// The number at a place; bytes past the end count as 0.
    fn word(&self, place: usize) -> u32 {
        let byte = |at| self.bytes.get(at).copied().unwrap_or(0);
        u32::from_le_bytes([
            byte(place),
            byte(place + 1),
            byte(place + 2),
            byte(place + 3),
        ])
    }
}

pub struct Header {
    flags: u32,
    height: u32,
    width: u32,
    depth: u32,
    level_count: u32,
    pixel_flags: u32,
    code: u32,
    bit_count: u32,
    caps2: u32,
    dxgi_code: u32,
    dimension: u32,
    misc: u32,
    array_size: u32,
}

#[derive(Clone, Copy, PartialEq, Eq, Debug)]
pub enum Shape {
    Flat { elements: u64 },
    Volume { depth: u32 },
}

impl Shape {
    /// How many elements a shape in range has.
    pub fn elements(self) -> u32 {
        match self {
            Shape::Flat { elements } => elements as u32,
            Shape::Volume { .. } => 1,
        }
    }
}

const LONGEST: u64 = 1 << 30;
const DX10: u32 = u32::from_le_bytes(*b"DX10");
const FOURCC: u32 = 0x4;
const DEPTH_FLAG: u32 = 0x80_0000;
const CUBE: u32 = 0x200;
const FACES: u32 = 0xfc00;
const VOLUME: u32 = 0x20_0000;
const CUBE_MISC: u32 = 0x4;

impl Header {
    pub fn read(head: FileHead<'_>) -> Result<Header, Refusal> {
        if head.length < 128 || head.length > LONGEST {
            return Err(Refusal::WrongLength);
        }
        if !head.bytes.starts_with(b"DDS ") {
            return Err(Refusal::WrongMagic);
        }
        if head.word(4) != 124 || head.word(76) != 32 {
            return Err(Refusal::WrongHeaderSize);
        }
        let header = Header {
            flags: head.word(8),
            height: head.word(12),
            width: head.word(16),
            depth: head.word(24),
            level_count: head.word(28),
            pixel_flags: head.word(80),
            code: head.word(84),
            bit_count: head.word(88),
            caps2: head.word(112),
            dxgi_code: head.word(128),
            dimension: head.word(132),
            misc: head.word(136),
            array_size: head.word(140),
        };
        if header.is_extended() && head.length < 148 {
            return Err(Refusal::ShortExtendedHeader);
        }
        Ok(header)
    }

    fn is_extended(&self) -> bool {
        self.pixel_flags & FOURCC != 0 && self.code == DX10
    }

    pub fn pixel_begin(&self) -> u64 {
        if self.is_extended() { 148 } else { 128 }
    }

    pub fn format(&self) -> Result<Format, Refusal> {
        let format = if self.is_extended() {
            Format::of_dxgi(self.dxgi_code)
        } else if self.pixel_flags & FOURCC != 0 {
            Format::of_code(self.code)
        } else {
            Format::of_bits(self.pixel_flags, self.bit_count)
        };
        format.ok_or(Refusal::UnknownFormat)
    }

    /// The sides of the largest level; the depth is 1 but in a volume.
    pub fn sides(&self, shape: Shape) -> [u32; 3] {
        let depth = match shape {
            Shape::Flat { .. } => 1,
            Shape::Volume { depth } => depth,
        };
        [self.width, self.height, depth]
    }

    /// The shape, its sides and elements in range.
    pub fn shape(&self) -> Result<Shape, Refusal> {
        let shape = if self.is_extended() {
            self.extended_shape()
        } else {
            self.plain_shape()
        };
        let shape = shape.ok_or(Refusal::NoShape)?;
        let (most, elements) = match shape {
            Shape::Flat { elements } => (16_384, elements),
            Shape::Volume { .. } => (2_048, 1),
        };
        let sides_fit = self
            .sides(shape)
            .iter()
            .all(|side| (1..=most).contains(side));
        if sides_fit && (1..=2_048).contains(&elements) {
            Ok(shape)
        } else {
            Err(Refusal::OutOfRange)
        }
    }

    fn plain_shape(&self) -> Option<Shape> {
        match (self.caps2 & CUBE != 0, self.caps2 & VOLUME != 0) {
            (false, false) => Some(Shape::Flat { elements: 1 }),
            (true, false) if self.caps2 & FACES == FACES => self.cubes(1),
            (false, true) => self.volume(),
            _ => None,
        }
    }

    fn extended_shape(&self) -> Option<Shape> {
        let elements = u64::from(self.array_size);
        match (self.dimension, self.misc & CUBE_MISC != 0) {
            (2, false) if self.height == 1 => Some(Shape::Flat { elements }),
            (3, false) => Some(Shape::Flat { elements }),
            (3, true) => self.cubes(elements),
            (4, false) if self.array_size == 1 => self.volume(),
            _ => None,
        }
    }

    fn cubes(&self, count: u64) -> Option<Shape> {
        (self.width == self.height).then_some(Shape::Flat {
            elements: 6 * count,
        })
    }

    fn volume(&self) -> Option<Shape> {
        (self.flags & DEPTH_FLAG != 0).then_some(Shape::Volume { depth: self.depth })
    }

    /// How many levels there are, up to the longest chain.
    pub fn levels(&self, shape: Shape) -> Result<u32, Refusal> {
        let largest = self.sides(shape).into_iter().max().unwrap_or(1);
        let count = self.level_count.max(1);
        if count > largest.ilog2() + 1 {
            return Err(Refusal::TooManyLevels);
        }
        Ok(count)
    }
}
