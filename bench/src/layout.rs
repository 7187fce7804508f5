//! Where the pieces of an accepted file stand.

use crate::format::Format;
use crate::header::{FileHead, Header};
use crate::refusal::Refusal;

#[derive(Clone, Copy, PartialEq, Eq, Debug)]
pub struct Piece {
    pub element: u32,
    pub level: u32,
    pub slice: u32,
}

#[derive(Clone, Copy, PartialEq, Eq, Debug)]
pub struct Area {
    pub place: u64,
    pub length: u64,
    pub row_bytes: u32,
    pub rows: u32,
}

struct Level {
    /// Where the level begins in its element.
    begin: u64,
    slices: u32,
    row_bytes: u32,
    rows: u32,
}

impl Level {
    fn piece_length(&self) -> u64 {
        u64::from(self.row_bytes) * u64::from(self.rows)
    }

    fn end(&self) -> u64 {
        self.begin + u64::from(self.slices) * self.piece_length()
    }
}

pub struct Layout {
    levels: Vec<Level>,
    elements: u32,
    /// The bytes of an element.
    stride: u64,
    pixel_begin: u64,
    length: u64,
}

/// The levels of an element, one behind the other.
fn chain_of([width, height, depth]: [u32; 3], count: u32, format: Format) -> Vec<Level> {
    let mut levels = Vec::with_capacity(count as usize);
    let mut begin = 0;
    for number in 0..count {
        let at = |side: u32| (side >> number).max(1);
        let (row_bytes, rows) = format.extent(at(width), at(height));
        let level = Level {
            begin,
            slices: at(depth),
            row_bytes,
            rows,
        };
        begin = level.end();
        levels.push(level);
    }
    levels
}

impl Layout {
    pub fn read(head: FileHead<'_>) -> Result<Layout, Refusal> {
        let header = Header::read(head)?;
        let format = header.format()?;
        Layout::of(&header, head.length, format)
    }

    /// The layout by a format that is handed in.
    pub fn read_with(head: FileHead<'_>, format: Format) -> Result<Layout, Refusal> {
        Layout::of(&Header::read(head)?, head.length, format)
    }

    fn of(header: &Header, length: u64, format: Format) -> Result<Layout, Refusal> {
        let shape = header.shape()?;
        let count = header.levels(shape)?;
        let levels = chain_of(header.sides(shape), count, format);
        let stride = levels.last().map_or(0, Level::end);
        let elements = shape.elements();
        let pixel_begin = header.pixel_begin();
        if pixel_begin + u64::from(elements) * stride != length {
            return Err(Refusal::WrongEnd);
        }
        Ok(Layout {
            levels,
            elements,
            stride,
            pixel_begin,
            length,
        })
    }

    pub fn length(&self) -> u64 {
        self.length
    }

    pub fn piece_count(&self) -> u64 {
        let slices: u64 = self
            .levels
            .iter()
            .map(|level| u64::from(level.slices))
            .sum();
        u64::from(self.elements) * slices
    }

    pub fn place_of(&self, piece: Piece) -> Result<Area, Refusal> {
        let level = self
            .levels
            .get(piece.level as usize)
            .filter(|level| piece.element < self.elements && piece.slice < level.slices)
            .ok_or(Refusal::NoSuchPiece)?;
        let length = level.piece_length();
        let element = self.pixel_begin + u64::from(piece.element) * self.stride;
        Ok(Area {
            place: element + level.begin + u64::from(piece.slice) * length,
            length,
            row_bytes: level.row_bytes,
            rows: level.rows,
        })
    }

    /// The piece that has the byte at a place, and the byte's offset in it; none for a header byte.
    pub fn whose(&self, place: u64) -> Result<Option<(Piece, u32)>, Refusal> {
        if place >= self.length {
            return Err(Refusal::PastFileEnd);
        }
        let Some(inner) = place.checked_sub(self.pixel_begin) else {
            return Ok(None);
        };
        let offset = inner % self.stride;
        let number = self.levels.partition_point(|level| level.begin <= offset) - 1;
        let level = &self.levels[number];
        let rest = offset - level.begin;
        let piece = Piece {
            element: (inner / self.stride) as u32,
            level: number as u32,
            slice: (rest / level.piece_length()) as u32,
        };
        Ok(Some((piece, (rest % level.piece_length()) as u32)))
    }
}
