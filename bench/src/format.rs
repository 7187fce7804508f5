//! Pixel formats: what an image takes in the file, and which format a code names.

#[derive(Clone, Copy, PartialEq, Eq, Debug)]
pub enum Format {
    /// Pixels of so many bits, one after the other.
    Linear(u32),
    /// Two pixels share four bytes.
    Paired,
    /// Blocks of four by four pixels, each of so many bytes.
    Block(u32),
}

impl Format {
    /// The bytes of a row and the count of rows.
    pub fn extent(self, width: u32, height: u32) -> (u32, u32) {
        match self {
            Format::Linear(bits) => ((width * bits).div_ceil(8), height),
            Format::Paired => (width.div_ceil(2) * 4, height),
            Format::Block(bytes) => (width.div_ceil(4) * bytes, height.div_ceil(4)),
        }
    }

    pub fn of_dxgi(code: u32) -> Option<Format> {
        Some(match code {
            1..=4 => Format::Linear(128),
            5..=8 => Format::Linear(96),
            9..=22 => Format::Linear(64),
            23..=47 | 67 | 87..=93 => Format::Linear(32),
            48..=59 | 85 | 86 | 115 => Format::Linear(16),
            60..=65 => Format::Linear(8),
            66 => Format::Linear(1),
            68 | 69 => Format::Paired,
            70..=72 | 79..=81 => Format::Block(8),
            73..=78 | 82..=84 | 94..=99 => Format::Block(16),
            _ => return None,
        })
    }

    /// The code of a header that is not extended: four letters, or a number.
    pub fn of_code(code: u32) -> Option<Format> {
        Some(match &code.to_le_bytes() {
            b"DXT1" | b"BC4U" | b"BC4S" => Format::Block(8),
            b"DXT2" | b"DXT3" | b"DXT4" | b"DXT5" | b"ATI2" | b"BC5S" => Format::Block(16),
            b"RGBG" | b"GRGB" | b"UYVY" | b"YUY2" => Format::Paired,
            _ => match code {
                36 | 110 | 113 | 115 => Format::Linear(64),
                112 | 114 => Format::Linear(32),
                111 | 117 => Format::Linear(16),
                116 => Format::Linear(128),
                _ => return None,
            },
        })
    }

    /// Pixels without a code: the flags alpha, colour, luma and chroma, or luminance, and a bit count.
    pub fn of_bits(flags: u32, bits: u32) -> Option<Format> {
        let announced = flags & (0x2 | 0x40 | 0x200 | 0x2_0000) != 0;
        (announced && matches!(bits, 8 | 16 | 24 | 32)).then_some(Format::Linear(bits))
    }
}
