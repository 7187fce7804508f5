#!/usr/bin/env python3
"""Writes crates/formats/src/expected.rt, the values that the tests of the crate formats expect.

They are computed here from first principles, and not by the rules' formulas:
  - an image's row bytes and rows by counting: bits one pixel after the other, pairs and blocks by the set of those that some
    pixel of a row or a column lies in;
  - a DXGI code's format from the name that Microsoft's DXGI_FORMAT enumeration gives the code: the bits of its channels, BC1
    and BC4 as blocks of 8 bytes, the other BC formats as blocks of 16, two pixels in one name as a pair. The name itself is expected
    where the code has a format.
"""
import pathlib
import re

SIDES = [0, 1, 2, 3, 4, 5, 255, 256, 257, 16383, 16384, 16385]

# Microsoft's enumeration in order, from code 0 on; the suffixes of a line share its channels.
ENUMERATION = """
UNKNOWN
R32G32B32A32: TYPELESS FLOAT UINT SINT
R32G32B32: TYPELESS FLOAT UINT SINT
R16G16B16A16: TYPELESS FLOAT UNORM UINT SNORM SINT
R32G32: TYPELESS FLOAT UINT SINT
R32G8X24_TYPELESS
D32_FLOAT_S8X24_UINT
R32_FLOAT_X8X24_TYPELESS
X32_TYPELESS_G8X24_UINT
R10G10B10A2: TYPELESS UNORM UINT
R11G11B10_FLOAT
R8G8B8A8: TYPELESS UNORM UNORM_SRGB UINT SNORM SINT
R16G16: TYPELESS FLOAT UNORM UINT SNORM SINT
R32_TYPELESS
D32_FLOAT
R32_FLOAT
R32_UINT
R32_SINT
R24G8_TYPELESS
D24_UNORM_S8_UINT
R24_UNORM_X8_TYPELESS
X24_TYPELESS_G8_UINT
R8G8: TYPELESS UNORM UINT SNORM SINT
R16_TYPELESS
R16_FLOAT
D16_UNORM
R16_UNORM
R16_UINT
R16_SNORM
R16_SINT
R8: TYPELESS UNORM UINT SNORM SINT
A8_UNORM
R1_UNORM
R9G9B9E5_SHAREDEXP
R8G8_B8G8_UNORM
G8R8_G8B8_UNORM
BC1: TYPELESS UNORM UNORM_SRGB
BC2: TYPELESS UNORM UNORM_SRGB
BC3: TYPELESS UNORM UNORM_SRGB
BC4: TYPELESS UNORM SNORM
BC5: TYPELESS UNORM SNORM
B5G6R5_UNORM
B5G5R5A1_UNORM
B8G8R8A8_UNORM
B8G8R8X8_UNORM
R10G10B10_XR_BIAS_A2_UNORM
B8G8R8A8: TYPELESS UNORM_SRGB
B8G8R8X8: TYPELESS UNORM_SRGB
BC6H: TYPELESS UF16 SF16
BC7: TYPELESS UNORM UNORM_SRGB
AYUV Y410 Y416 NV12 P010 P016 420_OPAQUE YUY2 Y210 Y216 NV11 AI44 IA44 P8 A8P8
B4G4R4A4_UNORM
"""
# The video formats and the palettes are no formats of ours.
FOREIGN = set('UNKNOWN AYUV Y410 Y416 NV12 P010 P016 420_OPAQUE YUY2 Y210 Y216 NV11 AI44 IA44 P8 A8P8'.split())

# The other codes, by Microsoft's guide: letters, or a number of the older D3DFORMAT enumeration with its channels.
PLAIN = {
    'DXT1': 'BC1', 'DXT2': 'BC2', 'DXT3': 'BC2', 'DXT4': 'BC3', 'DXT5': 'BC3', 'BC4U': 'BC4', 'BC4S': 'BC4', 'ATI2': 'BC5',
    'BC5S': 'BC5', 'RGBG': 'R8G8_B8G8', 'GRGB': 'G8R8_G8B8', 'UYVY': 'R8G8_B8G8', 'YUY2': 'G8R8_G8B8',
    36: 'A16B16G16R16', 110: 'Q16W16V16U16', 111: 'R16F', 112: 'G16R16F', 113: 'A16B16G16R16F', 114: 'R32F', 115: 'G32R32F',
    116: 'A32B32G32R32F', 117: 'V8U8',
}
# Codes that look like one and are none: another case, Microsoft's misprint, a format of one channel, letters backwards,
# neighbours, DXGI numbers, the largest number.
NEAR = ['dxt1', 'DXt1', 'AT12', 'ATI1', 'DX10', '1TXD', 'DXT0', 'DXT6', 'BC4V', 'BC5U', 'BC6H', 'RGBA', 'YUYV', 0, 1, 28, 35, 37,
        70, 71, 77, 98, 109, 118, 4294967295]


def names():
    out = []
    for line in ENUMERATION.split('\n'):
        if ':' in line:
            channels, suffixes = line.split(':')
            out += [f'{channels}_{s}' for s in suffixes.split()]
        else:
            out += line.split()
    assert len(out) == 116 and out[115] == 'B4G4R4A4_UNORM' and out[95] == 'BC6H_UF16' and out[71] == 'BC1_UNORM'
    return out


def format_of(name):
    if name in FOREIGN:
        return None
    if name.startswith(('BC1', 'BC4')):
        return 'Block(8)'
    if name.startswith('BC'):
        return 'Block(16)'
    if name.startswith(('R8G8_B8G8', 'G8R8_G8B8')):
        return 'Paired'
    channels = re.findall(r'[RGBADXSEQWVU](\d+)', name)
    return f'Linear({sum(map(int, channels))})'


def size_of(name):
    return int(re.search(r'\d+', name).group())


def row_bytes(name, width):
    if name == 'Paired':
        return 4 * len({x // 2 for x in range(width)})
    if name.startswith('Block'):
        return size_of(name) * len({x // 4 for x in range(width)})
    bits = size_of(name)
    return len({bit // 8 for x in range(width) for bit in range(x * bits, (x + 1) * bits)})


def rows(name, height):
    return len({y // 4 for y in range(height)}) if name.startswith('Block') else height


def number(code):
    return code if isinstance(code, int) else int.from_bytes(code.encode(), 'little')


def option(name):
    return 'None' if name is None else f'Some(FormatName::{name})'


formats = [f'Linear({b})' for b in [1] + list(range(8, 129, 8))] + ['Paired', 'Block(8)', 'Block(16)']
inside = [1 <= s <= 16384 for s in SIDES]
out = [
    '// Written by tools/expected_formats.py, which says how the values were computed.',
    'use crate::format_name::FormatName;',
    '',
    '/// What images take in one format: the bytes of a row at each width of SIDES, and the rows at each height.',
    'pub struct Sizes {',
    '    /// the format',
    '    pub name: FormatName,',
    '    /// bytes of a row, by width',
    f'    pub row_bytes: [u32; {len(SIDES)}],',
    '    /// rows, by height',
    f'    pub rows: [u32; {len(SIDES)}],',
    '}',
    '',
    '/// Widths and heights, in pixels.',
    f'pub const SIDES: [u32; {len(SIDES)}] = {SIDES};',
    '',
    '/// What images of these sides take, format by format.',
    f'pub const SIZES: [Sizes; {len(formats)}] = [',
]
for name in formats:
    out.append(f'    Sizes {{ name: FormatName::{name}, row_bytes: {[row_bytes(name, s) if ok else 0 for s, ok in zip(SIDES, inside)]}, '
               f'rows: {[rows(name, s) if ok else 0 for s, ok in zip(SIDES, inside)]} }},')
every = [format_of(n) for n in names()]
every += [None] * (131 - len(every))
out += ['];', '', '/// The format of each DXGI code from 0 to 130.', 'pub const DXGI: [Option<FormatName>; 131] = [']
out += [f'    {option(f)},' for f in every]
out += ['];', '', '/// The name of each DXGI code from 0 to 130 that has a format.', 'pub const DXGI_NAMES: [Option<&str>; 131] = [']
named = [n if format_of(n) else None for n in names()]
named += [None] * (131 - len(named))
out += [f'    Some("{n}"),' if n else '    None,' for n in named]
plain = [(number(c), format_of(n)) for c, n in PLAIN.items()] + [(number(c), None) for c in NEAR]
out += ['];', '', '/// Codes of a plain header with their formats, and near misses.', f'pub const PLAIN: [(u32, Option<FormatName>); {len(plain)}] = [']
out += [f'    ({c}, {option(f)}),' for c, f in plain]
out += ['];', '']
path = pathlib.Path(__file__).resolve().parent.parent / 'crates/formats/src/expected.rt'
path.write_text('\n'.join(out))
