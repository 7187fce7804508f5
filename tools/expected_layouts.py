#!/usr/bin/env python3
"""Writes crates/dds_tests/src/expected.rt, the values that the tests of the crate dds expect.

They are computed here from first principles, and not by the library's formulas:
  - an image's row bytes and rows by counting: bits one pixel after the other, pairs and blocks by the set of those that some
    pixel of a row or a column lies in;
  - a file's pieces by walking: element after element, level after level, slice after slice, each piece where the one before
    it ended; a file's length is where the last one ends;
  - the number of each header's refusal is written down by hand, next to what is wrong with it.
Run rt fmt afterwards.
"""
import functools
import pathlib

# places of the header's fields
MAGIC, SIZE, FLAGS, HEIGHT, WIDTH, DEPTH, LEVELS = 0, 4, 8, 12, 16, 24, 28
PIXEL_SIZE, PIXEL_FLAGS, CODE, BITS, CAPS2 = 76, 80, 84, 88, 112
DXGI, DIMENSION, MISC, ARRAY = 128, 132, 136, 140
FOURCC, RGB, LUMINANCE = 0x4, 0x40, 0x20000
LONGEST = 1073741824
MOST = 0xffffffff


def letters(text):
    return int.from_bytes(text.encode(), 'little')


@functools.lru_cache(None)
def row_bytes(name, width):
    kind, size = name
    if kind == 'Paired':
        return 4 * len({x // 2 for x in range(width)})
    if kind == 'Block':
        return size * len({x // 4 for x in range(width)})
    if size % 8 == 0:
        return sum(size // 8 for x in range(width))
    return len({bit // 8 for x in range(width) for bit in range(x * size, (x + 1) * size)})


@functools.lru_cache(None)
def rows(name, height):
    return len({y // 4 for y in range(height)}) if name[0] == 'Block' else height


class Base:
    def __init__(self, name, kind, elements, fields):
        self.name, self.kind, self.elements, self.fields = name, kind, elements, fields


COMMON = {MAGIC: letters('DDS '), SIZE: 124, FLAGS: 0x1007, LEVELS: 1, PIXEL_SIZE: 32}
PLAIN = {PIXEL_FLAGS: RGB, BITS: 24, DXGI: 0x04030201, DIMENSION: 0x08070605, MISC: 0x0c0b0a09, ARRAY: 0x100f0e0d}
EXTENDED = {PIXEL_FLAGS: FOURCC, CODE: letters('DX10')}
BASES = {
    'flat': Base(('Linear', 24), 'flat', 1, {**PLAIN, WIDTH: 6, HEIGHT: 5}),
    'cube': Base(('Block', 8), 'cube', 6,
                 {**PLAIN, PIXEL_FLAGS: FOURCC, CODE: letters('DXT1'), WIDTH: 4, HEIGHT: 4, LEVELS: 3, CAPS2: 0xfe00}),
    'volume': Base(('Linear', 24), 'volume', 1, {**PLAIN, FLAGS: 0x801007, WIDTH: 5, HEIGHT: 3, DEPTH: 6, LEVELS: 3, CAPS2: 0x200000}),
    'xline': Base(('Linear', 8), 'flat', None, {**EXTENDED, WIDTH: 7, HEIGHT: 1, LEVELS: 3, DXGI: 61, DIMENSION: 2, ARRAY: 3}),
    'xflat': Base(('Linear', 32), 'flat', None, {**EXTENDED, WIDTH: 5, HEIGHT: 3, LEVELS: 2, DXGI: 28, DIMENSION: 3, ARRAY: 3}),
    'xcube': Base(('Block', 16), 'xcube', None, {**EXTENDED, WIDTH: 6, HEIGHT: 6, LEVELS: 3, DXGI: 77, DIMENSION: 3, MISC: 4, ARRAY: 2}),
    'xvolume': Base(('Block', 8), 'volume', 1,
                    {**EXTENDED, FLAGS: 0x801007, WIDTH: 5, HEIGHT: 6, DEPTH: 5, LEVELS: 3, DXGI: 71, DIMENSION: 4, ARRAY: 1}),
}
for base in BASES.values():
    base.fields = {**COMMON, **base.fields}


def pieces(base, changes, name):
    """All pieces in the order of the file: number, (element, level, slice), place, length, and of its level the width, the height,
    the slices, the row bytes, the rows and the place of its first byte in its element."""
    fields = {**base.fields, **changes}
    extended = fields[PIXEL_FLAGS] & FOURCC and fields.get(CODE, 0) == letters('DX10')
    elements = base.elements if not extended or base.kind == 'volume' else fields[ARRAY]
    if base.kind == 'xcube':
        elements = sum(6 for cube in range(fields[ARRAY]))
    place = 148 if extended else 128
    out = []
    for element in range(elements):
        first = place
        width, height, depth = fields[WIDTH], fields[HEIGHT], fields[DEPTH] if base.kind == 'volume' else 1
        for level in range(fields[LEVELS] if fields[LEVELS] else 1):
            row, count = row_bytes(name, width), rows(name, height)
            length = sum(row for y in range(count))
            begin = place - first
            for slice in range(depth):
                out.append((len(out), (element, level, slice), place, length, (width, height, depth, row, count, begin)))
                place += length
            width, height, depth = [side // 2 if side > 1 else 1 for side in (width, height, depth)]
    return out


def length_of(base, changes, name):
    last = pieces(base, changes, name)[-1]
    return last[2] + last[3]


# cases in groups: the proof of a test grows with its table
GROUPS = {}
CASES = []


def group(name):
    global CASES
    CASES = GROUPS.setdefault(name, [])


def case(what, base, changes, number, length=None, handed=None, name=None, more=0):
    """A header and its refusal's number, 0 where it is accepted; `handed`: the number where the family is handed in."""
    b = BASES[base]
    if length is None:
        length = length_of(b, changes if number == 0 else {}, name or b.name) + more
    CASES.append((what, base, changes, length, name or b.name, number, number if handed is None else handed))


names = list(BASES)

# 1: the length
group('HEADERS_AND_FORMATS')
case('no bytes', 'flat', {}, 1, 0)
case('one byte short of a header', 'flat', {}, 1, 127)
case('a header and nothing else', 'flat', {}, 9, 128)
case('the longest file', 'flat', {BITS: 32, WIDTH: 14015, HEIGHT: 14422, LEVELS: 4}, 0, name=('Linear', 32))
assert CASES[-1][3] == LONGEST
case('a longest file that ends elsewhere', 'flat', {}, 9, LONGEST)
case('one byte longer than the longest', 'flat', {}, 1, LONGEST + 1)
case('the largest length', 'flat', {}, 1, 2**64 - 1)

# 2: the first four bytes
for i in range(4):
    case(f'wrong byte {i}', 'flat', {MAGIC: letters('DDS ') ^ (1 << 8 * i)}, 2)

# 3: the sizes
for size in [0, 123, 125, 124 + 65536]:
    case(f'header size {size}', 'flat', {SIZE: size}, 3)
for size in [0, 31, 33, 32 + 65536]:
    case(f'pixel format size {size}', 'flat', {PIXEL_SIZE: size}, 3)

# 4: the extended header
case('extended in 128 bytes', 'xflat', {}, 4, 128)
case('extended in 147 bytes', 'xflat', {}, 4, 147)
case('extended in 148 bytes', 'xflat', {}, 9, 148)
case('DX10 without its pixel flag extends nothing', 'flat', {CODE: letters('DX10'), HEIGHT: 1}, 0)
assert CASES[-1][3] == 146

# 5: the format
for code in ['dxt1', 'AT12', 'ATI1', 'DX11']:
    case(f'code {code}', 'flat', {PIXEL_FLAGS: FOURCC, CODE: letters(code)}, 5, handed=0)
for code in [0, 71, 118, MOST]:
    case(f'code {code}', 'flat', {PIXEL_FLAGS: FOURCC, CODE: code}, 5, handed=0)
for bits in [0, 12, 33]:
    case(f'bit count {bits}', 'flat', {BITS: bits}, 5, handed=0)
case('no pixel flag', 'flat', {PIXEL_FLAGS: 0}, 5, handed=0)
case('a pixel flag that tells nothing', 'flat', {PIXEL_FLAGS: 0x20}, 5, handed=0)
case('flag and code decide, whatever else is set', 'flat', {PIXEL_FLAGS: FOURCC | RGB}, 5, handed=0)
for code in [0, 100, 114, 116, MOST]:
    case(f'DXGI code {code}', 'xflat', {DXGI: code}, 5, handed=0)
case('36 as a code', 'flat', {PIXEL_FLAGS: FOURCC, CODE: 36}, 0, name=('Linear', 64))
case('36 as a DXGI code', 'xflat', {DXGI: 36}, 0)
case('115 as a code', 'flat', {PIXEL_FLAGS: FOURCC, CODE: 115}, 0, name=('Linear', 64))
case('115 as a DXGI code', 'xflat', {DXGI: 115}, 0, name=('Linear', 16))

# 6: the shape
group('SHAPES_AND_SIDES')
case('cube and volume together', 'cube', {CAPS2: 0x20fe00, FLAGS: 0x801007, DEPTH: 1}, 6)
for bit in range(10, 16):
    case(f'cube without face bit {bit}', 'cube', {CAPS2: 0xfe00 & ~(1 << bit)}, 6)
case('face bits alone are a flat array', 'flat', {CAPS2: 0xfc00}, 0)
for dimension in [0, 1, 5, MOST]:
    case(f'dimension {dimension}', 'xflat', {DIMENSION: dimension}, 6)
case('a line of cubes', 'xline', {MISC: 4, WIDTH: 1, LEVELS: 1}, 6)
case('a volume of cubes', 'xvolume', {MISC: 4, WIDTH: 6}, 6)
for height in [0, 2]:
    case(f'a line of height {height}', 'xline', {HEIGHT: height}, 6)
for count in [0, 2]:
    case(f'a volume of array size {count}', 'xvolume', {ARRAY: count}, 6)
case('a cube of unequal sides', 'cube', {WIDTH: 5}, 6)
case('an extended cube of unequal sides', 'xcube', {HEIGHT: 5}, 6)
case('a volume without its flag', 'volume', {FLAGS: 0xff7fffff}, 6)
case('an extended volume without its flag', 'xvolume', {FLAGS: 0xff7fffff}, 6)
case('caps2 does not count in an extended header', 'xflat', {CAPS2: 0x200200}, 0)
case('other misc bits do not count', 'xflat', {MISC: 0xfffffffb}, 0)
case('extended fields do not count in a plain header', 'flat', {DIMENSION: 9, MISC: 4, ARRAY: 0, DXGI: 0}, 0)

# 7: the range
for place, what in [(WIDTH, 'width'), (HEIGHT, 'height')]:
    other = {WIDTH: 1, HEIGHT: 1}
    case(f'{what} 0', 'flat', {place: 0}, 7)
    case(f'{what} 1', 'flat', {**other, place: 1}, 0)
    case(f'{what} 16384', 'flat', {**other, place: 16384}, 0)
    case(f'{what} 16385', 'flat', {**other, place: 16385}, 7)
    case(f'{what} with all bits', 'flat', {**other, place: MOST}, 7)
    case(f'{what} 16385, extended', 'xflat', {**other, place: 16385}, 7)
case('both sides 16384', 'flat', {WIDTH: 16384, HEIGHT: 16384, BITS: 8}, 0, name=('Linear', 8))
for place, what in [(WIDTH, 'width'), (HEIGHT, 'height'), (DEPTH, 'depth')]:
    other = {WIDTH: 1, HEIGHT: 1, DEPTH: 1, LEVELS: 1}
    case(f"a volume's {what} 0", 'volume', {place: 0}, 7)
    case(f"a volume's {what} 1", 'volume', {**other, place: 1}, 0)
    for base in ['volume', 'xvolume']:
        case(f"a volume's {what} 2048", base, {**other, place: 2048}, 0)
        case(f"a volume's {what} 2049", base, {**other, place: 2049}, 7)
case('depth 0 does not count', 'flat', {DEPTH: 0}, 0)
case('depth 9999 does not count', 'xflat', {DEPTH: 9999}, 0)
for base in ['xline', 'xflat']:
    for count, number in [(0, 7), (1, 0), (2048, 0), (2049, 7), (MOST, 7)]:
        case(f'{count} elements', base, {ARRAY: count}, number)
for count, number in [(0, 7), (1, 0), (341, 0), (342, 7), (715827883, 7), (MOST, 7)]:
    case(f'{count} cubes', 'xcube', {ARRAY: count}, number)
case('a cube of 0 by 0', 'cube', {WIDTH: 0, HEIGHT: 0}, 7)

# 8: the levels
group('LEVELS_AND_ENDS')
for width, height, most in [(1, 1, 1), (5, 3, 3), (4, 4, 3), (1, 8, 4), (255, 1, 8), (16384, 1, 15)]:
    case(f'{width} by {height}, all levels', 'flat', {WIDTH: width, HEIGHT: height, LEVELS: most}, 0)
    case(f'{width} by {height}, one level more', 'flat', {WIDTH: width, HEIGHT: height, LEVELS: most + 1}, 8)
case('no levels', 'flat', {LEVELS: 0}, 0)
case('levels with all bits', 'flat', {LEVELS: MOST}, 8)
case('a volume as deep as its chain', 'volume', {WIDTH: 1, HEIGHT: 1, DEPTH: 4, LEVELS: 3}, 0)
case('a volume with a level more', 'volume', {WIDTH: 1, HEIGHT: 1, DEPTH: 4, LEVELS: 4}, 8)
case('the depth counts only in a volume', 'xflat', {WIDTH: 4, HEIGHT: 4, DEPTH: 64, LEVELS: 4}, 8)
case('a line with all levels', 'xline', {LEVELS: 3}, 0)
case('a line with a level more', 'xline', {LEVELS: 4}, 8)

# 9: the end
for base in names:
    case(f'{base} as it is', base, {}, 0)
    case(f'{base}, a byte less', base, {}, 9, more=-1)
    case(f'{base}, a byte more', base, {}, 9, more=1)
case('an element too few', 'xflat', {ARRAY: 2}, 9)
case('twelve cubes in the length of two', 'xcube', {ARRAY: 12}, 9)

# two faults at once: the earlier number
case('length and first bytes', 'flat', {MAGIC: 0}, 1, 127)
case('length and first bytes, too long', 'flat', {MAGIC: 0}, 1, LONGEST + 1)
case('first bytes and sizes', 'flat', {MAGIC: 0, SIZE: 123}, 2)
case('sizes and a short extended header', 'xflat', {PIXEL_SIZE: 31}, 3, 147)
case('a short extended header and the format', 'xflat', {DXGI: 0}, 4, 147)
case('format and shape', 'xflat', {DXGI: 0, DIMENSION: 9}, 5, handed=6)
case('shape and range', 'cube', {WIDTH: 0, HEIGHT: 5}, 6)
case('shape and range, a line', 'xline', {HEIGHT: 0}, 6)
case('range and levels', 'flat', {WIDTH: 16385, LEVELS: 16}, 7)
case('levels and end', 'flat', {WIDTH: 4, HEIGHT: 4, LEVELS: 4}, 8, more=1)
# all faults from a number on
FAULTS = [(4, {}), (5, {DXGI: 0}), (6, {DIMENSION: 9}), (7, {WIDTH: 0}), (8, {LEVELS: 99})]
for k in range(1, 10):
    changes = {place: value for number, fault in FAULTS if number >= k for place, value in fault.items()}
    changes.update({SIZE: 125} if k <= 3 else {})
    changes.update({MAGIC: MOST} if k <= 2 else {})
    case(f'every fault from {k} on', 'xflat', changes, k, 127 if k == 1 else 147 if k <= 4 else 149, handed=6 if k == 5 else None)

# accepted files
SAMPLES = [
    ('a line array of 3', 'xline', {}, None),
    ('a flat array of 3', 'xflat', {}, None),
    ('a cube', 'cube', {}, None),
    ('two cubes', 'xcube', {}, None),
    ('a volume of 5 by 3 by 6', 'volume', {}, None),
    ('a volume of blocks', 'xvolume', {}, None),
    ('odd sides', 'flat', {WIDTH: 13, HEIGHT: 7, LEVELS: 4}, None),
    ('one pixel', 'flat', {WIDTH: 1, HEIGHT: 1, PIXEL_FLAGS: LUMINANCE, BITS: 8}, ('Linear', 8)),
    ('one bit, odd width', 'xflat', {WIDTH: 13, DXGI: 66, LEVELS: 4}, ('Linear', 1)),
    ('pairs, odd width', 'flat', {WIDTH: 5, HEIGHT: 3, PIXEL_FLAGS: FOURCC, CODE: letters('RGBG'), LEVELS: 3}, ('Paired', 0)),
    ('blocks smaller than 4', 'flat', {WIDTH: 3, HEIGHT: 2, PIXEL_FLAGS: FOURCC, CODE: letters('DXT5'), LEVELS: 2}, ('Block', 16)),
    ('level count 0', 'flat', {LEVELS: 0}, None),
    ('fifteen levels', 'xflat', {WIDTH: 16384, HEIGHT: 1, DXGI: 2, LEVELS: 15, ARRAY: 2}, ('Linear', 128)),
]


def format_name(name):
    return 'FormatName::Paired' if name[0] == 'Paired' else f'FormatName::{name[0]}({name[1]})'


def entry(kind, what, base, changes):
    """Begins a line of a table: what it tries, the base head and what is changed in it."""
    changed = ', '.join(f'Change {{ place: {place}, value: {value} }}' for place, value in changes.items())
    return f'    {kind} {{ what: "{what}", base: &{base.upper()}, changes: &[{changed}], '


def table(title, kind, lines):
    return ['', f'pub const {title}: [{kind}; {len(lines)}] = [', *lines, '];']


def sides(base, changes):
    fields = {**BASES[base].fields, **changes}
    return f'width: {fields[WIDTH]}, height: {fields[HEIGHT]}, levels: {fields[LEVELS] if fields[LEVELS] else 1}'


def sextuple(level):
    return 'Level {{ width: {}, height: {}, slices: {}, row_bytes: {}, rows: {}, begin: {} }}'.format(*level)


def triple(piece):
    return 'Piece {{ element: {}, level: {}, slice: {} }}'.format(*piece)


out = [
    '// Written by tools/expected_layouts.py, which says how the values were computed.',
    'use dds::{Level, Piece};',
    'use formats::FormatName;',
    '',
    '// A word of a head that is changed: its place in the file, and what stands there.',
    'pub struct Change {',
    '    pub place: usize,',
    '    pub value: u32,',
    '}',
    '',
    "// A header, its sides and levels, and its refusal's number, 0 where it is accepted: by the format that the header names, and with",
    '// the format handed in.',
    'pub struct Case {',
    "    pub what: &'static str,",
    "    pub base: &'static [u32; 37],",
    "    pub changes: &'static [Change],",
    '    pub length: u64,',
    '    pub format: FormatName,',
    '    pub width: u32,',
    '    pub height: u32,',
    '    pub levels: u32,',
    '    pub refusal: u32,',
    '    pub handed: u32,',
    '}',
    '',
    '// A piece, with its number in the order of the file, and its level.',
    'pub struct Spot {',
    '    pub number: u64,',
    '    pub piece: Piece,',
    '    pub place: u64,',
    '    pub length: u64,',
    '    pub level: Level,',
    '}',
    '',
    '// Whose byte stands at a place: the piece, and the offset in it.',
    'pub struct Byte {',
    '    pub place: u64,',
    '    pub piece: Piece,',
    '    pub offset: u32,',
    '}',
    '',
    '// An accepted file: where its pixel data begin, how many pieces it has, and some of these and of its bytes.',
    'pub struct Sample {',
    "    pub what: &'static str,",
    "    pub base: &'static [u32; 37],",
    "    pub changes: &'static [Change],",
    '    pub length: u64,',
    '    pub format: FormatName,',
    '    pub begin: u64,',
    '    pub levels: u32,',
    '    pub pieces: u64,',
    "    pub spots: &'static [Spot],",
    "    pub bytes: &'static [Byte],",
    '}',
    '',
    '// Heads of accepted files, word by word; with an X those with an extended header.',
]
for name, base in BASES.items():
    out += [f'pub const {name.upper()}: [u32; 37] = {[base.fields.get(4 * k, 0) for k in range(37)]};', '']
out.pop()
for title, cases in GROUPS.items():
    out += table(title, 'Case', [
        entry('Case', what, base, changes)
        + f'length: {length}, format: {format_name(name)}, {sides(base, changes)}, refusal: {number}, handed: {handed} }},'
        for what, base, changes, length, name, number, handed in cases])
samples = []
for what, base, changes, name in SAMPLES:
    b = BASES[base]
    every = pieces(b, changes, name or b.name)
    places = {}
    spots = []
    for number, piece, place, length, level in (every[k] for k in sorted({0, len(every) // 2, len(every) - 1})):
        spots.append(f'Spot {{ number: {number}, piece: {triple(piece)}, place: {place}, length: {length}, level: {sextuple(level)} }}')
        places[place] = (piece, 0)
        places[place + length - 1] = (piece, length - 1)
        if number + 1 < len(every):
            places[place + length] = (every[number + 1][1], 0)
    bytes_at = [f'Byte {{ place: {place}, piece: {triple(piece)}, offset: {offset} }}' for place, (piece, offset) in sorted(places.items())]
    samples.append(entry('Sample', what, base, changes)
                   + f'length: {every[-1][2] + every[-1][3]}, format: {format_name(name or b.name)}, begin: {every[0][2]}, '
                   + f'levels: {every[-1][1][1] + 1}, pieces: {len(every)}, '
                   + f'spots: &[{", ".join(spots)}], bytes: &[{", ".join(bytes_at)}] }},')
out += table('SAMPLES', 'Sample', samples)
path = pathlib.Path(__file__).resolve().parent.parent / 'crates/dds_tests/src/expected.rt'
path.write_text('\n'.join(out + ['']))
