#!/usr/bin/env python3
"""Writes crates/samples/stdout, with the samples' names in crates/samples/args: the pieces of the files in crates/samples/data, and
whose bytes stand at some places of each.

The headers are read here, field by field, and the sizes are counted: bytes of pixels one by one, blocks and pairs by the set of those
that some pixel lies in. Each piece stands where the one before it ended, and a file that does not end with its last piece stops the
script. The sum of a piece's bytes is taken from the file. None of the project's code is used.
"""
import pathlib
import struct

CRATE = pathlib.Path(__file__).resolve().parent.parent / 'crates/samples'
ALPHA_BESIDES, FOURCC, RGB, LUMINANCE = 0x1, 0x4, 0x40, 0x20000
CUBE, ALL_FACES, VOLUME, DEPTH = 0x200, 0xfc00, 0x200000, 0x800000
BLOCK_BYTES = {b'DXT1': 8, b'DXT3': 16, b'DXT5': 16}
# DXGI codes of samples: the name in Microsoft's enumeration, and what two pixels beside one another take
DXGI = {54: ('R16_FLOAT', (1, 2)), 69: ('G8R8_G8B8_UNORM', (2, 4))}
KINDS = {RGB: 'RGB', RGB | ALPHA_BESIDES: 'RGBA', LUMINANCE: 'luminance', LUMINANCE | ALPHA_BESIDES: 'luminance with alpha'}
COLUMNS = 'element level slice width height place length row-bytes rows'.split()
# The largest number of each column, by the limits of docs/RULES.md.
LARGEST = [2047, 14, 2047, 16384, 16384, 2 ** 30, 2 ** 30, 16384 * 16, 16384]
PLACES = [0, 127, 128, 147, 148, 227, 271, 272, 399, 400, 641, 1027, 1126, 5587]


def cells(values):
    return ' '.join(str(v).rjust(max(len(c), len(str(m)))) for v, c, m in zip(values, COLUMNS, LARGEST))


def read_header(data):
    """What a header says: the words of its facts, width, height, depth, levels, elements, how many pixels along a row and a column
    stand in one unit, the unit's bytes, and where pixels begin."""
    magic, size, flags, height, width, _, depth, levels = struct.unpack_from('<4s7I', data, 0)
    pixel_size, pixel_flags, code, bits = struct.unpack_from('<II4sI', data, 76)
    caps2, = struct.unpack_from('<I', data, 112)
    assert magic == b'DDS ' and size == 124 and pixel_size == 32
    levels = max(levels, 1)
    begin, side = 128, (1, 1)
    if pixel_flags & FOURCC and code == b'DX10':
        dxgi, dimension, misc, elements = struct.unpack_from('<4I', data, 128)
        begin = 148
        name, (pixels, unit) = DXGI[dxgi]
        source, side = f'{name} ({dxgi})', (pixels, 1)
        assert dimension in (2, 3) and misc == 0
        shape = f'{"line" if dimension == 2 else "flat"} array of {elements}'
        depth = 1
    else:
        faces = 6 if caps2 & CUBE else 1
        assert faces == 1 or caps2 & ALL_FACES == ALL_FACES
        if caps2 & VOLUME:
            assert flags & DEPTH and faces == 1
            shape, elements = f'volume of depth {depth}', 1
        else:
            shape, elements, depth = f'{"cube" if faces == 6 else "flat"} array of {faces}', faces, 1
        if pixel_flags & FOURCC:
            source = code.decode()
            side, unit = ((2, 1), 4) if source == 'UYVY' else ((4, 4), BLOCK_BYTES[code])
        else:
            assert bits % 8 == 0
            source, unit = f'{KINDS[pixel_flags & (RGB | LUMINANCE | ALPHA_BESIDES)]} {bits} bits', bits // 8
    kind = {(1, 1): f'linear of {8 * unit} bits', (2, 1): 'paired', (4, 4): f'block of {unit} bytes'}[side]
    words = f'{source}, {kind}, {shape}, {width} x {height}, levels {levels}'
    return words, width, height, depth, levels, elements, side, unit, begin


def image_rows(width, height, unit, side):
    """Row bytes and rows, by counting."""
    columns = {x // side[0] for x in range(width)}
    return unit * len(columns), len({y // side[1] for y in range(height)})


def lines_of(data):
    words, width, height, depth, levels, elements, side, unit, begin = read_header(data)
    yield words
    yield ' '.join(c.rjust(max(len(c), len(str(m)))) for c, m in zip(COLUMNS, LARGEST)) + ' sum'
    place = begin
    owners = ['header'] * begin
    for element in range(elements):
        w, h, d = width, height, depth
        for level in range(levels):
            for z in range(d):
                row_bytes, rows = image_rows(w, h, unit, side)
                length = row_bytes * rows
                total = sum(data[place:place + length])
                yield f'{cells([element, level, z, w, h, place, length, row_bytes, rows])} {total}'
                owners += [f'{element} {level} {z} {offset}' for offset in range(length)]
                place += length
            w, h, d = (n // 2 if n > 1 else 1 for n in (w, h, d))
    assert place == len(data) == len(owners), (place, len(data))
    for place in PLACES:
        yield f'byte {place}: ' + (owners[place] if place < len(data) else "refusal 11: place at or past the file's end")


names = sorted(path.name for path in (CRATE / 'data').glob('*.dds'))
out = []
for name in names:
    out.append(name)
    out.extend(lines_of((CRATE / 'data' / name).read_bytes()))
(CRATE / 'args').write_text('\n'.join(names) + '\n')
(CRATE / 'stdout').write_text('\n'.join(out) + '\n')
