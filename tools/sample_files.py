#!/usr/bin/env python3
"""Writes the sample files that no tool at hand writes: a volume, a line, and files whose pixels stand in pairs, into
crates/samples/data. It follows docs/RULES.md sections 2 to 6 and uses none of the project's code; a file's bytes after its header
count up by sevens.
"""
import pathlib
import struct

DATA = pathlib.Path(__file__).resolve().parent.parent / 'crates/samples/data'
CODE, RGB, DEPTH, VOLUME = 0x4, 0x40, 0x800000, 0x200000


def header(width, height, depth=0, levels=1, flags=0, pixel_flags=0, code=b'\0\0\0\0', bits=0, caps2=0, extension=()):
    """A plain header, or with four fields more an extended one."""
    words = [0] * 31
    words[0], words[1], words[2], words[3] = 124, flags, height, width
    words[5], words[6], words[18], words[19] = depth, levels, 32, pixel_flags
    words[20], words[21], words[27] = int.from_bytes(code, 'little'), bits, caps2
    if extension:
        words += [*extension, 0]
    return b'DDS ' + struct.pack(f'<{len(words)}I', *words)


def halves(side):
    while True:
        yield side
        side = max(side // 2, 1)


def pixels(width, height, depth, levels, size):
    """The bytes of one element: size says how many an image of these sides takes."""
    sides = zip(halves(width), halves(height), halves(depth))
    return sum(size(w, h) * d for _, (w, h, d) in zip(range(levels), sides))


def write(name, head, length):
    assert len(head) in (128, 148)
    (DATA / name).write_bytes(head + bytes(i * 7 % 256 for i in range(length)))


def pairs(w, h):
    return -(-w // 2) * 4 * h


# 10 by 6 by 5 pixels of 24 bits, all four levels: of 5, 2, 1 and 1 slices
write('volume-rgb.dds', header(10, 6, 5, 4, DEPTH, RGB, bits=24, caps2=VOLUME), pixels(10, 6, 5, 4, lambda w, h: 3 * w * h))
# three lines of 13 pixels, half floats of one channel (DXGI code 54), all four levels
write('line-r16.dds', header(13, 1, 0, 4, 0, CODE, b'DX10', extension=(54, 2, 0, 3)), 3 * pixels(13, 1, 1, 4, lambda w, h: 2 * w * h))
# 7 by 5 pixels in pairs, by the letters and by DXGI code 69 (a flat array of two)
write('paired-uyvy.dds', header(7, 5, 0, 3, 0, CODE, b'UYVY'), pixels(7, 5, 1, 3, pairs))
write('paired-dxgi.dds', header(7, 5, 0, 2, 0, CODE, b'DX10', extension=(69, 3, 0, 2)), 2 * pixels(7, 5, 1, 2, pairs))
# 6 by 3 pixels of 16 bits, half of each alpha
write('luminance-alpha.dds', header(6, 3, 0, 1, 0, 0x20001, bits=16), 6 * 3 * 2)
