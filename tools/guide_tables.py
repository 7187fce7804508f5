#!/usr/bin/env python3
"""Writes crates/guide_tables/stdout: the size tables of Microsoft's DDS programming guide.

The sizes are those that the guide prints for each image, typed in from it; a sum that does not come out as the guide says, or as
counting the pixels or the blocks of each image says, stops the script. None of the project's code is used.
"""
import pathlib

PLAIN_256 = [196608, 49152, 12288, 3072, 768, 192, 48, 12, 3]
DXT1_256_64 = [8192, 2048, 512, 128, 32, 16, 8, 8, 8]
BC3_256_64 = [16384, 4096, 1024, 256, 64, 32, 16, 16, 16]
BC6H_256 = [65536, 16384, 4096, 1024, 256, 64, 16, 16, 16]
VOLUME_64 = [12288] * 4 + [3072] * 2 + [768, 192, 48, 12, 3]
DXT1_256 = [32768, 8192, 2048, 512, 128, 32, 8, 8, 8]

# name, width, height, depth, bytes of a pixel or of a block, pixels along a block's side, printed sizes, printed total of an
# element (None: not printed), elements, bytes of the header
TABLES = [
    ('256 by 256 R8G8B8', 256, 256, 1, 3, 1, PLAIN_256, None, 1, 128),
    ('256 by 64 DXT1', 256, 64, 1, 8, 4, DXT1_256_64, None, 1, 128),
    ('256 by 64 BC3', 256, 64, 1, 16, 4, BC3_256_64, None, 1, 148),
    ('256 by 256 BC6H cube', 256, 256, 1, 16, 4, BC6H_256, 87408, 6, 148),
    ('64 by 64 by 4 volume, 24 bits', 64, 64, 4, 3, 1, VOLUME_64, None, 1, 128),
    ('256 by 256 DXT1 cube', 256, 256, 1, 8, 4, DXT1_256, 43704, 6, 128),
]
out = []
for name, width, height, depth, unit, side, printed, total, elements, header in TABLES:
    out.append(name)
    sizes = list(printed)
    while sizes:
        for z in range(depth):
            counted = unit * len({(x // side, y // side) for x in range(width) for y in range(height)})
            size = sizes.pop(0)
            assert size == counted, (name, width, height, size, counted)
            out.append(f'{width} by {height} slice {z}: {size}')
        width, height, depth = (n // 2 if n > 1 else 1 for n in (width, height, depth))
    assert total in (None, sum(printed)), name
    out.append(f'element {sum(printed)}, file {header + elements * sum(printed)}')
out.append('12 measured figures')
path = pathlib.Path(__file__).resolve().parent.parent / 'crates/guide_tables/stdout'
path.write_text('\n'.join(out) + '\n')
