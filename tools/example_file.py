#!/usr/bin/env python3
"""Writes crates/cuivakko/data/master.dds, the texture of the worked example in docs/ORDERS.md: DXT1, 4 by 4, three levels, 152 bytes."""
import pathlib
import struct

CAPS, HEIGHT, WIDTH, PIXEL_FORMAT, LEVELS = 0x1, 0x2, 0x4, 0x1000, 0x20000
COMPLEX, TEXTURE, MIPMAP = 0x8, 0x1000, 0x400000
head = struct.pack('<4s7I', b'DDS ', 124, CAPS | HEIGHT | WIDTH | PIXEL_FORMAT | LEVELS, 4, 4, 0, 0, 3) + bytes(44)
head += struct.pack('<II4s5I', 32, 0x4, b'DXT1', 0, 0, 0, 0, 0)
head += struct.pack('<5I', COMPLEX | TEXTURE | MIPMAP, 0, 0, 0, 0)
assert len(head) == 128
blocks = b''.join(struct.pack('<HHI', 0xf800, 0x001f, pattern) for pattern in (0xe4e4e4e4, 0x50505050, 0))
path = pathlib.Path(__file__).resolve().parent.parent / 'crates/cuivakko/data/master.dds'
path.parent.mkdir(exist_ok=True)
path.write_bytes(head + blocks)
