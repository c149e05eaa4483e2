#!/usr/bin/env python3
"""Makes crates/cardtool/data/vega.img, on which the gate runs `cardtool log`.

The image is worked out from docs/FORMAT.md, with none of the code under test: eight blocks of 512 bytes. Block 0: a
superblock and a commit with the file "vega"; block 1: the same, of which power left the second commit torn; block 2: a
third commit with a tail and move data; block 5: zeros; block 6: a revision and no commit; the rest erased.
With --check nothing is written, and the status is 1 where the file is not what is made here."""

import struct
import sys
from pathlib import Path

from log_vectors import Log

SIZE, COUNT = 512, 8
PATH = Path(__file__).resolve().parent.parent / "crates" / "cardtool" / "data" / "vega.img"


def block(data):
    """A block that begins with the data, and is erased behind it."""
    return bytes(data) + b"\xff" * (SIZE - len(data))


def image():
    words = struct.pack("<6I", 0x00020000, SIZE, COUNT, 64, 1048576, 1022)
    log = Log().put(0x0FF, 0, b"littlefs").put(0x201, 0, words).close()
    log.put(0x401, 1).put(0x001, 1, b"vega").put(0x201, 1, b"2.5").close()
    file = block(log.data)
    torn = block(log.data[:0x58])
    log.put(0x600, 0x3FF, struct.pack("<2I", 6, 7)).put(0x7FF, 0x3FF, struct.pack("<3I", 0x80000000, 0, 0)).close()
    return file + torn + block(log.data) + block(b"") * 2 + bytes(SIZE) + block(b"\x07\0\0\0garbage") + block(b"")


if __name__ == "__main__":
    if "--check" in sys.argv:
        sys.exit(0 if PATH.read_bytes() == image() else "vega.img is not what tools/sample_image.py makes")
    PATH.write_bytes(image())
