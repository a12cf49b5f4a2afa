#!/usr/bin/env python3
"""TIFF files for the measurements: hostile shapes, and a large ordinary one. All are classic, and big-endian but for
`prepended`.

    bench/tiffs.py SHAPE FILE

`directories` and `tables` name some 65 million entries and strips in a file of 0.8 MB, `strips` a million in one of 8 MB. Of
`prepended` and `shifted` the bytes that are kept meet or touch, and each run of them begins before those that are kept.
"""

import sys
from struct import pack

SHORT, LONG = 3, 4
OFFSETS, LENGTHS = 273, 279
MOST_DIRECTORIES, MOST_ENTRIES = 1_000, 65_535


def header(first: int) -> bytes:
    """The header, with the offset of the first directory."""
    return b"MM" + pack(">HI", 42, first)


def directory(entries, following: int) -> bytes:
    """A directory of entries (tag, type, count, value or its offset), and the offset of the next."""
    parts = [pack(">H", len(entries))]
    parts += [pack(">HHII", *entry) for entry in entries]
    return b"".join(parts) + pack(">I", following)


def size_of(count: int) -> int:
    """The bytes of a directory of so many entries."""
    return 2 + 12 * count + 4


def directories() -> bytes:
    """1,000 directories of 65,535 entries each, of which each begins four bytes after the one before it.

    All bytes are FF but the offsets of the next, which stand one after another at the end. FFFF entries of tag and type
    FFFF have no value. Where an offset is read as an entry's tag and type, that type has none either.
    """
    first = 0x100
    chain = [first + 4 * k for k in range(1, MOST_DIRECTORIES)] + [0]
    front = header(first)
    filled = front + b"\xff" * (first + size_of(MOST_ENTRIES) - 4 - len(front))
    return filled + b"".join(pack(">I", place) for place in chain)


def strips(count: int = 1_000_000) -> bytes:
    """One directory with so many strips of a byte."""
    at = 8 + size_of(2)
    entries = [(OFFSETS, LONG, count, at), (LENGTHS, LONG, count, at + 4 * count)]
    places = b"".join(pack(">I", k % at) for k in range(count))
    return header(8) + directory(entries, 0) + places + pack(">I", 1) * count


def tables() -> bytes:
    """1,000 directories that share one table of 65,535 lengths, which is that of their offsets too."""
    size = size_of(2)
    at = 8 + MOST_DIRECTORIES * size
    entries = [(OFFSETS, SHORT, MOST_ENTRIES, at), (LENGTHS, SHORT, MOST_ENTRIES, at)]
    parts = [header(8)]
    for k in range(1, MOST_DIRECTORIES + 1):
        parts.append(directory(entries, 8 + size * k if k < MOST_DIRECTORIES else 0))
    return b"".join(parts) + pack(">H", 1) * MOST_ENTRIES


def crossed(count: int = 65_536) -> bytes:
    """Two directories, of which each names the strips of the other: what are offsets to one are lengths to the other."""
    size = size_of(2)
    at = 8 + 2 * size
    one, other = at, at + 4 * count
    first = [(OFFSETS, LONG, count, one), (LENGTHS, LONG, count, other)]
    second = [(OFFSETS, LONG, count, other), (LENGTHS, LONG, count, one)]
    small = b"".join(pack(">I", 1 + k % at) for k in range(2 * count))
    return header(8) + directory(first, 8 + size) + directory(second, 0) + small


def prepended(count: int = 8_000_000, directories: int = 998) -> bytes:
    """A table of 32 MB, and directories without entries before it, reached from the last to the first.

    Each ends after the count of the one that follows it in the file, which is 0 and is half of the offset of the next.
    """
    first = 8 + 2 + 12 * 2 + 4
    table = first + 2 + 4 * directories
    head = b"II" + pack("<HI", 42, 8) + pack("<H", 2)
    head += b"".join(pack("<HHII", tag, LONG, count, table) for tag in (OFFSETS, LENGTHS))
    head += pack("<I", first + 4 * (directories - 1))
    chain = [0] + [first + 4 * k for k in range(directories - 1)]
    return head + pack("<H", 0) + b"".join(pack("<I", place) for place in chain) + pack("<I", 1) * count


def shifted(count: int = 2_000_000, directories: int = 100) -> bytes:
    """Directories with tables of 8 MB, of which each begins a number before the one that was read last."""
    size = size_of(2)
    at = 8 + directories * size
    parts = [header(8)]
    for k in range(1, directories + 1):
        start = at + 4 * (directories - k)
        entries = [(OFFSETS, LONG, count, start), (LENGTHS, LONG, count, start)]
        parts.append(directory(entries, 8 + size * k if k < directories else 0))
    return b"".join(parts) + pack(">I", 1) * (count + directories - 1)


def usual(pages: int = 20, page: int = 25_000_000, rows: int = 20) -> bytes:
    """So many pages of 25 MB in strips, each with a directory of 15 entries after its strips."""
    parts, at = [], 8
    step = page // rows
    for k in range(pages):
        lengths = at + page
        offsets = lengths + 4 * rows
        start = offsets + 4 * rows
        entries = [(256 + tag, LONG, 1, 1) for tag in range(13)]
        entries += [(OFFSETS, LONG, rows, offsets), (LENGTHS, LONG, rows, lengths)]
        after = start + size_of(len(entries))
        parts.append(b"\x55" * page)
        parts.append(pack(">I", step) * rows + b"".join(pack(">I", at + step * row) for row in range(rows)))
        following = after + page + 8 * rows if k + 1 < pages else 0
        parts.append(directory(entries, following))
        at = after
    return header(8 + page + 8 * rows) + b"".join(parts)


SHAPES = {shape.__name__: shape for shape in (directories, strips, tables, crossed, prepended, shifted, usual)}

if __name__ == "__main__":
    name, path = sys.argv[1:]
    with open(path, "wb") as made:
        made.write(SHAPES[name]())
