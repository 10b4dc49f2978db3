#!/usr/bin/env python3
"""Writes the sample files, from the rules in docs/FORMAT.md and with none of the program's code.

usage: make-samples.py FOLDER

Sound files go into FOLDER, damaged ones into FOLDER/damaged.
"""
import os
import struct
import sys

ENDS = [10, 16, 24, 72, 100, 104]
EXTENTS = {1: 6, 2: 12, 3: 20, 4: 68, 5: 96}


def sample(version, kind=1, cells=1, bins=1, channels=3, blocks=(), gap=b"", tail=b"", cut=0):
    """A sound file of that version, and then the changes that make it a damaged one."""
    end = ENDS[min(version, 6) - 1]
    section = b"".join(key + struct.pack(">I", len(data)) + data for key, data in blocks)
    start = end + len(section) + len(gap)
    head = bytearray(end)
    struct.pack_into(">h", head, 0, version)
    for level, place in EXTENTS.items():
        if version >= level:
            struct.pack_into(">i", head, place, start - (place + 4))
    if version >= 2:
        struct.pack_into(">h", head, 10, kind)
    if version >= 3:
        head[16:20] = b"HARB"
    if version >= 4:
        struct.pack_into(">III", head, 52, bins, cells, 1)
    else:
        cells, bins = 31, 512
    if version >= 5:
        struct.pack_into(">I", head, 88, channels)
    if version >= 6:
        struct.pack_into(">I", head, 100, len(section))
    width = 40 if version >= 2 and kind >= 2 else 36
    data = bytes(i % 251 for i in range(cells * bins * width))
    whole = bytes(head) + section + gap + data + tail
    return whole[: len(whole) - cut]


# The fields of a working site, as (place, form, value); the version has to be 5 or above.
FIELDS = [
    (2, ">I", 3786912000),  # the start of 2024, in seconds from that of 1904
    (16, ">4s", b"ABCD"),
    (24, ">I", 15),
    (28, ">I", 1),
    (32, ">I", 0),
    (36, ">f", 12.5),
    (40, ">f", 2.0),
    (44, ">f", -100.0),
    (48, ">I", 1),
    (60, ">i", -2),
    (64, ">f", 1.5),
    (72, ">I", 10),
    (76, ">4s", b"CSSW"),
    (80, ">4s", b"1.0\0"),
    (84, ">I", 3),
    (92, ">I", 0xE0000000),
]

# All kinds of block, and then blocks that cannot be read or are of no known kind.
BLOCKS = [
    (b"TIME", struct.pack(">BHBBBBddd", 1, 2024, 2, 29, 23, 59, 30.5, 900.0, -5.0)),
    (b"LOCA", struct.pack(">ddd", 38.25, -123.0625, 17.5)),
    (b"RCVI", struct.pack(">IId32s", 3, 5, -20.25, b"AWG 4.01")),
    (b"GLRM", struct.pack(">BBIIIdddB", 3, 1, 70000, 12, 7, 9.5, 0.125, 3.0, 1)),
    (b"SUPI", struct.pack(">BBBBIddhh", 1, 0, 2, 1, 24, 6.75, 0.5, -3, 300)),
    (b"FWIN", struct.pack(">BBdd", 2, 3, 0.54, float("inf"))),
    (b"FILL", bytes([1, 2, 2, 4]) + b"newer"),
    (b"ZONE", b"GMT\0"),
    (b"CITY", b"America/Los Angeles\0\0\0"),
    (b"TOOL", b"SpectraAverager,\t\xe91.0\0"),
    (b"SITD", b"\0"),
    (b"LOCA", bytes(23)),
    (b"TOOL", b"no end"),
    (b"RCVI", struct.pack(">IId32s", 1, 1, 0.0, b"x" * 32)),
    (b"SU\0M", bytes(5)),
    (b"LOCA", struct.pack(">Qdd", 0x7FF8000000000001, float("-inf"), -0.0)),
]

# The patterns that stand in the rows of that file at known places, as (cell, row, number from 0, pattern).
NUMBERS = [
    (1, 1, 0, 0x41480000),  # 12.5
    (1, 1, 1, 0x7FC00000),  # a NaN
    (1, 1, 2, 0xC2F6E666),  # about -123.45
    (2, 3, 0, 0x7F800000),  # infinity
    (2, 3, 1, 0xFF800000),  # minus infinity
    (2, 3, 2, 0xFF800001),  # a NaN with a sign
    (2, 5, 0, 0x80000000),  # minus zero
    (2, 5, 1, 0x3F800000),  # 1
    (2, 5, 2, 0x00000001),  # the smallest number above zero
    (2, 5, 3, 0x7F7FFFFF),  # the largest number
    (2, 5, 4, 0x3DCCCCCD),  # nearest to 0.1
    (2, 5, 5, 0x4B800001),  # 16777218
    (2, 7, 0, 0x3F800000),
    (2, 7, 1, 0x3F000000),
    (2, 7, 2, 0x3E800000),
]


def site():
    """A file of version 6 with two cells of three bins and quality, with FIELDS, BLOCKS and NUMBERS."""
    file = bytearray(sample(6, kind=2, cells=2, bins=3, blocks=BLOCKS))
    for place, form, value in FIELDS:
        struct.pack_into(form, file, place, value)
    start = 104 + sum(8 + len(data) for _, data in BLOCKS)
    for cell, row, number, pattern in NUMBERS:
        before = 3 * [0, 4, 8, 12, 20, 28, 36][row - 1]
        struct.pack_into(">I", file, start + (cell - 1) * 3 * 40 + before + 4 * number, pattern)
    return bytes(file)


def put(file, place, form, value):
    changed = bytearray(file)
    struct.pack_into(">" + form, changed, place, value)
    return bytes(changed)


FILL = (b"FILL", bytes([1, 2, 2, 4]))
XTRA = (b"XTRA", b"")
M = sample(6, blocks=[FILL, XTRA])

SOUND = {
    "m.cs": M,
    "version-4.cs": sample(4, cells=3, bins=2),
    "version-4-quality.cs": sample(4, kind=2, cells=3, bins=2),
    "version-5-gap.cs": sample(5, cells=2, bins=4, gap=bytes(6)),
    "version-6-tail.cs": sample(6, cells=2, bins=1, kind=32767, tail=b"later writers put more here"),
    "version-7.cs": sample(7, blocks=[(b"ZONE", b"GMT\0")], gap=b"new"),
    "version-32.cs": sample(32, kind=-1, blocks=[FILL]),
    "site.cs": site(),
}

DAMAGED = {
    "empty.cs": b"",
    "version-33.cs": put(M, 0, "h", 33),
    "header-only.cs": sample(4)[:72],
    "extent-short.cs": put(M, 68, "i", 31),
    "extent-off.cs": put(M, 12, "i", 107),
    "no-bins.cs": put(M, 52, "I", 0),
    "no-cells.cs": put(M, 56, "I", 0),
    "four-channels.cs": put(M, 88, "I", 4),
    "data-cut.cs": M[:-1],
    "section-long.cs": put(M, 100, "I", 21),
    "head-cut.cs": put(M, 100, "I", 19),
    "block-cut.cs": put(M, 108, "I", 13),
}


def main():
    folder = sys.argv[1]
    for where, files in (folder, SOUND), (os.path.join(folder, "damaged"), DAMAGED):
        os.makedirs(where, exist_ok=True)
        for name, data in files.items():
            with open(os.path.join(where, name), "wb") as out:
                out.write(data)


main()
