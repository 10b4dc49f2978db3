#!/usr/bin/env python3
"""Works out what a run of a script has to print, from the rules in docs/ and with none of the program's code.

usage: make-run.py SCRIPT >EXPECTED

Files are read as the script names them, from the folder that it is run in. Nothing is written: a file that the script saves is
remembered, and read back from there. docs/FORMAT.md has the format, docs/KINDS.md the kinds, docs/READING.md the questions,
docs/EDITING.md the edits, docs/DRAFTS.md the drafts, docs/REFUSALS.md the layers, and docs/PROGRAM.md the lines.
"""
import struct
import sys

MOST = 1073741824
ENDS = [10, 16, 24, 72, 100, 104]
EXTENTS = [6, 12, 20, 68, 96]
FIELDS = [(1, 2), (2, 10), (3, 16)]
FIELDS += [(4, 24 + 4 * i) for i in range(11)] + [(5, 72 + 4 * i) for i in range(6)]
STEERING = (2, 11, 12, 19)

# The kinds that are records, as their numbers, and those that are texts, as the longest text that they may have.
RECORDS = {
    "TIME": ">BHBBBBQQQ",
    "LOCA": ">QQQ",
    "RCVI": ">IIQ",
    "GLRM": ">BBIIIQQQB",
    "SUPI": ">BBBBIQQhh",
    "FWIN": ">BBQQ",
    "FILL": ">BBBB",
}
TEXTS = {"ZONE": 255, "CITY": 255, "TOOL": 255, "SITD": None}
FIRMWARE = 32


class Refused(Exception):
    """A refusal: its number, layer, block and place."""

    def __init__(self, number, place=0, block=0, layer=5):
        super().__init__(number)
        self.parts = (number, layer, block, place)


def word(data, place):
    return struct.unpack_from(">I", data, place)[0]


class File:
    """What judging reads in bytes, check by check; it raises the refusal of the first check that fails."""

    def __init__(self, data):
        size = len(data)
        if size <= 10:
            raise Refused(1, layer=1)
        version = struct.unpack_from(">h", data, 0)[0]
        if not 1 <= version <= 32:
            raise Refused(2, layer=1)
        level = min(version, 6)
        end = ENDS[level - 1]
        if size <= end:
            raise Refused(1, layer=1)
        extents = [struct.unpack_from(">i", data, EXTENTS[i])[0] for i in range(min(level, 5))]
        for i, extent in enumerate(extents):
            if extent < end - ENDS[i]:
                raise Refused(3, EXTENTS[i], layer=2)
        start = 10 + extents[0]
        for i, extent in enumerate(extents):
            if ENDS[i] + extent != start:
                raise Refused(4, EXTENTS[i], layer=2)
        bins, ranges, first = 512, 31, 1
        if version >= 4:
            bins, ranges, first = struct.unpack_from(">III", data, 52)
            if not 1 <= bins <= 32768:
                raise Refused(5, 52, layer=2)
            if not 1 <= ranges <= 8192:
                raise Refused(6, 56, layer=2)
        if version >= 5 and word(data, 88) != 3:
            raise Refused(7, 88, layer=2)
        self.quality = version >= 2 and struct.unpack_from(">h", data, 10)[0] >= 2
        self.width = 40 if self.quality else 36
        if start + ranges * bins * self.width > size:
            raise Refused(11, start, layer=1)
        self.section = word(data, 100) if version >= 6 else 0
        if version >= 6 and 104 + self.section > start:
            raise Refused(8, 100, layer=2)
        self.blocks = []
        at, stop = end, end + self.section
        while at < stop:
            if stop - at < 8:
                raise Refused(9, at, len(self.blocks) + 1, 3)
            length = word(data, at + 4)
            if length > stop - at - 8:
                raise Refused(10, at + 4, len(self.blocks) + 1, 3)
            self.blocks.append((bytes(data[at : at + 4]), bytes(data[at + 8 : at + 8 + length])))
            at += 8 + length
        self.version, self.level, self.start = version, level, start
        self.bins, self.ranges, self.first = bins, ranges, first
        self.data = bytes(data)
        self.gap = self.data[at:start]
        self.rest = self.data[start:]

    def field(self, number):
        place = FIELDS[number - 1][1]
        if number == 2:
            return struct.unpack_from(">H", self.data, place)[0]
        return word(self.data, place)

    def fields(self):
        return [self.field(n) for n in range(1, 21) if FIELDS[n - 1][0] <= self.level]

    def places(self):
        """Where each block begins."""
        at, places = 104, []
        for _, body in self.blocks:
            places.append(at)
            at += 8 + len(body)
        return places

    def row(self, cell, row):
        widths = [4, 4, 4, 8, 8, 8] + [4] * self.quality
        if not 1 <= cell <= self.ranges or not 1 <= row <= len(widths):
            raise Refused(16)
        place = self.start + (cell - 1) * self.bins * self.width + self.bins * sum(widths[: row - 1])
        return place, self.bins * widths[row - 1]


def writing(version, fields, blocks, gap, rest):
    """The bytes of a content; the cells and the tail are one."""
    level = min(version, 6)
    section = b"".join(key + struct.pack(">I", len(body)) + body for key, body in blocks)
    start = ENDS[level - 1] + len(section) + len(gap)
    head = bytearray(ENDS[level - 1])
    struct.pack_into(">H", head, 0, version)
    for i in range(min(level, 5)):
        struct.pack_into(">i", head, EXTENTS[i], start - ENDS[i])
    for number, value in enumerate(fields, 1):
        struct.pack_into(">H" if number == 2 else ">I", head, FIELDS[number - 1][1], value)
    if level == 6:
        struct.pack_into(">I", head, 100, len(section))
    return bytes(head) + section + gap + rest


def kind_writes(kind, numbers, text):
    """The data of a block of a kind."""
    if kind in TEXTS:
        most = TEXTS[kind]
    else:
        most = FIRMWARE - 1 if kind == "RCVI" else 0
    if most is not None and len(text) > most:
        raise Refused(15, most)
    if 0 in text:
        raise Refused(15, text.index(0))
    if kind in TEXTS:
        return text + b"\0"
    packed = struct.pack(RECORDS[kind], *numbers)
    return packed + text.ljust(FIRMWARE, b"\0") if kind == "RCVI" else packed


def kind_reads(kind, body, block, at):
    """Numbers, place and length of the text in the file, and bytes used, of the data at a place."""
    if kind in TEXTS:
        most = TEXTS[kind]
        front = body if most is None else body[: most + 1]
        if 0 not in front:
            raise Refused(14, at, block, 4)
        length = front.index(0)
        return (), at, length, length + 1
    size = struct.calcsize(RECORDS[kind]) + (FIRMWARE if kind == "RCVI" else 0)
    if len(body) < size:
        raise Refused(13, at + len(body), block, 4)
    numbers = struct.unpack_from(RECORDS[kind], body)
    if kind != "RCVI":
        return numbers, at, 0, size
    firmware = body[16:size]
    if 0 not in firmware:
        raise Refused(14, at + 16, block, 4)
    return numbers, at + 16, firmware.index(0), size


class Line:
    """The words of a line, taken one after the other."""

    def __init__(self, text, saved):
        self.words, self.saved = [], saved
        while text.strip(" "):
            text = text.lstrip(" ")
            length = text.index('"', 1) + 1 if text[0] == '"' else (text + " ").index(" ")
            self.words.append(text[:length])
            text = text[length:]

    def next(self):
        return self.words.pop(0)

    def number(self):
        return int(self.next())

    def numbers(self):
        return [int(self.next()) for _ in range(len(self.words))]

    def data(self):
        said = self.next()
        if said[0] == "x":
            return bytes.fromhex(said[1:])
        if said[0] == '"':
            return said[1:-1].encode()
        if said[1:] in self.saved:
            return self.saved[said[1:]]
        with open(said[1:], "rb") as file:
            return file.read()

    def record(self, kind):
        """The numbers of a kind, and the text, which is empty where no word is left."""
        count = len(RECORDS[kind]) - 1 if kind in RECORDS else 0
        numbers = [self.number() for _ in range(count)]
        return numbers, self.data() if self.words else b""


class Session:
    def __init__(self):
        self.buffer = self.size = self.draft = None
        self.saved = {}

    # The working file

    def file(self):
        if self.size == 0:
            raise Refused(31)
        return File(self.buffer[: self.size])

    def settle(self, new):
        """The file gives way to a new one."""
        capacity = min(len(self.buffer), MOST)
        if len(new) > capacity:
            raise Refused(32, len(new))
        self.buffer[: len(new)] = new
        if len(new) < self.size:
            self.buffer[len(new) : self.size] = bytes(self.size - len(new))
        self.size = len(new)

    def settle_blocks(self, file, blocks):
        self.settle(writing(file.version, file.fields(), blocks, file.gap, file.rest))

    def with_blocks(self):
        file = self.file()
        if file.version < 6:
            raise Refused(33)
        return file

    def known(self, file, block):
        if not 1 <= block <= len(file.blocks):
            raise Refused(34)
        return file.blocks[block - 1]

    def seen(self, file, block, kind):
        key, body = self.known(file, block)
        at = file.places()[block - 1]
        if key != kind.encode():
            raise Refused(12, at, block, 4)
        return kind_reads(kind, body, block, at + 8)

    def make(self, line):
        capacity, data = line.number(), line.data()
        self.buffer = bytearray(data[:capacity].ljust(capacity, b"\0"))
        self.size = 0
        try:
            if len(data) <= min(capacity, MOST):
                File(data)
                self.size = len(data)
        except Refused:
            pass
        return f" file {self.size}" if self.size else " no file"

    def load(self, line):
        data = line.data()
        File(data)
        self.settle(data)

    def set(self, line):
        number, value = line.number(), line.number()
        file = self.file()
        if not 1 <= number <= 20:
            raise Refused(18)
        if number in STEERING:
            raise Refused(21)
        if FIELDS[number - 1][0] > file.version:
            raise Refused(33)
        struct.pack_into(">I", self.buffer, FIELDS[number - 1][1], value)

    def store(self, line):
        cell, row, data = line.number(), line.number(), line.data()
        place, length = self.file().row(cell, row)
        if len(data) != length:
            raise Refused(17, length)
        self.buffer[place : place + length] = data

    def add(self, line):
        kind = line.next()
        numbers, text = line.record(kind)
        file = self.with_blocks()
        self.settle_blocks(file, file.blocks + [(kind.encode(), kind_writes(kind, numbers, text))])

    def carry(self, line):
        key, body = line.data(), line.data()
        file = self.with_blocks()
        self.settle_blocks(file, file.blocks + [(key, body)])

    def lengthen(self, line):
        block, more = line.number(), line.data()
        file = self.with_blocks()
        key, body = self.known(file, block)
        file.blocks[block - 1] = (key, body + more)
        self.settle_blocks(file, file.blocks)

    def replace(self, line):
        block, kind = line.number(), line.next()
        numbers, text = line.record(kind)
        file = self.with_blocks()
        used = self.seen(file, block, kind)[3]
        key, body = file.blocks[block - 1]
        file.blocks[block - 1] = (key, kind_writes(kind, numbers, text) + body[used:])
        self.settle_blocks(file, file.blocks)

    def drop(self, line):
        block = line.number()
        file = self.with_blocks()
        self.known(file, block)
        del file.blocks[block - 1]
        self.settle_blocks(file, file.blocks)

    def raise_(self, line):
        values = line.numbers()
        file = self.file()
        if file.version >= 6:
            raise Refused(35)
        if file.start != ENDS[file.level - 1]:
            raise Refused(36)
        wanted = [0, 1, 8, 5, 0][file.version - 1]
        if len(values) != wanted:
            raise Refused(17, wanted)
        assumed = {2: 1, 11: file.bins, 12: file.ranges, 13: file.first, 19: 3}
        fields = file.fields()
        for number in range(len(fields) + 1, 21):
            if FIELDS[number - 1][0] == file.version + 1:
                fields.append(assumed[number] if number in assumed else values.pop(0))
        self.settle(writing(file.version + 1, fields, [], b"", file.rest))

    # Questions

    def version(self, line):
        return f" {self.file().version}"

    def start(self, line):
        level = line.number()
        file = self.file()
        self.check_level(level)
        return f" {file.start}"

    @staticmethod
    def check_level(level):
        if not 1 <= level <= 6:
            raise Refused(19)

    def field(self, line):
        level, number = line.number(), line.number()
        file = self.file()
        self.check_level(level)
        if not 1 <= number <= 20:
            raise Refused(18)
        if FIELDS[number - 1][0] > level:
            raise Refused(20)
        if FIELDS[number - 1][0] > file.version:
            raise Refused(33)
        return f" {file.field(number)}"

    def asked_row(self, line):
        level, cell, row = line.number(), line.number(), line.number()
        file = self.file()
        self.check_level(level)
        if level < min(file.version, 4):
            raise Refused(37)
        return file, file.row(cell, row)

    def row(self, line):
        place, length = self.asked_row(line)[1]
        return f" {place} {length}"

    def numbers(self, line):
        file, (place, length) = self.asked_row(line)
        if length // 4 > line.number():
            raise Refused(22, length // 4)
        return "".join(f" {word(file.data, place + at):08x}" for at in range(0, length, 4))

    def block(self, line):
        level, block = line.number(), line.number()
        file = self.file()
        self.check_level(level)
        if level < 6:
            raise Refused(20)
        if file.version < 6:
            raise Refused(33)
        self.known(file, block)
        return self.heads(file)[block - 1]

    @staticmethod
    def heads(file):
        return [f" {key.hex()} {at} {len(body)}" for (key, body), at in zip(file.blocks, file.places())]

    def look(self, line):
        block, kind = line.number(), line.next()
        file = self.with_blocks()
        numbers, place, length, used = self.seen(file, block, kind)
        return f" used {used} text {place} {length}" + "".join(f" {n}" for n in numbers)

    def table(self, line):
        room = line.number()
        file = self.file()
        if len(file.blocks) > room:
            raise Refused(22, len(file.blocks))
        return f" {len(file.blocks)}" + "".join(self.heads(file))

    def bytes(self, line):
        first, count = line.number(), line.number()
        return f" x{bytes(self.buffer[first:first + count]).hex()}"

    def judge(self, line):
        file = File(line.data())
        return f" version {file.version} start {file.start} blocks {len(file.blocks)}"

    def save(self, line):
        self.saved[line.next()] = bytes(self.buffer[: self.size])
        return f" {self.size}"

    # The draft: its capacity, version, fields and cells, and what it has of blocks and cells so far

    def begin(self, line):
        self.draft = None
        capacity, version, kind, bins, ranges = (line.number() for _ in range(5))
        values = line.numbers()
        if not 4 <= version <= 6:
            raise Refused(2)
        if not 1 <= bins <= 32768:
            raise Refused(5)
        if not 1 <= ranges <= 8192:
            raise Refused(6)
        count = 14 if version == 4 else 20
        if len(values) != count - sum(n <= count for n in STEERING):
            raise Refused(17, count - sum(n <= count for n in STEERING))
        steering = {2: kind, 11: bins, 12: ranges, 19: 3}
        fields = [steering[n] if n in steering else values.pop(0) for n in range(1, count + 1)]
        quality = struct.unpack(">h", struct.pack(">H", kind))[0] >= 2
        draft = {
            "capacity": min(capacity, MOST),
            "room": capacity,
            "version": version,
            "fields": fields,
            "blocks": [],
            "cells": [],
            "cell": bins * (40 if quality else 36),
            "ranges": ranges,
        }
        self.fits(draft)
        self.draft = draft

    @staticmethod
    def written(draft):
        return writing(draft["version"], draft["fields"], draft["blocks"], b"", b"".join(draft["cells"]))

    def fits(self, draft):
        size = len(self.written(draft))
        if size > draft["capacity"]:
            raise Refused(32, size)

    def put_block(self, key, body):
        block = (key, body)
        self.fits({**self.draft, "blocks": self.draft["blocks"] + [block]})
        self.draft["blocks"].append(block)

    def put(self, line):
        kind = line.next()
        numbers, text = line.record(kind)
        if self.draft["version"] < 6:
            raise Refused(33)
        self.put_block(kind.encode(), kind_writes(kind, numbers, text))

    def put_raw(self, line):
        key, body = line.data(), line.data()
        if self.draft["version"] < 6:
            raise Refused(33)
        self.put_block(key, body)

    def turn(self, line):
        pass

    def lay(self, line):
        cell, laid = line.data(), len(self.draft["cells"])
        if laid >= self.draft["ranges"]:
            raise Refused(38, laid)
        if len(cell) != self.draft["cell"]:
            raise Refused(17, self.draft["cell"])
        self.fits({**self.draft, "cells": self.draft["cells"] + [cell]})
        self.draft["cells"].append(cell)

    def close(self, line):
        if len(self.draft["cells"]) < self.draft["ranges"]:
            raise Refused(38, len(self.draft["cells"]))
        file = self.written(self.draft)
        self.buffer = bytearray(file.ljust(self.draft["room"], b"\0"))
        self.size, self.draft = len(file), None
        return f" {self.size}"


def main():
    session = Session()
    with open(sys.argv[1], encoding="utf-8") as script:
        for number, text in enumerate(script, 1):
            line = Line(text.rstrip("\n"), session.saved)
            if not line.words or line.words[0].startswith("#"):
                continue
            verb = line.next()
            call = getattr(session, {"raise": "raise_", "put-raw": "put_raw"}.get(verb, verb))
            try:
                said = "ok" + (call(line) or "")
            except Refused as refused:
                said = "refused {} layer {} block {} place {}".format(*refused.parts)
            print(number, verb, said)


main()
