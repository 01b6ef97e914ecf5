"""Plans of payloads, and control files (docs/STORE.md, and the manual of aria2), for the programs beside this file."""
import struct
from typing import NamedTuple

BLOCK = 16_384


class Unreadable(Exception):
    """A control file breaks a rule at this byte."""

    def __init__(self, at, version=None):
        super().__init__(f"unreadable at {at}")
        self.at, self.version = at, version


class Plan:
    """Pieces of a length, and blocks of 16,384 bytes in each."""

    def __init__(self, total, piece_length):
        self.total, self.piece_length = total, piece_length
        self.pieces = -(-total // piece_length)
        self.spans, self.piece_of, self.blocks_of = [], [], []
        for piece in range(self.pieces):
            start, end = self.piece_span(piece)
            self.blocks_of.append([])
            for at in range(start, end, BLOCK):
                self.blocks_of[piece].append(len(self.spans))
                self.spans.append((at, min(at + BLOCK, end)))
                self.piece_of.append(piece)

    def piece_span(self, piece):
        return piece * self.piece_length, min((piece + 1) * self.piece_length, self.total)

    def piece_spans(self):
        return [self.piece_span(piece) for piece in range(self.pieces)]


def packed(places, count):
    """Bits in bytes, the first the highest, filled up by zeros."""
    row = bytearray(-(-count // 8))
    for place in places:
        row[place // 8] |= 0x80 >> place % 8
    return bytes(row)


def bits(row):
    """The places that are set."""
    return {place for place in range(len(row) * 8) if row[place // 8] >> 7 - place % 8 & 1}


class Control(NamedTuple):
    """What a control file says. Each piece in flight is its number, its length and the bits of its blocks."""

    ext: int
    info_hash: bytes
    piece_length: int
    total: int
    uploaded: int
    pieces: bytes
    flights: list

    def written(self):
        """Its bytes, in version 1."""
        content = struct.pack(">HII", 1, self.ext, len(self.info_hash)) + self.info_hash
        content += struct.pack(">IQQI", self.piece_length, self.total, self.uploaded, len(self.pieces)) + self.pieces
        content += struct.pack(">I", len(self.flights))
        return content + b"".join(struct.pack(">III", index, size, len(row)) + row for index, size, row in self.flights)


class Fields:
    """The fields of a control file from left to right. One that is cut short is wrong at its place."""

    def __init__(self, content):
        self.content, self.at, self.order = content, 0, "big"

    def take(self, size):
        if self.at + size > len(self.content):
            raise Unreadable(self.at)
        self.at += size
        return self.content[self.at - size : self.at]

    def number(self, size, is_right=lambda number: True, order=None):
        at = self.at
        number = int.from_bytes(self.take(size), order or self.order)
        if not is_right(number):
            raise Unreadable(at, number)
        return number

    def row(self, size, count):
        """Bits for so many places, of which the spare ones are 0."""
        at = self.at
        row = self.take(size)
        if any(place >= count for place in bits(row)):
            raise Unreadable(at)
        return row


def is_plan(total, piece_length):
    """Whether a payload of this length has at most 1,048,576 pieces of that one."""
    return -(-total // piece_length) <= 1_048_576


def read(content):
    """What the bytes say, all of them."""
    fields = Fields(content)
    version = fields.number(2, lambda it: it in (0, 1))
    fields.order = "big" if version else "little"
    ext = fields.number(4, lambda it: it in (0, 1), "big")
    info_hash = fields.take(fields.number(4, lambda it: it == 20 * ext))
    piece_length = fields.number(4, lambda it: 1 <= it <= 67_108_864)
    total = fields.number(8, lambda it: is_plan(it, piece_length))
    uploaded = fields.number(8)
    count = -(-total // piece_length)
    row = fields.row(fields.number(4, lambda it: it == -(-count // 8)), count)
    verified, flights = bits(row), []
    for _ in range(fields.number(4, lambda it: it <= count)):
        named = verified | {index for index, _, _ in flights}
        index = fields.number(4, lambda it: it < count and it not in named)
        length = min(piece_length, total - index * piece_length)
        size = fields.number(4, lambda it: it == length)
        blocks = -(-length // BLOCK)
        flights.append((index, size, fields.row(fields.number(4, lambda it: it == -(-blocks // 8)), blocks)))
    if fields.at < len(content):
        raise Unreadable(fields.at)
    return Control(ext, info_hash, piece_length, total, uploaded, row, flights)


def listing(info_hash, plan, verified, blocks):
    """The control file that lists these pieces, and these blocks of others."""
    flights = []
    for piece, own in enumerate(plan.blocks_of):
        start, end = plan.piece_span(piece)
        there = [at for at, block in enumerate(own) if block in blocks]
        if there and piece not in verified:
            flights.append((piece, end - start, packed(there, len(own))))
    row = packed(verified, plan.pieces)
    return Control(int(bool(info_hash)), info_hash, plan.piece_length, plan.total, 0, row, flights).written()


def listed_blocks(control, plan):
    """The blocks of pieces in flight that a control file of this plan lists."""
    return {plan.blocks_of[index][at] for index, _, row in control.flights for at in bits(row)}
