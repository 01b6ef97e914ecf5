"""Control files (aria2 manual, Technical Notes, "Control File (*.aria2) Format"), version 1."""
import struct
from typing import NamedTuple

from lib.wants import want

BLOCK = 16_384
# What a control file's name ends with, beside its payload, and that of the file which is to be put in its place.
SUFFIX = ".aria2"
TEMPORARY = ".aria2__temp"


class Control(NamedTuple):
    """What one says. `pieces` and each piece in flight are bit fields, the first bit the highest."""

    info_hash: bytes
    piece_length: int
    total: int
    pieces: bytes
    flying: dict


def read(content):
    """What the bytes say, all of them."""
    version, _, size = struct.unpack_from(">HII", content)
    at = 10 + size
    info_hash = content[10:at]
    piece_length, total, _, size = struct.unpack_from(">IQQI", content, at)
    at += 24
    pieces, at = content[at : at + size], at + size
    (count,) = struct.unpack_from(">I", content, at)
    at += 4
    flying = {}
    for _ in range(count):
        index, _, size = struct.unpack_from(">III", content, at)
        flying[index] = content[at + 12 : at + 12 + size]
        at += 12 + size
    want((version, at) == (1, len(content)), f"a control file of version {version}, read up to {at}")
    return Control(info_hash, piece_length, total, pieces, flying)


def written(info_hash, piece_length, total, pieces, flying=()):
    """The bytes of one. Each piece in flight is its number, its length and its bits."""
    begin = struct.pack(">HII", 1, int(bool(info_hash)), len(info_hash)) + info_hash
    begin += struct.pack(">IQQI", piece_length, total, 0, len(pieces)) + pieces + struct.pack(">I", len(flying))
    return begin + b"".join(struct.pack(">III", index, length, len(bits)) + bits for index, length, bits in flying)


def bit(row, place):
    return row[place // 8] >> 7 - place % 8 & 1


def packed(bits):
    """The bits in bytes, the first the highest, filled up by zeros."""
    bits = [*bits, *[0] * (-len(bits) % 8)]
    return bytes(sum(it << 7 - at for at, it in enumerate(bits[begin : begin + 8])) for begin in range(0, len(bits), 8))


def blocks_of(control):
    """The blocks that it lists, numbered through the payload, a place for each."""
    listed = []
    for piece, start in enumerate(range(0, control.total, control.piece_length)):
        length = min(control.piece_length, control.total - start)
        for place in range(-(-length // BLOCK)):
            flies = piece in control.flying and bit(control.flying[piece], place)
            listed.append(bit(control.pieces, piece) or flies)
    return listed


def rows_of(control):
    """What the store tells of a download that is opened with just what this lists."""
    return f"pieces {control.pieces.hex()} blocks {packed(blocks_of(control)).hex()}"
