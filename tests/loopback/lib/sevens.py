"""A payload of seven pieces, and control files that can't be used for it."""
import hashlib

from lib.controls import BLOCK, written
from lib.payloads import noise, turned
from lib.torrents import bencoded, info_of

PIECE = 32_768
# Seven pieces of two blocks, but for the last one, which is one block of 3,392 bytes.
SEVEN = noise(200_000)
# Four bytes of its second piece are wrong.
TORN = turned(SEVEN, range(40_000, 40_004))
HASH = hashlib.sha1(bencoded(info_of(SEVEN, b"a", PIECE))).digest()
ALL = written(HASH, PIECE, len(SEVEN), b"\xfe")

# Where each field begins in the control file of a listed download.
FIELDS = (0, 2, 6, 10, 30, 34, 42, 50, 54, 55)


def refused():
    """Control files that can't be used, each with its name and what is told."""
    for length in range(len(ALL)):
        at = max(it for it in FIELDS if it <= length) if length >= 2 else 0
        yield f"cut to {length} bytes", ALL[:length], f"the control file is wrong at byte {at}", 1
    wrong = "the control file is wrong at byte "
    yield "a byte longer", ALL + b"\0", f"{wrong}{len(ALL)}", 1
    yield "version 2", b"\0\2" + ALL[2:], f"{wrong}0", 1
    yield "version 1 as version 0", b"\0\0" + ALL[2:], f"{wrong}6", 1
    yield "a spare bit", ALL[:54] + b"\xff" + ALL[55:], f"{wrong}54", 1
    yield "an extension 2", ALL[:5] + b"\2" + ALL[6:], f"{wrong}2", 1
    yield "a hash of 2^32 - 1 bytes", ALL[:6] + b"\xff" * 4 + ALL[10:], f"{wrong}6", 1
    yield "pieces of no bytes", ALL[:30] + b"\0" * 4 + ALL[34:], f"{wrong}30", 1
    yield "a total of 2^64 - 1 bytes", ALL[:34] + b"\xff" * 8 + ALL[42:], f"{wrong}34", 1
    yield "a bit field of 2^32 - 1 bytes", ALL[:50] + b"\xff" * 4 + ALL[54:], f"{wrong}50", 1
    yield "2^32 - 1 pieces in flight", ALL[:55] + b"\xff" * 4, f"{wrong}55", 1
    one = written(HASH, PIECE, 200_000, b"\x80", [(0, PIECE, b"\x80")])
    yield "a verified piece in flight", one, f"{wrong}59", 1
    twice = written(HASH, PIECE, 200_000, b"\x80", [(1, PIECE, b"\x80")] * 2)
    yield "a piece in flight twice", twice, f"{wrong}72", 1
    yield "another hash", written(b"x" * 20, PIECE, 200_000, b"\xfe"), "the control file is of another info hash", 1
    yield "no hash", written(b"", PIECE, 200_000, b"\xfe"), "the control file is of another info hash", 1
    other = written(HASH, BLOCK, 200_000, b"\xff\xf8")
    yield "another piece length", other, f"the control file is of pieces of {BLOCK} bytes, not of {PIECE}", 10
    shorter = written(HASH, PIECE, 199_999, b"\xfe")
    yield "another total", shorter, "the control file is of 199999 bytes, not of 200000", 1
