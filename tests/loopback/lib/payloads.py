"""Payloads, where a mirror has their files, and what is asked for their blocks."""
import itertools
import random
from urllib.parse import quote

from lib.controls import BLOCK
from lib.rooms import files_of, want_asked
from lib.torrents import whole

MIB = 1 << 20
# The length of a piece of one block.
PIECE = 16_384


def noise(length, seed=0):
    """So many bytes without a pattern, and in each run the same ones. Those of another length or seed differ."""
    return random.Random(f"{seed} {length}").randbytes(length)


# Three pieces of one block, the last one of 7,232 bytes.
THREE = noise(40_000)
# Pieces of 16 bytes: the first lies in the first file, the second spans three files, the third begins in an empty file.
SMALL = [
    ("x", b"0123456789abcdefgh"),
    ("d/y", b"ijklm"),
    ("d/e/ü z", b"nopqrstuv"),
    ("d/none", b""),
    ("w", b"wxyz"),
]
# Three pieces of a mebibyte, the last one of 400,000 bytes, and files with 65,536 bytes for each one of the small ones.
LONG = noise(2 * MIB + 400_000)
SPREAD = [(path, noise(len(content) * MIB // 16)) for path, content in SMALL]

# How claims are cut by the words that make them of 64 blocks.
MIB_CLAIMS = {"split": 64, "least": MIB}


def served(payload, name="a"):
    """A mirror's files by their targets below `/`."""
    return {f"/{quote(path)}": content for path, content in files_of(payload, name)}


def apart(stands, payload):
    """The bytes of a payload as its files have them."""
    if isinstance(payload, bytes):
        return stands
    files = []
    for path, content in payload:
        files.append((path, stands[: len(content)]))
        stands = stands[len(content) :]
    return files


def turned(payload, places):
    """The payload with a bit turned in each of these bytes."""
    content = bytearray(whole(payload))
    for it in places:
        content[it] ^= 1
    return apart(bytes(content), payload)


def blocks_in(total, piece_length):
    """The first byte of each block and the one behind its last: blocks are the parts of pieces."""
    for start in range(0, total, piece_length):
        stop = min(start + piece_length, total)
        yield from ((at, min(at + BLOCK, stop)) for at in range(start, stop, BLOCK))


def blocks_of(pieces, total, piece_length):
    """The numbers of the blocks of these pieces."""
    full = -(-piece_length // BLOCK)
    for piece in pieces:
        length = min(piece_length, total - piece * piece_length)
        yield from range(piece * full, piece * full - (-length // BLOCK))


def pieces_of(payload, chosen, piece_length):
    """The pieces that hold a byte of one of these files, which are numbered from 1."""
    found, at = set(), 0
    for place, (_, content) in enumerate(payload, 1):
        if place in chosen and content:
            found |= set(range(at // piece_length, (at + len(content) - 1) // piece_length + 1))
        at += len(content)
    return sorted(found)


def claims(free, total, split, least):
    """The claims of one connection, in order, as the first block of each and the one behind its last.

    Each is the first blocks of the longest stretch of free ones, of which the lowest counts.
    """
    most = max(-(-total // split), -(-least // BLOCK))
    stretches = []
    for _, them in itertools.groupby(enumerate(sorted(free)), lambda it: it[1] - it[0]):
        blocks = [block for _, block in them]
        stretches.append((blocks[0], blocks[-1] + 1))
    while stretches:
        longest = max(stretches, key=lambda it: (it[1] - it[0], -it[0]))
        first, behind = longest
        end = min(first + most, behind)
        yield first, end
        stretches.remove(longest)
        if end < behind:
            stretches.append((end, behind))


def parts(files, start, stop):
    """Each file that these bytes of a payload touch, with the first and the last byte of them there."""
    begins = itertools.accumulate((len(content) for _, content in files), initial=0)
    for (path, content), begin in zip(files, begins):
        end = begin + len(content)
        if max(start, begin) < min(stop, end):
            yield path, max(start, begin) - begin, min(stop, end) - begin - 1


def all_asked(payload, piece_length=PIECE, name="a", free=None, split=5, least=20 * MIB):
    """What one connection asks for, where each reply is right: each part of each claim of the free blocks, in order.

    Each is a target with its first and last byte. Without being told all blocks are free.
    """
    blocks = [*blocks_in(len(whole(payload)), piece_length)]
    free = range(len(blocks)) if free is None else free
    for first, behind in claims(free, len(blocks), split, least):
        for path, begin, last in parts(files_of(payload, name), blocks[first][0], blocks[behind - 1][1]):
            yield f"/{quote(path)}", begin, last


def want_all_asked(site, payload, piece_length=PIECE, name="a", **claimed):
    """The mirror was asked for each part of each claim, in order."""
    want_asked(site, [*all_asked(payload, piece_length, name, **claimed)])
