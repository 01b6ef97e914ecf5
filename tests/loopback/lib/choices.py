"""What a run over one connection does by the rules of claims, marks and pieces: a plain model, one step after another.

Mirrors answer each request in a way that is told beforehand, so that the model knows what comes.
"""
import collections
from typing import NamedTuple
from urllib.parse import quote

from lib.controls import BLOCK
from lib.mirrors import Ending, Site, head, reply
from lib.payloads import blocks_in, parts
from lib.recording import asked_by
from lib.rooms import files_of
from lib.torrents import whole

MIB = 1 << 20
# Who gave a block that was there before the run.
OLD = -1


class Way(NamedTuple):
    """How a request is answered: with the part that is asked for, with a bit turned in it, cut in its midst, with a
    shorter one, the whole file, or a status."""

    name: str = "right"
    number: int = 0

    def came(self, content):
        """Of what was asked for the bytes that come, and the code of the loss behind them, if there is one."""
        if self.name == "turned":
            at = self.number % len(content)
            return content[:at] + bytes([content[at] ^ 1]) + content[at + 1 :], None
        if self.name == "cut":
            return content[: self.number % len(content)], 6
        if self.name == "short":
            return content[: 1 + self.number % len(content)], None
        return (b"", CODES[self.number]) if self.name == "status" else (content, None)


# The codes of refused replies by their statuses.
CODES = {404: 3, 401: 24, 503: 29, 500: 22}


class Acting(Site):
    """Serves its files by a list of ways, one for each request, and rightly behind those."""

    def __init__(self, files, ways):
        super().__init__(files)
        self.ways = ways

    def answer(self, asked):
        place = len(self.requests) - 1
        way = self.ways[place] if place < len(self.ways) else Way()
        target, first, last = asked_by(asked)
        content = self.files[target]
        if way.name == "status":
            return head(b"Content-Length: 0", status=b"%d No" % way.number)
        if way.name == "whole":
            return head(b"Content-Length: %d" % len(content), status=b"200 OK") + content
        came, code = way.came(content[first : last + 1])
        if code is None:
            return reply(came, first=first, total=len(content))
        begin = reply(content[first : last + 1], first=first, total=len(content))
        return Ending(begin[: len(begin) - (last + 1 - first) + len(came)])


class Outcome(NamedTuple):
    """How a run ends: its status, how many bytes are there, what each mirror was asked, the payload's bytes as they
    stand, and the blocks that the control file lists."""

    status: int
    completed: int
    asked: list
    stands: bytes
    lists: list


class Model:
    """A run of one download, of which a control file may list verified pieces, and blocks of others."""

    def __init__(self, payload, piece_length, ways, tries=5, name="a", has=None, verified=(), listed=(), stands=None,
                 wanted=None, split=5, least=20 * MIB):
        self.right = whole(payload)
        # the files as each mirror has them
        self.files = [files_of(it, name) for it in has or [payload] * len(ways)]
        self.piece_length = piece_length
        self.blocks = [*blocks_in(len(self.right), piece_length)]
        self.stands = bytearray(stands or bytes(len(self.right)))
        self.ways = [collections.deque(it) for it in ways]
        self.tries = tries
        self.most = max(-(-len(self.blocks) // split), -(-least // BLOCK))
        self.asked = [[] for _ in ways]
        self.marks = collections.Counter()
        pieces = range(-(-len(self.right) // piece_length))
        self.wanted = set(pieces if wanted is None else wanted)
        self.verified = set(verified)
        self.saved = {*listed, *(block for piece in verified for block in self.blocks_of(piece))}
        self.giver = dict.fromkeys(self.saved, OLD)
        self.sole = set()
        self.wrong = set()

    def piece(self, block):
        return self.blocks[block][0] // self.piece_length

    def blocks_of(self, piece):
        return [block for block in range(len(self.blocks)) if self.piece(block) == piece]

    def able(self, piece):
        """The mirrors that may be asked for the piece."""
        return [it for it in range(len(self.ways)) if self.marks[it, piece] < self.tries]

    def full(self):
        """The pieces whose blocks are all there, and that weren't found right."""
        pieces = sorted({self.piece(it) for it in self.giver} - self.verified)
        return [it for it in pieces if all(block in self.giver for block in self.blocks_of(it))]

    def stretches(self):
        """Each with its first block, the one behind its last, and the mirrors that may be asked for all of it."""
        found = []
        for block in range(len(self.blocks)):
            piece = self.piece(block)
            if block in self.giver or piece not in self.wanted or piece in self.sole:
                continue
            mirrors = self.able(piece)
            if found and found[-1][1:] == [block, mirrors]:
                found[-1][1] += 1
            else:
                found.append([block, block + 1, mirrors])
        for piece in self.sole & self.wanted:
            blocks = self.blocks_of(piece)
            if not any(it in self.giver for it in blocks):
                found.append([blocks[0], blocks[-1] + 1, self.able(piece)])
        return found

    def claim(self):
        """The mirror and the blocks of the next claim: the first ones of the longest stretch."""
        first, behind, mirrors = max(self.stretches(), key=lambda it: (it[1] - it[0], -it[0]))
        if self.piece(first) not in self.sole:
            behind = min(behind, first + self.most)
        totals = {it: sum(self.marks[it, piece] for piece in range(len(self.blocks))) for it in mirrors}
        return min(mirrors, key=lambda it: (totals[it], it)), first, behind

    def listing(self):
        """What a save lists now."""
        doubted = self.sole | self.wrong
        return {it for it in self.giver if self.piece(it) in self.verified or self.piece(it) not in doubted}

    def clear(self, piece):
        for block in self.blocks_of(piece):
            self.giver.pop(block, None)

    def mark(self, mirror, piece):
        """The mirror has failed once more for the piece. Told is whether no mirror may be asked for it any more."""
        self.marks[mirror, piece] += 1
        return not self.able(piece)

    def settle(self, piece):
        """The piece is compared with its digest. Told is the code by which the run ends, if it does."""
        at = slice(piece * self.piece_length, (piece + 1) * self.piece_length)
        if self.stands[at] == self.right[at]:
            self.verified.add(piece)
            self.wrong.discard(piece)
            return None
        self.wrong.add(piece)
        givers = {self.giver[it] for it in self.blocks_of(piece)}
        is_dead = False
        if len(givers) == 1 and OLD not in givers:
            is_dead = self.mark(givers.pop(), piece)
        else:
            self.sole.add(piece)
        if any(self.piece(it) == piece for it in self.saved):
            self.saved = self.listing()
        self.clear(piece)
        return 32 if is_dead else None

    def fetch(self, mirror, first, behind):
        """The mirror is asked for the blocks. Told is the code by which the run ends, if it does."""
        start, came, code, files = self.blocks[first][0], b"", None, self.files[mirror]
        for path, begin, last in parts(files, start, self.blocks[behind - 1][1]):
            while begin <= last and not code:
                self.asked[mirror].append((f"/{quote(path)}", begin, last))
                way = self.ways[mirror].popleft() if self.ways[mirror] else Way()
                some, code = way.came(dict(files)[path][begin : last + 1])
                came += some
                begin += len(some)
            if code:
                break
        for block in range(first, behind):
            at, end = self.blocks[block]
            if end - start > len(came):
                return self.lose(mirror, self.piece(block), code)
            self.stands[at:end] = came[at - start : end - start]
            self.giver[block] = mirror
        return None

    def lose(self, mirror, piece, code):
        is_dead = self.mark(mirror, piece)
        if piece in self.sole:
            self.clear(piece)
        return code if is_dead else None

    def run(self):
        """How the run ends."""
        status = None
        while status is None and not self.wanted <= self.verified:
            full = self.full()
            status = self.settle(full[0]) if full else self.fetch(*self.claim())
        completed = sum(end - at for at, end in (self.blocks[it] for it in self.giver))
        return Outcome(status or 0, completed, self.asked, bytes(self.stands), sorted(self.saved))
