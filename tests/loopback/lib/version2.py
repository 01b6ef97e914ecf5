"""Torrents of version 2 (BEP 52), made and checked by libtorrent, and what a check of their payloads has to count and write."""
import hashlib
import json
import re
import subprocess
from dataclasses import dataclass

from lib.rooms import PROGRAM
from lib.wants import Late, want

BLOCK = 16_384
# The Python for which Debian's package of libtorrent is.
PYTHON = "/usr/bin/python3"

# Makes a torrent of what stands at a path, and writes it.
MAKES = """
import os, sys
import libtorrent as lt
path, piece_length, is_hybrid, into = sys.argv[1], int(sys.argv[2]), sys.argv[3] == "hybrid", sys.argv[4]
files = lt.file_storage()
lt.add_files(files, path)
torrent = lt.create_torrent(files, piece_length, 0 if is_hybrid else lt.create_torrent.v2_only)
lt.set_piece_hashes(torrent, os.path.dirname(path))
with open(into, "wb") as it:
    it.write(lt.bencode(torrent.generate()))
"""

# Tells whether libtorrent finds all of a torrent's pieces in a folder.
CHECKS = """
import json, sys, time
import libtorrent as lt
session = lt.session({"listen_interfaces": "", "enable_dht": False, "enable_lsd": False, "enable_upnp": False, "enable_natpmp": False})
asked = lt.add_torrent_params()
asked.ti, asked.save_path = lt.torrent_info(sys.argv[1]), sys.argv[2]
handle = session.add_torrent(asked)
checking = (lt.torrent_status.checking_files, lt.torrent_status.checking_resume_data)
for _ in range(600):
    status = handle.status()
    if status.state not in checking:
        break
    time.sleep(0.05)
print(json.dumps(status.state == lt.torrent_status.seeding))
"""


def has_libtorrent():
    ran = subprocess.run([PYTHON, "-c", "import libtorrent"], capture_output=True, check=False)
    return ran.returncode == 0


def told_by(script, *words):
    ran = subprocess.run([PYTHON, "-c", script, *words], capture_output=True, timeout=60, check=False)
    want(ran.returncode == 0, f"libtorrent ended with {ran.stderr[-300:]!r}")
    return ran.stdout


def root_over(row, width, pad=bytes(32)):
    """The root over a row of hashes that is as wide as that."""
    row = row + [pad] * (width - len(row))
    while len(row) > 1:
        row = [hashlib.sha256(row[at] + row[at + 1]).digest() for at in range(0, len(row), 2)]
    return row[0]


def leaves_of(content):
    return [hashlib.sha256(content[at : at + BLOCK]).digest() for at in range(0, len(content), BLOCK)]


def least_width(count):
    return 1 << (count - 1).bit_length()


@dataclass
class Counts:
    pieces: int = 0
    right: int = 0
    repaired: int = 0
    blocks: int = 0

    def line(self):
        return b"pieces %d right %d repaired %d blocks %d\n" % (self.pieces, self.right, self.repaired, self.blocks)

    def status(self):
        return 0 if self.right + self.repaired == self.pieces else 32


@dataclass
class Files:
    """The files of a payload by their paths, and how long a piece is."""

    files: dict
    piece_length: int

    def hash_of(self, path, content):
        """The hash of a piece of this file that has these bytes."""
        leaves = leaves_of(content)
        is_long = len(self.files[path]) > self.piece_length
        return root_over(leaves, self.piece_length // BLOCK if is_long else least_width(len(leaves)))

    def spans(self, path):
        total = len(self.files[path])
        return [(at, min(at + self.piece_length, total)) for at in range(0, total, self.piece_length)]

    def is_right(self, path, span, content):
        start, stop = span
        right = self.files[path][start:stop]
        return content is not None and len(content) >= stop and self.hash_of(path, content[start:stop]) == self.hash_of(path, right)

    def repaired(self, path, own, copy, counts):
        """What a repair leaves of a file, and counts of it."""
        total = len(self.files[path])
        short = len(own or b"") < total
        left = None
        for start, stop in self.spans(path):
            counts.pieces += 1
            if self.is_right(path, (start, stop), own):
                counts.right += 1
            elif self.is_right(path, (start, stop), copy):
                counts.repaired += 1
                if left is None:
                    left = bytearray((own or b"").ljust(total, b"\0"))
                for at in range(start, stop, BLOCK):
                    block = slice(at, min(at + BLOCK, stop))
                    if short or left[block] != copy[block]:
                        counts.blocks += 1
                        left[block] = copy[block]
        return own if left is None else bytes(left)

    def wanted(self, own, copy):
        """What is counted of files that stand so, and how they stand behind it; None is a missing one."""
        counts = Counts()
        left = {it: self.repaired(it, own.get(it), copy.get(it), counts) for it in self.files}
        return counts, left


def made(room, path, piece_length, kind):
    """Makes the metainfo file of what stands at a path in a room."""
    told_by(MAKES, room.path(path), str(piece_length), kind, room.path("t.torrent"))


class Payload2:
    """A payload that stands right in a folder `right` of a room, and its metainfo file."""

    def __init__(self, room, content, name, piece_length, kind):
        self.room = room
        self.name = name
        files = {name: content} if isinstance(content, bytes) else {f"{name}/{path}": it for path, it in content.items()}
        self.files = Files(files, piece_length)
        for path, it in files.items():
            room.put(f"right/{path}", it)
        made(room, f"right/{name}", piece_length, kind)

    def stands(self, folder):
        """The files in a folder of the room; a missing one isn't there."""
        found = {it: self.room.get(f"{folder}/{it}") for it in self.files.files}
        return {it: content for it, content in found.items() if content is not None}

    def put(self, folder, files):
        for path, content in files.items():
            self.room.put(f"{folder}/{path}", content)

    def is_whole(self, folder):
        """Whether libtorrent finds all pieces there."""
        return json.loads(told_by(CHECKS, self.room.path("t.torrent"), self.room.path(folder)))


def begun(room, *words, shell=""):
    """The process of a check on these words, in the room's folder. A line of shell may come first."""
    begin = ["sh", "-c", f'{shell}\nexec "$@"', "sh"] if shell else []
    return subprocess.Popen(
        [*begin, PROGRAM, *words], cwd=room.folder, stdin=subprocess.DEVNULL, stdout=subprocess.PIPE, stderr=subprocess.PIPE
    )


def said_of(room, *words, shell="", limit=60):
    """How a check ends on these words: its status, what it wrote, and what it told on standard error."""
    started = begun(room, *words, shell=shell)
    try:
        wrote, said = started.communicate(timeout=limit)
    except subprocess.TimeoutExpired:
        raise Late(f"the check had not ended after {limit} seconds") from None
    finally:
        if started.poll() is None:
            started.kill()
            started.communicate()
    want_told(said, wrote, started.returncode)
    return started.returncode, wrote, said


def checked(room, *words, shell="", limit=60):
    """How a check ends on these words: its status, and what it wrote."""
    return said_of(room, *words, shell=shell, limit=limit)[:2]


TOLD = re.compile(r".+: (?:piece \d+ is wrong|wrote block \d+|wrote blocks (\d+) to (\d+)|(\d+) wrong, (\d+) repaired)")
COUNTED = re.compile(r"pieces (\d+) right (\d+) repaired (\d+) blocks (\d+)\n")


def want_told(said, wrote, status):
    """What a check tells on standard error, of each wrong piece and of each block that it writes, is what it counted. Why its status
    isn't 0 it tells there, too, unless it was killed.
    """
    lines = said.decode().split("\n")[:-1]
    why = [it for it in lines if it.startswith("aria_cli: ")]
    want(status in (-9, 137) or bool(why) == bool(status), f"with the status {status} it told why by {why}")
    told = [(it, TOLD.fullmatch(it)) for it in lines if it not in why]
    want(all(it for _, it in told), f"it wrote to standard error: {said[:200]!r}")
    counted = COUNTED.fullmatch(wrote.decode())
    if counted:
        pieces, right, repaired, blocks = map(int, counted.groups())
        found = sum(it.endswith(" is wrong") for it in lines)
        mended = sum(int(it[4] or 0) for _, it in told)
        written = sum(int(it[2]) - int(it[1]) + 1 if it[1] else ": wrote block " in line for line, it in told)
        was = (pieces - right, repaired, blocks)
        want((found, mended, written) == was, f"it told of {(found, mended, written)}, and counted {was}")
