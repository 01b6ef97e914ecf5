"""The cases of the store over real files: it reads what aria2 left, aria2 takes ours, and what else may stand."""
import os
import re
import shutil
import subprocess

from lib.aria2 import ARIA2, interrupted
from lib.controls import BLOCK, blocks_of, packed, read, rows_of, written
from lib.mirrors import Site
from lib.payloads import SMALL
from lib.rooms import LIMIT, case
from lib.sevens import ALL, HASH, PIECE, SEVEN, TORN, refused
from lib.torrents import whole
from lib.wants import about, want, want_in_time


def clear(room):
    """Nothing stands of the download."""
    for name in os.listdir(room.folder):
        if name.startswith("a"):
            path = room.path(name)
            shutil.rmtree(path) if os.path.isdir(path) else os.remove(path)


def holds(room, listed, payload=SEVEN):
    """The file has its length, and the bytes of each listed block."""
    got = room.get("a")
    want(len(got) == len(payload), f"the file has {len(got)} bytes")
    for block, is_listed in enumerate(listed):
        at = slice(block * BLOCK, (block + 1) * BLOCK)
        want(not is_listed or got[at] == payload[at], f"block {block} isn't that of the payload")


def brings(listed):
    """The words that bring the store these blocks, one after the other."""
    return [f"bring:{block}:1:payload" for block, is_listed in enumerate(listed) if is_listed]


# After how many bytes aria2 is stopped: in the midst of a block, and at the end of one.
@case("the control file that aria2 left is read and written", "aria2c", "disk", slow=True)
def _(room):
    room.put("payload", SEVEN)
    for most in (20_000, 50_000, 98_304, 150_000, 199_999):
        with about(f"after {most} bytes"):
            clear(room)
            content = interrupted(room, SEVEN, most, PIECE)
            control = read(content)
            listed = blocks_of(control)
            want(sum(listed) <= most // BLOCK, f"aria2 lists {rows_of(control)}")
            want_in_time(sum(listed) == most // BLOCK, f"aria2 lists {rows_of(control)}")
            room.stores(rows_of(control))
            holds(room, listed)
            # a piece of which no block has come is in flight for aria2, and not for us
            is_same = all(any(bits) for bits in control.flying.values())
            got = room.get("a.aria2")
            want(not is_same or got == content, f"the control file is {got.hex()}, and was {content.hex()}")
            clear(room)
            room.stores(*["brought"] * sum(listed), words=brings(listed))
            ours = room.get("a.aria2")
            want(ours == got, f"for the same progress the control file is {ours.hex()}, and not {got.hex()}")


@case("aria2 goes on from what the store left", "aria2c", "disk", slow=True)
def _(room):
    room.put("payload", SEVEN)
    for listed in (
        [0] * 13,
        [1] * 12 + [0],
        [1, 1, 1] + [0] * 10,
        [1, 1, 0, 0, 1, 1, 0, 1, 0, 0, 0, 0, 0],
        [0] * 12 + [1],
    ):
        with about(f"{listed}"), Site({"/a.bin": SEVEN}) as site:
            clear(room)
            room.torrent(site.url(), SEVEN, b"a", PIECE)
            room.stores(*["brought"] * sum(listed), words=brings(listed))
            room.stores(f"pieces {packed(pieces_of(listed)).hex()} blocks {packed(listed).hex()}")
            ran = subprocess.run(
                [*ARIA2, "--continue=true", "t.torrent"],
                cwd=room.folder,
                stdin=subprocess.DEVNULL,
                stdout=subprocess.DEVNULL,
                timeout=LIMIT,
                check=False,
            )
            want(ran.returncode == 0, f"aria2 ended with {ran.returncode}")
            want(room.get("a") == SEVEN, "the payload isn't whole")
            want(not room.control_files(), "a control file stands")
            begins = [int(re.search(rb"\r\nRange: bytes=(\d+)-", it)[1]) for it in site.requests]
            want(begins, "nothing was asked for")
            for begin in begins:
                want(not listed[begin // BLOCK] and begin % BLOCK == 0, f"aria2 asked from {begin} on")


def pieces_of(listed):
    return [all(listed[at : at + PIECE // BLOCK]) for at in range(0, len(listed), PIECE // BLOCK)]


@case("the store where the payload isn't as it was")
def _(room):
    room.torrent(None, SEVEN, b"a", PIECE)
    for name, content, told, left in (
        ("missing", None, "pieces 00 blocks 0000", b""),
        ("empty", b"", "pieces 00 blocks 0000", b""),
        ("shorter", SEVEN[:100_000], "pieces e0 blocks fc00", SEVEN[:100_000]),
        ("a byte short of a piece", SEVEN[:98_303], "pieces c0 blocks f000", SEVEN[:98_303]),
        ("a byte shorter", SEVEN[:-1], "pieces fc blocks fff0", SEVEN[:-1]),
        ("whole", SEVEN, "pieces fe blocks fff8", SEVEN),
        ("longer", SEVEN + b"x" * 1_000, "pieces fe blocks fff8", SEVEN),
    ):
        with about(name):
            clear(room)
            room.put("a.aria2", ALL)
            if content is not None:
                room.put("a", content)
            room.stores(told)
            want(room.get("a") == left.ljust(len(SEVEN), b"\0"), "the file isn't as it was, but for its length")
            room.stores(told)


@case("the store by the digests of the pieces")
def _(room):
    room.torrent(None, SEVEN, b"a", PIECE)
    for name, content, files, words, told in (
        ("without a control file", TORN, {}, ["open"], "pieces be blocks cff8"),
        ("beside one that lists all", TORN, {"a.aria2": ALL}, ["open"], "pieces fe blocks fff8"),
        ("beside one, compared", TORN, {"a.aria2": ALL}, ["check"], "pieces be blocks cff8"),
        ("compared beside one that lists none", SEVEN, {"a.aria2": written(HASH, PIECE, 200_000, b"\0")}, ["check"],
         "pieces fe blocks fff8"),
    ):
        with about(name):
            clear(room)
            for path, bits in {"a": content, **files}.items():
                room.put(path, bits)
            room.stores(told, words=words)
            want(room.get("a") == content, "the file isn't as it was")
            room.stores(told)


@case("the store refuses a control file, and changes nothing")
def _(room):
    room.torrent(None, SEVEN, b"a", PIECE)
    room.put("a", SEVEN[:100_000])
    for name, content, told, _ in refused():
        with about(name):
            room.put("a.aria2", content)
            stood = room.standing()
            room.stores(told, told, words=("open", "check"))
            want(room.standing() == stood, "something has changed")


@case("a folder stands in the place of a file of the store")
def _(room):
    room.torrent(None, SEVEN, b"a", PIECE)
    for folder, files in (
        ("a", {}),
        ("a", {"a.aria2": ALL}),
        ("a.aria2", {}),
        ("a.aria2", {"a": SEVEN}),
        ("a.aria2__temp", {"a": SEVEN, "a.aria2": ALL}),
        ("a.aria2__temp", {"a": SEVEN[:5], "a.aria2": ALL}),
    ):
        with about(f"{folder} beside {[*files]}"):
            clear(room)
            os.mkdir(room.path(folder))
            for path, content in files.items():
                room.put(path, content)
            room.stores("a fault of the disk")
            want(os.path.isdir(room.path(folder)), "the folder has gone")
            for path, content in files.items():
                got = room.get(path)
                right = content.ljust(len(SEVEN), b"\0") if path == "a" else content
                want(got in (content, right), f"{path} isn't as it was")


@case("the store of a payload of several files")
def _(room):
    payload = whole(SMALL)
    room.torrent(None, SMALL, b"a", 16)
    room.put("payload", payload)
    room.stores("pieces 00 blocks 00", "brought", "a block of it stands", "pieces 40 blocks 40", words=(
        "open", "bring:1:1:payload", "bring:0:2:payload", "open"))
    want(room.control_files() == {"a.aria2"}, f"{room.control_files()} stand")
    room.stores("brought", "brought", "finished", "pieces e0 blocks e0", words=(
        "bring:2:1:payload", "bring:0:1:payload", "finish", "check"))
    room.has(SMALL)
    room.stores("finished", "a fault of the disk", words=("finish", "finish"))
    clear(room)
    room.put("a", b"a file in the folder's place")
    room.stores("a fault of the disk")
    want(room.get("a") == b"a file in the folder's place", "the file has changed")
