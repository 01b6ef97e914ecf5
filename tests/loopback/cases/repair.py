"""The cases of payloads of version 2 torrents that are checked and repaired, beside libtorrent and hashlib."""
import os
import re

from cases.readout import CLEARED, joined, shown_on_a_terminal
from lib.faults import Faults
from lib.payloads import MIB, noise
from lib.rooms import case
from lib.torrents import Raw, bencoded
from lib.version2 import BLOCK, Payload2, checked, made, said_of
from lib.wants import about, want, want_in_time

PIECE = 32_768
# Three leaves in two pieces.
FORTY = noise(40_000)
# Files of all lengths that mean something where a piece has two blocks.
MANY = {
    "none": b"",
    "one": b"1",
    "d/block": noise(BLOCK),
    "d/more": noise(BLOCK + 1),
    "d/e/piece": noise(PIECE),
    "ü z/more": noise(PIECE + 1),
    "forty": FORTY,
    "three": noise(3 * PIECE - 1),
    "same": FORTY,
}
# Five hundred blocks, and pieces of 64 of them.
LONG = noise(500 * BLOCK + 77)
KINDS = ("plain", "hybrid")

# The longest pieces that there are.
GREATEST = 1 << 26

WORDS = ("--verify-v2=t.torrent", "--dir=own", "--copy-dir=copy")
# Begins a program as nobody.
NOBODY = 'exec setpriv --reuid=65534 --regid=65534 --clear-groups "$@"'
# A line of progress of half a GiB. A check has no connections.
DRAWN = re.compile(rb"\[([0-9.]+)MiB/512\.0MiB\((\d+)%\) CN:0 DL:[0-9.]+(?:[KM]i)?B(?: ETA:(?:\d+m)?\d+s)?\]")


def flipped(content, at):
    return content[:at] + bytes([content[at] ^ 1]) + content[at + 1 :]


def damages(files):
    """Ways in which files may stand wrong: each a name, and what becomes of them."""
    some = {path: content for path, content in files.items() if content}
    yield "nothing", dict(files)
    yield "the first bytes", {path: flipped(it, 0) if it else it for path, it in files.items()}
    yield "the last bytes", {path: flipped(it, len(it) - 1) if it else it for path, it in files.items()}
    yield "the midst", {path: flipped(it, len(it) // 2) if it else it for path, it in files.items()}
    yield "cut to a half", {path: it[: len(it) // 2] for path, it in files.items()}
    yield "cut by a byte", {path: it[:-1] for path, it in files.items()}
    yield "empty files", {path: b"" for path in files}
    yield "longer", {path: it + b"more" for path, it in files.items()}
    yield "longer and wrong", {path: flipped(it + b"more", 0) for path, it in files.items()}
    yield "no files", {}
    yield "each second missing", dict([*files.items()][::2])
    yield "zeros", {path: bytes(len(it)) for path, it in some.items()}


def want_check(payload, words, own, copy, status=None):
    """A check of files that stand so ends and leaves them as it has to."""
    counts, left = payload.files.wanted(own, copy)
    ended = checked(payload.room, *words)
    want(ended == (counts.status(), counts.line()), f"it ended with {ended}, and not {counts.status()}, {counts.line()!r}")
    want(status in (None, ended[0]), f"status {ended[0]}, and not {status}")
    stands = payload.stands("own")
    right = {path: content for path, content in left.items() if content is not None}
    wrong = [path for path in {*stands, *right} if stands.get(path) != right.get(path)]
    want(not wrong, f"these files don't stand as they should: {wrong}")
    return counts


def each_damage(room, content, name, piece_length):
    for kind in KINDS:
        payload = Payload2(room, content, name, piece_length, kind)
        files = payload.files.files
        for damage, own in damages(files):
            with about(f"{kind}, {damage}"):
                room.clear("own")
                room.clear("copy")
                payload.put("own", own)
                payload.put("copy", files)
                yield payload, own


@case("files of a version 2 torrent are repaired, and libtorrent finds them whole", "libtorrent")
def _(room):
    for content, name in ((FORTY, "forty"), (b"hello", "ü z"), (MANY, "many")):
        for payload, own in each_damage(room, content, name, PIECE):
            want_check(payload, WORDS, own, payload.files.files, 0)
            # an empty file isn't made, and libtorrent doesn't miss it
            want(payload.is_whole("own"), "libtorrent finds a piece that is wrong")


@case("files of a version 2 torrent are checked without a copy, and stay as they are", "libtorrent")
def _(room):
    for content, name in ((FORTY, "forty"), (MANY, "many")):
        for payload, own in each_damage(room, content, name, PIECE):
            before = payload.stands("own")
            counts = want_check(payload, WORDS[:2], own, {})
            want(counts.repaired == counts.blocks == 0, "something was repaired")
            want(payload.stands("own") == before, "a file was changed")
            want((counts.right == counts.pieces) == payload.is_whole("own"), "libtorrent finds otherwise")


@case("a copy that is wrong too repairs the pieces that it has right", "libtorrent")
def _(room):
    payload = Payload2(room, MANY, "many", PIECE, "plain")
    files = payload.files.files
    ways = dict(damages(files))
    for one, own in ways.items():
        for other, copy in ways.items():
            with about(f"{one}, and of the copy {other}"):
                room.clear("own")
                room.clear("copy")
                payload.put("own", own)
                payload.put("copy", copy)
                want_check(payload, WORDS, own, copy)
                want(payload.stands("copy") == copy, "the copy was changed")


@case("the line of a check is as told, and its status", "libtorrent")
def _(room):
    Payload2(room, b"hello", "a", BLOCK, "plain")
    room.put("own/a", b"hellO")
    room.put("copy/a", b"hello")
    ended = checked(room, *WORDS[:2])
    want(ended == (32, b"pieces 1 right 0 repaired 0 blocks 0\n"), f"without a copy it ended with {ended}")
    ended = checked(room, *WORDS)
    want(ended == (0, b"pieces 1 right 0 repaired 1 blocks 1\n"), f"it ended with {ended}")
    ended = checked(room, *WORDS)
    want(ended == (0, b"pieces 1 right 1 repaired 0 blocks 0\n"), f"it ended with {ended}")


@case("a folder that is its own copy stays as it is", "libtorrent")
def _(room):
    payload = Payload2(room, MANY, "many", PIECE, "plain")
    os.symlink("own", room.path("link"))
    for damage, own in damages(payload.files.files):
        for other in ("own", "own/.", "../" + os.path.basename(room.folder) + "/own", "link"):
            with about(f"{damage}, by the name {other}"):
                room.clear("own")
                payload.put("own", own)
                before = payload.stands("own")
                counts = want_check(payload, (*WORDS[:2], f"--copy-dir={other}"), own, own)
                want(counts.repaired == 0, "something was repaired")
                want(payload.stands("own") == before, "a file was changed")


def deep(levels, within):
    """What stands behind so many keys."""
    return Raw(b"d1:a" * levels + within + b"e" * levels)


@case("metainfo files that give no payload of version 2 are refused", "libtorrent")
def _(room):
    Payload2(room, b"hello", "a", BLOCK, "plain")
    room.put("own/a", b"hello")
    right = room.get("t.torrent")
    file = bencoded({"": {"length": 5, "pieces root": bytes(32)}})
    info = {"file tree": {"a": Raw(file)}, "meta version": 2, "name": "a"}
    for name, status, content in (
        ("nothing", 25, b""),
        ("cut by a byte", 25, right[:-1]),
        ("a byte behind it", 25, right + b"e"),
        ("a list", 26, b"le"),
        ("version 1", 26, bencoded({"info": {"length": 5, "name": "a", "piece length": BLOCK, "pieces": bytes(20)}})),
        ("a piece of 16,383 bytes", 26, bencoded({"info": {**info, "piece length": BLOCK - 1}})),
        ("a tree of 101 levels", 25, bencoded({"info": {**info, "piece length": BLOCK, "file tree": deep(101, b"de")}})),
        ("a path of 90 parts", 26, bencoded({"info": {**info, "piece length": BLOCK, "file tree": deep(90, file)}})),
        ("too long", 26, right.ljust(33_554_433, b" ")),
    ):
        room.put("t.torrent", content)
        ended = checked(room, *WORDS)
        want(ended == (status, b"error %d\n" % status), f"{name}: it ended with {ended}, and not {status}")
    room.put("t.torrent", bencoded({"info": {**info, "piece length": BLOCK, "file tree": {}}}))
    ended = checked(room, *WORDS)
    want(ended == (0, b"pieces 0 right 0 repaired 0 blocks 0\n"), f"without files it ended with {ended}")
    for word, status in (("none.torrent", 3), ("own", 17)):
        ended = checked(room, f"--verify-v2={word}", *WORDS[1:])
        want(ended == (status, b"error %d\n" % status), f"{word}: it ended with {ended}, and not {status}")


@case("a folder in a file's place ends a check", "libtorrent")
def _(room):
    payload = Payload2(room, MANY, "many", PIECE, "plain")
    payload.put("copy", payload.files.files)
    os.makedirs(room.path("own/many/forty"))
    ended = checked(room, *WORDS)
    want(ended == (17, b""), f"it ended with {ended}")
    room.clear("own")
    room.clear("copy")
    payload.put("own", {})
    os.makedirs(room.path("copy/many/forty"))
    ended = checked(room, *WORDS)
    want(ended == (17, b""), f"with the copy's it ended with {ended}")


@case("a file of a payload that this user may not read ends a check", "libtorrent", "setpriv")
def _(room):
    payload = Payload2(room, {"forty": FORTY, "small": b"small"}, "p", PIECE, "plain")
    payload.put("own", payload.files.files)
    payload.put("copy", payload.files.files)
    room.put("own/p/forty", flipped(FORTY, 0))
    os.chmod(room.folder, 0o755)
    for name, words in (("own/p/small", WORDS[:2]), ("copy/p/forty", WORDS)):
        with about(name):
            before = room.standing()
            os.chmod(room.path(name), 0o600)
            status, wrote, said = said_of(room, *words, shell=NOBODY)
            want((status, wrote) == (17, b""), f"it ended with {status}, and wrote {wrote!r}")
            want(f"{name}: there is no right to it\n" in said.decode(), f"it told {said!r}")
            want(room.standing() == before, "a file was changed")
            os.chmod(room.path(name), 0o644)
    status, wrote, said = said_of(room, *WORDS[:2], shell=NOBODY)
    want((status, wrote) == (32, b"pieces 3 right 2 repaired 0 blocks 0\n"), f"with the right to it {status}, {wrote!r}, {said!r}")


@case("a payload in the longest pieces is repaired, block by block", "libtorrent", slow=True)
def _(room):
    content = noise(MIB) * (GREATEST // MIB) + noise(BLOCK + 1)
    payload = Payload2(room, content, "a", GREATEST, "plain")
    # the last byte of the first piece, and the first of the next one
    own = {"a": flipped(flipped(content, GREATEST - 1), GREATEST)}
    payload.put("own", own)
    payload.put("copy", payload.files.files)
    want_check(payload, WORDS[:2], own, {}, 32)
    want_check(payload, WORDS, own, payload.files.files, 0)
    want(payload.is_whole("own"), "libtorrent finds a piece that is wrong")
    ended = checked(room, *WORDS)
    want(ended == (0, b"pieces 2 right 2 repaired 0 blocks 0\n"), f"the next check ended with {ended}")
    payload.put("own", own)
    ended = checked(room, *WORDS)
    want(ended == (0, b"pieces 2 right 0 repaired 2 blocks 2\n"), f"it ended with {ended}")


@case("a line of progress of a check on a terminal", "libtorrent", slow=True)
def _(room):
    os.mkdir(room.path("own"))
    with open(room.path("own/a"), "wb") as it:
        it.truncate(512 * MIB)
    made(room, "own/a", MIB, "plain")
    # one processor takes some seconds for it
    ours = os.sched_getaffinity(0)
    os.sched_setaffinity(0, {min(ours)})
    try:
        drawn, wrote, status = shown_on_a_terminal(room, *WORDS[:2])
    finally:
        os.sched_setaffinity(0, ours)
    want((wrote, status) == (b"pieces 512 right 512 repaired 0 blocks 0\n", 0), f"status {status}, output {wrote!r}")
    front, *lines = joined(drawn).split(CLEARED)
    want(front == b"", f"it began with {front!r}")
    want(lines and lines[-1] == b"", f"it drew {lines}")
    done = []
    for it in lines[:-1]:
        fields = DRAWN.fullmatch(it)
        want(fields, f"it drew {it!r}")
        done.append(float(fields[1]))
        want(int(fields[2]) == done[-1] * 100 // 512, f"it drew {it!r}")
    want(done == sorted(set(done)), f"it drew {lines}")
    # the first is drawn at once
    want(done[:1] == [1.0], f"it drew {lines}")
    want_in_time(2 <= len(done) <= 12, f"it drew {lines}")


def long_payload(room):
    """A payload of several files, of which some pieces are wrong, some missing, and all right in the copy."""
    files = {"d/long": LONG, "small": b"small", "cut": noise(5 * BLOCK), "gone": noise(BLOCK + 5)}
    payload = Payload2(room, files, "p", 64 * BLOCK, "plain")
    own = dict(payload.files.files)
    for at in range(0, len(LONG), 96 * BLOCK):
        own["p/d/long"] = flipped(own["p/d/long"], at)
    own["p/cut"] = own["p/cut"][:-BLOCK]
    del own["p/gone"]
    payload.put("copy", payload.files.files)
    return payload, own


def right_pieces(payload, folder):
    stands = payload.stands(folder)
    return {
        (path, span)
        for path in payload.files.files
        for span in payload.files.spans(path)
        if payload.files.is_right(path, span, stands.get(path))
    }


def each_call(room, does):
    """Repairs that don't get past one call of the disk, some fifty of all calls in turn."""
    faults = Faults(room.folder)
    payload, own = long_payload(room)
    room.clear("own")
    payload.put("own", own)
    ended = checked(room, *WORDS, shell=faults.noting())
    want(ended[0] == 0, f"it ended with {ended}")
    # others look for how many processors there are; a folder that can't be looked for is made, and one that can't be made is looked for
    numbers = [it.number for it in faults.notes() if it.path.startswith(faults.folder) and "folder" not in it.does]
    want(len(numbers) >= 50, f"just {len(numbers)} calls of the disk came")
    for number in numbers[:: max(1, len(numbers) // 50)]:
        room.clear("own")
        payload.put("own", own)
        before = right_pieces(payload, "own")
        with about(f"call {number}"):
            ended = checked(room, *WORDS, shell=faults.shell(FAULT_AT=number, FAULT_DOES=does))
            lost = before - right_pieces(payload, "own")
            want(not lost, f"these pieces were right: {lost}")
            yield number, ended
            again = checked(room, *WORDS)
            want(again[0] == 0, f"the next check ended with {again}")
            want(payload.stands("own") == payload.files.files, "the next check left a file wrong")


@case("a repair that is killed at a call of the disk leaves right what was right", "cc", "libtorrent")
def _(room):
    for _, ended in each_call(room, "tears"):
        want(ended[0] in (-9, 137), f"it ended with {ended}")


@case("a repair whose disk fails at a call leaves right what was right", "cc", "libtorrent")
def _(room):
    for _, ended in each_call(room, "fails"):
        want(ended in ((17, b""), (17, b"error 17\n")), f"it ended with {ended}")
