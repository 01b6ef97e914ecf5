"""The cases of payloads of many pieces and many files."""
import os
import socket

from lib.mirrors import Site, head, reply
from lib.payloads import LONG, MIB, MIB_CLAIMS, PIECE, SMALL, SPREAD, THREE, blocks_of, noise, served, turned, want_all_asked
from lib.rooms import BY_MIB, LITTLE, ONCE, case, files_of, want_asked
from lib.torrents import MOST_PIECES, digests, info_of, whole
from lib.wants import about, want


def fetches_from_site(room, payload, piece_length=PIECE, name="a", claimed=None, **how):
    """A run fetches the payload, and asks for each part of each claim."""
    with Site(served(payload, name)) as site:
        room.torrent(site.url(target="/"), payload, name=name, piece_length=piece_length)
        room.fetches(payload, name, **how)
        want_all_asked(site, payload, piece_length, name, **claimed or {})


def by_mib(room, payload, piece_length=MIB, **how):
    """The same, where each claim is of 64 blocks."""
    fetches_from_site(room, payload, piece_length, claimed=MIB_CLAIMS, words=BY_MIB, **how)


# One file of several pieces.


@case("three pieces, the last one shorter")
def _(room):
    with Site({"/a.bin": LONG}) as site:
        room.torrent(site.url(), LONG, piece_length=MIB)
        room.fetches(LONG, words=BY_MIB)
        pieces = [(0, 1_048_575), (1_048_576, 2_097_151), (2_097_152, 2_497_151)]
        want_asked(site, [("/a.bin", *it) for it in pieces])


@case("three pieces in one claim")
def _(room):
    with Site({"/a.bin": THREE}) as site:
        room.torrent(site.url(), THREE)
        room.fetches(THREE)
        want_asked(site, [("/a.bin", 0, 39_999)])


@case("pieces of unusual lengths")
def _(room):
    for length, piece_length in ((32_768, PIECE), (32_769, PIECE), (5, 1), (1_000, 333), (39_999, 19_999), (7, 4)):
        with about(f"{length} bytes in pieces of {piece_length}"):
            fetches_from_site(room, THREE[:length], piece_length)
    # claims begin and end within pieces
    for length, piece_length in (
        (len(LONG), 999_999),
        (2 * MIB, MIB),
        (2 * MIB + 1, MIB),
        (len(LONG), 2 * MIB),
        (900_000, 7_000),
    ):
        with about(f"{length} bytes in pieces of {piece_length}"):
            by_mib(room, LONG[:length], piece_length)


@case("2,000 pieces", alone=True)
def _(room):
    fetches_from_site(room, noise(2_000 * PIECE - 1), limit=100)


@case("a piece that is wrong")
def _(room):
    for place, at in ((0, 0), (1, MIB), (1, 2 * MIB - 1), (2, len(LONG) - 1)):
        wrong = turned(LONG, [at])
        with about(f"byte {at}"), Site({"/a.bin": wrong}) as site:
            room.torrent(site.url(), LONG, piece_length=MIB)
            stands = wrong[: (place + 1) * MIB].ljust(len(LONG), b"\0")
            room.fails(32, LONG, place * MIB, stands=stands, words=BY_MIB)
            # nothing is asked after the first loss
            want(len(site.requests) == place + 1, f"{len(site.requests)} requests came")


@case("a piece that is wrong in a claim of three")
def _(room):
    for place, at in ((0, 0), (1, 16_384), (1, 32_767), (2, 39_999)):
        wrong = turned(THREE, [at])
        with about(f"byte {at}"), Site({"/a.bin": wrong}) as site:
            room.torrent(site.url(), THREE)
            cleared = len(THREE[place * PIECE : (place + 1) * PIECE])
            room.fails(32, THREE, len(THREE) - cleared, stands=wrong)
            want_asked(site, [("/a.bin", 0, 39_999)])


SECOND = LONG[MIB : 2 * MIB]
TOTAL = len(LONG)
REVERSED = LONG[::-1]
LATER = [
    (3, "404", head(b"Content-Length: 0", status=b"404 Not Found")),
    (24, "401", head(b"Content-Length: 0", status=b"401 Unauthorized")),
    (29, "503", head(b"Content-Length: 0", status=b"503 Service Unavailable")),
    (22, "500", head(b"Content-Length: 0", status=b"500 Internal Server Error")),
    (22, "200, with the piece alone", head(b"Content-Length: %d" % MIB, status=b"200 OK") + SECOND),
    (22, "the first piece again", reply(LONG[:MIB], total=TOTAL)),
    (22, "of another total", reply(SECOND, first=MIB, total=TOTAL + 1)),
    (22, "longer", reply(SECOND + LONG[-1:], first=MIB, total=TOTAL)),
    (22, "no HTTP", b"hello\r\n\r\n"),
    (6, "missing", b""),
    (6, "cut in its head", reply(SECOND, first=MIB, total=TOTAL)[:20]),
    (6, "cut in its first block", reply(SECOND, first=MIB, total=TOTAL)[: -MIB + PIECE - 1]),
]
for _status, _what, _bytes in LATER:

    @case(f"a second reply that is {_what}")
    def _(room, status=_status, answer=_bytes):
        # where nothing comes the request goes once more, on a new connection
        with Site({"/a.bin": LONG}, instead={1: answer, 2: b""}) as site:
            room.torrent(site.url(), LONG, piece_length=MIB)
            room.fails(status, LONG, MIB, words=BY_MIB)
            want(len(site.requests) == 2 + (not answer), f"{len(site.requests)} requests came")


@case("a second reply that is cut in its body")
def _(room):
    for blocks in (1, 2, 32, 63):
        answer = reply(SECOND, first=MIB, total=TOTAL)[: -MIB + (blocks + 1) * PIECE - 1]
        with about(f"behind {blocks} blocks"), Site({"/a.bin": LONG}, instead={1: answer}) as site:
            room.torrent(site.url(), LONG, piece_length=MIB)
            room.fails(6, LONG, MIB + blocks * PIECE, words=BY_MIB)
            want(len(site.requests) == 2, f"{len(site.requests)} requests came")


@case("a second reply of other bytes")
def _(room):
    for name, answer in (
        ("a part", reply(SECOND[::-1], first=MIB, total=TOTAL)),
        ("a whole file in another order", head(b"Content-Length: %d" % TOTAL, status=b"200 OK") + REVERSED),
    ):
        came = answer[-MIB:] if name == "a part" else REVERSED[MIB : 2 * MIB]
        with about(name), Site({"/a.bin": LONG}, instead={1: answer}) as site:
            room.torrent(site.url(), LONG, piece_length=MIB)
            stands = (LONG[:MIB] + came).ljust(TOTAL, b"\0")
            room.fails(32, LONG, MIB, stands=stands, words=BY_MIB)
            want(len(site.requests) == 2, f"{len(site.requests)} requests came")


@case("a second reply that is longer than told")
def _(room):
    answer = reply(SECOND, first=MIB, total=TOTAL) + LONG
    with Site({"/a.bin": LONG}, instead={1: answer}) as site:
        room.torrent(site.url(), LONG, piece_length=MIB)
        room.fetches(LONG, words=BY_MIB)
        want(len(site.requests) == 3, f"{len(site.requests)} requests came")


@case("a mirror that is gone after a piece")
def _(room):
    with Site({"/a.bin": LONG}) as site:
        right = site.answer

        def last_answer(asked):
            site.listener.shutdown(socket.SHUT_RDWR)
            return right(asked)

        site.answer = last_answer
        room.torrent(site.url(), LONG, piece_length=MIB)
        room.fails(6, LONG, MIB, words=BY_MIB)


@case("a run after one that failed")
def _(room):
    # a request that nothing comes of on a connection that was kept goes once more on a new one
    for words, count in ((BY_MIB, 3), (("--check-integrity", *BY_MIB), 2)):
        with about(f"{words}"), Site({"/a.bin": LONG}, instead={1: b"", 2: b""}) as site:
            room.torrent(site.url(), LONG, piece_length=MIB)
            room.fails(6, LONG, MIB, words=BY_MIB)
            # what landed behind the last save counts only where it is compared
            room.fetches(LONG, anew=False, words=words)
            want(len(site.requests) == 3 + count, f"{len(site.requests)} requests came")


@case("a payload of 16 GiB whose second piece is wrong", alone=True)
def _(room):
    total = PIECE * MOST_PIECES
    most = -(-MOST_PIECES // 5) * PIECE

    def piece(place):
        return reply(bytes(PIECE), first=place * PIECE, total=total)

    gone = head(b"Content-Length: 0", status=b"404 Not Found")
    # each claim gets two pieces before it is lost
    with Site(instead=dict(enumerate([piece(0), piece(1), gone, piece(1), piece(2), gone]))) as site:
        right = digests(bytes(PIECE), PIECE) + bytes(20 * (MOST_PIECES - 1))
        info = {**info_of(), "length": total, "pieces": right}
        room.told_by(info, site.url())
        room.ends(32, total, completed=2 * PIECE, words=("--max-tries=2", "t.torrent"), leaves=True)
        want(os.path.getsize(room.path("a")) == total, "the payload has another length")
        first = [("/a.bin", place * PIECE, most - 1) for place in range(3)]
        second = [("/a.bin", place * PIECE, PIECE + most - 1) for place in range(1, 4)]
        want_asked(site, first + second)


# Several files.


@case("several files in folders")
def _(room):
    for payload, piece_length, words, asked in (
        (SMALL, 16, ONCE, [("/a/x", 0, 17), ("/a/d/y", 0, 4), ("/a/d/e/%C3%BC%20z", 0, 8), ("/a/w", 0, 3)]),
        (
            SPREAD,
            MIB,
            BY_MIB,
            [
                ("/a/x", 0, 1_048_575),
                ("/a/x", 1_048_576, 1_179_647),
                ("/a/d/y", 0, 327_679),
                ("/a/d/e/%C3%BC%20z", 0, 589_823),
                ("/a/w", 0, 262_143),
            ],
        ),
    ):
        with Site(served(payload)) as site:
            room.torrent(site.url(target="/"), payload, piece_length=piece_length)
            room.fetches(payload, words=words)
            want_asked(site, asked)


@case("pieces that begin and end within files")
def _(room):
    for piece_length in (1, 2, 5, 7, 18, 19, 23, 32, 35, 36, 37, PIECE):
        with about(f"pieces of {piece_length}"):
            fetches_from_site(room, SMALL, piece_length)
    for piece_length in (16_384, 40_000, 327_680, 999_999, MIB):
        with about(f"large pieces of {piece_length}"):
            by_mib(room, SPREAD, piece_length)


@case("a file alone in a folder")
def _(room):
    fetches_from_site(room, [("x", THREE)])
    fetches_from_site(room, [("d/e/f/x", THREE)], name="b c")


@case("paths that look alike")
def _(room):
    paths = ["a", "A", "aa/a", "a /a", "a./a", "d/e/f", "d/e /f", "d/ee", "d/E", "d.e", "f", "e/f", "d/f", "e/e/f"]
    fetches_from_site(room, [(path, path.encode()) for path in paths], 8)


@case("200 small files, and few open at once")
def _(room):
    files = [(f"{number % 7}/{number % 3}/{number}", noise(number * 37 % 1_000, number)) for number in range(200)]
    fetches_from_site(room, files, shell="ulimit -n 24")


@case("an empty payload")
def _(room):
    with Site() as site:
        for payload in (b"", [("x", b"")], [("d/x", b""), ("d/y", b""), ("z", b"")]):
            room.torrent(site.url(), payload, name=f"a{len(payload)}")
            room.fetches(payload, f"a{len(payload)}")
        room.put("a", b"old")
        room.torrent(site.url(), b"")
        room.fetches(b"", anew=False)
        want(not site.connections, f"{len(site.connections)} connections came")


@case("a later file that is missing, cut or longer")
def _(room):
    files = [("x", THREE), ("y", b"hello"), ("z", THREE)]
    for status, name, content in (
        (3, "missing", None),
        (22, "cut", b"hell"),
        (22, "longer", b"hello!"),
        (22, "empty", b""),
    ):
        with about(name), Site(served(files)) as site:
            site.files["/a/y"] = content
            room.torrent(site.url(target="/"), files, name="a")
            # the third piece lies in the first file, in the second and in the third
            room.fails(status, files, 2 * PIECE)
            want(len(site.requests) == 2, f"{len(site.requests)} requests came")


@case("a wrong part of a piece")
def _(room):
    files = [("x", b"hel"), ("y", b"lo, "), ("z", b"world")]
    for path, content in files:
        with about(path), Site(served(files)) as site:
            site.files[f"/a/{path}"] = content[::-1]
            room.torrent(site.url(target="/"), files)
            came = [(it, right[::-1] if it == path else right) for it, right in files]
            room.fails(32, files, stands=came)
            want_all_asked(site, files)


# How a seed and a path make a target.


@case("the targets of one file")
def _(room):
    for base, target in (
        ("/", "/a%20b"),
        ("/d/", "/d/a%20b"),
        ("/d//", "/d//a%20b"),
        ("/x", "/x"),
        ("", "/"),
        ("/d/?q=/", "/d/?q=/a%20b"),
        ("/d/?q", "/d/?q"),
        ("/d#f", "/d"),
    ):
        with about(base), Site({target: b"hello"}) as site:
            room.torrent(site.url(target=base), name="a b")
            room.fetches(b"hello", "a b")
            want_asked(site, [(target, 0, 4)])


@case("the targets of several files")
def _(room):
    for base, front in (
        ("", "/"),
        ("/", "/"),
        ("/d", "/d/"),
        ("/d/", "/d/"),
        ("/d//", "/d//"),
        ("/d%20e/%C3%A9", "/d%20e/%C3%A9/"),
        ("/d?q", "/d?q/"),
        ("/d/?q=/", "/d/?q=/"),
    ):
        targets = [f"{front}n%20m/s/%C3%A9.txt", f"{front}n%20m/x"]
        with about(base), Site(dict(zip(targets, (b"hel", b"lo")))) as site:
            payload = [("s/é.txt", b"hel"), ("x", b"lo")]
            room.torrent(site.url(target=base), payload, name="n m")
            room.fetches(payload, "n m")
            want_asked(site, [(targets[0], 0, 2), (targets[1], 0, 1)])


@case("each byte in a name")
def _(room):
    letters = "".join(chr(it) for it in range(1, 128) if it != ord("/"))
    target = (
        "%01%02%03%04%05%06%07%08%09%0A%0B%0C%0D%0E%0F%10%11%12%13%14%15%16%17%18%19%1A%1B%1C%1D%1E%1F"
        "%20%21%22%23%24%25%26%27%28%29%2A%2B%2C-.0123456789%3A%3B%3C%3D%3E%3F"
        "%40ABCDEFGHIJKLMNOPQRSTUVWXYZ%5B%5C%5D%5E_%60abcdefghijklmnopqrstuvwxyz%7B%7C%7D~%7F"
    )
    for payload, wanted in ((b"hello", target), ([(letters, b"hello")], f"{target}/{target}")):
        with Site({f"/{wanted}": b"hello"}) as site:
            room.torrent(site.url(target="/"), payload, name=letters)
            room.fetches(payload, letters)
            want_asked(site, [(f"/{wanted}", 0, 4)])


@case("names of any letters")
def _(room):
    names = ["...", "..x", ".hidden", "%2e%2e", "%2F", "~", "-x", " ", "x ", "x.", "CON", "a:b", "c\\d"]
    names += ["é", "e\u0301", "日本", "\u202e", "\ufeff", "\U0001f600", "\u0080", "\U0010ffff", "é" * 127, "x" * 255]
    files = [(f"{name}/{name}", name.encode()) for name in names]
    fetches_from_site(room, files, 64)


@case("a path of 63 parts")
def _(room):
    fetches_from_site(room, [("/".join(["d"] * 63), THREE), ("/".join(["e" * 40] * 63), THREE)])


@case("a path that is too long for the system")
def _(room):
    with Site() as site:
        room.torrent(site.url(), [("x", b"h"), ("/".join(["d" * 255] * 63), b"ello")])
        room.ends(17, 5)
        want(not site.connections, f"{len(site.connections)} connections came")


# What stands in the folder already.


@case("folders that stand already")
def _(room):
    os.makedirs(room.path("a/d/e"))
    fetches_from_site(room, SMALL, 16, anew=False)


def kept(payload, stands, piece_length):
    """Which pieces stand whole and right, where each file stands so, and None is one that doesn't."""
    right = whole(payload)
    found = [None if old is None else old[: len(new)] for (_, new), old in zip(payload, stands)]
    bits = b"".join((old or b"").ljust(len(new), b"\0") for (_, new), old in zip(payload, found))
    there = b"".join((b"\1" * len(old or b"")).ljust(len(new), b"\0") for (_, new), old in zip(payload, found))
    pieces = [slice(at, at + piece_length) for at in range(0, len(right), piece_length)]
    return [bits[it] == right[it] and all(there[it]) for it in pieces]


@case("files that stand already are kept where their pieces are right")
def _(room):
    changes = {
        "none": lambda it: it,
        "in another order": lambda it: it[::-1],
        "longer": lambda it: it + b"more",
        "cut": lambda it: it[:3],
        "cut by a byte": lambda it: it[:-1],
        "empty": lambda _: b"",
        "missing": lambda _: None,
        "zeros": lambda it: bytes(len(it)),
    }
    few = {name: changes[name] for name in ("in another order", "cut by a byte", "missing")}
    seen = set()
    for payload, piece_length, tried in ((SMALL, 16, changes), (SMALL, 5, changes), (SPREAD, MIB, few)):
        claimed, words = (MIB_CLAIMS, BY_MIB) if payload is SPREAD else ({}, ONCE)
        for name, change in tried.items():
            for place in [*range(len(payload)), None]:
                stands = [change(it) if place in (at, None) else it for at, (_, it) in enumerate(payload)]
                right = kept(payload, stands, piece_length)
                seen.add(tuple(right))
                room.clear()
                for (path, _), content in zip(payload, stands):
                    if content is not None:
                        room.put(f"a/{path}", content)
                lacking = [piece for piece, is_right in enumerate(right) if not is_right]
                free = [*blocks_of(lacking, len(whole(payload)), piece_length)]
                with about(f"{name} of file {place}, {piece_length}"), Site(served(payload)) as site:
                    room.torrent(site.url(target="/"), payload, piece_length=piece_length)
                    room.fetches(payload, anew=False, words=words)
                    want_all_asked(site, payload, piece_length, free=free, **claimed)
    want(len(seen) > 10, f"just {len(seen)} different cases")


@case("other files stay")
def _(room):
    others = ["other.aria2", "b", "b.aria2__temp", "a/other", "a/d/.aria2", "a/d/y.aria2", "d/y", "x"]
    for path in others:
        room.put(path, path.encode())
    # a control file that was left half written is of no use
    room.put("a.aria2__temp", b"half")
    fetches_from_site(room, SMALL, 16, anew=False)
    for path in others:
        want(room.get(path) == path.encode(), f"{path} has {room.get(path)}")
    stands = {os.path.relpath(f"{at}/{it}", room.folder) for at, _, them in os.walk(room.folder) for it in them}
    want(stands == {*others, "t.torrent", *dict(files_of(SMALL, "a"))}, f"there stand {stands}")


@case("something else where a folder or a file is due")
def _(room):
    for name, path, make in (
        ("a file for the outermost folder", "a", lambda it: room.put("a", b"old")),
        ("a file for a folder", "a/d", lambda it: room.put("a/d", b"old")),
        ("a file for an inner folder", "a/d/e", lambda it: room.put("a/d/e", b"old")),
        ("a folder for a file", "a/d/y", lambda it: os.makedirs(it)),
        ("a folder for an empty file", "a/d/none", lambda it: os.makedirs(it)),
        ("a pipe for the last file", "a/w", lambda it: (os.makedirs(os.path.dirname(it)), os.mkfifo(it))),
    ):
        make(room.path(path))
        with about(name), Site(served(SMALL)) as site:
            room.torrent(site.url(target="/"), SMALL, piece_length=16)
            room.ends(17, 36)
            want(not site.connections, f"{len(site.connections)} connections came")
        os.rename(room.path("a"), room.path(f"{name}, done"))


@case("a disk that is full after two pieces", "unshare")
def _(room):
    os.mkdir(room.path("a"))
    payload = [("x", LONG), ("y", LONG)]
    with Site(served(payload)) as site:
        room.torrent(site.url(target="/"), payload, piece_length=MIB)
        full = "mount -t tmpfs -o size=2M none a || exit 99"
        how = {"within": ["unshare", "--mount"], "shell": full}
        room.ends(17, 2 * TOTAL, completed=2 * MIB, words=BY_MIB, leaves=True, **how)
        # the rest of one file and the front of the other are asked for by a request each
        want(len(site.requests) in (3, 4), f"{len(site.requests)} requests came")


@case("standard output is full after several files")
def _(room):
    with Site(served(SMALL)) as site, open("/dev/full", "wb") as full:
        room.torrent(site.url(target="/"), SMALL, piece_length=16)
        ended, _ = room.run("t.torrent", out=full, leaves=False)
        want(ended == 41, f"status {ended}")
        room.has(SMALL)


@case("a payload that is larger than the memory", alone=True)
def _(room):
    payload = noise(1 << 20) * 72
    fetches_from_site(room, payload, 1 << 22, shell=LITTLE)
