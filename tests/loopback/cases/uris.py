"""The cases of one file that URIs name, without a metainfo file."""
import hashlib
import os

from lib import controls
from lib.mirrors import Site, head, reply, sends
from lib.payloads import LONG, MIB, MIB_CLAIMS, PIECE, all_asked
from lib.recording import CHUNKED, MANNERS, OK, Recording, by_manner, in_chunks, moved
from lib.rooms import case, want_asked
from lib.wants import about, want

# The mirror is asked for the first byte to learn the length, and then for blocks.
FIRST = ("/a.bin", 0, 0)
ONCE = ("--max-tries=1",)
BY_MIB = ("--split=64", "--min-split-size=1M", *ONCE)


def uri(mirror, target="/a.bin"):
    return mirror.url(target=target).decode()


def asked_of(payload, piece_length=MIB, **claimed):
    return [("/a.bin", first, last) for _, first, last in all_asked(payload, piece_length, **claimed)]


@case("a URI")
def _(room):
    room.unlisted()
    for payload in (b"hello", LONG[:1], LONG[:PIECE], LONG[: PIECE + 1], LONG):
        for words, claimed in ((ONCE, {}), (BY_MIB, MIB_CLAIMS)):
            with about(f"{len(payload)} bytes, {words}"), Site({"/a.bin": payload}) as site:
                room.fetches(payload, "a.bin", words=[*words, uri(site)])
                want_asked(site, [FIRST, *asked_of(payload, **claimed)])
                # the one that told the length is hung up while the file is opened
                want(len(site.connections) == 2, f"{len(site.connections)} connections came")


@case("the name of a file by its URI")
def _(room):
    room.unlisted()
    for target, name in (
        ("/a.bin", "a.bin"),
        ("/d/e/a.bin?q=/b#/c", "a.bin"),
        ("/a%20b", "a b"),
        ("/%C3%A9", "é"),
        ("/é", "é"),
        ("/a.torrent", "a.torrent"),
        ("/a%", "a%"),
        ("/%25", "%"),
        ("/%2E%2e%2e", "..."),
        ("/%7c", "|"),
        ("/" + "x" * 243, "x" * 243),
        # where that is no name of a file
        ("", "index.html"),
        ("/", "index.html"),
        ("/d/", "index.html"),
        ("/?q", "index.html"),
        ("/d/..", "index.html"),
        ("/d/%2E%2e", "index.html"),
        ("/a%2Fb", "index.html"),
        ("/%00", "index.html"),
        ("/%FF", "index.html"),
        ("/" + "x" * 256, "index.html"),
    ):
        with about(target), Recording(by_manner_of(b"hello")) as mirror:
            room.fetches(b"hello", name, words=[*ONCE, uri(mirror, target)])
            want(len(mirror.requests) == 2, f"{len(mirror.requests)} requests came")


def by_manner_of(payload):
    """A script that serves the payload at each target."""
    return lambda asked: reply(payload[asked.first : asked.last + 1], first=asked.first, total=len(payload))


@case("a folder and a name that the words give")
def _(room):
    room.unlisted()
    with Site({"/a.bin": b"hello"}) as site:
        for words, name in (
            (["--out=b"], "b"),
            (["--dir=d"], "d/a.bin"),
            (["--dir=d/e", "--out=é"], "d/e/é"),
            (["--dir=."], "a.bin"),
            (["--dir=./k"], "./k/a.bin"),
            (["-d", room.path("f"), "-o", "b"], room.path("f/b")),
        ):
            with about(f"{words}"):
                room.ends(0, 5, name, words=[*ONCE, *words, uri(site)])
                got = room.get(os.path.relpath(name, room.folder) if name.startswith("/") else name)
                want(got == b"hello", f"the file has {got}")
        room.torrent(site.url())
        for words, name in ((["--out=b"], "a"), (["--dir=d", "--out=b"], "d/a"), (["--dir=g/h"], "g/h/a")):
            with about(f"{words} with a metainfo file"):
                room.fetches(b"hello", name, words=[*words, "t.torrent"])
        payload = [("x", b"hel"), ("y/z", b"lo")]
        site.files = {"/n/x": b"hel", "/n/y/z": b"lo"}
        room.torrent(site.url(target="/"), payload, name="n")
        room.fetches(payload, "k/n", words=["--dir=k", "t.torrent"])
        site.files.clear()
        room.fails(3, payload, name="k/n", words=["--dir=k", *ONCE, "t.torrent"])


# What a mirror answers to the request for the first byte, and how long the file is by that.
TOLD = [
    ("a part", reply(b"h", total=5), b"hello"),
    ("a part of one byte", reply(b"h"), b"h"),
    ("a part in chunks", head(b"Content-Range: bytes 0-0/5", CHUNKED) + in_chunks(b"h"), b"hello"),
    ("a part to the end", sends(head(b"Content-Range: bytes 0-0/5") + b"h"), b"hello"),
    ("the whole file", head(b"Content-Length: 5", status=OK) + b"hello", b"hello"),
    ("a whole file without a byte", head(b"Content-Length: 0", status=OK), b""),
    ("that there is no byte", head(b"Content-Range: bytes */0", b"Content-Length: 0", status=b"416 No"), b""),
]
# Those that don't tell it, with the status of the run.
UNTOLD = [
    (22, "a part of a length that isn't told", head(b"Content-Range: bytes 0-0/*", b"Content-Length: 1") + b"h"),
    (22, "a longer part", reply(b"hello")),
    (22, "a part that begins later", reply(b"e", first=1, total=5)),
    (22, "a part of a part", head(b"Content-Range: bytes 0-0/5", b"Content-Length: 2") + b"he"),
    (22, "a part of nothing", head(b"Content-Range: bytes 0-0/0", b"Content-Length: 1") + b"h"),
    (22, "a part without a range", head(b"Content-Length: 1") + b"h"),
    (22, "a whole file in chunks", head(CHUNKED, status=OK) + in_chunks(b"hello")),
    (22, "a whole file to the end", sends(head(status=OK) + b"hello")),
    (22, "a compressed one", head(b"Content-Length: 5", b"Content-Encoding: gzip", status=OK) + b"hello"),
    (22, "416 with a length", head(b"Content-Range: bytes */5", b"Content-Length: 0", status=b"416 No")),
    (22, "416 without one", head(b"Content-Length: 0", status=b"416 No")),
    (22, "500", head(b"Content-Length: 0", status=b"500 No")),
    (22, "no HTTP", b"hello\r\n\r\n"),
    (22, "a place that can't be asked", moved(b"https://127.0.0.1/")),
    (3, "404", head(b"Content-Length: 0", status=b"404 No")),
    (24, "401", head(b"Content-Length: 0", status=b"401 No")),
    (29, "503", head(b"Content-Length: 0", status=b"503 No")),
    (6, "nothing", sends(b"")),
    (6, "a cut head", sends(reply(b"h", total=5)[:20])),
]


@case("the length of a file by its first byte")
def _(room):
    room.unlisted()
    for name, answer, payload in TOLD:
        rest = [reply(payload, total=len(payload))] if payload else []
        with about(name), Recording([answer, *rest]) as mirror:
            room.fetches(payload, "a.bin", words=[*ONCE, uri(mirror)])
            want_asked(mirror, [FIRST, ("/a.bin", 0, 4 if payload == b"hello" else 0)][: 1 + len(rest)])


@case("a length that isn't told")
def _(room):
    room.unlisted()
    for tries in (1, 3):
        for status, name, answer in UNTOLD:
            with about(f"{name}, {tries} tries"), Recording([answer] * tries) as mirror:
                words = [f"--max-tries={tries}", uri(mirror)]
                room.ends(status, 0, uri(mirror), words=words, leaves=False)
                want_asked(mirror, [FIRST] * tries)
                want(os.listdir(room.folder) == [], f"files were made: {os.listdir(room.folder)}")


@case("redirects of the first byte and of the blocks")
def _(room):
    room.unlisted()
    with Recording(by_manner({"/b": LONG}, MANNERS["in chunks"])) as second:
        place = second.url(target="/b")
        with Recording(lambda _: moved(place)) as first:
            room.fetches(LONG, "a.bin", words=[*BY_MIB, uri(first)])
            asked = [(0, 0), *[it[1:] for it in asked_of(LONG, **MIB_CLAIMS)]]
            want_asked(first, [("/a.bin", *it) for it in asked])
            want_asked(second, [("/b", *it) for it in asked])
    with Recording(lambda _: moved(b"/a.bin")) as mirror:
        room.ends(23, 0, uri(mirror), words=[*ONCE, uri(mirror)], leaves=False)
        want_asked(mirror, [FIRST] * 21)


@case("several URIs of one file")
def _(room):
    room.unlisted()
    with Site({"/a.bin": LONG}) as site, Site({"/b": b"hello"}) as other, Site() as empty:
        # the first one isn't there, and the name is by it
        room.fetches(LONG, "c", words=[*ONCE, uri(empty, "/c"), uri(site)])
        want_asked(empty, [("/c", 0, 0)])
        # it isn't to give the first piece any more, so that the longest stretch begins behind that
        want_asked(site, [FIRST, ("/a.bin", MIB, len(LONG) - 1), ("/a.bin", 0, MIB - 1)])
        # the second one isn't asked
        site.requests.clear()
        room.fetches(LONG, "a.bin", words=[*ONCE, uri(site), uri(empty)])
        want_asked(site, [FIRST, *asked_of(LONG)])
        # one whose file has another length is asked where the first fails
        site.requests.clear()
        site.instead = {1: b"no HTTP\r\n\r\n"}
        room.fetches(LONG, "a.bin", words=["--max-tries=2", uri(site), uri(other, "/b")])
        want_asked(site, [FIRST, *asked_of(LONG) * 2])
        want_asked(other, [("/b", 0, len(LONG) - 1)])
        # none is there
        room.ends(3, 0, uri(empty), words=[*ONCE, uri(empty), uri(empty, "/d")], leaves=False)


@case("256 URIs")
def _(room):
    room.unlisted()
    with Site({"/a": b"hello"}) as site:
        room.fetches(b"hello", "0", words=[*ONCE, *[uri(site, f"/{it}") for it in range(255)], uri(site, "/a")])
        want_asked(site, [*[(f"/{it}", 0, 0) for it in range(255)], ("/a", 0, 0), ("/a", 0, 4)])


@case("a checksum of the whole file")
def _(room):
    room.unlisted()
    with Site({"/a.bin": LONG}) as site:
        for name, hashed in (
            ("sha-1", hashlib.sha1),
            ("sha-224", hashlib.sha224),
            ("sha-256", hashlib.sha256),
            ("sha-384", hashlib.sha384),
            ("sha-512", hashlib.sha512),
        ):
            right = hashed(LONG).hexdigest()
            wrong = right[:-1] + ("0" if right[-1] != "0" else "1")
            with about(name):
                for digest in (right, right.upper()):
                    room.fetches(LONG, "a.bin", words=[*BY_MIB, f"--checksum={name}={digest}", uri(site)])
                for digest in (wrong, hashed(LONG[:-1]).hexdigest()):
                    words = [*BY_MIB, f"--checksum={name}={digest}", uri(site)]
                    room.fails(32, LONG, len(LONG), "a.bin", words=words)
                # what stands is of no worth, so it is fetched again
                site.requests.clear()
                room.fetches(LONG, "a.bin", anew=False, words=[*BY_MIB, f"--checksum={name}={right}", uri(site)])
                want_asked(site, [FIRST, *asked_of(LONG, **MIB_CLAIMS)])
        # two URIs, the first of which serves something else
        with Site({"/a.bin": LONG[::-1]}) as other:
            words = [*BY_MIB, f"--checksum=sha-1={hashlib.sha1(LONG).hexdigest()}", uri(other), uri(site)]
            room.fails(32, LONG, len(LONG), "a.bin", stands=LONG[::-1], words=words)
            room.fetches(LONG, "a.bin", words=[*words[:-2], uri(site), uri(other)])


@case("the checksum of an empty file, and of one that stands as its control file says")
def _(room):
    room.unlisted()
    empty = hashlib.sha1(b"").hexdigest()
    other = LONG[:-1] + bytes([LONG[-1] ^ 1])
    with Site({"/a.bin": b"", "/b": LONG}) as site:
        room.fetches(b"", "a.bin", words=[f"--checksum=sha-1={empty}", uri(site)])
        room.fails(32, b"", 0, "a.bin", words=[f"--checksum=sha-1={empty[1:]}0", uri(site)])
        for digest, content, status in (
            (LONG, LONG, 0),
            (LONG, other, 32),
            (other, other, 0),
        ):
            site.requests.clear()
            room.put("b", content)
            room.put("b.aria2", controls.written(b"", MIB, len(LONG), b"\xe0"))
            words = [f"--checksum=sha-1={hashlib.sha1(digest).hexdigest()}", uri(site, "/b")]
            with about(f"{status}"):
                if status:
                    room.fails(status, content, len(LONG), "b", anew=False, words=words, lists=range(153))
                else:
                    room.fetches(content, "b", anew=False, words=words)
                want_asked(site, [("/b", 0, 0)])


@case("a file that stands without a control file is left alone")
def _(room):
    room.unlisted()
    with Site({"/a.bin": b"hello"}) as site:
        for old in (b"hello", b"HELLO", b"", b"hello, world"):
            for words, name in (([], "a.bin"), (["--out=b"], "b"), (["--dir=d", "-V"], "d/a.bin")):
                room.put(name, old)
                site.requests.clear()
                with about(f"{old} as {name}"):
                    room.ends(13, 5, name, words=[*words, uri(site)])
                    want(room.get(name) == old, f"it has {room.get(name)}")
                    want_asked(site, [FIRST])


@case("a file that is too long")
def _(room):
    room.unlisted()
    # pieces of a mebibyte are enough for a tebibyte, and larger ones for four
    for words, most in (([], 1 << 40), (["--piece-length=64M"], 1 << 42), (["--piece-length=4M"], 1 << 42)):
        for total in (most + 1, (1 << 63) - 1):
            with about(f"{total} bytes, {words}"), Recording([reply(b"h", total=total)]) as mirror:
                room.ends(1, total, "a.bin", words=[*words, uri(mirror)])
                want_asked(mirror, [FIRST])
                want(os.listdir(room.folder) == [], f"files were made: {os.listdir(room.folder)}")


@case("a file of 4 TiB", alone=True)
def _(room):
    total = 1 << 42
    room.unlisted(64 * MIB)
    with Recording([reply(b"h", total=total), head(b"Content-Length: 0", status=b"404 No")]) as mirror:
        room.ends(3, total, "a.bin", words=[*ONCE, "--piece-length=64M", uri(mirror)], lists=None)
        want_asked(mirror, [FIRST, ("/a.bin", 0, -(-total // PIECE // 5) * PIECE - 1)])
    want(os.path.getsize(room.path("a.bin")) == total, "the file has another length")


# Control files of a file that URIs name.


@case("a file that URIs name is gone on with by its control file")
def _(room):
    room.unlisted()
    total = len(LONG)
    blocks = -(-total // PIECE)
    with Site({"/a.bin": LONG}) as site:
        for pieces, flying in (
            (b"\0", []),
            (b"\x80", []),
            (b"\x40", []),
            (b"\xa0", [(1, MIB, b"\xf0" + bytes(7))]),
            (b"\0", [(0, MIB, b"\x7f" + b"\xff" * 7), (2, total - 2 * MIB, b"\xaa\xaa\xaa\x80")]),
            (b"\xc0", [(2, total - 2 * MIB, b"\xff\xff\xff\x80")]),
            (b"\xe0", []),
        ):
            content = controls.written(b"", MIB, total, pieces, flying)
            listed = controls.blocks_of(controls.read(content))
            # what isn't listed has other bytes
            stands = bytearray(LONG[::-1])
            for block in range(blocks):
                if listed[block]:
                    stands[block * PIECE : (block + 1) * PIECE] = LONG[block * PIECE : (block + 1) * PIECE]
            site.requests.clear()
            room.put("a.bin", bytes(stands))
            room.put("a.bin.aria2", content)
            with about(f"{pieces} and {flying}"):
                room.fetches(LONG, "a.bin", anew=False, words=[*BY_MIB, uri(site)])
                free = [block for block in range(blocks) if not listed[block]]
                want_asked(site, [FIRST, *asked_of(LONG, free=free, **MIB_CLAIMS)])


@case("a control file of something else, beside a file that URIs name")
def _(room):
    room.unlisted()
    with Site({"/a.bin": LONG}) as site:
        for status, name, content, words in (
            (10, "other pieces", controls.written(b"", 2 * MIB, len(LONG), b"\0"), []),
            (10, "other pieces than are wanted", controls.written(b"", MIB, len(LONG), b"\0"), ["--piece-length=2M"]),
            (1, "another length", controls.written(b"", MIB, len(LONG) - 1, b"\0"), []),
            (1, "an info hash", controls.written(b"x" * 20, MIB, len(LONG), b"\0"), []),
            (1, "a byte more", controls.written(b"", MIB, len(LONG), b"\0") + b"\0", []),
            (1, "nothing", b"", []),
            (1, "version 2", b"\0\2" + controls.written(b"", MIB, len(LONG), b"\0")[2:], []),
            (17, "a folder", None, []),
        ):
            for old in (None, LONG[::-1]):
                room.clear("a.bin")
                if old is not None:
                    room.put("a.bin", old)
                if content is None:
                    os.mkdir(room.path("a.bin.aria2"))
                else:
                    room.put("a.bin.aria2", content)
                site.requests.clear()
                with about(name):
                    room.ends(status, len(LONG), "a.bin", words=[*words, uri(site)])
                    want(content is None or room.get("a.bin.aria2") == content, "the control file has changed")
                    want(room.get("a.bin") == old, "the file has changed")
                    want_asked(site, [FIRST])


@case("a file that URIs name, lost in the midst")
def _(room):
    total = len(LONG)
    for piece_length, landed in ((MIB, 70), (2 * MIB, 70), (5 * MIB, 1)):
        room.unlisted(piece_length)
        cut = reply(LONG, total=total)[: landed * PIECE - total + PIECE - 1]
        with about(f"pieces of {piece_length}"), Recording([reply(b"x", total=total), sends(cut)]) as mirror:
            words = [*ONCE, f"--piece-length={piece_length}", uri(mirror)]
            room.fails(6, LONG, landed * PIECE, "a.bin", words=words)
