"""The cases of the command line, of one request and its reply, and of what the system refuses."""
import os
import signal
import threading
import time

from lib.controls import BLOCK
from lib.mirrors import (
    LENGTH,
    RANGE,
    Mirror,
    Site,
    deaf_port,
    free_port,
    head,
    one_request,
    reply,
    says_nothing,
    sends,
    sends_and_resets,
    sends_and_stays,
    sends_byte_by_byte,
    sends_for_ever,
)
from lib.payloads import MIB, noise
from lib.rooms import BUILT, LITTLE, PROGRAM, TOP, case, request, want_asked
from lib.torrents import MOST_PIECE
from lib.wants import Skipped, about, want, want_within

# Runs under these limits of 48 MiB of memory, and of one kilobyte a file at most.
TOO_LITTLE = "ulimit -v 49152"
NO_DISK = "trap '' XFSZ; ulimit -f 1"

# The command line.


@case("no words")
def _(room):
    room.refuses(28)


@case("words without a meaning")
def _(room):
    room.torrent(b"http://127.0.0.1/a.bin")
    for words in (["t.torrent", "t.torrent"], ["t"], [""], ["--split=65", "t.torrent"], ["-h"]):
        room.refuses(28, *words)


@case("a word that isn't UTF-8")
def _(room):
    room.torrent(b"http://127.0.0.1/a.bin")
    room.refuses(28, b"\xff.torrent")
    room.refuses(28, "t.torrent", b"\xff")


@case("no words, and standard output is full")
def _(room):
    with open("/dev/full", "wb") as full:
        ended, _ = room.run(out=full)
    want(ended == 28, f"status {ended}")


@case("the script at the top, in another folder")
def _(room):
    if PROGRAM != BUILT:
        raise Skipped(f"it runs the program of {TOP}")
    room.refuses(28, program=f"{TOP}/aria_cli")
    with Mirror(sends(reply(b"hello"))) as mirror:
        room.torrent(mirror.url())
        room.fetches(b"hello", program=f"{TOP}/aria_cli")


# What the program asks, and where.


@case("the request's bytes")
def _(room):
    with Mirror(sends_and_stays(reply(b"hello"))) as mirror:
        room.torrent(mirror.url())
        room.fetches(b"hello")
        mirror.wait()
    host = f"127.0.0.1:{mirror.port}"
    want(len(request(host, 4)) == 111 + len(host), "the wanted request has another length")
    want(mirror.requests == [request(host, 4)], f"it asked {mirror.requests}")


@case("a request with a path, a query and another length")
def _(room):
    payload = bytes(range(256)) * 40
    with Mirror(sends_and_stays(reply(payload))) as mirror:
        room.torrent(mirror.url(target="/a%20b/c;d?e=f&g=%2F#h"), payload)
        room.fetches(payload)
        mirror.wait()
    asked = request(f"127.0.0.1:{mirror.port}", 10239, "/a%20b/c;d?e=f&g=%2F")
    want(mirror.requests == [asked], f"it asked {mirror.requests}")


@case("port 80 isn't named")
def _(room):
    try:
        mirror = Mirror(sends(reply(b"hello")), "127.0.0.7", 80)
    except OSError as why:
        raise Skipped(f"port 80 can't be had: {why}") from None
    with mirror:
        room.torrent(b"http://127.0.0.7/a.bin")
        room.fetches(b"hello")
    want(mirror.requests == [request("127.0.0.7", 4)], f"it asked {mirror.requests}")


@case("the name localhost")
def _(room):
    with Mirror(sends(reply(b"hello"))) as mirror:
        room.torrent(mirror.url("localhost"))
        room.fetches(b"hello")
    want(mirror.requests == [request(f"localhost:{mirror.port}", 4)], f"it asked {mirror.requests}")


@case("an IPv6 address", "ipv6")
def _(room):
    with Mirror(sends(reply(b"hello")), "::1") as mirror:
        room.torrent(mirror.url("[::1]"))
        room.fetches(b"hello")
    want(mirror.requests == [request(f"[::1]:{mirror.port}", 4)], f"it asked {mirror.requests}")


@case("each address of a name is tried", "ipv6", "unshare")
def _(room):
    room.put("hosts", b"127.0.0.1 localhost\n127.0.0.9 m.test\n::1 m.test\n127.0.0.1 m.test\n")
    for host in ("127.0.0.1", "::1"):
        with Mirror(sends(reply(b"hello")), host) as mirror:
            room.torrent(mirror.url("m.test"))
            room.fetches(b"hello", within=["unshare", "--mount"], shell="mount --bind hosts /etc/hosts || exit 99")
        want(mirror.requests == [request(f"m.test:{mirror.port}", 4)], f"it asked {mirror.requests}")


@case("a name that nobody has")
def _(room):
    room.torrent(b"http://nobody.invalid/a.bin")
    room.fails(6, limit=100)


# How a right reply comes.


@case("head and body in one packet, and the mirror closes")
def _(room):
    with Mirror(sends(reply(b"hello"))) as mirror:
        room.torrent(mirror.url())
        room.fetches(b"hello")


@case("head and body in one packet, and the connection stays")
def _(room):
    with Mirror(sends_and_stays(reply(b"hello"))) as mirror:
        room.torrent(mirror.url())
        room.fetches(b"hello")


@case("a reply that comes byte by byte")
def _(room):
    for length, pause in ((1_000, 0.001), (65_000, 0)):
        with Mirror(sends_byte_by_byte(reply(b"hello", b"X: " + b"y" * length), pause)) as mirror:
            room.torrent(mirror.url())
            room.fetches(b"hello", limit=100)


@case("a reply that comes while the program is stopped")
def _(room):
    asked, stopped = threading.Event(), threading.Event()

    def serve(connection):
        asked.set()
        stopped.wait(10)
        connection.sendall(reply(b"hello"))

    def stop(process):
        asked.wait(10)
        # a read that waits is broken off when the program goes on
        for it in (signal.SIGSTOP, signal.SIGCONT):
            time.sleep(0.2)
            process.send_signal(it)
        time.sleep(0.2)
        stopped.set()

    with Mirror(serve) as mirror:
        room.torrent(mirror.url())
        room.fetches(b"hello", meanwhile=stop)


@case("a body that is longer than told")
def _(room):
    for serve in (sends(reply(b"hello") + b"more"), sends_for_ever(reply(b"hello"), b"x" * 65536)):
        with Mirror(serve) as mirror:
            room.torrent(mirror.url())
            room.fetches(b"hello", shell=LITTLE)


@case("fields of any case and order, and a range with no total")
def _(room):
    fields = [b"content-LENGTH:5", b"X:", b"Content-Encoding: Identity", b"CONTENT-range: \t bytes 0-4/* \t", LENGTH]
    with Mirror(sends(head(*fields) + b"hello")) as mirror:
        room.torrent(mirror.url())
        room.fetches(b"hello")


@case("a head of 64 fields and 65,536 bytes")
def _(room):
    fields = [RANGE, LENGTH, *[b"X: y"] * 61]
    rest = 65_536 - len(head(*fields, b"X: "))
    with Mirror(sends(head(*fields, b"X: " + b"y" * rest) + b"hello")) as mirror:
        room.torrent(mirror.url())
        room.fetches(b"hello")


@case("a payload that stands is kept where it is right")
def _(room):
    for old, count in ((b"HELLO", 1), (b"hell", 1), (b"", 1), (b"hello", 0), (b"hello, world", 0)):
        room.put("a", old)
        with about(f"{old}"), Mirror(sends(reply(b"hello"))) as mirror:
            room.torrent(mirror.url())
            room.fetches(b"hello", anew=False)
            want(len(mirror.requests) == count, f"{len(mirror.requests)} requests came")


# Behind the name stands `.aria2__temp` while progress is put, and a file of the system has a name of at most 255 bytes.
MOST_NAME = 255 - len(".aria2__temp")


@case("a payload of one byte, with a name of 243 bytes")
def _(room):
    name = "é" * (MOST_NAME // 2) + "x"
    with Mirror(sends(reply(b"!"))) as mirror:
        room.torrent(mirror.url(), b"!", name=name.encode())
        room.fetches(b"!", name)


@case("a name that leaves no room for those of its control file")
def _(room):
    with Mirror(sends(reply(b"!"))) as mirror:
        for length in (MOST_NAME + 1, 249, 250, 255):
            with about(f"{length} bytes"):
                room.torrent(mirror.url(), b"!", name=b"x" * length)
                room.ends(17, 1, "x" * length)
                want(os.listdir(room.folder) == ["t.torrent"], f"files were made: {os.listdir(room.folder)}")
        want(not mirror.connections, "the seed was asked")


# Replies that are wrong. Status 6: the connection failed or ended early; 22: it isn't the reply that was asked for;
# 32: its bytes don't have the digest.


@case("a digest that is wrong")
def _(room):
    for payload in (b"hellO", b"\0" * 5):
        with Mirror(sends(reply(payload))) as mirror:
            room.torrent(mirror.url(), b"hello")
            room.fails(32, stands=payload)


@case("nobody listens")
def _(room):
    room.torrent(f"http://127.0.0.1:{free_port('127.0.0.1')}/a.bin".encode())
    room.fails(6)


EARLY = [
    ("at once", b""),
    ("in the status line", b"HTTP/1.1 2"),
    ("in the head", head(LENGTH)[:-2]),
    ("after the head", head(RANGE, LENGTH)),
    ("in the body", reply(b"hello")[:-1]),
]
for _what, _bytes in EARLY:

    @case(f"a mirror that closes {_what}")
    def _(room, whole=_bytes):
        with Mirror(sends(whole)) as mirror:
            room.torrent(mirror.url())
            room.fails(6)


@case("a mirror that breaks off in the body")
def _(room):
    with Mirror(sends_and_resets(reply(b"hello")[:-1])) as mirror:
        room.torrent(mirror.url())
        room.fails(6)


OTHER = [
    ("416", head(b"Content-Range: bytes */5", b"Content-Length: 0", status=b"416 Range Not Satisfiable")),
    ("no HTTP", b"hello\r\n\r\n"),
    ("binary before its head", b"\0\xff\x80" + reply(b"hello")),
    ("one with a nameless field", head(RANGE, LENGTH, b": x")),
    ("one with a NUL in a field", head(RANGE, LENGTH, b"X: \0")),
    ("one without a range", head(LENGTH)),
    ("one with two ranges", head(RANGE, RANGE, LENGTH)),
    ("of another range", head(b"Content-Range: bytes 1-5/6", LENGTH)),
    ("of a range that ends late", head(b"Content-Range: bytes 0-5/6", b"Content-Length: 6")),
    ("of a range past its total", head(b"Content-Range: bytes 0-4/4", LENGTH)),
    ("of a range backwards", head(b"Content-Range: bytes 4-0/5", LENGTH)),
    ("of another total", head(b"Content-Range: bytes 0-4/6", LENGTH)),
    ("of another unit", head(b"Content-Range: items 0-4/5", LENGTH)),
    ("of a total of 2^64 + 5", head(b"Content-Range: bytes 0-4/18446744073709551621", LENGTH)),
    ("of an end of 2^64 + 4", head(b"Content-Range: bytes 0-18446744073709551620/5", LENGTH)),
    ("of a start of 2^64", head(b"Content-Range: bytes 18446744073709551616-4/5", LENGTH)),
    ("of a length of 2^64 + 5", head(RANGE, b"Content-Length: 18446744073709551621")),
    ("of a length of 2^63", head(RANGE, b"Content-Length: 9223372036854775808")),
    ("of a length of 2^62", head(RANGE, b"Content-Length: 4611686018427387904")),
    ("of a length with a plus sign", head(RANGE, b"Content-Length: +5")),
    ("of a length below zero", head(RANGE, b"Content-Length: -5")),
    ("of an empty length", head(RANGE, b"Content-Length:")),
    ("of a length in hexadecimal", head(RANGE, b"Content-Length: 0x5")),
    ("of a length of 60,000 digits", head(RANGE, b"Content-Length: " + b"5" * 60_000)),
    ("of two lengths", head(RANGE, LENGTH, b"Content-Length: 6")),
    ("of a list of lengths", head(RANGE, b"Content-Length: 5, 5")),
    ("in chunks, and no chunk comes", head(RANGE, LENGTH, b"Transfer-Encoding: chunked")),
    ("compressed", head(RANGE, LENGTH, b"Content-Encoding: gzip")),
    ("one with 65 fields", head(RANGE, LENGTH, *[b"X: y"] * 63)),
    ("one with a head of 65,537 bytes", head(RANGE, LENGTH, b"X: " + b"y" * (65_537 - len(head(RANGE, LENGTH, b"X: "))))),
]
for _what, _bytes in OTHER:

    @case(f"a reply that is {_what}")
    def _(room, whole=_bytes):
        with Mirror(sends_and_stays(whole + b"hello")) as mirror:
            room.torrent(mirror.url())
            room.fails(22, shell=LITTLE)


@case("a head that never ends")
def _(room):
    begin = b"HTTP/1.1 206 Partial Content\r\n"
    for begin, again in (
        (begin, b"X: y\r\n" * 1000),
        (begin + b"X: ", b"y" * 10_000),
        (b"", b"\r\n" * 1000),
        (b"", b"H" * 10_000),
    ):
        with Mirror(sends_for_ever(begin, again)) as mirror:
            room.torrent(mirror.url())
            room.fails(22, shell=LITTLE)


class Waited(Mirror):
    """Tells for how many seconds the other side waited behind what it was sent."""

    def converse(self, connection):
        asked = one_request(connection)
        begun = time.monotonic()
        self.serve(connection)
        self.seconds = time.monotonic() - begun
        self.requests.append(asked)


def want_patience(seconds, more=1):
    """A peer is waited for for a minute and little more, whatever else the machine does, and the mirror itself may be late."""
    want(seconds > 58, f"it waited only {seconds:.2f} seconds")
    want_within(seconds, 60 + more, "its patience")


def gives_up(room, mirror):
    """The run takes the mirror for dead after a minute."""
    room.torrent(mirror.url())
    room.fails(6, limit=100)
    mirror.wait()
    want_patience(mirror.seconds)


@case("a mirror that is silent", slow=True)
def _(room):
    with Waited(says_nothing) as mirror:
        gives_up(room, mirror)


@case("a mirror that falls silent in the body", slow=True)
def _(room):
    with Waited(sends_and_stays(reply(b"hello")[:-1])) as mirror:
        gives_up(room, mirror)


@case("a mirror that takes no connection", slow=True)
def _(room):
    with deaf_port() as port:
        if port is None:
            raise Skipped("the system takes each connection")
        room.torrent(f"http://127.0.0.1:{port}/a.bin".encode())
        begun = time.monotonic()
        room.fails(6, limit=100)
        # the program begins and ends besides
        want_patience(time.monotonic() - begun, 2)


# The disk, standard output and memory.


@case("a payload whose name is a folder's")
def _(room):
    os.mkdir(room.path("a"))
    with Mirror(sends(reply(b"hello"))) as mirror:
        room.torrent(mirror.url())
        room.ends(17, 5)


@case("a payload whose name is a pipe's")
def _(room):
    os.mkfifo(room.path("a"))
    with Mirror(sends(reply(b"hello"))) as mirror:
        room.torrent(mirror.url())
        room.ends(17, 5)


@case("a disk that takes no more")
def _(room):
    payload = noise(100_000)
    with Mirror(sends(reply(payload))) as mirror:
        room.torrent(mirror.url(), payload, piece_length=131_072)
        # the control file is put before the payload gets its length
        room.ends(17, len(payload), shell=NO_DISK, leaves=True)
        want(not mirror.connections, "the seed was asked")


@case("standard output is full")
def _(room):
    with Mirror(sends(reply(b"hello"))) as mirror, open("/dev/full", "wb") as full:
        room.torrent(mirror.url())
        ended, _ = room.run("t.torrent", out=full, leaves=False)
    want(ended == 41, f"status {ended}")
    want(room.get("a") == b"hello", f"the payload is {room.get('a')}")


@case("standard output is full, and the run fails otherwise as well")
def _(room):
    with Site({"/a.bin": b"hellO"}) as site:
        # a summary that can't be written goes before the end of its download, and no refusal is changed by it
        for status, made, words, leaves in (
            (41, lambda: room.torrent(site.url()), ["t.torrent"], True),
            (41, lambda: room.torrent(site.url(target="/b")), ["t.torrent"], True),
            (41, lambda: os.mkdir(room.path("a")), ["t.torrent"], False),
            (41, lambda: None, [site.url(target="/b").decode()], None),
            (28, lambda: None, ["t.torrent", "b"], None),
            (3, lambda: None, ["b.torrent"], None),
            (17, lambda: os.mkdir(room.path("c.torrent")), ["c.torrent"], None),
            (25, lambda: room.put("d.torrent", b"i03e"), ["d.torrent"], None),
            (26, lambda: room.put("e.torrent", b"de"), ["e.torrent"], None),
        ):
            room.clear()
            made()
            with about(f"{status} of {words}"), open("/dev/full", "wb") as full:
                ended, _ = room.run("--max-tries=2", *words, out=full, leaves=leaves)
                want(ended == status, f"status {ended}")


@case("a folder of the words that is a file")
def _(room):
    with Site({"/a.bin": b"hello"}) as site:
        room.torrent(site.url())
        room.put("d", b"old")
        for words in (["--dir=d", "t.torrent"], ["--dir=d/e", "t.torrent"], ["--dir=d", site.url().decode()]):
            stood = room.standing()
            with about(f"{words}"):
                name = f"{words[0][6:]}/{'a' if words[1] == 't.torrent' else 'a.bin'}"
                room.ends(17, 5, name, words=words)
                want(room.standing() == stood, "something has changed")
        want(len(site.requests) == 1, f"{len(site.requests)} requests came")


@case("nobody reads standard output")
def _(room):
    reader, writer = os.pipe()
    os.close(reader)
    with Mirror(sends(reply(b"hello"))) as mirror, open(writer, "wb") as out:
        room.torrent(mirror.url())
        ended, _ = room.run("t.torrent", out=out, leaves=False)
    want(ended == 41, f"status {ended}")
    want(room.get("a") == b"hello", f"the payload is {room.get('a')}")


@case("no memory for the piece", alone=True)
def _(room):
    payload = bytes(MOST_PIECE)
    with Site({"/a.bin": payload}) as site:
        room.torrent(site.url(), payload, piece_length=MOST_PIECE)
        ended = room.run("t.torrent", shell=TOO_LITTLE, leaves=True)
        want(ended == (40, b""), f"it ended with {ended}")
        asked = [(20 * MIB * claim, min(20 * MIB * (claim + 1), MOST_PIECE) - 1) for claim in range(4)]
        want_asked(site, [("/a.bin", *it) for it in asked])
        # all blocks came and were saved, so that a run with memory asks for none
        room.lists(range(MOST_PIECE // BLOCK), len(payload))
        room.fetches(payload, anew=False)
        want(len(site.requests) == 4, f"{len(site.requests)} requests came")
