"""The cases of the words: options and their values, and what words have a meaning.

Where a console is turned on that nobody shuts down, the run is the one without doors.
"""
import os

from lib.mirrors import Site
from lib.rooms import HEADER, ONCE, case, want_asked
from lib.wants import about, want

# Each option with values that it takes, and with such as it doesn't.
NUMBERS = [
    ("split", "s", ["1", "64"], ["0", "65"]),
    ("max-connection-per-server", "x", ["1", "16"], ["0", "17"]),
    ("max-tries", "m", ["1", "100"], ["0", "101"]),
    ("max-concurrent-downloads", "j", ["1", "64"], ["0", "65"]),
    ("auto-save-interval", None, ["0", "600"], ["601"]),
    ("rpc-listen-port", None, ["1024", "65535"], ["0", "1023", "65536", "80"]),
]
SIZES = [
    (
        "min-split-size",
        "k",
        ["1M", "1024M", "1048576", "1024K", "1m", "1024k"],
        ["1048575", "1023K", "1025M", "0", "1073741825"],
    ),
    ("piece-length", None, ["1M", "64M", "1048577"], ["1023K", "65M", "67108865", "0"]),
    ("max-download-limit", None, ["0", "1", "4294967295", "4095M"], ["4294967296", "4096M"]),
    ("max-overall-download-limit", None, ["0", "16384", "4294967295"], ["4294967296"]),
    ("rpc-max-request-size", None, ["16K", "64M"], ["15K", "65M", "16383"]),
]
NO_NUMBERS = ["", "05", "+5", "-5", "5.0", "0x5", " 5", "5 ", "five", "18446744073709551617", "5" * 1_000, "5,", "٥"]
NO_SIZES = ["", "02M", "+2M", "-2M", "2.0M", "2 M", " 2M", "2M ", "2G", "2MB", "2MiB", "M", "2KM", "2М"]
NO_SIZES += ["17592186044417M", "18014398509481985K"]
DIGESTS = {"sha-1": 40, "sha-224": 56, "sha-256": 64, "sha-384": 96, "sha-512": 128}
TEXTS = [
    ("dir", "d", [".", "/tmp", "a/b", "é", " "], [""]),
    ("out", "o", ["a", "é", "...", " ", "x" * 255], ["", ".", "..", "a/b", "/", "x" * 256]),
    ("rpc-secret", None, ["s", "token:x"], [""]),
    (
        "checksum",
        None,
        [f"{name}={digit * length}" for name, length in DIGESTS.items() for digit in ("a", "F", "0")],
        [
            *["", "sha-1", "sha-1=", "md5=" + "a" * 32, "sha-1=" + "a" * 39, "sha-1=" + "a" * 41, "sha-256=" + "a" * 40],
            *["sha-1=" + "g" * 40, "SHA-1=" + "a" * 40, "sha1=" + "a" * 40, "sha-1:" + "a" * 40, " sha-1=" + "a" * 40],
        ],
    ),
    (
        "select-file",
        None,
        ["1", "1-1", "1-3", "3,1", "1,1", "1-2,2-3", "1048576", "1-1048576"],
        [
            *["", "0", "0-1", "3-2", "1,", ",1", "1,,2", "01", "1-02", "1-", "-1", "1-2-3", "1 ", " 1", "1, 2", "x"],
            *["1048577", "1-1048577", "4294967297"],
        ],
    ),
]
FLAGS = [("check-integrity", "V"), ("pause", None)]


def has_meaning(room, *words):
    """The words have a meaning: for the console alone, at which nobody comes, there is nothing to do."""
    ended = room.run("--enable-rpc", *words)
    want(ended == (0, HEADER), f"it ended with {ended}")


def spelled(name, letter, value):
    """The ways to give an option its value."""
    yield [f"--{name}={value}"]
    if letter:
        yield [f"-{letter}", value]
        yield [f"-{letter}={value}"]
        if value and value[0] != "=":
            yield [f"-{letter}{value}"]


@case("the values of each option", alone=True)
def _(room):
    for name, letter, right, wrong in NUMBERS + SIZES + TEXTS:
        for value in right:
            for words in spelled(name, letter, value):
                with about(f"{words}"):
                    has_meaning(room, *words)
        bad = {id(NUMBERS): NO_NUMBERS, id(SIZES): NO_SIZES}
        more = next((bad[id(them)] for them in (NUMBERS, SIZES) if any(it[0] == name for it in them)), [])
        for value in wrong + more:
            with about(f"--{name}={value}"):
                room.refuses(28, "--enable-rpc", f"--{name}={value}")


@case("options in ways that have no meaning", alone=True)
def _(room):
    for name, letter, right, _ in NUMBERS + SIZES + TEXTS:
        value = right[0]
        twice = [f"--{name}={value}", f"--{name}={right[-1]}"]
        ways = [twice, [f"--{name}"], [f"---{name}={value}"], [f"--{name.upper()}={value}"], [f"--{name[:-1]}={value}"]]
        if letter:
            ways += [[f"-{letter}", value, f"--{name}={value}"], [f"-{letter}"], [f"-{letter.swapcase()}", value]]
        for words in ways:
            with about(f"{words}"):
                room.refuses(28, "--enable-rpc", *words)
    for name, letter in FLAGS:
        has_meaning(room, f"--{name}")
        for words in ([f"--{name}=true"], [f"--{name}=false"], [f"--{name}", f"--{name}"], [f"--{name}", "true"]):
            with about(f"{words}"):
                room.refuses(28, "--enable-rpc", *words)
        if letter:
            has_meaning(room, f"-{letter}")
    console = "--enable-rpc"
    for words in ([console, console], [f"{console}=true"], [f"{console}=false"], [console, "true"]):
        with about(f"{words}"):
            room.refuses(28, *words)


@case("words that aren't options of this program")
def _(room):
    room.torrent(b"http://127.0.0.1:1/a.bin")
    for words in (
        *(["--help"], ["-h"], ["--version"], ["-v"], ["--continue"], ["-c"], ["--gid=0000000000000001"], ["-"]),
        *(["--quiet"], ["--max-tries"], ["--allow-overwrite=true"], ["--lowest-speed-limit=1K"], ["--retry-wait=1"]),
    ):
        with about(f"{words}"):
            room.refuses(28, "--enable-rpc", *words)
            room.refuses(28, *words, "t.torrent")
    want(os.listdir(room.folder) == ["t.torrent"], f"files were made: {os.listdir(room.folder)}")


@case("words without a meaning beside a metainfo file or a URI")
def _(room):
    room.torrent(b"http://127.0.0.1:1/a.bin")
    uri = "http://127.0.0.1:1/a.bin"
    for words in (
        [],
        ["--split=2"],
        ["--pause"],
        ["t.torrent", "t.torrent"],
        [uri, "t.torrent"],
        ["t.torrent", "b"],
        ["t.torrent", ""],
        ["t"],
        ["t.TORRENT"],
        ["t.torrent "],
        ["t.torrent", "https://127.0.0.1:1/a.bin"],
        ["t.torrent", "ftp://127.0.0.1:1/"],
        ["ftp://u@127.0.0.1:1/a.bin"],
        ["ftp://127.0.0.1:1/a%0Db"],
        ["https://127.0.0.1:1/a.torrent"],
        ["a:b.torrent"],
        ["file:///t.torrent"],
        ["magnet:?xt=urn:btih:0123456789012345678901234567890123456789"],
        [uri, "127.0.0.1:1/a.bin"],
        [uri, "http://"],
        [uri, "http://127.0.0.1:65536/"],
        [uri, ""],
        [uri] * 257,
        ["t.torrent", *[uri] * 257],
    ):
        with about(f"{words[:3]}"):
            room.refuses(28, *words)
    want(os.listdir(room.folder) == ["t.torrent"], f"files were made: {os.listdir(room.folder)}")


@case("options beside a metainfo file, in any order and spelling", alone=True)
def _(room):
    with Site({"/a.bin": b"hello"}) as site:
        room.torrent(site.url())
        for words in (
            ["t.torrent", "--split=2"],
            ["-s2", "t.torrent", "-x", "3"],
            ["--split", "2", "t.torrent"],
            ["-s=2", "-Vm1", "t.torrent"],
            ["--", "t.torrent"],
            ["-j64", "--rpc-secret=s", "--rpc-listen-port=1024", "--rpc-max-request-size=16K", "t.torrent"],
            ["--enable-rpc", "t.torrent"],
            ["--pause", "t.torrent"],
            ["--out=b", "t.torrent"],
            ["--piece-length=2M", "t.torrent"],
            ["--checksum=sha-1=" + "0" * 40, "t.torrent"],
            ["--max-overall-download-limit=4095M", "--max-download-limit=4095M", "t.torrent"],
            ["--auto-save-interval=0", "--min-split-size=1024M", "t.torrent"],
            ["./t.torrent"],
            [room.path("t.torrent")],
        ):
            with about(f"{words}"):
                room.fetches(b"hello", words=words)
        want(len(site.requests) == 15, f"{len(site.requests)} requests came")


@case("a download that is paused where nobody can let it go on", alone=True)
def _(room):
    with Site({"/a.bin": b"hello"}) as site:
        room.torrent(site.url())
        ended, wrote = room.run("--enable-rpc", "--pause", "t.torrent")
        want(ended == 7 and wrote.endswith(b"|INPR|0|5|0|a\n"), f"status {ended}, output {wrote!r}")
        want(not site.connections, "the seed was asked")
    want(os.listdir(room.folder) == ["t.torrent"], f"files were made: {os.listdir(room.folder)}")


# Mirrors that the words name.


@case("URIs behind a metainfo file")
def _(room):
    with Site({"/a.bin": b"hello"}) as site, Site() as empty:
        there, gone = site.url().decode(), empty.url().decode()
        for seeds, uris, count in (
            (None, [there], 0),
            ([], [there], 0),
            (empty.url(), [there], 1),
            ([empty.url()] * 2, [gone, there], 3),
            (b"https://127.0.0.1/", [there], 0),
            ([empty.url()] * 255, [there], 255),
        ):
            empty.requests.clear()
            room.torrent(seeds)
            with about(f"{seeds} and {uris}"[:200]):
                room.fetches(b"hello", words=[*ONCE, *uris])
                want(len(empty.requests) == count, f"{len(empty.requests)} requests came in vain")
        # at most 256 in all
        for seeds, uris in ((256, 1), (1, 256), (255, 2), (300, 1)):
            room.torrent([site.url()] * seeds)
            with about(f"{seeds} seeds and {uris} URIs"):
                room.clear()
                room.refuses(26, "t.torrent", *[there] * uris)
                want(room.get("a") is None, "a payload was made")
        room.torrent([site.url()])
        room.fetches(b"hello", words=["t.torrent", *[there] * 255])
        room.torrent(None)
        room.clear()
        room.refuses(26, "t.torrent")


@case("URIs of several files behind a metainfo file")
def _(room):
    payload = [("x", b"hello, "), ("d/é", b"world")]
    for base, front in (("", "/"), ("/", "/"), ("/d", "/d/"), ("/d?q", "/d?q/")):
        targets = [f"{front}n/x", f"{front}n/d/%C3%A9"]
        with about(base), Site(dict(zip(targets, (b"hello, ", b"world")))) as site:
            room.torrent(None, payload, name="n")
            room.fetches(payload, "n", words=[*ONCE, site.url(target=base).decode()])
            want_asked(site, [(targets[0], 0, 6), (targets[1], 0, 4)])
