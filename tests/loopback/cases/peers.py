"""The cases with nginx and http.server as mirrors, and with aria2, mktorrent and transmission beside the program."""
import contextlib
import hashlib
import os
import subprocess
import tempfile

from lib.controls import BLOCK
from lib.mirrors import Nginx, PythonServer
from lib.payloads import MIB, noise
from lib.rooms import BY_MIB, LITTLE, ONCE, PLAIN, case, files_of
from lib.torrents import MOST_PIECE, bencoded, info_of, whole
from lib.wants import Late, Wrong, want


@contextlib.contextmanager
def nginx(*hosts):
    with tempfile.TemporaryDirectory(prefix="nginx-") as folder, Nginx(folder, hosts or ("127.0.0.1",)) as it:
        yield it


@contextlib.contextmanager
def http_server():
    with tempfile.TemporaryDirectory(prefix="served-") as folder, PythonServer(folder) as it:
        yield it


def peer(words, folder):
    """Runs another program, which has to end well."""
    how = {"stdin": subprocess.DEVNULL, "stdout": subprocess.PIPE, "stderr": subprocess.STDOUT}
    try:
        ran = subprocess.run(words, cwd=folder, timeout=60, check=False, **how)
    except subprocess.TimeoutExpired:
        raise Late(f"{words[0]} had not ended after 60 seconds") from None
    want(ran.returncode == 0, f"{words[0]} ended with {ran.returncode}: {ran.stdout[-300:]!r}")
    return ran.stdout


@case("right bytes from nginx", "nginx")
def _(room):
    with nginx() as mirror:
        mirror.put("a.bin", b"hello")
        room.torrent(mirror.url())
        room.fetches(b"hello")


@case("nginx by name and by address", "nginx", "ipv6")
def _(room):
    with nginx("127.0.0.1", "::1") as mirror:
        mirror.put("d x/é.bin", b"hello")
        for host in ("localhost", "127.0.0.1", "[::1]"):
            room.torrent(mirror.url(host, "/d%20x/%C3%A9.bin?q=1"))
            room.fetches(b"hello")


@case("wrong bytes, none and too few from nginx", "nginx")
def _(room):
    with nginx() as mirror:
        mirror.put("a.bin", b"hellO")
        for words in (ONCE, PLAIN):
            mirror.put("a.bin", b"hellO")
            room.torrent(mirror.url())
            room.fails(32, stands=b"hellO", words=words)
            room.torrent(mirror.url(target="/b.bin"))
            room.fails(3, words=words)
            mirror.put("a.bin", b"hell")
            room.torrent(mirror.url())
            room.fails(22, words=words)


@case("a piece of 64 MiB from nginx", "nginx")
def _(room):
    payload = noise(1 << 20) * 64
    with nginx() as mirror:
        mirror.put("a.bin", payload)
        room.torrent(mirror.url(), payload, piece_length=MOST_PIECE)
        room.fetches(payload, limit=100)


LARGE = noise(64 * MIB)


@case("64 MiB in pieces of 1 MiB from nginx", "nginx")
def _(room):
    with nginx() as mirror:
        mirror.put("a.bin", LARGE)
        room.torrent(mirror.url(), LARGE, piece_length=MIB)
        for words in (PLAIN, BY_MIB):
            room.fetches(LARGE, limit=100, shell=LITTLE, words=words)


@case("64 MiB in pieces of 1 MiB from http.server, which sends the whole file for each claim", "disk", slow=True)
def _(room):
    with http_server() as mirror:
        mirror.put("a.bin", LARGE)
        room.torrent(mirror.url(), LARGE, piece_length=MIB)
        room.fetches(LARGE, limit=100, shell=LITTLE)


@case("several files from http.server")
def _(room):
    with http_server() as mirror:
        for path, content in files_of(TREE, "bäume x"):
            mirror.put(path, content)
        room.torrent(mirror.url(target="/"), TREE, name="bäume x", piece_length=PIECE)
        room.fetches(TREE, "bäume x")
        os.remove(f"{mirror.www}/bäume x/5/a/b/c/d/e/f")
        # the last block has the byte of that file
        room.fails(3, TREE, (len(whole(TREE)) - 1) // BLOCK * BLOCK, "bäume x")


@case("a folder's name, which is moved to the name with a slash", "nginx")
def _(room):
    for serve in (nginx, http_server):
        with serve() as mirror:
            mirror.put("a.bin/index.html", b"hello")
            room.torrent(mirror.url())
            room.fetches(b"hello")


# Metainfo files that other programs make, in pieces of 32 KiB.

PIECE = 32_768


def by_mktorrent(target, seeds, folder, out):
    said = [word for it in seeds for word in ("-w", it.decode())]
    peer(["mktorrent", "-d", "-l", "15", *said, "-o", out, target], folder)


def by_transmission(target, seeds, folder, out):
    """It takes no seeds, so they are added."""
    peer(["transmission-create", "-s", "32", "-o", out, target], folder)
    with open(out, "rb") as it:
        made = it.read()
    with open(out, "wb") as it:
        it.write(b"%s8:url-list%se" % (made[:-1], bencoded(seeds[0] if len(seeds) == 1 else seeds)))


MAKERS = {"mktorrent": by_mktorrent, "transmission-create": by_transmission}


def make(maker, room, mirror, payload, name, seeds=()):
    """Puts a payload where nginx finds it, and lets a program make its metainfo file.

    Gives the payload and the bytes of the info, as the file tells them: transmission passes over empty files.
    """
    for path, content in files_of(payload, name):
        mirror.put(path, content)
    MAKERS[maker](name, seeds or [mirror.url(target="/")], mirror.www, room.path("t.torrent"))
    made = room.get("t.torrent")
    for told in (payload, payload if isinstance(payload, bytes) else [it for it in payload if it[1]]):
        for more in ({}, {"private": 0}):
            info = bencoded({**info_of(told, name, PIECE), **more})
            if b"4:info" + info in made:
                return told, info
    raise Wrong(f"{maker} made {made!r}")


# All programs think alike of the order of these files. The second piece spans five of them.
TREE = [
    ("1 first.bin", noise(40_000)),
    ("2/1 two words.txt", b"two words\n"),
    ("2/2 é/1 ü ö.bin", b"\0\xff\0\xff\0\xff\0"),
    ("2/2 é/2 日本.txt", noise(300)),
    ("3/none", b""),
    ("4/100% + #1? & ;=@.bin", noise(70_000)),
    ("5/a/b/c/d/e/f", b"f"),
]


# aria2 asks nobody but the seeds.
ALONE = ["--enable-dht=false", "--enable-dht6=false", "--bt-enable-lpd=false", "--enable-peer-exchange=false"]
ARIA2C = ["aria2c", "--no-conf", "--seed-time=0", *ALONE, "--console-log-level=error"]


def aria2_accepts(room):
    peer([*ARIA2C, "-V", "--hash-check-only=true", "t.torrent"], room.folder)


for _maker in MAKERS:

    @case(f"one file of many pieces, by {_maker}", "nginx", _maker, "aria2c")
    def _(room, maker=_maker):
        payload = noise(1_000_003)
        with nginx() as mirror:
            make(maker, room, mirror, payload, "pay load.bin", [mirror.url(target="/pay%20load.bin")])
            room.fetches(payload, "pay load.bin")
        aria2_accepts(room)

    @case(f"several files in folders, by {_maker}", "nginx", _maker, "aria2c")
    def _(room, maker=_maker):
        with nginx() as mirror:
            told, _ = make(maker, room, mirror, TREE, "bäume x")
            room.fetches(told, "bäume x")
        aria2_accepts(room)

    @case(f"a list of seeds, by {_maker}", "nginx", _maker)
    def _(room, maker=_maker):
        with nginx() as mirror:
            seeds = [b"https://127.0.0.1/", mirror.url(target=""), b"http://127.0.0.1:1/"]
            told, _ = make(maker, room, mirror, TREE, "n", seeds)
            room.fetches(told, "n")

    @case(f"a second file that nginx lacks, by {_maker}", "nginx", _maker)
    def _(room, maker=_maker):
        payload = [("x", noise(100_000)), ("y", b"hello")]
        with nginx() as mirror:
            make(maker, room, mirror, payload, "n")
            os.remove(f"{mirror.www}/n/y")
            room.fails(3, payload, 3 * PIECE, "n")

    @case(f"transmission-show reads what is fetched, by {_maker}", "nginx", _maker, "transmission-show")
    def _(room, maker=_maker):
        for payload, name in ((b"hello", "a"), (TREE, "bäume x")):
            with nginx() as mirror:
                told, info = make(maker, room, mirror, payload, name)
                shown = peer(["transmission-show", "t.torrent"], room.folder).decode()
                room.fetches(told, name)
            for line in (f"Name: {name}\n", f"{hashlib.sha1(info).hexdigest()}\n"):
                want(line in shown, f"transmission-show wrote {shown!r}, without {line!r}")
            os.remove(room.path("t.torrent"))


@case("a torrent of mktorrent, which aria2 fetches too", "nginx", "mktorrent", "aria2c")
def _(room):
    with nginx() as mirror:
        told, _ = make("mktorrent", room, mirror, TREE, "n")
        room.fetches(told, "n")
        os.rename(room.path("n"), room.path("ours"))
        peer([*ARIA2C, "t.torrent"], room.folder)
    room.has(told, "n")


@case("files of others stay", "nginx")
def _(room):
    others = {"other.aria2": b"\0\1", "n/other": b"other", "t.aria2__temp": b"", "other": b"other"}
    for path, content in others.items():
        room.put(path, content)
    with nginx() as mirror:
        for path, content in files_of(TREE, "n"):
            mirror.put(path, content)
        room.torrent(mirror.url(target="/"), TREE, name="n")
        room.fetches(TREE, "n", anew=False)
    for path, content in others.items():
        want(room.get(path) == content, f"{path} has {room.get(path)}")
