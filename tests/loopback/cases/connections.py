"""The cases of connections that take several requests, and of those that don't (RFC 9112 section 9.3)."""
import os

from lib.buffers import LARGE, with_buffers
from lib.mirrors import Nginx, Site, head, reply, sends
from lib.payloads import LONG, MIB, PIECE, SPREAD, served
from lib.recording import Recording
from lib.rooms import BY_MIB, PLAIN, case, want_asked
from lib.wants import about, want

# Each piece is a claim of its own, and asked for by itself.
PIECES = [("/a.bin", 0, MIB - 1), ("/a.bin", MIB, 2 * MIB - 1), ("/a.bin", 2 * MIB, len(LONG) - 1)]


def part(asked, *fields):
    """The reply with what is asked of the payload, in a head with more fields."""
    content = LONG[asked.first : asked.last + 1]
    return reply(content, *fields, first=asked.first, total=len(LONG))


def in_old_version(asked):
    return part(asked).replace(b"HTTP/1.1", b"HTTP/1.0", 1)


def want_connections(mirror, count):
    want(len(mirror.connections) == count, f"{len(mirror.connections)} connections came, and not {count}")


@case("one connection for all pieces")
def _(room):
    with Site({"/a.bin": LONG}) as site:
        room.torrent(site.url(), LONG, piece_length=MIB)
        room.fetches(LONG, words=BY_MIB)
        want_asked(site, PIECES)
        want_connections(site, 1)


@case("one connection for all files")
def _(room):
    with Site(served(SPREAD)) as site:
        room.torrent(site.url(target="/"), SPREAD, piece_length=MIB)
        room.fetches(SPREAD, words=BY_MIB)
        want_connections(site, 1)


@case("connections that stay, are told to close, or end without a word")
def _(room):
    for name, said, count in (
        ("kept by the version", part, 1),
        ("kept by the word", lambda asked: part(asked, b"Connection: Keep-Alive"), 1),
        ("kept beside other options", lambda asked: part(asked, b"Connection: Upgrade, Keep-Alive"), 1),
        ("kept beside another option alone", lambda asked: part(asked, b"Connection: upgrade"), 1),
        ("closed by the word", lambda asked: part(asked, b"Connection: close"), 3),
        ("closed beside another option", lambda asked: part(asked, b"Connection: keep-alive, Close"), 3),
        ("closed by the version", in_old_version, 3),
        ("ended behind each reply", lambda asked: sends(part(asked)), 3),
        ("closed for bytes behind a reply", lambda asked: part(asked) + head(b"Content-Length: 0"), 3),
    ):
        with about(name), Recording(said) as mirror:
            room.torrent(mirror.url(), LONG, piece_length=MIB)
            room.fetches(LONG, words=BY_MIB)
            want_asked(mirror, PIECES)
            want_connections(mirror, count)


@case("a reply that ends early on a connection that was kept")
def _(room):
    cut = reply(LONG[MIB : 2 * MIB], first=MIB, total=len(LONG))[:-1]
    with Site({"/a.bin": LONG}, instead={1: cut}) as site:
        room.torrent(site.url(), LONG, piece_length=MIB)
        # the last block of the second piece didn't come whole
        room.fails(6, LONG, completed=2 * MIB - PIECE, words=BY_MIB)
        want_asked(site, PIECES[:2])
        want_connections(site, 1)


@case("nginx with connections that take so many requests", "nginx")
def _(room):
    for name, more, count in (
        ("one by keepalive_requests", "keepalive_requests 1;", 3),
        ("two", "keepalive_requests 2;", 2),
        ("all", "keepalive_requests 1000;", 1),
        ("one by keepalive_timeout", "keepalive_timeout 0;", 3),
    ):
        folder = room.path(name.replace(" ", "-"))
        os.mkdir(folder)
        with about(name):
            with Nginx(folder, ("127.0.0.1",), more) as mirror:
                mirror.put("a.bin", LONG)
                room.torrent(mirror.url(), LONG, piece_length=MIB)
                room.fetches(LONG, words=BY_MIB)
            want_connections(mirror, count)


@case("buffers that are made once, for all pieces", "cc")
def _(room):
    count = 5
    payload = bytes(range(256)) * (count * LARGE // 256)
    with Site({"/a.bin": payload}) as site:
        room.torrent(site.url(), payload, piece_length=LARGE)
        # two of a fetch, and for each piece one that is hashed and one that it is compared with
        made, standing = 2 + 2 * count, 4
        for words in (PLAIN, BY_MIB):
            room.fetches(payload, words=words, shell=f"export LD_PRELOAD={with_buffers(room.folder, made, standing)}")
        for buffers in ((made - 1, standing), (made, standing - 1)):
            room.clear()
            preload = f"export LD_PRELOAD={with_buffers(room.folder, *buffers)}"
            with about(f"{buffers}"):
                ended = room.run("t.torrent", shell=preload, leaves=True)
                want(ended == (40, b""), f"it ended with {ended}")
