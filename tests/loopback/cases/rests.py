"""The cases of parts that come shorter than what was asked for."""
from lib.mirrors import head, reply, sends
from lib.payloads import SMALL, THREE, all_asked, served
from lib.recording import CHUNKED, Recording, by_manner, in_chunks, shorter
from lib.rests import FRONT, FRONTS, LOST, OTHER, RIGHT, STAYING, in_steps
from lib.rooms import case, want_asked
from lib.wants import about

# The rest of what was asked for is asked for by a further request.


@case("parts that are shorter")
def _(room):
    for most in (1, 2, 3, 4):
        with about(f"{most} bytes"), Recording(by_manner({"/a.bin": b"hello"}, shorter(most))) as mirror:
            room.torrent(mirror.url())
            room.fetches(b"hello")
            want_asked(mirror, in_steps([("/a.bin", 0, 4)], most))


@case("a byte at a time")
def _(room):
    payload = THREE[:300]
    with Recording(by_manner({"/a.bin": payload}, shorter(1))) as mirror:
        room.torrent(mirror.url(), payload, piece_length=200)
        room.fetches(payload)
        want_asked(mirror, in_steps([("/a.bin", 0, 299)], 1))


@case("pieces of several files in parts that are shorter")
def _(room):
    for most in (1, 4, 9):
        with about(f"{most} bytes"), Recording(by_manner(served(SMALL), shorter(most))) as mirror:
            room.torrent(mirror.url(target="/"), SMALL, piece_length=16)
            room.fetches(SMALL)
            want_asked(mirror, in_steps(all_asked(SMALL, 16), most))


@case("replies with a front of what was asked for")
def _(room):
    for name, front in FRONTS:
        for status, how, rest in RIGHT + LOST:
            with about(f"{name}, and then one {how}"), Recording([front, rest]) as mirror:
                room.torrent(mirror.url())
                if status:
                    room.fails(status, stands=OTHER if status == 32 else None)
                else:
                    room.fetches(b"hello")
                again = how == "with nothing" and name in STAYING
                want_asked(mirror, [("/a.bin", 0, 4), ("/a.bin", 2, 4)] + [("/a.bin", 2, 4)] * again)


@case("a front that is cut")
def _(room):
    for cut in (FRONT[:-1], head(b"Content-Range: bytes 0-1/5", CHUNKED) + in_chunks(b"h")):
        with Recording([sends(cut), reply(b"hello")]) as mirror:
            room.torrent(mirror.url())
            room.fails(6)
            want_asked(mirror, [("/a.bin", 0, 4)])
