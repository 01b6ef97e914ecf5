"""The cases of a disk that fails at one call, of runs that end at one, and of memory that is refused once."""
import re

from lib import controls
from lib.controls import written
from lib.faults import Faults
from lib.mirrors import Site
from lib.payloads import SMALL, served, turned
from lib.rooms import HEADER, PLAIN, case
from lib.sevens import HASH, PIECE, SEVEN
from lib.wants import about, want, want_said

# The first calls read the metainfo file: they look for it, open it and read it.
AT_METAINFO = 3
# How often it is looked whether a folder of those files stands, or one is made that does.
LOOKS = 10

# The first piece is verified. The third is in flight whole and is wrong, so that progress is saved without it.
TURNED = turned(SEVEN, [2 * PIECE])
SOME = written(HASH, PIECE, len(SEVEN), b"\x80", [(1, PIECE, b"\x80"), (2, PIECE, b"\xc0")])


def begin_anew(room):
    room.clear()


def begin_with_progress(room):
    room.clear()
    room.put("a", TURNED)
    room.put("a.aria2", SOME)


# What is fetched, in which pieces, and what stands before.
STARTS = [
    ("one file", b"hello", 5, begin_anew),
    ("an empty file", b"", 5, begin_anew),
    ("files in folders", SMALL, 16, begin_anew),
    ("progress", SEVEN, PIECE, begin_with_progress),
]


def ended(room, words, shell, may_say=b""):
    """How a run ends of which no control file is told: by its status, and with what it wrote. So much it may say, however it ends."""
    started = room.start(*words, shell=shell)
    try:
        wrote, said = started.communicate(timeout=30)
    finally:
        if started.poll() is None:
            started.kill()
            started.communicate()
    if said != may_say:
        want_said(said, started.returncode)
    return started.returncode, wrote


def each_call(room, does):
    """Tries each call of the disk of a run in turn, which doesn't come to pass, and tells how the run ends."""
    faults = Faults(room.folder)
    for name, payload, piece_length, begin in STARTS:
        with Site(served(payload)) as site:
            room.torrent(site.url(target="/"), payload, b"a", piece_length)
            begin(room)
            room.fetches(payload, anew=False, words=PLAIN, shell=faults.shell())
            count, _ = faults.counts()
            want(count > 30, f"just {count} calls of the disk came")
            for number in range(count):
                begin(room)
                with about(f"{name}, call {number} of {count}"):
                    yield number, *ended(room, PLAIN, faults.shell(FAULT_AT=number, FAULT_DOES=does)), begin
                    # the next run has a disk that doesn't fail
                    site.requests.clear()
                    room.fetches(payload, anew=False, words=PLAIN)
                    if begin is begin_with_progress:
                        asked = b"".join(site.requests)
                        want(b"bytes=0-" not in asked, "the verified piece was asked for once more")


@case("each call of the disk fails in turn", "cc")
def _(room):
    summary = re.escape(HEADER) + rb"[0-9a-f]{16}\|ERR\|[0-9]+\|[0-9]+\|17\|a\n"
    made = 0
    for number, status, wrote, _ in each_call(room, "fails"):
        right = rb"error 17\n" if number < AT_METAINFO else summary
        # where a look for a folder fails it is made, and where the making fails it is looked for
        made += status == 0 and wrote.endswith(b"|OK|36|36|0|a\n")
        want(status == 0 or status == 17 and re.fullmatch(right, wrote), f"status {status}, output {wrote!r}")
    want(made <= LOOKS, f"{made} runs went well")


def is_sound(room, begin):
    """Of use is what is left: the verified piece is told, or the payload is whole and no control file stands."""
    control = room.get("a.aria2")
    if control is None:
        want(begin is not begin_with_progress or room.get("a") == SEVEN, "the control file has gone")
    elif begin is begin_with_progress:
        pieces = controls.read(control).pieces
        want(controls.bit(pieces, 0) and room.get("a")[:PIECE] == SEVEN[:PIECE], f"the pieces {pieces} are told")
    else:
        controls.read(control)


@case("a run that dies at each call of the disk, and in the midst of each write", "cc")
def _(room):
    for _, status, wrote, begin in each_call(room, "tears"):
        want((status, wrote) == (-9, b""), f"status {status}, output {wrote!r}")
        is_sound(room, begin)


@case("a file that URIs name, whose run meets a fault at each call of the disk", "cc")
def _(room):
    faults = Faults(room.folder)
    room.unlisted()
    with Site({"/a": b"hello"}) as site:
        words = [site.url(target="/a").decode()]
        room.fetches(b"hello", words=words, shell=faults.shell())
        count, _ = faults.counts()
        for does, right in (("fails", 17), ("tears", -9)):
            for number in range(count):
                room.clear()
                with about(f"{does}, call {number} of {count}"):
                    status, _ = ended(room, words, faults.shell(FAULT_AT=number, FAULT_DOES=does))
                    want(status == right, f"status {status}")
                    if room.get("a") is not None and room.get("a.aria2") is None:
                        # the whole payload stands, and the next run takes it for another's
                        want(room.get("a") == b"hello", f"the file has {room.get('a')}, and no control file stands")
                        room.ends(13, 5, words=words)
                    else:
                        room.fetches(b"hello", anew=False, words=words)


@case("each request for memory is refused in turn", "cc")
def _(room):
    faults = Faults(room.folder)
    with Site({"/a": b"hello"}) as site:
        room.torrent(site.url(target="/"))
        room.fetches(b"hello", shell=faults.shell())
        _, count = faults.counts()
        want(count > 100, f"just {count} requests for memory came")
        wanting = 0
        for number in range(count):
            room.clear()
            with about(f"request {number} of {count}"):
                # also where memory is wanting for nothing but why it ended
                status, wrote = ended(room, PLAIN, faults.shell(REFUSED_AT=number), b"aria_cli: memory is wanting to tell why\n")
                # nothing more is written once memory was wanting
                is_wanting = status == 40 and wrote in (b"", HEADER)
                is_done = status == 0 and wrote.endswith(b"|OK|5|5|0|a\n")
                want(is_wanting or is_done, f"status {status}, output {wrote!r}")
                wanting += is_wanting
                if number % 5 == 0:
                    room.fetches(b"hello", anew=False)
        want(wanting > count * 3 // 4, f"just {wanting} of {count} requests were noticed")
