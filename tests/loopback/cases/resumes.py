"""The cases of runs that go on with what another one left: killed ones, aria2's, and what else may stand."""
import os
import random
import signal
import subprocess
import time

from lib import controls
from lib.aria2 import ARIA2, interrupted
from lib.controls import BLOCK, blocks_of, packed, written
from lib.killing import Slow, killed, listed_of
from lib.mirrors import Site
from lib.payloads import LONG, MIB, MIB_CLAIMS, SMALL, SPREAD, noise, served, want_all_asked
from lib.payloads import blocks_of as numbers_of
from lib.rooms import BY_MIB, LIMIT, ONCE, PLAIN, case
from lib.sevens import ALL, HASH, SEVEN, TORN, refused
from lib.sevens import PIECE as PAIR
from lib.torrents import whole
from lib.wants import about, want, want_in_time, want_within

SAVING = ("--auto-save-interval=1",)


def goes_on(room, site, payload, listed, words=ONCE):
    """A run ends well, and asks for just the blocks that weren't listed."""
    site.requests.clear()
    room.fetches(payload, anew=False, words=words)
    site.wait()
    lacking = set(range(-(-len(payload) // BLOCK))) - listed
    asked = site.blocks()
    want(asked == lacking, f"it asked for {sorted(asked & listed)} once more, and not for {sorted(lacking - asked)}")


@case("a run that is killed at thirty moments", "disk", slow=True)
def _(room):
    chance = random.Random(30)
    payload = noise(24 * MIB - 1_000)
    listed, verified = set(), b""
    # slow enough that it doesn't end before the last kill
    with Slow({"/a.bin": payload}, 500_000) as site:
        room.torrent(site.url(), payload, piece_length=16 * BLOCK)
        for place in range(30):
            site.requests.clear()
            with about(f"kill {place}"):
                killed(room, *SAVING, *chance.choice([PLAIN, ONCE, BY_MIB]), after=chance.uniform(0.01, 2.4))
                again = site.blocks() & listed
                want(not again, f"it asked for {sorted(again)}, which were listed")
                now = listed_of(room, payload)
                want(listed <= now, f"the control file doesn't list {sorted(listed - now)} any more")
                listed = now
                if now:
                    verified = controls.read(room.get("a.aria2")).pieces.strip(b"\0")
        want_in_time(len(listed) > 100 and verified, f"just {len(listed)} blocks were listed, and the pieces {verified}")
        site.rate = None
        goes_on(room, site, payload, listed)


@case("a run that is ended by a signal", "disk", slow=True)
def _(room):
    payload = noise(8 * MIB)
    listed = set()
    with Slow({"/a.bin": payload}, 1_000_000) as site:
        room.torrent(site.url(), payload, piece_length=MIB)
        for by in (signal.SIGINT, signal.SIGTERM, signal.SIGHUP):
            with about(f"{by.name}"):
                killed(room, *SAVING, *PLAIN, when=lambda: listed < listed_of(room, payload), by=by)
                listed = listed_of(room, payload)
        site.rate = None
        goes_on(room, site, payload, listed)


@case("progress is saved by time, as often as the words say", "disk", slow=True)
def _(room):
    payload = noise(8 * MIB)
    with Slow({"/a.bin": payload}, 1_000_000) as site:
        room.torrent(site.url(), payload, piece_length=MIB)
        for seconds in (1, 2, 3):
            room.clear()
            with about(f"{seconds} seconds"):
                words = [f"--auto-save-interval={seconds}", *PLAIN]
                passed = killed(room, *words, when=lambda: listed_of(room, payload))
                # the disk may be slow
                want(passed >= seconds, f"it was first saved after {passed:.2f} seconds")
                want_within(passed, seconds + 10, "the first save")
        for words in (["--auto-save-interval=0", *PLAIN], PLAIN):
            room.clear()
            with about(f"{words}"):
                killed(room, *words, after=2.5)
                listed = listed_of(room, payload)
                want(not listed, f"{len(listed)} blocks are listed")
        site.rate = None
        goes_on(room, site, payload, set())


@case("a file that URIs name, whose run is killed", "disk", slow=True)
def _(room):
    room.unlisted()
    payload = noise(8 * MIB - 5)
    with Slow({"/a.bin": payload}, 1_500_000) as site:
        uri = site.url().decode()
        # the second save is of a piece and more
        killed(room, *SAVING, "--out=a", uri, when=lambda: len(listed_of(room, payload)) > 64)
        listed = listed_of(room, payload)
        # a piece of which all blocks came counts as right
        control = controls.read(room.get("a.aria2"))
        whole_ones = [all(it in listed for it in range(piece * 64, piece * 64 + 64)) for piece in range(8)]
        want(control.pieces == packed(whole_ones), f"the pieces {control.pieces} are listed")
        site.rate = None
        site.requests.clear()
        room.fetches(payload, anew=False, words=["--out=a", uri])
        site.wait()
        site.requests.pop(0)
        want(site.blocks() == set(range(512)) - listed, f"it asked for {sorted(site.blocks() & listed)} once more")


# aria2 beside the program.


@case("what aria2 left is gone on with", "aria2c", "disk", slow=True)
def _(room):
    for most in (60_000, 150_000):
        with about(f"after {most} bytes"):
            room.clear()
            content = interrupted(room, SEVEN, most, PAIR)
            listed = {it for it, is_listed in enumerate(blocks_of(controls.read(content))) if is_listed}
            want_in_time(len(listed) == most // BLOCK, f"aria2 lists {sorted(listed)}")
            with Slow({"/a.bin": SEVEN}) as site:
                # the seed is another one, which the info hash doesn't tell of
                room.torrent(site.url(), SEVEN, b"a", PAIR)
                goes_on(room, site, SEVEN, listed)


@case("what aria2 left of several files, killed", "aria2c", "disk", slow=True)
def _(room):
    with Slow(served(SPREAD), 400_000) as site:
        room.torrent(site.url(target="/"), SPREAD, piece_length=MIB // 4)
        quiet = {"cwd": room.folder, "stdin": subprocess.DEVNULL, "stdout": subprocess.DEVNULL}
        started = subprocess.Popen([*ARIA2, "--auto-save-interval=1", "-x1", "-s1", "t.torrent"], **quiet)
        try:
            # it saves each second, and begins to ask some seconds after its start
            for _ in range(300):
                content = room.get("a.aria2")
                if content and sum(blocks_of(controls.read(content))) > 30:
                    break
                time.sleep(0.1)
        finally:
            started.kill()
            started.wait()
        listed = [it for it, is_listed in enumerate(blocks_of(controls.read(room.get("a.aria2")))) if is_listed]
        want_in_time(30 < len(listed) < 144, f"aria2 lists {listed}")
        site.rate = None
        site.requests.clear()
        room.fetches(SPREAD, anew=False)
        free = set(range(144)) - set(listed)
        want_all_asked(site, SPREAD, MIB // 4, free=free)


@case("aria2 goes on with what a killed run left", "aria2c", "disk", slow=True)
def _(room):
    payload = noise(4 * MIB)
    with Slow({"/a.bin": payload}, 1_000_000) as site:
        room.torrent(site.url(), payload, piece_length=MIB)
        for _ in range(3):
            room.clear()
            killed(room, *SAVING, *BY_MIB, when=lambda: len(listed_of(room, payload)) > 64)
            listed = listed_of(room, payload)
            # aria2 takes no piece in flight of which each block is there
            full = [bits for bits in controls.read(room.get("a.aria2")).flying.values() if bits == b"\xff" * 8]
            if not full:
                break
        want_in_time(len(listed) < 250, f"{len(listed)} blocks are listed")
        site.rate = None
        site.requests.clear()
        quiet = {"cwd": room.folder, "stdin": subprocess.DEVNULL, "stdout": subprocess.DEVNULL}
        ran = subprocess.run([*ARIA2, "--continue=true", "t.torrent"], timeout=LIMIT, check=False, **quiet)
        want(ran.returncode == 0, f"aria2 ended with {ran.returncode}")
        want(room.get("a") == payload, "the payload isn't whole")
        want(not room.control_files(), f"{room.control_files()} stand")
        # it may hang up in the midst of a part, so that just the first byte tells what it lacks
        firsts = {int(it.split(b"bytes=")[1].split(b"-")[0]) for it in site.requests}
        want(firsts and not {it // BLOCK for it in firsts} & listed, f"aria2 asked from {sorted(firsts)} on")


# What else may stand.


@case("a run behind one that ended well")
def _(room):
    for payload, piece_length in ((LONG, MIB), (SPREAD, MIB), (SMALL, 5)):
        with Site(served(payload)) as site:
            room.torrent(site.url(target="/"), payload, piece_length=piece_length)
            room.fetches(payload, words=PLAIN)
            site.requests.clear()
            for words in (PLAIN, ("--check-integrity", *PLAIN)):
                room.fetches(payload, anew=False, words=words)
            want(not site.requests, f"{len(site.requests)} requests came")


def puts(room, stands, control, name="a"):
    room.clear(name)
    room.put(f"{name}.aria2", control)
    if stands is not None:
        room.put(name, stands)


@case("a control file, and a payload that isn't as it was")
def _(room):
    for stands, free in (
        (SEVEN, []),
        (None, range(13)),
        (b"", range(13)),
        (SEVEN[:100_000], range(6, 13)),
        (SEVEN[:98_303], range(4, 13)),
        (SEVEN[:-1], [12]),
        (SEVEN + b"more", []),
    ):
        with about(f"{None if stands is None else len(stands)} bytes"), Site(served(SEVEN)) as site:
            room.torrent(site.url(target="/"), SEVEN, b"a", PAIR)
            puts(room, stands, ALL)
            room.fetches(SEVEN, anew=False)
            want_all_asked(site, SEVEN, PAIR, free=free)


def reaches(stands, payload, piece_length):
    """For each piece whether each of its bytes is one of the files, which have these lengths; None is a missing one."""
    there = b""
    for (_, content), length in zip(payload, stands):
        there += (b"\1" * len(content))[: length or 0].ljust(len(content), b"\0")
    return [all(there[at : at + piece_length]) for at in range(0, len(there), piece_length)]


@case("a control file of several files, which aren't as they were")
def _(room):
    for payload, piece_length in ((SMALL, 16), (SMALL, 5), (SPREAD, MIB)):
        words, claimed = (BY_MIB, MIB_CLAIMS) if payload is SPREAD else (ONCE, {})
        total = len(whole(payload))
        lengths = [len(it) for _, it in payload]
        for place in range(len(payload)):
            for length in (None, 0, max(lengths[place] - 1, 0), lengths[place] + 5):
                stands = [length if at == place else it for at, it in enumerate(lengths)]
                right = reaches(stands, payload, piece_length)
                with about(f"file {place} of {length}, pieces of {piece_length}"), Site(served(payload)) as site:
                    room.clear()
                    room.torrent(site.url(target="/"), payload, b"a", piece_length)
                    for (path, content), it in zip(payload, stands):
                        if it is not None:
                            room.put(f"a/{path}", content[:it].ljust(it, b"x"))
                    row = packed([True] * len(right))
                    room.put("a.aria2", written(room.right[0], piece_length, total, row))
                    room.fetches(payload, anew=False, words=words)
                    lacking = [piece for piece, is_there in enumerate(right) if not is_there]
                    free = [*numbers_of(lacking, total, piece_length)]
                    want_all_asked(site, payload, piece_length, free=free, **claimed)


@case("pieces that a control file lists are compared where the words say so")
def _(room):
    some = written(HASH, PAIR, len(SEVEN), b"\x80", [(1, PAIR, b"\x80"), (2, PAIR, b"\xc0")])
    none = written(HASH, PAIR, len(SEVEN), b"\0")
    for name, stands, control, words, right, free in (
        ("listed, and not compared", TORN, ALL, ONCE, TORN, []),
        ("listed, and compared", TORN, ALL, ("-V", *ONCE), SEVEN, [2, 3]),
        ("not listed, and compared", TORN, none, ("--check-integrity", *ONCE), SEVEN, [2, 3]),
        ("not listed, and not compared", SEVEN, none, ONCE, SEVEN, range(13)),
        ("in flight", SEVEN, some, ONCE, SEVEN, [3, *range(6, 13)]),
        ("in flight, and compared", SEVEN[:49_152] + bytes(150_848), some, ("-V", *ONCE), SEVEN, range(2, 13)),
        ("no control file", TORN, None, ("-V", *ONCE), SEVEN, [2, 3]),
    ):
        with about(name), Site(served(SEVEN)) as site:
            room.torrent(site.url(target="/"), SEVEN, b"a", PAIR)
            puts(room, stands, control or b"")
            if control is None:
                os.remove(room.path("a.aria2"))
            room.ends(0, len(SEVEN), words=words)
            want(room.get("a") == right, "the payload isn't as it should be")
            want_all_asked(site, SEVEN, PAIR, free=free)


@case("a control file of version 0, with its numbers the other way round")
def _(room):
    numbers = [PAIR.to_bytes(4, "little"), len(SEVEN).to_bytes(8, "little"), bytes(8), (1).to_bytes(4, "little")]
    begin = b"\0\0" + b"\0\0\0\1" + (20).to_bytes(4, "little") + HASH + b"".join(numbers) + b"\xa0"
    flies = [(it).to_bytes(4, "little") for it in (1, 4, PAIR, 1)] + [b"\x40"]
    with Site(served(SEVEN)) as site:
        room.torrent(site.url(target="/"), SEVEN, b"a", PAIR)
        puts(room, SEVEN, begin + b"".join(flies))
        free = [2, 3, 6, 7, 8, *range(10, 13)]
        site.files = {}
        # what is written is of version 1
        room.fails(3, SEVEN, stands=SEVEN, completed=5 * BLOCK, anew=False, lists=[0, 1, 4, 5, 9])
        site.files = served(SEVEN)
        site.requests.clear()
        room.fetches(SEVEN, anew=False)
        want_all_asked(site, SEVEN, PAIR, free=free)


@case("control files that can't be used")
def _(room):
    with Site(served(SEVEN)) as site:
        room.torrent(site.url(target="/"), SEVEN, b"a", PAIR)
        for name, content, _, status in refused():
            for words in (ONCE, ("-V", *PLAIN)):
                puts(room, SEVEN[:100_000], content)
                stood = room.standing()
                with about(f"{name}, {words}"):
                    room.ends(status, len(SEVEN), words=words)
                    want(room.standing() == stood, "something has changed")
        want(not site.connections, f"{len(site.connections)} connections came")


@case("a folder stands in the place of a control file")
def _(room):
    with Site(served(SEVEN)) as site:
        room.torrent(site.url(target="/"), SEVEN, b"a", PAIR)
        for folder, control in (("a.aria2", None), ("a.aria2__temp", None), ("a.aria2__temp", ALL)):
            room.clear()
            room.put("a", SEVEN[:100_000])
            os.mkdir(room.path(folder))
            if control is not None:
                room.put("a.aria2", control)
            stood = room.standing()
            if control is not None:
                # the payload gets its length beside the control file that stands
                stood[room.path("a")] = SEVEN[:100_000].ljust(len(SEVEN), b"\0")
            with about(f"{folder}, {control is None}"):
                room.ends(17, len(SEVEN))
                want(room.standing() == stood, "something has changed")
        want(not site.connections, f"{len(site.connections)} connections came")


# Disks that are full, and then have room.


def within_mounts(script):
    """The words that run a script of shell on the program, where what it mounts is seen by nobody else."""
    return ["unshare", "--mount", "sh", "-c", script, "sh"]


@case("a disk that is full at any place", "unshare")
def _(room):
    os.mkdir(room.path("d"))
    with Site({"/a.bin": LONG}) as site:
        room.torrent(site.url(), LONG, piece_length=MIB)
        words = ["--dir=d", *BY_MIB]
        room.put("right", LONG)
        # then there is room, and the next run ends well
        again = "; ".join([
            "cp d/a d/a.aria2 .",
            "mount -o remount,size=8M d",
            '"$@" >/dev/null || exit 98',
            "cmp d/a right || exit 97",
            "[ ! -e d/a.aria2 ] || exit 96",
        ])
        for size, landed in (
            ("4k", 0),
            ("8k", 0),
            ("64k", None),
            ("1M", None),
            ("1028k", MIB),
            ("2052k", 2 * MIB),
            ("2440k", None),
        ):
            with about(size):
                script = f'mount -t tmpfs -o size={size} none d || exit 99; "$@"; ended=$?; {again}; exit $ended'
                ended, wrote = room.run(*words, within=within_mounts(script), leaves=True)
                want(ended == 17 and b"|%d|17|d/a\n" % len(LONG) in wrote, f"status {ended}, output {wrote!r}")
                completed = int(wrote.split(b"|")[-4])
                want(landed in (None, completed), f"{completed} bytes landed")
                stands = room.get("a")
                want(len(stands) in (0, len(LONG)), f"the payload has {len(stands)} bytes")
                want(stands[:completed] == LONG[:completed], "what landed isn't there")
                room.lists([], len(LONG))
            room.clear()


@case("a disk that takes nothing", "unshare")
def _(room):
    with Site({"/a.bin": LONG}) as site:
        room.torrent(site.url(), LONG, piece_length=MIB)
        script = 'mount --bind . . && cd "$PWD" && mount -o remount,ro,bind . || exit 99; "$@"'
        stood = room.standing()
        room.ends(17, len(LONG), within=within_mounts(script))
        want(room.standing() == stood, "something has changed")
        want(not site.connections, f"{len(site.connections)} connections came")
