"""The cases of how many connections stand open at a host, those that rest among them, and of bytes that are counted as they come."""
import contextlib
import statistics
import time

from lib.consoles import steered
from lib.counting import Counting, OneEach, longest_above, one_thread
from lib.killing import Slow, killed, listed_of
from lib.mirrors import Site
from lib.origins import fetched
from lib.payloads import MIB, noise
from lib.recording import asked_by
from lib.rooms import case
from lib.wants import about, want, want_in_time, want_within

# As many connections as there are where no word says how many.
DEFAULT = ("--split=5", "t.torrent")

# How long a connection may stand open beside the one that took its place: a digest of a mebibyte, and a busy machine.
BESIDE = 0.04


# So often a run with default options has to go well, and so many times as long as curl it may take.
RUNS, TIMES_CURL = 20, 2


def timed(function, *words, **how):
    """How many seconds it takes."""
    begun = time.monotonic()
    function(*words, **how)
    return time.monotonic() - begun


def want_as_curl(room, url, payload):
    """Each run is right, and the middle one takes no more than twice as long as the middle one of curl, with the digest of it all."""
    line = f"curl -sS -r 0-{len(payload) - 1} -o by-curl {url.decode()} && sync by-curl && sha1sum by-curl"
    whole = ("sh", "-c", line)
    ours, theirs = [], []
    for number in range(RUNS):
        with about(f"run {number}"):
            ours.append(timed(room.fetches, payload, words=DEFAULT))
            theirs.append(timed(fetched, room, *whole))
    want(room.get("by-curl") == payload, "curl fetched other bytes")
    most = TIMES_CURL * statistics.median(theirs)
    want_within(statistics.median(ours), most, f"the middle one of {RUNS} runs, where curl's took {most / TIMES_CURL:.2f},")


@case("a mirror of one thread that keeps connections", "curl", slow=True)
def _(room):
    payload = noise(50 * MIB)
    with one_thread(payload) as url:
        room.torrent(url, payload, piece_length=MIB)
        want_as_curl(room, url, payload)


for _length in (MIB // 16, MIB):

    @case(f"a mirror that serves one connection, and answers 503 over others, in pieces of {_length >> 10} KiB", "curl", slow=True)
    def _(room, length=_length):
        payload = noise(100 * MIB)
        with OneEach({"/a.bin": payload}) as mirror:
            room.torrent(mirror.url(), payload, piece_length=length)
            want_as_curl(room, mirror.url(), payload)
            want(mirror.turned_away <= 8 * RUNS, f"{mirror.turned_away} connections were turned away")


@case("no more connections stand open to a host than the words say, those that rest among them", slow=True)
def _(room):
    payload = noise(24 * MIB)
    for words, most in ((["--max-connection-per-server=1"], 1), (["--max-connection-per-server=2"], 2)):
        with about(f"{words}"), Counting({"/a.bin": payload}) as first, Counting({"/a.bin": payload}) as second:
            # two ports of one host
            room.torrent([first.url(), second.url()], payload, piece_length=MIB)
            room.fetches(payload, words=["--split=8", *words, "--min-split-size=1M", "t.torrent"])
            beside = longest_above((first, second), most)
            want_in_time(beside < BESIDE, f"more than {most} stood open for {beside:.3f} seconds")


@case("what comes slowly is told every two seconds", slow=True)
def _(room):
    payload = noise(MIB)
    with Slow({"/a.bin": payload}, 40_000) as mirror, steered(room) as (console, ended):
        gid = console.call("aria2.addUri", [mirror.url().decode()], {"out": "a"})
        done, since, begun = 0, time.monotonic(), time.monotonic()
        while time.monotonic() < begun + 12:
            status = console.status(gid)
            told, speed = (int(status[it]) for it in ("completedLength", "downloadSpeed"))
            now = time.monotonic()
            # it is that of the last ten seconds
            least = 25_000 if now > begun + 11 else 1_000 if now > begun + 2 else 0
            want_in_time(least <= speed < 60_000, f"after {now - begun:.1f} seconds the speed is {speed}")
            want_in_time(told > done or now - since < 2, f"{done} bytes were told for {now - since:.2f} seconds")
            if told > done:
                done, since = told, now
            time.sleep(0.05)
        # what came is told, but for a step
        want_in_time(done > 8 * 40_000, f"after 12 seconds {done} bytes were told")
        console.call("aria2.shutdown")
    status, wrote = ended
    want(status == 7, f"status {status}, output {wrote!r}")


@case("what comes slowly is saved as often as the words say", slow=True)
def _(room):
    payload = noise(MIB)
    with Slow({"/a.bin": payload}, 40_000) as mirror:
        room.torrent(mirror.url(), payload, piece_length=MIB // 4)
        words = ("--split=5", "--auto-save-interval=1", "t.torrent")
        listed = set()
        for _ in range(3):
            # each is killed once more is listed than the one before listed
            passed = killed(room, *words, when=lambda: listed < listed_of(room, payload))
            want_within(passed, 5, "a save that lists more")
            listed = listed_of(room, payload)


@case("a slow mirror beside a fast one holds the end by a block alone")
def _(room):
    payload = noise(8 * MIB)
    for is_slow_first in (True, False):
        with Slow({"/a.bin": payload}, 30_000) as slow, Site({"/a.bin": payload}) as fast:
            # each is a host of its own, and is asked over one connection
            seeds = [slow.url(), fast.url("localhost")]
            room.torrent(seeds if is_slow_first else seeds[::-1], payload, piece_length=MIB // 4)
            begun = time.monotonic()
            room.fetches(payload, words=["--split=2", "--min-split-size=1M", "t.torrent"])
            want_within(time.monotonic() - begun, 4)
            want(slow.requests, "the slow mirror was asked for nothing")


def want_hung_up(mirror):
    """No connection stands there a second later."""
    begun = time.monotonic()
    while mirror.standing():
        want_within(time.monotonic() - begun, 1, "the end of the connection")
        time.sleep(0.01)


@case("a download that is paused keeps no connection", slow=True)
def _(room):
    payload = noise(8 * MIB)
    for rate in (40_000, 400_000):
        mirror = Counting({"/a.bin": payload}, rate)
        with about(f"{rate} bytes a second"), mirror, steered(room) as (console, _):
            gid = console.call("aria2.addUri", [mirror.url().decode()], {"out": f"{rate}"})
            console.until(gid, {"status": "active", "connections": "1"})
            time.sleep(2)
            want(mirror.standing() == 1, f"{mirror.standing()} connections stand while it comes")
            console.call("aria2.pause", gid)
            want_hung_up(mirror)
            console.call("aria2.remove", gid)
            console.call("aria2.shutdown")


@case("a download that is removed keeps no connection", slow=True)
def _(room):
    payload = noise(8 * MIB)
    for rate in (40_000, 400_000):
        mirror = Counting({"/a.bin": payload}, rate)
        with about(f"{rate} bytes a second"), mirror, steered(room) as (console, _):
            gid = console.call("aria2.addUri", [mirror.url().decode()], {"out": f"{rate}"})
            console.until(gid, {"status": "active", "connections": "1"})
            time.sleep(2)
            want(mirror.standing() == 1, f"{mirror.standing()} connections stand while it comes")
            console.call("aria2.remove", gid)
            want_hung_up(mirror)
            console.call("aria2.shutdown")


def asked_within(mirror, first, last):
    """What the mirror was asked for among these bytes."""
    asked = [asked_by(it)[1:] for it in mirror.requests]
    return [it for it in asked if first < it[0] <= last]


@case("a mirror from which another one takes what it still lacks is hung up", slow=True)
def _(room):
    payload = noise(8 * MIB)
    # what the slow one is asked for would take it minutes
    with Counting({"/a.bin": payload}, 40_000) as slow, Counting({"/a.bin": payload}, 4 * MIB) as fast, contextlib.ExitStack() as stack:
        words = ("--split=2", "--min-split-size=1M", "--max-connection-per-server=1")
        console, _ = stack.enter_context(steered(room, *words))
        # each is a host of its own, and is asked over one connection
        gid = console.call("aria2.addUri", [slow.url().decode(), fast.url("localhost").decode()], {"out": "a"})
        console.until(gid, {"status": "complete"})
        first, last = asked_by(slow.requests[-1])[1:]
        stolen = asked_within(fast, first, last)
        want(stolen, f"nothing of {first} to {last} was asked for elsewhere")
        want_hung_up(slow)
        room.has(payload)
        console.call("aria2.shutdown")
