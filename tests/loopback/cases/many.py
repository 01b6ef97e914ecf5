"""The cases of many connections at once."""
import random
import threading
import time

from lib.aria2 import Stalling
from lib.consoles import SECRET, bothered
from lib.killing import Slow, killed, listed_of
from lib.mirrors import Ending, Site, free_port, head
from lib.payloads import LONG, MIB, noise, turned
from lib.recording import asked_by
from lib.rooms import PLAIN, case
from lib.wants import about, want, want_in_time, want_within

# Claims of a mebibyte, and as many connections to a host as there are.
PARTS = ("--min-split-size=1M", "--max-connection-per-server=16")


class Meeting(Site):
    """Answers a request only once so many are there at the same time, or after ten seconds. Told is the most there were, and
    whether each wait ended before its time.
    """

    def __init__(self, files, count=1):
        super().__init__(files)
        self.count = count
        self.there = self.most = 0
        self.met = True
        self.change = threading.Condition()

    def answer(self, asked):
        with self.change:
            self.there += 1
            self.most = max(self.most, self.there)
            self.change.notify_all()
            self.met &= self.change.wait_for(lambda: self.most >= self.count, 10)
        # what is asked at the same time is there for a while
        time.sleep(0.05)
        with self.change:
            self.there -= 1
        return super().answer(asked)


def want_each_asked_once(site, total):
    """Each byte was asked for once: nothing was stolen."""
    parts = sorted(asked_by(it)[1:] for it in site.requests)
    behind = 0
    for first, last in parts:
        want(first == behind, f"asked for was {parts}")
        behind = last + 1
    want(behind == total, f"asked for was {parts}")


@case("connections that are held until the others were asked")
def _(room):
    for count in (2, 4, 16):
        payload = LONG * (8 if count == 16 else 3)
        with about(f"{count} connections"), Meeting({"/a.bin": payload}, count) as site:
            room.torrent(site.url(), payload, piece_length=MIB // 4)
            room.fetches(payload, words=[f"--split={count}", *PARTS, "t.torrent"])
            want(site.most <= count, f"{site.most} were there at the same time")
            want_in_time(site.met, f"just {site.most} were there at the same time, or one came late")


@case("no more connections to a host, and no more claims, than the words say")
def _(room):
    payload = LONG * 3
    for words, most in (
        (["--split=8", "--max-connection-per-server=1"], 1),
        (["--split=8", "--max-connection-per-server=3"], 3),
        (["--split=2", "--max-connection-per-server=16"], 2),
        (["--split=1", "--max-connection-per-server=16"], 1),
        ([], 1),
    ):
        with about(f"{words}"), Meeting({"/a.bin": payload}) as site:
            room.torrent(site.url(), payload, piece_length=MIB)
            room.fetches(payload, words=[*words, "--min-split-size=1M", "t.torrent"])
            # where there are thefts, a request may outlive its claim: its last blocks came over another connection
            want(site.most <= most + (most == 3), f"{site.most} were there at the same time")
            if most == 1:
                want_each_asked_once(site, len(payload))


@case("three seeds and many connections, where one seed is wrong and one has no such file")
def _(room):
    payload = LONG * 3
    wrong = turned(payload, [MIB + 77_777, 5 * MIB])
    for count in (4, 16):
        with Site({"/a.bin": wrong}) as first, Site() as second, Site({"/a.bin": payload}) as third:
            for seeds in ((first, second, third), (third, first, second)):
                with about(f"{count} connections"):
                    room.torrent([it.url() for it in seeds], payload, piece_length=MIB // 2)
                    room.fetches(payload, words=[f"--split={count}", *PARTS, "t.torrent"])


@case("a file without digests over many connections")
def _(room):
    payload = LONG * 2
    with Site({"/a": payload}) as first, Site({"/a": payload}) as second:
        room.unlisted()
        urls = [it.url(target="/a").decode() for it in (first, second)]
        room.fetches(payload, words=["--split=8", *PARTS, *urls])


@case("mirrors that break connections off, by chance, and many connections")
def _(room):
    class Breaking(Site):
        """Ends some of its replies early."""

        def answer(self, asked):
            whole = super().answer(asked)
            with self.lock:
                if self.left and self.chance.random() < 0.5:
                    self.left -= 1
                    return Ending(whole[: self.chance.randrange(len(whole))])
            return whole

    for seed in range(8):
        with about(f"the seed {seed}"):
            chance = random.Random(seed)
            payload = (LONG * 4)[: chance.randrange(3 * MIB, 4 * len(LONG))]
            with Breaking({"/a.bin": payload}) as first, Breaking({"/a.bin": payload}) as second:
                for it in (first, second):
                    it.chance, it.left, it.lock = random.Random(seed + 100), 4, threading.Lock()
                room.torrent([first.url(), second.url()], payload, piece_length=MIB // 4)
                room.fetches(payload, words=[f"--split={chance.randrange(2, 9)}", *PARTS, "--max-tries=9", "t.torrent"])


@case("many connections that all fail")
def _(room):
    payload = (LONG * 2)[: 3 * MIB]
    with Site() as first, Site(instead={it: head(status=b"503 Busy") for it in range(999)}) as second:
        room.torrent([first.url(), second.url()], payload, piece_length=MIB)
        room.clear()
        status, wrote = room.run("--split=4", *PARTS, "--max-tries=2", "t.torrent", leaves=True)
        want(status in (3, 29), f"it ended with {status}")
        want(wrote.split(b"|")[-4:-2] == [b"0", b"%d" % len(payload)], f"it wrote {wrote!r}")


def want_killed_and_resumed(room, kill):
    """A run over four connections is killed at random moments, and takes up what is listed each time."""
    chance, payload = random.Random(20), noise(12 * MIB)
    with Slow({"/a.bin": payload}, 4 * MIB) as first, Slow({"/a.bin": payload}, 3 * MIB) as second:
        room.torrent([first.url(), second.url()], payload, piece_length=MIB // 4)
        words = ["--split=4", *PARTS, "--auto-save-interval=1", "t.torrent"]
        for _ in range(30):
            listed = listed_of(room, payload)
            if len(listed) == len(payload) // 16_384:
                break
            for it in (first, second):
                it.requests.clear()
            kill(words, chance.uniform(0.05, 0.6))
            again = (first.blocks() | second.blocks()) & listed
            want(not again, f"blocks {sorted(again)[:9]} were listed, and asked for again")
        first.rate = second.rate = None
        room.fetches(payload, anew=False, words=words)


@case("runs over many connections that are killed at random moments, and resumed", slow=True)
def _(room):
    want_killed_and_resumed(room, lambda words, after: killed(room, *words, after=after))


@case("runs over many connections that are killed beside a busy console, and resumed", slow=True)
def _(room):
    asked = []

    def kill(words, after):
        port = free_port("127.0.0.1")
        console = ["--enable-rpc", f"--rpc-listen-port={port}", f"--rpc-secret={SECRET}"]
        with bothered(port) as counts:
            killed(room, *console, *words, after=0.1 + after)
        asked.extend(counts)

    want_killed_and_resumed(room, kill)
    want_in_time(sum(asked) > 100, f"the console was asked {asked}")


@case("a mirror that falls silent in the midst of its claim", slow=True)
def _(room):
    payload = LONG * 4
    with Stalling({"/a.bin": payload}, MIB + 99) as first, Slow({"/a.bin": payload}, 4 * MIB) as second:
        # each is a host of its own, and is asked over one connection
        room.torrent([first.url(), second.url("localhost")], payload, piece_length=MIB // 4)
        room.clear()
        begun = time.monotonic()
        status, wrote = room.run("--split=2", "--min-split-size=1M", "t.torrent", limit=90, leaves=False)
        seconds = time.monotonic() - begun
        want(status == 0, f"it ended with {status}, and wrote {wrote!r}")
        # its last block can't be stolen: it is asked for elsewhere once the silence counts as a loss
        want_within(seconds, 75)
        last = max(asked_by(it)[2] for it in first.requests)
        stolen = [it for it in map(asked_by, second.requests) if it[1] <= last]
        want(len(stolen) > 2, f"of the silent mirror's claim only {stolen} was asked for elsewhere")
        room.has(payload)


@case("a limit of the speed over many connections", slow=True)
def _(room):
    payload = noise(11 * 200 * 1024)
    with Site({"/a.bin": payload}) as site:
        room.torrent(site.url(), payload, piece_length=MIB // 4)
        begun = time.monotonic()
        room.fetches(payload, words=["--max-download-limit=200K", "--split=4", *PARTS, *PLAIN[-1:]])
        seconds = time.monotonic() - begun
        want(seconds > 9.9, f"it took only {seconds:.2f} seconds")
        want_within(seconds, 12.2)
