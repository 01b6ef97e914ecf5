"""The cases of several mirrors: which one is asked for what, who is blamed, and how often each is tried."""
import random
import socket

from lib.acting import BROKEN, BUSY, GONE, SHUT, acts, acts_by_chance
from lib.choices import Model, Way
from lib.killing import Slow
from lib.mirrors import Mirror, Site, free_port, head, reply, sends_and_stays
from lib.payloads import LONG, MIB, MIB_CLAIMS, PIECE, THREE, noise, turned
from lib.rooms import ONCE, PLAIN, case, want_asked
from lib.wants import about, want


@case("a mirror that fails is asked again, as often as the words say")
def _(room):
    for way, status in ((GONE, 3), (SHUT, 24), (BUSY, 29), (BROKEN, 22), (Way("cut", 0), 6), (Way("turned", 1), 32)):
        for tries in (1, 2, 5):
            with about(f"{way}, {tries} tries"):
                right = acts(room, b"hello", 5, [[way] * 100], tries)
                want((right.status, len(right.asked[0])) == (status, tries), f"the model ends with {right}")
                # the last one is right
                right = acts(room, b"hello", 5, [[way] * (tries - 1)], tries)
                want((right.status, len(right.asked[0])) == (0, tries), f"the model ends with {right}")


@case("a mirror is asked five times where nothing is said")
def _(room):
    for status, answer in ((3, head(b"Content-Length: 0", status=b"404 No")), (32, reply(b"hellO"))):
        with Site(instead={it: answer for it in range(10)}) as site:
            room.torrent(site.url())
            room.fails(status, b"hello", words=PLAIN, stands=b"hellO" if status == 32 else None)
            want_asked(site, [("/a.bin", 0, 4)] * 5)


# What a broken mirror is asked at most for 8 MiB that a good one brings as fast as it can: where it has no such file, and where it leads
# to itself.
MOST_ASKED = {"gone": 260, "led in a circle": 2_100}


class Circle(Site):
    """Leads each request to itself."""

    def answer(self, asked):
        return head(b"Location: /a.bin", b"Content-Length: 0", status=b"302 Found")


@case("how often a broken mirror is asked beside a good one")
def _(room):
    payload = noise(8 * MIB)
    for name, kind in (("gone", Site), ("led in a circle", Circle)):
        for words in (PLAIN, ("--split=5", *PLAIN), ("--split=5", "--max-connection-per-server=4", "--min-split-size=1M", *PLAIN)):
            for length, rate in ((MIB, None), (MIB // 4, 4 * MIB), (MIB // 8, MIB)):
                with about(f"{name}, {words}, pieces of {length}"), kind() as broken, Slow({"/a.bin": payload}, rate) as good:
                    # each is a host of its own
                    room.torrent([broken.url("localhost"), good.url()], payload, piece_length=length)
                    room.fetches(payload, words=words)
                    count = len(broken.requests)
                    # a slow one leaves time for each of the five tries of each piece, of which each follows 20 redirects
                    most = 5 * len(payload) // length * (21 if kind is Circle else 1)
                    want(0 < count <= (min(most, MOST_ASKED[name]) if rate is None else most), f"it was asked {count} times")


@case("a hundred tries")
def _(room):
    right = acts(room, b"hello", 5, [[Way("turned", 4)] * 99], 100)
    want(len(right.asked[0]) == 100, f"the model ends with {right}")


@case("three seeds, one of which is wrong in two pieces, and one of which has no such file")
def _(room):
    payload = LONG * 3
    has = [payload, turned(payload, [MIB + 77_777, 5 * MIB]), payload]
    ways = [[], [], [GONE] * 99]
    for order in ((0, 1, 2), (2, 1, 0), (1, 2, 0)):
        for words, claimed in (((), {}), (("--split=64", "--min-split-size=1M"), MIB_CLAIMS)):
            for tries in (1, 5):
                known = {"has": [has[it] for it in order], **claimed}
                with about(f"seeds {order}, {words}, {tries} tries"):
                    right = acts(room, payload, MIB, [ways[it] for it in order], tries, words, **known)
                    want(right.status == 0, f"the model ends with {right.status}")


@case("what one mirror gave is kept where it fails, and the others are asked for the rest")
def _(room):
    # the claim of the whole is cut behind so many blocks, so that the next one begins there
    for cut in (1, PIECE - 1, PIECE, 2 * PIECE + 5, 100_000):
        with about(f"cut at {cut}"):
            right = acts(room, LONG[:200_000], 50_000, [[Way("cut", cut)], [], []])
            want(right.status == 0 and len(right.asked[1]) == 1 and not right.asked[2], f"the model ends with {right}")
    # a mirror with a mark comes behind those without
    right = acts(room, LONG[:200_000], 50_000, [[Way("cut", 60_000)], [Way("cut", 60_000)], [GONE], []])
    want([len(it) for it in right.asked] == [1, 1, 1, 1], f"the model ends with {right}")


@case("a piece that two mirrors gave is given by one, once it was wrong")
def _(room):
    payload = LONG[: 4 * PIECE]
    # the first mirror gives a wrong block and is lost, the second gives the rest
    for ways, status in (
        ([[Way("turned", 5), Way("cut", 1)], []], 0),
        ([[Way("cut", PIECE)], [Way("turned", 5)]], 0),
        ([[Way("cut", PIECE), Way("turned", 5)], [Way("turned", 5)] * 9], 0),
        ([[Way("cut", PIECE)] + [Way("turned", 5)] * 9, [Way("turned", 5)] * 9], 32),
    ):
        for piece_length in (2 * PIECE, 4 * PIECE):
            with about(f"{ways}, pieces of {piece_length}"):
                right = acts(room, payload, piece_length, ways, 3)
                want(right.status == status, f"the model ends with {right}")


@case("each mirror is right in another piece")
def _(room):
    payload = LONG[: 2 * PIECE]
    # mirror 0 is wrong in the first piece and mirror 1 in the second: by two claims the payload is whole
    with Site({"/a.bin": payload[::-1][:PIECE] + payload[PIECE:]}) as first:
        with Site({"/a.bin": payload[:PIECE] + payload[::-1][PIECE:]}) as second:
            room.torrent([first.url(), second.url()], payload)
            room.fetches(payload, words=PLAIN)
            want_asked(first, [("/a.bin", 0, 2 * PIECE - 1)])
            want_asked(second, [("/a.bin", 0, PIECE - 1)])


@case("no mirror is right in a piece")
def _(room):
    payload = THREE
    wrong = turned(payload, [20_000])
    with Site({"/a.bin": wrong}) as first, Site({"/a.bin": wrong}) as second, Site({"/a.bin": wrong}) as third:
        room.torrent([first.url(), second.url(), third.url()], payload)
        whole_of, piece = ("/a.bin", 0, 39_999), ("/a.bin", PIECE, 2 * PIECE - 1)
        for tries, words in ((1, ONCE), (5, PLAIN)):
            for it in (first, second, third):
                it.requests.clear()
            with about(f"{tries} tries"):
                room.fails(32, payload, len(payload) - PIECE, stands=wrong, words=words)
                want_asked(first, [whole_of] + [piece] * (tries - 1))
                for it in (second, third):
                    want_asked(it, [piece] * tries)


@case("a mirror that dies in the midst, and others that go on")
def _(room):
    class Dying(Site):
        """Gives so many bytes, and is then gone for good."""

        def answer(self, asked):
            self.listener.shutdown(socket.SHUT_RDWR)
            return super().answer(asked)[:1_234_567]

        def converse(self, connection):
            self.requests.append(connection.recv(65_536))
            connection.sendall(self.answer(self.requests[-1]))

    with Dying({"/a.bin": LONG}) as dying, Site({"/a.bin": LONG}) as second, Site({"/a.bin": LONG}) as third:
        room.torrent([dying.url(), second.url(), third.url()], LONG, piece_length=MIB)
        room.fetches(LONG, words=PLAIN)
        want_asked(dying, [("/a.bin", 0, len(LONG) - 1)])
        want(not third.requests, "the third was asked")
        begin = int(second.requests[0].split(b"bytes=")[1].split(b"-")[0])
        # the head is of some 100 bytes
        want(begin == (1_234_567 - 100) // PIECE * PIECE, f"the second was asked from {begin} on")
        want_asked(second, [("/a.bin", begin, len(LONG) - 1)])


@case("mirrors where nobody listens")
def _(room):
    with Site({"/a.bin": THREE}) as site:
        gone = [b"http://127.0.0.1:%d/a.bin" % free_port("127.0.0.1") for _ in range(3)]
        # the same comes of them as of mirrors that end each reply before its first byte
        right = Model(THREE, PIECE, [[Way("cut", 0)] * 9] * 3 + [[]], 1).run()
        room.torrent([*gone, site.url()], THREE)
        room.fetches(THREE)
        want_asked(site, [("/a.bin", first, last) for _, first, last in right.asked[3]])
        room.torrent(gone, THREE)
        room.fails(6, THREE, words=PLAIN)


@case("the code of a piece that no mirror gives is the last one's")
def _(room):
    for ways, status in (
        ([[GONE], [BUSY]], 29),
        ([[BUSY], [GONE]], 3),
        ([[GONE], [SHUT], [BROKEN]], 22),
        ([[BROKEN], [Way("turned", 0)]], 32),
        ([[Way("turned", 0)], [Way("cut", 3)]], 6),
    ):
        with about(f"{ways}"):
            right = acts(room, b"hello", 5, ways, 1)
            want(right.status == status, f"the model ends with {right}")


# Runs that are made up by chance, each with a seed of its own. The model tells all of them: what each mirror is asked, and
# in which order, how the run ends, and what stands behind it.


for _group in range(6):

    @case(f"runs by chance, {_group}")
    def _(room, group=_group):
        ended = set()
        for seed in range(group * 1_000, group * 1_000 + 40):
            with about(f"the seed {seed}"):
                ended.add(acts_by_chance(room, random.Random(seed)).status)
        want(len(ended) > 3, f"they all ended with {ended}")


@case("a mirror that falls silent in the midst, and another", slow=True)
def _(room):
    # after a minute the other one is asked for what didn't come
    with Mirror(sends_and_stays(reply(LONG)[: 1_000_000 + 100])) as silent, Site({"/a.bin": LONG}) as site:
        room.torrent([silent.url(), site.url()], LONG, piece_length=MIB)
        room.fetches(LONG, limit=100, words=PLAIN)
        begin = (1_000_000 + 100 - (len(reply(LONG)) - len(LONG))) // PIECE * PIECE
        want_asked(site, [("/a.bin", begin, len(LONG) - 1)])
        want(len(silent.requests) == 1, f"{len(silent.requests)} requests came")
