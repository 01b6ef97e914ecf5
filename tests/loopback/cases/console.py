"""The cases of a console: front ends, clients that steer a run while it fetches, and clients that break the rules."""
import base64
import contextlib
import json
import os
import re
import socket
import threading
import time

from lib.aria2 import Stalling
from lib.consoles import (
    DOORS,
    TOKEN,
    Console,
    Plain,
    aria2_console,
    by_curl,
    differences,
    exchanged,
    kind_of,
    steered,
)
from lib.killing import Slow
from lib.mirrors import Site, deaf_port
from lib.payloads import LONG, MIB
from lib.rooms import HEADER, LIMIT, case
from lib.torrents import bencoded
from lib.wants import Skipped, about, want, want_within

# What front ends ask for of each download.
KEYS = [
    "gid",
    "totalLength",
    "completedLength",
    "uploadSpeed",
    "downloadSpeed",
    "connections",
    "numSeeders",
    "seeder",
    "status",
    "errorCode",
    "verifiedLength",
    "verifyIntegrityPending",
    "files",
    "bittorrent",
    "infoHash",
]

# The methods that are asked when a front end opens, with their parameters.
OPENING = [
    ("aria2.getVersion",),
    ("aria2.getGlobalOption",),
    ("aria2.getGlobalStat",),
    ("aria2.tellActive", KEYS),
    ("aria2.tellWaiting", 0, 1000, KEYS),
    ("aria2.tellStopped", -1, 1000, KEYS),
    ("aria2.tellActive",),
    ("aria2.tellWaiting", 0, 1000),
    ("aria2.tellStopped", 0, 1000),
]

# Members that are absent here.
BITTORRENT = {"bittorrent", "numSeeders", "seeder", "verifiedLength", "verifyIntegrityPending"}


def multicall(calls):
    """The content that asks for these calls in one."""
    parts = [{"methodName": method, "params": [TOKEN, *params]} for method, *params in calls]
    return json.dumps({"jsonrpc": "2.0", "id": "QXJpYU5n", "method": "system.multicall", "params": [parts]}).encode()


def opened(console):
    """What the calls of the opening tell: one by one, and in one as Python and curl ask."""
    single = [console.call(method, *params) for method, *params in OPENING]
    status, fields, content = console.post(multicall(OPENING))
    want(status == 200, f"status {status}")
    want(fields["Content-Type"].startswith("application/json"), f"{fields}")
    many = json.loads(content)
    want(many["id"] == "QXJpYU5n" and many["jsonrpc"] == "2.0", f"{content[:200]!r}")
    curled = json.loads(by_curl(console.port, multicall(OPENING))[2])
    told = [it[0] for it in many["result"]]
    want(kind_of(told) == kind_of(single), "one by one other things are told than in one")
    want(kind_of(curled["result"]) == kind_of(many["result"]), "curl is told other things")
    return dict(zip((f"{place} {it[0]}" for place, it in enumerate(OPENING)), single))


def added(console, site):
    """A download that completes, one that fails, one that is paused and two that wait. Their gids are told."""
    console.call("aria2.changeGlobalOption", {"max-concurrent-downloads": "1"})
    whole = console.call("aria2.addUri", [site.url().decode()], {"out": "whole"})
    console.until(whole, {"status": "complete"})
    lost = console.call("aria2.addUri", [site.url(target="/none").decode()], {"out": "lost", "max-tries": "1"})
    console.until(lost, {"status": "error"})
    paused = console.call("aria2.addUri", [site.url().decode()], {"out": "paused", "pause": "true"})
    slow = console.call("aria2.addUri", [site.url().decode()], {"out": "slow", "max-download-limit": "16K"})
    console.until(slow, {"status": "active", "connections": "1"})
    time.sleep(1)
    waits = console.call("aria2.addUri", [site.url().decode()], {"out": "waits"})
    return [whole, lost, paused, slow, waits]


def want_like(told, aria2):
    """Of each call the same members are told as at aria2, with the same kinds of values, but for what is told to differ."""
    for name, value in told.items():
        with about(name):
            if "getGlobalOption" in name:
                # aria2 has more options, and tells `pause` of downloads alone
                want(not (more := set(value) - set(aria2[name]) - {"pause"}), f"there are {more}")
                continue
            # an unknown path is empty at aria2, which may list a URI several times, and has features
            found = [it for it in differences(value, aria2[name]) if not re.search(r"\.(path|uris|enabledFeatures)", it)]
            want(not found, "; ".join(found))


@case("a front end opens, as at aria2", "aria2c", slow=True)
def _(room):
    payload = LONG[:MIB]
    with Plain({"/a.bin": payload}, 1 << 22) as site:
        os.mkdir(room.path("aria2"))
        with aria2_console(room.path("aria2")) as console:
            empty = opened(console)
            added(console, site)
            full = opened(console)
        with steered(room) as (console, ended):
            with about("nothing was added"):
                want_like(opened(console), empty)
            added(console, site)
            with about("downloads were added"):
                told = opened(console)
                want_like(told, full)
            statuses = [it for name, value in told.items() if "tell" in name for it in value]
            for it in statuses:
                want(not BITTORRENT & set(it), f"told was {it}")
            console.call("aria2.shutdown")
        # that of the download whose file isn't there
        want(ended[0] == 3, f"status {ended[0]}")


def paths(wrote):
    """The lines of a summary, by the path of each."""
    want(wrote.startswith(HEADER), f"output {wrote[:200]!r}")
    lines = [line.split("|") for line in wrote[len(HEADER) :].decode().splitlines()]
    return {line[5]: line[:5] for line in lines}


@case("downloads are added, paused, asked about, let go on and removed while others fetch", slow=True)
def _(room):
    with Slow({"/a.bin": LONG}, MIB) as slow, Site({"/a.bin": LONG}) as fast:
        with steered(room, "--split=2", "--min-split-size=1M") as (console, ended):
            first = console.call("aria2.addUri", [slow.url().decode()], {"out": "first"})
            second = console.call("aria2.addUri", [slow.url().decode()], {"out": "second"})
            third = console.call("aria2.addUri", [fast.url().decode()], {"out": "third", "dir": "d"})
            console.until(third, {"status": "complete", "completedLength": str(len(LONG))})
            told = console.until(first, {"status": "active", "connections": "1", "totalLength": str(len(LONG))})
            want(told["files"][0]["uris"] == [{"status": "used", "uri": slow.url().decode()}], f"{told}")
            want(console.call("aria2.pause", first) == first, "another gid")
            done = int(console.status(first)["completedLength"])
            console.until(first, {"status": "paused", "connections": "0"})
            time.sleep(0.5)
            want(int(console.status(first)["completedLength"]) == done, "more came while it was paused")
            code, message = console.refused("aria2.pause", first)
            want((code, message) == (1, "GID cannot be changed in status paused"), f"{code} {message}")
            want(console.call("aria2.remove", second) == second, "another gid")
            console.until(second, {"status": "removed"})
            want(console.call("aria2.unpause", first[:9]) == first, "another gid")
            console.until(first, {"status": "complete", "completedLength": str(len(LONG)), "errorCode": "0"})
            stat = console.call("aria2.getGlobalStat")
            want((stat["numActive"], stat["numStopped"]) == ("0", "3"), f"{stat}")
            console.call("aria2.shutdown")
        status, wrote = ended
        want(status == 0, f"status {status}, output {wrote!r}")
        lines = paths(wrote)
        total = str(len(LONG))
        want(lines["first"] == [first, "OK", total, total, "0"], f"{lines}")
        want(lines["second"][:2] == [second, "RM"], f"{lines}")
        want(lines["d/third"] == [third, "OK", total, total, "0"], f"{lines}")
        room.has(LONG, "first")
        room.has(LONG, "d/third")


@case("a metainfo file that is added")
def _(room):
    with Site({"/a.bin": b"hello"}) as site:
        room.torrent(site.url())
        metainfo = base64.b64encode(room.get("t.torrent")).decode()
        with steered(room) as (console, ended):
            gid = console.call("aria2.addTorrent", metainfo, [], {"dir": "d"})
            told = console.until(gid, {"status": "complete"})
            want(told["infoHash"] == room.right[0].hex(), f"{told}")
            want(told["bitfield"] == "80" and told["files"][0]["path"] == "d/a", f"{told}")
            code, message = console.refused("aria2.addTorrent", base64.b64encode(b"i03e").decode())
            want((code, message) == (1, "bencoded bytes are wrong"), f"{code} {message}")
            code, message = console.refused("aria2.addTorrent", base64.b64encode(bencoded({b"a": 1})).decode())
            want((code, message) == (1, "torrent is not usable"), f"{code} {message}")
            console.call("aria2.shutdown")
        want(ended == [0, HEADER + f"{gid}|OK|5|5|0|d/a\n".encode()], f"{ended}")
        room.has(b"hello", "d/a")


@case("clients that add and ask at the same time, over as many connections as there are doors")
def _(room):
    count = 25
    with steered(room) as (console, ended):
        gids, wrong = [], []

        def add(client):
            try:
                with Console(console.port) as mine:
                    for place in range(count):
                        options = {"pause": "true", "out": f"{client}-{place}"}
                        gid = mine.call("aria2.addUri", ["http://127.0.0.1:1/a"], options)
                        if mine.status(gid, "status", "gid") != {"gid": gid, "status": "paused"}:
                            wrong.append(gid)
                        gids.append(gid)
            except Exception as why:  # the thread ends, and the case tells it
                wrong.append(repr(why))

        # the case's own connection has a door until it is closed
        console.close()
        threads = [threading.Thread(target=add, args=(it,)) for it in range(DOORS)]
        for it in threads:
            it.start()
        for it in threads:
            it.join()
        want(not wrong, f"{wrong[:5]}")
        told = [it["gid"] for it in console.call("aria2.tellWaiting", 0, 1000, ["gid"])]
        want(len(set(gids)) == DOORS * count and sorted(told) == sorted(gids), f"{len(set(gids))}, {len(told)}")
        want(console.call("aria2.tellWaiting", -1, 1, ["gid"]) == [{"gid": told[-1]}], "another is the last")
        console.call("aria2.shutdown")
    status, wrote = ended
    want(status == 7 and wrote.count(b"|INPR|0|0|0|") == DOORS * count, f"status {status}, {wrote[:300]!r}")


@case("a shutdown ends the run, with progress saved, while clients are connected", slow=True)
def _(room):
    room.unlisted()
    with Slow({"/a.bin": LONG}, MIB) as site:
        with steered(room) as (console, ended):
            gid = console.call("aria2.addUri", [site.url().decode()])
            other = Console(console.port)
            other.status(gid)
            console.until(gid, {"status": "active", "numPieces": "3"})
            while console.status(gid, "completedLength") == {"completedLength": "0"}:
                time.sleep(0.1)
            begun = time.monotonic()
            want(console.call("aria2.shutdown") == "OK", "it wasn't shut down")
        want_within(time.monotonic() - begun, 10, "the end")
        other.close()
        status, wrote = ended
        line = paths(wrote)["a.bin"]
        want((status, line[1]) == (7, "INPR") and int(line[2]) > 0, f"status {status}, {wrote!r}")
        want(room.get("a.bin.aria2") is not None, "nothing was saved")
        room.ends(0, len(LONG), "a.bin", words=[site.url().decode()])
        room.has(LONG, "a.bin")


@case("a shutdown ends the run soon, while mirrors are silent and a client waits", slow=True)
def _(room):
    with Stalling({"/a.bin": LONG}, 99) as site:
        with steered(room, "--split=3", "--max-connection-per-server=3", "--min-split-size=1M") as (console, ended):
            room.torrent(site.url(), LONG, piece_length=MIB // 4)
            metainfo = base64.b64encode(room.get("t.torrent")).decode()
            gid = console.call("aria2.addTorrent", metainfo)
            console.until(gid, {"status": "active", "connections": "3"})
            idle = Console(console.port)
            idle.status(gid)
            begun = time.monotonic()
            want(console.call("aria2.shutdown") == "OK", "it wasn't shut down")
        want_within(time.monotonic() - begun, 5, "the end")
        idle.close()
        status, wrote = ended
        want(status == 7 and paths(wrote)["a"][1] == "INPR", f"status {status}, {wrote!r}")


CALL = b'{"jsonrpc":"2.0","id":1,"method":"aria2.pauseAll"}'
OK = b'{"id":1,"jsonrpc":"2.0","result":"OK"}'


def posted(content, *fields, begin=b"POST /jsonrpc HTTP/1.1"):
    return b"\r\n".join([begin, b"Host: localhost", *fields, b"Content-Length: %d" % len(content), b"", content])


def answered(content):
    return (
        b"HTTP/1.1 200 OK\r\nContent-Type: application/json-rpc\r\nContent-Length: %d\r\n\r\n" % len(content) + content
    )


def refusal(status, *fields):
    return b"\r\n".join([b"HTTP/1.1 " + status, *fields, b"Content-Length: 0", b"", b""])


@case("requests over one connection, and those that are turned away")
def _(room):
    one, other = posted(CALL), answered(OK)
    invalid = b'{"error":{"code":-32600,"message":"Invalid Request"},"id":null,"jsonrpc":"2.0"}'
    wrong = b'{"error":{"code":-32700,"message":"Parse error"},"id":null,"jsonrpc":"2.0"}'
    with steered(room, secret=None) as (console, ended):
        for name, sent, right in (
            ("one", one, other),
            ("three at once", 3 * one, 3 * other),
            ("a notification", posted(CALL.replace(b'"id":1,', b"")), b"HTTP/1.1 204 No Content\r\n\r\n"),
            ("an array without members", posted(b"[]"), answered(invalid)),
            ("no JSON", posted(b"x"), answered(wrong)),
            ("128 arrays", posted(b"[" * 128 + b"]" * 128), answered(wrong)),
            ("HTTP/1.0", posted(CALL, begin=b"POST /jsonrpc HTTP/1.0") + one, other),
            ("close", posted(CALL, b"Connection: close") + one, other),
            ("a content that is cut", one[:-1], b""),
            ("a NUL", b"\0" + one, refusal(b"400 Bad Request")),
            ("TLS", b"\x16\x03\x01\x02\x00\x01\x00\x01\xfc\x03\x03", refusal(b"400 Bad Request")),
            ("another target", posted(CALL, begin=b"POST /rpc HTTP/1.1") + one, refusal(b"404 Not Found")),
            ("GET", b"GET /jsonrpc HTTP/1.1\r\nHost: h\r\n\r\n" + one, refusal(b"405 Method Not Allowed", b"Allow: POST")),
            ("no length", b"POST /jsonrpc HTTP/1.1\r\nHost: h\r\n\r\n" + one, refusal(b"411 Length Required")),
            ("two lengths", posted(CALL, b"Content-Length: 50") + one, refusal(b"411 Length Required")),
            ("too long", posted(b"x" * (2 * MIB + 1)), refusal(b"413 Content Too Large")),
            ("a head of 65,537 bytes", posted(CALL, b"X: " + b"a" * (65_537 - len(posted(CALL, b"X: ")) + len(CALL))), refusal(b"400 Bad Request")),
            ("2 MiB", posted(b" " * (2 * MIB - len(CALL)) + CALL), other),
        ):
            with about(name):
                got = exchanged(console.port, sent)
                want(got == right, f"sent was {got[:300]!r}, and not {right[:300]!r}")
        with about("byte by byte"):
            got = exchanged(console.port, 2 * one, pause=0.001)
            want(got == 2 * other, f"sent was {got[:300]!r}")
        console.call("aria2.shutdown")
    want(ended == [0, HEADER], f"{ended}")


@case("tokens")
def _(room):
    with steered(room) as (console, ended):
        for token in (None, "token:", "token:x", f"{TOKEN}x", TOKEN[:-1], TOKEN[6:]):
            with about(token), Console(console.port, token) as client:
                refused = client.refused("aria2.getVersion")
                want(refused == (1, "Unauthorized"), f"{refused}")
        with Console(console.port, None) as client:
            want(client.call("system.listMethods")[-1] == "system.multicall", "other methods")
        want("rpc-secret" not in console.call("aria2.getGlobalOption"), "the secret is told")
        console.call("aria2.shutdown")
    want(ended == [0, HEADER], f"{ended}")


@case("a console listens at 127.0.0.1 alone", slow=True)
def _(room):
    with steered(room) as (console, _):
        want(console.call("aria2.getVersion")["version"], "it has no version")
        # all of 127.0.0.0/8 leads to this machine
        with socket.socket() as other:
            other.settimeout(5)
            want(other.connect_ex(("127.0.0.2", console.port)) != 0, "a client was let in at another address")
        want(console.call("aria2.shutdown") == "OK", "it wasn't shut down")


@case("a console whose port is taken lets nobody in, and the download comes")
def _(room):
    with Site({"/a.bin": LONG}) as site, socket.socket() as taken:
        taken.bind(("127.0.0.1", 0))
        taken.listen()
        port = taken.getsockname()[1]
        room.torrent(site.url(), LONG, piece_length=MIB // 4)
        started = room.start("--enable-rpc", f"--rpc-listen-port={port}", "t.torrent")
        wrote, said = started.communicate(timeout=LIMIT)
        want(started.returncode == 0, f"it ended with {started.returncode}, and wrote {wrote!r}")
        want(said.startswith(b"aria_cli: can't listen at port %d of 127.0.0.1: " % port), f"it said {said!r}")
        room.has(LONG)


# The answer to so many questions for the methods has a mebibyte at least.
LONG_ANSWER = 2_200


def dripping(port, stop):
    """Sends a request's head, a byte a second."""
    with socket.create_connection(("127.0.0.1", port)) as client, contextlib.suppress(OSError):
        for byte in posted(CALL):
            client.sendall(bytes([byte]))
            if stop.wait(1):
                return


def never_reading(port, stop):
    """Asks for 200 answers of a mebibyte at once, and reads none, until the other side goes."""
    long = multicall([("system.listMethods",)] * LONG_ANSWER)
    with socket.create_connection(("127.0.0.1", port)) as client, contextlib.suppress(OSError):
        client.settimeout(LIMIT)
        client.sendall(200 * posted(long))
        stop.wait()


@case("the answer that a client never reads has a mebibyte")
def _(room):
    with steered(room) as (console, _):
        _, _, content = console.post(multicall([("system.listMethods",)] * LONG_ANSWER))
        want(len(content) >= MIB, f"it has {len(content)} bytes")
        console.call("aria2.shutdown")


@case("a shutdown ends the run within two seconds while a connection is being opened", slow=True)
def _(room):
    with deaf_port() as port:
        if port is None:
            raise Skipped("the system takes each connection")
        # wherever in the opening it comes
        for passed in (0.1, 0.6, 1.1, 1.6, 2.1):
            with about(f"behind {passed} seconds"):
                room.clear("a.bin")
                words = ("--split=4", "--max-connection-per-server=4", "--min-split-size=1M")
                with steered(room, *words) as (console, ended):
                    gid = console.call("aria2.addUri", [f"http://127.0.0.1:{port}/a.bin"])
                    console.until(gid, {"status": "active"})
                    time.sleep(passed)
                    begun = time.monotonic()
                    want(console.call("aria2.shutdown") == "OK", "it wasn't shut down")
                want_within(time.monotonic() - begun, 2, "the end")
                want(ended[0] == 7, f"it ended with {ended}")


@case("a shutdown ends the run within two seconds, whatever peers do", slow=True)
def _(room):
    for name, behave in (("a slow mirror alone", None), ("a client that drips", dripping), ("one that never reads", never_reading)):
        with about(name), Slow({"/a.bin": LONG}, 10_000) as site:
            room.clear("a.bin")
            stop = threading.Event()
            with steered(room, "--split=4", "--max-connection-per-server=4", "--min-split-size=1M") as (console, ended):
                gid = console.call("aria2.addUri", [site.url().decode()])
                console.until(gid, {"status": "active"})
                peer = threading.Thread(target=behave, args=(console.port, stop)) if behave else None
                if peer:
                    peer.start()
                time.sleep(2)
                begun = time.monotonic()
                want(console.call("aria2.shutdown") == "OK", "it wasn't shut down")
            seconds = time.monotonic() - begun
            stop.set()
            if peer:
                peer.join()
            want(ended[0] == 7, f"it ended with {ended}")
            want_within(seconds, 2, "the end")
