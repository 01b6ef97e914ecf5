"""The cases of a console over WebSocket: front ends, notices beside aria2's, and clients that break the rules of RFC 6455."""
import contextlib
import json
import socket
import struct
import threading
import time

from cases.console import OPENING, want_like
from lib.consoles import DOORS, TOKEN, Console, Plain, aria2_console, kind_of, steered
from lib.killing import Slow
from lib.mirrors import Site
from lib.payloads import LONG, MIB
from lib.rooms import HEADER, case
from lib.sockets import (
    ACCEPT,
    BINARY,
    CLOSE,
    CONTINUATION,
    FIELDS,
    PING,
    PONG,
    SWITCHING,
    TEXT,
    Socket,
    by_browser,
    by_websockets,
    frame,
    head_of,
    sent_raw,
)
from lib.wants import about, want, want_within

VERSION = json.dumps({"jsonrpc": "2.0", "id": 1, "method": "aria2.getVersion", "params": [TOKEN]}).encode()
TURNED_AWAY = b"HTTP/1.1 400 Bad Request\r\nContent-Length: 0\r\n\r\n"


def asked_over(client):
    """What the calls of an opening tell, by their names."""
    return {f"{place} {name}": client.call(name, *params) for place, (name, *params) in enumerate(OPENING)}


@case("a front end opens over WebSocket, as over HTTP and as at aria2", "aria2c", slow=True)
def _(room):
    with Plain({"/a.bin": LONG[:MIB]}, 1 << 22) as site:
        with aria2_console(room.path("aria2")) as console, Socket(console.port) as client:
            right = asked_over(client)
        with steered(room) as (console, ended):
            with Socket(console.port) as client:
                want(client.opening == SWITCHING, f"the opening is {client.opening!r}")
                want_like(asked_over(client), right)
                gid = client.call("aria2.addUri", [site.url().decode()])
                client.until("aria2.onDownloadComplete", gid)
                over = asked_over(client)
                parts = [{"methodName": name, "params": [TOKEN, *params]} for name, *params in OPENING]
                many = client.ask(json.dumps({"jsonrpc": "2.0", "id": "m", "method": "system.multicall", "params": [parts]}).encode())
                want(kind_of([it[0] for it in many["result"]]) == kind_of([*over.values()]), "in one other things are told")
                # the answer to a content has the same bytes over both
                for content in (VERSION, b"[" + VERSION + b"]", b"[]", b"x", b"{}", b'[1,{"jsonrpc":"2.0","method":"system.listMethods"}]'):
                    _, _, posted = console.post(content)
                    told = client.ask(content)
                    want(told == json.loads(posted), f"{content!r} is answered {told}, and over HTTP {posted!r}")
            with Console(console.port) as plain:
                for name, told in over.items():
                    method, *params = OPENING[int(name.split(" ")[0])]
                    want(kind_of(plain.call(method, *params)) == kind_of(told), f"{name} tells another thing over HTTP")
            console.call("aria2.shutdown")
        want(ended == [0, HEADER + f"{gid}|OK|{MIB}|{MIB}|0|a.bin\n".encode()], f"{ended}")
        room.has(LONG[:MIB], "a.bin")


def noticed(console, site):
    """The notices of downloads that start, are paused, go on, are removed, complete and fail, and their names."""
    with Socket(console.port) as client:
        names = {}

        def added(name, target="/a.bin", **options):
            gid = client.call("aria2.addUri", [site.url(target=target).decode()], {"out": name, **options})
            names[gid] = name
            return gid

        whole = added("whole")
        client.until("aria2.onDownloadComplete", whole)
        lost = added("lost", "/none", **{"max-tries": "1"})
        client.until("aria2.onDownloadError", lost)
        slow = added("slow", **{"max-download-limit": "16K"})
        client.until("aria2.onDownloadStart", slow)
        client.call("aria2.pause", slow)
        client.until("aria2.onDownloadPause", slow)
        held = added("held", pause="true")
        client.call("aria2.unpause", held)
        client.until("aria2.onDownloadComplete", held)
        client.call("aria2.unpause", slow)
        ends = time.monotonic() + 20
        while client.told().count(("aria2.onDownloadStart", slow)) < 2 and time.monotonic() < ends:
            with contextlib.suppress(TimeoutError):
                client.link.settimeout(1)
                client.text()
        client.call("aria2.remove", slow)
        client.until("aria2.onDownloadStop", slow)
        return {name: [it for it, gid in client.told() if names.get(gid) == name] for name in names.values()}


@case("notices of each kind, as from aria2", "aria2c", slow=True)
def _(room):
    with Plain({"/a.bin": LONG[: MIB // 4]}, 1 << 22) as site:
        with aria2_console(room.path("aria2")) as console:
            right = noticed(console, site)
        with steered(room) as (console, _):
            told = noticed(console, site)
            console.call("aria2.shutdown")
    for name, them in told.items():
        with about(name):
            # aria2 tells nothing of a download that is added paused, and neither do we
            want(them == right[name], f"told was {them}, and by aria2 {right[name]}")


@case("what other clients do is noticed by each socket, from its opening on")
def _(room):
    with steered(room) as (console, ended):
        with Socket(console.port) as one, Console(console.port) as other:
            gid = other.call("aria2.addUri", ["http://127.0.0.1:1/a"], {"pause": "true", "out": "x"})
            console.call("aria2.addUri", ["http://127.0.0.1:1/b"], {"pause": "true", "out": "y"})
            with Socket(console.port) as late:
                other.call("aria2.remove", gid)
                one.until("aria2.onDownloadStop", gid)
                late.until("aria2.onDownloadStop", gid)
                want(one.told() == late.told() == [("aria2.onDownloadStop", gid)], f"{one.told()}, {late.told()}")
            with Socket(console.port) as last:
                last.call("aria2.getVersion")
                want(not last.told(), f"told was {last.told()}")
        console.call("aria2.shutdown")
    want(ended[0] == 7, f"{ended}")


@case("clients of python3-websockets, four at once, with a message in pieces and a ping", "websockets", slow=True)
def _(room):
    with steered(room) as (console, ended):
        console.close()
        told = by_websockets(console.port, DOORS, OPENING)
        want(len(told) == DOORS, f"{len(told)} clients")
        for client in told:
            want(client["code"] == 1000, f"closed with {client['code']}")
            want(len(client["answers"]) == len(OPENING) + 1, f"{client['answers']}")
            want(all("result" in it for it in client["answers"]), f"{client['answers']}")
            want(client["answers"][-1]["id"] == "cut", f"{client['answers'][-1]}")
            want(not client["notices"], f"{client['notices']}")
        console.call("aria2.shutdown")
    want(ended == [0, HEADER], f"{ended}")


@case("a browser adds a download, and sees it complete", "chromium", slow=True)
def _(room):
    with Plain({"/a.bin": LONG[:MIB]}, 1 << 22) as site, steered(room) as (console, ended):
        told = by_browser(room, console.port, site.url().decode())
        want(told["how"] == "complete", f"{told}")
        gid = next(it["result"] for it in told["told"] if it.get("id") == "add")
        seen = [(it["method"], it["params"]) for it in told["told"] if "method" in it]
        want(seen == [(f"aria2.onDownload{it}", [{"gid": gid}]) for it in ("Start", "Complete")], f"{told}")
        console.call("aria2.shutdown")
    want(ended[0] == 0, f"{ended}")
    room.has(LONG[:MIB], "b")


# ---- openings

def without(name):
    return {key: value for key, value in FIELDS.items() if key != name}


def with_(name, value):
    return {**FIELDS, name: value}


def twice(name, other=None):
    return [*FIELDS.items(), (name, FIELDS[name] if other is None else other)]


@case("openings with fields that are missing, wrong, twice, or in any case")
def _(room):
    with steered(room) as (console, ended):
        for name, fields, begin, is_let_in in (
            ("as it should be", FIELDS, None, True),
            ("names in lower case", {key.lower(): value for key, value in FIELDS.items()}, None, True),
            ("WebSocket", with_(b"Upgrade", b"WebSocket"), None, True),
            ("keep-alive, Upgrade", with_(b"Connection", b"keep-alive, Upgrade"), None, True),
            ("UPGRADE", with_(b"Connection", b"UPGRADE"), None, True),
            ("an extension", with_(b"Sec-WebSocket-Extensions", b"permessage-deflate"), None, True),
            ("an origin", with_(b"Origin", b"http://m.test"), None, True),
            ("no Connection", without(b"Connection"), None, False),
            ("Connection: close", with_(b"Connection", b"close"), None, False),
            ("no version", without(b"Sec-WebSocket-Version"), None, False),
            ("version 8", with_(b"Sec-WebSocket-Version", b"8"), None, False),
            ("version 013", with_(b"Sec-WebSocket-Version", b"013"), None, False),
            ("no key", without(b"Sec-WebSocket-Key"), None, False),
            ("an empty key", with_(b"Sec-WebSocket-Key", b""), None, False),
            ("a key of 15 bytes", with_(b"Sec-WebSocket-Key", b"MTIzNDU2Nzg5MDEyMzQ1"), None, False),
            ("a key of 17 bytes", with_(b"Sec-WebSocket-Key", b"MTIzNDU2Nzg5MDEyMzQ1Njc="), None, False),
            ("a key that is no base64", with_(b"Sec-WebSocket-Key", b"dGhlIHNhbXBsZSBub25jZ-=="), None, False),
            ("two keys", twice(b"Sec-WebSocket-Key"), None, False),
            ("HTTP/1.0", FIELDS, b"GET /jsonrpc HTTP/1.0", False),
        ):
            with about(name):
                sent = [head_of(fields, *([begin] if begin else [])), frame(CLOSE, struct.pack(">H", 1000))]
                came = sent_raw(console.port, *sent)
                right = SWITCHING + b"\x88\x02\x03\xe8" if is_let_in else TURNED_AWAY
                want(came == right, f"sent was {came!r}")
        for name, fields, begin, status in (
            ("no upgrade", without(b"Upgrade"), None, b"405"),
            ("another protocol", with_(b"Upgrade", b"h2c"), None, b"405"),
            ("another target", FIELDS, b"GET /rpc HTTP/1.1", b"404"),
            ("HEAD", FIELDS, b"HEAD /jsonrpc HTTP/1.1", b"405"),
        ):
            with about(name):
                came = sent_raw(console.port, head_of(fields, *([begin] if begin else [])))
                want(came.startswith(b"HTTP/1.1 " + status), f"sent was {came!r}")
        with about("byte by byte"):
            whole = head_of() + frame(TEXT, VERSION) + frame(CLOSE, b"")
            came = sent_raw(console.port, *(whole[at : at + 1] for at in range(len(whole))), pause=0.001)
            want(came.startswith(SWITCHING) and b'"version":"' in came and came.endswith(b"\x88\x00"), f"sent was {came!r}")
        with about("behind a request, and with the first frame"):
            one = b"POST /jsonrpc HTTP/1.1\r\nContent-Length: %d\r\n\r\n" % len(VERSION) + VERSION
            came = sent_raw(console.port, one + head_of() + frame(TEXT, VERSION) + frame(CLOSE, b""))
            front, _, rest = came.partition(SWITCHING)
            want(front.startswith(b"HTTP/1.1 200 OK\r\n") and b'"version":"' in rest, f"sent was {came!r}")
        console.call("aria2.shutdown")
    want(ended == [0, HEADER], f"{ended}")


# ---- frames

def closes(code):
    return struct.pack(">H", code)


# What breaks a connection, by its name.
BROKEN = {
    "a frame that isn't masked": frame(TEXT, VERSION, mask=b""),
    "a reserved bit": frame(TEXT, VERSION, reserved=4),
    "a reserved kind": frame(3, b"x"),
    "a reserved kind of control frame": frame(11, b"x"),
    "a control frame of 126 bytes": frame(PING, b"x" * 126),
    "a control frame in pieces": frame(PING, b"x", last=False),
    "a length of 2^63": frame(TEXT, b"x", length=1 << 63),
    "a length of 2^62": frame(TEXT, b"x", length=1 << 62),
    "a continuation of nothing": frame(CONTINUATION, b"x"),
    "a message in a message": frame(TEXT, b"x", last=False) + frame(TEXT, b"y"),
    "no UTF-8": frame(TEXT, b"\xff\xfe"),
    "a surrogate": frame(TEXT, b"\xed\xa0\x80"),
    "UTF-8 that is cut": frame(TEXT, b"\xc3"),
    "a close of one byte": frame(CLOSE, b"\x03"),
    "a close with a wrong code": frame(CLOSE, closes(1005)),
    "a close whose reason is no UTF-8": frame(CLOSE, closes(1000) + b"\xff"),
}


@case("frames that break the rules end their connection, and no other", slow=True)
def _(room):
    with steered(room) as (console, ended):
        with Socket(console.port) as steady:
            for name, sent in BROKEN.items():
                with about(name):
                    with Socket(console.port) as client:
                        client.link.sendall(sent + frame(TEXT, VERSION))
                        came, _ = client.ends(10)
                        kinds = [kind for kind, _ in came]
                        want(TEXT not in kinds, f"it was answered {came}")
                    want("version" in steady.call("aria2.getVersion"), "another client isn't served")
            with about("cut at each byte"):
                whole = head_of() + frame(TEXT, VERSION)
                for at in range(1, len(whole)):
                    with socket.create_connection(("127.0.0.1", console.port)) as link:
                        link.sendall(whole[:at])
                want("version" in steady.call("aria2.getVersion"), "another client isn't served")
        console.call("aria2.shutdown")
    want(ended == [0, HEADER], f"{ended}")


@case("messages, pings and closes of WebSocket")
def _(room):
    with steered(room, "--rpc-max-request-size=16K") as (console, ended):
        with Socket(console.port) as client:
            with about("a ping, and one within a message"):
                client.send(PING, b"one")
                want(client.frames.next() == (PONG, b"one"), "no pong came")
                client.send(TEXT, VERSION[:9], last=False)
                client.send(PING, b"")
                client.send(CONTINUATION, b"", last=False)
                client.send(CONTINUATION, VERSION[9:])
                came = [client.frames.next() for _ in range(2)]
                want(came[0] == (PONG, b"") and b'"version":"' in came[1][1], f"{came}")
            with about("a pong and bytes, which are passed over"):
                client.send(PONG, b"x")
                client.send(BINARY, VERSION)
                want("version" in client.call("aria2.getVersion"), "no answer came")
            with about("a notification"):
                client.send(TEXT, b'{"jsonrpc":"2.0","method":"system.listMethods"}')
                want("version" in client.call("aria2.getVersion"), "no answer came")
            with about("the longest text"):
                told = client.ask(VERSION.rjust(16_384))
                want("version" in told["result"], f"{told}")
            with about("a close"):
                client.send(CLOSE, closes(1001) + b"gone")
                kind, payload = client.frames.next()
                want((kind, payload[:2]) == (CLOSE, closes(1001)), f"{kind} {payload}")
                want(client.ends(10) == ([], False), "the connection goes on")
        for name, sent in (
            ("a text that is too long", frame(TEXT, VERSION.rjust(16_385))),
            ("one in two pieces", frame(TEXT, VERSION, last=False) + frame(CONTINUATION, b" " * 16_384)),
        ):
            with about(name), Socket(console.port) as client:
                client.link.sendall(sent)
                came, _ = client.ends(10)
                want(TEXT not in [kind for kind, _ in came], f"{came}")
        for token in (None, "token:", "token:x"):
            with about(token), Socket(console.port, token) as client:
                told = client.ask(json.dumps({"jsonrpc": "2.0", "id": 1, "method": "aria2.getVersion", "params": [token] if token else []}).encode())
                want(told["error"] == {"code": 1, "message": "Unauthorized"}, f"{told}")
        console.call("aria2.shutdown")
    want(ended == [0, HEADER], f"{ended}")


# ---- clients that are gone, silent, or never read

@case("a socket whose client is killed, one that is silent, and one that never reads", slow=True)
def _(room):
    with steered(room) as (console, ended):
        with Socket(console.port) as silent, Socket(console.port) as deaf:
            killed = Socket(console.port)
            killed.link.setsockopt(socket.SOL_SOCKET, socket.SO_LINGER, struct.pack("ii", 1, 0))
            killed.link.close()
            begun = time.monotonic()
            long = json.dumps({"jsonrpc": "2.0", "id": 1, "method": "system.multicall", "params": [[{"methodName": "system.listMethods", "params": []}] * 2_000]})
            deaf.link.settimeout(1)
            with contextlib.suppress(TimeoutError):
                for _ in range(20):
                    deaf.send(TEXT, long.encode())
            for _ in range(100):
                want("version" in console.call("aria2.getVersion"), "another client isn't served")
            want_within(time.monotonic() - begun, 10, "a hundred calls")
            gid = console.call("aria2.addUri", ["http://127.0.0.1:1/a"], {"pause": "true", "out": "x"})
            console.call("aria2.remove", gid)
            time.sleep(1)
            silent.until("aria2.onDownloadStop", gid)
            want("version" in silent.call("aria2.getVersion"), "a silent client isn't served")
        console.call("aria2.shutdown")
    want(ended[0] == 0, f"{ended}")


def empty_pieces(port, stop):
    """Sends pieces of a message without bytes, without end."""
    with contextlib.suppress(OSError), Socket(port) as client:
        client.send(TEXT, b"", last=False)
        while not stop.is_set():
            client.link.sendall(1_000 * frame(CONTINUATION, b"", last=False))


def pings(port, stop):
    """Sends pings without end, and reads no pong."""
    with contextlib.suppress(OSError), Socket(port) as client:
        while not stop.is_set():
            client.link.sendall(1_000 * frame(PING, b"x" * 125))


def waits(port, stop):
    with contextlib.suppress(OSError), Socket(port) as client:
        stop.wait()
        client.link.close()


@case("a shutdown ends the run within two seconds, whatever sockets do", slow=True)
def _(room):
    for behave in (waits, empty_pieces, pings):
        with about(behave.__name__), Slow({"/a.bin": LONG}, 10_000) as site:
            room.clear("a.bin")
            stop = threading.Event()
            with steered(room) as (console, ended):
                gid = console.call("aria2.addUri", [site.url().decode()])
                console.until(gid, {"status": "active"})
                peer = threading.Thread(target=behave, args=(console.port, stop))
                peer.start()
                time.sleep(2)
                begun = time.monotonic()
                want(console.call("aria2.shutdown") == "OK", "it wasn't shut down")
            seconds = time.monotonic() - begun
            stop.set()
            peer.join()
            want(ended[0] == 7, f"it ended with {ended}")
            want_within(seconds, 2, "the end")


@case("a shutdown over a socket is answered, with its notices, and the socket ends")
def _(room):
    with Slow({"/a.bin": LONG}, MIB) as site, steered(room) as (console, ended):
        console.close()
        with Socket(console.port) as client:
            want(client.opening.endswith(ACCEPT + b"\r\n\r\n"), f"{client.opening!r}")
            gid = client.call("aria2.addUri", [site.url().decode()])
            client.until("aria2.onDownloadStart", gid)
            want(client.call("aria2.shutdown") == "OK", "it wasn't shut down")
            came, _ = client.ends(10)
            want(TEXT not in [kind for kind, _ in came], f"{came}")
    want(ended[0] == 7, f"{ended}")


@case("notices come soon", slow=True)
def _(room):
    with steered(room) as (console, ended):
        with Socket(console.port) as client:
            slowest = 0
            for place in range(20):
                gid = console.call("aria2.addUri", ["http://127.0.0.1:1/a"], {"pause": "true", "out": f"x{place}"})
                begun = time.monotonic()
                console.call("aria2.remove", gid)
                slowest = max(slowest, client.until("aria2.onDownloadStop", gid) - begun)
        want_within(slowest, 0.2, "the slowest notice")
        console.call("aria2.shutdown")
    want(ended[0] == 0, f"{ended}")
