"""The cases of an origin: the folder that the program serves, to clients of others, to itself, and to such as break the rules."""
import concurrent.futures
import contextlib
import os
import signal
import socket
import subprocess
import time

from lib.faults import Faults
from lib.origins import (
    BAD_REQUEST,
    DOORS,
    FAILED,
    NOT_ALLOWED,
    NOT_FOUND,
    Origin,
    asking,
    curled,
    fetched,
    outside,
    part,
    refused,
    statuses,
    waits_for,
    whole,
)
from lib.payloads import LONG, MIB, SMALL, SPREAD
from lib.rooms import LIMIT, PLAIN, PROGRAM, case
from lib.wants import about, want, want_in_time, want_within

HELLO = {"f": b"hello"}

# Names as they stand in the folder.
NAMES = ["a b", "ü", "100%", "%41", "a+b", "a?b", "#", ".hidden", "d/e/f", "ö/ü ä", "a&b=c;d"]


@case("files and parts of them, to curl", "curl")
def _(room):
    with Origin(room, HELLO) as origin:
        parts = {"1-3": (1, 3), "-2": (3, 4), "0-": (0, 4), "0-0": (0, 0), "4-4": (4, 4), "2-99": (2, 4), "-99": (0, 4)}
        for text, (first, last) in parts.items():
            with about(text):
                line, fields, content = curled("-r", text, origin.url())
                want(line == b"HTTP/1.1 206 Partial Content", f"{line}")
                want(b"Content-Range: bytes %d-%d/5" % (first, last) in fields, f"{fields}")
                want(content == b"hello"[first : last + 1], f"{content}")
        for text in ("5-", "9-12", "-0"):
            with about(text):
                line, fields, content = curled("-r", text, origin.url())
                want(line == b"HTTP/1.1 416 Range Not Satisfiable", f"{line}")
                want(fields == [b"Content-Range: bytes */5", b"Content-Length: 0"] and content == b"", f"{fields} {content}")
        for text in ("0-1,3-4", "3-1", "a-b", ""):
            with about(text):
                line, _, content = curled("-H", f"Range: bytes={text}", origin.url())
                want((line, content) == (b"HTTP/1.1 200 OK", b"hello"), f"{line} {content}")
        line, fields, content = curled("-I", "-r", "1-3", origin.url())
        want((line, content) == (b"HTTP/1.1 200 OK", b""), f"{line} {content}")
        want(b"Content-Length: 5" in fields, f"{fields}")
        line, _, content = curled("-C", "2", origin.url())
        want((line, content) == (b"HTTP/1.1 206 Partial Content", b"llo"), f"{line} {content}")
        # it goes on with what stands, and asks for no more where all of it does
        for stands in (b"he", b"", b"hello"):
            room.put("came", stands)
            fetched(room, "curl", "-sS", "-C", "-", "-o", "came", origin.url())
            want(room.get("came") == b"hello", f"curl went on from {stands} to {room.get('came')}")
        line, _, content = curled("--http1.0", origin.url())
        want((line, content) == (b"HTTP/1.1 200 OK", b"hello"), f"{line} {content}")


@case("what is no file, and other methods, to curl", "curl")
def _(room):
    room.put("f", b"outside")
    with Origin(room, {**HELLO, "d/e": b"e"}) as origin:
        base = f"http://127.0.0.1:{origin.port}"
        for target in ("/../f", "/%2e%2e/f", "/d%2fe", "/d/../f", "/none", "/", "/d", "/d/", "/f/", "//f", "/f/x", "/f%00", "/" + "a" * 256, "/." ):
            with about(target):
                line, fields, content = curled("--path-as-is", f"{base}{target}")
                want(line == b"HTTP/1.1 404 Not Found", f"{line}")
                want((fields, content) == ([b"Content-Length: 0"], b""), f"{fields} {content}")
        line, _, content = curled("--path-as-is", f"{base}/f?x=../y")
        want((line, content) == (b"HTTP/1.1 200 OK", b"hello"), f"{line} {content}")
        line, fields, _ = curled("-X", "POST", origin.url())
        want(line == b"HTTP/1.1 405 Method Not Allowed", f"{line}")
        want(fields == [b"Allow: GET, HEAD", b"Content-Length: 0"], f"{fields}")
        for words in (("-X", "DELETE"), ("-X", "POST", "-d", "")):
            with about(words):
                want(curled(*words, origin.url("none"))[0] == b"HTTP/1.1 405 Method Not Allowed", "it is another reply")
        for words in (("-d", "x"), ("-X", "GET", "-d", "x")):
            with about(words):
                want(curled(*words, origin.url())[0] == b"HTTP/1.1 400 Bad Request", "it is another reply")
        room.put("sent", b"x" * 5)
        line, _, _ = curled("-T", room.path("sent"), "-H", "Expect:", origin.url("new"))
        want(line == b"HTTP/1.1 400 Bad Request", f"{line}")
        want(room.get("served/new") is None, "the file was written")


@case("wget and aria2c fetch and go on", "wget", "aria2c")
def _(room):
    with Origin(room, {"a.bin": LONG, "none": b""}) as origin:
        fetched(room, "wget", "-q", origin.url("a.bin"))
        want(room.get("a.bin") == LONG, "wget fetched other bytes")
        room.put("a.bin", LONG[: MIB + 17])
        fetched(room, "wget", "-q", "-c", origin.url("a.bin"))
        want(room.get("a.bin") == LONG, "wget went on with other bytes")
        # all of it is there
        fetched(room, "wget", "-c", origin.url("a.bin"))
        want(room.get("a.bin") == LONG, "wget changed the file")
        fetched(room, "wget", "-q", "--spider", origin.url("a.bin"))
        fetched(room, "wget", "-q", "--spider", origin.url("other"), status=8)
        fetched(room, "wget", "-q", origin.url("none"))
        want(room.get("none") == b"", "the empty file has bytes")
        os.mkdir(room.path("aria2"))
        words = ["aria2c", "-q", "-d", "aria2", "-x4", "-s4", "-k1M", origin.url("a.bin")]
        fetched(room, *words)
        want(room.get("aria2/a.bin") == LONG, "aria2c fetched other bytes")


@case("the program fetches from itself: a file, several, and small ones")
def _(room):
    for name, payload in (("a", LONG), ("many", SPREAD), ("small", SMALL)):
        with about(name):
            files = {name: payload} if isinstance(payload, bytes) else {f"{name}/{path}": it for path, it in payload}
            with Origin(room, files, folder=f"from {name}") as origin:
                seed = f"http://127.0.0.1:{origin.port}/" + (name if isinstance(payload, bytes) else "")
                room.torrent(seed.encode(), payload, name.encode(), 16 if payload is SMALL else 65_536)
                ended, _ = room.run("--split=4", *PLAIN, name=name)
                want(ended == 0, f"status {ended}")
                for path, content in files.items():
                    want(room.get(path) == content, f"{path} has other bytes")


@case("names with spaces, umlauts and percent signs", "curl")
def _(room):
    files = {name: f"this is {name}".encode() for name in NAMES}
    with Origin(room, files) as origin:
        for name, content in files.items():
            with about(name):
                line, _, came = curled(origin.url(name))
                want((line, came) == (b"HTTP/1.1 200 OK", content), f"{line} {came}")


@case("targets that are spelled so as to lead out of the folder")
def _(room):
    room.put("f", b"outside")
    targets = (
        b"/%2e%2e%2ff",
        b"/..%2ff",
        b"/%252e%252e/f",
        b"/%252e%252e%252ff",
        b"/..\\f",
        b"/..%5cf",
        b"/%2e%2e%5cf",
        b"\\..\\f",
        b"/./../f",
        b"/%c0%ae%c0%ae/f",
        b"/..;/f",
        b"../f",
        b"%2f..%2ff",
        b"http://127.0.0.1/../f",
    )
    with Origin(room, HELLO) as origin:
        for target in targets:
            with about(target):
                origin.wants(asking(target), refused(NOT_FOUND))
        origin.wants(asking(b"/\xc0\xae\xc0\xae/f"), refused(BAD_REQUEST))
        # only a target that begins with a slash names a file
        for target in (b"http://127.0.0.1/f", b"f", b"*", b"//127.0.0.1/f"):
            with about(target):
                origin.wants(asking(target), refused(NOT_FOUND))
        # decoded once these are names like others
        for name in ("%2e%2e/f", "..\\f"):
            room.put(f"served/{name}", b"inside")
        for target in (b"/%252e%252e/f", b"/..\\f", b"/..%5cf"):
            with about(f"{target}, which stands in the folder"):
                origin.wants(asking(target), whole(b"inside"))


@case("links, pipes, folders and devices are no files", "curl")
def _(room):
    room.put("outside", b"outside")
    with Origin(room, {**HELLO, "d/e": b"e"}) as origin:
        os.symlink("f", origin.path("link"))
        os.symlink(room.path("outside"), origin.path("out"))
        os.symlink("d", origin.path("folder"))
        os.symlink("nowhere", origin.path("dangling"))
        os.mkfifo(origin.path("pipe"))
        with contextlib.closing(socket.socket(socket.AF_UNIX)) as listening:
            listening.bind(origin.path("socket"))
            for name in ("link", "out", "folder/e", "dangling", "pipe", "socket", "d", "f/e"):
                with about(name):
                    origin.wants(asking(b"/" + name.encode()), refused(NOT_FOUND))
        # a second name of the same file is a file
        os.link(room.path("outside"), origin.path("second"))
        origin.wants(asking(b"/second"), whole(b"outside"))


@case("files change while they are served")
def _(room):
    with Origin(room, HELLO) as origin:
        origin.wants(asking(), whole(b"hello"))
        room.put("served/f", b"other bytes")
        origin.wants(asking(), whole(b"other bytes"))
        os.remove(origin.path("f"))
        origin.wants(asking(), refused(NOT_FOUND))


# The system takes some 4 MiB of a reply before its reader does: behind that a longer one still has parts to be read.
TIMES_LONG = 5


@case("a file changes between two parts of one reply")
def _(room):
    # of the other length, at the same place, and by a new file of the same length
    for name, change in (
        ("cut", lambda path: os.truncate(path, 500_000)),
        ("a folder in its place", lambda path: (os.remove(path), os.mkdir(path))),
        ("a link in its place", lambda path: (os.rename(path, f"{path}-aside"), os.symlink(f"{path}-aside", path))),
        ("a link above it", lambda path: linked_above(path)),
        ("gone", os.remove),
    ):
        payload = LONG * TIMES_LONG
        with about(name), Origin(room, {**HELLO, "d/long": payload}, folder=f"served {name}") as origin:
            with origin.deaf(b"/d/long") as link:
                begin = waits_for(link, 100_000)
                change(origin.path("d/long"))
                came = begin + waits_for(link, len(payload) * 2)
            right = whole(payload)
            want(len(came) < len(right), "all of it came")
            want(right.startswith(came), "other bytes came, or another reply behind them")
            origin.wants(asking(), whole(b"hello"))


def linked_above(path):
    """The folder of a file takes another name, to which a link leads from its old one."""
    folder = os.path.dirname(path)
    os.rename(folder, f"{folder}-aside")
    os.symlink(f"{folder}-aside", folder)


@case("a file is replaced by another between two parts of one reply")
def _(room):
    payload, other = LONG * TIMES_LONG, bytes(len(LONG) * TIMES_LONG)
    with Origin(room, {"long": payload, "aside": other}) as origin:
        with origin.deaf(b"/long") as link:
            begin = waits_for(link, 100_000)
            os.replace(origin.path("aside"), origin.path("long"))
            came = begin + waits_for(link, len(whole(payload)) - len(begin))
        right = whole(payload)
        want(len(came) == len(right), f"{len(came)} bytes came, and not {len(right)}")
        # up to a place it is the one file, and from there on the other
        head = len(right) - len(payload)
        place = next(at for at in range(len(came) - 1, -1, -1) if came[at]) + 1
        want(came[:place] == right[:place], "what came first isn't of the file that stood")
        want(100_000 <= place < len(came) and (place - head) % 65_536 == 0, f"the other file begins at {place - head}")
        origin.wants(asking(b"/long", b"Range: bytes=0-4"), part(other, 0, 4))


@case("what isn't served any more isn't kept from the system")
def _(room):
    with Origin(room, {**HELLO, "long": LONG}) as origin:

        def kept():
            folder = f"/proc/{origin.started.pid}/fd"
            return [it for it in os.listdir(folder) if os.readlink(f"{folder}/{it}").startswith(origin.path(""))]

        for _ in range(3):
            origin.wants(asking(b"/long") + asking(), whole(LONG) + whole(b"hello"))
            want(kept() == [], f"{len(kept())} files stay open")
        # what was left in the midst is let go of once it is seen to be gone
        origin.wants(asking(b"/long", b"Range: bytes=0-9"), part(LONG, 0, 9))
        os.remove(origin.path("long"))
        origin.wants(asking(b"/long"), refused(NOT_FOUND))
        want(kept() == [], f"{len(kept())} files stay open")


@case("a sparse file of more than 4 GiB", "curl", "disk", slow=True)
def _(room):
    with Origin(room) as origin:
        total = (5 << 30) + 3
        with open(origin.path("f"), "wb") as file:
            file.truncate(total)
            file.seek(total - 3)
            file.write(b"end")
        for text, first in (("-3", total - 3), (f"{total - 3}-", total - 3), (f"{(1 << 32) - 1}-{1 << 32}", (1 << 32) - 1)):
            with about(text):
                line, fields, content = curled("-r", text, origin.url())
                last = first + len(content) - 1
                want(line == b"HTTP/1.1 206 Partial Content", f"{line}")
                want(b"Content-Range: bytes %d-%d/%d" % (first, last, total) in fields, f"{fields}")
                want(content == (b"end" if first == total - 3 else b"\0\0"), f"{content[:20]}")
        _, fields, _ = curled("-I", origin.url())
        want(b"Content-Length: %d" % total in fields, f"{fields}")


@case("pipelined requests, and such as come byte by byte")
def _(room):
    with Origin(room, {**HELLO, "g": b"g", "none": b""}) as origin:
        several = [
            (asking(), whole(b"hello")),
            (asking(b"/g", method=b"HEAD"), whole(b"g", is_head=True)),
            (asking(b"/f", b"Range: bytes=1-3"), part(b"hello", 1, 3)),
            (asking(b"/x"), refused(NOT_FOUND)),
            (asking(method=b"PUT"), refused(NOT_ALLOWED)),
            (asking(b"/f", b"Range: bytes=5-"), outside(b"hello")),
            (asking(b"/none"), whole(b"")),
            (asking(b"/none", b"Range: bytes=0-"), outside(b"")),
            (asking(b"/f", b"Content-Length: 0"), whole(b"hello")),
            (asking(b"/f", b"Range: bytes=0-1", b"Range: bytes=0-1"), whole(b"hello")),
            (b"\r\n" + asking().replace(b"\r\n", b"\n"), whole(b"hello")),
        ]
        sent = b"".join(it for it, _ in several)
        right = b"".join(it for _, it in several)
        origin.wants(sent, right)
        origin.wants(sent * 50, right * 50)
        origin.wants(asking() + asking(b"/g"), whole(b"hello") + whole(b"g"), pause=0.001)
        # the rest of a request isn't answered, nor are bytes behind the last one
        origin.wants(asking() + asking()[:-1], whole(b"hello"))
        origin.wants(asking(b"/f", b"Connection: close") + asking(), whole(b"hello"))
        origin.wants(asking(version=b"HTTP/1.0") + asking(), whole(b"hello"))
        origin.wants(b"", b"")


@case("two requests hidden in one are not served")
def _(room):
    with Origin(room, {**HELLO, "g": b"g"}) as origin:
        hidden = asking(b"/g")
        for fields in (
            (b"Content-Length: %d" % len(hidden),),
            (b"Content-Length: 0", b"Content-Length: %d" % len(hidden)),
            (b"Content-Length: 0, %d" % len(hidden),),
            (b"Content-Length: +0",),
            (b"Content-Length: 18446744073709551616",),
            (b"Transfer-Encoding: chunked",),
            (b"Transfer-Encoding: identity",),
            (b"transfer-encoding: ", b"Content-Length: 0"),
        ):
            for method in (b"GET", b"POST", b"HEAD"):
                with about(f"{method} {fields}"):
                    origin.wants(asking(b"/f", *fields, method=method) + hidden, refused(BAD_REQUEST))
        for sent in (
            b"GET /f HTTP/1.1\r\nHost: a\r\n Transfer-Encoding: chunked\r\n\r\n" + hidden,
            b"GET /f HTTP/1.1\r\nContent-Length : 5\r\n\r\n" + hidden,
            b"GET /f HTTP/2.0\r\n\r\n" + hidden,
            b"GET  /f HTTP/1.1\r\n\r\n" + hidden,
            b"\0\r\n\r\n" + hidden,
            b"\x16\x03\x01\x02\0\x01\0\x01\xfc\x03\x03\r\n\r\n",
        ):
            with about(sent[:60]):
                origin.wants(sent, refused(BAD_REQUEST))


@case("heads of the greatest length, and longer ones")
def _(room):
    with Origin(room, HELLO) as origin:
        rest = len(asking(b"/f", b"X: "))
        origin.wants(asking(b"/f", b"X: " + b"x" * (65_536 - rest)), whole(b"hello"))
        origin.wants(asking(b"/f", b"X: " + b"x" * (65_537 - rest)) + asking(), refused(BAD_REQUEST))
        origin.wants(b"GET /" + b"x" * 70_000, refused(BAD_REQUEST))
        origin.wants(b"\n" * 65_536 + asking(), refused(BAD_REQUEST))
        fields = [b"X-%d: x" % it for it in range(63)]
        origin.wants(asking(b"/f", *fields), whole(b"hello"))
        origin.wants(asking(b"/f", *fields, b"Y: y") + asking(), refused(BAD_REQUEST))
        # a great one that comes byte by byte is read in a moment
        great = asking(b"/f", *(b"%d: " % it + b"x" * 900 for it in range(60)))
        began = time.monotonic()
        came = origin.dribbled(great)
        want(came == whole(b"hello"), f"it is answered by {came[:100]!r}")
        want_within(time.monotonic() - began, 10)


@case("slow clients and such as never read, beside others", slow=True)
def _(room):
    with Origin(room, {**HELLO, "long": LONG * 8}) as origin:
        with contextlib.ExitStack() as stack:
            # all doors but one are held
            deaf = stack.enter_context(origin.connected())
            deaf.sendall(asking(b"/long"))
            slow = stack.enter_context(origin.connected())
            slow.sendall(asking()[:5])
            idle = stack.enter_context(origin.connected())
            idle.sendall(asking())
            want(waits_for(idle, len(whole(b"hello"))) == whole(b"hello"), "the idle one got other bytes")
            for at in range(5, 15):
                slow.sendall(asking()[at : at + 1])
                began = time.monotonic()
                origin.wants(asking(), whole(b"hello"))
                want_within(time.monotonic() - began, 5)
                time.sleep(1)
            slow.sendall(asking()[15:])
            want(waits_for(slow, len(whole(b"hello"))) == whole(b"hello"), "the slow one got other bytes")
            idle.sendall(asking())
            want(waits_for(idle, len(whole(b"hello"))) == whole(b"hello"), "the idle one got other bytes")
            # what it didn't read waits for it
            right = whole(LONG * 8)
            want(waits_for(deaf, len(right)) == right, "the deaf one got other bytes")


# A client that takes nothing is waited for so many seconds.
PATIENCE = 60


@case("clients that never read are hung up, and others served meanwhile", slow=True)
def _(room):
    payload = LONG * 16
    with Origin(room, {**HELLO, "long": payload}) as origin, contextlib.ExitStack() as stack:
        begun = time.monotonic()
        deaf = [stack.enter_context(origin.deaf(b"/long")) for _ in range(DOORS - 1)]
        for _ in range(10):
            asked = time.monotonic()
            origin.wants(asking(), whole(b"hello"))
            want_within(time.monotonic() - asked, 5)
            time.sleep(0.5)
        # now no door is free
        deaf.append(stack.enter_context(origin.deaf(b"/long")))
        time.sleep(1)
        link = stack.enter_context(origin.connected())
        link.sendall(asking())
        right = whole(b"hello")
        came = waits_for(link, len(right), 2 * PATIENCE)
        seconds = time.monotonic() - begun
        want(came == right, f"the one that waited got {came[:200]!r}")
        want(seconds > PATIENCE - 1, f"it was answered {seconds:.1f} seconds behind the first that doesn't read")
        want_within(seconds, PATIENCE + 10, "the answer to one that waits for a door")
        time.sleep(max(0, begun + PATIENCE + 10 - time.monotonic()))
        for it in deaf[: DOORS - 1]:
            came = waits_for(it, 2 * len(payload))
            want(len(came) < len(payload) and whole(payload).startswith(came), f"{len(came)} bytes came, or others")


# The origin has so much memory at most, whatever clients do: each door has a buffer for what comes and one for a part of a file.
MOST_MEMORY = 16 * MIB


@case("memory stays bounded, whatever clients send")
def _(room):
    sends = (
        b"GET /" + b"x" * (8 * MIB),
        b"GET /f HTTP/1.1\r\nX: " + b"x" * (8 * MIB),
        asking(b"/f", *(b"X%d: x" % it for it in range(100_000))),
        b"\r\n" * (4 * MIB),
        b"\0" * (8 * MIB),
        asking(b"/f", b"Content-Length: 8388608") + b"x" * (8 * MIB),
        asking(b"/%61" + b"/%61" * 15_000) * 100,
        asking(b"/f", b"Range: bytes=" + b"0-1," * 15_000) * 100,
        asking(b"/long") * 500,
    )
    with Origin(room, {**HELLO, "long": LONG * 16}) as origin:

        def client(number):
            with contextlib.closing(origin.deaf(b"/f")) as link, contextlib.suppress(OSError):
                link.settimeout(1)
                link.sendall(sends[number % len(sends)])
                link.recv(10_000)

        with concurrent.futures.ThreadPoolExecutor(max_workers=16) as pool:
            for it in [pool.submit(client, number) for number in range(12 * len(sends))]:
                it.result()
        origin.wants(asking(), whole(b"hello"))
        most = origin.most_memory()
        want(most <= MOST_MEMORY, f"it had {most} bytes of memory")


@case("clients that go in the middle")
def _(room):
    with Origin(room, {**HELLO, "long": LONG * 8}) as origin:
        for _ in range(4 * DOORS):
            with origin.connected() as link:
                link.sendall(asking(b"/long"))
                link.recv(1000)
                link.setsockopt(socket.SOL_SOCKET, socket.SO_LINGER, b"\1\0\0\0\0\0\0\0")
        origin.wants(asking(), whole(b"hello"))


@case("sixteen clients at once")
def _(room):
    files = {f"f{it}": LONG[it * 1000 :] for it in range(8)}
    with Origin(room, files) as origin:

        def client(number):
            rights = []
            sent = b""
            for turn in range(4):
                name = f"f{(number + turn) % 8}"
                sent += asking(b"/" + name.encode(), b"Range: bytes=%d-" % (number * 7))
                rights.append(part(files[name], number * 7, len(files[name]) - 1))
            want(origin.told(sent) == b"".join(rights), f"client {number} got other bytes")

        with concurrent.futures.ThreadPoolExecutor(max_workers=16) as pool:
            for it in [pool.submit(client, number) for number in range(16)]:
                it.result()


@case("a file is cut while it is sent")
def _(room):
    payload = LONG * 16
    with Origin(room, {**HELLO, "long": payload}) as origin:
        with origin.connected() as link:
            link.setsockopt(socket.SOL_SOCKET, socket.SO_RCVBUF, 65_536)
            link.sendall(asking(b"/long") + asking())
            begin = waits_for(link, 100_000)
            os.truncate(origin.path("long"), 500_000)
            came = begin + waits_for(link, len(payload) * 2)
        right = whole(payload)
        want(len(came) < len(right), "all of it came")
        want(right.startswith(came), "other bytes came, or another reply behind them")
        origin.wants(asking(), whole(b"hello"))


@case("what can't be served is told, and ends with a status")
def _(room):
    with Origin(room, HELLO) as origin:
        origin.wants(asking(), whole(b"hello"))
        with contextlib.closing(socket.socket()) as link:
            link.connect(("127.0.0.1", origin.port))
            link.sendall(asking(b"/f", b"Connection: close"))
            want(statuses(waits_for(link, 1 << 20)) == [200], "the reply is another one")
    # these words have no meaning, as `room.run` puts another option in front of them
    for words in (("--serve-dir=served",), ("--serve-dir=",), ("--serve-dir=served", "t.torrent")):
        with about(words):
            ended, wrote = room.run(*words)
            want(ended != 0 and wrote.startswith(b"error "), f"status {ended}, {wrote[:100]!r}")


@case("an origin that ^C ends while a client fetches")
def _(room):
    payload = LONG * 16
    with contextlib.ExitStack() as stack:
        stood = None
        for _ in range(2):
            origin = Origin(room, {**HELLO, "long": payload})
            origin.__enter__()
            stack.callback(origin.started.kill)
            stood = stood or room.standing()
            with origin.deaf(b"/long") as link:
                came = waits_for(link, 100_000)
                ended = origin.interrupted()
                want(ended == -signal.SIGINT, f"it ended with {ended}")
                with contextlib.suppress(ConnectionResetError):
                    came += waits_for(link, 2 * len(payload))
            want(len(came) < len(payload) and whole(payload).startswith(came), f"{len(came)} bytes came, or others")
            want(room.standing() == stood, "another file stands")


@case("a port that is taken has nobody served, and is told")
def _(room):
    room.put("served/f", b"hello")
    with socket.socket() as taken:
        taken.bind(("127.0.0.1", 0))
        taken.listen()
        port = taken.getsockname()[1]
        words = [PROGRAM, "--serve-dir=served", f"--rpc-listen-port={port}"]
        ran = subprocess.run(words, cwd=room.folder, stdin=subprocess.DEVNULL, capture_output=True, timeout=LIMIT, check=False)
    begin = b"aria_cli: can't listen at port %d of 127.0.0.1: " % port
    want(ran.stderr.startswith(begin) and ran.stderr.count(b"\n") == 1, f"it said {ran.stderr!r}")
    want((ran.returncode, ran.stdout) == (0, b""), f"it ended with {ran.returncode}, and wrote {ran.stdout!r}")


@case("a file that can't be looked up is answered by 500", "cc")
def _(room):
    faults = Faults(room.folder)
    with Origin(room, HELLO, shell=faults.noting()) as origin:
        origin.wants(asking(), whole(b"hello"))
    looks = [it.number for it in faults.notes() if it.does == "look" and it.path == os.path.realpath(room.path("served/f"))]
    want(looks, "the file wasn't looked up")
    with Origin(room, HELLO, shell=faults.shell(FAULT_AT=looks[0], FAULT_DOES="fails")) as origin:
        # the connection goes on
        origin.wants(asking() + asking(), refused(FAILED) + whole(b"hello"))


@case("a file that can't be read has its reply cut behind the head", "setpriv")
def _(room):
    nobody = ("setpriv", "--reuid=65534", "--regid=65534", "--clear-groups")
    os.chmod(room.folder, 0o755)
    with Origin(room, {**HELLO, "closed": b"hello", "d/f": b"hello"}, within=nobody) as origin:
        for name in ("served/f", "served/closed", "served/d/f"):
            os.chmod(room.path(name), 0o644)
        os.chmod(origin.path(""), 0o755)
        os.chmod(origin.path("d"), 0o700)
        for _ in range(2):
            origin.wants(asking(), whole(b"hello"))
            os.chmod(origin.path("closed"), 0o600)
            # its length can be told
            origin.wants(asking(b"/closed", method=b"HEAD"), whole(b"hello", is_head=True))
            origin.wants(asking(b"/closed") + asking(), whole(b"hello", is_head=True))
            # where its folder may not be searched not even that
            origin.wants(asking(b"/d/f") + asking(), refused(FAILED) + whole(b"hello"))
            os.chmod(origin.path("closed"), 0o644)
            origin.wants(asking(b"/closed"), whole(b"hello"))


@case("a right that goes between two parts of one reply ends it", "setpriv")
def _(room):
    nobody = ("setpriv", "--reuid=65534", "--regid=65534", "--clear-groups")
    payload = LONG * TIMES_LONG
    os.chmod(room.folder, 0o755)
    with Origin(room, {"long": payload}, within=nobody) as origin:
        os.chmod(origin.path(""), 0o755)
        os.chmod(origin.path("long"), 0o644)
        with origin.deaf(b"/long") as link:
            begin = waits_for(link, 100_000)
            os.chmod(origin.path("long"), 0o600)
            came = begin + waits_for(link, len(payload) * 2)
        want(len(came) < len(payload) and whole(payload).startswith(came), f"{len(came)} bytes came, or others")
