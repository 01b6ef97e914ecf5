"""Clients of a console over WebSocket (RFC 6455): one that sends what it is told to, Debian's python3-websockets, and a browser."""
import base64
import contextlib
import hashlib
import http.server
import json
import os
import queue
import shutil
import signal
import socket
import struct
import subprocess
import threading
import time

from lib.consoles import Fault, TOKEN
from lib.rooms import LIMIT
from lib.version2 import PYTHON
from lib.wants import Late, want, want_in_time

CONTINUATION, TEXT, BINARY, CLOSE, PING, PONG = 0, 1, 2, 8, 9, 10
# Section 1.3 has this key and what it is answered.
KEY = b"dGhlIHNhbXBsZSBub25jZQ=="
ACCEPT = b"s3pPLMBiTxaQ9kYGzzhZRbK+xOo="
KEY_END = b"258EAFA5-E914-47DA-95CA-C5AB0DC85B11"
FIELDS = {
    b"Host": b"127.0.0.1",
    b"Upgrade": b"websocket",
    b"Connection": b"Upgrade",
    b"Sec-WebSocket-Key": KEY,
    b"Sec-WebSocket-Version": b"13",
}
SWITCHING = b"\r\n".join(
    [
        b"HTTP/1.1 101 Switching Protocols",
        b"Upgrade: websocket",
        b"Connection: Upgrade",
        b"Sec-WebSocket-Accept: " + ACCEPT,
        b"",
        b"",
    ]
)


def accept_of(key):
    """Section 4.2.2, item 5.4."""
    return base64.b64encode(hashlib.sha1(key + KEY_END).digest())


def head_of(fields=None, begin=b"GET /jsonrpc HTTP/1.1"):
    """A head with these fields, which are pairs, or those of an opening."""
    pairs = list((FIELDS if fields is None else fields).items()) if not isinstance(fields, list) else fields
    return b"".join([begin, b"\r\n", *(name + b": " + value + b"\r\n" for name, value in pairs), b"\r\n"])


def frame(code, payload=b"", last=True, reserved=0, mask=b"\x37\xfa\x21\x3d", length=None):
    """A frame of section 5.2, also one that breaks its rules."""
    told = len(payload) if length is None else length
    size, more = (told, b"") if told < 126 else (126, struct.pack(">H", told)) if told < 1 << 16 else (127, struct.pack(">Q", told))
    first = bytes([last << 7 | reserved << 4 | code, bool(mask) << 7 | size])
    if not mask:
        return first + more + payload
    whole = mask * (len(payload) // 4 + 1)
    masked = (int.from_bytes(payload, "big") ^ int.from_bytes(whole[: len(payload)], "big")).to_bytes(len(payload), "big")
    return first + more + mask + masked


class Frames:
    """The frames that come over a connection, none of which may be masked."""

    def __init__(self, link, came=b""):
        self.link, self.came = link, came

    def take(self, count):
        while len(self.came) < count:
            piece = self.link.recv(65_536)
            if not piece:
                raise EOFError(f"the connection ended behind {self.came[:100]!r}")
            self.came += piece
        taken, self.came = self.came[:count], self.came[count:]
        return taken

    def until(self, end):
        """What comes up to these bytes."""
        front = b""
        while not front.endswith(end):
            front += self.take(1)
        return front

    def next(self):
        """The kind and the payload of the next frame."""
        first, second = self.take(2)
        want(first & 0xF0 == 0x80, f"a frame begins with {first:#x}: it isn't the only one of its message, or has reserved bits")
        want(second < 128, "a server masked a frame")
        size = second
        if size == 126:
            [size] = struct.unpack(">H", self.take(2))
        elif size == 127:
            [size] = struct.unpack(">Q", self.take(8))
        return first & 15, self.take(size)


class Socket:
    """A client that was let in, and keeps the notices that come between answers."""

    def __init__(self, port, token=TOKEN, fields=None):
        self.link = socket.create_connection(("127.0.0.1", port), LIMIT)
        self.link.setsockopt(socket.IPPROTO_TCP, socket.TCP_NODELAY, 1)
        self.token, self.asked, self.notices = token, 0, []
        self.frames = Frames(self.link)
        self.link.sendall(head_of(fields))
        self.opening = self.frames.until(b"\r\n\r\n")

    def __enter__(self):
        return self

    def __exit__(self, *_):
        self.link.close()

    def send(self, *words, **fields):
        self.link.sendall(frame(*words, **fields))

    def text(self):
        """The next text, of which a notice is kept."""
        kind, payload = self.frames.next()
        want(kind == TEXT, f"a frame of kind {kind} came: {payload[:200]!r}")
        told = json.loads(payload)
        if isinstance(told, dict) and "method" in told:
            self.notices.append((time.monotonic(), told))
            return None
        return told

    def ask(self, content):
        """What a content is answered."""
        self.send(TEXT, content)
        while (told := self.text()) is None:
            pass
        return told

    def call(self, method, *params):
        self.asked += 1
        told = [*([self.token] if self.token else []), *params]
        answer = self.ask(json.dumps({"jsonrpc": "2.0", "id": self.asked, "method": method, "params": told}).encode())
        want(answer.get("id") == self.asked, f"{method} was answered {answer}")
        if "error" in answer:
            raise Fault(answer["error"]["code"], answer["error"]["message"])
        return answer["result"]

    def told(self):
        """The notices so far: what each tells, and of which download."""
        for _, notice in self.notices:
            want(sorted(notice) == ["jsonrpc", "method", "params"] and notice["jsonrpc"] == "2.0", f"told was {notice}")
            want(len(notice["params"]) == 1 and [*notice["params"][0]] == ["gid"], f"told was {notice}")
        return [(notice["method"], notice["params"][0]["gid"]) for _, notice in self.notices]

    def until(self, method, gid, seconds=LIMIT):
        """Waits for a notice, and gives the moment at which it came."""
        ends = time.monotonic() + seconds
        while (method, gid) not in self.told():
            want_in_time(time.monotonic() < ends, f"told were {self.told()}")
            self.link.settimeout(max(0.1, ends - time.monotonic()))
            with contextlib.suppress(TimeoutError):
                want(self.text() is None, "an answer came without a call")
        self.link.settimeout(LIMIT)
        return self.notices[self.told().index((method, gid))][0]

    def ends(self, seconds=LIMIT):
        """What comes until the other side closes the connection: the frames, and whether it was reset."""
        self.link.settimeout(seconds)
        came = []
        try:
            while True:
                came.append(self.frames.next())
        except EOFError:
            return came, False
        except ConnectionResetError:
            return came, True
        except TimeoutError:
            want_in_time(False, f"the connection was not closed after {seconds} seconds")


def sent_raw(port, *pieces, pause=0, seconds=LIMIT):
    """All that comes for these bytes behind an opening, until the other side closes the connection; and None where it doesn't."""
    with socket.create_connection(("127.0.0.1", port), LIMIT) as link:
        link.setsockopt(socket.IPPROTO_TCP, socket.TCP_NODELAY, 1)
        came = b""
        with contextlib.suppress(ConnectionError):
            for piece in pieces:
                link.sendall(piece)
                time.sleep(pause)
        link.settimeout(seconds)
        try:
            while piece := link.recv(65_536):
                came += piece
        except ConnectionResetError:
            pass
        except TimeoutError:
            return None
        return came


# ---- Debian's python3-websockets

# Asks over as many connections at once as it is told, and prints what each was answered, and the notices that came.
ASKS = """
import asyncio, json, sys
import websockets
port, token, clients, calls = int(sys.argv[1]), sys.argv[2], int(sys.argv[3]), json.loads(sys.argv[4])
async def client():
    answers, notices = [], []
    async with websockets.connect(f"ws://127.0.0.1:{port}/jsonrpc", max_size=None) as socket:
        for place, (method, *params) in enumerate(calls):
            await socket.send(json.dumps({"jsonrpc": "2.0", "id": place, "method": method, "params": [token, *params]}))
            while "id" not in (told := json.loads(await socket.recv())):
                notices.append(told)
            answers.append(told)
        await (await socket.ping(b"still there?"))
        # a message in several frames
        whole = json.dumps({"jsonrpc": "2.0", "id": "cut", "method": "aria2.getVersion", "params": [token]})
        await socket.send(iter([whole[:1], whole[1:20], "", whole[20:]]))
        while "id" not in (told := json.loads(await socket.recv())):
            notices.append(told)
        answers.append(told)
    return {"answers": answers, "notices": notices, "code": socket.close_code}
async def all_of_them():
    return await asyncio.gather(*(client() for _ in range(clients)))
print(json.dumps(asyncio.run(all_of_them())))
"""


def has_websockets():
    ran = subprocess.run([PYTHON, "-c", "import websockets"], capture_output=True, check=False)
    return ran.returncode == 0


def by_websockets(port, clients, calls):
    ran = subprocess.run(
        [PYTHON, "-c", ASKS, str(port), TOKEN, str(clients), json.dumps(calls)], capture_output=True, timeout=LIMIT, check=False
    )
    want(ran.returncode == 0, f"python3-websockets ended with {ran.stderr[-300:]!r}")
    return json.loads(ran.stdout)


# ---- a browser

# Adds a download, and tells the server that gave the page what came, once a notice says that it is complete.
PAGE = """<!doctype html><title>a console</title><script>
const told = [], socket = new WebSocket("ws://127.0.0.1:%d/jsonrpc")
const end = (how) => fetch("/told", { method: "POST", body: JSON.stringify({ how, told }) })
socket.onopen = () => socket.send(JSON.stringify({ jsonrpc: "2.0", id: "add", method: "aria2.addUri", params: [%s, [%s], { out: "b" }] }))
socket.onmessage = (it) => {
    const message = JSON.parse(it.data)
    told.push(message)
    if (message.method === "aria2.onDownloadComplete") { end("complete"); socket.close() }
}
socket.onerror = () => end("error")
</script>"""


def browser():
    return next(filter(None, map(shutil.which, ("chromium", "chromium-browser", "google-chrome"))), None)


class Pages(http.server.BaseHTTPRequestHandler):
    """Gives the one page, and takes what it was told."""

    def do_GET(self):
        self.send_response(200)
        self.send_header("Content-Type", "text/html")
        self.end_headers()
        self.wfile.write(self.server.page.encode())

    def do_POST(self):
        self.server.told.put(json.loads(self.rfile.read(int(self.headers["Content-Length"]))))
        self.send_response(204)
        self.end_headers()

    def log_message(self, *_):
        pass


def by_browser(room, port, url):
    """What a page was told in a browser without a window."""
    server = http.server.ThreadingHTTPServer(("127.0.0.1", 0), Pages)
    server.page, server.told = PAGE % (port, json.dumps(TOKEN), json.dumps(url)), queue.Queue()
    threading.Thread(target=server.serve_forever, daemon=True).start()
    words = ["--headless", "--no-sandbox", "--disable-gpu", "--disable-dev-shm-usage", "--remote-debugging-port=0"]
    quiet = {"stdin": subprocess.DEVNULL, "stdout": subprocess.DEVNULL, "stderr": subprocess.DEVNULL}
    place = f"--user-data-dir={room.path('browser')}"
    started = subprocess.Popen([browser(), *words, place, f"http://127.0.0.1:{server.server_port}/"], start_new_session=True, **quiet)
    try:
        return server.told.get(timeout=2 * LIMIT)
    except queue.Empty:
        raise Late("the page told nothing") from None
    finally:
        with contextlib.suppress(ProcessLookupError):
            os.killpg(started.pid, signal.SIGKILL)
        started.wait()
        server.shutdown()
        server.server_close()
