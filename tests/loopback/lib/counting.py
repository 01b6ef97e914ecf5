"""Mirrors that count the connections that stand open, one that has a single thread, and one that turns others away."""
import contextlib
import http.server
import re
import select
import socket
import threading
import time

from lib.killing import Slow
from lib.mirrors import Site, head


class Counting(Slow):
    """Keeps the moments at which connections began and ended, by what it was told of them: one that rests stands too."""

    def __init__(self, files, rate=None):
        super().__init__(files, rate)
        self.moments, self.change = [], threading.Lock()

    def note(self, more):
        with self.change:
            self.moments.append((time.monotonic(), more))

    def attend(self, connection):
        self.note(1)
        try:
            super().attend(connection)
        finally:
            self.note(-1)

    def standing(self):
        with self.change:
            return sum(more for _, more in self.moments)


def longest_above(mirrors, most):
    """The seconds for which more connections than so many stood open at these mirrors together, at a stretch."""
    moments = sorted(it for mirror in mirrors for it in mirror.moments)
    longest, standing, since = 0, 0, None
    for at, more in moments:
        standing += more
        if standing > most:
            since = at if since is None else since
        elif since is not None:
            longest, since = max(longest, at - since), None
    return longest if since is None else max(longest, time.monotonic() - since)


def has_ended(connection):
    """Whether the other side closed it, and nothing waits to be read there."""
    with contextlib.suppress(BlockingIOError):
        try:
            return connection.recv(1, socket.MSG_PEEK | socket.MSG_DONTWAIT) == b""
        except ConnectionError:
            return True
    return False


class OneEach(Site):
    """Serves one connection at a time, and answers 503 over each other one."""

    def __init__(self, files):
        super().__init__(files)
        self.served, self.change, self.turned_away = None, threading.Lock(), 0

    def is_free(self):
        if self.served is None or self.served.fileno() < 0:
            return True
        # the end of the one before may be a moment behind
        return bool(select.select([self.served], [], [], 0.01)[0]) and has_ended(self.served)

    def converse(self, connection):
        with self.change:
            is_served = self.is_free()
            if is_served:
                self.served = connection
            else:
                self.turned_away += 1
        if is_served:
            super().converse(connection)
            return
        connection.recv(65536)
        connection.sendall(head(b"Content-Length: 0", b"Connection: close", status=b"503 Service Unavailable"))


class Ranges(http.server.BaseHTTPRequestHandler):
    """Gives ranges of one payload, and keeps its connections."""

    protocol_version = "HTTP/1.1"
    payload = b""

    def do_GET(self):
        first, last = map(int, re.fullmatch(r"bytes=(\d+)-(\d+)", self.headers["Range"]).groups())
        content = self.payload[first : last + 1]
        self.send_response(206)
        self.send_header("Content-Range", f"bytes {first}-{first + len(content) - 1}/{len(self.payload)}")
        self.send_header("Content-Length", str(len(content)))
        self.end_headers()
        self.wfile.write(content)

    def log_message(self, *_):
        pass


@contextlib.contextmanager
def one_thread(payload):
    """The URL of a payload at a server of Python that has one thread: it serves a connection until that ends, and then the next."""
    handler = type("Handler", (Ranges,), {"payload": payload})
    with http.server.HTTPServer(("127.0.0.1", 0), handler) as server:
        thread = threading.Thread(target=server.serve_forever, args=(0.01,), daemon=True)
        thread.start()
        yield f"http://127.0.0.1:{server.server_address[1]}/a.bin".encode()
        # a connection that still stands would keep it
        threading.Thread(target=server.shutdown, daemon=True).start()
        thread.join(1)
