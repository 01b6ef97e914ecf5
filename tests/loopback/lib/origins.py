"""The program as an HTTP origin, and clients of it."""
import os
import re
import signal
import socket
import subprocess
import time
from urllib.parse import quote

from lib.consoles import exchanged, wait_for
from lib.mirrors import free_port, rest_of
from lib.rooms import LIMIT, PROGRAM
from lib.wants import Late, want

# So many clients are served at once.
DOORS = 4

OK = b"200 OK"
PARTIAL = b"206 Partial Content"
BAD_REQUEST = b"400 Bad Request"
NOT_FOUND = b"404 Not Found"
NOT_ALLOWED = b"405 Method Not Allowed"
FAILED = b"500 Internal Server Error"
OUTSIDE = b"416 Range Not Satisfiable"

TYPE = b"Content-Type: application/octet-stream"
RANGES = b"Accept-Ranges: bytes"
NONE = b"Content-Length: 0"


def reply(status, *fields, content=b""):
    """The bytes of a reply."""
    return b"".join(b"%s\r\n" % it for it in (b"HTTP/1.1 " + status, *fields)) + b"\r\n" + content


def whole(content, is_head=False):
    """The reply with all of a file."""
    return reply(OK, TYPE, RANGES, b"Content-Length: %d" % len(content), content=b"" if is_head else content)


def part(content, first, last):
    """The reply with the bytes from one to another, with both."""
    told = b"Content-Range: bytes %d-%d/%d" % (first, last, len(content))
    return reply(PARTIAL, TYPE, RANGES, told, b"Content-Length: %d" % (last + 1 - first), content=content[first : last + 1])


def outside(content):
    """The reply to a range without a byte of the file."""
    return reply(OUTSIDE, b"Content-Range: bytes */%d" % len(content), NONE)


def refused(status):
    """The reply that refuses a request."""
    return reply(status, *([b"Allow: GET, HEAD"] if status == NOT_ALLOWED else []), NONE)


def asking(target=b"/f", *fields, method=b"GET", version=b"HTTP/1.1"):
    """The bytes of a request."""
    lines = [b"%s %s %s" % (method, target, version), b"Host: 127.0.0.1", *fields, b""]
    return b"".join(b"%s\r\n" % it for it in lines)


class Origin:
    """The program, which serves a folder of the room until it is stopped.

    A line of shell may come first, another command begin it all.
    """

    def __init__(self, room, files=None, folder="served", shell="", within=()):
        self.room = room
        self.folder = folder
        self.port = free_port("127.0.0.1")
        begin = ["sh", "-c", f'{shell}\nexec "$@"', "sh"] if shell else []
        self.words = [*within, *begin, PROGRAM, f"--serve-dir={folder}", f"--rpc-listen-port={self.port}"]
        os.makedirs(room.path(folder), exist_ok=True)
        for name, content in (files or {}).items():
            room.put(f"{folder}/{name}", content)

    def __enter__(self):
        self.started = subprocess.Popen(
            self.words, cwd=self.room.folder, stdin=subprocess.DEVNULL, stdout=subprocess.PIPE, stderr=subprocess.PIPE
        )
        wait_for(self.port, self.started)
        return self

    def __exit__(self, kind, *_):
        ended = self.started.poll()
        self.started.kill()
        wrote, said = self.started.communicate()
        if kind is None:
            want(ended is None, f"it ended with {ended}")
            self.tells(wrote, said)

    def tells(self, wrote, said):
        """It wrote nothing, and said where it serves what."""
        want(wrote == b"", f"it wrote {wrote[:200]!r}")
        right = f"aria_cli: the files below {self.folder} are served at http://127.0.0.1:{self.port}/\n"
        want(said == right.encode(), f"it said {said[:300]!r}, and not {right!r}")

    def interrupted(self):
        """How it ends by ^C."""
        self.started.send_signal(signal.SIGINT)
        try:
            wrote, said = self.started.communicate(timeout=LIMIT)
        except subprocess.TimeoutExpired:
            raise Late(f"it had not ended {LIMIT} seconds behind ^C") from None
        self.tells(wrote, said)
        return self.started.returncode

    def most_memory(self):
        """The most bytes of memory that it has had."""
        with open(f"/proc/{self.started.pid}/status", encoding="ascii") as it:
            return int(re.search(r"VmHWM:\s+(\d+) kB", it.read())[1]) << 10

    def path(self, name):
        return self.room.path(f"{self.folder}/{name}")

    def url(self, name="f"):
        return f"http://127.0.0.1:{self.port}/{quote(name)}"

    def told(self, sent, pause=None):
        """All that comes for these bytes."""
        return exchanged(self.port, sent, pause)

    def dribbled(self, sent):
        """All that comes for these bytes, each of which is sent by itself, as fast as it goes."""
        with self.connected() as link:
            link.setsockopt(socket.IPPROTO_TCP, socket.TCP_NODELAY, 1)
            for at in range(len(sent)):
                link.sendall(sent[at : at + 1])
            link.shutdown(socket.SHUT_WR)
            return rest_of(link)

    def connected(self):
        return socket.create_connection(("127.0.0.1", self.port), LIMIT)

    def deaf(self, target):
        """A connection that asks for a file, and reads none of it. The system takes little of it either."""
        link = socket.socket()
        link.setsockopt(socket.SOL_SOCKET, socket.SO_RCVBUF, 65_536)
        link.connect(("127.0.0.1", self.port))
        link.sendall(asking(target))
        return link

    def wants(self, sent, right, pause=None):
        """Just these bytes come for those."""
        came = self.told(sent, pause)
        want(came == right, f"{sent[:100]!r} is answered by {came[:300]!r}, and not by {right[:300]!r}")


def curled(*words, status=0):
    """The status line, the fields in their order, and the content of a reply, as curl gets it."""
    ran = subprocess.run(["curl", "-sS", "-i", "--max-time", str(LIMIT), *words], capture_output=True, check=False)
    want(ran.returncode == status, f"curl ended with {ran.returncode}: {ran.stderr[:200]!r}")
    begin, _, rest = ran.stdout.partition(b"\r\n\r\n")
    first, *fields = begin.split(b"\r\n")
    return first, fields, rest


def fetched(room, *words, status=0):
    """What a client that fetches files wrote, in the room."""
    try:
        ran = subprocess.run(words, cwd=room.folder, stdin=subprocess.DEVNULL, capture_output=True, timeout=LIMIT, check=False)
    except subprocess.TimeoutExpired:
        raise Late(f"{words[0]} had not ended after {LIMIT} seconds") from None
    want(ran.returncode == status, f"{words[0]} ended with {ran.returncode}: {ran.stderr[-300:]!r}")
    return ran.stdout + ran.stderr


def statuses(came):
    """The status of each reply of those that have no content."""
    return [int(it) for it in re.findall(rb"HTTP/1\.1 (\d+) ", came)]


def waits_for(link, most, seconds=LIMIT):
    """So many bytes that come, or all up to the end."""
    came = b""
    end = time.monotonic() + seconds
    while len(came) < most:
        link.settimeout(max(end - time.monotonic(), 0.01))
        try:
            more = link.recv(65_536)
        except TimeoutError:
            raise Late(f"only {len(came)} bytes came") from None
        if not more:
            break
        came += more
    return came
