"""aria2 beside the program: it is stopped in the midst of a download, and goes on with one."""
import signal
import subprocess
import threading
import time

from lib.mirrors import Site, one_request, rest_of
from lib.wants import want, want_in_time

# The first port that aria2 tries is taken where another one of it runs, and then it takes the next.
ARIA2 = [
    "aria2c",
    "--no-conf",
    "--quiet",
    "--enable-dht=false",
    "--enable-dht6=false",
    "--bt-enable-lpd=false",
    "--enable-peer-exchange=false",
    "--seed-time=0",
    "--file-allocation=none",
]


class Stalling(Site):
    """Gives so many bytes of content, and then no more."""

    def __init__(self, files, most):
        super().__init__(files)
        self.left, self.lock = most, threading.Lock()

    def converse(self, connection):
        while asked := one_request(connection):
            self.requests.append(asked)
            begin, _, content = self.answer(asked).partition(b"\r\n\r\n")
            with self.lock:
                given = content[: self.left]
                self.left -= len(given)
            connection.sendall(begin + b"\r\n\r\n" + given)
            if len(given) < len(content):
                rest_of(connection)
                return


def interrupted(room, payload, most, piece_length):
    """aria2 fetches so many bytes of the payload in the room, and is stopped then. Told is its control file."""
    with Stalling({"/a.bin": payload}, most) as site:
        room.torrent(site.url(), payload, b"a", piece_length)
        started = subprocess.Popen(
            [*ARIA2, "t.torrent"], cwd=room.folder, stdin=subprocess.DEVNULL, stdout=subprocess.DEVNULL
        )
        try:
            ends = time.monotonic() + 20
            while site.left > 0:
                want_in_time(time.monotonic() < ends, f"aria2 had not asked for {most} bytes")
                time.sleep(0.05)
            # what was sent comes a moment later
            time.sleep(2)
            started.send_signal(signal.SIGINT)
            started.wait(30)
        finally:
            if started.poll() is None:
                started.kill()
                started.wait()
    content = room.get("a.aria2")
    want(content is not None, "aria2 left no control file")
    return content
