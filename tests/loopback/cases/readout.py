"""The cases of the line of progress."""
import os
import pty
import re
import subprocess
import threading
import time

from lib.killing import Slow
from lib.payloads import MIB, noise
from lib.rooms import HEADER, PROGRAM, case
from lib.wants import want, want_in_time

# A line is drawn over the one before it.
CLEARED = b"\r\x1b[K"
LINE = re.compile(rb"\[([0-9.]+)([KM]i)?B(?:/4\.0MiB\((\d+)%\))? CN:(\d) DL:[0-9.]+(?:[KM]i)?B(?: ETA:(?:\d+m)?\d+s)?\]")


def shown_on_a_terminal(room, *words):
    """What a run on these words writes to a terminal as its standard error, and to its standard output, with its status. It is told in
    parts, each with the moment at which it came.
    """
    ours, its = pty.openpty()
    drawn = []

    def read():
        try:
            while part := os.read(ours, 4096):
                drawn.append((time.monotonic(), part))
        except OSError:
            pass  # nobody has the other end open any more

    started = subprocess.Popen([PROGRAM, *words], cwd=room.folder, stdin=subprocess.DEVNULL, stdout=subprocess.PIPE, stderr=its)
    os.close(its)
    reader = threading.Thread(target=read, daemon=True)
    reader.start()
    try:
        wrote, _ = started.communicate(timeout=30)
    finally:
        if started.poll() is None:
            started.kill()
            started.communicate()
    reader.join(5)
    os.close(ours)
    return drawn, wrote, started.returncode


def joined(drawn):
    """All that was drawn."""
    return b"".join(part for _, part in drawn)


@case("a line of progress on a terminal", slow=True)
def _(room):
    payload = noise(4 * MIB)
    for count in (1, 4):
        room.clear()
        with Slow({"/a.bin": payload}, MIB // 2 // count) as site:
            room.torrent(site.url(), payload, piece_length=MIB // 4)
            words = [f"--split={count}", "--max-connection-per-server=4", "--min-split-size=1M", "t.torrent"]
            drawn, wrote, status = shown_on_a_terminal(room, *words)
        want(status == 0 and wrote.startswith(HEADER), f"status {status}, output {wrote!r}")
        room.has(payload)
        front, *lines = joined(drawn).split(CLEARED)
        want(front == b"", f"it began with {front!r}")
        want(lines[-1] == b"", f"it drew {lines}")
        want_in_time(4 <= len(lines) <= 14, f"it drew {lines}")
        percents, most = [], 0
        for it in lines[:-1]:
            fields = LINE.fullmatch(it)
            want(fields, f"it drew {it!r}")
            percents.append(int(fields[3] or 0))
            most = max(most, int(fields[4]))
        # what four connections bring at the same speed is written at the same time
        least = 50 if count == 1 else 0
        want(percents == sorted(percents), f"it drew {lines}")
        want_in_time(percents[-1] >= least, f"it drew {lines}")
        want(most <= count, f"it drew {most} connections of {count}")
        want_in_time(most == count, f"it drew {most} connections of {count}")


# The bytes of a line of progress.
SHOWN = re.compile(rb"\r\x1b\[K\[([0-9.]+)(|Ki|Mi)B")
UNITS = {b"": 1, b"Ki": 1 << 10, b"Mi": 1 << 20}


@case("a line of progress rises every two seconds where bytes come slowly", slow=True)
def _(room):
    payload = noise(400_000)
    with Slow({"/a.bin": payload}, 40_000) as site:
        room.torrent(site.url(), payload, piece_length=MIB // 4)
        begun = time.monotonic()
        drawn, wrote, status = shown_on_a_terminal(room, "t.torrent")
        ended = time.monotonic()
    want(status == 0, f"status {status}, output {wrote!r}")
    want_in_time(ended - begun > 8, f"it took {ended - begun:.1f} seconds")
    most, since, longest = 0, begun, 0
    for at, part in drawn:
        for number, unit in SHOWN.findall(part):
            if float(number) * UNITS[unit] > most:
                most, since, longest = float(number) * UNITS[unit], at, max(longest, at - since)
    longest = max(longest, ended - since)
    want(most > 0.75 * len(payload), f"{most} bytes were shown at most")
    want_in_time(longest < 2.1, f"nothing more was shown for {longest:.2f} seconds")


@case("no line of progress on a terminal where the words have no meaning")
def _(room):
    drawn, wrote, status = shown_on_a_terminal(room, "--split=65", "t.torrent")
    want((wrote, status) == (b"error 28\n", 28), f"status {status}, output {wrote!r}")
    want(CLEARED not in joined(drawn), f"it drew {drawn!r}")
