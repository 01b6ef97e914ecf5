"""A mirror that is slow, runs that are killed in the midst, and what they leave."""
import signal
import time

from lib import controls
from lib.controls import BLOCK
from lib.mirrors import Site, one_request
from lib.recording import asked_by
from lib.wants import want, want_in_time

# How many bytes it gives at once.
PORTION = 8_192


class Slow(Site):
    """Gives so many bytes of content a second on each connection, or as many as it can."""

    def __init__(self, files, rate=None):
        super().__init__(files)
        self.rate = rate

    def converse(self, connection):
        while asked := one_request(connection):
            self.requests.append(asked)
            answer, rate = self.answer(asked), self.rate
            if rate is None:
                connection.sendall(answer)
                continue
            begun = time.monotonic()
            for at in range(0, len(answer), PORTION):
                connection.sendall(answer[at : at + PORTION])
                time.sleep(max(0, begun + at / rate - time.monotonic()))

    def blocks(self):
        """The blocks of its one file that it was asked for, whose pieces are of whole blocks."""
        found = set()
        for it in self.requests:
            _, first, last = asked_by(it)
            found |= set(range(first // BLOCK, last // BLOCK + 1))
        return found


def killed(room, *words, after=0, when=lambda: True, by=signal.SIGKILL):
    """A run on these words is sent a signal, once so many seconds have passed and something is so, and ends by it.

    Told is how many seconds that took.
    """
    begun = time.monotonic()
    started = room.start(*words)
    try:
        time.sleep(after)
        while not when():
            want_in_time(time.monotonic() - begun < 30, "what was waited for didn't come")
            time.sleep(0.02)
        passed = time.monotonic() - begun
        want_in_time(started.poll() is None, f"it had ended, with {started.poll()}")
        started.send_signal(by)
        wrote, said = started.communicate(timeout=30)
    finally:
        if started.poll() is None:
            started.kill()
            started.communicate()
    want_in_time(started.returncode != 0, "it had ended")
    ended = (started.returncode, wrote, said)
    want(ended == (-by, b"", b""), f"it ended with {ended}")
    return passed


def listed_of(room, payload, name="a"):
    """The blocks that a control file lists, each of which stands with the bytes of the payload; none without one."""
    content = room.get(f"{name}.aria2")
    if content is None:
        return set()
    listed = controls.blocks_of(controls.read(content))
    found = {block for block, is_listed in enumerate(listed) if is_listed}
    stands = room.get(name)
    for block in found:
        at = slice(block * BLOCK, (block + 1) * BLOCK)
        want(stands[at] == payload[at], f"block {block} is listed, and isn't that of the payload")
    return found
