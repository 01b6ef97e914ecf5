"""The cases of limits of the speed."""
import time

from lib.mirrors import Site
from lib.payloads import MIB, noise, want_all_asked
from lib.rooms import PLAIN, case
from lib.wants import about, want, want_within

KIB = 1_024


def took(room, payload, *words, site):
    """How long a run with these words takes, in seconds."""
    room.clear()
    site.requests.clear()
    begun = time.monotonic()
    room.fetches(payload, words=[*words, *PLAIN])
    return time.monotonic() - begun


# A bucket holds the bytes of a second, and is full at first: so of eleven seconds' bytes the last ten take their time. Where
# it takes twelve seconds the speed is a tenth below the limit.
for _words, _rate in (
    (["--max-download-limit=100K"], 100 * KIB),
    (["--max-overall-download-limit=500K"], 500 * KIB),
    (["--max-download-limit=300K", "--max-overall-download-limit=200K"], 200 * KIB),
    (["--max-download-limit=204800", "--max-overall-download-limit=4095M"], 200 * KIB),
):

    @case(f"bytes come as fast as {' and '.join(_words)} allows", slow=True)
    def _(room, words=_words, rate=_rate):
        payload = noise(11 * rate)
        with Site({"/a": payload}) as site:
            room.torrent(site.url(target="/"), payload, piece_length=MIB)
            seconds = took(room, payload, *words, site=site)
            want_all_asked(site, payload, MIB)
        want(seconds > 9.9, f"it took only {seconds:.2f} seconds")
        want_within(seconds, 12.2)


@case("a limit that is far away costs no time")
def _(room):
    payload = noise(4 * MIB)
    with Site({"/a": payload}) as site:
        room.torrent(site.url(target="/"), payload, piece_length=MIB)
        far = ["--max-download-limit=4M", "--max-overall-download-limit=4095M"]
        for words in ([], ["--max-download-limit=0"], far):
            with about(f"{words}"):
                seconds = took(room, payload, *words, site=site)
                want_within(seconds, 8)


@case("a limit below a block a second", slow=True)
def _(room):
    # a bucket holds a block at least
    payload = noise(24_576)
    with Site({"/a": payload}) as site:
        room.torrent(site.url(target="/"), payload)
        seconds = took(room, payload, "--max-download-limit=1K", site=site)
        want(seconds > 8, f"it took only {seconds:.2f} seconds")
        want_within(seconds, 10)
