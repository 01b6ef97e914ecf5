"""Replies with a front of what was asked for, and with the rest of it."""
from lib.mirrors import head, reply, sends, sends_and_resets, sends_byte_by_byte
from lib.recording import CHUNKED, in_chunks, interims, range_field, whole

# Replies with `he`, which the rest is asked for behind.
FRONT = reply(b"he", total=5)
FRONTS = [
    ("with a length", FRONT),
    ("in chunks", head(b"Content-Range: bytes 0-1/5", CHUNKED) + in_chunks(b"he", 1)),
    ("up to the end of the connection", sends(head(b"Content-Range: bytes 0-1/5") + b"he")),
    ("and no total", head(b"Content-Range: bytes 0-1/*", b"Content-Length: 2") + b"he"),
    ("and more behind it", FRONT + b"LLO" + reply(b"LLO", first=2, total=5)),
    ("and more in its chunk", head(b"Content-Range: bytes 0-1/5", CHUNKED) + in_chunks(b"heLLO")),
    ("and the mirror closes", sends(FRONT)),
    ("byte by byte, after an interim head", sends_byte_by_byte(interims(1) + FRONT)),
]
# Those behind which the connection stays: a request that nothing comes of there goes once more on a new one.
STAYING = {"with a length", "and no total"}
# Replies with the rest, and replies with something else and how the run ends.
RIGHT = [
    (0, "with the rest", reply(b"llo", first=2, total=5)),
    (0, "with the whole file", whole(b"hello")),
    (0, "with the rest to the end", sends(head(range_field(2, 4, 5)) + b"llo")),
]
LOST = [
    (3, "with 404", head(status=b"404 Not Found")),
    (24, "with 401", head(status=b"401 Unauthorized")),
    (29, "with 503", head(status=b"503 Service Unavailable")),
    (22, "with 500", head(status=b"500 Internal Server Error")),
    (22, "with the same part", FRONT),
    (22, "with all of them", reply(b"hello")),
    (22, "with bytes that were skipped", reply(b"lo", first=3, total=5)),
    (22, "of another total", reply(b"llo", first=2, total=6)),
    (6, "with nothing", sends(b"")),
    (6, "with less than its length", sends(reply(b"llo", first=2, total=5)[:-1])),
    (6, "with a reset", sends_and_resets(reply(b"llo", first=2, total=5)[:-1])),
    (32, "with other bytes", reply(b"LLO", first=2, total=5)),
]
# What stands on the disk behind those other bytes.
OTHER = b"heLLO"


def in_steps(asked, step):
    """What is asked for where so many bytes come at a time."""
    return [(target, at, last) for target, first, last in asked for at in range(first, last + 1, step)]
