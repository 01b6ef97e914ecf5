"""The cases of files that the words select."""
from lib.mirrors import Site
from lib.payloads import LONG, MIB, MIB_CLAIMS, PIECE, SMALL, SPREAD, blocks_of, pieces_of, served, want_all_asked
from lib.rooms import BY_MIB, ONCE, case, want_asked
from lib.torrents import whole
from lib.wants import about, want


def with_zeros(payload, pieces, piece_length):
    """The payload where just these pieces came."""
    content = bytearray(len(whole(payload)))
    for piece in pieces:
        at = slice(piece * piece_length, (piece + 1) * piece_length)
        content[at] = whole(payload)[at]
    stands = []
    for path, bits in payload:
        stands.append((path, bytes(content[: len(bits)])))
        del content[: len(bits)]
    return stands


@case("one of two files is selected")
def _(room):
    payload = [("x", LONG[:PIECE]), ("y", LONG[PIECE : 2 * PIECE])]
    with Site(served(payload, "n")) as site:
        room.torrent(site.url(target="/"), payload, "n", PIECE)
        room.ends(0, 2 * PIECE, "n", PIECE, words=["--select-file=2", *ONCE])
        want_asked(site, [("/n/y", 0, PIECE - 1)])
        want(room.get("n/x") == bytes(PIECE) and room.get("n/y") == payload[1][1], "the files aren't as they should be")
        # the other one is all that a run for both lacks
        site.requests.clear()
        room.fetches(payload, "n", anew=False)
        want_asked(site, [("/n/x", 0, PIECE - 1)])


@case("files in one piece come together")
def _(room):
    payload = [("x", b"0123456789"), ("y", b"abcdefghij")]
    for chosen in ("1", "2", "1,2", "1-2"):
        with about(chosen), Site(served(payload)) as site:
            room.torrent(site.url(target="/"), payload)
            room.fetches(payload, words=[f"--select-file={chosen}", *ONCE])
            want_asked(site, [("/a/x", 0, 9), ("/a/y", 0, 9)])


@case("the pieces that selected files touch")
def _(room):
    for text, chosen in (
        ("1", {1}),
        ("2", {2}),
        ("3", {3}),
        ("4", {4}),
        ("5", {5}),
        ("1,5", {1, 5}),
        ("5,1", {1, 5}),
        ("2-3", {2, 3}),
        ("3-9", {3, 4, 5}),
        ("4-5,4,4-4", {4, 5}),
        ("1-1048576", {1, 2, 3, 4, 5}),
        # where no file has such a number all are selected
        ("6", {1, 2, 3, 4, 5}),
        ("7-1048576,9", {1, 2, 3, 4, 5}),
        ("6,2", {2}),
    ):
        for payload, piece_length, words, claimed in ((SMALL, 5, ONCE, {}), (SPREAD, MIB, BY_MIB, MIB_CLAIMS)):
            pieces = pieces_of(payload, chosen, piece_length)
            total = len(whole(payload))
            came = with_zeros(payload, pieces, piece_length)
            completed = sum(min(piece_length, total - it * piece_length) for it in pieces)
            with about(f"{text}, pieces of {piece_length}"), Site(served(payload)) as site:
                room.clear()
                room.torrent(site.url(target="/"), payload, piece_length=piece_length)
                room.ends(0, total, "a", completed, words=[f"--select-file={text}", *words])
                room.has(came)
                want_all_asked(site, payload, piece_length, free=[*blocks_of(pieces, total, piece_length)], **claimed)


@case("selected files of payloads without several")
def _(room):
    with Site({"/a.bin": b"hello"}) as site:
        room.torrent(site.url())
        for text in ("1", "2", "1-3"):
            room.fetches(b"hello", words=[f"--select-file={text}", *ONCE])
        room.unlisted()
        for text in ("1", "2"):
            room.fetches(b"hello", "a.bin", words=[f"--select-file={text}", site.url().decode()])


@case("a file that nobody wants may be missing and wrong")
def _(room):
    payload = [("x", LONG[:PIECE]), ("y", LONG[PIECE : 2 * PIECE]), ("z", LONG[2 * PIECE : 3 * PIECE])]
    for content in (None, b"", payload[1][1][::-1]):
        with Site({**served(payload), "/a/y": content}) as site:
            room.torrent(site.url(target="/"), payload)
            room.clear()
            room.ends(0, 3 * PIECE, "a", 2 * PIECE, words=["--select-file=1,3", *ONCE])
            # each of both is a stretch of its own
            want_asked(site, [("/a/x", 0, PIECE - 1), ("/a/z", 0, PIECE - 1)])
            room.has([payload[0], ("y", bytes(PIECE)), payload[2]])
    # and a wanted one may not
    with Site({**served(payload), "/a/z": payload[2][1][::-1]}) as site:
        room.torrent(site.url(target="/"), payload)
        stands = [payload[0], ("y", bytes(PIECE)), ("z", payload[2][1][::-1])]
        room.fails(32, payload, PIECE, stands=stands, words=["--select-file=1,3", *ONCE])
