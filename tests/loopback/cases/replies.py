"""The cases of one reply: what is taken, in whatever way it comes, and what isn't."""
from lib.mirrors import LENGTH, RANGE, head, reply, sends, sends_and_resets, sends_byte_by_byte, sends_for_ever
from lib.payloads import LONG, MIB, SMALL, served, want_all_asked
from lib.recording import CHUNKED, MANNERS, OK, Recording, by_manner, in_chunks, interims, part
from lib.rooms import BY_MIB, LITTLE, case, want_asked
from lib.wants import about, want

# Replies to a request for all of `hello`. They are taken once its bytes came, whatever comes behind those.

NOT_FOUND = b"404 Not Found"
TAKEN = [
    ("a part", reply(b"hello")),
    ("a part in one chunk", head(RANGE, CHUNKED) + in_chunks(b"hello")),
    ("a part in chunks of a byte", head(RANGE, CHUNKED) + in_chunks(b"hello", 1)),
    (
        "a part in chunks, with extensions and trailers",
        head(RANGE, CHUNKED) + in_chunks(b"hello", 3, extension=b';a="b"', trailers=[b"X: y", b"Age: 9"]),
    ),
    ("a part up to the end of the connection", head(RANGE) + b"hello"),
    ("a whole file", head(LENGTH, status=OK) + b"hello"),
    ("a whole file in chunks", head(CHUNKED, status=OK) + in_chunks(b"hello", 2)),
    ("a whole file up to the end of the connection", head(status=OK) + b"hello"),
    ("a part after interim heads", interims(1) + interims(1, b"Content-Length: 9", CHUNKED) + reply(b"hello")),
]


def takes(room, serve):
    """The run takes the reply, and asks once."""
    with Recording([serve]) as mirror:
        room.torrent(mirror.url())
        room.fetches(b"hello", shell=LITTLE)
        want_asked(mirror, [("/a.bin", 0, 4)])


def refuses(room, status, serve, **how):
    """The run ends with this status, and asks once."""
    with Recording([serve]) as mirror:
        room.torrent(mirror.url())
        room.fails(status, shell=LITTLE, **how)
        want_asked(mirror, [("/a.bin", 0, 4)])


for _name, _bytes in TAKEN:

    @case(f"a reply of {_name}")
    def _(room, whole=_bytes):
        for name, serve in (
            ("and the connection stays", whole),
            ("and the mirror closes", sends(whole)),
            ("and what belongs to nothing", sends(whole + b"\r\n0\r\n" + reply(b"HELLO"))),
            ("and what never ends", sends_for_ever(whole, b"x" * 65_536)),
            ("byte by byte", sends_byte_by_byte(whole)),
        ):
            with about(name):
                takes(room, serve)

    @case(f"a reply of {_name}, cut at each byte")
    def _(room, whole=_bytes):
        enough = whole.rindex(b"o") + 1
        with Recording(None) as mirror:
            room.torrent(mirror.url())
            for length in range(len(whole) + 1):
                mirror.script = lambda _, length=length: sends(whole[:length])
                with about(f"after {length} bytes"):
                    if length < enough:
                        room.fails(6)
                    else:
                        room.fetches(b"hello")
            want(len(mirror.requests) == len(whole) + 1, f"{len(mirror.requests)} requests came")


LARGEST = b"ffffffff\r\nhello"
UNUSUAL = [
    ("chunked in capitals", head(RANGE, b"TRANSFER-ENCODING: ChunkeD") + in_chunks(b"hello")),
    ("in chunks, with another length", head(RANGE, CHUNKED, b"Content-Length: 7") + in_chunks(b"hello")),
    ("whole, in chunks, with another length", head(CHUNKED, b"Content-Length: 7", status=OK) + in_chunks(b"hello")),
    ("in a chunk whose size has zeros", head(RANGE, CHUNKED) + b"0000000000005\r\nhello\r\n0\r\n\r\n"),
    ("in the largest chunk", head(RANGE, CHUNKED) + LARGEST),
    ("in the largest chunk, in capitals", head(RANGE, CHUNKED) + LARGEST.upper().replace(b"HELLO", b"hello")),
    ("with a size line of 256 bytes", head(RANGE, CHUNKED) + b"5;%s\r\nhello" % (b"x" * 254)),
    ("with a bad chunk behind the bytes", head(RANGE, CHUNKED) + b"5\r\nhello, world"),
    ("with the same length twice", head(RANGE, LENGTH, LENGTH) + b"hello"),
    ("with zeros before its numbers", head(b"Content-Range: bytes 00-04/005", b"Content-Length: 0005") + b"hello"),
    ("with an encoding that changes nothing", head(RANGE, LENGTH, b"Content-Encoding: IDENTITY") + b"hello"),
    ("of a total that isn't told", head(b"Content-Range: bytes 0-4/*", CHUNKED) + in_chunks(b"hello")),
    ("whole, with a range that doesn't count", head(b"Content-Range: bytes 1-2/9", LENGTH, status=OK) + b"hello"),
    ("whole, with a place that doesn't count", head(b"Location: /b", LENGTH, status=OK) + b"hello"),
    ("whole, and longer", head(status=OK) + b"hello, world"),
    ("of HTTP/1.0", b"HTTP/1.0 200 OK\r\nServer: x\r\n\r\nhello"),
    ("without a reason", b"HTTP/1.1 206\r\n%s\r\n%s\r\n\r\nhello" % (RANGE, LENGTH)),
    ("after empty lines", b"\r\n\r\n" + reply(b"hello")),
    ("after a switch that nobody asked for", head(status=b"101 Switching Protocols") + reply(b"hello")),
]


@case("replies that are unusual")
def _(room):
    for name, whole in UNUSUAL:
        with about(f"one {name}"):
            takes(room, whole)


@case("up to 8 interim heads")
def _(room):
    for count in range(1, 9):
        with about(f"{count} of them"):
            takes(room, interims(count) + reply(b"hello"))


def padded(length, *fields, status):
    """A head of so many bytes."""
    return head(*fields, b"X: " + b"y" * (length - len(head(*fields, b"X: ", status=status))), status=status)


@case("heads of the most bytes and fields")
def _(room):
    for name, before in (("none", b""), ("8 long ones", padded(65_536, status=b"100 Continue") * 8)):
        for status, fields in ((OK, [LENGTH]), (b"206 Partial Content", [RANGE, LENGTH])):
            with about(f"{status.decode()}, before it {name}"):
                takes(room, before + padded(65_536, *fields, status=status) + b"hello")
                takes(room, before + head(*fields, *[b"X: y"] * (64 - len(fields)), status=status) + b"hello")
    takes(room, interims(8, *[b"X: y"] * 64) + reply(b"hello"))


# What is neither 200 nor 206 nor a redirect to one place is refused by its status, whatever else its head says.
STATUSES = {
    3: [404],
    22: [201, 203, 204, 205, 226, 299, 300, 304, 305, 306, 400, 403, 405, 408, 410, 416, 418, 429, 500, 502, 504, 599],
    24: [401],
    29: [503],
}
for _status, _codes in STATUSES.items():

    @case(f"replies for which the status is {_status}")
    def _(room, status=_status, codes=_codes):
        for code in codes:
            line = b"%d Some" % code
            for name, whole in (
                ("with right bytes", head(RANGE, LENGTH, status=line) + b"hello"),
                ("with no field", head(status=line)),
                ("with a place", head(b"Location: /b", b"Content-Length: 0", status=line)),
                ("with bad framing", head(LENGTH, b"Content-Length: 6", CHUNKED, CHUNKED, status=line)),
                ("compressed", head(LENGTH, b"Content-Encoding: gzip", status=line)),
                ("after an interim head", interims(1) + head(b"Content-Length: 0", status=line)),
            ):
                with about(f"{code} {name}"):
                    refuses(room, status, whole)


# These end with status 22. The size of a chunk is below 2^32, its line has at most 256 bytes, and there are at most
# 64 trailers of 256 bytes; the only coding is chunked, and the only encoding identity; a part tells one range, which
# begins with the first byte asked for and ends with the last or before; and what is told of lengths is right. `hello`
# comes behind each.
BAD_CHUNKS = [
    ("of no size", b"\r\n"),
    ("of an extension alone", b";a\r\n"),
    ("of a size that is a word", b"five\r\n"),
    ("of a size in hexadecimal, with its sign", b"0x5\r\n"),
    ("of a size with a plus sign", b"+5\r\n"),
    ("of a size below zero", b"-5\r\n"),
    ("of a size behind a blank", b" 5\r\n"),
    ("of a size before a blank", b"5 \r\n"),
    ("of a size line that ends with LF", b"5\n"),
    ("of a size line that ends with CR", b"5\rx"),
    ("of 2^32 bytes", b"100000000\r\n"),
    ("of 2^64 + 5 bytes", b"10000000000000005\r\n"),
    ("of a size line of 257 bytes", b"5;%s\r\n" % (b"x" * 255)),
    ("of a size line that never ends", b"5;%s" % (b"x" * 100_000)),
    ("that is longer than its size", b"1\r\nhe\r\n4\r\n"),
    ("that is shorter than its size", b"3\r\nhe\r\n3\r\n"),
    ("that ends with LF", b"1\r\nh\n4\r\n"),
    ("that ends without a line's end", b"1\r\nh4\r\n"),
    ("of none, with 65 trailers", b"0\r\n" + b"X: y\r\n" * 65 + b"\r\n"),
    ("of none, with a trailer of 257 bytes", b"0\r\nX: %s\r\n\r\n" % (b"y" * 254)),
]
ENCODINGS = [[b"gzip"], [b"br"], [b"identity, gzip"], [b"identity", b"gzip"], [b""], [b"x"]]
CODINGS = [[b"gzip"], [b"identity"], [b"gzip, chunked"], [b"chunked, chunked"], [b"chunked"] * 2, [b""], [b"chunked;x"]]
RANGES = [
    *[b"0-4/4", b"0-4/6", b"0-4/4294967301", b"0-5/5", b"0-5/6", b"0-5/*", b"1-4/5", b"1-4/*", b"1-5/6", b"4-0/5"],
    *[b"", b"*/*", b"*/5", b"0-4", b"0-4/", b"0-/5", b"-4/5", b"0--4/5", b"+0-4/5", b"0-4/-5", b"0-4/*5", b"0-0x4/5"],
    *[b" 0-4/5", b"0 - 4/5", b"0-4/ 5", b"0-4,0-4/5", b"0-4/18446744073709551621", b"0-18446744073709551620/5"],
]
LENGTHS = [
    *[b"0", b"4", b"6", b"4294967301", b"9223372036854775808", b"18446744073709551621"],
    *[b"-5", b"+5", b"5.0", b"0x5", b"5, 5", b"5 5", b"", b"five"],
]


def bad_replies():
    for name, chunk in BAD_CHUNKS:
        for status, field in ((OK, b"X: y"), (b"206 Partial Content", RANGE)):
            yield f"a chunk {name}, after {status.decode()}", head(field, CHUNKED, status=status) + chunk
    for values in ENCODINGS:
        fields = [b"Content-Encoding: " + it for it in values]
        yield f"a part with {fields}", head(RANGE, LENGTH, *fields)
        yield f"a whole file with {fields}", head(LENGTH, *fields, status=OK)
    for values in CODINGS:
        fields = [b"Transfer-Encoding: " + it for it in values]
        yield f"a part with {fields}", head(RANGE, *fields) + b"5\r\n"
        yield f"a whole file with {fields}", head(*fields, status=OK) + b"5\r\n"
    for value in RANGES:
        field = b"Content-Range: bytes " + value
        yield f"a part with {field}", head(field, LENGTH)
        yield f"a part in chunks with {field}", head(field, CHUNKED) + b"5\r\n"
        yield f"a part up to the end of the connection with {field}", head(field)
    yield "a part with two ranges", head(RANGE, RANGE)
    yield "a part with ranges in parts", head(b"Content-Type: multipart/byteranges; boundary=x") + b"--x\r\n\r\n"
    for value in LENGTHS:
        field = b"Content-Length: " + value
        yield f"a part with {field}", head(RANGE, field)
        yield f"a whole file with {field}", head(field, status=OK)
        yield f"a whole file with two lengths, one {field}", head(LENGTH, field, status=OK)


@case("bad chunks, encodings, ranges and lengths")
def _(room):
    for name, whole in bad_replies():
        with about(name):
            refuses(room, 22, whole + b"hello" + b"\r\n0\r\n\r\n")


GARBAGE = [
    b"hello\r\n\r\n",
    b"<!doctype html>\n",
    b"\0",
    b"\x15\x03\x01\0\x02\x02\x46",
    b"SSH-2.0-x\r\n",
    b"ICY 200 OK\r\n\r\n",
    b"http/1.1 200 OK\r\n\r\n",
    b"HTTP/2.0 200 OK\r\n\r\n",
    b"HTTP/1.1 20x OK\r\n\r\n",
    b"HTTP/1.1 2000 OK\r\n\r\n",
    b"HTTP/1.1 20\r\n\r\n",
    b"HTTP/1.1  200 OK\r\n\r\n",
    b"GET / HTTP/1.1\r\n\r\n",
    head(b": x"),
    head(b"X"),
    head(b"X : y"),
    head(b"X: \0"),
]
# At most 8 interim heads come before the final one, and each has at most 65,536 bytes and 64 fields.
NO_HEADS = [
    ("a ninth interim head", interims(9)),
    ("a ninth interim head, and then a right reply", interims(9) + reply(b"hello")),
    ("65 fields of an interim head", interims(1, *[b"X: y"] * 65) + reply(b"hello")),
    ("65 fields of a whole file", head(LENGTH, *[b"X: y"] * 64, status=OK) + b"hello"),
    ("65 fields of a 404", head(*[b"X: y"] * 65, status=NOT_FOUND)),
    ("an interim head of 65,537 bytes", padded(65_537, status=b"100 Continue") + reply(b"hello")),
    ("a head of 65,537 bytes of a whole file", padded(65_537, LENGTH, status=OK) + b"hello"),
    ("a head of 65,537 bytes of a 404", padded(65_537, status=NOT_FOUND)),
]


@case("what is no head")
def _(room):
    garbage = [(f"{it!r}, behind {count} interim heads", interims(count) + it) for it in GARBAGE for count in (0, 8)]
    for name, whole in NO_HEADS + garbage:
        # without an empty line it isn't judged before the end
        for how, serve in (("and an empty line", whole + b"\r\n\r\n"), ("and the mirror closes", sends(whole))):
            with about(f"{name}, {how}"):
                refuses(room, 22, serve)


@case("interim heads without end")
def _(room):
    refuses(room, 22, sends_for_ever(interims(1), interims(5)))


# A content that is over before the asked bytes came isn't waited for.
OVER = [
    ("a part in chunks", head(RANGE, CHUNKED) + in_chunks(b"hell")),
    ("a part of no chunk", head(RANGE, CHUNKED) + in_chunks(b"")),
    ("a part of no chunk, with 64 trailers", head(RANGE, CHUNKED) + in_chunks(b"", trailers=[b"X: y"] * 64)),
    ("a part of no chunk, with one of 256 bytes", head(RANGE, CHUNKED) + in_chunks(b"", trailers=[b"X: " + b"y" * 253])),
    ("a whole file in chunks", head(CHUNKED, status=OK) + in_chunks(b"hell", 1)),
]
ENDS = [
    *OVER,
    ("an interim head alone", interims(1)),
    ("8 interim heads alone", interims(8)),
    ("a part without its bytes", head(RANGE)),
    ("a part that is cut", head(RANGE) + b"hell"),
    ("a whole file without its bytes", head(status=OK)),
    ("a whole file that is cut", head(status=OK) + b"hell"),
]


@case("a content that is over early")
def _(room):
    for name, whole in OVER:
        with about(name):
            refuses(room, 6, whole + reply(b"hello"))
    for name, whole in ENDS:
        with about(f"{name}, and the mirror closes"):
            refuses(room, 6, sends(whole))
        with about(f"{name}, and the mirror breaks off"):
            refuses(room, 6, sends_and_resets(whole))


@case("a mirror that breaks off")
def _(room):
    for name, whole in TAKEN:
        for length in (0, 5, whole.index(b"\r\n\r\n") + 2, whole.rindex(b"o")):
            with about(f"{name}, after {length} bytes"):
                refuses(room, 6, sends_and_resets(whole[:length]))


@case("a digest that is wrong, in each reply")
def _(room):
    for name, whole in TAKEN:
        at = whole.rindex(b"o")
        with about(name):
            refuses(room, 32, whole[:at] + b"O" + whole[at + 1 :], stands=b"hellO")


# Payloads of several pieces and files, each request of which is answered in one manner.

# Each piece is a claim of its own.
PIECES = [(0, MIB - 1), (MIB, 2 * MIB - 1), (2 * MIB, len(LONG) - 1)]

for _name, _manner in MANNERS.items():

    @case(f"pieces and files {_name}")
    def _(room, manner=_manner):
        with Recording(by_manner({"/a.bin": LONG}, manner)) as mirror:
            room.torrent(mirror.url(), LONG, piece_length=MIB)
            room.fetches(LONG, words=BY_MIB)
            want_asked(mirror, [("/a.bin", *it) for it in PIECES])
        with Recording(by_manner(served(SMALL, "n"), manner)) as mirror:
            room.torrent(mirror.url(target="/"), SMALL, name="n", piece_length=16)
            room.fetches(SMALL, "n")
            want_all_asked(mirror, SMALL, 16, "n")


@case("two pieces from a mirror that sends whole files")
def _(room):
    payload = LONG[: MIB + 100_000]
    for name, fields in (("with a length", [b"Content-Length: %d" % len(payload)]), ("without one", [])):
        with about(name), Recording(lambda _, it=head(*fields, status=OK): it + payload) as mirror:
            room.torrent(mirror.url(), payload, piece_length=MIB)
            room.fetches(payload, words=BY_MIB)
            want_asked(mirror, [("/a.bin", 0, MIB - 1), ("/a.bin", MIB, len(payload) - 1)])


@case("a second piece that ends within what stands before it")
def _(room):
    answers = [part(LONG, 0, MIB - 1), head(CHUNKED, status=OK) + in_chunks(LONG[:1_000_000], 1_000)]
    with Recording(answers) as mirror:
        room.torrent(mirror.url(), LONG, piece_length=MIB)
        room.fails(6, LONG, MIB, words=BY_MIB)


@case("mirrors that change their manner")
def _(room):
    manners = list(MANNERS.values())
    payload = LONG * 4
    pieces = range(0, len(payload), MIB)
    parts = [(at, min(at + MIB, len(payload)) - 1) for at in pieces]
    answers = [manners[place % len(manners)](payload, *it) for place, it in enumerate(parts)]
    with Recording(answers) as mirror:
        room.torrent(mirror.url(), payload, piece_length=MIB)
        room.fetches(payload, words=BY_MIB)
        want_asked(mirror, [("/a.bin", *it) for it in parts])


@case("a connection is closed once its bytes came")
def _(room):
    still = []

    def answer(asked):
        for it in mirror.threads[:-1]:
            it.join(5)
            still.append(it.is_alive())
        return MANNERS["with the whole file"](LONG, asked.first, asked.last)

    with Recording(answer) as mirror:
        room.torrent(mirror.url(), LONG, piece_length=MIB)
        room.fetches(LONG, words=BY_MIB)
    want(still == [False] * 3, f"connections that were open: {still}")
