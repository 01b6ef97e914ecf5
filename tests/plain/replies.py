#!/usr/bin/env -S python3 -B
"""What servers may reply, byte by byte: cases of crates/tests_top, with the exit status of each.

    tests/plain/replies.py            writes data/replies.txt of crates/tests_top anew, and its part of the crate's stdout
    tests/plain/replies.py --check    compares them, and tells the first difference

Each status stands in the tables of this file, by docs/LIMITS.md and the exit statuses of aria2's manual. Beside it the status
is worked out by a reading of all that the server says (mirrors.py). Both have to be the same. Neither looks at how the bytes
are cut.
"""
import hashlib
import re
import sys
from textwrap import wrap
from urllib.parse import unquote_to_bytes, urlsplit

from case_files import ROOT, settle
from case_files import spelled as read_parts
from mirrors import (
    CHECKSUM,
    DONE,
    FTP_COMMAND,
    FTP_LINE,
    HEAD_BYTES,
    HEAD_FIELDS,
    HTTP_REPLY,
    INTERIM_HEADS,
    LOGIN,
    METAINFO,
    MOST_REDIRECTS,
    NETWORK,
    NOT_FOUND,
    OVERLOADED,
    REDIRECTS,
    TRAILER_LINES,
    UNKNOWN,
    WORDS,
    Loss,
    Talk,
    is_usable,
    mirror_of,
)

CRATE = "crates/tests_top"
NAME = "replies.txt"
TITLE = "# What servers may reply, byte by byte. Written by tests/plain/replies.py, with what has to be printed."


# Runs.

BLOCK, PIECE, MOST_PIECES = 16_384, 1_048_576, 1_048_576


class Torrent:
    """A payload of one file or several, in pieces of this length, and where it is."""

    def __init__(self, url, files=(("a", b"hello"),), piece=BLOCK, stands=b""):
        self.url, self.files, self.piece, self.stands = url, files, piece, stands
        self.payload = b"".join(content for _, content in files)
        self.whole = [self.payload[at:at + piece] for at in range(0, len(self.payload), piece)]

    def metainfo(self):
        """BEP 3, with the web seed of BEP 19."""
        info = {"name": "a" if len(self.files) == 1 else "n", "piece length": self.piece,
                "pieces": b"".join(hashlib.sha1(it).digest() for it in self.whole)}
        if len(self.files) == 1:
            info["length"] = len(self.payload)
        else:
            info["files"] = [{"length": len(content), "path": [name]} for name, content in self.files]
        return bencoded({"info": info, "url-list": self.url})

    def lines(self):
        yield f"file t.torrent {spelled(self.metainfo(), ' ')}"
        if self.stands:
            yield f"file a {packed(self.stands)}"
        if len(self.payload) < 100:
            yield from (f"show {name}" for name in self.shown())

    def shown(self):
        return ["a"] if len(self.files) == 1 else [f"n/{name}" for name, _ in self.files]

    def parts(self, first, end):
        """A slice of the payload by files: where it begins in each, its length, and the file's."""
        start = 0
        for _, content in self.files:
            least, most = max(first, start), min(end, start + len(content))
            if least < most:
                yield least - start, most - least, len(content)
            start += len(content)

    def run(self, talk, tries):
        """The exit status, and what the files hold where it is 0."""
        if not is_usable(self.url):
            return METAINFO, []
        begun = len(self.whole[0]) if self.stands[:self.piece] == self.whole[0] else 0
        have, marks = self.payload[:begun], {}
        mirror = mirror_of(self.url, talk)
        while len(have) < len(self.payload):
            loss = None
            for part in self.parts(len(have), len(self.payload)):
                try:
                    came = mirror.part(*part)
                except Loss as it:
                    came, loss = it.came, it
                have += came
                if loss:
                    break
            # what isn't a whole block is lost, and so is a wrong piece
            have = have if len(have) == len(self.payload) else have[:len(have) // BLOCK * BLOCK]
            place = next((at for at, piece in enumerate(self.whole) if have[at * self.piece:][:self.piece] != piece), None)
            if place is None:
                break
            if loss is None:
                loss, have = Loss(CHECKSUM), have[:place * self.piece]
            marks[place] = marks.get(place, 0) + 1
            if marks[place] == tries:
                return loss.status, []
        return DONE, [content for _, content in self.files]


class Uris:
    """Mirrors of one file whose length nobody told."""

    def __init__(self, *urls):
        self.urls = urls
        name = unquote_to_bytes(urlsplit(urls[0]).path.rpartition("/")[2])
        self.name = "index.html" if b"/" in name or name == b"" else name.decode("latin-1")

    def lines(self):
        # (no file comes whose name has a control character, and a line couldn't tell it)
        yield from (f"show {name}" for name in self.shown() if name.isprintable())

    def shown(self):
        return [self.name]

    def run(self, talk, tries):
        if not all(is_usable(it) for it in self.urls):
            return WORDS, []
        mirrors, marks = [mirror_of(it, talk) for it in self.urls], [0] * len(self.urls)
        total, loss = None, None
        while min(marks) < tries:
            place = marks.index(min(marks))
            try:
                if total is None:
                    total = mirrors[place].length()
                    if total > PIECE * MOST_PIECES:
                        return UNKNOWN, []
                # longer files would be claimed block by block
                assert total <= BLOCK
                return DONE, [mirrors[place].part(0, total, total) if total else b""]
            except Loss as it:
                loss = it
                marks[place] += 1
        return loss.status, []


def bencoded(value):
    if isinstance(value, int):
        return b"i%de" % value
    if isinstance(value, dict):
        return b"d" + b"".join(bencoded(key) + bencoded(value[key]) for key in sorted(value)) + b"e"
    if isinstance(value, list):
        return b"l" + b"".join(bencoded(it) for it in value) + b"e"
    text = value if isinstance(value, bytes) else value.encode()
    return b"%d:%s" % (len(text), text)


# How cases are written.

def spelled(data, apart=""):
    """Bytes as data/README has them: what isn't plain, and what would be taken for more than itself, by its number."""
    plain = set(range(33, 127)) | {32} - set(apart.encode())
    told = "".join(chr(it) if it in plain - set(b"+*%|") else f"%{it:02x}" for it in data)
    return told.removesuffix(" ") + "%20" if told.endswith(" ") else told


def packed(data):
    """Long runs of one byte are counted."""
    found = re.split(rb"((.)\2{19,})", data, flags=re.DOTALL)
    texts = [spelled(text) for text in found[::3]]
    runs = [f"{len(run)}*{spelled(run[:1])}" for run in found[1::3]]
    parts = [it for pair in zip(texts, runs + [""]) for it in pair if it]
    return "+".join(parts)


def coded(text):
    """A text in which `|` is the end of a line."""
    return text.replace("|", "\r\n").encode("latin-1")


class Cases:
    """The lines of the cases, and what has to be printed."""

    def __init__(self):
        self.lines, self.printed = [TITLE], [TITLE]
        self.payload, self.tries = None, 1

    def say(self, line):
        self.lines.append(line)
        self.printed.append(line)

    def tell(self, prefix, outcome):
        status, contents = outcome
        self.printed.append(f"  {prefix}status {status}")
        if status == 0 and len(contents[0]) < 100:
            for name, content in zip(self.payload.shown(), contents):
                self.printed.append(f"  {name} has {content.decode() or 'nothing'}")

    def about(self, comment):
        self.say("")
        for line in wrap(comment, 122):
            self.say(f"# {line}")

    def run(self, comment, payload, tries=1):
        """From here on this is fetched."""
        self.payload, self.tries = payload, tries
        self.about(comment)
        words = " ".join(spelled(it.encode(), " ") for it in getattr(payload, "urls", ["t.torrent"]))
        self.say(f"run --split=1 --max-tries={tries} {words}")
        for line in payload.lines():
            self.say(line)

    def server(self, script, data, silent):
        """What the server says, line by line."""
        replies = [coded(it) for it in ([script] if isinstance(script, str) else script)]
        for at, reply in enumerate(replies):
            if at == 0 or reply != replies[at - 1]:
                self.say(f"reply {packed(reply)}".rstrip())
                assert read_parts(packed(reply)) == reply
                again = next((n for n, it in enumerate(replies[at:]) if it != reply), len(replies) - at) - 1
                if again:
                    self.say(f"again {again}")
        for text in data:
            self.say(f"data {packed(text)}".rstrip())
        if silent:
            self.say("silent")
        return replies, list(data)

    def serve(self, status, *scripts, data=(), silent=False):
        """Runs over servers that say this, each of which ends so."""
        for script in scripts:
            replies, texts = self.server(script, data, silent)
            self.say("serve")
            outcome = self.payload.run(Talk(replies, texts), self.tries)
            assert outcome[0] == status, (script, outcome, status)
            self.tell("", outcome)

    def cut(self, status, script, data=(), silent=False):
        """Runs over a server that says more and more of this, up to all of it, which ends so."""
        replies, texts = self.server(script, data, silent)
        self.say("cut")
        last = None
        for most in range(sum(map(len, replies + texts)) + 1):
            outcome = self.payload.run(Talk(replies, texts, most), self.tries)
            if outcome != last:
                assert outcome[0] == (NETWORK if last is None else status), (script, most, outcome)
                self.tell(f"from {most} bytes on: ", outcome)
            last = outcome
        assert last[0] == status, (script, last)


# What servers say over HTTP.

HTTP = "http://m.test/a.bin"
PART, OK, CONTINUE = "HTTP/1.1 206 Partial Content|", "HTTP/1.1 200 OK|", "HTTP/1.1 100 Continue||"
RANGE, LENGTH, CHUNKED = "Content-Range: bytes 0-4/5|", "Content-Length: 5|", "Transfer-Encoding: chunked|"
FOUND = "HTTP/1.1 302 Found|Location: "
RIGHT = f"{PART}{RANGE}{LENGTH}|hello"
IN_CHUNKS = f"{PART}{RANGE}{CHUNKED}|5|hello|0||"


def part(*fields, body="hello", status="206 Partial Content"):
    return "|".join([f"HTTP/1.1 {status}", RANGE[:-1], LENGTH[:-1], *fields, "", body])


def ranged(told, length="Content-Length: 5|", body="hello"):
    return f"{PART}{told}{length}|{body}"


def in_chunks(content):
    return f"{PART}{RANGE}{CHUNKED}|{content}"


def refused(status, fields=""):
    return f"HTTP/1.1 {status}|{fields}Content-Length: 0||"


def long_head(length):
    """A right reply whose head has so many bytes."""
    short = len(coded(part("A: ", body="")))
    return part(f"A: {(length - short) * 'x'}")


def http_heads(it):
    it.run("HTTP: a file of one piece, `hello`, at one mirror that is tried once.", Torrent(HTTP))

    it.about("What was asked for, alone or as a part of the whole; in chunks; up to the end of the connection.")
    it.serve(DONE, RIGHT, f"{OK}{LENGTH}|hello", IN_CHUNKS, f"{OK}{CHUNKED}|5|hello|0||", f"{PART}{RANGE}|hello",
             f"{OK}|hello")
    it.about("Other bytes than those of the digest.")
    it.serve(CHECKSUM, f"{PART}{RANGE}{LENGTH}|hellO", f"{OK}|hellO, it's me")

    it.about("No reply, silence, and one of another protocol.")
    it.serve(NETWORK, "", "HTTP/1.1 206")
    it.serve(NETWORK, "", "HTTP/1.1 206", silent=True)
    it.serve(HTTP_REPLY, "220 ready|", "SSH-2.0-x|", "\0")

    it.about("A reply of which less comes, in the head and behind it; and one that goes on behind its end.")
    it.cut(DONE, RIGHT)
    it.cut(DONE, IN_CHUNKS)
    it.cut(DONE, f"{OK}|hello")
    it.cut(DONE, RIGHT, silent=True)
    it.serve(DONE, f"{RIGHT} and more", f"{IN_CHUNKS}HTTP/1.1 500 x||", f"{OK}|hello and more")

    it.about("A head of 65,536 bytes, and of one more; 65,536 bytes of one without an end, and one less, with the end of the "
             "connection behind them.")
    it.serve(DONE, long_head(HEAD_BYTES))
    it.serve(HTTP_REPLY, long_head(HEAD_BYTES + 1))
    it.serve(HTTP_REPLY, f"{OK}A: {(HEAD_BYTES - 20) * 'x'}")
    it.serve(NETWORK, f"{OK}A: {(HEAD_BYTES - 21) * 'x'}")
    it.about("64 fields, and 65.")
    it.serve(DONE, part(*(HEAD_FIELDS - 2) * ["A: x"]))
    it.serve(HTTP_REPLY, part(*(HEAD_FIELDS - 1) * ["A: x"]))

    it.about("Eight interim heads, and nine.")
    it.serve(DONE, INTERIM_HEADS * CONTINUE + RIGHT, f"HTTP/1.1 103 Early Hints|Link: x||{RIGHT}", f"HTTP/1.1 199 x||{RIGHT}")
    it.serve(HTTP_REPLY, (INTERIM_HEADS + 1) * CONTINUE + RIGHT)
    it.cut(DONE, f"{CONTINUE}HTTP/1.1 103 x||{RIGHT}")

    it.about("Versions: HTTP/1.0, and others.")
    it.serve(DONE, RIGHT.replace("1.1", "1.0"))
    it.serve(HTTP_REPLY, RIGHT.replace("1.1", "1.2"), RIGHT.replace("1.1", "2.0"), RIGHT.replace("1.1", "1"),
             RIGHT.replace("HTTP", "http"))
    it.about("Status lines: without words, with others; with two or four digits, with two spaces, with a control byte.")
    it.serve(DONE, part(status="206 "), part(status="206"), part(status="206 \xe9t\xe9 \x09!"))
    it.serve(HTTP_REPLY, part(status="20 x"), part(status="2060 x"), part(status=" 206 x"), part(status="206 a\x01b"),
             part(status="206 a\0"))

    it.about("Lines that end in LF alone, and empty lines before the first one.")
    it.serve(DONE, RIGHT.replace("|", "\n"), RIGHT.replace("||", "|\n"), f"||\n{RIGHT}")
    it.about("Fields: in any case, with spaces and tabs around the value, of other bytes than ASCII, without a value.")
    it.serve(DONE, RIGHT.replace("Content-", "cONTENT-"), part("A:"), part("A: \xff\t!"), part("!#$%&'*+-.^_`~: x"),
             f"{PART}Content-Range:\t bytes 0-4/5 \t|Content-Length:5  ||hello")
    it.about("A field that goes on in the next line; one with CR, NUL or another control byte; a name with a space or a "
             "bracket, of other letters, or none; a line without a colon.")
    it.serve(HTTP_REPLY, part("A: x", " y"), part("A: x", "\ty"), part("A: x\ry"), part("A: x\0"), part("A: \x1b[m"),
             part("A: x\x7f"))
    it.serve(HTTP_REPLY, part("A : x"), part("A b: x"), part("A[b]: x"), part("\xe9: x"), part(": x"), part("A"),
             part(" A: x"))


def http_contents(it):
    it.about("Content-Range: two of them, or none; a list; another unit; another place, length or file.")
    it.serve(HTTP_REPLY, part(RANGE[:-1]), f"{PART}{LENGTH}|hello", ranged("Content-Range: 5, 5|"),
             ranged("Content-Range: bytes 0-4/5, bytes 0-4/5|"), ranged("Content-Range: items 0-4/5|"),
             ranged("Content-Range: 0-4/5|"))
    it.serve(HTTP_REPLY, ranged("Content-Range: bytes 1-4/5|", "Content-Length: 4|", "ello"),
             ranged("Content-Range: bytes 4-0/5|"), ranged("Content-Range: bytes 0-5/5|", "Content-Length: 6|", "hello!"),
             ranged("Content-Range: bytes 0-5/6|", "Content-Length: 6|", "hello!"), ranged("Content-Range: bytes 0-4/6|"),
             ranged("Content-Range: bytes */5|"), ranged("Content-Range: bytes 0-4|"), ranged("Content-Range: bytes 0-4/+5|"),
             ranged("Content-Range: bytes 0-4/9223372036854775808|"),
             ranged("Content-Range: bytes 18446744073709551616-4/5|"))
    it.about("A file whose length isn't told, and numbers with zeros in front.")
    it.serve(DONE, ranged("Content-Range: bytes 0-4/*|"), ranged("Content-Range: bytes 00-04/0005|", "Content-Length: 0005|"))

    it.about("Content-Length: a list; two that differ; a sign; no number; 2^63; another length than that of the part or the "
             "file.")
    it.serve(HTTP_REPLY, ranged(RANGE, "Content-Length: 5, 5|"), part("Content-Length: 6"), ranged(RANGE,
             "Content-Length: +5|"), ranged(RANGE, "Content-Length: 5 bytes|"), ranged(RANGE, "Content-Length:|"),
             ranged(RANGE, "Content-Length: 0x5|"), f"{OK}Content-Length: 9223372036854775808||hello", ranged(RANGE,
             "Content-Length: 4|"), ranged(RANGE, "Content-Length: 6|"), f"{OK}Content-Length: 4||hello",
             f"{OK}Content-Length: 6||hello!", f"{OK}Content-Length: 0||")
    it.about("Two that are one number; none; one beside chunks.")
    it.serve(DONE, part("Content-Length: 5"), part("Content-Length: 05"), f"{PART}{RANGE}|hello", IN_CHUNKS.replace(RANGE,
             RANGE + LENGTH))
    it.about("A content that is over too early.")
    it.serve(NETWORK, f"{PART}{RANGE}{LENGTH}|hell", f"{OK}{LENGTH}|hell", f"{OK}|hell", f"{OK}|")

    it.about("Content-Encoding and Transfer-Encoding: others than identity and chunks, or more.")
    it.serve(HTTP_REPLY, part("Content-Encoding: gzip"), f"{OK}Content-Encoding: br|{LENGTH}|hello",
             part("Transfer-Encoding: gzip"), IN_CHUNKS.replace("chunked", "gzip, chunked"), IN_CHUNKS.replace(CHUNKED,
             2 * CHUNKED), part("Transfer-Encoding:"))
    it.serve(DONE, part("Content-Encoding: identity"), IN_CHUNKS.replace("chunked", "Chunked"))


def http_chunks(it):
    it.about("Chunks: several; with extensions; a size in upper case, with zeros in front, and the greatest one.")
    it.serve(DONE, in_chunks("2|he|3|llo|0||"), in_chunks("5;a=b;c|hello|0||"), in_chunks('5;a="b;c"|hello|0;d||'),
             in_chunks("A|hello, you|0||"), in_chunks("0000000005|hello|0||"), in_chunks("FFFFFFFF|hello"),
             in_chunks("6|hello!|0||"))
    it.about("A size of 2^32 and above; no size, or no hexadecimal one; a space before an extension; LF alone; no end behind "
             "the chunk.")
    it.serve(HTTP_REPLY, in_chunks("100000000|hello"), in_chunks("10000000000000005|hello|0||"), in_chunks("|hello|0||"),
             in_chunks(";a|hello|0||"), in_chunks("0x5|hello|0||"), in_chunks("-5|hello|0||"), in_chunks("g|hello|0||"),
             in_chunks("5 ;a|hello|0||"), in_chunks(" 5|hello|0||"), in_chunks("5\nhello\n0\n\n|"), in_chunks("4|hello|0||"),
             in_chunks("2|heX|3|llo|0||"))
    it.about("A line of a size of 256 bytes, and of 257.")
    it.serve(DONE, in_chunks(f"5;{254 * 'x'}|hello|0||"))
    it.serve(HTTP_REPLY, in_chunks(f"5;{255 * 'x'}|hello|0||"))
    it.about("What isn't read, as all has come: the end of the chunk, other chunks, trailers.")
    it.serve(DONE, in_chunks("5|hello"), in_chunks("5|helloX"), in_chunks("5|hello|x|"),
             in_chunks(f"5|hello|0|{65 * 'A: x|'}|"))
    it.about("One byte is missing behind the chunks, and behind 64 trailers; 65 trailers; a trailer of 256 bytes, of 257.")
    it.serve(NETWORK, in_chunks("4|hell|0||"), in_chunks("0||"), in_chunks(f"4|hell|0|{TRAILER_LINES * 'A: x|'}|"),
             in_chunks(f"4|hell|0|A: {253 * 'x'}||"), in_chunks("4|hell|0|A: x|"))
    it.serve(HTTP_REPLY, in_chunks(f"4|hell|0|{(TRAILER_LINES + 1) * 'A: x|'}|"), in_chunks(f"4|hell|0|A: {254 * 'x'}||"))


def http_statuses(it):
    it.about("Statuses: the file isn't there; a login is wanted; the server is overloaded; and others.")
    it.serve(NOT_FOUND, refused("404 Not Found"), refused("404 Not Found", "Content-Encoding: gzip|"), part(status="404 x"))
    it.serve(LOGIN, refused("401 Unauthorized"))
    it.serve(OVERLOADED, refused("503 Service Unavailable", "Retry-After: 1|"))
    it.serve(HTTP_REPLY, *(refused(f"{status} x") for status in (204, 300, 304, 305, 400, 402, 403, 405, 407, 410, 429, 500,
             502, 504, 505, 600, 999)), refused("000 x"))
    it.serve(HTTP_REPLY, refused("416 Range Not Satisfiable", "Content-Range: bytes */5|"), refused("416 x",
             "Content-Range: bytes */0|"), part(status="207 x"), part(status="201 x"))

    it.about("Redirects: one of each kind; to this and to another host; without a path; with a content; 20 of them.")
    it.serve(DONE, *([refused(f"{status} x", f"Location: {HTTP}|"), RIGHT] for status in (301, 302, 303, 307, 308)))
    it.serve(DONE, *([f"{FOUND}{target}|Content-Length: 3||abc", RIGHT] for target in (
        "", "/b", "b", "../b?c#d", "//n.test/b", "http://n.test:81/b", "HTTP://N.TEST", "?b")))
    it.serve(DONE, MOST_REDIRECTS * [f"{FOUND}{HTTP}||"] + [RIGHT])
    it.cut(DONE, [f"{FOUND}/b||", RIGHT])
    it.about("21, and to itself without end.")
    it.serve(REDIRECTS, (MOST_REDIRECTS + 1) * [f"{FOUND}{HTTP}||"] + [RIGHT], f"{FOUND}{HTTP}||")
    it.about("To another protocol, or to no URL; to nowhere, or to two places; by other statuses.")
    it.serve(HTTP_REPLY, *([f"{FOUND}{target}||", RIGHT] for target in (
        "https://m.test/", "ftp://m.test/a.bin", "mailto:a@m.test", "http://", "http://m.test:x/", "\xff")))
    it.serve(HTTP_REPLY, *([it, RIGHT] for it in ( "HTTP/1.1 302 Found||", f"{FOUND}/b|Location: /b||", refused("300 x",
             "Location: /b|"), refused("304 x", "Location: /b|"), refused("305 x", "Location: /b|"))))

    it.about("A shorter part, and then the rest, over the same connection or, where that one ended, a new one.")
    first, rest = ranged("Content-Range: bytes 0-2/5|", "Content-Length: 3|", "hel"), ranged("Content-Range: bytes 3-4/5|",
        "Content-Length: 2|", "lo")
    it.serve(DONE, [first, rest], [first, "", rest], [first.replace("1.1", "1.0"), rest], [first, f"{OK}{LENGTH}|hello"])
    it.serve(HTTP_REPLY, [first, RIGHT], [first, first])
    it.serve(NETWORK, [first, "", ""], [first, "HTTP", rest], [first.replace("1.1", "1.0"), "", rest], [first.replace("||",
             "|Connection: close||"), "", rest], [first.replace("||", "|Connection: a, CLOSE||"), "", rest])
    it.serve(NOT_FOUND, [first, refused("404 x")])
    it.cut(DONE, [first, rest])


def http_others(it):
    long = (("a", BLOCK * b"a" + b"hello"),)
    it.run("HTTP: the first of two pieces stands already.", Torrent(HTTP, long, stands=BLOCK * b"a" + b"xxxxx"))
    last, length, before = "Content-Range: bytes 16384-16388/16389|", "Content-Length: 16389|", BLOCK * "a"
    it.about("The other one, alone or behind the first one, which is passed over.")
    it.serve(DONE, ranged(last), f"{OK}{length}|{before}hello", f"{OK}{CHUNKED}|4000|{before}|5|hello|0||",
             f"{OK}|{before}hello", f"{OK}{length}|{BLOCK * 'b'}hello")
    it.about("Another place; a file of another length; one that ends before the piece, or within it.")
    it.serve(HTTP_REPLY, RIGHT, ranged("Content-Range: bytes 0-16388/16389|", length, f"{before}hello"),
             f"{OK}{LENGTH}|hello", ranged("Content-Range: bytes 16384-16389/16390|", "Content-Length: 6|", "hello!"))
    it.serve(NETWORK, f"{OK}{length}|{before}", f"{OK}{length}|{before}hell", f"{OK}|hello",
             f"{OK}{CHUNKED}|4001|{before}h|0||")

    it.run("HTTP: two blocks of one piece, which are asked for together. The first one is kept where the second one is lost.",
           Torrent(HTTP, long, 2 * BLOCK), 2)
    both = "Content-Range: bytes 0-16388/16389|"
    it.serve(DONE, [ranged(both, length, f"{before}hel"), ranged(last)], [f"{OK}{CHUNKED}|4001|{before}hX", ranged(last)])
    it.serve(HTTP_REPLY, [ranged(both, length, f"{before}hel"), ranged(both, length, f"{before}hello")])
    it.serve(NETWORK, [ranged(both, length, f"{before}hel"), ranged(last, body="hell")])

    it.run("HTTP: a mirror has five tries, and the last one of them counts.", Torrent(HTTP), 5)
    bad = [refused("503 x"), refused("404 x"), refused("500 x"), f"{OK}|hellO", ""]
    it.serve(DONE, bad[:4] + [RIGHT])
    it.serve(NETWORK, bad + [RIGHT])
    it.serve(OVERLOADED, bad[1:] + bad[:1] + [RIGHT])
    it.serve(CHECKSUM, f"{OK}|hellO")
    it.serve(REDIRECTS, f"{FOUND}{HTTP}||")


def http_lengths(it):
    it.run("HTTP: a file without a metainfo file, whose length is asked for first.", Uris(HTTP))
    probed = ranged("Content-Range: bytes 0-0/5|", "Content-Length: 1|", "h")
    whole = f"{OK}{LENGTH}|hello"
    it.about("The length comes with its first byte, or with all of it; then the file comes.")
    it.serve(DONE, [probed, RIGHT], [probed.removesuffix("h"), RIGHT], [probed, IN_CHUNKS], [whole, whole], [whole, RIGHT],
             [f"{FOUND}/b||", probed, f"{FOUND}/b||", RIGHT], [f"{CONTINUE}{probed}", f"{CONTINUE}{RIGHT}"])
    it.serve(DONE, [probed, f"{OK}|hellO"])
    it.cut(DONE, [probed, RIGHT])
    it.about("A file without a byte.")
    it.serve(DONE, refused("416 x", "Content-Range: bytes */0|"), f"{OK}Content-Length: 0||")
    it.about("The length isn't told, or twice, or of another place; it is above 2^63; the file isn't there, or too long.")
    it.serve(HTTP_REPLY, ranged("Content-Range: bytes 0-0/*|", "Content-Length: 1|", "h"), f"{OK}|hello",
             f"{OK}{CHUNKED}|5|hello|0||", f"{PART}Content-Length: 1||h", refused("416 x"), refused("416 x",
             "Content-Range: bytes */5|"), refused("416 x", 2 * "Content-Range: bytes */0|"), RIGHT,
             ranged("Content-Range: bytes 1-1/5|", "Content-Length: 1|", "e"), ranged("Content-Range: bytes 0-0/5|",
             "Content-Length: 2|", "he"), f"{OK}Content-Length: 9223372036854775808||",
             ranged("Content-Range: bytes 0-0/9223372036854775808|", "Content-Length: 1|", "h"),
             f"{OK}Content-Encoding: gzip|{LENGTH}|hello")
    it.serve(UNKNOWN, ranged("Content-Range: bytes 0-0/1099511627777|", "Content-Length: 1|", "h"),
             ranged("Content-Range: bytes 0-0/9223372036854775807|", "Content-Length: 1|", "h"),
             f"{OK}Content-Length: 9223372036854775807||")
    it.serve(NOT_FOUND, refused("404 x"))
    it.serve(NETWORK, "", "HTTP/1.1 200")
    it.serve(REDIRECTS, f"{FOUND}{HTTP}||")
    it.about("The file has another length by then.")
    it.serve(HTTP_REPLY, [probed, ranged("Content-Range: bytes 0-4/6|")], [probed, f"{OK}Content-Length: 6||hello!"])
    it.serve(NETWORK, [probed, f"{OK}|hell"])


# What servers say over FTP.

FTP = "ftp://m.test/a.bin"
STEPS = {"greeting": "220 ready|", "user": "331 who|", "password": "230 in|", "type": "200 binary|", "size": "213 5|",
         "passive": "227 Entering Passive Mode (127,0,0,1,4,1)|", "data": "150 it comes|"}


def dialogue(**other):
    """A right dialogue but for these replies. Behind one that is lost the connection ends, which nobody sees."""
    steps = {**STEPS, **other}
    return [reply for reply in steps.values() if reply is not None]


def lost(step, reply):
    """A dialogue up to this step, whose reply this is."""
    front = list(STEPS.values())[:list(STEPS).index(step)]
    return [*front, reply]


def ftp_replies(it):
    it.run("FTP: a file of one piece, `hello`, at one mirror that is tried once.", Torrent(FTP))
    hello = [b"hello"]

    it.about("A plain dialogue; one without a password; one by 125 in place of 150; more data than was asked for.")
    it.serve(DONE, dialogue(), dialogue(user="230 in|", password=None), dialogue(data="125 it comes|"), data=hello)
    it.serve(DONE, dialogue(data="150 it comes|226 it came|"), data=[b"hello, and more"])
    it.serve(DONE, dialogue(), data=hello, silent=True)
    it.about("Other bytes than those of the digest.")
    it.serve(CHECKSUM, dialogue(), data=[b"hellO"])
    it.about("A dialogue of which less comes, and then the connection ends, or is silent; of longer replies, and one that "
             "needs no password.")
    it.cut(DONE, dialogue(), data=hello)
    it.cut(DONE, dialogue(), data=hello, silent=True)
    it.cut(DONE, dialogue(greeting="220-a|220-b| 220 c|220 d|", size="213-a|213 5|"), data=hello)
    it.cut(DONE, dialogue(user="230-in|b|230 in|", password=None, data="125 |"), data=hello)

    it.about("Replies of several lines: with the code again in their midst, with other codes, with an empty line.")
    it.serve(DONE, dialogue(greeting="220-a|220-b|220 c|"), dialogue(greeting="220-a|221 b|220c| 220 d||220 e|"),
             dialogue(greeting="220-a|220 |"), dialogue(size="213-5|213-6|213 5|"), dialogue(size="213-a|5|213 5|"),
             dialogue(passive="227-(1,1,1,1,1,1)|227 (127,0,0,1,4,1)|"), data=hello)
    it.about("Bytes that aren't ASCII, CR or LF alone in a line.")
    it.serve(DONE, dialogue(greeting="220 \xff\0\x1b|"), dialogue(greeting="220 a\rb\n220 c|"),
             dialogue(user="331-a\n331 b|331 c|"), data=hello)
    it.about("64 lines, and 65. A line of 512 bytes, and of 513, as the first, the last, or between them.")
    wide = (FTP_LINE - 6) * "x"
    it.serve(DONE, dialogue(greeting=f"220-{62 * 'a|'}b|220 c|"), dialogue(greeting=f"220 {wide}|"),
             dialogue(greeting=f"220-{wide}|220 a|"), dialogue(greeting=f"220-a|{wide}xxxx|220 {wide}|"),
             dialogue(type=f"200 {wide}|"), data=hello)
    it.serve(HTTP_REPLY, lost("greeting", f"220-{63 * 'a|'}b|220 c|"), lost("greeting", f"220 {wide}x|"), lost("greeting",
             f"220-{wide}x|220 a|"), lost("greeting", f"220-a|{wide}xxxxx|220 b|"), lost("greeting", f"220-a|220 {wide}x|"),
             lost("type", f"200 {wide}x|"), lost("greeting", 600 * "2"), lost("greeting", f"220 {600 * 'x'}"))
    it.about("No code of three digits, or no space or `-` behind it; the greeting of another protocol.")
    it.serve(HTTP_REPLY, *(lost("greeting", reply) for reply in ( "220|", "22 ready|", "2200 ready|", "220ready|",
             "220_ready|", " 220 ready|", "|220 ready|", "22O ready|", "2-20 a|", "\xb2\xb2\xb0 a|",
             "HTTP/1.1 400 Bad Request||", "SSH-2.0-x|", "\0")))
    it.serve(HTTP_REPLY, *(lost(step, reply) for step, reply in ( ("user", "331|"), ("password", "23 in|"), ("type",
             "|200 binary|"), ("size", "213|"), ("passive", "227(127,0,0,1,4,1)|"), ("data", "150|"))))
    it.about("A line that doesn't end, or lines without a last one.")
    it.serve(NETWORK, lost("greeting", "220 ready\n"), lost("greeting", "220-ready|221 b|"), lost("greeting", "220-a|220-b|"),
             lost("size", "213 5\r"))
    it.serve(NETWORK, *(lost(step, "") for step in STEPS))
    it.serve(NETWORK, lost("greeting", "220 ready\n"), *(lost(step, "") for step in STEPS), silent=True)


def ftp_refusals(it):
    it.about("The greeting is another one: the server is overloaded, or will be ready later.")
    it.serve(OVERLOADED, *(lost("greeting", reply) for reply in ( "421 too many|", "120 in a minute|",
             "120 in a minute|220 ready|", "421-a|421 b|", "500 x|", "230 in|", "221 bye|", "000 x|", "999 x|")))
    it.about("A command is refused, or answered by another code than is due: USER, PASS, TYPE, SIZE, PASV, RETR.")
    other = {"user": (530, 332, 220, 421, 500, 202), "password": (530, 332, 331, 202, 421), "type": (504, 500, 226, 220, 421),
             "size": (500, 502, 504, 530, 211, 421, 450), "passive": (500, 502, 425, 421, 228, 530), "data": (425, 426, 450,
             451, 421, 226, 250, 350, 530, 551)}
    for step, codes in other.items():
        it.serve(FTP_COMMAND, *(lost(step, f"{code} x|") for code in codes))
    it.serve(FTP_COMMAND, lost("user", "530-a|230 b|530 c|"), lost("passive",
             "229 Entering Extended Passive Mode (!!!1025!)|"))
    it.about("The file isn't there, as SIZE or RETR is told.")
    it.serve(NOT_FOUND, lost("size", "550 x|"), lost("size", "550-a|213 5|550 b|"), lost("data", "550 x|"))
    it.about("At another step that is a refusal like others.")
    it.serve(FTP_COMMAND, *(lost(step, "550 x|") for step in ("user", "password", "type", "passive")))
    it.serve(OVERLOADED, lost("greeting", "550 x|"))

    it.about("SIZE: another length, also the greatest one; with zeros in front.")
    it.serve(HTTP_REPLY, *(lost("size", f"213 {size}|") for size in (4, 6, 0, 2**32 + 5, 2**63 - 1)))
    it.serve(DONE, dialogue(size="213 05|"), data=[b"hello"])
    it.about("2^63 and above; no number; more than a number.")
    it.serve(HTTP_REPLY, *(lost("size", f"213 {size}|") for size in (2**63, 2**64 + 5, 10**400, "", "five", "+5", "-5", " 5",
             "5 ", "5 bytes", "5.0", "0x5")))
    it.serve(HTTP_REPLY, lost("size", "213-5|213 |"))

    it.about("PASV: another host, which isn't asked; the numbers anywhere in the line; the greatest port, and the least.")
    it.serve(DONE, *(dialogue(passive=f"227 {told}|") for told in ( "(9,9,9,9,4,1)", "(0,0,0,0,0,1)",
             "(255,255,255,255,255,255)", "a (b) c (127,0,0,1,4,1) d", "=(127,0,0,1,4,1).")), data=[b"hello"])
    it.about("No numbers; five of them; one above 255, or with a zero in front; with spaces, without brackets; port 0.")
    it.serve(HTTP_REPLY, *(lost("passive", f"227 {told}|") for told in ( "", "Entering Passive Mode", "()", "(127,0,0,1,4)",
             "(127,0,0,1,256,1)", "(127,0,0,256,4,1)", "(127,0,0,1,4,256)", "(127,0,0,1,4,18446744073709551617)",
             "(127,0,0,1,04,1)", "(127,0,0,1,4,01)", "(00,0,0,1,4,1)", "(127, 0, 0, 1, 4, 1)", "127,0,0,1,4,1",
             "(127,0,0,1,4,1", "127,0,0,1,4,1)", "(127.0.0.1.4.1)", "(127,0,0,1,,1)", "(127,0,0,1,-4,1)", "(127,0,0,1,0,0)",
             "(::1,4,1)")))

    it.about("Data that ends early, is silent, or doesn't come.")
    it.serve(NETWORK, dialogue(), data=[b"hell"])
    it.serve(NETWORK, dialogue())
    it.serve(NETWORK, dialogue(), data=[b"hell"], silent=True)


def ftp_others(it):
    long = (("a", BLOCK * b"a" + b"hello"),)
    it.run("FTP: the first of two pieces stands already, so the data begins behind it.", Torrent(FTP, long,
           stands=BLOCK * b"a" + b"xxxxx"))
    front = lost("data", "350 from there|")
    front[4] = "213 16389|"
    it.serve(DONE, [*front, "150 it comes|"], data=[b"hello"])
    it.cut(DONE, [*front, "150 it comes|"], data=[b"hello"])
    it.about("REST is refused, or answered by another code; RETR is; the data is that from the file's first byte on.")
    it.serve(FTP_COMMAND, *([*front[:-1], f"{code} x|"] for code in (502, 501, 500, 421, 550, 150, 200)), [*front, "350 x|"],
             [*front, "425 x|"])
    it.serve(NOT_FOUND, [*front, "550 x|"])
    it.serve(HTTP_REPLY, [*front[:-1], "350|"])
    it.serve(CHECKSUM, [*front, "150 it comes|"], data=[b"aaaaaaaaaa"])
    it.serve(NETWORK, [*front, "150 it comes|"], data=[b"hell"])

    it.run("FTP: two blocks of one piece, which come together. The first one is kept where the second one is lost.",
           Torrent(FTP, long, 2 * BLOCK), 2)
    both = dialogue(size="213 16389|")
    it.serve(DONE, [*both, *front, "150 it comes|"], data=[BLOCK * b"a" + b"hel", b"hello"])
    it.serve(FTP_COMMAND, [*both, *front[:-1], "502 x|"], data=[BLOCK * b"a" + b"hel"])

    it.run("FTP: two files.", Torrent("ftp://m.test/d", (("x", b"hel"), ("y", b"lo"))))
    x, y = dialogue(size="213 3|"), dialogue(size="213 2|")
    it.serve(DONE, [*x, *y], data=[b"hel", b"lo"])
    it.serve(CHECKSUM, [*x, *y], data=[b"hel", b"l0"])
    it.serve(HTTP_REPLY, [*x, *x], data=[b"hel", b"lo"])
    it.serve(NETWORK, [*x, *y], data=[b"hel", b"l"])
    it.serve(NOT_FOUND, [*x, *y[:4], "550 x|"], data=[b"hel"])

    it.run("FTP: a mirror has five tries, and the last one of them counts.", Torrent(FTP), 5)
    it.serve(DONE, ["421 x|", *lost("user", "530 x|"), *lost("size", "550 x|"), *dialogue(), *dialogue()], data=[b"hellO",
             b"hello"])
    it.serve(NOT_FOUND, lost("data", "550 x|"))
    it.serve(OVERLOADED, "421 x|")
    it.serve(NETWORK, ["421 x|", *lost("user", "530 x|"), *lost("size", "550 x|"), *dialogue(), ""], data=[b"hellO"])
    it.serve(CHECKSUM, dialogue(), data=[b"hellO"])


def ftp_lengths(it):
    it.run("FTP: a file without a metainfo file, whose length is asked for first.", Uris(FTP))
    probed, hello = lost("passive", "213 5|")[:-1], [b"hello"]
    it.serve(DONE, [*probed, *dialogue()], data=hello)
    it.cut(DONE, [*probed, *dialogue()], data=hello)
    it.about("A file without a byte.")
    it.serve(DONE, lost("size", "213 0|"))
    it.about("The length isn't told, is above 2^63, or the file is too long; it is another one by then.")
    it.serve(HTTP_REPLY, *(lost("size", f"213 {size}|") for size in (2**63, "five", "")))
    it.serve(UNKNOWN, *(lost("size", f"213 {size}|") for size in (PIECE * MOST_PIECES + 1, 2**63 - 1)))
    it.serve(HTTP_REPLY, [*probed, *lost("size", "213 6|")])
    it.serve(NOT_FOUND, lost("size", "550 x|"), [*probed, *lost("size", "550 x|")], [*probed, *lost("data", "550 x|")])
    it.serve(FTP_COMMAND, lost("size", "502 x|"), lost("user", "530 x|"), lost("password", "530 x|"))
    it.serve(OVERLOADED, "421 x|", [*probed, "421 x|"])
    it.serve(NETWORK, "", lost("size", ""), [*probed, ""])

    it.run("FTP and HTTP: the file is at either of two mirrors, of which each is tried once.", Uris(FTP,
           "http://n.test/a.bin"))
    told = ranged("Content-Range: bytes 0-0/5|", "Content-Length: 1|", "h")
    it.serve(DONE, ["421 x|", told, RIGHT], [*lost("size", "550 x|"), f"{OK}{LENGTH}|hello", f"{OK}{LENGTH}|hello"])
    it.serve(DONE, [*probed, *dialogue()], data=hello)
    it.serve(DONE, [*probed, *dialogue(), RIGHT], data=[b"hell"])
    it.serve(NOT_FOUND, ["421 x|", refused("404 x")])


# URLs of FTP, and what of them can be asked for.
ASKED = ("ftp://m.test/d/a.bin", "ftp://m.test//a.bin", "ftp://m.test/%2fa.bin", "ftp://m.test/a%2fb",
         "ftp://m.test/a%20b%25", "ftp://m.test:2121/a.bin", "ftp://m.test/a.bin?b#c", "FTP://M.TEST/a.bin",
         "ftp://m.test/d/", "ftp://[::1]/a.bin")
UNASKED = ("ftp://m.test", "ftp://m.test/", "ftp://m.test/a%0d%0aDELE%20b", "ftp://m.test/a%0a", "ftp://m.test/a%0d",
           "ftp://m.test/a%00", "ftp://m.test/%ff", "ftp://u@m.test/a.bin", "ftp://u:p@m.test/a.bin", "ftp://:p@m.test/a.bin",
           "ftps://m.test/a.bin", "sftp://m.test/a.bin", "ftp:")


def urls(it):
    for url in ASKED:
        it.run(f"FTP: {url}", Uris(url))
        it.serve(DONE, [*dialogue()[:5], *dialogue()], data=[b"hello"])
    for url in UNASKED:
        it.run(f"FTP: {url}, which is no URL that can be asked for.", Uris(url))
        it.serve(WORDS, dialogue(), data=[b"hello"])
        it.run(f"FTP: {url} in a metainfo file.", Torrent(url))
        it.serve(METAINFO, dialogue(), data=[b"hello"])


def cases():
    it = Cases()
    for table in (http_heads, http_contents, http_chunks, http_statuses, http_others, http_lengths,
                  ftp_replies, ftp_refusals, ftp_others, ftp_lengths, urls):
        table(it)
    return it


def printed(lines):
    """What the crate has to print: for its other files what stands there, and these lines in their place."""
    path = f"{CRATE}/stdout"
    with open(f"{ROOT}/{CRATE}/args", encoding="utf-8") as it:
        names = it.read().split()
    with open(f"{ROOT}/{path}", encoding="utf-8", newline="") as it:
        told = it.read()
    own = "".join(f"{line}\n" for line in lines)
    with open(f"{ROOT}/{CRATE}/data/{names[names.index(NAME) + 1]}", encoding="utf-8", newline="") as it:
        behind = it.readline()
    front, _, rest = told.partition(behind)
    return path, front.partition(f"{TITLE}\n")[0] + own + behind + rest


def main(words):
    it = cases()
    settle([(f"{CRATE}/data/{NAME}", "".join(f"{line}\n" for line in it.lines)), printed(it.printed)], words)


if __name__ == "__main__":
    main(sys.argv[1:])
