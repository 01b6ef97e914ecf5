"""What a server's texts come to: the length of a file, a part of it, or a loss with the exit status that it gives.

Heads and bodies are read by RFC 9110, section 14, and RFC 9112, replies over FTP by RFC 959, section 4.2, and RFC 3659,
sections 4 and 5. All that the server says is read at once, up to the end of its connection, so how the bytes come is no
matter here.
"""
import re
from itertools import chain, cycle, repeat
from urllib.parse import unquote_to_bytes, urljoin, urlsplit

# exit statuses of aria2's manual
DONE, UNKNOWN, NOT_FOUND, NETWORK, FTP_COMMAND, HTTP_REPLY, REDIRECTS, LOGIN = 0, 1, 3, 6, 21, 22, 23, 24
METAINFO, WORDS, OVERLOADED, CHECKSUM = 26, 28, 29, 32

# limits of docs/LIMITS.md
HEAD_BYTES, HEAD_FIELDS, INTERIM_HEADS, MOST_REDIRECTS = 65_536, 64, 8, 20
CHUNK_LINE, TRAILER_LINES, CHUNK_LIMIT, NUMBER_LIMIT = 256, 64, 2**32, 2**63
FTP_LINE, FTP_LINES = 512, 64


class Loss(Exception):
    """A claim is lost: the status of its mark, and what of its part came before."""

    def __init__(self, status, came=b""):
        super().__init__(status)
        self.status, self.came = status, came


class Talk:
    """What a server says: the next reply to each request, and behind the last one the first again. Of one that is cut only so
    many bytes come."""

    def __init__(self, replies, data, most=None):
        self.replies, behind = texts_of(replies, most)
        self.data, _ = texts_of(data, behind)

    def ask(self):
        return next(self.replies)

    def open_data(self):
        return next(self.data)


def texts_of(texts, most):
    """The texts one by one, and how many bytes are left for those of another kind."""
    if most is None:
        return cycle(texts or [b""]), None
    front = []
    for text in texts:
        front.append(text[:most])
        most -= len(front[-1])
    return chain(front, repeat(b"")), most


# Heads of HTTP. A line may end in LF alone, and empty lines may stand before the first one.

TEXT = rb"[\t -~\x80-\xff]"
STATUS_LINE = [b"H", b"T", b"T", b"P", b"/", b"1", rb"\.", b"[01]", b" ", rb"\d", rb"\d", rb"\d", b"(?: " + TEXT + b"*)?"]
FIELD = [rb"[!#$%&'*+.^_`|~0-9A-Za-z-]+", b":", TEXT + b"*"]


def is_line(parts, line):
    return re.fullmatch(b"".join(parts), line)


def is_front(parts, line):
    """Whether a line that hasn't ended may become one of these parts, or an empty one."""
    pattern = rb"\r?"
    for part in reversed(parts):
        pattern = b"(?:" + part + pattern + b")?"
    return line == b"\r" or re.fullmatch(pattern, line)


class Head:
    def __init__(self, lines):
        self.minor, self.status = lines[0][7] - 48, int(lines[0][9:12])
        fields = (line.partition(b":") for line in lines[1:])
        self.fields = [(name.lower(), value.strip(b" \t")) for name, _, value in fields]

    def values(self, name):
        return [value for field, value in self.fields if field == name]


def read_head(stream):
    """The head at the front of a stream that has ended, and what stands behind it."""
    at = re.match(rb"(?:\r?\n)*", stream).end()
    lines = []
    while (end := stream.find(b"\n", at)) >= 0:
        line, at = stream[at:end].removesuffix(b"\r"), end + 1
        if lines and line == b"":
            if at > HEAD_BYTES or len(lines) - 1 > HEAD_FIELDS:
                raise Loss(HTTP_REPLY)
            return Head(lines), stream[at:]
        if not is_line(FIELD if lines else STATUS_LINE, line):
            raise Loss(HTTP_REPLY)
        lines.append(line)
    if len(stream) >= HEAD_BYTES or not is_front(FIELD if lines else STATUS_LINE, stream[at:]):
        raise Loss(HTTP_REPLY)
    raise Loss(NETWORK)


def read_final_head(stream):
    """The first head that isn't an interim one."""
    for _ in range(INTERIM_HEADS + 1):
        head, stream = read_head(stream)
        if head.status // 100 != 1:
            return head, stream
    raise Loss(HTTP_REPLY)


def number_of(text):
    """A number in decimal digits."""
    return int(text) if re.fullmatch(rb"\d+", text) and int(text) < NUMBER_LIMIT else None


def framing_of(head):
    """How long the content is: a number, `chunked` or `end`."""
    codings = head.values(b"transfer-encoding")
    if codings:
        if len(codings) == 1 and codings[0].lower() == b"chunked":
            return "chunked"
        raise Loss(HTTP_REPLY)
    lengths = {number_of(value) for value in head.values(b"content-length")}
    if not lengths:
        return "end"
    if len(lengths) > 1 or None in lengths:
        raise Loss(HTTP_REPLY)
    return lengths.pop()


def range_of(head):
    """The places and the length that the one Content-Range tells, each of them or none."""
    values = head.values(b"content-range")
    found = re.fullmatch(rb"bytes (?:(\d+)-(\d+)/(\d+|\*)|\*/(\d+))", values[0]) if len(values) == 1 else None
    if not found:
        return None
    first, last, total, alone = (None if it in (None, b"*") else number_of(it) for it in found.groups())
    if found[4] is not None:
        return None if alone is None else (None, None, alone)
    if first is None or last is None or total is None and found[3] != b"*":
        return None
    if last < first or total is not None and total <= last:
        return None
    return first, last, total


def refusal_of(head):
    """The status of a reply that gives nothing."""
    return {401: LOGIN, 404: NOT_FOUND, 503: OVERLOADED}.get(head.status, HTTP_REPLY)


def is_redirect(head):
    return head.status in (301, 302, 303, 307, 308) and len(head.values(b"location")) == 1


def target_of(url, head):
    """Where a redirect leads to."""
    location = head.values(b"location")[0].decode("latin-1")
    target = location if re.match("[A-Za-z]+:", location) else urljoin(url, location)
    if not re.match(r"(?i)http://[a-z0-9.]+(:\d+)?(/|$)", target) or not target.isascii():
        raise Loss(HTTP_REPLY)
    return target


def told_part(head, first, last, total):
    """Of a 206: from where on the content is, up to where, and its framing."""
    span, framing = range_of(head), framing_of(head)
    if span is None or span[0] != first or span[1] > last:
        raise Loss(HTTP_REPLY)
    if isinstance(framing, int) and framing != span[1] - span[0] + 1:
        raise Loss(HTTP_REPLY)
    if span[2] not in (None, total):
        raise Loss(HTTP_REPLY)
    return first, span[1], framing


def told_content(head, first, last, total):
    """Of a reply to the request for a part: from where on the content is, up to where it is read, and its framing."""
    if head.status not in (200, 206) or head.values(b"content-encoding") not in ([], [b"identity"]):
        raise Loss(refusal_of(head))
    if head.status == 206:
        return told_part(head, first, last, total)
    framing = framing_of(head)
    if isinstance(framing, int) and framing != total:
        raise Loss(HTTP_REPLY)
    return 0, last, framing


def told_length(head):
    """The length that the reply to the request for the first byte tells."""
    span = range_of(head)
    if head.status == 416 and span == (None, None, 0):
        return 0
    if head.status not in (200, 206) or head.values(b"content-encoding") not in ([], [b"identity"]):
        raise Loss(refusal_of(head))
    framing = framing_of(head)
    if head.status == 206:
        told_part(head, 0, 0, span and span[2])
        if span[2] is None:
            raise Loss(HTTP_REPLY)
        return span[2]
    if not isinstance(framing, int):
        raise Loss(HTTP_REPLY)
    return framing


def chunk_line(stream):
    """The line at the front, and what stands behind it. Without an end it is too long, or may go on."""
    line, end, rest = stream.partition(b"\r\n")
    if len(line if end else line.removesuffix(b"\r")) > CHUNK_LINE:
        raise Loss(HTTP_REPLY)
    if not end:
        raise Loss(NETWORK)
    return line, rest


def chunks(stream):
    """The content of chunks, one by one. Where they end, or break a rule, the loss is that of what lacks then."""
    while True:
        line, stream = chunk_line(stream)
        found = re.fullmatch(rb"([0-9A-Fa-f]+)(?:;.*)?", line, re.DOTALL)
        if not found or int(found[1], 16) >= CHUNK_LIMIT:
            raise Loss(HTTP_REPLY)
        size = int(found[1], 16)
        if size == 0:
            break
        yield stream[:size]
        behind = stream[size:]
        if not b"\r\n".startswith(behind[:2]):
            raise Loss(HTTP_REPLY)
        if len(behind) < 2:
            raise Loss(NETWORK)
        stream = behind[2:]
    for _ in range(TRAILER_LINES + 1):
        line, stream = chunk_line(stream)
        if line == b"":
            raise Loss(NETWORK)
    raise Loss(HTTP_REPLY)


def content_of(framing, stream, want):
    """The first bytes of the content, so many, before it is lost."""
    if framing != "chunked":
        came = stream[:want] if framing == "end" else stream[:min(want, framing)]
        return came, None if len(came) == want else Loss(NETWORK)
    came = b""
    try:
        for chunk in chunks(stream):
            came += chunk
            if len(came) >= want:
                return came[:want], None
    except Loss as loss:
        return came, loss
    raise AssertionError("chunks end by a loss")


class Mirror:
    """The mirror of a URL of HTTP."""

    def __init__(self, url, talk):
        self.url, self.talk, self.is_kept = url, talk, False

    def ask(self):
        """The reply to a request. Over a connection that was kept it is asked once more where nothing comes."""
        stream = self.talk.ask()
        if self.is_kept and not stream:
            stream = self.talk.ask()
        self.is_kept = False
        return read_final_head(stream)

    def reply(self):
        """The reply to a request with its redirects."""
        url = self.url
        for _ in range(MOST_REDIRECTS + 1):
            head, stream = self.ask()
            if not is_redirect(head):
                return head, stream
            url = target_of(url, head)
        raise Loss(REDIRECTS)

    def length(self):
        head, _ = self.reply()
        return told_length(head)

    def part(self, first, want, total):
        came = b""
        while len(came) < want:
            try:
                head, stream = self.reply()
                begin, last, framing = told_content(head, first + len(came), first + want - 1, total)
            except Loss as loss:
                raise Loss(loss.status, came) from None
            skip = first + len(came) - begin
            more, loss = content_of(framing, stream, last + 1 - begin)
            came += more[skip:]
            if loss:
                raise Loss(loss.status, came)
            options = b",".join(head.values(b"connection")).lower().split(b",")
            is_read = framing == len(stream) == last + 1 - begin
            self.is_kept = is_read and head.minor == 1 and b"close" not in [it.strip() for it in options]
        return came


# Replies of FTP.

def read_reply(said):
    """The code and the last line of the reply at the front of what a server said before the connection ended."""
    lines = said.split(b"\r\n")
    rest = lines.pop()
    if not re.fullmatch(rb"\d{0,3}|\d{3}[ -].*", said, re.DOTALL):
        raise Loss(HTTP_REPLY)
    for number, line in enumerate(lines):
        if number == FTP_LINES or len(line) + 2 > FTP_LINE:
            raise Loss(HTTP_REPLY)
        if line.startswith(said[:3] + b" "):
            return int(said[:3]), line
    if len(lines) >= FTP_LINES or len(rest.removesuffix(b"\r")) + 2 > FTP_LINE:
        raise Loss(HTTP_REPLY)
    raise Loss(NETWORK)


class FtpMirror:
    """The mirror of a URL of FTP."""

    def __init__(self, url, talk):
        self.talk = talk

    def hear(self, due, refusal=FTP_COMMAND, missing=None):
        code, line = read_reply(self.talk.ask())
        if code not in due:
            raise Loss(NOT_FOUND if code == missing else refusal)
        return code, line

    def length(self):
        self.hear({220}, OVERLOADED)
        if self.hear({230, 331})[0] == 331:
            self.hear({230})
        self.hear({200})
        _, line = self.hear({213}, missing=550)
        found = re.fullmatch(rb"213 (\d+)", line)
        if not found or int(found[1]) >= NUMBER_LIMIT:
            raise Loss(HTTP_REPLY)
        return int(found[1])

    def part(self, first, want, total):
        if self.length() != total:
            raise Loss(HTTP_REPLY)
        _, line = self.hear({227})
        numbers = re.search(rb"\((\d+),(\d+),(\d+),(\d+),(\d+),(\d+)\)", line)
        texts = numbers.groups() if numbers else ()
        is_address = texts and all(int(it) < 256 and it == str(int(it)).encode() for it in texts)
        if not is_address or int(texts[4]) + int(texts[5]) == 0:
            raise Loss(HTTP_REPLY)
        data = self.talk.open_data()
        if first > 0:
            self.hear({350})
        self.hear({125, 150}, missing=550)
        if len(data) < want:
            raise Loss(NETWORK, data)
        return data[:want]


# URLs.

def is_ftp(url):
    """Whether a URL of FTP may be asked for: nobody logs in, and its path is a text of one line."""
    place = urlsplit(url)
    path = unquote_to_bytes(place.path)[1:]
    try:
        path.decode()
    except UnicodeDecodeError:
        return False
    return place.scheme == "ftp" and "@" not in place.netloc and path != b"" and not set(path) & set(b"\r\n\0")


def is_usable(url):
    return is_ftp(url) or urlsplit(url).scheme == "http"


def mirror_of(url, talk):
    return (FtpMirror if is_ftp(url) else Mirror)(url, talk)
