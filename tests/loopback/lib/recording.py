"""A server that answers by a script and records what comes over each connection, and what its replies consist of."""
import itertools
import re
from typing import NamedTuple

from lib.mirrors import Mirror, head, one_request, reply, sends

OK = b"200 OK"
CHUNKED = b"Transfer-Encoding: chunked"


class Asked(NamedTuple):
    """The resource of a request, and the first and the last byte of it that are asked for."""

    target: str
    first: int
    last: int


class Recording(Mirror):
    """Answers requests by its script, and records all bytes that come over its connections.

    The script is a list of replies, one for each request, or a function that has the reply for what is asked. A reply
    is some bytes, behind which the connection may bring another request, or a function that serves the connection to its
    end. A request for which there is no reply ends its connection.
    """

    def __init__(self, script, host="127.0.0.1"):
        super().__init__(None, host)
        self.script = script

    def converse(self, connection):
        while asked := one_request(connection):
            place = len(self.requests)
            self.requests.append(asked)
            said = self.reply_to(place)
            if not isinstance(said, bytes):
                if said is not None:
                    self.requests[place] += said(connection) or b""
                return
            connection.sendall(said)

    def reply_to(self, place):
        if callable(self.script):
            return self.script(asked_by(self.requests[place]))
        return self.script[place] if place < len(self.script) else None


def asked_by(request):
    found = re.match(rb"GET (\S+) HTTP/1\.1\r\n(?s:.*)\r\nRange: bytes=(\d+)-(\d+)\r\n", request)
    return Asked(found[1].decode(), int(found[2]), int(found[3]))


def in_chunks(content, *sizes, extension=b"", trailers=()):
    """The content in chunks of these sizes, of which the last one holds for all that follow (RFC 9112 section 7.1)."""
    written = []
    at = 0
    for size in itertools.chain(sizes or [len(content)], itertools.repeat(sizes[-1] if sizes else 1)):
        if at >= len(content):
            break
        chunk = content[at : at + size]
        at += size
        written.append(b"%x%s\r\n%s\r\n" % (len(chunk), extension, chunk))
    return b"".join([*written, b"0%s\r\n" % extension, *(b"%s\r\n" % it for it in trailers), b"\r\n"])


def range_field(first, last, total):
    return b"Content-Range: bytes %d-%d/%d" % (first, last, total)


def moved(location, status=302):
    """A reply that says where else the resource is."""
    fields = [b"Location: %s" % location, b"Content-Length: 0"]
    return head(*fields, status=b"%d Moved" % status)


def interims(count, *fields):
    """So many heads before the final one (RFC 9110 section 15.2)."""
    statuses = itertools.cycle([b"100 Continue", b"103 Early Hints", b"102 Processing", b"199 Wait"])
    return b"".join(head(*fields, status=it) for it in itertools.islice(statuses, count))


# How a mirror may answer a request for a part of a resource: each has the reply, by the content and the asked bytes.


def part(content, first, last):
    return reply(content[first : last + 1], first=first, total=len(content))


def part_in_chunks(content, first, last):
    fields = [range_field(first, last, len(content)), CHUNKED]
    return head(*fields) + in_chunks(content[first : last + 1], 1, 2, 3, 1000, extension=b";a=b", trailers=[b"X: y"])


def part_to_end(content, first, last):
    return sends(head(range_field(first, last, len(content))) + content[first : last + 1])


def part_after_interims(content, first, last):
    return interims(8) + part(content, first, last)


def shorter(most):
    """Parts of so many bytes at most."""
    return lambda content, first, last: part(content, first, min(last, first + most - 1))


def whole(content, *_):
    return head(b"Content-Length: %d" % len(content), status=OK) + content


def whole_to_end(content, *_):
    return sends(head(status=OK) + content)


def whole_in_chunks(content, *_):
    return head(CHUNKED, status=OK) + in_chunks(content, 7, 1000)


MANNERS = {
    "in chunks": part_in_chunks,
    "up to the end of the connection": part_to_end,
    "after 8 interim heads": part_after_interims,
    "with the whole file": whole,
    "with the whole file up to the end of the connection": whole_to_end,
    "with the whole file in chunks": whole_in_chunks,
}


def by_manner(files, manner):
    """A script by which files are served in this manner, by their targets."""
    return lambda asked: manner(files[asked.target], asked.first, asked.last)
