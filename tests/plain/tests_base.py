#!/usr/bin/env -S python3 -B
"""Writes what crates/tests_base has to print, from its case files, and the random cases among them.

With --check it compares instead. It was written from BEP 3 and BEP 19, RFC 9110 and RFC 9112, docs/DEFINITIONS.md and
docs/LIMITS.md, apart from the program: whole streams and whole lists, and Python's own integers and SHA.
"""
import hashlib
import random
import re
import sys

import case_files
from case_files import settle, told_lines
from path_parts import is_part

CRATE = "tests_base"
RANDOM = f"crates/{CRATE}/data/random.txt"
BLOCK = 16384
MOST_PAYLOAD = 4398046511104


class Refused(Exception):
    """Why something isn't read."""


def spelled(parts):
    return case_files.spelled(parts.replace("|", "%0d%0a"))


def shown(data):
    if len(data) > 300:
        return f"{len(data)} bytes of {hashlib.sha1(data).hexdigest()}"
    text = "".join(chr(byte) if 0x20 <= byte < 0x7f and byte not in b"%|" else f"%{byte:02X}" for byte in data)
    return text.replace("%0D%0A", "|")


# Bencoding (BEP 3). A value is its kind, where it begins and ends, and what it holds.

def scalar_at(data, at):
    """An integer or a string, none for what is neither."""
    found = re.compile(rb"i(0|-?[1-9][0-9]*)e").match(data, at)
    if found:
        return ("integer", at, found.end(), int(found[1]))
    found = re.compile(rb"(0|[1-9][0-9]*):").match(data, at)
    if found and int(found[1]) <= len(data) - found.end():
        end = found.end() + int(found[1])
        return ("string", at, end, data[found.end():end])
    return None


def value_at(data, at, depth):
    first, scalar = data[at:at + 1], scalar_at(data, at)
    if first not in (b"l", b"d") and not scalar:
        raise Refused(f"wrong at {at}")
    if depth == 100:
        raise Refused(f"too deep at {at}")
    if first == b"l":
        return list_at(data, at, depth)
    if first == b"d":
        return dictionary_at(data, at, depth)
    if scalar[0] == "integer" and not -(1 << 63) <= scalar[3] < 1 << 63:
        raise Refused(f"too wide at {at}")
    return scalar


def list_at(data, at, depth):
    items, here = [], at + 1
    while data[here:here + 1] != b"e":
        items.append(value_at(data, here, depth + 1))
        here = items[-1][2]
    return ("list", at, here + 1, items)


def dictionary_at(data, at, depth):
    members, here, last = {}, at + 1, None
    while data[here:here + 1] != b"e":
        key = scalar_at(data, here)
        if not key or key[0] != "string" or (last is not None and key[3] <= last):
            raise Refused(f"wrong at {here}")
        last = key[3]
        members[last] = value_at(data, key[2], depth + 1)
        here = members[last][2]
    return ("dictionary", at, here + 1, members)


def bencoded(data):
    value = value_at(data, 0, 0)
    if value[2] != len(data):
        raise Refused(f"trailing at {value[2]}")
    return value


def value_told(value):
    kind, start, end, held = value
    if kind == "integer":
        told = str(held)
    elif kind == "string":
        told = shown(held)
    elif kind == "list":
        told = f"of {len(held)}"
    else:
        told = f"of {len(held)}:" + "".join(f" {shown(key)}" for key in held)
    return f"{start} to {end}, {kind} {told}"


def looking(path, data):
    value = bencoded(data)
    for step in path.split("/"):
        kind, _, _, held = value
        if kind == "list" and step.isdigit() and int(step) < len(held):
            value = held[int(step)]
        elif kind == "dictionary" and step.encode() in held:
            value = held[step.encode()]
        else:
            return "nothing"
    return value_told(value)


# Bodies of whole streams (RFC 9112 sections 6 and 7): the content, the bytes used, and whole, short or a fault.

def line_at(stream, at, most, fault):
    """The text of a line and where the next one begins. A CR at the end of the stream may end it."""
    end = stream.find(b"\r\n", at)
    text = stream[at:end] if end >= 0 else stream[at:].removesuffix(b"\r")
    if len(text) > most:
        raise Refused(fault)
    if end < 0:
        raise Refused("short")
    return text, end + 2


def size_at(stream, at):
    """A chunk's size. A byte that no size line has is found before the line is too long."""
    if at == len(stream):
        raise Refused("short")
    end = stream.find(b"\r\n", at)
    text = stream[at:end] if end >= 0 else stream[at:].removesuffix(b"\r")
    digits = text[:257].split(b";")[0]
    if not re.fullmatch(rb"[0-9a-fA-F]+", digits) or int(digits, 16) >= 1 << 32:
        raise Refused("bad chunk")
    return int(digits, 16), line_at(stream, at, 256, "line too long")[1]


def chunked(stream):
    content, at = b"", 0
    try:
        while True:
            size, at = size_at(stream, at)
            if size == 0:
                break
            content += stream[at:at + size]
            at = min(at + size, len(stream))
            at = line_at(stream, at, 0, "bad chunk")[1]
        for number in range(65):
            text, at = line_at(stream, at, 256 if number < 64 else 0, "line too long")
            if text == b"":
                return content, at, "whole"
    except Refused as refused:
        return content, len(stream), str(refused)


def body(framing, stream):
    if framing == "chunked":
        return chunked(stream)
    if framing == "to-end":
        return stream, len(stream), "whole"
    most = int(framing)
    return stream[:most], min(most, len(stream)), "whole" if most <= len(stream) else "short"


def body_told(framing, stream):
    content, used, standing = body(framing, stream)
    if standing not in ("whole", "short"):
        return f"{shown(content)}; {standing}, short"
    done = "done" if standing == "whole" and framing != "to-end" else "open"
    return f"{shown(content)}; {used} used, {done}, {standing}"


# Heads of replies (RFC 9112 sections 2 to 5): a status line and fields, whose lines end in LF or CR LF.

TOKEN = rb"[!#$%&'*+.^_`|~0-9A-Za-z-]"
VALUE = rb"[\t\x20-\x7e\x80-\xff]"


def may_begin(line, number):
    """Whether bytes can become the line of this number: the status line, or a field or the empty line."""
    if number:
        return re.fullmatch(rb"\r?|%b+|%b+:%b*\r?" % (TOKEN, TOKEN, VALUE), line)
    front = b"HTTP/1.1 200"
    if len(line) <= len(front):
        shape = bytes(49 if place == 7 and byte == 48 else 50 if place == 9 and 48 <= byte < 58
                      else 48 if place > 9 and 48 <= byte < 58 else byte for place, byte in enumerate(line))
        return front.startswith(shape)
    return re.fullmatch(rb"HTTP/1\.[01] [0-9]{3}(\r| %b*\r?)" % VALUE, line)


def head(data):
    """What a head says, and its length; "unfinished" or "no head" is raised where none is there."""
    lines, at = [], 0
    while True:
        end = data.find(b"\n", at)
        line = data[at:] if end < 0 else data[at:end].removesuffix(b"\r")
        if end < 0 or at + len(line) >= 65536:
            good = may_begin(line, len(lines)) and len(data) < 65536
            raise Refused("unfinished" if good else "no head")
        pattern = rb"%b+:%b*" % (TOKEN, VALUE) if lines else rb"HTTP/1\.[01] [0-9]{3}( %b*)?" % VALUE
        at = end + 1
        if lines and line == b"":
            break
        if not re.fullmatch(pattern, line):
            raise Refused("no head")
        lines.append(line)
    if len(lines) > 65 or at > 65536:
        raise Refused("no head")
    fields = [line.split(b":", 1) for line in lines[1:]]
    fields = [(name.lower().decode(), value.strip(b" \t")) for name, value in fields]
    return int(lines[0][9:12]), int(lines[0][7:8]), fields, at


def values(fields, name):
    return [value for other, value in fields if other == name]


def number_of(text):
    return int(text) if re.fullmatch(rb"[0-9]+", text) and int(text) < 1 << 63 else None


def content_range(text):
    """First, last and total of a Content-Range (RFC 9110 section 14.4), with none for what a star stands for."""
    found = re.fullmatch(rb"bytes (?:\*|([0-9]+)-([0-9]+))/(?:\*|([0-9]+))", text)
    if not found or any(part is not None and number_of(part) is None for part in found.groups()):
        return None
    first, last, total = (None if part is None else int(part) for part in found.groups())
    if first is None and total is None:
        return None
    if first is not None and (first > last or (total is not None and last >= total)):
        return None
    return first, last, total


def range_told(text):
    found = content_range(text)
    if not found:
        return "none"
    first, last, total = found
    return f"{'*' if first is None else f'{first}-{last}'}/{'*' if total is None else total}"


def framing(fields):
    """A length, "chunked" or "to the end"; none for another coding and for lengths that aren't one number."""
    codings, lengths = values(fields, "transfer-encoding"), values(fields, "content-length")
    if codings:
        return "chunked" if len(codings) == 1 and codings[0].lower() == b"chunked" else None
    if not lengths:
        return "to the end"
    numbers = {number_of(length) for length in lengths}
    return numbers.pop() if len(numbers) == 1 else None


def sized(known, told, verdict):
    if known is None and told is None:
        return "refused, 22"
    if known is not None and told is not None and known != told:
        return f"wrong length {told}"
    return verdict


def content_verdict(status, fields, first, last, known):
    coding = framing(fields)
    if coding is None or any(value.lower() != b"identity" for value in values(fields, "content-encoding")):
        return "refused, 22"
    told = coding if isinstance(coding, int) else None
    coding = f"{coding} bytes" if isinstance(coding, int) else coding
    if status == 200:
        return sized(known, told, f"all of {'*' if told is None else told}, {coding}")
    ranges = values(fields, "content-range")
    found = content_range(ranges[0]) if len(ranges) == 1 else None
    if not found or found[0] is None or found[0] != first or found[1] > last:
        return "refused, 22"
    if told is not None and told != found[1] - first + 1:
        return "refused, 22"
    return sized(known, found[2], f"up to {found[1]} of {'*' if found[2] is None else found[2]}, {coding}")


def verdict(status, fields, first, last, known):
    if status in (404, 401, 503):
        return {404: "not found", 401: "refused, 24", 503: "refused, 29"}[status]
    if status in (301, 302, 303, 307, 308) and len(values(fields, "location")) == 1:
        return "moved"
    ranges = values(fields, "content-range")
    if status == 416 and known is None and len(ranges) == 1 and content_range(ranges[0]) == (None, None, 0):
        return "empty"
    if status in (200, 206):
        return content_verdict(status, fields, first, last, known)
    return "refused, 22"


def asked_of(text):
    span, slash, total = text.partition("/")
    first, last = span.split("-")
    return int(first), int(last), int(total) if slash else None


def reply_told(asked, data):
    status, minor, fields, used = head(data)
    options = [it.strip(b" \t").lower() for value in values(fields, "connection") for it in value.split(b",")]
    goes_on = minor == 1 and b"close" not in options
    told = f"{verdict(status, fields, *asked_of(asked))}; {used} bytes, {'goes on' if goes_on else 'closes'}"
    places = values(fields, "location")
    try:
        return told + (f", moved to '{places[0].decode()}'" if len(places) == 1 else "")
    except UnicodeDecodeError:
        return told


def request_told(asked, host, target):
    first, last, _ = asked_of(asked)
    text = (f"GET {target} HTTP/1.1\r\nHost: {host}\r\nUser-Agent: aria_cli\r\nAccept: */*\r\n"
            f"Accept-Encoding: identity\r\nRange: bytes={first}-{last}\r\n\r\n").encode()
    return f"{len(text)} bytes: {shown(text)}"


# Replies: interim heads and the final one, and parts of a content.

def heads_told(stream):
    at = interims = 0
    while True:
        try:
            status, _, _, used = head(stream[at:])
        except Refused as refused:
            return "due" if str(refused) == "unfinished" else "bad"
        at += used
        if not 100 <= status < 200:
            return f"{status} {at}"
        interims += 1
        if interims > 8:
            return "bad"


def slice_told(coding, skip, count, stream):
    content, _, standing = body(coding, stream)
    came = content[skip:skip + count]
    if stream and len(came) == count:
        state = "all came"
    elif standing not in ("whole", "short"):
        state = "wrong"
    elif stream and standing == "whole" and coding != "to-end":
        state = "over"
    else:
        state = "more"
    return f"{shown(came)}; {state}"


def mark_told(words):
    """The exit status of the aria2 manual that is held against a mirror, and the count of the link's faults."""
    statuses = {"link": 6, "not-found": 3, "bad-reply": 22, "length": 22, "short": 6, "redirects": 23}
    if words[0] == "memory":
        return "none"
    code = words[2] if words[0] == "refused" else statuses[words[0]]
    return f"{code} {words[1] if words[0] == 'link' else 0}"


# Layouts (BEP 3).

def check_paths(paths, bad, repeated):
    """Each path has 1 to 64 good parts, and none is that of an earlier file, or one the folder of the other."""
    taken, folders = set(), set()
    for number, path in enumerate(paths):
        fronts = {tuple(path[:count]) for count in range(1, len(path))}
        if not 1 <= len(path) <= 64 or not all(map(is_part, path)):
            raise Refused(f"{bad} {number}")
        if tuple(path) in taken | folders or fronts & taken:
            raise Refused(f"{repeated} {number}")
        taken.add(tuple(path))
        folders |= fronts


def layout(words):
    files = []
    for word in words:
        names, length = word.split(":")
        files.append(([spelled(name) for name in names.split("/")] if names else [], int(length)))
    if not files:
        raise Refused("no file")
    check_paths([path for path, _ in files], "bad path", "repeated")
    if sum(length for _, length in files) > MOST_PAYLOAD:
        raise Refused("too long")
    return files


def parts_of(lengths, at, count):
    """What each file shares with the bytes, none of it empty: the file's number, where, and how many bytes."""
    start, parts = 0, []
    for number, length in enumerate(lengths):
        first, end = max(at, start), min(at + count, start + length)
        if first < end:
            parts.append((number, first - start, end - first))
        start += length
    return parts


def parts_told(at, count, words):
    lengths = [length for _, length in layout(words)]
    if at + count > sum(lengths):
        return "beyond the end"
    return ", ".join(f"{first}+{many} of file {number}" for number, first, many in parts_of(lengths, at, count))


# Plans of pieces and blocks.

def up(number, unit):
    return -(-number // unit)


def plan(total, piece_len):
    """How many pieces and blocks there are, none beyond the limits."""
    if not 1 <= piece_len <= 67108864:
        return None
    pieces = up(total, piece_len)
    full = max(pieces - 1, 0)
    blocks = full * up(piece_len, BLOCK) + up(total - full * piece_len, BLOCK)
    return (pieces, blocks) if pieces <= 1048576 and blocks <= 268435456 else None


def block_span(total, piece_len, block):
    piece, place = divmod(block, up(piece_len, BLOCK))
    start = piece * piece_len + place * BLOCK
    return start, min(BLOCK, (piece + 1) * piece_len - start, total - start), piece


def plan_told(word, total, piece_len, *rest):
    found = plan(total, piece_len)
    if word == "plan":
        return f"{found[0]} pieces, {found[1]} blocks" if found else "none"
    if word == "block":
        if rest[0] >= found[1]:
            return "no such block"
        start, count, piece = block_span(total, piece_len, rest[0])
        return f"{start}+{count}, piece {piece}"
    if rest[0] >= found[0]:
        return "no such piece"
    start = rest[0] * piece_len
    count = min(piece_len, total - start)
    return f"{start}+{count}, blocks {rest[0] * up(piece_len, BLOCK)}+{up(count, BLOCK)}"


def half_told(first, count):
    if first + count >= 1 << 32:
        return "no such blocks"
    return f"{first + count - count // 2}+{count // 2}"


# Metainfo files (BEP 3, BEP 19), by the first rule that is broken.

def sought(members, key, kind, good=lambda held: True):
    """What the dictionary has under the key."""
    if key.encode() not in members:
        raise Refused(f"lacks {key}")
    value = members[key.encode()]
    if value[0] != kind or not good(value[3]):
        raise Refused(f"bad {key}")
    return value[3]


def files_of(name, info):
    if b"files" in info and b"length" in info:
        raise Refused("bad files")
    if b"files" not in info:
        return [([name], sought(info, "length", "integer", lambda length: length >= 0))]
    items = sought(info, "files", "list", lambda items: items and all(item[0] == "dictionary" for item in items))
    files = []
    for _, _, _, members in items:
        length = sought(members, "length", "integer", lambda length: length >= 0)
        path = sought(members, "path", "list", lambda parts: all(part[0] == "string" for part in parts))
        files.append(([name] + [part[3] for part in path], length))
    check_paths([path if len(path) > 1 else [] for path, _ in files], "bad path", "bad path")
    return files


def is_seed(url):
    """An http URL, or the ftp URL of a file; of hosts this judges plain names alone."""
    if re.match(rb"(?i)(http|ftp):", url):
        parts = re.fullmatch(rb"(?i)(http|ftp)://[a-z][a-z0-9.]*(:[0-9]{1,4})?(/[!-~]*)?", url)
        assert parts, url
        return parts[1].lower() == b"http" or parts[3] not in (None, b"/")
    return False


def seeds_of(root):
    if b"url-list" not in root:
        return []
    kind, _, _, held = root[b"url-list"]
    if kind == "string":
        return [held] if is_seed(held) else []
    if kind != "list":
        raise Refused("bad url-list")
    for number, item in enumerate(held):
        if item[0] != "string":
            raise Refused(f"bad seed {number}")
    return [item[3] for item in held if is_seed(item[3])][:256]


def metainfo(data):
    root = bencoded(data)
    if root[0] != "dictionary":
        raise Refused("bad info")
    info = sought(root[3], "info", "dictionary")
    name = sought(info, "name", "string", is_part)
    piece_len = sought(info, "piece length", "integer")
    if not 1 <= piece_len <= 67108864:
        raise Refused("too large piece length")
    digests = sought(info, "pieces", "string", lambda held: len(held) % 20 == 0)
    files = files_of(name, info)
    total = sum(length for _, length in files)
    found = plan(total, piece_len)
    if total > MOST_PAYLOAD or not found:
        raise Refused("too large length")
    if len(digests) != 20 * found[0]:
        raise Refused(f"{len(digests) // 20} digests for {found[0]}")
    _, start, end, _ = root[3][b"info"]
    return name, piece_len, digests, files, total, found, seeds_of(root[3]), hashlib.sha1(data[start:end]).hexdigest()


def meta_told(data):
    name, piece_len, digests, files, total, found, seeds, info_hash = metainfo(data)
    paths = "".join(f" {'/'.join(map(shown, path))}:{length}" for path, length in files)
    first = "".join(f" {digests[20 * place:20 * place + 20].hex()}" for place in range(min(3, found[0])))
    urls = "".join(f" {seed.decode()}" for seed in seeds)
    return (f"{shown(name)}; {total} bytes in {found[0]} pieces of {piece_len}; {len(files)} files:{paths}; "
            f"{found[0]} digests:{first}; {len(seeds)} seeds:{urls}; hash {info_hash}")


def seed_url(base, path):
    if len(path) == 1 and not base.endswith("/"):
        return base
    unreserved = b"ABCDEFGHIJKLMNOPQRSTUVWXYZabcdefghijklmnopqrstuvwxyz0123456789-._~"
    escaped = ["".join(chr(byte) if byte in unreserved else f"%{byte:02X}" for byte in part) for part in path]
    return base.removesuffix("/") + "/" + "/".join(escaped)


def url_told(number, base, data):
    files = metainfo(data)[3]
    return seed_url(base, files[number][0]) if number < len(files) else "no such file"


def parts_shown(parts):
    return f"{len(parts)} parts" + ", none" * (not parts) + "".join(
        f"; {at}+{count} of {total} at {url}" for at, count, total, url in parts)


def job_told(first, count, base, data):
    _, piece_len, _, files, total, found, _, _ = metainfo(data)
    if count == 0 or first + count > found[1]:
        return "no such blocks"
    start, (last, last_len, _) = block_span(total, piece_len, first)[0], block_span(total, piece_len, first + count - 1)
    parts = parts_of([length for _, length in files], start, last + last_len - start)
    return parts_shown([(at, many, files[number][1], seed_url(base, files[number][0])) for number, at, many in parts])


def added_told(line):
    parts = [part.partition("=") for part in line.split(",")] if line else []
    return parts_shown([(*numbers.split("/"), url) for numbers, _, url in parts])


# Rows of truth values.

def row(digits, count):
    data = bytes.fromhex(digits)
    if len(data) != up(count, 8):
        raise Refused("another length")
    bits = "".join(f"{byte:08b}" for byte in data)
    if "1" in bits[count:]:
        raise Refused("spare bits")
    return bits[:count]


def row_told(bits):
    data = bytes(int(bits[place:place + 8].ljust(8, "0"), 2) for place in range(0, len(bits), 8))
    places = "".join(f" {place}" for place, bit in enumerate(bits) if bit == "1")
    return f"{len(bits)} values, true:{places}; {bits.count('1')} of them; bytes {data.hex()}"


def turned(count, words):
    bits = ["0"] * count
    for word in words:
        bits[int(word.removeprefix("-"))] = "0" if word.startswith("-") else "1"
    return row_told("".join(bits))


def zeros(bits, start):
    first = bits.find("0", start)
    end = bits.find("1", first)
    return "none" if first < 0 else f"{first}+{(len(bits) if end < 0 else end) - first}"


def next_place(bits, start, end, wanted):
    place = bits.find("1" if wanted == "true" else "0", start, end)
    return str(end if place < 0 else place)


# Token buckets, in thousandths of a byte.

class Bucket:
    def __init__(self, rate, now):
        self.rate, self.now = rate, now
        self.held = self.most()

    def most(self):
        return 1000 * max(self.rate, 16384)

    def held_at(self, now):
        return min(self.most(), self.held + self.rate * max(0, now - self.now))

    def go_on(self, now):
        self.held, self.now = self.held_at(now), max(self.now, now)

    def wait(self, now):
        return 0 if self.rate == 0 else max(0, up(1000 - self.held_at(now), self.rate))

    def line(self, word, number, now):
        if word == "credit":
            credit = (1 << 64) - 1 if self.rate == 0 else self.held_at(number) // 1000
            return f"{credit}, in {self.wait(number)} ms"
        self.go_on(now)
        if word == "rate":
            unlimited, self.rate = self.rate == 0, number
            self.held = self.most() if unlimited else min(self.held, self.most())
            return f"{number} a second"
        if self.rate == 0:
            return f"go {number}"
        count = min(number, self.held // 1000)
        self.held -= 1000 * count
        return f"go {count}" if count else f"hold {self.wait(self.now)}"


class Told:
    """What comes of the lines of a file."""

    def begin(self):
        self.bucket = Bucket(0, 0)

    def line(self, line):
        if line.startswith("cuts "):
            return None
        try:
            return self.answer(line)
        except Refused as refused:
            return str(refused)

    def answer(self, line):
        word, _, rest = line.partition(" ")
        words = rest.split(" ")
        if word in ("bucket", "rate", "take", "credit"):
            numbers = [int(number) for number in words]
            if word == "bucket":
                self.bucket = Bucket(*numbers)
                return f"{numbers[0]} a second"
            return self.bucket.line(word, numbers[0], numbers[-1])
        return ANSWERS[word](word, rest, words)


ANSWERS = {
    "ben": lambda word, rest, words: value_told(bencoded(spelled(rest))),
    "look": lambda word, rest, words: looking(words[0], spelled(rest.partition(" ")[2])),
    "body": lambda word, rest, words: body_told(words[0], spelled(rest.partition(" ")[2])),
    "range": lambda word, rest, words: range_told(spelled(rest)),
    "reply": lambda word, rest, words: reply_told(words[0], spelled(rest.partition(" ")[2])),
    "request": lambda word, rest, words: request_told(*words),
    "heads": lambda word, rest, words: heads_told(spelled(rest)),
    "slice": lambda word, rest, words: slice_told(
        words[0], int(words[1]), int(words[2]), spelled(rest.split(" ", 3)[3])),
    "mark": lambda word, rest, words: mark_told(words),
    "layout": lambda word, rest, words: "{} files of {}".format(
        len(files := layout(words if rest else [])), sum(length for _, length in files)),
    "parts": lambda word, rest, words: parts_told(int(words[0]), int(words[1]), words[2:]),
    "meta": lambda word, rest, words: meta_told(spelled(rest)),
    "url": lambda word, rest, words: url_told(int(words[0]), words[1], spelled(rest.split(" ", 2)[2])),
    "job": lambda word, rest, words: job_told(int(words[0]), int(words[1]), words[2], spelled(rest.split(" ", 3)[3])),
    "added": lambda word, rest, words: added_told(rest),
    "plan": lambda word, rest, words: plan_told(word, *map(int, words)),
    "block": lambda word, rest, words: plan_told(word, *map(int, words)),
    "piece": lambda word, rest, words: plan_told(word, *map(int, words)),
    "half": lambda word, rest, words: half_told(*map(int, words)),
    "id": lambda word, rest, words: f"{int(words[0]):016x}",
    "row": lambda word, rest, words: row_told(row(words[0], int(words[1]))),
    "turn": lambda word, rest, words: turned(int(words[0]), words[1:]),
    "zeros": lambda word, rest, words: zeros(row(words[0], int(words[1])), int(words[2])),
    "next": lambda word, rest, words: next_place(row(words[0], int(words[1])), int(words[2]), int(words[3]), words[4]),
}


# Random cases.

def in_parts(data):
    return "".join(chr(byte) if 0x20 < byte < 0x7f and byte not in b"%|+*" else f"%{byte:02x}" for byte in data)


def random_value(chance, depth):
    kind = chance.randrange(6 if depth < 4 else 3)
    if kind == 0:
        return b"i%de" % chance.choice([0, 1, -1, chance.randrange(-1000, 1000), (1 << 63) - 1, -(1 << 63), 1 << 63])
    if kind < 3:
        text = bytes(chance.choice(b"ab:e1\x00\xff") for _ in range(chance.choice([0, 1, 2, 12])))
        return b"%d:%b" % (len(text), text)
    values = [random_value(chance, depth + 1) for _ in range(chance.randrange(4))]
    if kind == 3:
        return b"l" + b"".join(values) + b"e"
    keys = sorted({bytes(chance.choice(b"abc") for _ in range(chance.randrange(3))) for _ in values})
    return b"d" + b"".join(b"%d:%b%b" % (len(key), key, value) for key, value in zip(keys, values)) + b"e"


def spoiled(chance, data, letters):
    """The bytes with one that is another, is gone, came between, or that they end before; or as they were."""
    at, byte = chance.randrange(len(data) + 1), bytes([chance.choice(letters)])
    return chance.choice([data, data, data[:at] + byte + data[at + 1:], data[:at] + data[at + 1:],
                          data[:at] + byte + data[at:], data[:at]])


def random_chunks(chance):
    stream = b""
    for _ in range(chance.randrange(4)):
        content = bytes(chance.choice(b"ab\r\n0;") for _ in range(chance.randrange(1, 20)))
        stream += b"%x%b\r\n%b\r\n" % (len(content), chance.choice([b"", b";a=b", b";"]), content)
    trailers = b"".join(b"%b\r\n" % chance.choice([b"a: b", b"x", b"\r", b" "]) for _ in range(chance.randrange(3)))
    return stream + b"0\r\n" + trailers + b"\r\n" + chance.choice([b"", b"more"])


def random_head(chance):
    statuses = [b"HTTP/1.1 206 Partial Content", b"HTTP/1.1 200 OK", b"HTTP/1.0 200 OK", b"HTTP/1.1 302 Found"]
    lines = [chance.choice(statuses)]
    last = chance.randrange(8)
    fields = [b"Content-Length: %d" % (last + 1), b"Content-Range: bytes 0-%d/8" % last, b"Content-Range: bytes 0-7/8",
              b"Transfer-Encoding: chunked", b"Content-Length: 8", b"Location: /b", b"Connection: close", b"a:", b"x:y"]
    lines += [chance.choice(fields) for _ in range(chance.randrange(5))]
    end = chance.choice([b"\r\n", b"\r\n", b"\n"])
    return end.join(lines) + end + end


def random_bucket(chance):
    now, lines = 0, [f"bucket {chance.choice([1, 1000, 16384, 50000, 1 << 20, 0])} 0"]
    for _ in range(30):
        now += chance.choice([0, 0, 1, 7, 100, 1000, 20000])
        moment = max(0, now - chance.choice([0, 0, 0, 50]))
        take, rate = chance.choice([1, 100, 16384, 100000]), chance.choice([0, 1, 500, 16384, 40000, 1 << 20])
        steps = [f"take {take} {moment}"] * 4 + [f"credit {moment}"] * 2 + [f"rate {rate} {moment}"]
        lines.append(chance.choice(steps))
    return lines


def random_layout(chance):
    names = ["a", "b", "c", "a/b", "a/c", "b/a/c", "c/d", "d", "..", "e/f/g", "h", "i", "j", "k"]
    words = [f"{name}:{chance.choice([0, 0, 1, 2, 5, 20000])}" for name in chance.sample(names, chance.randrange(1, 9))]
    lines = [f"layout {' '.join(words)}"]
    safe = [f"f{place}:{chance.choice([0, 0, 1, 2, 5, 20000])}" for place in range(chance.randrange(1, 9))]
    total = sum(int(word.split(":")[1]) for word in safe)
    at = chance.randrange(total + 1)
    return lines + [f"parts {at} {chance.randrange(total - at + 1)} {' '.join(safe)}"]


def random_plan(chance):
    piece_len = chance.choice([1, 5, 16384, 16385, 40000, 1 << 20, 67108864])
    total = chance.randrange(1, piece_len * chance.choice([1, 2, 100]) + 1)
    pieces, blocks = plan(total, piece_len)
    return [f"plan {total} {piece_len}", f"block {total} {piece_len} {chance.randrange(blocks)}",
            f"piece {total} {piece_len} {chance.randrange(pieces)}"]


def random_row(chance):
    count = chance.randrange(1, 70)
    bits = "".join(chance.choice(chance.choice(["01", "0001", "0111"])) for _ in range(count))
    digits = row_told(bits).rsplit(" ", 1)[1]
    start, end = chance.randrange(count + 1), chance.randrange(count + 1)
    return [f"row {digits} {count}", f"zeros {digits} {count} {start}",
            f"next {digits} {count} {start} {end} {chance.choice(['true', 'false'])}"]


def random_cases():
    chance = random.Random(21)
    lines = ["# Random cases, written by tests/plain/tests_base.py.", "cuts 65536 1 2 7"]
    for _ in range(300):
        lines.append(f"ben {in_parts(spoiled(chance, random_value(chance, 0), b'abdeil013:-'))}")
    for _ in range(200):
        lines.append(f"body chunked {in_parts(spoiled(chance, random_chunks(chance), bytes([13, 10]) + b'0a;x'))}")
        stream = in_parts(spoiled(chance, random_chunks(chance), bytes([13, 10]) + b"0a;x"))
        lines.append(f"slice chunked {chance.randrange(20)} {chance.randrange(1, 20)} {stream}")
    for _ in range(200):
        stream = in_parts(spoiled(chance, random_head(chance), bytes([13, 10, 0]) + b" :0a"))
        lines += [f"reply {chance.choice(['0-7/8', '0-3/8', '0-0'])} {stream}", f"heads {stream}"]
    for make in (random_layout, random_plan, random_row):
        for _ in range(100):
            lines += make(chance)
    for _ in range(20):
        lines += random_bucket(chance)
    return "".join(f"{line}\n" for line in lines)


def main(words):
    settle([(RANDOM, random_cases())], words)
    settle([(f"crates/{CRATE}/stdout", told_lines(CRATE, Told()))], words)


main(sys.argv[1:])
