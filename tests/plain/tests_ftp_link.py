#!/usr/bin/env -S python3 -B
"""What the program of crates/tests_ftp_link has to print, from the files of its cases.

    tests/plain/tests_ftp_link.py            rewrites crates/tests_ftp_link/stdout
    tests/plain/tests_ftp_link.py --check    compares it, and tells the first difference

A reply is read by RFC 959, section 4.2, and a dialogue is a walk over the steps of section 5.4 with SIZE and REST (RFC 3659,
sections 4 and 5): which code leads on at which step, and what a loss says, stands in the table of this file.
"""
import os
import re
import sys
from urllib.parse import unquote, urlsplit

from case_files import settle

TOP = os.path.dirname(os.path.dirname(os.path.dirname(os.path.realpath(__file__))))
CRATE = f"{TOP}/crates/tests_ftp_link"
MOST_HEARD = 32_768
# by step: the command, what the codes lead to, and the exit status of a refusal
STEPS = {
    "greeting": (None, {220: "user"}, 29),
    "user": ("USER anonymous", {331: "password", 230: "binary"}, 21),
    "password": ("PASS anonymous@", {230: "binary"}, 21),
    "binary": ("TYPE I", {200: "size"}, 21),
    "size": ("SIZE {path}", {213: "sized", 550: "not found"}, 21),
    "passive": ("PASV", {227: "port"}, 21),
    "restart": ("REST {at}", {350: "retrieve"}, 21),
    "retrieve": ("RETR {path}", {125: "data", 150: "data", 550: "not found"}, 21),
}


class Lost(Exception):
    """The rest doesn't come, for this reason."""


def reply_in(heard):
    """The code and the last line of the reply at the front, or None where more of it is due."""
    mark = re.match(rb"\d{0,3}$|\d{3}[ -]", heard)
    if not mark:
        raise Lost("bad reply")
    if len(mark[0]) < 4:
        return None
    rest = heard
    for _ in range(64):
        line, end, behind = rest.partition(b"\r\n")
        if not end:
            if len(line) > 511 or len(line) == 511 and not line.endswith(b"\r"):
                raise Lost("bad reply")
            return None
        if len(line) > 510:
            raise Lost("bad reply")
        if line.startswith(heard[:3] + b" "):
            return int(heard[:3]), line
        rest = behind
    raise Lost("bad reply")


def size_of(line):
    found = re.fullmatch(rb"213 (\d+)", line)
    if not found or int(found[1]) >= 2**63:
        raise Lost("bad reply")
    return int(found[1])


def port_of(line):
    number = rb"(0|[1-9]\d?|1\d\d|2[0-4]\d|25[0-5])"
    found = re.search(rb"\(" + rb",".join([number] * 6) + rb"\)", line)
    port = int(found[5]) * 256 + int(found[6]) if found else 0
    if port == 0:
        raise Lost("bad reply")
    return port


class Talk:
    """One dialogue, over a link that gives at most `cut` bytes at once, and as many in one call of `read`."""

    def __init__(self, said, cut):
        self.replies, self.file, self.cut = list(said["replies"]), said["file"].encode(), cut
        url = urlsplit(said["url"])
        self.path = unquote(url.path)[1:]
        self.calls, self.taken, self.left = f"dial {url.hostname} {url.port or 21}|", 0, cut
        self.limited = True

    def take(self, bytes_left, most):
        count = min(self.cut, most, bytes_left, self.left if self.limited else most)
        self.taken += count
        self.left = (self.left - count) or self.cut
        return count

    def hear(self):
        """The whole reply to what was sent last."""
        reply = self.replies.pop(0) if self.replies else b""
        at = 0
        while True:
            count = self.take(len(reply) - at, MOST_HEARD - at)
            if count == 0:
                raise Lost("short 0")
            at += count
            found = reply_in(reply[:at])
            if found:
                return found

    def walk(self, part):
        """The size of the file where no part is wanted, or else the bytes of the part as far as they came, and how it ended."""
        step = "greeting"
        while True:
            command, codes, refusal = STEPS[step]
            if command:
                self.calls += command.format(path=self.path, at=part and part[0]) + "|"
            code, line = self.hear()
            step = codes.get(code)
            if step is None:
                raise Lost(f"refused {code} {refusal}")
            if step == "not found":
                raise Lost(step)
            if step == "sized":
                size = size_of(line)
                if part is None:
                    return f"length {size}"
                if size != part[2]:
                    raise Lost(f"length {size} for {part[2]}")
                step = "passive"
            if step == "port":
                self.calls += f"data {port_of(line)}|"
                step = "restart" if part[0] else "retrieve"
            if step == "data":
                return self.data(part[1])

    def data(self, want):
        self.came = b""
        while len(self.came) < want:
            count = self.take(len(self.file) - len(self.came), want - len(self.came))
            if count == 0:
                raise Lost(f"short {len(self.came)}")
            self.came += self.file[len(self.came) : len(self.came) + count]
        return "all came"

    def told(self, part):
        self.came, self.limited = b"", part is not None
        try:
            how = self.walk(part)
        except Lost as loss:
            how = str(loss)
        if part is not None:
            how = f"{how}: {self.came.decode()}: {self.taken} bytes"
        return f"{how} <{self.calls}>"


class Cases:
    """What comes of each line, behind the lines before it."""

    def __init__(self):
        self.said = {"replies": []}

    def told(self, line):
        word, _, rest = line.partition(" ")
        if word in ("part", "length"):
            part = tuple(int(it) for it in re.split(r"[+/]", rest)) if word == "part" else None
            cuts = (int(it) for it in self.said["cuts"].split())
            return list(dict.fromkeys(Talk(self.said, cut).told(part) for cut in cuts))
        if word == "script":
            self.said["replies"] = []
        elif word == "say":
            self.said["replies"].append(rest.replace("|", "\r\n").encode())
        else:
            self.said[word] = rest
        return []


def wanted():
    """All that the program has to print."""
    with open(f"{CRATE}/args", encoding="utf-8") as it:
        names = it.read().split()
    for name in names:
        cases = Cases()
        with open(f"{CRATE}/data/{name}", encoding="utf-8") as it:
            for line in it.read().splitlines():
                yield line
                for told in cases.told(line) if line and not line.startswith("#") else []:
                    yield f"  {told}"


def main(words):
    settle([("crates/tests_ftp_link/stdout", "".join(f"{line}\n" for line in wanted()))], words)


if __name__ == "__main__":
    main(sys.argv[1:])
