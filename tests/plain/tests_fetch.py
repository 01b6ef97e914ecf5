#!/usr/bin/env -S python3 -B
"""What the program of crates/tests_fetch has to print, from the files of its cases.

    tests/plain/tests_fetch.py            rewrites crates/tests_fetch/stdout
    tests/plain/tests_fetch.py --check    compares it, and tells the first difference

Each fetch is one request, over the connection that was kept or a new one. It is kept behind a reply that was read whole
and whose length was told before its content (RFC 9112, sections 6 and 9.3): a fetch reads what it asked for and no
more, so that a whole resource is read whole just where its end was asked for. Behind chunks stands more than their content,
which isn't read. A request over a connection that was closed meanwhile goes once more over a new one.
"""
import os
import sys

from case_files import settle

TOP = os.path.dirname(os.path.dirname(os.path.dirname(os.path.realpath(__file__))))
CRATE = f"{TOP}/crates/tests_fetch"
BLOCK = 16_384


class Mirror:
    """A mirror with one resource, and the one connection to it."""

    def __init__(self, manner, closes, total):
        self.manner, self.closes, self.total = manner, closes, total
        self.is_kept, self.calls = False, []

    def ask(self, first, last):
        """One request for a part of the resource."""
        request = f"{first}-{last}"
        if self.is_kept and self.closes == "behind-reply":
            self.calls.append(request)
        if not self.is_kept or self.closes != "never":
            self.calls.append("dial")
        self.calls.append(request)
        # what the reply has behind the part that is read
        rest = {"ranges": 0, "whole": self.total - 1 - last, "chunked": None, "to-end": None}[self.manner]
        self.is_kept = rest == 0


class Cases:
    """What comes of each line, behind the lines before it."""

    def __init__(self):
        self.said, self.total, self.piece = {}, 0, 0

    def fetch(self, words):
        mirror = Mirror(self.said["manner"], self.said["closes"], self.total)
        # no piece of the cases is longer than a block
        assert self.piece <= BLOCK
        for word in words:
            if word == "probe":
                mirror.ask(0, 0)
                continue
            first, count = (int(it) for it in word.split("+"))
            mirror.ask(first * self.piece, min((first + count) * self.piece, self.total) - 1)
        return f"the payload: {' '.join(mirror.calls)}"

    def told(self, line):
        word, _, rest = line.partition(" ")
        if word == "fetch":
            return [self.fetch(rest.split())]
        if word == "payload":
            payload, piece = rest.split()
            self.total, self.piece = int(payload) if payload.isdigit() else len(payload), int(piece)
        self.said[word] = rest
        return []


def wanted():
    """All that the program has to print."""
    with open(f"{CRATE}/args", encoding="utf-8") as it:
        names = it.read().split()
    for name in names:
        cases = Cases()
        with open(f"{CRATE}/data/{name}", encoding="utf-8") as it:
            for line in it.read().splitlines():
                yield line
                for told in cases.told(line) if line and not line.startswith("#") else []:
                    yield f"  {told}"


def main(words):
    settle([("crates/tests_fetch/stdout", "".join(f"{line}\n" for line in wanted()))], words)


if __name__ == "__main__":
    main(sys.argv[1:])
