#!/usr/bin/env -S python3 -B
"""What the program of crates/tests_store has to print, from the words of its command line and the files of its cases.

    tests/plain/tests_store.py            rewrites crates/tests_store/stdout
    tests/plain/tests_store.py --check    compares it, and tells the first difference

All of it follows from docs/STORE.md: what is read of a control file and written, with what a download is opened, and
what a crash may leave where a call of the disk fails. There a step of a download is the states that last, one behind
another: a crash leaves the one that stood before a call, or the one behind it.
"""
import hashlib
import os
import sys

from case_files import settle
from control_files import Plan, Unreadable, bits, listed_blocks, listing, packed, read

TOP = os.path.dirname(os.path.dirname(os.path.dirname(os.path.realpath(__file__))))
CRATE = f"{TOP}/crates/tests_store"


class Refused(Exception):
    """A download that isn't opened."""


def content_of(text):
    """The bytes that a text writes: letters, or hexadecimal digits behind a `#`."""
    if text.startswith("#"):
        return bytes.fromhex(text[1:])
    return b"".join(run.split("*")[0].encode() * int(run.split("*")[1]) for run in text.split(","))


# ---- downloads


class Want:
    """What is wanted of a download: folder, base, length of its pieces, files, and the digests of a listed one."""

    def __init__(self, folder, base, piece_length, files, digests, info_hash):
        self.prefix = "" if folder == "." else f"{folder}/"
        self.base, self.files, self.digests, self.info_hash = base, files, digests, info_hash
        self.plan = Plan(sum(length for _, length in files), piece_length)

    @classmethod
    def of_line(cls, folder, base, piece_length, files, payload=None):
        """One by the words of a line. Its info hash is 20 times the byte 7."""
        piece_length = int(piece_length)
        files = [(name, int(length)) for name, length in (it.split("=") for it in files.split(","))]
        if payload is None:
            return cls(folder, base, piece_length, files, None, b"")
        payload = content_of(payload)
        pieces = [payload[at : at + piece_length] for at in range(0, len(payload), piece_length)]
        return cls(folder, base, piece_length, files, [hashlib.sha1(it).digest() for it in pieces], b"\7" * 20)

    @classmethod
    def of_torrent(cls, content, folder):
        """The one of a metainfo file of one file, as data/t.torrent is (BEP 3)."""

        def value(key, end):
            behind = content.split(key, 1)[1]
            return behind[: behind.index(end)]

        total, piece_length = int(value(b"6:lengthi", b"e")), int(value(b"12:piece lengthi", b"e"))
        size, _, behind = content.split(b"6:pieces", 1)[1].partition(b":")
        digests = [behind[at : at + 20] for at in range(0, int(size), 20)]
        size, _, name = content.split(b"4:name", 1)[1].partition(b":")
        name = name[: int(size)].decode()
        info = content[content.index(b"4:infod") + 6 :][:-1]
        return cls(folder, name, piece_length, [(name, total)], digests, hashlib.sha1(info).digest())

    def control(self):
        """The name of its control file."""
        return f"{self.prefix}{self.base}.aria2"

    def is_consistent(self):
        """Whether the parts agree: one file has the base's name, and several are in a folder of that name."""
        names = [name.split("/")[0] for name, _ in self.files]
        return names == [self.base] * len(names)


class Store:
    """A download on files. What a call of it leaves to last, one state behind another, stands in `states`."""

    def __init__(self, want, files):
        self.want, self.files, self.states = want, files, []

    def lasts(self):
        self.states.append(dict(self.files))

    def reads(self, start, end):
        """The bytes of a span of the payload that stand, all or fewer."""
        found, at = b"", 0
        for name, length in self.want.files:
            first, last = max(start - at, 0), min(end - at, length)
            if first < last:
                found += self.files.get(self.want.prefix + name, b"")[first:last]
            at += length
        return found

    def writes(self, start, content):
        at = 0
        for name, length in self.want.files:
            first, last = max(start - at, 0), min(start + len(content) - at, length)
            if first < last:
                old = self.files[self.want.prefix + name]
                new = old[:first] + content[at + first - start : at + last - start] + old[last:]
                self.files[self.want.prefix + name] = new
            at += length

    def stands(self, span):
        return len(self.reads(*span)) == span[1] - span[0]

    def is_right(self, piece):
        """Whether a piece has its digest. Any piece of an unlisted download is right."""
        digests = self.want.digests
        return digests is None or hashlib.sha1(self.reads(*self.want.plan.piece_span(piece))).digest() == digests[piece]

    def used(self):
        """The control file that is used, where one stands."""
        want = self.want
        content = self.files.get(want.control())
        if content is None:
            return None
        try:
            control = read(content)
        except Unreadable as fault:
            raise Refused(f"the control file is wrong at byte {fault.at}") from None
        if control.info_hash != want.info_hash:
            raise Refused("the control file is of another info hash")
        if control.piece_length != want.plan.piece_length:
            lengths = f"{control.piece_length} bytes, not of {want.plan.piece_length}"
            raise Refused(f"the control file is of pieces of {lengths}")
        if control.total != want.plan.total:
            raise Refused(f"the control file is of {control.total} bytes, not of {want.plan.total}")
        return control

    def found(self, is_checked):
        """The pieces and the blocks that stand."""
        control, plan = self.used(), self.want.plan
        if control is None or is_checked and self.want.digests is not None:
            if self.want.digests is None:
                for name, _ in self.want.files:
                    there = self.files.get(self.want.prefix + name)
                    if there is not None:
                        raise Refused(f"a file of {len(there)} bytes is in the way")
                return set(), set()
            pieces = {it for it in range(plan.pieces) if self.stands(plan.piece_span(it)) and self.is_right(it)}
            return pieces, {block for piece in pieces for block in plan.blocks_of[piece]}
        pieces = {it for it in bits(control.pieces) if self.stands(plan.piece_span(it))}
        blocks = {it for it in listed_blocks(control, plan) if self.stands(plan.spans[it])}
        return pieces, blocks | {block for piece in pieces for block in plan.blocks_of[piece]}

    def put(self, pieces, blocks):
        """Puts the control file that lists these."""
        self.files[self.want.control()] = listing(self.want.info_hash, self.want.plan, pieces, blocks)
        self.lasts()

    def resume(self, is_checked):
        """Opens the download: before the first length is set a control file lasts."""
        pieces, blocks = self.found(is_checked)
        names = [(self.want.prefix + name, length) for name, length in self.want.files]
        if any(len(self.files.get(name, b"")) != length or name not in self.files for name, length in names):
            if self.want.control() not in self.files:
                self.put(set(), set())
            for name, length in names:
                self.files[name] = self.files.get(name, b"")[:length].ljust(length, b"\0")
            self.lasts()
        self.put(pieces, blocks)
        return pieces, blocks

    def step(self, word, payload):
        """What comes of a step of the download."""
        try:
            return getattr(self, word.split(":")[0])(*word.split(":")[1:3], payload=payload)
        except Refused as refusal:
            return str(refusal)

    def open(self, payload, is_checked=False):
        pieces, blocks = self.resume(is_checked)
        plan = self.want.plan
        return f"pieces {packed(pieces, plan.pieces).hex()} blocks {packed(blocks, len(plan.spans)).hex()}"

    def check(self, payload):
        return self.open(payload, True)

    def bring(self, first, count, payload):
        pieces, blocks = self.resume(False)
        plan, run = self.want.plan, range(int(first), int(first) + int(count))
        if blocks & {*run}:
            return "a block of it stands"
        start, end = plan.spans[run[0]][0], plan.spans[run[-1]][1]
        self.writes(start, payload[start:end])
        blocks |= {*run}
        for piece, own in enumerate(plan.blocks_of):
            if piece not in pieces and {*own} <= blocks:
                if self.is_right(piece):
                    pieces.add(piece)
                else:
                    blocks -= {*own}
        self.lasts()
        self.put(pieces, blocks)
        return "brought"

    def finish(self, payload):
        if self.files.pop(self.want.control(), None) is None:
            return "a fault of the disk"
        self.lasts()
        return "finished"


class Life:
    """A download by its steps, on the files that stand at first."""

    def __init__(self, want, stands, payload, steps):
        self.want, self.stands, self.payload, self.steps = want, stands, payload, steps

    def told(self, files):
        store = Store(self.want, files)
        return [store.step(word, self.payload) for word in self.steps]

    def lasting(self):
        """Each state that a crash may leave where a call fails, with the number of steps that were done before it."""
        store = Store(self.want, dict(self.stands))
        for done, word in enumerate(self.steps):
            store.states.clear()
            store.lasts()
            store.step(word, self.payload)
            for state in store.states:
                yield done, state
        yield len(self.steps), dict(store.files)

    def crashes(self):
        found = (f"{done}: {Store(self.want, dict(files)).step('open', b'')}" for done, files in self.lasting())
        return [*dict.fromkeys(found)]

    def leaves(self, name):
        return [*dict.fromkeys(shown(files, name) for _, files in self.lasting())]


def shown(files, name):
    content = files.get(name)
    return "none" if content is None else content.hex()


# ---- control files


def fields_told(content):
    """What is read of the bytes, or why nothing is."""
    try:
        control = read(content)
    except Unreadable as fault:
        return f"wrong at {fault.at}" if fault.at or fault.version is None else f"version {fault.version}"
    flights = "".join(f" {index}:{size}:{row.hex()}" for index, size, row in control.flights)
    numbers = f"{control.piece_length} {control.total} {control.uploaded}"
    return f"{control.ext} [{control.info_hash.hex()}] {numbers} {control.pieces.hex()}{flights}"


def cut_told(content):
    """What is read of the first bytes alone, where it changes."""
    before = None
    for count in range(len(content) + 1):
        told = fields_told(content[:count])
        if told != before:
            yield f"{count} bytes: {told}"
        before = told


def written_told(content):
    """What is written of what is read: the pieces in flight ascend, and of each a block has come."""
    control = read(content)
    indexes = [index for index, _, _ in control.flights]
    if indexes != sorted(indexes) or not all(any(row) for _, _, row in control.flights):
        return "out of order"
    return control.written().hex()


# ---- the files of cases


class Cases:
    """What comes of each line, behind the lines before it."""

    def __init__(self):
        self.want, self.stands, self.files, self.payload, self.steps = None, {}, {}, b"", []

    def set(self, word, words):
        if word == "want":
            self.want = Want.of_line(*words)
        elif word == "disk":
            self.stands = {name: content_of(content) for name, content in (it.split("=", 1) for it in words)}
            self.files = dict(self.stands)
        elif word == "steps":
            self.payload, self.steps = content_of(words[0]), words[1:]
        else:
            return False
        return True

    def ask(self, word, words):
        """The lines that come of a line that asks something."""
        if word in ("read", "cut", "write"):
            content = bytes.fromhex("".join(words))
            if word == "cut":
                return cut_told(content)
            return [fields_told(content) if word == "read" else written_told(content)]
        if word == "flights":
            return [f"{words[0]} in flight, the same is written"]
        if word == "files":
            return [f"{name} {shown(self.files, name)}" for name in words]
        if word in ("open", "check"):
            is_right = self.want.is_consistent()
            return [Store(self.want, self.files).step(word, b"") if is_right else "inconsistent"]
        life = Life(self.want, self.stands, self.payload, self.steps)
        if word == "do":
            return life.told(self.files)
        return [*life.crashes(), *life.leaves(*words)]

    def told(self, line):
        word, *words = line.split() or [""]
        if not word or word.startswith("#") or self.set(word, words):
            return []
        return self.ask(word, words)


def data(name):
    with open(f"{CRATE}/data/{name}", "rb") as it:
        return it.read()


def cases_told(name):
    cases = Cases()
    for line in data(name).decode().splitlines():
        yield line
        for told in cases.told(line):
            yield f"  {told}"


def wanted():
    """All that the program has to print."""
    with open(f"{CRATE}/args", encoding="utf-8") as it:
        torrent, folder, *words = it.read().split()
    store = Store(Want.of_torrent(data(torrent), folder), {})
    for word in words:
        action, *parts = word.split(":")
        if action == "cases":
            yield from cases_told(parts[0])
        else:
            yield store.step(word, data(parts[2]) if parts else b"")


def main(words):
    settle([("crates/tests_store/stdout", "".join(f"{line}\n" for line in wanted()))], words)


if __name__ == "__main__":
    main(sys.argv[1:])
