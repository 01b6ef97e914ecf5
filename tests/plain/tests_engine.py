#!/usr/bin/env -S python3 -B
"""What the program of crates/tests_engine has to print, from the files of its cases.

    tests/plain/tests_engine.py            rewrites crates/tests_engine/stdout
    tests/plain/tests_engine.py --check    compares it, and tells the first difference

What an operation is answered stands in the cases, behind ` -> `. From these answers follow the events
(docs/HISTORIES.md) and the files (docs/STORE.md): both are worked out here, and so are the answers that follow from the
operations before alone, which have to be those of the case. The metainfo files of data/payloads.txt have to be those of
PAYLOADS, by hashlib and BEP 3.
"""
import hashlib
import os
import sys
from urllib.parse import urlsplit

from control_files import Plan, Unreadable, bits, is_plan, listed_blocks, listing, packed, read

TOP = os.path.dirname(os.path.dirname(os.path.dirname(os.path.realpath(__file__))))
CRATE = f"{TOP}/crates/tests_engine"

# No disk of these cases gets so many calls in one run.
MANY_CALLS = 200


class Wrong(Exception):
    """A case that disagrees with what is worked out here."""


def need(holds, told):
    if not holds:
        raise Wrong(told)


def letters(text):
    """The bytes that a text writes: `a*2,b*1`."""
    return b"".join(run.split("*")[0].encode() * int(run.split("*")[1]) for run in text.split(","))


def spelled(content):
    """The text that writes bytes. A byte of 0 is a dot."""
    runs = []
    for byte in content:
        if runs and runs[-1][0] == byte:
            runs[-1][1] += 1
        else:
            runs.append([byte, 1])
    return ",".join(f"{chr(byte or 0x2E)}*{count}" for byte, count in runs)


# ---- metainfo files (BEP 3, BEP 19)


def bencoded(value):
    if isinstance(value, int):
        return b"i%de" % value
    if isinstance(value, bytes):
        return b"%d:%s" % (len(value), value)
    if isinstance(value, list):
        return b"l" + b"".join(map(bencoded, value)) + b"e"
    return b"d" + b"".join(bencoded(key) + bencoded(value[key]) for key in sorted(value)) + b"e"


class Payload:
    """A payload by its files, the length of its pieces, what has the digest of each piece, and its web seeds."""

    def __init__(self, name, files, piece_length, pieces, seeds):
        self.name, self.files, self.piece_length, self.seeds = name, files, piece_length, seeds
        self.total = sum(length for _, length in files)
        self.digests = [hashlib.sha1(letters(piece)).digest() for piece in pieces]
        info = {b"name": name.encode(), b"piece length": piece_length, b"pieces": b"".join(self.digests)}
        if files[0][0]:
            info[b"files"] = [{b"length": length, b"path": [path.encode()]} for path, length in files]
        else:
            info[b"length"] = self.total
        self.info_hash = hashlib.sha1(bencoded(info)).digest()
        urls = [url.encode() for url in seeds]
        self.metainfo = bencoded({b"info": info, b"url-list": urls if len(urls) > 1 else urls[0]})

    def line(self):
        """The line that tells of its metainfo file."""
        head, tail = self.metainfo.split(b"".join(self.digests))
        return f"metainfo {self.name} {head.decode()}#{b''.join(self.digests).hex()}#{tail.decode()}"


PAYLOADS = {
    one.name: one
    for one in (
        Payload("p", [("", 49157)], 32768, ["a*16384,b*16384", "c*16384,d*5"], ["http://m.test/p", "http://n.test/p"]),
        Payload("q", [("", 5)], 32768, ["d*5"], ["http://m.test/q"]),
        Payload("a", [("", 5)], 16384, ["h*1,e*1,l*2,o*1"], ["http://m.test/a.bin"]),
        Payload("s", [("", 32768)], 32768, ["a*16384,b*16384"], ["http://m.test/s", "http://n.test/s"]),
        Payload("t", [("", 1048576)], 1048576, ["d*5"], ["http://m.test/t", "http://n.test/t"]),
        Payload("f", [("", 65536)], 16384, [f"{it}*16384" for it in "abcd"], ["http://m.test/f"]),
        Payload("g", [("", 64)], 16, [f"{it}*16" for it in "abcd"], ["http://m.test/g"]),
        Payload("n", [("x", 10), ("y", 10)], 16384, ["a*10,b*10"], ["http://m.test/"]),
    )
}


# ---- downloads, from what their operations are answered


class Download:
    """A download as its events tell of it."""

    def __init__(self, name, folder, seeds, payload):
        self.name, self.folder, self.seeds, self.payload = name, folder, seeds, payload
        self.plan = Plan(payload.total, payload.piece_length) if payload else None
        self.is_opened, self.end, self.is_active = False, None, True
        self.verified, self.givers, self.sole, self.handed = set(), {}, set(), set()
        self.saved, self.marks, self.saved_at, self.checksum = (set(), set()), {}, 0, None
        self.is_removed, self.is_paused, self.first_status = False, False, "waiting"

    @property
    def info_hash(self):
        return self.payload.info_hash if self.payload else b""

    def status(self):
        """What is told where it becomes so."""
        if self.end:
            return "complete" if self.end == "complete" else "error"
        return "stop" if self.is_removed else "pause" if self.is_paused else "start"

    def path(self):
        return f"{self.folder}{self.name}"

    def files(self):
        """Its files with their lengths, in the order of the payload."""
        if self.payload and self.payload.files[0][0]:
            return [(f"{self.path()}/{path}", length) for path, length in self.payload.files]
        return [(self.path(), self.plan.total)]

    def listed(self):
        """What a save lists: the verified pieces, and the blocks of others that several mirrors may give."""
        loose = {block for block in self.givers if self.plan.piece_of[block] not in self.sole | self.verified}
        return set(self.verified), loose

    def is_saved(self):
        """Whether a save would list what the last one does."""
        return self.listed() == self.saved


class Course:
    """A run over files, as its answers tell of it."""

    def __init__(self, options, files):
        self.options, self.files = options, files
        self.events, self.downloads, self.claims, self.now = [], [], {}, 0
        self.notices = []

    # -- the disk

    def reads(self, download, start, end):
        """The bytes of a span of the payload that stand, all or fewer."""
        found, at = b"", 0
        for path, length in download.files():
            first, last = max(start - at, 0), min(end - at, length)
            if first < last:
                found += self.files.get(path, b"")[first:last]
            at += length
        return found

    def writes(self, download, start, content):
        at = 0
        for path, length in download.files():
            first, last = max(start - at, 0), min(start + len(content) - at, length)
            if first < last:
                old = self.files[path]
                self.files[path] = old[:first] + content[at + first - start : at + last - start] + old[last:]
            at += length

    def save(self, download):
        """Puts the control file."""
        download.saved, download.saved_at = download.listed(), self.now
        self.files[f"{download.path()}.aria2"] = listing(download.info_hash, download.plan, *download.saved)

    def save_noted(self, download):
        self.save(download)
        self.events.append("saved")

    # -- openings

    def found(self, download):
        """The pieces and blocks that stand, or an end."""
        plan, control = download.plan, self.files.get(f"{download.path()}.aria2")
        if control is None and download.payload:
            pieces = range(plan.pieces)
            right = {it for it in pieces if self.has_digest(download, it, self.reads(download, *plan.piece_span(it)))}
            return right, set()
        if control is None:
            there = self.files.get(download.path())
            if there is not None:
                raise Wrong(f"exists of {len(there)}")
            return set(), set()
        try:
            listed = read(control)
        except Unreadable as fault:
            raise Wrong(str(fault)) from None
        if listed.info_hash != download.info_hash:
            raise Wrong("another info hash")
        if listed.piece_length != plan.piece_length:
            raise Wrong(f"pieces of {listed.piece_length} for {plan.piece_length}")
        if listed.total != plan.total:
            raise Wrong(f"length {listed.total} for {plan.total}")

        def stands(span):
            return len(self.reads(download, *span)) == span[1] - span[0]

        verified = {piece for piece in bits(listed.pieces) if stands(plan.piece_span(piece))}
        return verified, {block for block in listed_blocks(listed, plan) if stands(plan.spans[block])}

    def has_digest(self, download, piece, content):
        return hashlib.sha1(content).digest() == download.payload.digests[piece]

    def clash(self, download):
        """Another one that is opened and goes on has its info hash, or writes one of its files."""
        opened = [(at, one) for at, one in enumerate(self.downloads, 1) if one.is_opened]
        going = [(at, one) for at, one in opened if one.is_active and one.end is None]
        for at, one in going:
            if download.info_hash and one.info_hash == download.info_hash:
                raise Wrong(f"the info hash of {at}")
        for at, one in going:
            if {name for name, _ in one.files()} & {name for name, _ in download.files()}:
                raise Wrong(f"a file of {at}")

    def open(self, download):
        try:
            self.clash(download)
            verified, blocks = self.found(download)
        except Wrong as end:
            download.end = str(end)
            self.events.append(download.end)
            return
        plan = download.plan
        download.is_opened, download.verified = True, verified
        everything = [*sorted(blocks), *(block for piece in verified for block in plan.blocks_of[piece])]
        download.givers = {block: None for block in everything}
        for path, length in download.files():
            self.files[path] = self.files.get(path, b"")[:length].ljust(length, b"\0")
        self.save(download)
        rows = packed(verified, plan.pieces).hex(), packed(everything, len(plan.spans)).hex()
        self.events.append(f"opened {rows[0]} {rows[1]}" if everything else "opened")
        self.complete_if_whole(download)

    # -- events

    def complete_if_whole(self, download):
        """Ends the download where each piece is verified. One with a checksum is compared with it first."""
        if len(download.verified) < download.plan.pieces:
            return
        download.end = "complete"
        if download.checksum:
            kind, digest = download.checksum.split("=")
            content = self.reads(download, 0, download.plan.total)
            is_right = hashlib.new(kind.replace("-", ""), content).hexdigest() == digest
            self.events.append(f"checked {'right' if is_right else 'wrong'}")
            download.end = "complete" if is_right else "checksum"
        if download.end == "complete":
            del self.files[f"{download.path()}.aria2"]
        self.events.append(download.end)

    def settle(self, download, piece, is_right):
        own = download.plan.blocks_of[piece]
        givers = {download.givers[block] for block in own}
        giver = givers.pop() if len(givers) == 1 else None
        told = "several" if giver is None else giver
        self.events.append(f"piece {piece} {'right' if is_right else 'wrong'} of {told}")
        if is_right:
            download.verified.add(piece)
            self.complete_if_whole(download)
            return
        for block in own:
            del download.givers[block]
        if download.saved[1] & {*own}:
            self.save_noted(download)
        self.events.append(f"cleared {piece}")
        if giver is None:
            download.sole.add(piece)
            return
        self.mark(download, piece, giver, 32)

    def mark(self, download, piece, giver, code):
        """A mirror failed at a piece; no mirror may have a try left."""
        marks = download.marks.setdefault(piece, {})
        marks[giver] = marks.get(giver, 0) + 1
        most = int(self.options.get("max-tries", 5))
        if most and all(marks.get(mirror, 0) >= most for mirror in range(len(download.seeds))):
            download.end = f"dead {piece} of {code}"
            self.events.append(download.end)

    def land(self, claim, run, content):
        """The blocks of a delivery that hadn't come; None where it is void."""
        download, own, mirror = claim["download"], claim["run"], claim["mirror"]
        if not self.stands(claim) or not run or not {*run} <= {*own}:
            return None
        spans = [download.plan.spans[block] for block in run]
        if len(content) != sum(end - start for start, end in spans):
            return None
        fresh = [block for block in run if block not in download.givers]
        for block, (start, end) in zip(run, spans):
            if block in fresh:
                self.writes(download, start, content[:end - start])
                download.givers[block] = mirror
            content = content[end - start :]
        for block in fresh:
            if block - 1 not in fresh:
                count = next(it for it in range(1, len(fresh) + 1) if block + it not in fresh)
                self.events.append(f"landed {claim['number']}: {block}+{count}")
        return fresh

    def stands(self, claim):
        """Its download goes on, it wasn't lost, and a block of it is still to come."""
        download = claim["download"]
        is_open = any(block not in download.givers for block in claim["run"])
        return claim["stands"] and is_open and download.is_active and download.end is None

    def halt(self, download):
        """No claim stands, and nothing is handed out. What came is saved, where the last save doesn't list it."""
        download.handed.clear()
        for claim in self.claims.values():
            if claim["download"] is download:
                claim["stands"] = False
        if download.is_opened and download.end is None and download.is_active and not download.is_saved():
            self.save_noted(download)

    # -- operations

    def perform(self, words, answer):
        before, count = [one.status() for one in self.downloads], len(self.events)
        getattr(self, f"on_{words[0]}")(*words[1:], answer=answer)
        changed = []
        for at, download in enumerate(self.downloads):
            if download.status() != (before[at] if at < len(before) else download.first_status):
                place = self.events.index(download.end, count) if download.end else count
                changed.append((place, at, download.status()))
        for place, _, kind in sorted(changed):
            nth = sum(told[0] == place for told in self.notices)
            self.notices.append((place, nth, kind))

    def on_notices(self, *cursor, answer):
        due = [it for it in self.notices if it[:2] >= tuple(map(int, cursor))] if cursor else []
        place, nth = due[64][:2] if len(due) > 64 else (len(self.events), 0)
        kinds = " ".join(kind for _, _, kind in due[:64]) or "none"
        need(answer == f"{kinds} up to {place}.{nth}", f"{kinds} up to {place}.{nth}")

    def on_at(self, ms, answer):
        need(answer == "later", "another moment")
        self.now = max(self.now, int(ms))

    def add(self, event, option, answer, name, seeds, payload):
        self.events.append(event)
        if answer == "gid":
            option = dict([option] if option else [])
            folder = f"{option['dir']}/" if "dir" in option else ""
            self.downloads.append(Download(name, folder, seeds, payload))
            self.downloads[-1].checksum = option.get("checksum")
            if option.get("pause") == "true":
                self.downloads[-1].is_active, self.downloads[-1].is_paused = False, True
                self.downloads[-1].first_status = "pause"

    def on_torrent(self, name, *option, answer):
        payload = PAYLOADS[name]
        self.add("torrent", option, answer, payload.name, payload.seeds, payload)

    def on_uri(self, url, *option, answer):
        self.add("call", option, answer, urlsplit(url).path.split("/")[-1], [url], None)

    def on_pause(self, answer):
        self.events.append("call")
        if answer == "gid":
            self.halt(self.downloads[-1])
            self.downloads[-1].is_active, self.downloads[-1].is_paused = False, True

    def on_unpause(self, answer):
        self.events.append("call")
        self.downloads[-1].is_active = answer == "gid"
        self.downloads[-1].is_paused &= answer != "gid"

    def on_remove(self, answer):
        self.events.append("call")
        if answer == "gid":
            self.halt(self.downloads[-1])
            self.downloads[-1].is_active = False
            self.downloads[-1].is_removed = True

    def on_next(self, _, answer):
        word = answer.split()[0]
        if word == "done":
            going = [one for one in self.downloads if one.end is None and one.is_active]
            self.open(next(one for one in going if one.plan and not one.is_opened))
        elif word in ("fetch", "probe"):
            self.on_grant(answer.replace(":", " ", 1).split() if word == "fetch" else answer.split(), answer)
        elif word == "hash":
            piece, told = int(answer.split()[1]), answer.split()[3]
            download = self.downloads[-1]
            need(told == spelled(self.reads(download, *download.plan.piece_span(piece))), f"other bytes: {told}")
            download.handed.add(piece)

    def on_grant(self, words, answer):
        """A claim of blocks, or of none for a probe."""
        number = int(words[1])
        need(number == len(self.claims), f"another claim than {len(self.claims)}")
        url = words[-1] if words[0] == "probe" else answer.split(" at ")[1].split(",")[0]
        # no two downloads of a case share a URL
        download, mirror = next(
            (one, at)
            for one in self.downloads
            for at, seed in enumerate(one.seeds)
            if url == seed or seed.endswith("/") and url.startswith(seed)
        )
        first, count = (int(it) for it in words[2].strip(",").split("+")) if words[0] == "fetch" else (0, 0)
        run = range(first, first + count)
        self.claims[number] = {"number": number, "download": download, "run": run, "mirror": mirror, "stands": True}
        self.events.append(f"claimed {number}: {first}+{count} at {mirror}")
        if run:
            told = answer.split(", ", 1)[1].rsplit(", ", 1)[0]
            want = ", ".join(self.parts(download, download.seeds[mirror], run))
            need(told == want, f"other parts: {want}")

    def parts(self, download, seed, run):
        """What a run is of each file of the payload, at a web seed (BEP 19)."""
        start, end = download.plan.spans[run[0]][0], download.plan.spans[run[-1]][1]
        at = 0
        for path, length in download.files():
            first, last = max(start - at, 0), min(end - at, length)
            if first < last:
                url = f"{seed}{path}" if seed.endswith("/") else seed
                yield f"{last - first} from {first} of {length} at {url}"
            at += length

    def on_size(self, claim, total, answer):
        if answer == "done":
            download = self.claims[int(claim)]["download"]
            sizes = {"K": 1 << 10, "M": 1 << 20}
            text = self.options.get("piece-length", "1M")
            unit = sizes.get(text[-1], 1)
            piece_length = int(text.rstrip("KM")) * unit
            self.events.append(f"sized {claim}: {total}")
            if is_plan(int(total), piece_length):
                download.plan = Plan(int(total), piece_length)
            else:
                download.end = f"too large: {total}"
                self.events.append(download.end)

    def on_deliver(self, claim, first, count, text, answer):
        claim = self.claims[int(claim)]
        run = range(int(first), int(first) + int(count))
        fresh = self.land(claim, run, letters(text))
        want = "void" if fresh is None else f"{len(fresh)} kept, {len(run) - len(fresh)} again"
        need(answer == want, f"not {want}")
        download = claim["download"]
        if fresh and not download.payload:
            for piece in sorted({download.plan.piece_of[block] for block in fresh}):
                if {*download.plan.blocks_of[piece]} <= {*download.givers}:
                    self.settle(download, piece, True)
        interval = 1_000 * int(self.options.get("auto-save-interval", 60))
        if fresh is not None and download.end is None and interval and download.saved_at + interval <= self.now:
            self.save_noted(download)

    def on_seal(self, piece, text, answer):
        download, piece = self.downloads[-1], int(piece)
        is_handed = piece in download.handed
        download.handed.discard(piece)
        content = self.reads(download, *download.plan.piece_span(piece))
        is_settled = is_handed and download.is_active and download.end is None and letters(text) == content
        need(answer == ("done" if is_settled else "void"), f"settled: {is_settled}")
        if is_settled:
            self.settle(download, piece, self.has_digest(download, piece, content))

    def on_more(self, claim, want, answer):
        is_void = int(want) == 0 or not self.stands(self.claims[int(claim)])
        need((answer == "void") == is_void, f"void: {is_void}")

    def on_lose(self, claim, code, answer):
        claim = self.claims[int(claim)]
        does_stand = self.stands(claim)
        need(answer == ("done" if does_stand else "void"), f"stands: {does_stand}")
        if does_stand:
            claim["stands"] = False
            download = claim["download"]
            first = next(block for block in claim["run"] if block not in download.givers)
            piece = download.plan.piece_of[first]
            self.events.append(f"lost {claim['number']} at piece {piece}")
            self.mark(download, piece, claim["mirror"], int(code))

    def on_pulse(self, answer):
        goes_on = any(one.end is None and one.is_active for one in self.downloads)
        need(answer == ("idle" if goes_on else "finished"), f"goes on: {goes_on}")

    def on_stop(self, answer):
        need(answer == "done", "a stop is done")
        if "stopped" not in self.events:
            self.events.append("stopped")
            for download in self.downloads:
                self.halt(download)
                download.is_active = False


# ---- runs of whose disk calls fail


def parts_of_script(lines):
    """The downloads that the lines add, each a payload or a URL with its folder."""
    for line in lines:
        words = line.split()
        if words[0] == "torrent":
            yield PAYLOADS[words[1]], f"{words[3]}/" if words[2:3] == ["dir"] else ""
        elif words[0] == "uri":
            yield words[1], ""


def is_whole(lines):
    """Whether the lines bring all that was added: a worker did all there was, or each piece was sealed."""
    pieces = [len(payload.digests) for payload, _ in parts_of_script(lines) if isinstance(payload, Payload)]
    sealed = {line.split()[1] for line in lines if line.startswith("seal ")}
    return "work" in lines or pieces == [len(sealed)]


class Script:
    """What is done while calls of the disk fail, and how it has to come out."""

    def __init__(self):
        self.lines, self.again, self.names, self.mirrored = [], [], [], {}

    def whole(self, name, download):
        """A download that is complete: its payload, and no control file."""
        payload, _ = download
        url = payload if isinstance(payload, str) else payload.seeds[0]
        content = spelled(self.mirrored[f"{url}{name}" if url.endswith("/") else url])
        return f"{name} complete {content} none"

    def downloads(self, lines, failed=None):
        """How each stands behind these lines, where the disk fails in the midst of one."""
        shown = []
        for at, (name, download) in enumerate(zip(self.names, parts_of_script(lines))):
            if at == failed:
                shown.append(f"{name} disk 1")
            else:
                shown.append(self.whole(name, download) if is_whole(lines) else f"{name} goes on")
        return ", ".join(shown)

    def behind(self, lines):
        """Each way in which the run can stand behind its first lines: where a call failed, its download ended for it in
        the same turn, and nothing comes behind it; the others go on."""
        if any(line.split()[0] in ("next", "work") for line in lines):
            for failed, _ in enumerate(parts_of_script(lines)):
                yield f"a fault: {self.downloads(lines, failed)}, at its end"
        yield f"no fault: {self.downloads(lines)}{', at its end' if is_whole(lines) else ''}"

    def next_run(self, is_failed):
        """The run behind it completes each download, with all that was saved. One without a metainfo file that was
        complete is in its own way."""
        if not is_failed and any(isinstance(payload, str) for payload, _ in parts_of_script(self.again)):
            (url, _), = parts_of_script(self.again)
            return f"{self.names[0]} exists of {len(self.mirrored[url])}, 0 lost"
        return f"{self.downloads(self.again)}, 0 lost"

    def turns(self):
        for count, line in enumerate(self.lines, 1):
            yield line
            yield from self.behind(self.lines[:count])

    def fails(self):
        for way in self.behind(self.lines):
            yield f"{way}; again {self.next_run(way.startswith('a fault'))}"

    def least_calls(self, options):
        """Calls of the disk that a run has at least: an opening looks, puts a control file and sets a length; each
        block is written, and where each is saved that writes, syncs and moves a file; each piece is read twice; a sync and a
        removal come at the end."""
        calls = 0
        for payload, _ in parts_of_script(self.lines):
            plan = Plan(payload.total, payload.piece_length)
            each = 4 if options.get("auto-save-interval") == "1" else 1
            calls += 3 + each * len(plan.spans) + 2 * plan.pieces + 2
        return calls


# ---- the files of cases


class Cases:
    """What comes of each line, behind the lines before it."""

    def __init__(self):
        self.metainfo, self.files = set(), {}
        self.course, self.options, self.script = None, {}, Script()

    def disk(self, words):
        self.files = {}
        for word in words:
            name, content = word.split("=", 1)
            is_hex = content.startswith("#")
            self.files[name] = bytes.fromhex(content[1:]) if is_hex else letters(content) if content else b""

    def define(self, line):
        """A metainfo file, or what a mirror has: that has to be what the digests are of."""
        word, name, rest = line.split(" ", 2)
        if word == "metainfo":
            need(line == PAYLOADS[name].line(), f"want {PAYLOADS[name].line()}")
            self.metainfo.add(name)
        else:
            self.script.mirrored[name] = letters(rest)
            for payload in PAYLOADS.values():
                if name in payload.seeds:
                    spans = Plan(payload.total, payload.piece_length).piece_spans()
                    digests = [hashlib.sha1(letters(rest)[start:end]).digest() for start, end in spans]
                    need(digests == payload.digests, "other bytes than the metainfo file has")

    def set(self, word, rest, line):
        words = rest.split()
        if word in ("metainfo", "mirror"):
            self.define(line)
        elif word == "disk":
            self.disk(words)
        elif word == "run":
            self.options = dict(it.split("=") for it in words)
            self.course = Course(self.options, self.files)
        elif word == "crash":
            need(len(words) == 2, "two fates")
        elif word == "do":
            self.script.lines = rest.split("; ")
        elif word == "again":
            self.script.again = rest.split("; ")
        elif word == "payloads":
            self.script.names = words
        else:
            return False
        return True

    def ask(self, word, rest, line):
        """What comes of a line that asks something."""
        if word == "end":
            return self.course.events
        if word == "files":
            return [f"{name} {self.shown(name)}" for name in rest.split()]
        if word in ("turns", "fails"):
            first, end = (int(it) for it in rest.split()[0].split(".."))
            need(first == 0 and end >= MANY_CALLS, f"all of {MANY_CALLS} calls are wanted")
            return [*(self.script.turns() if word == "turns" else self.script.fails())]
        if word == "calls":
            need(int(rest) <= self.script.least_calls(self.options) or int(rest) >= MANY_CALLS, "nobody knows")
            return ["fewer" if int(rest) >= MANY_CALLS else "so many and more"]
        operation, answer = line.split(" -> ")
        self.course.perform(operation.split(), answer)
        return [answer]

    def shown(self, name):
        content = self.files.get(name)
        if content is None:
            return "none"
        return content.hex() if name.endswith(".aria2") else spelled(content)

    def told(self, line):
        """The lines that come of a line."""
        if not line or line.startswith("#"):
            return []
        word, _, rest = line.partition(" ")
        if self.set(word, rest, line):
            return []
        return self.ask(word, rest, line)


def wanted():
    """All that the program has to print."""
    with open(f"{CRATE}/args", encoding="utf-8") as it:
        names = it.read().split()
    cases = Cases()
    for name in names:
        with open(f"{CRATE}/data/{name}", encoding="utf-8") as it:
            for number, line in enumerate(it.read().splitlines(), 1):
                yield line
                try:
                    for told in cases.told(line):
                        yield f"  {told}"
                except (Wrong, KeyError, ValueError, StopIteration, AttributeError) as fault:
                    sys.exit(f"data/{name}, line {number}: {line}\n{type(fault).__name__}: {fault}")
    if cases.metainfo != {*PAYLOADS}:
        sys.exit("a metainfo file is missing")


def main():
    want = "".join(f"{line}\n" for line in wanted())
    path = f"{CRATE}/stdout"
    if sys.argv[1:] != ["--check"]:
        with open(path, "w", encoding="utf-8") as it:
            it.write(want)
        return
    with open(path, encoding="utf-8") as it:
        have = it.read()
    for number, (got, right) in enumerate(zip(have.splitlines(), want.splitlines()), 1):
        if got != right:
            sys.exit(f"{path}, line {number}: {got!r}, and not {right!r}")
    if have != want:
        sys.exit(f"{path} has {len(have.splitlines())} lines, and not {len(want.splitlines())}")


if __name__ == "__main__":
    main()
