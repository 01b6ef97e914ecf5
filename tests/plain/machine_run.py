"""A plain model of a run, by docs/HISTORIES.md and docs/OPTIONS.md. It is as slow as it likes."""
from fractions import Fraction

BLOCK = 16384
GOING = ("active", "waiting", "paused")
# What a change to a status is told as.
KINDS = {"active": "Start", "paused": "Pause", "removed": "Stop", "complete": "Complete", "failed": "Error"}
DEFAULTS = {
    "max-concurrent-downloads": 5, "max-connection-per-server": 1, "max-download-limit": 0,
    "max-overall-download-limit": 0, "max-tries": 5, "min-split-size": 20 * 1048576, "pause": 0,
    "piece-length": 1048576, "split": 5, "dir": ".", "out": None, "select-file": None, "checksum": None,
}
BY_CHANGE_OPTION = ("max-connection-per-server", "max-download-limit", "min-split-size", "split")
BY_GLOBAL_ALONE = ("max-concurrent-downloads", "max-overall-download-limit", "max-tries", "piece-length", "dir")


def rounded_up(number, unit):
    return -(-number // unit)


def value_of(name, text):
    """The value of an option, as docs/OPTIONS.md has it."""
    if not isinstance(DEFAULTS[name], int):
        return text
    if text in ("true", "false"):
        return int(text == "true")
    units = {"K": 1024, "M": 1048576}
    if text[-1].upper() in units:
        return int(text[:-1]) * units[text[-1].upper()]
    return int(text)


class Plan:
    """A payload in pieces, and these in blocks."""

    def __init__(self, total, piece_len):
        self.total, self.piece_len = total, piece_len
        self.pieces = rounded_up(total, piece_len)
        self.per_piece = rounded_up(piece_len, BLOCK)
        last = max(self.pieces - 1, 0)
        self.blocks = last * self.per_piece + rounded_up(total - last * piece_len, BLOCK)

    def is_within_limits(self):
        return self.pieces <= 1048576 and self.blocks <= 268435456

    def piece_of(self, block):
        return block // self.per_piece

    def blocks_of(self, piece):
        return range(piece * self.per_piece, min((piece + 1) * self.per_piece, self.blocks))

    def bytes_of(self, block):
        begin = self.piece_of(block) * self.piece_len + block % self.per_piece * BLOCK
        return min(begin + BLOCK, (self.piece_of(block) + 1) * self.piece_len, self.total) - begin


class Bucket:
    """A token bucket, in thousandths of a byte. It begins full, and holds the bytes of a second, at least 16 KiB."""

    def __init__(self, rate, now):
        self.rate, self.now, self.held = rate, now, self.most(rate)

    @staticmethod
    def most(rate):
        return 1000 * max(rate, 16384)

    def held_at(self, now):
        return min(self.most(self.rate), self.held + self.rate * max(0, now - self.now))

    def credit(self, now):
        return self.held_at(now) // 1000 if self.rate else 2 ** 64 - 1

    def wait(self, now):
        return 0 if self.credit(now) else rounded_up(1000 - self.held_at(now), self.rate)

    def take(self, count, now):
        self.held, self.now = self.held_at(now), max(now, self.now)
        if self.rate:
            self.held -= 1000 * count

    def set_rate(self, rate, now):
        self.held, self.now = self.held_at(now), max(now, self.now)
        self.held = min(self.most(rate), self.held) if self.rate else self.most(rate)
        self.rate = rate


class Claim:
    def __init__(self, number, mirror, first, count, victim, since):
        self.number, self.mirror, self.victim, self.since = number, mirror, victim, since
        self.run = list(range(first, first + count))
        # The blocks of its run that haven't come since.
        self.open = set(self.run)


class Download:
    """What is known of a download. Its mirrors are the names of their hosts."""

    def __init__(self, gid, options, mirrors, info, uri):
        self.gid, self.mirrors, self.info, self.uri = gid, mirrors, info, uri
        # The options with which it began, and as they are.
        self.begun, self.options = dict(options), dict(options)
        self.plan = Plan(sum(info[2]), info[1]) if info else None
        self.opened, self.found_right = False, None
        # Which mirror each block that is there came from; None, where it was there at the opening.
        self.came = {}
        self.verified, self.wrong, self.sole = set(), set(), set()
        self.claims, self.marks = [], []
        self.saved, self.wanted = (set(), set()), {}

    # ---- pieces and blocks

    def is_full(self, piece):
        return all(block in self.came for block in self.plan.blocks_of(piece))

    def givers(self, piece):
        return {self.came[block] for block in self.plan.blocks_of(piece) if block in self.came}

    def listing(self):
        """What a save lists."""
        def is_listed(block):
            piece = self.plan.piece_of(block)
            return piece in self.verified or piece not in self.sole and piece not in self.wrong
        return set(self.verified), {block for block in self.came if is_listed(block)}

    def is_unsaved(self):
        return self.opened and self.listing() != self.saved

    def landed_blocks(self):
        return sum(self.plan.bytes_of(block) for block in self.came) // BLOCK

    def clear(self, piece):
        for block in self.plan.blocks_of(piece):
            self.came.pop(block, None)

    def wanted_bytes(self):
        """Where the selected files begin and end in the payload: all files, where none is selected."""
        if not self.info:
            return [(0, self.plan.total)]
        lens = self.info[2]
        selected = set()
        for member in (self.begun["select-file"] or "").split(","):
            first, _, last = member.partition("-")
            if first:
                selected |= set(range(int(first), int(last or first) + 1))
        spans = [(sum(lens[:number]), sum(lens[:number + 1])) for number in range(len(lens))]
        return [span for number, span in enumerate(spans, 1) if number in selected] or spans

    def is_wanted(self, piece):
        """Whether a piece holds a byte of a selected file."""
        if piece not in self.wanted:
            begin, end = piece * self.plan.piece_len, min((piece + 1) * self.plan.piece_len, self.plan.total)
            self.wanted[piece] = any(max(begin, first) < min(end, last) for first, last in self.wanted_bytes())
        return self.wanted[piece]

    def is_done(self):
        return all(piece in self.verified for piece in range(self.plan.pieces) if self.is_wanted(piece))

    # ---- mirrors

    def tries(self, mirror, piece):
        return sum(1 for mark in self.marks if mark[:2] == (mirror, piece))

    def has_try(self, mirror, piece):
        return self.tries(mirror, piece) < self.begun["max-tries"]

    def mark(self, mirror, piece, code):
        if self.has_try(mirror, piece):
            self.marks.append((mirror, piece, code))

    def dead_code(self, piece):
        """The code of the last mark of a piece for which no mirror has a try left."""
        codes = [code for _, marked, code in self.marks if marked == piece]
        if codes and not any(self.has_try(mirror, piece) for mirror in range(len(self.mirrors))):
            return codes[-1]
        return None

    def load(self, mirror):
        """How many claims stand on the host of a mirror."""
        return sum(1 for claim in self.claims if self.mirrors[claim.mirror] == self.mirrors[mirror])

    def mirror_for(self, pieces):
        """The mirror that is asked for these pieces. Of those with a try left for each, on a host with fewer claims
        than the option has, it is the one with the fewest marks, then on the host with the fewest claims, then the
        first."""
        may = [mirror for mirror in range(len(self.mirrors))
               if all(self.has_try(mirror, piece) for piece in pieces)
               and self.load(mirror) < self.options["max-connection-per-server"]]
        marks = {mirror: sum(1 for mark in self.marks if mark[0] == mirror) for mirror in may}
        return min(may, key=lambda mirror: (marks[mirror], self.load(mirror), mirror), default=None)

    def mirror_of_run(self, run):
        return self.mirror_for(sorted({self.plan.piece_of(block) for block in run}))

    # ---- what it offers

    def is_free(self, block):
        return (block not in self.came and self.is_wanted(self.plan.piece_of(block))
                and not any(block in claim.open for claim in self.claims))

    def stretches(self):
        """The longest runs of free blocks of pieces for which the same mirrors have a try left, and the sole pieces
        all of whose blocks are free."""
        found, last = [], None
        kinds = [tuple(self.has_try(mirror, piece) for mirror in range(len(self.mirrors)))
                 for piece in range(self.plan.pieces)]
        for block in range(self.plan.blocks):
            piece = self.plan.piece_of(block)
            loose = self.is_free(block) and piece not in self.sole
            kind = kinds[piece] if loose else None
            if loose and kind == last:
                found[-1].append(block)
            elif loose:
                found.append([block])
            last = kind
        for piece in sorted(self.sole):
            blocks = self.plan.blocks_of(piece)
            if all(self.is_free(block) for block in blocks):
                found.append(list(blocks))
        return found

    def free_claim(self):
        """The front of the longest stretch for which a mirror is found, and of equally long ones of the first."""
        may = [(stretch, self.mirror_of_run(stretch)) for stretch in self.stretches()]
        may = [(stretch, mirror) for stretch, mirror in may if mirror is not None]
        if not may:
            return None
        stretch, mirror = min(may, key=lambda found: (-len(found[0]), found[0][0]))
        if self.plan.piece_of(stretch[0]) not in self.sole:
            share = rounded_up(self.plan.blocks, self.options["split"])
            stretch = stretch[:max(share, rounded_up(self.options["min-split-size"], BLOCK))]
        return mirror, stretch, None

    def own_run(self, claim):
        """The longest run of blocks that are open in this claim alone, and of equally long ones the last."""
        best, run = [], []
        for block in claim.run:
            others = any(block in other.open for other in self.claims if other is not claim)
            run = run + [block] if block in claim.open and not others else []
            if run and len(run) >= len(best):
                best = run
        return best

    def theft(self, now):
        """The later half of the own run of the slowest claim that may lose blocks. Its slowness is how many of its
        blocks lack, times the time since its grant, over those that are there and one more."""
        found = []
        for claim in self.claims:
            own = self.own_run(claim)
            half = own[len(own) - len(own) // 2:]
            if any(self.plan.piece_of(block) in self.sole for block in claim.run) or not half:
                continue
            mirror = self.mirror_of_run(half)
            if mirror is not None:
                there = sum(1 for block in claim.run if block in self.came)
                slowness = Fraction((len(claim.run) - there) * (now - claim.since), there + 1)
                found.append((-slowness, claim.number, mirror, half))
        if not found:
            return None
        _, number, mirror, half = min(found)
        return mirror, half, number

    def offer(self, handed, now):
        """A full piece that awaits its finding, else blocks; a probe while the length isn't known."""
        if not self.plan:
            mirror = None if self.claims else self.mirror_for([0])
            return None if mirror is None else ("probe", mirror)
        if not self.opened:
            return None
        for piece in range(self.plan.pieces):
            if piece not in self.verified and self.is_full(piece):
                if not self.info or (self.gid, piece) not in handed:
                    return "whole", piece
        if len(self.claims) >= self.options["split"]:
            return None
        blocks = self.free_claim() or self.theft(now)
        return blocks and ("blocks", blocks)

    # ---- what happens to it

    def end_claims(self, ending):
        """These claims end. What they gave of a sole piece goes with them."""
        pieces = {self.plan.piece_of(min(claim.open)) for claim in ending if claim.open}
        self.claims = [claim for claim in self.claims if claim not in ending]
        for piece in pieces & self.sole:
            self.clear(piece)

    def land(self, claim, blocks):
        for block in blocks:
            self.came[block] = claim.mirror
            for other in self.claims:
                other.open.discard(block)
        self.claims = [other for other in self.claims if other.open]

    def find(self, piece, right):
        """A full piece is found right or wrong. A wrong one goes, and where the last save lists a block of it, another
        comes before. The mirror that gave all of it is marked, and if several did, the piece is sole from now on."""
        if right:
            self.verified.add(piece)
            self.wrong.discard(piece)
            return
        self.wrong.add(piece)
        givers = self.givers(piece)
        if len(givers) == 1 and None not in givers:
            self.mark(min(givers), piece, 32)
        else:
            self.sole.add(piece)
        if any(self.plan.piece_of(block) == piece for block in self.saved[1]):
            self.saved = self.listing()
        self.clear(piece)

    def names(self):
        """The names that it writes on the disk."""
        if self.info:
            name, _, lens = self.info
            files = [name] if len(lens) == 1 else ["%s/%d" % (name, number + 1) for number in range(len(lens))]
        else:
            name = self.begun["out"] or self.uri.split("/", 3)[3].split("?")[0].rsplit("/", 1)[-1] or "index.html"
            files = [name]
        return {self.begun["dir"] + "/" + file for file in files + [name + ".aria2", name + ".aria2__temp"]}


class Run:
    """A run: its queue, its downloads in the order of their adding, and its moment."""

    def __init__(self, words):
        self.options = dict(DEFAULTS)
        for word in words:
            name, _, value = word.partition("=")
            self.options[name] = value_of(name, value)
        self.limit = self.options["max-concurrent-downloads"]
        self.overall = Bucket(self.options["max-overall-download-limit"], 0)
        self.buckets, self.downloads, self.handed = [], [], []
        # Gids; those that wait stand beside whether they are paused, those that stopped beside their status.
        self.active, self.waiting, self.stopped = [], [], []
        self.now, self.claims, self.shut, self.over = 0, 0, False, False
        # The status of each download behind the last step, and the notices that weren't told.
        self.seen, self.untold = {}, []

    # ---- the queue

    def status(self, gid):
        if gid in self.active:
            return "active"
        for other, paused in self.waiting:
            if other == gid:
                return "paused" if paused else "waiting"
        return dict(self.stopped).get(gid)

    def goes_on(self, gid):
        return self.status(gid) in GOING

    def is_finished(self):
        return self.shut or self.over or not self.active and all(paused for _, paused in self.waiting)

    def download(self, gid):
        for download in self.downloads:
            if download.gid == gid:
                return download
        return None

    def keyed(self, key):
        """The gids in the lists whose digits begin with the key."""
        gids = self.active + [gid for gid, _ in self.waiting] + [gid for gid, _ in self.stopped]
        return [gid for gid in gids if ("%016x" % gid).startswith(key)]

    def settle_queue(self, before):
        """Waiting downloads become active, and those that aren't any more lose their claims and the pieces that workers
        compare."""
        while len(self.active) < self.limit:
            ready = [place for place, (_, paused) in enumerate(self.waiting) if not paused]
            if not ready:
                break
            self.active.append(self.waiting.pop(ready[0])[0])
        for gid in before:
            if gid not in self.active:
                self.halt(self.download(gid))
        self.handed = [(gid, piece) for gid, piece in self.handed if gid in self.active]

    def halt(self, download):
        download.end_claims(list(download.claims))

    def stop_one(self, gid, status):
        before = list(self.active)
        if gid in self.active:
            self.active.remove(gid)
        self.waiting = [(other, paused) for other, paused in self.waiting if other != gid]
        self.stopped.append((gid, status))
        self.settle_queue(before)

    # ---- calls

    def next_gid(self):
        """1 and multiples of 2^64 over the golden ratio, without 0 and those that are used."""
        number = len(self.downloads)
        while True:
            gid = (1 + number * 11400714819323198485) % 2 ** 64
            if gid and not self.download(gid):
                return gid
            number += 1

    def add(self, mirrors, info, uri):
        gid = self.next_gid()
        self.downloads.append(Download(gid, self.options, mirrors, info, uri))
        self.buckets.append(Bucket(self.options["max-download-limit"], self.now))
        before = list(self.active)
        self.waiting.append((gid, bool(self.options["pause"])))
        self.settle_queue(before)
        return "done"

    def uri(self, url):
        if not url.startswith("http://"):
            return "unlawful"
        return self.add([url.split("/")[2].split(":")[0]], None, url)

    def torrent(self, name, piece_len, lens, hosts):
        piece_len, lens = int(piece_len), tuple(int(length) for length in lens.split(","))
        if piece_len == 0 or piece_len > 67108864 or name in (".", ".."):
            return "unlawful"
        return self.add(list(hosts), (name, piece_len, lens), None)

    def refused(self, gid, statuses):
        status = self.status(gid)
        return None if status in statuses else "WrongStatus(%s)" % status.capitalize()

    def keyed_call(self, word, key):
        gids = self.keyed(key)
        if len(gids) != 1:
            return "Ambiguous { count: %d }" % len(gids) if gids else "NotFound"
        gid = gids[0]
        lawful = {"pause": ("active", "waiting"), "unpause": ("paused",), "remove": GOING,
                  "move": ("waiting", "paused"), "forget": ("failed", "complete", "removed")}
        refusal = self.refused(gid, lawful[word])
        if refusal:
            return refusal
        before = list(self.active)
        place = [other for other, _ in self.waiting].index(gid) if gid in dict(self.waiting) else None
        told = "done"
        if word == "pause" and place is None:
            self.active.remove(gid)
            self.waiting.insert(0, (gid, True))
        elif word in ("pause", "unpause"):
            self.waiting[place] = (gid, word == "pause")
        elif word == "remove":
            self.stop_one(gid, "removed")
        elif word == "forget":
            self.stopped = [(other, status) for other, status in self.stopped if other != gid]
        else:
            target = min(place + 1, len(self.waiting) - 1)
            self.waiting.insert(target, self.waiting.pop(place))
            told = "at %d" % target
        self.settle_queue(before)
        return told

    def run_call(self, word):
        before = list(self.active)
        if word == "pause-all":
            self.waiting = [(gid, True) for gid in self.active + [gid for gid, _ in self.waiting]]
            self.active = []
        elif word == "unpause-all":
            self.waiting = [(gid, False) for gid, _ in self.waiting]
        elif word == "purge":
            self.stopped = []
        else:
            self.shut = True
            for download in self.downloads:
                self.halt(download)
        self.settle_queue(before)
        return "done"

    def change_global(self, word):
        name, _, value = word.partition("=")
        if name not in BY_GLOBAL_ALONE:
            return "unlawful"
        self.options[name] = value_of(name, value)
        self.limit = self.options["max-concurrent-downloads"]
        self.settle_queue(list(self.active))
        return "done"

    def change(self, download, word):
        name, _, value = word.partition("=")
        told = "unlawful"
        if name in BY_CHANGE_OPTION:
            told = "NotFound"
            if self.status(download.gid):
                told = "done"
                download.options[name] = value_of(name, value)
        bucket = self.buckets[self.downloads.index(download)]
        bucket.set_rate(download.options["max-download-limit"], self.now)
        return told

    # ---- workers

    def credit(self, download):
        """How many bytes may come of a download, and in how many milliseconds one may."""
        own = self.buckets[self.downloads.index(download)]
        return (min(self.overall.credit(self.now), own.credit(self.now)),
                max(self.overall.wait(self.now), own.wait(self.now)))

    def next_offer(self):
        waits = []
        for gid in self.active:
            download = self.download(gid)
            offer = download.offer(self.handed, self.now)
            if offer:
                credit, wait = self.credit(download)
                if offer[0] != "blocks" or credit:
                    return download, offer
                waits.append(wait)
        return None, ("held %d" % min(waits) if waits else "idle")

    def grant(self, download, mirror, first, count, victim):
        claim = Claim(self.claims, mirror, first, count, victim, self.now)
        download.claims.append(claim)
        self.claims += 1
        return claim.number

    def take(self, right, handing=False):
        download, offer = self.next_offer()
        if not download:
            return offer
        return "%x " % (download.gid >> 60) + self.given(download, offer, right, handing)

    def given(self, download, offer, right, handing):
        if offer[0] == "probe":
            return "probe %d at %d" % (self.grant(download, offer[1], 0, 0, None), offer[1])
        if offer[0] == "blocks":
            mirror, run, victim = offer[1]
            number = self.grant(download, mirror, run[0], len(run), victim)
            of_victim = "" if victim is None else " of %d" % victim
            return "claim %d: %d+%d%s at %d" % (number, run[0], len(run), of_victim, mirror)
        if handing:
            self.handed.append((download.gid, offer[1]))
            return "piece %d" % offer[1]
        # Without a metainfo file a full piece counts as right.
        right = right or not download.info
        download.find(offer[1], right)
        return "piece %d %s" % (offer[1], "right" if right else "wrong")

    def seal(self, download, piece, right):
        if (download.gid, piece) not in self.handed:
            return "void"
        self.handed = [pair for pair in self.handed if pair != (download.gid, piece)]
        return self.take(right)

    # ---- claims

    def claim(self, number):
        for download in self.downloads:
            for claim in download.claims:
                if claim.number == number:
                    return download, claim
        return None, None

    def land(self, number, first, count):
        download, claim = self.claim(number)
        if not claim or count > 64:
            return "0"
        blocks = [block for block in range(first, first + count) if block in claim.open]
        if blocks:
            download.land(claim, blocks)
        return str(len(blocks))

    def lose(self, number):
        download, claim = self.claim(number)
        if not claim:
            return "false"
        piece = download.plan.piece_of(min(claim.open)) if claim.open else 0
        download.end_claims([claim])
        download.mark(claim.mirror, piece, 3)
        return "true"

    def size(self, number, total):
        download, claim = self.claim(number)
        if not claim or claim.run:
            return "false"
        download.claims = []
        plan = Plan(total, download.begun["piece-length"])
        if plan.is_within_limits():
            download.plan = plan
        else:
            self.stop_one(download.gid, "failed")
        return "true"

    def allow(self, number, want):
        download, claim = self.claim(number)
        if not claim or not want:
            return "void"
        credit, wait = self.credit(download)
        if not credit:
            return "hold %d" % wait
        self.overall.take(min(want, credit), self.now)
        self.buckets[self.downloads.index(download)].take(min(want, credit), self.now)
        return "go %d" % min(want, credit)

    # ---- downloads

    def open(self, download, blocks):
        if download.opened or self.status(download.gid) != "active" or not download.plan:
            return "false"
        download.opened = True
        download.came = {block: None for block in blocks if block < download.plan.blocks}
        download.saved = (set(), set(download.came))
        return "true"

    def save(self, download):
        if not download.opened or not self.goes_on(download.gid):
            return "false"
        download.saved = download.listing()
        return "true"

    def is_all_there(self, download):
        return self.goes_on(download.gid) and download.opened and download.is_done()

    def complete(self, download):
        if download.begun["checksum"] or not self.is_all_there(download):
            return "false"
        self.stop_one(download.gid, "complete")
        return "true"

    def sum(self, download, word):
        if download.info or not download.begun["checksum"] or not self.is_all_there(download):
            return "false"
        self.stop_one(download.gid, "complete" if word == "right" else "failed")
        return "true"

    def fail(self, download):
        if not self.goes_on(download.gid):
            return "false"
        self.stop_one(download.gid, "failed")
        return "true"

    def die(self, download, piece):
        code = download.dead_code(piece) if self.goes_on(download.gid) else None
        if code is None:
            return "alive"
        self.stop_one(download.gid, "failed")
        return "dead of %d" % code

    def clash(self, download):
        """Another that is opened and goes on has its info hash, or writes one of its files: the first of these."""
        beside = [other for other in self.downloads
                  if other is not download and other.opened and self.goes_on(other.gid)]
        for other in beside:
            if download.info and other.info == download.info:
                return "same hash as %x" % (other.gid >> 60)
        for other in beside:
            if download.plan and other.names() & download.names():
                return "same file as %x" % (other.gid >> 60)
        return "no clash"

    def clash_next(self):
        for gid in self.active:
            download = self.download(gid)
            if download.plan and not download.opened:
                told = self.clash(download)
                if told != "no clash":
                    self.stop_one(gid, "failed")
                return told
        return "no clash"

    def stop(self):
        if self.is_finished():
            return "false"
        self.over = True
        for download in self.downloads:
            self.halt(download)
        return "true"

    # ---- notices

    def note(self):
        """Notes what the last step changed; no step changes a status in two events."""
        for download in self.downloads:
            gid, status = download.gid, self.status(download.gid)
            before = self.seen.get(gid, "paused" if self.options["pause"] else "waiting")
            if status != before and status in KINDS:
                self.untold.append("%x %s" % (gid >> 60, KINDS[status]))
            self.seen[gid] = status

    def notices(self):
        told, self.untold = self.untold[:64], self.untold[64:]
        return ", ".join(told) or "none"

    # ---- steps

    def of_download(self, name, key, words):
        if name in ("pause", "unpause", "remove", "forget", "move"):
            return self.keyed_call(name, key)
        named = [download for download in self.downloads if ("%016x" % download.gid).startswith(key)]
        if not named:
            return "no download"
        download = named[0]
        if name == "open":
            return self.open(download, [int(block) for block in words[0].split(",")] if words else [])
        if name == "die":
            return self.die(download, int(words[0]))
        if name == "seal":
            return self.seal(download, int(words[0]), words[1] == "right")
        return getattr(self, name)(download, *words)

    def answer(self, name, words):
        if name in ("take", "wrong", "hand"):
            return self.take(name != "wrong", name == "hand")
        if name in ("land", "lose", "size", "allow"):
            return getattr(self, name)(*[int(word) for word in words])
        if name in ("pause-all", "unpause-all", "purge", "shutdown"):
            return self.run_call(name)
        if name == "global":
            return self.change_global(words[0])
        if name == "pass":
            self.now += int(words[0])
            return ""
        if name in ("uri", "torrent", "stop", "notices"):
            return getattr(self, name)(*words)
        if name == "clash-next":
            return self.clash_next()
        return self.of_download(name, words[0], words[1:])

    def shown(self):
        parts = []
        for download in self.downloads:
            letter = (self.status(download.gid) or "-")[0]
            star = "*" if download.is_unsaved() else ""
            parts.append("%s%d%s" % (letter, download.landed_blocks() if download.plan else 0, star))
        numbers = sorted(claim.number for download in self.downloads for claim in download.claims)
        parts += ["#%d" % number for number in numbers]
        return "".join(" " + part for part in parts + (["finished"] if self.is_finished() else []))

    def told(self, line):
        words = line.split(" ")
        answer = self.answer(words[0], words[1:])
        self.note()
        return answer + ";" + self.shown()


def printed(text):
    """What the program prints of a file of steps."""
    run, lines = Run([]), []
    for line in text.splitlines():
        lines.append(line)
        if line.startswith("run"):
            run = Run(line.split(" ")[1:])
        elif line and not line.startswith("#"):
            lines.append("  " + run.told(line))
    return "".join(line + "\n" for line in lines)
