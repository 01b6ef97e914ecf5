#!/usr/bin/env python3
"""What crates/tests_claims has to print, by the plain model of a download.

Without words it writes the files of random rows and steps and crates/tests_claims/stdout anew. With --check it compares
them."""
import sys

from case_files import printed_by, settle
from machine_run import BLOCK, DEFAULTS, Claim, Download, Plan
from machine_steps import Random


def runs_of(blocks):
    """The longest runs of blocks that follow one another."""
    runs = []
    for block in sorted(blocks):
        if runs and runs[-1][0] + runs[-1][1] == block:
            runs[-1][1] += 1
        else:
            runs.append([block, 1])
    return ["%d+%d" % (first, count) for first, count in runs]


class Payload:
    """A download without a queue around it."""

    def __init__(self, total, piece_len, hosts, tries, split, per_host, min_blocks):
        options = dict(DEFAULTS)
        options.update({"max-tries": int(tries), "split": int(split), "max-connection-per-server": int(per_host),
                        "min-split-size": int(min_blocks) * BLOCK})
        self.of = Download(1, options, hosts.split(","), None, None)
        self.of.plan = self.plan = Plan(int(total), int(piece_len))
        self.next = 0

    def grant(self, choice, now):
        if choice is None or len(self.of.claims) >= 64:
            return "none"
        mirror, run, victim = choice
        self.of.claims.append(Claim(self.next, mirror, run[0], len(run), victim, now))
        self.next += 1
        return "%d+%d at %d" % (run[0], len(run), mirror)

    def free(self, now):
        told = self.grant(self.of.free_claim(), now)
        # A number is used up even where nothing is free.
        self.next += told == "none" and len(self.of.claims) < 64
        return told

    def steal(self, now):
        return self.grant(self.of.theft(now), now)

    def land(self, first, count, mirror):
        blocks = range(first, first + count)
        if count > 64 or first + count > self.plan.blocks:
            return "new:"
        new = [block for block in blocks if block not in self.of.came]
        for block in new:
            self.of.came[block] = mirror
        for claim in self.of.claims:
            claim.open -= set(blocks)
        self.of.claims = [claim for claim in self.of.claims if claim.open]
        return "".join(" " + run for run in ["new:"] + runs_of(new))[1:]

    def lose(self, number):
        self.of.claims = [claim for claim in self.of.claims if claim.number != number]
        return "done"

    def clear(self, piece):
        if piece < self.plan.pieces and piece not in self.of.verified:
            self.of.clear(piece)
            for claim in self.of.claims:
                claim.open -= set(self.plan.blocks_of(piece))
        return "done"

    def settle(self, piece, right):
        if piece < self.plan.pieces and self.of.is_full(piece) and piece not in self.of.verified:
            (self.of.verified if right else self.of.wrong).add(piece)
            if right:
                self.of.wrong.discard(piece)
        return "done"

    def sole(self, piece):
        if piece < self.plan.pieces:
            self.of.sole.add(piece)
        return "done"

    def leave(self, piece):
        if piece < self.plan.pieces:
            self.of.wanted[piece] = False
        return "done"

    def fill(self, blocks, pieces):
        for block, letter in enumerate(blocks):
            if letter == "x":
                self.land(block, 1, 0)
        for piece, letter in enumerate(pieces):
            if letter == "s":
                self.sole(piece)
            elif letter == "u":
                self.leave(piece)
            elif letter == "m":
                self.mark(0, piece)
        return self.free(0)

    # ---- marks

    def mark(self, mirror, piece):
        if mirror < len(self.of.mirrors) and piece < 1048576:
            self.of.mark(mirror, piece, 32)
        return "done"

    def dead(self, piece):
        codes = [code for _, marked, code in self.of.marks if marked == piece]
        mirrors = range(len(self.of.mirrors))
        dead = not any(self.of.has_try(mirror, piece) for mirror in mirrors)
        return str(dead).lower() + (" %d" % codes[-1] if codes else "")

    def total(self, mirror):
        return sum(1 for mark in self.of.marks if mark[0] == mirror)

    def eligible(self, mirror, first, last):
        return str(all(self.of.has_try(mirror, piece) for piece in range(first, last + 1))).lower()

    def choose(self, first, last, loads, limit):
        """As a run's choice, where so many claims stand on the host of each mirror."""
        if first > last or len(loads) != len(self.of.mirrors):
            return "none"
        may = [mirror for mirror in range(len(loads))
               if loads[mirror] < limit and self.eligible(mirror, first, last) == "true"]
        best = min(may, key=lambda mirror: (self.total(mirror), loads[mirror], mirror), default=None)
        return "none" if best is None else str(best)

    # ---- steps

    def answer(self, name, words):
        if name == "fill":
            return self.fill(*words)
        if name == "choose":
            loads = [int(load) for load in words[2].split(",")]
            return self.choose(int(words[0]), int(words[1]), loads, int(words[3]))
        numbers = [int(word) for word in words]
        if name in ("right", "wrong"):
            return self.settle(numbers[0], name == "right")
        if name == "tries":
            return str(self.of.tries(*numbers))
        return str(getattr(self, name)(*numbers))

    def shown_blocks(self):
        listed = self.of.listing()[1]
        return "".join("x" if block in listed else "o" if block in self.of.came else "."
                       for block in range(self.plan.blocks if self.plan.blocks <= 64 else 0))

    def shown_pieces(self):
        told = ""
        for piece in range(self.plan.pieces if self.plan.pieces <= 64 else 0):
            givers = self.of.givers(piece)
            told += " " + ("-" if not givers else "*" if len(givers) > 1 else str(min(givers)))
            told += "v" if piece in self.of.verified else "!" if self.of.is_full(piece) else ""
        return told

    def shown_claims(self):
        told = "; %d" % len(self.of.claims)
        for claim in sorted(self.of.claims, key=lambda claim: claim.number):
            told += " #%d:" % claim.number + ("%d+%d" % (min(claim.open), len(claim.open)) if claim.open else "none")
        return told

    def told(self, line):
        words = line.split(" ")
        answer = self.answer(words[0], words[1:])
        total = sum(self.plan.bytes_of(block) for block in self.of.came)
        return "%s; %d %s%s%s" % (answer, total, self.shown_blocks(), self.shown_pieces(), self.shown_claims())


def printed(text):
    """What the program prints of a file of steps."""
    payload, lines = None, []
    for line in text.splitlines():
        lines.append(line)
        if line.startswith("payload "):
            payload = Payload(*line.split(" ")[1:])
            lines.append("  %d pieces, %d blocks" % (payload.plan.pieces, payload.plan.blocks))
        elif line and not line.startswith("#"):
            lines.append("  " + payload.told(line))
    return "".join(line + "\n" for line in lines)


# ---- random rows and steps


def row_of(seed):
    """Sixteen blocks, of which each fourth is landed, and eight pieces."""
    state, blocks, pieces = seed, "", ""
    for place in range(24):
        state = ((state * 6364136223846793005 + 1442695040888963407) % 2 ** 64) >> 8
        if place < 16:
            blocks += "x" if state % 4 == 0 else "."
        else:
            pieces += {0: "s", 1: "u", 2: "m"}.get(state % 8, "-")
    return ["payload 262144 32768 0,1 1 1 1 1", "fill %s %s" % (blocks, pieces), ""]


def random_step(random, payload):
    plan, numbers = payload.plan, [claim.number for claim in payload.of.claims]
    kind, piece = random.below(30), random.below(plan.pieces + 1)
    if kind < 6:
        return "free %d" % payload.now
    if kind < 11:
        return "steal %d" % payload.now
    if kind < 20:
        claims = payload.of.claims
        claim = random.of(claims) if claims and random.below(4) else None
        first = claim.run[0] if claim else random.below(plan.blocks)
        return "land %d %d %d" % (first + random.below(3), 1 + random.below(4), claim.mirror if claim else 2)
    if kind < 22 and numbers:
        return "lose %d" % random.of(numbers)
    if kind < 24:
        return "%s %d" % (random.of(["right", "wrong"]), piece)
    if kind < 26:
        return "mark %d %d" % (random.below(4), piece)
    if kind < 27:
        return "%s %d" % (random.of(["sole", "leave"]), piece)
    if kind < 28:
        return "clear %d" % piece
    loads = ",".join(str(random.below(3)) for _ in payload.of.mirrors)
    return random.of(["dead %d" % piece, "tries %d %d" % (random.below(3), piece), "total %d" % random.below(3),
                      "eligible %d 0 %d" % (random.below(3), piece), "choose 0 %d %s 2" % (piece, loads)])


def random_payload(seed):
    """Steps of a download of some blocks."""
    random = Random(seed)
    piece_len = random.of([16384, 20000, 32768, 65536])
    line = "payload %d %d %s %d %d %d %d" % (
        1 + random.below(24) * 10000 + random.below(10000), piece_len, random.of(["0,1", "0,1,2", "0,0,1", "0"]),
        1 + random.below(3), 1 + random.below(4), 1 + random.below(3), 1 + random.below(4))
    payload, lines = Payload(*line.split(" ")[1:]), [line]
    payload.now = 0
    for _ in range(40):
        payload.now += random.below(4)
        lines.append(random_step(random, payload))
        payload.told(lines[-1])
    return lines + [""]


def random_files():
    rows = ["# Random rows of eight pieces of two blocks. Two mirrors have one try each, and one claim at a time."]
    steps = ["# Random steps of small downloads."]
    for seed in range(400):
        rows += row_of(seed)
    for seed in range(60):
        steps += random_payload(seed)
    return {"rows.txt": "\n".join(rows), "steps.txt": "\n".join(steps)}


def main(words):
    settle([(f"crates/tests_claims/data/{name}", text) for name, text in random_files().items()], words)
    settle([("crates/tests_claims/stdout", printed_by("tests_claims", printed))], words)


if __name__ == "__main__":
    main(sys.argv[1:])
