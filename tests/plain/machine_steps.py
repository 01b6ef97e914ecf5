"""Random steps of runs, chosen beside the plain model."""
from machine_run import Run


class Random:
    """A linear congruential generator, of whose numbers the low bits are left out."""

    def __init__(self, seed):
        self.state = seed

    def below(self, bound):
        self.state = (self.state * 6364136223846793005 + 1442695040888963407) % 2 ** 64
        return (self.state >> 33) % bound

    def of(self, choices):
        return choices[self.below(len(choices))]


def key_at(run, place):
    return "%x" % (run.downloads[place].gid >> 60)


def any_claim(random, run):
    """The number of a claim, mostly of one that stands, or one that no claim has yet."""
    standing = [claim.number for download in run.downloads for claim in download.claims]
    if standing and random.below(4):
        return random.of(standing)
    return max(0, run.claims - random.below(10))


def landing(random, run, most):
    number = any_claim(random, run)
    _, claim = run.claim(number)
    first = claim.run[0] if claim and claim.run else 0
    return ["land %d %d %d" % (number, first + random.below(most), random.below(most))]


def twelve_block_step(random, run):
    """A step of a run whose downloads have three pieces of four blocks, at two hosts."""
    kind, place = random.below(40), random.below(6)
    if kind < 4:
        return ["torrent n%d 65536 196608 mn" % random.below(1000000)] if len(run.downloads) < 6 else []
    if 9 < kind < 22:
        word = random.of(["take", "take", "wrong"])
        return ["pass %d" % random.below(100), "%s %d" % (word, random.below(4))]
    if kind >= 22:
        return landing(random, run, 6)
    if kind == 9:
        return ["lose %d" % any_claim(random, run)]
    if place >= len(run.downloads):
        return []
    words = ["fail"] + ["die"] * 8 + ["complete"] * 8 + ["save"] * 6 + ["open"] * 20
    if kind == 4:
        words = ["pause"] * 9 + ["unpause"] * 12 + ["remove"]
    word = random.of(words)
    return ["%s %s%s" % (word, key_at(run, place), " %d" % random.below(3) if word == "die" else "")]


def twelve_block_options(seed):
    return ("max-concurrent-downloads=2 split=3 max-tries=%d max-connection-per-server=2 min-split-size=1M"
            % (1 + seed % 2))


def mixed_options(random):
    """Options of a run of which each may differ."""
    values = ["max-concurrent-downloads=%d" % (1 + random.below(3)), "split=%d" % (1 + random.below(4)),
              "max-tries=%d" % (1 + random.below(3)), "max-connection-per-server=%d" % (1 + random.below(3)),
              "min-split-size=1M"]
    if random.below(3) == 0:
        values.append("max-download-limit=%dK" % (1 + random.below(30)))
    if random.below(3) == 0:
        values.append("max-overall-download-limit=%dK" % (1 + random.below(60)))
    if random.below(3) == 0:
        values.append("select-file=" + random.of(["2", "1,3", "2-4", "9"]))
    if random.below(4) == 0:
        values.append("checksum=sha-1=aaf4c61ddcc5e8a2dabede0f3b482cd9aea9434d")
    return " ".join(values)


def mixed_addition(random):
    name = random.of(["a", "b", "c", "d", "a.aria2"])
    if random.below(3) == 0:
        return ["uri http://%s.test/%s" % (random.of("mno"), name)]
    count = random.of([1, 1, 2, 3])
    lens = ",".join(str(1 + random.below(200000 // count)) for _ in range(count))
    piece_len = random.of([16384, 20000, 32768, 65536])
    return ["torrent %s %d %s %s" % (name, piece_len, lens, random.of(["m", "mn", "mm", "mno", "mmn"]))]


def mixed_call(random, run, which):
    kind = random.below(24)
    if kind < 14:
        return ["%s %s" % (random.of(["pause", "pause", "unpause", "unpause", "unpause", "move"]), which)]
    if kind < 16:
        return ["%s %s" % (random.of(["remove", "forget"]), which)]
    if kind < 20:
        return [random.of(["pause-all", "unpause-all", "unpause-all", "purge"])]
    if kind < 22:
        return ["global " + random.of(["max-concurrent-downloads=%d" % (1 + random.below(3)),
                                       "max-tries=%d" % (1 + random.below(3)), "split=3"])]
    return ["change %s %s" % (which, random.of(["split=%d" % (1 + random.below(4)), "max-tries=9",
                                                "max-connection-per-server=%d" % (1 + random.below(3)),
                                                "max-download-limit=%dK" % (random.below(3) * 32)]))]


def mixed_work(random, run, which):
    """A download is opened, saved, compared or ends."""
    kind = random.below(40)
    if kind < 12:
        blocks = ",".join(str(random.below(12)) for _ in range(random.below(6)))
        return ["open %s %s" % (which, blocks) if blocks else "open %s" % which]
    if kind < 18:
        compared = [(key_at(run, [d.gid for d in run.downloads].index(gid)), piece) for gid, piece in run.handed]
        which, piece = random.of(compared) if compared and random.below(4) else (which, random.below(4))
        return ["seal %s %d %s" % (which, piece, random.of(["right", "right", "wrong"]))]
    word = random.of(["save", "save", "complete", "complete", "sum", "die", "die", "clash", "clash", "clash-next"]
                     + (["fail"] if kind == 39 else []))
    if word == "clash-next":
        return [word]
    ends = {"sum": " " + random.of(["right", "right", "wrong"]), "die": " %d" % random.below(4)}
    return ["%s %s%s" % (word, which, ends.get(word, ""))]


def mixed_step(random, run):
    """A step of a run of any kind."""
    kind, place = random.below(40), random.below(8)
    which = key_at(run, place) if place < len(run.downloads) else "f"
    if kind < 3:
        return mixed_addition(random) if len(run.downloads) < 8 else []
    if kind < 5:
        return mixed_call(random, run, which)
    if kind < 14:
        return mixed_work(random, run, which)
    if kind < 15:
        return ["lose %d" % any_claim(random, run)]
    if kind < 17:
        sizes = [random.below(200000), random.below(3000000), 0, 1048576]
        return ["size %d %d" % (any_claim(random, run), random.of(sizes))]
    if kind < 19:
        return ["allow %d %d" % (any_claim(random, run), random.below(80000))]
    if kind < 29:
        word = random.of(["take", "take", "take", "wrong", "hand"])
        line = "%s %d" % (word, random.below(4))
        return ["pass %d" % random.below(80), line] if random.below(2) else [line]
    return landing(random, run, 70 if random.below(3) == 0 else 8)


def is_dull(answer):
    """Whether nothing came of a step."""
    return answer in ("idle", "false", "alive", "void", "0", "no download", "no clash", "NotFound", "unlawful") or (
        answer.startswith("WrongStatus"))


def some_step(random, run, step):
    """Carries a random step out, of which mostly something comes. One of which nothing comes leaves all as it was."""
    now = run.now
    for _ in range(5):
        run.now, lines = now, step(random, run)
        answers = [run.answer(line.split(" ")[0], line.split(" ")[1:]) for line in lines]
        if lines and not is_dull(answers[-1]):
            break
    return lines


def history(random, options, step, count):
    """A run of so many random steps, and its stop."""
    lines, run = ["run " + options], Run(options.split(" "))
    for _ in range(count):
        lines += some_step(random, run, step)
    return lines + ["stop", ""]


def random_files():
    """The files of random steps, by their names."""
    twelve = ["# Random steps. Each download has three pieces of four blocks, and two mirrors at two hosts."]
    mixed = ["# Random steps of runs of any kind: payloads of one file or several, lengths that a probe tells, limits."]
    for seed in range(36):
        twelve += history(Random(seed), twelve_block_options(seed), twelve_block_step, 180)
    for seed in range(30):
        random = Random(1000 + seed)
        mixed += history(random, mixed_options(random), mixed_step, 130)
    return {"twelve_blocks.txt": "\n".join(twelve), "mixed.txt": "\n".join(mixed)}
