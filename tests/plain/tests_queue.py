#!/usr/bin/env -S python3 -B
"""Writes what crates/tests_queue has to print, from its case files, and the random steps of queues among them.

With --check it compares instead. It was written from docs/OPTIONS.md, docs/CONSOLE.md, docs/DECISIONS.md and the aria2
manual, apart from the program: tables and plain lists, and Python's own SHA.
"""
import hashlib
import random
import re
import sys
from functools import lru_cache

from case_files import settle, spelled, told_lines

CRATE = "tests_queue"
STEPS = f"crates/{CRATE}/data/steps.txt"
K, M = 1 << 10, 1 << 20
ALWAYS, GLOBALLY, NEVER = "changeOption changeGlobalOption", "changeGlobalOption", "nothing"
EACH, PROGRAM = "each download", "the program"

# Name, letter, kind, default, least, most, for whom, who changes it, whether it is on the command line.
TABLE = [
    ("auto-save-interval", "", "number", 60, 0, 600, EACH, NEVER, "yes"),
    ("check-integrity", "V", "truth", 0, 0, 1, EACH, GLOBALLY, "yes"),
    ("checksum", "", "Checksum", None, 0, 0, EACH, NEVER, "own"),
    ("dir", "d", "Folder", ".", 0, 0, EACH, GLOBALLY, "yes"),
    ("enable-rpc", "", "truth", 0, 0, 1, PROGRAM, NEVER, "yes"),
    ("gid", "", "Gid", None, 0, 0, EACH, NEVER, "no"),
    ("max-concurrent-downloads", "j", "number", 5, 1, 64, PROGRAM, GLOBALLY, "yes"),
    ("max-connection-per-server", "x", "number", 1, 1, 16, EACH, ALWAYS, "yes"),
    ("max-download-limit", "", "size", 0, 0, 4294967295, EACH, ALWAYS, "yes"),
    ("max-overall-download-limit", "", "size", 0, 0, 4294967295, PROGRAM, GLOBALLY, "yes"),
    ("max-tries", "m", "number", 5, 1, 100, EACH, GLOBALLY, "yes"),
    ("min-split-size", "k", "size", 20 * M, M, 1024 * M, EACH, ALWAYS, "yes"),
    ("out", "o", "FilePart", None, 0, 0, EACH, NEVER, "own"),
    ("pause", "", "truth", 0, 0, 1, EACH, NEVER, "own"),
    ("piece-length", "", "size", M, M, 64 * M, EACH, GLOBALLY, "yes"),
    ("rpc-listen-port", "", "number", 6800, 1024, 65535, PROGRAM, NEVER, "yes"),
    ("rpc-max-request-size", "", "size", 2 * M, 16 * K, 64 * M, PROGRAM, NEVER, "yes"),
    ("rpc-secret", "", "Filled", None, 0, 0, PROGRAM, NEVER, "yes"),
    ("select-file", "", "FileList", None, 0, 0, EACH, NEVER, "own"),
    ("split", "s", "number", 5, 1, 64, EACH, ALWAYS, "yes"),
]
ROWS = {row[0]: row for row in TABLE}
NUMBERS = ("number", "size", "truth")
DEFAULTS = {row[0]: row[3] for row in TABLE}
HASHES = {"sha-1": hashlib.sha1, "sha-224": hashlib.sha224, "sha-256": hashlib.sha256, "sha-384": hashlib.sha384,
          "sha-512": hashlib.sha512}
ENDINGS = ("error", "complete", "removed")


class Refused(Exception):
    """What a call or a value is refused for."""


# Options.

@lru_cache
def decimal(text):
    if not re.fullmatch(rb"0|[1-9][0-9]*", text):
        raise Refused("bad")
    return int(text)


def number_read(kind, text):
    if kind == "truth":
        if text not in (b"true", b"false"):
            raise Refused("bad")
        return int(text == b"true")
    unit = {b"K": K, b"k": K, b"M": M, b"m": M}.get(text[-1:]) if kind == "size" else None
    return decimal(text[:-1]) * unit if unit else decimal(text)


def checksum_read(text):
    """The hash and the digest that TYPE=DIGEST names; none for another text."""
    name, equals, digits = text.partition(b"=")
    make = HASHES.get(name.decode("latin-1")) if equals else None
    if not make or not re.fullmatch(rb"[0-9a-fA-F]{%d}" % (2 * make().digest_size), digits):
        return None
    return make, bytes.fromhex(digits.decode())


def names_files(text):
    for member in text.split(b","):
        first, dash, last = member.partition(b"-")
        ends = (decimal(first), decimal(last) if dash else decimal(first))
        if not 1 <= ends[0] <= ends[1] <= 1048576:
            return False
    return True


def is_text(kind, text):
    if kind == "Checksum":
        return checksum_read(text) is not None
    if kind == "Gid":
        return gid_read(text) is not None
    if kind == "FileList":
        return names_files(text)
    if kind == "Folder":
        return text != b"" and b"\0" not in text
    if kind == "FilePart":
        return 1 <= len(text) <= 255 and text not in (b".", b"..") and b"/" not in text and b"\0" not in text
    return text != b""


def value_read(name, text):
    """The value that a text gives the option: a number, or the text."""
    if name not in ROWS:
        raise Refused("unknown")
    _, _, kind, _, least, most, *_ = ROWS[name]
    if kind in NUMBERS:
        value = number_read(kind, text)
        if not least <= value <= most:
            raise Refused(f"range {least} {most}")
        return value
    if not is_text(kind, text):
        raise Refused("bad")
    return text.decode()


def shown(name, value):
    return ("false", "true")[value] if ROWS[name][2] == "truth" else str(value)


def reading(name, parts):
    text = spelled(parts)
    try:
        value = shown(name, value_read(name, text))
    except Refused as refused:
        return str(refused)
    if name == "rpc-secret":
        return f"hidden = {value}"
    if len(text) > 300 and value == text.decode():
        return f"= as it stands, {len(text)} bytes"
    return f"= {value}"


def defaults(scope):
    return " ".join(f"{name}={shown(name, value)}" for name, value in DEFAULTS.items()
                    if value is not None and name != "rpc-secret" and (scope == "global" or ROWS[name][6] == EACH))


def row_told(name):
    if name not in ROWS:
        return "unknown"
    _, letter, kind, _, least, most, scope, change, use = ROWS[name]
    limits = f"{kind} {least} to {most}" if kind in NUMBERS else kind
    return f"{letter or '-'}; {limits}; {scope}; {change}; {use}"


def other_values(values):
    return "".join(f" {name}={values[name]}" for name in ROWS if name in values and values[name] != DEFAULTS[name])


# Command lines.

def is_flag(name):
    return ROWS[name][2] == "truth"


def options_and_words(words):
    """The texts that the words give options, and the words that belong to none, as commands take them in general:
    --name VALUE, --name=VALUE, -xVALUE, -x VALUE, -x=VALUE, letters of flags together, and only words behind --."""
    long_names = {row[0] for row in TABLE if row[8] != "no"}
    letters = {row[1]: row[0] for row in TABLE if row[1]}
    texts, others, rest = {}, [], list(words)

    def give(name, text):
        if name in texts:
            raise Refused("twice")
        texts[name] = text

    def next_value():
        if not rest or (rest[0].startswith(b"-") and rest[0] != b"-"):
            raise Refused("no value")
        return rest.pop(0)

    while rest:
        word = rest.pop(0)
        if word == b"--":
            return texts, others + rest
        if word.startswith(b"--"):
            name, equals, value = word[2:].partition(b"=")
            name = name.decode()
            if name not in long_names or (is_flag(name) and equals):
                raise Refused("no such option")
            give(name, b"true" if is_flag(name) else value if equals else next_value())
        elif word.startswith(b"-") and word != b"-":
            letters_left = word[1:].decode()
            while letters_left:
                name, letters_left = letters.get(letters_left[0]), letters_left[1:]
                if name is None:
                    raise Refused("no such letter")
                if is_flag(name):
                    give(name, b"true")
                    continue
                give(name, letters_left.removeprefix("=").encode() if letters_left else next_value())
                letters_left = ""
        else:
            others.append(word)
    return texts, others


def url_scheme(word):
    """The scheme of a URL, none for what is no URL, as the URL Standard has it, for hosts of plain names alone."""
    found = re.fullmatch(r"([A-Za-z][A-Za-z0-9+.-]*):(.*)", word.decode(), re.S)
    if not found:
        return None
    scheme, rest = found[1].lower(), found[2]
    if scheme in ("http", "https", "ftp"):
        host = re.fullmatch(r"//([a-z][a-z0-9.-]*)(:[0-9]{1,4})?(/[!-~]*)?", rest)
        assert host, f"a URL that this program doesn't judge: {word}"
    return scheme


def is_usable(word):
    """Over FTP a file has to be named."""
    return url_scheme(word) == "http" or url_scheme(word) == "ftp" and word.split(b"/", 3)[3:] not in ([], [b""])


def uris_of(words):
    if len(words) > 256 or not all(is_usable(word) for word in words):
        raise Refused("no URIs")
    return f"{len(words)} URIs" + "".join(f" {word.decode()}" for word in words)


def source_of(words, console):
    if not words:
        if not console:
            raise Refused("nothing is named")
        return "console"
    if words[0].endswith(b".torrent") and url_scheme(words[0]) is None:
        return f"metainfo file {words[0].decode()}, {uris_of(words[1:])}"
    return uris_of(words)


def words_of(line):
    words, count = [], 1
    for word in line.split(" ") if line else []:
        if word.startswith("#"):
            count = int(word[1:])
            continue
        words += [spelled(word)] * count
        count = 1
    return words


def meaning(line):
    try:
        texts, others = options_and_words(words_of(line))
        values = {name: value_read(name, text) for name, text in texts.items()}
        console = "enable-rpc" in values
        own = {name: value for name, value in values.items()
               if ROWS[name][8] == "own" and (name != "pause" or console)}
        for_all = {name: value for name, value in values.items() if ROWS[name][8] == "yes"}
        source = source_of(others, console)
    except Refused:
        return "none"
    return f"{source}; for all:{other_values(for_all)}; {len(own)} own:{other_values(own)}"


# Ids.

def gid_read(text):
    if not re.fullmatch(rb"[0-9a-fA-F]{16}", text) or int(text, 16) == 0:
        return None
    return int(text, 16)


def id_told(word, text):
    if word == "gid":
        gid = gid_read(text)
        return "none" if gid is None else f"= {gid} {gid:016x}"
    if word == "key":
        return f"= {len(text)} {int(text, 16)}" if re.fullmatch(rb"[0-9a-fA-F]{1,16}", text) else "none"
    key, gid = text.decode().lower().split(" ")
    return "yes" if gid.startswith(key) else "no"


# The queue: lists of ids. `marks` has 1 at the place of a waiting download that is paused.

class Queue:
    def __init__(self, limit):
        self.limit, self.added, self.stands = limit, {}, {}
        self.active, self.waiting, self.marks, self.stopped = [], [], bytearray(), []
        self.near = 0

    def status(self, gid):
        if gid not in self.stands:
            raise Refused("not found")
        return self.stands[gid]

    def wanted(self, gid, *statuses):
        status = self.status(gid)
        if status not in statuses:
            raise Refused(f"is {status}")
        return status

    def move_up(self):
        """As long as fewer are active than the limit, the first that waits and isn't paused becomes active."""
        while len(self.active) < self.limit and (place := self.marks.find(0)) >= 0:
            gid = self.waiting[place]
            del self.waiting[place], self.marks[place]
            self.active.append(gid)
            self.stands[gid] = "active"

    def wait(self, gid, place, paused):
        self.waiting.insert(place, gid)
        self.marks.insert(place, paused)
        self.stands[gid] = "paused" if paused else "waiting"

    def mark(self, gid, place, paused):
        self.marks[place] = paused
        self.stands[gid] = "paused" if paused else "waiting"

    def place(self, gid):
        """The place of one that waits. It is looked for about where the last one was, and then everywhere."""
        first = max(0, self.near - 10)
        around = self.waiting[first:first + 20]
        self.near = first + around.index(gid) if gid in around else self.waiting.index(gid)
        return self.near

    def take_out(self, gid, status):
        if status == "active":
            self.active.remove(gid)
            return
        place = self.place(gid)
        del self.waiting[place], self.marks[place]

    def add(self, gid, options, paused, place):
        if gid in self.added:
            raise Refused("gid in use")
        if len(self.added) == 65536:
            raise Refused("65536 were added")
        self.added[gid] = (len(self.added), options)
        self.wait(gid, len(self.waiting) if place is None else min(place, len(self.waiting)), paused)

    def pause(self, gid):
        if self.wanted(gid, "active", "waiting") == "active":
            self.take_out(gid, "active")
            self.wait(gid, 0, True)
        else:
            self.mark(gid, self.place(gid), True)

    def unpause(self, gid):
        self.wanted(gid, "paused")
        self.mark(gid, self.place(gid), False)

    def pause_all(self):
        for place, gid in enumerate(self.waiting):
            self.mark(gid, place, True)
        for gid in reversed(self.active):
            self.wait(gid, 0, True)
        self.active = []

    def unpause_all(self):
        for place, gid in enumerate(self.waiting):
            self.mark(gid, place, False)

    def stop(self, gid, ending):
        self.take_out(gid, self.wanted(gid, "active", "waiting", "paused"))
        self.stopped.append(gid)
        self.stands[gid] = ending

    def forget(self, gid):
        self.wanted(gid, *ENDINGS)
        self.stopped.remove(gid)
        del self.stands[gid]

    def purge(self):
        for gid in self.stopped:
            del self.stands[gid]
        self.stopped = []

    def change_position(self, gid, pos, how):
        paused = self.wanted(gid, "waiting", "paused") == "paused"
        own, last = self.place(gid), len(self.waiting) - 1
        place = max(0, min({"set": 0, "cur": own, "end": last}[how] + pos, last))
        self.take_out(gid, "waiting")
        self.wait(gid, place, paused)
        return place

    def lists(self):
        def told(word, gids, mark):
            return f"{word} {len(gids)}:" + "".join(f" {gid:x}{mark(gid)}" for gid in gids[:20])
        return "; ".join((told("active", self.active, lambda gid: ""),
                          told("waiting", self.waiting, lambda gid: "=paused" * (self.stands[gid] == "paused")),
                          told("stopped", self.stopped, lambda gid: f"={self.stands[gid]}")))

    def find(self, key):
        found = [gid for gid in self.stands if f"{gid:016x}".startswith(key.lower())]
        if not found:
            return "not found"
        return f"= {found[0]:x}" if len(found) == 1 else f"names {len(found)}"

    def told_status(self, gid):
        status = self.stands.get(gid, "not found")
        if gid not in self.added:
            return f"{status}; never added"
        place, options = self.added[gid]
        return f"{status}; added {place} of {len(self.added)}:{other_values(options)}"

    def add_by(self, gid, words):
        options, paused, place = {}, False, None
        for word in words:
            name, equals, value = word.partition("=")
            if not equals:
                paused = word == "paused"
            elif name == "each":
                paused = gid % int(value) == 0
            elif name == "at":
                place = int(value)
            else:
                options[name] = value_read(name, value.encode())
        self.add(gid, options, paused, place)

    def answer(self, gid, call, *words):
        """One call on a download, and behind it waiting ones move up. A refused one changes nothing."""
        try:
            if call == "add":
                place = self.add_by(gid, words)
            elif call == "move":
                place = self.change_position(gid, int(words[0]), words[1])
            elif call == "remove":
                place = self.stop(gid, "removed")
            else:
                place = getattr(self, call)(gid, *words)
        except Refused as refused:
            return str(refused)
        self.move_up()
        return "ok" if place is None else f"at {place}"

    def call_all(self, word, words):
        if word == "limit":
            self.limit = int(words[0])
        elif word != "lists":
            getattr(self, {"pauseAll": "pause_all", "unpauseAll": "unpause_all", "purge": "purge"}[word])()
        self.move_up()
        return self.lists()

    def line(self, line):
        word, *words = line.split(" ")
        if word == "find":
            return self.find(words[0])
        if word == "status":
            return self.told_status(int(words[0], 16))
        if word in ("limit", "pauseAll", "unpauseAll", "purge", "lists"):
            return self.call_all(word, words)
        first, dots, last = words[0].partition("..")
        if not dots:
            return f"{self.answer(int(first, 16), word, *words[1:])}; {self.lists()}"
        counts = {}
        for gid in range(int(first, 16), int(last, 16) + 1):
            answer = self.answer(gid, word, *words[1:])
            counts[answer] = counts.get(answer, 0) + 1
        return ", ".join(f"{count} times {answer}" for answer, count in counts.items()) + f"; {self.lists()}"


# Digests. Python's own functions take whole messages, so that it is all the same how they come.

def digest_told(word, rest):
    digest, parts = rest.split(" ", 1)
    check, message = checksum_read(digest.encode()), spelled(parts)
    if check is None:
        return "no digest"
    is_right = check[0](message).digest() == check[1]
    if word == "split":
        return f"right at {(len(message) + 1) * is_right} of {len(message) + 1} cuts"
    return "right" if is_right else "wrong"


class Told:
    """What comes of the lines of a file."""

    def begin(self):
        self.queue, self.pieces = Queue(5), []

    def compare(self):
        marks = "".join("+" if hashlib.sha1(spelled(parts)).hexdigest() == digits.lower() else "-"
                        for digits, parts in self.pieces)
        self.pieces = []
        return marks

    def line(self, line):
        word, _, rest = line.partition(" ")
        if word == "cuts":
            return None
        if word == "piece":
            self.pieces.append(rest.split(" ", 1))
            return None
        if word == "queue":
            self.queue = Queue(int(rest))
            return self.queue.lists()
        name, _, parts = rest.partition(" ")
        if word in ("gid", "key", "names"):
            return id_told(word, spelled(rest))
        if word in ("digest", "split"):
            return digest_told(word, rest)
        answers = {"line": lambda: meaning(rest), "read": lambda: reading(name, parts), "compare": self.compare,
                   "option": lambda: row_told(name), "defaults": lambda: defaults(name),
                   "seal": lambda: hashlib.sha1(spelled(rest)).hexdigest()}
        return answers[word]() if word in answers else self.queue.line(line)


# Random steps.

FAR = [-(1 << 63), -(1 << 32), -100, 100, 1 << 31, 1 << 32, (1 << 63) - 1]


def one_step(chance, gids):
    gid = f"{chance.choice(gids):x}"
    kind = chance.choices(*zip(("add", 9), ("pause", 5), ("unpause", 5), ("move", 9), ("remove", 1), ("stop", 4),
                               ("forget", 2), ("all", 2), ("limit", 1), ("find", 1), ("status", 1)))[0]
    if kind == "add":
        place = chance.choice(["", "", f" at={chance.randrange(6)}", " at=4294967295"])
        return f"add {gid}{' paused' * chance.randrange(2)}{place}"
    if kind == "move":
        pos = chance.choice(FAR) if chance.randrange(5) == 0 else chance.randrange(-5, 6)
        return f"move {gid} {pos} {chance.choice(['set', 'cur', 'end'])}"
    if kind == "stop":
        return f"stop {gid} {chance.choice(ENDINGS)}"
    if kind == "all":
        return chance.choice(["pauseAll", "unpauseAll", "unpauseAll", "purge"])
    if kind == "limit":
        return f"limit {chance.choice([0, 1, 2, 3, 5, 64, 65535])}"
    if kind == "find":
        return f"find {int(gid, 16):016x}"[:5 + chance.randrange(1, 17)]
    return f"{kind} {gid}"


def steps():
    """Queues of ids that few digits write, or whose first digits are the same. Some hold more than are shown."""
    chance = random.Random(20)
    lines = ["# Random steps of queues, written by tests/plain/tests_queue.py."]
    for number in range(50):
        count = chance.choice([4, 8, 16, 60])
        gids = list(range(1, count + 1))
        if number % 3 == 0:
            gids = [int("".join(chance.choice("ab") for _ in range(6)) + f"{gid:010x}", 16) for gid in gids]
        lines += ["", f"queue {chance.randrange(4)}"] + [one_step(chance, gids) for _ in range(80)]
    return "".join(f"{line}\n" for line in lines)


def main(words):
    settle([(STEPS, steps())], words)
    settle([(f"crates/{CRATE}/stdout", told_lines(CRATE, Told()))], words)


main(sys.argv[1:])
