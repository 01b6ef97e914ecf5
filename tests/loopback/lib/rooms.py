"""A folder in which the program runs, what is wanted of a run, and the list of cases."""
import hashlib
import itertools
import os
import re
import shutil
import subprocess
import sys

from lib import controls
from lib.torrents import bencoded, info_of, whole, written
from lib.wants import Late, Skipped, Wrong, want, want_said

TOP = os.path.realpath(f"{os.path.dirname(__file__)}/../../..")
BUILT = f"{TOP}/crates/aria_cli/out/aria_cli"
PROGRAM = os.path.realpath(sys.argv[1])

# A program that shows the store over files by itself, which `rt ci` makes as well.
STORE = f"{TOP}/crates/tests_store/out/tests_store"

# The run over one connection, without threads, as a program.
ALONE = f"{TOP}/crates/tests_real_run/out/tests_real_run"

# The seconds that a run may take.
LIMIT = 30

# Runs under this limit of 64 MiB of memory.
LITTLE = "ulimit -v 65536"

HEADER = b"gid|stat|completed|total|code|path\n"
CASES = []

# The words of a run that asks as often as it does without being told, and of one that the first loss ends.
PLAIN = ("t.torrent",)
ONCE = ("--max-tries=1", "t.torrent")
# Words by which a claim is of 64 blocks where the payload has 4,096 at most: that is one piece of a mebibyte.
BY_MIB = ("--split=64", "--min-split-size=1M", *ONCE)

# The statuses of a download that was opened and that no mirror could complete.
LOST = {3, 6, 21, 22, 23, 24, 29, 32}


def built(program):
    """A program that tests alone need, where it is built."""
    if not os.access(program, os.X_OK):
        raise Skipped(f"it needs {os.path.basename(program)}, which isn't built: rt ci makes it")
    return program


def case(name, *needs, slow=False, alone=False):
    """Lists a function as a case. It gets a room, and is tried where what it needs is there.

    Most rooms are in memory, if there is enough of it; one that needs `disk` isn't. With `alone` each run is the one without
    threads, whose one connection takes the claims of a download in turn.
    """

    def add(function):
        CASES.append((name, needs, slow, alone, function))
        return function

    return add


def request(host, last, target="/a.bin", first=0):
    """The bytes of a request for a resource from one byte to another, with both."""
    lines = [
        f"GET {target} HTTP/1.1",
        f"Host: {host}",
        "User-Agent: aria_cli",
        "Accept: */*",
        "Accept-Encoding: identity",
        f"Range: bytes={first}-{last}",
        "",
    ]
    return "".join(f"{it}\r\n" for it in lines).encode()


def want_asked(mirror, asked):
    """The mirror was asked for these parts, each a target with its first and last byte, in this order."""
    mirror.wait()
    host = f"127.0.0.1:{mirror.port}"
    wanted = [request(host, last, target, first) for target, first, last in asked]
    for place, (was, right) in enumerate(itertools.zip_longest(mirror.requests, wanted)):
        want(was == right, f"request {place} was {was!r}, and not {right!r}")


def files_of(payload, name):
    """The files that a payload consists of, as pairs of a path and bytes."""
    return [(name, payload)] if isinstance(payload, bytes) else [(f"{name}/{path}", it) for path, it in payload]


class Room:
    """A folder with a metainfo file and what a run makes."""

    def __init__(self, folder, is_alone=False):
        self.folder = folder
        self.is_alone = is_alone
        # The info hash and the length of the pieces that a control file has to tell, where they are known.
        self.right = None
        # What the last run wrote to standard error.
        self.said = ""

    def path(self, name):
        return f"{self.folder}/{name}"

    def put(self, name, content):
        os.makedirs(os.path.dirname(self.path(name)), exist_ok=True)
        with open(self.path(name), "wb") as it:
            it.write(content)

    def get(self, name):
        """A file's bytes, and None where there is none."""
        try:
            with open(self.path(name), "rb") as it:
                return it.read()
        except FileNotFoundError:
            return None

    def torrent(self, seeds, payload=b"hello", name=b"a", piece_length=16384):
        self.told_by(info_of(payload, name, piece_length), seeds)

    def told_by(self, info, seeds):
        """The metainfo file says this."""
        self.put("t.torrent", written(info, seeds))
        self.right = (hashlib.sha1(bencoded(info)).digest(), info["piece length"])

    def unlisted(self, piece_length=1 << 20):
        """There is no metainfo file."""
        self.right = (b"", piece_length)

    def clear(self, name="a"):
        """Nothing stands of the download of this name."""
        for it in (name, f"{name}{controls.SUFFIX}", f"{name}{controls.TEMPORARY}"):
            path = self.path(it)
            if os.path.isdir(path):
                shutil.rmtree(path)
            elif os.path.lexists(path):
                os.remove(path)

    def standing(self):
        """Each file by its path with its bytes, and each folder with none."""
        found = {}
        for folder, folders, files in os.walk(self.folder):
            found.update({f"{folder}/{it}": None for it in folders})
            for it in files:
                with open(f"{folder}/{it}", "rb") as file:
                    found[f"{folder}/{it}"] = file.read()
        return found

    def control_files(self):
        """The control files that stand anywhere, with the temporary ones."""
        found = set()
        for folder, _, files in os.walk(self.folder):
            found |= {os.path.relpath(f"{folder}/{it}", self.folder) for it in files if ".aria2" in it}
        return found

    def start(self, *words, program=PROGRAM, out=subprocess.PIPE, shell="", within=()):
        """The process of the program on these words. A line of shell may come first, another command begin it all.

        It goes by one connection, unless the words say by how many. Where one connection is to take several claims in turn,
        it is the run without threads.
        """
        if program == PROGRAM and (self.is_alone or "--split=64" in words):
            program = built(ALONE)
        elif not any(str(it).startswith(("--split", "-s")) for it in words):
            words = ("--split=1", *words)
        begin = ["sh", "-c", f'{shell}\nexec "$@"', "sh"] if shell else []
        return subprocess.Popen(
            [*within, *begin, program, *words],
            cwd=self.folder,
            stdin=subprocess.DEVNULL,
            stdout=out,
            stderr=subprocess.PIPE,
        )

    def run(self, *words, name="a", leaves=None, meanwhile=None, limit=LIMIT, **how):
        """Runs the program on these words, and gives its status and what it wrote.

        `meanwhile` gets the process. `leaves` is whether the control file of the download of this name stands behind
        the run: without it, that is as it was before. No other control file comes or goes.
        """
        stood = self.control_files()
        started = self.start(*words, **how)
        try:
            if meanwhile:
                meanwhile(started)
            wrote, said = started.communicate(timeout=limit)
        except subprocess.TimeoutExpired:
            raise Late(f"the program had not ended after {limit} seconds") from None
        finally:
            if started.poll() is None:
                started.kill()
                started.communicate()
        want_said(said, started.returncode)
        self.said = said.decode()
        own = {f"{name}{controls.SUFFIX}", f"{name}{controls.TEMPORARY}"}
        right = stood if leaves is None else stood - own | ({f"{name}.aria2"} if leaves else set())
        stands = self.control_files()
        want(stands == right, f"status {started.returncode}, and the control files {stands} stand, not {right}")
        return started.returncode, wrote

    def store(self, *words):
        """What the store tells of each of these words about the download of the metainfo file, in this folder."""
        ran = subprocess.run(
            [built(STORE), "t.torrent", ".", *words],
            cwd=self.folder,
            stdin=subprocess.DEVNULL,
            capture_output=True,
            timeout=LIMIT,
            check=False,
        )
        want((ran.returncode, ran.stderr) == (0, b""), f"the store ended with {ran.returncode}, {ran.stderr[:200]!r}")
        return ran.stdout.decode().splitlines()

    def stores(self, *told, words=("open",)):
        """The store tells these lines."""
        got = self.store(*words)
        want(got == [*told], f"the store told {got}, and not {[*told]}")

    def refuses(self, status, *words, **how):
        """The run ends with this status, and writes it as an error."""
        ended, wrote = self.run(*words, **how)
        line = b"error %d\n" % status
        want((ended, wrote) == (status, line), f"status {ended}, output {wrote!r}, and not {line!r}")

    def ends(self, status, total, name="a", completed=None, words=ONCE, leaves=None, lists=(), **how):
        """The run ends with this status, and writes the summary of one download, with so many bytes.

        Without being told, those are all where it went well, and else none. Where the download was opened and isn't
        complete, its control file stands, and lists just these blocks, if that is told.
        """
        leaves = status in LOST if leaves is None and status in {0, *LOST} else leaves
        ended, wrote = self.run(*words, name=name, leaves=leaves, **how)
        completed = (0 if status else total) if completed is None else completed
        stat = "ERR" if status else "OK"
        line = f"|{stat}|{completed}|{total}|{status}|{name}\n".encode()
        said = f"status {ended}, output {wrote!r}, and not status {status} with {line!r} after the gid"
        want(ended == status, said)
        want(re.fullmatch(re.escape(HEADER) + rb"[0-9a-f]{16}" + re.escape(line), wrote), said)
        if leaves and lists is not None:
            self.lists(lists, total, name)

    def fetches(self, payload, name="a", anew=True, **how):
        """The run ends well, and the payload has these bytes. Nothing stands of it before, if it is to begin anew."""
        if anew:
            self.clear(name)
        self.ends(0, len(whole(payload)), name, **how)
        self.has(payload, name)

    def fails(self, status, payload=b"hello", completed=0, name="a", stands=None, anew=True, **how):
        """The run ends so once these first bytes had landed.

        The payload has no others of those that came, unless it is told how it stands.
        """
        if anew:
            self.clear(name)
        self.ends(status, len(whole(payload)), name, completed, **how)
        if stands is None:
            self.has(payload, name, completed)
        else:
            self.has(stands, name)

    def lists(self, blocks, total, name="a"):
        """The control file of a download lists just these blocks, and is of the right payload."""
        control = controls.read(self.get(f"{name}.aria2"))
        listed = [block for block, is_listed in enumerate(controls.blocks_of(control)) if is_listed]
        want(listed == [*blocks], f"the control file lists the blocks {listed}, and not {[*blocks]}")
        want(control.total == total, f"the control file is of {control.total} bytes")
        if self.right is not None:
            want(control[:2] == self.right, f"the control file is of {control[:2]}, and not of {self.right}")

    def has(self, payload, name="a", completed=None):
        """Each file stands with its length and bytes; past the completed ones they are 0."""
        left = len(whole(payload)) if completed is None else completed
        for path, content in files_of(payload, name):
            right = content[:left].ljust(len(content), b"\0")
            left -= min(left, len(content))
            got = self.get(path)
            want(got is not None, f"there is no file {path!r}")
            want(got == right, f"the file {path!r} has {len(got)} bytes, {got[:64]!r}, and not {right[:64]!r}")
