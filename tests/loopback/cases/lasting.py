"""The cases of what has to last: in which order it is written out, and that a short read or write isn't taken for whole."""
import os
import time
from contextlib import contextmanager

from cases.faults import STARTS, begin_anew, ended
from lib.consoles import steered
from lib.controls import SUFFIX, TEMPORARY
from lib.faults import Faults
from lib.killing import Slow
from lib.mirrors import Site
from lib.payloads import SMALL, noise, served
from lib.rooms import PLAIN, case
from lib.wants import Late, Wrong, about, want, want_in_time, want_within

# Each way in which an edge may write out too little, with the call without which a run has nothing to write out so.
WRONG_ORDERS = (
    ("sync file", "write"),
    ("sync behind make folder", "make folder"),
    ("sync behind rename", "rename"),
    ("sync behind remove", "remove"),
    ("rename", "rename"),
)
# Progress is saved at each chance.
SAVING = ("--auto-save-interval=1", *PLAIN)


class Written:
    """What was written and isn't written out yet: bytes of files, and entries of folders. Known apart are the folders in which a file
    was put in place.
    """

    def __init__(self):
        self.files = set()
        self.folders = set()
        self.put = set()

    def take(self, call):
        """Follows a call, and says what is wrong with it."""
        folder = os.path.dirname(call.path)
        # a temporary file's own entry need not last
        is_temporary = call.path.endswith(TEMPORARY)
        if call.does in ("write", "cut", "create") and not is_temporary:
            want(not self.put, f"{call.path} was changed before what was put in {sorted(self.put)} lasts")
        if call.does in ("write", "cut"):
            want(not call.path.endswith(SUFFIX), f"{call.path} was written, and not put in place whole")
            self.files.add(call.path)
        elif call.does == "sync":
            for it in (self.files, self.folders, self.put):
                it.discard(call.path)
        elif call.does in ("create", "make folder"):
            if not is_temporary:
                self.folders.add(folder)
        elif call.does == "rename":
            self.none_left(f"{call.other} was put in place")
            for it in (self.folders, self.put):
                it.add(os.path.dirname(call.other))
        elif call.does == "remove":
            if call.path.endswith(SUFFIX):
                self.none_left(f"{call.path} was removed")
            self.files.discard(call.path)
            if not is_temporary:
                self.folders.add(folder)

    def none_left(self, when):
        want(not self.files, f"{when} before {sorted(self.files)} were written out")
        want(not self.folders, f"{when} before the entries of {sorted(self.folders)} were written out")


def want_lasting(calls, folders=()):
    """Each call tells progress only once what it tells of lasts, and in the end all lasts. The entries of some folders may not
    have lasted before.
    """
    written = Written()
    written.folders |= set(folders)
    for call in calls:
        written.take(call)
    written.none_left("the run ended")


def want_noticed(what, check):
    """An edge that does this wrong is noticed."""
    try:
        check()
    except Late:
        raise
    except Wrong:
        return
    raise Wrong(f"it isn't noticed where {what}")


@contextmanager
def served_start(room, start):
    """A payload that is served, whose metainfo file stands, with what makes what stands before a run."""
    name, payload, piece_length, begin = start
    with about(name), Site(served(payload)) as site:
        room.torrent(site.url(target="/"), payload, b"a", piece_length)
        yield payload, begin


@case("files and folders are written out before progress is told", "cc")
def _(room):
    faults = Faults(room.folder)
    for start in STARTS:
        with served_start(room, start) as (_, begin):

            def noted(**told):
                begin(room)
                status, _ = ended(room, SAVING, faults.noting(**told))
                want(status == 0, f"it ended with {status}")
                return faults.notes()

            calls = noted()
            want_lasting(calls)
            told = {it.does for it in calls}
            want({"create", "cut", "sync"} <= told, f"just {sorted(told)} were seen")
            # the same run with an edge that is wrong
            for wrong, does in WRONG_ORDERS:
                if does in told:
                    want_noticed(f"there is no {wrong}", lambda: want_lasting(noted(FAULT_DROPS=wrong)))


# A download of one small file has so many syncs at most: of its control file and its folder, of the empty payload and its folder, and in
# the end of the payload and its folder.
FEW_SYNCS = 6


@case("a small download has few syncs", "cc")
def _(room):
    faults = Faults(room.folder)
    with Site({"/a": b"hello"}) as site:
        uri = site.url(target="/a").decode()
        room.torrent(site.url(target="/"))
        for words in (PLAIN, ("--split=4", *PLAIN), (uri,)):
            with about(f"{words}"):
                if words == (uri,):
                    room.unlisted()
                room.fetches(b"hello", words=words, shell=faults.noting())
                calls = faults.notes()
                want_lasting(calls)
                syncs = [os.path.relpath(it.path, faults.folder) for it in calls if it.does == "sync"]
                want(len(syncs) <= FEW_SYNCS, f"{len(syncs)} syncs came: {syncs}")


@case("a file that is saved and goes on is written out each time", "cc", slow=True)
def _(room):
    faults = Faults(room.folder)
    payload = noise(400_000)
    with Slow({"/a": payload}, 100_000) as site:
        room.torrent(site.url(target="/"), payload)
        room.fetches(payload, words=SAVING, shell=faults.noting())
        calls = faults.notes()
        want_lasting(calls)
        saves = sum(it.does == "rename" for it in calls)
        syncs = sum(it.does == "sync" and it.path.endswith("/a") for it in calls)
        want_in_time(saves >= 3, f"it was saved {saves} times")
        want(syncs >= saves, f"{syncs} syncs of the payload came for {saves} saves")


# A sync of a slow disk, in seconds, and how many of them a turn has at most. Over one connection a call waits for one turn.
SLOW_SYNC, MOST_SYNCS = 0.05, 4
# .. and so many seconds for all else
OTHERWISE = 0.1


def longest_call(room, sync, *words):
    """How long the longest call to a console takes while 20 downloads come and a sync takes so many seconds."""
    faults = Faults(room.folder)
    files = {f"/{it}": noise(100_000) for it in range(20)}
    took = []
    with Site(files) as site, steered(room, *words, shell=faults.shell(FAULT_SLOW=int(1000 * sync))) as (console, ended_with):

        def timed(method, *params):
            begun = time.monotonic()
            result = console.call(method, *params)
            took.append(time.monotonic() - begun)
            return result

        for target in files:
            timed("aria2.addUri", [site.url(target=target).decode()])
        while int(timed("aria2.getGlobalStat")["numStoppedTotal"]) < len(files):
            time.sleep(0.005)
        console.call("aria2.shutdown")
    want(ended_with[0] == 0, f"it ended with {ended_with[0]}")
    for target, content in files.items():
        want(room.get(target[1:]) == content, f"{target} has other bytes")
    return max(took)


@case("a console is answered while a slow disk writes out what one connection brings", "cc", slow=True)
def _(room):
    longest = longest_call(room, SLOW_SYNC, "--split=1", "--max-concurrent-downloads=1")
    # the program's own work comes besides
    want_within(longest, MOST_SYNCS * SLOW_SYNC + OTHERWISE, "the longest call")


# A call waits for the turn that is under way, and for those of workers who waited long and came before it: no more than so many.
TURNS_BEFORE = 3

for _sync in (SLOW_SYNC, 4 * SLOW_SYNC):

    @case(f"a console is answered while a slow disk writes out what five downloads bring, by syncs of {_sync} seconds", "cc", slow=True)
    def _(room, sync=_sync):
        longest = longest_call(room, sync, "--split=5")
        want_within(longest, TURNS_BEFORE * MOST_SYNCS * sync + OTHERWISE, "the longest call")


def folders_above(room):
    """The folders that hold a folder of the payload, whole."""
    return {os.path.realpath(f"{at}/..") for at, _, _ in os.walk(room.path("a"))}


@case("folders that a run left which couldn't write them out are written out by the next one", "cc")
def _(room):
    faults = Faults(room.folder)
    with served_start(room, STARTS[2]) as (_, begin):
        begin(room)
        status, _ = ended(room, SAVING, faults.noting())
        want(status == 0, f"it ended with {status}")
        folders = folders_above(room)
        syncs = [it for it in faults.notes() if it.does == "sync" and it.path in folders]
        want(len(folders) == 3 and len(syncs) >= 3, f"of {folders} {syncs} were written out")
        for call in syncs:
            with about(f"{os.path.basename(call.path)}, call {call.number}"):
                begin(room)
                status, _ = ended(room, SAVING, faults.shell(FAULT_AT=call.number, FAULT_DOES="fails"))
                want(status == 17, f"it ended with {status}")
                status, _ = ended(room, SAVING, faults.noting())
                want(status == 0, f"the next one ended with {status}")
                # what stood may not have lasted
                want_lasting(faults.notes(), folders)


@case("a file that couldn't be written out once isn't trusted any more", "cc", slow=True)
def _(room):
    faults = Faults(room.folder)
    with Site({"/a": noise(100_000)}) as site:
        room.put("kept", b"")
        with steered(room, shell=faults.shell(FAULT_SYNC="a")) as (console, ended_with):
            for _ in range(2):
                gid = console.call("aria2.addUri", [site.url(target="/a").decode()], {"out": "a"})
                console.until(gid, {"status": "error", "errorCode": "17"})
            other = console.call("aria2.addUri", [site.url(target="/a").decode()], {"out": "b"})
            console.until(other, {"status": "complete"})
            console.call("aria2.shutdown")
        want(ended_with[0] == 17, f"it ended with {ended_with[0]}")
        # another run begins with files that it opens itself
        room.unlisted()
        room.fetches(noise(100_000), anew=False, words=[site.url(target="/a").decode()])


@case("reads and writes move fewer bytes than they are asked to", "cc")
def _(room):
    faults = Faults(room.folder)
    for start in STARTS:
        with served_start(room, start) as (payload, begin):

            def calls(**told):
                begin(room)
                room.fetches(payload, anew=False, words=PLAIN, shell=faults.shell(**told))
                return faults.counts()[0]

            whole, short = calls(), calls(FAULT_SHORT=1)
            want(short > whole, f"{short} calls moved half of what {whole} do")
            for wrong in ("short read", "short write") if payload and begin is begin_anew else ():
                want_noticed(f"a {wrong} is taken for whole", lambda: calls(FAULT_DROPS=wrong))


@case("a file that can't be looked at isn't taken for missing", "cc")
def _(room):
    faults = Faults(room.folder)
    # the payload's file, its control file and the metainfo file stand
    with served_start(room, STARTS[-1]) as (_, begin):
        begin(room)
        status, _ = ended(room, PLAIN, faults.noting())
        want(status == 0, f"it ended with {status}")
        # one that is open can't be missing
        seen = [it for it in faults.notes() if it.does == "look" and os.path.basename(it.path)]
        standing = {os.path.basename(it.path) for it in seen}
        want({"t.torrent", "a", f"a{SUFFIX}"} <= standing, f"only {sorted(standing)} were looked at")
        for call in seen:
            with about(f"{os.path.basename(call.path)}, call {call.number}"):

                def fails(**told):
                    begin(room)
                    status, _ = ended(room, PLAIN, faults.shell(FAULT_AT=call.number, FAULT_DOES="fails", **told))
                    want(status == 17, f"it ended with {status}")

                fails()
                want_noticed("it is taken for missing", lambda: fails(FAULT_DROPS="look"))
