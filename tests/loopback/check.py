"""Tries the cases, several at a time. `run` beside this file starts it."""
import concurrent.futures
import os
import resource
import shutil
import signal
import subprocess
import sys
import tempfile

from cases import (  # each lists its cases
    chosen,
    connections,
    console,
    faults,
    ftp,
    lasting,
    layouts,
    loads,
    many,
    metainfos,
    moves,
    one_request,
    origin,
    peers,
    rates,
    readout,
    reasons,
    repair,
    replies,
    rests,
    resumes,
    several,
    sockets,
    standing,
    stores,
    uris,
    words,
)
from lib.ftp import has_pyftpdlib
from lib.mirrors import free_port
from lib.rooms import CASES, PROGRAM, Room
from lib.sockets import browser, has_websockets
from lib.version2 import has_libtorrent
from lib.wants import Late, Skipped, Wrong


MEMORY = "/dev/shm"
# How often a case that took too long is tried again, with no other beside it.
TRIES_ALONE = 3


def has_ipv6():
    try:
        return bool(free_port("::1"))
    except OSError:
        return False


def can_unshare():
    ran = subprocess.run(["unshare", "--mount", "true"], stdin=subprocess.DEVNULL, capture_output=True, check=False)
    return ran.returncode == 0


def lacking():
    """What cases need, and isn't here."""
    makers = ("mktorrent", "transmission-create", "transmission-show")
    commands = ("nginx", *makers, "aria2c", "curl", "wget", "unshare", "setpriv", "cc", "vsftpd")
    gone = {it for it in commands if shutil.which(it) is None}
    if not has_ipv6():
        gone.add("ipv6")
    if "unshare" not in gone and not can_unshare():
        gone.add("unshare")
    if not has_libtorrent():
        gone.add("libtorrent")
    if not has_websockets():
        gone.add("websockets")
    if not has_pyftpdlib():
        gone.add("pyftpdlib")
    if not browser():
        gone.add("chromium")
    return gone


def memory():
    """A folder in memory, where a file is synced at once; None where that has little room."""
    try:
        return MEMORY if shutil.disk_usage(MEMORY).free > 2 << 30 else None
    except OSError:
        return None


def attempt(function, needs, alone, gone, where):
    """What became of a case in a folder there, and why."""
    missing = [it for it in needs if it in gone]
    if missing:
        return "skipped", f"it needs {' and '.join(missing)}, not to be had here"
    folder = tempfile.mkdtemp(prefix="loopback-", dir=where)
    try:
        function(Room(folder, alone))
    except Skipped as why:
        return "skipped", str(why)
    except (Late, subprocess.TimeoutExpired) as why:
        return "late", str(why)
    except Wrong as why:
        return "FAILED", str(why)
    except Exception as why:  # a case that breaks is a failed one, and the others go on
        return "FAILED", f"{type(why).__name__}: {why}"
    finally:
        shutil.rmtree(folder, ignore_errors=True)
    return "passed", ""


def told(name, ended, why):
    print(f"{ended}: {name}{': ' if why else ''}{why}", flush=True)


def tried_alone(late, tried):
    """What became of the cases that took too long while others ran, each by itself now."""
    for it in late:
        for _ in range(TRIES_ALONE):
            ended, why = tried(it)
            if ended != "late":
                break
        else:
            ended = "FAILED"
        told(it[0], ended, why)
        yield ended


def main():
    # a stop from outside unwinds, so that each server is ended
    signal.signal(signal.SIGTERM, lambda *_: sys.exit(1))
    # who runs this in the background has it ignore what is to end the programs that it starts
    signal.signal(signal.SIGINT, signal.default_int_handler)
    signal.signal(signal.SIGHUP, signal.SIG_DFL)
    resource.setrlimit(resource.RLIMIT_CORE, (0, 0))
    # a mirror that sends byte by byte isn't to wait for threads that compute
    sys.setswitchinterval(0.0002)
    if not os.access(PROGRAM, os.X_OK):
        print(f"there is no program at {PROGRAM}: rt ci makes it, and so does ./aria_cli")
        print(f"0 passed, {len(CASES)} failed")
        return 1
    chosen = [it for it in CASES if not sys.argv[2:] or any(part in it[0] for part in sys.argv[2:])]
    counts = {"passed": 0, "skipped": 0, "FAILED": 0}
    gone = lacking()
    late = []

    def tried(it):
        _, needs, _, alone, function = it
        return attempt(function, needs, alone, gone, None if "disk" in needs else memory())

    # the slow ones wait rather than work
    with concurrent.futures.ThreadPoolExecutor(max_workers=8) as pool:
        with concurrent.futures.ThreadPoolExecutor(max_workers=12) as waiting:
            running = {it: (waiting if it[2] else pool).submit(tried, it) for it in chosen}
            for it in chosen:
                ended, why = running[it].result()
                if ended == "late":
                    late.append(it)
                    why = f"{why}; it is tried again alone"
                else:
                    counts[ended] += 1
                told(it[0], ended, why)
    for ended in tried_alone(late, tried):
        counts[ended] += 1
    if counts["skipped"]:
        print(f"skipped, as told above: {counts['skipped']}")
    print(f"{counts['passed']} passed, {counts['FAILED']} failed")
    return int(counts["FAILED"] > 0)


if __name__ == "__main__":
    sys.exit(main())
