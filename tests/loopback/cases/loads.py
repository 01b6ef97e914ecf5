"""The case of the load, which the program runs over mirrors, a disk and clocks in memory."""
import subprocess
import sys

from lib import load_digest
from lib.rooms import LIMIT, PROGRAM, case
from lib.wants import about, want


def ended(room, *words, limit=LIMIT):
    ran = subprocess.run(words, cwd=room.folder, stdin=subprocess.DEVNULL, capture_output=True, timeout=limit, check=False)
    return ran.returncode, ran.stdout.decode(), ran.stderr.decode()


@case("a load, twice", slow=True)
def _(room):
    for number in (1, 2**64 - 1):
        # a plain program in Python takes its time
        _, digest, _ = ended(room, sys.executable, "-B", load_digest.__file__, str(number), limit=300)
        line = f"load {number} pieces 64 right 64 bytes 67108864 sha1 {digest}"
        for time in ("first", "second"):
            with about(f"{number}, the {time} time"):
                told = ended(room, PROGRAM, f"--self-load={number}")
                want(told == (0, line, ""), f"it ended with {told}")
