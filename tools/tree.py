"""The crates of this tree as crates.txt has them, and copies of their sources."""
import filecmp
import hashlib
import os
import shutil

TOP = os.path.dirname(os.path.dirname(os.path.realpath(__file__)))
CRATES = f"{TOP}/crates.txt"
PARTS = ("src", "specs", "proofs")


def read(path):
    with open(path, encoding="utf-8") as file:
        return file.read()


def named():
    """Each crate with what stands before its colon, and all libraries behind it."""
    lines = [line.partition("#")[0].strip() for line in read(CRATES).split("\n")]
    pairs = [line.partition(":") for line in lines if ":" in line]
    return {head.split()[0]: (head, sorted(rest.split())) for head, _, rest in pairs}


def libraries():
    """Each crate with those of this tree that it stands on."""
    crates = named()
    return {it: [lib for lib in libs if lib in crates] for it, (_, libs) in crates.items()}


def lowest_first():
    """The crates, each behind those that it stands on."""
    below, ordered = libraries(), []

    def add(crate):
        if crate not in ordered:
            for it in below[crate]:
                add(it)
            ordered.append(crate)

    for it in below:
        add(it)
    return ordered


def room(name):
    """The folder outside of this tree where something is kept for it between runs."""
    cache = os.environ.get("XDG_CACHE_HOME") or os.path.expanduser("~/.cache")
    return f"{cache}/{name}/{hashlib.sha256(TOP.encode()).hexdigest()[:16]}"


def replace(one, other):
    """Makes the folder other what the folder one is. A file that is the same isn't written."""
    wanted = {os.path.relpath(f"{at}/{name}", one) for at, _, names in os.walk(one) for name in names}
    for at, _, names in os.walk(other):
        for name in names:
            if os.path.relpath(f"{at}/{name}", other) not in wanted:
                os.remove(f"{at}/{name}")
    for path in wanted:
        to = f"{other}/{path}"
        if not os.path.isfile(to) or not filecmp.cmp(f"{one}/{path}", to, shallow=False):
            os.makedirs(os.path.dirname(to), exist_ok=True)
            shutil.copyfile(f"{one}/{path}", to)


def copy_sources(to):
    """Makes a copy of the crates' sources, in which `rt` works as it does here."""
    os.makedirs(f"{to}/.git", exist_ok=True)
    for name in ("crates.txt", "HANDLES"):
        shutil.copyfile(f"{TOP}/{name}", f"{to}/{name}")
    for crate in named():
        for part in PARTS:
            replace(f"{TOP}/crates/{crate}/{part}", f"{to}/crates/{crate}/{part}")
