"""What programs of cases have in common: a crate's lines of cases, and what its standard output must be."""
import os
import re
import sys
from itertools import zip_longest

ROOT = f"{os.path.dirname(os.path.realpath(__file__))}/../.."


def spelled(parts):
    """The bytes that parts spell, between which + stands: 3*ab is three times ab, and % with two digits a byte."""
    out = b""
    for part in parts.split("+"):
        count, star, unit = part.partition("*")
        if not star:
            count, unit = "1", part
        unit = re.sub(rb"%([0-9a-fA-F]{2})", lambda found: bytes([int(found[1], 16)]), unit.encode())
        out += unit * int(count)
    return out


def told_lines(crate, told):
    """Each line of the crate's case files, and behind it what the function tells of it, if anything."""
    folder = f"{ROOT}/crates/{crate}"
    out = []
    for name in open(f"{folder}/args").read().split("\n"):
        if not name:
            continue
        told.begin()
        for line in open(f"{folder}/data/{name}", encoding="utf-8", newline="").read().removesuffix("\n").split("\n"):
            out.append(line)
            answer = None if line == "" or line.startswith("#") else told.line(line)
            if answer is not None:
                out.append(f"  {answer}")
    return "".join(f"{line}\n" for line in out)


def printed_by(crate, printed):
    """What the function tells of the texts of the crate's case files, one behind the other."""
    told = ""
    for name in open(f"{ROOT}/crates/{crate}/args", encoding="utf-8").read().split():
        with open(f"{ROOT}/crates/{crate}/data/{name}", encoding="utf-8") as cases:
            told += printed(cases.read())
    return told


def first_difference(path, found, expected):
    for place, (line, other) in enumerate(zip_longest(found.split("\n"), expected.split("\n")), 1):
        if line != other:
            return f"{path}, line {place}: {str(line)[:300]!r} stands there, {str(other)[:300]!r} is wanted"
    return None


def settle(texts, words):
    """Writes each text to its path in the repository, or with --check tells the first difference."""
    if words not in ([], ["--check"]):
        sys.exit(f"usage: {sys.argv[0]} [--check]")
    for path, text in texts:
        full = f"{ROOT}/{path}"
        if not words:
            with open(full, "w", encoding="utf-8", newline="") as out:
                out.write(text)
            continue
        with open(full, encoding="utf-8", newline="") as there:
            difference = first_difference(path, there.read(), text)
        if difference:
            sys.exit(difference)
