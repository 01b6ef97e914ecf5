#!/usr/bin/env python3
"""What crates/tests_ftp has to print: where `ftp` URLs lead by RFC 1738 and the URL Standard, what replies are by RFC 959 and RFC 3659,
and what each step of a dialogue says and leads to. A reply is due where one of the shortest ways to go on makes one.

    tests/plain/tests_ftp.py [--check]
"""
import ipaddress
import re
import sys
from urllib.parse import unquote_to_bytes

from case_files import settle, spelled, told_lines

CRATE = "tests_ftp"
SPECIAL = {"ftp": 21, "http": 80, "https": 443, "ws": 80, "wss": 443}
# Limits of the program's own.
LINE = 512
LINES = 64


def shown(message):
    text = "".join(chr(it) if 32 <= it < 127 and it not in b"%|" else f"%{it:02X}" for it in message)
    return text.replace("%0D%0A", "|")


def host_of(text):
    if text.startswith("["):
        return f"[{ipaddress.IPv6Address(text[1:-1]).compressed}]"
    return text.lower()


def path_of(text):
    """The bytes of a path, without `.` and `..`."""
    parts = []
    for part in text.split("/")[1:]:
        if part == "..":
            parts = parts[:-1]
        elif part != ".":
            parts.append(part)
    return unquote_to_bytes("/".join(parts))


def is_text(path):
    try:
        path.decode()
        return True
    except UnicodeDecodeError:
        return False


def place(url):
    """The host, the port and the path of a URL, or why there are none."""
    found = re.fullmatch(r"([A-Za-z][A-Za-z0-9+.-]*):(.*)", url)
    if not found:
        return "no URL"
    scheme = found[1].lower()
    if scheme not in SPECIAL:
        return "another scheme"
    whole, _, _ = found[2].lstrip("/").partition("#")
    whole, _, _ = whole.partition("?")
    authority, slash, rest = whole.partition("/")
    user, _, server = authority.rpartition("@")
    found = re.fullmatch(r"(\[[^\]]*\]|[^:]+)(?::([0-9]*))?", server)
    if not found or int(found[2] or 0) > 65535:
        return "no URL"
    if scheme != "ftp":
        return "another scheme"
    path = path_of(slash + rest)
    if user not in ("", ":") or path == b"" or not is_text(path) or any(it in path for it in b"\r\n\0"):
        return "no path"
    return host_of(found[1]), int(found[2] or 21), path


def place_line(url):
    found = place(url)
    return found if isinstance(found, str) else f"{found[0]} {found[1]} {shown(found[2])}"


def first_reply(message):
    """The code of the reply at the front, its last line, and how many bytes it has."""
    found = re.match(rb"([0-9]{3})([ -])", message)
    if not found:
        return None
    used = 0
    for number in range(LINES):
        end = message.find(b"\r\n", used)
        if end < 0 or end + 2 - used > LINE:
            return None
        line, used = message[used:end + 2], end + 2
        if line.startswith(found[1] + b" "):
            return int(found[1]), line, used
    return None


def is_due(message):
    """Whether a reply is due of which none stands at the front."""
    code = (message[:3] + b"220"[len(message[:3]):]) + b" "
    ends = [b"\r\n", b"\n"]
    ways = [code[at:] + end for at in range(5) for end in ends] + [end + code + b"\r\n" for end in ends]
    return first_reply(message) is None and any(first_reply(message + way) for way in ways)


def settled_at(message):
    return next(at for at in range(len(message) + 1) if at == len(message) or not is_due(message[:at]))


def reply_line(message):
    found = first_reply(message)
    if is_due(message):
        return "due"
    answer = f"{found[0]} {found[2]}" if found else "bad"
    return f"{answer} by {settled_at(message)}"


def port_in(line):
    """The port of the first address."""
    number = rb"(0|[1-9][0-9]{0,2})"
    for found in re.finditer(rb"\(" + b",".join([number] * 6) + rb"\)", line):
        numbers = [int(it) for it in found.groups()]
        if max(numbers) < 256:
            return numbers[4] * 256 + numbers[5] or None
    return None


def size_in(line):
    found = re.fullmatch(rb"213 ([0-9]+)\r\n", line)
    return int(found[1]) if found and int(found[1]) < 2 ** 63 else None


def told(number):
    return "none" if number is None else str(number)


def command(step, at, url):
    path = place(url)[2]
    words = {"greeting": b"", "user": b"USER anonymous\r\n", "password": b"PASS anonymous@\r\n", "binary": b"TYPE I\r\n", "size": b"SIZE %b\r\n" % path,
             "passive": b"PASV\r\n", "restart": b"REST %d\r\n" % at, "retrieve": b"RETR %b\r\n" % path}
    return shown(words[step])


# What follows a reply of a code: a step, or what its last line tells.
FOLLOWS = {
    ("greeting", 220): "user",
    ("user", 331): "password",
    ("user", 230): "binary",
    ("password", 230): "binary",
    ("binary", 200): "size",
    ("size", 213): size_in,
    ("size", 550): "not found",
    ("passive", 227): port_in,
    ("restart", 350): "retrieve",
    ("retrieve", 125): "data",
    ("retrieve", 150): "data",
    ("retrieve", 550): "not found",
}


def turn(step, message, ended):
    found = first_reply(message)
    if not found:
        return "bad reply" if not is_due(message) else "short 0" if ended else "due"
    code, line, _ = found
    follows = FOLLOWS.get((step, code), f"refused {code} {29 if step == 'greeting' else 21}")
    if isinstance(follows, str):
        return follows
    number = follows(line)
    return "bad reply" if number is None else f"{'size' if step == 'size' else 'port'} {number}"


class Told:
    def begin(self):
        pass

    def line(self, line):
        word, rest = line.split(" ", 1)
        if word == "place":
            return place_line(rest)
        if word == "command":
            step, at, url = rest.split(" ")
            return command(step, int(at), url)
        if word in ("step", "ended"):
            step, _, parts = rest.partition(" ")
            return turn(step, spelled(parts.replace("|", "%0D%0A")), word == "ended")
        message = spelled(rest.replace("|", "%0D%0A"))
        if word == "reply":
            return reply_line(message)
        return told(port_in(message) if word == "port" else size_in(message))


def main(words):
    settle([(f"crates/{CRATE}/stdout", told_lines(CRATE, Told()))], words)


main(sys.argv[1:])
