"""FTP mirrors on loopback (RFC 959): vsftpd, pyftpdlib, and one that answers as it is told."""
import contextlib
import os
import socket
import subprocess
import time
from urllib.parse import quote

from lib.mirrors import PATIENCE, Mirror, Served, free_port, rest_of
from lib.version2 import PYTHON
from lib.wants import want

GREETING = b"220 ready\r\n"

# What is read of the data connection's other side at once, and sent.
PORTION = 8_192


def has_pyftpdlib():
    ran = subprocess.run([PYTHON, "-c", "import pyftpdlib"], capture_output=True, check=False)
    return ran.returncode == 0


def ftp_url(port, target="a.bin", host="127.0.0.1", user=""):
    """The URL of the file at this path, below the folder in which a user begins."""
    return f"ftp://{user}{host}:{port}/{quote(target)}".encode()


OPTIONS = """
listen=YES
listen_ipv6=NO
listen_address=127.0.0.1
listen_port={port}
background=NO
run_as_launching_user=YES
secure_chroot_dir={room}/empty
seccomp_sandbox=NO
isolate=NO
isolate_network=NO
anonymous_enable=YES
local_enable=NO
anon_root={www}
{more}
"""


class Vsftpd(Served):
    """vsftpd, with more of its options."""

    def __init__(self, room, *more):
        super().__init__(room)
        self.more = more

    def __enter__(self):
        os.makedirs(f"{self.room}/empty", exist_ok=True)
        for _ in range(5):
            port = free_port("127.0.0.1")
            options = OPTIONS.format(room=self.room, www=self.www, port=port, more="\n".join(self.more))
            with open(f"{self.room}/vsftpd.conf", "w", encoding="ascii") as it:
                it.write(options.lstrip())
            if self.start(["vsftpd", f"{self.room}/vsftpd.conf"], "127.0.0.1", port):
                return self
            self.__exit__()
        raise OSError(f"vsftpd doesn't start: {said(self.room)}")

    def url(self, host="127.0.0.1", target="a.bin"):
        return ftp_url(self.port, target, host)


# Serves a folder. The words are the host, the port, the folder, and then what is set of the handler, as Python.
SERVES = """
import sys
from pyftpdlib.authorizers import DummyAuthorizer
from pyftpdlib.handlers import FTPHandler
from pyftpdlib.servers import FTPServer
host, port, folder, *more = sys.argv[1:]
FTPHandler.authorizer = DummyAuthorizer()
FTPHandler.authorizer.add_anonymous(folder)
FTPHandler.auth_failed_timeout = 0
for it in more:
    exec(it)
FTPServer((host, int(port)), FTPHandler).serve_forever()
"""


class Pyftpdlib(Served):
    """pyftpdlib, of Debian's own Python, at this address; more lines of Python may set what its FTPHandler does."""

    def __init__(self, room, *more, host="127.0.0.1"):
        super().__init__(room)
        self.more = more
        self.host = host

    def __enter__(self):
        for _ in range(5):
            port = free_port(self.host)
            if self.start([PYTHON, "-c", SERVES, self.host, str(port), self.www, *self.more], self.host, port):
                return self
            self.__exit__()
        raise OSError(f"pyftpdlib doesn't start: {said(self.room)}")

    def url(self, host="127.0.0.1", target="a.bin"):
        return ftp_url(self.port, target, host)


def said(room):
    """The end of what a server wrote that didn't start."""
    with open(f"{room}/served.out", encoding="utf-8", errors="replace") as it:
        return it.read()[-300:]


# What a scripted server gives over its data connection in place of the bytes that were asked for.


def all_of(_, data, content):
    data.sendall(content)


def only(count):
    """The first so many bytes, and then the end."""

    def gives(_, data, content):
        data.sendall(content[:count])

    return gives


def and_then(more):
    """All bytes, and these behind them."""

    def gives(_, data, content):
        data.sendall(content + more)

    return gives


def then_silent(count):
    """The first so many bytes, and then neither more nor the end."""

    def gives(_, data, content):
        data.sendall(content[:count])
        rest_of(data)

    return gives


def then_says(count, reply):
    """The first so many bytes, and then a reply in place of the rest."""

    def gives(dialogue, data, content):
        data.sendall(content[:count])
        data.close()
        dialogue.say(reply)
        dialogue.is_over = True

    return gives


def at_rate(rate):
    """So many bytes a second."""

    def gives(_, data, content):
        begun = time.monotonic()
        for at in range(0, len(content), PORTION):
            data.sendall(content[at : at + PORTION])
            time.sleep(max(0, begun + at / rate - time.monotonic()))

    return gives


class Last(bytes):
    """A reply behind which the control connection is closed."""


class FtpSite(Mirror):
    """Serves files by their paths, and records the commands of each connection.

    `says` has other replies by the name of the command, and by "" the greeting: each is one reply, or a list of one for each time that
    it is due, of which None is the right one, or a function of the right one. `gives` sends what came of a file over the data
    connection. So many bytes of a reply are sent at once as `cut` tells.
    """

    def __init__(self, files=None, says=None, gives=all_of, cut=None, host="127.0.0.1"):
        super().__init__(None, host)
        self.files = files or {}
        self.says = says or {}
        self.gives = gives
        self.cut = cut
        self.host = host
        # The commands of each control connection, and those that came before the reply to the one before was sent.
        self.dialogues = []
        self.hasty = []

    def converse(self, connection):
        dialogue = Dialogue(self, connection)
        self.dialogues.append(dialogue.commands)
        with contextlib.closing(dialogue):
            dialogue.hold()

    def reply(self, name, right):
        """What is answered to the command of this name."""
        other = self.says.get(name)
        if isinstance(other, list):
            other = other.pop(0) if other else None
        if callable(other):
            other = other(right)
        return right if other is None else other

    def url(self, host="127.0.0.1", target="a.bin"):
        return ftp_url(self.port, target, host)

    def begins(self):
        """Where each RETR began, in order."""
        found = []
        for commands in self.dialogues:
            rest = 0
            for it in commands:
                name, _, word = it.partition(" ")
                if name == "RETR":
                    found.append(rest)
                rest = int(word) if name == "REST" else 0
        return found


class Dialogue:
    """A control connection, and the data connection that was opened by it last."""

    def __init__(self, site, connection):
        self.site = site
        self.connection = connection
        self.commands = []
        self.unread = b""
        self.passive = None
        self.rest = 0
        self.is_over = False

    def close(self):
        if self.passive:
            self.passive.close()

    def say(self, reply):
        cut = self.site.cut or len(reply) or 1
        for at in range(0, len(reply), cut):
            self.connection.sendall(reply[at : at + cut])
            if self.site.cut:
                time.sleep(0.001)
        self.is_over = self.is_over or isinstance(reply, Last)

    def command(self):
        """The next command, and None where the client is gone."""
        while b"\r\n" not in self.unread:
            piece = self.connection.recv(65_536)
            if not piece:
                return None
            self.unread += piece
        line, _, self.unread = self.unread.partition(b"\r\n")
        return line.decode(errors="surrogateescape")

    def hold(self):
        self.say(self.site.reply("", GREETING))
        while not self.is_over:
            line = self.command()
            if line is None:
                return
            self.commands.append(line)
            if self.unread:
                self.site.hasty.append(line)
            name, _, word = line.partition(" ")
            self.answer(name, word)

    def answer(self, name, word):
        if name == "RETR":
            self.retrieve(word)
            return
        self.say(self.site.reply(name, self.right(name, word)))
        self.rest = int(word) if name == "REST" and word.isdecimal() else 0

    def right(self, name, word):
        """The reply that this command is due."""
        if name == "SIZE":
            content = self.site.files.get(word)
            return b"550 no such file\r\n" if content is None else b"213 %d\r\n" % len(content)
        if name == "PASV":
            return self.listened()
        return {
            "USER": b"331 whoever you are\r\n",
            "PASS": b"230 welcome\r\n",
            "TYPE": b"200 as it is\r\n",
            "REST": b"350 from there\r\n",
            # other clients ask where they are, and go there
            "PWD": b'257 "/"\r\n',
            "CWD": b"250 there\r\n",
            "QUIT": Last(b"221 bye\r\n"),
        }.get(name, b"500 unknown\r\n")

    def listened(self):
        """Listens for the data connection. Told is where."""
        self.close()
        self.passive = socket.socket(socket.AF_INET6 if ":" in self.site.host else socket.AF_INET)
        self.passive.settimeout(PATIENCE)
        self.passive.bind((self.site.host, 0))
        self.passive.listen(1)
        return passive(self.passive.getsockname()[1])

    def retrieve(self, path):
        content, rest = self.site.files.get(path), self.rest
        self.rest = 0
        if content is None:
            right = b"550 no such file\r\n"
        elif not self.passive:
            right = b"425 no data connection\r\n"
        else:
            right = b"150 it comes\r\n"
        reply = self.site.reply("RETR", right)
        self.say(reply)
        if reply[:3] not in (b"150", b"125") or not self.passive or self.is_over:
            return
        data, _ = self.passive.accept()
        data.settimeout(PATIENCE)
        with data:
            # a client that has what it wants hangs up
            with contextlib.suppress(OSError):
                self.site.gives(self, data, content[rest:])
        if not self.is_over:
            self.say(b"226 that was it\r\n")


def passive(port, host=b"127,0,0,1"):
    """The reply to PASV of a server that listens at this port."""
    return b"227 Entering Passive Mode (%s,%d,%d)\r\n" % (host, port >> 8, port & 255)


def elsewhere(right):
    """The same reply, with an address at which nobody listens."""
    return right.replace(b"127,0,0,1", b"192,0,2,1")


def asked(path, at=0):
    """The commands by which a part of a file is asked for that begins at this byte."""
    return [*probed(path), "PASV", *([f"REST {at}"] if at else []), f"RETR {path}"]


def probed(path):
    """The commands by which a file's length is asked for."""
    return ["USER anonymous", "PASS anonymous@", "TYPE I", f"SIZE {path}"]


def want_dialogues(site, *right):
    """The server had just these commands over each connection, none of them before its turn."""
    site.wait()
    want(site.dialogues == [*right], f"the commands were {site.dialogues}, and not {[*right]}")
    want(not site.hasty, f"{site.hasty} came together with the next command")
