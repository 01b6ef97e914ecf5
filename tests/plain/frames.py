#!/usr/bin/env -S python3 -B
"""Cases of WebSockets, with what has to be printed for them: frames of RFC 6455 beside JSON-RPC and notices.

    tests/plain/frames.py            writes data/sockets.txt of crates/tests_console and crates/tests_top anew, and the end of
                                     each crate's stdout
    tests/plain/frames.py --check    compares them, and tells the first difference

What a client sends is masked, and what it is sent isn't (RFC 6455, section 5.1). What it is sent was worked out case by case, by
the standard and docs/CONSOLE.md: the answer to its request, the answers to its texts, and the notices.
"""
import base64
import hashlib
import sys

from case_files import ROOT, settle
from case_files import spelled as read_parts

KEY = "dGhlIHNhbXBsZSBub25jZQ=="
MASK = bytes([0x37, 0xFA, 0x21, 0x3D])
GIDS = ["0000000000000001", "9e3779b97f4a7c16"]
TITLE = "# WebSockets. Written by tests/plain/frames.py, with what has to be printed."

TEXT, BINARY, CLOSE, PING, PONG = 1, 2, 8, 9, 10


# Frames.

def coded(text):
    return text.encode() if isinstance(text, str) else text


def head(first, length, mask):
    """The front of a frame: its first byte, and its length in the fewest bytes (section 5.2)."""
    bit = 0x80 if mask else 0
    if length < 126:
        return bytes([first, bit | length])
    if length < 65_536:
        return bytes([first, bit | 126]) + length.to_bytes(2, "big")
    return bytes([first, bit | 127]) + length.to_bytes(8, "big")


def masked(data):
    return MASK + bytes(byte ^ MASK[at % 4] for at, byte in enumerate(data))


def sent(text, opcode=TEXT, last=True):
    """A frame of a client; one that isn't the last of its message has no FIN bit."""
    data = coded(text)
    return head((0x80 if last else 0) | opcode, len(data), True) + masked(data)


def given(text, opcode=TEXT):
    """A frame of the console, which sends each message whole."""
    data = coded(text)
    return head(0x80 | opcode, len(data), False) + data


# Requests, and what answers them.

def accept(key):
    return base64.b64encode(hashlib.sha1((key + "258EAFA5-E914-47DA-95CA-C5AB0DC85B11").encode()).digest()).decode()


def upgrade(key=KEY, connection="Upgrade", version="13", protocol="websocket", minor=1, target="/jsonrpc", more=""):
    return (f"GET {target} HTTP/1.{minor}\r\nHost: localhost:6800\r\nUpgrade: {protocol}\r\nConnection: {connection}\r\n"
            f"Sec-WebSocket-Key: {key}\r\nSec-WebSocket-Version: {version}\r\n{more}\r\n").encode()


def switched(key=KEY):
    return ("HTTP/1.1 101 Switching Protocols\r\nUpgrade: websocket\r\nConnection: Upgrade\r\n"
            f"Sec-WebSocket-Accept: {accept(key)}\r\n\r\n").encode()


def refused(status, more=""):
    return f"HTTP/1.1 {status}\r\n{more}Content-Length: 0\r\n\r\n".encode()


def post(content):
    return f"POST /jsonrpc HTTP/1.1\r\nHost: h\r\nContent-Length: {len(content)}\r\n\r\n{content}".encode()


def replied(content):
    return ("HTTP/1.1 200 OK\r\nContent-Type: application/json-rpc\r\n"
            f"Content-Length: {len(content)}\r\n\r\n{content}").encode()


# Calls, and what they are answered.

def call(method, params="[]", number=1):
    return f'{{"jsonrpc":"2.0","id":{number},"method":"{method}","params":{params}}}'


def result(value, number=1):
    return f'{{"id":{number},"jsonrpc":"2.0","result":{value}}}'


def error(code, message, number="null"):
    return f'{{"error":{{"code":{code},"message":"{message}"}},"id":{number},"jsonrpc":"2.0"}}'


def notice(kind, gid=GIDS[0]):
    return given(f'{{"jsonrpc":"2.0","method":"aria2.onDownload{kind}","params":[{{"gid":"{gid}"}}]}}')


ADD = call("aria2.addUri", '[["http://m.test/a.bin"]]')
PAUSE, UNPAUSE, REMOVE = (call(f"aria2.{word}", f'["{GIDS[0]}"]') for word in ("pause", "unpause", "remove"))
PAUSE_ALL, SHUTDOWN = call("aria2.pauseAll"), call("aria2.shutdown")
OK, GID = result('"OK"'), result(f'"{GIDS[0]}"')
BAD = refused("400 Bad Request")


# What is written and printed.

def spelled(data, ends="|"):
    """Bytes as data/README has them. The end of a line of HTTP is `|` in the one crate and `%0d%0a` in the other, and what
    could be taken for more than itself is a byte's number."""
    told, at = "", 0
    while at < len(data):
        if data[at:at + 2] == b"\r\n":
            told += ends
            at += 2
            continue
        byte = data[at]
        is_plain = 32 < byte < 127 and chr(byte) not in "+*|%" or byte == 32 and 0 < at < len(data) - 1
        told += chr(byte) if is_plain else f"%{byte:02x}"
        at += 1
    return told


def shown(data, digits):
    """What a client was sent: text as it is, and where it is none, as frames, each byte that isn't printed by its number."""
    if not data:
        return "nothing"
    try:
        return data.decode().replace("\r\n", "|")
    except UnicodeDecodeError:
        return "|".join("".join(chr(byte) if 32 <= byte < 127 else "%" + format(byte, digits) for byte in line)
                        for line in data.split(b"\r\n"))


class Console:
    """The lines of crates/tests_console."""

    crate = "tests_console"

    def __init__(self):
        self.cases, self.printed, self.clients = [TITLE], [TITLE], []

    def say(self, line, *told):
        self.cases.append(line)
        self.printed += [line, *(f"  {it}" for it in told)]

    def run(self, comment="", words=""):
        self.say("")
        for line in comment.split("\n"):
            self.say(f"# {line}")
        self.say(f"run {words}".rstrip())
        self.clients = []

    def send(self, client, told, parts=None):
        parts = parts or spelled(client)
        assert read_parts(parts.replace("|", "%0d%0a")) == client
        self.say(f"send {parts}", shown(told, "02X"))

    def cut(self, client, *told):
        """From which number of its bytes on the client is sent what."""
        self.say(f"cut {spelled(client)}", *(f"{count} bytes: {shown(it, '02X')}" for count, it in told))

    def client(self, client):
        self.say(f"client {spelled(client)}")

    def serve(self, told, calls, words=""):
        lines = [f"{at}: {shown(it, '02X')}" for at, it in enumerate(told, 1)]
        self.say(f"serve {words}".rstrip(), *lines, f"calls: {calls}")

    def end(self, tally):
        self.say("end", tally)


def long_text(length):
    """A text of so many bytes, a call with spaces behind it, as the client's bytes and as parts."""
    first = PAUSE_ALL + (length - len(PAUSE_ALL)) % 4 * " "
    rest = (length - len(first)) // 4
    whole = sent(first + 4 * rest * " ")
    unit = whole[-4:]
    return whole, f"{spelled(whole[:len(whole) - 4 * rest])}+{rest}*{spelled(unit)}"


BROKEN = [
    ("Frames that break a rule: one without a mask, a reserved bit, a reserved opcode.", [
        given(PAUSE_ALL), bytes([0xC1]) + sent(PAUSE_ALL)[1:], sent(PAUSE_ALL, 3), sent(PAUSE_ALL, 11)]),
    ("A length that fewer bytes could tell, and one of more than 63 bits.", [
        b"\x81\xfe\x00\x02" + masked(b"[]"), b"\x81\xff\x80" + bytes(7) + masked(b"[]")]),
    ("A ping in pieces, and one of 126 bytes.", [sent("at", PING, last=False), sent(126 * "a", PING)]),
    ("A piece of no message, and a message in another one.", [sent("]", 0), sent("[", last=False) + sent("]")]),
    ("A text that is no UTF-8, and a close whose reason is none, or that has half a code.", [
        sent(b"\xff"), sent(b"\x03\xe8\xff", CLOSE), sent(b"\x03", CLOSE)]),
]

# What asks for a WebSocket that can't be had, with what it is answered.
TURNED_AWAY = [
    ("Another version, or two of them; HTTP/1.0; no upgrade among the options of the connection.", [
        (upgrade(version="8"), BAD), (upgrade(more="Sec-WebSocket-Version: 13\r\n"), BAD), (upgrade(minor=0), BAD),
        (upgrade(connection="keep-alive"), BAD)]),
    ("A key of 5 bytes, of 18 or of none; two keys; no key.", [
        (upgrade(key="c2hvcnQ="), BAD), (upgrade(key=base64.b64encode(bytes(18)).decode()), BAD), (upgrade(key=""), BAD),
        (upgrade(more=f"Sec-WebSocket-Key: {KEY}\r\n"), BAD),
        (upgrade().replace(f"Sec-WebSocket-Key: {KEY}\r\n".encode(), b""), BAD)]),
    ("Another target, and another protocol.", [
        (upgrade(target="/rpc"), refused("404 Not Found")),
        (upgrade(protocol="h2c"), refused("405 Method Not Allowed", "Allow: POST\r\n"))]),
]


def console():
    """The cases of crates/tests_console."""
    it = Console()

    it.run("A download is added over a WebSocket: the answer, then the notice that it is active, and nothing at a later look.\n"
           "Another socket pauses it and lets it go on. One that is opened behind that is told nothing of it, and then that it\n"
           "is removed. A call that is refused tells nothing.")
    it.send(upgrade() + sent(ADD), switched() + given(GID) + notice("Start"))
    it.send(upgrade() + sent(PAUSE) + sent(UNPAUSE),
            switched() + given(GID) + notice("Pause") + given(GID) + notice("Start"))
    it.send(upgrade(), switched())
    it.send(upgrade() + sent(REMOVE) + sent(REMOVE), switched() + given(GID) + notice("Stop")
            + given(error(1, "GID cannot be changed in status removed", 1)))
    it.end("Called 5, Left 4")

    it.run("What happened before the socket was opened isn't told, also where the request for it comes behind others.")
    it.send(post(ADD) + upgrade(connection="keep-alive, upgrade", protocol="WebSocket") + sent(PAUSE),
            replied(GID) + switched() + given(GID) + notice("Pause"))
    it.end("Called 2, Left 1")

    it.run("Of a batch the answers are one message, and then come the notices of all its calls. A notification has no answer;\n"
           "what it does is told.")
    batch = ",".join([ADD, call("aria2.addUri", '[["http://m.test/b.bin"]]', 2), call("aria2.pauseAll", number=3)])
    answers = ",".join([GID, result(f'"{GIDS[1]}"', 2), result('"OK"', 3)])
    it.send(upgrade() + sent(f"[{batch}]") + sent('{"jsonrpc":"2.0","method":"aria2.unpauseAll"}'),
            switched() + given(f"[{answers}]")
            + b"".join(notice(kind, gid) for kind in ["Start", "Pause", "Start"] for gid in GIDS))
    it.end("Called 4, Left 1")

    it.run("A call needs the token, and a notice none.", "rpc-secret=s")
    it.send(upgrade() + sent(ADD) + sent(ADD.replace("[[", '["token:s",[')),
            switched() + given(error(1, "Unauthorized", 1)) + given(GID) + notice("Start"))
    it.end("Called 1, Left 1")

    it.run("Messages that are no JSON, and one without a byte.")
    it.send(upgrade() + sent("{") + sent(""), switched() + 2 * given(error(-32700, "Parse error")))
    it.end("Left 1")

    it.run("A ping is answered by a pong of its bytes. Pongs and binary messages are passed over.")
    it.send(upgrade() + sent("at", PING) + sent("", PING) + sent("at", PONG) + sent(PAUSE_ALL, BINARY) + sent(PAUSE_ALL),
            switched() + given("at", PONG) + given("", PONG) + given(OK))
    it.end("Called 1, Left 1")

    it.run("A close is answered by a close of its code, and ends the connection: what comes behind it isn't carried out.")
    it.send(upgrade() + sent(b"\x03\xe8", CLOSE) + sent(PAUSE_ALL), switched() + given(b"\x03\xe8", CLOSE))
    it.send(upgrade() + sent(b"", CLOSE) + sent(PAUSE_ALL), switched() + given(b"", CLOSE))
    it.end("Left 2")

    it.run("A message in pieces, a letter cut in two, with a ping between them.")
    name = call("aria2.pauseAll", number='"\u00e9"').encode()
    at = name.index(b"\xc3") + 1
    pieces = [sent(name[:at], last=False), sent("at", PING), sent(name[at:at + 1], 0, last=False), sent(name[at + 1:], 0)]
    it.send(upgrade() + b"".join(pieces), switched() + given("at", PONG) + given(result('"OK"', '"\u00e9"')))
    it.end("Called 1, Left 1")

    it.run("However its bytes come, a client is sent the same.")
    it.say("pieces 1 2 3 7 65536")
    several = upgrade() + sent(PAUSE_ALL) + sent("at", PING) + sent("[", last=False) + sent("]", 0) + sent("", CLOSE)
    it.send(several, switched() + given(OK) + given("at", PONG) + given(error(-32600, "Invalid Request")) + given("", CLOSE))
    it.say("pieces 65536")
    it.end("Called 5, Left 5")

    it.run("Where a client ends in the middle of its request it is sent nothing, and in the middle of a frame nothing for that.")
    client = upgrade() + sent(PAUSE_ALL)
    it.cut(client, (0, b""), (len(upgrade()), switched()), (len(client), switched() + given(OK)))
    it.end(f"Called 1, Left {len(client) + 1}")

    it.run("A message of 16,384 bytes is taken, and one of a byte more ends its connection, also in pieces.",
           "rpc-max-request-size=16K")
    for length, told in [(16_384, switched() + given(OK)), (16_385, switched())]:
        whole, parts = long_text(length)
        it.send(upgrade() + whole, told, f"{spelled(upgrade())}+{parts}")
    half, more = sent(8_192 * " ", last=False), sent(8_193 * " ", 0)
    it.send(upgrade() + half + more, switched(), "+".join([
        spelled(upgrade() + half[:8]), f"2048*{spelled(half[8:12])}", spelled(more[:8]), f"2048*{spelled(more[8:12])}",
        spelled(more[-1:])]))
    it.end("Called 1, Left 3")

    for comment, frames in BROKEN:
        it.run(comment)
        for frame in frames:
            it.send(upgrade() + frame + sent(PAUSE_ALL), switched())
        it.end(f"Left {len(frames)}")

    it.run("Such a client ends its own connection alone.")
    it.client(upgrade() + sent(PAUSE_ALL) + given(PAUSE_ALL))
    it.client(upgrade() + sent(PAUSE_ALL))
    it.serve([switched() + given(OK)] * 2, 2)
    it.end("Called 2, Left 1")

    for comment, requests in TURNED_AWAY:
        it.run(comment)
        for request, told in requests:
            it.send(request + sent(PAUSE_ALL), told)
        it.end(f"Left {len(requests)}")

    it.run("No extension and no protocol is agreed to, and options of the connection may stand in several fields. A `POST` is\n"
           "answered as it would be without the request for a WebSocket.")
    it.send(upgrade(more="Sec-WebSocket-Extensions: permessage-deflate\r\nSec-WebSocket-Protocol: chat\r\n"), switched())
    it.send(upgrade(connection="keep-alive\r\nConnection: UPGRADE"), switched())
    it.send(upgrade().replace(b"GET", b"POST").removesuffix(b"\r\n") + b"Content-Length: 2\r\n\r\n[]",
            replied(error(-32600, "Invalid Request")))
    it.end("Left 3")

    it.run("A call of the door fails: its bytes aren't received; the answer to its request, or to its text, isn't sent. The\n"
           "next client is served.")
    it.client(upgrade() + sent(PAUSE_ALL))
    it.client(upgrade() + sent(PAUSE_ALL))
    whole = switched() + given(OK)
    it.serve([b"", whole], 1, "failing 1")
    it.serve([b"", whole], 1, "failing 2")
    it.serve([switched(), whole], 2, "failing 3")
    it.serve([whole, whole], 2)
    it.end("Called 6, Left 4")

    it.run("Behind a shutdown the socket is closed, and nobody is let in any more.")
    it.client(upgrade() + sent(SHUTDOWN))
    it.client(upgrade() + sent(PAUSE_ALL))
    it.serve([whole, b""], 1)
    it.end("Called 1, Left 1")
    return it


class Top:
    """The lines of crates/tests_top."""

    crate = "tests_top"

    def __init__(self):
        self.cases, self.printed, self.sent = [TITLE], [TITLE], []

    def say(self, line):
        self.cases.append(line)
        self.printed.append(line)

    def run(self, comment, words):
        self.say("")
        for line in comment.split("\n"):
            self.say(f"# {line}")
        self.say(f"run {words}")
        self.sent = []

    def client(self, client, told):
        """A client, and what it is sent."""
        self.say(f"client {spelled(client, '%0d%0a')}")
        self.sent.append(told)

    def end(self, status, summary, files, calls):
        self.say("end")
        told = [f"status {status}", f"printed {''.join(f'{line}%0a' for line in summary)}"]
        told += [f"client {at} was sent {shown(it, '02x')}" for at, it in enumerate(self.sent, 1)]
        told += [f"{name} has {content}" for name, content in files]
        self.printed += [f"  {it}" for it in [*told, f"calls {calls}"]]


SUMMARY = ["gid|stat|completed|total|code|path", f"{GIDS[0]}|OK|5|5|0|a.bin"]
STATUS = call("aria2.tellStatus", f'["{GIDS[0]}",["status","completedLength"]]')
COMPLETE = given(result('{"completedLength":"5","status":"complete"}'))


def top():
    """The cases of crates/tests_top."""
    it = Top()

    it.run("A download is added over a WebSocket, which is closed before the mirror answers. One that is opened once it is\n"
           "complete is told nothing of that, and shuts the run down.", "--enable-rpc")
    it.say("mirror m.test 80 Ranges /a.bin=hello")
    it.say("waits 1")
    it.client(upgrade() + sent(ADD) + sent(b"\x03\xe8", CLOSE),
              switched() + given(GID) + notice("Start") + given(b"\x03\xe8", CLOSE))
    it.say("come rested 1")
    it.client(upgrade() + sent(STATUS) + sent(SHUTDOWN), switched() + COMPLETE + given(OK))
    it.say("show a.bin")
    it.end(0, SUMMARY, [("a.bin", "hello")], 3)

    it.run("A WebSocket that stays is told that the download is complete.", "--enable-rpc")
    it.say("mirror m.test 80 Ranges /a.bin=hello")
    it.say("stay rested 1")
    it.client(upgrade() + sent(ADD), switched() + given(GID) + notice("Start") + notice("Complete"))
    it.say("stay now")
    it.client(upgrade() + sent(SHUTDOWN), switched() + given(OK))
    it.say("show a.bin")
    it.end(0, SUMMARY, [("a.bin", "hello")], 2)

    it.run("While it stays, one at the other door pauses the download and lets it go on: both are told. A third one, which is\n"
           "opened behind that, is told nothing.", "--enable-rpc")
    it.say("mirror m.test 80 Ranges /a.bin=hello")
    it.say("waits 3")
    it.say("stay ended 2")
    it.client(upgrade() + sent(ADD), switched() + given(GID) + notice("Start") + notice("Pause") + notice("Start"))
    it.say("beside")
    it.say("stay now")
    it.say("come asked 1")
    it.client(upgrade() + sent(PAUSE) + sent(UNPAUSE),
              switched() + given(GID) + notice("Pause") + given(GID) + notice("Start"))
    it.client(upgrade() + sent("", PING), switched() + given("", PONG))
    it.say("come rested 1")
    it.client(upgrade() + sent(SHUTDOWN), switched() + given(OK))
    it.say("show a.bin")
    it.end(0, SUMMARY, [("a.bin", "hello")], 4)
    return it


def printed(crate, lines):
    """What the crate has to print: for its other files what stands there, and then these lines."""
    path = f"crates/{crate}/stdout"
    with open(f"{ROOT}/{path}", encoding="utf-8", newline="") as there:
        front = there.read().partition(f"{TITLE}\n")[0]
    return path, front + "".join(f"{line}\n" for line in lines)


def main(words):
    for cases in [console(), top()]:
        settle([(f"crates/{cases.crate}/data/sockets.txt", "".join(f"{line}\n" for line in cases.cases)),
                printed(cases.crate, cases.printed)], words)


if __name__ == "__main__":
    main(sys.argv[1:])
