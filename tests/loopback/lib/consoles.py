"""A console, asked over HTTP by Python and by curl, and runs that have one."""
import contextlib
import http.client
import json
import random
import socket
import subprocess
import threading
import time

from lib.killing import Slow
from lib.mirrors import free_port, head, rest_of
from lib.rooms import LIMIT
from lib.wants import Late, Wrong, want, want_in_time, want_said

SECRET = "s ü"
TOKEN = f"token:{SECRET}"

# How many connections are served at once.
DOORS = 4


class Fault(Exception):
    """A call was refused with this code and message."""

    def __init__(self, code, message):
        super().__init__(code, message)
        self.code, self.message = code, message


class Console:
    """Asks over one connection, which it opens anew where the other side closed it."""

    def __init__(self, port, token=TOKEN):
        self.port, self.token = port, token
        self.link = http.client.HTTPConnection("127.0.0.1", port, timeout=LIMIT)
        self.asked = 0

    def __enter__(self):
        return self

    def __exit__(self, *_):
        self.close()

    def post(self, content):
        """The status, the fields and the content of the response."""
        for again in (True, False):
            try:
                self.link.request("POST", "/jsonrpc", content, {"Content-Type": "application/json"})
                answer = self.link.getresponse()
                return answer.status, dict(answer.getheaders()), answer.read()
            except (ConnectionError, http.client.RemoteDisconnected):
                self.link.close()
                if not again:
                    raise

    def call(self, method, *params):
        """The result of a call, behind the token."""
        self.asked += 1
        told = [*([self.token] if self.token else []), *params]
        asked = {"jsonrpc": "2.0", "id": self.asked, "method": method, "params": told}
        _, _, content = self.post(json.dumps(asked).encode())
        answer = json.loads(content)
        want(answer.get("id") == self.asked, f"{method} was answered {content[:200]!r}")
        if "error" in answer:
            raise Fault(answer["error"]["code"], answer["error"]["message"])
        return answer["result"]

    def refused(self, method, *params):
        """The code and the message with which a call is refused."""
        try:
            result = self.call(method, *params)
        except Fault as fault:
            return fault.code, fault.message
        raise Wrong(f"{method} was answered {result!r}")

    def status(self, gid, *keys):
        return self.call("aria2.tellStatus", gid, *([[*keys]] if keys else []))

    def until(self, gid, wanted, seconds=LIMIT):
        """Waits until the status of a download has these members."""
        ends = time.monotonic() + seconds
        while True:
            told = self.status(gid)
            if all(told.get(key) == value for key, value in wanted.items()):
                return told
            want_in_time(time.monotonic() < ends, f"told was {told}, and not {wanted}")
            time.sleep(0.02)

    def close(self):
        self.link.close()


class Plain(Slow):
    """Gives whole files too, which aria2 asks for at first."""

    def answer(self, asked):
        if b"\r\nRange: " in asked:
            return super().answer(asked)
        payload = self.files.get(asked.split(b" ")[1].decode())
        if payload is None:
            return head(b"Content-Length: 0", status=b"404 Not Found")
        return head(b"Content-Length: %d" % len(payload), b"Accept-Ranges: bytes", status=b"200 OK") + payload


def by_curl(port, content, *words):
    """The status line, the fields in their order, and the content of the response, as curl gets it."""
    ran = subprocess.run(
        ["curl", "-sS", "-i", "--max-time", str(LIMIT), *words, "--data-binary", "@-", f"http://127.0.0.1:{port}/jsonrpc"],
        input=content,
        capture_output=True,
        check=False,
    )
    want(ran.returncode == 0, f"curl ended with {ran.returncode}: {ran.stderr[:200]!r}")
    begin, _, rest = ran.stdout.partition(b"\r\n\r\n")
    first, *fields = begin.split(b"\r\n")
    return first, fields, rest


def exchanged(port, sent, pause=None):
    """All that comes for these bytes, behind which this side sends no more. With a pause they are sent one by one."""
    with socket.create_connection(("127.0.0.1", port), LIMIT) as link:
        link.setsockopt(socket.IPPROTO_TCP, socket.TCP_NODELAY, 1)
        if pause is None:
            link.sendall(sent)
        else:
            for at in range(len(sent)):
                link.sendall(sent[at : at + 1])
                time.sleep(pause)
        # one that was turned away is closed already
        with contextlib.suppress(OSError):
            link.shutdown(socket.SHUT_WR)
        return rest_of(link)


def listens(port):
    with contextlib.suppress(OSError), socket.create_connection(("127.0.0.1", port), 1):
        return True
    return False


def wait_for(port, started):
    """Until the console is there. That another program took its port meanwhile counts as late."""
    ends = time.monotonic() + LIMIT
    while not listens(port):
        if started.poll() is not None:
            _, said = started.communicate()
            want_in_time(b"can't listen" not in (said or b""), f"port {port} was taken")
            want(False, f"the run ended with {started.returncode}, and said {said!r}")
        want_in_time(time.monotonic() < ends, "nobody listens")
        time.sleep(0.02)


@contextlib.contextmanager
def steered(room, *words, secret=SECRET, shell=""):
    """A run with a console, which is to be shut down within. Told are a console and a list, which has the exit status and the output
    behind it.
    """
    port = free_port("127.0.0.1")
    secrets = [f"--rpc-secret={secret}"] if secret else []
    started = room.start("--enable-rpc", f"--rpc-listen-port={port}", *secrets, *words, shell=shell)
    console = Console(port, f"token:{secret}" if secret else None)
    ended = []
    try:
        wait_for(port, started)
        yield console, ended
        console.close()
        wrote, said = started.communicate(timeout=LIMIT)
        want_said(said, started.returncode)
        ended += [started.returncode, wrote]
    except subprocess.TimeoutExpired:
        raise Late(f"the program had not ended after {LIMIT} seconds") from None
    finally:
        console.close()
        if started.poll() is None:
            started.kill()
            started.communicate()


def bother(port, seed, counts):
    """Asks and steers by chance, one call behind another, until the run is gone. How often is counted."""
    chance, console = random.Random(seed), Console(port)
    with contextlib.suppress(OSError, http.client.HTTPException):
        while not listens(port):
            time.sleep(0.01)
        while True:
            active = [it["gid"] for it in console.call("aria2.tellActive", ["gid"])]
            asked = chance.choice(("tellActive", "getGlobalStat", "tellStopped", "pauseAll", "changeGlobalOption", "addUri"))
            if asked == "pauseAll":
                console.call("aria2.pauseAll")
                console.call("aria2.unpauseAll")
            elif asked == "changeGlobalOption":
                console.call("aria2.changeGlobalOption", {"max-overall-download-limit": chance.choice(("0", "2M"))})
            elif asked == "addUri":
                gid = console.call("aria2.addUri", ["http://127.0.0.1:1/x"], {"pause": "true", "out": f"x{seed}"})
                # another client may have let it go on, and then nobody is at that port
                with contextlib.suppress(Fault):
                    console.call("aria2.remove", gid)
            elif asked == "tellStopped":
                console.call("aria2.tellStopped", 0, 10)
            elif asked == "getGlobalStat":
                console.call("aria2.getGlobalStat")
            else:
                for gid in active:
                    console.call("aria2.tellStatus", gid)
            counts[seed] += 1


@contextlib.contextmanager
def bothered(port, clients=2):
    """So many clients ask and steer a run at this port, which is to end within. Told is how often each did."""
    counts = [0] * clients
    threads = [threading.Thread(target=bother, args=(port, it, counts)) for it in range(clients)]
    for it in threads:
        it.start()
    try:
        yield counts
    finally:
        for it in threads:
            it.join(LIMIT)


@contextlib.contextmanager
def aria2_console(folder, *words):
    """aria2 with a console, for comparison."""
    port = free_port("127.0.0.1")
    asks = ["--enable-rpc", f"--rpc-listen-port={port}", f"--rpc-secret={SECRET}", f"--dir={folder}"]
    quiet = ["--no-conf", "--quiet", "--enable-dht=false", "--enable-dht6=false", "--file-allocation=none"]
    started = subprocess.Popen(
        ["aria2c", *quiet, *asks, *words], stdin=subprocess.DEVNULL, stdout=subprocess.DEVNULL, stderr=subprocess.DEVNULL
    )
    console = Console(port)
    try:
        wait_for(port, started)
        yield console
    finally:
        console.close()
        started.kill()
        started.wait()


def kind_of(value):
    """What kind of value it is: of an object its members, and of an array those of its elements."""
    if isinstance(value, dict):
        return {key: kind_of(it) for key, it in sorted(value.items())}
    if isinstance(value, list):
        return [kind_of(it) for it in value]
    if isinstance(value, str):
        return "number" if value.isdigit() else "truth" if value in ("true", "false") else "text"
    return type(value).__name__


def differences(value, other, where="it"):
    """Where a value has other members or elements than another one, or other kinds of values."""
    if isinstance(value, dict) and isinstance(other, dict):
        found = [f"{where}.{key} is told besides" for key in value if key not in other]
        found += [f"{where}.{key} isn't told" for key in other if key not in value]
        for key in set(value) & set(other):
            found += differences(value[key], other[key], f"{where}.{key}")
        return found
    if isinstance(value, list) and isinstance(other, list):
        if len(value) != len(other):
            return [f"{where} has {len(value)} elements, and not {len(other)}"]
        pairs = enumerate(zip(value, other))
        return [it for place, pair in pairs for it in differences(*pair, f"{where}[{place}]")]
    return [] if kind_of(value) == kind_of(other) else [f"{where} is {value!r}, and not like {other!r}"]
