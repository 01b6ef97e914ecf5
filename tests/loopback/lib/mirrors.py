"""Mirrors on loopback: two that record what they are asked, nginx, and Python's http.server."""
import contextlib
import os
import random
import re
import socket
import struct
import subprocess
import sys
import threading
import time

PATIENCE = 100

# The ports that cases were given.
GIVEN, GIVING = set(), threading.Lock()

# The fields of a right reply with `hello`.
RANGE, LENGTH = b"Content-Range: bytes 0-4/5", b"Content-Length: 5"


def reply(payload, *more, status=b"206 Partial Content", first=0, total=None):
    """A right reply to a request for all of the payload, with further fields."""
    total = len(payload) if total is None else total
    fields = [
        b"HTTP/1.1 " + status,
        b"Content-Range: bytes %d-%d/%d" % (first, first + len(payload) - 1, total),
        b"Content-Length: %d" % len(payload),
        *more,
    ]
    return b"\r\n".join(fields) + b"\r\n\r\n" + payload


def head(*fields, status=b"206 Partial Content"):
    return b"\r\n".join([b"HTTP/1.1 " + status, *fields]) + b"\r\n\r\n"


class Mirror:
    """Serves each connection by a function, and records its bytes.

    The function gets the connection once a request came, and may give what it read after it. When it returns nothing more
    is sent, and what still comes is taken until the other side closes: so a request that comes then finds an end, and no
    reset.
    """

    def __init__(self, serve, host="127.0.0.1", port=0):
        family = socket.AF_INET6 if ":" in host else socket.AF_INET
        self.serve = serve
        self.requests = []
        self.connections = []
        self.threads = []
        self.listener = socket.socket(family, socket.SOCK_STREAM)
        self.listener.setsockopt(socket.SOL_SOCKET, socket.SO_REUSEADDR, 1)
        self.listener.bind((host, port))
        self.port = self.listener.getsockname()[1]

    def __enter__(self):
        self.listener.listen(16)
        threading.Thread(target=self.accept, daemon=True).start()
        return self

    def __exit__(self, *_):
        # shutdown wakes the thread that waits in accept
        for it in (self.listener, *self.connections):
            with contextlib.suppress(OSError):
                it.shutdown(socket.SHUT_RDWR)
            it.close()

    def accept(self):
        while True:
            try:
                connection, _ = self.listener.accept()
            except OSError:
                return
            self.connections.append(connection)
            self.threads.append(threading.Thread(target=self.attend, args=(connection,), daemon=True))
            self.threads[-1].start()

    def attend(self, connection):
        connection.settimeout(PATIENCE)
        connection.setsockopt(socket.IPPROTO_TCP, socket.TCP_NODELAY, 1)
        with contextlib.suppress(OSError), connection:
            self.converse(connection)
            connection.shutdown(socket.SHUT_WR)
            rest_of(connection)

    def converse(self, connection):
        place = len(self.requests)
        self.requests.append(one_request(connection))
        self.requests[place] += self.serve(connection) or b""

    def wait(self):
        """Until each connection has ended, so that its bytes are all recorded."""
        for it in self.threads:
            it.join(10)

    def url(self, host="127.0.0.1", target="/a.bin"):
        return f"http://{host}:{self.port}{target}".encode()


class Ending(bytes):
    """A reply behind which the connection is closed."""


class Site(Mirror):
    """Serves ranges of files by their targets, and records each request.

    `instead` has replies of another kind by the number of the request, from 0; the connection is closed after one.
    """

    def __init__(self, files=None, instead=None, host="127.0.0.1"):
        super().__init__(None, host)
        self.files = files or {}
        self.instead = instead or {}

    def converse(self, connection):
        while asked := one_request(connection):
            place = len(self.requests)
            self.requests.append(asked)
            if place in self.instead:
                connection.sendall(self.instead[place])
                return
            answer = self.answer(asked)
            connection.sendall(answer)
            if isinstance(answer, Ending):
                return

    def answer(self, asked):
        found = re.match(rb"GET (\S+) HTTP/1\.1\r\n(?s:.*)Range: bytes=(\d+)-(\d+)\r\n", asked)
        if not found:
            return head(b"Content-Length: 0", status=b"400 Bad Request")
        payload = self.files.get(found[1].decode())
        if payload is None:
            return head(b"Content-Length: 0", status=b"404 Not Found")
        first, last = int(found[2]), int(found[3])
        if first > last or first >= len(payload):
            fields = [b"Content-Range: bytes */%d" % len(payload), b"Content-Length: 0"]
            return head(*fields, status=b"416 Range Not Satisfiable")
        return reply(payload[first : last + 1], first=first, total=len(payload))


def one_request(connection):
    """The bytes up to an empty line, or up to the end where none comes."""
    asked = b""
    while b"\r\n\r\n" not in asked:
        piece = connection.recv(65536)
        if not piece:
            break
        asked += piece
    return asked


def sends(whole):
    """Sends these bytes at once, and closes."""

    def serve(connection):
        connection.sendall(whole)

    return serve


def sends_and_stays(whole):
    """Sends these bytes at once, and closes only after the other side did."""

    def serve(connection):
        connection.sendall(whole)
        return rest_of(connection)

    return serve


def sends_byte_by_byte(whole, pause=0.001):
    """Sends each byte by itself, with a pause of so many seconds between two."""

    def serve(connection):
        for at in range(len(whole)):
            connection.sendall(whole[at : at + 1])
            if pause:
                time.sleep(pause)

    return serve


def sends_and_resets(whole):
    """Sends these bytes, and then breaks the connection off."""

    def serve(connection):
        connection.sendall(whole)
        time.sleep(0.1)
        connection.setsockopt(socket.SOL_SOCKET, socket.SO_LINGER, struct.pack("ii", 1, 0))
        connection.close()

    return serve


def sends_for_ever(begin, again):
    """Sends the beginning and then the rest again and again, until nobody takes it."""

    def serve(connection):
        connection.sendall(begin)
        while True:
            connection.sendall(again)

    return serve


def rest_of(connection):
    """What still comes until the other side closes."""
    rest = b""
    while piece := connection.recv(65536):
        rest += piece
    return rest


def says_nothing(connection):
    """Waits until the other side closes."""
    return rest_of(connection)


def free_port(*hosts):
    """A port that nobody listens on at these addresses. None is given twice, nor one of those that the system gives to connections: before
    the program listens there, another case's could get it.
    """
    with open("/proc/sys/net/ipv4/ip_local_port_range", encoding="utf-8") as file:
        end = int(file.read().split()[0])
    for _ in range(1000):
        port = random.randrange(10_000, end if end > 20_000 else 60_000)
        with GIVING:
            if port in GIVEN:
                continue
            GIVEN.add(port)
        with contextlib.suppress(OSError), contextlib.ExitStack() as stack:
            for host in hosts:
                it = stack.enter_context(socket.socket(socket.AF_INET6 if ":" in host else socket.AF_INET))
                it.bind((host, port))
            return port
    raise OSError("no free port")


@contextlib.contextmanager
def deaf_port():
    """A port whose queue of connections is full, so that a further one gets no answer; None where that can't be had."""
    with contextlib.ExitStack() as stack:
        listener = stack.enter_context(socket.socket())
        listener.bind(("127.0.0.1", 0))
        listener.listen(0)
        for _ in range(8):
            it = stack.enter_context(socket.socket())
            it.settimeout(1)
            try:
                it.connect(listener.getsockname())
            except socket.timeout:
                yield listener.getsockname()[1]
                return
        yield None


CONFIG = """
daemon off;
master_process off;
pid {room}/nginx.pid;
error_log {room}/error.log;
events {{ worker_connections 64; }}
http {{
    log_format connection $connection;
    access_log {room}/access.log connection;
    default_type application/octet-stream;
    sendfile on;
    {more}
    client_body_temp_path {room}/body;
    proxy_temp_path {room}/proxy;
    fastcgi_temp_path {room}/fastcgi;
    uwsgi_temp_path {room}/uwsgi;
    scgi_temp_path {room}/scgi;
    server {{
        {listen}
        root {room}/www;
    }}
}}
"""


class Served:
    """Another program that serves the folder `www` of a room."""

    def __init__(self, room):
        self.room = room
        self.www = f"{room}/www"
        os.mkdir(self.www)

    def start(self, words, host, port):
        """Starts the program, and says whether it answers."""
        self.port = port
        with open(f"{self.room}/served.out", "wb") as out:
            self.process = subprocess.Popen(words, stdin=subprocess.DEVNULL, stdout=out, stderr=out)
        for _ in range(200):
            if self.process.poll() is not None:
                return False
            try:
                socket.create_connection((host, port), 1).close()
                return True
            except OSError:
                time.sleep(0.05)
        return False

    def __exit__(self, *_):
        self.process.terminate()
        try:
            self.process.wait(5)
        except subprocess.TimeoutExpired:
            self.process.kill()
            self.process.wait()

    def put(self, name, payload):
        path = f"{self.www}/{name}"
        os.makedirs(os.path.dirname(path), exist_ok=True)
        with open(path, "wb") as it:
            it.write(payload)

    def url(self, host="127.0.0.1", target="/a.bin"):
        return f"http://{host}:{self.port}{target}".encode()


class Nginx(Served):
    """nginx, on one port of each of these addresses, with more of its directives."""

    def __init__(self, room, hosts, more=""):
        super().__init__(room)
        self.hosts = hosts
        self.more = more

    def __enter__(self):
        for _ in range(5):
            port = free_port(*self.hosts)
            listen = " ".join(f"listen {f'[{it}]' if ':' in it else it}:{port};" for it in self.hosts)
            with open(f"{self.room}/nginx.conf", "w", encoding="ascii") as it:
                it.write(CONFIG.format(room=self.room, listen=listen, more=self.more))
            words = ["nginx", "-p", self.room, "-c", f"{self.room}/nginx.conf", "-e", f"{self.room}/error.log"]
            if self.start(words, self.hosts[0], port):
                return self
            self.__exit__()
        with open(f"{self.room}/error.log", encoding="utf-8", errors="replace") as it:
            raise OSError(f"nginx doesn't start: {it.read()[-300:]}")

    @property
    def connections(self):
        """The number of each connection that took a request, once nginx has ended."""
        with open(f"{self.room}/access.log", encoding="ascii") as it:
            return set(it)


class PythonServer(Served):
    """The server of Python's http.server, which answers a request for a range with the whole file."""

    def __enter__(self):
        for _ in range(5):
            port = free_port("127.0.0.1")
            words = [sys.executable, "-m", "http.server", "--bind", "127.0.0.1", "--directory", self.www, str(port)]
            if self.start(words, "127.0.0.1", port):
                return self
            self.__exit__()
        with open(f"{self.room}/served.out", encoding="utf-8", errors="replace") as it:
            raise OSError(f"http.server doesn't start: {it.read()[-300:]}")
