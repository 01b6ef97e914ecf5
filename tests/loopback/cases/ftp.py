"""The cases of FTP mirrors: real servers, one that answers as it is told, and what of a URL they are asked for."""
import contextlib
import tempfile
import time
from urllib.parse import unquote

from lib.aria2 import ARIA2
from lib.consoles import steered
from lib.controls import BLOCK
from lib.ftp import (
    FtpSite,
    Last,
    Pyftpdlib,
    Vsftpd,
    all_of,
    and_then,
    asked,
    at_rate,
    elsewhere,
    ftp_url,
    only,
    passive,
    probed,
    then_says,
    then_silent,
    want_dialogues,
)
from lib.killing import killed, listed_of
from lib.mirrors import Mirror, Site, sends
from lib.origins import fetched
from lib.payloads import LONG, MIB, MIB_CLAIMS, PIECE, SMALL, SPREAD, all_asked, noise
from lib.rooms import BY_MIB, ONCE, PLAIN, case, files_of
from lib.wants import about, want, want_within

SAVING = ("--auto-save-interval=1",)
# beside a URI, where there is no metainfo file
ONE_TRY = ("--max-tries=1",)

REAL = (("vsftpd", Vsftpd), ("pyftpdlib", Pyftpdlib))


@contextlib.contextmanager
def real(kind, *more, **how):
    """A server with a folder of its own, which may be read by all."""
    with tempfile.TemporaryDirectory(prefix="ftp-") as folder, kind(folder, *more, **how) as it:
        yield it


def puts(server, payload, name="a"):
    """The server has the files of the payload."""
    for path, content in files_of(payload, name):
        server.put(path, content)


@case("what other programs fetch from the servers of ftp", "vsftpd", "pyftpdlib", "curl", "aria2c")
def _(room):
    # of a small file aria2c waits for a reply that came with the one before
    payload = noise(8 * MIB)
    with real(Vsftpd) as one, real(Pyftpdlib) as other, FtpSite({"x é#": payload}) as site:
        for server in (one, other):
            server.put("x é#", payload)
        for server in (one, other, site):
            url = server.url(target="x é#").decode()
            want(curled(room, url) == payload, "curl got something else")
            want(curled(room, "--disable-epsv", "--continue-at", "5000000", url) == payload[5_000_000:], "curl got another rest")
            fetched(room, "curl", "-sS", "-o", "none", server.url(target="none").decode(), status=78)
            fetched(room, *ARIA2, "-x1", "-s1", "-d", ".", "-o", "b", "--allow-overwrite=true", url)
            want(room.get("b") == payload, "aria2c got something else")
    want(site.begins() == [0, 5_000_000, 0], f"it was asked from {site.begins()} on")


def curled(room, *words):
    """What curl fetches into a file that isn't there yet."""
    room.clear("c")
    fetched(room, "curl", "-sS", "-o", "c", *words)
    return room.get("c")


# Each server's name is also that of what its cases need.
for _needed, _kind in REAL:

    @case(f"one file from {_needed}", _needed)
    def _(room, kind=_kind):
        with real(kind) as server:
            for payload in (b"hello", b"", LONG[:1], LONG[:PIECE], LONG[: PIECE + 1], LONG):
                puts(server, payload, "a.bin")
                room.torrent(server.url(), payload, piece_length=MIB)
                for words in (ONCE, BY_MIB, ("--split=4", "--max-connection-per-server=4", *ONCE)):
                    with about(f"{len(payload)} bytes, {words}"):
                        room.fetches(payload, words=words)

    @case(f"many files from {_needed}", _needed)
    def _(room, kind=_kind):
        for payload, piece_length in ((SMALL, 16), (SMALL, 5), (SPREAD, MIB)):
            with real(kind) as server:
                # the root of a server is no URL of ftp
                puts(server, payload, "d/a")
                room.torrent(server.url(target="d/"), payload, piece_length=piece_length)
                for words in (ONCE, ("--split=4", "--max-connection-per-server=4", *ONCE)):
                    with about(f"pieces of {piece_length}, {words}"):
                        room.fetches(payload, words=words)

    @case(f"a URI at {_needed}", _needed)
    def _(room, kind=_kind):
        room.unlisted()
        with real(kind) as server:
            for payload in (b"hello", b"", LONG):
                puts(server, payload, "d x/a.bin")
                with about(f"{len(payload)} bytes"):
                    room.fetches(payload, "a.bin", words=[*ONE_TRY, server.url(target="d x/a.bin").decode()])
            missing = server.url(target="none").decode()
            room.ends(3, 0, missing, words=[*ONE_TRY, missing], leaves=False)

    @case(f"what {_needed} hasn't", _needed)
    def _(room, kind=_kind):
        with real(kind) as server:
            puts(server, b"hellO", "a.bin")
            puts(server, b"hell", "short")
            puts(server, b"hello", "d/a.bin")
            for target, status, stands in (("a.bin", 32, b"hellO"), ("none", 3, None), ("d", 3, None), ("short", 22, None)):
                for words in (ONCE, PLAIN):
                    with about(f"{target}, {words}"):
                        room.torrent(server.url(target=target))
                        room.fails(status, stands=stands, words=words)

    @case(f"a run over {_needed} that is killed, and goes on", _needed, "disk", slow=True)
    def _(room, kind=_kind):
        payload = noise(24 * MIB)
        with real(kind) as server:
            puts(server, payload, "a.bin")
            room.torrent(server.url(), payload, piece_length=MIB)
            slowly = (*SAVING, "--max-download-limit=2M", *PLAIN)
            killed(room, *slowly, when=lambda: len(listed_of(room, payload)) > 64)
            listed = listed_of(room, payload)
            killed(room, *slowly, when=lambda: listed < listed_of(room, payload))
            room.fetches(payload, anew=False, words=PLAIN)

    @case(f"{_needed} is asked as fast as the words allow", _needed, slow=True)
    def _(room, kind=_kind):
        payload = noise(11 * 200 * 1_024)
        with real(kind) as server:
            puts(server, payload, "a.bin")
            room.torrent(server.url(), payload, piece_length=MIB)
            keeps_rate(room, payload, "--max-download-limit=200K", *PLAIN)


def keeps_rate(room, payload, *words):
    """A run takes ten seconds, of eleven of which the bytes are: a bucket holds those of one at first."""
    begun = time.monotonic()
    room.fetches(payload, words=words)
    seconds = time.monotonic() - begun
    want(seconds > 9.9, f"it took only {seconds:.2f} seconds")
    want_within(seconds, 12.2)


@case("how vsftpd may speak otherwise", "vsftpd")
def _(room):
    for more, status in (
        (["no_anon_password=YES"], 0),
        (["dirmessage_enable=YES"], 0),
        (["pasv_address=192.0.2.1"], 0),
        (["ftpd_banner=hello"], 0),
        # neither PASV nor EPSV
        (["pasv_enable=NO"], 21),
        # the user isn't let in
        (["anonymous_enable=NO", "local_enable=YES"], 21),
    ):
        with about(f"{more}"), real(Vsftpd, *more) as server:
            puts(server, b"hello", "a.bin")
            # what a folder has to say comes with the 230
            server.put(".message", b"one\ntwo\n")
            room.torrent(server.url())
            if status:
                room.fails(status, words=ONCE)
            else:
                room.fetches(b"hello", words=ONCE)


@case("how pyftpdlib may speak otherwise", "pyftpdlib")
def _(room):
    for more, status in (
        (["FTPHandler.banner = 'x' * 200"], 0),
        (["FTPHandler.masquerade_address = '192.0.2.1'"], 0),
        # EPSV alone
        (["del FTPHandler.proto_cmds['PASV']"], 21),
        # nobody is let in
        (["FTPHandler.authorizer = DummyAuthorizer()"], 21),
        (["FTPHandler.max_login_attempts = 1", "FTPHandler.authorizer = DummyAuthorizer()"], 21),
    ):
        with about(f"{more}"), real(Pyftpdlib, *more) as server:
            puts(server, b"hello", "a.bin")
            room.torrent(server.url())
            if status:
                room.fails(status, words=ONCE)
            else:
                room.fetches(b"hello", words=ONCE)


@case("pyftpdlib over IPv6, whose 227 has no port", "pyftpdlib", "ipv6")
def _(room):
    with real(Pyftpdlib, host="::1") as server:
        puts(server, b"hello", "a.bin")
        room.torrent(server.url("[::1]"))
        room.fails(22, words=ONCE)


@case("an http and an ftp mirror of one payload", "vsftpd", "nginx")
def _(room):
    payload = noise(8 * MIB)
    with real(Vsftpd) as server, Site({"/a.bin": payload}) as site, FtpSite({"a.bin": payload}) as other:
        puts(server, payload, "a.bin")
        # each is a host of its own
        there = site.url("localhost")
        for seeds in ([server.url(), there], [there, server.url()], [other.url(), there]):
            for words in (ONCE, ("--split=2", "--min-split-size=1M", *ONCE)):
                with about(f"{seeds}, {words}"):
                    site.requests.clear()
                    other.dialogues.clear()
                    room.torrent(seeds, payload, piece_length=MIB)
                    room.fetches(payload, words=words)
                    site.wait()
                    if "--split=2" in words:
                        want(site.requests, "the http mirror wasn't asked")
                        want(other.dialogues or other.url() not in seeds, "the ftp mirror wasn't asked")
    # one of them has wrong bytes, or none
    with Site({"/a.bin": b"hello"}) as site, FtpSite({"a.bin": b"hellO"}) as other:
        room.torrent([other.url(), site.url()])
        room.fetches(b"hello", words=ONCE)
        other.files.clear()
        room.torrent([other.url(), site.url()])
        room.fetches(b"hello", words=ONCE)


@case("a console adds URIs of ftp, and steers their downloads")
def _(room):
    with FtpSite({"a.bin": LONG}) as site, FtpSite({"a.bin": LONG}, {"PASS": b"530 no\r\n"}) as shut, steered(room) as (console, ended):
        whole = console.call("aria2.addUri", [site.url().decode()], {"out": "whole"})
        console.until(whole, {"status": "complete", "totalLength": str(len(LONG))})
        for url, code in ((site.url(target="none"), "3"), (shut.url(), "21")):
            lost = console.call("aria2.addUri", [url.decode()], {"out": f"lost {code}", "max-tries": "1"})
            console.until(lost, {"status": "error", "errorCode": code})
        site.gives = at_rate(500_000)
        slow = console.call("aria2.addUri", [site.url().decode()], {"out": "slow"})
        console.until(slow, {"status": "active", "connections": "1"})
        console.call("aria2.pause", slow)
        console.until(slow, {"status": "paused", "connections": "0"})
        site.gives = all_of
        console.call("aria2.unpause", slow)
        console.until(slow, {"status": "complete"})
        for it in REFUSED:
            with about(it):
                told = console.refused("aria2.addUri", [f"ftp://{it.format(site.port)}"])
                want(told == (1, "no usable URI"), f"told was {told}")
        console.call("aria2.shutdown")
    want(room.get("whole") == LONG and room.get("slow") == LONG, "the payload isn't whole")
    # that of the last one that failed
    want(ended[0] == 21, f"it ended with {ended[0]}")


# The commands.


def dialogues_of(payload, piece_length, name="a", **claimed):
    """The commands of each connection by which one connection asks for all of a payload, which stands in the folder `d`."""
    return [asked(f"d{unquote(target)}", first) for target, first, _ in all_asked(payload, piece_length, name, **claimed)]


@case("each part is asked for over a connection of its own")
def _(room):
    for payload, piece_length in ((LONG, MIB), (SPREAD, MIB), (SMALL, 5), (SMALL, 16)):
        for words, claimed in ((ONCE, {}), (BY_MIB, MIB_CLAIMS)):
            with about(f"pieces of {piece_length}, {words}"), FtpSite(dict(files_of(payload, "d/a"))) as site:
                room.torrent(site.url(target="d/"), payload, piece_length=piece_length)
                room.fetches(payload, words=words)
                want_dialogues(site, *dialogues_of(payload, piece_length, **claimed))


@case("a URI of an ftp mirror")
def _(room):
    room.unlisted()
    for payload in (b"hello", LONG[:PIECE], LONG):
        with about(f"{len(payload)} bytes"), FtpSite({"a.bin": payload}) as site:
            room.fetches(payload, "a.bin", words=[*ONE_TRY, site.url().decode()])
            want_dialogues(site, probed("a.bin"), asked("a.bin"))
    with FtpSite({"a.bin": b""}) as site:
        room.fetches(b"", "a.bin", words=[*ONE_TRY, site.url().decode()])
        want_dialogues(site, probed("a.bin"))


@case("an ftp mirror that is slow, and whose run is killed", "disk", slow=True)
def _(room):
    payload = noise(8 * MIB)
    with FtpSite({"a.bin": payload}, gives=at_rate(1_000_000)) as site:
        room.torrent(site.url(), payload, piece_length=MIB)
        listed = set()
        for _ in range(3):
            killed(room, *SAVING, *PLAIN, when=lambda: listed < listed_of(room, payload))
            listed = listed_of(room, payload)
        site.gives = all_of
        site.dialogues.clear()
        room.fetches(payload, anew=False, words=ONCE)
        site.wait()
        begins = site.begins()
        want(begins and not any(it % BLOCK or it // BLOCK in listed for it in begins), f"it began at {begins}")
        first = min(set(range(len(payload) // BLOCK)) - listed) * BLOCK
        want(first in begins, f"it began at {begins}, and not at {first}")


@case("a limit of the speed is kept at an ftp mirror", slow=True)
def _(room):
    payload = noise(11 * 100 * 1_024)
    with FtpSite({"a.bin": payload}) as site:
        room.torrent(site.url(), payload, piece_length=MIB)
        keeps_rate(room, payload, "--max-download-limit=100K", *PLAIN)


# The names of files.
NAMES = (
    ("a.bin", "a.bin"),
    ("d/e/a.bin", "d/e/a.bin"),
    ("d%20x/a%20b", "d x/a b"),
    ("%C3%A9", "é"),
    ("é", "é"),
    ("%23%3F", "#?"),
    ("a%25", "a%"),
    ("a%", "a%"),
    ("a+b", "a+b"),
    ("%2Fa", "/a"),
    ("/a", "/a"),
    ("a?b=c", "a"),
    ("a#b", "a"),
    ("%2E%2E/a", "a"),
    ("a;type=i", "a;type=i"),
    ("%09%7F", "\t\x7f"),
)


@case("the path that an ftp mirror is asked for")
def _(room):
    for target, path in NAMES:
        with about(target), FtpSite({path: b"hello"}) as site:
            room.torrent(f"ftp://127.0.0.1:{site.port}/{target}".encode())
            room.fetches(b"hello", words=ONCE)
            want_dialogues(site, asked(path))


# What is behind `ftp://` in a URL that isn't one of a mirror.
REFUSED = (
    "127.0.0.1:{}/a%0D",
    "127.0.0.1:{}/a%0Ab",
    "127.0.0.1:{}/a%0D%0ADELE%20a",
    "127.0.0.1:{}/%00",
    "127.0.0.1:{}/%FF",
    "127.0.0.1:{}/",
    "127.0.0.1:{}",
    "me@127.0.0.1:{}/a",
    "me:secret@127.0.0.1:{}/a",
    ":secret@127.0.0.1:{}/a",
    "anonymous:me%40here@127.0.0.1:{}/a",
)


@case("URLs of ftp that name no file, or a user")
def _(room):
    with FtpSite({"a": b"hello"}) as site:
        for it in REFUSED:
            url = f"ftp://{it.format(site.port)}"
            with about(url):
                room.refuses(28, url)
                room.torrent(url.encode())
                room.refuses(26, *ONCE)
        want_dialogues(site)


# What a scripted server says other than it is due, with the status of the run, and the last command that it gets.


def lines(count, code=b"220"):
    """A reply of so many lines."""
    return b"%s-first\r\n" % code + b"line\r\n" * (count - 2) + b"%s last\r\n" % code


def line_of(length, begin=b"220 "):
    """A line of so many bytes, with CR LF."""
    return begin.ljust(length - 2, b"x") + b"\r\n"


GREETINGS = (
    (0, "one without text", b"220 \r\n"),
    (0, "one of two lines", b"220-first\r\n220 last\r\n"),
    (0, "lines of other codes", b"220-first\r\n230 other\r\n22 0\r\n 220 x\r\n\r\n220-more\r\n220 last\r\n"),
    (0, "one of 64 lines", lines(64)),
    (0, "a line of 512 bytes", line_of(512)),
    (0, "64 lines of 512 bytes", line_of(512, b"220-") + line_of(512, b"x") * 62 + line_of(512)),
    (0, "a CR within", b"220 a\rb\r\r\n"),
    (0, "a LF within", b"220 a\nb\r\n"),
    (0, "bytes that aren't UTF-8", b"220 \xff\0\r\n"),
    (29, "one that is to be waited for", b"120 in a moment\r\n220 ready\r\n"),
    (29, "421", Last(b"421 too many\r\n")),
    (29, "500", b"500 no\r\n"),
    (29, "230", b"230 welcome\r\n"),
    (29, "000", b"000 none\r\n"),
    (22, "one of 65 lines", lines(65)),
    (22, "a line of 513 bytes", line_of(513)),
    (22, "a line of 513 bytes within", b"220-first\r\n" + line_of(513, b"x") + b"220 last\r\n"),
    (22, "a line without an end", b"220 ".ljust(600, b"x")),
    (22, "a code of two digits", b"22 ready\r\n"),
    (22, "a code of four digits", b"2200 ready\r\n"),
    (22, "a code that is none", b"2x0 ready\r\n"),
    (22, "no space", b"220\r\n"),
    (22, "an empty line", b"\r\n220 ready\r\n"),
    (22, "HTTP", b"HTTP/1.1 200 OK\r\n\r\n"),
    (6, "nothing", Last(b"")),
    (6, "a cut line", Last(b"220 rea")),
    (6, "a cut reply", Last(b"220-first\r\n")),
)


@case("greetings of an ftp mirror")
def _(room):
    for status, name, greeting in GREETINGS:
        for cut in (None, 1, 7):
            if cut and len(greeting) > 1_000:
                continue
            with about(f"{name}, {cut or 'all'} bytes at once"), FtpSite({"a.bin": b"hello"}, {"": greeting}, cut=cut) as site:
                room.torrent(site.url())
                if status:
                    room.fails(status, words=ONCE)
                    want_dialogues(site, [])
                else:
                    room.fetches(b"hello", words=ONCE)
                    want_dialogues(site, asked("a.bin"))


@case("replies of an ftp mirror whose CR LF come apart")
def _(room):
    long = {"USER": lines(5, b"331"), "SIZE": lambda it: b"213-first\r\n" + it, "RETR": b"150-first\r\n150 it comes\r\n"}
    for kind, says in (("one line", {}), ("several lines", long)):
        for cut in (1, 2, 3, 7):
            with about(f"{kind}, {cut} bytes at once"), FtpSite({"a.bin": LONG}, says, cut=cut) as site:
                room.torrent(site.url(), LONG, piece_length=MIB)
                room.fetches(LONG, words=ONCE)
                want_dialogues(site, asked("a.bin"))


# That no password is wanted.
GREETED = b"230 welcome\r\n"

# By the command: its replies.
SAID = (
    ("USER", 0, "that no password is wanted", GREETED),
    ("USER", 21, "530", b"530 no\r\n"),
    ("USER", 21, "332", b"332 account\r\n"),
    ("USER", 21, "220", b"220 ready\r\n"),
    ("USER", 21, "421", Last(b"421 too late\r\n")),
    ("USER", 22, "no reply", b"what?\r\n"),
    ("USER", 6, "nothing", Last(b"")),
    ("PASS", 21, "530", b"530 no\r\n"),
    ("PASS", 21, "332", b"332 account\r\n"),
    ("PASS", 21, "202", b"202 superfluous\r\n"),
    ("PASS", 0, "three lines", lines(3, b"230")),
    ("TYPE", 21, "504", b"504 no\r\n"),
    ("TYPE", 22, "half a code", b"20 \r\n"),
    ("SIZE", 3, "550", b"550 no such file\r\n"),
    ("SIZE", 21, "500", b"500 unknown\r\n"),
    ("SIZE", 21, "450", b"450 busy\r\n"),
    ("SIZE", 22, "another length", b"213 6\r\n"),
    ("SIZE", 22, "no length", b"213 \r\n"),
    ("SIZE", 22, "2^63", b"213 9223372036854775808\r\n"),
    ("SIZE", 22, "2^63 - 1", b"213 9223372036854775807\r\n"),
    ("SIZE", 22, "2^64 + 5", b"213 18446744073709551621\r\n"),
    ("SIZE", 22, "a length below 0", b"213 -5\r\n"),
    ("SIZE", 22, "a length and a blank", b"213 5 \r\n"),
    ("SIZE", 22, "two blanks", b"213  5\r\n"),
    ("SIZE", 22, "hexadecimal digits", b"213 0x5\r\n"),
    ("SIZE", 0, "a length in the last line", b"213-6\r\n213 5\r\n"),
    ("PASV", 21, "500", b"500 unknown\r\n"),
    ("PASV", 21, "421", Last(b"421 too late\r\n")),
    ("PASV", 22, "no numbers", b"227 Entering Passive Mode\r\n"),
    ("PASV", 22, "no parentheses", b"227 127,0,0,1,4,1\r\n"),
    ("PASV", 22, "the port 0", passive(0)),
    ("PASV", 22, "numbers above 255", b"227 Entering Passive Mode (127,0,0,1,256,1)\r\n"),
    ("PASV", 22, "six numbers above 255", b"227 Entering Passive Mode (999,999,999,999,999,999)\r\n"),
    ("PASV", 22, "five numbers", b"227 Entering Passive Mode (127,0,0,1,4)\r\n"),
    ("PASV", 22, "seven numbers", b"227 Entering Passive Mode (127,0,0,1,4,1,1)\r\n"),
    ("PASV", 22, "a leading zero", b"227 Entering Passive Mode (127,0,0,1,04,1)\r\n"),
    ("PASV", 22, "blanks", b"227 Entering Passive Mode (127, 0, 0, 1, 4, 1)\r\n"),
    ("PASV", 0, "another address", elsewhere),
    ("PASV", 0, "text before the numbers", lambda it: it.replace(b"(", b"(x) (1,2) (")),
    ("RETR", 0, "that a connection stands", b"125 it comes\r\n"),
    ("RETR", 3, "550", b"550 no such file\r\n"),
    ("RETR", 21, "425", b"425 no connection\r\n"),
    ("RETR", 21, "426", b"426 aborted\r\n"),
    ("RETR", 21, "226", b"226 done\r\n"),
    ("RETR", 21, "421", Last(b"421 too late\r\n")),
    ("RETR", 22, "no reply", b"150\r\n"),
    ("RETR", 6, "nothing", Last(b"")),
)


@case("other replies of an ftp mirror, by the command")
def _(room):
    for command, status, name, said in SAID:
        with about(f"{name} for {command}"), FtpSite({"a.bin": b"hello"}, {command: said}) as site:
            room.torrent(site.url())
            right = asked("a.bin")
            if status:
                room.fails(status, words=ONCE)
                right = right[: 1 + [it.split()[0] for it in right].index(command)]
            else:
                room.fetches(b"hello", words=ONCE)
                if said == GREETED:
                    right.remove("PASS anonymous@")
            want_dialogues(site, right)


@case("other replies of an ftp mirror to REST")
def _(room):
    payload = noise(3 * PIECE)
    for status, name, said in (
        (21, "502", b"502 unknown\r\n"),
        (21, "200", b"200 well\r\n"),
        (21, "421", Last(b"421 too late\r\n")),
        (21, "550", b"550 not from there\r\n"),
        (22, "no reply", b"350\r\n"),
        (6, "nothing", Last(b"")),
    ):
        with about(name), FtpSite({"a.bin": payload}, gives=only(PIECE)) as site:
            room.torrent(site.url(), payload)
            room.fails(6, payload, completed=PIECE, words=ONCE, lists=None)
            # the rest begins behind the first piece, which stands
            site.says, site.gives = {"REST": said}, all_of
            site.dialogues.clear()
            room.fails(status, payload, completed=PIECE, words=("-V", *ONCE), anew=False, lists=None)
            want_dialogues(site, asked("a.bin", PIECE)[:-1])


@case("a length that an ftp mirror doesn't tell")
def _(room):
    room.unlisted()
    for command, status, name, said in SAID:
        if not status or command in ("PASV", "RETR") or name in ("another length", "2^63 - 1"):
            continue
        for tries in (1, 3):
            with about(f"{name} for {command}, {tries} tries"), FtpSite({"a.bin": b"hello"}, {command: said}) as site:
                uri = site.url().decode()
                room.ends(status, 0, uri, words=[f"--max-tries={tries}", uri], leaves=False)
                right = probed("a.bin")
                want_dialogues(site, *[right[: 1 + [it.split()[0] for it in right].index(command)]] * tries)


@case("an ftp mirror has no such file, five times")
def _(room):
    for command in ("SIZE", "RETR"):
        with about(command), FtpSite({"a.bin": b"hello"}, {command: b"550 no such file\r\n"}) as site:
            room.torrent(site.url())
            room.fails(3, words=PLAIN)
            right = asked("a.bin")
            want_dialogues(site, *[right[: 1 + [it.split()[0] for it in right].index(command)]] * 5)
            # the last one is right
            site.dialogues.clear()
            site.says[command] = [b"550 no such file\r\n"] * 4
            room.fetches(b"hello", words=PLAIN)


# The data.


@case("an ftp mirror whose data end early")
def _(room):
    for payload, count in ((b"hello", 0), (b"hello", 4), (LONG, 0), (LONG, PIECE), (LONG, len(LONG) - 1)):
        with about(f"{count} of {len(payload)} bytes"), FtpSite({"a.bin": payload}, gives=only(count)) as site:
            room.torrent(site.url(), payload, piece_length=MIB)
            room.clear()
            ended = room.run(*ONCE, leaves=True)[0]
            want(ended == 6, f"it ended with {ended}")
            site.gives = all_of
            room.fetches(payload, anew=False, words=ONCE)


@case("an ftp mirror whose data are too many, or come with another reply")
def _(room):
    for name, gives in (
        ("more bytes", and_then(b"more" * 100_000)),
        ("421 behind them", then_says(len(LONG), Last(b"421 too late\r\n"))),
        ("426 behind them", then_says(len(LONG), b"426 aborted\r\n")),
    ):
        with about(name), FtpSite({"a.bin": LONG}, gives=gives) as site:
            room.torrent(site.url(), LONG, piece_length=MIB)
            room.fetches(LONG, words=ONCE)
            want_dialogues(site, asked("a.bin"))


@case("an ftp mirror that says 421 in the midst of its data")
def _(room):
    for count in (0, 5, PIECE, len(LONG) - 1):
        with about(f"behind {count} bytes"), FtpSite({"a.bin": LONG}, gives=then_says(count, Last(b"421 too late\r\n"))) as site:
            room.torrent(site.url(), LONG, piece_length=MIB)
            room.clear()
            ended = room.run(*ONCE, leaves=True)[0]
            want(ended == 6, f"it ended with {ended}")


@case("an ftp mirror whose data fall silent", slow=True)
def _(room):
    with FtpSite({"a.bin": LONG}, gives=then_silent(PIECE)) as site:
        room.torrent(site.url(), LONG, piece_length=MIB)
        ended = room.run(*ONCE, leaves=True, limit=100)[0]
        want(ended == 6, f"it ended with {ended}")


@case("an ftp mirror that falls silent", slow=True)
def _(room):
    with FtpSite({"a.bin": b"hello"}, {"PASV": b""}) as site:
        room.torrent(site.url())
        room.clear()
        ended = room.run(*ONCE, leaves=True, limit=100)[0]
        want(ended == 6, f"it ended with {ended}")


@case("an ftp mirror whose data connection is refused")
def _(room):
    # nobody listens at port 1
    with FtpSite({"a.bin": b"hello"}, {"PASV": passive(1)}) as site:
        room.torrent(site.url())
        room.fails(6, words=ONCE)
        want_dialogues(site, asked("a.bin")[:-1])


@case("an http mirror that leads to an ftp one")
def _(room):
    with FtpSite({"a.bin": b"hello"}) as site:
        moved = b"HTTP/1.1 302 Found\r\nLocation: %s\r\nContent-Length: 0\r\n\r\n" % site.url()
        with Mirror(sends(moved)) as first:
            room.torrent(first.url())
            room.fails(22, words=ONCE)
            want_dialogues(site)


@case("an http URL that an ftp server answers")
def _(room):
    with FtpSite({"a.bin": b"hello"}) as site:
        room.torrent(f"http://127.0.0.1:{site.port}/a.bin".encode())
        room.fails(22, words=ONCE)


@case("an ftp URL that an http server answers", slow=True)
def _(room):
    # each waits for the other to speak first
    with Site({"/a.bin": b"hello"}) as site:
        room.torrent(ftp_url(site.port))
        room.fails(6, words=ONCE, limit=100)
        want(site.requests in ([], [b""]), f"it was asked {site.requests}")
