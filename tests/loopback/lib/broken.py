"""Metainfo files that are refused, each with a name, and unusual ones that are taken."""
from lib.torrents import (
    MOST_FILE,
    MOST_PIECE,
    MOST_PIECES,
    MOST_TOTAL,
    Raw,
    bencoded,
    changed,
    info_of,
    metainfo,
    written,
)

TWO = [("x", b"h"), ("y", b"ello")]

# Bytes that aren't one bencoded value.


def wrong_wholes(seed):
    right = metainfo(seed)
    yield "an empty file", b""
    yield "another text", b"<!doctype html>\n"
    yield "an end alone", b"e"
    yield "a number with a leading zero", b"i03e"
    yield "a byte more at the end", right + b"e"
    yield "a line feed at the end", right + b"\n"
    yield "a byte more at the front", b" " + right
    yield "a byte order mark", b"\xef\xbb\xbf" + right
    yield "two of them", right + right
    yield "a list that is open", b"l" + right
    yield "the seed before the info", b"d8:url-list%s4:info%se" % (bencoded(seed), bencoded(info_of()))
    yield "the info twice", right.replace(b"d4:info", b"d4:info%s4:info" % bencoded(info_of()))
    yield "the length after the name", right.replace(b"6:lengthi5e4:name1:a", b"4:name1:a6:lengthi5e")
    yield "a wrong name and a byte more", metainfo(seed, name=b"..") + b"e"
    yield "no info, and a byte more", b"dee"


WRONG_NUMBERS = [
    ("one with a leading zero", b"05"),
    ("two zeros", b"00"),
    ("minus zero", b"-0"),
    ("negative with a leading zero", b"-05"),
    ("one with a plus sign", b"+5"),
    ("one with two minus signs", b"--5"),
    ("one with a blank before it", b" 5"),
    ("one with a blank after it", b"5 "),
    ("empty", b""),
    ("a minus sign", b"-"),
    ("a fraction", b"5.0"),
    ("in hexadecimal", b"0x5"),
    ("2^63", b"9223372036854775808"),
    ("-2^63 - 1", b"-9223372036854775809"),
    ("2^64 + 5", b"18446744073709551621"),
    ("a number of 10,000 digits", b"5" * 10_000),
]

WRONG_LENGTHS = [
    ("2^64 + 1", b"18446744073709551617"),
    ("2^63", b"9223372036854775808"),
    ("2^32 + 1", b"4294967297"),
    ("past the end of the file", b"4000000000"),
    ("a number of 10,000 digits", b"1" * 10_000),
    ("one with a leading zero", b"01"),
    ("negative", b"-1"),
    ("one with a plus sign", b"+1"),
    ("one with a blank", b" 1"),
    ("empty", b""),
]

# A member of the outermost dictionary is at the second level of 100.
WRONG_VALUES = [
    ("keys that descend", b"d1:bi1e1:ai2ee"),
    ("a key after one that it begins", b"d2:abi1e1:ai2ee"),
    ("keys that ascend only without regard to case", b"d1:ai1e1:Bi2ee"),
    ("a key twice", b"d1:ai1e1:ai2ee"),
    ("an empty key twice", b"d0:i1e0:i2ee"),
    ("a key that is a number", b"di1ei2ee"),
    ("a key that is a list", b"dlei2ee"),
    ("a key without a value", b"d1:ae"),
    ("a number without its end", b"i5"),
    ("a list without its end", b"li5e"),
    ("a number of another spelling", b"I5e"),
    ("a string of another spelling", b"1;x"),
    ("2^63", b"i9223372036854775808e"),
    ("lists down to level 101", b"l" * 100 + b"e" * 100),
    ("a number at level 101", b"l" * 99 + b"i5e" + b"e" * 99),
    ("dictionaries down to level 101", b"d1:k" * 99 + b"de" + b"e" * 99),
]


def wrong_values(seed):
    right = metainfo(seed)
    for name, text in WRONG_NUMBERS:
        yield f"a length that is {name}", changed(seed, {"length": Raw(b"i%se" % text)})
    for name, text in WRONG_LENGTHS:
        yield f"a name whose length is {name}", right.replace(b"4:name1:a", b"4:name%s:a" % text)
    for name, text in WRONG_VALUES:
        yield f"another key with {name}", written(info_of(), seed, z=Raw(text))


def cut_short(seed):
    right = metainfo([seed, b""], TWO)
    for length in range(len(right)):
        yield f"one that ends at {length}", right[:length]


def too_deep(_):
    yield "nothing but lists", b"l" * MOST_FILE
    yield "nothing but dictionaries", b"d0:" * (MOST_FILE // 3)
    yield "nothing but zeros", bytes(MOST_FILE)


# Bencoded values that are no metainfo file, or none that can be used.

KINDS = {"a number": 5, "a text": b"x" * 20, "a list": [], "a dictionary": {}}
KEYS = {"name": "a text", "piece length": "a number", "pieces": "a text", "length": "a number"}


def wrong_kinds(seed):
    right = metainfo(seed)
    for name, value in KINDS.items():
        yield f"{name} alone", bencoded(value)
    yield "a list with a right one", b"l%se" % right
    for name in ("a number", "a text", "a list", "a dictionary"):
        yield f"an info that is {name}", written(KINDS[name], seed)
    yield "no info", bencoded({"url-list": seed})
    for key, right_kind in KEYS.items():
        yield f"no {key}", changed(seed, {key: None})
        for name, value in KINDS.items():
            if name != right_kind:
                yield f"a {key} that is {name}", changed(seed, {key: value})


def wrong_sizes(seed):
    # one digest stands for one piece
    for length in (0, -5, -(2**63), 16385, 2**32 + 5, 2**63 - 1):
        yield f"a length of {length}", changed(seed, {"length": length})
    for length in (0, -1, -16384, 4, MOST_PIECE + 1, 2**32 + 16384, 2**63 - 1):
        yield f"a piece length of {length}", changed(seed, {"piece length": length})
    for length in (0, 1, 19, 21, 40):
        yield f"digests of {length} bytes", changed(seed, {"pieces": b"D" * length})
    for length in (0, 20, 39, 60):
        yield f"digests of {length} bytes for two pieces", changed(seed, {"length": 16385, "pieces": b"D" * length})
    yield "a digest for an empty payload", changed(seed, {"pieces": b"D" * 20}, b"")


def above_limits(seed):
    pieces = {"length": 16384 * MOST_PIECES + 1, "pieces": b"D" * 20 * (MOST_PIECES + 1)}
    yield "a piece more than may be", changed(seed, pieces)
    most = {"piece length": MOST_PIECE, "pieces": b"D" * 20 * (MOST_TOTAL // MOST_PIECE + 1)}
    yield "a byte more than may be", changed(seed, {"length": MOST_TOTAL + 1, **most})
    sizes = [{"length": length, "path": [str(length)]} for length in (MOST_TOTAL, 1)]
    yield "a byte more than may be, in two files", changed(seed, {"length": None, "files": sizes, **most})
    sizes = [{"length": length, "path": [path]} for length, path in ((2**63 - 1, "x"), (2**63 - 1, "y"), (2, "z"))]
    yield "2^64 bytes", changed(seed, {"length": None, "files": sizes, "pieces": b""})
    sizes[2]["length"] = 7
    yield "2^64 + 5 bytes", changed(seed, {"length": None, "files": sizes})


WRONG_PARTS = [
    ("empty", b""),
    ("the folder itself", b"."),
    ("the folder above", b".."),
    ("a path", b"x/a"),
    ("a slash", b"/"),
    ("an absolute path", b"/tmp/a"),
    ("one with a NUL", b"a\0b"),
    ("no UTF-8", b"\xff"),
    ("UTF-8 that ends early", b"\xc3"),
    ("a slash in too many bytes", b"\xc0\xaf"),
    ("half of a surrogate pair", b"\xed\xa0\x80"),
    ("beyond Unicode", b"\xf4\x90\x80\x80"),
    ("too long", b"a" * 256),
    ("too long for two bytes a letter", "é".encode() * 128),
]


def wrong_names(seed):
    for name, part in WRONG_PARTS:
        yield f"a name that is {name}", metainfo(seed, name=part)
        yield f"a name of several files that is {name}", metainfo(seed, TWO, name=part)


def in_second(seed, changes):
    """A metainfo file of two files, where the second one is told in another way."""
    files = info_of(TWO)["files"]
    second = {key: value for key, value in {**files[1], **changes}.items() if value is not None}
    return changed(seed, {"files": [files[0], second]}, TWO)


def wrong_paths(seed):
    for name, part in WRONG_PARTS:
        for path in ([part], [part, b"y"], [b"d", part], [b"d", part, b"y"]):
            yield f"a part of a path that is {name}, {len(path)} in all", in_second(seed, {"path": path})
    for name, path in (
        ("empty", []),
        ("one of 64 parts", [b"d"] * 64),
        ("a text", b"y"),
        ("a number", 5),
        ("a dictionary", {}),
        ("a list of numbers", [5]),
        ("a list of lists", [[b"y"]]),
        ("missing", None),
    ):
        yield f"a path that is {name}", in_second(seed, {"path": path})
    for name, length in (("negative", -4), ("a text", b"4"), ("a list", []), ("missing", None)):
        yield f"a file's length that is {name}", in_second(seed, {"length": length})


def wrong_lists(seed):
    for name, value in (
        ("empty", []),
        ("a number", 5),
        ("a text", b"x"),
        ("a dictionary", {"length": 5, "path": [b"x"]}),
        ("a list of numbers", [5]),
        ("a list of texts", [b"x"]),
        ("a list of lists", [[b"x"]]),
    ):
        yield f"files that are {name}", changed(seed, {"length": None, "files": value})
    yield "a length and files", changed(seed, {"files": [{"length": 5, "path": [b"x"]}]})
    for paths in (
        ["x", "x"],
        ["x", "y", "x"],
        ["d/x", "e/x", "d/x"],
        ["x", "x/y"],
        ["x/y", "x"],
        ["d/x/y/z", "d/w", "d/x"],
        ["d/x", "d/w", "d/x/y/z"],
        # between these two stand others in the order of their letters
        ["x", "x y", "x-", "x.", "x/y"],
        ["x/y", "x.", "x y/y", "x"],
    ):
        yield f"the paths {', '.join(paths)}", metainfo(seed, [(path, b"h") for path in paths])
    yield "empty files of one path", metainfo(seed, [("x", b""), ("x", b"")])


def many_paths(seed):
    paths = [f"{number % 100}/{number}" for number in range(50_000)]
    yield "50,000 paths, the last one a second time", metainfo(seed, [(it, b"") for it in [*paths, paths[0]]])
    yield "50,000 paths, the last one in a file", metainfo(seed, [(it, b"") for it in [*paths, f"{paths[0]}/x"]])


WRONG_SEEDS = [
    b"",
    b"hello",
    b"/a.bin",
    b"//127.0.0.1/a.bin",
    b"127.0.0.1/a.bin",
    b"https://127.0.0.1/a.bin",
    b"ftp://127.0.0.1/",
    b"ftp://u@127.0.0.1/a.bin",
    b"ftp://127.0.0.1/a%0Ab",
    b"file:///etc/passwd",
    b"magnet:?xt=urn:btih:x",
    b"http:",
    b"http://",
    b"http://127.0.0.1:65536/a.bin",
    b"http://127.0.0.1:x/a.bin",
    b"http://127.0.0.1/\xff",
    b"http://[::1/a.bin",
    b"http://a b/",
]


def wrong_seeds(seed):
    for it in WRONG_SEEDS:
        yield f"the seed {it!r}", metainfo(it)
        yield f"the seed {it!r} in a list", metainfo([it])
    yield "no seed", written(info_of(), None)
    yield "no seed for an empty payload", written(info_of(b""), None)
    yield "an empty list", metainfo([])
    yield "a list of those alone", metainfo(WRONG_SEEDS)
    for name, value in (("a number", 5), ("a dictionary", {})):
        yield f"seeds that are {name}", metainfo(value)
        yield f"a second seed that is {name}", metainfo([seed, value])
    yield "a second seed that is a list", metainfo([seed, [seed]])
    yield "seeds under another key", written(info_of(), None, **{"url_list": seed})


# Files that say more than is needed, or in another way.

PASSED_OVER = [
    ("a number", 5),
    ("2^63 - 1", 2**63 - 1),
    ("-2^63", -(2**63)),
    ("an empty text", b""),
    ("a text that isn't UTF-8", b"\xff\0"),
    ("a text of a megabyte", b"e" * 1_000_000),
    ("an empty list", []),
    ("an empty dictionary", {}),
    ("100,000 lists", [[]] * 100_000),
    ("another info", {"info": {"name": b".."}, "url-list": 5}),
    ("keys in the order of their bytes", Raw(b"d0:i1e1:Bi1e1:ai1e2:aai1e1:\xffi1ee")),
    ("lists down to level 100", Raw(b"l" * 99 + b"e" * 99)),
    ("dictionaries down to level 100", Raw(b"d1:k" * 98 + b"de" + b"e" * 98)),
]


def unusual(seed):
    """Yields files of the payload `hello`, named `a`."""
    for name, value in PASSED_OVER:
        yield f"another key with {name}", written(info_of(), seed, z=value)
    yield "keys before and between", written(info_of(), seed, **{"": 5, "announce": b"http://127.0.0.1/", "nodes": []})
    yield "other keys in the info", changed(seed, {"": 5, "md5sum": b"x", "private": 1, "source": b"x", "zz": [{}]})
    yield "keys of other places", written(info_of(), seed, files=5, length=-1, name=b"..", pieces=b"x")
    yield "a path beside a length", changed(seed, {"path": [b".."]})
    for length in (5, 6, MOST_PIECE):
        yield f"a piece length of {length}", metainfo(seed, piece_length=length)
    yield "a list of one seed", metainfo([seed])
    yield "two seeds", metainfo([seed, seed])
    yield "a scheme in capitals", metainfo(seed.replace(b"http", b"HTTP"))
    yield "a user and a password", metainfo(seed.replace(b"//", b"//user:password@"))
    yield "seeds that can't be used before it", metainfo([*WRONG_SEEDS, seed])
    yield "10,000 seeds that can't be used before it", metainfo([b"", *WRONG_SEEDS] * 600 + [seed])
    yield "300 seeds", metainfo([seed] * 300)
    yield "32 MiB", padded(seed, MOST_FILE)


def padded(seed, length):
    """A right file of so many bytes."""
    short = written(info_of(), seed, z=b"x" * 10_000_000)
    return written(info_of(), seed, z=b"x" * (10_000_000 + length - len(short)))
