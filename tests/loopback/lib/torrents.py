"""Metainfo files (BEP 3) with web seeds (BEP 19)."""
import hashlib

MOST_FILE = 33_554_432
MOST_PIECE = 67_108_864
MOST_PIECES = 1_048_576
MOST_TOTAL = 4_398_046_511_104


class Raw(bytes):
    """A spelling that is taken as it is."""


def bencoded(value):
    """The spelling of a number, a text, a list or a dictionary."""
    if isinstance(value, Raw):
        return value
    if isinstance(value, int):
        return b"i%de" % value
    if isinstance(value, str):
        value = value.encode()
    if isinstance(value, bytes):
        return b"%d:%s" % (len(value), value)
    if isinstance(value, list):
        return b"l%se" % b"".join(bencoded(it) for it in value)
    return b"d%se" % b"".join(bencoded(key) + bencoded(value[key]) for key in sorted(value))


def digests(payload, piece_length):
    pieces = (payload[at : at + piece_length] for at in range(0, len(payload), piece_length))
    return b"".join(hashlib.sha1(it).digest() for it in pieces)


def whole(payload):
    """The bytes of a payload, which is one file's bytes or several pairs of a path and its bytes."""
    return payload if isinstance(payload, bytes) else b"".join(content for _, content in payload)


def info_of(payload=b"hello", name=b"a", piece_length=16384):
    """What stands under `info`."""
    if isinstance(payload, bytes):
        told = {"length": len(payload)}
    else:
        told = {"files": [{"length": len(content), "path": path.split("/")} for path, content in payload]}
    return {**told, "name": name, "piece length": piece_length, "pieces": digests(whole(payload), piece_length)}


def written(info, seeds, **more):
    """The bytes of the file. `seeds` is what stands under `url-list`, if anything does."""
    seeds = {} if seeds is None else {"url-list": seeds}
    return bencoded({"info": info, **seeds, **more})


def metainfo(seeds, payload=b"hello", name=b"a", piece_length=16384):
    """The bytes of a right file."""
    return written(info_of(payload, name, piece_length), seeds)


def changed(seeds, changes, payload=b"hello"):
    """The bytes of a file with other values in its `info`, where None leaves a key out."""
    info = {**info_of(payload), **changes}
    return written({key: value for key, value in info.items() if value is not None}, seeds)
