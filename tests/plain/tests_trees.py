#!/usr/bin/env python3
"""What crates/tests_trees has to print: hash trees by BEP 52, made level by level over whole rows, with Python's hashlib, and what
metainfo files say as version 2.

    tests/plain/tests_trees.py [--check]
"""
import hashlib
import sys

from case_files import settle, told_lines
from path_parts import is_part

CRATE = "tests_trees"
BLOCK = 16384
ZERO = bytes(32)
# How deep a value may be.
DEPTH = 100


def sha256(message):
    return hashlib.sha256(message).digest()


def payload(length):
    return bytes((7 * place + place // 251) % 256 for place in range(length))


def leaves(message):
    return [sha256(message[at:at + BLOCK]) for at in range(0, len(message), BLOCK)]


def root(row):
    while len(row) > 1:
        row = [sha256(row[at] + row[at + 1]) for at in range(0, len(row), 2)]
    return row[0]


def filled(row, width, pad):
    return row + [pad] * (width - len(row))


def least_width(count):
    width = 1
    while width < count:
        width *= 2
    return width


def file_root(message):
    row = leaves(message)
    return root(filled(row, least_width(len(row)), ZERO))


def layer(message, piece_length):
    width = piece_length // BLOCK
    pieces = [message[at:at + piece_length] for at in range(0, len(message), piece_length)]
    roots = [root(filled(leaves(piece), width, ZERO)) for piece in pieces]
    whole = root(filled(roots, least_width(len(roots)), root([ZERO] * width)))
    if len(message) > piece_length:
        assert whole == file_root(message)
    return [whole] + roots


def turned(message, places):
    other = bytearray(message)
    for place in places:
        if place < len(other):
            other[place] ^= 1
    pairs = list(zip(leaves(bytes(other)), leaves(message)))
    found = [str(place) for place, (left, right) in enumerate(pairs) if left != right]
    return f"{len(found)} of {len(pairs)}:" + "".join(f" {place}" for place in found)


class Refused(Exception):
    pass


def value_at(data, at, depth=0):
    """The bencoded value at a place, and where it ends: a number, bytes, a list or a dictionary. What isn't spelled so is refused."""
    if depth == DEPTH:
        raise ValueError(at)
    first = data[at:at + 1]
    if first == b"i":
        end = data.index(b"e", at)
        number = int(data[at + 1:end])
        if data[at + 1:end] != b"%d" % number or not -2**63 <= number < 2**63:
            raise ValueError(at)
        return number, end + 1
    if first == b"l":
        items, at = [], at + 1
        while data[at:at + 1] != b"e":
            item, at = value_at(data, at, depth + 1)
            items.append(item)
        return items, at + 1
    if first == b"d":
        members, at, before = {}, at + 1, None
        while data[at:at + 1] != b"e":
            key, at = value_at(data, at)
            if not isinstance(key, bytes) or before is not None and key <= before:
                raise ValueError(at)
            members[key], at = value_at(data, at, depth + 1)
            before = key
        return members, at + 1
    colon = data.index(b":", at)
    length = int(data[at:colon])
    if data[at:colon] != b"%d" % length or colon + 1 + length > len(data):
        raise ValueError(at)
    return data[colon + 1:colon + 1 + length], colon + 1 + length


def need(members, key, word, fits):
    if not isinstance(members, dict) or key not in members:
        raise Refused(f"Lacks({word})")
    if not fits(members[key]):
        raise Refused(f"BadKind({word})")
    return members[key]


def is_number(value):
    return isinstance(value, int)


def is_tree(value):
    if not isinstance(value, dict):
        return False
    return isinstance(value[b""], dict) if b"" in value else all(is_tree(it) for it in value.values())


def files_of(tree, path=()):
    if b"" in tree:
        return [(path, tree[b""])]
    return [file for key, value in tree.items() for file in files_of(value, path + (key,))]


def hashes(text):
    return [text[at:at + 32] for at in range(0, len(text), 32)]


def metainfo(data):
    try:
        value, end = value_at(data, 0)
    except (ValueError, RecursionError):
        return "Bencode"
    if end != len(data):
        return "Bencode"
    try:
        return said(data, value)
    except Refused as refusal:
        return str(refusal)


def said(data, value):
    info = need(value, b"info", "Info", lambda it: isinstance(it, dict))
    need(info, b"meta version", "MetaVersion", lambda it: is_number(it) and it == 2)
    name = need(info, b"name", "Name", lambda it: isinstance(it, bytes) and is_part(it))
    piece_length = need(info, b"piece length", "PieceLength", lambda it: is_number(it) and it in [1 << n for n in range(14, 27)])
    found = files_of(need(info, b"file tree", "FileTree", is_tree))
    alone = [path for path, _ in found] == [(name,)]
    files = []
    for number, (path, about) in enumerate(found):
        if not 1 <= len(path) <= 63 or not all(map(is_part, path)):
            raise Refused(f"BadPath({number})")
        length = need(about, b"length", "Length", lambda it: is_number(it) and it >= 0)
        top = need(about, b"pieces root", "PiecesRoot", lambda it: isinstance(it, bytes) and len(it) == 32) if length else ZERO
        files.append((path if alone else (name,) + path, length, top, -(-length // piece_length)))
    if sum(pieces for *_, pieces in files) > 1 << 20 or sum(length for _, length, *_ in files) > 1 << 42:
        raise Refused("TooLarge")
    longer = [top for _, length, top, _ in files if length > piece_length]
    layers = {}
    if longer or b"piece layers" in value:
        layers = need(value, b"piece layers", "PieceLayers", lambda it: isinstance(it, dict) and
                      all(isinstance(it.get(top), bytes) for top in longer))
    line = [name.decode(), str(piece_length), sha256(spelled_info(data)).hex()]
    for number, (path, length, top, pieces) in enumerate(files):
        layer = [top][:pieces]
        if length > piece_length:
            layer = hashes(layers[top])
            if len(layers[top]) != 32 * pieces:
                raise Refused(f"LayerLength({number})")
            if root(filled(layer, least_width(pieces), root([ZERO] * (piece_length // BLOCK)))) != top:
                raise Refused(f"LayerRoot({number})")
        line[-1] += ";"
        line += [b"/".join(path).decode(), str(length), top.hex()] + [it.hex() for it in layer]
    return " ".join(line)


def spelled_info(data):
    """The bytes that spell the value of `info` in a dictionary."""
    at = 1
    while True:
        key, at = value_at(data, at)
        _, end = value_at(data, at)
        if key == b"info":
            return data[at:end]
        at = end


class Told:
    def begin(self):
        pass

    def line(self, line):
        word, rest = line.split(" ", 1)
        if word == "text":
            return file_root(rest.encode()).hex()
        if word == "metainfo":
            return metainfo(bytes.fromhex(rest))
        length, *behind = [int(it) for it in rest.split(" ")]
        message = payload(length)
        if word == "file":
            return file_root(message).hex()
        if word == "width":
            return root(filled(leaves(message), behind[0], ZERO)).hex()
        if word == "layer":
            return " ".join(it.hex() for it in layer(message, behind[0]))
        return turned(message, behind)


def main(words):
    settle([(f"crates/{CRATE}/stdout", told_lines(CRATE, Told()))], words)


main(sys.argv[1:])
