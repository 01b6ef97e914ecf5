"""Runs over mirrors that answer in given ways, which have to do what the model does, and such runs by chance."""
import contextlib

from lib import controls
from lib.choices import Acting, Model, Way
from lib.payloads import LONG, MIB, MIB_CLAIMS, PIECE, apart, blocks_in, pieces_of, served, turned
from lib.rooms import want_asked
from lib.torrents import whole
from lib.wants import about

GONE, BUSY, SHUT, BROKEN = (Way("status", it) for it in (404, 503, 401, 500))


def acts(room, payload, piece_length, ways, tries=5, words=(), name="a", anew=True, has=None, **known):
    """A run over mirrors that answer so does what the model does. Told is how it ends."""
    has = has or [payload] * len(ways)
    right = Model(payload, piece_length, ways, tries, name, has, **known).run()
    with contextlib.ExitStack() as stack:
        mirrors = [stack.enter_context(Acting(served(it, name), way)) for it, way in zip(has, ways)]
        room.torrent([it.url(target="/") for it in mirrors], payload, name, piece_length)
        if anew:
            room.clear(name)
        how = {"words": [f"--max-tries={tries}", *words, "t.torrent"], "lists": right.lists}
        room.ends(right.status, len(whole(payload)), name, right.completed, **how)
        for place, (mirror, asked) in enumerate(zip(mirrors, right.asked)):
            with about(f"mirror {place}"):
                want_asked(mirror, asked)
    room.has(apart(right.stands, payload), name)
    return right


def some_ways(chance):
    names = ["right", "right", "right", "whole", "turned", "turned", "turned", "cut", "cut", "short", "short"]
    kinds = [*(Way(name) for name in names), GONE, BUSY, BROKEN, SHUT]
    ways = []
    for _ in range(chance.randrange(10)):
        kind = chance.choice(kinds)
        ways.append(kind if kind.number else kind._replace(number=chance.randrange(200_000)))
    return ways


def some_payload(chance):
    """One file or several, and the length of their pieces: a few of them are larger."""
    most, lengths = 300_000, [PIECE, 3 * PIECE, 20_000, 50_000, 100_000, 5_000]
    if chance.random() < 0.15:
        most, lengths = len(LONG), [MIB // 4, MIB, 300_000, MIB // 2 + 1]
    total = chance.randrange(1, most)
    payload, piece_length = LONG[:total], chance.choice(lengths)
    if chance.random() < 0.5:
        return payload, piece_length
    ends = sorted(chance.randrange(total + 1) for _ in range(chance.randrange(1, 5)))
    parts = zip([0, *ends], [*ends, total])
    return [(f"{place}/x", payload[at:end]) for place, (at, end) in enumerate(parts)], piece_length


def some_progress(chance, payload, piece_length):
    """Some verified pieces and blocks in flight, and the payload's bytes as they stand, of which some are wrong."""
    content = whole(payload)
    blocks = [*blocks_in(len(content), piece_length)]
    pieces = range(-(-len(content) // piece_length))
    verified = [it for it in pieces if chance.random() < 0.3]
    listed, flying, stands = [], [], bytearray(len(content))
    for piece in pieces:
        mine = [it for it, (at, _) in enumerate(blocks) if at // piece_length == piece]
        is_verified, is_wrong = piece in verified, chance.random() < 0.3
        bits = [is_verified or chance.random() < 0.7 for _ in mine]
        there = [it for it, bit in zip(mine, bits) if bit]
        for at, end in (blocks[it] for it in there):
            stands[at:end] = content[at:end][:: -1 if is_wrong and not is_verified else 1]
        if there and not is_verified:
            flying.append((piece, blocks[mine[-1]][1] - blocks[mine[0]][0], controls.packed(bits)))
            listed += there
    row = controls.packed([it in verified for it in pieces])
    return {"verified": verified, "listed": listed, "stands": bytes(stands)}, row, flying


def puts_progress(room, chance, payload, piece_length):
    """Some progress stands, as it is told."""
    known, row, flying = some_progress(chance, payload, piece_length)
    stands = apart(known["stands"], payload)
    for path, content in [("a", stands)] if isinstance(payload, bytes) else [(f"a/{path}", it) for path, it in stands]:
        room.put(path, content)
    # the info hash is of what the metainfo file says but for its seeds
    room.torrent(None, payload, "a", piece_length)
    room.put("a.aria2", controls.written(room.right[0], piece_length, len(whole(payload)), row, flying))
    return known


def acts_by_chance(room, chance):
    """A run that is made up by chance does what the model does. Told is how it ends."""
    payload, piece_length = some_payload(chance)
    ways = [some_ways(chance) for _ in range(chance.randrange(1, 5))]
    words, known = [], {}
    if chance.random() < 0.3:
        # each mirror has some bytes wrong for good
        total = len(whole(payload))
        known["has"] = [turned(payload, [chance.randrange(total) for _ in range(chance.randrange(3))]) for _ in ways]
    if chance.random() < 0.4:
        words += ["--split=64", "--min-split-size=1M"]
        known |= MIB_CLAIMS
    if chance.random() < 0.4 and not isinstance(payload, bytes):
        chosen = {it for it in range(1, len(payload) + 1) if chance.random() < 0.5} or {1}
        words.append(f"--select-file={','.join(map(str, chosen))}")
        known["wanted"] = pieces_of(payload, chosen, piece_length)
    room.clear()
    if chance.random() < 0.5:
        known |= puts_progress(room, chance, payload, piece_length)
    return acts(room, payload, piece_length, ways, chance.randrange(1, 4), words, anew=False, **known)
