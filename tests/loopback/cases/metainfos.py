"""The cases of the metainfo file: the files that are refused, and those that are taken."""
import os

from lib import broken
from lib.mirrors import Site
from lib.rooms import case
from lib.torrents import MOST_FILE, metainfo
from lib.wants import about, want


@case("no metainfo file")
def _(room):
    room.refuses(3, "t.torrent")
    room.refuses(3, "no/t.torrent")
    os.symlink("nowhere", room.path("t.torrent"))
    room.refuses(3, "t.torrent")


@case("a metainfo file that can't be read")
def _(room):
    os.mkdir(room.path("t.torrent"))
    room.refuses(17, "t.torrent")
    os.mkfifo(room.path("f.torrent"))
    room.refuses(17, "f.torrent")
    room.put("file", b"")
    room.refuses(17, "file/t.torrent")


# Status 25: the bytes aren't one bencoded value; 26: they are, and no metainfo file that can be used. A refused file
# leaves nothing in the folder, and nobody is asked.
REFUSED = [
    (25, "that is no bencoded value", broken.wrong_wholes),
    (25, "with a value that is wrongly spelled", broken.wrong_values),
    (25, "that ends early", broken.cut_short),
    (25, "of 32 MiB that is no bencoded value", broken.too_deep),
    (26, "with values of another kind", broken.wrong_kinds),
    (26, "with sizes that are wrong", broken.wrong_sizes),
    (26, "with sizes above the limits", broken.above_limits),
    (26, "with a wrong name", broken.wrong_names),
    (26, "with a wrong path", broken.wrong_paths),
    (26, "with a wrong list of files", broken.wrong_lists),
    (26, "with 50,000 files, one in another's place", broken.many_paths),
    (26, "without a seed that can be used", broken.wrong_seeds),
]
for _status, _what, _files in REFUSED:

    @case(f"a metainfo file {_what}")
    def _(room, status=_status, files=_files):
        with Site() as site:
            for name, content in files(site.url()):
                room.put("t.torrent", content)
                with about(name):
                    room.refuses(status, "t.torrent")
            want(not site.connections, f"{len(site.connections)} connections came")
        want(os.listdir(room.folder) == ["t.torrent"], f"files were made: {os.listdir(room.folder)}")


@case("a metainfo file of more than 32 MiB")
def _(room):
    with Site({"/a.bin": b"hello"}) as site:
        room.put("t.torrent", broken.padded(site.url(), MOST_FILE + 1))
        room.refuses(26, "t.torrent")
        for length in (MOST_FILE + 1, 2**36):
            with open(room.path("t.torrent"), "wb") as it:
                it.truncate(length)
            room.refuses(26, "t.torrent")


@case("a metainfo file that says more than is needed")
def _(room):
    with Site({"/a.bin": b"hello"}) as site:
        for name, content in broken.unusual(site.url()):
            room.put("t.torrent", content)
            with about(name):
                room.fetches(b"hello")


@case("the first seed that can be used")
def _(room):
    with Site({"/a.bin": b"hello"}) as first, Site({"/a.bin": b"hello"}) as second:
        room.torrent([*broken.WRONG_SEEDS, first.url(), second.url()])
        room.fetches(b"hello")
        want(len(first.connections) == 1, f"{len(first.connections)} connections came")
        want(not second.connections, "the second seed was asked")
        # the second one is asked once the first has failed
        room.torrent([*broken.WRONG_SEEDS, first.url(target="/b.bin"), second.url()])
        room.fetches(b"hello")
        want((len(first.requests), len(second.requests)) == (2, 1), f"{first.requests} and {second.requests} came")


@case("a payload with the name of its metainfo file")
def _(room):
    with Site({"/a.bin": b"hello"}) as site:
        room.torrent(site.url(), name="t.torrent")
        made = room.get("t.torrent")
        # it stands as a payload that is longer, and is overwritten
        room.fetches(b"hello", "t.torrent", anew=False)
        want(len(made) > 5 and len(site.requests) == 1, f"{len(site.requests)} requests came")


@case("a folder with the name of its metainfo file")
def _(room):
    with Site() as site:
        made = metainfo(site.url(), [("x", b"hello")], "t.torrent")
        room.put("t.torrent", made)
        room.ends(17, 5, "t.torrent")
        want(not site.connections, "the seed was asked")
    want(room.get("t.torrent") == made, "the metainfo file was changed")
