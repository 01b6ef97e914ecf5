"""What a case wants, and what it can't be tried for."""
import contextlib


class Wrong(Exception):
    """What a case wants isn't so."""


class Late(Wrong):
    """What a case wants came too late, or not in the time that was given. On a busy machine that says little, so it is tried
    again alone.
    """


class Skipped(Exception):
    """A case can't be tried here."""


def want(holds, text):
    if not holds:
        raise Wrong(text)


def want_said(said, status):
    """What stands on standard error: nothing where a run ends well, and else lines for people, if any; and that a console has
    no secret.
    """
    lines = [it for it in said.decode().split("\n")[:-1] if not it.startswith("aria_cli: whoever reaches 127.0.0.1:")]
    want(status or not lines, f"it wrote to standard error: {said[:200]!r}")
    for line in lines:
        want(line.startswith("aria_cli: ") and line.isprintable(), f"it wrote to standard error: {line!r}")
    want(said[-1:] in (b"", b"\n"), f"it wrote to standard error: {said[-200:]!r}")


def want_in_time(holds, text):
    """What is so on a machine with nothing else to do, and may come later on a busy one."""
    if not holds:
        raise Late(text)


def want_within(seconds, most, text="it"):
    """What took so many seconds is to take less than `most`."""
    if seconds >= most:
        raise Late(f"{text} took {seconds:.2f} seconds, where less than {most} are wanted")


@contextlib.contextmanager
def about(name):
    """Says which of several things a case found wrong."""
    try:
        yield
    except Wrong as why:
        raise type(why)(f"{name}: {why}") from None
