"""Parts of the paths that metainfo files of both versions give."""


def is_part(part):
    try:
        part.decode()
    except UnicodeDecodeError:
        return False
    return 1 <= len(part) <= 255 and part not in (b".", b"..") and b"/" not in part and b"\0" not in part
