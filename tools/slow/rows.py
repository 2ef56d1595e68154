"""Commands as rows of text: `addB /0 5:2c..,- 0.4 v0`, `evictM 5 /0`, `get 5 6162`; of later versions `evictM s2 s1`, `get s2 6162`.

A path is `root`, the number of a key, `/` and up to 8 bits, or the number that its bits begin and how many they are. A value is
its digits, `.` or `none`; a node its two pointers, `-` or a path and a digest, with `?` between them where the pointer is deferred.
"""
from tools.slow.commands import kinds_of
from tools.slow.texts import is_data, is_root, key_of


def spelled(path):
    if is_root(path):
        return "root"
    if is_data(path):
        return str(key_of(path))
    return "/" + path if len(path) <= 8 else f"{int(path.ljust(64, '0'), 2)}/{len(path)}"


def shown(value, digits):
    """A value, where a digest's digits are those that a function gives."""
    if isinstance(value, tuple):
        return ",".join("-" if p is None else f"{spelled(p.path)}{'?' if p.deferred else ':'}{digits(p.digest)}" for p in value)
    return "none" if value is None else value.hex() or "."


def dotted(stamp):
    return f"{stamp[0]}.{stamp[1]}"


def field_row(kind, field, digits):
    if kind in ("value", "blob"):
        return shown(field, digits)
    return {"path": spelled, "stamp": dotted, "slot": "s{}".format, "verifier": "v{}".format}[kind](field)


def row(command, digits=bytes.hex, version=1):
    name, *fields = command
    _, kinds = kinds_of(version, name)
    return " ".join([name if fields else "next", *(field_row(kind, field, digits) for kind, field in zip(kinds, fields))])
