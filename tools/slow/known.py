"""What a program hasn't yet is unknown: the slow program then answers as such a program does.

A name is that of a command of logs, which is Malformed then, or the magic of a version, whose bundles are bad then.
"""
from contextlib import contextmanager

UNKNOWN = set()


@contextmanager
def without(names):
    """Within it these names are unknown."""
    UNKNOWN.update(names)
    try:
        yield
    finally:
        UNKNOWN.clear()


def is_known(name):
    return name not in UNKNOWN
