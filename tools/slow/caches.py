"""What a verifier caches, and how a command finds an entry there: the tests that a version has of its own.

An entry stands in a seat. In version 1 that is its path, so a path has one seat; in later versions it is a slot, a number below
the size of the cache.
"""
from dataclasses import dataclass, field

from tools.slow.texts import is_root, test


@dataclass
class Entry:
    path: str
    value: object
    hold: str
    kids: list = field(default_factory=lambda: [False, False])


class Cache:
    def __init__(self, room):
        self.room, self.entries = room, {}

    def seats_of(self, path):
        """The seats in which a path stands."""
        return [seat for seat, entry in self.entries.items() if entry.path == path]


class PathCache(Cache):
    """Entries by their paths."""

    def seat_of_root(self, root):
        return root

    def comes_in(self, seat, path):
        test(is_root(path), "IsRoot")
        test(seat in self.entries, "AlreadyCached")
        test(len(self.entries) >= self.room, "CacheFull")

    def leaving(self, seat):
        test(is_root(seat), "IsRoot")
        return self.used(seat)

    def parent(self, seat):
        test(seat not in self.entries, "ParentNotCached")
        return self.entries[seat]

    def used(self, seat):
        test(seat not in self.entries, "NotCached")
        return self.entries[seat]


class SlotCache(Cache):
    """Entries by their slots."""

    def seat_of_root(self, root):
        return 0

    def comes_in(self, seat, path):
        test(is_root(path), "IsRoot")
        test(seat >= self.room, "CacheFull")
        test(seat in self.entries, "SlotTaken")

    def leaving(self, seat):
        entry = self.used(seat)
        test(is_root(entry.path), "IsRoot")
        return entry

    def parent(self, seat):
        return self.used(seat)

    def used(self, seat):
        test(seat not in self.entries, "SlotEmpty")
        return self.entries[seat]
