"""Commands that name paths, made to name slots: which path stands in which slot, and the lowest slot that is empty."""
from heapq import heappop, heappush

from tools.slow.bundles import frames_text, header_text, read_bundle
from tools.slow.texts import root_of


class Seats:
    """The slots of a cache with so many, and which path stands in which, whatever paths are told apart by."""

    def __init__(self, room):
        self.empty, self.of = list(range(room)), {}

    def take(self, path):
        """Gives a path that comes in the lowest empty slot."""
        self.of[path] = heappop(self.empty)
        return self.of[path]

    def leave(self, path):
        slot = self.of.pop(path)
        heappush(self.empty, slot)
        return slot


class Slots(Seats):
    """The slots of a verifier's cache, of which verifier 0 has the root in the first at the start."""

    def __init__(self, number, header):
        super().__init__(header.cache)
        if number == 0:
            self.take(root_of(header.bits))

    def rewrite(self, command):
        """The command that does the same to the slots. It is one that a verifier of version 1 finds its entries for."""
        name, *fields = command
        if name == "addM":
            path, value, parent = fields
            return name, self.take(path), path, value, self.of[parent]
        if name == "addB":
            return name, self.take(fields[0]), *fields
        if name == "evictB":
            return name, self.leave(fields[0]), fields[1]
        if name in ("evictM", "evictBM"):
            path, parent, *stamp = fields
            return name, self.leave(path), self.of[parent], *stamp
        if name in ("get", "put", "signedGet", "signedPut"):
            return name, self.of[fields[0]], *fields[1:]
        if name == "absent":
            return name, fields[0], self.of[fields[1]]
        return command


def log_by_slots(number, header, log):
    """A whole log, as one of a version that names slots."""
    if header.version > 1:
        return log
    newer, slots, text, written = header._replace(version=3), Slots(number, header), header.reader(log), b""
    while text.at < len(log):
        written += newer.text_of(slots.rewrite(header.command(text)))
    return written


def upgraded(bundle):
    """A bundle whose logs are all read, in version 3, or in a later one that it is of already."""
    header, logs, _ = read_bundle(bundle)
    frames = [frames_text(number, log_by_slots(number, header, log)) for number, log in enumerate(logs)]
    return header_text(header._replace(version=max(3, header.version))) + b"".join(frames)
