"""Seals: what is kept of a bundle that was read to its end, from which a check goes on, by its grammar, both ways.

A seal has the number of a device that never falls, so that an older one is known to be stale.
"""
from tools.slow.bundles import header_text, read_frames, read_header
from tools.slow.caches import Entry
from tools.slow.clients import Signature
from tools.slow.texts import Bytes, Fault, is_data, path_text, stamp_text, test, value_text
from tools.slow.verifier import Event, Tally, Verifier, gone_on

MAGIC, TAG_BYTES, MOST_BYTES = b"FVS1", 32, 2**40
HOLDS, KINDS = ["Root", "M", "B"], {6: "get", 7: "put"}
BAD = "bad seal"


def number_text(number, size):
    return number.to_bytes(size, "big")


# ---- written


def sum_text(tally):
    return b"".join(number_text(number, 8) for number in [*tally.lanes, tally.count])


def sums_of(verifier):
    """The sums added and evicted of the epoch before, then of its own."""
    return [sums.get(epoch, Tally()) for epoch in (verifier.epoch - 1, verifier.epoch) for sums in (verifier.added, verifier.evicted)]


def entry_text(version, seat, entry):
    kids = entry.kids[0] + 2 * entry.kids[1]
    slot = number_text(0 if version == 1 else seat, 2)
    return slot + path_text(entry.path) + value_text(entry.value) + bytes([HOLDS.index(entry.hold), kids])


def in_order(version, entries):
    """The seats of entries in the order in which a seal has them."""
    return sorted(entries, key=path_text if version == 1 else None)


def operation_text(event):
    epoch, counter, _, index = event.moment
    text = stamp_text((epoch, counter)) + number_text(index, 8) + bytes([6 if event.deed == "get" else 7])
    text += path_text(event.of) + value_text(event.what)
    if event.signature is not None:
        text += number_text(event.signature.client, 4) + number_text(event.signature.number, 8)
    return text


def clients_of(number, header):
    return range(number, header.clients, header.verifiers)


def verifier_text(verifier, certified):
    """What is kept of a verifier, where so many epochs are certified."""
    header, entries = verifier.header, verifier.cache.entries
    text = stamp_text((verifier.epoch, verifier.counter)) + number_text(verifier.accepted, 8) + number_text(len(entries), 4)
    text += b"".join(entry_text(header.version, seat, entries[seat]) for seat in in_order(header.version, entries))
    text += b"".join(map(sum_text, sums_of(verifier)))
    parts = [(epoch, part) for epoch, part in sorted(verifier.parts.items()) if epoch >= header.first + certified]
    text += number_text(len(parts), 4)
    text += b"".join(number_text(epoch, 4) + sum_text(added) + sum_text(evicted) for epoch, (added, evicted) in parts)
    asked = [event for event in verifier.events if event.deed in KINDS.values() and event.moment[0] >= header.first + certified]
    text += number_text(len(asked), 8) + b"".join(map(operation_text, asked))
    return text + b"".join(number_text(verifier.last.get(client, 0), 8) for client in clients_of(verifier.number, header))


def write_seal(digests, found, number, taken):
    """The seal of a bundle of so many bytes, with the number to which the device was raised."""
    text = MAGIC + number_text(number, 8) + number_text(taken, 8) + header_text(found.verifiers[0].header)
    text += number_text(found.count, 4)
    text += b"".join(verifier_text(verifier, found.count) for verifier in found.verifiers)
    return text + digests.tag(text)


# ---- read: a fault where it is none


def read_sum(text, most):
    lanes = [text.number(8) for _ in range(8)]
    count = text.number(8)
    test(count > most or max(lanes) > count * (2**32 - 1), BAD)
    return Tally(lanes, count)


def read_stamp(text, header):
    stamp = text.stamp()
    test(stamp[1] > header.end, BAD)
    return stamp


def read_entry(text):
    slot, path = text.number(2), text.path()
    value, hold, kids = text.value(path), text.number(1), text.number(1)
    test(hold >= len(HOLDS) or kids > 3, BAD)
    return slot, Entry(path, value, HOLDS[hold], [bool(kids & 1), bool(kids & 2)])


def rise(items):
    return all(low < high for low, high in zip(items, items[1:]))


def read_entries(text, header):
    """The entries of a cache by their seats."""
    count = text.number(4)
    test(count > header.cache, BAD)
    found = [read_entry(text) for _ in range(count)]
    slots = [slot for slot, _ in found]
    if header.version == 1:
        test(any(slots) or not rise([path_text(entry.path) for _, entry in found]), BAD)
        return {entry.path: entry for _, entry in found}
    test(not rise(slots) or any(slot >= header.cache for slot in slots), BAD)
    return dict(found)


def read_operation(text, verifier):
    (epoch, counter), index, kind, path = read_stamp(text, verifier.header), text.number(8), text.number(1), text.path()
    test(kind not in KINDS or not is_data(path), BAD)
    value, signature = text.blob(), None
    if verifier.header.clients:
        signature = Signature(text.number(4), text.number(8), b"")
    return Event((epoch, counter, verifier.number, index), KINDS[kind], path, value, signature)


def read_operations(text, verifier, certified):
    """The operations that aren't certified: by rising index, with stamps that never fall and none behind the clock."""
    events, before = [], (verifier.header.first + certified, 0)
    for _ in range(text.number(8)):
        event = read_operation(text, verifier)
        stamp, index = event.moment[:2], event.moment[3]
        test(stamp < before or stamp > (verifier.epoch, verifier.counter) or index >= verifier.accepted, BAD)
        test(events and index <= events[-1].moment[3], BAD)
        events, before = events + [event], stamp
    return events


def read_sums(text, verifier):
    """The sums of the epoch before, then of a verifier's own."""
    counter, end = verifier.counter, verifier.header.end
    for epoch, most in ((verifier.epoch - 1, counter + end), (verifier.epoch, counter)):
        verifier.added[epoch], verifier.evicted[epoch] = read_sum(text, most), read_sum(text, most)


def read_parts(text, verifier, certified):
    """The parts of each epoch that is sealed and not certified."""
    header = verifier.header
    epochs = range(header.first + certified, verifier.epoch - 1)
    test(text.number(4) != len(epochs), BAD)
    for epoch in epochs:
        test(text.number(4) != epoch, BAD)
        verifier.parts[epoch] = read_sum(text, 2 * header.end), read_sum(text, 2 * header.end)


def read_verifier(text, digests, number, header, certified, taken):
    verifier = Verifier(digests, number, header)
    verifier.epoch, verifier.counter = read_stamp(text, header)
    test(verifier.epoch < header.first + (certified + 1 if certified else 0), BAD)
    verifier.accepted = text.number(8)
    test(verifier.accepted > taken, BAD)
    verifier.cache.entries = read_entries(text, header)
    read_sums(text, verifier)
    read_parts(text, verifier, certified)
    verifier.events = read_operations(text, verifier, certified)
    verifier.last = {client: text.number(8) for client in clients_of(number, header)}
    return verifier


def read_seal(digests, data):
    """What a seal says: the device's number, the bytes taken, how many epochs are certified, the verifiers; whether its tag is
    that of its text; and the bytes behind it."""
    text = Bytes(data)
    test(text.run(4) != MAGIC, BAD)
    number, taken = text.number(8), text.number(8)
    header, size = read_header(data[text.at :])
    test(header is None or taken > MOST_BYTES, BAD)
    text = header.reader(data)
    text.run(len(MAGIC) + 8 + 8 + size)
    certified = text.number(4)
    verifiers = [read_verifier(text, digests, place, header, certified, taken) for place in range(header.verifiers)]
    sealed = data[: text.at]
    return number, taken, certified, verifiers, text.run(TAG_BYTES) == digests.tag(sealed), data[text.at :]


def resume(digests, data, device):
    """What the verifiers come to that go on from a seal with the frames behind it; or the line and the status of its refusal; None
    where the device can't be read."""
    try:
        number, taken, certified, verifiers, is_tagged, rest = read_seal(digests, data)
    except Fault:
        return "bad seal\n", 15
    if not is_tagged:
        return "not tagged\n", 11
    if device is None:
        return None
    if number != device:
        return f"stale sealed {number} device {device}\n", 16
    logs, bad = read_frames(verifiers[0].header, rest, taken)
    return gone_on(verifiers, logs, bad, certified)
