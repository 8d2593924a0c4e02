"""Kinds of rows at edges, by which enough.py asks for the cases of edges.py, reserved.py, bursts.py and running.py: what a step has met beside its answer."""
from answers import answer
from words import ALL_ONES, VARIABLE, byte_form, taken_on
from writer import DONE, Writer

EDGE = 0x300  # the first word above data form: B9 and B8 are both 1
TO_0 = {1: "aai", 3: "flag"}  # settings by their index
FIVE = range(36, 41)  # the reserved bytes
SHORT = 18  # bits: no burst within so many passes
LONG = [ALL_ONES + 1, 0xFFFFFFFF]  # numbers above 18 bits


def of_line(scope, system, mode, line, fault):
    """Where a line that fits has the word 300h, which of the five reserved bytes alone is FFh, and the answer."""
    if not scope.fits(system, mode, line):
        return
    kind = {byte_form(VARIABLE): "variable", byte_form(0x21): "fixed"}.get(line[47])
    yield from (("FFh checked", k, *([kind] if fault == 0 else []), fault) for k in alone([w & 0xFF for w in line[49:54]]))
    length, payload, _ = scope.systems[system]
    if EDGE in line[4:57]:
        yield "300h in a header", system, fault
    elif EDGE in line[length - payload :]:
        yield "300h in an area", mode, fault


def of_burst(scope, system, mode, sent, line, fault):
    """What became of an accepted line with flag 01h of which only bits that the CRC covers are changed, within how many consecutive ones."""
    bits = changed_bits(sent, line)
    if not bits or not scope.fits(system, mode, line):
        return
    length, payload, _ = scope.systems[system]
    start, end = 10 * (length - payload), 10 * (length - 2)
    width = bits[-1] - bits[0] + 1
    if bits[0] < start or bits[-1] >= end or width > 19 or answer(scope, system, mode, sent)[0] or sent[48] & 0xFF != 1:
        return
    yield "burst", system, mode, width <= SHORT, fault
    yield "burst of", system, mode, width


def changed_bits(old, new):
    """Places of the bits in which two lines of the same length differ, ten to a word; none where they differ in another way."""
    words = [(i, a ^ b) for i, (a, b) in enumerate(zip(old, new)) if a != b]
    if len(old) != len(new) or any(w > 0x3FF for _, w in words):
        return []
    return [10 * i + k for i, w in words for k in range(10) if w >> k & 1]


def passed(seen):
    """Short bursts with another answer than 15 or 16."""
    return [what for what, n in seen.items() if n and what[0] == "burst" and what[3] and what[4] not in (15, 16)]


def to_0(old, new):
    """The one setting that is changed, where it was 1 and is 0."""
    changed = [k for k, (a, b) in enumerate(zip(old, new)) if a != b]
    if len(changed) == 1 and changed[0] in TO_0 and (old[changed[0]], new[changed[0]]) == (1, 0):
        yield TO_0[changed[0]]


def alone(five):
    """The one of the five that is FFh, where all others are 0."""
    if sorted(five) == [0, 0, 0, 0, 0xFF]:
        yield FIVE[five.index(0xFF)]


def one_changed(old, new):
    """The one setting that is changed, where it is a reserved byte."""
    found = [k for k, (a, b) in enumerate(zip(old, new)) if a != b]
    if len(found) == 1 and found[0] in FIVE:
        yield found[0]


def of_opening(before, number, values, given):
    """An unfinished block whose next line has a setting at 0, or another reserved byte; number 0, which alone would be 9; FFh reserved."""
    yield from (("FFh opened", k, given) for k in alone(values[36:]))
    if before.rest:
        yield from (("opened with another", k, before.mode, given) for k in one_changed(before.settings, values))
    if before.rest:
        yield from (("opened to 0", name, before.mode, given) for name in to_0(before.settings, values))
    if number == 0:
        yield "opened with number 0", before.mode, given


def of_rest(call, before, given):
    """What cannot be of an unfinished block, where nothing else is wrong with the state."""
    if before.rest is None or given == 1:
        return
    other = Writer(before.scope, before.system, before.mode)
    other.last, other.settings, other.place, other.crc = before.last, before.settings, before.place, before.crc
    other.rest = (before.rest[0], 10, 5)
    if other.impossible():
        return
    _, n, laid = before.rest
    causes = {"n 16,385": n == 16385, "laid 0": laid == 0, "laid n + 7": laid == n + 7}
    yield from (("rest", name, call, before.mode, given) for name, holds in causes.items() if holds)


def of_crc(call, before, given):
    """A stored CRC above 18 bits, where nothing else is wrong with the state."""
    number, before.crc = before.crc, ALL_ONES
    if number in LONG and not before.impossible():
        yield "crc above 18 bits", number, call, before.mode, given
    before.crc = number


def of_closing(before, line, given):
    """A line closed with flag 01h: whether the stored CRC was that of the words laid, and how the line then stood."""
    if given != DONE or before.settings[3] != 1:
        return
    start, end, size = before.sizes()
    place = before.place
    right = before.crc == taken_on(ALL_ONES, line[start : start + place])
    how = {"at once": place == 0, "full": place == len(line) - 2 - start, "empty places": size > 1 and 0 < place < end, "unfinished": before.rest is not None}
    yield from (("closed", name, right, before.mode) for name, holds in (how | {"any": True}).items() if holds)


def of_begun(mode, old, new, event):
    """A line begun with an open block and a setting at 0, or another reserved byte."""
    if event[0] == "begun":
        yield from (("begun with another", k, mode, event[-1]) for k in one_changed(old, new))
        yield from (("begun to 0", name, mode, event[-1]) for name in to_0(old, new))


def of_phase(phase, impossible):
    """What cannot be of a reader's data phase, and what `is_impossible` says."""
    if phase[0] != "data":
        return
    announced, collected = phase[2:]
    causes = {"announced": announced == 16385, "collected": collected == 16385, "above the count": 0 < announced < collected}
    yield from (("phase", name, impossible) for name, holds in causes.items() if holds)


def asked(scope):
    """What has to have been met."""
    yield from (("300h in a header", system, 5) for system in scope.systems)
    yield from (("300h in an area", mode, 15) for mode in (8, 9))
    for system in scope.systems:
        yield from (("burst", system, mode, True, fault) for mode in (8, 9) for fault in (15, 16))
        yield from (("burst of", system, mode, width) for mode in (8, 9) for width in range(1, SHORT + 1))
        yield "burst", system, 9, False, 0
    for mode in 8, 9:
        yield from (("opened to 0", name, mode, 20) for name in TO_0.values())
        yield from (("begun to 0", name, mode, True) for name in TO_0.values())
        yield "opened with number 0", mode, 2
        yield from (("rest", why, call, mode, 2) for why in ("n 16,385", "laid 0", "laid n + 7") for call in ("opened", "added", "closed"))
        yield from (("crc above 18 bits", number, call, mode, 2) for number in LONG for call in ("opened", "added", "closed"))
        yield from (("closed", how, True, mode) for how in ("at once", "full", "empty places", "unfinished"))
        yield "closed", "any", False, mode
    yield from (("phase", why, 1) for why in ("announced", "collected", "above the count"))
    yield "impossible", 1, 1
    for k in FIVE:
        yield from (("FFh checked", k, kind, 0) for kind in ("variable", "fixed"))
        yield from (("FFh checked", k, fault) for fault in (6, 8, *range(10, 14)))
        yield from (("FFh opened", k, given) for given in (0, *range(10, 14)))
        for mode in 8, 9:
            yield "opened with another", k, mode, 20
            yield "begun with another", k, mode, True
