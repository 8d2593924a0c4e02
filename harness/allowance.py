"""Reading under an allowance, written from 02, Item 10, and not from our code; and what the cases of it have to have met."""
import itertools

from reader import ROOM
from words import VARIABLE


def read_within(reader, allowance, line, room):
    """The event, None for paused; and how many words (fixed: places) were consumed."""
    if not reader.fits(line) or len(room) != ROOM:
        return ("refused", 1, False), 0
    if reader.impossible():
        return ("refused", 2, False), 0
    if allowance == 0:
        return None, 0
    if reader.place is None:
        return reader.begin(line), 0
    start, end, size = reader.sizes()
    area, consumed = line[start:], 0
    while consumed < allowance:
        if reader.place == end:
            reader.place = None
            return ("end",), consumed
        words = area[reader.place : reader.place + size]
        reader.place += size
        consumed += 1
        event = reader.word(words[0], room) if reader.settings[2] == VARIABLE else reader.fixed(words, room)
        if event:
            return event, consumed
    return None, consumed


def seen_of(reader, before, allowance, event, consumed):
    """What a call met: its report, whether the line is fixed, and where the allowance ended. `before`: whether a line was begun."""
    kind = "fixed" if reader.settings[2] != VARIABLE else "variable"
    name = "paused" if event is None else event[0]
    used = "none" if allowance == 0 else "all" if consumed == allowance else "part" if consumed else "nothing"
    yield "under", reader.mode, name, kind if before else "no line", used
    if event is None and before and reader.place == reader.sizes()[1]:
        yield "under", reader.mode, "paused at the end", kind, used
    if allowance >= 2**63:
        yield "under", "near 2^64", name


def asked():
    """Paused with nothing, at the end and before it; an event on the last word allowed and before it; the end, with and without words before it; refused."""
    for mode, kind in itertools.product((8, 9), ("variable", "fixed")):
        yield from (("under", mode, "paused", kind, used) for used in ("none", "all"))
        yield from (("under", mode, "paused at the end", kind, used) for used in ("none", "all"))
        yield from (("under", mode, name, kind, used) for name in ("block", "drop") for used in ("all", "part"))
        yield from (("under", mode, "end", kind, used) for used in ("part", "nothing"))
    for mode in 8, 9:
        yield from (("under", mode, name, "no line", used) for name, used in [("paused", "none"), ("begun", "nothing"), ("refused", "none"), ("refused", "nothing")])
    yield from (("under", "near 2^64", name) for name in ("begun", "block", "end"))
