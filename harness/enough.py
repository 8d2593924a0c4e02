"""What the rows of harness/steps.c and of crates/heard/stdout have to hold, so that steps left out do not pass."""
import itertools

import allowance
import gap
import kinds
import lists
import nulls
from courses import ENDS
from lines import BYTE_FORM, DATA_FORM, SAME
from words import VARIABLE

# What a line can be refused for beside 1: 3 to 16, of which 14 is no longer given
FAULTS = (*range(3, 14), 15, 16)

# Rows of each name, of the calls from C and of `heard`; and events of each kind in each mode
CALLS = {"close": 2950, "read": 3550, "room": 350, "opened": 2390, "added": 1370, "closed": 1390, "check": 2030, "state": 4190, "impossible": 760}
CALLS |= {"words": 210, "batched": 990, "under": 3250, "packed": 400, "listed": 390}
WORDS = {"crc": 172, "header": 30, "kinds": 256}
EVENTS = {"begun": 300, "begun dropped": 15, "begun with an open block": 50, "block": 1000, "end": 400, "refused 1": 80, "refused 2": 30}
EVENTS |= {f"drop {k}": 4 for k in range(1, 7)} | {f"refused {k}{how}": 1 for k in FAULTS for how in ("", " dropped")}

# What each call of the writer has to have answered, in each mode: 0 done or finished, 100 unfinished
ANSWERS = {"opened": (0, 1, 2, *range(9, 14), 20), "added": (0, 100, 1, 2, 17, 18, 19, 20), "closed": (0, 1, 2, 20)}

# Lists of a kind and a length, and how many
LISTS = {(SAME, 1438): 1, (SAME, 1918): 1, (BYTE_FORM, 5): 6, (BYTE_FORM, 40): 6, (DATA_FORM, 1438): 6, (DATA_FORM, 1918): 6}


def reader(scope):
    """What the reader has to have met: drops by their place, jumps, fixed blocks."""
    yield from (("drop", *x) for x in itertools.product((8, 9), range(1, 7), ("first", "middle", "last")))
    for system, (_, _, lines) in scope.systems.items():
        yield from (("jump", system, jump) for jump in (None, 0, -1, 1, lines // 2, -(lines // 2)))
    for kind, (_, *places) in scope.fixed.items():
        yield from (("fixed", kind, rate) for rate in (0, 1) if places[rate])


def writer(scope):
    """What the writer has to have met: each answer, a line of each system and mode, an impossible state in each system, 01's run-only cases."""
    for name, answers in ANSWERS.items():
        yield from ((name, "mode", mode, answer) for mode in (8, 9) for answer in answers)
        yield from ((name, "system", system, answer) for system in scope.systems for answer in (0, 2))
    yield from (("fresh", system, mode) for system in scope.systems for mode in (8, 9))
    yield from (("impossible", *both) for both in [(0, 0), (0, 1), (1, 0)])
    yield from (("end", mode, flag, ENDS[flag] + more, more == 1) for mode in (8, 9) for flag in (0, 1) for more in (0, 1))


def check(scope):
    """What the line check has to have met: each answer in each system, a good line of each kind."""
    yield from (("check", system, answer) for system in scope.systems for answer in (0, 1, *FAULTS))
    yield from (("good", *kind) for kind in itertools.product(scope.systems, (8, 9), (VARIABLE, 0x21), (0, 1)))


def few(play, least):
    """Rows of a name that there are too few of."""
    for name, n in least.items():
        if sum(row[0] == name for row in play.rows) < n:
            yield f"fewer than {n} rows {name}"


def missing_words(play):
    """What the rows of `heard` have to hold and do not."""
    yield from few(play, WORDS)
    for kind, n in LISTS.items():
        if play.seen["crc", kind] < n:
            yield f"fewer than {n} lists of kind and length {kind}"


def missing_calls(scope, play):
    """What the rows of the calls from C have to hold and do not."""
    yield from few(play, CALLS)
    for mode, (name, n) in itertools.product((8, 9), EVENTS.items()):
        if play.events[mode, name] < n:
            yield f"fewer than {n} events {name} in mode {mode}"
    for what in kinds.passed(play.seen):
        yield f"a short burst that is not refused with 15 or 16: {what}"
    asked = [kinds.asked(scope), lists.asked(scope), allowance.asked(), gap.asked(scope), nulls.asked()]
    for what in itertools.chain(reader(scope), writer(scope), check(scope), *asked):
        if not play.seen[what]:
            yield f"nowhere {what}"
