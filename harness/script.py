"""The steps that are played, and computed again by play.py: which lines are made and read.

CALLS are played through the calls from C, by harness/steps.c, where it is said what a step does. WORDS are played by the program `heard`,
and stand in its file stdin: what no call from C hands out.

    /usr/bin/python3 -B harness/script.py > crates/heard/stdin
"""
import sys

import bursts
import classing
import courses
import edges
import gap
import lines
import lists
import nulls
import put
import reserved
import running
import under
from book import ROOM, SOURCE, TO, Book, whole
from words import VARIABLE, Scope, block_head, byte_form, checksum, crc_of, data_form, header, opened_line, settings_by

ONE, TWO, THREE = map(byte_form, (1, 2, 3))
NOT_BYTE = 0x103  # data form, and not byte form
NULL = 0x100  # the same, and a null's type

# For each drop some causes: the words before, the causing word, and whether an 8-bit line with it is refused, so that it is laid later.
CAUSES = [
    (1, [0x309], 0x309, False),
    (1, block_head(7, 3) + [ONE, TWO], 0x309, False),
    (2, [0x309], NOT_BYTE, True),
    (3, block_head(7, 5)[:2], NOT_BYTE, True),
    (3, block_head(7, 5)[:5], NOT_BYTE, True),
    (3, block_head(7, 16385)[:5], byte_form(0), False),
    (3, block_head(7, 0)[:5], byte_form(1), False),
    (4, [0x309], 0x30A, False),
    (4, block_head(7, 3)[:3], 0x30A, False),
    (4, block_head(7, 3) + [ONE, TWO], 0x30A, False),
    (5, block_head(7, 3) + [ONE, TWO, THREE], 0x200, False),
]


def drops(book):
    for mode in 8, 9:
        for k, (reason, before, cause, later) in enumerate(CAUSES):
            flag = k % 2
            rest = whole(9, 1, 2)[1:] if reason == 1 else [0x200] + whole(9, 1, 2)
            book.note(f"drop {reason}, in mode {mode}, on the first word of an area, in the middle, on the last, over a line's end")
            n = len(before)
            for system, first in (0, -n), (1, 700), (2, 1919 - 2 * flag - n), (3, -(n + 1) // 2):
                book.new(system, mode)
                book.stream(first, [before + [cause] + rest], flag, later and mode == 8)


def long_blocks(book):
    for mode in 8, 9:
        for k, (n, count) in enumerate([(0, 0), (16384, 16384), (16384, 0), (16383, 0), (1433, 1433), (1434, 0)]):
            book.note(f"mode {mode}, {n} data words, count {count}")
            book.new(k % 4, mode, 520)
            book.stream(0, [block_head(k, count), n, [0x30A]], k % 2)
            book.step("view")
        for system, last in (0, 0), (1, 700), (2, 1917), (3, 1919):
            book.note(f"mode {mode}, drop 6: with no count one data word too many, at place {last} of an area")
            book.new(system, mode, 1)
            flag = last == 1917
            book.stream((last - 16390) % book.area(flag), [block_head(3, 0), 16385, [0x200, 0x30A], whole(4, 9)], int(flag))
            book.step("view")
        book.note(f"mode {mode}, drop 3: count 16,385")
        book.new(0, mode)
        book.stream(1436, [block_head(3, 16385), 2000, [0x30A], whole(5)])


# The words before, for each phase
PHASES = [[], [0x309], *(block_head(6, 2)[:n] for n in (2, 3, 4, 5, 6)), block_head(6, 2) + [ONE], block_head(6, 2) + [ONE, TWO], block_head(6, 0), block_head(6, 0) + [ONE]]


def phases(book):
    for mode in 8, 9:
        fair = [0x309, 0x30A, 0x200, ONE, 0x2FF] + [NULL, 0x201] * (mode == 9)
        odd = [0x000, 0x3FF, NULL, 0x400, 0x600, 0x709, 0x70A, 0xFFFF, 0x309, 0x30A]
        for later, causes in (False, fair), (True, odd[:5]), (True, odd[5:]):
            book.note(f"mode {mode}: in every phase " + ("words laid after the line was begun" if later else "words that a line may have"))
            book.new(mode - 8, mode)
            book.stream(3, [[w for before in PHASES for cause in causes for w in before + [cause, 0x30A, 0x200]]], 0, later)
            book.step("view")


def mixes(book):
    for kind in range(16):
        system, mode, flag = kind % 4, 8 + kind // 4 % 2, kind // 8
        book.note(f"system {system}, mode {mode}, flag {flag}: mixed words")
        book.new(system, mode, 524)
        for k in range(3):
            book.open(flag=flag)
            book.step("mix", 0, book.area(flag), 1000 * kind + k)
            book.step("close")
            book.read()


def fixed(book):
    for kind, (size, *places) in book.scope.fixed.items():
        for rate in 0, 1:
            for flag in 0, 1:
                fills = size * places[rate] > (1438, 1918)[rate]
                if places[rate] == 0 or (fills and flag):
                    continue
                block = kind + 0x40 * (kind % 3 == 0)
                book.note(f"fixed, block type {block:02X}h")
                book.new(2 * rate + kind % 2, 8 + (kind + rate + flag) % 2)
                fixed_line(book, size, places[rate], block, flag)


def fixed_line(book, size, places, block, flag):
    """Types as they are made, but the first a type, the third empty, the last empty with flag 1, and in 9-bit mode two out of form."""
    book.open(flag=flag, block=block)
    book.data(0, book.area(flag))
    book.words(0, [byte_form(block)])
    chosen = {2: 0x200}
    if flag:
        chosen[places - 1] = 0x200
    if book.mode == 9:
        chosen.update({1: 0x100, 4: 0x1FE})
    for k, w in chosen.items():
        if k < places:
            book.words(k * size, [w])
    book.step("close")
    book.read()
    book.step("view")


def fixed_later(book):
    for mode in 8, 9:
        book.note(f"mode {mode}: a fixed line with types and data laid after it was begun")
        book.new(mode - 8, mode)
        book.open(block=0x21)
        book.data(0, 1440)
        book.step("close")
        book.read(1)
        for k, w in enumerate([0x309, 0x30A, 0x100, 0x400, 0x501, 0x600, 0x709, 0x000, 0xFFFF, 0x200, 0x101]):
            book.words(5 * k, [w, 0x309, 0x30A, 0xFFFF, w])
        book.step("index", 47, byte_form(VARIABLE))  # the header is not looked at again
        book.read()


def jumps(book):
    for system in range(4):
        lines = book.scope.systems[system][2]
        half = lines // 2
        pairs = [(lines, 1), (lines, lines), (20, 21), (20, 22), (20, 320), (20, 20), (20, 19), (20, 1), (1, 2 + half), (1, 3 + half), (1, 1)]
        pairs += [(lines, half + 1), (lines, half + 2), (half + 1, 1), (half, 1), (lines - 1, lines)]
        for k, (one, two) in enumerate(pairs):
            book.note(f"system {system}: line {two} after line {one}")
            book.new(system, 8 + k % 2)
            book.left_open(block_head(k, 3) if k % 3 < 2 else [], number=one)
            book.line(0, [ONE, TWO, THREE, 0x30A], number=two)
    for system, mode in (0, 8), (3, 9):
        book.note("an open block, and then a changed setting, or none; F and V are no settings")
        for how in {}, {"timing": 3}, {"aai": 1}, {"flag": 1}, {"block": 0x01}, {"to": 13}, {"source": 14}:
            book.new(system, mode)
            book.left_open(block_head(5, 3) + [ONE, TWO])
            book.line(0, [THREE, 0x30A] if how.get("block", VARIABLE) == VARIABLE else [], **how)
            book.line(0, whole(8, 4))


def spoiled(book, flag, block, number, answer):
    """For an answer the indices and words that give it in a good line, one cause after another."""
    length, payload, lines = book.scope.systems[book.system]
    start, code = length - payload, {1440: 1, 1920: 2}[payload]
    good = settings_by(code, 0, block, flag, 0, TO, SOURCE)
    line = opened_line(book.scope, book.system, 0, 0, number, good)

    def headed(number, **changes):
        """The header words of other settings."""
        values = dict(code=code, aai=0, block=block, flag=flag, reserved=0, to=TO, source=SOURCE) | changes
        h = header(number, settings_by(**values), crc_of, crc_of)
        return {4 + i: w for i, w in enumerate(h) if w != line[4 + i]}

    def summed(index, word):
        """One header word, and the checksum."""
        changed = line[:index] + [word] + line[index + 1 :]
        return {index: word, 56: checksum(changed[7:56])}

    def covered():
        """B2 of the second number word."""
        h = line[4:57]
        h[7] = byte_form((h[7] & 0xFF) | 4)
        h[8:10] = crc_of(h[3:8])
        h[52] = checksum(h[3:52])
        return {4 + i: w for i, w in enumerate(h) if w != line[4 + i]}

    def other(w):
        return data_form(w ^ 1)

    return {
        3: [{3: 0x200}, {0: 0x7FF}, {start - 1: 0x31C}],
        4: [{5: 0x3FE}, {9: 0x62E}],
        5: [{20: 0x100}, {56: line[56] ^ 0x200}, {13: 0x3FF}],
        6: [{56: other(line[56])}],
        7: [summed(12, other(line[12]))],
        8: [summed(54, other(line[54]))],
        9: [headed(0), headed(lines + 1), covered()],
        10: [headed(number, code=3 - code), headed(number, code=0)],
        11: [headed(number, aai=2), headed(number, aai=15)],
        12: [headed(number, block=0), headed(number, block=0x81), headed(number, block=0x38, flag=1)] + [headed(number, block=0x49)] * (code == 1),
        13: [headed(number, flag=2), headed(number, block=0x38, flag=2)],
        14: [headed(number, reserved=1)],  # no longer given: the line is begun
        15: [{start: 0x3FF}, {start + 700: 0x600}] + [{length - 2: 0x309}] * flag + [{start + 9: 0x309}] * (block != VARIABLE),
        16: [{start + 9: 0x101}, {length - 1: other(0x2AA)}] * flag,
    }[answer]


def refusals(book):
    for system, mode, flag, block, opened in [
        (0, 8, 1, VARIABLE, block_head(9, 4)),
        (3, 9, 1, VARIABLE, []),
        (1, 9, 1, 0x21, block_head(9, 4)),
        (2, 8, 1, 0x24, []),
    ]:
        for answer in range(3, 17):
            book.new(system, mode)
            for edits in spoiled(book, flag, block, 21, answer):
                what = "a reserved byte, which is no fault" if answer == 14 else f"answer {answer}"
                book.note(f"{what}, after a line that " + ("left a block open" if opened else "left none open"))
                book.new(system, mode)
                book.left_open(opened)
                refused_line(book, flag, block, edits)
                book.line(50, whole(1, 2))


def refused_line(book, flag, block, edits):
    book.open(flag=flag, block=block)
    book.step("close")
    for index, word in edits.items():
        book.step("index", index, word)
    book.read()


def unfit(book):
    wrong = [(1715, ROOM), (1717, ROOM), (1728, ROOM), (1, ROOM), (1716, ROOM - 1), (1716, ROOM + 1), (1716, 0)]
    for mode in 8, 9:
        book.note(f"mode {mode}: answer 1 with no line begun, in a begun line with an open block, and after it; nothing changes")
        book.new(0, mode)
        for length, room in wrong:
            book.read(1, length, room)
        book.open()
        book.words(1426, whole(1, 5) + block_head(2, 2))
        book.step("close")
        for _ in range(3):
            book.read(1)
            for length, room in wrong:
                book.read(1, length, room)
        book.line(0, [ONE, TWO, 0x30A])
        book.step("view")
    book.note("unknown systems and modes")
    for system, mode in (4, 8), (255, 9), (0, 7), (0, 10), (0, 0), (7, 7):
        book.step("new", system, mode)
        book.step("read", 1, 1716, ROOM)
        book.step("read", 1, 2304, ROOM)


# A possible state of system 0: the steps that make it
POSSIBLE = {"last": (1, 20), "settings": (1, 0, VARIABLE, 0, 0, TO, SOURCE), "at": (1, 5), "phase": (6, 7, 10, 3)}
FIXED = {"settings": (1, 0, 0x21, 0, 0, TO, SOURCE), "phase": (0,)}
# What is changed in it. Some of these are possible still.
CHANGES = [
    {},
    *({"last": (1, n)} for n in (0, 1, 525, 526, 65535)),
    {"last": (0,)},
    {"last": (0,), "phase": (0,)},
    {"last": (0,), "at": (0,)},
    {"last": (0,), "at": (0,), "phase": (0,)},
    {"last": (0,), "at": (0,), "phase": (1,)},
    {"last": (0,), "at": (0,), "phase": (0,), "settings": (9, 9, 9, 9, 9, 9, 9)},
    *({"settings": s + (TO, SOURCE)} for s in [(2, 0, VARIABLE, 0, 0), (1, 2, VARIABLE, 0, 0), (1, 0, 0xC0, 0, 0), (1, 0, VARIABLE, 2, 0)]),
    *({"settings": s + (TO, SOURCE)} for s in [(1, 0, VARIABLE, 0, 1), (1, 1, VARIABLE, 1, 0)]),
    *({"settings": s + (TO, SOURCE), "phase": (0,), "at": (0,)} for s in [(1, 0, 0x09, 0, 0), (1, 0, 0x77, 1, 0), (1, 0, 0x77, 0, 0)]),
    *({"at": (1, q)} for q in (0, 1439, 1440, 1441)),
    *({"at": (1, q), "settings": (1, 0, VARIABLE, 1, 0, TO, SOURCE)} for q in (1437, 1438, 1439)),
    *(FIXED | {"at": (1, q)} for q in (0, 5, 6, 1430, 1435, 1436, 1440)),
    *(FIXED | {"at": (1, 5), "phase": (p, 7, 3, 1)} for p in range(1, 7)),
    FIXED | {"at": (0,), "phase": (1,)},
    *({"phase": (p, 7)} for p in range(6)),
    *({"phase": (6, 7, *p)} for p in [(0, 0), (0, 16384), (0, 16385), (16384, 16383), (16384, 16384), (16385, 0), (16385, 16385), (3, 3), (3, 4), (999999, 1)]),
]


def impossible(book):
    for mode in 8, 9:
        for k, changes in enumerate(CHANGES):
            book.note(f"mode {mode}: a state with " + ("nothing changed" if not changes else f"{changes}"))
            book.new(0, mode)
            book.open(aai=k % 2)
            book.data(0, 1440)
            book.words(7, [0x30A, 0x309])
            book.step("close")
            for name, numbers in (POSSIBLE | changes).items():
                book.step(name, *numbers)
            book.read(2)
            book.read(1, 1715)
        book.step("view")


HERE = [drops, long_blocks, phases, mixes, fixed, fixed_later, jumps, refusals, unfit, impossible]
# A new part stands behind all others, so that the steps and rows there are stay as they are.
CALLS = [*HERE, *(part for module in (lines, courses, put, edges, reserved, bursts, running, lists, under, gap, nulls) for part in module.PARTS)]
WORDS = [*lines.WORDS, *classing.PARTS]


def script(scope, parts):
    """The steps of some parts, as text."""
    book = Book(scope)
    for part in parts:
        part(book)
    return "".join(f"{step}\n" for step in book.steps)


if __name__ == "__main__":
    sys.stdout.write(script(Scope("../shared/01-scope.md", "harness/script.py"), WORDS))
