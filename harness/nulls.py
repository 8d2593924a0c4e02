"""Cases of 02, Item 2: the word 100h as a type, as a count word, as data and between blocks; and which of them the rows have to hold."""
from book import whole
from put import state
from reader import NULL
from states import READER
from under import EACH, MOST, laid, under
from words import VARIABLE, block_head, byte_form

ONE, TWO, THREE = map(byte_form, (1, 2, 3))
MARK = 256  # a null's type among the numbers of a state


def head(count):
    """A null up to its data."""
    return [0x309, NULL, *block_head(0, count)[2:]]


def null(*values):
    return [*head(len(values)), *map(byte_form, values), 0x30A]


# ---- in variable lines


def behind(book):
    """A null and a block behind it in one call, over and under the null's values; 100h between blocks; nulls to the area's end."""
    for mode in 8, 9:
        for flag in 0, 1:
            book.note(f"nulls, mode {mode}, flag {flag}: blocks behind nulls, 100h between them, and nulls alone")
            for k, (runs, place) in enumerate([
                ([null(1, 2, 3, 4), whole(7, 9)], 0),
                ([null(1), whole(7, 9, 8, 7)], 3),
                ([null(), [NULL, NULL], whole(7), [NULL], null(5, 6), whole(200, 1, 2), [NULL]], 5),
                ([whole(7, 1, 2), null(3), null(4, 5), null(), whole(8, 6), null(2), [0x309, 0x30A], null(1)], 700),
            ]):
                book.new(k, mode)
                book.stream(place, runs, flag)
                book.step("view")
            book.new(flag, mode)
            book.stream(0, [null(*range(k % 5)) for k in range(150)], flag)
            book.stream(0, [head(book.area(flag) - 7), book.area(flag) - 7, [0x30A]], flag)
            book.step("view")
            book.new(flag + 2, mode)
            book.stream(0, [[NULL] * book.area(flag)], flag)


def split(book):
    """A null over the end of a line, at each of its parts, and a block behind it; laid before the line is begun, and after."""
    words = null(4, 5, 6)
    for mode in 8, 9:
        for later in False, True:
            book.note(f"nulls, mode {mode}: over a line's end" + (", laid after the lines were begun" if later else ""))
            for k in range(1, len(words) + 1):
                book.new(k % 4, mode, 524)
                book.stream(-k, [words, whole(9, 1, 2)], k % 2, later)
            book.step("view")


# As in script.py: the words before, and the causing word. The reason holds in 8-bit mode; in 9-bit mode 100h as data is a value.
CAUSES = [
    (1, [0x309, NULL], 0x309),
    (1, head(3)[:4], 0x309),
    (1, head(3) + [ONE, TWO], 0x309),
    (3, [0x309, NULL], NULL),
    (3, head(5)[:5], NULL),
    (3, head(5)[:3], 0x201),
    (3, block_head(7, 5)[:2], NULL),
    (3, block_head(7, 5)[:5], NULL),
    (3, head(16385)[:5], byte_form(0)),
    (4, [0x309, NULL], 0x30A),
    (4, head(3)[:3], 0x30A),
    (4, head(3) + [ONE, TWO], 0x30A),
    (5, head(3) + [ONE, TWO, THREE], 0x200),
    (5, head(1) + [ONE], NULL),
    (5, block_head(7, 1) + [ONE], NULL),
    (7, block_head(7, 3) + [ONE], NULL),
    (7, block_head(7, 0), NULL),
    (7, head(3) + [ONE, TWO], NULL),
    (7, head(0) + [ONE], NULL),
]


def causes(book):
    for mode in 8, 9:
        for k, (reason, before, cause) in enumerate(CAUSES):
            flag = k % 2
            later = cause == 0x201 or k % 3 == 2
            rest = [0x101, *whole(9, 1, 2)[2:]] if reason == 1 else [0x200, *whole(9, 1, 2)]
            book.note(f"nulls, mode {mode}: drop {reason}, or a value; on the first word of an area, in the middle, on the last, over a line's end")
            n = len(before)
            for system, first in (0, -n), (1, 700), (2, 1919 - 2 * flag - n), (3, -(n + 1) // 2):
                book.new(system, mode)
                book.stream(first, [before + [cause] + rest], flag, later)
            book.step("view")


def long_nulls(book):
    """No count: 16,384 data words end with no report, the next one is drop 6, also if it is 100h. A count of 16,384, and of 16,385."""
    for mode in 8, 9:
        for k, runs in enumerate([
            [head(0), 16384, [0x30A], whole(4, 9)],
            [head(16384), 16384, [0x30A], whole(4, 9)],
            [head(0), 16385, [0x30A], whole(4, 9)],
            [head(0), 16384, [NULL, 0x30A], whole(4, 9)],
            [block_head(5, 0), 16384, [NULL, 0x30A], whole(4, 9)],
            [head(16384), 16384, [NULL, 0x30A], whole(4, 9)],
            [head(16385), 100, [0x30A], whole(4, 9)],
        ]):
            book.note(f"nulls, mode {mode}: long ones")
            book.new(k % 4, mode, 1)
            book.stream(700, runs, k % 2)
            book.step("view")


# ---- an open null and what becomes of it


def left(book):
    """Each phase of a null at the end of a line: then the next line, a jump, changed settings, a refused line, and a line that does not fit."""
    words = null(4, 5, 6)
    for mode in 8, 9:
        for k in range(2, len(words)):
            book.note(f"nulls, mode {mode}: {k} words at a line's end, and the line behind it")
            for how in {}, {"number": 30}, {"aai": 1}, {"flag": 1}, {"block": 0x21}, {"to": 13}:
                book.new(k % 4, mode)
                book.left_open(words[:k])
                rest = [] if "block" in how else [*words[k:], *whole(9, 1)]
                book.line(0, rest, **how)
            book.new(k % 4, mode)
            book.left_open(words[:k])
            book.open()
            book.step("close")
            book.step("index", 0, 0)
            book.read(1, 1)
            book.read()
            book.line(0, [*words[k:], *whole(9, 1)])


def put_states(book):
    """States with a null, possible or not, as they are read with and told."""
    phases = [(2, MARK, 0, 0, 0), (3, MARK, 3, 0, 0), (4, MARK, 3, 2, 0), (5, MARK, 3, 0, 0), (6, MARK, 10, 3, 0), (6, MARK, 0, 16384, 0)]
    wrong = [(6, MARK, *p, 0) for p in [(0, 16385), (16385, 0), (3, 4), (16384, 16385)]]
    for system, mode in (0, 8), (1, 9), (2, 9), (3, 8):
        book.note(f"nulls, system {system}, mode {mode}: states put")
        book.system, book.mode = system, mode
        values = state(book)[11:]
        book.fresh(system, mode)
        book.begin(21, values)
        book.words(5, [byte_form(b) for b in (3, 0, 0, 0)] + [ONE, TWO, THREE, 0x30A, *whole(7, 9)])
        book.end()
        cases = [{"five": five} for five in phases + wrong]
        cases += [{"five": phases[k], "block": 0x21} for k in (0, 4)] + [{"five": phases[k], "last": (0, 0), "place": (0, 0)} for k in (0, 4)]
        cases += [{"five": five, "place": (0, 0)} for five in phases]
        for case in cases:
            book.step("Put", READER, 0, *state(book, **case))
            book.step("Impossible")
            book.read(3)
            book.step("Tell", READER)
        book.step("view")


# ---- in fixed lines

# Places of block type 21h: a type word and four others
PLACES = [
    [NULL, NULL, ONE, 0x309, NULL],
    [0x107, ONE, TWO, THREE, 0x104],
    [0x108, ONE, NULL, THREE, ONE],
    [0x200, NULL, NULL, NULL, NULL],
    [0x20A, NULL, ONE, ONE, ONE],
    [0x201, NULL, ONE, ONE, ONE],
    [0x20B, ONE, ONE, ONE, NULL],
    [0x20C, THREE, TWO, ONE, 0x500],
    [0x500, ONE, ONE, ONE, NULL],
    [NULL] + [0x200] * 4,
]


def fixed(book):
    """Null places, places with 100h among their data, empty ones with it, types out of form; and 100h in the rest of the line."""
    for mode in 8, 9:
        for later in False, True:
            book.note(f"nulls, mode {mode}: places of a fixed line" + (", laid after it was begun" if later else ""))
            for system, flag in (0, 0), (1, 1), (2, 1), (3, 0):
                book.new(system, mode)
                book.open(block=0x21, flag=flag)
                if later:
                    book.step("close")
                    book.read(1)
                for k, words in enumerate(PLACES):
                    if later or all(w < 0x300 and (mode == 9 or w in (NULL, byte_form(w))) for w in words):
                        book.words(5 * k, words)
                book.words(book.area(flag) - 3, [NULL] * 3)
                if not later:
                    book.step("close")
                book.read()
                book.step("view")
    for kind, rate in (0x24, 0), (0x2E, 1), (0x01, 0), (0x09, 1):
        size = book.scope.fixed[kind][0]
        for mode in 8, 9:
            book.note(f"nulls, mode {mode}: block type {kind:02X}h, 100h as the type, as the first and as the last word of data")
            for at in 0, 1, size - 1:
                book.new(2 * rate, mode)
                book.open(block=kind)
                book.data(0, book.area(0))
                book.words(0, [byte_form(5)])
                book.words(at, [NULL])
                book.step("close")
                book.read()
                book.step("view")


# ---- under allowances (02, Item 10)


def paused(book):
    """A null and a block behind it, from place 3 on; allowances that end on each of the null's words, just behind it, and on the block's end."""
    words = [*null(4, 5, 6), *whole(9, 1, 2)]
    for system, mode in EACH:
        for a in range(1, len(words) + 2):
            book.note(f"nulls, system {system}, mode {mode}: an allowance that ends {a} words from where a null begins")
            book.new(system, mode)
            laid(book, 3, words, a % 2)
            under(book, 3, 2)  # begun, and the words before the null
            under(book, a, 1)
            under(book, 0, 1)
            under(book, 1, 1)
            under(book, MOST)
        book.step("view")


def paused_in_slices(book):
    """Nulls in slices: over a line's end, and to the area's last word; with each allowance one call or more pauses in them."""
    words = null(4, 5, 6)
    for system, mode in EACH:
        for a in (1, 2, 3, len(words)):
            book.note(f"nulls, system {system}, mode {mode}: in slices of {a}, over a line's end and to an area's end")
            for k in (a, 5, 8):
                book.new(system, mode, 524)
                laid(book, book.area(1) - k, words[:k], 1)
                under(book, book.area(1) - k, 2)
                under(book, a)
                laid(book, 0, [*words[k:], *null(), *whole(9, 1), *null(7, 8)], 1)
                under(book, a, 40)
                under(book, MOST)
            laid(book, book.area(0) - len(words), words)
            under(book, book.area(0) - len(words), 2)
            under(book, a)
        book.step("view")


def paused_at_faults(book):
    """The word that drops a null, and 100h that drops a block in 8-bit mode: one before the last word allowed, the last, one behind it."""
    for mode in 8, 9:
        for k, (reason, before, cause) in enumerate(CAUSES):
            if cause == 0x201:
                continue  # no 8-bit line has it
            book.note(f"nulls, mode {mode}: drop {reason}, or a value, and allowances that end beside it")
            for more in (-1, 0, 1):
                book.new(k % 4, mode)
                laid(book, 700, [*before, cause, 0x200])
                under(book, 700, 2)
                under(book, len(before) + 1 + more, 1)
                under(book, 1, 1)
                under(book, MOST)


def paused_at_places(book):
    """Null places beside others: each counts as one, whatever its data are."""
    for system, mode in EACH:
        for a in (1, 2, 3):
            book.note(f"nulls, system {system}, mode {mode}: null places, allowance {a}")
            for first in (0, 1):
                book.new(system, mode)
                laid(book, 5 * first, [*PLACES[0][:3], NULL, NULL, *PLACES[1][:4], 0x200, *PLACES[9], *PLACES[9], *PLACES[2]], block=0x21)
                under(book, a, 3)
                under(book, 0, 1)
                under(book, a, 4)
                under(book, MOST)
        book.step("view")


PARTS = [behind, split, causes, long_nulls, left, put_states, fixed, paused, paused_in_slices, paused_at_faults, paused_at_places]


# ---- what the rows hold


def is_null(phase):
    return phase[0] in ("count", "data") and phase[1] == NULL


def of_call(before, ended, reader, event):
    """What a reading call made of nulls: the phase and the number of nulls ended before it, the reader after it, and the event."""
    mode, name = reader.mode, event[0]
    if is_null(before) and name in ("begun", "refused"):
        yield "null", mode, name, event[-1]
    if is_null(reader.phase) and name == "end":
        yield "null left", mode, len(reader.phase) if reader.phase[0] == "count" else "data"
    if reader.nulls > ended:
        yield "null ended", mode, name
    if name == "drop" and reader.dropped_null and reader.settings[2] == VARIABLE:
        yield "null dropped", mode, event[1]


def of_pause(ended, reader, line, event, consumed):
    """Where an allowance ended in a null or at it: how many nulls had ended before the call, the reader after it, and what it met."""
    if event is not None or not consumed:
        return
    start, end, size = reader.sizes()
    mode, here = reader.mode, start + reader.place
    if reader.settings[2] != VARIABLE:
        if line[here - size] == NULL:
            yield "pause at a null place", mode, consumed
        return
    if is_null(reader.phase):
        yield "pause in a null", mode, *([len(reader.phase)] if reader.phase[0] == "count" else ["data", reader.phase[3]])
        if reader.place == end:
            yield "pause in a null", mode, "at the area's end"
    if reader.nulls > ended:
        yield from (("pause at a null's end", mode, k) for k in (1, 2) if line[here - k] == 0x30A)


def asked():
    for mode in 8, 9:
        yield from (("null", mode, name, True) for name in ("begun", "refused"))
        yield "null", mode, "begun", False
        yield from (("null left", mode, part) for part in (2, 3, 4, 5, "data"))
        yield from (("null ended", mode, name) for name in ("block", "end", "drop"))
        yield from (("null dropped", mode, reason) for reason in (1, 3, 4, 5, 6))
        yield from (("pause in a null", mode, *part) for part in [(2,), (3,), (4,), (5,), ("data", 0), ("data", 1), ("data", 3), ("at the area's end",)])
        yield from (("pause at a null's end", mode, k) for k in (1, 2))
        yield "pause at a null place", mode, 1
    yield "null dropped", 8, 7
    yield from (("drop", 8, 7, where) for where in ("first", "middle", "last"))
