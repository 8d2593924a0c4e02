"""02, Item 9: many blocks in one call. What it does, written from 02 and not from our code; and its cases."""
import itertools

from put import state
from states import WRITER
from words import VARIABLE, settings
from writer import DONE, UNFINISHED

MOST = 20010  # words of a list, as the step lends it
BROKEN = 28


def entries(words):
    """Type and values of each block; None where one is broken off, and then nothing more."""
    while words:
        if len(words) < 2 or len(words) - 2 < words[1]:
            yield None
            return
        kind, n = words[:2]
        yield kind, words[2 : 2 + n]
        words = words[2 + n :]


def add_list(writer, words, line):
    """How many were finished, and DONE, UNFINISHED or the number of a refusal."""
    fault = writer.refused(line)
    if fault:
        return 0, fault
    finished = 0
    for entry in entries(words):
        given = BROKEN if entry is None else writer.add(*entry, line)
        if given != DONE:
            return finished, given
        finished += 1
    return finished, DONE


# What has to be met: the answers, and what 02 says of each


def met(before, length, words, finished, given):
    """What a call was, by the state before it, the list and the answer."""
    yield "batched", "mode", before.mode, given
    yield "batched", "system", before.system, given
    place = "shut" if before.place is None else "open"
    if given > 2 and before.place is not None and before.place == before.sizes()[1]:
        place = "full"
    yield "list", "empty" if not words else "of words", place, given
    if given == BROKEN:
        left = words[sum(2 + len(values) for _, values in itertools.islice(entries(words), finished)) :]
        yield "list", "broken off", "one word" if len(left) == 1 else "by one" if left[1] == len(left) - 1 else "by more", place
    if len(words) > 1 and words[1] == 20000:
        yield "list", "20,000", given
    if before.rest and words:
        yield "list", "unfinished before", finished > 0, given
    if words and words[0] == 256:
        yield "list", "type 100h", place, given
    if len(words) > 1 and words[1] == 0 and finished:
        yield "list", "no values", given
    if before.settings and before.settings[2] != VARIABLE and before.place is not None:
        yield "list", "fixed", finished > 0, given


def asked(scope):
    yield from (("batched", "mode", mode, given) for mode in (8, 9) for given in (DONE, UNFINISHED, 1, 2, 17, 18, 19, 20, BROKEN))
    yield from (("batched", "system", system, given) for system in scope.systems for given in (DONE, UNFINISHED, 2, 19, BROKEN))
    yield from (("list", "empty", place, given) for place, given in [("shut", 0), ("open", 0), ("shut", 1), ("open", 1), ("shut", 2), ("open", 2)])
    yield from (("list", "of words", "shut", given) for given in (1, 2, 17, 18, 20, BROKEN))
    yield from (("list", "of words", "full", given) for given in (17, 18, 19, BROKEN))
    yield from (("list", "broken off", how, place) for how in ("one word", "by one", "by more") for place in ("shut", "open", "full"))
    yield from (("list", "20,000", given) for given in (17, 18, BROKEN))
    yield from (("list", "unfinished before", *x) for x in [(True, 0), (True, 100), (True, 19), (False, 100), (False, 17), (False, 18), (False, 20), (False, BROKEN)])
    yield from (("list", "type 100h", place, 18) for place in ("shut", "open", "full"))
    yield ("list", "no values", 0)
    yield from (("list", "fixed", *x) for x in [(True, 0), (True, 18), (True, 19), (True, BROKEN), (False, 18), (False, 19)])


# The cases


class Cases:
    """A line of a fresh writer, and lists lent to it. Each call is followed by the whole state."""

    def __init__(self, book, system, mode, flag=0, block=VARIABLE):
        self.book, self.seed = book, 100 * system + mode
        self.values = settings(book.scope.code(system), 0, block, flag, 92)
        book.fresh(system, mode)

    def begin(self, number=20):
        self.book.begin(number, self.values)

    def put(self, *entries):
        """The list in the room; an entry is a type, a length and as many values, or as many as are said third."""
        at = 0
        for kind, *rest in entries:
            self.book.step("Room", at, 1, 0, kind)
            at += 1
            if rest:
                self.book.step("Room", at, 1, 0, rest[0])
                self.seed += 1
                self.book.step("Room", at + 1, rest[-1], 28 if self.book.mode == 8 else 29, self.seed)
                at += 1 + rest[-1]
        return at

    def call(self, count, length=None):
        self.book.step("Batch", self.book.length if length is None else length, count)
        self.book.step("Tell", WRITER)

    def lend(self, *entries):
        self.call(self.put(*entries))

    def spoiled(self, index, *entries):
        """With a value above 511."""
        count = self.put(*entries)
        self.book.step("Room", index, 1, 0, 512)
        self.call(count)

    def end(self):
        self.book.end()
        self.book.step("Line", self.book.length, self.book.system, self.book.mode)


EACH = [(system, mode, (system // 2 + mode) % 2) for system in range(4) for mode in (8, 9)]


def edges(cases):
    """Lists that break off, or whose first entry is refused, whatever line there is."""
    cases.lend()
    cases.lend((5,))
    cases.lend((5, 4, 3))
    cases.lend((5, 4, 1))
    cases.lend((5, 65535, 9))
    cases.lend((256, 3))
    cases.spoiled(4, (5, 4))
    cases.lend((5, 0))


def refusals(book):
    """1 and 2, also of an empty list; no line open; a line that is full."""
    for system, mode, flag in EACH:
        book.note(f"lists, system {system}, mode {mode}, flag {flag}: 1 and 2, none open, a full line")
        cases = Cases(book, system, mode, flag)
        edges(cases)
        for length in 0, book.length - 1:
            cases.call(0, length)
            cases.call(cases.put((5, 3), (6, 3)), length)
        cases.begin()
        cases.call(0, book.length - 1)
        cases.lend((1, book.area(flag) - 7))
        edges(cases)
        cases.end()
        numbers = state(book, place=(1, 5), last=(1, 0))
        for change in [], [(4, 0)]:
            book.step("Put", WRITER, 0, *numbers)
            for index, value in change:
                book.step("Put", WRITER, index, value)
            cases.lend()
            cases.lend((5, 3))
            cases.lend((5,))
    for system, mode in (4, 8), (0, 7):
        book.fresh(system, mode, 1716)
        for count in 0, 1, 5:
            book.step("Batch", book.length, count)
            book.step("Tell", WRITER)


def laid(book):
    """Several blocks; exactly full, and one more; unfinished, and the same block first in the next line, with others behind it; another type, another length."""
    for system, mode, flag in EACH:
        book.note(f"lists, system {system}, mode {mode}, flag {flag}: laid, full, unfinished, gone on with")
        area = book.scope.systems[system][1] - 2 * flag
        cases = Cases(book, system, mode, flag)
        cases.begin()
        edges(cases)
        cases.lend((0, 0), (1, 3), (255, 100))
        cases.spoiled(12, (1, 3), (2, 3), (3, 3), (4, 3))  # a value of the third
        cases.lend((1, 0), (2, 4), (256, 4), (3, 4))
        cases.lend((1, 0), (2, 4), (3,))
        cases.end()
        cases.begin(21)
        cases.lend((1, 10), (2, area - 24))
        cases.lend()
        cases.end()
        cases.begin(22)
        cases.lend((1, 10), (2, area - 24), (3, 0))
        cases.end()
        for behind in [], [(4, 9, 2)], [(300, 1)]:
            cases.begin(23)
            cases.lend((1, 10), (9, area), *behind)
            cases.lend((9, area))
            cases.end()
            cases.begin(24)
            cases.lend((8, area))
            cases.lend((9, area - 1))
            cases.lend((9, area, 7))
            cases.lend((9,))
            cases.spoiled(40, (9, area))
            cases.lend((9, area), (3, 5), (4, 5))
            cases.end()
        cases.begin(23)
        cases.lend((9, 2 * area - 7))
        cases.end()
        cases.begin(24)
        cases.lend((9, 2 * area - 7), (1, 3))  # which ends with the line: 19
        cases.end()
        cases.begin(25)
        cases.lend((9, 3 * area))
        cases.end()
        cases.begin(26)
        cases.lend((9, 3 * area), (1, 3))
        cases.end()
        cases.begin(27)
        cases.lend((9, 3 * area), (1, 3))
        cases.end()
        cases.begin(28)
        cases.lend((9, 3 * area), (1, 3), (2, area))
        cases.end()


def fixed(book):
    """Places of a fixed line: some, all, one more; a wrong length, type 00h, an entry broken off."""
    for system, mode, flag in EACH:
        size, *places = book.scope.fixed[0x2A]
        n, all_places = size - 1, places[system // 2]
        book.note(f"lists, system {system}, mode {mode}, flag {flag}: a fixed line")
        cases = Cases(book, system, mode, flag, 0x2A)
        for number, many in (20, all_places), (21, all_places + 1), (22, 2):
            cases.begin(number)
            cases.lend(*((k + 1, n) for k in range(many)))
            edges(cases)
            cases.lend((1, n), (2, n - 1))
            cases.lend((1, n), (0, n))
            cases.lend((1, n), (2, n, n - 1))
            cases.end()


def long(book):
    """n 20,000, with as many values and with fewer; 16,384 and 16,385."""
    for system, mode in (0, 8), (3, 9):
        book.note(f"lists, system {system}, mode {mode}: 20,000 values and fewer, 16,384 and 16,385")
        cases = Cases(book, system, mode)
        cases.begin()
        cases.put((7, 20000, 16383))
        for count in 20002, 20001, 20010, 16385:
            cases.call(count)
        cases.spoiled(9, (7, 20000, 16383))
        book.step("Room", 9, 1, 0, 512)
        cases.call(20002)
        cases.put((7, 16385, 16383))
        cases.call(16387)
        cases.put((7, 16384, 16383))
        cases.call(16386)
        cases.end()


def any_words(book):
    """Lists of words from a seed: entries of any type and length."""
    for system, mode, flag in EACH:
        book.note(f"lists, system {system}, mode {mode}, flag {flag}: of any words")
        cases = Cases(book, system, mode, flag)
        for k in range(6):
            cases.begin(20 + k)
            book.step("Room", 0, 3000, (28, 29, 2)[k % 3], 7 * system + k)
            for count in 200 * k + 57, 3000:
                cases.call(count)
            cases.end()


PARTS = [refusals, laid, fixed, long, any_words]
