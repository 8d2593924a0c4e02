"""Cases of reading under an allowance (02, Item 10): what a call consumes and where it pauses, event by event and word by word."""
from book import ROOM, whole
from words import VARIABLE, block_head, byte_form

MOST = 10**9  # above every area


def under(book, allowance, times=2000, below=0, length=None, room=ROOM):
    """Calls with that allowance, or with so much below 2^64 - 1."""
    book.step("under", times, length or book.scope.systems[book.system][0], room, allowance, below)


def laid(book, place, words, flag=0, block=VARIABLE, **how):
    """A line with these words, closed, and not read."""
    book.open(flag=flag, block=block, **how)
    book.words(place, words)
    book.step("close")


EACH = [(system, mode) for system in range(4) for mode in (8, 9)]


def on_events(book):
    """Allowances that end before, on and behind the word that hands a block out or drops it; a line's first call among them."""
    block, drop = whole(7, 1, 2), block_head(3, 5)[:2] + [0x309]
    for system, mode in EACH:
        for words in block, drop:
            for a in (len(words) - 1, len(words), len(words) + 1, 1, 0):
                book.note(f"system {system}, mode {mode}: {len(words)} words to an event, allowance {a}")
                book.new(system, mode)
                laid(book, 0, words)
                under(book, a, 1)  # begun; with 0 paused
                under(book, a, 2)
                under(book, a, 5)
                under(book, 0, 1)
                book.read()
        book.step("view")


def at_the_end(book):
    """The last words of an area: a used-up allowance pauses before the end; then the end costs nothing, and 0 pauses for ever."""
    for system, mode in EACH:
        for flag in (0, 1):
            book.note(f"system {system}, mode {mode}, flag {flag}: allowances up to the area's end")
            book.new(system, mode)
            area = book.area(flag)
            for a in (area - 1, area, area + 1):
                book.new(system, mode)
                laid(book, area - 3, block_head(5, 9)[:3], flag)
                under(book, 1, 1)
                under(book, a, 1)
                under(book, 0, 2)
                under(book, 1, 1)
                under(book, 1, 1)
            for a, below in (area, 1), (0, 1), (MOST, 0):
                laid(book, area - 10, whole(9, 1, 2, 3), flag)
                under(book, a, 4, below)
        book.step("view")


def fixed_lines(book):
    """A place counts as one, an empty one too; the filler behind the last counts for nothing."""
    for system, mode in EACH:
        size, *places = book.scope.fixed[0x21]
        n = places[system // 2]
        words = [byte_form(4), *map(byte_form, (1, 2, 3, 4))]
        for a in (1, 2, n - 1, n, n + 1, MOST):
            book.note(f"system {system}, mode {mode}: {n} places of {size} words, allowance {a}")
            book.new(system, mode)
            laid(book, 0, [], block=0x21)
            under(book, a, 1)
            under(book, a, 2)
            under(book, 0, 1)
            under(book, n - 4, 1)
            under(book, 1, 3)
            laid(book, 2 * size, words + [0x200] * size + words, block=0x21)
            book.step("at", 0, 0)
            under(book, a, 1)
            under(book, a, 4)
            under(book, MOST)
        book.note("a type word that is not in byte form: a drop, and one place")
        book.new(system, mode)
        laid(book, 0, [], block=0x21)
        under(book, 1, 1)
        book.words(size, [0x300])
        under(book, 2, 1)
        book.words(3 * size, [0x300])
        under(book, 9, 1)
        under(book, n - 4, 1)
        under(book, 0, 1)
        under(book, 1, 1)
        for kind in (0x37, 0x38, 0x04):
            laid(book, 0, [], block=kind)
            under(book, 3)
        book.step("view")


def refusals(book):
    """1 and 2 before the allowance; 0 before a refused line; with any other it is refused, and nothing is consumed."""
    for system, mode in EACH:
        length = book.scope.systems[system][0]
        for a in (0, 1, MOST):
            book.note(f"system {system}, mode {mode}, allowance {a}: refusals")
            book.new(system, mode)
            laid(book, 0, whole(7, 1))
            under(book, a, 1, length=length - 1)
            under(book, a, 1, room=ROOM - 1)
            book.step("at", 1, 5)
            under(book, a, 1)  # a line begun and no last number
            book.step("at", 0, 0)
            under(book, a, 2)
            book.read()
            book.step("index", 0, 0)
            under(book, a, 1)
            under(book, a, 1)
    for changed in range(1, 7):
        book.note(f"an open phase, {changed}, over a refused line")
        book.new(0, 8)
        laid(book, 0, [])
        book.read()
        book.step("phase", changed, 7, 5, 1)
        book.open()
        book.step("close")
        book.step("index", 0, 0)
        under(book, 0, 1)
        under(book, 1, 1)


def slices(book):
    """Lines of mixed words in slices, over lines' ends; and a block of 16,384 values."""
    for k, (system, mode) in enumerate(EACH):
        for a in (7, 64, 1000):
            flag = k % 2
            book.note(f"system {system}, mode {mode}: mixed words in slices of {a}")
            book.new(system, mode)
            for _ in range(2):
                book.open(flag=flag)
                book.seed += 1
                book.step("mix", 0, book.area(flag), book.seed)
                book.step("close")
                for times in (2, 3, 3000):
                    under(book, a, times)
            book.step("view")
    for system, mode in (0, 8), (3, 9):
        book.note(f"system {system}, mode {mode}: a block of 16,384 values in slices of 333")
        book.new(system, mode, 500)
        for part in range(-(-16391 // book.area(0))):
            book.open()
            if part == 0:
                book.words(0, block_head(9, 16384))
            first = 6 if part == 0 else 0
            many = min(book.area(0) - first, 16390 - part * book.area(0) - first)
            book.data(first, many)
            if many < book.area(0) - first:
                book.words(first + many, [0x30A])
            book.step("close")
            under(book, 333)
        book.step("view")


def longest(book):
    """A reader that awaits a type is lent a line of nothing but 309h: P + 2 calls; with allowance 1 no call pauses but the last before the end."""
    for system, mode in (0, 8), (1, 9), (2, 9), (3, 8):
        length, payload, _ = book.scope.systems[system]
        book.note(f"system {system}, mode {mode}: {payload} times 309h")
        book.new(system, mode)
        book.left_open([0x309])
        book.open()
        book.step("Make", length - payload, payload, 0, 0x309)
        book.step("close")
        if system % 2:
            book.read(payload + 1)
            book.read(1)
        else:
            under(book, 1, payload + 1)
            under(book, 1, 1)


PARTS = [on_events, at_the_end, fixed_lines, refusals, slices, longest]
