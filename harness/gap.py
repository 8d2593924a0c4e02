"""Cases of the packets in a line's gap: laid, refused, listed, and spoiled; and what a run has to have met of them."""
from packets import FLAG, packet
from states import USED, WRITER
from words import VARIABLE, byte_form, settings

EACH = [(system, mode) for system in range(4) for mode in (8, 9)]
DIDS = [0x00, 0x40, 0x7F, 0x80, 0xFF]  # below 80h the second word is an SDID, from 80h on a block number


class Line:
    """A line of a fresh writer, and its gap."""

    def __init__(self, book, system, mode, flag=1, number=20):
        self.book = book
        length, payload, _ = book.scope.systems[system]
        self.gap, self.sav = length - payload - 61, length - payload - 4
        self.values = settings(book.scope.code(system), 0, VARIABLE, flag, 77)
        book.fresh(system, mode)
        self.begin(number)

    def begin(self, number):
        self.book.begin(number, self.values)

    def pack(self, did, second, count, seed, place=None, value=0):
        """A packet of values made from a seed, with one of them changed, or none."""
        book = self.book
        book.step("Room", 0, count, 29, seed)
        if place is not None:
            book.step("Room", place, 1, 0, value)
        book.step("Gap", book.length, did, second, count)
        book.step("Tell", WRITER)

    def lay(self, index, words):
        """Words of the gap, by its own index, laid by nobody's call."""
        for k, word in enumerate(words):
            self.book.step("index", 57 + index + k, word)

    def end(self, *others):
        self.book.end()
        self.find(*others)

    def find(self, *others):
        """Listed, in a room of the gap's length or of another, and read: SDTI reading goes on as if the gap were not there."""
        book = self.book
        for room in (self.gap, *others):
            book.step("Room", 0, 400, 3, 5)
            book.step("Find", book.length, book.system, book.mode, room)
        book.step("Room", 0, 400, 3, 6)
        book.step("Find", book.length, book.system, book.mode, self.gap)


def laid(book):
    """None; packets before, between and behind additions, and of each DID; a block unfinished over the line's end; the next line has none."""
    for system, mode in EACH:
        book.note(f"packets, system {system}, mode {mode}: none, some between additions, and over a line's end")
        Line(book, system, mode).end()
        line = Line(book, system, mode, mode % 2)
        for k, did in enumerate(DIDS):
            line.pack(did, 255 - did, k, 30 + k)
            if k % 2:
                book.add(k, 20 * k, 50 + k)
        book.add(9, 3000, 60)
        line.pack(0x60, 0x60, 9, 61)
        line.end(line.gap - 1, line.gap + 1, 0)
        line.begin(21)
        book.add(9, 3000, 60)
        line.pack(0x61, 0x01, 1, 62)
        line.end()
        book.step("Words", 57, 20)


def filled(book):
    """To the gap's last word, and one more; one and two words left; 255 user words."""
    for system, mode in EACH:
        book.note(f"packets, system {system}, mode {mode}: the gap filled, with 0 to 7 words left")
        for left in 0, 1, 2, 3, 6, 7:
            line = Line(book, system, mode)
            line.pack(0x41, 0x07, 100, 70)
            line.pack(0x41, 0x07, line.gap - 107 - 7 - left, 71)
            line.pack(0x42, 0x08, 0, 72)  # 24, but with 7 words left
            line.pack(0x42, 0x08, 1, 73)
            line.end()
        line = Line(book, system, mode)
        line.pack(0xF0, 1, 255, 74)
        line.pack(0xF1, 2, line.gap - 262 - 7 if line.gap > 269 else 0, 75)
        line.end()


def refused(book):
    """1, 2, 17, 18, 20 and 24, and those of two conditions."""
    for system, mode in EACH:
        book.note(f"packets, system {system}, mode {mode}: refusals")
        line = Line(book, system, mode)
        line.pack(1, 1, 5, 80, 2, 512)  # 17
        line.pack(1, 1, 5, 80, 2, 511)
        line.pack(1, 1, 5, 80, 2, 65535)  # 17
        line.pack(1, 1, 256, 81)  # 18
        line.pack(1, 1, 256, 81, 255, 600)  # 17 before 18
        line.pack(1, 1, 255, 82)  # 24, or fits
        line.pack(1, 1, 255, 82)  # 24
        book.step("Gap", book.length - 1, 1, 1, 0)  # 1
        line.end()
        line.pack(1, 1, 0, 83)  # 20
        line.pack(1, 1, 255, 83)  # 20 before 24
        for used, open_now in (line.gap, 1), (line.gap - 6, 1), (line.gap - 7, 1), (line.gap + 1, 1), (line.gap + 1, 0), (65535, 0):
            book.step("Put", WRITER, 3, 20 + USED * used)
            book.step("Put", WRITER, 4, open_now, 0)
            book.step("Impossible")
            line.pack(1, 1, 0, 84)
        book.fresh(system, mode)
        book.step("Put", WRITER, 3, USED * (line.gap + 1))  # no last number, no line open
        book.step("Impossible")
        line.pack(1, 1, 0, 85)
        line.begin(20)
        book.step("new", system, 7)
        line.pack(1, 1, 0, 86)  # 1
    book.step("new", 4, 8)
    book.step("Gap", 1716, 1, 1, 0)


def spoiled(book):
    """Packets that nobody of ours laid: flags at the gap's end, counts that run past it, words out of form, checksums."""
    for system, mode in (0, 8), (1, 9), (2, 9), (3, 8):
        book.note(f"packets, system {system}, mode {mode}: bad ones, by 21, 22 and 23, and a good one behind")
        line = Line(book, system, mode)
        line.end()
        good = packet(0x45, 0x02, [1, 300, 511])
        behind = packet(0x46, 0x03, [7])
        end = line.gap
        for at, words in (
            (end - 3, FLAG),  # 21
            (end - 6, FLAG + [byte_form(1), byte_form(2), byte_form(0)]),  # 21: no place for the checksum
            (end - 2, FLAG[:2]),  # and SAV's 3FFh behind: no flag
            (end - 7, packet(0x50, 0x05, [])),
            (end - 8, packet(0x50, 0x05, [])),
        ):
            line.begin(20)
            line.book.end()
            line.lay(at, words)
            fill = packet(0x47, 0x01, [5] * min(255, at - 7))
            line.lay(0, fill + (packet(0x47, 0x01, [6] * (at - len(fill) - 7)) if at > len(fill) else []))
            line.find()
        for place, word in (
            (0, 0x200),  # no flag
            (2, 0x3FE),  # no flag
            (3, 0x100 | good[3] & 0xFF ^ 0x100),
            (3, good[3] ^ 0x300),  # 22
            (4, good[4] ^ 1),  # 22
            (5, 0x003),  # 22: the count points inside
            (5, 0x0FF),  # 21 or 22: it points far
            (5, 0x400 + 3),  # 22
            (5, byte_form(250)),  # 21, or 22
            (6, 0x000),  # 22
            (7, 0x3FF),  # 22
            (8, 0x400 | good[8]),  # 22
            (8, good[8] ^ 1),  # 23
            (9, good[9] ^ 0x200),  # 22
            (9, good[9] ^ 1),  # 23
        ):
            line.begin(20)
            book.end()
            first = packet(0x44, 0x01, [9, 9])
            line.lay(0, first + good + behind)
            line.lay(len(first) + place, [word])
            line.find()
        line.begin(20)
        book.end()
        line.lay(0, good + behind)
        book.step("index", 56, 0x200)  # 6: nothing is listed
        line.find()
        book.step("index", 1, 5)  # 3
        line.find()
        book.step("Find", book.length - 1, system, mode, line.gap)
        book.step("Find", book.length, system, 7, line.gap)
        book.step("Find", book.length, 4, mode, 0)


def asked(scope):
    """What a run has to have met."""
    for system, mode in EACH:
        yield from (("packed", system, mode, n) for n in (0, 1, 2, 17, 18, 20, 24) if n != 1)
    for system in scope.systems:
        yield from (("listed", system, 0, stop) for stop in (0, 21, 22, 23))
        yield from (("listed", system, fault, 0) for fault in (1, 3, 6))
        yield from (("packets", system, n) for n in range(4))


PARTS = [laid, filled, refused, spoiled]
