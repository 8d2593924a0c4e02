"""Cases of the CRC that the writer's state keeps: right numbers after each call, wrong ones put, and what closing makes of them."""
from kinds import LONG
from put import state
from states import SETTINGS, WRITER
from words import ALL_ONES, VARIABLE, byte_form, settings

CRC = 10  # its place in a state's numbers
SHORT = [0, 0x155AA, ALL_ONES]  # numbers of 18 bits, right or wrong


class Line:
    """A line of a fresh writer. Each call is followed by the whole state."""

    def __init__(self, book, system, mode, flag, block=VARIABLE, number=20):
        self.book, self.flag = book, flag
        self.values = settings(book.scope.code(system), 0, block, flag, 91)
        book.fresh(system, mode)
        self.begin(number)

    def tell(self):
        self.book.step("Tell", WRITER)

    def begin(self, number):
        self.book.begin(number, self.values)
        self.tell()

    def add(self, kind, count, seed, *changed):
        self.book.add(kind, count, seed, *changed)
        self.tell()

    def put(self, crc):
        self.book.step("Put", WRITER, CRC, crc)

    def end(self):
        """Closed, the last words shown, and the line checked: 16 where the two words are not those of the area."""
        book = self.book
        book.end()
        self.tell()
        book.step("Words", book.length - 4, 4)
        book.step("Line", book.length, book.system, book.mode)


EACH = [(system, mode, flag) for system in range(4) for mode in (8, 9) for flag in (1, 0)]


def kept(book):
    """Closed at once; some words laid, with refusals between; full; unfinished at the area's end, and the next line; a fixed line with empty places."""
    for system, mode, flag in EACH:
        book.note(f"running CRC, system {system}, mode {mode}, flag {flag}: closed at once, with some words, full, unfinished, fixed")
        Line(book, system, mode, flag).end()
        line, area = Line(book, system, mode, flag), book.area(flag)
        line.add(1, 3, 5)
        line.add(1, 3, 5, 2, 512)  # 17
        line.add(256, 3, 5)  # 18
        book.begin(21, line.values)  # 20
        line.tell()
        line.add(2, 100, 6)
        line.end()
        line = Line(book, system, mode, flag)
        line.add(1, 0, 5)
        line.add(1, area - 14, 5)
        line.add(1, 0, 5)  # 19
        line.end()
        line = Line(book, system, mode, flag)
        line.add(3, area, 7)
        line.end()
        line.begin(21)
        book.end()  # 20
        line.tell()
        line.add(3, area, 7)
        line.end()
        line = Line(book, system, mode, flag, 0x24)
        line.end()
        line.begin(300)
        for k in range(3):
            line.add(k + 1, 16, k)
        line.end()


def wrong(book):
    """A number put, or a word of the line changed, before the line is closed: what is written is of the number put."""
    for system, mode in (0, 8), (1, 9), (2, 8), (3, 9):
        for flag in 1, 0:
            book.note(f"running CRC, system {system}, mode {mode}, flag {flag}: numbers put, and a word changed by others")
            for block, count in (VARIABLE, 3), (0x24, 16):
                for crc in SHORT:
                    line = Line(book, system, mode, flag, block)
                    line.add(1, count, 5)
                    line.put(crc)
                    line.end()
                line = Line(book, system, mode, flag, block)
                line.put(SHORT[1])
                line.add(1, count, 5)
                book.step("index", book.length - 9, byte_form(7))
                line.end()
            line = Line(book, system, mode, flag)
            line.put(SHORT[1])
            line.end()
            line.begin(21)  # which makes it right again
            line.end()


def overlong(book):
    """Above 18 bits: 2 for each call, with or without a line, a last number or a block; 1 where the system or mode is unknown."""
    cases = [{"last": (0, 0), "place": (0, 0)}, {"place": (0, 0)}, {}, {"flag": 1}, {"block": 0x24, "place": (1, 17)}, {"place": (0, 0), "five": (1, 7, 10, 5, 0)}]
    for system, mode in (0, 8), (1, 9), (2, 8), (3, 9):
        book.note(f"running CRC, system {system}, mode {mode}: numbers above 18 bits, and the last that is not")
        book.fresh(system, mode)
        for case in cases:
            numbers = state(book, **case)
            book.head(numbers[SETTINGS:])
            for crc in [ALL_ONES, *LONG]:
                numbers[CRC] = crc
                for call in lambda: book.step("Open", book.length, 21, 1), lambda: book.add(7, 10 if numbers[6] else 16, 5), book.end:
                    book.step("Put", WRITER, 0, *numbers)
                    call()
                    book.step("Tell", WRITER)
                book.step("Put", WRITER, 0, *numbers)
                book.step("Impossible")
    book.note("running CRC: unknown systems and modes, 1")
    for system, mode in (4, 8), (0, 7):
        book.fresh(system, mode, 1716)
        for crc in ALL_ONES, *LONG:
            book.step("Put", WRITER, CRC, crc)
            book.step("Open", book.length, 21, 1)
            book.add(7, 10, 5)
            book.end()
            book.step("Tell", WRITER)


PARTS = [kept, wrong, overlong]
