"""Cases of lists, headers and the line check."""
from states import BUFFER
from words import FILLER, VARIABLE, byte_form, checksum, crc_of, made, opened_line, settings

SAME, ANY, TEN_BITS, BYTE_FORM, DATA_FORM = 0, 2, 3, 8, 9  # kinds of words, as over `made` in harness/steps.c


# The CRC and the checksum


def a_list(book, kind, count, seed):
    book.step("Room", 0, count, kind, seed)
    book.step("Sum", 0, count)


def lists(book):
    book.note("CRC and checksum of lists")
    a_list(book, SAME, 1438, FILLER)
    a_list(book, SAME, 1918, FILLER)
    # as long as what the CRCs of a line cover
    for kind, count in (BYTE_FORM, 5), (BYTE_FORM, 40), (DATA_FORM, 5), (DATA_FORM, 40), (DATA_FORM, 1438), (DATA_FORM, 1918), (TEN_BITS, 1918), (ANY, 1438):
        for k in range(6):
            a_list(book, kind, count, k * 715827882 + 1)
    for kind in TEN_BITS, ANY:
        for count in range(61):
            a_list(book, kind, count, count * 70368744 + kind)


# Headers

HEADERS = [
    (1, 1, 0, 0xC1, 0, 1),
    (2, 1, 0, 0xC1, 1, 2),
    (3, 1, 1, 0xC1, 0, 3),
    (20, 1, 1, 0x01, 1, 4),
    (127, 2, 0, 0x02, 0, 5),
    (128, 2, 0, 0x09, 1, 6),
    (254, 2, 1, 0x21, 0, 7),
    (255, 2, 1, 0x21, 1, 8),
    (256, 1, 0, 0x77, 0, 1000000007),
    (257, 1, 0, 0x61, 1, 1000000008),
    (263, 1, 1, 0x38, 0, 1000000009),
    (312, 1, 1, 0x24, 1, 1000000010),
    (511, 2, 0, 0xC1, 0, 3000000000),
    (512, 2, 0, 0x77, 1, 3000000001),
    (513, 2, 1, 0x41, 0, 3000000002),
    (524, 2, 1, 0xC1, 1, 3000000003),
    (525, 1, 0, 0xC1, 0, 4294967292),
    (525, 2, 1, 0x01, 1, 4294967293),
    (625, 1, 0, 0x21, 0, 4294967294),
    (625, 2, 1, 0xC1, 1, 4294967295),
    (1023, 15, 15, 0xFF, 0xFF, 0),  # no line has these, and the words are still those of the rule
]


def headers(book):
    book.note("headers")
    for number, *values in HEADERS:
        book.head(settings(*values))
        book.step("Header", number)
    book.note("headers with any bytes, reserved ones too")
    for seed in range(9):
        code, aai, *values = [u % 256 for u in made(seed, 41)]
        book.head([code % 16, aai % 16, *values])
        book.step("Header", made(seed + 100, 1)[0] % 1024)


# The line check

FITS = [(0, 8, 1716), (0, 9, 1716), (0, 8, 1715), (0, 8, 1717), (0, 8, 0), (0, 7, 1716), (0, 10, 1716), (1, 8, 1728), (1, 8, 1716)]
FITS += [(2, 9, 2288), (2, 9, 2304), (3, 9, 2304), (3, 9, 2305), (3, 0, 2304), (4, 8, 0), (4, 8, 1716), (255, 9, 2304)]


def fits(book):
    book.note("the check of words that are 0: what fits a system and a mode, and what nearly does")
    book.step("Make", 0, BUFFER, SAME, 0)
    for system, mode, length in FITS:
        book.step("Line", length, system, mode)


class Checked:
    """A line that the writer wrote, and then with one word changed after another. how: 0 nothing is mended; 1 the checksum; 2 the CRCs too."""

    def __init__(self, book, system, mode, block, flag, seed):
        self.book, self.system, self.mode, self.flag = book, system, mode, flag
        self.length, self.payload, _ = book.scope.systems[system]
        f, v, number = seed >> 1 & 1, seed >> 2 & 1, 1 + seed % 525
        values = settings(book.scope.code(system), seed & 1, block, flag, seed)
        book.note(f"checks, system {system}, mode {mode}, block type {block:02X}h, flag {flag}")
        book.fresh(system, mode)
        book.begin(number, values, f, v)
        book.end()
        self.good = opened_line(book.scope, system, f, v, number, values)
        if flag:
            self.good[-2:] = crc_of(self.good[self.start() : -2])
        self.stands = self.good

    def start(self):
        return self.length - self.payload

    def mended(self, line, how):
        if how == 2:
            line[12:14] = crc_of(line[7:12])
            line[54:56] = crc_of(line[14:54])
            if self.flag:
                line[-2:] = crc_of(line[self.start() : -2])
        if how:
            line[56] = checksum(line[7:56])
        return line

    def check(self, index=None, word=0, how=0):
        """The line as it was written, with a word changed."""
        line = self.good[:]
        if index is not None:
            line[index] = word
            line = self.mended(line, how)
        for i, (old, new) in enumerate(zip(self.stands, line)):
            if old != new:
                self.book.step("index", i, new)
        self.stands = line
        self.book.step("Line", self.length, self.system, self.mode)


def kind_of(k):
    """Block type, flag, mode and system by the bits of a number below 32."""
    return {"system": k >> 3, "mode": 8 + (k >> 2 & 1), "block": 0x21 if k & 1 else VARIABLE, "flag": k >> 1 & 1}


# Changes of the payload, from its start and from its end: index, word, what is mended
AREA = [(0, 0x000, 0), (0, 0x309, 0), (0, 0x309, 2), (1, 0x30A, 2), (2, 0x30B, 2), (3, 0x0FF, 2), (700, 0x101, 0), (700, 0x101, 2)]
AREA += [(700, 0x100, 0), (700, 0x100, 2), (700, 0x600, 2)]
END = [(3, 0x3FF, 2), (3, 0x2FF, 0), (2, 0x309, 0), (2, 0x101, 0), (1, 0x100, 0), (1, 0x600, 0)]

# Timing words, and words of the gap, at which nobody looks; from the line's start, and from the payload's
EAV = [(0, 0x3FE), (2, 0x400), (3, 0x200), (3, 0x274), (3, 0x3C4), (57, 0x000)]
SAV = [(-4, 0x000), (-1, 0x200), (-1, 0x2AC), (-1, 0x31C), (-1, 0x274), (-5, 0x3FF)]

HEAD = [
    # the first six words, and forms; 600h is 200h and a bit above the ten
    *[(4, 0x3FF, 0), (7, 0x240, 2), (9, 0x22F, 2), (10, 0x100, 2), (12, 0x3FF, 1), (20, 0x100, 2), (53, 0x600, 2), (55, 0x0FF, 1), (56, 0x000, 0)],
    # what the checksum and the CRCs cover, and these
    *[(56, 0x1AA, 0), (20, 0x2AA, 0), (10, 0x10D, 1), (12, 0x1AA, 1), (13, 0x255, 1), (20, 0x2AA, 1), (54, 0x1AA, 1), (55, 0x255, 1), (20, 0x2AA, 2)],
    # the line number, which was 520: 525, 526, 625, 626, and bits above
    *[(10, 0x10D, 2), (10, 0x10E, 2), (10, 0x271, 2), (10, 0x272, 2), (11, 0x203, 2), (11, 0x206, 2), (11, 0x282, 2)],
    # code and AAI
    *[(14, byte_form(x), 2) for x in (0x01, 0x12, 0x21, 0xF2, 0x00)],
    # the block type: not listed, none at 270, filling all words, with ECC, with B7
    *[(47, byte_form(x), 2) for x in (0x00, 0x05, 0x09, 0x37, 0x77, 0x38, 0x81, VARIABLE)],
    # flag and reserved
    *[(48, byte_form(x), 2) for x in (0x00, 0x01, 0x02, 0x80)],
    *[(49, 0x101, 2), (53, 0x180, 2)],
]


def checks(book):
    """Every kind of line, with changes of its payload; the head of every fifth, so that all systems, modes, flags and both block types come."""
    for k in range(32):
        line = Checked(book, seed=k * 134217727 + 1, **kind_of(k))
        line.check()
        for index, word, how in AREA:
            line.check(line.start() + index, word, how)
        for index, word, how in END:
            line.check(line.length - index, word, how)
    for k in range(0, 32, 5):
        line = Checked(book, seed=k * 131250525 + 519, **kind_of(k))
        for index, word in EAV + [(line.start() + i, w) for i, w in SAV]:
            line.check(index, word)
        for change in HEAD:
            line.check(*change)
        Checked(book, seed=k * 131250525 + 255, **kind_of(k)).check(11, 0x200, 2)  # the number was 256, and is 0


WORDS, PARTS = [lists, headers], [fits, checks]  # the first for `heard`, the others for the calls from C
