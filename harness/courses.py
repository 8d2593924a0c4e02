"""Cases of the writer's calls: whole courses of lines, and calls that are refused. A comment names the numbers that are to be given, and which others hold."""
from words import VARIABLE, settings


def unfit(book):
    for system, mode, length in (0, 7, 1716), (0, 10, 1716), (4, 8, 1716), (1, 8, 1716), (0, 8, 1715), (0, 9, 1717):
        book.note(f"writer, system {system}, mode {mode}, {length} words: 1, whatever else is wrong")
        book.fresh(system, mode, length)
        book.begin_by(0, 1, 0, VARIABLE, 0, 12345)
        book.add(256, 0, 5)
        book.end()


# Openings of a fresh writer of system 0 that are refused: number, code, AAI, block type, flag, reserved
REFUSED = [
    (0, 1, 0, 0xC1, 0, 0),
    (526, 1, 0, 0xC1, 0, 0),
    (20, 2, 0, 0xC1, 0, 0),
    (20, 1, 2, 0xC1, 0, 0),
    (20, 1, 0, 0x00, 0, 0),  # not listed
    (20, 1, 0, 0x09, 0, 0),  # none at 270
    (20, 1, 0, 0x37, 1, 0),  # fills all words
    (20, 1, 0, 0xC1, 2, 0),
    # for a cause and the next
    (526, 2, 0, 0xC1, 0, 0),
    (20, 2, 2, 0xC1, 0, 0),
    (20, 1, 2, 0x81, 0, 0),
    (20, 1, 0, 0x81, 2, 0),
    (20, 1, 0, 0xC1, 2, 255),  # a reserved byte is none
]


def openings(book):
    def try_open(number, code, aai, block, flag, reserved):
        book.begin_by(number, code, aai, block, flag, 12345, reserved)

    for mode in 8, 9:
        book.note(f"writer, mode {mode}: openings refused, and none open")
        book.fresh(0, mode)
        for case in REFUSED:
            try_open(*case)
        book.add(1, 3, 5)
        book.end()
        book.note("a line opened, and a second opening")
        try_open(525, 1, 1, 0x77, 0, 0)
        try_open(1, 1, 1, 0x77, 0, 0)  # 20
        try_open(1, 1, 1, 0x77, 0, 1)  # 20, with a reserved byte
        try_open(526, 1, 1, 0x77, 0, 0)  # 9 and 20
        book.end()
        book.end()  # 20
        try_open(1, 1, 0, VARIABLE, 1, 0)


def variable(book):
    for mode, limit in (8, 256), (9, 512):
        book.note(f"writer, mode {mode}: blocks that a line takes, its last word too, and blocks that it does not")
        book.fresh(0, mode)
        book.begin_by(20, 1, 1, VARIABLE, 0, 21)
        book.add(255, 5, 7, 4, limit)  # 17
        book.add(256, 5, 7, 0, limit)  # 17 and 18
        book.add(1, 16385, 7, 16384, limit)  # 17 and 18
        book.add(1, 16385, 9)  # 18
        book.add(256, 5, 9)  # 18
        book.add(0, 0, 9)
        book.add(255, 5, 7, 4, limit // 2)
        book.add(193, 257, 11)
        book.add(1, 1150, 12)
        book.note("the line is full")
        book.add(1, 0, 9)  # 19
        book.add(256, 0, 9)  # 18 and 19
        book.add(256, 1, 7, 0, limit)  # 17, 18 and 19
        book.end()
        book.add(1, 0, 9)  # 20
        book.add(256, 0, 9)  # 18 and 20
        book.add(1, 1, 7, 0, limit)  # 17 and 20


def unfinished(book):
    def begin(number, flag, seed):
        book.begin_by(number, 1, seed & 1, VARIABLE, flag, seed)

    for mode in 8, 9:
        book.note(f"writer, mode {mode}: a block that misses one word of a line; the next line with another number or setting")
        book.fresh(0, mode)
        begin(524, 0, 31)
        book.add(7, 1434, 32)
        book.add(7, 1434, 32)  # 19
        book.add(8, 1434, 32)  # 19 and 20
        book.end()
        for number, flag, seed in (1, 0, 31), (524, 0, 31), (525, 0, 33), (525, 1, 31):
            begin(number, flag, seed)  # 20
        begin(525, 0, 31)
        book.note("the line after it: closing with words left, another block, and the block's last word")
        book.end()  # 20
        book.add(8, 1434, 32)  # 20
        book.add(7, 1433, 32)  # 20
        book.add(256, 1434, 32)  # 18 and 20
        book.add(7, 1434, 32)
        book.add(9, 2, 34)
        book.add(9, 1425, 35)
        book.end()
        begin(2, 0, 31)  # 20: two words of the block are still to come
        book.note("the block's end, and a head that is cut: three of its words stand before the end of an area with CRC; line 1 after 525")
        begin(1, 0, 31)
        book.add(9, 1425, 36)  # values are not compared
        book.end()
        begin(525, 1, 41)  # any number and settings, with no unfinished block
        book.add(1, 1428, 42)
        book.add(2, 300, 43)
        book.end()
        begin(1, 1, 41)
        book.add(2, 300, 43)
        book.end()


# System, mode, flag, first number, lines, values
RUNS = [(2, 8, 0, 524, 3, 4000), (2, 9, 1, 525, 3, 4000), (3, 8, 1, 624, 3, 4000), (3, 9, 0, 1, 3, 4000), (1, 9, 1, 625, 2, 0)]
RUNS += [(0, 8, 0, 519, 12, 16384), (2, 9, 1, 7, 9, 16384)]


def runs(book):
    for system, mode, flag, number, lines, count in RUNS:
        book.note(f"writer, system {system}, mode {mode}, flag {flag}: {count} values over {lines} lines")
        book.fresh(system, mode)
        for _ in range(lines):
            book.begin_by(number, book.scope.code(system), 1, VARIABLE, flag, 61)
            book.add(0xA5, count, 62)
            book.end()
            book.step("Tell", 1)
            number = number % book.scope.systems[system][2] + 1


# System, mode, block type, flag, places filled; the last line is not filled
FIXED = [(0, 8, 0x21, 0, 287), (0, 9, 0x01, 1, 1), (1, 8, 0x01, 0, 1), (1, 9, 0x37, 0, 10), (2, 8, 0x37, 1, 13), (2, 9, 0x0A, 1, 2), (3, 8, 0x09, 0, 1), (3, 9, 0x61, 1, 5)]


def fixed(book):
    for system, mode, block, flag, places in FIXED:
        book.note(f"writer, system {system}, mode {mode}: a fixed line of block type {block:02X}h, flag {flag}")
        count = book.scope.fixed[block & 0x3F][0] - 1
        book.fresh(system, mode)
        book.begin_by(300, book.scope.code(system), 0, block, flag, 81)
        book.add(0, count, 7, 0, 512)  # 17 and 18
        book.add(0, count, 72)  # 18
        book.add(1, count + 1, 72)  # 18
        for k in range(places):
            book.add(k % 255 + 1, count, k * 11111 + 71)
        book.add(1, count, 73)  # 19 where it is full
        book.add(0, count, 73)  # 18, and 19 where it is full
        book.end()


# 01, "Run only", by flag: the count whose block ends on the last word of the area; one more puts 30Ah first on the next line
ENDS = {0: 1433, 1: 1431}


def run_only(book):
    seeds = iter([1, 2, 1000000007, 1000000008, 3000000001, 3000000002, 4294967294, 4294967295])
    length, payload, _ = book.scope.systems[0]
    for flag in ENDS:
        for mode in 8, 9:
            for count in ENDS[flag], ENDS[flag] + 1:
                book.note(f"writer, run only: mode {mode}, flag {flag}, {count} values; the last four words of an area, and the first four")
                seed = next(seeds)
                book.fresh(0, mode)
                for number, index in (20, length - 2 * flag - 4), (21, length - payload):
                    book.begin(number, settings(1, 0, VARIABLE, flag, seed), 0, 1)
                    book.add(1, count, seed)
                    book.end()
                    book.step("Words", index, 4)


PARTS = [unfit, openings, variable, unfinished, runs, fixed, run_only]
