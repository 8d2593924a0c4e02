"""Cases of 02, Item 5: the five reserved bytes are handed through. Each of the five alone, with each of 10 to 13, in variable and in fixed lines, in mid-block."""
from book import whole
from lines import Checked
from put import state
from states import READER, SETTINGS, WRITER
from words import VARIABLE, block_head, byte_form, crc_of, header, settings

FIVE = range(36, 41)  # where they stand among the settings
MARKS = [(k, v) for k, v in zip(FIVE, (0x01, 0x02, 0x03, 0x04, 0xFF))]  # none is 0, and no two are alike
CAUSES = {10: lambda values: (0, 3 - values[0]), 11: lambda values: (1, 2), 12: lambda values: (2, 0x81), 13: lambda values: (3, 2)}
SEED = 78  # of the addresses


def changed(values, *changes):
    """The settings with some of them changed: index, and value."""
    values = values[:]
    for k, value in changes:
        values[k] = value
    return values


def exchanged(values, k):
    """The reserved byte at k and the next one, behind the last the first, exchanged."""
    other = k + 1 if k + 1 in FIVE else FIVE[0]
    return changed(values, (k, values[other]), (other, values[k]))


def kinds(book):
    """A variable and a fixed line of each system; both modes and flags."""
    for system in range(4):
        for fixed in False, True:
            mode, flag = 8 + (system + fixed) % 2, (system // 2 + fixed) % 2
            name = "fixed" if fixed else "variable"
            yield name, system, mode, settings(book.scope.code(system), 0, 0x21 if fixed else VARIABLE, flag, SEED)


def header_laid(book, stands, number, values):
    """Makes a header of the one that stands in the line."""
    words = header(number, values, crc_of, crc_of)
    for i, (old, new) in enumerate(zip(stands, words)):
        if old != new:
            book.step("index", 4 + i, new)
    return words


# Lines


def accepted(book):
    """Each of the five alone, FFh; and all of them. The line is opened, closed, checked, and read; the reader's state has the five."""
    for name, system, mode, values in kinds(book):
        book.note(f"reserved bytes in a {name} line, system {system}, mode {mode}")
        book.fresh(system, mode)
        for number, changes in enumerate([[(k, 0xFF)] for k in FIVE] + [MARKS], 20):
            book.begin(number, changed(values, *changes))
            book.end()
            book.step("Line", book.length, system, mode)
            book.read()
            book.step("Tell", READER)


def refused(book):
    """Each of the five alone, FFh, with each of 10 to 13: the lower number is given, to an opening and to a line that has such a header."""
    for name, system, mode, values in kinds(book):
        book.note(f"reserved bytes and 10 to 13 in a {name} line, system {system}, mode {mode}")
        book.fresh(system, mode)
        book.begin(20, values)
        book.end()
        stands = header(20, values, crc_of, crc_of)
        for k in FIVE:
            for cause in CAUSES.values():
                wrong = changed(values, (k, 0xFF), cause(values))
                book.begin(21, wrong)
                stands = header_laid(book, stands, 20, wrong)
                book.step("Line", book.length, system, mode)


def spoiled(book):
    """A word of the five out of byte form: 5. Changed on the way: 6, and 8 where the checksum is right; where all that covers it is, the byte is taken."""
    for system, mode, block, flag in (1, 8, VARIABLE, 1), (2, 9, 0x21, 0):
        line = Checked(book, system, mode, block, flag, SEED)
        for index in range(49, 54):
            for word, how in (0x100, 2), (byte_form(0xFF), 0), (byte_form(0xFF), 1), (byte_form(0xFF), 2):
                line.check(index, word, how)


# In mid-block


def writer_in_mid_block(book):
    """An unfinished block, and each of the five changed when the next line is opened, or exchanged with the next: 20; with 10 to 13 these; else done."""
    for system, mode in (0, 8), (1, 9), (2, 9), (3, 8):
        book.note(f"writer, system {system}, mode {mode}: an unfinished block, and other reserved bytes")
        book.fresh(system, mode)
        numbers = state(book, place=(0, 0), five=(1, 7, 10, 5, 0), changed=MARKS)
        held = numbers[SETTINGS:]
        tries = [changed(held, (k, v)) for k in FIVE for v in (0, held[k] ^ 0x80)]
        tries += [exchanged(held, k) for k in FIVE]
        tries += [changed(held, (k, 0), cause(held)) for k in FIVE for cause in CAUSES.values()]
        book.step("Put", WRITER, 0, *numbers)
        for values in tries:
            book.begin(21, values)
        book.step("Tell", WRITER)
        book.begin(21, held)
        book.step("Tell", WRITER)


def by_calls(book):
    """A block over two lines with the five: another opening between them is 20, and the reader hands the block out."""
    for system, mode in (0, 9), (3, 8):
        book.note(f"system {system}, mode {mode}: a block over two lines with reserved bytes, written and read")
        book.fresh(system, mode)
        values = changed(settings(book.scope.code(system), 1, VARIABLE, 1, SEED), *MARKS)
        count = book.area(1)
        book.begin(524, values)
        book.add(9, count, 5)
        book.end()
        book.read()
        for k in FIVE:
            book.begin(525, changed(values, (k, 0)))
        book.begin(525, values)
        book.add(9, count, 5)
        book.end()
        book.read()
        book.step("Tell", READER)
        book.step("view")


def reader_in_mid_block(book):
    """A line that leaves a block open, and the next: with one of the five changed or exchanged it is dropped, with the same it goes on."""
    for system, mode in (0, 8), (1, 9), (2, 8), (3, 9):
        book.system, book.mode = system, mode
        values = changed(settings(book.scope.code(system), 0, VARIABLE, 0, SEED), *MARKS)
        nexts = [changed(values, (k, v)) for k in FIVE for v in (0, values[k] ^ 0x80)]
        nexts += [exchanged(values, k) for k in FIVE] + [values]
        for after in nexts:
            left_open(book, values)
            book.begin(21, after)
            book.words(0, [byte_form(3), 0x30A, *whole(8, 4)])
            book.end()
            book.read()
            book.step("Tell", READER)
        left_open(book, values)
        book.begin(21, changed(values, (2, 0x21)))  # a fixed line with the same five
        book.end()
        book.read()


def refused_in_mid_block(book):
    """The next line has another reserved byte and one of 10 to 13: it is refused with that, and the open block is dropped."""
    for system, mode in (0, 9), (2, 8):
        book.system, book.mode = system, mode
        values = changed(settings(book.scope.code(system), 0, VARIABLE, 0, SEED), *MARKS)
        for k in FIVE:
            for cause in CAUSES.values():
                left_open(book, values)
                book.begin(21, values)
                book.end()
                header_laid(book, header(21, values, crc_of, crc_of), 21, changed(values, (k, 0), cause(values)))
                book.read()


def left_open(book, values):
    """Line 20 of a fresh writer, which ends in a block; read."""
    book.note(f"system {book.system}, mode {book.mode}: an open block on a line with reserved bytes, and the next line")
    book.fresh(book.system, book.mode)
    book.begin(20, values)
    book.words(book.area(0) - 8, block_head(5, 3) + [byte_form(1), byte_form(2)])
    book.end()
    book.read()


PARTS = [accepted, refused, writer_in_mid_block, by_calls, reader_in_mid_block, refused_in_mid_block, spoiled]
