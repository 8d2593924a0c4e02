"""Cases at edges that mutants of the code passed by: word 300h, settings that go on to 0, the writer's impossible rests, `is_impossible` itself."""
from book import ROOM, whole
from kinds import EDGE, TO_0
from lines import Checked
from put import state
from states import READER, SETTINGS, WRITER
from words import VARIABLE, block_head, byte_form

# Words of the header in byte form and in data form, and what is mended so that nothing else is wrong with the line
IN_HEADER = [(10, 2), (11, 2), (14, 2), (20, 2), (45, 2), (47, 2), (48, 2), (53, 2), (12, 1), (13, 1), (54, 1), (55, 1), (56, 0)]


def header_words(book):
    """300h in each part of a header, and first, in the middle and last in an area; and for a word of the payload's CRC."""
    for system, mode, block, flag in (0, 9, VARIABLE, 1), (1, 9, 0x21, 0), (2, 8, VARIABLE, 0), (3, 9, VARIABLE, 0), (3, 8, 0x21, 1), (2, 9, 0x24, 1):
        line = Checked(book, system, mode, block, flag, 7 * system + mode)
        for index, how in IN_HEADER:
            line.check(index, EDGE, how)
        for place in 0, 700, line.payload - 2 * flag - 1:
            line.check(line.start() + place, EDGE, 2)
        line.check(line.length - 1, EDGE, 0)


def area_words(book):
    """300h read: a line that has it is refused; laid after the line was begun it is drop 2, drop 3, or a value."""
    for mode in 8, 9:
        for later in False, True:
            book.note(f"mode {mode}: 300h as a word of an area, " + ("laid after the line was begun" if later else "which is refused"))
            for before in [], [0x309], block_head(7, 3)[:2], block_head(7, 3)[:5], block_head(7, 3) + [byte_form(1)], block_head(7, 0):
                book.new(mode - 8, mode)
                book.stream(9, [before + [EDGE, 0x30A], whole(1, 2)], 0, later)
        book.step("view")


# ---- settings that go on to 0


def writer_to_0(book):
    """An unfinished block on lines with AAI 1 or flag 01h, and an opening with 0: 20. With the same settings it is done."""
    for system, mode in (0, 8), (1, 9), (2, 8), (3, 9):
        book.note(f"writer, system {system}, mode {mode}: an unfinished block with AAI 1, flag 01h or both, and an opening with 0")
        book.fresh(system, mode)
        for held in ({"aai": 1}, {"flag": 1}, {"aai": 1, "flag": 1}):
            numbers = state(book, place=(0, 0), five=(1, 7, 10, 5, 0), **held)
            for k in [k for k, name in TO_0.items() if name in held] + [99]:
                book.step("Put", WRITER, 0, *numbers)
                book.begin(21, [0 if j == k else v for j, v in enumerate(numbers[SETTINGS:])])
                book.step("Tell", WRITER)


def reader_to_0(book):
    """The same of a reader's lines: the open block is dropped, and with the same settings it is not."""
    for system, mode in (0, 8), (1, 9), (2, 8), (3, 9):
        for held in ({"aai": 1}, {"flag": 1}, {"aai": 1, "flag": 1}):
            for gone in [*held, None]:
                book.note(f"system {system}, mode {mode}: lines with {held}, and the next " + (f"with {gone} 0" if gone else "with the same"))
                book.new(system, mode)
                flag = held.get("flag", 0)
                book.line(book.area(flag) - 8, block_head(5, 3) + [byte_form(1), byte_form(2)], **held)
                book.line(0, [byte_form(3), 0x30A, *whole(8, 4)], **held | ({gone: 0} if gone else {}))


# ---- impossible states

# n and the words laid: none, all of the n + 7, one value too many; and the last that is possible
RESTS = [(0, 0), (0, 7), (10, 0), (10, 17), (16384, 0), (16384, 16391), (16385, 1), (16385, 16391), (10, 16), (16384, 16390)]


def writer_rests(book):
    """In every system and mode, with a line open and with none: each call, and an opening with number 0, which would be 9."""
    for system in range(4):
        for mode in 8, 9:
            book.note(f"writer, system {system}, mode {mode}: unfinished blocks that cannot be, and some that can")
            book.fresh(system, mode)
            for k, rest in enumerate(RESTS):
                numbers = state(book, place=(k % 2, 5 * (k % 2)), five=(1, 7, *rest, 0))
                book.head(numbers[SETTINGS:])
                opens = [lambda n=n: book.step("Open", book.length, n, 1) for n in (0, 21)]
                for call in *opens, lambda: book.add(7, rest[0], 5), book.end:
                    book.step("Put", WRITER, 0, *numbers)
                    call()
                book.step("Impossible")


# Announced and collected
COLLECTED = [(0, 0), (0, 16384), (0, 16385), (16384, 16383), (16384, 16384), (16385, 0), (16385, 16385), (16385, 3), (3, 2), (3, 3), (3, 4)]


def reader_looks(book):
    """`is_impossible` of a reader in each phase, as the reading call takes it."""
    phases = [(0, 0, 0, 0, 0), (1, 0, 0, 0, 0), (2, 7, 0, 0, 0), (3, 7, 1, 0, 0), (4, 7, 1, 2, 0), (5, 7, 1, 2, 3), *((6, 7, a, n, 0) for a, n in COLLECTED)]
    for system, mode in (0, 8), (1, 9), (2, 8), (3, 9):
        book.note(f"reader, system {system}, mode {mode}: what is_impossible says of each phase")
        book.fresh(system, mode)
        for k, five in enumerate(phases):
            book.step("Put", READER, 0, *state(book, place=(k % 2, 5 * (k % 2)), five=five))
            book.step("Impossible")
            book.read(1, book.length, ROOM)
            book.step("Tell", READER)


def both_look(book):
    """Reader and writer in the same state: neither possible, one of them, both."""
    book.note("what is_impossible says of a reader and a writer at once")
    for system, mode in (0, 8), (3, 9):
        book.fresh(system, mode)
        for wrong_reader in False, True:
            for wrong_writer in False, True:
                book.step("Put", READER, 0, *state(book, last=(1, 0 if wrong_reader else 20)))
                book.step("Put", WRITER, 0, *state(book, last=(1, 65535 if wrong_writer else 20)))
                book.step("Impossible")


PARTS = [header_words, writer_to_0, writer_rests, reader_looks, both_look, area_words, reader_to_0]
