"""Cases of states that are put: every value of the reader's and the writer's, possible or not. What 01 calls impossible is answer 2, and just inside it is not."""
from book import whole
from states import READER, SETTINGS, WRITER
from words import VARIABLE, block_head, byte_form, made, settings

SEED = 77  # of the addresses


def state(book, code=None, aai=0, block=VARIABLE, flag=0, last=(1, 20), place=(1, 5), five=(0, 0, 0, 0, 0), changed=()):
    """The numbers of a state in the book's system and mode; changed: index of a setting, and its value."""
    values = settings(book.scope.code(book.system) if code is None else code, aai, block, flag, SEED)
    for k, value in changed:
        values[k] = value
    return [book.system, book.mode, *last, *place, *five, *values]


def settings_cases(book):
    """Settings that 10 to 13 refuse at this rate, and some that they let pass: just inside, and with each of the reserved bytes."""
    rate = book.system // 2
    cases = [{"code": 0}, {"code": 2 - rate}, {"aai": 1}, {"aai": 2}, {"aai": 255}, {"block": 0xC0}, {"block": 0x81}, {"flag": 1}, {"flag": 2}, {"flag": 255}]
    cases += [{"changed": [(36 + k, v)]} for k in range(5) for v in (1, 128)]
    fixed = [{"block": 0x09}, {"block": 0x77}, {"block": 0x77, "flag": 1}, {"block": 0x38, "flag": 1}, {"block": 0x38}, {"block": 0}]
    return cases, [case | {"place": (1, 0)} for case in fixed]


def place_cases(book):
    """Places of variable and of fixed lines: on the grid and off it, at the end and beyond."""
    payload = book.scope.systems[book.system][1]
    size, *places = book.scope.fixed[0x21]
    end = size * places[book.system // 2]
    cases = [{"place": (1, q)} for q in (0, 1, payload - 1, payload, payload + 1, 999999)]
    cases += [{"place": (1, q), "flag": 1} for q in (payload - 3, payload - 2, payload - 1)]
    return cases, [{"block": 0x21, "place": (1, q)} for q in (0, 1, size, size + 1, end - size, end, end + size, payload)]


def last_cases(book):
    lines = book.scope.systems[book.system][2]
    return [{"last": (1, n)} for n in (0, 1, lines, lines + 1, 65535)]


# The writer


PART = (1, 7, 10, 5, 0)  # an unfinished block


def writer_cases(book):
    variable, fixed = settings_cases(book)
    places, fixed_places = place_cases(book)
    cases = [case | {"five": PART} for case in [{}, *last_cases(book), *variable, *places, *fixed_places[:3]]]
    cases += [{}, *last_cases(book), *fixed, *places[-3:], *fixed_places]
    cases += [{"last": (0, 0), "place": place, "five": five} for place in [(0, 0), (1, 0), (1, 5)] for five in [(0, 0, 0, 0, 0), PART]]
    cases += [{"last": (0, 0), "place": (0, 0), "code": 9, "flag": 9, "changed": [(36, 9)]}]
    cases += [{"place": (0, 0), "five": PART}, {"place": (0, 0)}, {"place": (0, 0), "block": 0x21, "five": PART}, {"place": (0, 0), "block": 0x21}]
    rests = [(0, 0), (0, 1), (0, 6), (0, 7), (10, 0), (10, 1), (10, 16), (10, 17), (16384, 1), (16384, 16390), (16384, 16391), (16385, 1), (65535, 65535)]
    return cases + [{"five": (1, 7, *rest, 0), "place": (k % 2, 5 * (k % 2))} for k, rest in enumerate(rests)]


def writer_calls(book, case):
    """Each call on the state: with a number that is next, with number 0, with a value and a type too high, and with a line that does not fit."""
    numbers = state(book, **case)
    kind, n = (numbers[7], numbers[8]) if numbers[6] else (1, 4)
    after = numbers[3] % book.scope.systems[book.system][2] + 1
    start = ("Put", WRITER, 0, *numbers[:SETTINGS])
    book.head(numbers[SETTINGS:])
    book.step("Put", WRITER, 0, *numbers)
    book.step("Impossible")
    book.step("Open", book.length - 1, 0, 1)
    book.step("Open", book.length, 0, 1)
    book.step("Open", book.length, after, 1)
    book.step("Tell", WRITER)
    book.step(*start)
    book.add(256, n, 5, 0, 512)
    book.add(kind, n, 5)
    book.step("Tell", WRITER)
    book.step(*start)
    book.end()
    book.step("Tell", WRITER)


def writers(book):
    """All states in two systems, every third in the others."""
    for system, mode, some in (0, 8, 1), (1, 9, 3), (2, 8, 3), (3, 9, 1):
        book.note(f"writer, system {system}, mode {mode}: states put")
        book.fresh(system, mode)
        for case in writer_cases(book)[system % 3 :: some]:
            writer_calls(book, case)


def writer_settings(book):
    """An unfinished block, and each byte of the settings changed when the next line is opened: 10 to 13 or 20."""
    for system, mode in (0, 9), (3, 8):
        book.note(f"writer, system {system}, mode {mode}: the next line of an unfinished block, each setting changed")
        book.fresh(system, mode)
        numbers = state(book, place=(0, 0), five=(1, 7, 10, 5, 0))
        for k in range(41):
            book.step("Put", WRITER, 0, *numbers)
            book.begin(21, [v ^ (j == k) for j, v in enumerate(numbers[SETTINGS:])])


# The reader


def open_line(book, number, values):
    book.fresh(book.system, book.mode)
    book.begin(number, values)


def reader_cases(book):
    phases = [(0, 0, 0, 0, 0), (1, 0, 0, 0, 0), (2, 7, 0, 0, 0), (5, 7, 3, 2, 1), (6, 7, 10, 3, 0)]
    variable, fixed = settings_cases(book)
    places, fixed_places = place_cases(book)
    cases = [case | {"five": phases[-1]} for case in [{}, *last_cases(book), *variable, *places, fixed_places[0]]] + [*fixed, *fixed_places, *last_cases(book)]
    return cases + [{"last": (0, 0), "place": (k % 2, 0), "five": five} for k in (0, 1) for five in phases]


def readers(book):
    """The state read with and told, every number of it."""
    for system, mode, some in (0, 9, 1), (1, 8, 3), (2, 9, 3), (3, 8, 1):
        book.note(f"reader, system {system}, mode {mode}: states put")
        book.system, book.mode = system, mode
        open_line(book, 21, state(book)[SETTINGS:])
        book.step("data", 0, 1000, 3)
        book.words(9, [0x30A, 0x309, *whole(200, 1, 2)])
        book.end()
        for case in reader_cases(book)[system % 3 :: some]:
            book.step("Put", READER, 0, *state(book, **case))
            book.step("Impossible")
            book.read(2)
            book.step("Tell", READER)


def count_bytes(book):
    """Every phase of a count with any bytes so far, and the bytes that are still to come."""
    counts = [0, 1, 2, 255, 256, 300, 16383, 16384, 16385, 65536, 0x010203, 1 << 24, 0xFFFFFFFF]
    for system, mode in (0, 8), (3, 9):
        book.note(f"reader, system {system}, mode {mode}: count bytes put")
        book.system, book.mode = system, mode
        open_line(book, 21, state(book)[SETTINGS:])
        for k, count in enumerate(counts):
            four = list(count.to_bytes(4, "little"))
            for so_far in range(4):
                kind = made(k, 1)[0] % 256
                five = (2 + so_far, kind, *four[:so_far], *(0,) * (3 - so_far))
                book.words(5, [byte_form(b) for b in four[so_far:]] + [byte_form(9)] * 2 + [0x30A])
                book.step("Put", READER, 0, *state(book, five=five))
                book.read(1)
                book.step("Tell", READER)


def reader_settings(book):
    """An open block, and each byte of the settings held changed: the next line goes on with it, drops it, or the state is impossible."""
    for system, mode in (1, 8), (2, 9):
        book.note(f"reader, system {system}, mode {mode}: the next line of an open block, each setting changed")
        book.system, book.mode = system, mode
        values = state(book)[SETTINGS:]
        open_line(book, 21, values)
        book.words(0, block_head(1, 0)[1:2] + [0x30A])
        book.end()
        for k in range(42):
            changed = [(k, values[k] ^ 1)] if k < 41 else []
            book.step("Put", READER, 0, *state(book, place=(0, 0), five=(6, 7, 0, 3, 0), changed=changed))
            book.read(2)
            book.step("Tell", READER)


PARTS = [writers, writer_settings, readers, count_bytes, reader_settings]
