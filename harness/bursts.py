"""Cases of bursts (02, Item 13): bits of an area changed within 18 consecutive ones, and within 19, which the CRC may not see."""
from words import VARIABLE, made, word_of

G = (0, 13, 14, 18)  # what the CRC does not see: the bits of G, the highest power first


def flipped(area, places):
    """The words of an area with those bits changed, B0 of the first word being bit 0: the first word's place, and the words from it on."""
    first, last = min(places) // 10, max(places) // 10
    words = area[first : last + 1]
    for p in places:
        words[p // 10 - first] ^= 1 << p % 10
    return first, words


def kept(mode, words):
    """All are in the form that the mode asks for."""
    return all(word_of(mode, w) == w for w in words)


def places_of(area, width, seed):
    """So many consecutive bits, anywhere or at an end of the area; of them the first and the last, and others by the seed."""
    where, high, low, inner, more = made(seed, 5)
    most = 10 * len(area) - width
    start = {0: 0, 1: most}.get(where // 16 % 8, (high << 16 | low) % (most + 1))
    some = inner << 8 ^ more
    return sorted({start, start + width - 1} | {start + k for k in range(1, width - 1) if some >> k & 1})


def burst_of(mode, area, width, seed, whole):
    """A burst of that width. whole: one that leaves the forms as they are, where one is soon found."""
    for k in range(200 if whole else 1):
        places = places_of(area, width, seed + k)
        if kept(mode, flipped(area, places)[1]):
            break
    return places


def hit(book, area, places):
    """The line with those bits changed, checked and read; and then as it was."""
    first, words = flipped(area, places)
    book.words(first, words)
    book.step("Line", book.scope.systems[book.system][0], book.system, book.mode)
    book.read()
    book.words(first, area[first : first + len(words)])


def guarded(book, system, mode, block, seed):
    """A line with flag 01h and data, closed; and the words of its area."""
    book.new(system, mode, 1 + seed % 525)
    book.open(flag=1, block=block)
    size = book.area(1)
    book.step("data", 0, size, seed)
    book.step("close")
    return [word_of(mode, u) for u in made(seed, size)]


def short(book):
    """Bursts of 1 to 18 bits in every system and mode, in variable and fixed lines; every second one leaves the forms as they are."""
    for system in range(4):
        for mode in 8, 9:
            for block in VARIABLE, 0x21:
                seed = 100000 * system + 10000 * mode + 100 * block
                book.note(f"bursts, system {system}, mode {mode}, block type {block:02X}h")
                area = guarded(book, system, mode, block, seed)
                for k in range(18):
                    hit(book, area, burst_of(mode, area, k + 1, seed + 1000 * k, (k + (block != VARIABLE)) % 2))


def nineteen(book):
    """The bits of G in 9-bit mode, which leave the CRC and every form as they were, so that the line passes: in an area of filler from bit 7 on;
    and with data, in the middle of an area and at its end."""
    for system in range(4):
        book.note(f"19 bits that pass, system {system}")
        book.new(system, 9)
        book.open(flag=1)
        book.step("close")
        size = book.area(1)
        hit(book, [0x200] * size, [7 + k for k in G])
        area = guarded(book, system, 9, VARIABLE, system + 1)
        for start in 10 * (700 + system) + 3, 10 * (size - 3) + 7:
            hit(book, area, [start + k for k in G])


PARTS = [short, nineteen]
