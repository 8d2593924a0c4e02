"""Cases of 02, Item 4: the classes of all numbers of 16 bits. The rule is 01's, bit by bit, and knows no table."""

RUN = 256  # numbers in a row


def class_of(w):
    """1 byte form, 2 other data form, 3 separator, 4 end code, 5 illegal, 6 the null word 100h; 400h and above is no word of ten bits."""
    bits = [w >> k & 1 for k in range(16)]
    if 1 in bits[10:]:
        return 5
    if w == 0x100:
        return 6
    if bits[9] != bits[8]:
        return 1 if bits[8] == sum(bits[:8]) % 2 else 2
    return {0x309: 3, 0x30A: 4}.get(w, 5)


def digits(first):
    return "".join(str(class_of(w)) for w in range(first, first + RUN))


def all_numbers(book):
    book.note("the classes of all numbers, by the table and by the forms")
    for first in range(0, 1 << 16, RUN):
        book.step(f"Kinds {first}")


PARTS = [all_numbers]
