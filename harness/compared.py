"""Rows beside those that play.py has of the same steps, and the verdict."""
import itertools

from play import texts


def compared(name, play, rows, wanting):
    """Says what differs and what is wanting, and ends with the verdict; whether all is well. One row is one test."""
    want = texts(play.rows)
    wanting = list(wanting)
    for what in wanting:
        print(f"FAIL {what}")
    pairs = list(itertools.zip_longest(want, rows))
    wrong = [(i, a, b) for i, (a, b) in enumerate(pairs, 1) if a != b]
    for i, a, b in wrong[:20]:
        print(f"FAIL row {i}: 01 has {a}\n  the row {b}")
    failed = len(wrong) + len(wanting)
    print(f"{name}: {len(want)} rows with {sum(play.events.values())} events of the reader, by a model of 01, crccheck and Digest::CRC")
    print(f"{len(pairs) - len(wrong)} passed, {failed} failed")
    return not failed
