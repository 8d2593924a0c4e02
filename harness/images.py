"""States, settings, events and what else goes to C, as bytes: written from the layout, and not from our code. Numbers stand low byte first, and what is not used is 0.

The image of a state, 80 bytes:
    0 'R' or 'W'   1 system   2 mode   3 a last number is there   4-5 the last number   6 a line is begun (open)   8-15 the place   37-77 the settings
    reader: 7 phase, 0 idle, 1 type awaited, 2-5 a count byte awaited, 6 data; 16 mark, 1 a type, 2 a null; 17 type; 18-20 count bytes so far; 21-28 announced; 29-36 collected
    writer: 7 a block is unfinished; 17 its type; 18-19 n; 21-22 words laid; 23-26 CRC; 27-28 words of the gap used
"""
from reader import IDLE, NULL, TYPE, Reader
from writer import Writer

STATE, SETTINGS, ROOM, EVENT, HEADER, LISTED = 80, 41, 32768, 32, 43, 16
KINDS = ["refused", "begun", "block", "drop", "end", "paused"]


def low_first(number, count):
    return number.to_bytes(count, "little")


def number_in(image, first, count):
    return int.from_bytes(image[first : first + count], "little")


# The models' settings are code, AAI, block type, flag, destination, source, reserved. In bytes block type and flag stand behind the addresses.


def of_settings(values):
    return bytes([*values[:2], *values[4:36], *values[2:4], *values[36:]])


def settings_from(b):
    return [*b[:2], *b[34:36], *b[2:34], *b[36:]]


def framed(tag, state, kind, held):
    """What both images share, around a block's byte and what is held of it."""
    last = bytes(3) if state.last is None else b"\1" + low_first(state.last, 2)
    image = tag + bytes([state.system, state.mode]) + last + bytes([state.place is not None, kind]) + low_first(state.place or 0, 8)
    return image + held + of_settings(state.settings) + bytes(2)


def of_reader(reader):
    name, *values = reader.phase
    mark = bytes(2)
    if values:
        mark = b"\2\0" if values[0] == NULL else bytes([1, values[0]])
    if name == "data":
        return framed(b"R", reader, 6, mark + bytes(3) + low_first(values[1], 8) + low_first(values[2], 8))
    kind = {"idle": 0, "type": 1, "count": 1 + len(values)}[name]
    return framed(b"R", reader, kind, mark + bytes(values[1:]).ljust(19, b"\0"))


def of_writer(writer):
    kind, n, laid = writer.rest or (0, 0, 0)
    held = bytes([0, kind]) + low_first(n, 2) + b"\0" + low_first(laid, 2) + low_first(writer.crc, 4) + low_first(writer.used, 2) + bytes(8)
    return framed(b"W", writer, writer.rest is not None, held)


# The way back asks each byte, and gives None where no state has these.


def frame_from(state, image):
    """Fills what both share; whether the bytes are such."""
    known, begun = image[3], image[6]
    number, place = number_in(image, 4, 2), number_in(image, 8, 8)
    state.last, state.place = number if known else None, place if begun else None
    state.settings = settings_from(image[37:78])
    return known < 2 and begun < 2 and (known or not number) and (begun or not place) and image[78:] == bytes(2)


def phase_from(phase, image):
    """The phase of a number, None where the bytes held do not fit to it."""
    mark, kind, counts, announced, collected = image[16], image[17], image[18:21], number_in(image, 21, 8), number_in(image, 29, 8)
    if phase < 2:
        return None if any(image[16:37]) else (IDLE, TYPE)[phase]
    if phase > 6 or mark not in (1, 2) or (mark == 2 and kind):
        return None
    kind = NULL if mark == 2 else kind
    if phase == 6:
        return None if any(counts) else ("data", kind, announced, collected)
    so_far = phase - 2
    return None if any(counts[so_far:]) or announced or collected else ("count", kind, *counts[:so_far])


def reader_from(scope, image):
    reader = Reader(scope, image[1], image[2])
    fits = frame_from(reader, image)
    reader.phase = phase_from(image[7], image)
    return reader if fits and image[0] == ord("R") and reader.phase is not None else None


def writer_from(scope, image):
    writer = Writer(scope, image[1], image[2])
    fits = frame_from(writer, image) and image[7] < 2 and not any([image[16], image[20], *image[29:37]])
    block = image[17], number_in(image, 18, 2), number_in(image, 21, 2)
    writer.rest = block if image[7] else None
    writer.crc, writer.used = number_in(image, 23, 4), number_in(image, 27, 2)
    return writer if fits and image[0] == ord("W") and (image[7] or not any(block)) else None


def of_event(event, consumed=0):
    """An event of reader.py, or None for paused."""
    name, *values = event or ("paused",)
    dropped = name in ("refused", "begun") and values[-1]
    number = values[0] if name in ("refused", "begun", "drop") else 0
    jump = values[1] if name == "begun" else None
    kind, length = values if name == "block" else (0, 0)
    front = bytes([KINDS.index(name), dropped, jump is not None, jump is not None and jump < 0])
    return front + low_first(number, 4) + low_first(abs(jump or 0), 4) + low_first(kind, 4) + low_first(length, 8) + low_first(consumed, 8)
