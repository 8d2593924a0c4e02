"""The steps that harness/host.c plays, and the rows that it has to print: what is lent to the calls of include/sdti.h. Made from fixed seeds; calls.py predicts."""
import collections
import itertools
import random

import images
from calls import PARAMETERS, Calls, bytes_of
from packets import packet
from words import VARIABLE, block_head, byte_form, crc_of, header, opened_line, settings, word_of

NAMES = ["state", "line", "room", "event", "settings", "values", "header", "out", "listed"]
SPACE = 131072  # bytes of each buffer
SEPARATOR, END_CODE, NULL, FILLER = 0x309, 0x30A, 0x100, 0x200
EACH = list(itertools.product(range(4), (8, 9)))  # systems and modes


def runs(before, after):
    """Where two buffers differ, as AT:HEX."""
    found, n = [], len(before)
    i = 0
    while i < n:
        # whole stretches that are equal are passed over
        if before[i : i + 256] == after[i : i + 256]:
            i += 256
            continue
        while i < n and before[i] == after[i]:
            i += 1
        end = i
        while end < n and before[end] != after[end]:
            end += 1
        if i < end:
            found.append(f"{i}:{after[i:end].hex()}")
        i = end
    return found


class Book:
    """The buffers as they have to be, the steps and the rows so far, and what was met."""

    def __init__(self, scope):
        self.scope, self.calls = scope, Calls(scope)
        self.held = {name: bytes(SPACE) for name in NAMES}
        self.count, self.steps, self.rows, self.played, self.met = 0, [], [], 0, collections.Counter()
        self.pool = []  # images met, each with its system, mode and line

    def tell(self, step, row=None):
        self.steps.append(step)
        self.rows.append(row)  # None: this step prints nothing

    def put(self, name, b, at=0):
        if self.held[name][at : at + len(b)] != b and b:
            self.held[name] = self.held[name][:at] + b + self.held[name][at + len(b) :]
            self.tell(f"put {name} {at} {b.hex()}")

    def line_bytes(self, system):
        return 2 * self.scope.systems[system][0] if system in self.scope.systems else 0

    def gap_bytes(self, system):
        if system not in self.scope.systems:
            return 0
        length, payload, _ = self.scope.systems[system]
        return 2 * (length - payload - 61)

    def right(self, name, given):
        """The length with which a buffer should be lent: by the system that is given, or is in the state."""
        system = given.get("system", self.held["state"][1])
        fixed = {"state": images.STATE, "room": images.ROOM, "event": images.EVENT, "settings": images.SETTINGS, "header": images.HEADER, "listed": images.LISTED}
        return fixed.get(name) if name in fixed else self.line_bytes(system) if name == "line" else self.gap_bytes(system)

    def call(self, call, **given):
        """Plays a call: its numbers by name, and NAME_len where a buffer is not lent as long as it should be. A buffer may be given as bytes. The answer."""
        numbers, lent = [], []
        for word in PARAMETERS[call].split():
            name = word.lower()
            if name == word:
                numbers.append(given[name])
                lent.append(given[name])
                continue
            if name in given:
                self.put(name, given[name])
            n = given.get(f"{name}_len", len(given[name]) if name in given else self.right(name, given))
            numbers.append(n)
            lent.append(self.held[name][:n])
        answer, after, *more = getattr(self.calls, call)(*lent)
        changed = ""
        for name in NAMES:
            if name in after and not self.held[name].startswith(after[name]):
                changed += " ".join(["", name, *runs(self.held[name][: len(after[name])], after[name])])
                self.held[name] = after[name] + self.held[name][len(after[name]) :]
        if more:
            self.count = self.count if more[0] is None else more[0]
            changed += f" count {self.count}"
        self.tell(" ".join([call, *map(str, map(int, numbers))]), f"{answer}{changed}")
        self.met[call, answer] += 1
        self.played += 1
        return answer

    def state(self):
        return self.held["state"][: images.STATE]

    def event(self):
        """The kind of the event that stands in its buffer."""
        return images.KINDS[self.held["event"][0]]

    # What the header's inline functions say

    def told(self):
        e = self.held["event"]
        jump = images.number_in(e, 8, 4) * (-1 if e[3] else 1)
        wide = [images.number_in(e, 4, 4), images.number_in(e, 12, 4), images.number_in(e, 16, 8), images.number_in(e, 24, 8)]
        self.tell("told", " ".join(map(str, ["told", *e[:3], jump, *wide])))

    def settings_text(self, name, b):
        v = images.settings_from(b)
        return " ".join([name, *map(str, v[:4]), bytes(v[4:20]).hex(), bytes(v[20:36]).hex(), bytes(v[36:]).hex(), b.hex()])

    def keeps(self):
        self.tell("held", self.settings_text("held", self.held["state"][37:78]))

    def found(self):
        h = self.held["header"]
        self.tell("found", f"{self.settings_text('found', h[2:43])} {images.number_in(h, 0, 2)}")

    def said(self):
        self.tell("said", " ".join(map(str, ["said", *(images.number_in(self.held["listed"], i, 4) for i in (0, 4, 8, 12))])))

    def show(self, name, count):
        self.tell(f"show {name} {count}", self.held[name][:count].hex())


# ---- lines for the reader


def block_of(r, mode):
    """A block's words, now and then not as they should be."""
    n = r.choice([0, 1, 2, 3, 5, 30, r.randrange(300), r.randrange(3000) if r.random() < 0.2 else 7])
    count = r.choice([n, n, n, n, 0, n + 1, max(n - 1, 0), 16385, 1 << 24])
    words = block_head(r.randrange(256), count) + [word_of(mode, r.randrange(512)) for _ in range(n)]
    if r.random() < 0.15:
        words[1] = NULL
    if r.random() < 0.2:
        words[r.randrange(1, len(words))] = r.choice([SEPARATOR, END_CODE, NULL, FILLER])
    return words + [END_CODE] * r.choice([1, 1, 1, 1, 0])


def flow(r, mode):
    """Words of variable lines, without end."""
    while True:
        if r.random() < 0.3:
            yield from [FILLER] * r.randrange(500)
        else:
            yield from block_of(r, mode)


def places(r, mode, size, count, area):
    """The area of a fixed line."""
    words = []
    for _ in range(count):
        kind = r.choice([FILLER, NULL, *(byte_form(r.randrange(256)) for _ in range(6))])
        words += [kind, *(word_of(mode, r.randrange(512)) for _ in range(size - 1))]
        if r.random() < 0.05:
            words[-r.randrange(1, size + 1)] = NULL
    return words[:area] + [FILLER] * (area - len(words))


def fixed_types(scope, system, flag):
    """The fixed block types that a line of the system may have."""
    at = 1 if scope.systems[system][1] == 1440 else 2
    return [k for k, v in scope.fixed.items() if v[at] and not (flag and k in (0x37, 0x38))]


def spoiled(r, line):
    line = list(line)
    i = r.choice([0, 3, *(r.randrange(4, 57) for _ in range(4)), r.randrange(len(line)), len(line) - 1])
    line[i] = r.choice([line[i] ^ 1 << r.randrange(10), r.randrange(0x400, 0x10000), r.randrange(0x400), SEPARATOR])
    return line


def turned(words):
    """CRC words that are wrong."""
    return [w ^ 1 for w in crc_of(words)]


def wrong_line(scope, system, fault):
    """A line that is refused with a number, and has no other fault before it."""
    values = settings(scope.code(system), 0, VARIABLE, 1, 3)
    number, values = {9: (0, values), 10: (9, [3 - values[0], *values[1:]]), 11: (9, [values[0], 2, *values[2:]]), 12: (9, [*values[:2], 0xC0, *values[3:]]),
                      13: (9, [*values[:3], 2, *values[4:]])}.get(fault, (9, values))
    line = opened_line(scope, system, 0, 0, number, values)
    if fault in (7, 8):
        line[4:57] = header(number, values, turned if fault == 7 else crc_of, turned if fault == 8 else crc_of)
    at = {3: 3, 4: 5, 5: 20, 6: 56, 15: 700}.get(fault)
    if at:
        line[at] ^= 0x303 if fault == 15 else 1 if fault == 6 else 0x101 if fault == 5 else 4
    return line  # 16: filler, and no CRC at its end



FAULTY = [3, 4, 5, 6, 7, 8, 9, 10, 11, 12, 13, 15, 16]


class Air:
    """Lines of a course, made without our writer."""

    def __init__(self, r, scope, system, mode):
        self.r, self.scope, self.system, self.mode = r, scope, system, mode
        self.words, self.number, self.flag, self.seed = flow(r, mode), r.randrange(1, 526), r.randrange(2), r.randrange(1000)

    def line(self):
        r, scope = self.r, self.scope
        length, payload, frame = scope.systems[self.system]
        block = VARIABLE if r.random() < 0.7 else r.choice(fixed_types(scope, self.system, self.flag)) | r.choice([0, 0x40])
        if r.random() < 0.1:
            self.seed += 1
        values = settings(scope.code(self.system), self.seed % 2, block, self.flag, self.seed)
        values[36:] = [r.randrange(2) for _ in range(5)] if r.random() < 0.1 else [0] * 5
        line = opened_line(scope, self.system, r.randrange(2), r.randrange(2), self.number, values)
        area = payload - 2 * self.flag
        if block == VARIABLE:
            words = [*itertools.islice(self.words, area)]
        else:
            size, *count = scope.fixed[block & 0x3F]
            words = places(r, self.mode, size, count[payload == 1920], area)
        line[length - payload :] = words + (crc_of(words) if self.flag else [])
        if r.random() < 0.3:
            self.packets(line, length - payload)
        fate = r.random()
        if fate < 0.1:
            line = spoiled(r, line)
        elif fate < 0.16:
            line = wrong_line(scope, self.system, r.choice(FAULTY))
        self.number = self.number % frame + 1 if r.random() < 0.85 else r.randrange(1, frame + 1)
        return line

    def packets(self, line, start):
        """Packets in the gap, now and then a bad one."""
        r, gap = self.r, []
        while r.random() < 0.8:
            gap += packet(r.randrange(256), r.randrange(256), [r.randrange(512) for _ in range(r.choice([0, 1, 5, 40, 255]))])
        gap = gap[: start - 61]
        if gap and r.random() < 0.5:
            gap[r.randrange(len(gap))] ^= 1 << r.randrange(10)
        line[57 : 57 + len(gap)] = gap


WRONG_LENGTHS = {"state": (0, 79, 81), "room": (0, 32766, 32767, 32769, 32770), "event": (0, 31, 33), "settings": (0, 40, 42), "header": (0, 42, 44), "listed": (0, 15, 17)}


def wrong_length(book, r, system, buffers):
    """One of the buffers, and a length with which it is refused."""
    name = r.choice(buffers)
    if name == "line":
        n = book.line_bytes(system)
        return {"line_len": r.choice([0, n - 1, n + 1, n - 2, n + 2, SPACE - 64, *(book.line_bytes(s) for s in range(4) if s != system)])}
    if name == "out":
        n = book.gap_bytes(system)
        return {"out_len": r.choice([0, n - 1, n + 1, n - 2, n + 2, 1024, 1026])}
    return {f"{name}_len": r.choice(WRONG_LENGTHS[name])}


def listen(book, r, system, most=60):
    """Reads the line that stands in its buffer, by calls of both kinds, some of them with a buffer that is refused."""
    for _ in range(most):
        given = wrong_length(book, r, system, ["state", "line", "room", "event"]) if r.random() < 0.06 else {}
        if r.random() < 0.4:
            answer = book.call("read_within", allowance=r.choice([0, 1, 2, 7, 64, 500, 5000, 2**64 - 1]), **given)
        else:
            answer = book.call("read", **given)
        if answer not in (1, 2):
            book.met[book.event()] += 1
            if r.random() < 0.3:
                book.told()
            if book.event() in ("end", "refused"):
                return
    # the next line is lent before this one is over


def look(book, r, system, mode):
    """Checks the line and lists its packets."""
    given = wrong_length(book, r, system, ["line", "header"]) if r.random() < 0.1 else {}
    book.call("check", system=system, mode=mode, **given)
    book.found()
    given = wrong_length(book, r, system, ["line", "out", "listed"]) if r.random() < 0.1 else {}
    book.call("list", system=system, mode=mode, **given)
    book.met["stop", images.number_in(book.held["listed"], 12, 4)] += 1
    book.said()


def keep(book, system, mode):
    book.pool.append((system, mode, book.state(), book.held["line"][: book.line_bytes(system)]))


def airs(book):
    """Lines of every system and mode, good and hostile, read from fresh."""
    for k, (system, mode) in itertools.product(range(6), EACH):
        r = random.Random(f"air {k} {system} {mode}")
        book.call("reader", system=system, mode=mode)
        air = Air(r, book.scope, system, mode)
        for _ in range(8):
            book.put("line", bytes_of(air.line()))
            keep(book, system, mode)
            listen(book, r, system, r.choice([3, 20, 60]))
            book.keeps()
            keep(book, system, mode)
            look(book, r, system, mode)


def refused(book):
    """A line for each refusal, by every call that reads one; a block is open before it."""
    for (system, mode), fault in itertools.product(EACH, FAULTY):
        line = opened_line(book.scope, system, 0, 0, 8, settings(book.scope.code(system), 0, VARIABLE, 0, 3))
        line[-1] = SEPARATOR
        book.call("reader", system=system, mode=mode)
        for call in {"allowance": 2**63}, {}:
            book.put("line", bytes_of(line))
            book.call("read")
            book.call("read")
            book.put("line", bytes_of(wrong_line(book.scope, system, fault)))
            book.call("read_within" if call else "read", **call)
            book.told()
        book.call("check", system=system, mode=mode)
        book.found()
        book.call("list", system=system, mode=mode)
        book.said()


# ---- the writer


def heading(r, scope, system, block=None, flag=None):
    """Settings, as bytes; now and then such as are refused."""
    flag = r.randrange(2) if flag is None else flag
    if block is None:
        block = VARIABLE if r.random() < 0.6 else r.choice(fixed_types(scope, system, flag)) | r.choice([0, 0x40])
    values = settings(scope.code(system), r.randrange(2), block, flag, r.randrange(50))
    values[36:] = [r.randrange(256) for _ in range(5)]
    if r.random() < 0.12:
        values[r.randrange(4)] = r.choice([0, 2, 3, 0x80, 0xC0, 0x77, 0xFF, 0x09])
    return images.of_settings(values)


def values_of(r, mode, n):
    """Values, as bytes; now and then one that is too large."""
    values = [r.randrange(1 << mode) for _ in range(n)]
    if values and r.random() < 0.05:
        values[r.randrange(n)] = r.choice([256, 512, 65535])
    return bytes_of(values)


def block_for(r, book, mode):
    """A type and how many values, mostly such as the open line takes or the unfinished block has."""
    writer = images.writer_from(book.scope, book.state())
    if writer is not None and writer.rest and r.random() < 0.9:
        return writer.rest[:2]
    fixed = writer is not None and writer.place is not None and not writer.impossible() and writer.settings[2] != VARIABLE
    if fixed and r.random() < 0.85:
        return r.randrange(1, 256), writer.sizes()[2] - 1
    kind = r.choice([r.randrange(256), r.randrange(256), 256, 65535, 65536, 2**32 - 1] if r.random() < 0.1 else [r.randrange(256)])
    return kind, r.choice([0, 1, 2, 3, 4, 9, 100, r.randrange(400), r.randrange(2000)])


def add(book, r, mode, given):
    kind, n = block_for(r, book, mode)
    book.call("add", kind=kind, values=values_of(r, mode, n)[: 2 * n - (r.random() < 0.03 and n > 0)], **given)


def add_many(book, r, mode, given):
    words = []
    for _ in range(r.choice([0, 1, 2, 5, 40])):
        kind, n = block_for(r, book, mode)
        words += [min(kind, 65535), n]
        entry = values_of(r, mode, n)
        words += [entry[i] | entry[i + 1] << 8 for i in range(0, len(entry), 2)]
    if words and r.random() < 0.15:
        words = words[: r.randrange(len(words))]
    b = bytes_of(words[:20000])
    if r.random() < 0.3:
        book.count = r.randrange(2**64)
        book.tell(f"count {book.count}")
    book.call("add_many", values=b[: len(b) - (r.random() < 0.03 and len(b) > 0)], **given)


def pack(book, r, given):
    n = r.choice([0, 1, 3, 20, 100, 255] if r.random() < 0.9 else [256, 300])
    values = values_of(r, 9, n)
    book.call("packet", did=r.randrange(256), second=r.randrange(256), values=values[: len(values) - (r.random() < 0.03 and n > 0)], **given)


def open_next(book, r, system, number):
    """Opens a line with a number, the settings mostly those of an unfinished block. Answers and the next number."""
    frame = book.scope.systems[system][2]
    writer = images.writer_from(book.scope, book.state())
    again = writer is not None and writer.rest and r.random() < 0.95
    own = book.state()[37:78] if again else heading(r, book.scope, system)
    given = wrong_length(book, r, system, ["state", "line", "settings"]) if r.random() < 0.04 else {}
    number = r.choice([0, 626, 65535, 65536 + number, 2**32 - 1, number + 1]) if r.random() < 0.05 else number
    answer = book.call("open", f=r.randrange(2), v=r.randrange(2), number=number, settings=own, **given)
    return number % frame + 1 if answer == 0 else number % (frame + 1)


def write_line(book, r, system, mode):
    """Adds to the open line, and closes it."""
    for _ in range(r.choice([1, 3, 8])):
        given = wrong_length(book, r, system, ["state", "line"]) if r.random() < 0.04 else {}
        kind = r.random()
        if kind < 0.6:
            add(book, r, mode, given)
        elif kind < 0.8:
            add_many(book, r, mode, given)
        else:
            pack(book, r, given)
    book.call("close")


def sent(book):
    """Lines of every system and mode from a fresh writer, read by a fresh reader: the images of the two take turns in one buffer."""
    for k, (system, mode) in itertools.product(range(4), EACH):
        r = random.Random(f"sent {k} {system} {mode}")
        book.call("reader", system=system, mode=mode)
        reading = book.state()
        book.call("writer", system=system, mode=mode)
        number = r.randrange(1, 526)
        for _ in range(12):
            number = open_next(book, r, system, number)
            keep(book, system, mode)
            write_line(book, r, system, mode)
            keep(book, system, mode)
            writing = book.state()
            book.put("state", reading)
            listen(book, r, system)
            look(book, r, system, mode)
            reading = book.state()
            book.put("state", writing)


# ---- images that were changed


def changed(r, image):
    """An image with one to three bytes changed."""
    image = bytearray(image)
    for _ in range(r.choice([1, 1, 2, 3])):
        i = r.choice([r.randrange(80), r.randrange(37), r.randrange(16)])
        image[i] = r.choice([r.randrange(256), image[i] ^ 1 << r.randrange(8), (image[i] + 1) % 256, (image[i] - 1) % 256, 0, 1, 2, 255])
    return bytes(image)


def any_call(book, r, system, mode):
    """A call with a state, mostly one of the state's own kind, mostly with buffers as they should be."""
    reads = (book.state()[0] == ord("R")) == (r.random() < 0.9)
    given = {}
    if r.random() < 0.06:
        given = wrong_length(book, r, system, ["state", "line"])
    elif "line_len" not in given:
        given = {"line_len": book.line_bytes(system)}  # also where the system's byte was changed
    if reads:
        if r.random() < 0.5:
            book.call("read", **given)
        else:
            book.call("read_within", allowance=r.choice([0, 1, 3, 100, 2**64 - 1]), **given)
        return
    kind = r.randrange(5)
    if kind == 0:
        book.call("open", f=r.randrange(2), v=r.randrange(2), number=r.choice([r.randrange(1, 526), 65536]), settings=heading(r, book.scope, system), **given)
    elif kind == 1:
        book.call("add", kind=r.randrange(256), values=values_of(r, mode, r.choice([0, 4, 20])), **given)
    elif kind == 2:
        book.call("add_many", values=bytes_of([r.randrange(256), 1, r.randrange(256)] * r.randrange(4)), **given)
    elif kind == 3:
        pack(book, r, given)
    else:
        book.call("close", **given)


def junk(book):
    """Images that were met, with some bytes changed, lent to any call."""
    r = random.Random("junk")
    r.shuffle(book.pool)
    for system, mode, image, line in book.pool[:260]:
        book.put("line", line)
        for _ in range(60):
            book.put("state", changed(r, image))
            any_call(book, r, system, mode)


def samples(book):
    """Some images of each kind: fresh, with a line begun (open), in a block and not."""
    found = {}
    for system, mode, image, line in book.pool:
        found.setdefault((image[0], image[3], image[6], image[7], image[16]), (system, mode, image, line))
    return list(found.values())


def each_byte(book):
    """Every byte of an image changed, by itself."""
    r = random.Random("each byte")
    for system, mode, image, line in samples(book):
        book.put("line", line)
        call = "read" if image[0] == ord("R") else "close"
        for i in range(80):
            for b in {image[i] ^ 1, image[i] ^ 0x80, (image[i] + 2) % 256, r.randrange(256), image[i]}:
                book.put("state", image[:i] + bytes([b]) + image[i + 1 :])
                book.call(call, line_len=book.line_bytes(system))


# What is changed in an image, by offsets
FAULTS = {
    "the other's tag": lambda b: {0: b[0] ^ 5},
    "no tag": lambda b: {0: 0},
    "unknown system": lambda b: {1: 4},
    "unknown mode": lambda b: {2: 10},
    "unknown system and junk": lambda b: {1: 200, 0: 0, 3: 9, 79: 1},
    "unknown mode and junk": lambda b: {2: 7, 7: 77, 78: 1},
    "flag byte 2": lambda b: {3: 2},
    "begun byte 2": lambda b: {6: 2},
    "block byte 2": lambda b: {7: 2},
    "phase 7": lambda b: {7: 7},
    "last number 0 with flag 1": lambda b: {3: 1, 4: 0, 5: 0},
    "a last number without flag": lambda b: {3: 0, 4: 20},
    "a last number above N": lambda b: {3: 1, 4: 0xFF, 5: 0xFF},
    "a place without a line": lambda b: {6: 0, 8: 5},
    "a place of 2^56": lambda b: {6: 1, 15: 1},
    "mark 1 with phase 0": lambda b: {7: 0, 16: 1},
    "a type with phase 1": lambda b: {7: 1, 17: 9},
    "mark 3": lambda b: {7: 6, 16: 3},
    "a null with a type": lambda b: {7: 6, 16: 2, 17: 1},
    "no mark in data": lambda b: {7: 6, 16: 0},
    "a count byte too many": lambda b: {7: 3, 16: 1, 19: 1},
    "announced above 16,384": lambda b: {7: 6, 16: 1, 21: 1, 22: 64},
    "collected above 16,384": lambda b: {7: 6, 16: 1, 29: 1, 30: 64},
    "collected 2^63": lambda b: {7: 6, 16: 1, 36: 128},
    "the writer's byte 20": lambda b: {20: 1},
    "the writer's byte 29": lambda b: {29: 1},
    "a CRC of 19 bits": lambda b: {25: 4},
    "more gap used than there is": lambda b: {27: 0xFF, 28: 0xFF},
    "nothing laid": lambda b: {7: 1, 21: 0, 22: 0},
    "settings that are refused": lambda b: {37: 9},
    "byte 78": lambda b: {78: 1},
    "byte 79": lambda b: {79: 255},
}


def faults(book):
    """Each fault of an image, in each sample, by every call with a state; and the same with a buffer that is refused with 1."""
    r = random.Random("faults")
    for system, mode, image, line in samples(book):
        book.put("line", line)
        for fault in FAULTS.values():
            b = bytearray(image)
            for i, v in fault(image).items():
                b[i] = v
            for call in "read", "read_within", "open", "add", "add_many", "packet", "close":
                book.put("state", bytes(b))
                given = {"line_len": r.choice([book.line_bytes(system)] * 5 + [book.line_bytes(system) - 2])}
                more = {"read_within": {"allowance": 9}, "open": {"f": 0, "v": 1, "number": 5, "settings": heading(r, book.scope, system)}, "add": {"kind": 3, "values": b"\1\0"},
                        "add_many": {"values": b"\3\0\0\0"}, "packet": {"did": 1, "second": 2, "values": b""}}
                book.call(call, **given, **more.get(call, {}))


# ---- numbers and lengths


def open_line(book, system, mode, block=VARIABLE, flag=0):
    book.call("writer", system=system, mode=mode)
    own = images.of_settings(settings(book.scope.code(system), 0, block, flag, 7))
    book.call("open", f=0, v=0, number=20, settings=own)


def lengths(book):
    """Every buffer of every call with every wrong length; a fresh image stands in for those that need none."""
    for (system, mode), call in itertools.product(EACH, PARAMETERS):
        open_line(book, system, mode)
        if call in ("read", "read_within"):
            book.call("reader", system=system, mode=mode)
        numbers = {"system": system, "mode": mode, "allowance": 3, "f": 1, "v": 0, "number": 21, "kind": 3, "did": 5, "second": 6}
        if call == "open":
            book.call("close")
        line, gap = book.line_bytes(system), book.gap_bytes(system)
        wrong = WRONG_LENGTHS | {"line": (0, 1, line - 1, line + 1, line - 2, line + 2, 2 * line), "out": (0, gap - 1, gap + 1, gap - 2, gap + 2), "values": (1, 3, 40001)}
        names = [name.lower() for name in PARAMETERS[call].split() if name.isupper()]
        for name in names:
            given = {k: v for k, v in numbers.items() if k in PARAMETERS[call].split()}
            if "values" in names:
                given["values_len"] = 0
            if "settings" in names:
                book.put("settings", images.of_settings(settings(book.scope.code(system), 0, VARIABLE, 0, 7)))
            for n in wrong[name]:
                book.call(call, **(given | {f"{name}_len": n}))


def numbers(book):
    """Types, numbers and values at their bounds."""
    for system, mode in EACH:
        top = 1 << mode
        for kind in 0, 255, 256, 65535, 65536, 65537, 65536 + 7, 2**32 - 1:
            open_line(book, system, mode)
            book.call("add", kind=kind, values=b"")
        book.call("close")
        frame = book.scope.systems[system][2]
        for number in 0, frame, frame + 1, 65535, 65536, 65537, 65536 + 20, 2**32 - 1:
            book.call("writer", system=system, mode=mode)
            book.call("open", f=0, v=0, number=number, settings=images.of_settings(settings(book.scope.code(system), 0, VARIABLE, 1, 7)))
        book.call("add", kind=1, values=bytes_of([top - 1]))
    for (system, mode), n in itertools.product([(0, 8), (3, 9)], (16383, 16384, 16385, 16386, 20000, 40000)):
        top = 1 << mode
        for words in [5] * n, [5] * (n - 1) + [top], [top] + [5] * (n - 1):
            open_line(book, system, mode)
            book.call("add", kind=1, values=bytes_of(words))
            book.call("add_many", values=bytes_of([1, n, *words]))


def long_block(book):
    """A block of 16,384 values over many lines, written and read through the calls, by slices too."""
    for system, mode, flag in (0, 8, 1), (3, 9, 0):
        r = random.Random(system)
        values = bytes_of([r.randrange(1 << mode) for _ in range(16384)])
        own = images.of_settings(settings(book.scope.code(system), 0, VARIABLE, flag, 7))
        book.call("reader", system=system, mode=mode)
        reading, number, answer = book.state(), 520, 256
        book.call("writer", system=system, mode=mode)
        while answer == 256:
            book.call("open", f=0, v=0, number=number, settings=own)
            answer = book.call("add", kind=9, values=values)
            book.call("close")
            writing = book.state()
            book.put("state", reading)
            for _ in range(4):
                book.call("read_within", allowance=1000) if flag else book.call("read")
                book.told()
                if book.event() == "end":
                    break
            reading = book.state()
            book.put("state", writing)
            number = number % book.scope.systems[system][2] + 1
        book.show("room", images.ROOM)


def unknown(book):
    """Systems and modes that there are not: an image is made, and every call refuses it with 1."""
    for system, mode in (4, 8), (255, 9), (0, 7), (0, 10), (0, 0), (3, 255):
        for n in 3432, 4608, 0:
            book.call("reader", system=system, mode=mode)
            book.call("read", line_len=n)
            book.call("read_within", allowance=0, line_len=n)
            book.call("writer", system=system, mode=mode)
            book.call("add", kind=1, values=b"", line_len=n)
            book.call("close", line_len=n)
            book.call("check", system=system, mode=mode, line_len=n)
            book.call("list", system=system, mode=mode, line_len=n, out_len=430)
    for system in 0, 1, 2, 3, 4, 255:
        book.tell(f"sizes {system}", f"sizes {book.line_bytes(system)} {book.gap_bytes(system)}")


PARTS = [airs, refused, sent, junk, each_byte, faults, lengths, numbers, long_block, unknown]

# What each call has to have answered, and more that has to have been met
READ = {0, 1, 2, 3, 4, 5, 6, 7, 8, 9, 10, 11, 12, 13, 15, 16}
ANSWERS = {"reader": {0, 1}, "writer": {0, 1}, "read": READ, "read_within": READ, "open": {0, 1, 2, 9, 10, 11, 12, 13, 20}, "add": {0, 1, 2, 17, 18, 19, 20, 256},
           "add_many": {0, 1, 2, 17, 18, 19, 20, 28, 256}, "packet": {0, 1, 2, 17, 18, 20, 24}, "close": {0, 1, 2, 20}, "check": READ - {2}, "list": READ - {2}}


def missing(book):
    """What was not met."""
    wanted = [(call, n) for call, answers in ANSWERS.items() for n in sorted(answers)]
    wanted += images.KINDS + [("stop", n) for n in (0, 21, 22, 23)]
    yield from (f"the steps never meet {what}" for what in wanted if not book.met[what])
    yield from (f"a call gave what is none of its answers: {what}" for what in book.met if what[0] in ANSWERS and what[1] not in ANSWERS[what[0]])


def written(scope):
    """The book of all parts."""
    book = Book(scope)
    r = random.Random("room")
    for name in NAMES:
        book.put(name, r.randbytes(SPACE - 64))
    for part in PARTS:
        part(book)
    for name in NAMES:
        book.show(name, SPACE - 64)
    return book
