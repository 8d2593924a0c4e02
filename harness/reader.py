"""The reader of 01, "The reader, step by step", with the nulls of 02, Item 2; written from 01 and 02 and not from our code."""
from answers import answer, is_byte
from course import MOST, Course
from words import VARIABLE

ROOM = MOST
IDLE, TYPE = ("idle",), ("type",)  # the others: ("count", type, bytes so far ..), ("data", type, announced, collected)
NULL = 0x100  # the type word of a null, and its type in a phase


class Reader(Course):
    """Its state has 01's names. A call's event is a tuple: ("refused", answer, dropped), ("begun", number, jump or None, dropped),
    ("block", type, length), ("drop", reason) or ("end",)."""

    phase = IDLE
    nulls, dropped_null = 0, False  # nulls that ended, and whether the last drop was one's: for what the rows have to hold

    def read(self, line, room):
        """A reading call."""
        if not self.fits(line) or len(room) != ROOM:
            return "refused", 1, False
        if self.impossible():
            return "refused", 2, False
        return self.begin(line) if self.place is None else self.go_on(line, room)

    def impossible(self):
        if self.impossible_with(self.phase != IDLE):
            return True
        if self.phase[0] == "count":
            return len(self.phase) - 2 >= 4
        if self.phase[0] == "data":
            announced, collected = self.phase[2:]
            return announced > MOST or collected > MOST or 0 < announced < collected
        return False

    def jump(self, number):
        """Line number less expected number, folded by N; None for unknown."""
        if self.last is None:
            return None
        lines = self.scope.systems[self.system][2]
        half = lines // 2
        return (number - self.next_number() + half) % lines - half

    def begin(self, line):
        fault, number, settings = answer(self.scope, self.system, self.mode, line)
        is_open = self.phase != IDLE
        if fault:
            self.phase, self.last = IDLE, None
            return "refused", fault, is_open
        jump = self.jump(number)
        dropped = is_open and not (jump == 0 and settings == self.settings)
        if dropped:
            self.phase = IDLE
        self.last, self.settings, self.place = number, settings, 0
        return "begun", number, jump, dropped

    def value(self, w):
        return w & (0xFF if self.mode == 8 else 0x1FF)

    def go_on(self, line, room):
        start, end, size = self.sizes()
        area = line[start:]
        while self.place < end:
            words = area[self.place : self.place + size]
            self.place += size
            event = self.word(words[0], room) if self.settings[2] == VARIABLE else self.fixed(words, room)
            if event:
                return event
        self.place = None
        return ("end",)

    def fixed(self, words, room):
        """A place of a fixed line."""
        if words[0] == NULL:
            return None
        if not is_byte(words[0]):
            return "drop", 2
        if words[0] == 0x200:
            return None
        if self.mode == 8 and NULL in words[1:]:
            return "drop", 7
        for i, w in enumerate(words[1:]):
            room[i] = self.value(w)
        return "block", words[0] & 0xFF, len(words) - 1

    def drop(self, reason):
        self.dropped_null = NULL in self.phase[1:2]
        self.phase = TYPE if reason == 1 else IDLE
        return "drop", reason

    def word(self, w, room):
        """A word of a variable line."""
        if self.phase == IDLE:
            self.phase = TYPE if w == 0x309 else IDLE
            return None
        if w == 0x309:
            return self.drop(1)
        return self.data(w, room) if self.phase[0] == "data" else self.head(w)

    def head(self, w):
        """Type or count awaited."""
        if w == 0x30A:
            return self.drop(4)
        if w == NULL and self.phase == TYPE:
            self.phase = ("count", NULL)
            return None
        if not is_byte(w):
            return self.drop(2 if self.phase == TYPE else 3)
        if self.phase == TYPE:
            self.phase = ("count", w & 0xFF)
            return None
        self.phase += (w & 0xFF,)
        kind, *count = self.phase[1:]
        if len(count) == 4:
            n = int.from_bytes(bytes(count), "little")
            if n > ROOM:
                return self.drop(3)
            self.phase = ("data", kind, n, 0)
        return None

    def data(self, w, room):
        _, kind, announced, collected = self.phase
        if w == 0x30A:
            if announced not in (0, collected):
                return self.drop(4)
            self.phase = IDLE
            if kind == NULL:
                self.nulls += 1
                return None
            return "block", kind, collected
        if announced and collected == announced:
            return self.drop(5)
        if collected == ROOM:
            return self.drop(6)
        if self.mode == 8 and w == NULL:
            return self.drop(7)
        room[collected] = self.value(w)
        self.phase = ("data", kind, announced, collected + 1)
        return None


def said(event):
    """An event as the listing writes it."""
    name, *values = event
    if name == "begun":
        values[1] = "unknown" if values[1] is None else values[1]
    if name in ("begun", "refused"):
        values[-1:] = ["dropped"] if values[-1] else []
    return " ".join(map(str, [name, *values]))


def listed(scope, data):
    """The rows of a listing: lines of system 0, 8-bit, two bytes a word."""
    reader, room, rows, size = Reader(scope, 0, 8), [0] * ROOM, [], 2 * scope.systems[0][0]
    for at in range(0, len(data), size):
        part = data[at : at + size]
        if len(part) < size:
            return [*rows, "refused 1"]
        line = [part[i] | part[i + 1] << 8 for i in range(0, len(part), 2)]
        event = ("",)
        while event[0] not in ("end", "refused"):
            event = reader.read(line, room)
            rows.append(said(event))
    return rows
