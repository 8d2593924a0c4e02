"""A book of steps, for the cases in script.py and its parts."""
from states import BUFFER, HEADING, SETTINGS, WRITER
from words import VARIABLE, block_words, byte_form, settings

ROOM = 16384
TO, SOURCE = 11, 12  # the seeds of the addresses


class Book:
    """The steps so far, and what the next line needs: system, mode, and the line's number."""

    def __init__(self, scope):
        self.scope, self.steps, self.seed = scope, [], 0
        self.headed = None  # the settings of the heading

    def step(self, name, *numbers):
        self.steps.append(" ".join(map(str, [name, *numbers])))

    def note(self, text):
        self.steps.append(f"# {text}")

    def new(self, system, mode, number=20):
        self.system, self.mode, self.number = system, mode, number
        self.step("new", system, mode)

    def area(self, flag):
        return self.scope.systems[self.system][1] - 2 * flag

    def open(self, flag=0, block=VARIABLE, aai=0, timing=0, to=TO, source=SOURCE, number=None):
        """Opens the next line, or one of that number."""
        number = number or self.number
        self.number = number % self.scope.systems[self.system][2] + 1
        self.headed = None  # the step makes a heading of its own
        self.step("open", number, timing, aai, block, flag, to, source)

    def words(self, place, words):
        for k in range(0, len(words), 7):
            self.step("words", place + k, *words[k : k + 7])

    def data(self, place, count):
        self.seed += 1
        self.step("data", place, count, self.seed)

    def read(self, times=2000, length=None, room=ROOM):
        self.step("read", times, length or self.scope.systems[self.system][0], room)

    def line(self, place=0, words=(), **how):
        """A line with these words, closed and read."""
        self.open(**how)
        self.words(place, list(words))
        self.step("close")
        self.read()

    def left_open(self, words, **how):
        """A line that ends with these words."""
        self.line(self.area(0) - len(words), words, **how)

    def piece(self, place, piece):
        """Words, or a number of data words."""
        if isinstance(piece, int):
            self.data(place, piece)
        else:
            self.words(place, piece)

    # The writer by itself: each call has a row

    def fresh(self, system, mode, length=None):
        """A fresh writer, and a line of words that are 0."""
        self.system, self.mode = system, mode
        self.length = length or self.scope.systems[system][0]
        self.step("new", system, mode)
        self.step("Make", 0, BUFFER, 0, 0)
        self.step("Tell", WRITER)

    def head(self, values):
        """The settings that a line is opened with."""
        if values != self.headed:
            self.step("Put", HEADING, SETTINGS, *values)
        self.headed = values

    def begin(self, number, values, f=0, v=0):
        self.head(values)
        self.step("Open", self.length, number, f + 2 * v)

    def begin_by(self, number, code, aai, block, flag, seed, reserved=0):
        """With addresses from a seed; F is its B1, V its B2."""
        self.begin(number, settings(code, aai, block, flag, seed)[:-1] + [reserved], seed >> 1 & 1, seed >> 2 & 1)

    def add(self, kind, count, seed, place=None, value=0):
        """A block of values made from a seed, with one of them changed, or none."""
        self.step("Room", 0, count, 28 if self.mode == 8 else 29, seed)
        if place is not None:
            self.step("Room", place, 1, 0, value)
        self.step("Add", self.length, kind, count)

    def end(self):
        self.step("Close", self.length)

    # Lines read

    def stream(self, first, runs, flag=0, later=False):
        """Runs from a place on (below 0: of the line before), over as many lines as they need, each read to its end. later: they
        are laid after the line was begun."""
        pieces = list(cut(first, self.area(flag), runs))
        for i in range(pieces[0][0], pieces[-1][0] + 1):
            self.open(flag=flag)
            if later:
                self.step("close")
                self.read(1)
            for line, place, piece in pieces:
                if line == i:
                    self.piece(place, piece)
            if not later:
                self.step("close")
            self.read()


def cut(first, area, runs):
    """Runs, each a list of words or a number of data words, cut where an area ends: line, place and piece."""
    at = first
    for run in runs:
        size = run if isinstance(run, int) else len(run)
        while size:
            many = min(size, area - at % area)
            yield at // area, at % area, many if isinstance(run, int) else run[len(run) - size :][:many]
            at, size = at + many, size - many


def whole(kind, *values):
    """A block in 8-bit form, which both modes take."""
    return block_words(kind, [*map(byte_form, values)])
