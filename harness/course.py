"""What a reader and a writer both hold of a course of lines, and what of it is impossible; written from 01 and not from our code."""
from words import VARIABLE, settings_fault

MOST = 16384  # values of a block


class Course:
    """System, mode, the last number (the writer's: last opened), the last settings, and the place in the begun (open) line."""

    def __init__(self, scope, system, mode):
        self.scope, self.system, self.mode = scope, system, mode
        self.last = None
        self.settings = [0] * 41  # as words.settings gives them
        self.place = None

    def fits(self, line):
        """A system and a mode that there are, and a line of the system's length."""
        return self.scope.fits(self.system, self.mode, line)

    def sizes(self):
        """Where the payload begins, how many words of it blocks may stand in, and how many a fixed block has (variable: 1)."""
        length, payload, _ = self.scope.systems[self.system]
        block, flag = self.settings[2:4]
        if block == VARIABLE:
            return length - payload, payload - 2 * flag, 1
        size, at270, at360 = self.scope.fixed[block & 0x3F]
        return length - payload, size * (at270 if payload == 1440 else at360), size

    def next_number(self):
        return 1 if self.last == self.scope.systems[self.system][2] else self.last + 1

    def impossible_with(self, busy):
        """The shared part of 01's rule; busy: an open phase, or an unfinished block."""
        if self.last is None:
            return busy or self.place is not None
        if not 1 <= self.last <= self.scope.systems[self.system][2] or settings_fault(self.scope, self.system, self.settings):
            return True
        _, end, size = self.sizes()
        if self.place is not None and (self.place > end or self.place % size):
            return True
        return busy and self.settings[2] != VARIABLE
