"""The writer of 01, written from 01 and not from our code."""
from course import MOST, Course
from packets import packet
from words import ALL_ONES, FILLER, VARIABLE, block_words, byte_form, crc_words, opened_line, settings_fault, taken_on, word_of

DONE, UNFINISHED = 0, 100


class Writer(Course):
    """A call gives DONE (adding: finished), UNFINISHED, or the number of a refusal."""

    rest = None  # an unfinished block: type, n, words laid
    crc = ALL_ONES  # of the area words laid in this line
    used = 0  # words of its gap in which packets stand

    def impossible(self):
        if self.impossible_with(self.rest is not None) or self.crc > ALL_ONES or self.used > self.gap():
            return True
        if self.rest is None:
            return False
        _, n, laid = self.rest
        return n > MOST or not 1 <= laid <= n + 6

    def gap(self):
        """How many words the gap of a line has."""
        length, payload, _ = self.scope.systems.get(self.system, (61, 0, 0))
        return length - payload - 61

    def refused(self, line):
        """What each call is refused for first."""
        if not self.fits(line):
            return 1
        return 2 if self.impossible() else 0

    def open(self, f, v, number, values, line):
        fault = self.refused(line)
        if fault:
            return fault
        if not 1 <= number <= self.scope.systems[self.system][2]:
            return 9
        fault = settings_fault(self.scope, self.system, values)
        if fault:
            return fault
        if self.place is not None or (self.rest and (values != self.settings or number != self.next_number())):
            return 20
        line[:] = opened_line(self.scope, self.system, f, v, number, values)
        self.last, self.settings, self.place, self.crc, self.used = number, values, 0, ALL_ONES, 0
        return DONE

    def ill_shaped(self, kind, n):
        if n > MOST or kind > 0xFF:
            return True
        if self.place is None or self.settings[2] == VARIABLE:
            return False
        return n != self.sizes()[2] - 1 or kind == 0

    def add_fault(self, kind, values, line):
        fault = self.refused(line)
        if fault:
            return fault
        if any(v > (255 if self.mode == 8 else 511) for v in values):
            return 17
        if self.ill_shaped(kind, len(values)):
            return 18
        if self.place is None:
            return 20
        if self.place == self.sizes()[1]:
            return 19
        return 20 if self.rest and self.rest[:2] != (kind, len(values)) else 0

    def words(self, kind, values):
        """The words of a block."""
        data = [word_of(self.mode, v) for v in values]
        return block_words(kind, data) if self.settings[2] == VARIABLE else [byte_form(kind), *data]

    def add(self, kind, values, line):
        fault = self.add_fault(kind, values, line)
        if fault:
            return fault
        start, end, _ = self.sizes()
        whole = self.words(kind, values)
        laid = self.rest[2] if self.rest else 0
        words = whole[laid:][: end - self.place]
        line[start + self.place : start + self.place + len(words)] = words
        self.place += len(words)
        self.crc = taken_on(self.crc, words)
        laid += len(words)
        self.rest = None if laid == len(whole) else (kind, len(values), laid)
        return UNFINISHED if self.rest else DONE

    def pack(self, did, second, values, line):
        """02, Item 3: a packet in the gap."""
        fault = self.refused(line)
        if fault:
            return fault
        if any(v > 511 for v in values):
            return 17
        if len(values) > 255:
            return 18
        if self.place is None:
            return 20
        words = packet(did, second, values)
        if self.used + len(words) > self.gap():
            return 24
        line[57 + self.used : 57 + self.used + len(words)] = words
        self.used += len(words)
        return DONE

    def close(self, line):
        fault = self.refused(line)
        if fault:
            return fault
        if self.place is None:
            return 20
        start, end, _ = self.sizes()
        if self.rest and self.place < end:
            return 20
        if self.settings[3] == 1:
            left = len(line) - 2 - start - self.place
            line[-2:] = crc_words(taken_on(self.crc, [FILLER] * left))
        self.place, self.crc = None, ALL_ONES
        return DONE
