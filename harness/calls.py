"""The calls of include/sdti.h, predicted: the library's call by the second reader and writer, on the state that the image gives. Written from 01 and 02, Item 1.

Each takes the bytes lent and gives the answer and, by name, the bytes that buffers have afterwards; a buffer that is not named is as it was."""
import sys
from array import array

import images
from allowance import read_within
from answers import answer
from lists import add_list
from packets import listed
from writer import UNFINISHED

C_UNFINISHED = 256
# What each call takes, in the order of the C functions; a name in capitals is a buffer, and its length follows it
PARAMETERS = {
    "reader": "system mode STATE",
    "writer": "system mode STATE",
    "read": "STATE LINE ROOM EVENT",
    "read_within": "STATE allowance LINE ROOM EVENT",
    "open": "STATE f v number SETTINGS LINE",
    "add": "STATE kind VALUES LINE",
    "add_many": "STATE VALUES LINE",
    "packet": "STATE did second VALUES LINE",
    "close": "STATE LINE",
    "check": "system mode LINE HEADER",
    "list": "system mode LINE OUT LISTED",
}


def words_of(b):
    words = array("H", bytes(b))
    if sys.byteorder == "big":
        words.byteswap()
    return words


def bytes_of(words):
    words = array("H", words)
    if sys.byteorder == "big":
        words.byteswap()
    return words.tobytes()


def is_odd(*buffers):
    return any(len(b) % 2 for b in buffers)


class Calls:
    """The names and the order of the lent things are those of the C functions."""

    def __init__(self, scope):
        self.scope = scope

    # Making

    def made(self, state, image):
        return (0, {"state": image}) if len(state) == images.STATE else (1, {})

    def reader(self, system, mode, state):
        return self.made(state, images.of_reader(images.Reader(self.scope, system, mode)))

    def writer(self, system, mode, state):
        return self.made(state, images.of_writer(images.Writer(self.scope, system, mode)))

    # What every call with a state is refused for first

    def early(self, state, line, state_from):
        """1 or 2 and no state, or 0 and the state."""
        if len(state) != images.STATE or is_odd(line) or not self.scope.fits(state[1], state[2], line[::2]):
            return 1, None
        held = state_from(self.scope, state)
        if held is None or held.impossible():
            return 2, None
        return 0, held

    # Reading

    def reading(self, state, line, room, event, call):
        if len(room) != images.ROOM or len(event) != images.EVENT:
            return 1, {}
        early, reader = self.early(state, line, images.reader_from)
        if early:
            return early, {}
        values = words_of(room)
        told, consumed = call(reader, [*words_of(line)], values)
        given = {"state": images.of_reader(reader), "event": images.of_event(told, consumed), "room": bytes_of(values)}
        return told[1] if told and told[0] == "refused" else 0, given

    def read(self, state, line, room, event):
        return self.reading(state, line, room, event, lambda reader, words, values: (reader.read(words, values), 0))

    def read_within(self, state, allowance, line, room, event):
        return self.reading(state, line, room, event, lambda reader, words, values: read_within(reader, allowance, words, values))

    # Writing

    def writing(self, state, line, call):
        """Call gives an answer; UNFINISHED has a number of its own in C."""
        early, writer = self.early(state, line, images.writer_from)
        if early:
            return early, {}
        words = [*words_of(line)]
        given = call(writer, words)
        return C_UNFINISHED if given == UNFINISHED else given, {"state": images.of_writer(writer), "line": bytes_of(words)}

    def open(self, state, f, v, number, settings, line):
        if len(settings) != images.SETTINGS:
            return 1, {}
        return self.writing(state, line, lambda writer, words: writer.open(f, v, number, images.settings_from(settings), words))

    def add(self, state, kind, values, line):
        if is_odd(values):
            return 1, {}
        return self.writing(state, line, lambda writer, words: writer.add(kind, words_of(values), words))

    def add_many(self, state, blocks, line):
        """Its third answer is how many were finished, None after 1 and 2."""
        if is_odd(blocks):
            return 1, {}, None
        finished = None

        def call(writer, words):
            nonlocal finished
            finished, given = add_list(writer, [*words_of(blocks)], words)
            return given

        return *self.writing(state, line, call), finished

    def packet(self, state, did, second, values, line):
        if is_odd(values):
            return 1, {}
        return self.writing(state, line, lambda writer, words: writer.pack(did, second, words_of(values), words))

    def close(self, state, line):
        return self.writing(state, line, lambda writer, words: writer.close(words))

    # Looking

    def check(self, system, mode, line, header):
        if len(header) != images.HEADER or is_odd(line):
            return 1, {}
        fault, number, values = answer(self.scope, system, mode, [*words_of(line)])
        if fault == 1:
            return 1, {}
        return fault, {"header": bytes(images.HEADER) if fault else images.low_first(number, 2) + images.of_settings(values)}

    def list(self, system, mode, line, out, said):
        if len(said) != images.LISTED or is_odd(line, out):
            return 1, {}
        flat = [*words_of(out)]
        fault, *numbers = listed(self.scope, system, mode, [*words_of(line)], flat)
        if fault == 1:
            return 1, {}
        return fault, {"out": bytes_of(flat), "listed": b"".join(images.low_first(n, 4) for n in numbers)}
