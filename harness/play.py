"""Steps played by the reader and the writer of 01. What a step does is said where it is done: in harness/steps.c, crates/heard/src and crates/player/src."""
import collections
import sys

import classing
import kinds
import lists
import nulls
from allowance import read_within, seen_of
from answers import answer
from packets import listed
from reader import IDLE, ROOM, Reader, said
from states import BUFFER, COUNT, HEADING, READER, SETTINGS, WRITER, of_phase, to_numbers, to_reader, to_writer
from words import VARIABLE, by_perl, by_python, byte_form, checksum, crc_of, crc_words, header, made, settings_by, word_of
from writer import DONE, Writer

STEPS = {"new", "open", "close", "words", "index", "data", "mix", "read", "view", "last", "at", "phase", "settings"}
STEPS |= {"Put", "Tell", "Impossible", "Make", "Room", "Open", "Add", "Close", "Words", "Sum", "Header", "Line", "Batch", "under", "Gap", "Find", "Kinds", "hear"}


class Register:
    """A register that Digest::CRC is still to compute, in a row."""

    def __init__(self, words):
        self.words = tuple(words)


def mixed(mode, u):
    k = u % 16
    if k < 2:
        return (0x309, 0x30A)[k]
    if k < 10:
        return 0x200
    return byte_form(u // 16 % 4) if k < 14 else word_of(mode, u // 16)


def made_words(kind, count, seed):
    """Words of a kind: the list over `made` in harness/steps.c, written again."""
    make = {0: lambda u: seed, 2: lambda u: u, 3: lambda u: u & 0x3FF, 28: lambda u: u & 0xFF, 29: lambda u: u & 0x1FF}
    for mode in 8, 9:
        make[mode] = lambda u, mode=mode: word_of(mode, u)
        make[mode + 10] = lambda u, mode=mode: mixed(mode, u)
    return [make[kind](u) for u in made(seed, count)]


class Play:
    """Each step is a method; a capital letter of a step is `big_` of a method. `rows` are the rows to be expected."""

    def __init__(self, scope):
        self.scope, self.line, self.room, self.rows = scope, [0] * BUFFER, [0] * 16385, []
        self.states = [[0] * COUNT for _ in range(3)]
        self.seen = collections.Counter()  # what happened, by a name and what it happened to
        self.events = collections.Counter()  # by mode and name, with the number of a drop or a refusal
        self.made, self.covered = None, []
        self.sent = []  # the line that the step `close` closed last

    def step(self, text):
        name, *numbers = text.split(" ")
        if name not in STEPS or not all(x.isdigit() for x in numbers):
            sys.exit(f"harness: no step of ours: {text}")
        method = f"big_{name.lower()}" if name[0].isupper() else name
        getattr(self, method)(*map(int, numbers))

    # States

    def new(self, system, mode):
        self.states[READER] = to_numbers(Reader(self.scope, system, mode))
        self.states[WRITER] = to_numbers(Writer(self.scope, system, mode))

    def big_put(self, which, first, *numbers):
        self.states[which][first : first + len(numbers)] = numbers

    def last(self, known, number=0):
        self.big_put(READER, 2, known, number)

    def at(self, known, place=0):
        self.big_put(READER, 4, known, place)

    def phase(self, number, kind=0, announced=0, collected=0):
        self.big_put(READER, 6, number, kind, *((1, 2, 3) if number < 6 else (announced, collected, 3)))

    def settings(self, *values):
        self.big_put(READER, SETTINGS, *settings_by(*values))

    def big_tell(self, which):
        system, mode = self.states[which][:2]
        self.seen["fresh", system, mode] += which == WRITER and self.states[which] == to_numbers(Writer(self.scope, system, mode))
        self.rows.append(["state", *self.states[which]])

    def big_impossible(self):
        reader = to_reader(self.scope, self.states[READER])
        both = [int(reader.impossible()), int(to_writer(self.scope, self.states[WRITER]).impossible())]
        self.seen["impossible", *both] += 1
        self.seen.update(kinds.of_phase(reader.phase, both[0]))
        self.rows.append(["impossible", *both])

    # Words of the line

    def system(self):
        return self.states[READER][0]

    def lay(self, place, words):
        length, payload, _ = self.scope.systems[self.system()]
        self.put_words(length - payload + place, words)

    def put_words(self, index, words):
        words = words[: BUFFER - index]
        self.line[index : index + len(words)] = words

    def words(self, place, *words):
        self.lay(place, words)

    def index(self, index, word):
        self.put_words(index, [word])

    def data(self, place, count, seed):
        self.lay(place, made_words(self.states[READER][1], count, seed))

    def mix(self, place, count, seed):
        self.lay(place, made_words(self.states[READER][1] + 10, count, seed))

    def big_make(self, index, count, kind, seed):
        self.put_words(index, made_words(kind, count, seed))

    # The writer's calls

    def lent(self, length, call):
        """Calls the writer with so many words of the line: the answer, and the register after them."""
        line = self.line[:length]
        writer = to_writer(self.scope, self.states[WRITER])
        given = call(writer, line)
        self.line[:length], self.states[WRITER] = line, to_numbers(writer)
        return given, Register(line)

    def open_by(self, length, number, timing):
        values = self.states[HEADING][SETTINGS:]
        return self.lent(length, lambda w, line: w.open(timing & 1, timing >> 1 & 1, number, values, line))

    def open(self, number, timing, aai, block, flag, to, source):
        system, mode = self.states[READER][:2]
        self.states[WRITER] = to_numbers(Writer(self.scope, system, mode))
        self.big_put(HEADING, SETTINGS, *settings_by(self.scope.code(system), aai, block, flag, 0, to, source))
        self.open_by(self.scope.systems[system][0], number, timing)

    def big_open(self, length, number, timing):
        before = to_writer(self.scope, self.states[WRITER])
        given, register = self.open_by(length, number, timing)
        self.seen.update(kinds.of_opening(before, number, self.states[HEADING][SETTINGS:], given))
        self.tell_call("opened", before, given, register)

    def close(self):
        """Words that other steps laid the writer knows nothing of: with flag 01h the CRC is then put right."""

        def closed(writer, line):
            given = writer.close(line)
            if given == DONE and writer.settings[3] == 1:
                line[-2:] = crc_of(line[writer.sizes()[0] : -2])
            return given

        length = self.scope.systems[self.system()][0]
        given, register = self.lent(length, closed)
        self.sent = self.line[:length]
        self.rows.append(["close", given, register])

    def big_close(self, length):
        before = to_writer(self.scope, self.states[WRITER])
        given, register = self.lent(length, Writer.close)
        self.seen.update(kinds.of_closing(before, self.line[:length], given))
        self.tell_call("closed", before, given, register)

    def big_room(self, index, count, kind, seed):
        self.made = kind, count
        count = min(count, len(self.room) - index)
        self.room[index : index + count] = made_words(kind, count, seed)

    def big_add(self, length, kind, count):
        before = to_writer(self.scope, self.states[WRITER])
        given, register = self.lent(length, lambda w, line: w.add(kind, self.room[:count], line))
        self.tell_call("added", before, given, register)
        if given == DONE:
            self.see_end(count, before.rest is not None)

    def big_batch(self, length, count):
        before = to_writer(self.scope, self.states[WRITER])
        words = (self.room + [0] * lists.MOST)[: min(count, lists.MOST)]
        (finished, given), register = self.lent(length, lambda w, line: lists.add_list(w, words, line))
        self.seen.update(lists.met(before, length, words, finished, given))
        self.rows.append(["batched", finished, given, register])

    def big_gap(self, length, did, second, count):
        before = to_writer(self.scope, self.states[WRITER])
        given, register = self.lent(length, lambda w, line: w.pack(did, second, self.room[:count], line))
        self.seen["packed", before.system, before.mode, given] += 1
        self.rows.append(["packed", given, register])

    def big_find(self, length, system, mode, room):
        lent = self.room[:room]
        given = listed(self.scope, system, mode, self.line[:length], lent)
        self.room[:room] = lent
        self.seen["listed", system, given[0], given[4]] += 1
        self.seen["packets", system, min(given[1], 3)] += 1
        self.rows.append(["listed", *given, Register(lent)])

    def tell_call(self, name, before, given, register):
        system, mode = self.states[WRITER][:2]
        self.seen.update(kinds.of_rest(name, before, given))
        self.seen.update(kinds.of_crc(name, before, given))
        self.seen[name, "system", system, given] += 1
        self.seen[name, "mode", mode, given] += 1
        self.rows.append([name, given, register])

    def see_end(self, count, begun):
        """01's run-only cases: 30Ah on the last word of an area, or first on the next line."""
        w = to_writer(self.scope, self.states[WRITER])
        start, end, _ = w.sizes()
        if self.line[start + w.place - 1] == 0x30A and (w.place == end or (begun and w.place == 1)):
            self.seen["end", w.mode, w.settings[3], count, w.place == 1] += 1

    # The reader's calls

    def read(self, times, length, room):
        row, reader = ["read"], to_reader(self.scope, self.states[READER])
        for _ in range(times):
            lent, held, phase, ended = self.room[:room], reader.settings, reader.phase, reader.nulls
            event = reader.read(self.line[:length], lent)
            self.room[:room] = lent
            self.seen.update(kinds.of_begun(reader.mode, held, reader.settings, event))
            self.seen.update(nulls.of_call(phase, ended, reader, event))
            row += [said(event), Register(lent[: event[2]])] if event[0] == "block" else [said(event)]
            self.count(reader, event)
            if event[0] in ("refused", "end"):
                break
        self.states[READER] = to_numbers(reader)
        self.rows.append(row + state_text(reader))

    def hear(self, length):
        """A line to its end, a row for each event, as the listing writes it."""
        reader, event = to_reader(self.scope, self.states[READER]), ("",)
        lent = self.room[:ROOM]
        while event[0] not in ("refused", "end"):
            event = reader.read(self.line[:length], lent)
            self.rows.append([said(event)])
        self.room[:ROOM], self.states[READER] = lent, to_numbers(reader)

    def under(self, times, length, room, allowance, below):
        allowance = 2**64 - 1 - allowance if below else allowance
        row, reader = ["under"], to_reader(self.scope, self.states[READER])
        for _ in range(times):
            lent, before, ended = self.room[:room], reader.place is not None, reader.nulls
            event, consumed = read_within(reader, allowance, self.line[:length], lent)
            self.room[:room] = lent
            self.seen.update(seen_of(reader, before, allowance, event, consumed))
            self.seen.update(nulls.of_pause(ended, reader, self.line, event, consumed))
            row += ["paused"] if event is None else [said(event), Register(lent[: event[2]])] if event[0] == "block" else [said(event)]
            row.append(consumed)
            if event is not None:
                self.count(reader, event)
                if event[0] in ("refused", "end"):
                    break
        self.states[READER] = to_numbers(reader)
        self.rows.append(row + state_text(reader))

    def count(self, r, event):
        name = event[0]
        if name in ("drop", "refused"):
            name += f" {event[1]}"
        if name == "begun" and r.phase != IDLE:
            name += " with an open block"
        if event[0] in ("begun", "refused") and event[-1]:
            name += " dropped"
        self.events[r.mode, name] += 1
        if event[0] == "drop":
            self.seen["drop", r.mode, event[1], {1: "first", r.sizes()[1]: "last"}.get(r.place, "middle")] += 1
        if event[0] == "begun":
            self.seen["jump", r.system, event[2]] += 1
        if event[0] == "block" and r.settings[2] != VARIABLE:
            self.seen["fixed", r.settings[2] & 0x3F, r.system // 2] += 1

    # What is shown

    def view(self):
        self.rows.append(["room", Register(self.room)])

    def big_words(self, index, count):
        self.rows.append(["words", *self.line[index : index + count]])

    def big_sum(self, index, count):
        """The register is Digest::CRC's, its words are crccheck's."""
        words = self.room[index : index + count]
        self.seen["crc", self.made] += self.made[1] == count
        self.rows.append(["crc", Register(words), *crc_words(by_python([words])[0]), checksum(words)])

    def big_kinds(self, first):
        self.rows.append(["kinds", first, classing.digits(first)])

    def big_header(self, number):
        h = header(number, self.states[HEADING][SETTINGS:], crc_of, crc_of)
        self.covered += [h[3:8], h[10:50]]
        self.rows.append(["header", *h])

    def big_line(self, length, system, mode):
        line = self.line[:length]
        fault, number, values = answer(self.scope, system, mode, line)
        self.seen["check", system, fault] += 1
        self.seen.update(kinds.of_line(self.scope, system, mode, line, fault))
        self.seen.update(kinds.of_burst(self.scope, system, mode, self.sent, line, fault))
        if fault == 0:
            self.seen["good", system, mode, *values[2:4]] += 1
        self.rows.append(["check", Register(line), fault, number, *(values or [0] * 41)])


def state_text(r):
    """A reader's state at the end of a row."""
    shown = ["none" if x is None else x for x in (r.last, r.place)]
    return ["last", shown[0], "place", shown[1], "phase", *of_phase(r.phase), "settings", *r.settings[:4]]


def played(scope, text):
    """The model after all steps."""
    play = Play(scope)
    for step in text.splitlines():
        if not step.startswith("#"):
            play.step(step)
    return play


def texts(rows):
    """The rows, with their registers computed."""
    lists = list(dict.fromkeys(x.words for row in rows for x in row if isinstance(x, Register)))
    registers = dict(zip(lists, by_perl(lists), strict=True))
    return [" ".join(str(registers[x.words] if isinstance(x, Register) else x) for x in row) for row in rows]
