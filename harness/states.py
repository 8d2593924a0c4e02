"""A state as 52 numbers, in the order that is said at the top of harness/steps.c."""
from reader import IDLE, TYPE, Reader
from writer import Writer

COUNT, BUFFER = 52, 2305  # numbers of a state, words of the line's buffer
SETTINGS = 11  # where the settings begin
READER, WRITER, HEADING = range(3)


def held(x):
    """Whether there is a number, and which."""
    return [0, 0] if x is None else [1, x]


def of_phase(phase):
    """0 idle, 1 type awaited, 2 to 5 a count byte awaited, 6 data."""
    name, *values = phase
    return [{"idle": 0, "type": 1, "count": 1 + len(values), "data": 6}[name], *values]


USED = 65536  # the words used of the gap stand beside the writer's last number, so many times


def to_numbers(state):
    """The numbers of a reader or a writer."""
    if isinstance(state, Reader):
        five = of_phase(state.phase)
    else:
        five = [0, 0, 0, 0] if state.rest is None else [1, *state.rest]
        five.append(state.crc)
    five += [0] * (5 - len(five))
    last = held(state.last)
    last[1] += USED * getattr(state, "used", 0)
    return [state.system, state.mode, *last, *held(state.place), *five, *state.settings]


def fill(state, numbers):
    state.last = numbers[3] if numbers[2] else None
    state.place = numbers[5] if numbers[4] else None
    state.settings = numbers[SETTINGS:]
    return state


def to_reader(scope, numbers):
    reader = fill(Reader(scope, *numbers[:2]), numbers)
    phase, kind, *values = numbers[6:SETTINGS]
    counts = [("count", kind, *values[:n]) for n in range(4)]
    reader.phase = [IDLE, TYPE, *counts, ("data", kind, *values[:2])][phase]
    return reader


def to_writer(scope, numbers):
    writer = fill(Writer(scope, *numbers[:2]), numbers)
    writer.rest = tuple(numbers[7:10]) if numbers[6] else None
    writer.crc = numbers[10]
    writer.used = numbers[3] // USED
    writer.last = numbers[3] % USED if numbers[2] else None
    return writer
