"""Streams of lines of system 0, 8-bit, good and hostile, as bytes, from fixed seeds: blocks and nulls over line ends, with a stated count and without, fixed lines, filler,
storms of 309h, 30Ah and 100h, wrong counts; lines lost, repeated, spoiled, out of order, with changed settings in mid-block, words of 400h and above, and cut ends."""
from words import VARIABLE, block_head, byte_form, crc_of, opened_line, settings

SEPARATOR, END_CODE, NULL, FILLER = 0x309, 0x30A, 0x100, 0x200


def block_words(r):
    """A block's words, now and then not as they should be."""
    n = r.choice([0, 1, 2, 3, 5, 30, 200, 1433, 1434, r.randrange(4000), r.choice([16384, 16390]) if r.random() < 0.2 else 7])
    count = r.choice([n, n, n, n, 0, n + 1, max(n - 1, 0), 16385, 1 << 24])
    words = block_head(r.randrange(256), count) + [byte_form(r.randrange(256)) for _ in range(n)]
    if r.random() < 0.15:
        words[1] = NULL
    for _ in range(r.choice([0, 0, 0, 1])):
        words[r.randrange(1, len(words))] = r.choice([SEPARATOR, END_CODE, NULL, FILLER])
    return words + [END_CODE] * r.choice([1, 1, 1, 1, 0])


def flow(r):
    """Words of variable lines, without end."""
    while True:
        kind = r.randrange(10)
        if kind == 0:
            yield from [FILLER] * r.randrange(400)
        elif kind == 1:
            yield from (r.choice([SEPARATOR, END_CODE, NULL, FILLER, byte_form(r.randrange(256))]) for _ in range(r.randrange(60)))
        else:
            yield from block_words(r)


def places(r, scope, block, end):
    """The area of a fixed line: places filled and empty, and a rest that is not all filler."""
    size, count, _ = scope.fixed[block & 0x3F]
    words = []
    for _ in range(count):
        kind = r.choice([0, r.randrange(256)])
        words += [byte_form(kind), *(byte_form(r.randrange(256)) for _ in range(size - 1))]
        if r.random() < 0.1:
            words[-r.choice([size, r.randrange(1, size + 1)])] = NULL
    return words + [byte_form(r.randrange(256)) for _ in range(end - len(words))]


def spoiled(r, line, start):
    """A line with a word changed anywhere; its payload begins at start."""
    line, length = list(line), len(line)
    i = r.choice([0, 3, r.randrange(4, 57), r.randrange(start - 4, start), r.randrange(start, length), length - 1, r.randrange(length)])
    line[i] = r.choice([line[i] ^ 1 << r.randrange(10), r.randrange(0x400, 0x10000), r.randrange(0x400), SEPARATOR])
    return line


def stream(r, scope):
    """The bytes of a stream, cut or whole."""
    length, payload, frame = scope.systems[0]
    lines, words, number = [], flow(r), r.randrange(1, frame + 1)
    seed, flag, aai = r.randrange(1000), r.randrange(2), 0
    for _ in range(r.randrange(1, 12)):
        block = VARIABLE
        if r.random() < 0.15:
            block = r.choice([k for k in scope.fixed if scope.fixed[k][1] and k not in (0x37, 0x38)]) | r.choice([0, 0x40])
        if r.random() < 0.1:
            seed, flag, aai = r.choice([(seed + 1, flag, aai), (seed, 1 - flag, aai), (seed, flag, 1 - aai)])
        line = opened_line(scope, 0, r.randrange(2), r.randrange(2), number, settings(1, aai, block, flag, seed))
        end = payload - 2 * flag
        area = [next(words) for _ in range(end)] if block == VARIABLE else places(r, scope, block, end)
        line[length - payload :] = area + (crc_of(area) if flag else [])
        fate = r.random()
        if fate < 0.1:
            lines.append(spoiled(r, line, length - payload))
        elif fate < 0.15:
            lines += [line, line]
        elif fate < 0.9:
            lines.append(line)
        number = number % frame + 1 if r.random() < 0.9 else r.randrange(1, frame + 1)
    data = b"".join(w.to_bytes(2, "little") for line in lines for w in line)
    return data[: r.randrange(len(data) + 1)] if r.random() < 0.3 else data


def longest(scope):
    """A line that leaves a block open, a line of 309h alone, each of which is drop 1, and a line after it; and the rows of the second."""
    length, payload, _ = scope.systems[0]
    data = b""
    for number, area in (20, [FILLER] * (payload - 1) + [SEPARATOR]), (21, [SEPARATOR] * payload), (22, block_head(1, 0)[1:] + [END_CODE]):
        line = opened_line(scope, 0, 0, 0, number, settings(1, 0, VARIABLE, 0, 5))
        line[length - payload : length - payload + len(area)] = area
        data += b"".join(w.to_bytes(2, "little") for w in line)
    return data, ["begun 21 0", *["drop 1"] * payload, "end"]
