"""The packets of BT.1364 in a line's gap, written from 02, Item 3, and not from our code."""
from answers import answer, is_byte, is_data
from words import byte_form, checksum, data_form

FLAG = [0x000, 0x3FF, 0x3FF]


def packet(did, second, values):
    """The words of a packet."""
    body = [byte_form(did), byte_form(second), byte_form(len(values)), *map(data_form, values)]
    return [*FLAG, *body, checksum(body)]


def found(gap):
    """The packets from the gap's first word on, each DID, second word and values; and the number of the bad packet that ended the list, or 0."""
    packets, at = [], 0
    while gap[at : at + 3] == FLAG:
        rest = gap[at + 3 :]
        count = rest[2] & 0xFF if len(rest) > 2 else 0
        if len(rest) < count + 4:
            return packets, 21
        body, total = rest[: count + 3], rest[count + 3]
        if not all(map(is_byte, body[:3])) or not all(map(is_data, [*body[3:], total])):
            return packets, 22
        if total != checksum(body):
            return packets, 23
        packets.append((body[0] & 0xFF, body[1] & 0xFF, [w & 0x1FF for w in body[3:]]))
        at += count + 7
    return packets, 0


def listed(scope, system, mode, line, out):
    """What the listing answers: fault, packets, words of the flat list and of the gap, stop. The list is laid in out."""
    fault = answer(scope, system, mode, line)[0]
    if fault == 1:
        return [1, 0, 0, 0, 0]
    length, payload, _ = scope.systems[system]
    if len(out) != length - payload - 61:
        return [1, 0, 0, 0, 0]
    if fault:
        return [fault, 0, 0, 0, 0]
    packets, stop = found(line[57 : length - payload - 4])
    flat = [x for did, second, values in packets for x in (did, second, len(values), *values)]
    out[: len(flat)] = flat
    return [0, len(packets), len(flat), sum(len(values) + 7 for _, _, values in packets), stop]
