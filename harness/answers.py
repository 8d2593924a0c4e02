"""What the line check answers, by 01's table "Numbered answers", condition by condition, and 02, Item 2; written from these, not from our code."""
from words import FIRST_SIX, VARIABLE, byte_form, checksum, crc_of, settings_fault, timing


def is_data(w):
    return 0x100 <= w <= 0x2FF


def is_byte(w):
    return is_data(w) and w == byte_form(w)


def answer(scope, system, mode, line):
    """The number of the answer, 0 where there is no fault; and then the line number and the settings."""
    if not scope.fits(system, mode, line):
        return 1, 0, []
    length, payload, lines = scope.systems[system]
    start = length - payload
    if not any(line[:4] == timing(f, v, 1) and line[start - 4 : start] == timing(f, v, 0) for f in (0, 1) for v in (0, 1)):
        return 3, 0, []
    h = line[4:57]
    if h[:6] != FIRST_SIX:
        return 4, 0, []
    in_byte_form, in_data_form = h[6:8] + h[10:50], h[8:10] + h[50:53]
    if not all(map(is_byte, in_byte_form)) or not all(map(is_data, in_data_form)):
        return 5, 0, []
    if h[52] != checksum(h[3:52]):
        return 6, 0, []
    if h[8:10] != crc_of(h[3:8]):
        return 7, 0, []
    if h[50:52] != crc_of(h[10:50]):
        return 8, 0, []
    b = [w & 0xFF for w in h]
    number = b[6] | (b[7] & 3) << 8
    if not 1 <= number <= lines or b[7] & 0xFC:
        return 9, 0, []
    values = [b[10] & 15, b[10] >> 4, b[43], b[44], *b[11:43], *b[45:50]]
    fault = settings_fault(scope, system, values)
    if fault:
        return fault, 0, []
    block, flag = values[2:4]
    area, end = (line[start:-2], line[-2:]) if flag == 1 else (line[start:], [])
    more = (0x309, 0x30A) if block == VARIABLE else ()
    if not all(w in more or (is_byte(w) or w == 0x100 if mode == 8 else is_data(w)) for w in area) or not all(map(is_data, end)):
        return 15, 0, []
    if flag == 1 and end != crc_of(area):
        return 16, 0, []
    return 0, number, values
