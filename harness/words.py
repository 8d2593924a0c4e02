"""What the scripts share: 01's tables, forms of words, headers, and the CRC by programs that are not ours.

Written from 01, not from our code. The two programs: crccheck (Python) and Digest::CRC (Perl), both from Debian.
"""
import functools
import re
import subprocess
import sys

from crccheck.crc import Crc

ALL_ONES = 0x3FFFF
FIRST_SIX = [0x000, 0x3FF, 0x3FF, 0x140, 0x101, 0x22E]
FILLER = 0x200
VARIABLE = 0xC1


def fixed_blocks(text):
    """01h 1438 1/1; 02h 719 2/2; .. in 01, where "none" stands for no places: by type, the size, the places at 270 and at 360."""
    part = text.split("\n## Fixed blocks\n")[1].split("\n## ")[0]
    table = {}
    for key, *numbers in re.findall(r"\b([0-9A-F]{2})h (\d+) (\d+|none)/(\d+|none)", part):
        if int(key, 16) in table:
            sys.exit(f"harness: 01 has {key}h twice")
        table[int(key, 16)] = tuple(0 if x == "none" else int(x) for x in numbers)
    return table


def data_form(v):
    """Nine bits, and B9 the complement of B8."""
    v &= 0x1FF
    return v | (0 if v & 0x100 else 0x200)


def byte_form(v):
    """Eight bits, B8 their parity, B9 the complement of B8."""
    v &= 0xFF
    return data_form(v | (bin(v).count("1") % 2) << 8)


def word_of(mode, v):
    """A value in the mode's form."""
    return byte_form(v) if mode == 8 else data_form(v)


def block_head(kind, count):
    """309h, the type, and the count's four bytes."""
    return [0x309, byte_form(kind), *map(byte_form, count.to_bytes(4, "little"))]


def block_words(kind, data):
    """A variable block with these data words."""
    return block_head(kind, len(data)) + [*data, 0x30A]


def made(seed, count):
    """Numbers of sixteen bits: the rule over `next` in harness/steps.c, written again."""
    numbers, x = [], seed
    for _ in range(count):
        x = (x * 1664525 + 1013904223) & 0xFFFFFFFF
        numbers.append(x >> 16)
    return numbers


def before_zeros(c, k):
    """The register that becomes c after k bits that are 0: the step of 01, backwards."""
    for _ in range(k):
        f = c >> 17  # what was fed back stands in C17; C13 and C12 were flipped by it too
        c = ((c ^ f * (1 << 17 | 1 << 13 | 1 << 12)) << 1 | f) & ALL_ONES
    return c


def whole_bytes(words, register=ALL_ONES):
    """The bits of the words, B0 first, as whole bytes, and the register to start from, so that they are taken on from that register.

    The two programs take bytes, and ten bits a word are not always whole bytes. So k zero bits go in FRONT, and the
    start is the register that these zeros turn into the one asked for. Only the start is made here; every bit of the list
    goes through the other program.
    """
    number = 0
    for i, w in enumerate(words):
        number |= (w & 0x3FF) << 10 * i
    bits = 10 * len(words)
    k = -bits % 8
    return (number << k).to_bytes((bits + k) // 8, "little"), before_zeros(register, k)


def mirrored(c):
    """Both programs take the start with its highest bit first, also where the bits are reflected."""
    return int(format(c, "018b")[::-1], 2)


def taken_on(register, words):
    """The register after the words, from any register, by crccheck."""
    b, start = whole_bytes(words, register)
    # width, polynomial, start, reflected in, reflected out, no final inversion
    return Crc(18, 0x31, mirrored(start), True, True, 0).process(b).final()


def by_python(lists):
    """The register after each list of words, by crccheck."""
    return [taken_on(ALL_ONES, words) for words in lists]


def by_perl(lists):
    """The register after each list of words, by Digest::CRC."""
    # crc(input, width, init, xorout, refout, poly, refin, cont)
    code = 'use Digest::CRC "crc"; while (<>) { my ($i, $h) = split; print crc(pack("H*", $h // ""), 18, $i, 0, 1, 0x31, 1, 0), "\\n" }'
    text = "".join(f"{mirrored(start)} {b.hex()}\n" for b, start in map(whole_bytes, lists))
    out = subprocess.run(["/usr/bin/perl", "-e", code], input=text, capture_output=True, text=True, check=True).stdout
    return [int(line) for line in out.split()]


def crc_words(register):
    """C8-C0 and then C17-C9, each in data form."""
    return [data_form(register), data_form(register >> 9)]


def checksum(words):
    """The sum of the nine low bits, modulo 512, in data form."""
    return data_form(sum(w & 0x1FF for w in words))


@functools.cache
def crc_of_tuple(words):
    return crc_words(by_python([words])[0])


def crc_of(words):
    """The two CRC words of words, by crccheck."""
    return crc_of_tuple(tuple(words))


class Scope:
    """The two tables of 01 that lines and answers need."""

    def __init__(self, path, script):
        with open(path, encoding="utf-8") as f:
            text = f.read()
        # | System | Rate, frame | Line length L | Payload P | Lines N |
        table = re.findall(r"^\| (\d) \| (?:270|360), (?:525|625) \| (\d+) \| (\d+) \| (\d+) \|$", text, re.M)
        self.systems = {int(row[0]): tuple(map(int, row[1:])) for row in table}
        self.fixed = fixed_blocks(text)
        if len(self.systems) != 4 or len(self.fixed) < 30:
            sys.exit(f"{script}: cannot read the tables of 01")

    def code(self, system):
        """Code 1 is P 1440, code 2 is P 1920."""
        return {1440: 1, 1920: 2}[self.systems[system][1]]

    def fits(self, system, mode, line):
        """A system and a mode that there are, and a line of the system's length."""
        return system in self.systems and mode in (8, 9) and len(line) == self.systems[system][0]


def settings(code, aai, block, flag, seed):
    """Code, AAI, block type, flag, destination, source, reserved, as the check hands them out."""
    v = [x & 0xFF for x in made(seed, 32)]
    return [code, aai, block, flag, *v, 0, 0, 0, 0, 0]


def settings_by(code, aai, block, flag, reserved, to, source):
    """The same with a seed for each address, and the last reserved byte."""
    return [code, aai, block, flag, *(x & 0xFF for x in made(to, 16) + made(source, 16)), 0, 0, 0, 0, reserved]


def header(number, values, line_crc, header_crc):
    """The 53 words; each CRC is a function of the words it covers."""
    code, aai, block, flag = values[:4]
    h = FIRST_SIX + [byte_form(number), byte_form(number >> 8 & 3)]
    h += line_crc(h[3:])
    covered = [byte_form(x) for x in [code & 15 | (aai & 15) << 4, *values[4:36], block, flag, *values[36:]]]
    h += covered + header_crc(covered)
    return h + [checksum(h[3:])]


def timing(f, v, h):
    """EAV where h is 1, SAV where it is 0."""
    bits = [1, f, v, h, v ^ h, f ^ h, f ^ v, f ^ v ^ h, 0, 0]  # B9 to B0
    return [0x3FF, 0, 0, int("".join(map(str, bits)), 2)]


def opened_line(scope, system, f, v, number, values):
    """EAV, header, gap, SAV, and a payload all 200h."""
    length, payload, _ = scope.systems[system]
    line = timing(f, v, 1) + header(number, values, crc_of, crc_of)
    line += [0x040 if i % 2 else FILLER for i in range(57, length - payload - 4)]
    return line + timing(f, v, 0) + [FILLER] * payload


def block_wrong(scope, payload, block, flag):
    if block == 0xC1:
        return False
    kind = block & 0x3F
    if block & 0x80 or kind not in scope.fixed:
        return True
    _, at270, at360 = scope.fixed[kind]
    fills = kind == 0x38 or (kind == 0x37 and payload == 1440)
    return (at270 if payload == 1440 else at360) == 0 or (fills and flag == 1)


def settings_fault(scope, system, values):
    """The lowest of 10 to 13 that holds, or 0. 14 is no longer given: 02, Item 5."""
    _, payload, _ = scope.systems[system]
    code, aai, block, flag = values[:4]
    if code != scope.code(system):
        return 10
    if aai not in (0, 1):
        return 11
    if block_wrong(scope, payload, block, flag):
        return 12
    return 0 if flag in (0, 1) else 13
