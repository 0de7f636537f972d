#!/usr/bin/env python3
"""Headers and records whose LEB numbers are spelled in more bytes than they need, against the reader of judges/reader.py: `padded.py COUNT SEED`.

Each section is a header (CIE) and a record (FDE), written here from DWARF 5 (6.4.1, 7.6, 7.24) and the LSB, with every operation that has
LEB operands in each of the two. Each number in turn is padded by one byte up to ten bytes in all, and COUNT sections have several padded at
once; the same is asked of what unwind_locate found. Where no number is padded the mark must be 1; a number behind the step that passes the
offset must not count."""

import collections
import os
import random
import sys

sys.path.insert(0, os.path.dirname(os.path.dirname(os.path.abspath(__file__))))

from common import agreed, ask  # noqa: E402
from judges.by_place import locate  # noqa: E402
from judges.reader import DEBUG, EH, Refused, read  # noqa: E402

SIGNED, UNSIGNED = "signed", "unsigned"
# Opcodes with the kinds of their LEB operands (DWARF 5, table 7.29), and operands for them.
OPERATIONS = [
    (0x0C, (UNSIGNED, 7), (UNSIGNED, 8)), (0x86, (UNSIGNED, 2)), (0x05, (UNSIGNED, 70), (UNSIGNED, 3)), (0x07, (UNSIGNED, 9)),
    (0x08, (UNSIGNED, 12)), (0x09, (UNSIGNED, 3), (UNSIGNED, 200)), (0x0D, (UNSIGNED, 6)), (0x0E, (UNSIGNED, 300)),
    (0x11, (UNSIGNED, 16), (SIGNED, -2)), (0x12, (UNSIGNED, 7), (SIGNED, -100)), (0x13, (SIGNED, 64)), (0x2D,), (0x0A,), (0x0B,),
]
RESTORES = [(0x06, (UNSIGNED, 70)), (0xC6,)]
STEP, SIZE = 0x42, 40


def groups(value):
    """The shortest spelling of a number of either sign, by its lowest seven bits first; the sign is bit 6 of the last."""
    out = []
    while True:
        byte, value = value & 127, value >> 7
        if value == 0 and byte < 64 or value == -1 and byte >= 64:
            return out + [byte]
        out.append(byte + 128)


def unsigned(value):
    out = []
    while value >= 128:
        out.append(value % 128 + 128)
        value //= 128
    return out + [value]


def spelled(kind, value, more):
    """A number in `more` bytes more than it needs, ten at most."""
    short = groups(value) if kind == SIGNED else unsigned(value)
    for _ in range(min(more, 10 - len(short))):
        short = short[:-1] + [short[-1] + 128, 127 if kind == SIGNED and value < 0 else 0]
    return bytes(short)


class Writer:
    """Numbers in turn, some of them padded: `more` says by how many bytes the number of each place in turn is."""

    def __init__(self, more):
        self.more, self.count = more, 0

    def number(self, kind, value):
        self.count += 1
        return spelled(kind, value, self.more.get(self.count - 1, 0))

    def operation(self, opcode, *operands):
        return bytes([opcode]) + b"".join(self.number(*operand) for operand in operands)

    def entry(self, body):
        return len(body).to_bytes(4, "little") + body

    def header(self, kind, word, ret):
        front = b"\0\0\0\0\x01zR\0" if kind == EH else b"\xff\xff\xff\xff\x01\0"
        body = front + self.number(UNSIGNED, 1) + self.number(SIGNED, -word) + self.number(UNSIGNED, ret)
        if kind == EH:
            body += self.number(UNSIGNED, 1) + b"\x1b"
        return self.entry(body + b"".join(self.operation(*o) for o in OPERATIONS) + b"\0\0")

    def record(self, kind, word, at):
        width = 4 if kind == EH else word
        second = (at + 4).to_bytes(4, "little") if kind == EH else bytes(4)
        body = second + bytes(width) + SIZE.to_bytes(width, "little")
        if kind == EH:
            body += self.number(UNSIGNED, 0)
        for operation in OPERATIONS + RESTORES:
            body += bytes([STEP]) + self.operation(*operation)
        return self.entry(body + b"\0\0\0")


def section(kind, word, ret, more):
    writer = Writer(more)
    header = writer.header(kind, word, ret)
    record = writer.record(kind, word, len(header))
    relocations = [] if kind == EH else [len(header) + 4, 3, 1, 4, 0]
    return header + record, relocations, writer.count


def sections(rng, count):
    for kind in (EH, DEBUG):
        for word in (2, 4, 8):
            for ret in (16, 300):
                numbers = section(kind, word, ret, {})[2]
                yield kind, word, section(kind, word, ret, {}), True
                for at in range(numbers):
                    for more in (1, 2, 5, 9):
                        yield kind, word, section(kind, word, ret, {at: more}), False
    for _ in range(count):
        kind, word, ret = rng.choice((EH, DEBUG)), rng.choice((2, 4, 8)), rng.choice((0, 16, 127, 128, 65535))
        more = {rng.randrange(60): rng.randrange(4) for _ in range(rng.randrange(5))}
        yield kind, word, section(kind, word, ret, more), False


def compare(found, counts):
    for driver in ("reader", "by_place"):
        lines, wanted = [], []
        for kind, word, (bytes_, numbers, _), plain in found:
            lines += [f"section {bytes_.hex()}", f"relocations {' '.join(map(str, numbers))}"]
            relocations = [numbers] if numbers else []
            try:
                places = locate(bytes_, relocations, kind, word, 0)
            except Refused as no:
                places = [no.number] + [0] * 9
            for p in (0, 3, 9, 14, SIZE - 1, SIZE):
                want = read(bytes_, relocations, kind, word, 0, 6, p)
                if plain and want[0] == 0 and want[7] != 1:
                    sys.exit(f"padded: {bytes_.hex()} at {p}: nothing is padded, and the judge says {want}")
                wanted.append((f"section {bytes_.hex()} at {p}", want))
                lines.append(f"ask {kind} {word} 0 6 {p}" if driver == "reader" else f"rules 6 {p} {' '.join(map(str, places))}")
        for got in agreed(f"padded: {driver}", wanted, ask(driver, lines)):
            counts["refused" if got[0] else "shortest" if got[7] else "long"] += 1


def main():
    counts, rng = collections.Counter(), random.Random(f"padded {sys.argv[2]}")
    found = list(sections(rng, int(sys.argv[1])))
    compare(found, counts)
    print(f"padded: {len(found)} sections; " + ", ".join(f"{n}: {counts[n]}" for n in sorted(counts)))


if __name__ == "__main__":
    main()
