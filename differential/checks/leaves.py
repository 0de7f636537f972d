#!/usr/bin/env python3
"""What the program crates/leaves must print, made without Rattle: LEB numbers by GNU as (.uleb128, .sleb128), rows and steps by the Rust
(target/differential/release/harness), rows that it does not have by GNU as (.cfi_same_value, .cfi_register), and what is read back from the inputs themselves, by the specification.

`leaves.py store` writes crates/leaves/stdout; without a word the stored file is compared."""

import os
import subprocess
import sys
import tempfile

sys.path.insert(0, os.path.dirname(os.path.dirname(os.path.abspath(__file__))))

from common import OUT, ROOT  # noqa: E402

HARNESS = os.path.join(OUT, "release", "harness")
STORED = os.path.join(ROOT, "crates", "leaves", "stdout")

UNSIGNED = [0, 1, 63, 64, 127, 128, 2**14 - 1, 2**14, 2**31, 2**32, 2**63, 2**64 - 1]
SIGNED = [0, 1, -1, 63, 64, -64, -65, 127, 128, -127, -128, 2**31, -(2**31), 2**32, -(2**32), 2**63 - 1, -(2**63)]
REGISTERS = [0, 63, 64, 127, 128, 65535]
# The last two are no rows: an operand that the kind does not have, and a register above 65,535.
REGISTER_ROWS = [(9, 0, 0), (9, 128, 0), (9, 65535, 0), (10, 0, 127), (10, 127, 128), (10, 65535, 0), (10, 128, 65535), (9, 3, 1), (10, 3, 65536)]
STEPS = [1, 63, 64, 255, 256, 65535, 65536, 2**32 - 1]
# Numbers of ten and eleven bytes, cut ones, and long forms.
BROKEN_UNSIGNED = [
    [0x80] * 9 + [0x01], [0xFF] * 9 + [0x01], [0x80] * 9 + [0x02], [0x80] * 10 + [0x00], [0x80], [0x80, 0x00], [0xE5, 0x8E, 0x26],
]
BROKEN_SIGNED = [
    [0x80] * 9 + [0x7F], [0x80] * 9 + [0x00], [0x80] * 9 + [0x01], [0xFF] * 9 + [0x00], [0xFF] * 9 + [0x7F], [0x80] * 10 + [0x00],
    [0xC0], [0xC0, 0x00], [0x40],
]


def rows():
    """Kind, register and offset: every kind, with registers around each boundary and offsets of both signs."""
    found = []
    for reg in REGISTERS:
        found += [(0, reg, 8), (0, reg, -16), (2, reg, 0), (3, reg, -16), (3, reg, 8), (4, reg, 0), (5, reg, 0)]
    return found + [(1, 0, 0), (1, 0, 16), (1, 0, -16), (1, 0, 2**31 - 1), (1, 0, -(2**31)), (6, 0, 0), (7, 0, 0), (8, 0, 0)]


def assembled(text, section):
    with tempfile.TemporaryDirectory() as folder:
        made, bare = os.path.join(folder, "a.o"), os.path.join(folder, "a.bin")
        subprocess.run(["as", "--64", "-o", made], input=text, text=True, check=True)
        subprocess.run(["objcopy", "-O", "binary", "-j", section, made, bare], check=True)
        with open(bare, "rb") as file:
            return file.read()


def gas(directive, number):
    return assembled(f".data\n{directive} {number}\n", ".data")


def gas_row(kind, reg, operand):
    """What stands in the record between a step of 1 and the mark 2d."""
    row = f".cfi_same_value {reg}" if kind == 9 else f".cfi_register {reg}, {operand}"
    section = assembled(f".cfi_startproc\nnop\n{row}\n.cfi_escape 0x2d\nnop\n.cfi_endproc\n", ".eh_frame")
    entry = section[4 + int.from_bytes(section[:4], "little"):]
    return entry[18:entry.rindex(0x2D)]


def records(lines):
    """What stands in a record in front of the mark 2d that ends each list of rows."""
    case = "case c\nentry relaxed_table\nformat 0\nmachine x86_64\nfunctions 16 1 0 %d 0 0 0 0 0 0 0 0 0 0 0 0 0 0\n%s\nend\n"
    text = "".join(case % (len(each), "\n".join("rows %d %d %d %d" % row for row in each)) for each in lines)
    said = subprocess.run([HARNESS], input=text, capture_output=True, text=True, check=True).stdout
    found = []
    for line in said.split("\n"):
        if line.startswith("bytes "):
            section = bytes.fromhex(line[6:])
            entry = section[4 + int.from_bytes(section[:4], "little"):]
            found.append(entry[17:entry.rindex(0x2D)])
    return found


def read_leb(data, signed):
    """The value and the bytes taken; none where it is cut, has more than ten bytes or does not fit 64 bits."""
    value = 0
    for at, byte in enumerate(data[:10]):
        value += (byte & 127) << 7 * at
        if byte < 128:
            value -= (1 << 7 * at + 7) if signed and byte & 64 else 0
            low, high = (-(2**63), 2**63) if signed else (0, 2**64)
            return (value, at + 1) if low <= value < high else None
    return None


def said_of(value):
    """A signed number: its sign, and itself or, where it is negative, minus one less it."""
    return f"+ {value}" if value >= 0 else f"- {-1 - value}"


def text():
    out = []
    for at, n in enumerate(UNSIGNED):
        made = gas(".uleb128", n)
        out.append(f"uleb {at} {made.hex()} {len(made)} {n} {len(made)}")
    for at, n in enumerate(SIGNED):
        made = gas(".sleb128", n)
        out.append(f"sleb {at} {made.hex()} {len(made)} {said_of(n)} {len(made)}")
    for at, (row, made) in enumerate(zip(rows(), records([[(1, *row), (1, 8, 0, 0)] for row in rows()]))):
        out.append(f"row {at} {made[1:].hex()} {len(made) - 1} {row[0]} {row[1]} {said_of(row[2])} {len(made) - 1}")
    for at, row in enumerate(REGISTER_ROWS, len(rows())):
        made = gas_row(*row) if row[2] < (65536 if row[0] == 10 else 1) else None
        parts = f"{row[0]} {row[1]} {said_of(row[2])}"
        out.append(f"row {at} " + (f"{made.hex()} {len(made)} {parts} {len(made)}" if made else "no row"))
    for at, (n, made) in enumerate(zip(STEPS, records([[(n, 8, 0, 0)] for n in STEPS]))):
        out.append(f"step {at} {made.hex()} {len(made)} {n} {len(made)}")
    for at, data in enumerate(BROKEN_UNSIGNED):
        found = read_leb(data, False)
        out.append(f"read uleb {at} " + (f"{found[0]} {found[1]}" if found else "bad"))
    for at, data in enumerate(BROKEN_SIGNED):
        found = read_leb(data, True)
        out.append(f"read sleb {at} " + (f"{said_of(found[0])} {found[1]}" if found else "bad"))
    return "\n".join(out) + "\n"


def main():
    made = text()
    if sys.argv[1:] == ["store"]:
        with open(STORED, "w") as file:
            file.write(made)
        return
    with open(STORED) as file:
        if file.read() != made:
            sys.exit("leaves: crates/leaves/stdout is not what GNU as and the Rust make")
    print(f"leaves: {made.count(chr(10))} lines as GNU as and the Rust make them")


main()
