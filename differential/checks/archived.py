#!/usr/bin/env python3
"""Mach-O sections of earlier releases read as they did before the writer gave up that format.

    archived.py          reads every record at every offset below its length, for each of forty registers, through the archive's
                         unwind_read (drivers/reader.c), and compares with expected/macho.read.txt
    archived.py store    wrote that file, before the change

expected/macho.txt holds the sections. A line of expected/macho.read.txt is what one record
says at a run of offsets: the frame address rule and the signing state, and the rule of each register that has one."""

import os
import sys

sys.path.insert(0, os.path.dirname(os.path.dirname(os.path.abspath(__file__))))

from checks.definitions import by_case  # noqa: E402
from common import HERE, OUT, run  # noqa: E402

SECTIONS = os.path.join(HERE, "expected", "macho.txt")
ANSWERS = os.path.join(HERE, "expected", "macho.read.txt")
REGISTERS = [*range(34), 63, 64, 127, 128, 255, 65535]


def sections():
    """Name, section and relocations of each accepted list."""
    with open(SECTIONS) as file:
        said = by_case(file.read().split("\n"))
    for name, answer in said.items():
        if answer[0] == "accepted":
            field = {line.split(" ")[0]: line.split(" ")[1:] for line in answer}
            yield name, bytes.fromhex("".join(field["bytes"])), [int(n) for n in field["relocations"]]


def number_at(section, at):
    return int.from_bytes(section[at : at + 4], "little")


def word_of(section):
    """The data alignment factor of the first header, one byte behind the string and the code alignment factor: minus word."""
    return 128 - section[section.index(0, 9) + 2]


def lengths(section):
    """The length of each record's function, which stands behind the distance to the header and the function's place."""
    at = 0
    while at < len(section):
        if number_at(section, at + 4) != 0:
            yield number_at(section, at + 12)
        at += 4 + number_at(section, at)


def line_of(answers):
    """What one record says at one offset, as a line."""
    number, frame, register, offset, _, _, signing = answers[0]
    if number:
        return f"refused {number}"
    rules = "".join(f", register {q} {a[4]} {a[5]}" for q, a in zip(REGISTERS, answers) if a[4])
    return f"frame {frame} {register} {offset}, signing {signing}{rules}"


def runs(said):
    """Runs of offsets at which a record says the same."""
    first = 0
    for p in range(1, len(said) + 1):
        if p == len(said) or said[p] != said[first]:
            yield first, p - 1, said[first]
            first = p


def read(name, section, relocations):
    word = word_of(section)
    asks = [(k, p, q) for k, length in enumerate(lengths(section)) for p in range(length) for q in REGISTERS]
    text = [f"section {section.hex()}", f"relocations {' '.join(map(str, relocations))}"]
    text += [f"ask 0 {word} {k} {q} {p}" for k, p, q in asks]
    printed = [tuple(map(int, line.split()[:7])) for line in run(os.path.join(OUT, "reader"), "\n".join(text) + "\n") if line]
    yield f"case {name} word {word}"
    here = iter(printed)
    for k, length in enumerate(lengths(section)):
        said = [line_of([next(here) for _ in REGISTERS]) for _ in range(length)]
        yield from (f"record {k} offsets {a} to {b}: {line}" for a, b, line in runs(said))


def main():
    head = ["# What unwind_read answered of the sections in macho.txt before the writer gave up the format; differential/checks/archived.py compares."]
    lines = head + [line for found in sections() for line in read(*found)]
    if sys.argv[1:] == ["store"]:
        with open(ANSWERS, "w") as file:
            file.write("\n".join(lines) + "\n")
    with open(ANSWERS) as file:
        stored = file.read().split("\n")[:-1]
    for at, (want, got) in enumerate(zip(stored, lines)):
        if want != got:
            sys.exit(f"archived: line {at + 1} of {ANSWERS}: {want} is expected, and {got} was read")
    if len(stored) != len(lines):
        sys.exit(f"archived: {len(stored)} lines are stored, and {len(lines)} were read")
    print(f"archived: {sum(line.startswith('case') for line in lines)} sections of earlier releases read as before, in {len(lines)} lines")


if __name__ == "__main__":
    main()
