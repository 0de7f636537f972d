#!/usr/bin/env python3
"""The exports that take a section apart against a program that was written from DWARF 5 (6.4, 7.24), and the LSB's ".eh_frame".

    parts.py COUNT SEED     every short section over a small alphabet, every operation of one and two bytes, headers and records with each
                            byte of theirs damaged, COUNT sections of the library's writers, whole, cut and damaged

At the end stands how often each number was answered, 0 is an answer, and each field at fault."""

import collections
import itertools
import os
import random
import sys

sys.path.insert(0, os.path.dirname(os.path.dirname(os.path.abspath(__file__))))

from common import agreed, ask, beginnings, flipped  # noqa: E402
from judges.parts import (  # noqa: E402
    DEBUG, DEF_CFA, DEF_CFA_OFFSET, DEF_CFA_REGISTER, IN_REGISTER, OFFSET, POINTERS, RESTORE, SAME_VALUE,
    STRINGS, UNDEFINED, entry, header, operation, record,
)

FAR = (2**31, 2**32, 2**63, 2**64 - 4, 2**64 - 1)


# ---- the comparison

QUESTIONS = {"entry": entry, "header": header, "record": record, "operation": operation}


def lines_of(asked):
    last = None
    for section, name, numbers in asked:
        if section is not last:
            yield f"section {section.hex()}"
            last = section
        yield f"{name} {' '.join(map(str, numbers))}"


def compare(asked, counts):
    asked = list(asked)
    judged = ((f"section {section.hex()}: {name} {numbers}", QUESTIONS[name](section, *numbers)) for section, name, numbers in asked)
    for (_, name, _), got in zip(asked, agreed("parts", judged, ask("parts", lines_of(asked))), strict=True):
        counts[name, got[0]] += 1
        if got[0] == 64:
            counts["field", got[1]] += 1
    return len(asked)


def everything(section, kind, words=(8,), pointers=(0, 4)):
    """Each question at each position, and each operation of what the walk finds."""
    places = list(range(len(section) + 2))
    for at in places:
        yield section, "entry", (kind, at)
        for word in words:
            yield section, "header", (kind, word, at)
            for pointer in pointers:
                yield section, "record", (kind, word, pointer, at)
            yield section, "operation", (at, len(section), word)


def through(section, kind, word):
    """As a caller goes: the entries from 0 on, the fields of each, and its operations one by one."""
    at, pointer = 0, 0
    while True:
        said = entry(section, kind, at)
        yield section, "entry", (kind, at)
        if said[0] != 0:
            return
        head, body = header(section, kind, word, at), record(section, kind, word, pointer, at)
        yield section, "header", (kind, word, at)
        yield section, "record", (kind, word, pointer, at)
        pointer = head[6] if said[1] else pointer
        yield section, "record", (kind, word, pointer, at)
        for fields in (head, body):
            if fields[0] == 0:
                yield from operations(section, fields[-2], fields[-1], word)
        at = said[4]


def operations(section, at, end, word):
    while True:
        yield section, "operation", (at, end, word)
        said = operation(section, at, end, word)
        if said[0] != 0:
            return
        at = said[4]


def short():
    """Every section of up to three bytes over a few, and of a length, an id and up to three bytes; odd kinds, words and places."""
    for n in range(4):
        for some in itertools.product((0, 1, 4, 0xFF), repeat=n):
            yield from everything(bytes(some), n % 2)
    for length in (0, 3, 4, 5, 6, 7, 0xFFFFFFFC, 0xFFFFFFFF):
        for mark in (bytes(4), b"\xff\xff\xff\xff", b"\x08\0\0\0"):
            for n in range(4):
                for some in itertools.product((0, 1, 0x7A), repeat=n):
                    section = length.to_bytes(4, "little") + mark + bytes(some)
                    for kind in (0, DEBUG):
                        yield section, "entry", (kind, 0)
                        yield section, "header", (kind, 4, 0)
                        yield section, "record", (kind, 2, 1, 0)
    whole = b"\x04\0\0\0" + bytes(4) + b"\x04\0\0\0\x0c\0\0\0"
    for kind in (0, 1, 2, 3, 2**32, 2**64 - 1):
        for word in (0, 1, 2, 3, 4, 5, 8, 16, 2**32 + 8, 2**64 - 8):
            for at in (*range(18), *FAR):
                yield whole, "entry", (kind, at)
                yield whole, "header", (kind, word, at)
                yield whole, "record", (kind, word, 0, at)
                yield whole, "operation", (at, 16, word)
                yield whole, "operation", (8, at, word)


NUMBERS = (
    b"\x00", b"\x01", b"\x3f", b"\x40", b"\x7f", b"\x80\x01", b"\xff\xff\x03", b"\x80\x80\x04", b"\x80", b"\x80" * 9 + b"\x01",
    b"\xff" * 9 + b"\x01", b"\xff" * 9 + b"\x02", b"\xff" * 8 + b"\x7f", b"\x80" * 8 + b"\x10", b"\x80" * 8 + b"\x40",
    b"\x80" * 9 + b"\x7f", b"\x80" * 9 + b"\x7e", b"\xff" * 9 + b"\x00", b"\x80" * 10 + b"\x00", b"\xff" * 8 + b"\x0f",
)


def operands():
    """Every operation of one and two bytes, and every opcode with numbers at the ends of their ranges."""
    for a in range(256):
        yield bytes([a]), "operation", (0, 1, 8)
        for b in range(256):
            yield bytes([a, b]), "operation", (0, 2, 8)
        for first in NUMBERS:
            for second in NUMBERS:
                some = bytes([a]) + first + second
                for word in (2, 4, 8):
                    yield some, "operation", (0, len(some), word)


def entry_of(body):
    return len(body).to_bytes(4, "little") + body


def valid(rng, kind, word):
    """A header and a record, each as the documents have them."""
    string = rng.choice(STRINGS[kind])
    data, pointer = b"", 0
    for letter in string:
        if letter == "P":
            encoding = rng.choice((0x00, 0x03, 0x0B, 0x13, 0x1B, 0x04, 0x0C)) | rng.choice((0, 0x80))
            data += bytes([encoding]) + rng.randbytes(POINTERS[encoding & 0x7F] or word)
        elif letter == "L":
            encoding = rng.choice((0x00, 0x03, 0x0B, 0x13, 0x1B, 0x04, 0x0C))
            data, pointer = data + bytes([encoding]), POINTERS[encoding] or word
        elif letter == "R":
            data += b"\x1b"
    mark = b"\xff" * 4 if kind == DEBUG else bytes(4)
    head = mark + b"\x01" + string.encode() + b"\0\x01" + bytes([0x80 - word]) + rng.choice((b"\x10", b"\x80\x01", b"\xff\xff\x03"))
    if kind != DEBUG:
        head += bytes([len(data)]) + data
    head = entry_of(head + rng.choice((b"", b"\0\0", b"\x0c\x07\x08\x90\x01")))
    size = word if kind == DEBUG else 4
    body = (len(head) + 4).to_bytes(4, "little") + rng.randbytes(2 * size)
    if kind != DEBUG:
        held = pointer + rng.choice((0, 0, 3))
        body += bytes([held]) + rng.randbytes(held)
    return head + entry_of(body + rng.choice((b"", b"\x41\x0e\x10\x86\x02", b"\x02\x20\x0a\xc6\x0b"))), pointer, len(head)


def damaged(rng):
    """Such a pair with each byte changed, and cut at each place."""
    for kind in (0, DEBUG):
        for word in (2, 4, 8):
            for _ in range(6):
                section, pointer, place = valid(rng, kind, word)
                for other in (section, *flipped(section), *beginnings(section)):
                    yield other, "entry", (kind, 0)
                    yield other, "header", (kind, word, 0)
                    for size in {0, 1, pointer, pointer + 1, 2**64 - 1}:
                        yield other, "record", (kind, word, size, place)
                    yield from through(other, kind, word)
                # The lengths made smaller one by one, so that each field is the one that is cut off.
                for n in range(4, place - 4):
                    yield (other := n.to_bytes(4, "little") + section[4:]), "header", (kind, word, 0)
                for n in range(4, len(section) - place - 4):
                    other = section[:place] + n.to_bytes(4, "little") + section[place + 4 :]
                    yield other, "record", (kind, word, pointer, place)


# ---- sections of the writers


NAMED = (0, 6, 7, 63, 64, 128, 65535)
NAMING = (DEF_CFA, DEF_CFA_REGISTER, OFFSET, RESTORE, UNDEFINED, SAME_VALUE, IN_REGISTER)


def rows(rng, word):
    offset = 0
    for _ in range(rng.randrange(9)):
        offset += rng.choice((0, 0, 1, 5, 63, 64, 255, 256, 70000))
        kind = rng.randrange(11)
        register = rng.choice(NAMED) if kind in NAMING else 0
        value = word * rng.randrange(-200, 200) if kind in (DEF_CFA, DEF_CFA_OFFSET, OFFSET) else 0
        if kind == IN_REGISTER:
            value = rng.choice(NAMED)
        yield [offset, kind, register, value % 2**32]


def written(rng, count):
    asked = []
    for _ in range(count):
        kind, word, functions, lines = rng.randrange(2), rng.choice((2, 4, 8, 8)), [], []
        for k in range(rng.randrange(1, 4)):
            mine = list(rows(rng, word))
            name = [1, rng.choice((0x00, 0x03, 0x1B, 0x9B)), 30] if rng.random() < 0.5 else [0, 0, 0]
            site = [1, rng.choice((0x00, 0x0B, 0x1B)), 31] if name[0] and rng.random() < 0.5 else [0, 0, 0]
            functions += [16 + k, rng.choice((1, 4000, 30000)), len(lines), len(mine), 0, 0, 0, rng.randrange(2), *name, *site, 0, 0, 0, 0]
            lines += mine
        numbers = functions + [n for line in lines for n in line]
        asked.append((kind, word, f"write {kind} {word} {len(functions) // 18} {' '.join(map(str, numbers))}"))
    for (kind, word, _), line in zip(asked, ask("parts", (line for _, _, line in asked)), strict=True):
        if line != "-":
            yield kind, word, bytes.fromhex(line)


def main():
    counts, rng = collections.Counter(), random.Random(f"parts {sys.argv[2]}")
    few, codes, broken = compare(short(), counts), compare(operands(), counts), compare(damaged(rng), counts)
    tables = list(written(rng, int(sys.argv[1])))
    compare((question for kind, word, section in tables for question in through(section, kind, word)), counts)
    cut = 0
    for kind, word, section in tables[:40]:
        others = [section[: rng.randrange(len(section) + 1)] for _ in range(4)]
        for _ in range(40):
            at = rng.randrange(len(section))
            others.append(section[:at] + bytes([rng.randrange(256)]) + section[at + 1 :])
        cut += compare((question for other in others for question in through(other, kind, word)), counts)
    # Whole sections read: a table of the writers has no fault.
    for kind, word, section in tables:
        if any(QUESTIONS[name](text, *numbers)[0] in (61, 64, 66) for text, name, numbers in through(section, kind, word) if name != "record"):
            sys.exit(f"parts: a section of the writers has a fault: {section.hex()}")
    for field in range(1, 10):
        if not counts["field", field]:
            sys.exit(f"parts: no section had field {field} at fault")
    print(
        f"parts: {few} questions of short sections, {codes} operations, {broken} of damaged entries, {len(tables)} sections of the writers, "
        f"{cut} of these cut or damaged; " + ", ".join(f"{name} {n}: {counts[name, n]}" for name, n in sorted(counts))
    )


if __name__ == "__main__":
    main()
