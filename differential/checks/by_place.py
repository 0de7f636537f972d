#!/usr/bin/env python3
"""The reader's exports by place against judges/by_place.py, which was written from DWARF 5 and the LSB alone.

    by_place.py COUNT SEED     the stored sections, those of gas, COUNT made ones, damaged copies and short sections

Made sections have several headers, which records name in any order, words 2, 4 and 8, and both kinds. At the end stands how often each
number was answered; 0 is an answer."""

import collections
import os
import random
import sys

sys.path.insert(0, os.path.dirname(os.path.dirname(os.path.abspath(__file__))))

from checks.definitions import by_case, parse  # noqa: E402
from checks.reader import of_gas  # noqa: E402
from common import HERE, agreed, ask  # noqa: E402
from judges.by_place import BEFORE, MARK, NOWHERE, all_rules, along, at, expected, locate  # noqa: E402
from judges.reader import DEBUG, EH, Refused, entries, read  # noqa: E402


# ---- sections


def stored():
    for name in ("debug", "headers", "leb_rows", "relaxed"):
        with open(os.path.join(HERE, "cases", f"{name}.txt")) as file:
            cases = parse(file)
        with open(os.path.join(HERE, "expected", f"{name}.txt")) as file:
            said = by_case(line.rstrip("\n") for line in file)
        for case in cases:
            answer = said[case["name"]]
            if answer[0] == "accepted" and case["format"] == 0 and case["machine"][0] in (2, 4, 8):
                field = {line.split(" ")[0]: line.split(" ")[1:] for line in answer}
                kind = DEBUG if case["entry"] == "relaxed_debug_frame" else EH
                yield kind, case["machine"][0], bytes.fromhex("".join(field["bytes"])), [int(n) for n in field["relocations"]]


def entry(body):
    body += bytes(-len(body) % 4)
    return len(body).to_bytes(4, "little") + body


def made_header(kind, word, rng):
    mark = rng.choice([b"", b"S"])
    head = MARK[kind].to_bytes(4, "little") + b"\1"
    factors = bytes([1, 128 - word, rng.randrange(32)])
    operations = bytes([0x0C, 7, 8]) + bytes(rng.randrange(3))
    if kind == DEBUG:
        return entry(head + mark + b"\0" + factors + operations)
    return entry(head + b"zR" + mark + b"\0" + factors + b"\1\x1b" + operations)


def made(rng):
    """Headers and records in any order; a record names a header before it, at times something else."""
    kind, word = rng.choice([EH, DEBUG]), rng.choice([2, 4, 8])
    section, numbers, headers = b"", [], []
    for _ in range(rng.randrange(1, 12)):
        here = len(section)
        if not headers or rng.random() < 0.3:
            headers.append(here)
            section += made_header(kind, word, rng)
            continue
        header = rng.choice(headers) if rng.random() < 0.9 else rng.randrange(here + 20)
        width = 4 if kind == EH else word
        start, length = rng.choice([rng.randrange(2**12), rng.randrange(256**width)]), rng.randrange(1, 200)
        fields_ = start.to_bytes(width, "little") + length.to_bytes(width, "little")
        deep = bytes([0x41] + [0x0A] * rng.randrange(15, 19) + [0x42] + [0x0B] * rng.randrange(19) + [0x40, 0x0E, 8])
        operations = rng.choice([b"", bytes([0x41, 0x0E, 16]), bytes([0x43, 0x86, 2, 0x44, 0x0D, 6]), deep])
        if kind == EH:
            second_ = (here + 4 - header) % 2**32
            section += entry(second_.to_bytes(4, "little") + fields_ + b"\0" + operations)
        else:
            if rng.random() < 0.9:
                numbers += [here + 4, 2, 1, 4, header]
            section += entry(bytes(4) + fields_ + operations)
    return kind, word, section, numbers


def damaged(section, numbers, rng):
    for _ in range(12):
        place = rng.randrange(len(section))
        flipped = section[place] ^ rng.choice([1, 2, 4, 8, 16, 32, 64, 128, 255])
        yield section[:place] + bytes([flipped]) + section[place + 1 :], numbers
    for end in rng.sample(range(len(section)), min(len(section), 8)):
        yield section[:end], numbers
    if numbers:
        yield section, numbers[: rng.randrange(len(numbers))]


def short(rng):
    """Every section of at most two bytes from few values, and longer ones of zeros and small lengths."""
    for values in ([], *[[a] for a in (0, 4, 255)], *[[a, b] for a in (0, 4, 255) for b in (0, 1)]):
        yield bytes(values)
    for size in range(3, 28):
        for length in (0, 3, 4, 5, 8, max(size - 4, 0), size):
            yield length.to_bytes(4, "little") + bytes(rng.choice([0, 1, 4, 255]) for _ in range(size - 4)) if size > 3 else bytes(size)


# ---- the questions


def places_in(section, rng):
    found = []
    try:
        found = [at for at, _ in entries(section)]
    except Refused:
        pass
    return found + [0, len(section), max(len(section) - 3, 0), rng.randrange(len(section) + 9), NOWHERE]


def questions(kind, word, section, relocations, rng):
    places = places_in(section, rng)
    addresses = [0, 0x400000, 2**64 - 16, rng.randrange(2**64)]
    kinds, words = [kind] * 9 + [1 - kind, 2, NOWHERE], [word] * 9 + [0, 4, 8, 3]
    for k in range(4):
        yield "locate", rng.choice(kinds), rng.choice(words), rng.choice([k, k, NOWHERE])
    for room in (0, 1, 2, 3, 6, 40):
        yield "index", rng.choice(kinds), rng.choice(words), room
    for _ in range(6):
        yield "at", rng.choice(kinds), rng.choice(words), rng.choice(places), rng.choice(places)
        address = rng.choice(addresses)
        place = rng.choice(places)
        yield "function", rng.choice(kinds), rng.choice(words), address, place
        near = expected(section, relocations, ("function", kind, word, address, place))
        pc = rng.choice([near[1], near[1] + near[2] - 1, near[1] + near[2], near[1] - 1, rng.randrange(2**13)]) % 2**64
        yield "holder", rng.choice(kinds), rng.choice(words), address, pc
        yield "entries", rng.choice(kinds), rng.choice(words), address, pc


def from_places(kind, word, section, relocations, rng):
    """Rules from what is located, which is what is read; and from numbers that lie nowhere."""
    for k in range(3):
        try:
            located = locate(section, relocations, kind, word, k)
        except Refused as no:
            located = [no.number] + [0] * 9
        for register in (6, 7, 16):
            p = rng.choice([0, 1, 3, 8, 250])
            yield ("rules", register, p, *located), read(section, relocations, kind, word, k, register, p)
        p, room = rng.choice([0, 1, 3, 8, 250]), rng.choice([0, 1, 2, 13, 40])
        readings = [read(section, relocations, kind, word, k, register, p) for register in range(max(room // 2, 1))]
        yield ("all", p, room, *located), all_rules(readings, room)
        if located[0] == 0:
            off = list(located)
            off[rng.choice([2, 4])] = rng.choice([len(section) + 1, NOWHERE])
            yield ("rules", 6, 0, *off), [64] + [0] * 7
            off = list(located)
            off[8] = rng.choice([0, 3, 16])
            yield ("rules", 6, 0, *off), [64] + [0] * 7


def along_places(kind, word, section, relocations, rng):
    """Lines from what is located, from ranges of any bytes, and from numbers that lie nowhere, with lists long enough and too short."""
    size = len(section)
    places = [sorted((rng.randrange(size + 1), rng.randrange(size + 1))) for _ in range(4)]
    found = [[0, *places[0], *places[1], 9, 0, 0, word, 1], [0, *places[2], *places[3], 9, 0, 0, rng.choice([2, 4, 8, 3]), 0]]
    for k in range(3):
        try:
            found.append(locate(section, relocations, kind, word, k))
        except Refused as no:
            found.append([no.number] + [0] * 9)
    off = list(found[-1])
    off[rng.choice([1, 2, 3, 4])] = rng.choice([size + 1, NOWHERE])
    for located in [*found, off]:
        need = 7 * max(min(located[4], size) - located[3] + 1, 0)
        for room in {need, max(need - 1, 0), rng.choice([0, 6, 7, need + 5])}:
            register = rng.choice([6, 7, 16])
            try:
                want = along(section, register, room, located)
            except Refused as no:
                want = [no.number, 0, 0, 0] + [BEFORE] * (room + 1)
            yield ("along", register, room, *located), want


def compare(asks, counts):
    lines = []
    for section, numbers, pairs in asks:
        lines += [f"section {section.hex()}", f"relocations {' '.join(map(str, numbers))}"]
        lines += [" ".join(map(str, question)) for question, _ in pairs]
    pairs = [(section, numbers, question, want) for section, numbers, pairs in asks for question, want in pairs]
    judged = ((f"section {section.hex()} relocations {numbers} {question}", want) for section, numbers, question, want in pairs)
    for (_, _, question, _), got in zip(pairs, agreed("by_place", judged, ask("by_place", lines)), strict=True):
        counts[got[0]] += 1
        if question[0] == "along" and got[2]:
            counts[f"lines ended by {got[2]}"] += 1


def pairs_of(kind, word, section, numbers, rng):
    relocations = [numbers[at : at + 5] for at in range(0, len(numbers) - 4, 5)]
    pairs = [(ask, expected(section, relocations, ask)) for ask in questions(kind, word, section, relocations, rng)]
    pairs += from_places(kind, word, section, relocations, rng)
    return section, numbers, pairs + list(along_places(kind, word, section, relocations, rng))


def main():
    counts, rng = collections.Counter(), random.Random(f"lookups {sys.argv[2]}")
    found = [(kind, word, section, numbers) for kind, word, _, section, numbers in of_gas()]
    found += [*stored(), *(made(rng) for _ in range(int(sys.argv[1])))]
    found += [(rng.choice([EH, DEBUG]), rng.choice([2, 4, 8]), section, []) for section in short(rng)]
    asks = []
    for kind, word, section, numbers in found:
        asks.append(pairs_of(kind, word, section, numbers, rng))
        if section and rng.random() < 0.5:
            asks += [pairs_of(kind, word, *other, rng) for other in damaged(section, numbers, rng)]
    compare(asks, counts)
    print(f"by_place: {len(asks)} sections; " + ", ".join(f"{n}: {counts[n]}" for n in sorted(counts, key=str)))


if __name__ == "__main__":
    main()
