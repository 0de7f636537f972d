#!/usr/bin/env python3
"""The library's reader against the one of judges/reader.py, which was written from DWARF 5 and the LSB alone.

    reader.py COUNT SEED     sections of the stored cases and of COUNT random lists, damaged copies of small ones, and the sections of gas

Sections are those that the Rust writes (the library's are equal, checks/writers.py); of lists with SameValue or InRegister, which it lacks,
they are the library's, and what is read must be what the rows say (`meant`). Damage: every byte of a small section changed in each bit
and turned whole, every truncation, lengths changed, LEB numbers lengthened, relocations moved. At the end stands how often each number
was answered; 0 is an answer."""

import collections
import os
import random
import sys

sys.path.insert(0, os.path.dirname(os.path.dirname(os.path.abspath(__file__))))

from checks.definitions import by_case, parse  # noqa: E402
from checks.writers import batches, for_the_rust  # noqa: E402
from common import HERE, OUT, agreed, ask, beginnings, flipped, run  # noqa: E402
from judges.questions import mach_o, reached, records, register_rows, signed  # noqa: E402
from judges.reader import DEBUG, EH, IN_REGISTER, SAME_VALUE, SAVED, UNDEFINED, UNSTATED, read  # noqa: E402

SMALL = 80
REGISTERS = (0, 3, 6, 7, 12, 16, 63, 64, 65535)


def sections(texts):
    """Kind, word, count of functions, section and relocations of each accepted list."""
    for text in texts:
        cases = [case for case in parse(text.split("\n")) if case["machine"][:1] <= [8] and case["entry"] != "seh" and not mach_o(case)]
        said = by_case(run(os.path.join(OUT, "release", "harness"), "".join(for_the_rust(case, None) for case in cases)))
        for case in cases:
            answer = said[case["name"]]
            if answer[0] == "accepted" and case["format"] != 1:
                field = {line.split(" ")[0]: line.split(" ")[1:] for line in answer}
                numbers = [int(n) for n in field["relocations"]]
                kind = DEBUG if case["entry"] == "relaxed_debug_frame" else EH
                yield kind, case["machine"][0], len(case["functions"]) // 18, bytes.fromhex("".join(field["bytes"])), numbers


def with_registers(texts):
    """The same of lists with SameValue or InRegister, as the library writes them; then the case."""
    for text in texts:
        said = by_case(run(os.path.join(OUT, "writers"), text))
        for case in parse(text.split("\n")):
            answer = said[case["name"]]
            if register_rows(case) and answer[0] == "accepted" and case["format"] != 1:
                field = {line.split(" ")[0]: line.split(" ")[1:] for line in answer if line}
                numbers = [int(n) for n in field["relocations"]]
                kind = DEBUG if case["entry"] == "relaxed_debug_frame" else EH
                yield kind, case["machine"][0], len(case["functions"]) // 18, bytes.fromhex("".join(field["bytes"])), numbers, case


# What a row says of its register, by its kind.
SAYS = {
    3: lambda operand: (SAVED, signed(operand)), 5: lambda operand: (UNDEFINED, 0),
    9: lambda operand: (SAME_VALUE, 0), 10: lambda operand: (IN_REGISTER, operand),
}


def meant(machine, f, rows, register, p):
    """The frame address rule and the register's rule at p, by the rows alone; None where they fail the row check."""
    word, pushed, stack, back = machine[:4]
    frame, rule, stored, initial, leading = None, (UNSTATED, 0), [], None, True
    implied = [] if f[6] else [(0, 0, stack, pushed), *([(0, 3, back, 2**32 - pushed)] if pushed else [])]
    for at, kind, reg, operand in [*implied, *rows]:
        if leading and (at or kind == 6):
            leading, initial = False, rule
        if at > p:
            break
        if kind in (1, 2) and frame is None or kind == 4 and leading or kind == 7 and not stored or kind == 6 and len(stored) == 16:
            return None
        if kind == 0:
            frame = (reg, signed(operand))
        elif kind == 1:
            frame = (frame[0], signed(operand))
        elif kind == 2:
            frame = (reg, frame[1])
        elif kind == 6:
            stored.append((frame, rule))
        elif kind == 7:
            frame, rule = stored.pop()
        elif kind != 8 and reg == register:
            rule = initial if kind == 4 else SAYS[kind](operand)
    return frame, rule


def compare_rows(kind, word, section, numbers, case, counts):
    """What is read of each function without relaxing labels, around each row and for each register that a row has."""
    wanted = []
    for k, f in enumerate(records(case["functions"], 18)):
        rows = reached(case, "rows", f[2], f[3])
        for register in {0, *(row[2] for row in rows)} if not f[14] else ():
            places = {0, f[1] - 1, *(row[0] + by for row in rows for by in (-1, 0, 1))}
            for p in (p for p in sorted(places) if 0 <= p < f[1]):
                wanted.append(((kind, word, k, register, p), meant(case["machine"], f, rows, register, p)))
    printed = run(os.path.join(OUT, "reader"), text_of([(section, numbers, [ask for ask, _ in wanted])]))
    for (ask, want), line in zip(wanted, printed):
        got = list(map(int, line.split()))
        if want is not None:
            frame, rule = want
            want = [0, *([1, frame[0], frame[1] % 2**64] if frame else [0, 0, 0]), rule[0], rule[1] % 2**64]
        if want is None and got[0] not in (67, 68, 69) or want is not None and want != got[:6]:
            sys.exit(f"reader: {case['name']}, section {section.hex()} ask {ask}: the rows say {want}, ours is {got}")
        counts["by rows"] += 1


def deep():
    """Functions that remember 15 to 18 states and bring one more or one less back."""
    for stored in range(15, 19):
        for back in (0, stored - 1, stored, stored + 1):
            rows = [f"rows {n} 6 0 0\nrows {n} 1 0 {8 * n}" for n in range(1, stored + 1)]
            rows += [f"rows {n} 7 0 0" for n in range(stored + 1, stored + back + 1)]
            head = f"case deep_{stored}_{back}\nentry relaxed_table\nformat 0\nmachine x86_64"
            yield "\n".join([head, f"functions 16 99 0 {2 * stored + back}" + " 0" * 14, *rows, "end", ""])


def of_gas():
    for name in sorted(os.listdir(os.path.join(HERE, "gas"))):
        if name.endswith(".hex"):
            with open(os.path.join(HERE, "gas", name)) as file:
                section = bytes.fromhex("".join(file.read().split()))
            yield EH, 8, 3, section, []


def lengthened(section):
    """Small sections with one byte below 128 written in two: a longer LEB number, or something else where it was none."""
    for at in range(8, len(section)):
        if section[at] < 128:
            longer = section[:at] + bytes([section[at] + 128, 0]) + section[at + 1 :]
            yield longer
            # The same with the first entry's length one more.
            yield (int.from_bytes(longer[:4], "little") + 1).to_bytes(4, "little") + longer[4:]


def damaged(section, numbers, rng):
    for other in (*flipped(section), *beginnings(section), *lengthened(section)):
        yield other, numbers
    for at in range(0, len(numbers), 5):
        for j, by in ((0, 4), (0, -4), (4, 4), (4, 24), (4, 2**64 - 4)):
            moved = list(numbers)
            moved[at + j] = (moved[at + j] + by) % 2**64
            yield section, moved
        yield section, numbers[:at] + numbers[at + 5 :]
        yield section, numbers[:at] + rng.choices(range(40), k=5) + numbers[at:]
    yield section, numbers[:-1]


def questions(kind, word, functions, rng, few):
    """The record's number, register and offset, at times with another kind or word."""
    for k in range(functions + 1) if not few else (0, 1):
        for register in rng.sample(REGISTERS, 2 if few else 4):
            for p in (0, rng.choice([1, 2, 4, 8, 17, 40]), rng.choice([5, 63, 64, 255, 256, 65536, 2**32, 2**64 - 1])):
                yield kind, word, k, register, p
    if not few:
        yield rng.choice([2, 3, 2**63]), word, 0, 6, 0
        yield kind, rng.choice([0, 1, 3, 16, 2**32]), 0, 6, 0
        yield 1 - kind, word, 0, 6, 0
        yield kind, rng.choice([2, 4, 8]), 0, 6, 0
        yield kind, word, 2**64 - 1, 6, 0


def text_of(asked):
    lines = []
    for section, numbers, asks in asked:
        lines += [f"section {section.hex()}", f"relocations {' '.join(map(str, numbers))}"]
        lines += [f"ask {' '.join(map(str, ask))}" for ask in asks]
    return "\n".join(lines) + "\n"


def judged(asked):
    for section, numbers, asks in asked:
        relocations = [numbers[at : at + 5] for at in range(0, len(numbers) - 4, 5)]
        for one in asks:
            yield f"section {section.hex()} relocations {numbers} ask {one}", read(section, relocations, *one)


def compare(asked, counts):
    for got in agreed("reader", judged(asked), ask("reader", text_of(asked).splitlines())):
        counts[got[0]] += 1


def main():
    counts, by_rows, rng = collections.Counter(), collections.Counter(), random.Random(f"reads {sys.argv[2]}")
    total = small = 0
    found = [*of_gas(), *sections(deep()), *sections(batches("stored")), *sections(batches("wild", *sys.argv[1:3]))]
    for *one, case in [*with_registers(batches("stored")), *with_registers(batches("registers", *sys.argv[1:3]))]:
        found.append(one)
        compare_rows(one[0], one[1], one[3], one[4], case, by_rows)
    for kind, word, functions, section, numbers in found:
        asked = [(section, numbers, list(questions(kind, word, functions, rng, False)))]
        if len(section) <= SMALL and small < 60 and rng.random() < 0.5:
            small += 1
            asked += [(*other, list(questions(kind, word, functions, rng, True))) for other in damaged(section, numbers, rng)]
        compare(asked, counts)
        total += len(asked)
    print(f"reader: {by_rows['by rows']} readings of lists with SameValue or InRegister are what their rows say")
    print(f"reader: {total} sections, {small} of them damaged in every way; " + ", ".join(f"{n}: {counts[n]}" for n in sorted(counts)))


if __name__ == "__main__":
    main()
