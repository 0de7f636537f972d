#!/usr/bin/env python3
"""The fixed list of the Rust's answers that the program crates/cases replays: `fixed.py` compares the stored file, `fixed.py store` writes it.

The lists are those of cases/ and 2,500 of makers/wild_cases.py, as far as the Rust can be handed them. The answer is the Rust's; where the library
refuses what the Rust does not, it is the specification's number (judges/questions.py; docs/DIFFERENCES.md lists these). A block is its length in 4 bytes
and then unsigned LEB numbers: the entry (0 relaxed_table, 1 relaxed_debug_frame, 2 seh), the format, the six lists, each behind its
count, the number and the position of the answer, and the four results, each behind its count of elements. A count of 0 ends the file."""

import os
import sys

sys.path.insert(0, os.path.dirname(os.path.dirname(os.path.abspath(__file__))))

from checks.definitions import by_case, parse  # noqa: E402
from checks.writers import batches, for_the_rust, put_back, rust_refusal, stand_in  # noqa: E402
from common import OUT, ROOT, run, uleb  # noqa: E402
from judges.questions import expected, mach_o  # noqa: E402

STORED = os.path.join(ROOT, "crates", "cases", "stdin")
COUNT, SEED = "2500", "2026"
# What the program has room for: a block, and each list and result.
BLOCK, ROOM = 60000, 4000
ENTRIES = ("relaxed_table", "relaxed_debug_frame", "seh")
LISTS = ("machine", "functions", "rows", "landings", "pairs", "codes")


def counted(numbers):
    return uleb(len(numbers)) + b"".join(map(uleb, numbers))


def results(said):
    field = {line.split(" ")[0]: line.split(" ")[1:] for line in said}
    return [
        [int(n) for n in field["places"]], list(bytes.fromhex("".join(field["bytes"]))),
        [int(n) for n in field["relocations"]], list(bytes.fromhex("".join(field["sites"]))),
    ]


def answer(case, said, encoding):
    """Number, position and results; None where the Rust gives none to compare with."""
    want = expected(case)
    if want[0] == "source" and said[0].startswith("refused"):
        want = ("refused", *rust_refusal(case, said[0]))
    if want[0] == "refused":
        return want[1], want[2], [[], [], [], []]
    if want[0] == "empty":
        return 0, 0, [[], [], [], []]
    if said[0] != "accepted" or encoding == 0:
        return None
    return 0, 0, results(put_back(said, encoding) if encoding else said)


def block(case, said, encoding):
    found = answer(case, said, encoding)
    if found is None:
        return None
    number, position, lists = found
    given = [case[key] for key in LISTS]
    if max(map(len, [*given, *lists])) > ROOM:
        return None
    numbers = uleb(ENTRIES.index(case["entry"])) + uleb(case["format"]) + b"".join(map(counted, given))
    numbers += uleb(number) + uleb(position) + b"".join(map(counted, lists))
    return len(numbers).to_bytes(4, "little") + numbers if len(numbers) <= BLOCK else None


def blocks():
    for words in (("stored",), ("wild", COUNT, SEED)):
        for text in batches(*words):
            cases = [case for case in parse(text.split("\n")) if case["machine"][:1] <= [8]]
            encodings = [stand_in(case) for case in cases]
            handed = "".join(for_the_rust(case, encoding) for case, encoding in zip(cases, encodings) if not mach_o(case))
            said = by_case(run(os.path.join(OUT, "release", "harness"), handed))
            for case, encoding in zip(cases, encodings):
                made = block(case, said.get(case["name"]), encoding)
                if made is not None:
                    yield made


def main():
    made = list(blocks())
    text = b"".join(made) + bytes(4)
    if sys.argv[1:] == ["store"]:
        with open(STORED, "wb") as file:
            file.write(text)
    else:
        with open(STORED, "rb") as file:
            if file.read() != text:
                sys.exit("fixed: crates/cases/stdin is not what the Rust answers")
    print(f"fixed: {len(made)} lists, {len(text)} bytes")


main()
