#!/usr/bin/env python3
"""One list as eh_frame and as debug_frame, both written and read by the library: `two_sections.py COUNT SEED`, over the stored cases and
COUNT random lists.

Where both writers accept the list, the readings of every function without relaxing labels must be the same, at its first and last offsets
and some between, for several registers: the same rules, or the same number."""

import collections
import os
import random
import sys

sys.path.insert(0, os.path.dirname(os.path.dirname(os.path.abspath(__file__))))

from checks.definitions import by_case, parse  # noqa: E402
from checks.reader import REGISTERS, text_of  # noqa: E402
from checks.writers import batches, for_the_rust  # noqa: E402
from common import OUT, run  # noqa: E402
from judges.questions import records  # noqa: E402
from judges.reader import DEBUG, EH  # noqa: E402

ENTRIES = {"relaxed_table": EH, "relaxed_debug_frame": DEBUG}
LENGTH, RELAXED = 1, 14


def written(cases, entry):
    """What the library answers for each list, handed to one writer."""
    return by_case(run(os.path.join(OUT, "writers"), "".join(for_the_rust({**case, "entry": entry}, None) for case in cases)))


def asks(case, rng):
    """Record, register and offset, below the length of a function without relaxing labels."""
    for k, function in enumerate(records(case["functions"], 18)):
        if function[RELAXED] == 0 and function[LENGTH]:
            last = function[LENGTH] - 1
            for p in {0, last, *(min(last, rng.choice([1, 2, 4, 8, 17, 40, 255])) for _ in range(3))}:
                for register in rng.sample(REGISTERS, 3):
                    yield k, register, p


def readings(answer, kind, word, asked):
    field = {line.split(" ")[0]: line.split(" ")[1:] for line in answer}
    numbers = [int(n) for n in field["relocations"]]
    section = bytes.fromhex("".join(field["bytes"]))
    text = text_of([(section, numbers, [(kind, word, *ask) for ask in asked])])
    return run(os.path.join(OUT, "reader"), text)[: len(asked)]


def main():
    rng, counts, lists = random.Random(f"two sections {sys.argv[2]}"), collections.Counter(), 0
    for text in [*batches("stored"), *batches("wild", *sys.argv[1:3])]:
        cases = [case for case in parse(text.split("\n")) if case["entry"] in ENTRIES and case["format"] == 0]
        answers = {entry: written(cases, entry) for entry in ENTRIES}
        for case in cases:
            both = [answers[entry][case["name"]] for entry in ENTRIES]
            if any(answer[0] != "accepted" for answer in both):
                continue
            lists += 1
            asked = list(asks(case, rng))
            word = case["machine"][0]
            eh, debug = (readings(answer, kind, word, asked) for answer, kind in zip(both, ENTRIES.values()))
            for ask, one, other in zip(asked, eh, debug):
                if one != other:
                    sys.exit(f"two_sections: {case['name']} {ask}: eh_frame says {one}, debug_frame {other}")
                counts["answers" if one.startswith("0 ") else "refusals"] += 1
    if not lists or not counts["answers"] or not counts["refusals"]:
        sys.exit(f"two_sections: too little was compared: {lists} lists, {dict(counts)}")
    print(f"two_sections: {lists} lists; " + ", ".join(f"{counts[n]} {n}" for n in sorted(counts)))


if __name__ == "__main__":
    main()
