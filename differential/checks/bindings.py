#!/usr/bin/env python3
"""The Rust wrappers (bindings/rust) against the library as C sees it.

    bindings.py COUNT SEED     the stored cases, COUNT random lists (makers/wild_cases.py), and questions about the sections that they give

bindings/rust/examples/cases.rs hands each case to the wrappers, through lists of numbers and through the crate's own types; drivers/writers.c and
drivers/reader.c hand it to the exports. All answers must be the same. The examples in C and Rust must print the same."""

import os
import random
import sys

sys.path.insert(0, os.path.dirname(os.path.dirname(os.path.abspath(__file__))))

from checks.definitions import by_case, parse  # noqa: E402
from checks.reader import questions, text_of  # noqa: E402
from checks.writers import batches  # noqa: E402
from common import OUT, ROOT, Failed, run  # noqa: E402

BUILT = os.path.join(ROOT, "target", "bindings", "release", "examples")
LARGEST = 4000


def same_lists(text):
    """How many cases there are, how many of them the crate's types cannot say, and drivers/writers.c's answers."""
    got, want = run(os.path.join(BUILT, "cases"), text), run(os.path.join(OUT, "writers"), text)
    answers, expected = by_case(got), by_case(want)
    for name, answer in expected.items():
        if answers.get(name) != answer:
            raise Failed(f"{name}: ours is {answer[:5]}, the wrappers' {answers.get(name)}")
    return len(expected), got.count("# not of the types"), expected


def asked(text, answers, rng):
    """Questions about each small section of these cases, at times with a byte changed."""
    for case in parse(text.split("\n")):
        answer = answers[case["name"]]
        if answer[0] != "accepted" or case["entry"] == "seh" or case["format"] == 1:
            continue
        section = bytearray.fromhex(answer[2][len("bytes ") :])
        if len(section) > LARGEST:
            continue
        numbers = [int(n) for n in answer[3].split()[1:]]
        if rng.random() < 0.3:
            section[rng.randrange(len(section))] ^= 1 << rng.randrange(8)
        kind = int(case["entry"] == "relaxed_debug_frame")
        functions = len(case["functions"]) // 18
        yield bytes(section), numbers, list(questions(kind, case["machine"][0], functions, rng, functions > 9))


def same_readings(text, answers, rng):
    words = text_of(list(asked(text, answers, rng)))
    got, want = run(os.path.join(BUILT, "cases"), words), run(os.path.join(OUT, "reader"), words)
    if got != want:
        at = next(i for i, pair in enumerate(zip(got, want)) if pair[0] != pair[1])
        raise Failed(f"reading {at}: ours is {want[at]}, the wrappers' {got[at]}")
    return len(want) - 1


def same_examples():
    programs = (os.path.join(BUILT, "trap"), os.path.join(OUT, "trap"))
    if run(programs[0], "") != run(programs[1], ""):
        raise Failed("the examples in C and Rust print different rules")


def compare(count, seed):
    rng = random.Random(f"bindings {seed}")
    lists = untyped = readings = 0
    for text in (*batches("stored"), *batches("wild", count, seed)):
        found, not_said, answers = same_lists(text)
        lists, untyped = lists + found, untyped + not_said
        readings += same_readings(text, answers, rng)
    return f"{lists} lists, {lists - untyped} of them through the types too, {readings} readings: no difference"


def main():
    try:
        same_examples()
        print(f"bindings: {compare(*sys.argv[1:3])}")
    except Failed as why:
        sys.exit(f"bindings: {why}")


if __name__ == "__main__":
    main()
