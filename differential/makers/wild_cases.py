#!/usr/bin/env python3
"""Random cases by a seed, a third of them with numbers changed so that they may be no lists: `wild_cases.py COUNT SEED [FIRST [KIND]]`.

With the word x64 only those of COFF and of direct codes, a fifth of them with a number a little off; with the word registers those with
rows that keep a register's value or hold it in another."""

import sys

import random_cases as maker

ODD = [0, 1, 2, 3, 5, 9, 15, 16, 17, 255, 256, 65535, 65536, 65537, 2**31, 2**32 - 1, 2**32, 2**63, 2**64 - 1]
NEAR = [-256, -128, -16, -8, -4, -1, 1, 4, 8, 16, 128, 256]


def numbers(lines, key):
    return [(at, line.split()[1:]) for at, line in enumerate(lines) if line.startswith(key + " ")]


def change(rng, lines):
    """One number changed, or a list cut, or made longer."""
    key = rng.choice(["machine", "functions", "functions", "functions", "rows", "landings", "pairs", "codes"])
    found = numbers(lines, key)
    if not found:
        return
    at, words = rng.choice(found)
    if words == ["x86_64"]:
        words = list(map(str, [8, 8, 7, 16, 6, 0, *maker.X86_64]))
    what = rng.random()
    if what < 0.8:
        words[rng.randrange(len(words))] = str(rng.choice(ODD))
    elif what < 0.9 and at == found[-1][0]:
        words = words[: rng.randrange(len(words))]
    elif at == found[-1][0]:
        words += [str(rng.choice(ODD)) for _ in range(rng.randint(1, 3))]
    lines[at] = " ".join([key, *words])


def long_prologue(rng, lines):
    """One more function, with about as many slots as a record holds: pushes as direct codes, saves as rows."""
    count = rng.choice([127, 128, 129, 254, 255, 256])
    if "entry seh" in lines:
        at = sum(len(words) for _, words in numbers(lines, "codes"))
        added = [f"functions 900 1 1 {at // 5} {count}"] + ["codes 1 0 3 0 0"] * count
    else:
        at = sum(len(words) for _, words in numbers(lines, "rows"))
        added = [f"functions 900 1 {at // 4} {count}" + " 0" * 14] + [f"rows {1 + n % 250} 3 3 -8" for n in range(count)]
    lines[-1:] = [*added, "end"]


def nudge(rng, lines):
    """A number of a row or a code, a little more or less."""
    found = [(at, line.split()) for at, line in enumerate(lines) if line.startswith(("rows ", "codes "))]
    if not found:
        return
    at, words = rng.choice(found)
    i = rng.randrange(1, len(words))
    words[i] = str(max(int(words[i]) + rng.choice(NEAR), 0 if i < len(words) - 1 else -(2**31)))
    lines[at] = " ".join(words)


def changed(rng, lines, only_x64):
    """The lines of a case, changed by chance."""
    x64 = "entry seh" in lines or "entry relaxed_table" in lines and "format 1" in lines
    if x64 and rng.random() < 0.01:
        long_prologue(rng, lines)
    if x64 and rng.random() < 0.01:
        lines = [f"machine 4 4 7 16 6 0 {' '.join(map(str, maker.X86_64))}" if line.startswith("machine") else line for line in lines]
    if not only_x64 and rng.random() < 0.02:
        lines = [f"format {rng.choice([3, 4, 5, 2**64 - 1])}" if line.startswith("format") else line for line in lines]
    if only_x64 and rng.random() < 0.2:
        nudge(rng, lines)
    while rng.random() < 0.33:
        change(rng, lines)
    return lines


MAKERS = {"": maker.random_case, "x64": maker.x64_case, "registers": maker.registers_case}


def wild(seed, number, kind=""):
    rng = maker.random.Random(f"wild {seed} {number}")
    return "\n".join(changed(rng, MAKERS[kind](seed, number).split("\n"), kind == "x64"))


def main():
    count, seed, first = int(sys.argv[1]), sys.argv[2], int(sys.argv[3]) if len(sys.argv) > 3 else 0
    for number in range(first, first + count):
        print(wild(seed, number, *sys.argv[4:]))


if __name__ == "__main__":
    main()
