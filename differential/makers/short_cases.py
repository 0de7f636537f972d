#!/usr/bin/env python3
"""Every short list over a small alphabet, as cases in text form: up to two rows in one function, and two functions of a row each."""

import itertools

# One operand or two of each kind, at offsets 0 and 1: (kind, register, offset).
OPERANDS = [(0, 7, 16), (0, 64, -8), (1, 0, 24), (2, 6, 0), (3, 6, -16), (3, 6, 8), (4, 3, 0), (5, 16, 0), (6, 0, 0), (7, 0, 0), (8, 0, 0)]
ROWS = [(at, *operand) for at in (0, 1) for operand in OPERANDS]
MACHINES = [(word, word * pushed) for word in (2, 4, 8) for pushed in (0, 1)]
SECTIONS = [("relaxed_table", 0), ("relaxed_debug_frame", 0)]


def machine(word, pushed):
    return " ".join(map(str, [word, pushed, 7, 16, 6, 0, *range(64)]))


def case(name, section, of, functions):
    """`functions` are lists of rows, each with a simple and a signal mark."""
    entry, form = section
    lines, at = [f"case {name}", f"entry {entry}", f"format {form}", f"machine {machine(*of)}"], 0
    for number, (rows, simple, signal) in enumerate(functions):
        lines.append(f"functions {16 + number} 9 {at} {len(rows)} 0 0 {simple} {signal}" + " 0" * 10)
        lines += [f"rows {' '.join(map(str, row))}" for row in rows]
        at += len(rows)
    return "\n".join([*lines, "end"])


def cases():
    runs = [(), *((row,) for row in ROWS), *itertools.product(ROWS, repeat=2)]
    number = itertools.count()
    for section, of, simple, rows in itertools.product(SECTIONS, MACHINES, (0, 1), runs):
        yield case(f"short_{next(number)}", section, of, [(rows, simple, 0)])
    for section, of, first, second in itertools.product(SECTIONS, MACHINES[::3], ROWS, ROWS):
        yield case(f"short_{next(number)}", section, of, [((first,), 0, 0), ((second,), 0, 1 if first == second else 0)])


def main():
    for text in cases():
        print(text)


if __name__ == "__main__":
    main()
