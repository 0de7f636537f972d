#!/usr/bin/env python3
"""Makes the lists that differential/speed/run times, as cases in text form (differential/README.md). The same arguments make the same text.

    performance_lists.py same N        N functions of one header
    performance_lists.py headers N H   N functions of H different headers, in turn: function k has header k mod H
    performance_lists.py blocks N      N functions, the first half of one header and the second of another
    performance_lists.py random N      N functions of one header, the kinds of their rows in random order
    performance_lists.py pairs N       one function of N rows, with relaxing labels and a pair for each step, in the order of the rows

Every function but that of `pairs` has 20 rows, and every list is one of ELF's eh_frame on x86-64."""

import sys

DEF_CFA, DEF_CFA_OFFSET, DEF_CFA_REGISTER, OFFSET = 0, 1, 2, 3
RESTORE, UNDEFINED, REMEMBER, RESTORE_STATE = 4, 5, 6, 7
RBP, RSP = 6, 7
SAVED = [3, 12, 13, 14, 15]
ROWS = 20


class Numbers:
    """Numbers that look random: those of the 64-bit generator of Knuth's MMIX, its upper bits."""

    def __init__(self, seed):
        self.state = seed

    def below(self, n):
        self.state = (self.state * 6364136223846793005 + 1442695040888963407) % 2**64
        return (self.state >> 33) % n


def leading(header):
    """Rows at offset 0 that make a header of their own; header 0 has those that a call implies."""
    if header == 0:
        return []
    return [(0, OFFSET, 32 + header % 64, -8 * (1 + header // 64))]


def body(numbers, count):
    """Rows of a function that pushes, makes a frame, leaves early now and then, and goes on."""
    rows, at, depth = [], 0, 8
    remembered = False
    for kind in range(count):
        if kind % 2 == 0 or at == 0:
            at += 1 + numbers.below(60) if numbers.below(20) else 64 + numbers.below(1000)
        if kind < 12 and kind % 2 == 0:
            depth += 8
            rows.append((at, DEF_CFA_OFFSET, 0, depth))
        elif kind < 12:
            rows.append((at, OFFSET, ([RBP] + SAVED)[kind // 2], -depth))
        elif kind == 12:
            rows.append((at, DEF_CFA_REGISTER, RBP, 0))
        elif remembered:
            rows.append((at, RESTORE_STATE, 0, 0))
            remembered = False
        elif kind < count - 2 and kind % 3 == 0:
            rows.append((at, REMEMBER, 0, 0))
            remembered = True
        else:
            rows.append((at, DEF_CFA, RSP, 8 + 8 * numbers.below(40)))
    return rows, at


def shuffled(numbers, count):
    """Rows whose kinds no processor can foresee."""
    rows, at = [], 0
    for _ in range(count):
        at += 1 + numbers.below(60) if numbers.below(20) else 64 + numbers.below(1000)
        kind = [DEF_CFA, DEF_CFA_OFFSET, DEF_CFA_REGISTER, OFFSET, RESTORE, UNDEFINED, REMEMBER, RESTORE_STATE][numbers.below(8)]
        reg = numbers.below(16) if kind not in (DEF_CFA_OFFSET, REMEMBER, RESTORE_STATE) else 0
        off = {DEF_CFA: 8 + 8 * numbers.below(40), DEF_CFA_OFFSET: 8 + 8 * numbers.below(40), OFFSET: -8 * (1 + numbers.below(20))}
        rows.append((at, kind, reg, off.get(kind, 0)))
    return rows, at


def lists(count, header_of, body=body):
    numbers = Numbers(20260101)
    functions, rows = [], []
    for k in range(count):
        first = leading(header_of(k))
        others, end = body(numbers, ROWS - len(first))
        functions.append([16 + k, end + 1 + numbers.below(40), len(rows), ROWS] + [0] * 14)
        rows.extend(first + others)
    return functions, rows


def paired(count):
    """One function with a pair for each step between its rows."""
    numbers = Numbers(20260101)
    rows, end = body(numbers, count)
    places = sorted({row[0] for row in rows} | {0})
    pairs = [(a, b, 20 + i, 21 + i) for i, (a, b) in enumerate(zip(places, places[1:]))]
    return [[16, end + 1, 0, count] + [0] * 10 + [1, 17, 0, len(pairs)]], rows, pairs


def print_case(name, functions, rows, pairs=()):
    lines = [f"case {name}", "entry relaxed_table", "format 0", "machine x86_64"]
    for key, records in (("functions", functions), ("rows", rows), ("pairs", pairs)):
        lines.extend(" ".join(map(str, [key, *record])) for record in records)
    print("\n".join([*lines, "end"]))


def main():
    kind, count = sys.argv[1], int(sys.argv[2])
    made = {
        "same": lambda: lists(count, lambda k: 0),
        "headers": lambda: lists(count, lambda k: k % int(sys.argv[3])),
        "blocks": lambda: lists(count, lambda k: 2 * k // count),
        "random": lambda: lists(count, lambda k: 0, shuffled),
        "pairs": lambda: paired(count),
    }[kind]
    print_case("-".join(sys.argv[1:]), *made())


if __name__ == "__main__":
    main()
