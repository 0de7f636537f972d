#!/usr/bin/env python3
"""Compares the answers of the debug and the release build, given as two files.

They may differ where the debug build panics for one of the reasons below; any other difference is
an error.
"""

import sys

KNOWN = {
    "panic assertion `left == right` failed: a slot is a whole number of slots below the end of the frame":
        "an Offset that is no multiple of word",
    "panic attempt to subtract with overflow": "a row that goes back",
    "panic attempt to negate with overflow": "a Save of the least 64-bit number",
}


def answers(path):
    with open(path) as file:
        blocks = file.read().split("\nend\n")
    return [block.splitlines() for block in blocks if block]


def main():
    debug, release = answers(sys.argv[1]), answers(sys.argv[2])
    if len(debug) != len(release):
        sys.exit("agree: the numbers of answers differ")
    reasons = {}
    for left, right in zip(debug, release):
        if left == right:
            continue
        reason = KNOWN.get(left[1])
        if reason is None:
            sys.exit(f"agree: {left[0]}: debug says {left[1]!r}, release {right[1]!r}")
        reasons[reason] = reasons.get(reason, 0) + 1
    known = "".join(f"; {count} differ by {reason}" for reason, count in sorted(reasons.items()))
    print(f"{len(debug)} cases, debug and release agree on {len(debug) - sum(reasons.values())}{known}")


if __name__ == "__main__":
    main()
