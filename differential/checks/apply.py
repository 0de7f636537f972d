#!/usr/bin/env python3
"""The library's unwind_apply against judges/apply.py, which was written from the RISC-V psABI ("Relocations") alone.

    apply.py COUNT SEED     chosen lists, and COUNT random ones

Chosen: each kind at its bounds and one past them, every refusal at the first and the last place of a list, sums that pass 64 bits, a field
on the section's last byte, a copy exactly as long and one short, symbols listed twice, incomplete last records. At the end stands how often
each number was answered."""

import collections
import os
import random
import sys

sys.path.insert(0, os.path.dirname(os.path.dirname(os.path.abspath(__file__))))

from common import ask  # noqa: E402
from judges.apply import ADDRESS, DATA, IMAGE, PLUS, SIZES, TOP, WIDTHS, apply  # noqa: E402

FILL = 0xA5


def chosen():
    """Bytes, relocations, addresses, section, image, room."""
    at = [16, 0x1000, 17, 0x1004, 18, TOP - 1, 16, 5, 19]

    def one(data, relocations, listed=at, section=0x2000, image=0xFA0):
        flat = [n for r in relocations for n in r]
        for room in (len(data), len(data) + 3, len(data) - 1):
            if room >= 0:
                yield data, flat, listed, section, image, room
        yield data, flat + [0, 16, 13], listed, section, image, len(data)

    full = bytes(range(0xC0, 0xD0))
    good = [[0, 16, DATA, 4, 0]]
    bad = []
    for kind, sizes in SIZES.items():
        for size in range(0, 10):
            for place in (0, 16 - size, 17 - size, 16, TOP - size, TOP - 1):
                if place >= 0:
                    bad.append([[place, 17, kind, size, 0], [place, 16, kind + 1, size, 0]])
                    bad.append([[place, 17, kind, size, 0]])
    bad += [[[0, 17, kind, 4, 0]] for kind in (13, 14, 255, TOP - 1)]
    bad += [[[0, symbol, ADDRESS, 8, 0]] for symbol in (0, 15, 18, 19, 20, TOP - 1)]
    for kind in [PLUS, *WIDTHS]:
        size = SIZES[kind][0]
        first, second = [0, 17, kind, size, 0], [0, 16, kind + 1, size, 0]
        bad += [[second, first], [first, first, second], [first, second, second], [first, good[0], second], [first, [1, *second[1:]]]]
        bad += [[first, [0, 16, kind + 1, other, 0]] for other in (1, 2, 4, 8)] + [[first, [0, 20, kind + 1, size, 0]], [[0, 20, kind, size, 0], second]]
        bits = WIDTHS.get(kind, 8 * size)
        bad += [[[0, 16, kind, size, d % TOP], [0, 16, kind + 1, size, e % TOP]] for e in (0, 5, -5, -(1 << 63), (1 << 63) - 1)
                for d in (e - 1, e, e + 1, e + (1 << bits) - 1, e + (1 << bits))]
        bad += [[[0, 18, kind, size, (1 << 63) - 1], [0, 18, kind + 1, size, (1 << 63) - 1 - d]] for d in (0, 1, (1 << bits) - 1, 1 << bits)]
    for size in (2, 4, 8):
        bad += [[[0, 16, ADDRESS, size, d % TOP]] for d in (-0x1001, -0x1000, (1 << 8 * size) - 0x1001, (1 << 8 * size) - 0x1000)]
        bad += [[[0, 18, ADDRESS, size, d % TOP]] for d in (0, 1, -1, (1 << 63) - 1, -(1 << 63))]
    bad += [[[0, 16, IMAGE, 4, d % TOP]] for d in (-97, -96, (1 << 32) - 97, (1 << 32) - 96)]
    bad += [[[p, 16, DATA, 4, (0x1000 + p + d) % TOP]] for p in (0, 12) for d in (-(1 << 31) - 1, -(1 << 31), (1 << 31) - 1, 1 << 31)]
    for item in bad:
        # Alone, at the first place and at the last, and behind and before what 80 refuses.
        far = [[0, 16, 7, 1, 0], [0, 17, 8, 1, 0]]
        for relocations in (item, item + good, good + item, far + item, item + far):
            yield from one(full, relocations)
    for section in (TOP - 1, TOP - 8):
        for d in (-8, 0, 8):
            yield from one(full, [[8, 18, DATA, 4, d % TOP]], section=section)
    yield from one(b"", [])
    yield from one(b"", good)
    yield from one(full, [], [])
    yield from one(full, good, [16])


def number(r):
    return r.choice((r.randrange(32), r.randrange(1 << 16), r.randrange(TOP), (TOP - 1 - r.randrange(64)), 1 << 63, (1 << 63) - 1, 1 << r.randrange(64)))


def drawn(r):
    data = bytes(r.randrange(256) for _ in range(r.randrange(1, 40)))
    base = number(r)
    listed = [n for s in range(16, 24) if r.random() < 0.97 for n in (s, (base + r.randrange(-300, 300)) % TOP)]
    section, image = ((base + r.randrange(-300, 300)) % TOP for _ in range(2))
    flat = []
    for _ in range(r.randrange(6)):
        kind = r.choice((DATA, ADDRESS, PLUS, IMAGE, *WIDTHS, *WIDTHS))
        size = r.choice(SIZES[kind])
        place = r.randrange(max(1, len(data) - size + 1))
        near = [r.choice((0, 0, 1, 5, TOP - 3, number(r) if r.random() < 0.05 else 2)) for _ in range(2)]
        if kind == ADDRESS and r.random() < 0.8:
            size, near[0] = 8, 0
        flat += [place, r.randrange(16, 24), kind, size, near[0]]
        if kind in (PLUS, *WIDTHS):
            flat += [place, r.randrange(16, 24), kind + 1, size, near[1]]
    if flat and r.random() < 0.15:
        flat[r.randrange(len(flat))] = number(r)
    return data, flat, listed, section, image, max(0, len(data) + r.choice((0, 0, 0, 1, 7, -1)) if r.random() < 0.2 else len(data))


def main():
    count, seed = int(sys.argv[1]), int(sys.argv[2])
    r = random.Random(seed)
    cases = list(chosen()) + [drawn(r) for _ in range(count)]
    lines = []
    for data, flat, listed, section, image, room in cases:
        lines += [f"bytes {data.hex()}", f"relocations {' '.join(map(str, flat))}", f"addresses {' '.join(map(str, listed))}", f"ask {section} {image} {room}"]
    told = collections.Counter()
    for case, line in zip(cases, ask("apply", lines), strict=True):
        want, out = apply(*case)
        room = case[5]
        buffer = (out or b"") + bytes([FILL]) * (room + 1 - len(out or b""))
        told[want] += 1
        if line != f"{want} {buffer.hex()}":
            sys.exit(f"apply: {case}\n  ours {line}\n  want {want} {buffer.hex()}")
    print(f"apply: {len(cases)} lists agree: " + ", ".join(f"{n} {told[n]}" for n in sorted(told)))


main()
