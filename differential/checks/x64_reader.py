#!/usr/bin/env python3
"""The reader of x64 records against one that was written from Microsoft's page "x64 exception handling" alone.

    x64_reader.py COUNT SEED     every short list of bytes, records of one and two slots with every operation byte, COUNT lists of random
                                 codes through `seh`, each record damaged in every byte, and, where clang is there, records that it wrote

At the end stands how often each number was answered; 0 is an answer."""

import collections
import os
import random
import shutil
import struct
import subprocess
import sys
import tempfile

sys.path.insert(0, os.path.dirname(os.path.dirname(os.path.abspath(__file__))))

from common import agreed, ask, beginnings, flipped  # noqa: E402
from judges.x64_reader import ALLOC, FRAME, PUSH, read  # noqa: E402


def compare(asked, counts):
    judged = ((f"info {i.hex()} place {p} room {r}", read(i, p, r)) for i, p, r in asked)
    for got in agreed("x64_reader", judged, ask("x64_reader", (f"read {p} {r} {i.hex()}" for i, p, r in asked))):
        counts[got[0]] += 1


def short(rng):
    """Every list of up to two bytes, headers of three and four bytes, and one and two slots with every operation byte."""
    yield b"", 0, 5
    for a in range(256):
        yield bytes([a]), a % 3, 5
        for b in range(256):
            yield bytes([a, b]), 0, 5
            yield bytes([1, a, 0, b]), 0, 0
            yield bytes([1, 7, a, b]), 0, 5
            yield bytes([a, 7, 0, b]), 0, 5
            yield bytes([1, 7, 1, a, 4, b]), 0, 5
            yield bytes([1, 7, 2, rng.randrange(256), 4, a, b, rng.randrange(256)]), 0, rng.choice((5, 9, 10, 12))
            yield bytes([1, 7, 3, rng.randrange(256), 4, a, b, *rng.randbytes(3)]), 0, 15


def random_code(rng):
    offset, kind = rng.choice((0, 1, 4, 200, 255, rng.randrange(300))), rng.randrange(4)
    near = rng.choice((0, 8, 16, 24, 128, 136, 240, 524272, 524280, 524288, 1048560, 1048576, 2**32 - 16, 2**32 - 8, rng.randrange(2**33)))
    register = rng.randrange(17)
    if kind == PUSH:
        return [offset, kind, register, 0, 0]
    if kind == ALLOC:
        return [offset, kind, 0, 0, near]
    if kind == FRAME:
        return [offset, kind, register, 0, rng.choice((0, 16, 128, 240, rng.randrange(300)))]
    return [offset, kind, register, rng.randrange(2), near]


def written(rng, count):
    """Lists of codes and the records that `seh` made of those that it took; at most one frame code each."""
    lists = []
    while len(lists) < count:
        codes = [random_code(rng) for _ in range(rng.choice((0, 1, 1, 2, 3, 5, 9, 90)))]
        if sum(code[1] == FRAME for code in codes) <= 1:
            lists.append((rng.randrange(256), codes))
    said = ask("x64_reader", (f"seh {end} {' '.join(str(n) for code in codes for n in code)}" for end, codes in lists))
    for (end, codes), line in zip(lists, said, strict=True):
        number, info = line.split()
        if number == "0":
            yield end, codes, bytes.fromhex(info)


def read_back(end, codes, info):
    """Law 1: what was written reads as it was given."""
    frame = next((code for code in codes if code[1] == FRAME), [0] * 5)
    numbers = [n for code in codes for n in code]
    want = [0, end, int(frame[1] == FRAME), frame[2], frame[4], len(codes)] + numbers
    if read(info, 0, len(numbers)) != want:
        sys.exit(f"x64_reader: {info.hex()} does not read as {end} {codes}")


def damaged(info, rng):
    for other in (*flipped(info), *beginnings(info)):
        yield other, 0, 5 * 9
    for place in range(len(info) + 2):
        yield info, place, 5 * 9
    for place in (2**32, 2**63, 2**64 - 4, 2**64 - 1):
        yield info, place, 5 * 9
    for room in range(5 * 9):
        yield info, 0, room
    yield rng.randbytes(3) + info, 3, 5 * 9


SOURCE = """
void callee(void *, double *);
int leaf(int a) { return a + 1; }
int small(int a) { char b[40]; callee(b, 0); return a; }
int large(int a) { char b[5000]; callee(b, 0); return a; }
int huge(int a) { char b[700000]; callee(b, 0); return a; }
int frame(int a) { char b[a + 1]; callee(b, 0); callee(b, 0); return a; }
double saves(double x, double y) { double r[4]; callee(0, r); double z = x * y + r[0]; callee(&z, r); return x + y + z; }
int many(int *p) { int a = p[0], b = p[1], c = p[2], d = p[3], e = p[4], f = p[5], g = p[6]; callee(p, 0); return a + b * c + d * e + f * g; }
"""


def of_clang():
    """The .xdata sections of a small program, as clang writes them for Windows."""
    if shutil.which("clang") is None:
        print("x64_reader: records of clang were passed over, since clang isn't there")
        return
    with tempfile.TemporaryDirectory() as folder:
        source, made = os.path.join(folder, "a.c"), os.path.join(folder, "a.obj")
        with open(source, "w") as file:
            file.write(SOURCE)
        for options in (["-O0"], ["-O2"], ["-O1", "-fno-omit-frame-pointer"]):
            done = subprocess.run(["clang", "--target=x86_64-pc-windows-msvc", *options, "-c", "-o", made, source], capture_output=True)
            if done.returncode != 0:
                print("x64_reader: records of clang were passed over, since it does not compile for Windows")
                return
            with open(made, "rb") as file:
                yield from xdata(file.read())


def xdata(coff):
    """Each record of the .xdata section of an object, by its size."""
    _, sections, _, _, _, extra, _ = struct.unpack_from("<HHIIIHH", coff, 0)
    for at in range(20 + extra, 20 + extra + 40 * sections, 40):
        name, _, _, size, where = struct.unpack_from("<8sIIII", coff, at)
        if name.rstrip(b"\0") == b".xdata":
            info, place = coff[where : where + size], 0
            while place < size:
                yield info, place, 5 * 20
                count = info[place + 2]
                place += 4 + 2 * (count + count % 2)


def main():
    counts, rng = collections.Counter(), random.Random(f"x64_reader {sys.argv[2]}")
    lists = list(short(rng))
    compare(lists, counts)
    taken = list(written(rng, int(sys.argv[1])))
    for end, codes, info in taken:
        read_back(end, codes, info)
    compare([(info, 0, 5 * len(codes)) for _, codes, info in taken], counts)
    some = [info for _, codes, info in taken if len(codes) <= 9][:60]
    compare([other for info in some for other in damaged(info, rng)], counts)
    clang = list(of_clang())
    compare(clang, counts)
    print(
        f"x64_reader: {len(lists)} short lists, {len(taken)} records of seh, {len(some)} of them damaged in every byte, {len(clang)} records of clang; "
        + ", ".join(f"{n}: {counts[n]}" for n in sorted(counts))
    )


if __name__ == "__main__":
    main()
