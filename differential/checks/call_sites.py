#!/usr/bin/env python3
"""The reader of call sites against one that was written from the Itanium C++ ABI's "LSDA" (the exception handling tables).

    call_sites.py COUNT SEED     every short table, tables of small alphabets, COUNT lists of landings through eh_frame's writer, some of
                                 them damaged in every byte, tables with each number padded, COUNT random tables, and the tables of C++
                                 programs in expected/lsda.txt
    call_sites.py store          writes that file with the C++ compilers that are at hand

At the end stands how often each number was answered; 0 is an answer."""

import collections
import itertools
import os
import random
import re
import shutil
import subprocess
import sys
import tempfile

sys.path.insert(0, os.path.dirname(os.path.dirname(os.path.abspath(__file__))))

from common import HERE, agreed, ask, beginnings, flipped, uleb  # noqa: E402
from judges.call_sites import HEAD, Refused, answer, entries, unsigned  # noqa: E402

STORED = os.path.join(HERE, "expected", "lsda.txt")


def compare(asked, counts):
    judged = ((f"sites {s.hex()} place {p} offset {o}", answer(s, p, o)) for s, p, o in asked)
    for got in agreed("call_sites", judged, ask("call_sites", (f"site {p} {o} {s.hex()}" for s, p, o in asked))):
        counts["none" if got[:5] == [0] * 5 else got[0]] += 1
        counts["long"] += got[0] == 0 and got[5] == 0


def short():
    """Every list of up to two bytes, heads with a byte changed, every table of up to two bytes, and of few bytes up to eight."""
    for n in range(3):
        for some in itertools.product(range(256), repeat=n):
            yield bytes(some), 0, 0
            yield HEAD + bytes(some), 0, 0
    for at in range(3):
        for byte in range(256):
            yield HEAD[:at] + bytes([byte]) + HEAD[at + 1 :] + bytes([4, 0, 5, 0, 0]), 0, 3
    for some in itertools.product((0, 1, 2, 4, 5, 8, 9, 127, 128, 129, 255), repeat=3):
        yield HEAD + bytes(some), 0, 0
    for n in range(9):
        for some in itertools.product((0, 1, 2, 128) if n < 7 else (0, 1, 128), repeat=n):
            yield HEAD + uleb(n) + bytes(some), 0, 1
    for n in (4, 8):
        for some in itertools.product((0, 1, 2), repeat=n):
            for offset in range(4):
                yield HEAD + uleb(n) + bytes(some), 0, offset


def edges():
    """Numbers at the ends of 64 bits and of ten bytes, and places past the end."""
    big = (0, 1, 2**63, 2**64 - 2, 2**64 - 1)
    for start, length, pad, action in itertools.product(big, big, (0, 2**64 - 1), (0, 2**64 - 1)):
        entry = b"".join(map(uleb, (start, length, pad, action)))
        for offset in big:
            yield HEAD + uleb(len(entry)) + entry, 0, offset
    for tail in (b"\x01", b"\x02", b"\x7f", b"\x80\x00", b"\x00"):
        number = b"\x81" * 9 + tail
        yield HEAD + number, 0, 0
        for i in range(4):
            entry = b"".join(number if i == j else b"\x01" for j in range(4))
            yield HEAD + uleb(len(entry)) + entry, 0, 1
    table = HEAD + bytes([4, 0, 5, 6, 0])
    for place in (*range(10), 2**32, 2**63, 2**64 - 3, 2**64 - 1):
        for front in (b"", b"\0", b"\0\0\0"):
            yield front + table, place, 3


def landing(rng):
    start = rng.choice((0, 1, 127, 128, rng.randrange(300), rng.randrange(300), rng.randrange(2**40), 2**64 - 1))
    return [start, rng.choice((0, 1, rng.randrange(200), rng.randrange(2**40), 2**64 - 1 - start, 2**64 - start)) % 2**64, rng.randrange(1000)]


def written(rng, count):
    """Lists of functions with landings, and the call sites that the writer made of them with each table's place."""
    lists = [[[landing(rng) for _ in range(rng.choice((0, 1, 1, 2, 3, 9)))] for _ in range(rng.choice((1, 1, 2, 5)))] for _ in range(count)]
    said = ask("call_sites", ("write " + " , ".join(" ".join(str(n) for l in ls for n in l) for ls in fs) for fs in lists))
    for functions, line in zip(lists, said, strict=True):
        number, sites, *places = line.split()
        if number != "0":
            sys.exit(f"call_sites: {functions} is refused by {number}")
        sites = b"" if sites == "-" else bytes.fromhex(sites)
        yield sites, zip(map(int, places), [ls for ls in functions if ls], strict=True)


def read_back(sites, place, landings):
    """What was written reads as the landings, where each end has 64 bits; else it is refused by 72."""
    spelled = []
    try:
        got = entries(sites, place, spelled)
    except Refused as no:
        got = no.args[0]
    want = 72 if any(start + length >> 64 for start, length, _ in landings) else landings
    if not all(spelled):
        sys.exit(f"call_sites: {sites.hex()} at {place} has a long spelling")
    if got != want:
        sys.exit(f"call_sites: {sites.hex()} at {place} reads as {got} and not as {want}")


def offsets(rng, landings):
    ends = [n for start, length, _ in landings for n in (start - 1, start, start + length - 1, start + length) if 0 <= n < 2**64]
    return rng.sample(ends, min(4, len(ends))) + [rng.randrange(300)]


def damaged(sites, place, rng):
    for other in (*flipped(sites), *beginnings(sites)):
        yield other, place, rng.randrange(300)


def padded(rng):
    """Tables of one to three entries with each number in turn, the length first, spelled in up to ten bytes."""
    for landings in ([[4, 6, 20]], [[0, 5, 0], [5, 300, 128]], [[1, 2, 3], [70000, 9, 2**40], [2**63, 5, 7]]):
        numbers = [n for landing in landings for n in (*landing, 0)]
        for at in range(-1, len(numbers)):
            for more in range(10):
                entries = b"".join(longer(n, more if i == at else 0) for i, n in enumerate(numbers))
                size = longer(len(entries), more if at == -1 else 0)
                for offset in (0, 4, 7, rng.randrange(300), 2**63):
                    yield HEAD + size + entries, 0, offset


def longer(value, more):
    """A number with more bytes than it needs, ten at most."""
    short = uleb(value)
    more = min(more, 10 - len(short))
    return short if more == 0 else short[:-1] + bytes([short[-1] + 128]) + b"\x80" * (more - 1) + b"\0"


def wild(rng, count):
    for _ in range(count):
        table = bytes(rng.choice((0, 1, 3, 9, 50, 127, 128, 129, 255, rng.randrange(256))) for _ in range(rng.randrange(40)))
        said = rng.choice((len(table), len(table), rng.randrange(60)))
        front = rng.randbytes(rng.randrange(3))
        yield front + HEAD + uleb(said) + table, len(front), rng.choice((0, 1, 3, 50, rng.randrange(20000)))


SOURCE = """
struct A { A(); ~A(); int v; };
int g(int); int h(int) noexcept;
int cleanup(int n) { A a; int r = g(n); { A b; r += g(r) + b.v; } return r + a.v; }
int caught(int n) { try { A a; return g(n); } catch (int e) { return e; } catch (...) { return g(7); } }
int nested(int n) { try { try { return g(n); } catch (long e) { A a; return g(int(e)); } } catch (int e) { return e + g(e); } }
int never(int n) noexcept { return g(n) + h(n); }
int rows(int n) { A a[4]; int r = 0; for (int i = 0; i < n; i++) { A b; r += g(i); if (r > 100) return h(r); } return r; }
"""


def lsdas(text):
    """The bytes of each table with the head ff ff 01 in an object's .gcc_except_table, cut at the end of its entries."""
    at = text.find(HEAD)
    while at != -1:
        try:
            length, start = unsigned(text, at + 3, 71)
        except Refused:
            length, start = 1 << 64, at
        if start + length <= len(text):
            yield text[at : start + length]
        at = text.find(HEAD, at + 1)


def store():
    """The tables of a small program, by the compilers that are at hand; addresses are 0 where a relocation fills them in."""
    found = set()
    with tempfile.TemporaryDirectory() as folder:
        source, made, text = (os.path.join(folder, name) for name in ("a.cc", "a.o", "a.bin"))
        with open(source, "w") as file:
            file.write(SOURCE)
        for compiler in filter(shutil.which, ("g++", "clang++")):
            for level in ("-O0", "-O1", "-O2"):
                subprocess.run([compiler, level, "-c", "-o", made, source], check=True)
                subprocess.run(["objcopy", "-O", "binary", "-j", ".gcc_except_table*", "--set-section-flags", ".gcc_except_table*=alloc", made, text], check=True)
                with open(text, "rb") as file:
                    found.update((compiler, level, table.hex()) for table in lsdas(file.read()))
    with open(STORED, "w") as file:
        file.writelines(" ".join(line) + "\n" for line in sorted(found))


def of_compilers():
    with open(STORED) as file:
        for line in file:
            yield bytes.fromhex(re.split(r"\s+", line.strip())[-1])


def main():
    if sys.argv[1:] == ["store"]:
        return store()
    counts, rng, count = collections.Counter(), random.Random(f"call_sites {sys.argv[2]}"), int(sys.argv[1])
    lists = [*short(), *edges()]
    compare(lists, counts)
    ours, some = 0, []
    asked = []
    for sites, tables in written(rng, count):
        for place, landings in tables:
            read_back(sites, place, landings)
            asked += [(sites, place, offset) for offset in offsets(rng, landings)]
            ours += 1
            if len(some) < 60 and len(sites) < 60:
                some.append((sites, place))
    compare(asked, counts)
    compare([other for sites, place in some for other in damaged(sites, place, rng)], counts)
    long = list(padded(rng))
    compare(long, counts)
    compare(list(wild(rng, count)), counts)
    stored = list(of_compilers())
    compare([(table, 0, offset) for table in stored for offset in range(200)], counts)
    print(
        f"call_sites: {len(lists)} short tables and edges, {ours} tables of our writer, {len(some)} of them damaged in every byte, {len(long)} with a padded number, {count} random ones, "
        f"{len(stored)} of C++ compilers; " + ", ".join(f"{n}: {counts[n]}" for n in sorted(counts, key=str))
    )


if __name__ == "__main__":
    main()
