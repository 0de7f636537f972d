#!/usr/bin/env python3
"""The command's listing against readelf's: `dump.py COUNT SEED`, over the stored cases, COUNT random lists and a program that gcc built.

Our own sections become ELF objects of no machine, as in checks/dwarf_tools.py, and are handed to the command as raw bytes; the program is handed to both
as it is. Both listings are read into entries: place, length, kind, fields and the rules by location, and the operations by name against readelf's plain listing. Where a
record holds an operation that our tables never use, what stands before it is compared. What is left out: entries that the reader refuses
by their fields; sections with a return address above 127, which readelf reads from one byte; with readelf unstated and
undefined are written alike, a record of padding alone has no table, and a register that it keeps no column for makes it lose others."""

import collections
import os
import re
import subprocess
import sys

sys.path.insert(0, os.path.dirname(os.path.dirname(os.path.abspath(__file__))))

from checks.dwarf_tools import elf, filled  # noqa: E402
from checks.reader import sections, with_registers  # noqa: E402
from checks.writers import batches  # noqa: E402
from common import DEKVOZ, OUT  # noqa: E402
from judges.reader import DEBUG  # noqa: E402

OBJECT = os.path.join(OUT, "dump.o")
SECTION = os.path.join(OUT, "dump.section")
NUMBERS = os.path.join(OUT, "dump.relocations")
PROGRAM = os.path.join(OUT, "dump.program")
SOURCE = """
#include <stdio.h>
#include <string.h>
#include <signal.h>
static int sum(int *p, int n) { int s = 0; for (int i = 0; i < n; i++) { if (p[i] < 0) return -1; s += printf("%d", p[i]); } return s; }
static int grow(int n) { char room[n * 16 + 1]; memset(room, 1, sizeof room); return puts(room) + room[n]; }
static void caught(int n) { printf("%d", n); }
int main(int c, char **v) { int a[100] = {0}; signal(SIGUSR1, caught); return sum(a, c) + grow(c) + (int)strlen(v[0]); }
"""


class Differs(Exception):
    pass


class Entry:
    def __init__(self, place, length, kind, fields):
        self.place, self.length, self.kind, self.fields = place, length, kind, fields
        self.columns, self.rows, self.operations, self.foreign, self.refused = [], {}, [], False, False


def entries(text):
    """The entries of a listing. The last line of a location counts: a step of 0 has two in readelf's."""
    found = []
    for line in text.split("\n"):
        # The command tells a record's number behind readelf's fields.
        line = re.sub(r" record \d+(, in \S+)?(, long spellings)?$", "", line)
        header = re.match(r'([0-9a-f]{8}) ([0-9a-f]+) [0-9a-f]{8} CIE "(.*)" cf=(\d+) df=(-?\d+) ra=(\d+)$', line)
        record = re.match(r"([0-9a-f]{8}) ([0-9a-f]+) [0-9a-f]{8} FDE cie=([0-9a-f]+) pc=([0-9a-f]+)(?:\.\.([0-9a-f]+))?$", line)
        bare = re.match(r"([0-9a-f]{8}) ([0-9a-f]+) \S{8} FDE\b", line)
        plain = re.match(r"([0-9a-f]{8}) ([0-9a-f]+) [0-9a-f]{8} CIE$", line)
        row = re.match(r"([0-9a-f]{4,16}) (\S.*)$", line)
        for match, kind in ((header, "CIE"), (record, "FDE"), (plain, "CIE"), (not record and bare, "FDE")):
            if match:
                place, length, *fields = match.groups()
                found.append(Entry(int(place, 16), int(length, 16), kind, fields))
        if header or bare or plain or not found or "ZERO terminator" in line:
            continue
        if "passed over" in line:
            found[-1].foreign = True
        elif line.startswith("  refused"):
            found[-1].refused = True
        elif line.startswith("  DW_CFA"):
            found[-1].operations.append(line.strip())
        elif line.startswith("   LOC"):
            found[-1].columns = line.split()[2:]
        elif row and found[-1].columns is not None:
            # A register that holds another's value is its number, and its name in brackets.
            frame, *rules = re.sub(r" \((\w+)\)", r"(\1)", row.group(2)).split()
            found[-1].rows[int(row.group(1), 16)] = (frame, dict(zip(found[-1].columns, rules)), "refused" in line)
    return found


def alike(rule):
    return "u" if rule == "-" else rule


def compare_rows(ours, theirs, counts):
    for location, (frame, rules, _) in theirs.rows.items():
        mine = ours.rows.get(location)
        if mine is None:
            if ours.foreign:
                continue
            raise Differs(f"entry {ours.place:x}: no location {location:x}")
        if mine[2]:
            continue
        if frame != mine[0] and not (mine[0] == "none" or frame == "exp"):
            raise Differs(f"entry {ours.place:x} at {location:x}: readelf says {frame}, ours is {mine[0]}")
        for column, rule in rules.items():
            # A column that readelf has and we have not is of an operation behind the foreign one.
            if column not in mine[1] and ours.foreign:
                continue
            if rule != alike(mine[1].get(column, "-")):
                raise Differs(f"entry {ours.place:x} at {location:x}, {column}: readelf says {rule}, ours is {mine[1].get(column)}")
            counts["rules"] += 1
        counts["locations"] += 1


# One operation has the name of another machine's in readelf.
NAMES = {"DW_CFA_AARCH64_negate_ra_state": "DW_CFA_GNU_window_save"}


def compare(ours, theirs, plain, counts):
    if [e.place for e in ours] != [e.place for e in theirs]:
        raise Differs(f"readelf has entries at {[e.place for e in theirs]}, ours are at {[e.place for e in ours]}")
    for mine, other, listed in zip(ours, theirs, plain):
        if (mine.kind, mine.length) != (other.kind, other.length):
            raise Differs(f"entry {mine.place:x}: readelf says {other.kind} {other.length:x}, ours is {mine.kind} {mine.length:x}")
        if mine.refused:
            counts["refused"] += 1
            continue
        if mine.fields != other.fields:
            raise Differs(f"entry {mine.place:x}: readelf says {other.fields}, ours are {mine.fields}")
        compare_rows(mine, other, counts)
        operations = [NAMES.get(o, o) for o in mine.operations]
        expected = listed.operations[: len(operations)] if mine.foreign else listed.operations
        if operations != expected:
            raise Differs(f"entry {mine.place:x}: readelf lists {expected}, ours lists {operations}")
        counts["entries"] += 1
        counts["operations"] += len(operations)


def readelf(what, path, header=None):
    done = subprocess.run(["readelf", f"--debug-dump={what}", path], capture_output=True, text=True)
    return None if done.stderr or "bad register" in done.stdout else entries(done.stdout)


def dekvoz(*words):
    done = subprocess.run([DEKVOZ, *words], capture_output=True, text=True)
    # The status is 1 exactly where an entry is refused, as a whole or from some offset on.
    refused = "refused with" in done.stdout
    if done.returncode != refused or len(done.stderr.splitlines()) != refused or refused and "entries are refused" not in done.stderr:
        raise Differs(f"dekvoz {' '.join(words)}: {done.returncode}: {done.stderr.strip()}")
    return done.stdout


def own(kind, word, section, numbers, counts):
    debug = kind == DEBUG
    with open(OBJECT, "wb") as file:
        file.write(elf(b".debug_frame" if debug else b".eh_frame", filled(section, numbers) if debug else section, word))
    with open(SECTION, "wb") as file:
        file.write(section)
    with open(NUMBERS, "w") as file:
        file.write(" ".join(map(str, numbers)))
    said, plain = readelf("frames-interp", OBJECT), readelf("frames", OBJECT)
    if not said or not plain:
        return
    words = ["dump", SECTION, "--operations", "--word", str(word), "--kind", "debug" if debug else "eh"]
    ours = entries(dekvoz(*words, *(["--relocations", NUMBERS] if debug else [])))
    # In version 1 readelf takes the return address's register from one byte; the tables have an unsigned LEB number there.
    if any(e.kind == "CIE" and not e.refused and int(e.fields[3]) > 127 for e in ours):
        return
    compare(ours, said, plain, counts)
    counts["lists"] += 1


def program(counts):
    with open(PROGRAM + ".c", "w") as file:
        file.write(SOURCE)
    for flags in (["-O2"], ["-O0"], ["-O2", "-static"]):
        built = subprocess.run(["gcc", "-w", *flags, "-o", PROGRAM, PROGRAM + ".c"], capture_output=True)
        if built.returncode:
            continue
        text = dekvoz("dump", PROGRAM, "--operations")
        if "ZERO terminator" not in text:
            raise Differs(f"{PROGRAM}: the listing does not say where the section ends")
        compare(entries(text), readelf("frames-interp", PROGRAM), readelf("frames", PROGRAM), counts)
        said = subprocess.run(["readelf", "--debug-dump=frames-interp", PROGRAM], capture_output=True, text=True, check=True).stdout
        if subprocess.run([DEKVOZ, "dump", "--readelf", PROGRAM], capture_output=True, text=True, check=True).stdout != said:
            raise Differs(f"{PROGRAM}: dump --readelf is not what readelf writes")
        counts["programs"] += 1


def main():
    counts = collections.Counter()
    try:
        written = [sections(batches("stored")), sections(batches("wild", *sys.argv[1:3]))]
        written += [with_registers(batches("stored")), with_registers(batches("registers", *sys.argv[1:3]))]
        for some in written:
            for kind, word, _, section, numbers, *_ in some:
                if word in (4, 8) and section:
                    own(kind, word, section, numbers, counts)
        program(counts)
    except Differs as why:
        sys.exit(f"dump: {why}")
    print(
        f"dump: listed as readelf lists them: {counts['lists']} lists and {counts['programs']} programs, {counts['entries']} entries, "
        f"{counts['operations']} operations, {counts['locations']} locations, {counts['rules']} rules; entries refused: {counts['refused']}"
    )


if __name__ == "__main__":
    main()
