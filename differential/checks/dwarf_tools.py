#!/usr/bin/env python3
"""The library's reader against readelf and llvm-dwarfdump: `dwarf_tools.py COUNT SEED`, over the stored cases and COUNT random lists.

Each accepted list of word 4 or 8 becomes an ELF object of no machine, so that both tools name registers by number; in debug_frame the
records' header places are filled in, as a linker does. Both tools then list the rules by location; at each location that is inside the
function the frame address rule and every register that they name is compared with what unwind_read answers. What is left out, with the
reason in docs/DIFFERENCES.md: records that the reader refuses there; with readelf the difference of unstated and undefined, which it
writes alike; with LLVM records with a signing state (0x2d), and the frame address rule where a state was brought back."""

import collections
import os
import re
import struct
import subprocess
import sys

sys.path.insert(0, os.path.dirname(os.path.dirname(os.path.abspath(__file__))))

from checks.reader import sections, with_registers  # noqa: E402
from checks.writers import batches  # noqa: E402
from common import OUT, run  # noqa: E402
from judges.reader import DEBUG, IN_REGISTER, SAME_VALUE, SAVED, UNDEFINED, UNSTATED  # noqa: E402

OBJECT = os.path.join(OUT, "frames.o")
RESTORE_STATE, NEGATE = 0x0B, 0x2D


def elf(name, data, word):
    """A relocatable object with one section of that name."""
    names = b"\0.text\0" + name + b"\0.shstrtab\0"
    head, wide = (64, "Q") if word == 8 else (52, "I")
    sections = [(b"", 0, 0, 0, 0), (b".text", 1, 6, head, 16), (name, 1, 2, head + 16, len(data)), (b".shstrtab", 3, 0, head + 16 + len(data), len(names))]
    table = b"".join(
        struct.pack(f"<II4{wide}II2{wide}", names.index(b"\0" + n + b"\0") + 1 if n else 0, kind, flags, 0, at, size, 0, 0, 1, 0)
        for n, kind, flags, at, size in sections
    )
    at = head + 16 + len(data) + len(names)
    ident = b"\x7fELF" + bytes([2 if word == 8 else 1, 1, 1]) + bytes(9)
    start = struct.pack(f"<HHI3{wide}IHHHHHH", 1, 0, 1, 0, 0, at, 0, head, 0, 0, len(table) // 4, 4, 3)
    return ident + start + bytes(16) + data + names + table


def number(text):
    return int(text) % 2**64


# What both tools write of an undefined register, and of one that keeps its value; another register is named.
WORDS = {"u": (UNDEFINED, 0), "undefined": (UNDEFINED, 0), "s": (SAME_VALUE, 0), "same": (SAME_VALUE, 0)}


def rule_of(text):
    other, saved = re.match(r"r(?:eg)?(\d+)$", text), re.match(r"\[?(?:c|CFA)([+-]\d+)?\]?$", text)
    if text in WORDS:
        return WORDS[text]
    return (IN_REGISTER, int(other.group(1))) if other else (SAVED, number(saved.group(1) or "0"))


def by_readelf():
    """For each record its start and end, and for each location the frame address rule and the registers' rules."""
    done = subprocess.run(["readelf", "--debug-dump=frames-interp", OBJECT], capture_output=True, text=True)
    text = done.stdout
    # It keeps no register as large as some here, and then loses others.
    if done.stderr or "bad register" in text:
        return []
    records, back, columns, rows = [], {}, [], None
    for line in text.split("\n"):
        header = re.match(r"([0-9a-f]+) [0-9a-f]+ [0-9a-f]+ CIE .*ra=(\d+)", line)
        record = re.match(r"[0-9a-f]+ [0-9a-f]+ [0-9a-f]+ FDE cie=([0-9a-f]+) pc=([0-9a-f]+)\.\.([0-9a-f]+)", line)
        if header:
            back[int(header.group(1), 16)], rows = int(header.group(2)), None
        elif record:
            rows, returns = [], back[int(record.group(1), 16)]
            records.append((int(record.group(2), 16), int(record.group(3), 16), rows))
        elif line.startswith("   LOC"):
            columns = line.split()[2:]
        elif rows is not None and re.match(r"[0-9a-f]{8}", line):
            location, frame, *values = line.split()
            named = [returns if column == "ra" else int(column[1:]) for column in columns]
            register, offset = re.match(r"r(\d+)([+-]\d+)$", frame).groups()
            rules = {reg: rule_of(value) for reg, value in zip(named, values)}
            rows.append((int(location, 16), (int(register), number(offset)), rules))
    return records


def by_llvm(debug):
    flag = "--debug-frame" if debug else "--eh-frame"
    done = subprocess.run(["llvm-dwarfdump", flag, OBJECT], capture_output=True, text=True)
    if "error" in done.stdout + done.stderr:
        return None
    records, rows = [], None
    for line in done.stdout.split("\n"):
        record = re.match(r"[0-9a-f]+ [0-9a-f]+ [0-9a-f]+ FDE cie=[0-9a-f]+ pc=([0-9a-f]+)\.\.\.([0-9a-f]+)", line)
        row = re.match(r"  0x([0-9a-f]+): CFA=(\S+?)(?::|$)(.*)", line)
        if record:
            rows = []
            records.append((int(record.group(1), 16), int(record.group(2), 16), rows))
        elif row and rows is not None:
            found = re.match(r"reg(\d+)([+-]\d+)?$", row.group(2))
            frame = (int(found.group(1)), number(found.group(2) or "0")) if found else None
            rules = {}
            for register, rule in re.findall(r"reg(\d+)=(\S+?)(?:,|$)", row.group(3)):
                rules[int(register)] = rule_of(rule)
            rows.append((int(row.group(1), 16), frame, rules))
    return records


def filled(section, numbers):
    """debug_frame as a linker leaves it: the header's place in each record's second field."""
    section = bytearray(section)
    for at in range(0, len(numbers), 5):
        place, symbol, _, size, addend = numbers[at : at + 5]
        if symbol == 2:
            section[place : place + size] = addend.to_bytes(size, "little")
    return bytes(section)


class Differs(Exception):
    pass


def compare(tool, said, asks, answers, loose, counts):
    """`loose`: unstated and undefined count as one. The answers are those of `asks`, by record, location and register."""
    for k, (start, end, rows) in enumerate(said):
        for location, frame, rules in rows:
            p = location - start
            for register in [None, *rules]:
                got = answers.get((k, p, 0 if register is None else register))
                if got is None or got[0]:
                    continue
                if register is None:
                    want, ours = frame, (got[2], got[3]) if got[1] else None
                    if tool == "llvm" and asks:
                        continue
                else:
                    want, ours = rules[register], (got[4], got[5])
                    if loose and ours[0] == UNSTATED:
                        ours = (UNDEFINED, 0)
                if want is not None and ours is not None and want != ours:
                    raise Differs(f"record {k} at {p}, register {register}: {tool} says {want}, ours is {ours}")
                counts[tool] += 1


def asked(said):
    """Record, location and register of everything that the tools say."""
    for k, (start, end, rows) in enumerate(said):
        for location, _, rules in rows:
            if location - start < end - start:
                for register in {0, *rules}:
                    yield k, location - start, register


def read_all(kind, word, section, numbers, wanted):
    wanted = sorted(set(wanted))
    lines = [f"section {section.hex()}", f"relocations {' '.join(map(str, numbers))}"]
    lines += [f"ask {kind} {word} {k} {register} {p}" for k, p, register in wanted]
    printed = run(os.path.join(OUT, "reader"), "\n".join(lines) + "\n")
    return {ask: list(map(int, line.split())) for ask, line in zip(wanted, printed)}


def main():
    counts, lists = collections.Counter(), 0
    written = [sections(batches("stored")), sections(batches("wild", *sys.argv[1:3]))]
    written += [with_registers(batches("stored")), with_registers(batches("registers", *sys.argv[1:3]))]
    for some in written:
        for kind, word, _, section, numbers, *_ in some:
            if word not in (4, 8):
                continue
            debug = kind == DEBUG
            with open(OBJECT, "wb") as file:
                file.write(elf(b".debug_frame" if debug else b".eh_frame", filled(section, numbers) if debug else section, word))
            gnu, llvm = by_readelf(), None if NEGATE in section else by_llvm(debug)
            answers = read_all(kind, word, section, numbers, [*asked(gnu), *asked(llvm or [])])
            try:
                compare("readelf", gnu, False, answers, True, counts)
                compare("llvm", llvm or [], RESTORE_STATE in section, answers, False, counts)
            except Differs as why:
                sys.exit(f"dwarf_tools: section {section.hex()} relocations {numbers}: {why}")
            lists += 1
    print(f"dwarf_tools: {lists} lists; rules as readelf says them: {counts['readelf']}, as LLVM says them: {counts['llvm']}")


if __name__ == "__main__":
    main()
