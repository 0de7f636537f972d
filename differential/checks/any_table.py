#!/usr/bin/env python3
"""Every row of call frame information that other compilers wrote, beside readelf's.

    any_table.py ROWS FILE..

ROWS is the command that runs crates/cfi_rows (its input on standard input, its rows on standard output). Of each ELF
file's .eh_frame and .debug_frame it compares every CIE, every FDE and every row with readelf --debug-dump=frames-interp:
the kind of the CFA's rule with register and offset, and each register's rule. readelf shows a register that is named
elsewhere in the record and has no rule as undefined, so unstated and undefined count as one here. The last line says
how many rows were compared; the status is 1 where one differs, or where a record is refused that readelf reads.
"""
import re
import struct
import subprocess
import sys

X86_64 = "rax rdx rcx rbx rsi rdi rbp rsp r8 r9 r10 r11 r12 r13 r14 r15 rip".split()
I386 = "eax ecx edx ebx esp ebp esi edi eip eflags".split()
MACHINES = {
    "Advanced Micro Devices X86-64": {name: n for n, name in enumerate(X86_64)},
    "Intel 80386": {name: n for n, name in enumerate(I386)},
    "AArch64": {**{f"x{n}": n for n in range(31)}, "sp": 31, **{f"v{n}": 64 + n for n in range(32)}},
    "RISC-V": {
        **{f"x{n}": n for n in range(32)},
        **{name: n for n, name in enumerate(
            "zero ra sp gp tp t0 t1 t2 s0 s1 a0 a1 a2 a3 a4 a5 a6 a7 s2 s3 s4 s5 s6 s7 s8 s9 s10 s11 t3 t4 t5 t6".split())},
        **{name: 32 + n for n, name in enumerate(
            "ft0 ft1 ft2 ft3 ft4 ft5 ft6 ft7 fs0 fs1 fa0 fa1 fa2 fa3 fa4 fa5 fa6 fa7 fs2 fs3 fs4 fs5 fs6 fs7 fs8 fs9"
            " fs10 fs11 ft8 ft9 ft10 ft11".split())},
    },
    "ARM": {},
}


def readelf(*arguments):
    return subprocess.run(["readelf", *arguments], capture_output=True, text=True, errors="replace").stdout


def sections(path):
    """The frame sections of a file: name, address, bytes."""
    data = open(path, "rb").read()
    for line in readelf("-SW", path).splitlines():
        words = line[line.find("]") + 1:].split()
        if len(words) > 5 and words[0] in (".eh_frame", ".debug_frame") and words[1] != "NOBITS":
            address, place, size = (int(word, 16) for word in words[2:5])
            yield words[0], address, data[place:place + size]


def machine(path):
    header = readelf("-hW", path)
    name = re.search(r"Machine:\s+(.*)", header).group(1).strip()
    return MACHINES.get(name), 8 if re.search(r"Class:\s+ELF64", header) else 4


def rows_of_readelf(path, name, numbers):
    """By place: the records that readelf reads, each with its rows: location, CFA and the registers' rules."""
    text = readelf("-wF", path)
    part = re.split(r"^Contents of the (\S+) section:$", text, flags=re.M)
    for title, body in zip(part[1::2], part[2::2]):
        if title != name:
            continue
        found = {}
        rows, columns = None, []
        for line in body.splitlines():
            head = re.match(r"^([0-9a-f]+) [0-9a-f]+ [0-9a-f]+ (CIE|FDE) (.*)$", line)
            if head:
                rows, columns = [], []
                register = re.search(r"ra=(\d+)", head[3])
                if head[2] == "CIE":
                    numbers = {**numbers, "ra": int(register[1])}
                    found[int(head[1], 16)] = ("CIE", None, rows)
                else:
                    start, end = (int(n, 16) for n in re.search(r"pc=([0-9a-f]+)\.\.([0-9a-f]+)", head[3]).groups())
                    cie = int(re.search(r"cie=([0-9a-f]+)", head[3])[1], 16)
                    # of a record without an operation readelf shows no row: it has its CIE's
                    initial = found[cie][2] if cie in found else []
                    found[int(head[1], 16)] = ("FDE", (start, end), rows)
                    rows.extend((start, cfa, rules) for _, cfa, rules in initial[-1:])
            elif line.lstrip().startswith("LOC"):
                columns = line.split()[2:]
            elif rows is not None and re.match(r"^[0-9a-f]{8}", line) and "ZERO" not in line:
                words = line.split()
                rules = {}
                for column, rule in zip(columns, words[2:]):
                    number = numbers.get(column)
                    if number is None and re.match(r"r\d+$", column):
                        number = int(column[1:])
                    if number is not None and rule != "u":
                        rules[number] = rule
                rows.append((int(words[0], 16), words[1], rules))
        return found
    return {}


def rows_of_ours(command, section, address, debug, word):
    given = struct.pack("<QQQQ", debug, word, address, 0) + section
    out = subprocess.run(command, input=given, capture_output=True, shell=isinstance(command, str)).stdout.decode()
    found, refused, rows, fde = {}, [], None, None
    for line in out.splitlines():
        words = line.split()
        if words[0] == "cie" and words[1] != "refused":
            found[int(words[1])] = ("CIE", None, [])
        elif words[0] == "fde" and words[1] != "refused":
            rows, fde = [], int(words[1])
            found[fde] = ("FDE", (int(words[5]), int(words[7])), rows)
        elif words[0] == "row" and words[1] != "refused":
            cut = 3 if words[2] in ("exp", "none") else 4
            rules = dict(word.split("=") for word in words[cut:])
            for said in ("signed", "pc", "args"):
                rules.pop(said)
            rows.append((int(words[1]), " ".join(words[2:cut]), {int(n): r for n, r in rules.items() if r != "u"}))
        elif words[0] != "terminator":
            refused.append(line if fde is None else f"{line} (behind {fde})")
    return found, refused


def cfa_of(text, numbers):
    """readelf's CFA in our words."""
    if text == "exp":
        return "exp"
    read = re.match(r"^(\w+?)([+-])(\d+)$", text)
    if not read:
        return text
    name, sign, offset = read.groups()
    number = numbers.get(name, name[1:])
    return f"{number} {-int(offset) if sign == '-' else int(offset)}"


def rule_of(text, numbers):
    """A rule of readelf's in our words."""
    if text[0] in "cv" and text not in ("vexp",) and re.match(r"^[cv][+-]?\d+$", text):
        return f"{text[0]}{int(text[1:])}"
    if text in ("s", "exp", "vexp"):
        return text
    number = numbers.get(text)
    return f"r{number}" if number is not None else text


def settled(rows, end):
    """Of rows at one location the last counts, and a row that says what the one before it says is left out."""
    last = {}
    for location, cfa, rules in rows:
        if location < end or location == 0:
            last[location] = (cfa, rules)
    out = []
    for location in sorted(last):
        if not out or out[-1][1:] != last[location]:
            out.append((location, *last[location]))
    return out


def compare(command, path):
    numbers, word = machine(path)
    compared = wrong = 0
    for name, address, section in sections(path):
        theirs = rows_of_readelf(path, name, numbers)
        ours, refused = rows_of_ours(command, section, address, int(name == ".debug_frame"), word)
        for line in refused:
            print(f"{path} {name}: {line}")
            wrong += 1
        if sorted(ours) != sorted(theirs):
            print(f"{path} {name}: {len(ours)} entries, readelf has {len(theirs)}")
            wrong += 1
        for place in sorted(set(ours) & set(theirs)):
            kind, span, rows = ours[place]
            other_kind, other_span, other_rows = theirs[place]
            mask = (1 << 8 * word) - 1
            if kind != other_kind or (span and (span[0], span[0] + span[1] & mask) != other_span):
                print(f"{path} {name} {place:x}: {kind} {span}, readelf {other_kind} {other_span}")
                wrong += 1
                continue
            if kind == "CIE":
                continue
            mine = settled(rows, span[1])
            said = [(at - other_span[0], cfa_of(cfa, numbers), {n: rule_of(r, numbers) for n, r in rules.items() if n < 128})
                    for at, cfa, rules in other_rows]
            said = settled(said, span[1])
            compared += len(mine)
            if mine != said:
                wrong += 1
                print(f"{path} {name} {place:x}:\n  ours    {mine[:4]}\n  readelf {said[:4]}")
    return compared, wrong


def main():
    command, files = sys.argv[1], sys.argv[2:]
    compared = wrong = 0
    for path in files:
        rows, differ = compare(command, path)
        compared, wrong = compared + rows, wrong + differ
    print(f"{compared} rows of {len(files)} files compared, {wrong} differ")
    return 1 if wrong else 0


if __name__ == "__main__":
    sys.exit(main())
