#!/usr/bin/env python3
"""The library's unwind_apply against a real linker, and walks on what it put in place.

    apply_link.py COUNT SEED     needs binutils for riscv64 (Debian: binutils-riscv64-linux-gnu)

Random RISC-V programs of relaxed functions, whose calls the linker makes shorter. Three things are compared:
- Our eh_frame and its relocations stand in the assembled file as a section that the linker does not know; what it leaves there must be
  what unwind_apply gives with the addresses that it chose for the labels, byte by byte.
- GNU as makes its own eh_frame of the same rows, which the linker relaxes; what readelf reads in it at each place must be what unwind_read
  reads in ours.
- A stack of some of the functions, each stopped behind one of its calls, is walked on our section put in place: the chain must be the calls."""

import collections
import os
import random
import shutil
import subprocess
import sys
import tempfile

sys.path.insert(0, os.path.dirname(os.path.dirname(os.path.abspath(__file__))))

from checks import walk as judged  # noqa: E402
from common import ask, numbers_of  # noqa: E402
from judges.walk import HELD_BY_NONE, Case, recorded  # noqa: E402

TOOLS = "riscv64-linux-gnu-"
RISCV64 = [8, 0, 2, 1, 8, 0] + [255] * 64
RA, SP, S0 = 1, 2, 8
TEXT, EH, OURS = 0x10000, 0x800000, 0x900000
DEF_CFA, DEF_CFA_OFFSET, DEF_CFA_REGISTER, OFFSET, RESTORE = range(5)
KINDS = ["32_PCREL", None, "ADD32", "SUB32", None, "SET6", "SUB6", "SET8", "SUB8", "SET16", "SUB16", "SET32", "SUB32"]
FILL = 0xA5


class Program:
    """Functions as assembler text with their rows for GNU as, and as lists for the library."""

    def __init__(self, rng, short):
        self.rng, self.nop, self.symbols = rng, 2 if short else 4, 16
        self.lines, self.functions, self.rows, self.pairs = [], [], [], []
        # Of each function its start and its end, the frame's size, and the labels behind its calls.
        self.made = []
        count = rng.randrange(1, 6)
        self.called = [self.symbol() for _ in range(count)]
        for n in range(count):
            self.function(n)

    def symbol(self):
        self.symbols += 1
        return self.symbols - 1

    def label(self):
        self.lines.append(f"s{self.symbol()}:")
        return self.symbols - 1

    def code(self, line, size):
        self.lines.append(f"\t{line}")
        self.at += size

    def row(self, kind, register, operand, directive):
        self.rows.append((self.at, kind, register, operand % 2**32))
        self.lines.append(f"\t.cfi_{directive}")
        if self.at != self.last[0]:
            here = self.label()
            if self.relaxes or self.rng.random() < 0.5:
                self.pairs.append((self.last[0], self.at, self.last[1], here))
            self.last, self.relaxes = (self.at, here), False

    def call(self):
        self.code(f"call s{self.rng.choice(self.called)}", 8)
        self.relaxes = True
        self.calls.append(self.label())

    def nops(self):
        count = self.rng.choice((0, 1, 3, 14, 15, 16, 17, 60, 64, 130, 300)) if self.rng.random() < 0.98 else 33000
        self.code(f".rept {count}\n\tnop\n\t.endr", count * self.nop)

    def function(self, n):
        rng, start = self.rng, self.called[n]
        rows, pairs, size = len(self.rows), len(self.pairs), 16 * rng.randrange(1, 9)
        self.at, self.last, self.relaxes, self.calls = 0, (0, start), False, []
        # An alignment is relaxed too, so that functions start where the linker wants them.
        self.lines += ["\t.balign 16", f"\t.globl s{start}", f"s{start}:", "\t.cfi_startproc"]
        if rng.random() < 0.3:
            self.call()
            self.calls.clear()
        # All instructions here have a short form where the machine has any.
        self.code(f"addi sp, sp, -{size}", self.nop)
        self.row(DEF_CFA_OFFSET, 0, size, f"def_cfa_offset {size}")
        self.nops()
        self.code(f"sd ra, {size - 8}(sp)", self.nop)
        self.row(OFFSET, RA, -8, "offset 1, -8")
        pointed = rng.random() < 0.5
        if pointed:
            self.code(f"sd s0, {size - 16}(sp)", self.nop)
            self.row(OFFSET, S0, -16, "offset 8, -16")
            self.code(f"addi s0, sp, {size}", self.nop)
            self.row(DEF_CFA, S0, 0, "def_cfa 8, 0")
        for _ in range(rng.randrange(1, 4)):
            self.nops()
            self.call()
        self.nops()
        self.call()
        self.nops()
        self.row(RESTORE, RA, 0, "restore 1")
        self.row(DEF_CFA, SP, 0, "def_cfa 2, 0")
        self.code("ret", self.nop)
        self.lines.append("\t.cfi_endproc")
        end = self.label()
        self.functions += [start, self.at, rows, len(self.rows) - rows, 0, 0, 0, 0, 0, 0, 0, 0, 0, 0, 1, end, pairs, len(self.pairs) - pairs]
        self.made.append((start, end, size, pointed, self.calls))


def tool(name, *words):
    done = subprocess.run([TOOLS + name, *words], capture_output=True, text=True)
    if done.returncode:
        sys.exit(f"apply_link: {name}: {done.stderr[:2000]}")
    return done.stdout


def flat(lists):
    return " ".join(str(n) for record in lists for n in record)


def written(program):
    """Our eh_frame and its relocations."""
    machine = " ".join(map(str, RISCV64))
    lists = f"functions {' '.join(map(str, program.functions))}\nrows {flat(program.rows)}\npairs {flat(program.pairs)}\n"
    said = ask("writers", f"case link\nentry relaxed_table\nformat 0\nmachine {machine}\n{lists}end".splitlines())
    if said[1] != "accepted":
        sys.exit(f"apply_link: {said[:3]}")
    fields = {line.split(" ")[0]: line.split(" ")[1:] for line in said}
    numbers = list(map(int, fields["relocations"]))
    return bytes.fromhex("".join(fields["bytes"])), [numbers[i : i + 5] for i in range(0, len(numbers), 5)]


def linked(program, data, relocations, folder, short):
    """The linked file, what the linker left of our section, and the addresses of symbols."""
    source, parts, whole, raw = (os.path.join(folder, name) for name in ("a.s", "a.o", "a", "raw"))
    lines = ["\t.text", "\t.globl _start", "_start:", *program.lines, '\t.section .ours, "a", @progbits']
    lines.append("\t.byte " + ", ".join(map(str, data)))
    for place, symbol, kind, _, addend in relocations:
        lines.append(f"\t.reloc {place}, R_RISCV_{KINDS[kind]}, s{symbol} + {addend}")
    with open(source, "w") as file:
        file.write("\n".join(lines) + "\n")
    tool("as", "-march=rv64gc" if short else "-march=rv64g", "-o", parts, source)
    tool("ld", f"-Ttext={TEXT:#x}", f"--section-start=.eh_frame={EH:#x}", f"--section-start=.ours={OURS:#x}", "-o", whole, parts)
    tool("objcopy", "-O", "binary", "--only-section=.ours", whole, raw)
    with open(raw, "rb") as file:
        made = file.read()
    address = {}
    for line in tool("nm", whole).splitlines():
        value, _, name = line.split()
        if name[0] == "s" and name[1:].isdigit():
            address[int(name[1:])] = int(value, 16)
    return whole, made, address


def rows_of(whole):
    """Of each record in the linker's eh_frame the start, the end and the rows: location, frame address, and the return address and s0."""
    found, columns = [], []
    for line in tool("readelf", "--debug-dump=frames-interp", "-W", whole).splitlines():
        words = line.split()
        if " FDE " in line:
            start, end = words[-1].removeprefix("pc=").split("..")
            found.append((int(start, 16), int(end, 16), []))
        elif words[:2] == ["LOC", "CFA"]:
            columns = words[2:]
        elif found and len(words) >= 2 and len(words[0]) == 16:
            said = dict(zip(columns, words[2:], strict=True))
            found[-1][2].append((int(words[0], 16), words[1], said.get("ra", "u"), said.get("s0", "u")))
    return found


def read_text(reading):
    number, frame, register, offset, rule, value, *_ = reading
    signed = lambda n: n - 2**64 if n >> 63 else n
    if number or not frame:
        return None, None
    return f"{ {SP: 'sp', S0: 's0'}[register] }{signed(offset):+d}", f"c{signed(value):+d}" if rule == 2 else "u"


def compare_rows(whole, data, address, program):
    """The linker's rows at every place against what is read in ours."""
    by_start = {start: (end, rows) for start, end, rows in rows_of(whole)}
    asked, wanted = [], []
    for k, (start, end, *_) in enumerate(program.made):
        at = address[start]
        stop, rows = by_start[at]
        if stop != address[end]:
            sys.exit(f"apply_link: the linker's record of {at:#x} ends at {stop:#x}, and its label is {address[end]:#x}")
        edges = {edge for location, *_ in rows for edge in (location - program.nop, location, location + program.nop)}
        for place in sorted(edge for edge in edges if at <= edge < stop):
            row = [row for row in rows if row[0] <= place][-1]
            for register, column in ((RA, 2), (S0, 3)):
                asked.append(f"ask 0 8 {k} {register} {place - at}")
                wanted.append((place, row[1], row[column]))
    said = ask("reader", [f"section {data.hex()}", "relocations ", *asked])
    for want, line, what in zip(wanted, said, asked, strict=True):
        if want[1:] != read_text(list(map(int, line.split()))):
            sys.exit(f"apply_link: at {want[0]:#x} ({what}) the linker's rows say {want[1:]}, ours {line}")
    return len(asked)


def chained(program, data, address, rng):
    """A stack of functions that were stopped behind their calls, and the chain that it holds."""
    depth, sp = rng.randrange(1, 12), 0x7000_0000
    frames = [rng.randrange(len(program.made)) for _ in range(depth)]
    pcs = [address[rng.choice(program.made[k][4])] for k in frames]
    stack, at, bases = b"", sp, []
    for n, k in enumerate(frames):
        size = program.made[k][2]
        bases.append(at + size)
        back = pcs[n + 1] if n + 1 < depth else 0xDEAD_0000
        stack, at = stack + bytes(size - 8) + back.to_bytes(8, "little"), at + size
    s0 = kept(program, frames, bases)
    stack = bytearray(stack)
    for n, k in enumerate(frames):
        if program.made[k][3]:
            place = bases[n] - 16 - sp
            stack[place : place + 8] = s0[n + 1].to_bytes(8, "little")
    registers = [0] * 32
    registers[SP], registers[S0] = sp, s0[0]
    placed = [n for start, end, *_ in program.made for n in (address[start], address[end] - address[start])]
    case = Case(RISCV64, recorded(stack, registers), data, [], 0, pcs[0] - 1, sp, placed)
    chain = [(k, pc) for k, pc in zip(frames, [pcs[0] - 1, *pcs[1:]], strict=True)]
    return case, (0, chain, HELD_BY_NONE)


def kept(program, frames, bases):
    """s0 as each frame has it while it runs: its own frame address, or what its caller had."""
    found = [0x1234]
    for n in reversed(range(len(frames))):
        found.insert(0, bases[n] if program.made[frames[n]][3] else found[0])
    return found


def main():
    for name in ("as", "ld", "nm", "objcopy", "readelf"):
        if not shutil.which(TOOLS + name):
            print(f"apply_link: the comparison with a linker was passed over, since {TOOLS}{name} isn't there")
            return
    count, rng = int(sys.argv[1]), random.Random(f"apply_link {sys.argv[2]}")
    shorter, rows, walks, kinds = 0, 0, 0, collections.Counter()
    with tempfile.TemporaryDirectory() as folder:
        for n in range(count):
            short = n % 2 == 1
            program = Program(rng, short)
            data, relocations = written(program)
            whole, made, address = linked(program, data, relocations, folder, short)
            listed = " ".join(f"{symbol} {value}" for symbol, value in address.items())
            text = f"bytes {data.hex()}\nrelocations {flat(relocations)}\naddresses {listed}\nask {OURS} 0 {len(data)}\n"
            number, out = ask("apply", text.splitlines())[0].split()
            if number != "0" or bytes.fromhex(out)[:-1] != made:
                sys.exit(f"apply_link: {program.lines}\n  the linker left {made.hex()}\n  ours is {number} {out}")
            kinds.update(relocation[2] for relocation in relocations)
            shorter += sum(program.functions[1::18]) - sum(address[end] - address[start] for start, end, *_ in program.made)
            rows += compare_rows(whole, made, address, program)
            cases = [chained(program, made, address, rng) for _ in range(4)]
            for (case, said), got in zip(cases, map(numbers_of, judged.walked([case for case, _ in cases])), strict=True):
                if got != judged.expected(case, said):
                    sys.exit(f"apply_link: the chain is {said}, ours {got[: 3 + 2 * got[1]]}: {case}")
                walks += 1
    applied = ", ".join(f"{KINDS[kind]} {kinds[kind]}" for kind in sorted(kinds))
    print(f"apply_link: {count} programs, {shorter} bytes shorter; relocations as the linker applies them: {applied}; {rows} rules as in its own eh_frame; {walks} walks")


if __name__ == "__main__":
    main()
