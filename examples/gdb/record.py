"""Records a stopped program for `dekvoz walk`, in gdb, on x86-64, AArch64 and RISC-V of 64 bits; also from a core file:

    $ gdb PROGRAM                     or gdb PROGRAM CORE, or gdb-multiarch PROGRAM and `target remote`
    (gdb) source examples/gdb/record.py
    (gdb) dekvoz-record fault.bin

writes the file that `dekvoz walk --fault` takes (docs/SPECIFICATION.md, "Walk"), and prints the command
that walks it: with --load-base, where the program's first page is, as /proc/PID/maps says it. Beside it stands fault.bin.build-id, where the
program has a build id: the walk compares it with the program that it is given. A second word is how many bytes of the stack are recorded,
32,768 where there are so many. The program's own functions are walked, not those of its libraries."""

import os
import shlex
import struct

import gdb

# The registers from DWARF number 0 on (System V psABI of x86-64, figure 3.36; DWARF for the Arm 64-bit Architecture, section 4.1; RISC-V DWARF
# Specification, table 1), the stack pointer, the pc, and how many bytes below the stack pointer are in use.
X86_64 = "rax rdx rcx rbx rsi rdi rbp rsp r8 r9 r10 r11 r12 r13 r14 r15 rip".split()
AARCH64 = [f"x{n}" for n in range(31)] + ["sp"]
RISC_V = "zero ra sp gp tp t0 t1 t2 fp s1 a0 a1 a2 a3 a4 a5 a6 a7 s2 s3 s4 s5 s6 s7 s8 s9 s10 s11 t3 t4 t5 t6".split()
MACHINES = {"i386:x86-64": (X86_64, "rsp", "rip", 128), "aarch64": (AARCH64, "sp", "pc", 0), "riscv:rv64": (RISC_V, "sp", "pc", 0)}
PAGE = 4096


def machine():
    name = gdb.newest_frame().architecture().name()
    if name not in MACHINES:
        raise gdb.GdbError(f"the registers of {name} are not known, those of {', '.join(MACHINES)} are")
    return MACHINES[name]


def register(name):
    """Its value where the program stopped, whatever frame is selected."""
    return int(gdb.newest_frame().read_register(name).cast(gdb.lookup_type("unsigned long"))) % 2**64


def stack_from(address, most):
    """As many bytes as can be read, page by page."""
    found = b""
    while len(found) < most:
        step = min(PAGE - (address + len(found)) % PAGE, most - len(found))
        try:
            found += bytes(gdb.selected_inferior().read_memory(address + len(found), step))
        except gdb.MemoryError:
            break
    return found


def load_base(program):
    """Where the program's first page is loaded: gdb's entry point is as far from the file's as that page is from where it was linked to."""
    with open(program, "rb") as file:
        head = file.read(64)
        if head[:6] != b"\x7fELF\x02\x01":
            raise gdb.GdbError(f"{program} is no little-endian ELF file of 64 bits")
        entry, headers, size, count = *struct.unpack_from("<QQ", head, 24), *struct.unpack_from("<HH", head, 54)
        file.seek(headers)
        table = file.read(size * count)
    found = [struct.unpack_from("<I12xQ", table, size * n) for n in range(count)]
    first = min((address for kind, address in found if kind == 1), default=0)
    for line in gdb.execute("info files", to_string=True).splitlines():
        if "Entry point:" in line:
            return (int(line.split(":")[1], 16) - entry + first - first % PAGE) % 2**64
    return first - first % PAGE


def build_id(record):
    """Beside the record, or nothing where the program has none."""
    found = next((file.build_id for file in gdb.objfiles() if file.filename == gdb.current_progspace().filename), None)
    if found:
        with open(record + ".build-id", "w") as file:
            file.write(found + "\n")
    elif os.path.exists(record + ".build-id"):
        os.remove(record + ".build-id")
    return found


class Record(gdb.Command):
    """dekvoz-record FILE [BYTES]: records the stack and the registers for `dekvoz walk`."""

    def __init__(self):
        super().__init__("dekvoz-record", gdb.COMMAND_DATA, gdb.COMPLETE_FILENAME)

    def invoke(self, words, _):
        words = gdb.string_to_argv(words)
        if not 1 <= len(words) <= 2:
            raise gdb.GdbError("dekvoz-record FILE [BYTES]")
        program = gdb.current_progspace().filename
        if not program:
            raise gdb.GdbError("gdb has no program's file: `file PROGRAM` names one")
        names, stack_pointer, pc, below = machine()
        values = [register(name) for name in names]
        at = register(stack_pointer) - below
        stack = stack_from(at, int(words[1], 0) if len(words) == 2 else 32768)
        sizes = struct.pack("<QII", 8 * len(values), len(values), len(stack))
        with open(words[0], "wb") as file:
            file.write(stack + struct.pack(f"<{len(values)}Q", *values) + sizes)
        if not build_id(words[0]):
            print("The program has no build id: nothing ties the record to it.")
        given = ["--fault", words[0], "--pc", f"{register(pc):#x}", "--stack", f"{at:#x}", "--load-base", f"{load_base(program):#x}"]
        print(shlex.join(["dekvoz", "walk", program, *given]))


Record()
