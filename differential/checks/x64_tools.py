#!/usr/bin/env python3
"""What llvm-readobj and objdump read in x64 records: `x64_tools.py ANSWERS CASES` (texts in the form of README.md).

Each accepted list of direct codes (entry seh) becomes a COFF object with .text, .pdata and .xdata. Both tools then list every function's
codes, prologue size, frame register and count of slots, and the harness holds them to the codes that the list has."""

import os
import re
import struct
import subprocess
import sys

sys.path.insert(0, os.path.dirname(os.path.dirname(os.path.abspath(__file__))))

from checks.definitions import by_case, parse  # noqa: E402
from judges.questions import ALLOC, FRAME, PUSH, reached, records, slots  # noqa: E402

AMD64, ADDR32NB = 0x8664, 3
TEXT, PDATA, XDATA = 1, 2, 3
NAMES = ["RAX", "RCX", "RDX", "RBX", "RSP", "RBP", "RSI", "RDI", *(f"R{n}" for n in range(8, 16))]


def coff(answer, functions):
    """An object of the four results: the relocations' addends stand in their fields, as COFF has them."""
    field = {line.split(" ")[0]: line.split(" ")[1:] for line in answer}
    pdata, xdata = bytearray.fromhex("".join(field["bytes"])), bytes.fromhex("".join(field["sites"]))
    relocations = records([int(n) for n in field["relocations"]], 5)
    symbols, index = [], {}
    for f, place in zip(functions, map(int, field["places"])):
        for number, section, value in ((f[0], TEXT, 0), (2**32 + f[0], XDATA, place)):
            index[number] = len(symbols)
            symbols.append((f"s{number}", section, value))
    entries = b""
    for place, symbol, kind, size, addend in relocations:
        assert (kind, size) == (4, 4)
        pdata[place : place + 4] = addend.to_bytes(4, "little")
        entries += struct.pack("<IIH", place, index[symbol], ADDR32NB)
    text = b"\xc3"
    at = 20 + 3 * 40
    heads, body = b"", b""
    for name, data, relocs, flags in ((b".text", text, b"", 0x60500020), (b".pdata", pdata, entries, 0x40300040), (b".xdata", xdata, b"", 0x40300040)):
        where = at + len(body)
        heads += struct.pack("<8sIIIIIIHHI", name, 0, 0, len(data), where, where + len(data) if relocs else 0, 0, len(relocs) // 10, 0, flags)
        body += bytes(data) + relocs
    strings, table = b"", b""
    for name, section, value in symbols:
        table += struct.pack("<IIIhHBB", 0, 4 + len(strings), value, section, 0, 2, 0)
        strings += name.encode() + b"\0"
    head = struct.pack("<HHIIIHH", AMD64, 3, 0, at + len(body), len(symbols), 0, 0)
    return head + heads + body + table + struct.pack("<I", 4 + len(strings)) + strings


def expected(f, codes):
    """A function's record: end of the prologue, slots, and the codes from the last to the first as (offset, name, register, value)."""
    found = []
    for at, kind, reg, vector, value in reversed(codes):
        if kind == PUSH:
            found.append((at, "PUSH_NONVOL", NAMES[reg], 0))
        elif kind == ALLOC:
            found.append((at, "ALLOC_SMALL" if value <= 128 else "ALLOC_LARGE", "", value))
        elif kind == FRAME:
            found.append((at, "SET_FPREG", "", 0))
        else:
            far = "_FAR" if slots((at, kind, reg, vector, value)) == 3 else ""
            found.append((at, ("SAVE_XMM128" if vector else "SAVE_NONVOL") + far, f"XMM{reg}" if vector else NAMES[reg], value))
    frames = [(code[2], code[4]) for code in codes if code[1] == FRAME]
    return f[2], sum(map(slots, codes)), frames[-1] if frames else None, found


def by_llvm(path):
    text = subprocess.run(["llvm-readobj", "--unwind", path], capture_output=True, text=True, check=True).stdout
    found = []
    for part in text.split("RuntimeFunction {")[1:]:
        number = lambda key: int(re.search(rf"{key}: (0x[0-9A-F]+|\d+)", part).group(1), 0)
        register = re.search(r"FrameRegister: (\S+)", part).group(1)
        codes = []
        for at, name, rest in re.findall(r"(0x[0-9A-F]+): ([A-Z0-9_]+)(.*)", part):
            reg, value = re.search(r"reg=(\w+)", rest), re.search(r"(?:size|offset)=(0x[0-9A-F]+|\d+)", rest)
            frame = name == "SET_FPREG"
            codes.append((int(at, 0), name, reg.group(1) if reg and not frame else "", int(value.group(1), 0) if value and not frame else 0))
        frame = None if register == "-" else (NAMES.index(register), 16 * number("FrameOffset"))
        found.append((number("PrologSize"), number("UnwindCodeCount"), frame, codes))
    return found


def by_objdump(path):
    """The one function of an object: prologue size, slots and codes in objdump's words."""
    text = subprocess.run(["objdump", "-p", path], capture_output=True, text=True, check=True).stdout
    count, size = re.search(r"Nbr codes: (\d+), Prologue size: (0x[0-9a-f]+)", text).groups()
    codes = re.findall(r"pc\+(0x[0-9a-f]+): (.*)", text)
    return int(size, 0), int(count), [(at, said.removesuffix(" [Unexpected!]")) for at, said in codes]


def in_words(codes, frame):
    """Codes as objdump says them."""
    for at, name, reg, value in codes:
        reg = reg.lower()
        if name == "PUSH_NONVOL":
            said = f"push {reg}"
        elif name == "SET_FPREG":
            said = f"FPReg: {NAMES[frame[0]].lower()} = rsp + 0x{frame[1]:x} (info = 0x0)"
        elif name.startswith("ALLOC"):
            said = f"alloc {'small' if value <= 128 else 'large'} area: rsp = rsp - 0x{value:x}"
        else:
            said = f"save {reg} at rsp + 0x{value:x}"
        yield f"0x{at:02x}", said


def main():
    with open(sys.argv[1]) as file:
        answers = by_case(file.read().split("\n"))
    with open(sys.argv[2]) as file:
        cases = parse(file.read().split("\n"))
    path = os.path.join(os.path.dirname(os.path.abspath(sys.argv[1])), "windows.obj")
    lists = functions = codes = objdump = 0
    for case in cases:
        answer = answers[case["name"]]
        if case["entry"] != "seh" or answer[0] != "accepted":
            continue
        found = records(case["functions"], 5)
        if len({f[0] for f in found}) < len(found):
            continue
        with open(path, "wb") as file:
            file.write(coff(answer, found))
        want = [expected(f, reached(case, "codes", f[3], f[4])) for f in found]
        got = by_llvm(path)
        # objdump follows no relocation, so it sees the info of the first function only, and a length below 2^31. It multiplies the
        # offset of a far vector save by 16 (docs/DIFFERENCES.md).
        far = any(code[1] == "SAVE_XMM128_FAR" for code in want[0][3])
        if len(found) == 1 and 0 < found[0][1] < 2**31 and want[0][3] and not far:
            size, count, frame, has = want[0]
            said = by_objdump(path)
            if said != (size, count, list(in_words(has, frame))):
                sys.exit(f"x64_tools: {case['name']}: the codes are {list(in_words(has, frame))}, objdump says {said}")
            objdump += 1
        # Register 0 is printed as none.
        want = [(*w[:2], None if w[2] and w[2][0] == 0 else w[2], w[3]) for w in want]
        if want != got:
            sys.exit(f"x64_tools: {case['name']}: the codes are {want}, llvm-readobj says {got}")
        lists, functions, codes = lists + 1, functions + len(found), codes + sum(len(w[3]) for w in want)
    print(f"x64_tools: {lists} lists, {functions} functions, {codes} codes as llvm-readobj reads them, {objdump} functions as objdump does")


if __name__ == "__main__":
    main()
