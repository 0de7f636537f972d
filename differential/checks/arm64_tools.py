"""unwind_read_arm64 against llvm-readobj: arm64_tools.py COUNT SEED. Packed words of every class, whose prologues it lists, and COUNT records with
their prologues and epilogues. Both are compared as instructions, since several codes stand for one. Code fc and words with CR 2 are left to
checks/arm64_reader.py where llvm-readobj does not know them."""
import itertools
import os
import random
import re
import subprocess
import sys
import tempfile

sys.path.insert(0, os.path.dirname(os.path.dirname(os.path.abspath(__file__))))

from common import ask  # noqa: E402
from judges.arm64_reader import KINDS  # noqa: E402

MOVED, AT = r"\[sp(?:, #-(\d+)\]!|\], #(\d+))", r"\[sp(?:, #(\d+))?\]"
NUMBERS = {"fp": "29", "x29": "29", "lr": "30", "x30": "30"}


def says(text):
    """An instruction as llvm-readobj writes it, in a prologue or undone in an epilogue: its name, registers and offset."""
    if re.fullmatch(r"stp x[0246], x[1357], \[sp, #\d+\]", text):
        return ("nop",)
    if found := re.fullmatch(r"(?:stp|ldp) (\w+), (\w+), (\[.*)", text) or re.fullmatch(r"(?:str|ldr) (\w+), (\[.*)", text):
        *registers, place = found.groups()
        bank = "d" if registers[0][0] == "d" else "x"
        registers = [int(NUMBERS.get(name, name[1:])) for name in registers]
        moved, at = re.fullmatch(MOVED, place), re.fullmatch(AT, place)
        offset = next((int(n) for n in (moved or at).groups() if n), 0)
        return ("moved" if moved else "at", bank, *registers, offset)
    for pattern, name in (
        (r"(?:sub|add) sp, (?:sp, )?#(\d+)", "alloc"),
        (r"(?:add fp, sp|sub sp, fp), #(\d+)", "add fp"),
        (r"mov (?:fp|x29), sp|mov sp, fp", "set fp"),
        (r"nop", "nop"),
        (r"(?:save|restore) next", "next"),
        (r"pacibsp|autibsp", "sign"),
    ):
        if found := re.fullmatch(pattern, text):
            return (name, *map(int, found.groups()))
    sys.exit(f"arm64_tools: llvm-readobj says {text!r}")


def means(kind, register, offset):
    """The same of a code of ours."""
    name = KINDS[kind]
    place = "moved" if name.endswith("X") else "at"
    fixed = {"Alloc": ("alloc", offset), "AddFp": ("add fp", offset), "SetFp": ("set fp",), "Nop": ("nop",), "SaveNext": ("next",), "PacSignLr": ("sign",)}
    if name in fixed:
        return fixed[name]
    pairs = {"R19R20X": (19, 20), "Fplr": (29, 30), "FplrX": (29, 30), "Lrpair": (register, 30)}
    bank = "d" if name.startswith("Freg") else "x"
    if name in pairs:
        return (place, bank, *pairs[name], offset)
    if name.rstrip("X").endswith("p"):
        return (place, bank, register, register + 1, offset)
    return (place, bank, register, offset)


def ours(cases):
    """Our answer to each word with a record: number, length, prologue and epilogues."""
    lines = [f"{word} 0 18 600 {info.hex() or '-'}" for word, info in cases]
    for line in ask("arm64_reader", lines):
        head, starts, codes = ([int(n) for n in part.split()] for part in line.split("|"))
        every = [means(*codes[3 * i:3 * i + 3]) for i in range(head[4])]
        places = [starts[3 * i:3 * i + 3] for i in range(head[3])]
        yield head[0], head[1], every[:head[2]], [(start, every[at:at + n]) for start, at, n in places]


def theirs(entries, records):
    """What llvm-readobj prints for each entry, of which the second word is given in the assembler's words."""
    with tempfile.TemporaryDirectory() as folder:
        source, made = os.path.join(folder, "a.s"), os.path.join(folder, "a.obj")
        with open(source, "w") as file:
            file.write('.text\nf:\n.space 1048576\n.section .pdata,"dr"\n')
            file.writelines(f".rva f\n{entry}\n" for entry in entries)
            file.write('.section .xdata,"dr"\n')
            file.writelines(f"x{n}:\n.byte {','.join(map(str, record))}\n" for n, record in enumerate(records))
        subprocess.run(["llvm-mc", "-triple=aarch64-windows-msvc", "-filetype=obj", "-o", made, source], check=True)
        text = subprocess.run(["llvm-readobj", "--unwind", made], capture_output=True, text=True, check=True).stdout
    return text.split("  RuntimeFunction {")[1:]


def lists(text, head):
    """Each list of instructions under such a head, up to its end."""
    for block in text.split(f" {head} [\n")[1:]:
        lines = [line.split(";")[-1].strip() for line in block.split("\n")]
        yield [says(line) for line in lines[:lines.index("end")]]


def same(what, length, prologue, text):
    if f"FunctionLength: {length}\n" not in text or next(lists(text, "Prologue"))[::-1] != prologue:
        sys.exit(f"arm64_tools: {what}: ours {length} {prologue}\n{text}")


def packed(chance):
    """Words of every RegF, RegI, H and CR that are defined; how many were compared, and how many were left."""
    words = [
        chance.choice([1, 2]) | 2047 << 2 | regf << 13 | regi << 16 | home << 20 | cr << 21 | frame << 23
        for regf, regi, home, cr in itertools.product(range(8), range(11), range(2), range(4))
        for frame in (0, 1, 2, 5, 10, 14, 40, 46, 255, 270, 300, 511)
    ]
    read = [(word, answer) for word, answer in zip(words, ours((word, b"") for word in words)) if answer[0] == 0]
    left = 0
    for (word, (_, length, prologue, _)), text in zip(read, theirs([f".long {word}" for word, _ in read], []), strict=True):
        if ("sign",) in prologue and "pacibsp" not in text:
            left += 1
        else:
            same(hex(word), length, prologue, text)
    return len(read) - left, left


def some_code(chance):
    byte = chance.randrange
    return chance.choice([[byte(0xc0)], [byte(0xc0, 0xdf), byte(256)], [0xe0, byte(256), byte(256), byte(256)], [0xe1], [0xe2, byte(256)], [0xe3], [0xe6]])


def some_record(chance):
    """A sound record in either form, with E or with up to five epilogues."""
    codes, fronts = [], [0]
    for run in range(chance.randrange(1, 4)):
        for _ in range(chance.randrange(8)):
            codes += some_code(chance)
            fronts.append(len(codes))
        codes.append(0xe4)
        fronts.append(len(codes))
    fronts.pop()
    codes += [0xe3] * (-len(codes) % 4)
    single = chance.randrange(2)
    count = chance.choice(fronts) if single else chance.randrange(6)
    head, words = chance.randrange(100, 262144) | single << 21, len(codes) // 4
    data = [head | count << 22 | words << 27] if count < 32 and words < 32 and chance.randrange(3) else [head, count | words << 16]
    if not single:
        data += [chance.randrange(1 << 18) | chance.choice(fronts) << 22 for _ in range(count)]
    return b"".join(word.to_bytes(4, "little") for word in data) + bytes(codes)


def records(chance, count):
    infos = [some_record(chance) for _ in range(count)]
    texts = theirs([f".rva x{n}" for n in range(count)], infos)
    for info, (number, length, prologue, epilogues), text in zip(infos, ours((0, info) for info in infos), texts, strict=True):
        same(info.hex(), length, prologue, text)
        starts = [4 * int(n) for n in re.findall(r"StartOffset: (\d+)", text)]
        runs = [*lists(text, "Opcodes"), *lists(text, "Epilogue")]
        if "EpiloguePacked: Yes" in text:
            # It does not say where that epilogue starts, and does not list one that shares all of the prologue's codes.
            starts = [start for start, _ in epilogues]
            runs = runs or [prologue[::-1]]
        if number != 0 or epilogues != list(zip(starts, runs, strict=True)):
            sys.exit(f"arm64_tools: {info.hex()}: ours {number} {epilogues}\n{text}")


def main():
    count, chance = int(sys.argv[1]), random.Random(f"arm64_llvm {sys.argv[2]}")
    words, left = packed(chance)
    records(chance, count)
    print(f"arm64_tools: {words} packed words, {left} that llvm-readobj does not know left out, and {count} records read as by llvm-readobj")


if __name__ == "__main__":
    main()
