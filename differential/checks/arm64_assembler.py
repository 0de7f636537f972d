"""unwind_arm64 beside llvm-mc, which writes the same unwind data from .seh_ directives: arm64_assembler.py COUNT SEED. Packable shapes and random functions: entries
and records are the same, but where llvm packs a list that no packed word means, and where its version shares fewer runs; each difference is of a class below.
What ours wrote is listed by llvm-readobj, and says what was given. The command, where it is built, lists llvm-mc's object as judges/arm64_reader.py reads its entries."""
import collections
import itertools
import json
import os
import random
import re
import subprocess
import sys
import tempfile

sys.path.insert(0, os.path.dirname(os.path.dirname(os.path.abspath(__file__))))

from checks import arm64_tools  # noqa: E402
from checks import arm64_writer  # noqa: E402
from checks.arm64_writer import PACKED  # noqa: E402
from common import DEKVOZ  # noqa: E402
from judges import arm64_writer as judge  # noqa: E402
from judges.arm64_reader import K, KINDS, read  # noqa: E402

DIRECTIVES = {
    "Alloc": "stackalloc", "R19R20X": "save_r19r20_x", "Fplr": "save_fplr", "FplrX": "save_fplr_x", "Regp": "save_regp", "RegpX": "save_regp_x",
    "Reg": "save_reg", "RegX": "save_reg_x", "Lrpair": "save_lrpair", "Fregp": "save_fregp", "FregpX": "save_fregp_x", "Freg": "save_freg",
    "FregX": "save_freg_x", "SetFp": "set_fp", "AddFp": "add_fp", "Nop": "nop", "SaveNext": "save_next",
}


def directive(kind, register, offset):
    name = KINDS[kind]
    bank = "d" if name.startswith("Freg") else "x"
    operands = [f"{bank}{register}"] * (name in judge.REGISTERS) + [str(offset)] * (name in judge.OFFSETS)
    return f"nop\n.seh_{DIRECTIVES[name]} {', '.join(operands)}\n"


def assembled(functions):
    """The functions as an object of llvm-mc's."""
    text = ".text\n"
    for k, (length, prologue, epilogues) in enumerate(functions):
        at = 4 * len(prologue)
        text += f".p2align 2\nf{k}:\n.seh_proc f{k}\n" + "".join(directive(*c) for c in prologue) + ".seh_endprologue\n"
        for start, codes in epilogues:
            text += f".rept {(start - at) // 4}\nnop\n.endr\n.seh_startepilogue\n" + "".join(directive(*c) for c in codes) + ".seh_endepilogue\nret\n"
            at = start + 4 * len(codes) + 4
        text += f".rept {(length - at) // 4}\nnop\n.endr\n.seh_endproc\n"
    with tempfile.TemporaryDirectory() as folder:
        source, made = os.path.join(folder, "a.s"), os.path.join(folder, "a.obj")
        with open(source, "w") as file:
            file.write(text)
        subprocess.run(["llvm-mc", "-triple=aarch64-windows-msvc", "-filetype=obj", "-o", made, source], check=True)
        with open(made, "rb") as file:
            return file.read()


def entries(data):
    """The entries of an object's .pdata (the PE/COFF specification): for each its second word and None, or 0 and the record that its relocation names."""
    def field(at, size=4):
        return int.from_bytes(data[at:at + size], "little")

    symbols, sections = field(8), []
    for n in range(field(2, 2)):
        at = 20 + 40 * n
        sections.append((data[at:at + 8].rstrip(b"\0").decode(), field(at + 16), field(at + 20), field(at + 24), field(at + 32, 2)))
    _, size, where, links, count = next(section for section in sections if section[0] == ".pdata")
    linked = {field(links + 10 * n): field(links + 10 * n + 4) for n in range(count)}
    for at in range(0, size, 8):
        word = field(where + at + 4)
        if at + 4 not in linked:
            yield word, None
            continue
        symbol = symbols + 18 * linked[at + 4]
        _, whole, start, _, _ = sections[field(symbol + 12, 2) - 1]
        place = field(symbol + 8) + word
        yield 0, record(data[start + place:start + whole])


def record(data):
    """The bytes of the record in front, by its header."""
    head, second = int.from_bytes(data[:4], "little"), int.from_bytes(data[4:8], "little")
    heads, count, words = (1, head >> 22 & 31, head >> 27) if head >> 22 else (2, second & 0xffff, second >> 16 & 255)
    return data[:4 * (heads + words + (0 if head >> 21 & 1 else count))]


def written(functions):
    """The same by the library."""
    cases = arm64_writer.many([arm64_writer.one(*function) for function in functions])
    answer = arm64_writer.asked("arm64_writer", [cases])[0]
    markers, rows, _, info = arm64_writer.parsed(answer)
    for k, place in enumerate(markers):
        word = int.from_bytes(rows[8 * k + 4:8 * k + 8], "little")
        yield (word, None) if place == PACKED else (word, record(info[place:]))


# llvm-mc alone passes over an AddFp.
ADD_FP = 60, [(K["AddFp"], 0, 40)], [(52, [(K["AddFp"], 0, 40)])]


def some_functions(count, chance):
    """Packable shapes and random functions, whose epilogues stand one behind the other."""
    shaped = list(itertools.islice(arm64_writer.shapes(), 0, None, 31))
    while count > 0:
        if chance.randrange(3) == 0:
            _, length, prologue, epilogues = judge.taken(*chance.choice(shaped))[0]
        else:
            pool = [arm64_writer.some_code(chance) for _ in range(chance.randrange(1, 7))]
            prologue = [chance.choice(pool) for _ in range(chance.choice([0, 1, 3, 8, 40]))]
            runs = [prologue[:chance.randrange(len(prologue) + 1)][::-1] for _ in range(2)] + [[chance.choice(pool) for _ in range(chance.randrange(6))]]
            at, epilogues = 4 * len(prologue) + 4 * chance.randrange(20), []
            for _ in range(chance.choice([0, 1, 1, 1, 2, 5, 31, 32, 40])):
                run = chance.choice(runs)
                epilogues.append((at, run))
                at += 4 * len(run) + 4 + 4 * chance.choice([0, 0, 1, 30])
            length = max(at, 4)
        codes = prologue + [c for _, run in epilogues for c in run]
        fits = judge.write(*arm64_writer.one(length, prologue, epilogues))[0] == 0
        if fits and not any(KINDS[kind] == "PacSignLr" for kind, _, _ in codes) and length < 60000:
            count -= 1
            yield length, prologue, epilogues


def difference(function, ours, theirs):
    """The class of a difference; None where it has none."""
    _, prologue, epilogues = function
    if ours[1] is not None and theirs[1] is None and len(epilogues) == 1:
        if any(KINDS[kind] == "AddFp" and offset for kind, _, offset in prologue):
            return "an AddFp that it passes over"
        return arm64_writer.why_not_packed(judge.simplified(prologue), judge.simplified(epilogues[0][1][::-1]))
    if ours[1] is not None and theirs[1] is not None and read(0, ours[1], 0) == read(0, theirs[1], 0) and len(ours[1]) <= len(theirs[1]):
        return "a run that is not shared with the prologue, or an only epilogue without E"
    return None


def resolved(saves):
    """Instructions in the order in which they save, each pair by itself where it is the next behind another."""
    out, pair = [], None
    for does in saves:
        if does == ("next",) and pair:
            bank, register, offset = pair
            does = ("at", bank, register + 2, register + 3, offset + 16)
        elif does == ("add fp", 0):
            does = ("set fp",)
        is_pair = does[0] in ("at", "moved") and len(does) == 5 and does[3] == does[2] + 1 and does[2] != 29
        pair = (does[1], does[2], does[4] if does[0] == "at" else 0) if is_pair else None
        out.append(does)
    return out


def given(saves):
    return resolved([arm64_tools.means(*c) for c in saves])


def listed(functions, ours):
    """What was written as llvm-readobj lists it, against what was given: lengths, prologues, and of records starts and epilogues."""
    infos = [info for _, info in ours if info is not None]
    names = iter(range(len(infos)))
    lines = [f".long {word}" if info is None else f".rva x{next(names)}" for word, info in ours]
    for (length, prologue, epilogues), (word, info), text in zip(functions, ours, arm64_tools.theirs(lines, infos), strict=True):
        said = [run[::-1] for run in arm64_tools.lists(text, "Prologue")]
        undone = [run[::-1] for head in ("Opcodes", "Epilogue") for run in arm64_tools.lists(text, head)]
        starts = [4 * int(n) for n in re.findall(r"StartOffset: (\d+)", text)]
        wanted = [given(run[::-1]) for _, run in epilogues]
        if info is None:
            # It lists no epilogue of a packed word.
            undone = wanted
        elif "EpiloguePacked: Yes" in text:
            # It says no start, and lists no epilogue that is all of the prologue's codes.
            undone = undone or said
        elif starts != [start for start, _ in epilogues]:
            undone = None
        if f"FunctionLength: {length}\n" not in text or [resolved(run) for run in said] != [given(prologue)] or [resolved(run) for run in undone] != wanted:
            sys.exit(f"arm64_assembler: given {length} {prologue} {epilogues}\n{text}")


def command(data, theirs):
    """Whether the command is there; then it lists each entry of an object by its function, and with the codes that it has."""
    if not os.access(DEKVOZ, os.X_OK):
        return False
    done = subprocess.run([DEKVOZ, "arm64", "-", "--json"], input=data, capture_output=True, check=True)
    for k, (found, (word, info)) in enumerate(zip(json.loads(done.stdout)["functions"], theirs, strict=True)):
        _, length, prologue, epilogues = read(word, info or b"", 0)
        said = [(epilogue["start"], [codes_of(c) for c in epilogue["codes"]]) for epilogue in found["epilogues"]]
        if (found["symbol"], found["length"], [codes_of(c) for c in found["prologue"]], said) != (f"f{k}", length, prologue, epilogues):
            sys.exit(f"arm64_assembler: the command lists {found}\n  read {length} {prologue} {epilogues}")
    return True


# Microsoft's name of each kind, as the command's JSON has it.
NAMED = {"alloc": "Alloc", "pac_sign_lr": "PacSignLr", **{name: kind for kind, name in DIRECTIVES.items() if kind != "Alloc"}}


def codes_of(told):
    """A code of the command's JSON, {"code": "save_regp", "register": "x21", "offset": 16}, in numbers."""
    operands = [int(str(value).lstrip("xd")) for key, value in told.items() if key not in ("code", "words", "register")]
    return K[NAMED[told["code"]]], int(told.get("register", "x0")[1:]), *(operands or [0])


def main():
    count, chance = int(sys.argv[1]), random.Random(f"arm64_mc {sys.argv[2]}")
    # The smallest list of each class that the Rust packs, of which llvm-mc packs the same.
    smallest = [judge.taken(*case)[0][1:] for case in arm64_writer.known() if judge.write(*case)[0] == 0 and case[0][3] < 10]
    functions = [*smallest, ADD_FP, *some_functions(count, chance)]
    data = assembled(functions)
    ours, theirs, same, differences = list(written(functions)), list(entries(data)), collections.Counter(), collections.Counter()
    for function, one, other in zip(functions, ours, theirs, strict=True):
        if one == other:
            same["packed" if one[1] is None else "in full"] += 1
            continue
        what = difference(function, one, other)
        if what is None:
            sys.exit(f"arm64_assembler: {function}\n  ours {one}\n  llvm {other}")
        differences[what] += 1
    listed(functions, ours)
    if len(differences) != 7:
        sys.exit(f"arm64_assembler: {len(differences)} classes of differences, and not 7: {differences}")
    by_command = ", and llvm-mc's object by the command" if command(data, theirs) else ""
    print(f"arm64_assembler: {same['packed']} packed and {same['in full']} in full as by llvm-mc; {len(functions)} as given by llvm-readobj's listing{by_command}")
    for what, n in sorted(differences.items()):
        print(f"arm64_assembler: llvm-mc differs: {what}: {n}")


if __name__ == "__main__":
    main()
