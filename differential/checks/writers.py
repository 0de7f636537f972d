#!/usr/bin/env python3
"""The library's exports against the Rust and against the specification's questions.

    writers.py stored            the cases of cases/
    writers.py short             every short list (makers/short_cases.py)
    writers.py wild COUNT SEED   random lists, a third with numbers changed (makers/wild_cases.py)
    writers.py x64 COUNT SEED    the same, only COFF and direct codes; both builds of the Rust are asked
    writers.py registers COUNT SEED   the same with rows of SameValue and InRegister, which the Rust lacks: the oracle alone decides, and gas where
                                 gas/ has the case's bytes; in COFF the Rust is handed an Undefined row, as unreadable there

drivers/writers.c hands each case to the library: its answer is compared with the oracle's (judges/questions.py) where that refuses, and with the Rust's
bytes, relocations, places and call sites where it accepts. What the Rust says where the oracle refuses is compared too: it must be
the same refusal, a panic, a case that cannot be handed to it, or a difference that docs/DIFFERENCES.md lists. At the end stand the
counts, by entry: accepted, empty, and each refusal by its number; 51 to 54 are those of buffers one short. Then, by the Rust's build, how
often it has the very same answer; where not, how often it cannot be handed the list, panics or has another answer beside each of ours
(docs/DIFFERENCES.md)."""

import collections
import os
import subprocess
import sys

sys.path.insert(0, os.path.dirname(os.path.dirname(os.path.abspath(__file__))))

from checks.definitions import REFUSALS, by_case, parse  # noqa: E402
from common import HERE, OUT, Failed, run  # noqa: E402
from judges.questions import IN_REGISTER, SAME_VALUE, expected, mach_o, records, register_rows, row_ok  # noqa: E402

BATCH = 5000
# An absolute pointer at word 8 has 4 bytes in the Rust where the function isn't the last (docs/DIFFERENCES.md). So that the rest is
# compared too, the Rust is handed an encoding of 8 bytes that the case does not have, and its byte is put back in the answer.
EIGHT_BYTES = (0x04, 0x0C)
# The Rust pads to the word, whatever it is; a wider one is not handed to it.
WIDEST = 64
UNDEFINED = 5
# Refusals of buffers one short, which are no answers to the list.
SHORT = {f"refused {number}" for number in range(51, 55)}
NAMES = {0: "ELF", 1: "COFF", 2: "Mach-O"}
ENTRIES = ["relaxed_table ELF", "relaxed_table Mach-O", "relaxed_table COFF", "relaxed_table other", "relaxed_debug_frame", "seh"]


def entry_of(case):
    if case["entry"] != "relaxed_table":
        return case["entry"]
    return f"relaxed_table {NAMES.get(case['format'], 'other')}"


def used(case):
    """Where the encodings that eh_frame uses stand in the list of functions."""
    for at in range(0, len(case["functions"]) - 17, 18):
        f = case["functions"][at : at + 18]
        if f[8] and not f[5]:
            yield at + 9
            if f[11]:
                yield at + 12


def stand_in(case):
    """The encoding that stands for an absolute pointer of 8 bytes: None where there is none to replace, 0 where none is free."""
    if case["entry"] != "relaxed_table" or case["format"] != 0 or case["machine"][:1] != [8]:
        return None
    bytes7 = {case["functions"][at] & 0x7F for at in used(case)}
    if 0 not in bytes7:
        return None
    return next((encoding for encoding in EIGHT_BYTES if encoding not in bytes7), 0)


def stride_of(case):
    return 5 if case["entry"] == "seh" else 18


def symbols(case):
    return [f[0] for f in records(case["functions"], stride_of(case))]


def without_labels(case):
    """COFF has no relaxing labels, and the Rust cannot be handed them behind a function without them: there they are left out."""
    if case["entry"] != "relaxed_table" or case["format"] != 1:
        return case["functions"]
    functions, marks = list(case["functions"]), case["functions"][14::18]
    if set(marks) == {0, 1} and marks != sorted(marks, reverse=True):
        functions[14::18] = [0] * len(marks)
    return functions


def without_registers(case):
    """In COFF a row of SameValue or InRegister is an unreadable group, as Undefined is: the Rust is handed that."""
    rows = list(case["rows"])
    if case["entry"] == "relaxed_table" and case["format"] == 1:
        for i, row in enumerate(records(rows, 4)):
            if row[1] in (SAME_VALUE, IN_REGISTER) and row_ok(row):
                rows[4 * i + 1 : 4 * i + 4] = [UNDEFINED, row[2], 0]
    return rows


def for_the_rust(case, encoding):
    lists = {**case, "functions": list(without_labels(case)), "rows": without_registers(case)}
    if encoding:
        for at in used(case):
            if lists["functions"][at] & 0x7F == 0:
                lists["functions"][at] |= encoding
    keys = ("machine", "functions", "rows", "landings", "pairs", "codes")
    head = [f"case {case['name']}", f"entry {case['entry']}", f"format {case['format']}"]
    return "\n".join([*head, *(f"{key} {' '.join(map(str, lists[key]))}" for key in keys if lists[key]), "end", ""])


def put_back(answer, encoding):
    """The Rust's section with the encoding bytes of its headers as the case has them."""
    section = bytearray.fromhex(answer[2][6:])
    at = 0
    while at < len(section):
        size = int.from_bytes(section[at : at + 4], "little")
        if section[at + 4 : at + 8] == bytes(4):
            end = section.index(0, at + 9)
            letters = section[at + 9 : end].decode()
            # Behind the string: the factors of a byte each, the return register, the augmentation's length.
            here = end + 3
            while section[here] >= 128:
                here += 1
            here += 2
            for letter in letters[1:]:
                if letter in "PL":
                    was = section[here]
                    section[here] = was & 0x80 if was & 0x7F == encoding else was
                    here += 1
                if letter == "P":
                    here += {0x04: 8, 0x0C: 8}.get(was & 0x7F, 4)
        at += 4 + size
    return [*answer[:2], "bytes " + section.hex(), *answer[3:]]


def rust_refusal(case, line):
    """The number and position of the Rust's own refusal, which names the function by the symbol that the Rust was handed."""
    symbol, text = line[len("refused s") :].split(": ", 1)
    number = next(number for words, number in REFUSALS.items() if words in text)
    return number, case.get("handed", symbols(case)).index(int(symbol))


def explained(case, number, position, said):
    """Whether what the Rust says beside our refusal is one of docs/DIFFERENCES.md."""
    if said[0].startswith(("panic", "inexpressible")) or said == ["empty"]:
        return True
    if said[0] == "accepted":
        return number in (11, 12, 13, 21, 24, 25, 34)
    return rust_refusal(case, said[0]) == (number, position) or number in (11, 12, 13, 21, 34)


def differs_from_gas(case, got):
    path = os.path.join(HERE, "gas", case["name"] + ".hex")
    if not os.path.exists(path):
        return None
    with open(path) as file:
        bytes_of_gas = file.read().strip()
    return None if got[2] == f"bytes {bytes_of_gas}" else f"the bytes of gas are {bytes_of_gas}, ours {got[2]}"


def differs(case, want, said, got, encoding):
    """What is wrong with our answer, or None."""
    if want[0] == "source":
        if said[0].startswith("refused"):
            want = ("refused", *rust_refusal(case, said[0]))
        elif said[0] != "accepted":
            return f"the Rust says {said[0]}"
    if want[0] == "empty":
        return None if got[:1] == ["empty"] else f"empty is expected, ours is {got[0]}"
    if want[0] == "refused":
        if not explained(case, want[1], want[2], said[:1]):
            return f"{want[1]} {want[2]} is expected, the Rust says {said[0]}"
        return None if got[:1] == [f"refused {want[1]} {want[2]}"] else f"{want[1]} {want[2]} is expected, ours is {got[0]}"
    if got[0] != "accepted":
        return f"accepted is expected, ours is {got[0]}"
    if register_rows(case) and said[0].startswith("inexpressible"):
        return differs_from_gas(case, got)
    if said[0] == "inexpressible relaxing labels behind a function without them" or encoding == 0:
        return None
    if said[0] != "accepted":
        return f"accepted is expected, the Rust says {said[0]}"
    said = put_back(said, encoding) if encoding else said
    return None if said[:5] == got[:5] else f"the Rust's answer is {said[:5]}, ours {got[:5]}"


def asked(build, cases, encodings):
    """What a build of the Rust says, by the case's name."""
    harness = os.path.join(OUT, build, "harness")
    asks = [(case, encoding) for case, encoding in zip(cases, encodings) if case["machine"][0:1] <= [WIDEST] and not mach_o(case)]
    said = by_case(run(harness, "".join(for_the_rust(case, encoding) for case, encoding in asks)))
    said.update({case["name"]: ["inexpressible"] for case in cases if case["name"] not in said})
    # Where two functions have one symbol, a refusal does not say which is meant: the list is handed over again with symbols of their own.
    for case in cases:
        given = symbols(case)
        if said[case["name"]][0].startswith("refused") and len(set(given)) < len(given):
            apart = list(case["functions"])
            apart[0 :: stride_of(case)] = range(16, 16 + len(apart[0 :: stride_of(case)]))
            case["handed"] = list(range(16, 16 + len(given)))
            said.update(by_case(run(harness, for_the_rust({**case, "functions": apart}, None))))
    return said


def beside(case, said, got, encoding):
    """The Rust's answer beside ours, which `differs` let pass; where it is another, with the number of our refusal."""
    ours = got[0].split()[1] if got[0].startswith("refused") else got[0]
    if said[0].startswith("inexpressible"):
        return f"not handed over beside {ours}"
    if said[0].startswith("panic"):
        return f"panic beside {ours}"
    if said[0].startswith("refused"):
        said = ["refused {} {}".format(*rust_refusal(case, said[0])), *said[1:]]
    elif said[0] == "accepted" and encoding:
        said = put_back(said, encoding)
    return "the same" if said[: said.index("end")] == got[: got.index("end")] else f"another beside {ours}"


def compare(text, counts, builds):
    cases = parse(text.split("\n"))
    encodings = [stand_in(case) for case in cases]
    printed = run(os.path.join(OUT, "writers"), text)
    got = by_case(printed)
    for build in builds:
        said = asked(build, cases, encodings)
        for case, encoding in zip(cases, encodings):
            name = case["name"]
            why = differs(case, expected(case), said[name], got[name], encoding)
            if why:
                raise Failed(f"{name}, {build} build: {why}")
            counts[f"{entry_of(case)}, {build}"][beside(case, said[name], got[name], encoding)] += 1
    for case in cases:
        answer = got[case["name"]][0].split()
        counts[entry_of(case)][" ".join(answer[:2]) if answer[0] == "refused" else answer[0]] += 1
    for line in printed:
        if line.startswith("# short"):
            _, _, number, count, entry = line.split(" ", 4)
            counts[entry][f"refused {number}"] += int(count)
        elif line.startswith("# structs"):
            _, _, compared, _, passed, *_ = line.split()
            counts["structs"]["compared"] += int(compared)
            counts["structs"]["passed over"] += int(passed)


def batches(kind, *words):
    if kind == "stored":
        folder = os.path.join(HERE, "cases")
        for name in sorted(os.listdir(folder)):
            with open(os.path.join(folder, name)) as file:
                yield file.read()
    elif kind == "short":
        yield made("short_cases.py")
    else:
        count, seed = int(words[0]), words[1]
        for first in range(0, count, BATCH):
            yield made("wild_cases.py", str(min(BATCH, count - first)), seed, str(first), *([] if kind == "wild" else [kind]))


def made(script, *words):
    return subprocess.run([sys.executable, os.path.join(HERE, "makers", script), *words], capture_output=True, text=True, check=True).stdout


def listed(found):
    return ", ".join(f"{what} {found[what]}" for what in sorted(found) if found[what])


def main():
    counts = collections.defaultdict(collections.Counter)
    builds = ["release", "debug"] if sys.argv[1] == "x64" else ["release"]
    try:
        for text in batches(*sys.argv[1:]):
            compare(text, counts, builds)
    except Failed as why:
        sys.exit(f"writers: {why}")
    total = 0
    for entry in ENTRIES:
        found = counts[entry]
        if not found:
            continue
        lists = sum(n for what, n in found.items() if what not in SHORT)
        total += lists
        print(f"{entry}: {lists} lists: {listed(found)}")
        for build in builds:
            print(f"    the Rust's answer, {build} build: {listed(counts[f'{entry}, {build}'])}")
    structs = counts["structs"]
    print(f"as structs too: {structs['compared']} lists, and {structs['passed over']} that no structs mean")
    print(f"writers: {' '.join(sys.argv[1:])}: {total} lists, no difference")


if __name__ == "__main__":
    main()
