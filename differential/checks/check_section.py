#!/usr/bin/env python3
"""The check of a foreign eh_frame section against judges/reader.py, which was written from DWARF 5 and the LSB alone.

    check_section.py COUNT SEED [BYTES]     every short section over a few bytes, the library's sections of COUNT random lists, damaged
                                            copies of small ones, and up to BYTES (300,000) of eh_frame of the programs on this machine

The judge reads every record at every offset below its length, for several registers. Only where a length is
above 64 it reads at the first, the last and a few between. Of a section that has failing records each is named in turn: the length of the
one that was named is set to 0, and the section is checked again. At the end stands how often each number was answered, and for the
programs how many records pass and which operations the failing ones use that our tables never do."""

import collections
import itertools
import os
import random
import shutil
import subprocess
import sys
import tempfile

sys.path.insert(0, os.path.dirname(os.path.dirname(os.path.abspath(__file__))))

from checks.definitions import by_case, parse  # noqa: E402
from checks.writers import batches  # noqa: E402
from common import OUT, agreed, ask, beginnings, flipped, numbers_of, run  # noqa: E402
from judges.check_section import by_reads, judged  # noqa: E402
from judges.reader import EH, Bytes, Refused, Walk, entries, header_fields, header_of, record_fields, second  # noqa: E402

SMALL = 200
NAMES = {
    0x01: "DW_CFA_set_loc", 0x08: "DW_CFA_same_value", 0x09: "DW_CFA_register", 0x0F: "DW_CFA_def_cfa_expression",
    0x10: "DW_CFA_expression", 0x14: "DW_CFA_val_offset", 0x15: "DW_CFA_val_offset_sf", 0x16: "DW_CFA_val_expression",
    0x2E: "DW_CFA_GNU_args_size", 0x2F: "DW_CFA_GNU_negative_offset_extended",
}


def checked(asked):
    return ask("check_section", (f"check {word} {section.hex()}" for section, word in asked))


def compare(asked, counts, rng):
    said = ((f"word {word}, section {section.hex()}", judged(section, word, rng)[0]) for section, word in asked)
    for got in agreed("check_section", said, checked(asked)):
        counts[got[0]] += 1


HEADER = bytes.fromhex("1400000000000000017a5200017810011b0c070890010000")


def record(size, operations, back=None, at=24):
    body = (back if back is not None else at + 4).to_bytes(4, "little") + bytes(4) + size.to_bytes(4, "little") + b"\0" + operations
    return len(body).to_bytes(4, "little") + body


def short():
    """Every section of up to two bytes, of few bytes up to nine, entries of every small length, and records of one to three operation bytes."""
    for n in range(3):
        for some in itertools.product(range(256) if n < 2 else range(0, 256, 5), repeat=n):
            yield bytes(some), 8
    for n in range(3, 10):
        for some in itertools.product((0, 1, 4, 5) if n < 7 else (0, 4), repeat=n):
            yield bytes(some), 8
    for n in range(4, 20):
        for size in (0, 1, 5):
            body = (bytes([28, 0, 0, 0, 0, 0, 0, 0, size]) + bytes(11))[:n]
            yield HEADER + n.to_bytes(4, "little") + body, 8
    for word in (0, 1, 2, 3, 4, 7, 8, 9, 16, 2**63):
        yield HEADER + record(3, b"\x41\x0e\x10"), word
        yield b"", word
    for size in (0, 1, 2, 3, 64, 2**32 - 1):
        for back in (0, 4, 27, 28, 29, 2**32 - 1):
            yield HEADER + record(size, b"\x41\x0b", back), 8
        for a in range(256):
            yield HEADER + record(size, bytes([a])), 8
            yield HEADER + record(size, bytes([0x41, a])), 8
    for a in range(256):
        for b in (0, 1, 0x0A, 0x0B, 0x0E, 0x41, 0x7F, 0x80, 0xFF):
            yield HEADER + record(2, bytes([a, b])), 8
            yield HEADER + record(2, bytes([0x0A, 0x41, a, b])), 8
    for stored in (15, 16, 17):
        for back in (stored - 1, stored, stored + 1):
            yield HEADER + record(9, b"\x41" + b"\x0a" * stored + b"\x41" + b"\x0b" * back), 8


def ours(count, seed):
    """The library's eh_frame sections, with their words; whether no function is relaxed; and what each list is called."""
    for text in [*batches("stored"), *batches("wild", count, seed)]:
        cases = [case for case in parse(text.split("\n")) if case["entry"] == "relaxed_table" and case["format"] == 0]
        said = by_case(run(os.path.join(OUT, "writers"), "".join(as_text(case) for case in cases)))
        for case in cases:
            answer = said[case["name"]]
            if answer[0] == "accepted":
                field = {line.split(" ")[0]: line.split(" ")[1:] for line in answer}
                yield bytes.fromhex("".join(field["bytes"])), case["machine"][0]


def as_text(case):
    keys = ("machine", "functions", "rows", "landings", "pairs", "codes")
    head = [f"case {case['name']}", f"entry {case['entry']}", f"format {case['format']}"]
    return "\n".join([*head, *(f"{key} {' '.join(map(str, case[key]))}" for key in keys if case[key]), "end", ""])


def up_to_terminator(section):
    at = 0
    while section[at : at + 4] not in (b"", bytes(4)):
        at += 4 + int.from_bytes(section[at : at + 4], "little")
    return section[:at]


def eh_frame(path, folder):
    out = os.path.join(folder, "section")
    if os.path.exists(out):
        os.unlink(out)
    done = subprocess.run(["objcopy", "-O", "binary", "--only-section=.eh_frame", path, out], capture_output=True)
    if done.returncode or not os.path.exists(out):
        return b""
    with open(out, "rb") as file:
        return up_to_terminator(file.read())


def programs(rng):
    found = []
    for folder in ("/usr/bin", "/usr/lib/x86_64-linux-gnu", "/usr/lib", "/usr/lib64", os.path.expanduser("~/.cargo/bin")):
        if os.path.isdir(folder):
            for name in sorted(os.listdir(folder)):
                path = os.path.join(folder, name)
                if os.path.isfile(path) and not os.path.islink(path) and os.path.getsize(path) < 30_000_000:
                    with open(path, "rb") as file:
                        if file.read(5) == b"\x7fELF\x02":
                            found.append(path)
    rng.shuffle(found)
    return found


def first_unknown(section, record, word):
    """The operation that the reader stops at, of an entry that is 66."""
    headers = {at: body for at, body in entries(section) if second(body) == 0}
    lsda, first = header_fields(header_of(record, headers, [], EH), EH, word)
    _, rest = record_fields(record[1], EH, word, lsda)
    for data, header in ((first, True), (rest, False)):
        walk, b = Walk(word, 0, 0), Bytes(data, 66)
        walk.frame, walk.initial = (0, 0), walk.rule
        while b.at < len(data):
            code = data[b.at]
            try:
                walk.operation(b, header)
            except Refused as no:
                if no.number == 66:
                    return NAMES.get(code, hex(code))
    return "a step in a header"


def of_programs(most, counts, rng):
    if shutil.which("objcopy") is None:
        print("check_section: the sections of programs were passed over, since objcopy isn't there")
        return
    taken = bytes_in = records_in = 0
    why, operations = collections.Counter(), collections.Counter()
    with tempfile.TemporaryDirectory() as folder:
        for path in programs(rng):
            if bytes_in >= most:
                break
            section = eh_frame(path, folder)
            if not section:
                continue
            want, failing = judged(section, 8, rng)
            counts[want[0]] += 1
            if want == [61, 0]:
                if list(map(numbers_of, checked([(section, 8)]))) != [want]:
                    sys.exit(f"check_section: {path}: {want} is expected")
                continue
            taken, bytes_in = taken + 1, bytes_in + len(section)
            records = [entry for entry in entries(section) if second(entry[1]) != 0]
            records_in += len(records)
            rounds = [(section, 8)]
            blanked = bytearray(section)
            for k, no in failing[:40]:
                at = records[k][0] + 12
                blanked[at : at + 4] = bytes(4)
                rounds.append((bytes(blanked), 8))
            named = [[84, k] for k, _ in failing[: len(rounds)]] + [[0, 0]]
            said = list(map(numbers_of, checked(rounds)))
            if said != named[: len(rounds)]:
                sys.exit(f"check_section: {path}: {named[: len(rounds)]} are expected, ours are {said}")
            for k, no in failing:
                why[no] += 1
                if no == 66:
                    operations[first_unknown(section, records[k], 8)] += 1
    passing = records_in - sum(why.values())
    print(
        f"check_section: {taken} programs and libraries, {bytes_in} bytes of eh_frame: {passing} of {records_in} records pass; failing: "
        + ", ".join([*(f"{n}: {why[n]}" for n in sorted(why)), *(f"{name}: {n}" for name, n in operations.most_common())])
    )


def main():
    counts, rng = collections.Counter(), random.Random(f"check {sys.argv[2]}")
    some = list(short())
    compare(some, counts, rng)
    for section, word in some[::37]:
        if by_reads(section, word) != judged(section, word, rng)[0]:
            sys.exit(f"check_section: the judge's two ways differ: {section.hex()}")
    written = list(ours(*sys.argv[1:3]))
    compare(written, counts, rng)
    small = [each for each in written if len(each[0]) <= SMALL]
    for section, word in rng.sample(small, min(len(small), 6)):
        compare([(other, word) for other in (*flipped(section), *beginnings(section))], counts, rng)
    of_programs(int(sys.argv[3]) if len(sys.argv) > 3 else 300_000, counts, rng)
    print(f"check_section: {len(some)} short sections, {len(written)} of ours; " + ", ".join(f"{n}: {counts[n]}" for n in sorted(counts)))


if __name__ == "__main__":
    main()
