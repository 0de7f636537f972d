#!/usr/bin/env python3
"""Makes cases in text form: random ones by a seed, or one of many functions or rows."""

import argparse
import random

REGISTERS = [0, 1, 3, 6, 7, 12, 16, 23, 31, 63, 64, 127, 128, 16383, 16384, 65535]
STEPS = [0, 0, 1, 1, 2, 4, 5, 62, 63, 64, 65, 255, 256, 257, 65535, 65536, 2**32 - 1]
LENGTHS = [0, 1, 6, 127, 128, 255, 256, 65535, 65536, 2**31 - 1, 2**31, 2**32 - 1]
NUMBERS = [0, 1, 63, 64, 127, 128, 16383, 16384, 2**32 - 1, 2**32, 2**63, 2**64 - 1]
PERSONALITIES = [0x00, 0x03, 0x0B, 0x04, 0x0C, 0x13, 0x1B, 0x80, 0x83, 0x8B, 0x84, 0x8C, 0x93, 0x9B]
LSDAS = [0x00, 0x03, 0x0B, 0x04, 0x0C, 0x13, 0x1B]
BAD_ENCODINGS = [0x01, 0x02, 0x0A, 0x14, 0x1C, 0x20, 0x90, 0xFF]
X86_64 = [0, 2, 1, 3, 6, 7, 5, 4, *range(8, 16), 255, *range(128, 144), *[255] * 31]
DEF_CFA, DEF_CFA_OFFSET, DEF_CFA_REGISTER, OFFSET = 0, 1, 2, 3
REMEMBER, RESTORE_STATE = 6, 7
SAME_VALUE, IN_REGISTER = 9, 10
PUSH, ALLOC, FRAME, SAVE = 0, 1, 2, 3
KINDS = [0, 1, 1, 2, 3, 3, 3, 4, 5, 6, 7, 8]


class Maker:
    """One case: its lists, and the random numbers that fill them."""

    def __init__(self, rng, entry, form):
        self.rng, self.entry, self.form = rng, entry, form
        # One case in four may hold numbers that a question refuses.
        self.bad = rng.random() < 0.25
        self.lists = {key: [] for key in ("functions", "rows", "landings", "pairs", "codes")}
        self.kinds = KINDS

    def now(self, chance):
        return self.rng.random() < chance

    def wrong(self, chance=0.1):
        return self.bad and self.now(chance)

    def put(self, key, records):
        """Adds the records to a list, at times behind a gap. The answer is their range."""
        records = list(records)
        stored = self.lists[key]
        if stored and self.now(0.1):
            stored.append(stored[0])
        at = len(stored)
        stored.extend(records)
        return at, len(records)

    def machine(self):
        if self.form == 1:
            word = 8
        else:
            word = self.rng.choice([8, 8, 8, 4, 2])
        if word == 8 and self.now(0.5):
            self.word, self.pushed, self.frame, self.map = 8, 8, 6, X86_64
            return "x86_64"
        pushed = word * self.rng.choice([0, 1, 1, 1, 2, 16])
        frame = self.rng.choice([6, 6, 5, 65536])
        numbers = self.rng.choice([X86_64, [n % 40 for n in range(64)], [255] * 64])
        stack, back = self.rng.choice(REGISTERS), self.rng.choice(REGISTERS)
        self.word, self.pushed, self.frame, self.map = word, pushed, frame, numbers
        return " ".join(map(str, [word, pushed, stack, back, frame, 0, *numbers]))

    def offset(self, near=8):
        """A multiple of the word of either sign, or at times another number."""
        if self.wrong():
            return self.rng.randint(-1000, 1000)
        slots = self.rng.choice([-1, -2, -3, -near, 0, 1, 63, 64, 65, -63, -64, -127, -128, -1000])
        return slots * self.word

    def row(self, at):
        kind = self.rng.choice(self.kinds)
        reg = self.rng.choice(REGISTERS) if kind in (0, 2, 3, 4, 5, SAME_VALUE, IN_REGISTER) else 0
        operand = self.rng.choice(REGISTERS) if kind == IN_REGISTER else 0
        if kind == OFFSET:
            operand = self.offset()
        elif kind in (DEF_CFA, DEF_CFA_OFFSET):
            operand = self.rng.choice([0, 1, 8, 16, 127, 128, 2**31 - 1, abs(self.offset()), self.offset()])
            # A negative offset is written in slots.
            if operand < 0 and not self.bad:
                operand -= operand % self.word
        return at, kind, reg, operand

    def rows(self):
        at = 0
        for _ in range(self.rng.choice([0, 1, 2, 4, 8])):
            at += self.rng.choice(STEPS) if self.now(0.7) else 0
            if self.wrong(0.05):
                at = self.rng.choice([max(at - 1, 0), at + 2**32])
            yield self.row(at)

    def prologue(self):
        """Rows of an x64 prologue, with a row at times that does not belong there."""
        at, below = 0, self.pushed
        early = self.now(0.15)
        for _ in range(1 if early else self.rng.randint(0, 4)):
            at, below = at + self.rng.randint(1, 3), below + self.word
            reg = self.frame if early and self.frame < 65536 else self.rng.choice([3, 6, 12, 13, 15, 23])
            yield at, DEF_CFA_OFFSET, 0, below
            yield at, OFFSET, reg, -below
        if early:
            yield at + 3, DEF_CFA_REGISTER, self.frame % 65536, 0
        elif self.now(0.8):
            at, below = at + self.rng.choice([4, 7, 90]), below + 8 * self.rng.choice([1, 6, 16, 17, 65535, 65536])
            yield at, DEF_CFA_OFFSET, 0, below - (4 if self.wrong() else 0)
            for _ in range(self.rng.randint(0, 3)):
                at += self.rng.choice([4, 8])
                yield at, OFFSET, self.rng.choice([3, 6, 12, 17, 23, 32]), -8 * self.rng.randint(1, below // 8)
            if self.now(0.3):
                yield at + 3, DEF_CFA, self.frame % 65536, below
        if self.wrong(0.4):
            yield self.row(at + self.rng.choice([0, 1, 250]))
        if self.now(0.5):
            yield at + 20, REMEMBER, 0, 0
            yield at + 21, RESTORE_STATE, 0, 0

    def pairs(self, rows):
        """Pairs for some of the steps, and at times one that no step has."""
        labels = range(1000, 1020)
        places = sorted({0, *(row[0] for row in rows)})
        for first, second in zip(places, places[1:]):
            if self.now(0.6):
                yield first, second, *self.rng.sample(labels, 2)
        if self.now(0.2):
            yield 5, 5 if self.wrong(0.5) else 6, *self.rng.sample(labels, 2)

    def function(self, number, relaxed):
        rng = self.rng
        rows = list(self.prologue() if self.form == 1 and not self.wrong(0.1) else self.rows())
        landings = rng.choice([0, 0, 0, 1, 3])
        length = rng.choice(LENGTHS)
        if self.entry == "relaxed_debug_frame" and not self.bad:
            length %= 2 ** (8 * self.word)
        if self.wrong():
            length = rng.choice([2**32, 2**63, 2**64 - 1])
        named = self.now(0.4)
        lsda = named and self.now(0.6)
        personality = rng.choice(BAD_ENCODINGS if self.wrong(0.2) else PERSONALITIES)
        table = rng.choice(BAD_ENCODINGS if self.wrong(0.2) else LSDAS)
        return [
            16 + number,
            length,
            *self.put("rows", rows),
            *self.put("landings", ([rng.choice(NUMBERS) for _ in range(3)] for _ in range(landings))),
            int(self.now(0.2)),
            int(self.now(0.2)),
            *([1, personality, rng.choice([40, 41])] if named else [0] * 3),
            *([1, table, rng.choice([50, 51])] if lsda else [0] * 3),
            *([1, 60 + number] if relaxed else [0] * 2),
            *(self.put("pairs", self.pairs(rows)) if relaxed else [0] * 2),
        ]

    def code(self, at):
        rng = self.rng
        kind = rng.choice([PUSH, PUSH, ALLOC, FRAME, SAVE, SAVE])
        reg = rng.randint(0, 15) if not self.wrong(0.05) else rng.choice([16, 31, 255])
        value = rng.choice([8, 16, 120, 128, 136, 524272, 524280, 524288, 1048560, 1048576, 2**32 - 8])
        if self.wrong():
            value = rng.choice([0, 4, -8, 12, 2**32, 2**63 - 1, -(2**63)])
        if kind == FRAME:
            value = rng.choice([0, 16, 240]) if not self.wrong() else rng.choice([8, 256, -16])
        vector = int(kind == SAVE and self.now(0.4))
        return at, kind, 0 if kind == ALLOC else reg, vector, 0 if kind == PUSH else value

    def seh_function(self, number):
        at, codes = 0, []
        for _ in range(self.rng.choice([0, 1, 2, 5, 9])):
            at += self.rng.choice([1, 4, 8])
            codes.append(self.code(at + (256 if self.wrong(0.03) else 0)))
        length = self.rng.choice(LENGTHS) if not self.wrong() else self.rng.choice([2**32, 2**63])
        return [16 + number, length, at if not self.wrong(0.05) else 256, *self.put("codes", codes)]

    def text(self, name):
        lines = [f"case {name}", f"entry {self.entry}"]
        count = self.rng.choice([1, 1, 2, 3, 5]) if self.now(0.98) else 0
        if self.entry == "seh":
            functions = [self.seh_function(number) for number in range(count)]
        else:
            lines += [f"format {self.form}", f"machine {self.machine()}"]
            relaxed = self.rng.randint(0, count) if self.now(0.4) else 0
            functions = [self.function(number, number < relaxed) for number in range(count)]
        self.lists["functions"] = functions
        for key, records in self.lists.items():
            lines += [f"{key} {' '.join(map(str, record))}" for record in records]
        return "\n".join([*lines, "end"])


def random_case(seed, number):
    rng = random.Random(f"{seed} {number}")
    entry = rng.choice(["relaxed_table"] * 6 + ["relaxed_debug_frame"] * 2 + ["seh"] * 2)
    form = rng.choice([0, 0, 0, 0, 1, 1, 2 if rng.random() < 0.2 else 0, 3 if rng.random() < 0.2 else 0, 4 if rng.random() < 0.2 else 0])
    if entry == "relaxed_debug_frame" and rng.random() < 0.95:
        form = 0
    return Maker(rng, entry, form).text(f"random_{seed}_{number}")


def x64_case(seed, number):
    """A case whose result is x64 unwind data: rows in COFF, or direct codes."""
    rng = random.Random(f"x64 {seed} {number}")
    return Maker(rng, rng.choice(["relaxed_table", "seh"]), 1).text(f"x64_{seed}_{number}")


def registers_case(seed, number):
    """A case with SameValue and InRegister, most of them as ELF."""
    rng = random.Random(f"registers {seed} {number}")
    entry = rng.choice(["relaxed_table", "relaxed_debug_frame"])
    made = Maker(rng, entry, 1 if entry == "relaxed_table" and rng.random() < 0.1 else 0)
    made.kinds = [*KINDS, *[SAME_VALUE, IN_REGISTER] * 4]
    return made.text(f"registers_{seed}_{number}")


def many(name, functions, rows):
    """Plain functions, the rows all in the first."""
    lines = [f"case {name}", "entry relaxed_table", "format 0", "machine x86_64"]
    for number in range(functions):
        count = rows if number == 0 else 0
        lines.append(f"functions {16 + number} 1 0 {count}" + " 0" * 14)
    lines += ["rows 1 8 0 0"] * rows
    return "\n".join([*lines, "end"])


def main():
    parser = argparse.ArgumentParser(description=__doc__)
    parser.add_argument("count", type=int, nargs="?", default=300, help="number of random cases")
    parser.add_argument("--seed", type=int, default=1)
    parser.add_argument("--functions", type=int, help="one case of that many plain functions instead")
    parser.add_argument("--rows", type=int, help="one case of a function with that many rows instead")
    options = parser.parse_args()
    if options.functions or options.rows:
        print(many("many", options.functions or 1, options.rows or 0))
        return
    for number in range(options.count):
        print(random_case(options.seed, number))


if __name__ == "__main__":
    main()
