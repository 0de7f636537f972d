"""The walk over a recorded fault by the specification, "Walk", apart from the library's code and
over judges/reader.py: the judge of unwind_walk.

`Case` is what unwind_walk is handed. `walk(case)` is (number, frames, ending); a frame is (position, pc or return address). `found(case)` has the
frames of a refused walk too, as unwind_walk_found has them where the lent list has room.
`fill`, where it is given, is told every stack word that is loaded before it is: it makes stacks."""

import dataclasses

from judges.questions import machine_ok  # noqa: E402
from judges.reader import (  # noqa: E402
    DEBUG, EH, IN_REGISTER, SAVED, UNDEFINED, UNSTATED, Refused, Walk, entries, header_fields, header_of,
    record_fields, second,
)

TOP = 1 << 64
FOLLOWED = 128
MOST_FRAMES = 64
RETURN_UNDEFINED, HELD_BY_NONE, TOO_MANY = 1, 2, 3
MARK = {EH: 0, DEBUG: 0xFFFFFFFF}


@dataclasses.dataclass
class Case:
    machine: list
    record: bytes
    section: bytes
    relocations: list
    kind: int
    pc: int
    stack: int
    functions: list
    room: int = 2 * MOST_FRAMES


class AllRules(Walk):
    """The reader's run, of every register at once."""

    def __init__(self, p):
        super().__init__(8, None, p)
        self.rule = self.initial = {}

    def set_rule(self, register, rule):
        self.rule = {**self.rule, register: rule}

    def restore(self, register, header):
        if header:
            raise Refused(67)
        self.set_rule(register, self.initial.get(register, (UNSTATED, 0)))

    def of(self, register):
        return self.rule.get(register, (UNSTATED, 0))


class Section:
    """A section, its records located once."""

    def __init__(self, case):
        self.case, self.known = case, {}

    def record(self, k):
        """The operations of header and record, the function's length, and the signal mark."""
        if k not in self.known:
            self.known[k] = self.located(k)
        return self.known[k]

    def located(self, k):
        case = self.case
        if case.kind not in (EH, DEBUG):
            raise Refused(11)
        found = entries(case.section)
        records = [entry for entry in found if second(entry[1]) != MARK[case.kind]]
        if k >= len(records):
            raise Refused(62)
        headers = {at: body for at, body in found if second(body) == MARK[case.kind]}
        relocations = [case.relocations[i : i + 5] for i in range(0, len(case.relocations) - 4, 5)]
        header = header_of(records[k], headers, relocations, case.kind)
        lsda, first = header_fields(header, case.kind, 8)
        size, rest = record_fields(records[k][1], case.kind, 8, lsda)
        return first, size, rest, b"S" in header[5 : header.index(0, 5)]

    def rules(self, k, p):
        first, size, rest, signal = self.record(k)
        if p >= size:
            raise Refused(65)
        rules = AllRules(p)
        rules.operations(first, True)
        rules.initial = rules.rule
        rules.operations(rest, False)
        return rules, signal


def little(data):
    return int.from_bytes(data, "little")


def recorded(stack, registers):
    """A record file of a stack and registers."""
    trailer = (8 * len(registers)).to_bytes(8, "little") + len(registers).to_bytes(4, "little") + len(stack).to_bytes(4, "little")
    return bytes(stack) + b"".join(value.to_bytes(8, "little") for value in registers) + trailer


def take_apart(record):
    """The stack's bytes and the registers that are there, by number."""
    if not 16 <= len(record) <= 65536:
        raise Refused(73)
    distance, count, size = little(record[-16:-8]), little(record[-8:-4]), little(record[-4:])
    if count > FOLLOWED or distance != 8 * count or size + distance + 16 != len(record):
        raise Refused(73)
    return record[:size], {n: little(record[size + 8 * n : size + 8 * n + 8]) for n in range(count)}


def total(address, offset):
    if not 0 <= address + offset < TOP:
        raise Refused(74)
    return address + offset


class Walker:
    def __init__(self, case, fill=None):
        self.case, self.section, self.fill = case, Section(case), fill
        self.stack, self.registers = take_apart(case.record)
        self.stack = bytearray(self.stack)
        if not machine_ok(case.machine):
            raise Refused(11)
        if case.machine[0] != 8:
            raise Refused(12)
        self.stack_pointer, self.back = case.machine[2], case.machine[3]
        self.pc, self.exact = case.pc, True
        self.placed = [case.functions[i : i + 2] for i in range(0, len(case.functions) - 1, 2)]

    def holder(self):
        """The position and the offset of the function that holds the frame."""
        asked = self.pc if self.exact else self.pc - 1
        if asked < 0:
            return None
        for k, (start, length) in enumerate(self.placed):
            if start <= asked and asked - start < length:
                return k, asked - start
        return None

    def load(self, register, address):
        place = address - self.case.stack
        if place < 0 or place + 8 > len(self.stack):
            raise Refused(74)
        if self.fill:
            self.fill(self, register, place)
        return little(self.stack[place : place + 8])

    def leave(self, k, p):
        """Goes to the caller; False where the return address is undefined."""
        rules, signal = self.section.rules(k, p)
        if rules.of(self.back)[0] == UNDEFINED:
            return False
        if rules.frame is None or rules.frame[0] not in self.registers:
            raise Refused(75)
        cfa = total(self.registers[rules.frame[0]], rules.frame[1])
        before, after = self.registers, {}
        for register in range(FOLLOWED):
            rule, value = rules.of(register)
            if rule == SAVED:
                after[register] = self.load(register, total(cfa, value))
            elif rule != UNDEFINED:
                source = value if rule == IN_REGISTER else register
                if source in before:
                    after[register] = before[source]
        if self.stack_pointer < FOLLOWED:
            after[self.stack_pointer] = cfa
        if self.back not in after:
            raise Refused(75)
        self.registers = after
        self.pc = after[self.back] % 2**48 if rules.signing else after[self.back]
        self.exact = signal
        return True

    def chain(self, frames):
        while True:
            held = self.holder()
            if held is None:
                return HELD_BY_NONE
            if len(frames) == MOST_FRAMES:
                return TOO_MANY
            frames.append((held[0], self.pc))
            if not self.leave(*held):
                return RETURN_UNDEFINED


def found(case, fill=None):
    """The number, the frames up to where the walk ends or is refused, and the ending."""
    frames = []
    try:
        ending = Walker(case, fill).chain(frames)
    except Refused as no:
        return no.number, frames, 0
    return 0, frames, ending


def walk(case, fill=None):
    number, frames, ending = found(case, fill)
    if number == 0 and 2 * len(frames) > case.room:
        number = 54
    return (number, [], 0) if number else (0, frames, ending)
