#!/usr/bin/env python3
"""The library's unwind_walk against judges/walk.py, a walk by the specification, "Walk".

    walk.py COUNT SEED     chosen faults, short inputs over few values, COUNT made chains and damaged copies of each, and the stops of
                           COUNT / 20 simulated machines

Chosen: every refusal by each of its causes and the order of two at once, every ending, 64 and 65 frames, signal frames, signing, every rule,
registers from 128 on, sums at both ends of 64 bits, lookups at 0. A simulated machine knows its own chain, which judges/walk.py must find too.
Each chain is asked with a lent list that is large, exactly full, one
number short and one over; the whole list is compared, and an element behind it. At the end stands how often each number and each ending
was answered."""

import collections
import copy
import itertools
import os
import random
import sys

sys.path.insert(0, os.path.dirname(os.path.dirname(os.path.abspath(__file__))))

from common import agreed, ask, sleb, uleb  # noqa: E402
from judges.reader import DEBUG, EH  # noqa: E402
from judges.walk import HELD_BY_NONE, MOST_FRAMES, RETURN_UNDEFINED, TOO_MANY, TOP, Case, found, recorded, walk  # noqa: E402

BEFORE = 0x5A5A5A5A5A5A5A5A
X86_64 = [8, 8, 7, 16, 6, 0] + [255] * 64
AARCH64 = [8, 0, 31, 30, 29, 0] + [255] * 64
RBX, RBP, RSP, RA = 3, 6, 7, 16
FP, LR, SP = 29, 30, 31
STACK = 0x7000


# ---- sections by DWARF 5


def def_cfa(register, offset):
    if offset < 0:
        return b"\x12" + uleb(register) + sleb(offset // -8)
    return b"\x0c" + uleb(register) + uleb(offset)


def saved(register, offset):
    if offset > 0:
        return b"\x11" + uleb(register) + sleb(offset // -8)
    return b"\x05" + uleb(register) + uleb(offset // -8)


def undefined(register):
    return b"\x07" + uleb(register)


def same_value(register):
    return b"\x08" + uleb(register)


def in_register(register, other):
    return b"\x09" + uleb(register) + uleb(other)


def restored(register):
    return b"\x06" + uleb(register)


def step(n):
    return b"\x04" + n.to_bytes(4, "little")


REMEMBER, RESTORE, NEGATE = b"\x0a", b"\x0b", b"\x2d"


def entry(body):
    body += bytes(-len(body) % 4)
    return len(body).to_bytes(4, "little") + body


class Function:
    def __init__(self, operations=b"", length=32, header=def_cfa(RSP, 8) + saved(RA, -8), signal=False):
        self.header, self.operations, self.length, self.signal = header, operations, length, signal


def section(functions, kind=EH):
    """A header and a record for each function, and the relocations that say which header is whose."""
    data, relocations = b"", []
    for f in functions:
        head = (0 if kind == EH else 0xFFFFFFFF).to_bytes(4, "little") + b"\1" + (b"zR" if kind == EH else b"") + (b"S" if f.signal else b"")
        at = len(data)
        data += entry(head + b"\0\1\x78\x10" + (b"\1\x1b" if kind == EH else b"") + f.header)
        here, width = len(data), 4 if kind == EH else 8
        fields = bytes(width) + f.length.to_bytes(width, "little")
        if kind == EH:
            data += entry((here + 4 - at).to_bytes(4, "little") + fields + b"\0" + f.operations)
        else:
            data += entry(bytes(4) + fields + f.operations)
            relocations += [here + 4, 2, 1, 4, at]
    return data, relocations


def words(*values):
    return b"".join(value.to_bytes(8, "little") for value in values)


def registers(count=17, **values):
    found = [0] * count
    for name, value in values.items():
        found[int(name[1:])] = value
    return found


def fault(functions, pc=0x1004, stack=(), regs=None, at=STACK, placed=None, kind=EH, machine=X86_64, room=2 * MOST_FRAMES):
    """Functions of 32 bytes at 0x1000, 0x2000, ..; rsp is the stack's address."""
    data, relocations = section(functions, kind)
    if placed is None:
        placed = [n for k, f in enumerate(functions) for n in (0x1000 * (k + 1), f.length)]
    file = recorded(words(*stack), registers(r7=at) if regs is None else regs)
    return Case(machine, file, data, relocations, kind, pc, at, placed, room)


# ---- chosen faults


PLAIN, LAST = Function(), Function(undefined(RA))


def changed(case, **values):
    other = copy.copy(case)
    for name, value in values.items():
        setattr(other, name, value)
    return other


def chosen():
    """(what, the number or None, a case)."""
    good = fault([PLAIN, LAST], stack=(0x2005,))
    yield "two frames", 0, good
    yield from files(good)
    yield from machines(good)
    yield from readers(good)
    yield from addresses()
    yield from needed()
    yield from rules()
    yield from endings()
    yield from rooms(good)


def files(good):
    file = good.record
    size, body, trailer = len(file), file[:-16], file[-16:]
    for n in range(16):
        yield f"a file of {n} bytes", 73, changed(good, record=file[size - n :] if n else b"")
    yield "a file of 16 bytes", 75, changed(good, record=recorded(b"", []))
    full = 65536 - 16 - 8 * 17
    large = words(0x2005) + bytes(full - 8)
    yield "a file of 65,536 bytes", 0, changed(good, record=recorded(large, registers(r7=STACK)))
    yield "a file of 65,537 bytes", 73, changed(good, record=recorded(large + b"\0", registers(r7=STACK)))
    for place, n in itertools.product(range(16), (1, 128, 255)):
        damaged = bytearray(trailer)
        damaged[place] ^= n
        yield f"trailer byte {place}", 73, changed(good, record=body + damaged)
    yield "128 registers", 0, changed(good, record=recorded(words(0x2005), registers(128, r7=STACK)))
    yield "129 registers", 73, changed(good, record=recorded(words(0x2005), registers(129, r7=STACK)))
    yield "a byte more in front", 73, changed(good, record=b"\0" + file)
    yield "a byte less in front", 73, changed(good, record=file[1:])
    yield "distance and count agree, the file not", 73, changed(good, record=body + words(8 * 16) + (16).to_bytes(4, "little") + trailer[12:])
    wrap = (2**64 - 8).to_bytes(8, "little") + trailer[8:]
    yield "a distance near 2^64", 73, changed(good, record=body + wrap)
    bad = file[:-1] + b"\1"
    yield "73 before 11", 73, changed(good, record=bad, machine=[])
    yield "73 before 12", 73, changed(good, record=bad, machine=[4] + X86_64[1:])
    yield "73 before the reader", 73, changed(good, record=bad, section=b"\1")
    yield "73 before 54", 73, changed(good, record=bad, room=0)
    yield "73 with no functions", 73, changed(good, record=bad, functions=[])


def machines(good):
    for n in (0, 1, 69):
        yield f"{n} numbers", 11, changed(good, machine=X86_64[:n])
    yield "71 numbers", 0, changed(good, machine=X86_64 + [999])
    for place, value in ((0, 0), (0, 3), (0, 16), (1, 4), (1, 2**31), (2, 65536), (3, 65536), (4, 65537), (5, 1), (6, 256), (69, 256), (69, TOP - 1)):
        yield f"number {place} is {value}", 11, changed(good, machine=X86_64[:place] + [value] + X86_64[place + 1 :])
    for word in (2, 4):
        yield f"word {word}", 12, changed(good, machine=[word] + X86_64[1:])
    yield "11 before 12", 11, changed(good, machine=[4, 1] + X86_64[2:])
    yield "12 before the reader", 12, changed(good, machine=[4] + X86_64[1:], section=b"\1")
    yield "12 with no functions", 12, changed(good, machine=[4] + X86_64[1:], functions=[])
    for place, value in ((1, 0), (1, 2**31 - 8), (4, 65536), (4, 0), (6, 0), (69, 255)):
        yield f"number {place} is {value}", 0, changed(good, machine=X86_64[:place] + [value] + X86_64[place + 1 :])


def readers(good):
    yield "a kind of 2", 11, changed(good, kind=2)
    yield "a kind near 2^64", 11, changed(good, kind=TOP - 1)
    yield "a kind that no frame needs", 0, changed(good, kind=2, functions=[])
    yield "a section that no frame needs", 0, changed(good, section=b"\1", functions=[])
    yield "an empty section", 62, changed(good, section=b"")
    yield "no tiling", 61, changed(good, section=good.section[:-1])
    yield "a list longer than the section", 62, fault([PLAIN], 0x2004, placed=[0x1000, 32, 0x2000, 32])
    two, numbers = section([PLAIN, LAST], DEBUG)
    debug = changed(good, kind=DEBUG, section=two, relocations=numbers)
    yield "debug_frame", 0, debug
    yield "debug_frame without relocations", 63, changed(debug, relocations=[])
    yield "the caller's header is missing", 63, changed(debug, relocations=numbers[:5])
    yield "an incomplete relocation", 63, changed(debug, relocations=numbers[:9])
    yield "a header's factor", 64, changed(good, section=good.section.replace(b"\1\x78\x10", b"\4\x78\x10", 1))
    yield "an offset past the record's length", 65, fault([Function(length=4)], 0x1004, placed=[0x1000, 32], stack=(0,))
    yield "the same of a caller", 65, fault([PLAIN, Function(length=4)], stack=(0x2006,), placed=[0x1000, 32, 0x2000, 32])
    yield "a caller read one byte before", 0, fault([PLAIN, Function(undefined(RA), 4)], stack=(0x2004,), placed=[0x1000, 32, 0x2000, 32])
    for what, operations, number in (("an expression", b"\x0f\1\0", 66), ("no state", RESTORE, 67), ("17 states", REMEMBER * 17, 68)):
        yield what, number, fault([Function(operations)])
        yield f"{what} of a caller", number, fault([PLAIN, Function(operations)], stack=(0x2005,))
        yield f"{what} behind the place", 0, fault([Function(undefined(RA) + step(5) + operations)])
    yield "no rule to change", 69, fault([Function(b"\x0e\x08", header=b"")])


def addresses():
    for stack, number in (((), 74), ((0x2005,), 0)):
        yield f"a stack of {len(stack)} words", number, fault([PLAIN, LAST], stack=stack)
    cut = fault([PLAIN, LAST], stack=(0x2005,))
    yield "a word cut off", 74, changed(cut, record=recorded(words(0x2005)[:7], registers(r7=STACK)))
    yield "one byte below the stack", 74, changed(cut, record=recorded(words(0x2005, 0), registers(r7=STACK - 1)))
    yield "one byte above", 74, changed(cut, record=recorded(words(0x2005), registers(r7=STACK + 1)))
    yield "an unaligned word", 0, changed(cut, record=recorded(b"\0\0\0" + words(0x2005) + b"\0", registers(r7=STACK + 3)))
    top = TOP - 8
    yield "the stack at the top", 74, fault([PLAIN, LAST], stack=(0x2005,), at=top)
    yield "the same with a frame below it", 0, fault([Function(header=def_cfa(RSP, 0) + saved(RA, 0)), LAST], stack=(0x2005,), at=top)
    yield "a frame address of 2^64 - 1", 74, fault([Function(header=def_cfa(RSP, 7) + saved(RA, 0)), LAST], stack=(0x2005,), at=top)
    yield "a frame address of 2^64", 74, fault([Function(header=def_cfa(RSP, 8) + same_value(RA))], regs=registers(r7=top))
    yield "a frame address of 2^64 - 1 that nothing is loaded by", 0, fault([Function(header=def_cfa(RSP, 7) + same_value(RA))], regs=registers(r7=top))
    yield "a frame address of 0", 0, fault([Function(header=def_cfa(RSP, -8) + same_value(RA))], regs=registers(r7=8))
    yield "a frame address below 0", 74, fault([Function(header=def_cfa(RSP, -16) + same_value(RA))], regs=registers(r7=8))
    yield "an offset of 2^63 - 1", 0, fault([Function(header=def_cfa(RSP, 2**63 - 1) + same_value(RA))], regs=registers(r7=2**63))
    yield "the same, one too far", 74, fault([Function(header=def_cfa(RSP, 2**63 - 1) + same_value(RA))], regs=registers(r7=2**63 + 1))
    yield "an offset of -2^63", 0, fault([Function(header=def_cfa(RSP, -(2**63)) + same_value(RA))], regs=registers(r7=2**63))
    yield "the same, one too far down", 74, fault([Function(header=def_cfa(RSP, -(2**63)) + same_value(RA))], regs=registers(r7=2**63 - 1))
    yield "a save below 0", 74, fault([Function(header=def_cfa(RSP, 0) + saved(RA, -8))], regs=registers(r7=7))
    yield "a save at 2^64", 74, fault([Function(header=def_cfa(RSP, 0) + saved(RA, 8))], regs=registers(r7=top))
    wrapping = fault([Function(header=def_cfa(RSP, 0) + saved(RA, 16)), LAST], stack=(0x2005,), at=0, regs=registers(r7=top))
    yield "a save that would wrap to the stack", 74, wrapping
    yield "a stack that would pass 2^64", 0, fault([Function(header=def_cfa(RSP, 0) + saved(RA, 0)), LAST], stack=(0x2005, 0, 0), at=top)
    yield "a save of another register outside", 74, fault([Function(saved(RBX, -16)), LAST], stack=(0x2005,))
    yield "the stack pointer's own save outside", 74, fault([Function(saved(RSP, -16)), LAST], stack=(0x2005,))
    yield "its own save inside, then the frame address", 0, fault([Function(saved(RSP, -8)), Function(), LAST], stack=(0x2005, 0x3005))
    for register, number in ((127, 74), (128, 0), (65535, 0)):
        yield f"a save of register {register} outside", number, fault([Function(saved(register, -4096)), LAST], stack=(0x2005,))
    yield "undefined before the save outside", 0, fault([Function(undefined(RA) + saved(RBX, -4096))])
    yield "undefined before a frame address outside", 0, fault([Function(undefined(RA), header=def_cfa(RSP, 8))], regs=registers(r7=TOP - 1))


def needed():
    yield "no frame address rule", 75, fault([Function(header=saved(RA, -8))], stack=(0,))
    yield "undefined before no rule", 0, fault([Function(header=undefined(RA))])
    for count, number in ((7, 75), (8, 0)):
        yield f"{count} registers", number, fault([PLAIN, LAST], stack=(0x2005,), regs=registers(8, r7=STACK)[:count])
    for register, number in ((100, 75), (127, 75), (128, 75), (65535, 75)):
        yield f"a frame by register {register}", number, fault([Function(header=def_cfa(register, 8) + saved(RA, -8))], stack=(0,))
    yield "by register 127, which is there", 0, fault([Function(header=def_cfa(127, 8) + saved(RA, -8)), LAST], stack=(0x2005,), regs=registers(128, r127=STACK))
    lost = [Function(undefined(RBP)), Function(header=def_cfa(RBP, 8) + saved(RA, -8)), LAST]
    yield "a frame by a register that was lost", 75, fault(lost, stack=(0x2005, 0x3005), regs=registers(r7=STACK, r6=STACK + 8))
    kept = [Function(same_value(RBP)), *lost[1:]]
    yield "by one that was kept", 0, fault(kept, stack=(0x2005, 0x3005), regs=registers(r7=STACK, r6=STACK + 8))
    yield "no return address", 75, fault([Function(header=def_cfa(RSP, 8))], regs=registers(8, r7=STACK))
    yield "an unstated one that is there", 0, fault([Function(header=def_cfa(RSP, 8)), LAST], regs=registers(r7=STACK, r16=0x2005))
    for back, number in ((127, 0), (128, 75), (65535, 75)):
        machine = [8, 8, 7, back, 6, 0] + [255] * 64
        yield f"a return address in register {back}", number, fault([Function(header=def_cfa(RSP, 8) + saved(back, -8)), LAST], stack=(0x4005,), machine=machine)
        yield f"one undefined in register {back}", 0, fault([Function(header=def_cfa(RSP, 8) + undefined(back))], machine=machine)
    for pointer in (127, 128, 65535):
        machine = [8, 8, pointer, 16, 6, 0] + [255] * 64
        up = [PLAIN, Function(header=def_cfa(pointer, 8) + saved(RA, -8)), LAST]
        yield f"a stack pointer of {pointer}", 0 if pointer == 127 else 75, fault(up, stack=(0x2005, 0x3005), machine=machine)
    same = [8, 8, 16, 16, 6, 0] + [255] * 64
    yield "the return address is the stack pointer", 0, fault([PLAIN], stack=(0x2005,), machine=same)
    yield "74 before 75: the loads come first", 74, fault([Function(saved(RBX, -4096) + in_register(RA, 100))], stack=(0,))
    yield "75 before 74: the frame address comes first", 75, fault([Function(header=def_cfa(100, 8) + saved(RA, -8))])
    yield "the header's return register is not the machine's", 0, fault([Function(header=def_cfa(RSP, 8) + saved(30, -8) + saved(RA, -8)), LAST], stack=(0x2005,))


def rules():
    back = [LAST] * 3
    yield "in a register", 0, fault([Function(in_register(RA, RBX)), *back], stack=(0x2005,), regs=registers(r7=STACK, r3=0x3005))
    yield "in a register that is absent", 75, fault([Function(in_register(RA, 100))], stack=(0,))
    yield "in register 128", 75, fault([Function(in_register(RA, 128))], stack=(0,))
    yield "in itself", 0, fault([Function(in_register(RA, RA)), *back], stack=(0,), regs=registers(r7=STACK, r16=0x4005))
    swap = in_register(RBX, RBP) + in_register(RBP, RBX)
    chain = [Function(swap), Function(in_register(RA, RBX)), LAST]
    yield "two that change places", 0, fault(chain, stack=(0x2005,), regs=registers(r7=STACK, r3=0x1111, r6=0x3005))
    before = [Function(saved(RBX, -8) + in_register(RBP, RBX)), Function(in_register(RA, RBP)), LAST]
    yield "copied from before the load", 0, fault(before, stack=(0x2005,), regs=registers(r7=STACK, r3=0x3005))
    taken = [Function(in_register(RBP, RSP)), Function(header=def_cfa(RBP, 16) + saved(RA, -8)), LAST]
    yield "the stack pointer copied from before", 0, fault(taken, stack=(0x2005, 0x3005))
    absent = [Function(in_register(RBP, 100)), Function(header=def_cfa(RBP, 16) + saved(RA, -8))]
    yield "a lack copied over a value", 75, fault(absent, stack=(0x2005, 0), regs=registers(r7=STACK, r6=STACK))
    yield "an undefined stack pointer is the frame address", 0, fault([Function(undefined(RSP)), PLAIN, LAST], stack=(0x2005, 0x3005))
    for signs, high in itertools.product((0, 1, 2), (0, 0xA5A5 << 48, 0xFFFF << 48, 1 << 47)):
        signed = Function(NEGATE * signs + in_register(RBX, RA))
        ending = Function(in_register(RA, RBX), header=def_cfa(RSP, 8) + saved(RA, -8))
        yield f"signed {signs} times, high bits {high:x}", 0, fault([signed, ending, LAST], stack=(0x2005 | high, 0x3005))
    cut = [Function(NEGATE), Function(in_register(RBX, RA) + same_value(RA)), LAST]
    yield "only the return address is cut", 0, fault(cut, stack=(0x2005 | 0xABCD << 48,), regs=registers(r7=STACK))
    restore = Function(REMEMBER + NEGATE + RESTORE)
    yield "a signing state that is taken back", 0, fault([restore, LAST], stack=(0x2005 | 1 << 63,))
    yield "signing by the offset", 0, fault([Function(step(4) + NEGATE), LAST], stack=(0x2005 | 1 << 63,))
    yield "signing behind the offset", 0, fault([Function(step(5) + NEGATE), LAST], stack=(0x2005 | 1 << 63,))


def endings():
    yield "no functions", 0, fault([PLAIN], placed=[])
    yield "half a function", 0, fault([PLAIN], placed=[0x1000])
    for pc in (0xFFF, 0x1000, 0x101F, 0x1020, 0, TOP - 1):
        yield f"a pc of {pc:#x}", None, fault([LAST], pc)
    for place in (0x2000, 0x2001, 0x2020, 0x2021, 0, 1, TOP - 1):
        yield f"a return to {place:#x}", None, fault([PLAIN, LAST], stack=(place,))
        yield f"the same behind a signal frame", None, fault([Function(signal=True), LAST], stack=(place,))
        yield "the same from a frame that is not the signal's", None, fault([PLAIN, Function(undefined(RA), signal=True)], stack=(place,))
    everywhere = [0, TOP - 1]
    for signal, number in ((False, 0), (True, 74)):
        wide = Function(length=2**32 - 1, signal=signal)
        yield f"a return to 0, a function from 0 on, signal {signal}", number, fault([wide], placed=everywhere, stack=(0,))
    yield "a pc of 0", 0, fault([LAST], 0, placed=everywhere)
    yield "a function up to 2^64", 0, fault([LAST], TOP - 1, placed=[TOP - 4, 4])
    yield "a length that passes 2^64", 0, fault([LAST], TOP - 1, placed=[TOP - 4, TOP - 1])
    yield "a pc below a start whose end would wrap", 0, fault([LAST], 3, placed=[TOP - 4, TOP - 1])
    yield "the first of two that hold it", 0, fault([LAST, PLAIN], placed=[0x1000, 32, 0x1000, 32])
    yield "a first of length 0", 0, fault([PLAIN, LAST], placed=[0x1000, 0, 0x1000, 32])
    for n in (MOST_FRAMES - 1, MOST_FRAMES, MOST_FRAMES + 1, MOST_FRAMES + 2):
        for last in ((LAST, 0x2005), (PLAIN, 0x9005)):
            stack = (0x1009,) * (n - 2) + (last[1],) * 2
            yield f"{n} frames", 0, fault([PLAIN, last[0]], stack=stack)
    short = fault([PLAIN], stack=(0x1009,) * 63)
    yield "the 64th frame is left like any other", 74, short
    gone = fault([PLAIN, Function(undefined(RSP) + in_register(RA, 100))], stack=(0x1009,) * 62 + (0x2009,) * 3)
    yield "and can be refused", 75, gone


def rooms(good):
    for room in range(7):
        yield f"room for {room} numbers", 54 if room < 4 else 0, changed(good, room=room)
        yield "no frames need no room", 0, changed(good, functions=[], room=room)
    yield "54 behind 74", 74, changed(good, room=0, record=recorded(b"", registers(r7=STACK)))
    yield "54 behind the reader", 61, changed(good, room=0, section=b"\1")
    long = fault([PLAIN], stack=(0x1009,) * 70)
    for room in (126, 127, 128, 129):
        yield f"64 frames, room {room}", 54 if room < 128 else 0, changed(long, room=room)


# ---- short inputs over few values


def short_lookups():
    """Every list of up to two functions over the ends of 64 bits, every pc there, and a return there."""
    edges = (0, 1, 2, TOP - 2, TOP - 1)
    data, _ = section([Function(length=2**32 - 1, header=def_cfa(RSP, 8) + saved(RA, -8)), Function(undefined(RA), 2**32 - 1)])
    pairs = [(start, length) for start in edges for length in (0, 1, 2, TOP - 1)]
    lists = [[], *([a, b] for a, b in pairs), *([a, b, c, d] for (a, b), (c, d) in itertools.product(pairs, pairs))]
    for n, functions in enumerate(lists):
        pc, back = edges[n % 5], edges[n // 5 % 5]
        for start in (edges if len(functions) < 4 else (pc,)):
            record = recorded(words(back, back), registers(8, r7=STACK))
            yield Case(X86_64, record, data, [], EH, start, STACK, functions, 8)


def short_rules():
    """Every run of up to three operations of a small alphabet, in the header and in the record of a first frame."""
    alphabet = [def_cfa(RSP, 8), def_cfa(RBP, 0), def_cfa(128, 8), saved(RA, -8), saved(RA, 0), undefined(RA), same_value(RA),
                in_register(RA, RBX), in_register(RA, 128), NEGATE, undefined(RSP), REMEMBER, RESTORE, restored(RA)]
    for n in range(4):
        for run in itertools.product(alphabet, repeat=n):
            cut = sum(map(len, run)) % (n + 1)
            functions = [Function(b"".join(run[cut:]), header=b"".join(run[:cut])), Function(undefined(RA))]
            yield fault(functions, stack=(0x2005 | 7 << 60, 0x2006), regs=registers(r7=STACK, r6=STACK + 8, r3=0x2007, r16=0x2008))


def short_files():
    """Every trailer over few values of a file of up to 40 bytes."""
    good = fault([PLAIN, LAST], stack=(0x2005,))
    for size, distance, count, length in itertools.product((16, 17, 24, 31, 32, 40), (0, 1, 8, 16, 24), (0, 1, 2, 3), (0, 1, 7, 8, 16)):
        front = bytes(size - 16)
        trailer = distance.to_bytes(8, "little") + count.to_bytes(4, "little") + length.to_bytes(4, "little")
        yield changed(good, record=front + trailer)


# ---- made chains


def made_function(rng, machine):
    stack, back, frame = machine[2], machine[3], machine[4]
    size = rng.choice((8, 16, 32, 48))
    header = def_cfa(stack, 8 if machine[1] else 0) + (saved(back, -8) if machine[1] else b"")
    operations = step(rng.randrange(1, 4)) + def_cfa(stack, size)
    slots = [-8 * n for n in range(1, size // 8 + 1)]
    if machine[1]:
        slots.remove(-8)
    else:
        operations += saved(back, slots.pop(0)) if rng.random() < 0.9 else b""
    if rng.random() < 0.3:
        operations += NEGATE
    others = [n for n in (3, 4, 12, 19, 20, 127, 128, 300) if n not in (stack, back)]
    if slots and rng.random() < 0.6:
        operations += saved(frame, slots.pop(0)) + b"\x0d" + uleb(frame)
    for register in rng.sample(others, rng.randrange(3)):
        rule = rng.randrange(5)
        if rule == 0 and slots:
            operations += saved(register, slots.pop(0))
        else:
            operations += (same_value(register), undefined(register), in_register(register, rng.choice(others)), REMEMBER + RESTORE)[rule % 4]
    length = rng.randrange(12, 40)
    operations += step(length - rng.randrange(1, 6)) + restored(back) + def_cfa(stack, 8 if machine[1] else 0)
    if rng.random() < 0.05:
        operations, header = b"", undefined(back)
    return Function(operations, length, header, rng.random() < 0.15)


def made(rng):
    """A chain of any depth: a stack word is chosen where the judge comes to load it."""
    machine, kind = rng.choice((X86_64, X86_64, AARCH64)), rng.choice((EH, EH, DEBUG))
    functions = [made_function(rng, machine) for _ in range(rng.randrange(1, 6))]
    starts = rng.sample(range(0x10, 0x80), len(functions))
    placed = [n for start, f in zip(starts, functions, strict=True) for n in (start * 64, f.length)]
    at, size = 8 * rng.randrange(2**20), 8 * rng.choice((6, 30, 120, 700))
    regs = [rng.choice((at, at + 8, rng.randrange(at, at + size), rng.randrange(TOP))) for _ in range(rng.choice((17, 32, 128)))]
    for register in (machine[2], machine[4]):
        if register < len(regs):
            regs[register] = at + 8 * rng.randrange(4)
    if machine[3] < len(regs):
        regs[machine[3]] = rng.choice(placed[::2]) + rng.randrange(1, 40)
    data, relocations = section(functions, kind)
    pc = rng.choice(placed[::2]) + rng.randrange(40)
    stack, known = bytearray(size), set()

    def fill(walker, register, place):
        if place not in known:
            known.add(place)
            value = at + min(place + 8 * rng.randrange(1, 8), size)
            if register == machine[3]:
                value = rng.choice(placed[::2]) + rng.randrange(1, 20)
                value |= rng.choice((0, 0, rng.randrange(2**16) << 48)) if rng.random() < 0.5 else 0
            stack[place : place + 8] = walker.stack[place : place + 8] = value.to_bytes(8, "little")

    case = Case(machine, recorded(stack, regs), data, relocations, kind, pc, at, placed)
    walk(case, fill)
    return changed(case, record=recorded(stack, regs))


def damaged(case, rng):
    for _ in range(5):
        data = bytearray(case.section)
        data[rng.randrange(len(data))] ^= rng.choice((1, 2, 4, 8, 16, 32, 64, 128, 255))
        yield changed(case, section=bytes(data))
    for _ in range(3):
        data = bytearray(case.record)
        data[rng.randrange(len(data))] ^= rng.choice((1, 4, 16, 128, 255))
        yield changed(case, record=bytes(data))
    yield changed(case, record=case.record[: rng.randrange(len(case.record))])
    yield changed(case, section=case.section[: rng.randrange(len(case.section))])
    yield changed(case, stack=case.stack + rng.choice((1, 8, -8, TOP // 2)) & TOP - 1)
    yield changed(case, kind=rng.choice((1 - case.kind, 2, TOP - 1)))
    yield changed(case, functions=case.functions[: rng.randrange(len(case.functions))])
    yield changed(case, machine=[*case.machine[:2], rng.randrange(40), rng.randrange(130), *case.machine[4:]])


# ---- simulated machines


TRAP_FRAME = 272
MASK = 2**48 - 1


class Simulated:
    """An AArch64 that runs functions, instruction by instruction, and knows its own chain: the calls that were made and have not returned.
    A function signs its return address or not, stores x29 and x30, sets x29 or not, stores x19 or not. A vector, a signal frame, is entered
    in place of an instruction of a function that has stored its return address. Each instruction has its rows, and nothing here knows how
    rows are read."""

    def __init__(self, rng):
        self.rng, self.code, self.vectors = rng, [], []
        self.functions = [self.function(n) for n in range(rng.randrange(3, 7))]
        self.starts = [0x40000 + 256 * n for n in rng.sample(range(16), len(self.code))]
        self.top = self.sp = 0x9000_0000 + 16 * rng.randrange(4096)
        self.x = [rng.randrange(TOP) for _ in range(31)]
        self.memory, self.calls, self.here, self.most = {}, [], (0, 0), rng.choice((3, 8, 8, 20, 75))

    def function(self, n):
        """Instructions, each with the operations of the rows behind it. Function 0 has no caller; its last instruction may be a call."""
        rng, size = self.rng, 16 * self.rng.randrange(2, 6)
        signs, points, keeps, vector = rng.random() < 0.5, rng.random() < 0.6, rng.random() < 0.5, n > 1 and rng.random() < 0.4
        middle = [(what, b"") for what in rng.choices(("work", "call"), k=rng.randrange(2, 7))]
        if n == 0:
            code, header = [("work", b""), *middle, ("call", b"")], def_cfa(SP, 0) + undefined(LR)
        elif vector:
            code = [("work19", b""), *middle, ("leave", b"")]
            header = def_cfa(SP, TRAP_FRAME) + saved(FP, -40) + saved(LR, -32) + saved(19, -24)
            self.vectors.append(n)
        else:
            code = [("sign", NEGATE)] * signs + [(f"push {size}", def_cfa(SP, size) + saved(FP, -size) + saved(LR, 8 - size))]
            code += [("point", def_cfa(FP, size))] * points + [("keep", saved(19, 16 - size)), ("work19", b"")] * keeps + middle
            back = restored(FP) + restored(LR) + restored(19) + def_cfa(SP, 0)
            code += [("load19", b"")] * keeps + [(f"pop {size}", back)] + [("check", NEGATE)] * signs + [("return", b"")]
            header = def_cfa(SP, 0)
        rows, last = b"", 0
        for place, (_, row) in enumerate(code, 1):
            if row:
                rows, last = rows + step(4 * place - last) + row, 4 * place
        self.code.append([what for what, _ in code])
        return Function(rows, 4 * len(code), header, vector)

    def address(self, here):
        return self.starts[here[0]] + 4 * here[1]

    def chain(self):
        return [(self.here[0], self.address(self.here)), *((caller, back) for caller, back, _ in reversed(self.calls))]

    def case(self):
        stack = b"".join(self.memory.get(at, 0).to_bytes(8, "little") for at in range(self.sp, self.top, 8))
        data, relocations = section(self.functions)
        placed = [n for start, f in zip(self.starts, self.functions, strict=True) for n in (start, f.length)]
        return Case(AARCH64, recorded(stack, [*self.x, self.sp]), data, relocations, EH, self.address(self.here), self.sp, placed)

    def enter(self, n, back, trapped):
        self.calls.append((self.here[0], back, self.here if trapped else (self.here[0], self.here[1] + 1)))
        self.here = (n, 0)

    def trap(self):
        """Where x30 is stored and not yet loaded."""
        k, i = self.here
        code = self.code[k]
        stored = any(what.startswith("push") for what in code[:i]) and not any(what.startswith("pop") for what in code[:i])
        if k in self.vectors or not stored or not self.vectors or len(self.calls) >= self.most or self.rng.random() > 0.1:
            return False
        self.memory.update({self.sp - 40: self.x[FP], self.sp - 32: self.address(self.here), self.sp - 24: self.x[19]})
        self.sp -= TRAP_FRAME
        self.enter(self.rng.choice(self.vectors), self.address(self.here), True)
        return True

    def step(self):
        """One instruction; False where function 0 has come to its end."""
        k, i = self.here
        if i == len(self.code[k]):
            return False
        if self.trap():
            return True
        what, *size = self.code[k][i].split()
        x, memory, rng = self.x, self.memory, self.rng
        if what == "call" and len(self.calls) < self.most:
            x[LR] = self.address(self.here) + 4
            self.enter(rng.choice([n for n in range(1, len(self.code)) if n not in self.vectors]), x[LR], False)
            return True
        if what in ("return", "leave"):
            if what == "leave":
                self.sp += TRAP_FRAME
                x[FP], x[19] = memory[self.sp - 40], memory[self.sp - 24]
                # The interrupted function has its return address in its frame.
                x[LR] = rng.randrange(TOP)
            _, back, self.here = self.calls.pop()
            assert what == "leave" or x[LR] == back
            return True
        if what == "sign":
            x[LR] |= rng.randrange(2**16) << 48
        elif what == "check":
            x[LR] &= MASK
        elif what == "push":
            self.sp -= int(size[0])
            memory.update({self.sp: x[FP], self.sp + 8: x[LR]})
        elif what == "point":
            x[FP] = self.sp
        elif what == "keep":
            memory[self.sp + 16] = x[19]
        elif what == "load19":
            x[19] = memory[self.sp + 16]
        elif what == "pop":
            x[FP], x[LR] = memory[self.sp], memory[self.sp + 8]
            self.sp += int(size[0])
        else:
            x[rng.randrange(18)] = rng.randrange(TOP)
            if what == "work19":
                x[19] = rng.randrange(TOP)
        self.here = (k, i + 1)
        return True


def simulated(rng):
    """The stops of one machine: a case with its chain."""
    machine = Simulated(rng)
    for _ in range(400):
        if machine.here[1] < len(machine.code[machine.here[0]]) and rng.random() < 0.25:
            chain = machine.chain()
            ending = TOO_MANY if len(chain) > MOST_FRAMES else RETURN_UNDEFINED
            yield machine.case(), (0, chain[:MOST_FRAMES], ending)
        if not machine.step():
            return


# ---- the comparison


def numbers(*values):
    return " ".join(map(str, values))


def walked(cases):
    """What the library's walk answers of each."""
    said, last = [], {}
    for case in cases:
        lines = {"machine": numbers(*case.machine), "record": case.record.hex(), "section": case.section.hex(),
                 "relocations": numbers(*case.relocations), "functions": numbers(*case.functions)}
        said += [f"{key} {value}" for key, value in lines.items() if last.get(key) != value]
        said.append(f"ask {numbers(case.kind, case.pc, case.stack, case.room)}")
        last = lines
    return ask("walk", said)


def listed(case, number, frames, ending):
    flat = [n for frame in frames for n in frame]
    return [number, len(frames), ending, *flat] + [BEFORE] * (case.room + 1 - len(flat))


def expected(case, said=None):
    """Of unwind_walk, and behind it of unwind_walk_found, which has the frames of a refused walk too."""
    number, frames, ending = said or walk(case)
    up_to = [] if number == 54 or number == 0 else found(case)[1]
    up_to = frames if number == 0 else up_to if 2 * len(up_to) <= case.room else []
    return listed(case, number, frames, ending) + listed(case, number, up_to, ending)


def with_rooms(case, rng):
    """The case with a list that is large, and at times one that is exactly full, one short and one over."""
    said = walk(case)
    yield case, said
    if rng.random() < 0.5 and said[0] == 0:
        full = 2 * len(said[1])
        for room in {max(full - 2, 0), max(full - 1, 0), full, full + 1}:
            yield changed(case, room=room), said if room >= full else (54, [], 0)


def compare(pairs, counts):
    for at in range(0, len(pairs), 4000):
        part = pairs[at : at + 4000]
        judged = ((str(case), expected(case, said)) for case, said in part)
        for got in agreed("walk", judged, walked([case for case, _ in part])):
            counts[f"{got[0]}" if got[0] else f"ending {got[2]}"] += 1


def main():
    counts, rng, pairs = collections.Counter(), random.Random(f"walk {sys.argv[2]}"), []
    for what, number, case in chosen():
        said = walk(case)
        if number is not None and said[0] != number:
            sys.exit(f"walk: {what}: {number} is meant, the judge says {said}")
        pairs += with_rooms(case, rng)
    assert {walk(case)[2] for _, number, case in endings() if number == 0} == {RETURN_UNDEFINED, HELD_BY_NONE, TOO_MANY}
    for case in itertools.chain(short_lookups(), short_rules(), short_files()):
        pairs.append((case, walk(case)))
    deepest = 0
    for _ in range(int(sys.argv[1])):
        case = made(rng)
        deepest = max(deepest, len(walk(case)[1]))
        for other in (case, *damaged(case, rng)):
            pairs += with_rooms(other, rng)
    stops = 0
    for _ in range(int(sys.argv[1]) // 20):
        for case, said in simulated(rng):
            if walk(case) != said:
                sys.exit(f"walk: a simulated machine's chain is {said}, the judge says {walk(case)}: {case}")
            pairs.append((case, said))
            stops += 1
    compare(pairs, counts)
    print(f"walk: {len(pairs)} faults agree, up to {deepest} frames, {stops} of simulated machines: " + ", ".join(f"{n} {counts[n]}" for n in sorted(counts)))


if __name__ == "__main__":
    main()
