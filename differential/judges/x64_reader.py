"""A reader of x64 records, by Microsoft's page "x64 exception handling" alone: the judge of unwind_read_x64."""

import struct

PUSH, ALLOC, FRAME, SAVE = range(4)


class Refused(Exception):
    pass


def unwind_codes(slots, frame):
    """The codes of UNWIND_CODE slots as they stand, each as `seh` takes it: offset, kind, register, vector mark, value."""
    at = 0

    def operand(nodes):
        nonlocal at
        if at + nodes > len(slots):
            raise Refused(77)
        value = sum(slots[at + j] << 16 * j for j in range(nodes))
        at += nodes
        return value

    while at < len(slots):
        offset, operation, info = slots[at] & 0xFF, slots[at] >> 8 & 0xF, slots[at] >> 12
        at += 1
        if operation == 0:  # UWOP_PUSH_NONVOL
            yield [offset, PUSH, info, 0, 0]
        elif operation == 1 and info == 0:  # UWOP_ALLOC_LARGE
            yield [offset, ALLOC, 0, 0, 8 * operand(1)]
        elif operation == 1 and info == 1:
            yield [offset, ALLOC, 0, 0, operand(2)]
        elif operation == 2:  # UWOP_ALLOC_SMALL
            yield [offset, ALLOC, 0, 0, 8 * info + 8]
        elif operation == 3:  # UWOP_SET_FPREG
            yield [offset, FRAME, frame & 0xF, 0, 16 * (frame >> 4)]
        elif operation == 4:  # UWOP_SAVE_NONVOL
            yield [offset, SAVE, info, 0, 8 * operand(1)]
        elif operation == 5:  # UWOP_SAVE_NONVOL_FAR
            yield [offset, SAVE, info, 0, operand(2)]
        elif operation == 8:  # UWOP_SAVE_XMM128
            yield [offset, SAVE, info, 1, 16 * operand(1)]
        elif operation == 9:  # UWOP_SAVE_XMM128_FAR
            yield [offset, SAVE, info, 1, operand(2)]
        else:
            raise Refused(77)


def read(info, place, room):
    """The six numbers and the list that is lent, which starts out as 1000, 1001 .."""
    lent = list(range(1000, 1000 + room))
    try:
        if place + 4 > len(info):
            raise Refused(76)
        first, end, count, frame = info[place : place + 4]
        if first != 1 or place + 4 + 2 * count > len(info):
            raise Refused(76)
        codes = list(unwind_codes(struct.unpack_from(f"<{count}H", info, place + 4), frame))[::-1]
        if 5 * len(codes) > room:
            raise Refused(54)
    except Refused as no:
        return [no.args[0], 0, 0, 0, 0, 0] + lent
    numbers = [n for code in codes for n in code]
    framed = any(code[1] == FRAME for code in codes)
    return [0, end, int(framed), frame & 0xF, 16 * (frame >> 4), len(codes)] + numbers + lent[len(numbers) :]
