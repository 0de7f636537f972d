"""A section taken apart, by DWARF 5 (6.4, 7.24) and the LSB's ".eh_frame": the judge of entries, fields of headers and records, and operations."""

DEBUG = 1


class Short(Exception):
    """What should be read does not end, or does not fit 64 bits."""


class Bytes:
    """Bytes with a position; `base` is where the first one stands."""

    def __init__(self, data, base):
        self.data, self.base, self.at = data, base, 0

    def place(self):
        return self.base + self.at

    def take(self, n):
        if n > len(self.data) - self.at:
            raise Short
        self.at += n
        return self.data[self.at - n : self.at]

    def number(self, n):
        return int.from_bytes(self.take(n), "little")

    def leb(self):
        """The value and the bits of a LEB128 number, of ten bytes at most."""
        value = bits = 0
        for _ in range(10):
            byte = self.number(1)
            value |= (byte & 0x7F) << bits
            bits += 7
            if byte < 0x80:
                return value, bits
        raise Short

    def uleb(self):
        value, _ = self.leb()
        if value >= 2**64:
            raise Short
        return value

    def sleb(self):
        value, bits = self.leb()
        return signed64(value - (1 << bits) if value >> (bits - 1) else value)

    def register(self):
        value = self.uleb()
        if value > 0xFFFF:
            raise Short
        return value


def signed64(value):
    if not -(2**63) <= value < 2**63:
        raise Short
    return value


# ---- entries


def entry(section, kind, at):
    """number, header, place, length, next"""
    if kind > 1:
        return [11, 0, at, 0, at]
    if at >= len(section):
        return [62, 0, at, 0, at]
    length = int.from_bytes(section[at : at + 4], "little")
    if at + 4 > len(section) or length < 4 or at + 4 + length > len(section):
        return [61, 0, at, 0, at]
    mark = b"\xff\xff\xff\xff" if kind == DEBUG else bytes(4)
    return [0, int(section[at + 4 : at + 8] == mark), at, length, at + 4 + length]


# ---- headers

POINTERS = {0x00: None, 0x03: 4, 0x0B: 4, 0x13: 4, 0x1B: 4, 0x04: 8, 0x0C: 8}
STRINGS = {0: ("zR", "zRS", "zPR", "zPRS", "zPLR", "zPLRS"), DEBUG: ("", "S")}


def pointer_bytes(encoding, word, indirect):
    if encoding & 0x80 and not indirect:
        raise Short
    if encoding & 0x7F not in POINTERS:
        raise Short
    return POINTERS[encoding & 0x7F] or word


def header_data(data, string, word):
    """The bytes of a record's pointer to call sites, by the augmentation data of a string."""
    pointer = 0
    for letter in string[1:]:
        if letter == "P":
            data.take(pointer_bytes(data.number(1), word, True))
        elif letter == "L":
            pointer = pointer_bytes(data.number(1), word, False)
        elif letter == "R" and data.number(1) != 0x1B:
            raise Short
    return pointer


def fail_unless(test):
    if not test:
        raise Short


def header(section, kind, word, place):
    """number, field, personality, lsda, signal, return register, pointer, operations, end"""
    refused = [0] * 7
    if kind > 1 or word not in (2, 4, 8):
        return [11, 0] + refused
    number, is_header, _, _, end = entry(section, kind, place)
    if number != 0:
        return [61, 0] + refused
    if not is_header:
        return [63, 0] + refused
    body = Bytes(section[place + 4 : end], place + 4)
    body.take(4)
    field, pointer = 1, 0
    try:
        fail_unless(body.number(1) == 1)
        field = 2
        string = body.data[body.at :].split(b"\0")[0].decode("latin1")
        fail_unless(string in STRINGS[kind])
        body.take(len(string) + 1)
        field = 3
        fail_unless(body.uleb() == 1)
        field = 4
        fail_unless(body.sleb() == -word)
        field = 5
        register = body.register()
        field = 6
        if string.startswith("z"):
            data = Bytes(body.take(body.uleb()), 0)
            pointer = header_data(data, string, word)
    except Short:
        return [64, field] + refused
    marks = [int(letter in string) for letter in "PLS"]
    return [0, 0] + marks + [register, pointer, body.place(), end]


# ---- records


def record(section, kind, word, pointer, place):
    """number, field, header, function, length, call sites, operations, end"""
    refused = [0] * 6
    if kind > 1 or word not in (2, 4, 8):
        return [11, 0] + refused
    number, is_header, _, _, end = entry(section, kind, place)
    if number != 0:
        return [61, 0] + refused
    if is_header:
        return [62, 0] + refused
    body = Bytes(section[place + 4 : end], place + 4)
    size = word if kind == DEBUG else 4
    owner = body.number(4)
    field, sites = 7, 0
    try:
        function = body.number(size)
        field = 8
        length = body.number(size)
        field = 9
        if kind != DEBUG:
            count = body.uleb()
            sites = body.place() if pointer else 0
            fail_unless(len(body.take(count)) >= pointer)
    except Short:
        return [64, field] + refused
    return [0, 0, owner, function, length, sites, body.place(), end]


# ---- operations

DEF_CFA, DEF_CFA_OFFSET, DEF_CFA_REGISTER, OFFSET, RESTORE, UNDEFINED, REMEMBER, RECALL, NEGATE, SAME_VALUE, IN_REGISTER = range(11)
NOP, STEP = 16, 17


def one(code, word):
    """kind, register and value of the operation that starts here"""
    first = code.number(1)
    low = first & 0x3F
    if first >= 0xC0:
        return RESTORE, low, 0
    if first >= 0x80:
        return OFFSET, low, signed64(-word * code.uleb())
    if first >= 0x40:
        return STEP, 0, low
    if first == 0x00:
        return NOP, 0, 0
    if first in (0x02, 0x03, 0x04):
        return STEP, 0, code.number({2: 1, 3: 2, 4: 4}[first])
    if first == 0x05:
        return OFFSET, code.register(), signed64(-word * code.uleb())
    if first == 0x06:
        return RESTORE, code.register(), 0
    if first == 0x07:
        return UNDEFINED, code.register(), 0
    if first == 0x08:
        return SAME_VALUE, code.register(), 0
    if first == 0x09:
        return IN_REGISTER, code.register(), code.register()
    if first == 0x0A:
        return REMEMBER, 0, 0
    if first == 0x0B:
        return RECALL, 0, 0
    if first == 0x0C:
        return DEF_CFA, code.register(), signed64(code.uleb())
    if first == 0x0D:
        return DEF_CFA_REGISTER, code.register(), 0
    if first == 0x0E:
        return DEF_CFA_OFFSET, 0, signed64(code.uleb())
    if first == 0x11:
        return OFFSET, code.register(), signed64(-word * code.sleb())
    if first == 0x12:
        return DEF_CFA, code.register(), signed64(-word * code.sleb())
    if first == 0x13:
        return DEF_CFA_OFFSET, 0, signed64(-word * code.sleb())
    if first == 0x2D:
        return NEGATE, 0, 0
    raise Short


def operation(section, at, end, word):
    """number, kind, register, value, next, opcode"""
    if word not in (2, 4, 8):
        return [11, 0, 0, 0, at, 0]
    if at == end:
        return [62, 0, 0, 0, at, 0]
    if at > end or end > len(section):
        return [66, 0, 0, 0, at, 0]
    code = Bytes(section[at:end], at)
    try:
        kind, register, value = one(code, word)
    except Short:
        return [66, 0, 0, 0, at, section[at]]
    return [0, kind, register, value % 2**64, code.place(), section[at]]
