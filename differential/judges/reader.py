"""A reader of eh_frame and debug_frame sections, written from DWARF 5, the LSB and the specification, "Reader": the judge of
the library's reader.

`read(section, relocations, kind, word, k, register, p)` is the list of eight numbers that unwind_read answers: the question's number
(0: answered), frame (0 none, 1 register plus offset), its register and offset, the rule (0 unstated, 1 undefined, 2 saved,
3 same value, 4 in a register) and its offset or register, the signing state, and whether every LEB number that was read is spelled
shortest. Offsets are 64-bit two's complement."""

EH, DEBUG = 0, 1
POINTER = {0x00: None, 0x03: 4, 0x0B: 4, 0x13: 4, 0x1B: 4, 0x04: 8, 0x0C: 8}
STRINGS = {EH: ["zR", "zRS", "zPR", "zPRS", "zPLR", "zPLRS"], DEBUG: ["", "S"]}
MOST_STORED = 16
UNSTATED, UNDEFINED, SAVED, SAME_VALUE, IN_REGISTER = range(5)


class Refused(Exception):
    def __init__(self, number):
        super().__init__(number)
        self.number = number


class Bytes:
    """Bytes with a position; running out, or a number that does not fit, is the question's no."""

    def __init__(self, data, number, spelled=None):
        self.data, self.at, self.number = data, 0, number
        # For each LEB number that was read whether its last byte is needed.
        self.spelled = [] if spelled is None else spelled

    def fail(self):
        raise Refused(self.number)

    def take(self, n):
        if n > len(self.data) - self.at:
            self.fail()
        self.at += n
        return self.data[self.at - n : self.at]

    def field(self, n):
        return int.from_bytes(self.take(n), "little")

    def groups(self):
        """The bytes of a LEB number: ten at most."""
        found = []
        while len(found) < 10:
            found.append(self.take(1)[0])
            if found[-1] < 128:
                return found
        self.fail()

    def uleb(self):
        groups = self.groups()
        value = sum((byte & 127) << (7 * n) for n, byte in enumerate(groups))
        self.spelled.append(len(groups) == 1 or groups[-1] != 0)
        return value if value < 2**64 else self.fail()

    def sleb(self):
        groups = self.groups()
        value = sum((byte & 127) << (7 * n) for n, byte in enumerate(groups))
        if groups[-1] & 64:
            value -= 1 << (7 * len(groups))
        # A last byte that only repeats the sign of the byte before it.
        self.spelled.append(len(groups) == 1 or (groups[-1], groups[-2] & 64) not in ((0, 0), (127, 64)))
        return self.signed(value)

    def signed(self, value):
        return value if -(2**63) <= value < 2**63 else self.fail()

    def register(self):
        value = self.uleb()
        return value if value < 65536 else self.fail()


def entries(section):
    found, at = [], 0
    while at < len(section):
        size = int.from_bytes(section[at : at + 4], "little")
        if at + 4 > len(section) or size < 4 or at + 4 + size > len(section):
            raise Refused(61)
        found.append((at, section[at + 4 : at + 4 + size]))
        at += 4 + size
    return found


def second(body):
    return int.from_bytes(body[:4], "little")


def header_of(record, headers, relocations, kind):
    at, body = record
    if kind == EH:
        place = at + 4 - second(body)
    else:
        place = next((r[4] for r in relocations if r[0] == at + 4), None)
    if place is None or place >= at or place not in headers:
        raise Refused(63)
    return headers[place]


def pointer(b, indirect, word):
    """The bytes of a pointer by the encoding that comes next."""
    encoding = b.field(1)
    if encoding >= 128 and not indirect or encoding & 127 not in POINTER:
        b.fail()
    return POINTER[encoding & 127] or word


def header_fields(body, kind, word, spelled=None):
    """The bytes of a record's LSDA pointer, and the header's operations."""
    b = Bytes(body, 64, spelled)
    b.take(4)
    if b.field(1) != 1:
        b.fail()
    text = b""
    while not text.endswith(b"\0"):
        text += b.take(1)
    letters = text[:-1].decode("latin-1")
    if letters not in STRINGS[kind] or b.uleb() != 1 or b.sleb() != -word:
        b.fail()
    b.register()
    lsda = 0
    if kind == EH:
        data = Bytes(b.take(b.uleb()), 64)
        if "P" in letters:
            data.take(pointer(data, True, word))
        if "L" in letters:
            lsda = pointer(data, False, word)
        if data.field(1) != 0x1B:
            b.fail()
    return lsda, body[b.at :]


def record_fields(body, kind, word, lsda, spelled=None):
    """The function's length, and the record's operations."""
    b = Bytes(body, 64, spelled)
    b.take(4)
    width = 4 if kind == EH else word
    b.take(width)
    size = b.field(width)
    if kind == EH and len(b.take(b.uleb())) < lsda:
        b.fail()
    return size, body[b.at :]


class Walk:
    def __init__(self, word, register, p, spelled=None):
        self.word, self.register, self.p, self.spelled = word, register, p, spelled
        self.frame, self.rule, self.signing, self.stored = None, (UNSTATED, 0), 0, []
        self.initial = None

    def operations(self, data, header):
        b, at = Bytes(data, 66, self.spelled), 0
        while b.at < len(data):
            step = self.operation(b, header)
            if step is None:
                continue
            if header:
                raise Refused(66)
            if at + step > self.p:
                return
            at += step

    def operation(self, b, header):
        """One operation; a step is given back."""
        code = b.field(1)
        high, low = code & 0xC0, code & 0x3F
        if high == 0x40:
            return low
        if high == 0x80:
            self.save(low, b.signed(-self.word * b.uleb()))
        elif high == 0xC0:
            self.restore(low, header)
        elif code in (0x02, 0x03, 0x04):
            return b.field({0x02: 1, 0x03: 2, 0x04: 4}[code])
        elif code == 0x05:
            self.save(b.register(), b.signed(-self.word * b.uleb()))
        elif code == 0x06:
            self.restore(b.register(), header)
        elif code == 0x07:
            self.set_rule(b.register(), (UNDEFINED, 0))
        elif code == 0x08:
            self.set_rule(b.register(), (SAME_VALUE, 0))
        elif code == 0x09:
            self.set_rule(b.register(), (IN_REGISTER, b.register()))
        elif code == 0x0A:
            if len(self.stored) == MOST_STORED:
                raise Refused(68)
            self.stored.append((self.frame, self.rule, self.signing))
        elif code == 0x0B:
            if not self.stored:
                raise Refused(67)
            self.frame, self.rule, self.signing = self.stored.pop()
        elif code == 0x0C:
            self.frame = (b.register(), b.signed(b.uleb()))
        elif code == 0x0D:
            self.change(register=b.register())
        elif code == 0x0E:
            self.change(offset=b.signed(b.uleb()))
        elif code == 0x11:
            self.save(b.register(), b.signed(-self.word * b.sleb()))
        elif code == 0x12:
            self.frame = (b.register(), b.signed(-self.word * b.sleb()))
        elif code == 0x13:
            self.change(offset=b.signed(-self.word * b.sleb()))
        elif code == 0x2D:
            self.signing ^= 1
        elif code != 0x00:
            b.fail()
        return None

    def change(self, register=None, offset=None):
        if self.frame is None:
            raise Refused(69)
        self.frame = (self.frame[0] if register is None else register, self.frame[1] if offset is None else offset)

    def set_rule(self, register, rule):
        if register == self.register:
            self.rule = rule

    def save(self, register, offset):
        self.set_rule(register, (SAVED, offset))

    def restore(self, register, header):
        if header:
            raise Refused(67)
        self.set_rule(register, self.initial)


def located(section, relocations, kind, word, k, spelled):
    """The operations of record k's header, the function's length, and the record's operations."""
    if word not in (2, 4, 8) or kind not in (EH, DEBUG):
        raise Refused(11)
    found = entries(section)
    mark = 0 if kind == EH else 0xFFFFFFFF
    records = [entry for entry in found if second(entry[1]) != mark]
    if k >= len(records):
        raise Refused(62)
    headers = {at: body for at, body in found if second(body) == mark}
    lsda, first = header_fields(header_of(records[k], headers, relocations, kind), kind, word, spelled)
    size, rest = record_fields(records[k][1], kind, word, lsda, spelled)
    return first, size, rest


def read(section, relocations, kind, word, k, register, p):
    spelled = []
    try:
        first, size, rest = located(section, relocations, kind, word, k, spelled)
        if p >= size:
            raise Refused(65)
        walk = Walk(word, register, p, spelled)
        walk.operations(first, True)
        walk.initial = walk.rule
        walk.operations(rest, False)
    except Refused as no:
        return [no.number, 0, 0, 0, 0, 0, 0, 0]
    frame = [0, 0, 0] if walk.frame is None else [1, walk.frame[0], walk.frame[1] % 2**64]
    return [0, *frame, walk.rule[0], walk.rule[1] % 2**64, walk.signing, int(all(spelled))]
