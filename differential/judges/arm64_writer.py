"""An independent writer of Windows' unwind data on ARM64, from Microsoft's page, the source's `describe` and questions 81 to 83, and not from the
definitions: the judge of unwind_arm64. A function is (symbol, length, prologue, epilogues), an epilogue (start, codes), a code (kind, register, offset)."""
from judges.arm64_reader import K, KINDS, PATTERNS, No, packed  # noqa: E402

ALLOC, R19R20X, FPLR, FPLRX, REGP, REGPX = (K[name] for name in "Alloc R19R20X Fplr FplrX Regp RegpX".split())
SETFP, ADDFP, NOP, SAVENEXT, SIGN = (K[name] for name in "SetFp AddFp Nop SaveNext PacSignLr".split())
FREGP, FREGPX = K["Fregp"], K["FregpX"]
# The registers that `describe` spells, by kind.
REGISTERS = {
    "Regp": range(19, 29), "RegpX": range(19, 29), "Reg": range(19, 31), "RegX": range(19, 31), "Lrpair": range(19, 28, 2),
    "Fregp": range(8, 15), "FregpX": range(8, 15), "Freg": range(8, 16), "FregX": range(8, 16),
}
OFFSETS = {name for _, name, _, offset in PATTERNS if offset}
END, MOST_FUNCTIONS, MOST_RECORDS = 0xe4, 65536, 1048576


def spelled(code):
    """The first of the page's rows that can say the code, as bytes; None where there is none."""
    kind, register, offset = code
    name = KINDS[kind]
    if name in REGISTERS and register not in REGISTERS[name]:
        return None
    for pattern, of, says_register, says_offset in PATTERNS:
        if of != name:
            continue
        bits = pattern.replace(" ", "")
        fields = {}
        for letter, value, says in (("x", register, says_register), ("z", offset, says_offset)):
            room = 1 << bits.count(letter)
            if not says:
                fields[letter] = 0
                continue
            step = says(1) - says(0)
            n, left = divmod(value - says(0), step)
            if left or not 0 <= n < room:
                break
            fields[letter] = n
        else:
            out = ""
            for letter in reversed(bits):
                if letter in "01":
                    out = letter + out
                else:
                    out = str(fields[letter] & 1) + out
                    fields[letter] >>= 1
            return int(out, 2).to_bytes(len(out) // 8, "big")
    return None


def shorter(code):
    """The code of its own that a pair at x29, the first pair pushed to 248, or a frame pointer without an offset has."""
    kind, register, offset = code
    if kind == REGP and register == 29:
        return FPLR, 0, offset
    if kind == REGPX and register == 29:
        return FPLRX, 0, offset
    if kind == REGPX and register == 19 and offset <= 248:
        return R19R20X, 0, offset
    if kind == ADDFP and offset == 0:
        return SETFP, 0, 0
    return code


def simplified(saves):
    """Codes in the order in which they save: a pair two registers on and 16 bytes up is a SaveNext."""
    out, before = [], None
    for code in map(shorter, saves):
        kind, register, offset = code
        if kind == REGP:
            if spelled((REGP, register, 0)) is None:
                raise No(83)
            if before and (before[0] + 2, before[1] + 16) == (register, offset):
                code = kind, register, offset = SAVENEXT, 0, 0
        if spelled(code) is None:
            raise No(83)
        out.append(code)
        if kind == SAVENEXT:
            before = before and (before[0] + 2, before[1] + 16)
        else:
            before = {R19R20X: (19, 0), REGPX: (register, 0), REGP: (register, offset)}.get(kind)
    return out


def run(saves):
    return b"".join(spelled(code) for code in reversed(saves)) + bytes([END])


def instructions(saves):
    """What each instruction does: its name, registers, offset; SaveNext by the pair before it."""
    out, pair = [], None
    for kind, register, offset in saves:
        if kind == SAVENEXT:
            if not pair:
                return None
            kind, register, offset = pair[0], pair[1] + 2, pair[2] + 16
        kind, register = {R19R20X: (REGPX, 19), FPLR: (REGP, 29), FPLRX: (REGPX, 29)}.get(kind, (kind, register))
        if kind == SETFP:
            kind = ADDFP
        pair = {REGP: (REGP, register, offset), REGPX: (REGP, register, 0), FREGP: (FREGP, register, offset), FREGPX: (FREGP, register, 0)}.get(kind)
        if register == 29 and kind in (REGP, REGPX):
            pair = None
        out.append((kind, register, offset))
    return out


def candidate(length, does):
    """The only word that may stand for a prologue, by what its instructions save and take; None where a field does not hold it."""
    integers = vectors = taken = 0
    signed = chained = link = False
    for kind, register, offset in does:
        name = KINDS[kind]
        pair = name.rstrip("X").endswith("p") and name != "AddFp"
        if name.endswith("X") or name == "Alloc":
            taken += offset
        if name.startswith("Freg"):
            vectors += 2 if pair else 1
        elif register == 29 or kind == ADDFP:
            chained = True
        elif name == "Lrpair":
            integers, link = integers + 1, True
        elif register == 30:
            link = True
        elif name.startswith("Reg"):
            integers += 2 if pair else 1
        signed |= kind == SIGN
    chain = 2 if signed else 3 if chained else 1 if link else 0
    fields = ((1, 2), (length // 4, 11), (max(vectors - 1, 0), 3), (integers, 4), (0, 1), (chain, 2), (taken // 16, 9))
    word = at = 0
    for value, bits in fields:
        if value >> bits:
            return None
        word, at = word | value << at, at + bits
    return word


def pack(length, start, prologue, epilogue):
    """The packed word that means what was given, code by code."""
    does, undoes = instructions(prologue), instructions(epilogue)
    if does is None or undoes is None:
        return None
    word = candidate(length, does)
    if word is None:
        return None
    try:
        _, codes, epilogues = packed(word)
    except No:
        return None
    same = instructions(codes) == does and epilogues[0][0] == start and instructions(epilogues[0][1][::-1]) == undoes
    return word if same else None


def describe(length, prologue, epilogues):
    """A packed word, or the bytes of a full record."""
    if length % 4 or length // 4 >= 1 << 18:
        raise No(81)
    if any(start % 4 or start >= length for start, _ in epilogues):
        raise No(82)
    prologue = simplified(prologue)
    runs = [(start, simplified(codes[::-1])) for start, codes in epilogues]
    codes = run(prologue)
    front = len(codes)

    def inside(saves):
        return front - len(run(saves)) if prologue[:len(saves)] == saves else None

    single = None
    if len(runs) == 1 and length - runs[0][0] == 4 * len(runs[0][1]) + 4:
        start, saves = runs[0]
        index = inside(saves)
        if index is not None and index <= 31 and front <= 124:
            single = index
            word = pack(length, start, prologue, saves)
            if word is not None:
                return word
        elif front <= 31 and front + len(run(saves)) <= 124:
            single = front
    scopes, own = [], {}
    for start, saves in runs:
        index = inside(saves)
        if index is None:
            index = own.get(tuple(saves))
        if index is None:
            index = own[tuple(saves)] = len(codes)
            codes += run(saves)
        scopes.append((start // 4, index))
    count = len(scopes) if single is None else single
    words = (len(codes) + 3) // 4
    if count >= 1 << 16 or words >= 1 << 8 or any(index >= 1 << 10 for _, index in scopes):
        raise No(83)
    head = length // 4 | (single is not None) << 21
    head = [head, count | words << 16] if count >= 32 or len(codes) > 124 else [head | count << 22 | words << 27]
    if single is None:
        head += [start | index << 22 for start, index in scopes]
    return b"".join(word.to_bytes(4, "little") for word in head) + codes + bytes([0xe3]) * (-len(codes) % 4)


def records(numbers, stride):
    return [numbers[i:i + stride] for i in range(0, len(numbers) - stride + 1, stride)]


def taken(functions, epilogues, codes):
    """The lists as functions; 13."""
    functions, epilogues, codes = records(functions, 6), records(epilogues, 3), records(codes, 3)

    def codes_in(at, n):
        if at + n > len(codes):
            raise No(13)
        for kind, register, offset in codes[at:at + n]:
            if kind > 17 or register and KINDS[kind] not in REGISTERS or offset and KINDS[kind] not in OFFSETS:
                raise No(13)
        return [tuple(code) for code in codes[at:at + n]]

    if len(functions) > MOST_FUNCTIONS or sum(f[5] for f in functions) > MOST_RECORDS:
        raise No(13)
    out, sum_codes = [], 0
    for symbol, length, at, n, from_, many in functions:
        if not 16 <= symbol < 1 << 32 or from_ + many > len(epilogues):
            raise No(13)
        sum_codes += n + sum(e[2] for e in epilogues[from_:from_ + many])
        if sum_codes > MOST_RECORDS:
            raise No(13)
        out.append((symbol, length, codes_in(at, n), [(e[0], codes_in(e[1], e[2])) for e in epilogues[from_:from_ + many]]))
    return out


def write(functions, epilogues, codes):
    """(number, markers, bytes, relocations, info), before the questions of room."""
    markers, rows, relocations, info = [], b"", [], b""
    try:
        for symbol, length, prologue, ends in taken(functions, epilogues, codes):
            record = describe(length, prologue, ends)
            relocations += [len(rows), symbol, 4, 4, 0]
            if isinstance(record, int):
                markers.append((1 << 64) - 1)
                rows += bytes(4) + record.to_bytes(4, "little")
            else:
                relocations += [len(rows) + 4, (1 << 32) + symbol, 4, 4, 0]
                markers.append(len(info))
                rows += bytes(8)
                info += record
    except No as no:
        return no.args[0], [], b"", [], b""
    return 0, markers, rows, relocations, info
