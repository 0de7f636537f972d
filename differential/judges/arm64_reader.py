"""An independent reader of Windows' unwind data on ARM64, written from Microsoft's page, and not from the definitions: the judge of
unwind_read_arm64. An answer is (76 or 77, 0, [], []), or (0, length, prologue, epilogues): codes as (kind, register, offset), epilogues as
(start, codes)."""

KINDS = ("Alloc R19R20X Fplr FplrX Regp RegpX Reg RegX Lrpair Fregp FregpX Freg FregX SetFp AddFp Nop SaveNext PacSignLr").split()
K = {name: number for number, name in enumerate(KINDS)}

# The page's rows: a pattern of bits, first byte first (x register, z offset), and what the fields mean.
PATTERNS = [
    ("000zzzzz", "Alloc", None, lambda z: 16 * z),
    ("11000zzz zzzzzzzz", "Alloc", None, lambda z: 16 * z),
    ("11100000 zzzzzzzz zzzzzzzz zzzzzzzz", "Alloc", None, lambda z: 16 * z),
    ("001zzzzz", "R19R20X", None, lambda z: 8 * z),
    ("01zzzzzz", "Fplr", None, lambda z: 8 * z),
    ("10zzzzzz", "FplrX", None, lambda z: 8 * (z + 1)),
    ("110010xx xxzzzzzz", "Regp", lambda x: 19 + x, lambda z: 8 * z),
    ("110011xx xxzzzzzz", "RegpX", lambda x: 19 + x, lambda z: 8 * (z + 1)),
    ("110100xx xxzzzzzz", "Reg", lambda x: 19 + x, lambda z: 8 * z),
    ("1101010x xxxzzzzz", "RegX", lambda x: 19 + x, lambda z: 8 * (z + 1)),
    ("1101011x xxzzzzzz", "Lrpair", lambda x: 19 + 2 * x, lambda z: 8 * z),
    ("1101100x xxzzzzzz", "Fregp", lambda x: 8 + x, lambda z: 8 * z),
    ("1101101x xxzzzzzz", "FregpX", lambda x: 8 + x, lambda z: 8 * (z + 1)),
    ("1101110x xxzzzzzz", "Freg", lambda x: 8 + x, lambda z: 8 * z),
    ("11011110 xxxzzzzz", "FregX", lambda x: 8 + x, lambda z: 8 * (z + 1)),
    ("11100001", "SetFp", None, None),
    ("11100010 zzzzzzzz", "AddFp", None, lambda z: 8 * z),
    ("11100011", "Nop", None, None),
    ("11100100", "end", None, None),
    ("11100110", "SaveNext", None, None),
    ("11111100", "PacSignLr", None, None),
]


class No(Exception):
    pass


def code_at(data, at):
    """The code at a place: (kind or 'end', register, offset), and how many bytes it has."""
    if at >= len(data):
        raise No(77)
    first = format(data[at], "08b")
    for pattern, name, register, offset in PATTERNS:
        rows = pattern.split()
        if not all(a == b or a in "xz" for a, b in zip(rows[0], first)):
            continue
        if at + len(rows) > len(data):
            raise No(77)
        bits = "".join(format(b, "08b") for b in data[at:at + len(rows)])
        mask = "".join(rows)
        fields = {f: int("0" + "".join(b for b, m in zip(bits, mask) if m == f), 2) for f in "xz"}
        return (name, register(fields["x"]) if register else 0, offset(fields["z"]) if offset else 0), len(rows)
    raise No(77)


def run_at(data, at):
    codes = []
    while True:
        code, size = code_at(data, at)
        if code[0] == "end":
            return codes
        codes.append((K[code[0]], code[1], code[2]))
        at += size


def word_at(info, place):
    if place + 4 > len(info):
        raise No(76)
    return int.from_bytes(info[place:place + 4], "little")


def full(info, place):
    word = word_at(info, place)
    length, version, handler, single = word & 0x3ffff, word >> 18 & 3, word >> 20 & 1, word >> 21 & 1
    count, words, at = word >> 22 & 31, word >> 27, place + 4
    if version:
        raise No(76)
    if count == 0 and words == 0:
        second = word_at(info, at)
        count, words, at = second & 0xffff, second >> 16 & 0xff, at + 4
    scopes = []
    for _ in range(0 if single else count):
        scope = word_at(info, at)
        scopes.append((scope & 0x3ffff, scope >> 22))
        at += 4
    if at + 4 * words + 4 * handler > len(info):
        raise No(76)
    data = info[at:at + 4 * words]
    prologue = run_at(data, 0)[::-1]
    if single:
        codes = run_at(data, count)
        start = length - len(codes) - 1
        if start < 0:
            raise No(77)
        return 4 * length, prologue, [(4 * start, codes)]
    return 4 * length, prologue, [(4 * start, run_at(data, index)) for start, index in scopes]


def packed(word):
    flag, length, regf, regi = word & 3, word >> 2 & 0x7ff, word >> 13 & 7, word >> 16 & 15
    home, cr, frame = word >> 20 & 1, word >> 21 & 3, word >> 23
    vectors = regf + 1 if regf else 0
    integers = [19 + i for i in range(regi)] + ([30] if cr == 1 else [])
    saved = (8 * len(integers) + 8 * vectors + 64 * home + 15) & ~15
    local = 16 * frame - saved
    if regi > 10 or local < 0 or cr == 1 and regi == 1 or cr >= 2 and local == 0 or home and not integers and not vectors:
        raise No(77)
    # (bank, registers) in order, in pairs; lr goes with an odd register
    saves = [("x", integers[i:i + 2]) for i in range(0, len(integers), 2)]
    for i in range(0, vectors, 2):
        saves.append(("d", list(range(8 + i, min(8 + i + 2, 8 + vectors)))))
    undone, at = [], 0
    if cr == 2:
        undone.append(("PacSignLr", 0, 0))
    for n, (bank, registers) in enumerate(saves):
        first, pair = registers[0], len(registers) == 2
        name = ("F" if bank == "d" else "R") + ("regp" if bank == "d" else "egp")
        if not pair:
            name = name[:-1]
        if n == 0:
            if bank == "x" and pair:
                undone.append(("R19R20X", 0, saved))
            else:
                undone.append((name + "X", first, saved))
        elif bank == "x" and pair and registers[1] == 30:
            undone.append(("Lrpair", first, at))
        else:
            undone.append((name, first, at))
        at += 8 * len(registers)
    prologue = undone + [("Nop", 0, 0)] * (4 * home)
    tail = []
    if cr >= 2 and local <= 512:
        tail.append(("FplrX", 0, local))
    else:
        if local > 4080:
            tail += [("Alloc", 0, 4080), ("Alloc", 0, local - 4080)]
        elif local:
            tail.append(("Alloc", 0, local))
        if cr >= 2:
            tail.append(("Fplr", 0, 0))
    prologue += tail + ([("SetFp", 0, 0)] if cr >= 2 else [])
    number = lambda codes: [(K[name], register, offset) for name, register, offset in codes]
    if flag == 2:
        return 4 * length, number(prologue), []
    epilogue = (undone + tail)[::-1]
    start = length - len(epilogue) - 1
    if start < 0:
        raise No(77)
    return 4 * length, number(prologue), [(4 * start, number(epilogue))]


def read(word, info, place):
    try:
        if word & 3 == 0:
            return (0, *full(info, place))
        if word & 3 == 3 or word >> 32:
            raise No(77)
        return (0, *packed(word))
    except No as no:
        return no.args[0], 0, [], []


def numbers(answer, epilogues, codes):
    """The five numbers of the answer and the two lent lists, which had `epilogues` and `codes` elements of 9."""
    number, length, prologue, found = answer
    every = prologue + [code for _, run in found for code in run]
    lists = [9] * epilogues, [9] * codes
    if number == 0 and (3 * len(found) > epilogues or 3 * len(every) > codes):
        number = 54
    if number:
        return [number, 0, 0, 0, 0], *lists
    at, i = len(prologue), 0
    for start, run in found:
        lists[0][i:i + 3] = start, at, len(run)
        at, i = at + len(run), i + 3
    for i, code in enumerate(every):
        lists[1][3 * i:3 * i + 3] = code
    return [0, length, len(prologue), len(found), len(every)], *lists
