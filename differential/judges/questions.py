"""The questions of docs/SPECIFICATION.md, asked of the number lists of a case; written from that page, apart from
the definitions and the code.

`expected(case)` is ("empty",), ("refused", number, position), ("accepted",), or ("source",) where only the source's own branches
decide: the groups and codes of COFF (31 to 41)."""

STRIDE = {"functions": 18, "rows": 4, "landings": 3, "pairs": 4, "codes": 5}
MOST_FUNCTIONS, MOST_RECORDS = 65536, 1048576
ENCODINGS = {0x00, 0x03, 0x0B, 0x13, 0x1B, 0x04, 0x0C}
HAS_REGISTER, HAS_OFFSET = {0, 2, 3, 4, 5, 9, 10}, {0, 1, 3}
SAME_VALUE, IN_REGISTER = 9, 10
PUSH, ALLOC, FRAME, SAVE = 0, 1, 2, 3


def records(numbers, stride):
    return [numbers[at : at + stride] for at in range(0, len(numbers) - stride + 1, stride)]


def reached(case, key, at, count):
    """The records of a range, or None where it lies outside its list."""
    stride = STRIDE[key]
    if at + count > len(case[key]) // stride:
        return None
    return records(case[key][stride * at : stride * (at + count)], stride)


def machine_ok(numbers):
    if len(numbers) < 70:
        return False
    word, pushed, stack, back, frame, zero = numbers[:6]
    return (
        word in (2, 4, 8) and pushed % word == 0 and pushed < 2**31 and stack < 65536 and back < 65536
        and frame <= 65536 and zero == 0 and all(n <= 255 for n in numbers[6:70])
    )


def symbol_ok(n):
    return 16 <= n < 2**32


def pointer_ok(encoding, symbol):
    return encoding <= 255 and symbol_ok(symbol)


def row_ok(row):
    _, kind, reg, operand = row
    operands = 2**32 if kind in HAS_OFFSET else 65536 if kind == IN_REGISTER else 1
    return kind <= IN_REGISTER and reg < (65536 if kind in HAS_REGISTER else 1) and operand < operands


def register_rows(case):
    """Whether rows of SameValue or InRegister are in the list, which the Rust cannot be handed."""
    return any(row[1] in (SAME_VALUE, IN_REGISTER) for row in records(case["rows"], 4))


def function_ok(case, f):
    rows, landings = reached(case, "rows", f[2], f[3]), reached(case, "landings", f[4], f[5])
    if not symbol_ok(f[0]) or rows is None or landings is None or not all(map(row_ok, rows)) or max(f[6:9]) > 1:
        return False
    if f[8] and not (pointer_ok(f[9], f[10]) and f[11] <= 1 and (not f[11] or pointer_ok(f[12], f[13]))):
        return False
    if f[14] == 0:
        return True
    pairs = reached(case, "pairs", f[16], f[17])
    return f[14] == 1 and symbol_ok(f[15]) and pairs is not None and all(symbol_ok(p[2]) and symbol_ok(p[3]) for p in pairs)


def lists_ok(case, functions):
    sums = [sum(f[3] for f in functions), sum(f[5] for f in functions), sum(f[17] for f in functions if f[14])]
    return len(functions) <= MOST_FUNCTIONS and max(sums) <= MOST_RECORDS and all(function_ok(case, f) for f in functions)


def encoding_ok(encoding, indirect):
    return (indirect or encoding < 0x80) and encoding & 0x7F in ENCODINGS


def signed(off):
    return off - 2**32 if off >= 2**31 else off


def row_whole(word, row):
    _, kind, _, off = row
    factored = kind == 3 or kind in (0, 1) and off >= 2**31
    return not factored or signed(off) % word == 0


def mach_o(case):
    """A format that is not written any more; the Rust is not asked about it."""
    return case["entry"] == "relaxed_table" and case["format"] == 2


def dwarf_number(case, f, word, debug):
    """21 to 25 of one function, or None."""
    if f[1] >= (256**word if debug else 2**32):
        return 21
    if not debug and f[5] == 0 and f[8]:
        if not encoding_ok(f[9], True) or f[11] and not encoding_ok(f[12], False):
            return 22
    rows, at = reached(case, "rows", f[2], f[3]), 0
    for row in rows:
        if row[0] < at or row[0] - at >= 2**32:
            return 23
        at = row[0]
    if not all(row_whole(word, row) for row in rows):
        return 24
    if f[14] and any(p[0] == p[1] for p in reached(case, "pairs", f[16], f[17])):
        return 25
    return None


def table(case, debug):
    functions, form = records(case["functions"], 18), case["format"]
    if not functions or form in (3, 4) and not debug or form != 0 and debug:
        return ("empty",)
    if mach_o(case):
        return ("refused", 78, 0)
    if form > 4 or not machine_ok(case["machine"]):
        return ("refused", 11, 0)
    word = case["machine"][0]
    if form == 1 and word != 8:
        return ("refused", 12, 0)
    if not lists_ok(case, functions):
        return ("refused", 13, 0)
    if form == 1:
        return next((("refused", 21, k) for k, f in enumerate(functions) if f[1] >= 2**32), ("source",))
    for k, f in enumerate(functions):
        number = dwarf_number(case, f, word, debug)
        if number is not None:
            return ("refused", number, k)
    return ("accepted",)


def code_ok(code):
    _, kind, reg, vector, value = code
    return kind <= 3 and (kind != ALLOC or reg == 0) and vector <= (1 if kind == SAVE else 0) and (kind != PUSH or value == 0)


def prologue_ok(case, f):
    codes = reached(case, "codes", f[3], f[4])
    return symbol_ok(f[0]) and codes is not None and all(map(code_ok, codes))


def code_number(code):
    at, kind, reg, _, value = code
    value = value - 2**64 if value >= 2**63 else value
    if reg > 15:
        return 34
    if at > 255:
        return 35
    if kind == ALLOC:
        return 36 if value <= 0 or value % 8 else 37 if value >= 2**32 else None
    if kind == SAVE:
        return 38 if value < 0 else 39 if value >= 2**32 else None
    return None


def slots(code):
    _, kind, _, vector, value = code
    if kind == ALLOC:
        return 1 if value <= 128 else 2 if value // 8 < 65536 else 3
    if kind == SAVE:
        unit = 16 if vector else 8
        return 2 if value % unit == 0 and value // unit < 65536 else 3
    return 1


def prologue_number(f, codes):
    for code in codes:
        number = code_number(code)
        if number is not None:
            return number
    if f[2] > 255:
        return 35
    if sum(map(slots, codes)) > 255:
        return 40
    return 41 if any(code[1] == FRAME and (code[4] > 240 or code[4] % 16) for code in codes) else None


def seh(case):
    functions = records(case["functions"], 5)
    if not functions:
        return ("empty",)
    if len(functions) > MOST_FUNCTIONS or sum(f[4] for f in functions) > MOST_RECORDS:
        return ("refused", 13, 0)
    if not all(prologue_ok(case, f) for f in functions):
        return ("refused", 13, 0)
    for k, f in enumerate(functions):
        if f[1] >= 2**32:
            return ("refused", 21, k)
    for k, f in enumerate(functions):
        number = prologue_number(f, reached(case, "codes", f[3], f[4]))
        if number is not None:
            return ("refused", number, k)
    return ("accepted",)


def expected(case):
    if case["entry"] == "seh":
        return seh(case)
    return table(case, case["entry"] == "relaxed_debug_frame")
