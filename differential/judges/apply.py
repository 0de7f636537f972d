"""Relocations applied, by the RISC-V psABI ("Relocations") and the specification, "Relocations applied": the judge of unwind_apply."""

DATA, ADDRESS, PLUS, MINUS, IMAGE = range(5)
WIDTHS = {5: 6, 7: 8, 9: 16, 11: 32}
SIZES = {DATA: (4,), ADDRESS: (2, 4, 8), PLUS: (2, 4, 8), MINUS: (2, 4, 8), IMAGE: (4,)}
SIZES.update({kind + i: (max(1, bits // 8),) for kind, bits in WIDTHS.items() for i in (0, 1)})
TOP = 1 << 64


def signed(n):
    return n - TOP if n >> 63 else n


def apply(data, numbers, listed, section, image, room):
    """The number, and the bytes where it is 0."""
    if room < len(data):
        return 52, None
    relocations = [numbers[i : i + 5] for i in range(0, len(numbers) - 4, 5)]
    address = {}
    for i in range(0, len(listed) - 1, 2):
        address.setdefault(listed[i], listed[i + 1])

    def total(r):
        return address[r[1]] + signed(r[4])

    # What 79 asks of each relocation, and the stores that follow.
    firsts = {PLUS} | set(WIDTHS)
    seconds = {kind + 1 for kind in firsts}
    stores = []
    far = False
    for i, r in enumerate(relocations):
        place, symbol, kind, size, _ = r
        if size not in SIZES.get(kind, ()) or symbol not in address or place + size > len(data):
            return 79, None
        after = relocations[i + 1] if i + 1 < len(relocations) else None
        before = relocations[i - 1] if i else None
        if kind in firsts and (after is None or [after[0], after[2], after[3]] != [place, kind + 1, size]):
            return 79, None
        if kind in seconds and (before is None or [before[0], before[2], before[3]] != [place, kind - 1, size]):
            return 79, None
        if kind in (DATA, ADDRESS, IMAGE, PLUS):
            if kind == PLUS and after[1] not in address:
                return 79, None
            value = total(r) - {DATA: section + place, ADDRESS: 0, IMAGE: image}.get(kind, 0)
            if kind == PLUS:
                value -= total(after)
            low, high = (-(1 << 31), 1 << 31) if kind == DATA else (0, 1 << 8 * size)
            if not low <= value < high:
                return 79, None
            stores.append((place, size, 8 * size, lambda old, v=value: v))
        elif kind in WIDTHS:
            if after[1] not in address:
                return 79, None
            far = far or not 0 <= total(r) - total(after) < 1 << WIDTHS[kind]
            stores.append((place, size, WIDTHS[kind], lambda old, v=total(r): v))
        elif kind - 1 in WIDTHS:
            stores.append((place, size, WIDTHS[kind - 1], lambda old, v=total(r): old - v))
    if far:
        return 80, None
    out = bytearray(data)
    for place, size, bits, new in stores:
        whole = int.from_bytes(out[place : place + size], "little")
        mask = (1 << bits) - 1
        out[place : place + size] = (whole & ~mask | new(whole & mask) & mask).to_bytes(size, "little")
    return 0, bytes(out)
