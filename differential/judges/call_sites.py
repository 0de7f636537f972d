"""A reader of call sites, by the Itanium C++ ABI's exception handling tables ("LSDA") alone: the judge of unwind_call_site."""

OMIT, ULEB128 = 0xFF, 0x01
HEAD = bytes([OMIT, OMIT, ULEB128])


class Refused(Exception):
    pass


def unsigned(bytes_, at, number, spelled=None):
    """The unsigned LEB number at a position, of ten bytes and 64 bits at most, and the position past it. `spelled` takes whether its last
    byte is needed."""
    value = 0
    for i, byte in enumerate(bytes_[at : at + 10]):
        value |= (byte & 127) << 7 * i
        if byte < 128:
            if value >> 64:
                raise Refused(number)
            if spelled is not None:
                spelled.append(i == 0 or byte != 0)
            return value, at + i + 1
    raise Refused(number)


def entries(sites, place, spelled=None):
    """The entries of the table at a place: start, length and pad."""
    if place >= len(sites) or sites[place : place + 3] != HEAD:
        raise Refused(71)
    length, at = unsigned(sites, place + 3, 71, spelled)
    if at + length > len(sites):
        raise Refused(71)
    table, at, found = sites[at : at + length], 0, []
    while at < len(table):
        numbers = []
        for _ in range(4):
            value, at = unsigned(table, at, 72, spelled)
            numbers.append(value)
        if numbers[0] + numbers[1] >> 64:
            raise Refused(72)
        found.append(numbers[:3])
    return found


def answer(sites, place, offset):
    """The first entry that covers the offset, and whether every number of the table is spelled shortest."""
    spelled = []
    try:
        found = entries(sites, place, spelled)
    except Refused as no:
        return [no.args[0], 0, 0, 0, 0, 0]
    return [*next(([0, 1, *e] for e in found if e[0] <= offset < e[0] + e[1]), [0, 0, 0, 0, 0]), int(all(spelled))]
