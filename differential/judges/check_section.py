"""The check of an eh_frame section: every record read by judges/reader.py: the judge of unwind_check_section."""

from judges.reader import EH, Refused, Walk, entries, header_fields, header_of, read, record_fields, second

REGISTERS = (0, 6)
EVERY = 64


def length_of(body):
    return int.from_bytes(body[8:12], "little") if len(body) >= 12 else None


def offsets(size, rng):
    if size <= EVERY:
        return range(size)
    return {0, size - 1, *(rng.randrange(size) for _ in range(4))}


def fails(record, headers, word, rng):
    """The number that the reader refuses record's entry by, 0 where it always answers; 84 where its length is not inside."""
    size = length_of(record[1])
    if size is None:
        return 84
    for p in offsets(size, rng):
        for register in REGISTERS:
            try:
                lsda, first = header_fields(header_of(record, headers, [], EH), EH, word)
                read_size, rest = record_fields(record[1], EH, word, lsda)
                assert read_size == size
                walk = Walk(word, register, p)
                walk.operations(first, True)
                walk.initial = walk.rule
                walk.operations(rest, False)
            except Refused as no:
                return no.number
    return 0


def judged(section, word, rng):
    """What is answered, and the failing records with their numbers."""
    if word not in (2, 4, 8):
        return [11, 0], []
    try:
        found = entries(section)
    except Refused:
        return [61, 0], []
    records = [entry for entry in found if second(entry[1]) != 0]
    headers = {at: body for at, body in found if second(body) == 0}
    failing = [(k, no) for k, no in ((k, fails(record, headers, word, rng)) for k, record in enumerate(records)) if no]
    return ([84, failing[0][0]] if failing else [0, 0]), failing


def by_reads(section, word):
    """The same by whole calls of the judge's `read`, for a few small sections."""
    if word not in (2, 4, 8):
        return [11, 0]
    try:
        found = entries(section)
    except Refused:
        return [61, 0]
    for k, (_, body) in enumerate(entry for entry in found if second(entry[1]) != 0):
        size = length_of(body)
        if size is None or any(read(section, [], EH, word, k, 0, p)[0] for p in range(min(size, 300))):
            return [84, k]
    return [0, 0]
