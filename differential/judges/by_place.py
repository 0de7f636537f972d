"""The reader by places: fields by judges/reader.py, addresses by the LSB: the judge of locating, rules, lines, the index, functions and holders."""

from judges.reader import DEBUG, EH, Bytes, Refused, Walk, entries, header_fields, header_of, record_fields, second

NOWHERE = 2**64 - 1
BEFORE = 0x5A5A5A5A5A5A5A5A
MARK = {EH: 0, DEBUG: 0xFFFFFFFF}


def asked(kind, word):
    if word not in (2, 4, 8) or kind not in (EH, DEBUG):
        raise Refused(11)


def entry_at(section, at):
    size = int.from_bytes(section[at : at + 4], "little")
    if at + 4 > len(section) or size < 4 or at + 4 + size > len(section):
        raise Refused(64)
    return at, section[at + 4 : at + 4 + size]


def fields(kind, word, header, record):
    spelled = []
    pointer, first = header_fields(header[1], kind, word, spelled)
    length, rest = record_fields(record[1], kind, word, pointer, spelled)
    ends = [at + 4 + len(body) for at, body in (header, record)]
    text = header[1][5 : header[1].index(0, 5)]
    signal = int(text.endswith(b"S"))
    return [0, ends[0] - len(first), ends[0], ends[1] - len(rest), ends[1], length, pointer, signal, word, int(all(spelled))]


def records_of(section, kind):
    found = entries(section)
    headers = {at: (at, body) for at, body in found if second(body) == MARK[kind]}
    return [entry for entry in found if second(entry[1]) != MARK[kind]], headers


def locate(section, relocations, kind, word, k):
    asked(kind, word)
    records, headers = records_of(section, kind)
    if k >= len(records):
        raise Refused(62)
    return fields(kind, word, header_of(records[k], headers, relocations, kind), records[k])


def index(section, relocations, kind, word, room):
    asked(kind, word)
    records, headers = records_of(section, kind)
    numbers = []
    for record in records:
        try:
            numbers += [record[0], header_of(record, headers, relocations, kind)[0]]
        except Refused:
            numbers += [record[0], NOWHERE]
    if len(numbers) > room:
        raise Refused(54)
    return [0, len(records)] + numbers + [BEFORE] * (room + 1 - len(numbers))


def at(section, relocations, kind, word, record, header):
    asked(kind, word)
    if header >= record:
        raise Refused(63)
    return fields(kind, word, entry_at(section, header), entry_at(section, record))


def function_of(record, kind, word, address):
    b = Bytes(record[1], 64)
    b.take(4)
    if kind == DEBUG:
        return b.field(word), b.field(word)
    distance = int.from_bytes(b.take(4), "little", signed=True)
    return (address + record[0] + 8 + distance) % 2 ** (8 * word), b.field(4)


def function(section, relocations, kind, word, address, place):
    asked(kind, word)
    record = entry_at(section, place)
    if second(record[1]) == MARK[kind]:
        raise Refused(64)
    return [0, *function_of(record, kind, word, address)]


def holder(section, relocations, kind, word, address, pc):
    asked(kind, word)
    for k, record in enumerate(records_of(section, kind)[0]):
        try:
            start, length = function_of(record, kind, word, address)
        except Refused:
            continue
        if start <= pc < start + length:
            return [0, k, record[0]]
    raise Refused(62)


def entries_of(section, relocations, kind, word, address, pc):
    _, k, place = holder(section, relocations, kind, word, address, pc)
    records, headers = records_of(section, kind)
    return [0, k, place, header_of(records[k], headers, relocations, kind)[0]]


def all_rules(readings, room):
    """The rules of registers 0, 1, .. by a reading of each."""
    if readings[0][0]:
        return [readings[0][0]] + [0] * 6 + [BEFORE] * (room + 1)
    rules = [number for reading in readings[: room // 2] for number in reading[4:6]]
    return [0, *readings[0][1:4], *readings[0][6:8], room // 2] + rules + [BEFORE] * (room + 1 - len(rules))


def along(section, register, room, located):
    """The lines of a record in one run; what ended them is an answer."""
    number, header, header_end, record, record_end, _, _, _, word, _ = located
    if number:
        raise Refused(number)
    if not (header <= header_end <= len(section) and record <= record_end <= len(section) and word in (2, 4, 8)):
        raise Refused(64)
    if room < 7 * (record_end - record + 1):
        raise Refused(54)
    walk, place, ending, numbers = Walk(word, register, NOWHERE), 0, (0, 0), []

    def line():
        frame = [0, 0, 0] if walk.frame is None else [1, walk.frame[0], walk.frame[1] % 2**64]
        return [place, *frame, walk.rule[0], walk.rule[1] % 2**64, walk.signing]

    try:
        walk.operations(section[header:header_end], True)
        walk.initial = walk.rule
        data = Bytes(section[record:record_end], 66)
        while data.at < record_end - record:
            step = walk.operation(data, False)
            if step:
                numbers += line()
                place += step
        numbers += line()
    except Refused as no:
        ending = (no.number, place)
    return [0, len(numbers) // 7, *ending] + numbers + [BEFORE] * (room + 1 - len(numbers))


JUDGES = {"locate": (locate, 9), "at": (at, 9), "function": (function, 2), "holder": (holder, 2), "entries": (entries_of, 3)}


def expected(section, relocations, question):
    key, *words = question
    try:
        if key == "rules":
            return None
        if key == "index":
            return index(section, relocations, *words)
        return JUDGES[key][0](section, relocations, *words)
    except Refused as no:
        if key == "index":
            return [no.number, 0] + [BEFORE] * (words[2] + 1)
        return [no.number] + [0] * JUDGES[key][1]
