"""unwind_read_arm64 against judges/arm64_reader.py: arm64_reader.py COUNT SEED. Every record of a header and up to two bytes of codes, COUNT random records and
as many damaged ones, and packed words: every one of some classes, and COUNT of the others."""
import itertools
import os
import random
import sys

sys.path.insert(0, os.path.dirname(os.path.dirname(os.path.abspath(__file__))))

from common import ask  # noqa: E402
from judges import arm64_reader as judge  # noqa: E402

count, seed = int(sys.argv[1]), int(sys.argv[2])
chance = random.Random(seed)


def word(n):
    return n.to_bytes(4, "little")


def packed(flag, length, regf, regi, home, cr, frame):
    return flag | length << 2 | regf << 13 | regi << 16 | home << 20 | cr << 21 | frame << 23


def short():
    """Every first and second byte of the codes, with an end behind them, in each of the forms; short byte lists."""
    for first in range(256):
        for second in (0x00, 0x3f, 0x40, 0x7f, 0x80, 0xc8, 0xdf, 0xe1, 0xe4, 0xff):
            codes = bytes([first, second, 0xe4, 0xe4, 0xe4, 0xe3, 0xe3, 0xe3])
            yield 0, word(40 | 2 << 27) + codes, 0
            yield 0, word(40 | 1 << 21 | 1 << 22 | 2 << 27) + codes, 0
            yield 0, word(40 | 1 << 22 | 1 << 27) + word(5 | 1 << 22) + codes[:4], 0
    for header in (word(9 | 1 << 27), word(9 | 1 << 21 | 1 << 27), word(9), word(9 | 1 << 18 | 1 << 27), word(9 | 1 << 20 | 1 << 27)):
        for size in range(8):
            for codes in itertools.product((0xe4, 0xe3, 0xc8, 0x00, 0xdf), repeat=min(size, 4)):
                yield 0, header + bytes(codes) + bytes(max(0, size - 4)), 0
    for size in range(4):
        for data in itertools.product((0, 1, 0xe4, 0xff), repeat=size):
            yield 0, bytes(data), chance.randrange(5)


def code():
    return chance.choice([[chance.randrange(192)], [chance.randrange(0xc0, 0xdf), chance.randrange(256)],
                          [0xe0] + [chance.randrange(256) for _ in range(3)], [0xe1], [0xe2, chance.randrange(256)], [0xe3], [0xe6], [0xfc]])


def record():
    """A sound record: runs of codes, and epilogues that start at the front of a code."""
    codes, fronts = b"", [0]
    for _ in range(chance.randrange(1, 5)):
        for _ in range(chance.randrange(chance.choice([2, 9, 60]))):
            codes += bytes(code())
            fronts.append(len(codes))
        codes += b"\xe4"
        fronts.append(len(codes))
    fronts.pop()
    codes += b"\xe3" * (-len(codes) % 4)
    fronts = [front for front in fronts if front < 1024]
    words = len(codes) // 4
    handler, single = chance.randrange(2), chance.randrange(2)
    many = 0 if single else chance.choice([0, 1, 2, 5, 31, 40])
    length = chance.choice([1, 9, 100, 262143])
    count = chance.choice(fronts) if single else many
    head = length | handler << 20 | single << 21
    if count < 32 and words < 32 and (count or words) and chance.randrange(4):
        data = word(head | count << 22 | words << 27)
    else:
        data = word(head) + word(count & 0xffff | (words & 255) << 16 | chance.randrange(256) << 24)
    for _ in range(many):
        data += word(chance.randrange(1 << 18) | chance.randrange(16) << 18 | chance.choice(fronts) << 22)
    return data + codes + bytes(chance.randrange(256) for _ in range(4 * handler))


def full():
    for _ in range(count):
        front = bytes(chance.randrange(256) for _ in range(chance.randrange(5)))
        data = front + record()
        yield 4 * chance.randrange(1 << 40), data, len(front)
        broken = bytearray(data)
        for _ in range(chance.randrange(1, 4)):
            broken[chance.randrange(len(broken))] = chance.randrange(256)
        yield 0, bytes(broken), len(front)
        yield 0, data[:chance.randrange(len(data) + 1)], chance.choice([len(front), len(front), 0, len(data), 2 ** 64 - 1])


def words():
    for regf, regi, home, cr in itertools.product(range(8), range(16), range(2), range(4)):
        for frame in (0, 1, 2, 5, 10, 14, 40, 46, 255, 270, 300, 511):
            yield packed(chance.choice([1, 2]), chance.choice([1, 10, 2047]), regf, regi, home, cr, frame), b"", 0
    for frame in range(512):
        for cr in range(4):
            yield packed(1, 30, 1, 3, 0, cr, frame), b"", 0
    for length in range(2048):
        yield packed(1, length, 2, 5, 0, 3, 30), b"", 0
    for _ in range(count):
        yield chance.randrange(1 << chance.choice([32, 32, 32, 64])), b"", chance.randrange(3)


cases, lines, wanted = 0, [], []
for entry, info, place in itertools.chain(short(), full(), words()):
    answer = judge.read(entry, info, place)
    epilogues, codes = 3 * len(answer[3]), 3 * len(answer[2]) + 3 * sum(len(run) for _, run in answer[3])
    for es, cs in {(epilogues + 2, codes + 4), (epilogues, codes), (max(0, epilogues - 1), codes), (epilogues, max(0, codes - 1))}:
        lines.append(f"{entry} {place} {es} {cs} {info.hex() or '-'}")
        wanted.append(judge.numbers(answer, es, cs))
out = ask("arm64_reader", lines)
if len(out) != len(lines):
    sys.exit(f"arm64_reader: {len(out)} answers to {len(lines)} cases")
for line, want, got in zip(lines, wanted, out):
    parts = [[int(n) for n in part.split()] for part in got.split("|")]
    if parts != [list(part) for part in want]:
        sys.exit(f"arm64_reader: {line}\n  ours   {parts}\n  judged {want}")
numbers = sorted({want[0][0] for want in wanted})
print(f"arm64_reader: {len(lines)} cases, answers as judged; numbers {numbers}")
