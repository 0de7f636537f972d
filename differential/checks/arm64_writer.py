"""The writer of ARM64 unwind data, ours (unwind_arm64, by drivers/arm64_writer.c), judges/arm64_writer.py's and the Rust's (xdata.rs, debug and release):
arm64_writer.py COUNT SEED [STEP]. Every packable shape and what is one step from it (every STEP-th), every kind with its smallest and largest operands and
those past them, the boundaries of the record's fields, short and damaged lists, and COUNT random ones. Ours and judges/arm64_writer.py's answers are the same.
Where the Rust's is another, the list must be of a class of docs/DIFFERENCES.md, and each class is found. Where the Rust's harness is not built it is left out."""
import collections
import itertools
import os
import random
import sys

sys.path.insert(0, os.path.dirname(os.path.dirname(os.path.abspath(__file__))))

from common import OUT, ask  # noqa: E402
from judges import arm64_writer as judge  # noqa: E402
from judges.arm64_reader import K, KINDS  # noqa: E402

BUILDS = ("debug/arm64_harness", "release/arm64_harness")
HAS_RUST = all(os.access(os.path.join(OUT, build), os.X_OK) for build in BUILDS)
PACKED = (1 << 64) - 1


def code(name, register=0, offset=0):
    return K[name], register, offset


def one(length, prologue, epilogues, symbol=16):
    """The three lists of one function."""
    codes, ends = list(prologue), []
    for start, run in epilogues:
        ends += [start, len(codes), len(run)]
        codes += run
    return [symbol, length, 0, len(prologue), 0, len(epilogues)], ends, [n for c in codes for n in c]


def many(functions):
    fs, es, cs = [], [], []
    for symbol, (f, e, c) in enumerate(functions, 16):
        fs += [symbol, f[1], len(cs) // 3, f[3], len(es) // 3, f[5]]
        for i in range(0, len(e), 3):
            es += [e[i], e[i + 1] + len(cs) // 3, e[i + 2]]
        cs += c
    return fs, es, cs


def at_end(prologue, run, length=400):
    return one(length, prologue, [(length - 4 * len(run) - 4, run)])


def undone(prologue):
    """The epilogues that undo a prologue: without the setting of the frame pointer, and all."""
    yield [c for c in prologue if KINDS[c[0]] != "SetFp"][::-1]
    yield prologue[::-1]


def saves(regi, lr, vectors, nexts):
    """The saves of a packed prologue, pairs behind the first as such or as SaveNext."""
    size = 8 * regi + 8 * lr + 8 * vectors
    room = (size + 15) // 16 * 16
    out = []
    integers = list(range(19, 19 + regi)) + [30] * lr
    for i in range(0, len(integers), 2):
        pair = integers[i:i + 2]
        if len(pair) == 1:
            out.append(code("RegX", pair[0], room) if i == 0 else code("Reg", pair[0], 8 * i))
        elif pair[1] == 30:
            out.append(code("Lrpair", pair[0], 8 * i) if i else code("Lrpair", pair[0], 0))
        elif i == 0:
            out.append(code("R19R20X", 0, room))
        else:
            out.append(code("SaveNext") if nexts else code("Regp", pair[0], 8 * i))
    at = 8 * len(integers)
    for i in range(0, vectors, 2):
        if i + 1 == vectors:
            out.append(code("Freg", 8 + i, at + 8 * i) if out else code("FregX", 8 + i, room))
        elif not out:
            out.append(code("FregpX", 8, room))
        else:
            out.append(code("SaveNext") if nexts and i else code("Fregp", 8 + i, at + 8 * i))
    return out


TAILS = [
    [], [code("Alloc", 0, 16)], [code("Alloc", 0, 4080)], [code("Alloc", 0, 4096)], [code("Alloc", 0, 0)], [code("Alloc", 0, 4080), code("Alloc", 0, 16)],
    [code("Alloc", 0, 4080), code("Alloc", 0, 4080)], [code("Alloc", 0, 16), code("Alloc", 0, 16)], [code("Alloc", 0, 4080), code("Alloc", 0, 0)],
    [code("Alloc", 0, 8176)], [code("Alloc", 0, 8160)],
    [code("FplrX", 0, 16), code("SetFp")], [code("FplrX", 0, 512), code("SetFp")], [code("FplrX", 0, 8), code("SetFp")], [code("FplrX", 0, 16)],
    [code("RegpX", 29, 16), code("AddFp")], [code("FplrX", 0, 16), code("AddFp", 0, 8)],
    [code("Alloc", 0, 528), code("Fplr"), code("SetFp")], [code("Alloc", 0, 512), code("Fplr"), code("SetFp")],
    [code("Alloc", 0, 4080), code("Alloc", 0, 32), code("Fplr"), code("SetFp")], [code("Alloc", 0, 528), code("Fplr", 0, 16), code("SetFp")],
    [code("Alloc", 0, 4096), code("Fplr"), code("SetFp")], [code("Alloc", 0, 16), code("Fplr"), code("SetFp")], [code("Alloc", 0, 528), code("Regp", 29), code("SetFp")],
]


def shapes():
    """Every packable shape: signing, integer registers, lr, vector registers, what takes the locals; and homes."""
    for sign, regi, lr, vectors, nexts in itertools.product(range(2), range(13), range(2), range(11), range(2)):
        for homes in (0, 4):
            for tail in TAILS if homes == 0 else TAILS[:2]:
                prologue = [code("PacSignLr")] * sign + saves(regi, lr, vectors, nexts) + [code("Nop")] * homes + tail
                for run in {tuple(run) for run in undone(prologue)}:
                    yield at_end(prologue, list(run))


def small():
    """Every prologue of up to three codes of a small alphabet, undone in the two ways."""
    alphabet = [
        code("Alloc", 0, 0), code("Alloc", 0, 16), code("Alloc", 0, 4080), code("Alloc", 0, 8176), code("R19R20X", 0, 16), code("R19R20X", 0, 32),
        code("Fplr"), code("Fplr", 0, 16), code("FplrX", 0, 16), code("Regp", 21, 16), code("Regp", 19, 0), code("RegpX", 19, 32), code("RegpX", 21, 16),
        code("Reg", 21, 16), code("Reg", 30, 16), code("RegX", 19, 16), code("RegX", 19, 32), code("RegX", 30, 16), code("Lrpair", 21, 16), code("Lrpair", 19),
        code("Fregp", 8, 8), code("Fregp", 8, 16), code("Fregp", 10, 16), code("FregpX", 8, 16), code("FregpX", 8, 32), code("Freg", 10, 16), code("Freg", 8, 16),
        code("FregX", 8, 16), code("SetFp"), code("AddFp"), code("AddFp", 0, 16), code("Nop"), code("SaveNext"), code("PacSignLr"), code("Alloc", 0, 528),
    ]
    for n in range(4):
        for prologue in itertools.product(alphabet, repeat=n):
            for run in {tuple(run) for run in undone(list(prologue))}:
                yield at_end(list(prologue), list(run))


def kinds():
    """Each kind with operands at and past the ends of its fields; a value that the Rust cannot be handed is refused by it."""
    offsets = (0, 8, 4, 15, 16, 240, 248, 256, 264, 496, 504, 512, 520, 2032, 2040, 2048, 32752, 32768, 268435440, 268435456, 4294967288, 1 << 32, (1 << 64) - 8)
    registers = (0, 7, 8, 14, 15, 16, 18, 19, 20, 27, 28, 29, 30, 31, 255, 256)
    for name in KINDS:
        for register in registers if name in judge.REGISTERS else (0, 19):
            for offset in offsets if name in judge.OFFSETS else (0, 8):
                yield one(400, [code(name, register, offset)], [])
                yield one(400, [], [(200, [code(name, register, offset)])])
    yield one(400, [(18, 0, 0)], [])


def pairs():
    """Pairs behind one another, and where the source counts a register past its type."""
    for first, second in itertools.product(range(19, 31), range(19, 33)):
        for a, b in ((0, 16), (0, 8), (488, 504), (496, 512), (504, 520), (16, 0)):
            yield at_end([code("Regp", first, a), code("Regp", second, b)], [])
            yield at_end([code("RegpX", first, 64), code("Regp", second, b)], [code("Regp", second, b), code("RegpX", first, 64)])
    for n in (1, 4, 5, 30):
        yield at_end([code("RegpX", 19, 256)] + [code("SaveNext")] * n + [code("Regp", 21 + 2 * n, 16 * n + 16)], [])
    for n in (116, 117, 118, 119, 130, 200):
        yield at_end([code("RegpX", 19, 256)] + [code("SaveNext")] * n, [])
        yield at_end([code("RegpX", 20, 256)] + [code("SaveNext")] * n + [code("Regp", 19, 16)], [])


def boundaries():
    nop, sign = code("Nop"), code("PacSignLr")
    for length in (0, 2, 4, 8, 8188, 8192, 1048572, 1048576, 1048574, 1 << 40, (1 << 64) - 4):
        prologue = [code("FplrX", 0, 16), code("SetFp")]
        yield one(length, prologue, [])
        if length >= 8:
            yield one(length, prologue, [(length - 8, [code("FplrX", 0, 16)])])
            yield one(length, prologue, [(length - 4, [code("FplrX", 0, 16)])])
        yield one(length, prologue, [(length, [])])
        yield one(length, [], [(length - 4, [])] if length >= 4 else [])
    for start in (0, 1, 2, 3, 4, 396, 398, 400, 404, (1 << 64) - 4):
        yield one(400, [nop], [(start, [nop])])
    for count in (0, 1, 2, 30, 31, 32, 33, 100, 65535, 65536):
        for run in ([], [nop], [sign]):
            yield one(262140, [nop] * 3, [(4 * (i % 1000), run) for i in range(count)])
    # Code bytes at 124 and 125, 1,020 and 1,021: in the prologue, in an epilogue's own run, in many.
    for n in [*range(25, 36), *range(118, 129), *range(1015, 1026)]:
        yield one(40000, [nop] * n, [])
        yield at_end([nop] * n, [], 40000)
        yield at_end([nop] * n, [sign], 40000)
        yield at_end([nop] * n, [sign, nop], 40000)
        yield at_end([nop] * n, [nop] * (n - 1), 40000)
        yield at_end([sign], [nop] * n, 40000)
        yield one(40000, [nop] * n, [(8, [nop] * 2), (16, [sign]), (24, [sign])])
        yield one(40000, [nop] * n, [(4 * i, [sign] + [nop] * i) for i in range(9)])
    for n in range(29, 35):
        yield at_end([sign] + [nop] * n, [sign], 4000)
        yield at_end([sign, code("Reg", 19, 8)] + [nop] * n, [sign], 4000)
        yield at_end([sign, code("Alloc", 0, 32768)] + [nop] * n, [code("Alloc", 0, 32768), sign], 4000)
    for n in range(300, 520, 17):
        yield one(40000, [nop] * 3, [(4 * i, [sign] + [nop] * (i % 50)) for i in range(n)])


def known():
    """The smallest list of each class of differences from the Rust (docs/DIFFERENCES.md)."""
    for prologue, run in (
        ([code("FplrX", 0, 16), code("SetFp")], [code("SetFp"), code("FplrX", 0, 16)]), ([code("Alloc")], [code("Alloc")]),
        ([code("Alloc", 0, 4096)], [code("Alloc", 0, 4096)]), ([code("Alloc", 0, 16), code("Fplr"), code("SetFp")], [code("Fplr"), code("Alloc", 0, 16)]),
        ([code("RegX", 19, 32), code("SaveNext")], [code("SaveNext"), code("RegX", 19, 32)]), ([code("Regp", 28, 0), code("Regp", 30, 16)], []),
        ([code("RegpX", 19, 256)] + [code("SaveNext")] * 119, []),
    ):
        yield at_end(prologue, run)


def short():
    """Two functions, every list cut at every length, and each number in turn another one."""
    lists = many([at_end([code("R19R20X", 0, 32), code("Regp", 21, 16)], [code("Reg", 21, 16), code("Nop")]), one(8, [code("Alloc", 0, 16)], [(0, [code("SaveNext")])])])
    for cut in itertools.product(*(range(len(numbers) + 1) for numbers in lists)):
        yield tuple(numbers[:n] for numbers, n in zip(lists, cut))
    for which, numbers in enumerate(lists):
        for at in range(len(numbers)):
            for other in (0, 1, 2, 3, 4, 5, 8, 13, 15, 16, 17, 18, 19, 29, 30, 400, 1 << 18, 1 << 20, (1 << 20) + 1, (1 << 32) - 1, 1 << 32, (1 << 64) - 3, (1 << 64) - 1):
                yield tuple(part[:at] + [other] + part[at + 1:] if i == which else part for i, part in enumerate(lists))


def limits():
    """Question 13's limits on functions, epilogues and codes; functions share their records."""
    def shared(count, codes, ends, last):
        return [n for k in range(count) for n in (16 + k, 262140, 0, codes, 0, ends)] + [15 + (1 << 20), 400, 0, last if codes else 0, 0, last if ends else 0]

    for past in range(2):
        yield [n for k in range(65536 + past) for n in (16 + k, 8, 0, 0, 0, 0)], [], []
        yield shared(16, 0, 65535, 16 + past), [4, 0, 0] * 65535, []
        yield shared(1048, 1000, 0, 576 + past), [], [*code("Nop")] * 1000
        yield [16, 400, 0, 0, 0, 1024 + past], [4, 0, 1024] * (1024 + past), [*code("Nop")] * 1024


def some_code(chance):
    name = chance.choice(KINDS)
    register = chance.choice(judge.REGISTERS[name]) if name in judge.REGISTERS else 0
    offset = 8 * chance.randrange(chance.choice([3, 30, 64])) + (8 if name.endswith("X") else 0) if name in judge.OFFSETS else 0
    return code(name, register, 2 * offset if name == "Alloc" else offset)


def wild(count, chance):
    shaped = list(itertools.islice(shapes(), 0, None, 97))
    for _ in range(count):
        functions = []
        for _ in range(chance.choice([0, 1, 1, 2, 4])):
            if chance.randrange(3) == 0:
                functions.append(chance.choice(shaped))
                continue
            pool = [some_code(chance) for _ in range(chance.randrange(1, 7))]
            prologue = [chance.choice(pool) for _ in range(chance.choice([0, 1, 3, 8, 40]))]
            runs = [prologue[:chance.randrange(len(prologue) + 1)][::-1] for _ in range(2)]
            runs += [[chance.choice(pool) for _ in range(chance.randrange(6))] for _ in range(2)]
            length = 4 * chance.choice([1, 20, 100, 3000, 262143])
            ends = [(4 * chance.randrange(length // 4), chance.choice(runs)) for _ in range(chance.choice([0, 1, 2, 5, 31, 40]))]
            if chance.randrange(3) == 0:
                run = chance.choice(runs)
                ends = [(max(0, length - 4 * len(run) - 4), run)]
            functions.append(one(length, prologue, ends))
        lists = [list(numbers) for numbers in many(functions)]
        while chance.randrange(3) == 0 and any(lists):
            numbers = chance.choice([numbers for numbers in lists if numbers])
            numbers[chance.randrange(len(numbers))] = chance.choice([0, 1, 3, 4, 17, 18, 19, 29, 1 << 18, 1 << 20, (1 << 20) + 4, (1 << 32) - 1, 1 << 32, (1 << 64) - 1])
        while chance.randrange(8) == 0 and any(lists):
            chance.choice([numbers for numbers in lists if numbers]).pop()
        yield tuple(lists)


def asked(program, cases):
    return ask(program, (";".join(" ".join(map(str, part)) for part in case) for case in cases))


def parsed(answer):
    """What was made, or None."""
    if not answer.startswith("ok"):
        return None
    markers, rows, relocations, info = answer[2:].split("|")
    return [int(n) for n in markers.split()], bytes.fromhex(rows), [int(n) for n in relocations.split()], bytes.fromhex(info)


def why_not_packed(prologue, epilogue):
    """The class of a list that the source packs and that no packed word means."""
    names = [KINDS[kind] for kind, _, _ in prologue]
    allocs = [offset for kind, _, offset in prologue if KINDS[kind] == "Alloc"]
    if "SetFp" in [KINDS[kind] for kind, _, _ in epilogue]:
        return "the epilogue undoes SetFp"
    if 0 in allocs:
        return "an allocation of 0"
    if any(size > 4080 for size in allocs):
        return "one allocation above 4,080"
    if "Fplr" in names and sum(allocs) <= 512:
        return "an allocation to 512 and then Fplr"
    for i, name in enumerate(names):
        if name == "SaveNext" and names[i - 1] not in ("R19R20X", "RegpX", "Regp", "Fregp", "FregpX", "SaveNext") or names[:1] == ["SaveNext"]:
            return "a SaveNext behind no pair"
    return None


def refusal(answer):
    """The number of the question that a refusal of the Rust is about."""
    why = answer.split(": ", 1)[1]
    return 81 if why.startswith("a function") else 82 if why.startswith("an epilogue at byte") else 83


def differences_in(case, wanted, made):
    """The classes of a difference; nothing where it has none."""
    if wanted[0] == 83:
        return {"a register that its kind cannot name, made a SaveNext"}
    classes = set()
    for k, (_, _, prologue, epilogues) in enumerate(judge.taken(*case)):
        if (wanted[1][k] == PACKED) == (made[0][k] == PACKED):
            continue
        if made[0][k] != PACKED or len(epilogues) != 1:
            return set()
        classes.add(why_not_packed(judge.simplified(prologue), judge.simplified(epilogues[0][1][::-1])))
    return set() if None in classes else classes


def long_enough(case):
    """The same function, too long to be packed."""
    functions, ends, codes = (list(part) for part in case)
    functions[1] += 8192
    ends[0] += 8192
    return functions, ends, codes


def judged(name, cases):
    """What judges/arm64_writer.py makes of each list, and ours too."""
    answers = []
    for case, ours in zip(cases, asked("arm64_writer", cases), strict=True):
        # An empty list is the empty result before any question.
        wanted = judge.write(*case) if len(case[0]) >= 6 else (0, [], b"", [], b"")
        if (parsed(ours) != wanted[1:] if wanted[0] == 0 else ours != f"no {wanted[0]} 0"):
            sys.exit(f"arm64_writer: {name}: {str(case)[:2000]}\n  ours   {ours[:2000]}\n  judged {str(wanted)[:2000]}")
        answers.append(wanted)
    return answers


def compare(name, cases, answers):
    """The classes of differences between the Rust's answers and these, each with its smallest list; how often the debug build overflows."""
    differences, overflows, instead = {}, 0, []
    for case, wanted, of_debug, of_release in zip(cases, answers, *(asked(build, cases) for build in BUILDS), strict=True):
        if of_debug != of_release:
            if "overflow" not in of_debug:
                sys.exit(f"arm64_writer: {name}: {case}\n  debug {of_debug}\n  release {of_release}")
            overflows += 1
        made = parsed(of_release)
        if wanted[0] == 13 or made == wanted[1:] or wanted[0] and of_release.startswith("cannot"):
            # The Rust has no question 13, and is not handed numbers that its types do not hold.
            continue
        if made is None and of_release.startswith("no ") and refusal(of_release) == wanted[0]:
            continue
        classes = made and differences_in(case, wanted, made)
        if not classes:
            sys.exit(f"arm64_writer: {name}: {case}\n  rust   {of_release}\n  judged {wanted}")
        for what in classes:
            keep_smallest(differences, what, case)
        if wanted[0] == 0 and len(case[0]) == 6:
            instead.append((case, wanted))
    # What is written in full instead is what the Rust writes of a longer function, but for the length.
    longer = [long_enough(case) for case, _ in instead]
    for (case, wanted), answer in zip(instead, asked(BUILDS[1], longer), strict=True):
        made = parsed(answer)
        if made is None or made[0] != wanted[1] or made[3][3:] != wanted[4][3:] or int.from_bytes(made[3][:3], "little") - 2048 != int.from_bytes(wanted[4][:3], "little"):
            sys.exit(f"arm64_writer: {name}: {case}\n  longer {answer}\n  judged {wanted}")
    return differences, overflows


def keep_smallest(found, what, case):
    if what not in found or len(str(case)) < len(str(found[what])):
        found[what] = case


def main():
    count, chance = int(sys.argv[1]), random.Random(f"arm64_writes {sys.argv[2]}")
    step = int(sys.argv[3]) if len(sys.argv) > 3 else 1
    found = {}
    runs = (
        ("known", known()), ("shapes", itertools.islice(shapes(), 0, None, step)), ("small", itertools.islice(small(), 0, None, step)), ("kinds", kinds()),
        ("pairs", pairs()), ("boundaries", boundaries()), ("short", short()), ("limits", limits()), ("random", wild(count, chance)),
    )
    for name, cases in runs:
        cases = list(cases)
        answers = judged(name, cases)
        numbers, packed = collections.Counter(wanted[0] for wanted in answers), sum(place == PACKED for wanted in answers for place in wanted[1])
        text = f"arm64_writer: {name}: {len(cases)} lists, {packed} packed, numbers {dict(sorted(numbers.items()))}"
        if HAS_RUST:
            differences, overflows = compare(name, cases, answers)
            text += f", {overflows} overflows of the debug build"
            for what, case in differences.items():
                keep_smallest(found, what, case)
        print(text)
    if not HAS_RUST:
        print("arm64_writer: the Rust was left out, since its harness isn't built")
        return
    for what, case in sorted(found.items()):
        print(f"arm64_writer: differs: {what}: {case}")
    if len(found) != 6:
        sys.exit(f"arm64_writer: {len(found)} classes of differences, and not 6")


if __name__ == "__main__":
    main()
