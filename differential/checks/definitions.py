#!/usr/bin/env python3
"""The definitions of crates/format, computed on the stored cases and compared with the Rust's answers.

Writes a copy of the crate, outside the repository, whose only proof file states, for each case, that the definition's answer is the
expected one, and has `rt check` compute both sides. The expected answer is the Rust's (expected/), by number where it refuses; where the library differs on
purpose it is that of rust/differences.txt. A case whose answer differs in bytes on purpose is left out there by the word `other`."""

import os
import re
import shutil
import subprocess
import sys
import tempfile

sys.path.insert(0, os.path.dirname(os.path.dirname(os.path.abspath(__file__))))

from common import HERE, OUT, ROOT  # noqa: E402
from judges.questions import mach_o  # noqa: E402

CRATE = os.path.join(ROOT, "crates", "format")
X86_64 = [8, 8, 7, 16, 6, 0, 0, 2, 1, 3, 6, 7, 5, 4, *range(8, 16), 255, *range(128, 144), *[255] * 31]
LISTS = ("machine", "functions", "rows", "landings", "pairs", "codes")
WRITERS = ("Prelude", "Leb", "Machine", "Rows", "Lists", "Headers", "CallSites", "Records", "X64", "Questions", "Writer")
# The words of the source's errors, and the number of the question.
REFUSALS = {
    "established before the frame": 31, "walked a page at a time": 32, "prologue row this cannot read": 33,
    "under DWARF number": 34, "can count in a byte": 35, "not a whole number of slots": 36,
    "larger than a record can say": 37, "below its own frame": 38, "further than a record reaches": 39,
    "unwind slots, more than": 40, "up, which a record cannot say": 41,
}


def lines(path):
    with open(path) as file:
        return [line.rstrip("\n") for line in file if not line.startswith("#")]


def two_complement(key, at, n):
    return n if n >= 0 else n + (2**32 if key == "rows" and at % 4 == 3 else 2**64)


def cases(path):
    return parse(lines(path))


def parse(text):
    found = []
    for line in filter(None, (line.strip() for line in text if not line.startswith("#"))):
        key, *words = line.split()
        if key == "case":
            found.append({"name": words[0], "format": 0, **{key: [] for key in LISTS}})
        elif key == "machine" and words == ["x86_64"]:
            found[-1]["machine"] = list(X86_64)
        elif key in LISTS:
            found[-1][key] += [int(word, 0) for word in words]
        elif key == "format":
            found[-1]["format"] = int(words[0], 0)
        elif key != "end":
            found[-1][key] = words[0]
    for case in found:
        for key in LISTS:
            case[key] = [two_complement(key, at, n) for at, n in enumerate(case[key])]
    return found


def by_case(said):
    """Answers by the case's name, as lists of lines."""
    found = {}
    for line in said:
        if line.startswith("case "):
            now = found.setdefault(line[5:], [])
        elif found and not line.startswith("#"):
            now.append(line)
    return found


def answers():
    """The Rust's stored answers, those of the release build."""
    folder = os.path.join(HERE, "expected")
    names = [name for name in sorted(os.listdir(folder)) if not name.endswith(".debug.txt") and not name.startswith("macho.")]
    return by_case(line for name in names for line in lines(os.path.join(folder, name)))


def ours():
    return {words[0]: words[1:] for words in map(str.split, lines(os.path.join(HERE, "rust", "differences.txt"))) if words}


def refusal(case, line):
    symbol, text = re.match(r"refused s(\d+): (.*)", line).groups()
    stride = 5 if case["entry"] == "seh" else 18
    number = next(number for words, number in REFUSALS.items() if words in text)
    return [[number, case["functions"][0::stride].index(int(symbol))]]


def expected(case, said, differs):
    """What the definition must give, as lists of numbers; None where it is not compared."""
    if differs:
        return None if differs == ["other"] else [[int(word) for word in differs]]
    if said[0] == "empty":
        return []
    if said[0].startswith("refused"):
        return refusal(case, said[0])
    if said[0] != "accepted":
        sys.exit(f"{case['name']}: the Rust says '{said[0]}', and rust/differences.txt has no answer of the library's")
    field = {line.split(" ")[0]: line.split(" ")[1:] for line in said}
    return [
        [int(n) for n in field["places"]], list(bytes.fromhex("".join(field["bytes"]))),
        [int(n) for n in field["relocations"]], list(bytes.fromhex("".join(field["sites"]))),
    ]


def numbers(ns):
    return " ∷ ".join([*map(str, ns), "[]"])


def term(case):
    room = "(record { places = 100000; bytes = 1000000; relocations = 1000000; sites = 1000000 })"
    if case["entry"] == "seh":
        return f"seh ({numbers(case['functions'])}) ({numbers(case['codes'])}) {room}"
    given = "; ".join(f"{key} = {numbers(case[key])}" for key in LISTS[:5])
    return f"{case['entry']} {case['format']} (record {{ {given} }}) {room}"


def unfoldable(module):
    with open(os.path.join(CRATE, "specs", module + ".antt")) as file:
        return re.findall(r"^unfoldable pub (\S+)", file.read(), re.M)


def text(claims):
    names = {module: unfoldable(module) for module in WRITERS}
    head = [
        "use Rattle.std.proofs.Common.{◌≡◌, refl, ℕ, List, [], ◌∷◌}",
        "use Rattle.format.specs.Questions.{Answer, refused, empty, accepted}",
        *(f"use Rattle.format.specs.{module}.{{{', '.join(found)}}}" for module, found in names.items() if found),
        "", "unfoldable view : Answer → List (List ℕ)", "view (refused n k) = (n ∷ k ∷ []) ∷ []", "view empty = []",
        "view (accepted w) = w.places ∷ w.bytes ∷ numbers_of w.relocations ∷ w.sites ∷ []", "",
    ]
    opened = "unfolding view " + " ".join(name for found in names.values() for name in found)
    for name, claim, answer in claims:
        lists = " ∷ ".join([*(f"({numbers(ns)})" for ns in answer), "[]"])
        head += [f"{name} : view ({claim}) ≡ {lists}", opened, f"{name} = refl", ""]
    return "\n".join(head)


def differs(case):
    """Whether a random case falls under a difference of docs/DIFFERENCES.md."""
    stride, word = (5, 8) if case["entry"] == "seh" else (18, case["machine"][0])
    functions = [case["functions"][at : at + stride] for at in range(0, len(case["functions"]), stride)]
    debug = case["entry"] == "relaxed_debug_frame"
    if case["entry"] == "seh" or case["format"] == 1 and not debug:
        return any(f[1] >= 2**32 for f in functions) or any(reg > 15 for reg in case["codes"][2::5])
    rows = [case["rows"][4 * at : 4 * at + 4] for f in functions for at in range(f[2], f[2] + f[3])]
    pairs = [case["pairs"][4 * at : 4 * at + 4] for f in functions if f[14] for at in range(f[16], f[16] + f[17])]
    return (
        debug and any(f[1] >= 256**word for f in functions)
        or word == 8 and any(f[8] and not f[5] and 0 in (f[9] % 128, f[11] and f[12] % 128) for f in functions)
        or any(kind in (0, 1) and off >= 2**31 and (2**32 - off) % word for _, kind, _, off in rows)
        or any(pair[0] == pair[1] for pair in pairs)
    )


def random_claims(count, seed):
    made = subprocess.run(
        [sys.executable, os.path.join(HERE, "makers", "random_cases.py"), count, "--seed", seed], capture_output=True, text=True, check=True
    ).stdout
    debug, release = (
        subprocess.run([os.path.join(OUT, build, "harness")], input=made, capture_output=True, text=True)
        for build in ("debug", "release")
    )
    in_debug, said = by_case(debug.stdout.split("\n")), by_case(release.stdout.split("\n"))
    claims = []
    for case in parse(made.split("\n")):
        answer = said[case["name"]]
        if mach_o(case) and case["functions"]:
            claims.append((case["name"].replace("_", "-"), term(case), [[78, 0]]))
        elif answer == in_debug[case["name"]] and not answer[0].startswith(("panic", "inexpressible")) and not differs(case):
            claims.append((case["name"].replace("_", "-"), term(case), expected(case, answer, None)))
    return claims, int(count) - len(claims)


def stored_claims():
    said, differing, claims, left = answers(), ours(), [], 0
    folder = os.path.join(HERE, "cases")
    for name in sorted(os.listdir(folder)):
        for case in cases(os.path.join(folder, name)):
            answer = expected(case, said[case["name"]], differing.pop(case["name"], None))
            if answer is None:
                left += 1
            else:
                claims.append((case["name"].replace("_", "-"), term(case), answer))
    if differing:
        sys.exit(f"rust/differences.txt names cases that are not there: {', '.join(differing)}")
    return claims, left


def checked(claims):
    """What `rt check` says of the copy."""
    with tempfile.TemporaryDirectory() as top:
        crate = os.path.join(top, "crates", "format")
        for part in ("src", "specs"):
            shutil.copytree(os.path.join(CRATE, part), os.path.join(crate, part))
        os.makedirs(os.path.join(crate, "proofs"))
        written = {"crates/format/proofs/Lib.antt": "mod Judged\n", "crates/format/proofs/Judged.antt": text(claims), "crates.txt": "format:\n"}
        for name, content in written.items():
            with open(os.path.join(top, name), "w") as file:
                file.write(content)
        return subprocess.run(["rt", "check"], cwd=crate, capture_output=True, text=True)


def main():
    claims, left = random_claims(*sys.argv[2:]) if sys.argv[1:2] == ["--random"] else stored_claims()
    run = checked(claims)
    if run.returncode != 0 or "logic=proved" not in run.stdout:
        print("\n".join(line[:300] for line in (run.stdout + run.stderr).split("\n") if "error" in line))
        sys.exit("definitions: the check says no")
    kind = "random" if sys.argv[1:] else "stored"
    print(f"definitions: {len(claims)} {kind} cases computed as expected; {left} not compared")


if __name__ == "__main__":
    main()
