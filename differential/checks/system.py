#!/usr/bin/env python3
"""The command over every ELF file below folders, as a new user would: `system.py [FOLDER..]`, /usr/bin, /usr/sbin and /usr/lib by default.

For each file with frame sections `dekvoz dump --readelf` is compared with `readelf --debug-dump=frames-interp,no-follow-links` byte by byte, and the rows that
`dekvoz dump` lists with readelf's. An answer with status 0 that readelf contradicts fails the run; what is refused is counted. `check` must
have the status of what `dump` refuses: 0 only where nothing is."""

import collections
import os
import subprocess
import sys
from concurrent.futures import ThreadPoolExecutor

sys.path.insert(0, os.path.dirname(os.path.dirname(os.path.abspath(__file__))))

from checks.dump import DEKVOZ, Differs, alike, entries  # noqa: E402

FOLDERS = ["/usr/bin", "/usr/sbin", "/usr/lib"]
# Without the debug file of a program, which readelf names in its first line where it finds one.
READELF = "--debug-dump=frames-interp,no-follow-links"
# readelf's listing of a larger file takes minutes.
LARGEST = 256 << 20


def files(folders):
    seen = set()
    for folder in folders:
        for base, _, names in os.walk(folder):
            for name in sorted(names):
                path = os.path.join(base, name)
                try:
                    about = os.stat(path)
                    if os.path.islink(path) or not os.path.isfile(path) or (about.st_dev, about.st_ino) in seen or about.st_size > LARGEST:
                        continue
                    with open(path, "rb") as file:
                        if file.read(6)[:4] != b"\x7fELF":
                            continue
                except OSError:
                    continue
                seen.add((about.st_dev, about.st_ino))
                yield path


def run(*words):
    return subprocess.run(words, capture_output=True, text=True, errors="replace")


def rows(said, ours, counts):
    """Every row that `dump` lists of the first frame section, against readelf's."""
    first = said.split("Contents of the ")[1] if "Contents of the " in said else ""
    # readelf goes on behind a terminator.
    for mine, theirs in zip(entries(ours), entries(first), strict=False):
        if (mine.place, mine.kind) != (theirs.place, theirs.kind):
            return f"an entry at {mine.place:x}, readelf's is at {theirs.place:x}"
        if mine.refused:
            counts["entries refused"] += 1
            continue
        if mine.fields != theirs.fields:
            return f"entry {mine.place:x}: {mine.fields}, readelf says {theirs.fields}"
        for location, (frame, rules, refused) in mine.rows.items():
            other = theirs.rows.get(location)
            if refused:
                counts["rows refused"] += 1
            elif other is not None:
                counts["rows"] += 1
                if frame != other[0] or any(alike(rule) != other[1].get(column, "u") for column, rule in rules.items()):
                    return f"entry {mine.place:x} at {location:x}: {frame} {rules}, readelf says {other}"
            elif theirs.rows:
                return f"entry {mine.place:x}: readelf has no row at {location:x}"
        counts["entries"] += 1
    return None


def one(path):
    counts = collections.Counter(files=1)
    readelf, exact = run("readelf", READELF, path), run(DEKVOZ, "dump", "--readelf", path)
    plain, checked = run(DEKVOZ, "dump", path), run(DEKVOZ, "check", path)
    for done in (exact, plain, checked):
        if done.returncode not in (0, 1):
            raise Differs(f"{path}: {done.args}: status {done.returncode}: {done.stderr}")
    if "Contents of the " not in readelf.stdout:
        counts["files without frames"] += 1
        if exact.stdout:
            raise Differs(f"{path}: readelf lists nothing, dump --readelf does")
        return counts
    if exact.returncode == 0:
        counts["files listed exactly as readelf does"] += 1
        if exact.stdout != readelf.stdout:
            raise Differs(f"{path}: dump --readelf differs from readelf, with status 0")
    else:
        counts["files refused by --readelf"] += 1
    wrong = rows(readelf.stdout, plain.stdout, counts)
    if wrong:
        raise Differs(f"{path}: {wrong}")
    counts[f"dump {plain.returncode}, check {checked.returncode}"] += 1
    # What check finds, dump lists as refused; a row behind a function's end is dump's alone.
    if checked.returncode == 1 and plain.returncode == 0:
        raise Differs(f"{path}: check refuses what dump lists: {checked.stderr}")
    return counts


def main():
    total, wrong = collections.Counter(), []

    def told(path):
        try:
            return one(path)
        except Differs as why:
            wrong.append(str(why))
            return collections.Counter(files=1)

    with ThreadPoolExecutor(os.cpu_count()) as pool:
        for counts in pool.map(told, files(sys.argv[1:] or FOLDERS)):
            total += counts
    for why in wrong:
        print(f"system: {why}", file=sys.stderr)
    print("system: " + ", ".join(f"{name} {total[name]}" for name in sorted(total)))
    sys.exit(1 if wrong else 0)


if __name__ == "__main__":
    main()
