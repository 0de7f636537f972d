#!/usr/bin/env python3
"""Laws of crates/*/proofs that are stated alike in two files, and those that the library states.

Two statements are alike when they are the same with their variables numbered, without brackets and qualifiers, and with the sides of each equation in
one order. Left out are statements without variables of their own, those that name what stands around them (a variable of their module, a goal), which
say something else in each place, and those that end in a type, which are definitions. Of the library the folders in LIBRARY are read, and what its
lemmas hand on from elsewhere.
"""
import re
from collections import defaultdict
from pathlib import Path

ROOT = Path(__file__).resolve().parent.parent
RATTLE = Path("/opt/rattle/rattle")
LIBRARY = ["std/proofs/lemmas", "core/specs", "logic/Lib", "logic/Mir", "logic/Borrow/Author", "antt/port/mathlib/src/Core", "antt/lib/native/src/Mathlib"]
# Where the modules lie that the library's lemmas hand names on from.
HANDED_ON = {"Rattle.core.": "core", "Rattle.std_alloc.": "std_alloc", "Rattle.std_collections.": "std_collections", "borrow.": "logic/Borrow"}
HEAD = re.compile(r"^(\s*)((?:pub |abbrev |unfoldable )*)([^\s:(){}=]+)((?:\s*\{[^}]*\})*)\s+:\s+(.*)$")
BINDER = re.compile(r"[({]([^(){}:]*?)\s:\s[^(){}]*?[)}]")
BOUND = re.compile(r"[({]([^(){}:]*?)\s:\s")


def indent(line):
    return len(line) - len(line.lstrip())


def statements(path, public=False):
    """The line, the name and the statement of each declaration with a type; of the public ones alone if so asked."""
    lines = path.read_text(errors="replace").split("\n")
    for i, line in enumerate(lines):
        head = HEAD.match(line)
        if not head or " = " in line or (public and "pub" not in head[2]):
            continue
        text = head[4] + " " + head[5]
        for more in lines[i + 1:]:
            if not more.strip() or indent(more) <= len(head[1]):
                break
            text += " " + more.strip()
        yield i + 1, head[3], re.sub(r"\{ℓ[^:}]*\}", "", text)


def bound_in(text):
    """The variables that a statement has itself."""
    return [name for names in BOUND.findall(text) + re.findall(r"λ ([^.:(]*)\.", text) for name in names.split()]


def alike(text):
    """What a statement has in common with those that are alike."""
    bound, order, body = bound_in(text), [], text
    while BINDER.search(body):
        body = BINDER.sub(" ", body)

    def number(match):
        word = match[0]
        if word in bound:
            if word not in order:
                order.append(word)
            return f"v{order.index(word)}"
        return word.rsplit(".", 1)[-1]

    body = re.sub(r"[^\s(){}\[\],]+", number, body.replace("λ ", "λ").replace("λ", "λ "))
    body = re.sub(r"\s+", " ", re.sub(r"[(){}]", "", body)).strip()
    parts = [p for p in re.split(r"(?:\s*→\s*)+", body) if p]
    return " → ".join(" ≡ ".join(sorted(p.split(" ≡ "))) if p.count(" ≡ ") == 1 else p for p in parts)


def is_law(text, names):
    """It has variables, names nothing but them and what crates and library define, and does not end in a type."""
    bound = set(bound_in(text))
    words = re.findall(r"[^\s(){}\[\],.:]+", text)
    closed = all(w in bound or w in names or not re.match(r"^[a-z][\w'-]*$", w) for w in words)
    last = text.rsplit("→", 1)[-1].strip()
    return bool(bound) and closed and not re.match(r"^(Type\b.*|ℕ|ℤ|Bool|(List|Option|Result) .*|[A-Z]\w*)$", last) and (" " in last or last == "⊥")


def library():
    """The files of the library, and the names that count in each; None for all that are public."""
    for folder in LIBRARY:
        for path in sorted((RATTLE / folder).glob("**/*.antt")):
            yield path, None
    for path in sorted((RATTLE / "std/proofs/lemmas").glob("**/*.antt")):
        for module, names in re.findall(r"^pub use ([\w.]+)\.\{(.*)\}", path.read_text(errors="replace"), re.M):
            for prefix, folder in HANDED_ON.items():
                source = RATTLE / folder / (module[len(prefix):].replace(".", "/") + ".antt")
                if module.startswith(prefix) and source.exists():
                    yield source, {n.split(" as ")[0].strip() for n in names.split(",")}


def main():
    crates = [p for kind in ("proofs", "specs") for p in sorted(ROOT.glob(f"crates/*/{kind}/**/*.antt"))]
    files = list(library())
    names = set()
    for path in crates + [path for path, _ in files]:
        for imported in re.findall(r"^use [\w.+]+\.\{(.*)\}", path.read_text(errors="replace"), re.M):
            names.update(n.split(" as ")[-1].strip() for n in imported.split(","))
    theirs = defaultdict(set)
    for path, wanted in files:
        for line, name, text in statements(path, public=True):
            if wanted is None or name in wanted:
                theirs[alike(text)].add(f"{path.relative_to(RATTLE)}:{line} {name}")
    ours = defaultdict(list)
    for path in crates:
        if "/proofs/" in str(path):
            for line, name, text in statements(path):
                if is_law(text, names):
                    ours[alike(text)].append((path, f"{path.relative_to(ROOT)}:{line} {name}"))
    found = 0
    for key, places in sorted(ours.items()):
        if len({path for path, _ in places}) > 1 or key in theirs:
            found += 1
            print(key)
            for place in [p for _, p in places] + sorted(theirs[key])[:2]:
                print(f"    {place}")
    print(f"{found} statements")


main()
