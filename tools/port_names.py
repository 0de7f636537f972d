#!/usr/bin/env python3
"""Respells the repository's own definitions and lemmas: words in snake case, a dash only between two names. Run once, at the top, behind port.py.

    python3 tools/port_names.py [--list]

What is renamed is what specs/ and proofs/ declare, but for what a Proof.antt declares for itself. Types and modules are in camel case
already. Names of the formats (DW_CFA_nop, UWOP_ALLOC_LARGE) keep their spelling, as do functions and types of src/. The new names go into
.antt and .rt files, into must-fail edits, and into what stands between backticks in the documents."""
import glob, os, re, sys

NAME = r"[^\s(){}\[\].;,:@\"⌜⌝«»`]+"
DECLARED = re.compile(rf"^\s*(?:(?:pub|abbrev|unfoldable)\s+)*({NAME}) :(?=\s|$)", re.M)
TOKEN = re.compile(rf"(?<![«\w]){NAME}")
USED = re.compile(r"^\s*(?:pub |ghost )*use ([^\s{;]+)\.\{([^}]*)\}", re.M)
# What a lemma's left side may be made of, beside the repository's own definitions.
STD = set("length append take drop set put map replicate reverse".split())


def snake(word):
    word = re.sub(r"([a-z0-9])([A-Z])", r"\1_\2", word)
    word = re.sub(r"([A-Z]+)([A-Z][a-z])", r"\1_\2", word)
    return word.lower()


def is_kept(name):
    """Types, names of the formats, operators, and names that are in order."""
    if re.match(r"[A-Z]", name) or "◌" in name:
        return True
    return not re.search(r"-|[a-z0-9][A-Z]", name)


def texts():
    for path in sorted(glob.glob("crates/*/specs/**/*.antt", recursive=True) + glob.glob("crates/*/proofs/**/*.antt", recursive=True)):
        yield path, open(path, encoding="utf-8").read()


def parts(name):
    """The words of a name, its capitals kept where a part is a type."""
    found = []
    for part in name.split("-"):
        found.append(part if re.match(r"[A-Z][a-z]", part) else snake(part) if part else "")
    return found


def joined(name, defined):
    """A dash stays where it joins names of definitions, one of them the library's; all other parts are joined by an underscore."""
    words = parts(name)
    n = len(words)
    best = {n: []}
    for i in range(n - 1, -1, -1):
        for j in range(n, i, -1):
            if "_".join(words[i:j]) in defined and j in best:
                best[i] = ["_".join(words[i:j])] + best[j]
                break
    if 0 in best and len(best[0]) > 1 and STD & set(best[0]):
        return "-".join(best[0])
    return "_".join(words)


def loose(text):
    """The words of a file that stand for themselves: no path of a module, no field."""
    bare = re.sub(r"--.*", "", text)
    bare = re.sub(r"^\s*(?:pub )?use .*", lambda m: " ".join(re.findall(r"\{([^}]*)\}", m.group(0))), bare, flags=re.M)
    return set(TOKEN.findall(re.sub(rf"\.{NAME}", " ", bare)))


def renames():
    own, library, files = {}, set(), {}
    crates = {os.path.basename(p) for p in glob.glob("crates/*")}
    for path, text in texts():
        bare = re.sub(r"--.*", "", text)
        files[path] = loose(text)
        for m in USED.finditer(bare):
            root = m.group(1).split(".")
            if root[0] != "Rattle" or root[1] not in crates:
                library |= {w.strip().split(" as ")[0] for w in m.group(2).split(",")}
        if os.path.basename(path) != "Proof.antt":
            for m in DECLARED.finditer(bare):
                own.setdefault(m.group(1), path)
    defined = set(STD)
    for name, path in own.items():
        if "/specs/" in path and "-" not in name:
            defined.add(snake(name) if not re.match(r"[A-Z]", name) else name)
    turned = {}
    for name in sorted(own):
        if not is_kept(name) and name not in library:
            turned[name] = CHOSEN.get(name) or joined(name, defined)
    apart(turned, own, files)
    return turned


def apart(turned, own, files):
    """Where two names of one file would fall together, a lemma gets `_lem`, as the guide has it for a lemma with its function's name."""
    again = True
    while again:
        again = False
        for path, words in files.items():
            if path.endswith("/Proof.antt"):
                continue
            seen = {}
            for word in sorted(words, key=lambda w: ("-" in w, w in turned, w)):
                new = turned.get(word, word)
                other = seen.setdefault(new, word)
                if other == word or (word not in turned and other not in turned):
                    continue
                lemma = word if "-" in word else other if other in own and other not in turned else word
                if lemma not in own or turned.get(lemma, lemma).endswith("_lem"):
                    raise SystemExit(f"{path}: {word} and {other} fall together")
                turned[lemma] = turned.get(lemma, lemma) + "_lem"
                again = True


# Names that a variable or a field has already.
CHOSEN = {"isWord": "is_word_size", "callSites": "call_site_bytes"}


def respelled(text, turned, only_antt):
    """The text with the new names. A name that was in order and is a lemma's (`x` for `x_lem`) is no field and no part of a path."""

    def one(m):
        word = m.group(0)
        if word not in turned:
            return word
        if not re.search(r"-|[a-z0-9][A-Z]", word):
            behind = m.start() > 0 and m.string[m.start() - 1] == "."
            ahead = m.string[m.end() : m.end() + 1] == "."
            if not only_antt or behind or ahead:
                return word
        return turned[word]

    return TOKEN.sub(one, text)


def main():
    turned = renames()
    if "--list" in sys.argv:
        for name, new in sorted(turned.items()):
            print(name, new)
        return
    for path in sorted(glob.glob("crates/**/*.antt", recursive=True) + glob.glob("crates/**/*.rt", recursive=True) + glob.glob("crates/**/*.edit", recursive=True)):
        text = open(path, encoding="utf-8").read()
        new = respelled(text, turned, path.endswith(".antt"))
        if new != text:
            open(path, "w", encoding="utf-8").write(new)
    for path in [*glob.glob("*.md"), *glob.glob("docs/*.md"), *glob.glob("differential/README.md")]:
        text = open(path, encoding="utf-8").read()
        new = re.sub(r"`[^`\n]+`", lambda m: respelled(m.group(0), turned, False), text)
        if new != text:
            open(path, "w", encoding="utf-8").write(new)
    print(f"{len(turned)} names")


if __name__ == "__main__":
    main()
