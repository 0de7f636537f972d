#!/usr/bin/env python3
# Counts, in crates/*/src, the places of docs/DESIGN-PASS.md's points that a pattern finds. With --list it names them.
import collections, glob, os, re, sys

LISTED = "--list" in sys.argv
ROOT = os.path.join(os.path.dirname(os.path.abspath(__file__)), "..")


def sources():
    for path in sorted(glob.glob(os.path.join(ROOT, "crates/*/src/*.rt"))):
        text = open(path, encoding="utf-8").read()
        yield os.path.relpath(path, ROOT), re.sub(r"//[^\n]*", "", text)


def functions(text):
    for m in re.finditer(r"\bfn (\w+)(?:<[^>(]*>)?\(", text):
        depth, i = 1, m.end()
        while depth:
            depth += {"(": 1, ")": -1}.get(text[i], 0)
            i += 1
        parameters = text[m.end():i - 1]
        body = re.compile(r"[^\n;]*? \{\n|(?:[^\n]*\n)(?:\s+(?:requires|ensures|ghost)[^\n]*\n|(?:\s{8,})[^\n]*\n)*\s*\{\n").match(text, i)
        if not body:
            continue
        depth, j = 1, body.end()
        while depth and j < len(text):
            depth += {"{": 1, "}": -1}.get(text[j], 0)
            j += 1
        yield m.group(1), parameters, text[i:body.end()], text[body.end():j - 1]


def enums(text):
    for m in re.finditer(r"enum (\w+)\s*\{(.*?)\n\}", text, re.S):
        yield m.group(1), [v.strip() for v in re.split(r",\n", m.group(2)) if v.strip()]


def structs(text):
    for m in re.finditer(r"((?:#\[[^\]]*\]\s*)*)(?:pub )?struct (\w+)(?:<[^>]*>)?\s*\{(.*?)\n\}", text, re.S):
        yield m.group(2), "repr(C)" in m.group(1), m.group(3)


def point_1():
    for path, text in sources():
        for name, variants in enums(text):
            plain = [v for v in variants if "(" not in v]
            holding = [v for v in variants if "(" in v]
            no = [v for v in variants if re.match(r"(Refused|No)\(", v)]
            if holding and (len(variants) == 2 and plain or no):
                yield path, "enum " + name
        for name, c, fields in structs(text):
            if not c and re.search(r"\b(number: u64|refused: bool|ok: bool|present: bool)", fields):
                yield path, "struct " + name
        for name, _, tail, body in functions(text):
            if re.search(r"-> u(64|size)\b", tail) and re.search(r"_no$|surveyed|_asks$|^answer$", name):
                yield path, "fn " + name


def shape(body):
    words = re.findall(r"\w+|[^\w\s]", body)
    keep = {"if", "else", "while", "for", "in", "let", "mut", "return", "match", "true", "false", "as", "loop", "continue", "break"}
    return " ".join(w if w in keep or not re.match(r"\w", w) else "x" for w in words)


def point_2():
    groups = collections.defaultdict(list)
    for path, text in sources():
        if "/dekvoz/" in path:
            continue
        for name, _, _, body in functions(text):
            if body.strip().count("\n") >= 4:
                groups[shape(body)].append((path, name))
    for members in groups.values():
        if len(members) > 1:
            yield members[0][0], "fns " + ", ".join(sorted({n for _, n in members}))


def point_3():
    for path, text in sources():
        for name, _, _, body in functions(text):
            for m in re.finditer(r"while ([^{]*)\{", body):
                words = set(re.findall(r"\b[a-z_]\w*\b(?!\.|\()", m.group(1)))
                if any(re.search(r"\b%s [+-]= 1;" % w, body) for w in words):
                    yield path, "fn " + name


def point_4():
    hand = r"^(same(_\w+)?|bit|flag|number|wide|both|is_yes|is_number|is_debug|is_some|copy_in|copied|put_nodes|fill(_\w+)?|unchain|position)$"
    for path, text in sources():
        for name, _, _, _ in functions(text):
            if re.match(hand, name):
                yield path, "fn " + name


def point_5():
    seen = collections.defaultdict(set)
    for path, text in sources():
        if "/dekvoz/" in path:
            continue
        for name, parameters, _, _ in functions(text):
            ps = [re.sub(r"\s+", " ", p.strip()) for p in parameters.split(",") if p.strip()]
            for i in range(len(ps) - 2):
                seen[tuple(ps[i:i + 3])].add((path, name))
    hit = set()
    for fs in seen.values():
        if len(fs) >= 3:
            hit |= fs
    for path, name in sorted(hit):
        yield path, "fn " + name


def point_6():
    for path, text in sources():
        for name, c, fields in structs(text):
            arrays = re.findall(r"(\w+): \[", fields)
            if len(arrays) > 1 or arrays and re.search(r": usize", fields):
                yield path, "struct " + name


def point_7():
    for path, text in sources():
        for name, parameters, _, body in functions(text):
            m = re.search(r"\b(pass|direct|header|shared|stage): (u64|bool)", parameters)
            if m or re.search(r"if s\.direct\b", body):
                yield path, "fn " + name


for n, point in enumerate([point_1, point_2, point_3, point_4, point_5, point_6, point_7], 1):
    places = list(point())
    print(f"point {n}: {len(places)}")
    if LISTED:
        for path, what in places:
            print("   ", path, what)
