#!/usr/bin/env python3
# Prints what docs/DESIGN-PASS.md has under "What changed, old and new": design_changes.py OLD NEW, two checkouts. It reads them by the kit's
# /opt/rattle/port/contracts.py; a function that became another type's is found by its crate and name.
import collections, sys

sys.path.insert(0, "/opt/rattle/port")
import contracts

_, of, og, os_, _, _ = contracts.read(sys.argv[1])
_, nf, ng, ns, _, _ = contracts.read(sys.argv[2])


def plain(fs):
    return [(k, x) for k, v in sorted(fs.items()) for x in v if not x["test"] and not x["in tests"]]


def same(x, y):
    return contracts.clauses(x) == contracts.clauses(y)


olds, news = plain(of), plain(nf)
left, pairs = list(news), []
TESTS = [
    lambda a, x, b, y: a == b and same(x, y),
    lambda a, x, b, y: a == b,
    lambda a, x, b, y: (a[0], a[2], a[3]) == (b[0], b[2], b[3]),
    lambda a, x, b, y: (a[0], a[3]) == (b[0], b[3]) and same(x, y),
    lambda a, x, b, y: (a[0], a[3]) == (b[0], b[3]),
]
for test in TESTS:
    alone = []
    for a, x in olds:
        found = next((i for i, (b, y) in enumerate(left) if test(a, x, b, y)), None)
        if found is None:
            alone.append((a, x))
        else:
            pairs.append((a, x, *left.pop(found)))
    olds = alone


def title(a, b):
    name = " ".join(p for p in (a[0], a[1], a[2], a[3]) if p)
    if a[2] == b[2] and a[1] == b[1]:
        return name
    return name + (", now of " + b[2] if b[2] != a[2] and b[2] else ", now in " + b[1])


def side(sign, x):
    for kind in ("requires", "ensures"):
        for _, label, text in x[kind]:
            yield f"{sign} {kind} {label + ' ' if label else ''}{{ {text} }}"


print("### Signatures of public functions\n\n```")
for a, x, b, y in sorted(pairs, key=lambda p: p[0]):
    if x["pub"] and (x["sign"] != y["sign"] or a[2] != b[2]):
        print(title(a, b), "- " + x["sign"], "+ " + y["sign"], sep="\n")
print("```\n\n### Clauses\n\nBy function; a clause without a line is the same. A clause of a private function stands here too.\n\n```")
for a, x, b, y in sorted(pairs, key=lambda p: p[0]):
    if not same(x, y):
        gone = collections.Counter(side("-", x))
        new = collections.Counter(side("+", y))
        print(title(a, b))
        for line in side("-", x):
            if "+" + line[1:] not in new:
                print(line)
        for line in side("+", y):
            if "-" + line[1:] not in gone:
                print(line)
print("```\n\n### Ghost items and constants\n\n```")
gone, changed, _ = contracts.beside(og, ng)
for row in changed:
    print(" ".join(row[:-2]), "- " + " | ".join(row[-2]), "+ " + " | ".join(row[-1]), sep="\n")
for row in gone:
    print("gone:", " ".join(row))
print("```\n\n### Definitions\n\n```")
gone, changed, _ = contracts.beside(os_, ns)
for row in changed:
    print(" ".join(row[:-2]), "- " + " | ".join(row[-2]), "+ " + " | ".join(row[-1]), sep="\n")
for row in gone:
    print("gone:", " ".join(row))
print("```")
if "--alone" in sys.argv:
    print("\nnot found again:")
    for a, x in olds:
        print(" ".join(p for p in a if p))
