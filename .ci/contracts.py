#!/usr/bin/env python3
"""docs/CONTRACTS.md against the must-fail edits: each program that it names is there, one that `.ci/long` alone tries is marked so, and an
edit of a definition, which shows nothing of a contract, bears that in its name and stands in no row of the contracts.

    .ci/contracts.py             check
    .ci/contracts.py --write     write the marks"""
import os, re, sys

ROOT = os.path.join(os.path.dirname(os.path.abspath(__file__)), '..')
PAGE = os.path.join(ROOT, 'docs/CONTRACTS.md')
MARK = ' (long)'
NAMED = re.compile(r'`(\w+)/(\w+)`( \(long\))?')


def edits():
    """The edits, each as crate/name: whether `.ci/long` alone tries it, and the files that it edits."""
    found = {}
    for crate in sorted(os.listdir(os.path.join(ROOT, 'crates'))):
        for folder in ('must-fail', 'must-fail-long'):
            place = os.path.join(ROOT, 'crates', crate, folder)
            for name in sorted(os.listdir(place)) if os.path.isdir(place) else []:
                with open(os.path.join(place, name), encoding='utf-8') as file:
                    edited = re.findall(r'^file: (\S+)', file.read(), re.M)
                found[f'{crate}/{name.removesuffix(".edit")}'] = (folder == 'must-fail-long', edited)
    return found


def main():
    known = edits()
    with open(PAGE, encoding='utf-8') as file:
        page = file.read()
    bad = []

    def marked(found):
        name = f'{found.group(1)}/{found.group(2)}'
        if not os.path.isdir(os.path.join(ROOT, 'crates', found.group(1))):
            return found.group(0)
        if name not in known:
            bad.append(f'{name} is named, and there is no such edit')
            return found.group(0)
        if any(not path.startswith('src/') for path in known[name][1]):
            bad.append(f'{name} is named as a wrong program, and edits {", ".join(known[name][1])}')
        return f'`{name}`' + (MARK if known[name][0] else '')

    lines = page.split('\n')
    for i, line in enumerate(lines):
        if line.startswith('| ') or 'rejected programs' in line:
            lines[i] = NAMED.sub(marked, line)
    written = '\n'.join(lines)
    for name, (_, edited) in known.items():
        definition = any(not path.startswith('src/') for path in edited)
        if definition != name.split('/')[1].startswith('definition_'):
            bad.append(f'{name} edits {", ".join(edited)}: only an edit of a definition is called definition_..')
    if '--write' in sys.argv:
        with open(PAGE, 'w', encoding='utf-8') as file:
            file.write(written)
    elif written != page:
        bad.append('the marks of what .ci/long alone tries are not those of the folders (--write writes them)')
    for line in bad:
        print('contracts:', line, file=sys.stderr)
    print(f'contracts: {len(known)} edits, {sum(long for long, _ in known.values())} of them tried by .ci/long alone')
    if bad:
        sys.exit(1)


main()
