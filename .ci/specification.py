#!/usr/bin/env python3
"""docs/SPECIFICATION.md against the sources: each definition, law and function that it names is there, and
its table of questions has the numbers and names of crates/format/specs/Numbers.antt, in their order; so has
include/dekvoz.h in `enum unwind_question` the numbers.

`File: a, b` in backticks are names of crates/format/specs/File.antt or crates/format/proofs/File.antt,
`crate/File: a` those of another crate; `crate/proofs: a` stands in any file of that folder. `crate::a` and
`unwind_a` are functions of the code."""
import glob, os, re, sys

ROOT = os.path.join(os.path.dirname(os.path.abspath(__file__)), '..')


def text(paths):
    return '\n'.join(open(path, encoding='utf-8').read() for path in paths)


def files(place):
    """The files that the part of a name in front of its colon means."""
    parts = place.split('/')
    if parts[-1] == 'proofs':
        return glob.glob(f'{ROOT}/crates/{"/".join(parts)}/*.antt')
    crate, name = (parts[0], parts[-1]) if len(parts) > 1 else ('format', parts[0])
    folders = ('specs', 'proofs') if len(parts) < 3 else parts[1:2]
    return [path for folder in folders for path in glob.glob(f'{ROOT}/crates/{crate}/{folder}/{name}.antt')]


def defines(source, name):
    head = r'^( +pub |(unfoldable |abbrev )?(pub )?)(record |data )?'
    return re.search(rf'{head}{re.escape(name)}\b', source, re.M) is not None


def functions(crate):
    return text(glob.glob(f'{ROOT}/crates/{crate}/src/**/*.rt', recursive=True))


def main():
    page = text([f'{ROOT}/docs/SPECIFICATION.md'])
    bad, named = [], 0
    for cited in re.findall(r'`([^`\n]+)`', page):
        listed = re.fullmatch(r'([\w/]*\w): ([\w, ]+)', cited)
        alone = re.fullmatch(r'(?:([a-z]\w*)/)?(?:proofs/)?([A-Z]\w*)', cited)
        called = re.fullmatch(r'([a-z]\w*)(?:::[a-z]\w*)*::(\w+)', cited)
        if listed:
            source = text(files(listed.group(1)))
            for name in listed.group(2).split(', '):
                named += 1
                if not defines(source, name):
                    bad.append(f'{cited}: {name} is not there')
        elif alone and '/' in cited:
            named += 1
            if not files(cited):
                bad.append(f'{cited}: no such file')
        elif called and os.path.isdir(f'{ROOT}/crates/{called.group(1)}'):
            named += 1
            if not re.search(rf'\b(fn|mod|struct|enum) {called.group(2)}\b', functions(called.group(1))):
                bad.append(f'{cited} is no function of that crate')
        elif re.fullmatch(r'unwind_[a-z0-9_]+', cited):
            named += 1
            if not re.search(rf'\bfn {cited}\b', functions('dekvoz')):
                bad.append(f'{cited} is no export')
    source = f'{ROOT}/crates/format/specs/Numbers.antt'
    numbers = re.findall(r'^number_of (\w+) = (\d+)', text([source]), re.M)
    table = re.findall(r'^\| (\d+) \| (\w+) \|', page, re.M)
    if [(name, number) for number, name in table] != sorted(numbers, key=lambda x: int(x[1])):
        bad.append('the table of questions has other numbers or names than crates/format/specs/Numbers.antt')
    header = re.search(r'enum unwind_question \{(.*?)\};', text([f'{ROOT}/include/dekvoz.h']), re.S).group(1)
    if sorted(re.findall(r'= (\d+)', header)) != sorted(number for _, number in numbers):
        bad.append('enum unwind_question of include/dekvoz.h has other numbers than Numbers.antt')
    for line in bad:
        print('specification:', line, file=sys.stderr)
    print(f'specification: {named} names of definitions, laws and functions, {len(table)} questions')
    if bad or not named or not table:
        sys.exit(1)


main()
