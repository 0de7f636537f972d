#!/usr/bin/env python3
"""What has to be believed: the definitions that the contracts of the public entries reach.

    .ci/believed.py              check README.md's tables
    .ci/believed.py --write      write the table of the files to believe: its line counts, and rows that are missing or too many
    .ci/believed.py --lacks      list what README.md lacks, as rows to be put in
    .ci/believed.py --entries    list the public entries and how many lines of definitions each reaches
    .ci/believed.py --of NAME    list what one definition (as Demanded) reaches

Public entries are every `pub extern "C" fn` of a library; every `pub fn` of a source file of which README.md's table of theorems names a
function, and of that file's whole crate where it is src/lib.rt (what their conversions promise counts as theirs, `ghost from_gives =
{ .. }`); and every `pub fn` of a crate of theorems, which is a library that exports nothing to C and that no other library stands on. The names in their `requires` and `ensures` are followed,
definition by definition, through the `ghost use` lines of the sources and the `use` lines of the definitions. It fails where

- a name in backticks in the last column of README.md's table of theorems is neither a public entry nor a definition that a public
  contract reaches;
- README.md names a lemma anywhere but under "Steps of the proofs", where each has to be cited by another proof, or under "Proved, and
  stated by no contract";
- a crate of theorems is not named in that table, or a function of its src/lib.rt is not;
- a public entry has a `requires`, and is none of HELPERS;
- a reached file is not in the table of the files to believe or stands in a proofs/ folder, a file of the table is not reached, or a
  count of lines is off by more than a tenth;
- a definition of a folder in WHOLE is not reached;
- crates/dekvoz does not export each `pub extern "C" fn` of the libraries, and no other, with the parameters, the result and the clauses
  that it has there."""
import os, re, sys

ROOT = os.path.join(os.path.dirname(os.path.abspath(__file__)), '..')
# Public for the crates that write and then read (docs/DECISIONS.md, D87).
HELPERS = ('unwind::numbers_in',)
# The top of a chain of libraries that has no export yet (README.md, "Limits"): no public entry, and no crate of theorems.
NOT_EXPORTED_YET = ('cfi_rules',)
WHOLE = ('crates/format/specs/', 'crates/unwind/specs/')
READ_BACK = 'Demanded'
EXPORTS = 'crates/dekvoz/'
THEOREMS = '## What is proved'
STEPS = '### Steps of the proofs'
UNSTATED = '### Proved, and stated by no contract'
BELIEVED = '## What is to be believed'

PATH = re.compile(r'Rattle\.([a-z_0-9]+)\.(specs|proofs)\.(.+)')
START = re.compile(r'(?:unfoldable |abbrev )?(?:pub )?(?:(record|data) )?([^\s:({]+)')
# where an operator's arguments go, in its name
HOLE = '◌'
WORD = re.compile(r'[^\s(){}\[\];,]+')


def read(path):
    with open(os.path.join(ROOT, path), encoding='utf-8') as file:
        return file.read().split('\n')


def files(folder, ending):
    for place, inner, names in os.walk(os.path.join(ROOT, folder)):
        inner[:] = sorted(name for name in inner if name != 'out')
        for name in sorted(names):
            if name.endswith(ending):
                yield os.path.relpath(os.path.join(place, name), ROOT)


def words(text):
    """The names in a text, without comments and field accesses: of `x.f` both `x.f`, where x may be an alias, and `x`."""
    for line in text.split('\n'):
        for word in WORD.findall(line.split('--')[0]):
            if not word.startswith('.'):
                yield word.rstrip('.')
                if '.' in word.rstrip('.'):
                    yield word.split('.')[0]


def target(module, name):
    """The file and the name that a `use` line means, or None for the toolchain's."""
    found = PATH.match(module)
    if not found or not os.path.isdir(os.path.join(ROOT, 'crates', found.group(1))):
        return None
    crate, folder, rest = found.groups()
    if rest.startswith('declared.'):
        return (f'crates/{crate}/src', rest.removesuffix('.TheVariants').split('.')[-1])
    return (f'crates/{crate}/{folder}/{rest.replace(".", "/")}.antt', name)


def uses(lines):
    """From a name, or an alias with a name, to what it means."""
    names, aliases = {}, {}
    for line in lines:
        line = re.sub(r'^(ghost )?use ', '', line.strip()).rstrip(';') if re.match(r'\s*(ghost )?use ', line) else ''
        listed = re.match(r'(.+)\.\{(.*)\}$', line)
        alias = re.match(r'(.+) as ([^\s]+)$', line)
        if listed:
            for name in listed.group(2).split(','):
                parts = name.strip().split(' as ')
                names[parts[-1]] = names[parts[-1].strip(HOLE)] = target(listed.group(1), parts[0])
        elif alias:
            aliases[alias.group(2)] = alias.group(1)
    return names, aliases


class Module:
    """The definitions of a file: their lines, with the comment above, and the names that stand in them."""
    def __init__(self, path):
        self.path, self.blocks, self.owner = path, {}, {}
        lines = read(path)
        self.length = len(lines) - (lines[-1] == '')
        self.names, self.aliases = uses(lines)
        comment, now, data = 0, None, False
        for line in lines:
            if not line.strip():
                comment = 0
                continue
            if line.startswith('--'):
                comment += 1
                continue
            if line.startswith(('use ', 'pub mod ', 'mod ')):
                comment = 0
                continue
            if not line.startswith((' ', 'unfolding', '(')):
                kind, name = START.match(line).groups()
                if name not in self.owner:
                    self.blocks[name] = [0, '']
                    now, data = name, kind == 'data'
                self.owner[name] = now
            elif data and re.match(r'  [^\s:]+ :', line):
                self.owner.setdefault(line.split()[0], now)
            if now:
                self.blocks[now][0] += 1 + comment
                self.blocks[now][1] += line + '\n'
            comment = 0


LOADED = {}


def module(path):
    if path not in LOADED:
        LOADED[path] = Module(path)
    return LOADED[path]


def meaning(word, names, aliases):
    if word in names:
        return names[word]
    if '.' in word:
        alias, name = word.split('.', 1)
        if alias in aliases:
            return target(aliases[alias], name)
    return None


def reach(roots):
    """Every definition, as (file, name), that the roots need."""
    seen, todo = set(), list(roots)
    while todo:
        path, name = todo.pop()
        if path.endswith('/src'):
            seen.add((path, name))
            continue
        if not os.path.exists(os.path.join(ROOT, path)):
            sys.exit(f'believed: {path}, cited for {name}, is not there')
        here = module(path)
        owner = here.owner.get(name)
        if owner is None:
            sys.exit(f'believed: {name} is not found in {path}')
        if (path, owner) in seen:
            continue
        seen.add((path, owner))
        for word in words(here.blocks[owner][1]):
            if here.owner.get(word, owner) != owner:
                todo.append((path, word))
            found = meaning(word, here.names, here.aliases)
            if found:
                todo.append(found)
    return seen


def clause(lines, i):
    """What stands between the braces of the clause that begins in line i."""
    text = lines[i]
    while text.count('{') > text.count('}'):
        i += 1
        text += '\n' + lines[i]
    return text[text.index('{') + 1:]


def libraries():
    """The libraries of crates.txt, each with those that it stands on."""
    stands = {}
    for line in read('crates.txt'):
        found = re.match(r'(\w+):(.*)', line)
        if found and os.path.exists(os.path.join(ROOT, 'crates', found.group(1), 'src/lib.rt')):
            stands[found.group(1)] = found.group(2).split()
    return stands


class Function:
    """A `pub fn`, or a conversion: where it stands, whether C calls it, whether it has a `requires`, and what its clauses cite."""
    def __init__(self, path, name, exported=False):
        self.path, self.crate, self.name, self.exported = path, path.split('/')[1], name, exported
        self.requires, self.cites = False, []

    def __str__(self):
        return f'{self.crate}::{self.name}'

    def last(self):
        return self.name.split('::')[-1]


def functions():
    """Every public function of the libraries, and every conversion."""
    found = []
    for path in files('crates', '.rt'):
        if path.startswith(EXPORTS) or path.split('/')[1] not in LIBRARIES:
            continue
        lines = read(path)
        names, aliases = uses(lines)
        now, method = None, ''
        for i, line in enumerate(lines):
            owner = re.match(r'impl(?:<[^>]*>)? (?:.* for )?(\w+)', line)
            method = owner.group(1) + '::' if owner else ('' if line.startswith('}') else method)
            made = re.match(r'\s*pub (extern "C" )?(?:const )?fn (\w+)', line)
            gives = re.match(r'\s*ghost (\w+_gives) = ', line)
            if made:
                now = Function(path, method + made.group(2), bool(made.group(1)))
                found.append(now)
            elif re.match(r'\s*(const )?fn ', line):
                now = None
            elif gives or now and re.match(r'\s*(requires|ensures)\b', line):
                into = now
                if gives:
                    into = Function(path, method + gives.group(1))
                    found.append(into)
                elif line.strip().startswith('requires'):
                    now.requires = True
                for word in words(clause(lines, i)):
                    means = meaning(word, names, aliases)
                    if means:
                        into.cites.append(means)
    return found


class Named:
    """A name in backticks of README.md's table of theorems, with the place beside it."""
    def __init__(self, name, place):
        self.name, self.place = name, place

    def __str__(self):
        return f'`{self.name}`' + (f' ({self.place})' if self.place else '')

    def near(self, path):
        return path == self.place or path.startswith(self.place.rstrip('/') + '/') if self.place else True


def section(heading):
    """The lines of a part of README.md, up to the next heading of its level or a higher one."""
    inside, level = False, heading.split(' ')[0]
    for line in read('README.md'):
        if line == heading:
            inside = True
        elif inside and line.startswith('#') and len(line.split(' ')[0]) <= len(level):
            return
        elif inside:
            yield line


def theorems():
    """The names in the last column of the table of theorems; a place holds for the names in front of it, up to the semicolon before."""
    listed = []
    for line in section(THEOREMS):
        if line.startswith('| ') and not line.startswith('| statement'):
            for part in line.strip(' |').split(' | ')[-1].split(';'):
                place = re.search(r'crates/[\w/.]*\w', part)
                for name in re.findall(r'`([\w:?]+)`', part):
                    listed.append(Named(name.split('::')[-1], place.group(0) if place else ''))
    return listed


LIBRARIES = libraries()
STOOD_ON = {below for name, stands in LIBRARIES.items() if not EXPORTS.startswith(f'crates/{name}/') for below in stands}


def of_theorems(every):
    """The crates of theorems."""
    exporting = {f.crate for f in every if f.exported}
    others = STOOD_ON | exporting | set(NOT_EXPORTED_YET)
    return {name for name in LIBRARIES if name not in others and not EXPORTS.startswith(f'crates/{name}/')}


def entries(every, named):
    """The public entries among the functions."""
    alone = of_theorems(every)
    told = {f.path for f in every for n in named if not f.exported and f.last() == n.name and n.near(f.path)}
    return [f for f in every if f.exported or f.crate in alone or told & {f.path, f'crates/{f.crate}/src/lib.rt'}]


def exported():
    """Where the exports of crates/dekvoz are not the libraries': what a C caller gets, and what is proved of it, have to be the same."""
    here, there = {}, {}
    for path in files('crates', '.rt'):
        text = '\n'.join(read(path))
        names, aliases = uses(text.split('\n'))
        for name, head, clauses in re.findall(r'^pub extern "C" fn (\w+)(.*?)\n?((?:^ +(?:requires|ensures)\b[^\n]*\n)*)\{\n', text, re.M | re.S):
            means = {word: meaning(word, names, aliases) for word in words(clauses)}
            says = (' '.join(head.split()).replace('( ', '(').replace(', )', ')').removesuffix(' {'), clauses, means)
            if (here if path.startswith(EXPORTS) else there).setdefault(name, says) is not says:
                yield f'{path}: {name} is exported twice'
    for name in sorted(here.keys() | there.keys()):
        if name not in here:
            yield f'{EXPORTS} does not export {name}'
        elif name not in there:
            yield f'{EXPORTS} exports {name}, which no library has'
        elif here[name] != there[name]:
            yield f'{EXPORTS} exports {name} with another type or other clauses than the library\'s'


def lemmas():
    """The names that are declared in proofs/ folders, each with its files; but not those of the goals of a function's proof."""
    known = {}
    for path in files('crates', '.antt'):
        if '/proofs/' in path and os.path.basename(path) not in ('Answers.antt', 'Invariants.antt', 'Lib.antt'):
            for line in read(path):
                found = re.match(r'\s*(?:unfoldable |abbrev )?pub (?:record |data )?([^\s:({]+) :', line)
                if found:
                    known.setdefault(found.group(1), []).append(path)
    return known


def proof_words():
    """How often each word stands in the proofs, `use` lines apart."""
    count = {}
    for path in files('crates', '.antt'):
        if '/proofs/' in path:
            for line in read(path):
                if not line.startswith('use '):
                    for word in set(words(line)):
                        count[word] = count.get(word, 0) + 1
    return count


def table():
    """The rows of README.md's table of the files to believe: file, line number."""
    rows = {}
    for i, line in enumerate(read('README.md')):
        row = re.match(r'\| \[[^\]]*\]\((crates/[^)]*)\) \|', line)
        if row:
            rows[row.group(1)] = i
    return rows


def says(path):
    """What a file's first comment says of it."""
    first = next((line for line in read(path) if line.startswith('-- ')), '-- ')
    text = re.split(r'[.:(] ?', first[3:])[0].strip()
    return text[:1].lower() + text[1:] if text[1:2].islower() or text[1:2] == ' ' else text


class Counted:
    """How much of a file is reached: its lines, those of the definitions that public contracts reach, and those for the read-back theorem."""
    def __init__(self, path, believed, demand):
        blocks = module(path).blocks
        self.path, self.lines = path, module(path).length
        self.reached = sum(blocks[name][0] for p, name in believed if p == path)
        self.back = sum(blocks[name][0] for p, name in demand if p == path)

    def numbers(self):
        return [self.lines, self.reached, self.back]

    def row(self, text):
        shown = ' | '.join(str(n) if n else '' for n in self.numbers()).replace('|  |', '| |')
        return re.sub(r' +\|', ' |', f'| [{self.path.removeprefix("crates/")}]({self.path}) | {shown} | {text} |')


def written(counted, listed):
    """README.md with the table as it should be: a missing row goes behind the last one of its crate, or to the end."""
    text = read('README.md')
    for path, i in listed.items():
        cells = text[i].strip().strip('|').split('|')
        text[i] = counted[path].row(cells[-1].strip()) if path in counted else None
    for path in sorted(path for path in set(counted) - set(listed) if '/proofs/' not in path):
        crate = path.split('/specs/')[0] + '/'
        behind = max([i for p, i in listed.items() if p.startswith(crate)] or listed.values())
        text[behind] = '\n'.join(filter(None, (text[behind], counted[path].row(says(path)))))
    return '\n'.join(line for line in text if line is not None)


def unnamed(every, named):
    """The functions of crates of theorems that the table of theorems does not name."""
    names = {(n.name, f.path) for f in every for n in named if n.near(f.path)}
    return [f for f in every if f.crate in of_theorems(every) and (f.last(), f.path) not in names]


def owed(every, named):
    """Those of them that it has to name: a crate's own, in src/lib.rt, and one where the crate has no name there at all."""
    missing = unnamed(every, named)
    known = {f.crate for f in every if f not in missing}
    return [f for f in missing if f.path.endswith('/src/lib.rt') or f.crate not in known]


def told(heading):
    """The names in backticks of a part of README.md."""
    return {name for line in section(heading) for name in re.findall(r'`([\w-]+)`', line)}


def misnamed(every, named, believed):
    """What the table of theorems and the rest of README.md name that no contract cites."""
    known, count = lemmas(), proof_words()
    public = entries(every, named)
    reached = {}
    for path, name in believed:
        reached.setdefault(name, []).append(path)
    for n in named:
        if not any(n.near(f.path) for f in public if f.last() == n.name) and not any(n.near(path) for path in reached.get(n.name, [])):
            what = 'a lemma that no contract cites' if n.name in known else 'no public entry, and no definition that a public contract reaches'
            yield f'README.md, table of theorems: {n} is {what}'
    marked = told(STEPS) | told(UNSTATED)
    sound = set(reached) | {f.last() for f in every}
    for line in read('README.md'):
        for name in re.findall(r'`([\w-]+)`', line):
            if name in known and name not in marked | sound:
                yield f'README.md names the lemma `{name}` outside of "{STEPS[4:]}"'
    for name in sorted(marked - sound):
        if name not in known:
            yield f'README.md names `{name}` among the lemmas, and it is declared in no proofs/ folder'
        elif name not in told(UNSTATED) and count.get(name, 0) <= 2 * len(known[name]):
            yield f'README.md names the lemma `{name}` among the steps of proofs, and no proof cites it'


def unreached(folders, believed):
    """The definitions in these folders that no public contract reaches."""
    for folder in folders:
        for path in files(folder, '.antt'):
            if not path.endswith('/Lib.antt'):
                for name in module(path).blocks:
                    if (path, name) not in believed:
                        yield f'{path}: no public contract reaches {name}'


def complaints(every, named, believed, counted, listed):
    yield from exported()
    yield from misnamed(every, named, believed)
    for f in owed(every, named):
        yield f"{f} is a function of a crate of theorems, and README.md's table of theorems does not name it"
    for f in entries(every, named):
        if f.requires and str(f) not in HELPERS:
            yield f'{f} is a public entry and has a `requires`'
    for path in sorted(counted):
        if '/proofs/' in path:
            for name in sorted(name for p, name in believed if p == path):
                yield f'{path} stands in a proofs/ folder, and public contracts reach {name}'
        elif path not in listed:
            yield f"{path} is reached by public contracts and is not in README.md's table (--write puts it in)"
    for path in sorted(set(listed) - set(counted)):
        yield f"{path} is in README.md's table and no public contract reaches it"
    yield from unreached(WHOLE, believed)
    text = read('README.md')
    for path in sorted(set(listed) & set(counted)):
        cells = text[listed[path]].split('|')[2:5]
        for cell, now in zip(cells, counted[path].numbers()):
            if not re.fullmatch(r' *\d* *', cell) or abs(int(cell.strip() or 0) - now) > max(3, now // 10):
                yield f'{path}: {now} lines, README.md says {cell.strip() or 0} (--write counts them)'


def main():
    every, named = functions(), theorems()
    public = entries(every, named)
    roots = {found for f in public for found in f.cites}
    if not named or not public or not roots:
        sys.exit('believed: no public contract was found')

    def size(path, name):
        return 0 if path.endswith('/src') else module(path).blocks[name][0]

    if '--of' in sys.argv:
        wanted = sys.argv[sys.argv.index('--of') + 1]
        found = sorted(reach({root for root in roots if root[1] == wanted}))
        for path, name in found:
            print(f'{path} {name} {size(path, name)}')
        print(f'{sum(size(path, name) for path, name in found)} lines')
        return
    if '--entries' in sys.argv:
        for f in public:
            print(f'{f} {sum(size(path, name) for path, name in reach(f.cites))}')
        return
    believed = reach(roots)
    demand = reach({root for root in roots if root[1] == READ_BACK})
    counted = {path: Counted(path, believed, demand) for path in {path for path, _ in believed if not path.endswith('/src')}}
    listed = table()
    if '--lacks' in sys.argv:
        for f in unnamed(every, named):
            cited = ', '.join(sorted({f'`{name}`' for path, name in f.cites if path.startswith(f'crates/{f.crate}/specs/')}))
            print(f'| STATEMENT | `{f.last()}`, {f.path}' + (f'; {cited}, crates/{f.crate}/specs' if cited else '') + ' |')
        for path in sorted(set(counted) - set(listed)):
            print(counted[path].row(says(path)))
        for line in misnamed(every, named, believed):
            print(line)
        for name in sorted(told(UNSTATED) & set(lemmas())):
            print(f'README.md, "{UNSTATED[4:]}": `{name}` should be a clause of a public function')
        for line in unreached([f'crates/{name}/specs/' for name in sorted(of_theorems(every))], believed):
            print(line)
        return
    if '--write' in sys.argv:
        text = written(counted, listed)
        with open(os.path.join(ROOT, 'README.md'), 'w', encoding='utf-8') as file:
            file.write(text)
        listed = table()
    bad = list(complaints(every, named, believed, counted, listed))
    for line in bad:
        print('believed:', line, file=sys.stderr)
    lines = sum(c.lines for c in counted.values())
    reached = sum(c.reached for c in counted.values())
    back = sum(c.back for c in counted.values())
    print(f'believed: {len(public)} public entries reach {reached} lines of definitions in {len(counted)} files of {lines} lines; '
          f'the read-back theorem needs {back}')
    if bad:
        sys.exit(1)


main()
