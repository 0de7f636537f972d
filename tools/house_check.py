#!/usr/bin/env python3
"""What can be seen of a tree without a prover: that each path means something that is there.

    tools/house_check.py [FOLDER]
    tools/house_check.py [FOLDER] --was OLD     also: what the files say, line by line, is what those of OLD say, but for paths, `use` and `mod`

It looks at
- crates.txt: each crate of crates/ is listed, stands only on crates that are listed or the kit's, in no circle, and has no name of the kit's;
- `use` lines and paths in code: each resolves to a module and a public item, of the crate itself or of one that it stands on;
- modules: no two items of one that differ only in case, no module beside an item of its name that is brought in, none called as a crate
  that is used, and no file of src/ that no `mod` names;
- `use` lines of specs/ and proofs/, `ghost use` lines and the paths of attributes: the file is there, declared in Lib.antt, and has the
  names; what is generated stands for a type, a variant, a constant or a function that is there; and the files import one another in no
  circle;
- proofs/: each folder is that of a function, and no name there is that of another but for its case;
- must-fail edits: each `old:` stands once in its file, one behind the other, and the paths of each `new:` resolve.

It reads and does not prove: what a path means to the prover, and the layout of rt fmt, it does not know."""
import collections, os, re, sys

WAS = sys.argv[sys.argv.index('--was') + 1] if '--was' in sys.argv else None
GIVEN = [word for word in sys.argv[1:] if word != WAS and not word.startswith('-')]
ROOT = os.path.abspath(GIVEN[0] if GIVEN else os.path.join(os.path.dirname(os.path.abspath(__file__)), '..'))
KIT = '/opt/rattle/rlibs'
bad = []


def read(path):
    with open(os.path.join(ROOT, path), encoding='utf-8') as file:
        return file.read()


def tree(folder):
    for place, inner, names in os.walk(os.path.join(ROOT, folder)):
        inner[:] = sorted(n for n in inner if n != 'out')
        for name in sorted(names):
            yield os.path.relpath(os.path.join(place, name), ROOT)


STANDS = {f.group(1): f.group(2).split() for f in re.finditer(r'^(\w+)(?: [\w= ]+)?:(.*)', read('crates.txt'), re.M)}
LIBRARIES = {n[:-5] for n in os.listdir(KIT)} if os.path.isdir(KIT) else set()


# ---- the sources

def plain(text):
    """Code without comments, strings, clauses and ghost lines."""
    text = re.sub(r'^\s*ghost [^\n]*$', '', text, flags=re.M)
    text = re.sub(r'"(?:\\.|[^"\\\n])*"|(?<!\w)\'(?:\\.|[^\'\\])\'', '""', text)
    text = re.sub(r'//[^\n]*', '', text)
    out, i = [], 0
    for found in re.finditer(r'\b(?:requires|ensures|invariant|decreases)\b[^{;\n]*\{', text):
        if found.start() < i:
            continue
        out.append(text[i:found.start()])
        depth, i = 1, found.end()
        while i < len(text) and depth:
            depth += {'{': 1, '}': -1}.get(text[i], 0)
            i += 1
    return ''.join(out) + text[i:]


def leaves(text, front=()):
    """The paths of a `use` tree, each with the name that it brings in."""
    depth, part, parts = 0, '', []
    for c in text + ',':
        if c == ',' and not depth:
            parts.append(' '.join(part.split()))
            part = ''
            continue
        depth += {'{': 1, '}': -1}.get(c, 0)
        part += c
    for part in filter(None, parts):
        group = re.match(r'(.*?)::\s*\{(.*)\}$', part)
        if group:
            yield from leaves(group.group(2), front + tuple(group.group(1).split('::')))
        else:
            path, _, alias = part.partition(' as ')
            names = front + tuple(n.strip() for n in path.split('::'))
            names = names[:-1] if names[-1] == 'self' else names
            yield names, alias or names[-1]


ITEM = re.compile(r'^(pub(?:\([\w ]+\))? )?(?:unsafe )?(?:extern "C" |extern "" )?(?:const |unsafe )?(fn|struct|enum|trait|const|static|type|mod) (\w+)', re.M)


class Module:
    def __init__(self, crate, path, file):
        self.crate, self.path, self.file, self.text = crate, path, file, read(file)
        self.code = plain(self.text)
        self.items, self.mods, self.brought = {}, {}, {}
        for shown, kind, name in ITEM.findall(self.code):
            for other, (was, _) in self.items.items():
                if not {kind, was} & {'const', 'static'} and other.lower() == name.lower():
                    bad.append(f'{file}: {name} and {other} stand in one module')
            self.items[name] = (kind, bool(shown))
            if kind == 'mod' and re.search(rf'^(?:pub )?mod {name};', self.code, re.M):
                self.mods[name] = None
        for shown, body in re.findall(r'^(pub )?use ([^;]*);', self.code, re.M):
            for names, name in leaves(body):
                if name in self.brought:
                    bad.append(f'{file}: {name} is brought in twice')
                if name in self.items:
                    bad.append(f'{file}: {name} is brought in, and stands there')
                if name in STANDS[crate] and names[-1] == name and len(names) > 1:
                    bad.append(f'{file}: {name} is brought in, and is a crate that is used')
                self.brought[name] = (names, bool(shown))

    def within(self, other):
        return self.crate == other.crate and self.path[:len(other.path)] == other.path


MODULES, SOURCES = {}, {}


def load(crate, path, file):
    if not os.path.exists(os.path.join(ROOT, file)):
        bad.append(f'{file} is named by a `mod` line, and is not there')
        return
    here = MODULES[crate, path] = SOURCES[file] = Module(crate, path, file)
    folder = file[:-3] if path else os.path.dirname(file)
    for name in here.mods:
        here.mods[name] = path + (name,)
        if name in STANDS.get(crate, []) + ['std', 'core', 'alloc']:
            bad.append(f'{file}: the module {name} is called as a crate that is used')
        load(crate, path + (name,), f'{folder}/{name}.rt')


def resolve(here, names, seen=()):
    """What a path means, or why it means nothing."""
    first, rest = names[0], list(names[1:])
    if first in ('crate', 'self', 'super'):
        at = {'crate': (), 'self': here.path, 'super': here.path[:-1]}[first]
        if not rest and first == 'crate':
            return 'a path ends at crate'
        return follow(here, MODULES.get((here.crate, at)), rest, seen)
    if first in here.mods or first in here.items:
        return follow(here, here, [first] + rest, seen)
    if first in here.brought and here.brought[first][0][0] != first:
        return follow(here, here, [first] + rest, seen)
    if first in STANDS[here.crate]:
        return follow(here, MODULES[first, ()], rest, seen) if first in STANDS else None
    if first in ('std', 'core', 'alloc'):
        return None
    return f'no crate that it stands on, and no module here, is {first}'


def follow(here, at, rest, seen):
    while rest:
        if at is None:
            return 'no such module'
        name = rest.pop(0)
        if name in at.items:
            kind, shown = at.items[name]
            if not shown and not here.within(at):
                return f'{name} of {at.file} is private'
            if name not in at.mods:
                return None
            at = MODULES.get((at.crate, at.mods[name]))
        elif name in at.brought:
            names, shown = at.brought[name]
            if not shown and not here.within(at):
                return f'{name} is not brought out by {at.file}'
            if (at.file, name) in seen:
                return f'{name} of {at.file} goes in a circle'
            return resolve(at, list(names) + rest, seen + ((at.file, name),))
        else:
            return f'{at.file} has no {name}'
    return None


def paths_of(here, code):
    """Paths in code that begin with a small letter."""
    code = re.sub(r'#!?\[[^\]]*\]', '', code)
    local = set(re.findall(r'^\s+use [^;]*;', code, re.M))
    for found in re.finditer(r'(?<![\w:.>])([a-z]\w*)((?:::\w+)+)', code):
        names = [found.group(1)] + found.group(2).split('::')[1:]
        if names[0] in ('u8', 'u16', 'u32', 'u64', 'usize', 'i8', 'i16', 'i32', 'i64', 'isize', 'u128', 'i128', 'bool', 'char', 'str', 'f64'):
            continue
        yield names, local


def check_sources():
    for crate in STANDS:
        root = next((f'crates/{crate}/src/{n}.rt' for n in ('lib', 'main') if os.path.exists(os.path.join(ROOT, f'crates/{crate}/src/{n}.rt'))), None)
        if root is None:
            bad.append(f'crates.txt: {crate} has no src/lib.rt')
        else:
            load(crate, (), root)
        if crate in LIBRARIES:
            bad.append(f'crates.txt: {crate} is a library of the kit')
        for below in STANDS[crate]:
            if below not in STANDS and below not in LIBRARIES:
                bad.append(f'crates.txt: {crate} stands on {below}, which is nowhere')
    for crate in os.listdir(os.path.join(ROOT, 'crates')):
        if crate not in STANDS:
            bad.append(f'crates/{crate} is not in crates.txt')
    for file in tree('crates'):
        if file.endswith('.rt') and file not in SOURCES:
            bad.append(f'{file}: no `mod` line names it')
    count = 0
    for here in SOURCES.values():
        for names, _ in here.brought.values():
            count += 1
            why = resolve(here, names)
            if why:
                bad.append(f'{here.file}: use {"::".join(names)}: {why}')
        body = re.sub(r'^(?:pub )?use [^;]*;', '', here.code, flags=re.M)
        inner = re.search(r'^(?:pub )?mod \w+ \{\n(.*?)^\}', body, re.M | re.S)
        names_in = {n for b in re.findall(r'^\s+use ([^;]*);', inner.group(1), re.M) for _, n in leaves(b)} if inner else set()
        for names, _ in paths_of(here, re.sub(r'^\s+use [^;]*;', '', body, flags=re.M)):
            count += 1
            if names[0] in names_in:
                continue
            why = resolve(here, names)
            if why:
                bad.append(f'{here.file}: {"::".join(names)}: {why}')
    return count


def circle(edges, what):
    state = {}
    def visit(node, trail):
        state[node] = 1
        for other in edges.get(node, ()):
            if state.get(other) == 1:
                bad.append(f'{what} go in a circle: ' + ' '.join(trail[trail.index(other):] if other in trail else [other]))
            elif other not in state:
                visit(other, trail + [other])
        state[node] = 2
    for node in list(edges):
        if node not in state:
            visit(node, [node])


# ---- definitions and proofs

DECLARED = re.compile(r'^\s*(?:(?:abbrev|unfoldable|pub|record|data|ruleset|axiom|syntax|infixl|infixr|infix)\s+)*([^\s:({]+)')
NAMES = {}


def names_of(file):
    """Every name that a file may declare or pass on."""
    if file not in NAMES:
        NAMES[file] = set()
        for line in read(file).split('\n'):
            passed = re.match(r'\s*pub use .*\.\{(.*)\}', line)
            found = DECLARED.match(line)
            if passed:
                NAMES[file] |= {n.split(' as ')[-1].strip() for n in passed.group(1).split(',')}
            elif found and not line.startswith(('use ', 'mod ', 'pub mod ', '--')):
                NAMES[file].add(found.group(1))
    return NAMES[file]


def function_of(crate, rest):
    """Whether the names are those of a function, behind modules and a type."""
    rest, at = [n.strip('«»') for n in rest], MODULES.get((crate, ()))
    while len(rest) > 1 and at and rest[0] in at.mods:
        at = MODULES.get((crate, at.mods[rest.pop(0)]))
    if not at or not rest or len(rest) > 2:
        return False
    owner, _, name = '/'.join(rest).replace('+', '/').rpartition('/')
    types = re.findall(r'\b(?:struct|enum|trait|impl|for) (?:<[^>]*> )?(\w+)', at.text)
    return (not owner or any(owner.startswith(t) or 'From' in owner and owner.endswith(t) for t in types)) and any(
        re.search(rf'\b(?:fn|const|static|struct|enum) {name}\b', m.text) for m in MODULES.values() if m.crate == crate)


def type_of(crate, rest, names):
    """What is wrong with a path behind `declared` or `contracts`."""
    rest, at = [n.strip('«»') for n in rest], MODULES.get((crate, ()))
    while rest and at and rest[0] in at.mods:
        at = MODULES.get((crate, at.mods[rest.pop(0)]))
    if not at or not rest:
        return 'no such module'
    if rest[0] == 'TheConstants':
        return next((f'{n} is no constant of {at.file}' for n in names if not re.search(rf'\b(?:const|static) {n}\b', at.code)), None)
    kind = at.items.get(rest[0], ('',))[0]
    if kind not in ('struct', 'enum', 'trait'):
        return f'{rest[0]} is no type of {at.file}'
    if rest[1:] == ['TheVariants']:
        body = re.search(rf'\benum {rest[0]}\b[^{{]*\{{(.*?)^\}}', at.text, re.M | re.S)
        return next((f'{n} is no variant of {rest[0]}' for n in names if not body or not re.search(rf'^\s*{re.escape(n)}\b', body.group(1), re.M)), None)
    return None


def import_of(crate, path, names, told):
    """The file that an import means, or None for what is generated and what is the toolchain's; what is wrong is told."""
    found = re.match(r'Rattle\.([a-z_0-9]+)\.(specs|proofs)\.?(.*)$', path)
    if not found or found.group(1) not in STANDS and found.group(1) in LIBRARIES | {'std', 'core'}:
        return None
    other, folder, rest = found.group(1), found.group(2), [n for n in found.group(3).split('.') if n]
    if other != crate and other not in STANDS.get(crate, []):
        bad.append(f'{told}: {path}: {crate} does not stand on {other}')
        return None
    file = f'crates/{other}/{folder}/{"/".join(rest)}.antt'
    if rest and rest[0] in ('declared', 'contracts') and folder == 'specs':
        why = type_of(other, rest[1:], names)
    elif len(rest) > 1 and rest[-1] in ('Goals', 'Given', 'Contract', 'Context') and folder == 'proofs':
        why = None if function_of(other, rest[:-1]) else 'no such function'
    elif not os.path.exists(os.path.join(ROOT, file)):
        why = 'no such file'
    else:
        lib = f'crates/{other}/{folder}/Lib.antt'
        why = next((f'{n} is not declared there' for n in names if n not in names_of(file)), None)
        line = r'pub mod' if folder == 'specs' or other != crate else r'(?:pub )?mod'
        if not re.search(rf'^{line} {re.escape(rest[0])}$', read(lib), re.M):
            why = f'{lib} does not declare it'
        if why is None:
            return file
    if why:
        bad.append(f'{told}: {path}: {why}')
    return None


def imports(text):
    for found in re.finditer(r'^\s*(?:pub |ghost )*use (Rattle\.[^\s{;]+?)(?:\.\{([^}]*)\})?(?: as [^\s;]+)?\s*;?$', text, re.M):
        yield found.group(1), [n.split(' as ')[0].strip() for n in (found.group(2) or '').split(',') if n.strip()]


def check_imports():
    edges, count = {}, 0
    for file in tree('crates'):
        crate = file.split('/')[1]
        if file.endswith('.antt'):
            text, lines = read(file), 0
            for path, names in imports(text):
                lines += 1
                to = import_of(crate, path, names, file)
                if to:
                    edges.setdefault(file, set()).add(to)
            count += lines
            if lines != len(re.findall(r'^\s*(?:pub |ghost )*use Rattle\.', text, re.M)):
                bad.append(f'{file}: an import is not understood')
            parts = file.split('/')
            if len(parts) == 4 and parts[3] != 'Lib.antt' and parts[2] in ('specs', 'proofs'):
                if not re.search(rf'^(?:pub )?mod {re.escape(parts[3][:-5])}$', read('/'.join(parts[:3]) + '/Lib.antt'), re.M):
                    bad.append(f'{file}: Lib.antt does not name it')
            if len(parts) > 4 and parts[2] == 'proofs' and not function_of(crate, parts[3:-1]):
                bad.append(f'{file}: the folder is that of no function')
            if parts[3:] == ['Lib.antt']:
                mods = re.findall(r'^(?:pub )?mod (\S+)$', text, re.M)
                for name in mods:
                    if mods.count(name) > 1 or not os.path.exists(os.path.join(ROOT, '/'.join(parts[:3] + [name + '.antt']))):
                        bad.append(f'{file}: {name} is not there, or twice')
        elif file.endswith('.rt'):
            text = read(file)
            for path, names in imports(text):
                count += 1
                import_of(crate, path, names, file)
            for front, rest in re.findall(r'(?<![\w:])(\w+)::((?:specs|proofs)::[\w:]+)', text):
                count += 1
                names = rest.split('::')
                import_of(crate, '.'.join(['Rattle', crate if front == 'crate' else front] + names[:-1]), names[-1:], file)
    circle(edges, 'imports')
    for place, inner, names in os.walk(os.path.join(ROOT, 'crates')):
        inner[:] = [n for n in inner if n != 'out']
        if '/proofs' in place or '/specs' in place:
            every = [n.removesuffix('.antt') for n in inner + names]
            for name in every:
                if any(name != n and name.lower() == n.lower() for n in every) or every.count(name) > 1:
                    bad.append(f'{os.path.relpath(place, ROOT)}: {name} stands there in two ways of writing')
    return count


def check_edits():
    count = 0
    for file in tree('crates'):
        if not file.endswith('.edit') or '/must-fail' not in file:
            continue
        count += 1
        target, texts, old = None, {}, None
        for line in read(file).split('\n'):
            word, _, rest = line.partition(': ')
            if word == 'file':
                target = '/'.join(file.split('/')[:2] + [rest])
                if target not in texts and not os.path.exists(os.path.join(ROOT, target)):
                    bad.append(f'{file}: {rest} is not there')
                    break
                texts.setdefault(target, read(target))
            elif word == 'old' or line == 'old:':
                old = line[5:]
                lines = texts[target].count(old)
                if lines != 1:
                    bad.append(f'{file}: stands {lines} times: {old.strip()[:90]}')
            elif word == 'new' or line == 'new:':
                texts[target] = texts[target].replace(old, line[5:])
                here = SOURCES.get(target)
                for names, _ in paths_of(here, plain(line[5:])) if here else ():
                    why = resolve(here, names)
                    if why:
                        bad.append(f'{file}: {"::".join(names)}: {why}')
    return count


def said(root, ending):
    """The lines of all files of a kind, without comments, imports, `mod` lines and the paths in front of names."""
    count = collections.Counter()
    for place, inner, names in os.walk(os.path.join(root, 'crates')):
        inner[:] = [n for n in inner if n != 'out']
        for name in names:
            if name.endswith(ending):
                with open(os.path.join(place, name), encoding='utf-8') as file:
                    text = re.sub(r'^\s*(?:pub |ghost )*use [^;\n{]*(?:\{[^}]*\})?[^;\n]*;?$|^\s*(?:pub )?mod \S+$|^file: .*|^#.*tactic.*', '', file.read(), flags=re.M)
                for line in text.split('\n'):
                    line = re.sub(r'--.*|^# .*', '', line) if ending != '.rt' else re.sub(r'//.*', '', line)
                    count[re.sub(r'\b(?:[a-z_0-9]+::)+', '', line).rstrip()] += 1
    del count['']
    return count


def check_said(old):
    for ending in ('.rt', '.antt', '.edit'):
        was, now = said(old, ending), said(ROOT, ending)
        for line in list(was - now) + list(now - was):
            bad.append(f'{ending}: said {was[line]} times, and now {now[line]}: {line.strip()[:120]}')
        print(f'house_check: {sum(was.values())} lines of {ending} before, {sum(now.values())} now')


def main():
    if WAS:
        check_said(WAS)
    paths = check_sources()
    circle({c: [d for d in on if d in STANDS] for c, on in STANDS.items()}, 'crates')
    lines = check_imports()
    tried = check_edits()
    for line in bad:
        print('house_check:', line)
    print(f'house_check: {len(STANDS)} crates, {len(SOURCES)} sources, {paths} paths of code, {lines} imports and paths of attributes, '
          f'{tried} edits: {len(bad)} faults')
    sys.exit(bool(bad))


main()
