#!/usr/bin/env python3
"""The crates, moved into fewer: each crate becomes a module of a crate that is named for a thing of the field.

    tools/house.py [FOLDER]        moves the tree that it stands in, or that of FOLDER (nothing uncommitted may be in it)
    tools/house.py --map           prints the map, and changes nothing
    tools/house_check.py           then: every path of the sources, definitions, proofs and edits resolves
    (cd crates/NAME && rt fmt)     then, in each crate: lines that a path made longer or shorter; and tools/house_check.py again

HOUSE is the map: a new crate, what it is, and the crates that go into it, each with the name of its module. A crate with the module ''
is the root: its src/lib.rt stays src/lib.rt, and its modules are the new crate's. Where more than one is a root, the roots hold nothing but
`mod` and `pub use` lines, which are put together. What the map does not name stays as it is, but for the paths in it.

For a crate A that becomes module m of B
- src/lib.rt becomes src/m.rt, and src/x.rt becomes src/m/x.rt; `#![tactic(auto)]` stands in B's root alone;
- specs/X.antt keeps its name. Where two have it, the root's keeps it, and the others have their module in front (MX.antt);
- so do the lemmas of proofs/; a lemma file whose name is that of a module but for its case becomes XLaws.antt;
- what is generated for a module stands below its name: `Rattle.A.specs.declared.T` is `Rattle.B.specs.declared.m.T` (so `contracts` and
  `TheConstants`), and the proof of A's function f is in proofs/m/f, its goals in `Rattle.B.proofs.m.f.Goals`;
- must-fail edits keep their names, with the module in front where two have one;
- in the sources `use A::x` is `use B::m::x`, within B `use crate::m::x`; a path `A::f` in code is `m::f`, and `use B::m` is added to its
  file, but where that name is taken there: then it is the whole path. In attributes `A::specs::X::x` and `A::proofs::L::l` follow their files.
- crates.txt is written anew: each new crate stands on what its parts stood on.

In docs, README, .ci and the other texts the paths of files, the backticked names `A::f`, `A/edit` and `A/File` follow; what they say in
prose of a crate does not. docs/CHANGES.md and the records of past work in docs stay as they are. It runs once; on a newer tree a crate
that is new needs a row of HOUSE only if it is to move. It ends with what it could not place."""
import os, re, subprocess, sys

HERE = os.path.join(os.path.dirname(os.path.abspath(__file__)), '..')
ROOT = os.path.abspath(next((word for word in sys.argv[1:] if not word.startswith('-')), HERE))
HOUSE = [
    ('format', 'The types, and the definitions and laws that everything cites.', [('format', '')]),
    # `bytes` is a library of the kit, whose names are taken.
    ('byte_fields', 'Fields of bytes: LEB128 numbers, numbers of the formats and their sizes, relocations, as they are stored.',
     [('leb', 'leb'), ('numbers', 'numbers'), ('relocs', 'relocs')]),
    # Rows lie below the lists, which say what numbers a row is, and the entries above them: so rows stand here, and not with the entries.
    ('lists', 'The lists of numbers that the writers take, and what they mean; rows as operations; ready machines.',
     [('lists', ''), ('rows', 'rows'), ('machines', 'machines')]),
    ('dwarf_entries', 'A CIE and an FDE as bytes: what a header shares, headers, records.',
     [('header_keys', 'header_keys'), ('headers', 'headers'), ('records', 'records')]),
    ('dwarf_write', 'The DWARF sections: shared headers, questions 21 to 25 and 51 to 54, and the writing.',
     [('owners', 'owners'), ('dwarf', 'sections')]),
    ('dwarf_read', 'The reader of sections that this library wrote: entries, fields, location, run; and the rules that rows give.',
     [('reader', ''), ('rules', 'rules')]),
    ('x64_write', 'Windows x64: codes, prologues, records.', [('codes', 'codes'), ('prologue', 'prologue'), ('x64', 'tables')]),
    ('x64_read', 'The x64 record at a place, read, and its export.', [('x64_reader', '')]),
    ('call_sites', 'Call sites read, and their export.', [('call_sites', '')]),
    ('apply', 'Relocations applied: a section put in place.', [('apply', '')]),
    ('walk', 'The walk over the frames of a recorded fault, by rules and by a section.', [('walk', ''), ('walked', 'by_reader')]),
    ('unwind', "The library's entries, over lists of numbers and over lists of structs.", [('unwind', ''), ('struct_entries', 'struct_entries')]),
    # In two, since what goes by index stands on `unwind`, and what is asked of a section itself does not.
    ('dwarf_inspect', 'A section taken apart: entries, fields one by one, operations, the check.', [('parts', ''), ('section_check', 'section_check')]),
    ('dwarf_lookup', 'Records by number, place, index and address: located, their rules at a place, of all registers, and all along.',
     [('reads', ''), ('listing', 'listing'), ('lookup', 'entries')]),
    ('arm64', 'Windows on ARM64: the types and definitions of its unwind data.', [('arm64', '')]),
    ('arm64_codes', 'Codes of Windows on ARM64: read and written, their runs, the header of a record and the packed word.',
     [('arm64_codes', ''), ('arm64_runs', 'runs'), ('arm64_packed', 'packed'), ('arm64_spelled', 'spelled'), ('arm64_simple', 'simple'),
      ('arm64_sharing', 'sharing'), ('arm64_packing', 'packing'), ('arm64_header', 'header')]),
    # A module may not be called as a crate that is used, so `given` and not `lists`.
    ('arm64_write', 'The tables of Windows on ARM64: question 13, one function, all of them.',
     [('arm64_lists', 'given'), ('arm64_function', 'function'), ('arm64_table', 'table')]),
    ('arm64_read', 'Records of Windows on ARM64, read.', [('arm64_records', 'records'), ('arm64_reader', 'reader')]),
    ('elf', 'The tables of an ELF file. It stands on std alone.', [('elf', ''), ('elf_symbols', ''), ('elf_layout', 'layout')]),
    ('cfi', 'Call frame information as every compiler writes it: entries, pointers, fields, operations, rules.',
     [('cfi_entries', ''), ('cfi_pointers', ''), ('cfi_fields', ''), ('cfi_operations', ''), ('cfi_rules', '')]),
    # `round_trips` has tests, and a crate with tests is proved twice: it stays by itself.
    ('read_back', 'Functions whose contracts are the theorems: what is written reads back.',
     [('two_sections', 'two_sections'), ('apply_back', 'apply_back'), ('sites_back', 'sites_back'), ('checked_back', 'checked_back'),
      ('walked_back', 'walked_back'), ('x64_back', 'x64_back'), ('arm64_back', 'arm64_back')]),
]
# Files of docs that tell of past work, and what the differential runs were given and gave: nothing is renamed in them.
AS_IT_WAS = re.compile(r'docs/(CHANGES|DESIGN-PASS|PORT)|differential/(expected|cases)|tools/house|crates\.txt|crates/')
# What else has to change in the gate's own programs, each text standing once.
GATE = {
    '.ci/believed.py': [
        ("function, and of that file's whole crate where it is src/lib.rt (what", "function, and of the modules below that file: the whole crate for src/lib.rt (what"),
        ("NOT_EXPORTED_YET = ('cfi_rules',)", "NOT_EXPORTED_YET = ('cfi',)"),
        ("WHOLE = ('crates/format/specs/', 'crates/unwind/specs/')\n",
         "WHOLE = ('crates/format/specs/', 'crates/unwind/specs/')\n"
         "# But for what functions over lists of structs promise one another.\n"
         "NOT_WHOLE = tuple(f'crates/unwind/specs/{name}.antt' for name in ('Structs', 'Packed', 'StructEntries'))\n"),
        ("            if not path.endswith('/Lib.antt'):\n", "            if not path.endswith('/Lib.antt') and path not in NOT_WHOLE:\n"),
        ("- a definition of a folder in WHOLE is not reached;", "- a definition of a folder in WHOLE is not reached, but for the files NOT_WHOLE;"),
        ("    told = {f.path for f in every for n in named if not f.exported and f.last() == n.name and n.near(f.path)}\n"
         "    return [f for f in every if f.exported or f.crate in alone or told & {f.path, f'crates/{f.crate}/src/lib.rt'}]\n",
         "    told = {f.path for f in every for n in named if not f.exported and f.last() == n.name and n.near(f.path)}\n"
         "    return [f for f in every if f.exported or f.crate in alone or told & set(above(f.path))]\n\n\n"
         "def above(path):\n"
         "    \"\"\"A source file, the files of the modules that it is in, and the crate's root.\"\"\"\n"
         "    folder, file = os.path.split(path)\n"
         "    while file:\n"
         "        yield os.path.join(folder, file)\n"
         "        folder, file = os.path.split(folder) if os.path.basename(folder) != 'src' else (folder, '')\n"
         "        file = file and file + '.rt'\n"
         "    yield os.path.join(folder, 'lib.rt')\n"),
    ],
    'tools/design_places.py': [('glob.glob(os.path.join(ROOT, "crates/*/src/*.rt"))', 'glob.glob(os.path.join(ROOT, "crates/*/src/**/*.rt"), recursive=True)')],
}
open_points = []


def read(path):
    with open(os.path.join(ROOT, path), encoding='utf-8') as file:
        return file.read()


def write(path, text):
    os.makedirs(os.path.dirname(os.path.join(ROOT, path)), exist_ok=True)
    with open(os.path.join(ROOT, path), 'w', encoding='utf-8') as file:
        file.write(text)


def tree(folder):
    """The files below a folder, from the folder on; not what a check made."""
    for place, inner, names in os.walk(os.path.join(ROOT, folder)):
        inner[:] = sorted(n for n in inner if n != 'out')
        for name in sorted(names):
            yield os.path.relpath(os.path.join(place, name), os.path.join(ROOT, folder))


def camel(name):
    return ''.join(part.capitalize() for part in name.split('_'))


TO = {old: (new, module) for new, _, parts in HOUSE for old, module in parts}
SPECS, LEMMAS, EDITS = {}, {}, {}


def stems(crate, folder):
    place = os.path.join(ROOT, 'crates', crate, folder)
    return sorted(n[:-5] for n in os.listdir(place) if n.endswith('.antt') and n != 'Lib.antt') if os.path.isdir(place) else []


def edits(crate):
    return [(folder, n) for folder in ('must-fail', 'must-fail-long') for n in tree(f'crates/{crate}/{folder}') if n.endswith('.edit')]


def name_files():
    """What each file of specs, each file of lemmas and each edit is called in its new crate."""
    for new, _, parts in HOUSE:
        many = lambda names: {n for n in names if sum(x.lower() == n.lower() for x in names) > 1}
        twice_s = many([n for old, _ in parts for n in stems(old, 'specs')])
        twice_l = many([n for old, _ in parts for n in stems(old, 'proofs')])
        twice_e = many([n for old, _ in parts for _, n in edits(old)])
        modules = {m for _, m in parts} | {os.path.splitext(n.split('/')[0])[0] for old, m in parts if not m for n in tree(f'crates/{old}/src')}
        for old, module in parts:
            root = not module and [m for _, m in parts].count('') == 1
            front = camel((module or old).removesuffix('_back'))
            other = lambda n: front if front.endswith(n) else front + n
            for n in stems(old, 'specs'):
                SPECS[old, n] = other(n) if n in twice_s and not root else n
            for n in stems(old, 'proofs'):
                named = other(n) if n in twice_l and not root else n
                LEMMAS[old, n] = named + 'Laws' if named.lower() in modules else named
            for _, n in edits(old):
                plain = n.removeprefix('definition_')
                EDITS[old, n] = n[:len(n) - len(plain)] + f'{module or old}_{plain}' if n in twice_e and not root else n


# ---- paths

def antt(crate, folder, rest):
    """A path of specs or proofs, as the crate, the folder and the names behind it."""
    if crate not in TO:
        return crate, folder, rest
    new, module = TO[crate]
    if folder == 'specs' and rest and rest[0] in ('declared', 'contracts'):
        return new, folder, rest[:1] + [module] * bool(module) + rest[1:]
    if folder == 'specs' and rest and (crate, rest[0]) in SPECS:
        return new, folder, [SPECS[crate, rest[0]]] + rest[1:]
    if folder == 'proofs' and rest and (crate, rest[0]) in LEMMAS:
        return new, folder, [LEMMAS[crate, rest[0]]] + rest[1:]
    if folder == 'proofs' and rest:
        return new, folder, [module] * bool(module) + rest
    return new, folder, rest


def antt_paths(text):
    """The `Rattle.` paths of a text. A module that is imported by the last name of its path keeps that name."""
    def to(found):
        crate, folder, rest = found.group(1), found.group(2), [n for n in found.group(3).split('.') if n]
        new, _, names = antt(crate, folder, rest)
        alias = f' as {rest[-1]}' if rest and names[-1] != rest[-1] and re.match(r'\s*;?\s*$', found.string[found.end():].split('\n')[0]) else ''
        return '.'.join([f'Rattle.{new}.{folder}'] + names) + alias
    return re.sub(r'\bRattle\.([a-z_0-9]+)\.(specs|proofs)((?:\.[^\s.{}();,]+)*)', to, text)


def file_path(path):
    """Where a file or a folder of the old tree is in the new one."""
    parts = path.split('/')
    crate = parts[1]
    if crate not in TO:
        return path
    new, module = TO[crate]
    here, rest = ['crates', new], parts[2:]
    if not rest or rest == ['']:
        return '/'.join(here + rest)
    if rest[0] == 'src' and len(rest) > 1:
        if rest[1:] == ['lib.rt'] and module:
            return '/'.join(here + ['src', module + '.rt'])
        return '/'.join(here + ['src'] + [module] * bool(module) + rest[1:])
    if rest[0] in ('specs', 'proofs') and len(rest) > 1:
        stem = rest[1].removesuffix('.antt')
        known = (SPECS if rest[0] == 'specs' else LEMMAS).get((crate, stem))
        if known and rest[1].endswith('.antt'):
            return '/'.join(here + [rest[0], known + '.antt'])
        if rest[0] == 'proofs' and module and not rest[1].endswith('.antt'):
            return '/'.join(here + ['proofs', module] + rest[1:])
    if rest[0].startswith('must-fail') and len(rest) == 2:
        return '/'.join(here + [rest[0], EDITS.get((crate, rest[1]), rest[1])])
    return '/'.join(here + rest)


def named(crate, rest=''):
    """An old crate's path in code, as it is said from outside."""
    new, module = TO.get(crate, (crate, ''))
    return new + ('::' + module if module else '') + rest


OLD = '|'.join(sorted(TO, key=len, reverse=True))


def say(text, crate=''):
    """Names in prose: files, backticked paths, and names of crates that no word of the language is; in the files of a crate that becomes a
    module `this crate` is that module."""
    module = TO.get(crate, ('', ''))[1]
    if module:
        text = re.sub(r"this crate's functions?\b", f'the functions of {module}', text).replace('functions of this crate', f'functions of {module}')
        text = text.replace('this crate', 'this module')
    text = re.sub(rf'\bcrates/({OLD})\b((?:/[\w.+-]*\w)*)', lambda f: file_path(f.group(0)), text)
    text = re.sub(rf'`({OLD})((?:::\w+)+)`', lambda f: '`' + named(f.group(1), f.group(2)) + '`', text)
    def by_name(f):
        new, module = TO[f.group(0)]
        return f.group(0) if f.group(0) in (new, module) else named(f.group(0))
    return re.sub(rf'(?<![\w/:.`-])(?:{"|".join(o for o in sorted(TO, key=len, reverse=True) if "_" in o)})(?![\w/:-]|\.\w)', by_name, text)


# ---- the sources

def leaves(tree_text):
    """The names that a `use` tree brings in."""
    for part in re.split(r',(?![^{]*\})', tree_text):
        part = ' '.join(part.split())
        group = re.match(r'(.*?)::\{(.*)\}$', part)
        if group:
            for inner in leaves(group.group(2)):
                yield group.group(1).split('::')[-1] if inner == 'self' else inner
        elif part:
            yield part.split(' as ')[-1].split('::')[-1].strip()


USE = re.compile(r'^(?:pub )?use ([^;]*);', re.M)


class Source:
    """A file of sources: its crate, the names that it has of its own, and the modules that it has to bring in."""
    def __init__(self, crate, text):
        self.crate, (self.new, self.module) = crate, TO.get(crate, (crate, ''))
        self.mods = set(re.findall(r'^\s*(?:pub )?mod (\w+);', text, re.M))
        self.brought = {name for found in USE.findall(text) for name in leaves(found)} | self.mods
        self.items = set(re.findall(r'\b(?:fn|struct|enum|trait|const|static|type) (\w+)', text))
        self.wanted = {}

    def path(self, crate, in_use, asking=True):
        """What stands in place of `crate::`."""
        new, module = (self.new, self.module) if crate == 'crate' else TO.get(crate, (crate, ''))
        front = 'crate::' if new == self.new else new + '::'
        if crate == 'crate' or in_use or not module:
            return front + (module + '::' if module else '')
        if module in self.items | self.brought and (new, module) not in self.wanted:
            return front + module + '::'
        if not asking and (new, module) not in self.wanted:
            return front + module + '::'
        self.wanted[new, module] = front
        return module + '::'

    def code(self, text, asking=True):
        """Code, comments and `ghost use` lines with their paths as they are to be. A `use` may go over lines."""
        lines, in_use, inline = [], False, False
        for line in text.split('\n'):
            inline = line != '}' and (inline or re.match(r'(?:pub )?mod \w+ \{', line) is not None)
            if re.match(r'\s*ghost use ', line):
                lines.append(antt_paths(line))
                continue
            cut = re.match(r'((?:[^"/]|"(?:\\.|[^"\\])*"|/(?!/))*)(//.*)?$', line)
            code, comment = (cut.group(1), cut.group(2) or '') if cut else (line, '')
            in_use = in_use or re.match(r'\s*(?:pub )?use ', code) is not None
            lines.append(self.paths(code, in_use or inline, asking) + say(comment, self.crate))
            in_use = in_use and ';' not in code
        return '\n'.join(lines)

    def paths(self, code, in_use, asking):
        def ghost(found):
            if not found.group(1):
                return found.group(0)
            crate = self.crate if found.group(1) == 'crate' else found.group(1)
            new, folder, rest = antt(crate, found.group(2), found.group(3).strip(':').split('::'))
            return '::'.join([f'\0{"crate" if new == self.new else new}', folder] + rest)
        def real(found):
            if not found.group(1) or found.group(1) in self.mods or not in_use and found.group(1) in self.brought:
                return found.group(0)
            return self.path(found.group(1), in_use, asking)
        text = r'"(?:\\.|[^"\\])*"|'  # what a program prints stays
        code = re.sub(rf'{text}(?<![\w:.«])(crate|{OLD})::(specs|proofs)((?:::\w+)+)', ghost, code)
        return re.sub(rf'{text}(?<![\w:.«\0])(crate|{OLD})::', real, code).replace('\0', '')

    def with_uses(self, text, is_root):
        """The `use` lines of the modules that the code now names, among those of the file. In the root they stand below it anyway."""
        by_front = {}
        for (_, module), front in self.wanted.items():
            if not (is_root and front == 'crate::'):
                by_front.setdefault(front, []).append(module)
        return add_uses(text, [f'use {front}' + (names[0] if len(names) == 1 else '{' + ', '.join(sorted(names)) + '}') + ';'
                               for front, names in by_front.items()])


def rank(use):
    """The order of rt fmt: self, super and crate first, and small letters before capitals before constants before groups."""
    names = re.sub(r'^(?:pub )?use |;$', '', ' '.join(use.split())).split('::')
    kind = lambda n: 0 if n in ('self', 'super', 'crate') else 4 if n[0] == '{' else 1 if n.islower() else 3 if n.isupper() and len(n) > 1 else 2
    return [(kind(n), n) for n in names]


def add_uses(text, added):
    block = re.search(r'^(?:pub )?use [^;]*;\n(?:(?:pub )?use [^;]*;\n)*', text, re.M)
    had = re.findall(r'^(?:pub )?use [^;]*;', block.group(0), re.M) if block else []
    order = sorted(had + added, key=rank)
    if block:
        return text[:block.start()] + '\n'.join(order) + '\n' + text[block.end():]
    return at_head(text, '\n'.join(order)) if added else text


def at_head(text, lines):
    """Lines put behind a file's comment, attribute and `ghost use` lines."""
    head = re.match(r'(?:(?://.*|#!\[.*|ghost use .*|use [^;]*;|)\n)*?(?=(?:///?[^\n]*\n|#\[)*(?:pub |fn |struct |enum |const |impl|mod |type |static |///|// ----|#\[))', text)
    cut = head.end() if head else len(text)
    kept = text[:cut].rstrip('\n')
    return (kept + '\n\n' + lines + '\n\n' + text[cut:].lstrip('\n')).rstrip('\n') + '\n'


def with_mods(text, modules):
    mods = re.search(r'^pub mod \w+;\n(?:pub mod \w+;\n)*', text, re.M)
    lines = sorted((mods.group(0).split('\n')[:-1] if mods else []) + [f'pub mod {m};' for m in modules])
    if mods:
        return text[:mods.start()] + '\n'.join(lines) + '\n' + text[mods.end():]
    return at_head(text, '\n'.join(lines))


def one_root(told, texts):
    """Roots that hold nothing but `mod` and `pub use` lines, as one."""
    mods, brought, head = [], [], f'// {told}\n#![tactic(auto)]'
    for text in texts:
        mods += re.findall(r'^pub mod \w+;', text, re.M)
        brought += re.findall(r'^pub use [^;]*;', text, re.M)
        rest = re.sub(r'^(pub mod \w+;|pub use [^;]*;|//.*|#!\[.*)$', '', text, flags=re.M)
        if rest.strip():
            open_points.append(f'a root has items, and cannot be put together with another: {rest.strip()[:60]}')
    return head + '\n\n' + '\n'.join(sorted(mods)) + '\n\n' + '\n'.join(sorted(brought)) + '\n'


# ---- the moves

def lib(old, folder):
    """A crate's Lib.antt with its files' new names."""
    path = f'crates/{old}/{folder}/Lib.antt'
    if not os.path.exists(os.path.join(ROOT, path)):
        return ''
    known = SPECS if folder == 'specs' else LEMMAS
    return re.sub(r'^((?:pub )?mod )(\S+)', lambda f: f.group(1) + known.get((old, f.group(2)), f.group(2)), say(antt_paths(read(path)), old), flags=re.M)


def move():
    made, gone, moved = {}, [], []
    standing = sorted(os.listdir(os.path.join(ROOT, 'crates')))
    crates = {c: list(tree(f'crates/{c}')) for c in standing}
    sources = {}
    for crate, paths in crates.items():
        for path in paths:
            if path.startswith('src/') and path.endswith('.rt'):
                text = read(f'crates/{crate}/{path}')
                source = sources[f'crates/{crate}/{path}'] = Source(crate, text)
                text = source.with_uses(source.code(text), file_path(f'crates/{crate}/{path}').endswith('/src/lib.rt'))
                if path == 'src/lib.rt' and source.module:
                    text = re.sub(r'^#!\[tactic\(auto\)\]\n', '', text, flags=re.M)
                made.setdefault(file_path(f'crates/{crate}/{path}'), []).append(text)
    for crate, paths in crates.items():
        for path in paths:
            old = f'crates/{crate}/{path}'
            if path.endswith('Lib.antt') or path.startswith('src/') and path.endswith('.rt'):
                pass
            elif path.endswith('.antt'):
                made.setdefault(file_path(old), []).append(say(antt_paths(read(old)), crate))
            elif path.endswith('.edit'):
                made.setdefault(file_path(old), []).append(edited(crate, read(old), sources))
            elif file_path(old) != old:
                moved.append((old, file_path(old)))
                continue
            else:
                continue
            gone.append(old)
    for new, told, parts in HOUSE:
        parts = [(old, m) for old, m in parts if old in crates]
        root, modules = f'crates/{new}/src/lib.rt', [m for _, m in parts if m]
        if root not in made:
            made[root] = [f'// {told}\n#![tactic(auto)]\n']
        text = one_root(told, made[root]) if len(made[root]) > 1 else made[root][0]
        made[root] = [with_mods(text, modules) if modules else text]
        for folder in ('specs', 'proofs'):
            text = ''.join(lib(old, folder).rstrip('\n') + '\n' for old, _ in parts if lib(old, folder))
            if text:
                made[f'crates/{new}/{folder}/Lib.antt'] = [text]
    for crate in standing:
        for folder in ('specs', 'proofs'):
            if crate not in TO and lib(crate, folder):
                made[f'crates/{crate}/{folder}/Lib.antt'] = [lib(crate, folder)]
    for path, texts in made.items():
        if len(texts) > 1:
            open_points.append(f'{path} would be made {len(texts)} times')
    for path in gone:
        os.remove(os.path.join(ROOT, path))
    for path, texts in made.items():
        write(path, texts[0])
    for old, new in moved:
        os.makedirs(os.path.dirname(os.path.join(ROOT, new)), exist_ok=True)
        os.rename(os.path.join(ROOT, old), os.path.join(ROOT, new))
    for place, _, _ in os.walk(os.path.join(ROOT, 'crates'), topdown=False):
        if not os.listdir(place):
            os.rmdir(place)


def edited(crate, text, sources):
    """An edit: the file that it means, and its texts as that file's."""
    lines, source = [], None
    for line in text.split('\n'):
        word, _, rest = line.partition(': ')
        if word == 'file':
            source = sources.get(f'crates/{crate}/{rest}')
            line = 'file: ' + '/'.join(file_path(f'crates/{crate}/{rest}').split('/')[2:])
        elif word in ('old', 'new') and source:
            line = f'{word}: ' + source.code(rest, asking=False)
        elif line.startswith('#'):
            line = say(line, crate)
        lines.append(line)
    return '\n'.join(lines)


def crates_txt():
    """crates.txt: each new crate stands on what its parts stood on."""
    stands, kinds, comments, above = {}, {}, {}, ''
    for line in read('crates.txt').split('\n'):
        found = re.match(r'(\w+)( [\w= ]+)?:(.*)', line)
        if found:
            stands[found.group(1)], kinds[found.group(1)], comments[found.group(1)] = found.group(3).split(), found.group(2) or '', above
        above = line if line.startswith('#') else ''
    order = [new for new, _, parts in HOUSE if any(old in stands for old, _ in parts)]
    on = {new: {TO.get(d, (d, ''))[0] for old, _ in parts for d in stands.get(old, [])} - {new} for new, _, parts in HOUSE}
    for crate in stands:
        if crate not in TO:
            order.append(crate)
            on[crate] = {TO.get(d, (d, ''))[0] for d in stands[crate]}
    told = {new: '# ' + text for new, text, _ in HOUSE}
    told.update({crate: say(text) for crate, text in comments.items() if crate not in TO})
    ranked, todo = [], list(order)
    while todo:
        ready = [c for c in todo if not on[c] & set(todo)]
        if not ready:
            open_points.append('crates stand on one another: ' + ' '.join(todo))
            ready = todo[:1]
        ranked.append(ready[0])
        todo.remove(ready[0])
    head = '# NAME: what it stands on. Each crate is a thing of the field, with a module for each of its parts: docs/DECISIONS.md says why they are cut so.\n'
    body = ''.join((told[c] + '\n' if told.get(c) else '') + f'{c}{kinds.get(c, "")}: '.rstrip(' ') + ''.join(
        ' ' + d for d in sorted(on[c], key=lambda d: (d not in ranked, ranked.index(d) if d in ranked else 0, d))) + '\n' for c in ranked)
    write('crates.txt', head + body)


def alone(text):
    """A crate that is named without a file and becomes a module is that module's file."""
    return re.sub(rf'\bcrates/({OLD})\b(?![\w/])', lambda f: file_path(f.group(0) + '/src/lib.rt') if TO[f.group(1)][1] else f.group(0), text)


def page(text, readme):
    """A page of docs: also the names of edits and of files of definitions, `A/edit` and `A/File`, and of crates where they stand out. In
    README a place holds for all that is below it, so that it stays a crate."""
    def slash(found):
        crate, rest = found.group(1), found.group(2).split('/')
        new = TO[crate][0]
        if (crate, rest[0] + '.edit') in EDITS:
            return f'`{new}/{EDITS[crate, rest[0] + ".edit"][:-5]}'
        if rest[-1] == 'NAME' or rest == ['proofs'] or rest == ['specs']:
            return f'`{new}/{found.group(2)}'
        known = SPECS.get((crate, rest[-1])) or LEMMAS.get((crate, rest[-1]))
        if len(rest) > 1 and rest[0] == 'proofs':
            known = LEMMAS.get((crate, rest[-1]))
        if known:
            return '`' + '/'.join([new] + rest[:-1] + [known])
        open_points.append(f'docs: {found.group(0)} is no edit and no file')
        return found.group(0)
    text = re.sub(rf'\[({OLD})/([\w./]+)\]\(', lambda f: '[' + file_path(f'crates/{f.group(1)}/{f.group(2)}').removeprefix('crates/') + '](', text)
    text = text if readme else alone(text)
    text = re.sub(rf'\*\*({OLD})\*\*', lambda f: '**' + named(f.group(1)) + '**', text)
    text = re.sub(rf'\bcrate `?({OLD})\b`?(?![\w:/])', lambda f: f'module `{named(f.group(1))}`' if TO[f.group(1)][1] else f.group(0).replace(
        f.group(1), TO[f.group(1)][0]), text)
    return re.sub(rf'`({OLD})/([\w/]*\w)', slash, say(text))


def texts():
    for path in subprocess.run(['git', 'ls-files'], cwd=ROOT, capture_output=True, text=True).stdout.split('\n'):
        if not path or AS_IT_WAS.match(path) or not os.path.isfile(os.path.join(ROOT, path)):
            continue
        try:
            text = read(path)
        except UnicodeDecodeError:
            continue
        new = page(text, path == 'README.md') if path.endswith('.md') else re.sub(rf'\bcrates/({OLD})\b((?:/[\w.+-]*\w)*)', lambda f: file_path(f.group(0)), alone(text))
        for old, put in GATE.get(path, []):
            if new.count(old) != 1:
                open_points.append(f'{path}: stands {new.count(old)} times: {old[:60]}')
            new = new.replace(old, put)
        if new != text:
            write(path, new)


def main():
    if '--map' in sys.argv:
        for new, told, parts in HOUSE:
            print(f'{new}: ' + ', '.join(old + (f' as {m}' if m else ' (root)') for old, m in parts) + f'\n    {told}')
        return
    if subprocess.run(['git', 'status', '--porcelain', '-uno'], cwd=ROOT, capture_output=True, text=True).stdout.strip():
        sys.exit('house: something is not committed')
    name_files()
    for kind, names in (('definitions', SPECS), ('lemmas', LEMMAS), ('edits', EDITS)):
        changed = {k: v for k, v in names.items() if k[1] != v}
        print(f'house: {len(names)} files of {kind}, {len(changed)} with another name: ' + ', '.join(f'{a}/{n} {v}' for (a, n), v in sorted(changed.items())))
    texts()
    crates_txt()
    move()
    for point in sorted(set(open_points)):
        print('house: open:', point)


main()
