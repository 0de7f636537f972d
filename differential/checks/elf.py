#!/usr/bin/env python3
"""The reader of ELF files against one that was written from the System V gABI alone.

    elf.py COUNT SEED           files of this machine, and COUNT damaged copies of small ones: cut off, bits flipped, fields of the header
                                and of section headers set to numbers near the limits
    elf.py COUNT SEED whole     every ELF file of /usr/bin and below /usr/lib and of the cross packages
    elf.py readelf              sections and segments of the same files as readelf lists them
    elf.py addr2line COUNT SEED   the functions at addresses of COUNT of these files, by that program, as addr2line names them
    elf.py gdb COUNT SEED         the same of COUNT shared objects, as gdb's `info symbol` names them

At the end stands how often each number was answered; 0 is an answer."""

import collections
import os
import random
import re
import struct
import subprocess
import sys

HERE = os.path.dirname(os.path.abspath(__file__))
OUT = os.environ.get("ELF_READS_DIR") or os.path.join(os.path.dirname(os.path.dirname(HERE)), "target", "differential")
FOLDERS = ("/usr/bin", "/usr/lib", "/usr/libexec", "/usr/aarch64-linux-gnu", "/usr/arm-linux-gnueabihf", "/usr/riscv64-linux-gnu", "/usr/lib32")
SMALL = 60000
NOT_ELF, UNKNOWN, OUTSIDE, NAME, ENTRY_SIZE, COMPRESSED, NO_ENTRY, KIND, ALIGNMENT = range(101, 110)


class Refused(Exception):
    """A number and a place."""


# ---- what the gABI says: the fields of its structures in their order, by class

E = {
    1: ("e_type:H e_machine:H e_version:I e_entry:I e_phoff:I e_shoff:I e_flags:I e_ehsize:H e_phentsize:H e_phnum:H e_shentsize:H e_shnum:H e_shstrndx:H"),
    2: ("e_type:H e_machine:H e_version:I e_entry:Q e_phoff:Q e_shoff:Q e_flags:I e_ehsize:H e_phentsize:H e_phnum:H e_shentsize:H e_shnum:H e_shstrndx:H"),
}
SH = {
    1: "sh_name:I sh_type:I sh_flags:I sh_addr:I sh_offset:I sh_size:I sh_link:I sh_info:I sh_addralign:I sh_entsize:I",
    2: "sh_name:I sh_type:I sh_flags:Q sh_addr:Q sh_offset:Q sh_size:Q sh_link:I sh_info:I sh_addralign:Q sh_entsize:Q",
}
PH = {
    1: "p_type:I p_offset:I p_vaddr:I p_paddr:I p_filesz:I p_memsz:I p_flags:I p_align:I",
    2: "p_type:I p_flags:I p_offset:Q p_vaddr:Q p_paddr:Q p_filesz:Q p_memsz:Q p_align:Q",
}
ST = {
    1: "st_name:I st_value:I st_size:I st_info:B st_other:B st_shndx:H",
    2: "st_name:I st_info:B st_other:B st_shndx:H st_value:Q st_size:Q",
}
REL = {1: "r_offset:I r_info:I", 2: "r_offset:Q r_info:Q"}
RELA = {1: "r_offset:I r_info:I r_addend:i", 2: "r_offset:Q r_info:Q r_addend:q"}


class Layout:
    """A structure: its size, and where each field stands."""

    def __init__(self, text, start=0):
        pairs = [field.split(":") for field in text.split()]
        self.names = [name for name, _ in pairs]
        self.format = struct.Struct("<" + "".join(kind for _, kind in pairs))
        self.place, self.size = {}, start
        for name, kind in pairs:
            self.place[name] = self.size
            self.size += struct.calcsize("<" + kind)

    def at(self, data, place):
        return dict(zip(self.names, self.format.unpack_from(data, place)))


LAYOUTS = {key: {c: Layout(text[c], 16 if key == "E" else 0) for c in (1, 2)} for key, text in {"E": E, "SH": SH, "PH": PH, "ST": ST, "REL": REL, "RELA": RELA}.items()}


class File:
    """What a file says; each part, or why it cannot be read, is found once."""

    def __init__(self, data):
        self.data, self.kept = data, {}

    def once(self, name):
        if name not in self.kept:
            try:
                self.kept[name] = (getattr(self, "read_" + name)(), None)
            except Refused as no:
                self.kept[name] = (None, no)
        value, no = self.kept[name]
        if no:
            raise no
        return value

    def lay(self, key):
        return LAYOUTS[key][self.once("header")["class"]]

    def read_header(self):
        data = self.data
        if len(data) < 16 or data[:4] != b"\x7fELF":
            raise Refused(NOT_ELF, 0)
        if data[4] not in (1, 2):
            raise Refused(UNKNOWN, 4)
        if data[5] != 1:
            raise Refused(UNKNOWN, 5)
        if data[6] != 1:
            raise Refused(UNKNOWN, 6)
        lay = LAYOUTS["E"][data[4]]
        if len(data) < lay.size:
            raise Refused(OUTSIDE, 0)
        h = lay.at(data, 16)
        if h["e_version"] != 1:
            raise Refused(UNKNOWN, 20)
        h["class"] = data[4]
        return h

    def first_section(self):
        h, e = self.once("header"), self.lay("E")
        if h["e_shoff"] == 0 or h["e_shoff"] + self.lay("SH").size > len(self.data):
            raise Refused(OUTSIDE, e.place["e_shoff"])
        return self.lay("SH").at(self.data, h["e_shoff"])

    def read_sections(self):
        """Place, count, index of the names."""
        h, e, size = self.once("header"), self.lay("E"), self.lay("SH").size
        place = h["e_shoff"]
        if place == 0:
            return 0, 0, 0
        if h["e_shentsize"] != size:
            raise Refused(ENTRY_SIZE, e.place["e_shentsize"])
        first = self.first_section()
        count = h["e_shnum"] or first["sh_size"]
        names = first["sh_link"] if h["e_shstrndx"] == 0xFFFF else h["e_shstrndx"]
        if place + count * size > len(self.data):
            raise Refused(OUTSIDE, e.place["e_shoff"])
        if names and names >= count:
            raise Refused(NAME, e.place["e_shstrndx"])
        return place, count, names

    def entry(self, i):
        place, count, _ = self.once("sections")
        lay = self.lay("SH")
        if i >= count:
            raise Refused(NO_ENTRY, place + count * lay.size)
        s = lay.at(self.data, place + i * lay.size)
        s["at"] = place + i * lay.size
        return s

    def bytes_of(self, s, plain=False):
        """Place and length."""
        lay = self.lay("SH")
        if plain and s["sh_flags"] & 0x800:
            raise Refused(COMPRESSED, s["at"] + lay.place["sh_flags"])
        if s["sh_type"] in (0, 8):
            return 0, 0
        if s["sh_offset"] + s["sh_size"] > len(self.data):
            raise Refused(OUTSIDE, s["at"] + lay.place["sh_offset"])
        return s["sh_offset"], s["sh_size"]

    def string(self, span, offset, fault):
        place, length = span
        if offset == 0 and length == 0:
            return place, 0
        end = self.data.find(b"\0", place + offset, place + length) if offset <= length else -1
        if end < 0:
            raise Refused(NAME, fault)
        return place + offset, end - place - offset

    def read_names(self):
        return self.bytes_of(self.entry(self.once("sections")[2]), True)

    def name(self, s):
        if self.once("sections")[2] == 0:
            return 0, 0
        return self.string(self.once("names"), s["sh_name"], s["at"])

    def section(self, i):
        s = self.entry(i)
        place, length = self.name(s)
        _, held = self.bytes_of(s)
        compressed = bool(s["sh_flags"] & 0x800) or self.data[place : place + length].startswith(b".zdebug")
        keys = ("sh_type", "sh_flags", "sh_addr", "sh_offset", "sh_size")
        more = ("sh_link", "sh_info", "sh_addralign", "sh_entsize")
        return [0, 0, i, place, length, *(s[k] for k in keys), held, *(s[k] for k in more), int(compressed)]

    def read_index(self):
        """From a name to the first section that has it."""
        found = {}
        for i in range(self.once("sections")[1]):
            try:
                place, length = self.name(self.entry(i))
            except Refused:
                continue
            found.setdefault(self.data[place : place + length], i)
        return found

    def read_segments(self):
        h, e, size = self.once("header"), self.lay("E"), self.lay("PH").size
        if h["e_phoff"] == 0:
            return 0, 0
        if h["e_phentsize"] != size:
            raise Refused(ENTRY_SIZE, e.place["e_phentsize"])
        count = self.first_section()["sh_info"] if h["e_phnum"] == 0xFFFF else h["e_phnum"]
        if h["e_phoff"] + count * size > len(self.data):
            raise Refused(OUTSIDE, e.place["e_phoff"])
        return h["e_phoff"], count

    def segment(self, i):
        place, count = self.once("segments")
        lay = self.lay("PH")
        if i >= count:
            raise Refused(NO_ENTRY, place + count * lay.size)
        p = lay.at(self.data, place + i * lay.size)
        held = max(0, min(p["p_filesz"], len(self.data) - p["p_offset"]))
        keys = ("p_type", "p_flags", "p_offset", "p_vaddr", "p_paddr", "p_filesz", "p_memsz", "p_align")
        return [0, 0, i, *(p[k] for k in keys), held]

    def note(self, place, end, align):
        if not place <= end <= len(self.data):
            raise Refused(OUTSIDE, place)
        if align > 4 and align != 8:
            raise Refused(ALIGNMENT, place)
        if place == end:
            raise Refused(NO_ENTRY, place)
        if end - place < 12:
            raise Refused(OUTSIDE, place)
        name, text, kind = struct.unpack_from("<III", self.data, place)
        unit = 8 if align == 8 else 4
        start = place + -(-(12 + name) // unit) * unit
        if start + text > end:
            raise Refused(OUTSIDE, place)
        said = self.data[place + 12 : place + 12 + name].split(b"\0")[0]
        return [0, 0, kind, place + 12, len(said), start, text, min(end, place + -(-(start - place + text) // unit) * unit)]

    def table(self, s, lay):
        place, length = self.bytes_of(s, True)
        if s["sh_entsize"] != lay.size:
            raise Refused(ENTRY_SIZE, s["at"] + self.lay("SH").place["sh_entsize"])
        if length % lay.size:
            raise Refused(ENTRY_SIZE, s["at"] + self.lay("SH").place["sh_size"])
        return place, length // lay.size

    def symbols(self, k):
        s = self.entry(k)
        if s["sh_type"] not in (2, 11):
            raise Refused(KIND, s["at"] + 4)
        place, count = self.table(s, self.lay("ST"))
        return place, count, self.bytes_of(self.entry(s["sh_link"]), True)

    def symbol(self, k, i):
        place, count, strings = self.symbols(k)
        lay = self.lay("ST")
        if i >= count:
            raise Refused(NO_ENTRY, place + count * lay.size)
        at = place + i * lay.size
        s = lay.at(self.data, at)
        name = self.string(strings, s["st_name"], at)
        return [0, 0, i, *name, s["st_value"], s["st_size"], s["st_info"] & 15, s["st_info"] >> 4, s["st_other"] & 3, s["st_shndx"]]

    def functions(self, k):
        """Start, size, section and index of each function symbol."""
        place, count, _ = self.symbols(k)
        lay = self.lay("ST")
        listed = []
        for i in range(count):
            s = lay.at(self.data, place + i * lay.size)
            if s["st_info"] & 15 in (2, 10) and s["st_shndx"]:
                start = s["st_value"] & ~1 if self.once("header")["e_machine"] == 40 else s["st_value"]
                listed.append((start, s["st_size"], s["st_shndx"], i))
        return listed

    def function_at(self, k, functions, section, address):
        place, count, _ = self.symbols(k)
        sized, unsized = [], []
        for start, size, there, i in functions:
            if start > address or section not in (0, there):
                continue
            if size:
                if address < start + size:
                    sized.append((-start, size, i))
                continue
            try:
                s = self.entry(there)
            except Refused:
                continue
            if s["sh_addr"] <= address < s["sh_addr"] + s["sh_size"]:
                unsized.append((-start, i))
        if not sized and not unsized:
            raise Refused(NO_ENTRY, place + count * self.lay("ST").size)
        return self.symbol(k, min(sized)[2] if sized else min(unsized)[1])

    def relocation(self, k, i):
        s = self.entry(k)
        if s["sh_type"] not in (4, 9):
            raise Refused(KIND, s["at"] + 4)
        lay = self.lay("RELA" if s["sh_type"] == 4 else "REL")
        place, count = self.table(s, lay)
        if i >= count:
            raise Refused(NO_ENTRY, place + count * lay.size)
        r = lay.at(self.data, place + i * lay.size)
        bits = 8 if self.once("header")["class"] == 1 else 32
        addend = r.get("r_addend", 0) & 2**64 - 1
        return [0, 0, i, r["r_offset"], r["r_info"] >> bits, r["r_info"] & 2**bits - 1, addend, int(s["sh_type"] == 4)]


# ---- the lines that elf prints

FIELDS = {"header": 7, "sections": 5, "section": 16, "segments": 4, "segment": 12, "note": 8, "symbol": 11, "relocation": 8}


class Lines:
    def __init__(self, data, counts):
        self.file, self.said, self.counts = File(data), [], counts

    def say(self, key, answer):
        """An answer's numbers, or a refusal's."""
        try:
            numbers = answer()
        except Refused as no:
            numbers = [*no.args] + [0] * (FIELDS[key] - 2)
        self.counts[numbers[0]] += 1
        self.said.append(" ".join([key, *map(str, numbers)]))
        return numbers

    def short(self, key, answer):
        try:
            numbers = answer()[:3]
        except Refused as no:
            numbers = [*no.args, 0]
        self.said.append(" ".join([key, *map(str, numbers)]))

    def header(self):
        h = self.file.once("header")
        return [0, 0, 32 * h["class"], h["e_type"], h["e_machine"], h["e_flags"], h["e_entry"]]

    def notes(self, place, length, align):
        end, at, seen = place + length, place, set()
        while True:
            n = self.say("note", lambda: self.file.note(at, end, align))
            if n[0]:
                return
            at = n[7]

    def entries(self, s, kind):
        f, index, entry = self.file, s[2], s[14]
        count = s[10] // entry if entry else 0
        step, asked, functions, i = count // 200 + 1, 0, None, 0
        while i <= count:
            if s[5] in (4, 9):
                r = self.say("relocation", lambda: f.relocation(index, i))
                if r[0]:
                    return
            else:
                y = self.say("symbol", lambda: f.symbol(index, i))
                if y[0] not in (0, NAME):
                    return
                if y[0] == 0 and y[7] == 2:
                    if asked % 25 == 0:
                        functions = f.functions(index) if functions is None else functions
                        for address in (y[5], y[5] + y[6] - 1, y[5] + y[6]):
                            self.short("at", lambda: f.function_at(index, functions, y[10] if kind == 1 else 0, address % 2**64))
                    asked += 1
            i = count if i < count and i + step > count else i + step

    def sections(self, kind):
        f = self.file
        count = self.say("sections", lambda: [0, 0, *f.once("sections")])[3]
        count = min(count, 200000)
        for i in range(count + 1):
            s = self.say("section", lambda: f.section(i))
            if s[0]:
                continue
            if count < 300:
                self.short("named", lambda: f.section(f.once("index")[f.data[s[3] : s[3] + s[4]]]))
            if s[5] == 7:
                self.notes(s[8], s[10], s[13])
            if s[5] in (2, 4, 9, 11):
                self.entries(s, kind)

    def segments(self):
        f = self.file
        count = self.say("segments", lambda: [0, 0, *f.once("segments")])[3]
        for i in range(min(count, 70000) + 1):
            p = self.say("segment", lambda: f.segment(i))
            if p[0] == 0 and p[3] == 4 and p[11]:
                self.notes(p[5], p[11], p[10])

    def all(self):
        kind = self.say("header", self.header)[3]
        self.sections(kind)
        self.segments()
        return self.said


# ---- files, whole and damaged

def files():
    seen = set()
    for folder in FOLDERS:
        for place, _, names in os.walk(folder):
            for name in sorted(names):
                path = os.path.join(place, name)
                try:
                    if os.path.islink(path) or not os.path.isfile(path):
                        continue
                    with open(path, "rb") as file:
                        start = file.read(16)
                except OSError:
                    continue
                if start[:4] == b"\x7fELF" and path not in seen:
                    seen.add(path)
                    yield path


def made(rng):
    """Small files that no compiler is needed for: each class and kind of table, with extended counts too."""
    folder = os.path.join(OUT, "elf_files")
    os.makedirs(folder, exist_ok=True)
    for number, (c, extended) in enumerate(((1, False), (2, False), (1, True), (2, True))):
        path = os.path.join(folder, f"made{number}")
        with open(path, "wb") as file:
            file.write(made_file(c, extended, rng))
        yield path


def pack(key, c, **fields):
    lay = LAYOUTS[key][c]
    return lay.format.pack(*(fields.get(name, 0) for name in lay.names))


def made_file(c, extended, rng):
    names = b"\0.text\0.symtab\0.strtab\0.rel.text\0.rela.text\0.note\0.zdebug_info\0.bss\0"
    where = lambda name: names.index(b"\0" + name + b"\0") + 1
    strings = b"\0first\0second\0inner\0bare\0"
    sym = lambda name, **f: pack("ST", c, st_name=strings.index(b"\0" + name + b"\0") + 1 if name else 0, **f)
    symbols = sym(b"") + sym(b"first", st_value=0x1000, st_size=16, st_info=0x12, st_shndx=1) + sym(b"second", st_value=0x1010, st_size=32, st_info=2, st_shndx=1)
    symbols += sym(b"inner", st_value=0x1018, st_size=4, st_info=0x22, st_other=2, st_shndx=1) + sym(b"bare", st_value=0x1031, st_info=2, st_shndx=1)
    info = 2 * 2 ** (8 if c == 1 else 32) + 1
    rel = pack("REL", c, r_offset=4, r_info=info) + pack("REL", c, r_offset=8, r_info=info)
    rela = pack("RELA", c, r_offset=4, r_info=info, r_addend=-5) + pack("RELA", c, r_offset=8, r_info=info, r_addend=7)
    note = struct.pack("<III4sI", 4, 4, 1, b"GNU\0", 7) + struct.pack("<III8s6s", 5, 6, 3, b"CORE\0", b"abcdef")
    parts = [(b".text", 1, 6, 0x1000, rng.randbytes(96), 0, 0, 0), (b".symtab", 2, 0, 0, symbols, 3, 1, LAYOUTS["ST"][c].size), (b".strtab", 3, 0, 0, strings, 0, 0, 0)]
    parts += [(b".rel.text", 9, 0, 0, rel, 2, 1, LAYOUTS["REL"][c].size), (b".rela.text", 4, 0, 0, rela, 2, 1, LAYOUTS["RELA"][c].size)]
    parts += [(b".note", 7, 0, 0, note, 0, 0, 0), (b".zdebug_info", 1, 0x800 if extended else 0, 0, b"ZLIB", 0, 0, 0), (b".bss", 8, 3, 0x2000, None, 0, 0, 0)]
    data = bytearray(LAYOUTS["E"][c].size + 2 * LAYOUTS["PH"][c].size)
    headers = []
    for name, kind, flags, address, bytes_, link, more, entry in parts:
        size = 4096 if bytes_ is None else len(bytes_)
        headers.append(dict(sh_name=where(name), sh_type=kind, sh_flags=flags, sh_addr=address, sh_offset=len(data), sh_size=size, sh_link=link, sh_info=more, sh_addralign=4, sh_entsize=entry))
        data += bytes_ or b""
    headers.append(dict(sh_name=0, sh_type=3, sh_offset=len(data), sh_size=len(names)))
    data += names
    place = len(data)
    count = len(headers) + 1
    first = dict(sh_size=count, sh_link=count - 1, sh_info=2) if extended else {}
    for h in (first, *headers):
        data += pack("SH", c, **h)
    fields = dict(e_type=1, e_machine=rng.choice((3, 40, 62, 183, 243)), e_version=1, e_phoff=LAYOUTS["E"][c].size, e_shoff=place, e_ehsize=LAYOUTS["E"][c].size)
    fields |= dict(e_phentsize=LAYOUTS["PH"][c].size, e_phnum=0xFFFF if extended else 2, e_shentsize=LAYOUTS["SH"][c].size)
    fields |= dict(e_shnum=0 if extended else count, e_shstrndx=0xFFFF if extended else count - 1)
    start = b"\x7fELF" + bytes([c, 1, 1]) + bytes(9) + pack("E", c, **fields)
    notes = headers[5]
    start += pack("PH", c, p_type=4, p_offset=notes["sh_offset"], p_filesz=notes["sh_size"], p_memsz=notes["sh_size"], p_align=4)
    start += pack("PH", c, p_type=1, p_flags=5, p_offset=0, p_filesz=2**31, p_memsz=2**31, p_align=4096)
    data[: len(start)] = start
    return bytes(data)


def places(data):
    """Where the header and the entries of sections and segments stand, which say most."""
    try:
        f = File(data)
        yield from range(0, f.lay("E").size)
        place, count, _ = f.once("sections")
        yield from range(place, place + count * f.lay("SH").size)
        place, count = f.once("segments")
        yield from range(place, place + count * f.lay("PH").size)
    except Refused:
        return


def damaged(path, data, telling, rng):
    """The line that asks, and the bytes."""
    kept = rng.randrange(len(data) + 1) if rng.random() < 0.3 else len(data)
    copy, edits = bytearray(data[:kept]), []
    for _ in range(rng.choice((0, 1, 1, 2, 3, 8))):
        at = rng.choice(telling) if telling and rng.random() < 0.7 else rng.randrange(len(data))
        if at >= kept:
            continue
        wanted = rng.choice((copy[at] ^ 1 << rng.randrange(8), 0, 255, 127, 128, rng.randrange(256)))
        width = rng.choice((1, 1, 2, 4, 8))
        for place in range(at, min(at + width, kept)):
            mask = copy[place] ^ wanted
            copy[place] = wanted
            edits.append(f"{place}:{mask}")
    return "\t".join([path, str(kept), *edits]), bytes(copy)


def ask(lines):
    done = subprocess.run([os.path.join(OUT, "elf")], input="\n".join(lines) + "\n", capture_output=True, text=True)
    if done.returncode:
        sys.exit(f"elf: elf ended with {done.returncode}")
    return done.stdout.split(".\n")


def compare(asked, counts):
    for (line, data), got in zip(asked, ask([line for line, _ in asked])):
        want, got = Lines(data, counts).all(), got.splitlines()
        if want != got:
            at = next((i for i, pair in enumerate(zip(want, got)) if pair[0] != pair[1]), min(len(want), len(got)))
            sys.exit(f"elf: {line}: line {at}: {want[at:at + 1]} is expected, ours is {got[at:at + 1]}")


def batches(items, size):
    batch = []
    for item in items:
        batch.append(item)
        if len(batch) == size:
            yield batch
            batch = []
    yield batch


def whole(path):
    with open(path, "rb") as file:
        return path + "\t-", file.read()


def judged(count, seed, every):
    rng, counts = random.Random(seed), collections.Counter()
    found = list(files())
    small = [path for path in found if os.path.getsize(path) <= SMALL]
    bases = [*made(rng), *rng.sample(small, min(len(small), 40))]
    chosen = found if every else [*bases, *rng.sample(found, min(len(found), 30))]
    for path in chosen:
        compare([whole(path)], counts)
    loaded = [(path, data, list(places(data))) for path, data in ((p, whole(p)[1]) for p in bases)]
    for batch in batches((damaged(*rng.choice(loaded[: rng.choice((4, len(loaded)))]), rng) for _ in range(count)), 200):
        compare(batch, counts)
    said = ", ".join(f"{number} {n}" for number, n in sorted(counts.items()))
    print(f"elf: {len(chosen)} files and {count} damaged copies read as by a program from the gABI: {said}")


# ---- as readelf lists them

def readelf_says(path):
    done = subprocess.run(["readelf", "-SlW", path], capture_output=True, text=True, errors="replace").stdout
    sections = re.findall(r"^ +\[ *(\d+)\] (.*?) +(\S+) +([0-9a-f]{8,16}) ([0-9a-f]{6,}) ([0-9a-f]{6,}) ([0-9a-f]{2,}) +[A-Za-z]* +(\d+) +(\d+) +(\d+)$", done, re.M)
    segments = re.findall(r"^  (\S+) +0x([0-9a-f]{6,}) 0x([0-9a-f]{8,16}) 0x([0-9a-f]{8,16}) 0x([0-9a-f]{5,}) 0x([0-9a-f]{5,}) ", done, re.M)
    listed = [(int(i), int(a, 16), int(o, 16), int(s, 16), int(e, 16), int(l), int(f), int(g)) for i, _, _, a, o, s, e, l, f, g in sections]
    return {s[0]: s[1:] for s in listed}, [tuple(int(n, 16) for n in p[1:]) for p in segments]


def with_readelf():
    n = sections = segments = 0
    for path in files():
        want, parts = readelf_says(path)
        lines = [line.split() for line in ask([path + "\t-"])[0].splitlines()]
        ours = {int(s[3]): (int(s[8]), int(s[9]), int(s[10]), int(s[15]), int(s[12]), int(s[13]), int(s[14])) for s in lines if s[0] == "section" and s[1] == "0"}
        mine = [(int(p[6]), int(p[7]), int(p[8]), int(p[9]), int(p[10])) for p in lines if p[0] == "segment" and p[1] == "0"]
        for i, section in want.items():
            if ours.get(i) != section:
                sys.exit(f"elf: {path}: section {i}: readelf says {section}, ours is {ours.get(i)}")
        if parts != mine:
            sys.exit(f"elf: {path}: segments: readelf says {parts}, ours are {mine}")
        if want.keys() != ours.keys():
            sys.exit(f"elf: {path}: readelf lists {len(want)} sections, ours are {len(ours)}: {sorted(want.keys() ^ ours.keys())[:5]}")
        n, sections, segments = n + 1, sections + len(want), segments + len(parts)
    print(f"elf: {sections} sections and {segments} segments of {n} files are as readelf lists them")


def named_functions(f, k):
    """From a function's start to the names that begin there."""
    names = collections.defaultdict(set)
    for start, _, _, i in f.functions(k):
        y = f.symbol(k, i)
        names[start].add(f.data[y[3] : y[3] + y[4]].decode(errors="replace").split("@")[0])
    return names


def with_addr2line(count, seed):
    """What our program finds begins where the function begins that addr2line names. It names none in some stripped files, and where
    nothing covers an address the one in front."""
    rng, asked, covered, n = random.Random(seed), 0, 0, 0
    os.makedirs(os.path.join(OUT, "elf"), exist_ok=True)
    for path in rng.sample(list(files()), count):
        f = File(whole(path)[1])
        try:
            kinds = [(f.entry(i)["sh_type"], i) for i in range(f.once("sections")[1])]
            if f.once("header")["e_type"] not in (2, 3) or len(f.data) > 5000000:
                continue
        except Refused:
            continue
        tables = [i for kind, i in kinds if kind == 2] or [i for kind, i in kinds if kind == 11]
        functions = f.functions(tables[0]) if tables else []
        if not functions:
            continue
        names = named_functions(f, tables[0])
        chosen = rng.sample(functions, min(len(functions), 40))
        places = [a for start, size, _, _ in chosen for a in (start, start + size // 2, start + max(size, 1) - 1)]
        # A copy that leads to no debugging information, whose functions have other names.
        bare = os.path.join(OUT, "elf_files", "bare")
        leads = [f"--remove-section={name}" for name in (".gnu_debuglink", ".note.gnu.build-id", ".debug_*")]
        if subprocess.run(["objcopy", *leads, path, bare], capture_output=True).returncode:
            continue
        said = subprocess.run(["addr2line", "-f", "-e", bare, *map(hex, places)], capture_output=True, text=True, errors="replace").stdout.split("\n")[::2]
        n += 1
        for address, name in zip(places, said):
            asked += 1
            if name == "??":
                continue
            try:
                y = f.function_at(tables[0], functions, 0, address)
            except Refused:
                continue
            covered += 1
            start = y[5] & ~1 if f.once("header")["e_machine"] == 40 else y[5]
            if name.split("@")[0] not in names[start]:
                sys.exit(f"elf: {path}: {address:#x}: addr2line says {name}, ours begins at {start:#x}: {sorted(names[start])[:5]}")
    print(f"elf: {covered} of {asked} addresses in {n} files are in the function that addr2line names; it names none, or nothing covers the others")


def with_gdb(count, seed):
    rng, asked, n = random.Random(seed), 0, 0
    objects = [path for path in files() if ".so" in path and "debug" not in path and 30000 < os.path.getsize(path) < 3000000]
    for path in rng.sample(objects, count):
        f = File(whole(path)[1])
        kinds = [(f.entry(i)["sh_type"], i) for i in range(f.once("sections")[1])]
        tables = [i for kind, i in kinds if kind == 2] or [i for kind, i in kinds if kind == 11]
        functions = f.functions(tables[0]) if tables and f.once("header")["e_machine"] == 62 else []
        if not functions:
            continue
        chosen = rng.sample(functions, min(len(functions), 30))
        places = [a for start, size, _, _ in chosen for a in (start, start + size // 2, start + max(size, 1) - 1)]
        lines = [part for a in places for part in ("-ex", f"info symbol {a:#x}")]
        ask_gdb = ["gdb", "-nx", "-batch", "-iex", "set debug-file-directory /nonexistent", *lines, path]
        said = subprocess.run(ask_gdb, capture_output=True, text=True, errors="replace").stdout.splitlines()
        n += 1
        for address, line in zip(places, said, strict=True):
            says = re.match(r".+?(?: \+ (\d+))? in section", line)
            start = f.function_at(tables[0], functions, 0, address)[5]
            if not says or address - int(says.group(1) or 0) != start:
                sys.exit(f"elf: {path}: {address:#x}: gdb says {line}, ours begins at {start:#x}")
            asked += 1
    print(f"elf: {asked} addresses in {n} shared objects are in the function that gdb names")


if sys.argv[1:] == ["readelf"]:
    with_readelf()
elif sys.argv[1] == "addr2line":
    with_addr2line(int(sys.argv[2]), int(sys.argv[3]))
elif sys.argv[1] == "gdb":
    with_gdb(int(sys.argv[2]), int(sys.argv[3]))
else:
    judged(int(sys.argv[1]), int(sys.argv[2]), sys.argv[3:] == ["whole"])
