//! Sections of object files: ELF of 32 and 64 bits, little-endian (gABI, chapter 4), and COFF (the PE/COFF specification).

/// A section of an object file.
#[derive(Clone, Debug)]
pub struct Section {
    /// Its name.
    pub name: String,
    /// The address of its first byte, 0 in a file that is not linked.
    pub address: u64,
    /// The bytes that it takes in memory.
    pub size: u64,
    /// Where its bytes stand in the file; empty where the file has none of them.
    pub bytes: std::ops::Range<usize>,
    /// Whether the bytes are there, and not compressed.
    pub plain: bool,
    kind: u64,
    link: u64,
    info: u64,
}

/// An object file's sections, and what is known of its machine.
#[derive(Clone, Debug)]
pub struct Object {
    /// The sections, in the file's order.
    pub sections: Vec<Section>,
    /// The bytes of an address.
    pub word: u64,
    /// The number of the machine, by ELF.
    pub machine: u64,
    /// Whether it is still to be linked.
    pub relocatable: bool,
    /// Whether it can be loaded anywhere.
    pub movable: bool,
    /// What is loaded, in the file's order.
    pub segments: Vec<Segment>,
}

/// A part of a file that is loaded (gABI, "Program Header").
#[derive(Clone, Copy, Debug)]
pub struct Segment {
    /// The address of its first byte.
    pub address: u64,
    /// The bytes that it takes in memory.
    pub size: u64,
}

impl Object {
    /// The address where the file's first page is loaded as it was linked.
    pub fn first_page(&self) -> Option<u64> {
        let first = self.segments.iter().map(|segment| segment.address).min()?;
        Some(first - first % PAGE)
    }

    /// The position of the section of a name.
    pub fn position(&self, name: &str) -> Option<usize> {
        self.sections.iter().position(|section| section.name == name)
    }
}

/// What the pages of a program start at is a multiple of this.
const PAGE: u64 = 4096;
const PT_LOAD: u64 = 1;
const SHT_NOTE: u64 = 7;
/// The note of a build id: its type, and the length of its name and the name (binutils, "--build-id").
const NT_GNU_BUILD_ID: u64 = 3;
const GNU: &[u8] = b"GNU\0";
const SHT_SYMTAB: u64 = 2;
const SHT_DYNSYM: u64 = 11;
const STT_FUNC: u64 = 2;
const SHT_RELA: u64 = 4;
const SHT_REL: u64 = 9;
const SHT_NOBITS: u64 = 8;
const SHF_COMPRESSED: u64 = 0x800;
const ET_REL: u64 = 1;
const ET_DYN: u64 = 3;
/// A count or an index that stands in the first section's header instead.
const SHN_XINDEX: u64 = 0xffff;

/// A little-endian field, or none where the file ends before.
fn field(bytes: &[u8], at: usize, size: usize) -> Option<u64> {
    let field = bytes.get(at..at.checked_add(size)?)?;
    Some(field.iter().rev().fold(0, |n, byte| n << 8 | u64::from(*byte)))
}

fn range(bytes: &[u8], at: u64, size: u64) -> Option<std::ops::Range<usize>> {
    let (at, size) = (usize::try_from(at).ok()?, usize::try_from(size).ok()?);
    let end = at.checked_add(size)?;
    (end <= bytes.len()).then_some(at..end)
}

/// The text at a place, up to a 0.
fn name(bytes: &[u8], at: usize) -> String {
    let rest = bytes.get(at..).unwrap_or(&[]);
    let end = rest.iter().position(|byte| *byte == 0).unwrap_or(rest.len());
    String::from_utf8_lossy(&rest[..end]).into_owned()
}

/// Whether the file is an ELF file.
pub fn is_elf(bytes: &[u8]) -> bool {
    bytes.starts_with(b"\x7fELF")
}

/// The fields of a section's header: name, type, flags, address, place, size, link, info.
fn section_fields(bytes: &[u8], at: usize, wide: bool) -> Option<[u64; 8]> {
    let word = if wide { 8 } else { 4 };
    let behind = 8 + 4 * word;
    Some([
        field(bytes, at, 4)?,
        field(bytes, at + 4, 4)?,
        field(bytes, at + 8, word)?,
        field(bytes, at + 8 + word, word)?,
        field(bytes, at + 8 + 2 * word, word)?,
        field(bytes, at + 8 + 3 * word, word)?,
        field(bytes, at + behind, 4)?,
        field(bytes, at + behind + 4, 4)?,
    ])
}

/// The sections of an ELF file.
///
/// # Errors
/// Why it cannot be read, in words.
pub fn elf(bytes: &[u8]) -> Result<Object, String> {
    let wide = match (bytes.get(4), bytes.get(5)) {
        (Some(1), Some(1)) => false,
        (Some(2), Some(1)) => true,
        (Some(1 | 2), Some(2)) => return Err("a big-endian ELF file; little-endian ones are read".to_string()),
        _ => return Err("an ELF file of neither 32 nor 64 bits".to_string()),
    };
    elf_sections(bytes, wide).ok_or_else(|| "an ELF file whose section headers are cut off".to_string())
}

fn elf_sections(bytes: &[u8], wide: bool) -> Option<Object> {
    let (table_at, counts) = if wide { (40, 58) } else { (32, 46) };
    let word = if wide { 8 } else { 4 };
    let table = usize::try_from(field(bytes, table_at, word)?).ok()?;
    let (size, count, names) = (field(bytes, counts, 2)?, field(bytes, counts + 2, 2)?, field(bytes, counts + 4, 2)?);
    let (kind, machine) = (field(bytes, 16, 2)?, field(bytes, 18, 2)?);
    let object = |sections| {
        let (relocatable, movable, segments) = (kind == ET_REL, kind == ET_DYN, segments(bytes, wide));
        Some(Object { sections, word: word as u64, machine, relocatable, movable, segments })
    };
    if table == 0 {
        return object(Vec::new());
    }
    let first = section_fields(bytes, table, wide)?;
    let count = if count == 0 { first[5] } else { count };
    let names = if names == SHN_XINDEX { first[6] } else { names };
    let header = |n: u64| {
        let at = usize::try_from(n).ok()?.checked_mul(usize::try_from(size).ok()?)?.checked_add(table)?;
        section_fields(bytes, at, wide)
    };
    let strings = header(names)?;
    let strings = bytes.get(range(bytes, strings[4], strings[5])?)?;
    let mut sections = Vec::new();
    for n in 0..count {
        let [title, kind, flags, address, at, size, link, info] = header(n)?;
        let held = range(bytes, at, size).filter(|_| kind != SHT_NOBITS && flags & SHF_COMPRESSED == 0);
        sections.push(Section {
            name: name(strings, usize::try_from(title).ok()?),
            address,
            size,
            plain: held.is_some(),
            bytes: held.unwrap_or(0..0),
            kind,
            link,
            info,
        });
    }
    object(sections)
}

/// What a file's program headers load; none where there are no such headers.
fn segments(bytes: &[u8], wide: bool) -> Vec<Segment> {
    let (word, table_at, counts) = if wide { (8, 32, 54) } else { (4, 28, 42) };
    let head = || Some((field(bytes, table_at, word)?, field(bytes, counts, 2)?, field(bytes, counts + 2, 2)?));
    let Some((table, size, count)) = head() else { return Vec::new() };
    let one = |n: u64| {
        let at = usize::try_from(table.checked_add(n.checked_mul(size)?)?).ok()?;
        at.checked_add(64)?;
        // Of 64 bits the flags stand behind the type.
        let (address, held) = if wide { (at + 16, at + 40) } else { (at + 8, at + 20) };
        let (kind, address, size) = (field(bytes, at, 4)?, field(bytes, address, word)?, field(bytes, held, word)?);
        (kind == PT_LOAD).then_some(Segment { address, size })
    };
    (0..count).filter_map(one).collect()
}

/// The build id of an ELF file, as hexadecimal digits.
pub fn build_id(bytes: &[u8], object: &Object) -> Option<String> {
    let notes = object.sections.iter().filter(|section| section.kind == SHT_NOTE && section.plain);
    notes.filter_map(|section| bytes.get(section.bytes.clone())).find_map(id_of)
}

/// The build id in a section of notes: each has three lengths and numbers of 4 bytes, a name and a text, both filled up to 4 bytes.
fn id_of(notes: &[u8]) -> Option<String> {
    let mut at = 0usize;
    loop {
        let (name, text, kind) = (field(notes, at, 4)?, field(notes, at + 4, 4)?, field(notes, at + 8, 4)?);
        let named = range(notes, at as u64 + 12, name)?;
        let held = range(notes, (named.end as u64).next_multiple_of(4), text)?;
        if kind == NT_GNU_BUILD_ID && &notes[named] == GNU {
            return Some(notes[held].iter().map(|byte| format!("{byte:02x}")).collect());
        }
        at = held.end.next_multiple_of(4);
    }
}

/// A relocation of an unlinked ELF file.
#[derive(Clone, Copy, Debug)]
pub struct Relocated {
    /// Where its field stands in the section.
    pub place: u64,
    /// Its type, by the machine.
    pub kind: u64,
    /// The section that its symbol stands in; none where it stands in no section of this file.
    pub section: Option<usize>,
    /// The symbol's value and the addend: an address counted from the symbol's section.
    pub value: u64,
}

/// The relocations of an unlinked ELF file's section.
pub fn relocations(bytes: &[u8], object: &Object, section: usize) -> Vec<Relocated> {
    let lists = object.sections.iter().filter(|list| matches!(list.kind, SHT_RELA | SHT_REL) && list.info == section as u64);
    lists.flat_map(|list| relocated(bytes, object, list, section)).collect()
}

fn relocated(bytes: &[u8], object: &Object, list: &Section, section: usize) -> Vec<Relocated> {
    let of = |section: &Section| bytes.get(section.bytes.clone()).unwrap_or(&[]);
    let symbols = usize::try_from(list.link).ok().and_then(|link| object.sections.get(link)).map_or(&[][..], of);
    let held = object.sections.get(section).map_or(&[][..], of);
    let wide = object.word == 8;
    let word = if wide { 8 } else { 4 };
    let size = if list.kind == SHT_RELA { 3 * word } else { 2 * word };
    let one = |entry: &[u8]| {
        let (place, info) = (field(entry, 0, word)?, field(entry, word, word)?);
        let (symbol, kind) = if wide { (info >> 32, info & 0xffff_ffff) } else { (info >> 8, info & 0xff) };
        // Without a field of its own the addend stands where it is to be added; there a field is one of 4 bytes.
        let addend = match list.kind {
            SHT_RELA => field(entry, 2 * word, word)?,
            _ => field(held, usize::try_from(place).ok()?, 4).unwrap_or(0),
        };
        // A symbol's section and value (gABI, "Symbol Table").
        let symbol = usize::try_from(symbol).ok()?;
        let (at, value) = if wide { (24 * symbol + 6, 24 * symbol + 8) } else { (16 * symbol + 14, 16 * symbol + 4) };
        let home = field(symbols, at, 2).and_then(|n| usize::try_from(n).ok());
        let section = home.filter(|home| *home != 0 && *home < object.sections.len());
        let value = field(symbols, value, word).unwrap_or(0).wrapping_add(addend);
        Some(Relocated { place, kind, section, value })
    };
    of(list).chunks_exact(size).filter_map(one).collect()
}

/// The names of an ELF file's functions by their addresses (gABI, "Symbol Table"): of those in .symtab, or else in .dynsym. Of two names
/// for one address the first counts.
pub fn function_names(bytes: &[u8], object: &Object) -> Vec<(u64, String)> {
    let table = |kind| object.sections.iter().find(|section| section.kind == kind && section.plain);
    let Some(symbols) = table(SHT_SYMTAB).or_else(|| table(SHT_DYNSYM)) else { return Vec::new() };
    let strings = usize::try_from(symbols.link).ok().and_then(|link| object.sections.get(link));
    let Some(strings) = strings.and_then(|strings| bytes.get(strings.bytes.clone())) else { return Vec::new() };
    let (size, word, info, value) = if object.word == 8 { (24, 8, 4, 8) } else { (16, 4, 12, 4) };
    let mut found = std::collections::BTreeMap::new();
    for symbol in bytes.get(symbols.bytes.clone()).unwrap_or(&[]).chunks_exact(size) {
        let Some((title, about, address)) = symbol_fields(symbol, info, value, word) else { continue };
        if about & 15 == STT_FUNC && address != 0 {
            found.entry(address).or_insert_with(|| name(strings, title));
        }
    }
    found.into_iter().collect()
}

fn symbol_fields(symbol: &[u8], info: usize, value: usize, word: usize) -> Option<(usize, u64, u64)> {
    Some((usize::try_from(field(symbol, 0, 4)?).ok()?, field(symbol, info, 1)?, field(symbol, value, word)?))
}

/// A COFF object or a PE image: its machine, sections and symbols.
pub struct Coff {
    /// The number of the machine, by the PE/COFF specification.
    pub machine: u64,
    /// Whether it is linked, so that fields hold addresses from the image's start.
    pub image: bool,
    /// The sections, in the file's order; symbols count them from 1 on.
    pub sections: Vec<Section>,
    symbols: usize,
    strings: usize,
    /// How many symbols there are, with what belongs to them.
    count: u64,
}

/// The machines of COFF objects that are read.
pub const X64: u64 = 0x8664;
pub const ARM64: u64 = 0xaa64;
/// The bytes of a section's header, a symbol and a relocation; the count of relocations that says that the first one holds it.
const SECTION_HEADER: usize = 40;
const SYMBOL: usize = 18;
const RELOCATION: usize = 10;
/// The type of a function's symbol.
const FUNCTION: u64 = 0x20;
const RELOCATIONS_OVERFLOW: u64 = 0xffff;

/// The headers of a COFF object or a PE image, where the file looks like one.
pub fn coff(bytes: &[u8]) -> Option<Coff> {
    let image = bytes.starts_with(b"MZ");
    let start = match image {
        true => {
            let at = usize::try_from(field(bytes, 60, 4)?).ok()?;
            (bytes.get(at..at.checked_add(4)?)? == b"PE\0\0").then_some(at + 4)?
        }
        false => 0,
    };
    let machine = field(bytes, start, 2)?;
    if !image && machine != X64 && machine != ARM64 {
        return None;
    }
    let count = usize::try_from(field(bytes, start + 2, 2)?).ok()?;
    let symbols = usize::try_from(field(bytes, start + 8, 4)?).ok()?;
    let symbol_count = field(bytes, start + 12, 4)?;
    let strings = symbols.checked_add(SYMBOL.checked_mul(usize::try_from(symbol_count).ok()?)?)?;
    let table = start + 20 + usize::try_from(field(bytes, start + 16, 2)?).ok()?;
    let mut sections = Vec::new();
    for n in 0..count {
        let header = bytes.get(table + SECTION_HEADER * n..table + SECTION_HEADER * (n + 1))?;
        let (loaded, stored) = (field(header, 8, 4)?, field(header, 16, 4)?);
        // An image's section is filled up in the file.
        let size = if image { stored.min(loaded) } else { stored };
        let held = range(bytes, field(header, 20, 4)?, size);
        sections.push(Section {
            name: section_name(bytes, &header[..8], strings),
            address: field(header, 12, 4)?,
            size,
            plain: held.is_some(),
            bytes: held.unwrap_or(0..0),
            kind: 0,
            link: field(header, 24, 4)?,
            info: field(header, 32, 2)?,
        });
    }
    Some(Coff { machine, image, sections, symbols, strings, count: symbol_count })
}

/// A section's name; a long one is a `/` and, as decimal digits, its place among the strings.
fn section_name(bytes: &[u8], field: &[u8], strings: usize) -> String {
    let short = name(field, 0);
    let place = short.strip_prefix('/').and_then(|digits| digits.parse::<usize>().ok());
    match place.and_then(|place| strings.checked_add(place)).map(|at| name(bytes, at)) {
        Some(long) if !long.is_empty() => long,
        _ => short,
    }
}

impl Section {
    /// Whether it has this name, or is a part of the section of this name: objects can have one for each function.
    pub fn is_part(&self, name: &str) -> bool {
        let rest = self.name.strip_prefix(name);
        self.plain && rest.is_some_and(|rest| rest.is_empty() || rest.starts_with(['$', '.']))
    }
}

/// A symbol of a COFF object.
#[derive(Clone, Debug)]
pub struct Symbol {
    /// Its name.
    pub name: String,
    /// The section that it stands in, from 0 on, and where; none where it stands in no section of this file.
    pub place: Option<(usize, u64)>,
}

impl Coff {
    /// The relocations of a section of an object: places and symbols.
    pub fn relocations(&self, bytes: &[u8], section: &Section) -> std::collections::BTreeMap<u64, Symbol> {
        let list = usize::try_from(section.link).ok().and_then(|at| bytes.get(at..)).unwrap_or(&[]);
        let mut entries = list.chunks_exact(RELOCATION);
        let count = match section.info {
            RELOCATIONS_OVERFLOW => entries.next().and_then(|first| field(first, 0, 4)).unwrap_or(0).saturating_sub(1),
            count => count,
        };
        let entries = entries.take(usize::try_from(count).unwrap_or(0));
        entries.filter_map(|entry| Some((field(entry, 0, 4)?, self.symbol(bytes, field(entry, 4, 4)?)?))).collect()
    }

    /// Names for places: of the symbols that stand there a function's, or else another that is not the section's own.
    pub fn names(&self, bytes: &[u8]) -> std::collections::BTreeMap<(usize, u64), String> {
        let (mut functions, mut others, mut n) = (std::collections::BTreeMap::new(), std::collections::BTreeMap::new(), 0);
        while let Some(symbol) = self.symbol_bytes(bytes, n).filter(|_| n < self.count) {
            // The last field counts the entries that belong to this one.
            n += 1 + field(symbol, SYMBOL - 1, 1).unwrap_or(0);
            let Some(Symbol { name, place: Some(place) }) = self.symbol_of(bytes, symbol) else { continue };
            if field(symbol, 14, 2) == Some(FUNCTION) {
                functions.entry(place).or_insert(name);
            } else if name != self.sections[place.0].name {
                others.entry(place).or_insert(name);
            }
        }
        others.extend(functions);
        others
    }

    fn symbol_bytes<'a>(&self, bytes: &'a [u8], n: u64) -> Option<&'a [u8]> {
        let at = usize::try_from(n).ok()?.checked_mul(SYMBOL)?.checked_add(self.symbols)?;
        bytes.get(at..at.checked_add(SYMBOL)?)
    }

    fn symbol(&self, bytes: &[u8], n: u64) -> Option<Symbol> {
        self.symbol_of(bytes, self.symbol_bytes(bytes, n)?)
    }

    fn symbol_of(&self, bytes: &[u8], symbol: &[u8]) -> Option<Symbol> {
        // A long name stands among the strings.
        let name = match field(symbol, 0, 4)? {
            0 => name(bytes, self.strings.checked_add(usize::try_from(field(symbol, 4, 4)?).ok()?)?),
            _ => name(&symbol[..8], 0),
        };
        let section = usize::try_from(field(symbol, 12, 2)?).ok()?;
        let section = section.checked_sub(1).filter(|section| *section < self.sections.len());
        Some(Symbol { name, place: section.zip(field(symbol, 8, 4)) })
    }

    /// The section of an image that holds an address.
    pub fn holder(&self, address: u64) -> Option<&Section> {
        let inside =
            |section: &&Section| address.checked_sub(section.address).is_some_and(|at| at < section.bytes.len() as u64);
        self.sections.iter().find(inside)
    }
}
