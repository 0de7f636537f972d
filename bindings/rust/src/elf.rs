//! ELF files, little-endian, of 32 or 64 bits (System V gABI): header, sections, segments, symbols, relocations and notes, over a
//! file's bytes as they are lent. Every file is taken; what is wrong with one is a [`Refusal`].
//!
//! ```
//! use dekvoz::elf::{Elf, Reason};
//!
//! assert_eq!(Elf::new(b"no ELF file at all").unwrap_err().reason, Reason::NotElf);
//! ```

use core::error::Error;
use core::fmt;

use crate::sys;

/// What is wrong with a file.
#[derive(Clone, Copy, Debug, PartialEq, Eq, Hash)]
#[non_exhaustive]
pub enum Reason {
    /// 101: no ELF file.
    NotElf,
    /// 102: a class, a byte order or a version that is not known.
    Unknown,
    /// 103: the header, a table, a section or a note does not lie in the file.
    Outside,
    /// 104: a name does not lie in its strings.
    Name,
    /// 105: an entry size other than the class's.
    EntrySize,
    /// 106: a table in a section that is compressed.
    Compressed,
    /// 107: there is no such entry.
    NoEntry,
    /// 108: a section of another kind than is asked for.
    Kind,
    /// 109: an alignment of notes that is neither 4 nor 8.
    Alignment,
}

impl Reason {
    /// The number that C sees.
    #[must_use]
    pub const fn number(self) -> u64 {
        match self {
            Reason::NotElf => 101,
            Reason::Unknown => 102,
            Reason::Outside => 103,
            Reason::Name => 104,
            Reason::EntrySize => 105,
            Reason::Compressed => 106,
            Reason::NoEntry => 107,
            Reason::Kind => 108,
            Reason::Alignment => 109,
        }
    }

    /// The reason in words.
    #[must_use]
    pub const fn words(self) -> &'static str {
        match self {
            Reason::NotElf => "this is no ELF file",
            Reason::Unknown => "the class, the byte order or the version is not known",
            Reason::Outside => "what stands there does not lie in the file",
            Reason::Name => "the name does not lie in its strings",
            Reason::EntrySize => "the entry size is not the class's",
            Reason::Compressed => "the section is compressed",
            Reason::NoEntry => "there is no such entry",
            Reason::Kind => "the section is of another kind",
            Reason::Alignment => "the alignment of notes is neither 4 nor 8",
        }
    }
}

/// A reason, and the place in the file of what is at fault.
#[derive(Clone, Copy, Debug, PartialEq, Eq, Hash)]
pub struct Refusal {
    /// What is wrong.
    pub reason: Reason,
    /// The place in the file.
    pub at: u64,
}

impl fmt::Display for Refusal {
    fn fmt(&self, f: &mut fmt::Formatter<'_>) -> fmt::Result {
        write!(f, "byte {:#x}: {} ({})", self.at, self.reason.words(), self.reason.number())
    }
}

impl Error for Refusal {}

fn accepted(number: u64, at: u64) -> Result<(), Refusal> {
    let reason = match number {
        0 => return Ok(()),
        101 => Reason::NotElf,
        102 => Reason::Unknown,
        103 => Reason::Outside,
        104 => Reason::Name,
        105 => Reason::EntrySize,
        106 => Reason::Compressed,
        107 => Reason::NoEntry,
        108 => Reason::Kind,
        // No other number is answered.
        _ => Reason::Alignment,
    };
    Err(Refusal { reason, at })
}

/// `None` where there is no such entry.
fn found<T>(answer: Result<T, Refusal>) -> Result<Option<T>, Refusal> {
    match answer {
        Err(Refusal { reason: Reason::NoEntry, .. }) => Ok(None),
        other => other.map(Some),
    }
}

/// The class of a file.
#[derive(Clone, Copy, Debug, PartialEq, Eq, Hash)]
pub enum Class {
    /// ELFCLASS32.
    Bits32,
    /// ELFCLASS64.
    Bits64,
}

/// A file's header.
#[derive(Clone, Copy, Debug, PartialEq, Eq, Hash)]
pub struct Header {
    /// The class.
    pub class: Class,
    /// e_type: 1 a relocatable file, 2 an executable, 3 a shared object, 4 a core file.
    pub kind: u64,
    /// e_machine.
    pub machine: u64,
    /// e_flags.
    pub flags: u64,
    /// e_entry.
    pub entry: u64,
}

/// A section.
#[derive(Clone, Copy, Debug, PartialEq, Eq, Hash)]
pub struct Section<'a> {
    /// Its index in the table.
    pub index: u64,
    /// Its name; empty where the sections have no names.
    pub name: &'a [u8],
    /// sh_type.
    pub kind: u64,
    /// sh_flags.
    pub flags: u64,
    /// sh_addr.
    pub address: u64,
    /// sh_offset.
    pub place: u64,
    /// sh_size.
    pub size: u64,
    /// Its bytes in the file; none for SHT_NULL and SHT_NOBITS.
    pub bytes: &'a [u8],
    /// sh_link.
    pub link: u64,
    /// sh_info.
    pub info: u64,
    /// sh_addralign.
    pub align: u64,
    /// sh_entsize.
    pub entry_size: u64,
    /// Whether its bytes are compressed, by its flag or by its name.
    pub compressed: bool,
}

/// A segment.
#[derive(Clone, Copy, Debug, PartialEq, Eq, Hash)]
pub struct Segment<'a> {
    /// Its index in the table.
    pub index: u64,
    /// p_type.
    pub kind: u64,
    /// p_flags.
    pub flags: u64,
    /// p_offset.
    pub place: u64,
    /// p_vaddr.
    pub address: u64,
    /// p_paddr.
    pub physical: u64,
    /// p_filesz.
    pub size: u64,
    /// p_memsz.
    pub memory: u64,
    /// p_align.
    pub align: u64,
    /// Those of its bytes that the file has; fewer than `size` where a core file was cut off.
    pub bytes: &'a [u8],
}

/// A symbol.
#[derive(Clone, Copy, Debug, PartialEq, Eq, Hash)]
pub struct Symbol<'a> {
    /// Its index in the table.
    pub index: u64,
    /// Its name.
    pub name: &'a [u8],
    /// st_value.
    pub value: u64,
    /// st_size.
    pub size: u64,
    /// STT_: 1 an object, 2 a function.
    pub kind: u64,
    /// STB_: 0 local, 1 global, 2 weak.
    pub binding: u64,
    /// STV_: 0 default, 1 internal, 2 hidden, 3 protected.
    pub visibility: u64,
    /// The index of its section: 0 undefined, 0xfff1 absolute, 0xfff2 common, 0xffff where the index stands in a section of kind 18.
    pub section: u64,
}

/// A relocation.
#[derive(Clone, Copy, Debug, PartialEq, Eq, Hash)]
pub struct Relocation {
    /// Its index in the table.
    pub index: u64,
    /// r_offset.
    pub place: u64,
    /// The index of its symbol, in the table that the section's link names.
    pub symbol: u64,
    /// Its kind, by the machine.
    pub kind: u64,
    /// Its addend, where the entry has one; else that stands at the place.
    pub addend: Option<i64>,
}

/// A note.
#[derive(Clone, Copy, Debug, PartialEq, Eq, Hash)]
pub struct Note<'a> {
    /// Its kind.
    pub kind: u64,
    /// Its name, without the 0 behind it.
    pub name: &'a [u8],
    /// Its text.
    pub text: &'a [u8],
}

/// An ELF file whose header was read.
#[derive(Clone, Copy, Debug)]
pub struct Elf<'a> {
    bytes: &'a [u8],
    header: Header,
}

impl<'a> Elf<'a> {
    /// Reads the header.
    ///
    /// # Errors
    /// 101 to 103.
    pub fn new(bytes: &'a [u8]) -> Result<Self, Refusal> {
        // SAFETY: the pointer and the count are a slice's.
        let said = unsafe { sys::unwind_elf_header(bytes.as_ptr(), bytes.len()) };
        accepted(said.number, said.at)?;
        let class = if said.class_bits == 32 { Class::Bits32 } else { Class::Bits64 };
        let header = Header { class, kind: said.kind, machine: said.machine, flags: said.flags, entry: said.entry };
        Ok(Elf { bytes, header })
    }

    /// The header.
    #[must_use]
    pub const fn header(&self) -> &Header {
        &self.header
    }

    /// The whole file.
    #[must_use]
    pub const fn bytes(&self) -> &'a [u8] {
        self.bytes
    }

    /// Bytes that an answer names, which lie in the file.
    fn part(&self, place: u64, length: u64) -> &'a [u8] {
        let from = usize::try_from(place).unwrap_or(usize::MAX);
        let count = usize::try_from(length).unwrap_or(usize::MAX);
        self.bytes.get(from..).and_then(|rest| rest.get(..count)).unwrap_or(&[])
    }

    fn section_of(&self, said: &sys::ElfSection) -> Result<Section<'a>, Refusal> {
        accepted(said.number, said.at)?;
        Ok(Section {
            index: said.index,
            name: self.part(said.name, said.name_length),
            kind: said.kind,
            flags: said.flags,
            address: said.address,
            place: said.place,
            size: said.size,
            bytes: self.part(said.place, said.length),
            link: said.link,
            info: said.info,
            align: said.align,
            entry_size: said.entry_size,
            compressed: said.compressed == 1,
        })
    }

    /// How many sections there are.
    ///
    /// # Errors
    /// 103 to 105.
    pub fn section_count(&self) -> Result<u64, Refusal> {
        // SAFETY: the pointer and the count are a slice's.
        let said = unsafe { sys::unwind_elf_sections(self.bytes.as_ptr(), self.bytes.len()) };
        accepted(said.number, said.at).map(|()| said.count)
    }

    /// The section at an index.
    ///
    /// # Errors
    /// 103 to 107.
    pub fn section(&self, index: u64) -> Result<Section<'a>, Refusal> {
        // SAFETY: the pointer and the count are a slice's.
        let said = unsafe { sys::unwind_elf_section(self.bytes.as_ptr(), self.bytes.len(), index) };
        self.section_of(&said)
    }

    /// The sections in their order; one that cannot be read is its refusal.
    ///
    /// # Errors
    /// 103 to 105, of the table.
    pub fn sections(&self) -> Result<impl Iterator<Item = Result<Section<'a>, Refusal>>, Refusal> {
        let file = *self;
        Ok((0..self.section_count()?).map(move |index| file.section(index)))
    }

    /// The first section of a name. One whose name cannot be read is passed over.
    ///
    /// # Errors
    /// 103 to 106.
    pub fn section_named(&self, name: &[u8]) -> Result<Option<Section<'a>>, Refusal> {
        // SAFETY: the pointers and the counts are slices'.
        let said = unsafe { sys::unwind_elf_section_named(self.bytes.as_ptr(), self.bytes.len(), name.as_ptr(), name.len()) };
        found(self.section_of(&said))
    }

    /// How many segments there are.
    ///
    /// # Errors
    /// 103 or 105.
    pub fn segment_count(&self) -> Result<u64, Refusal> {
        // SAFETY: the pointer and the count are a slice's.
        let said = unsafe { sys::unwind_elf_segments(self.bytes.as_ptr(), self.bytes.len()) };
        accepted(said.number, said.at).map(|()| said.count)
    }

    /// The segment at an index.
    ///
    /// # Errors
    /// 103, 105 or 107.
    pub fn segment(&self, index: u64) -> Result<Segment<'a>, Refusal> {
        // SAFETY: the pointer and the count are a slice's.
        let said = unsafe { sys::unwind_elf_segment(self.bytes.as_ptr(), self.bytes.len(), index) };
        accepted(said.number, said.at)?;
        Ok(Segment {
            index: said.index,
            kind: said.kind,
            flags: said.flags,
            place: said.place,
            address: said.address,
            physical: said.physical,
            size: said.size,
            memory: said.memory,
            align: said.align,
            bytes: self.part(said.place, said.length),
        })
    }

    /// The segments in their order.
    ///
    /// # Errors
    /// 103 or 105, of the table.
    pub fn segments(&self) -> Result<impl Iterator<Item = Result<Segment<'a>, Refusal>>, Refusal> {
        let file = *self;
        Ok((0..self.segment_count()?).map(move |index| file.segment(index)))
    }

    fn symbol_of(&self, said: &sys::ElfSymbol) -> Result<Symbol<'a>, Refusal> {
        accepted(said.number, said.at)?;
        Ok(Symbol {
            index: said.index,
            name: self.part(said.name, said.name_length),
            value: said.value,
            size: said.size,
            kind: said.kind,
            binding: said.binding,
            visibility: said.visibility,
            section: said.section,
        })
    }

    /// The symbol at an index of the table in a section.
    ///
    /// # Errors
    /// 103 to 108.
    pub fn symbol(&self, table: u64, index: u64) -> Result<Symbol<'a>, Refusal> {
        // SAFETY: the pointer and the count are a slice's.
        let said = unsafe { sys::unwind_elf_symbol(self.bytes.as_ptr(), self.bytes.len(), table, index) };
        self.symbol_of(&said)
    }

    /// The symbols of the table in a section. A symbol whose name cannot be read is its refusal; any other one is the last.
    pub fn symbols(&self, table: u64) -> impl Iterator<Item = Result<Symbol<'a>, Refusal>> {
        let file = *self;
        entries(move |index| file.symbol(table, index))
    }

    /// The function symbol of a table that covers an address: one with a size before one without, which covers up to its section's
    /// end; then the one that begins last, then the shortest, then the first. With a section, of those that stand in it: in a
    /// relocatable file an address is one of a section.
    ///
    /// # Errors
    /// 103 to 106 or 108.
    pub fn symbol_at(&self, table: u64, section: Option<u64>, address: u64) -> Result<Option<Symbol<'a>>, Refusal> {
        let (file, size) = (self.bytes.as_ptr(), self.bytes.len());
        // SAFETY: the pointer and the count are a slice's.
        let said = unsafe { sys::unwind_elf_symbol_at(file, size, table, section.unwrap_or(0), address) };
        found(self.symbol_of(&said))
    }

    /// The relocation at an index of the table in a section.
    ///
    /// # Errors
    /// 103 or 105 to 108.
    pub fn relocation(&self, table: u64, index: u64) -> Result<Relocation, Refusal> {
        // SAFETY: the pointer and the count are a slice's.
        let said = unsafe { sys::unwind_elf_relocation(self.bytes.as_ptr(), self.bytes.len(), table, index) };
        accepted(said.number, said.at)?;
        let addend = (said.has_addend == 1).then_some(said.addend as i64);
        Ok(Relocation { index: said.index, place: said.place, symbol: said.symbol, kind: said.kind, addend })
    }

    /// The relocations of the table in a section; a refusal is the last.
    pub fn relocations(&self, table: u64) -> impl Iterator<Item = Result<Relocation, Refusal>> + use<'a> {
        let file = *self;
        entries(move |index| file.relocation(table, index))
    }

    fn note_of(&self, said: &sys::ElfNote) -> Result<Note<'a>, Refusal> {
        accepted(said.number, said.at)?;
        Ok(Note { kind: said.kind, name: self.part(said.name, said.name_length), text: self.part(said.text, said.text_length) })
    }

    /// The notes from a place on, of a section or a segment with an alignment; a refusal is the last.
    pub fn notes(&self, place: u64, length: u64, align: u64) -> impl Iterator<Item = Result<Note<'a>, Refusal>> {
        let (file, end) = (*self, place.saturating_add(length));
        let mut next = Some(place);
        core::iter::from_fn(move || {
            let at = next.take()?;
            // SAFETY: the pointer and the count are a slice's.
            let said = unsafe { sys::unwind_elf_note(file.bytes.as_ptr(), file.bytes.len(), at, end, align) };
            let note = found(file.note_of(&said)).transpose()?;
            next = note.is_ok().then_some(said.next);
            Some(note)
        })
    }

    /// The first note of a name and a kind from a place on, of a section or a segment with an alignment.
    ///
    /// # Errors
    /// 103 or 109.
    pub fn note_named(&self, place: u64, length: u64, align: u64, name: &[u8], kind: u64) -> Result<Option<Note<'a>>, Refusal> {
        let (file, size, end) = (self.bytes.as_ptr(), self.bytes.len(), place.saturating_add(length));
        // SAFETY: the pointers and the counts are slices'.
        let said = unsafe { sys::unwind_elf_note_named(file, size, place, end, align, name.as_ptr(), name.len(), kind) };
        found(self.note_of(&said))
    }
}

/// The entries of a table, from 0 on, up to the first that is not there; another refusal than that of a name is the last.
fn entries<T>(get: impl Fn(u64) -> Result<T, Refusal>) -> impl Iterator<Item = Result<T, Refusal>> {
    let mut next = Some(0_u64);
    core::iter::from_fn(move || {
        let index = next.take()?;
        let entry = found(get(index)).transpose()?;
        if matches!(entry, Ok(_) | Err(Refusal { reason: Reason::Name, .. })) {
            next = index.checked_add(1);
        }
        Some(entry)
    })
}
