//! The section that a command works on: of an ELF file, or raw bytes.

use std::borrow::Cow;
use std::collections::BTreeMap;
use std::fs;
use std::io::{self, Read};
use std::ops::Range;

use dekvoz::parts::{entries, record, Entry};
use dekvoz::{FrameSection, Holder, Placed, Question, Record, Refusal, Relocation, Section as Kind, Word};

use crate::args::{Args, Usage};
use crate::object::{self, Object};
use crate::registers::{Machine, Names};
use crate::{relocate, Stop};

/// The sections that are looked for.
pub const EH_FRAME: &str = ".eh_frame";
pub const DEBUG_FRAME: &str = ".debug_frame";
/// The field for a function's place stands so far behind its record's start, behind the length and the second field.
const FUNCTION: u64 = 8;

/// A file.
pub struct File {
    /// Its name, as errors tell it.
    pub name: String,
    /// What it holds.
    pub bytes: Vec<u8>,
    /// Its sections, where it is an ELF file.
    pub object: Option<Object>,
}

/// A section, and how to read it.
pub struct Section<'a> {
    /// Its bytes; of a file that is not linked with its relocations applied.
    pub bytes: Cow<'a, [u8]>,
    /// Its name, in an ELF file.
    pub name: Option<String>,
    /// eh_frame or debug_frame.
    pub kind: Kind,
    /// The bytes of an address.
    pub word: Word,
    /// Where its file was linked to have it.
    pub address: u64,
    /// How far from there it was loaded.
    pub moved: u64,
    /// The relocations that a list names.
    pub relocations: Vec<Relocation>,
    /// Whether a record of debug_frame names its header by its own field.
    pub linked: bool,
    /// The names of registers.
    pub names: Names,
    /// In a file that is not linked, the sections that applied relocations lead to, by their places: position and name.
    pub homes: BTreeMap<u64, (usize, String)>,
    /// The places of its relocations that could not be applied, in order.
    pub left: Vec<u64>,
}

impl Section<'_> {
    /// A section of raw bytes.
    pub fn raw(bytes: &[u8], kind: Kind, address: u64, names: Names) -> Section<'_> {
        Section {
            bytes: Cow::Borrowed(bytes),
            name: None,
            kind,
            word: Word::Eight,
            address,
            moved: 0,
            relocations: Vec::new(),
            linked: false,
            names,
            homes: BTreeMap::new(),
            left: Vec::new(),
        }
    }

    /// The section that the function of the record at a place stands in, in a file that is not linked.
    pub fn home(&self, place: u64) -> Option<&(usize, String)> {
        self.homes.get(&place.checked_add(FUNCTION)?)
    }

    /// Whether a relocation in these places could not be applied.
    pub fn left_in(&self, places: Range<u64>) -> bool {
        let first = self.left.partition_point(|place| *place < places.start);
        self.left.get(first).is_some_and(|place| *place < places.end)
    }
}

impl File {
    /// Reads the file that the arguments name.
    ///
    /// # Errors
    /// There is none, or it cannot be read.
    pub fn new(args: &Args) -> Result<File, Stop> {
        let Some(path) = args.file() else {
            let command = args.command.as_deref().unwrap_or("");
            return Err(Stop::Usage(Usage(format!("{command} asks for a file; `-` is standard input"))));
        };
        let (name, bytes) = match path {
            "-" => ("standard input".to_string(), read_all(io::stdin().lock())),
            path => (path.to_string(), fs::read(path)),
        };
        let bytes = bytes.map_err(|error| Stop::failed(&name, error))?;
        let object = match object::is_elf(&bytes) {
            true => Some(object::elf(&bytes).map_err(|why| Stop::failed(&name, why))?),
            false => None,
        };
        Ok(File { name, bytes, object })
    }

    /// The section that the options choose; `base` is the address of raw bytes.
    ///
    /// # Errors
    /// Options that do not fit, or no such section.
    pub fn section(&self, args: &Args, base: Option<u64>) -> Result<Section<'_>, Stop> {
        let none = self.without(args, kind(args)?);
        self.sections(args, base)?.into_iter().next().ok_or(none)
    }

    fn without(&self, args: &Args, kind: Option<Kind>) -> Stop {
        Stop::failed(&self.name, format!("an ELF file without {}", wanted(args, kind).join(" and without ")))
    }

    /// The sections that the options choose, in the order in which they are looked into.
    ///
    /// # Errors
    /// Options that do not fit, or no such section.
    pub fn sections(&self, args: &Args, base: Option<u64>) -> Result<Vec<Section<'_>>, Stop> {
        let kind = kind(args)?;
        let mut sections = match &self.object {
            Some(object) => self.elf_sections(args, object, kind)?,
            None => vec![self.raw(args, kind)?],
        };
        let word = word(args)?;
        let load_base = args.number("--load-base")?;
        for section in &mut sections {
            section.word = word.unwrap_or(section.word);
            match (&self.object, base, load_base) {
                (None, base, None) => section.address = base.unwrap_or(0),
                (Some(_), None, None) => {}
                (Some(object), None, Some(base)) => section.moved = self.moved(object, base)?,
                (Some(_), Some(_), _) => {
                    let why = "--base is of raw bytes; --load-base says where an ELF file was loaded";
                    return Err(Stop::Usage(Usage(why.to_string())));
                }
                (None, _, Some(_)) => {
                    let why = "--load-base is of an ELF file; --base is the address of the first of raw bytes";
                    return Err(Stop::Usage(Usage(why.to_string())));
                }
            }
            if let Some(path) = args.value("--relocations") {
                section.relocations = relocations(path)?;
            }
            if let Some(name) = args.value("--machine") {
                let machine = Machine::of_name(name);
                let known = || Usage(format!("--machine: `{name}` is none of x86-64, aarch64, riscv, arm and i386"));
                section.names = Names::new(Some(machine.ok_or_else(known)?));
            }
            // The fields of an ELF file are final, or had their relocations applied.
            section.linked = args.has("--linked") || self.object.is_some() && !args.has("--relocations");
        }
        Ok(sections)
    }

    /// How far a file was loaded from where it was linked to.
    fn moved(&self, object: &Object, base: u64) -> Result<u64, Stop> {
        let first = object.first_page().filter(|_| !object.relocatable);
        let first =
            first.ok_or_else(|| Stop::failed(&self.name, "it has nothing to load, so that --load-base means nothing"))?;
        Ok(base.wrapping_sub(first))
    }

    fn raw(&self, args: &Args, kind: Option<Kind>) -> Result<Section<'_>, Stop> {
        if args.has("--section") {
            return Err(Stop::failed(&self.name, "no ELF file, so that --section names nothing"));
        }
        Ok(Section::raw(&self.bytes, kind.unwrap_or(Kind::Eh), 0, Names::new(None)))
    }

    fn elf_sections(&self, args: &Args, object: &Object, kind: Option<Kind>) -> Result<Vec<Section<'_>>, Stop> {
        let mut found = wanted(args, kind).into_iter().filter_map(|name| object.position(name));
        let first = found.next().ok_or_else(|| self.without(args, kind))?;
        // An answer about one of several would be taken for one about the file.
        let name = &object.sections[first].name;
        let alike = object.sections.iter().filter(|section| section.name == *name).count();
        if alike > 1 {
            let why = format!("it has {alike} sections {name}, and one is read; dump --readelf lists each");
            return Err(Stop::failed(&self.name, why));
        }
        let mut sections = vec![self.of_object(object, first, kind)?];
        // One whose bytes are not there is not looked into behind another.
        sections.extend(found.filter_map(|found| self.of_object(object, found, kind).ok()));
        Ok(sections)
    }

    /// A section of an ELF file, by its position.
    ///
    /// # Errors
    /// Its bytes are not there.
    pub fn of_object(&self, object: &Object, found: usize, kind: Option<Kind>) -> Result<Section<'_>, Stop> {
        let section = &object.sections[found];
        if !section.plain {
            return Err(Stop::failed(&self.name, format!("{} is compressed, or its bytes are not in this file", section.name)));
        }
        let kind = kind.unwrap_or(if section.name == DEBUG_FRAME { Kind::Debug } else { Kind::Eh });
        let names = Names::new(Machine::of_elf(object.machine));
        let raw = Section::raw(&self.bytes[section.bytes.clone()], kind, section.address, names);
        let word = if object.word == 8 { Word::Eight } else { Word::Four };
        let made = Section { name: Some(section.name.clone()), word, linked: true, ..raw };
        if !object.relocatable {
            return Ok(made);
        }
        let relocations = object::relocations(&self.bytes, object, found);
        let moved = relocate::applied(&made.bytes, object.machine, &relocations);
        let home = |to: &object::Relocated| Some((to.place, (to.section?, object.sections[to.section?].name.clone())));
        let homes = relocations.iter().filter(|to| moved.left.binary_search(&to.place).is_err()).filter_map(home).collect();
        Ok(Section { bytes: Cow::Owned(moved.bytes), homes, left: moved.left, ..made })
    }
}

/// The names of the sections that the options choose.
fn wanted(args: &Args, kind: Option<Kind>) -> Vec<&str> {
    match (args.value("--section"), kind) {
        (Some(name), _) => vec![name],
        (None, Some(Kind::Debug)) => vec![DEBUG_FRAME],
        (None, Some(_)) => vec![EH_FRAME],
        (None, None) => vec![EH_FRAME, DEBUG_FRAME],
    }
}

fn read_all(mut from: impl Read) -> io::Result<Vec<u8>> {
    let mut bytes = Vec::new();
    from.read_to_end(&mut bytes)?;
    Ok(bytes)
}

fn kind(args: &Args) -> Result<Option<Kind>, Usage> {
    match args.value("--kind") {
        None => Ok(None),
        Some("eh" | "eh_frame" | ".eh_frame") => Ok(Some(Kind::Eh)),
        Some("debug" | "debug_frame" | ".debug_frame") => Ok(Some(Kind::Debug)),
        Some(other) => Err(Usage(format!("--kind: `{other}` is neither eh nor debug"))),
    }
}

fn word(args: &Args) -> Result<Option<Word>, Usage> {
    match args.number("--word")? {
        None => Ok(None),
        Some(2) => Ok(Some(Word::Two)),
        Some(4) => Ok(Some(Word::Four)),
        Some(8) => Ok(Some(Word::Eight)),
        Some(other) => Err(Usage(format!("--word: {other} is none of 2, 4 and 8"))),
    }
}

/// A list of relocations as text: five numbers each.
fn relocations(path: &str) -> Result<Vec<Relocation>, Stop> {
    let text = fs::read_to_string(path).map_err(|error| Stop::failed(path, error))?;
    let numbers: Option<Vec<u64>> = text.split_whitespace().map(crate::args::number).collect();
    let numbers = numbers.filter(|numbers| numbers.len() % 5 == 0);
    let numbers =
        numbers.ok_or_else(|| Stop::failed(path, "relocations are five numbers each: place, symbol, kind, size, addend"))?;
    let fives = numbers.chunks_exact(5).filter_map(|five| <[u64; 5]>::try_from(five).ok());
    Ok(fives.map(|[place, symbol, kind, size, addend]| Relocation { place, symbol, kind, size, addend }).collect())
}

/// How a section ends.
#[derive(Clone, Copy, Debug, PartialEq, Eq)]
pub enum End {
    /// With its last entry.
    Entries,
    /// With a terminator, a length of 0, and perhaps zeros behind it.
    Terminator(u64),
    /// So many bytes stand behind a terminator, and not all of them are 0.
    Behind(u64, u64),
    /// At this place no entry fits the rest.
    Damaged(u64),
    /// There is nothing.
    Empty,
}

impl End {
    /// What is wrong with the end, in words.
    fn complaint(self) -> Option<String> {
        match self {
            End::Entries | End::Terminator(_) => None,
            End::Behind(at, n) => Some(format!("{n} bytes stand behind the terminator at {at:#x}")),
            End::Damaged(at) => Some(format!("at {at:#x}: refused with {}: {}", Question::Tiling.number(), Question::Tiling)),
            End::Empty => Some("the section is empty".to_string()),
        }
    }
}

/// A section's entries up to its end.
pub struct Parts<'a> {
    /// The section up to where its entries end.
    pub frame: FrameSection<'a>,
    /// The entries in order.
    pub entries: Vec<Entry>,
    /// The records in order, each with its header's place.
    pub records: Vec<Record>,
    /// How the section ends.
    pub end: End,
    /// How far the addresses of debug_frame were moved; those of eh_frame are counted from the section's.
    moved: u64,
    /// Whether the file was taken for the bytes of a section.
    raw: bool,
}

impl<'a> Parts<'a> {
    /// What is wrong with the section's end, in words. A file without functions may have an empty section.
    pub fn complaint(&self) -> Option<String> {
        let why = self.end.complaint().filter(|_| self.raw || self.end != End::Empty)?;
        match self.raw && self.entries.is_empty() && self.end != End::Empty {
            true => Some(format!("{why} (it is no ELF file, and was taken for the bytes of a section)")),
            false => Some(why),
        }
    }

    /// Goes through a section.
    pub fn new(section: &'a Section<'a>) -> Parts<'a> {
        let (mut found, mut at, mut ended) = (Vec::new(), 0, true);
        for entry in entries(&section.bytes, section.kind) {
            match entry {
                Ok(entry) => {
                    at = entry.next;
                    found.push(entry);
                }
                Err(_) => ended = false,
            }
        }
        let (bytes, rest) = section.bytes.split_at(at as usize);
        let end = match (ended, rest.starts_with(&[0; 4])) {
            (true, _) if section.bytes.is_empty() => End::Empty,
            (true, _) => End::Entries,
            (_, true) if rest.iter().all(|byte| *byte == 0) => End::Terminator(at),
            (_, true) => End::Behind(at, rest.len() as u64 - 4),
            _ => End::Damaged(at),
        };
        let (kind, word) = (section.kind, section.word);
        let (address, moved) = match kind {
            Kind::Eh => (section.address.wrapping_add(section.moved), 0),
            Kind::Debug => (section.address, section.moved),
        };
        let frame = FrameSection { bytes, relocations: &section.relocations, kind, word, address };
        let records = match kind == Kind::Debug && section.linked {
            true => linked(&frame, &found),
            // The entries tile these bytes.
            false => frame.records().unwrap_or_default(),
        };
        Parts { frame, entries: found, records, end, moved, raw: section.name.is_none() }
    }

    /// The function of the record at a place, where the file was loaded.
    ///
    /// # Errors
    /// 64.
    pub fn function(&self, place: u64) -> Result<Placed, Refusal> {
        let Placed { address, length } = self.frame.function(place)?;
        Ok(Placed { address: fitted(address.wrapping_add(self.moved), self.frame.word), length })
    }

    /// The functions of all records, in order; one that cannot be read has the length 0.
    pub fn functions(&self) -> Vec<Placed> {
        let placed = |record: &Record| self.function(record.place).unwrap_or(Placed { address: 0, length: 0 });
        self.records.iter().map(placed).collect()
    }

    /// The first record whose function holds an address, where the file was loaded.
    ///
    /// # Errors
    /// 62.
    pub fn holder(&self, pc: u64) -> Result<Holder, Refusal> {
        self.frame.at(fitted(pc.wrapping_sub(self.moved), self.frame.word))
    }
}

/// An address as the word holds it.
pub fn fitted(address: u64, word: Word) -> u64 {
    match word {
        Word::Eight => address,
        Word::Four => address & 0xffff_ffff,
        Word::Two => address & 0xffff,
    }
}

/// The records of a linked debug_frame: the field of each is the place of its header.
fn linked(frame: &FrameSection<'_>, entries: &[Entry]) -> Vec<Record> {
    let starts = |place: u64| entries.binary_search_by_key(&place, |entry| entry.place).is_ok_and(|i| entries[i].header);
    let records = entries.iter().filter(|entry| !entry.header);
    records
        .map(|entry| {
            let field = record(frame.bytes, frame.kind, frame.word, 0, entry.place).map(|fields| fields.header);
            Record { place: entry.place, header: field.ok().filter(|place| starts(*place)) }
        })
        .collect()
}
