//! `dekvoz dump --readelf`: the frame sections of an ELF file exactly as `readelf --debug-dump=frames-interp` (binutils 2.40) writes them.
//!
//! The rules are the library's. Of a table that it does not read, with expressions or other factors, the operations are first put into
//! those that it reads: a step becomes one of 1, and what it has no rule for is marked by a register number that no machine has.

use std::collections::{BTreeMap, HashMap};
use std::ops::Range;

use dekvoz::parts::{entries, header, operations, record, Entry, Operation, OperationAt};
use dekvoz::{Along, Frame, Located, Question, Rule, Section as Kind, Word};

use crate::args::{Args, Usage};
use crate::dump::augmentation;
use crate::input::{fitted, File, Section, DEBUG_FRAME, EH_FRAME};
use crate::object::Object;
use crate::out::Out;
use crate::registers::{Machine, Names};
use crate::Stop;

/// Pointer encodings (LSB 5.0, section 10.5.1): the form, what the value is counted from, and that it has a sign.
const FORM: u8 = 0x0f;
const FROM: u8 = 0x70;
const PC_RELATIVE: u8 = 0x10;
const SIGNED: u8 = 8;
/// The encodings of an absolute address and of a signed distance of 4 bytes.
const ABSOLUTE: u8 = 0;
const SDATA4: u8 = 0x1b;
/// The word that translated operations are read by: offsets are multiples of it.
const FACTOR: i64 = 2;
/// What marks an expression that gives an address, one that gives a value, and from which number on a value's offset; no machine has
/// these registers.
const EXPRESSION: u64 = 65_535;
const VALUE_EXPRESSION: u64 = 65_534;
const VALUE_OFFSET: u64 = 60_000;

/// Lists every frame section of a file. Whether every entry was told.
pub fn run(args: &Args, file: &File) -> Result<bool, Stop> {
    for option in
        ["--json", "--operations", "--base", "--address", "--load-base", "--relocations", "--word", "--kind", "--machine"]
    {
        if args.has(option) {
            return Err(Stop::Usage(Usage(format!("{option} does not go with --readelf"))));
        }
    }
    let Some(object) = &file.object else { return Err(Stop::failed(&file.name, "no ELF file, as --readelf asks for")) };
    let wanted = |name: &str| args.value("--section").map_or(name == EH_FRAME || name == DEBUG_FRAME, |wanted| name == wanted);
    let (mut out, mut untold, mut failed) = (Out::new(), 0, Vec::new());
    for (n, section) in object.sections.iter().enumerate().filter(|(_, section)| wanted(&section.name)) {
        if section.size == 0 {
            out.line().text("Section '").text(&section.name).text("' has no debugging data.").line();
            continue;
        }
        match file.of_object(object, n, None) {
            Ok(read) => {
                // readelf has no names for ARM's.
                let names = Names::new(Machine::of_elf(object.machine).filter(|machine| *machine != Machine::Arm));
                let read = Section { names, ..read };
                out.text("Contents of the ").text(&section.name).text(" section:").line().line();
                let mut listing = Listing::new(&read, object);
                listing.entries(&mut out);
                out.line();
                untold += listing.untold;
            }
            Err(stop) => failed.push(stop),
        }
    }
    crate::finished(&mut out)?;
    if untold != 0 {
        crate::complain(&file.name, &format!("{untold} entries are not told as readelf does"));
    }
    match failed.into_iter().next() {
        Some(stop) => Err(stop),
        None => Ok(untold == 0),
    }
}

/// The fields of a header that rows stand on.
#[derive(Clone, Debug)]
struct Cie {
    augmentation: String,
    code: u64,
    data: i64,
    ra: u64,
    /// The encoding of a record's address, and whether its records have augmentation data.
    encoding: u8,
    sized: bool,
    operations: Range<u64>,
}

/// The fields of a record.
struct Fde {
    second: u64,
    place: u64,
    cie: Cie,
    start: u64,
    length: u64,
    operations: Range<u64>,
}

struct Listing<'a> {
    section: &'a Section<'a>,
    bytes: &'a [u8],
    /// The bytes of an address.
    word: u64,
    headers: HashMap<u64, Option<Cie>>,
    runs: Vec<Along>,
    untold: u64,
}

/// A place in bytes from which numbers are read.
struct Reader<'a> {
    bytes: &'a [u8],
    at: u64,
    end: u64,
}

impl<'a> Reader<'a> {
    fn byte(&mut self) -> Option<u8> {
        let byte = *self.bytes.get(usize::try_from(self.at).ok().filter(|_| self.at < self.end)?)?;
        self.at += 1;
        Some(byte)
    }

    fn fixed(&mut self, size: u64) -> Option<u64> {
        let mut n = 0;
        for i in 0..size {
            n |= u64::from(self.byte()?) << (8 * i);
        }
        Some(n)
    }

    /// An unsigned LEB number of at most 64 bits.
    fn uleb(&mut self) -> Option<u64> {
        let (mut n, mut shift) = (0u64, 0);
        loop {
            let byte = self.byte()?;
            if shift < 64 {
                n |= u64::from(byte & 0x7f) << shift;
            }
            shift += 7;
            if byte < 0x80 {
                return Some(n);
            }
        }
    }

    fn sleb(&mut self) -> Option<i64> {
        let from = self.at;
        let n = self.uleb()?;
        let bits = 7 * (self.at - from);
        let last = self.bytes.get(self.at as usize - 1)?;
        Some(if bits < 64 && last & 0x40 != 0 { (n | u64::MAX << bits) as i64 } else { n as i64 })
    }

    fn skip(&mut self, count: u64) -> Option<()> {
        let next = self.at.checked_add(count).filter(|next| *next <= self.end)?;
        self.at = next;
        Some(())
    }

    fn text(&mut self) -> Option<String> {
        let mut text = Vec::new();
        loop {
            match self.byte()? {
                0 => return Some(String::from_utf8_lossy(&text).into_owned()),
                byte => text.push(byte),
            }
        }
    }
}

/// The bytes of a value of an encoding.
fn size_of(encoding: u8, word: u64) -> Option<u64> {
    match encoding & (FORM ^ SIGNED) {
        0 => Some(word),
        2 => Some(2),
        3 => Some(4),
        4 => Some(8),
        _ => None,
    }
}

impl<'a> Listing<'a> {
    fn new(section: &'a Section<'a>, object: &Object) -> Listing<'a> {
        Listing { section, bytes: &section.bytes, word: object.word, headers: HashMap::new(), runs: Vec::new(), untold: 0 }
    }

    fn width(&self) -> usize {
        2 * self.word as usize
    }

    fn address(&self, out: &mut Out, address: u64) {
        out.hex(fitted(address, self.section.word), self.width());
    }

    /// Every entry, and those behind a terminator too, as readelf goes on there.
    fn entries(&mut self, out: &mut Out) {
        let mut from = 0u64;
        while let Some(rest) = self.bytes.get(from as usize..).filter(|rest| !rest.is_empty()) {
            if rest.starts_with(&[0; 4]) {
                out.line().hex(from, 8).text(" ZERO terminator").line().line();
                from += rest.iter().position(|byte| *byte != 0).unwrap_or(rest.len()) as u64;
                continue;
            }
            let Some(Ok(entry)) = entries(rest, self.section.kind).next() else {
                self.untold += 1;
                out.line().hex(from, 8).text(" refused: no entry fits what is left of the section").line();
                return;
            };
            let entry = Entry { place: from + entry.place, next: from + entry.next, ..entry };
            out.line();
            let told = if entry.header { self.header_text(out, &entry) } else { self.record_text(out, &entry) };
            if told.is_none() {
                self.untold += 1;
                out.hex(entry.place, 8).text(" refused").line();
            }
            from = entry.next;
            if out.failed() {
                return;
            }
        }
    }

    fn front(&self, out: &mut Out, entry: &Entry, second: u64) {
        out.hex(entry.place, 8).text(" ").hex(entry.length, self.width()).text(" ").hex(second, 8);
    }

    fn header_text(&mut self, out: &mut Out, entry: &Entry) -> Option<()> {
        let cie = self.cie(entry.place)?;
        let rows = self.rows(&cie, None, 0)?;
        self.front(out, entry, if self.section.kind == Kind::Debug { 0xffff_ffff } else { 0 });
        out.text(" CIE \"").text(&cie.augmentation).text("\" cf=").decimal(cie.code).text(" df=").signed(cie.data);
        out.text(" ra=").decimal(cie.ra).line();
        self.table_text(out, &rows, cie.ra);
        Some(())
    }

    fn record_text(&mut self, out: &mut Out, entry: &Entry) -> Option<()> {
        let fde = self.fde(entry)?;
        let rows = self.rows(&fde.cie, Some(fde.operations.clone()), fde.start)?;
        self.front(out, entry, fde.second);
        out.text(" FDE cie=").hex(fde.place, 8).text(" pc=");
        self.address(out, fde.start);
        out.text("..");
        self.address(out, fde.start.wrapping_add(fde.length));
        out.line();
        self.table_text(out, &rows, fde.cie.ra);
        Some(())
    }

    /// The header at a place, by the library where it reads it.
    fn cie(&mut self, place: u64) -> Option<Cie> {
        if let Some(known) = self.headers.get(&place) {
            return known.clone();
        }
        let (kind, word) = (self.section.kind, self.section.word);
        let found = match header(self.bytes, kind, word, place) {
            Ok(fields) => Some(Cie {
                augmentation: augmentation(&fields, kind),
                code: 1,
                data: -(self.word as i64),
                ra: fields.return_register,
                encoding: if kind == Kind::Eh { SDATA4 } else { ABSOLUTE },
                sized: kind == Kind::Eh,
                operations: fields.operations,
            }),
            Err(fault) if fault.refusal.asked() == Some(Question::Fields) => self.foreign(place),
            Err(_) => None,
        };
        let found = found.filter(|cie| !self.section.left_in(cie.operations.clone()));
        self.headers.insert(place, found.clone());
        found
    }

    /// The fields of a header that the library does not read (DWARF 5, section 6.4.1; LSB 5.0, section 10.6.1).
    fn foreign(&self, place: u64) -> Option<Cie> {
        let entry = entries(self.bytes.get(place as usize..)?, self.section.kind).next()?.ok()?;
        let end = place + entry.next;
        let mut read = Reader { bytes: self.bytes, at: place + 8, end };
        let version = read.byte()?;
        let augmentation = read.text()?;
        if version == 4 && (u64::from(read.byte()?), read.byte()?) != (self.word, 0) || !matches!(version, 1 | 3 | 4) {
            return None;
        }
        let (code, data) = (read.uleb()?, read.sleb()?);
        let ra = if version == 1 { u64::from(read.byte()?) } else { read.uleb()? };
        let sized = augmentation.starts_with('z');
        if !sized && !augmentation.is_empty() {
            return None;
        }
        let mut encoding = ABSOLUTE;
        if sized {
            let length = read.uleb()?;
            let behind = read.at.checked_add(length)?;
            for letter in augmentation.chars().skip(1) {
                match letter {
                    'R' => encoding = read.byte()?,
                    'L' => read.skip(1)?,
                    'P' => {
                        let size = size_of(read.byte()?, self.word)?;
                        read.skip(size)?;
                    }
                    'S' | 'B' | 'G' => {}
                    _ => return None,
                }
            }
            read.at = behind;
        }
        (read.at <= end).then_some(Cie { augmentation, code, data, ra, encoding, sized, operations: read.at..end })
    }

    /// The fields of a record: in eh_frame its header is so far back, in debug_frame at a place.
    fn fde(&mut self, entry: &Entry) -> Option<Fde> {
        let (kind, section) = (self.section.kind, self.section);
        let second = record(self.bytes, kind, section.word, 0, entry.place).map(|fields| fields.header);
        let second = second.ok().or_else(|| Reader { bytes: self.bytes, at: entry.place + 4, end: entry.next }.fixed(4))?;
        let place = if kind == Kind::Eh { (entry.place + 4).checked_sub(second)? } else { second };
        let cie = self.cie(place)?;
        let mut read = Reader { bytes: self.bytes, at: entry.place + 8, end: entry.next };
        let at = read.at;
        let size = size_of(cie.encoding, self.word)?;
        let (value, length) = (read.fixed(size)?, read.fixed(size)?);
        if section.left_in(entry.place..read.at) {
            return None;
        }
        let start = addressed(section, &cie, at, value, size)?;
        if cie.sized {
            let length = read.uleb()?;
            read.skip(length)?;
        }
        let operations = read.at..entry.next;
        (!section.left_in(operations.clone())).then_some(Fde { second, place, cie, start, length, operations })
    }

    /// The operations of a header, and of a record where there is one, as the library reads them.
    fn rows(&self, cie: &Cie, record: Option<Range<u64>>, start: u64) -> Option<Rows> {
        let mut rows =
            Rows { cie: cie.clone(), bytes: Vec::new(), header: 0, locations: vec![start], offsets: Vec::new(), padding: true };
        // What readelf has before a rule is stated.
        rows.put(0x0c, &[0, 0]);
        self.translated(cie.operations.clone(), &mut rows)?;
        rows.header = rows.bytes.len() as u64;
        if let Some(record) = record {
            rows.padding = true;
            self.translated(record, &mut rows)?;
        }
        Some(rows)
    }

    fn translated(&self, range: Range<u64>, rows: &mut Rows) -> Option<()> {
        let mut at = range.start;
        while at < range.end {
            let mut ended = None;
            for found in operations(self.bytes, at..range.end, self.section.word) {
                match found {
                    Ok(found) => {
                        rows.known(&found, self.section.word)?;
                        at = found.next;
                    }
                    Err(unread) => ended = Some(unread.opcode),
                }
            }
            if let Some(opcode) = ended {
                let mut read = Reader { bytes: self.bytes, at: at + 1, end: range.end };
                rows.unknown(opcode, &mut read, self)?;
                at = read.at;
            }
        }
        Some(())
    }

    fn table_text(&mut self, out: &mut Out, rows: &Rows, ra: u64) {
        if rows.padding {
            return;
        }
        let columns = rows.columns();
        let length = rows.bytes.len() as u64;
        let located = Located::of(&rows.bytes, 0..rows.header, rows.header..length, u64::MAX, Word::Two);
        if self.runs.len() <= columns.len() {
            self.runs.resize_with(columns.len() + 1, Along::default);
        }
        let mut whole = true;
        for (n, run) in self.runs.iter_mut().enumerate().take(columns.len().max(1)) {
            let read = located.along_into(columns.get(n).copied().unwrap_or(0), run);
            whole &= read.is_ok() && run.len() >= rows.locations.len();
        }
        out.cell("   LOC", self.width()).text(" CFA      ");
        for register in &columns {
            match u64::from(*register) == ra {
                true => out.text("ra    "),
                false => out.cell(&self.section.names.text(u64::from(*register)), 6),
            };
        }
        out.line();
        for (line, location) in rows.locations.iter().enumerate().filter(|_| whole) {
            self.address(out, *location);
            out.text(" ");
            let Some(first) = self.runs.first().and_then(|run| run.line(line)) else { break };
            out.column(9, |out| self.frame(out, first.frame));
            for run in self.runs.iter().take(columns.len()) {
                let rule = run.line(line).map_or(Rule::Unstated, |line| line.rule);
                out.column(6, |out| self.rule(out, rows, rule));
            }
            out.line();
        }
        if !whole {
            self.untold += 1;
            out.text("  refused").line();
        }
    }

    fn frame(&self, out: &mut Out, frame: Frame) {
        let (register, offset) = match frame {
            Frame::Register { register, .. } if u64::from(register) == EXPRESSION => {
                out.text("exp");
                return;
            }
            Frame::Register { register, offset } => (register, offset),
            Frame::Unset => (0, 0),
        };
        out.text(&self.section.names.text(u64::from(register))).offset(i64::from(offset as i32));
    }

    fn rule(&self, out: &mut Out, rows: &Rows, rule: Rule) {
        match rule {
            Rule::Unstated | Rule::Undefined => out.text("u"),
            Rule::SameValue => out.text("s"),
            Rule::Saved(offset) => out.text("c").offset(i64::from(offset as i32)),
            Rule::InRegister(other) => match (u64::from(other), rows.value_offset(u64::from(other))) {
                (EXPRESSION, _) => out.text("exp"),
                (VALUE_EXPRESSION, _) => out.text("vexp"),
                (_, Some(offset)) => out.text("v").offset(i64::from(offset as i32)),
                (other, None) => out.text(&self.section.names.both(other)),
            },
        };
    }
}

/// The address that the value of an encoding means, at its place.
fn addressed(section: &Section<'_>, cie: &Cie, at: u64, value: u64, size: u64) -> Option<u64> {
    let shift = 64 - 8 * size as u32;
    let value = if cie.encoding & SIGNED != 0 { ((value << shift) as i64 >> shift) as u64 } else { value };
    match cie.encoding & FROM {
        0 => Some(value),
        PC_RELATIVE => Some(value.wrapping_add(section.address).wrapping_add(at)),
        _ => None,
    }
}

/// A header's operations and a record's, as the library reads them.
struct Rows {
    cie: Cie,
    bytes: Vec<u8>,
    /// Where the header's end.
    header: u64,
    /// Where each row begins: behind a step the library's offset is one more.
    locations: Vec<u64>,
    /// The offsets of values that are counted from the frame address.
    offsets: Vec<i64>,
    /// Whether there is nothing but padding.
    padding: bool,
}

impl Rows {
    fn uleb(&mut self, mut n: u64) {
        while n >= 0x80 {
            self.bytes.push(n as u8 | 0x80);
            n >>= 7;
        }
        self.bytes.push(n as u8);
    }

    fn sleb(&mut self, mut z: i64) {
        while !(-64..64).contains(&z) {
            self.bytes.push(z as u8 | 0x80);
            z >>= 7;
        }
        self.bytes.push(z as u8 & 0x7f);
    }

    fn put(&mut self, opcode: u8, operands: &[u64]) {
        self.bytes.push(opcode);
        operands.iter().for_each(|operand| self.uleb(*operand));
    }

    /// Offsets that are no multiples of the word are not told.
    fn put_offset(&mut self, opcode: u8, register: Option<u64>, offset: i64) -> Option<()> {
        self.put(opcode, register.as_slice());
        self.sleb((offset % FACTOR == 0).then_some(offset / -FACTOR)?);
        Some(())
    }

    fn step(&mut self, by: u64) {
        let location = self.locations.last().map_or(0, |before| before.wrapping_add(by));
        self.jump(location);
    }

    fn jump(&mut self, location: u64) {
        self.locations.push(location);
        self.bytes.push(0x41);
    }

    fn saved(&mut self, register: u64, offset: i64) -> Option<()> {
        self.put_offset(0x11, Some(register), offset)
    }

    /// An operation that the library read by its own factors, minus the word and 1.
    fn known(&mut self, found: &OperationAt, word: Word) -> Option<()> {
        let data = self.cie.data;
        let scaled = |offset: i64| (offset / -(word.bytes() as i64)).checked_mul(data);
        // The frame address's operations have offsets as they are, but for those with a sign.
        let factored = matches!(found.opcode, 0x12 | 0x13);
        let frame = |offset: i64| if factored { scaled(offset) } else { Some(offset) };
        self.padding &= found.operation == Operation::Nop;
        match found.operation {
            Operation::DefCfa(register, offset) => match u64::try_from(frame(offset)?) {
                Ok(offset) => self.put(0x0c, &[register, offset]),
                Err(_) => self.put_offset(0x12, Some(register), frame(offset)?)?,
            },
            Operation::DefCfaOffset(offset) => match u64::try_from(frame(offset)?) {
                Ok(offset) => self.put(0x0e, &[offset]),
                Err(_) => self.put_offset(0x13, None, frame(offset)?)?,
            },
            Operation::Offset(register, offset) => self.saved(register, scaled(offset)?)?,
            Operation::DefCfaRegister(register) => self.put(0x0d, &[register]),
            Operation::Restore(register) => self.put(0x06, &[register]),
            Operation::Undefined(register) => self.put(0x07, &[register]),
            Operation::SameValue(register) => self.put(0x08, &[register]),
            Operation::InRegister(register, other) => self.put(0x09, &[register, other]),
            Operation::RememberState => self.put(0x0a, &[]),
            Operation::RestoreState => self.put(0x0b, &[]),
            Operation::Step(by) => self.step(by.checked_mul(self.cie.code)?),
            Operation::NegateRaState | Operation::Nop => {}
        }
        Some(())
    }

    /// An operation that the library does not read; `read` stands behind its first byte.
    fn unknown(&mut self, opcode: u8, read: &mut Reader<'_>, of: &Listing<'_>) -> Option<()> {
        self.padding = false;
        match opcode {
            0x01 => {
                let (at, size) = (read.at, size_of(self.cie.encoding, of.word)?);
                let value = read.fixed(size)?;
                let location = addressed(of.section, &self.cie, at, value, size)?;
                self.jump(location);
            }
            0x0f => {
                let size = read.uleb()?;
                read.skip(size)?;
                self.put(0x0c, &[EXPRESSION, 0]);
            }
            0x10 | 0x16 => {
                let (register, size) = (read.uleb()?, read.uleb()?);
                read.skip(size)?;
                self.put(0x09, &[register, if opcode == 0x10 { EXPRESSION } else { VALUE_EXPRESSION }]);
            }
            0x14 | 0x15 => {
                let register = read.uleb()?;
                let n = if opcode == 0x14 { read.uleb()? as i64 } else { read.sleb()? };
                let mark = VALUE_OFFSET.checked_add(self.offsets.len() as u64).filter(|mark| *mark < VALUE_EXPRESSION)?;
                self.offsets.push(n.checked_mul(self.cie.data)?);
                self.put(0x09, &[register, mark]);
            }
            0x1d => {
                let by = read.fixed(8)?;
                self.step(by.checked_mul(self.cie.code)?);
            }
            0x2e => {
                read.uleb()?;
            }
            0x2f => {
                let (register, n) = (read.uleb()?, read.uleb()? as i64);
                self.saved(register, n.checked_neg()?.checked_mul(self.cie.data)?)?;
            }
            _ => return None,
        }
        Some(())
    }

    fn value_offset(&self, mark: u64) -> Option<i64> {
        mark.checked_sub(VALUE_OFFSET).and_then(|n| self.offsets.get(usize::try_from(n).ok()?)).copied()
    }

    /// The registers that rules are given, in order.
    fn columns(&self) -> Vec<u16> {
        let named = operations(&self.bytes, 0..self.bytes.len() as u64, Word::Two).map_while(Result::ok);
        let named: BTreeMap<u16, ()> =
            named.filter_map(|found| found.operation.ruled()).map(|register| (register, ())).collect();
        named.into_keys().collect()
    }
}
