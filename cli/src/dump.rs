//! `dekvoz dump`: every entry of a section with its rules by location, as `readelf --debug-dump=frames-interp` lists them.

use std::collections::HashMap;
use std::num::NonZero;
use std::ops::Range;
use std::thread;

use dekvoz::parts::{header, operations, record, Entry, Fault, Header, Operation};
use dekvoz::{Frame, Located, Placed, Question, Record, Rule, Section as Kind};

use crate::args::Args;
use crate::input::{fitted, End, File, Parts, Section};
use crate::out::Out;
use crate::progress::Progress;
use crate::registers::Names;
use crate::table::{Row, Spans, Table};
use crate::{words, Stop};

/// How many entries are listed in one go.
const RUN: usize = 1024;
/// The fields for a function's place and length stand so far behind a record's start, behind its length and its second field.
const FUNCTION: u64 = 8;

/// Lists the section of a file. Whether it is whole.
pub fn run(args: &Args) -> Result<bool, Stop> {
    args.only(
        "dump",
        &[
            "--section",
            "--kind",
            "--word",
            "--address",
            "--base",
            "--load-base",
            "--machine",
            "--relocations",
            "--operations",
            "--readelf",
            "--linked",
            "--json",
        ],
    )?;
    let base = args.number("--base")?.or(args.number("--address")?);
    let file = File::new(args)?;
    if args.has("--readelf") {
        return crate::readelf::run(args, &file);
    }
    let section = file.section(args, base)?;
    let parts = Parts::new(&section);
    let mut out = Out::new();
    let mut listing = Listing::new(&section, &parts, args.has("--operations"));
    let untold = if args.has("--json") {
        crate::listed::section(&mut out, &file, &mut listing);
        listing.untold
    } else {
        listing.text(&mut out)
    };
    crate::finished(&mut out)?;
    Ok(whole(&file, &parts, untold))
}

/// Whether nothing was refused and the section is whole; says what is not.
pub fn whole(file: &File, parts: &Parts<'_>, untold: u64) -> bool {
    let complaint = parts.complaint();
    if let Some(why) = &complaint {
        crate::complain(&file.name, why);
    }
    if untold != 0 {
        let entries = parts.entries.len();
        crate::complain(&file.name, &format!("{untold} of {entries} entries are refused, as a whole or from some offset on"));
    }
    complaint.is_none() && untold == 0
}

/// Why an entry is not told.
#[derive(Clone, Copy, Debug, PartialEq, Eq)]
pub enum Untold {
    /// The library refuses it.
    Refused(Fault),
    /// Its fields or operations hold relocations that could not be applied.
    Relocations,
}

impl From<Fault> for Untold {
    fn from(fault: Fault) -> Untold {
        Untold::Refused(fault)
    }
}

/// A section that is listed.
pub struct Listing<'a> {
    pub section: &'a Section<'a>,
    pub parts: &'a Parts<'a>,
    headers: HashMap<u64, Result<Header, Untold>>,
    /// The table of the entry that was listed last.
    pub table: Table,
    pub operations: bool,
    /// How many entries were refused, as a whole or from some offset on.
    pub untold: u64,
}

/// A record, as far as it can be read.
pub struct RecordView<'a> {
    /// Its second field, as it stands.
    pub second: Option<u64>,
    /// Where its header starts.
    pub header: Option<u64>,
    /// Its function.
    pub function: Option<Placed>,
    /// What it says, or what is wrong with it.
    pub found: Result<Found<'a>, Untold>,
}

/// A record that can be read.
pub struct Found<'a> {
    /// The record in its section.
    pub located: Located<'a>,
    /// Where its operations and its header's stand.
    pub spans: Spans,
    /// The header's fields.
    pub header: Header,
    /// Where the record's pointer to call sites stands.
    pub call_sites: Option<u64>,
}

impl<'a> Listing<'a> {
    /// A section to list, with its operations or without.
    pub fn new(section: &'a Section<'a>, parts: &'a Parts<'a>, operations: bool) -> Listing<'a> {
        Listing { section, parts, headers: HashMap::new(), table: Table::default(), operations, untold: 0 }
    }

    /// How many digits an address has.
    pub fn width(&self) -> usize {
        2 * self.section.word.bytes() as usize
    }

    /// An address as the word holds it.
    pub fn fitted(&self, address: u64) -> u64 {
        fitted(address, self.section.word)
    }

    /// Makes the table of an entry.
    pub fn read_table(&mut self, spans: &Spans) {
        self.table.read(self.parts.frame.bytes, spans, self.section.word);
    }

    /// The header at a place.
    pub fn header(&mut self, place: u64) -> Result<Header, Untold> {
        let (section, bytes) = (self.section, self.parts.frame.bytes);
        let read = || {
            let fields = header(bytes, section.kind, section.word, place)?;
            match section.left_in(fields.operations.clone()) {
                true => Err(Untold::Relocations),
                false => Ok(fields),
            }
        };
        self.headers.entry(place).or_insert_with(read).clone()
    }

    /// The record of number k.
    pub fn record(&mut self, k: usize) -> RecordView<'a> {
        let frame = &self.parts.frame;
        let place = self.parts.records.get(k).copied().unwrap_or(Record { place: u64::MAX, header: None });
        let fields = record(frame.bytes, frame.kind, frame.word, 0, place.place);
        let size = if frame.kind == Kind::Eh { 4 } else { frame.word.bytes() };
        let at = place.place.saturating_add(FUNCTION);
        let untold = self.section.left_in(at..at.saturating_add(2 * size));
        RecordView {
            second: fields.ok().map(|fields| fields.header),
            header: place.header,
            function: self.parts.function(place.place).ok().filter(|_| !untold),
            found: self.found(place),
        }
    }

    /// Where 64 is the answer, the fields one by one say which of them is at fault.
    fn found(&mut self, place: Record) -> Result<Found<'a>, Untold> {
        let frame = &self.parts.frame;
        let located = frame.locate_at(place);
        let whole = |refusal| Untold::Refused(Fault { refusal, field: None });
        match (located, place.header) {
            (Err(refusal), None) => Err(whole(refusal)),
            (Err(refusal), _) if refusal.asked() != Some(Question::Fields) => Err(whole(refusal)),
            (located, at) => {
                let header = self.header(at.unwrap_or(u64::MAX))?;
                let fields = record(frame.bytes, frame.kind, frame.word, header.pointer, place.place)?;
                let located = located.map_err(whole)?;
                // The pointer to call sites is not told here.
                let (first, rest) = (fields.call_sites.unwrap_or(fields.operations.start), fields.operations.clone());
                if self.section.left_in(place.place..first) || self.section.left_in(rest) {
                    return Err(Untold::Relocations);
                }
                let spans = Spans { header: header.operations.clone(), record: fields.operations };
                Ok(Found { located, spans, header, call_sites: fields.call_sites })
            }
        }
    }

    /// Every entry as text, a run of entries on each processor at a time. How many were refused, as a whole or from some offset on.
    pub fn text(&self, out: &mut Out) -> u64 {
        let mut progress = Progress::new("listing", true);
        let parts = self.parts;
        let workers = thread::available_parallelism().map_or(1, NonZero::get);
        let (mut k, mut untold) = (0, 0);
        for wave in parts.entries.chunks(RUN * workers) {
            progress.step(wave.first().map_or(0, |entry| entry.place), parts.frame.bytes.len() as u64);
            thread::scope(|scope| {
                let mut running = Vec::new();
                for run in wave.chunks(RUN) {
                    let first = k;
                    running.push(scope.spawn(move || self.run_text(run, first)));
                    k += run.iter().filter(|entry| !entry.header).count();
                }
                for (listed, count) in running.into_iter().filter_map(|run| run.join().ok()) {
                    out.append(&listed);
                    untold += count;
                }
            });
            if out.failed() {
                break;
            }
        }
        progress.end();
        if let End::Terminator(at) | End::Behind(at, _) = parts.end {
            out.hex(at, 8).text(" ZERO terminator").line().line();
        }
        untold
    }

    /// Some of the entries; k is the number of their first record.
    fn run_text(&self, run: &[Entry], mut k: usize) -> (Out, u64) {
        let mut out = Out::gathering();
        let mut listing = Listing::new(self.section, self.parts, self.operations);
        for entry in run {
            if entry.header {
                listing.header_text(&mut out, entry);
            } else {
                listing.record_text(&mut out, entry, k);
                k += 1;
            }
            out.line();
        }
        (out, listing.untold)
    }

    fn front(&self, out: &mut Out, entry: &Entry, second: Option<u64>) {
        out.hex(entry.place, 8).text(" ").hex(entry.length, self.width()).text(" ");
        match second {
            Some(second) => out.hex(second, 8),
            None => out.text("--------"),
        };
    }

    fn header_text(&mut self, out: &mut Out, entry: &Entry) {
        self.front(out, entry, Some(if self.section.kind == Kind::Debug { 0xffff_ffff } else { 0 }));
        let fields = match self.header(entry.place) {
            Ok(fields) => fields,
            Err(untold) => {
                out.text(" CIE").line();
                return self.refused(out, untold);
            }
        };
        out.text(" CIE \"")
            .text(&augmentation(&fields, self.section.kind))
            .text("\" cf=1 df=-")
            .decimal(self.section.word.bytes());
        out.text(" ra=").decimal(fields.return_register).line();
        if self.operations {
            self.operations_text(out, fields.operations.clone(), 0);
        }
        self.table_text(out, &header_alone(&fields), 0, fields.return_register);
    }

    fn record_text(&mut self, out: &mut Out, entry: &Entry, k: usize) {
        let view = self.record(k);
        self.front(out, entry, view.second);
        out.text(" FDE");
        if let Some(header) = view.header {
            out.text(" cie=").hex(header, 8);
        }
        let start = view.function.map_or(0, |function| function.address);
        if let Some(Placed { length, .. }) = view.function {
            let end = self.fitted(start.wrapping_add(length));
            out.text(" pc=").hex(start, self.width()).text("..").hex(end, self.width());
        }
        out.text(" record ").decimal(k as u64);
        if let Some((_, home)) = self.section.home(entry.place) {
            out.text(", in ").text(home);
        }
        if view.found.as_ref().is_ok_and(|found| found.located.long()) {
            out.text(", long spellings");
        }
        out.line();
        let found = match view.found {
            Ok(found) => found,
            Err(untold) => return self.refused(out, untold),
        };
        if self.operations {
            self.operations_text(out, found.spans.record.clone(), start);
        }
        self.table_text(out, &found.spans, start, found.header.return_register);
    }

    fn operations_text(&self, out: &mut Out, range: Range<u64>, start: u64) {
        let mut location = start;
        for found in operations(self.parts.frame.bytes, range, self.section.word) {
            let found = match found {
                Ok(found) => found,
                Err(unread) => {
                    out.text("  ").text(words::operation(unread.opcode)).text(": ").text(&words::refused(unread.refusal));
                    out.text("; the rest of the entry is passed over").line();
                    return;
                }
            };
            out.text("  ").text(words::operation(found.opcode));
            if let Operation::Step(n) = found.operation {
                location = self.fitted(location.wrapping_add(n));
                out.text(": ").decimal(n).text(" to ").hex(location, self.width());
            }
            self.operands(out, found.operation);
            out.line();
        }
    }

    fn operands(&self, out: &mut Out, operation: Operation) {
        match operation {
            Operation::DefCfa(register, offset) => self.register(out, register).text(" ofs ").signed(offset),
            Operation::DefCfaOffset(offset) => out.text(": ").signed(offset),
            Operation::Offset(register, offset) => self.register(out, register).text(" at cfa").offset(offset),
            Operation::DefCfaRegister(register)
            | Operation::Restore(register)
            | Operation::Undefined(register)
            | Operation::SameValue(register) => self.register(out, register),
            Operation::InRegister(register, other) => {
                self.register(out, register).text(" in ");
                self.plain_register(out, other)
            }
            _ => out,
        };
    }

    fn register<'b>(&self, out: &'b mut Out, register: u64) -> &'b mut Out {
        out.text(": ");
        self.plain_register(out, register)
    }

    fn plain_register<'b>(&self, out: &'b mut Out, register: u64) -> &'b mut Out {
        out.text(&self.section.names.both(register))
    }

    fn table_text(&mut self, out: &mut Out, spans: &Spans, start: u64, ra: u64) {
        self.read_table(spans);
        let table = &self.table;
        out.cell("   LOC", self.width()).text(" CFA      ");
        for register in &table.columns {
            match u64::from(*register) == ra {
                true => out.cell("ra", 6),
                false => out.cell(&self.section.names.text(u64::from(*register)), 6),
            };
        }
        out.line();
        let mut told = true;
        for row in table.rows() {
            out.hex(self.fitted(start.wrapping_add(row.offset)), self.width()).text(" ");
            self.row_text(out, &row);
            told &= row.said.is_ok();
        }
        if table.left_out != 0 {
            out.text("  and ").decimal(table.left_out as u64).text(" registers more").line();
        }
        self.untold += u64::from(!told);
    }

    fn refused(&mut self, out: &mut Out, untold: Untold) {
        out.text("  ").text(&words::untold(untold)).line();
        self.untold += 1;
    }

    fn row_text(&self, out: &mut Out, row: &Row<'_>) {
        let (frame, signing) = match row.said {
            Ok(said) => said,
            Err(refusal) => {
                out.text(&words::refused(refusal)).line();
                return;
            }
        };
        out.column(9, |out| self.frame(out, frame));
        for rule in row.rules() {
            out.column(6, |out| rule_cell(out, &self.section.names, rule));
        }
        if signing {
            out.text("signed");
        }
        out.line();
    }

    fn frame(&self, out: &mut Out, frame: Frame) {
        match frame {
            Frame::Unset => out.text("none"),
            Frame::Register { register, offset } => match self.section.names.known(u64::from(register)) {
                Some(name) => out.text(name).offset(offset),
                None => out.text("r").decimal(u64::from(register)).offset(offset),
            },
        };
    }
}

fn rule_cell(out: &mut Out, names: &Names, rule: Rule) {
    match rule {
        Rule::Unstated => out.text("-"),
        Rule::Undefined => out.text("u"),
        Rule::SameValue => out.text("s"),
        Rule::InRegister(register) => out.text(&names.both(u64::from(register))),
        Rule::Saved(offset) => out.text("c").offset(offset),
    };
}

/// The augmentation string of a header, which the marks decide.
pub fn augmentation(fields: &Header, kind: Kind) -> String {
    let eh = kind == Kind::Eh;
    let letters = [("z", eh), ("P", fields.personality), ("L", fields.lsda), ("R", eh), ("S", fields.signal)];
    letters.iter().filter(|(_, here)| *here).map(|(letter, _)| *letter).collect()
}

/// A header's operations without a record's.
pub fn header_alone(fields: &Header) -> Spans {
    Spans { header: fields.operations.clone(), record: fields.operations.end..fields.operations.end }
}
