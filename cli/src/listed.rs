//! `dekvoz dump --json`: the listing for programs.

use std::ops::Range;

use dekvoz::parts::{operations, Entry, Operation};
use dekvoz::{Refusal, Section as Kind};

use crate::dump::{augmentation, header_alone, Listing, Untold};
use crate::input::{File, Section};
use crate::out::Out;
use crate::table::Spans;
use crate::{json, words};

/// The file and section that an answer is about: the front of every JSON object.
pub fn about(out: &mut Out, file: &File, section: &Section<'_>) {
    out.text("{");
    json::text(out, "file", &file.name);
    if let Some(name) = &section.name {
        out.text(", ");
        json::text(out, "section", name);
    }
    out.text(", ");
    json::text(out, "kind", if section.kind == Kind::Debug { "debug" } else { "eh" });
    out.text(", ");
    json::number(out, "word", section.word.bytes());
    out.text(", ");
    json::address(out, "address", section.address);
}

/// A section with every entry.
pub fn section(out: &mut Out, file: &File, listing: &mut Listing<'_>) {
    about(out, file, listing.section);
    out.text(", \"entries\": [");
    let (parts, mut k) = (listing.parts, 0);
    for (n, entry) in parts.entries.iter().enumerate() {
        out.text(if n == 0 { "" } else { "," }).line();
        entry_text(out, listing, entry, k);
        k += usize::from(!entry.header);
        if out.failed() {
            return;
        }
    }
    out.line().text("]");
    if let Some(why) = parts.complaint() {
        out.text(", ");
        json::text(out, "damage", &why);
    }
    out.text("}").line();
}

fn entry_text(out: &mut Out, listing: &mut Listing<'_>, entry: &Entry, k: usize) {
    out.text("{");
    json::text(out, "entry", if entry.header { "CIE" } else { "FDE" });
    out.text(", ");
    json::number(out, "place", entry.place);
    out.text(", ");
    json::number(out, "length", entry.length);
    if entry.header {
        header(out, listing, entry);
    } else {
        record(out, listing, k, entry.place);
    }
    out.text("}");
}

fn header(out: &mut Out, listing: &mut Listing<'_>, entry: &Entry) {
    let fields = match listing.header(entry.place) {
        Ok(fields) => fields,
        Err(untold) => return refused(out, listing, untold),
    };
    out.text(", ");
    json::text(out, "augmentation", &augmentation(&fields, listing.section.kind));
    out.text(", ");
    json::mark(out, "signal", fields.signal);
    out.text(", ");
    json::number(out, "return_address_register", fields.return_register);
    let spans = header_alone(&fields);
    listed_operations(out, listing, fields.operations);
    rows(out, listing, &spans, 0);
}

fn record(out: &mut Out, listing: &mut Listing<'_>, k: usize, place: u64) {
    let view = listing.record(k);
    out.text(", ");
    json::number(out, "record", k as u64);
    if let Some(place) = view.header {
        out.text(", ");
        json::number(out, "cie", place);
    }
    let start = view.function.map_or(0, |function| function.address);
    if let Some(function) = view.function {
        out.text(", ");
        json::address(out, "pc", start);
        out.text(", ");
        json::number(out, "size", function.length);
    }
    if let Some((_, home)) = listing.section.home(place) {
        out.text(", ");
        json::text(out, "in", home);
    }
    match view.found {
        Err(untold) => refused(out, listing, untold),
        Ok(found) => {
            out.text(", ");
            json::mark(out, "long_spellings", found.located.long());
            listed_operations(out, listing, found.spans.record.clone());
            rows(out, listing, &found.spans, start);
        }
    }
}

fn refused(out: &mut Out, listing: &mut Listing<'_>, untold: Untold) {
    let (number, words) = words::untold_cause(untold);
    out.text(", ");
    json::refusal(out, Refusal { number, position: 0 }, words);
    listing.untold += 1;
}

fn listed_operations(out: &mut Out, listing: &Listing<'_>, range: Range<u64>) {
    if !listing.operations {
        return;
    }
    out.text(", \"operations\": [");
    let from = range.start;
    for found in operations(listing.parts.frame.bytes, range, listing.section.word).map_while(Result::ok) {
        out.text(if found.place == from { "{" } else { ", {" });
        json::text(out, "name", words::operation(found.opcode));
        let (register, value) = operands(found.operation);
        if let Some(register) = register {
            out.text(", ");
            json::number(out, "register", register);
        }
        if let Some(value) = value {
            out.text(", \"value\": ").signed(value);
        }
        out.text("}");
    }
    out.text("]");
}

/// The register and the value of an operation.
fn operands(operation: Operation) -> (Option<u64>, Option<i64>) {
    match operation {
        Operation::DefCfa(register, value) | Operation::Offset(register, value) => (Some(register), Some(value)),
        Operation::DefCfaOffset(value) => (None, Some(value)),
        Operation::Step(n) => (None, Some(n as i64)),
        Operation::DefCfaRegister(register)
        | Operation::Restore(register)
        | Operation::Undefined(register)
        | Operation::SameValue(register) => (Some(register), None),
        Operation::InRegister(register, other) => (Some(register), Some(other as i64)),
        _ => (None, None),
    }
}

fn rows(out: &mut Out, listing: &mut Listing<'_>, spans: &Spans, start: u64) {
    listing.read_table(spans);
    let table = &listing.table;
    out.text(", \"rows\": [");
    let mut told = true;
    for (n, row) in table.rows().enumerate() {
        out.text(if n == 0 { "{" } else { ", {" });
        json::address(out, "location", listing.fitted(start.wrapping_add(row.offset)));
        out.text(", ");
        told &= row.said.is_ok();
        match row.said {
            Err(refusal) => json::refusal(out, refusal, words::cause(refusal)),
            Ok((frame, signing)) => {
                json::frame(out, frame);
                out.text(", \"registers\": [");
                for (i, (register, rule)) in table.columns.iter().zip(row.rules()).enumerate() {
                    out.text(if i == 0 { "" } else { ", " });
                    json::rule(out, *register, &listing.section.names.text(u64::from(*register)), rule);
                }
                out.text("], ");
                json::mark(out, "signed", signing);
            }
        }
        out.text("}");
    }
    out.text("]");
    listing.untold += u64::from(!told);
}
