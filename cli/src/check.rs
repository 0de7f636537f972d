//! `dekvoz check`: can every record be read at every offset of its function?

use std::collections::BTreeMap;

use dekvoz::parts::{operations, Operation};
use dekvoz::{check_section, CheckRefusal, Question, Refusal, Section as Kind};

use crate::args::Args;
use crate::dump::Listing;
use crate::input::{End, File, Parts, Section, DEBUG_FRAME, EH_FRAME};
use crate::listed::about;
use crate::out::Out;
use crate::progress::Progress;
use crate::table::Spans;
use crate::{json, words, Stop};

/// So many places of each cause are told where --first does not say.
const FIRST: u64 = 3;

/// The records that are refused for one cause.
#[derive(Default)]
pub struct Cause {
    count: u64,
    first: Vec<(u64, u64)>,
}

/// The refused records by question and words.
pub type Causes = BTreeMap<(u64, String), Cause>;

/// Checks the section of a file. Whether nothing is wrong with it.
pub fn run(args: &Args) -> Result<bool, Stop> {
    args.only(
        "check",
        &[
            "--section",
            "--kind",
            "--word",
            "--address",
            "--base",
            "--load-base",
            "--machine",
            "--relocations",
            "--linked",
            "--json",
            "--first",
        ],
    )?;
    let base = args.number("--base")?.or(args.number("--address")?);
    let first = args.number("--first")?.unwrap_or(FIRST);
    let file = File::new(args)?;
    let section = file.section(args, base)?;
    let parts = Parts::new(&section);
    let mut listing = Listing::new(&section, &parts, false);
    let causes = causes(&mut listing, first);
    let long = long_spellings(&listing, first);
    let mut out = Out::new();
    if args.has("--json") {
        as_json(&mut out, &file, &listing, &causes, &long);
    } else {
        as_text(&mut out, &listing, &causes);
        long_text(&mut out, &long);
        if behind(args, &file, &section) {
            out.text(DEBUG_FRAME)
                .text(" is there too, and was not looked at; --section ")
                .text(DEBUG_FRAME)
                .text(" checks it")
                .line();
        }
    }
    crate::finished(&mut out)?;
    if let Some(why) = parts.complaint() {
        crate::complain(&file.name, &why);
    }
    let refused: u64 = causes.values().map(|cause| cause.count).sum();
    if refused != 0 {
        crate::complain(&file.name, &format!("{refused} of {} records cannot be read", parts.records.len()));
        if causes.keys().all(|(number, _)| *number == Question::Header.number())
            && section.kind == Kind::Debug
            && !section.linked
        {
            crate::complain(
                &file.name,
                "there are no relocations; --linked takes each record's own field for its header's place",
            );
        }
    }
    Ok(refused == 0 && parts.complaint().is_none())
}

/// Whether the file has a .debug_frame behind the .eh_frame that was chosen for want of an option.
fn behind(args: &Args, file: &File, section: &Section<'_>) -> bool {
    let chosen = args.has("--section") || args.has("--kind");
    let held = file
        .object
        .as_ref()
        .is_some_and(|object| object.sections.iter().any(|held| held.name == DEBUG_FRAME && held.size != 0));
    !chosen && held && section.name.as_deref() == Some(EH_FRAME)
}

/// The first record that does not pass: of eh_frame the library's check of the whole section says it.
fn first_failing(listing: &Listing<'_>) -> usize {
    let frame = &listing.parts.frame;
    match frame.kind {
        Kind::Debug => 0,
        Kind::Eh => match check_section(frame.bytes, frame.word) {
            Err(CheckRefusal::Record(k)) => k as usize,
            // The entries tile these bytes.
            Ok(()) | Err(CheckRefusal::DoesNotTile) => listing.parts.records.len(),
        },
    }
}

/// Every record at the last offset of its function: an answer there implies one at each other (law `Prefix` of the definitions), and no
/// refusal depends on the register. The library's check passes a record of length 0 whatever else it holds; here its header and its
/// fields are to be readable. A relocation that could not be applied fails a record, too.
pub fn causes(listing: &mut Listing<'_>, first: u64) -> Causes {
    let mut progress = Progress::new("checking", false);
    let mut causes = Causes::new();
    let (parts, failing, applied) = (listing.parts, first_failing(listing), listing.section.left.is_empty());
    for (k, record) in parts.records.iter().enumerate() {
        progress.step(k as u64, parts.records.len() as u64);
        if k < failing && applied && parts.frame.function(record.place).is_ok_and(|function| function.length != 0) {
            continue;
        }
        let Some(why) = refusal(listing, k) else { continue };
        let cause = causes.entry(why).or_default();
        cause.count += 1;
        if (cause.first.len() as u64) < first {
            cause.first.push((k as u64, record.place));
        }
    }
    progress.end();
    causes
}

/// The records that can be read, in which a number takes more bytes than it needs.
fn long_spellings(listing: &Listing<'_>, first: u64) -> Cause {
    let mut long = Cause::default();
    let parts = listing.parts;
    for (k, record) in parts.records.iter().enumerate() {
        let Ok(located) = parts.frame.locate_at(*record) else { continue };
        if !located.long() {
            continue;
        }
        long.count += 1;
        if (long.first.len() as u64) < first {
            long.first.push((k as u64, record.place));
        }
    }
    long
}

fn long_text(out: &mut Out, long: &Cause) {
    if long.count == 0 {
        return;
    }
    out.decimal(long.count).text(if long.count == 1 { " record has" } else { " records have" });
    out.text(" long spellings: numbers that take more bytes than they need").line();
    places_text(out, long);
}

/// The first places of a cause, and how many more there are.
fn places_text(out: &mut Out, cause: &Cause) {
    for (k, place) in &cause.first {
        out.text("  record ").decimal(*k).text(" at 0x").hex(*place, 1).line();
    }
    if cause.count > cause.first.len() as u64 {
        out.text("  and ").decimal(cause.count - cause.first.len() as u64).text(" more").line();
    }
}

/// The first places of a cause, as a list.
fn places_json(out: &mut Out, cause: &Cause) {
    out.text("\"first\": [");
    for (i, (k, place)) in cause.first.iter().enumerate() {
        out.text(if i == 0 { "{" } else { ", {" });
        json::number(out, "record", *k);
        out.text(", ");
        json::number(out, "place", *place);
        out.text("}");
    }
    out.text("]");
}

fn refusal(listing: &mut Listing<'_>, k: usize) -> Option<(u64, String)> {
    let found = match listing.record(k).found {
        Ok(found) => found,
        Err(untold) => {
            let (number, words) = words::untold_cause(untold);
            return Some((number, words.to_string()));
        }
    };
    // A function without a byte has no offset to be read at.
    let last = found.located.length().checked_sub(1)?;
    let refusal = found.located.rules(0, last).err()?;
    let words = words::cause(refusal);
    match (refusal.asked(), stranger(listing, &found.spans)) {
        (Some(Question::Operations), Some(name)) => Some((refusal.number, format!("{name}: {words}"))),
        _ => Some((refusal.number, words.to_string())),
    }
}

/// The first operation that cannot be read, by its name; in a header also a step.
fn stranger(listing: &Listing<'_>, spans: &Spans) -> Option<&'static str> {
    let span = |range| operations(listing.parts.frame.bytes, range, listing.section.word);
    let header = span(spans.header.clone()).find_map(|found| match found {
        Ok(found) => matches!(found.operation, Operation::Step(_)).then_some(found.opcode),
        Err(unread) => Some(unread.opcode),
    });
    let record = || span(spans.record.clone()).find_map(Result::err);
    header.or_else(|| Some(record()?.opcode)).map(words::operation)
}

/// What was found, as text.
pub fn as_text(out: &mut Out, listing: &Listing<'_>, causes: &Causes) {
    let parts = listing.parts;
    let records = parts.records.len() as u64;
    let headers = parts.entries.len() as u64 - records;
    out.decimal(parts.frame.bytes.len() as u64).text(" bytes of entries: ").decimal(headers).text(" headers (CIE), ");
    out.decimal(records).text(" records (FDE)").line();
    if let End::Terminator(_) | End::Behind(..) = parts.end {
        out.text("a terminator stands behind them").line();
    }
    if causes.is_empty() && records != 0 {
        out.text("every record can be read, at every offset of its function and for every register").line();
    }
    for ((number, words), cause) in causes {
        out.decimal(cause.count).text(if cause.count == 1 { " record" } else { " records" });
        match number {
            0 => out.text(" not read: "),
            number => out.text(" refused with ").decimal(*number).text(": "),
        };
        out.text(words).line();
        places_text(out, cause);
    }
}

fn as_json(out: &mut Out, file: &File, listing: &Listing<'_>, causes: &Causes, long: &Cause) {
    let parts = listing.parts;
    about(out, file, listing.section);
    out.text(", ");
    json::number(out, "headers", (parts.entries.len() - parts.records.len()) as u64);
    out.text(", ");
    json::number(out, "records", parts.records.len() as u64);
    if let Some(why) = parts.complaint() {
        out.text(", ");
        json::text(out, "damage", &why);
    }
    out.text(", \"causes\": [");
    for (n, ((number, words), cause)) in causes.iter().enumerate() {
        out.text(if n == 0 { "{" } else { ", {" });
        json::refusal(out, Refusal { number: *number, position: 0 }, words);
        out.text(", ");
        json::number(out, "count", cause.count);
        out.text(", ");
        places_json(out, cause);
        out.text("}");
    }
    out.text("], \"long_spellings\": {");
    json::number(out, "count", long.count);
    out.text(", ");
    places_json(out, long);
    out.text("}}").line();
}
