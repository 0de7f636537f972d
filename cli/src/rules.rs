//! `dekvoz rules`: the rules at one place of a function.

use dekvoz::{AllRules, Frame, Placed, Rule};

use crate::args::{Args, Usage};
use crate::dump::{Found, Listing};
use crate::input::{File, Parts, Section, EH_FRAME};
use crate::listed::about;
use crate::out::Out;
use crate::{json, words, Stop};

/// A record that was found, with a place of its function.
struct Place<'a> {
    record: u64,
    function: Option<Placed>,
    found: Found<'a>,
    offset: u64,
}

/// Answers for an address, or for an offset of a record.
pub fn run(args: &Args) -> Result<bool, Stop> {
    args.only(
        "rules",
        &[
            "--section",
            "--kind",
            "--word",
            "--address",
            "--base",
            "--load-base",
            "--machine",
            "--relocations",
            "--linked",
            "--json",
            "--record",
            "--at",
            "--register",
        ],
    )?;
    let asked = (args.number("--address")?, args.number("--record")?, args.number("--at")?);
    if !matches!(asked, (Some(_), None, None) | (None, Some(_), Some(_))) {
        return Err(Stop::Usage(Usage("rules asks for --address A, or for --record K and --at P".to_string())));
    }
    let file = File::new(args)?;
    if asked.0.is_some() && file.object.as_ref().is_some_and(|object| object.relocatable) {
        return Err(Stop::failed(
            &file.name,
            "it is not linked, and its functions have no addresses; ask by --record K and --at P",
        ));
    }
    // One record is asked for in one section; an address, in each that there is.
    let mut sections = file.sections(args, args.number("--base")?)?;
    sections.truncate(if asked.0.is_some() { sections.len() } else { 1 });
    let mut why = Vec::new();
    for section in &sections {
        let parts = Parts::new(section);
        match place(section, &parts, asked) {
            Ok(place) => return answer(args, &file, section, &place, register(args, section)?),
            Err(none) => why.push(none),
        }
    }
    Err(Stop::failed(&file.name, why.join("; ")))
}

/// The register that is asked for.
fn register(args: &Args, section: &Section<'_>) -> Result<Option<u16>, Usage> {
    let Some(text) = args.value("--register") else { return Ok(None) };
    let none = || Usage(format!("--register: `{text}` is neither a number to 65535 nor a register of the machine"));
    section.names.register(text).map(Some).ok_or_else(none)
}

fn place<'a>(
    section: &'a Section<'a>,
    parts: &'a Parts<'a>,
    asked: (Option<u64>, Option<u64>, Option<u64>),
) -> Result<Place<'a>, String> {
    let of = section.name.as_ref().map_or_else(String::new, |name| format!(" of {name}"));
    let damage = || parts.complaint().map_or_else(String::new, |why| format!("; {why}"));
    let k = match asked {
        (Some(pc), ..) => match parts.holder(pc) {
            Ok(holder) => holder.k,
            Err(_) => return Err(format!("no record's function{of} holds {pc:#x}{}", damage())),
        },
        (None, k, _) => k.unwrap_or(0),
    };
    if k >= parts.records.len() as u64 {
        return Err(format!("there are {} records{of}, counted from 0, and no record {k}{}", parts.records.len(), damage()));
    }
    let view = Listing::new(section, parts, false).record(k as usize);
    let found = view.found.map_err(|untold| format!("record {k}{of}: {}", words::untold(untold)))?;
    let offset = match (asked, view.function) {
        ((Some(pc), ..), Some(function)) => pc.wrapping_sub(function.address),
        ((_, _, p), _) => p.unwrap_or(0),
    };
    Ok(Place { record: k, function: view.function, found, offset })
}

fn answer(args: &Args, file: &File, section: &Section<'_>, place: &Place<'_>, register: Option<u16>) -> Result<bool, Stop> {
    let located = &place.found.located;
    let said = match register {
        None => located.all(place.offset),
        Some(register) => located.rules(register, place.offset).map(|rules| AllRules {
            frame: rules.frame,
            signing: rules.signing,
            shortest: rules.shortest,
            registers: vec![(register, rules.rule)],
        }),
    };
    let said = said.map_err(|refusal| {
        let why = format!("record {} at offset {}: {}", place.record, place.offset, words::refused(refusal));
        Stop::failed(&file.name, why)
    })?;
    let mut out = Out::new();
    if args.has("--json") {
        as_json(&mut out, file, section, place, &said);
    } else {
        as_text(&mut out, section, place, &said);
    }
    crate::finished(&mut out)?;
    Ok(true)
}

fn as_text(out: &mut Out, section: &Section<'_>, place: &Place<'_>, said: &AllRules) {
    let names = &section.names;
    out.text("record ").decimal(place.record);
    if let Some(name) = section.name.as_ref().filter(|name| *name != EH_FRAME) {
        out.text(" of ").text(name);
    }
    if let Some(Placed { address: start, length }) = place.function {
        out.text(", pc=0x").hex(start, 1).text("..0x").hex(start.wrapping_add(length), 1);
        out.text(", at 0x").hex(start.wrapping_add(place.offset), 1);
    }
    out.text(", offset ").decimal(place.offset).line();
    out.text("frame address (CFA): ").text(&frame_words(names, said.frame)).line();
    for (register, rule) in &said.registers {
        out.text(&names.text(u64::from(*register)));
        if u64::from(*register) == place.found.header.return_register {
            out.text(" (return address)");
        }
        out.text(": ").text(&rule_words(names, *rule)).line();
    }
    out.text("return address: register ").decimal(place.found.header.return_register);
    if let Some(name) = names.known(place.found.header.return_register) {
        out.text(" (").text(name).text(")");
    }
    out.text(if said.signing { ", signed" } else { ", not signed" }).line();
    out.text("signal frame: ");
    out.text(match place.found.located.signal() {
        true => "yes; the caller stands exactly at its address",
        false => "no; the caller is looked up one byte before its return address",
    });
    out.line();
    if !said.shortest {
        out.text("long spellings: a number that was read takes more bytes than it needs").line();
    }
}

/// The frame address rule in words.
pub fn frame_words(names: &crate::registers::Names, frame: Frame) -> String {
    match frame {
        Frame::Unset => "no rule".to_string(),
        Frame::Register { register, offset } => format!("{}{offset:+}", names.text(u64::from(register))),
    }
}

/// A register's rule in words.
pub fn rule_words(names: &crate::registers::Names, rule: Rule) -> String {
    match rule {
        Rule::Unstated => "no rule".to_string(),
        Rule::Undefined => "undefined, the caller's value is lost".to_string(),
        Rule::SameValue => "the same value as in the caller".to_string(),
        Rule::InRegister(other) => format!("in {}", names.text(u64::from(other))),
        Rule::Saved(offset) => format!("saved at CFA{offset:+}"),
    }
}

fn as_json(out: &mut Out, file: &File, section: &Section<'_>, place: &Place<'_>, said: &AllRules) {
    about(out, file, section);
    out.text(", ");
    json::number(out, "record", place.record);
    if let Some(Placed { address: start, length }) = place.function {
        out.text(", ");
        json::address(out, "pc", start);
        out.text(", ");
        json::number(out, "size", length);
    }
    out.text(", ");
    json::number(out, "offset", place.offset);
    out.text(", ");
    json::frame(out, said.frame);
    out.text(", \"registers\": [");
    for (i, (register, rule)) in said.registers.iter().enumerate() {
        out.text(if i == 0 { "" } else { ", " });
        json::rule(out, *register, &section.names.text(u64::from(*register)), *rule);
    }
    out.text("], ");
    json::number(out, "return_address_register", place.found.header.return_register);
    out.text(", ");
    json::mark(out, "signed", said.signing);
    out.text(", ");
    json::mark(out, "signal", place.found.located.signal());
    out.text(", ");
    json::mark(out, "shortest", said.shortest);
    out.text("}").line();
}
