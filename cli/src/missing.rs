//! What may be missing where no function holds an address: a module, or an option.

use crate::args::Args;
use crate::input::{fitted, File, Section, DEBUG_FRAME, EH_FRAME};
use crate::object::Object;
use crate::replay::{End, Replay};

/// In words; none where the chain did not end so.
pub fn words(args: &Args, file: &File, section: &Section<'_>, replay: &Replay) -> Option<String> {
    let End::Nobody(_, asked) = replay.end else { return None };
    let Some(asked) = asked else {
        return Some(
            "A stack may end so, but no rule of the table says it: the return address 0 may also be a damaged word."
                .to_string(),
        );
    };
    let lists = args.has("--functions");
    Some(
        match &file.object {
            None => raw(args),
            Some(object) if object.relocatable => {
                format!("{} is not linked: another file of the program may hold the address.", file.name)
            }
            Some(object) => elf(args, file, object, section, asked),
        } + if lists { " Or the list of --functions is another program's." } else { "" },
    )
}

fn raw(args: &Args) -> String {
    let base = if args.has("--base") { "another --base than " } else { "--base, which says " };
    format!("Missing may be {base}where the bytes were loaded, or the table of another module.")
}

fn elf(args: &Args, file: &File, object: &Object, section: &Section<'_>, asked: u64) -> String {
    let linked = fitted(asked.wrapping_sub(section.moved), section.word);
    let table = section.name.as_deref().unwrap_or("the table");
    let held = object.sections.iter().find(|held| held.address != 0 && linked.wrapping_sub(held.address) < held.size);
    if let Some(held) = held {
        let other = [EH_FRAME, DEBUG_FRAME].into_iter().find(|name| *name != table && object.position(name).is_some());
        let rows = other.map_or("code without unwind rows".to_string(), |other| {
            format!("code without unwind rows, or with rows in {other} (--section {other})")
        });
        return format!("The address lies in {} of {}, and {table} has no record for it: {rows}.", held.name, file.name);
    }
    let loaded = object.segments.iter().map(|part| (part.address, part.address.saturating_add(part.size)));
    let (from, to) = loaded.fold((u64::MAX, 0), |(from, to), part| (from.min(part.0), to.max(part.1)));
    let at = |address: u64| fitted(address.wrapping_add(section.moved), section.word);
    let there = if from < to { format!(" at {:#x}..{:#x}", at(from), at(to)) } else { String::new() };
    let base = match (object.movable, args.has("--load-base")) {
        (true, false) => "--load-base, since it can be loaded anywhere (the first of its lines in /proc/PID/maps says where)",
        (_, true) => "another --load-base",
        (false, false) => "--load-base, if it was loaded elsewhere",
    };
    format!("{} was taken to be loaded{there}. Missing may be {base}; or another module holds the address, such as a shared library.", file.name)
}
