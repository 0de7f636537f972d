//! `dekvoz walk --html`: the chain with its grounds as one page, without scripts or other files.

use std::collections::{BTreeMap, BTreeSet};
use std::fmt::Write;

use dekvoz::parts::{operations, OperationAt};

use crate::digest::sha256;
use crate::facts::{self, Fact};
use crate::grounds::{Ground, Origin};
use crate::input::File;
use crate::replay::{End, Step, Verdict};
use crate::walk::{title, Walked};
use crate::words;

const STYLE: &str = include_str!("page.css");
/// As many words of the stack around one that was read are drawn.
const AROUND: usize = 2;
/// A stack of at most so many words is drawn whole.
const WHOLE: usize = 24;
/// The colours of frames.
const COLOURS: usize = 6;

/// A text inside HTML.
fn escaped(text: &str) -> String {
    text.replace('&', "&amp;").replace('<', "&lt;").replace('>', "&gt;").replace('"', "&quot;")
}

/// Writing to a string does not fail.
macro_rules! put {
    ($page:expr, $($part:tt)*) => { let _ = write!($page, $($part)*); };
}

/// The page.
pub fn text(file: &File, walked: &Walked<'_>) -> String {
    let mut page = String::new();
    put!(page, "<!DOCTYPE html>\n<html lang=\"en\">\n<head>\n<meta charset=\"utf-8\">\n");
    put!(page, "<meta name=\"viewport\" content=\"width=device-width, initial-scale=1\">\n");
    put!(page, "<title>Chain of callers: {}</title>\n<style>\n{STYLE}</style>\n</head>\n<body>\n", escaped(walked.record_name));
    put!(page, "<h1>Chain of callers of a recorded fault</h1>\n");
    inputs(&mut page, file, walked);
    result(&mut page, walked);
    chain(&mut page, walked);
    stack(&mut page, walked);
    put!(page, "<h2>The ground for each caller</h2>\n");
    for (n, step) in walked.replay.steps.iter().enumerate() {
        frame(&mut page, walked, n, step);
    }
    registers(&mut page, walked);
    believed(&mut page, walked);
    put!(page, "</body>\n</html>\n");
    page
}

fn row(page: &mut String, about: &str, words: &str) {
    put!(page, "<tr><th scope=\"row\">{about}</th><td>{words}</td></tr>\n");
}

fn inputs(page: &mut String, file: &File, walked: &Walked<'_>) {
    let recorded = &walked.recorded;
    put!(page, "<h2>What was walked</h2>\n<table class=\"plain\">\n");
    let held = format!(
        "{}, {} bytes: {} bytes of the stack from <code>{:#x}</code> on, and {} registers",
        escaped(walked.record_name),
        walked.record.len(),
        recorded.stack.len(),
        recorded.address,
        recorded.registers.len()
    );
    row(page, "Record", &held);
    row(page, "", &format!("SHA-256 <code>{}</code>", sha256(walked.record)));
    row(page, "Stopped at", &format!("<code>{:#x}</code>", walked.pc));
    let section = walked.section.name.as_deref().unwrap_or("the bytes of a section");
    let table = format!("{}: {}, {} bytes", escaped(&file.name), escaped(section), walked.section.bytes.len());
    row(page, "Unwind table", &table);
    row(page, "", &format!("SHA-256 of the file <code>{}</code>", sha256(&file.bytes)));
    if let Some(tie) = &walked.tie {
        row(page, "", &escaped(&tie.words()));
    }
    row(page, "Functions", &format!("{}, each with its record of the table", walked.functions.placed.len()));
    let names = &walked.section.names;
    let (stack, back) = (u64::from(walked.machine.stack_pointer), u64::from(walked.machine.return_address));
    row(
        page,
        "Machine",
        &format!("words of 8 bytes, stack pointer {}, return address {}", names.both(stack), names.both(back)),
    );
    put!(page, "</table>\n");
}

fn result(page: &mut String, walked: &Walked<'_>) {
    let count = walked.replay.steps.len();
    let frames = if count == 1 { "1 frame".to_string() } else { format!("{count} frames") };
    // Green is only a chain that ended where its rules say that it ends.
    let (class, answer) = match (walked.replay.verdict(), count) {
        (Verdict::Whole, _) => ("good", format!("{frames}, a whole chain")),
        (Verdict::Open, 0) => ("open", "No chain".to_string()),
        (Verdict::Open, _) => ("open", format!("{frames}, and then it is not known")),
        (Verdict::Refused, _) => ("bad", format!("Refused at frame #{}", count.saturating_sub(1))),
    };
    let missing = walked.missing.as_deref().map_or_else(String::new, |words| format!(" {}", escaped(words)));
    put!(
        page,
        "<p class=\"result {class}\"><strong>{answer}.</strong> {}{missing}</p>\n",
        escaped(&facts::end(&walked.replay))
    );
}

/// The columns of the chain.
const CHAIN: [&str; 7] =
    ["Frame", "Function", "pc, or return address", "Looked up at", "CFA", "Return address read at", "Returns to"];

fn chain(page: &mut String, walked: &Walked<'_>) {
    put!(page, "<h2>The chain</h2>\n<table class=\"chain\">\n<thead><tr>");
    CHAIN.iter().for_each(|name| put_cell(page, "th", "", name));
    put!(page, "</tr></thead>\n<tbody>\n");
    for (n, step) in walked.replay.steps.iter().enumerate() {
        let signal = if step.signal { " <span class=\"mark\">signal frame</span>" } else { "" };
        let slot = step.registers.iter().find(|register| register.number == walked.machine.return_address);
        let to = match (&step.back, &walked.replay.end) {
            (Some(back), _) => format!("<code>{:#x}</code>", back.pc),
            (None, End::Undefined) => "nowhere".to_string(),
            (None, _) => "<span class=\"no\">refused</span>".to_string(),
        };
        let cells = [
            format!("<a href=\"#frame-{n}\">#{n}</a>"),
            format!("{}{signal}", escaped(&title(walked.functions, step))),
            format!("<code>{:#x}</code>", step.pc),
            format!("<code>{:#x}</code>", step.asked),
            step.cfa.as_ref().map_or_else(String::new, |cfa| format!("<code>{:#x}</code>", cfa.address)),
            slot.and_then(|register| register.slot).map_or_else(String::new, slot_link),
            to,
        ];
        put!(page, "<tr>");
        for (i, (name, cell)) in CHAIN.iter().zip(&cells).enumerate() {
            let colour = if i == 0 { format!(" class=\"f{}\"", n % COLOURS) } else { String::new() };
            // On a narrow screen the cells stand below one another, each behind its column's name.
            put_cell(page, "td", &format!("{colour} data-of=\"{name}\""), cell);
        }
        put!(page, "</tr>\n");
    }
    put!(page, "</tbody>\n</table>\n");
}

fn put_cell(page: &mut String, tag: &str, attributes: &str, text: &str) {
    put!(page, "<{tag}{attributes}>{text}</{tag}>");
}

fn slot_link(slot: u64) -> String {
    format!("<a href=\"#slot-{slot:x}\"><code>{slot:#x}</code></a>")
}

/// The operations of a fact, each a link to its row.
fn grounds(n: usize, by: &[Origin]) -> String {
    let link = |ground: Ground| format!("<a href=\"#row-{n}-{:x}\">{}</a>", ground.place, facts::ground(ground));
    let one = |origin: &Origin| match origin.back {
        None => link(origin.by),
        Some(back) => format!("{}, taken back by {}", link(origin.by), link(back)),
    };
    by.iter().map(one).collect::<Vec<_>>().join(" and ")
}

fn frame(page: &mut String, walked: &Walked<'_>, n: usize, step: &Step) {
    let (functions, names) = (walked.functions, &walked.section.names);
    let last = n + 1 == walked.replay.steps.len();
    put!(
        page,
        "<section class=\"frame\" id=\"frame-{n}\">\n<h3 class=\"f{}\">#{n} {}",
        n % COLOURS,
        escaped(&title(functions, step))
    );
    put!(page, "</h3>\n<table class=\"facts\">\n");
    let said = facts::of(step, names, walked.machine.return_address);
    for fact in &said {
        let slot = fact.slot.map_or_else(String::new, |slot| format!(" (drawn at {})", slot_link(slot)));
        let by =
            if fact.by.is_empty() { String::new() } else { format!("<div class=\"by\">by {}</div>", grounds(n, &fact.by)) };
        row(page, &escaped(&fact.about), &format!("{}{slot}{by}", escaped(&fact.words)));
    }
    for fact in facts::last(&walked.replay).iter().filter(|_| last) {
        row(page, &escaped(&fact.about), &escaped(&fact.words));
    }
    if !last {
        let next = n + 1;
        let caller = walked.replay.steps.get(next).map_or_else(String::new, |step| escaped(&title(functions, step)));
        row(page, "caller", &format!("<a href=\"#frame-{next}\">#{next} {caller}</a>"));
    }
    put!(page, "</table>\n");
    rows(page, walked, n, step, &said);
    put!(page, "</section>\n");
}

/// The rows of a frame's record and header; those that a fact stands on are marked.
fn rows(page: &mut String, walked: &Walked<'_>, n: usize, step: &Step, said: &[Fact]) {
    let Some((header, record)) = &step.spans else { return };
    let used: BTreeSet<u64> = said
        .iter()
        .flat_map(|fact| &fact.by)
        .flat_map(|origin| [Some(origin.by), origin.back])
        .flatten()
        .map(|ground| ground.place)
        .collect();
    let p = step.asked - step.function.address;
    put!(page, "<details open><summary>Rows of record {} up to offset {p}</summary>\n<table class=\"rows\">\n", step.position);
    put!(page, "<thead><tr><th>Place</th><th>In</th><th>From offset</th><th>Operation</th></tr></thead>\n<tbody>\n");
    let mut offset = 0;
    for (range, part) in [(header, "header"), (record, "record")] {
        for found in operations(&walked.section.bytes, range.clone(), walked.section.word).map_while(Result::ok) {
            match found.operation {
                dekvoz::parts::Operation::Nop => continue,
                dekvoz::parts::Operation::Step(by) => offset += by,
                _ => {}
            }
            let class = if offset > p {
                " class=\"later\""
            } else if used.contains(&found.place) {
                " class=\"used\""
            } else {
                ""
            };
            put!(page, "<tr{class} id=\"row-{n}-{:x}\"><td><code>{:#x}</code></td><td>{part}</td>", found.place, found.place);
            put!(page, "<td>{offset}</td><td>{}</td></tr>\n", escaped(&operation(walked, &found)));
        }
    }
    put!(page, "</tbody>\n</table>\n</details>\n");
}

fn operation(walked: &Walked<'_>, found: &OperationAt) -> String {
    use dekvoz::parts::Operation as Is;
    let (names, name) = (&walked.section.names, words::operation(found.opcode));
    match found.operation {
        Is::DefCfa(register, offset) => format!("{name}: {}, offset {offset}", names.both(register)),
        Is::DefCfaOffset(offset) => format!("{name}: {offset}"),
        Is::Offset(register, offset) => format!("{name}: {} at CFA{offset:+}", names.both(register)),
        Is::DefCfaRegister(register) | Is::Restore(register) | Is::Undefined(register) | Is::SameValue(register) => {
            format!("{name}: {}", names.both(register))
        }
        Is::InRegister(register, other) => format!("{name}: {} in {}", names.both(register), names.both(other)),
        Is::Step(by) => format!("{name}: {by}"),
        _ => name.to_string(),
    }
}

/// What was read at an address: which register of which frame's caller.
fn read_slots(walked: &Walked<'_>) -> BTreeMap<u64, Vec<(usize, String)>> {
    let mut found: BTreeMap<u64, Vec<(usize, String)>> = BTreeMap::new();
    for (n, step) in walked.replay.steps.iter().enumerate() {
        for register in &step.registers {
            let Some(slot) = register.slot else { continue };
            let back = if register.number == walked.machine.return_address { ", the return address" } else { "" };
            let what = format!("{} of the caller{back}", walked.section.names.text(u64::from(register.number)));
            found.entry(slot).or_default().push((n, what));
        }
    }
    found
}

fn stack(page: &mut String, walked: &Walked<'_>) {
    let (recorded, slots) = (&walked.recorded, read_slots(walked));
    put!(page, "<h2>The stack</h2>\n");
    put!(page, "<p>Lower addresses stand above. The words that were read are marked, with the frame whose rules read them; a colour is ");
    put!(page, "the frame that a word belongs to, up to its CFA.</p>\n");
    let grid: Vec<u64> = (0..recorded.stack.len() as u64 / 8).map(|n| recorded.address.wrapping_add(8 * n)).collect();
    let near = |at: usize| {
        let (from, to) = (at.saturating_sub(AROUND), (at + AROUND + 1).min(grid.len()));
        grid[from..to].iter().any(|address| slots.range(*address..address.saturating_add(8)).next().is_some())
    };
    let drawn: Vec<usize> = (0..grid.len()).filter(|at| grid.len() <= WHOLE || near(*at)).collect();
    put!(page, "<table class=\"stack\">\n<thead><tr><th>Address</th><th>Word</th><th>Read as</th></tr></thead>\n<tbody>\n");
    let mut next = 0;
    for at in drawn {
        passed_over(page, at - next);
        next = at + 1;
        word(page, walked, grid[at], slots.get(&grid[at]));
        for (slot, read) in slots.range(grid[at] + 1..grid[at].saturating_add(8)) {
            word(page, walked, *slot, Some(read));
        }
    }
    passed_over(page, grid.len() - next);
    put!(page, "</tbody>\n</table>\n");
}

fn passed_over(page: &mut String, count: usize) {
    if count > 0 {
        put!(page, "<tr class=\"gap\"><td colspan=\"3\">{count} words that were not read</td></tr>\n");
    }
}

fn word(page: &mut String, walked: &Walked<'_>, address: u64, read: Option<&Vec<(usize, String)>>) {
    let steps = &walked.replay.steps;
    for (n, _) in steps.iter().enumerate().filter(|(_, step)| step.cfa.as_ref().is_some_and(|cfa| cfa.address == address)) {
        put!(page, "<tr class=\"edge\"><td colspan=\"3\">CFA of <a href=\"#frame-{n}\">#{n}</a></td></tr>\n");
    }
    let owner = steps.iter().position(|step| step.cfa.as_ref().is_some_and(|cfa| cfa.address > address));
    let colour = owner.map_or_else(String::new, |n| format!("f{}", n % COLOURS));
    let value = walked.recorded.load(address).map_or_else(String::new, |value| format!("{value:#018x}"));
    let class = if read.is_some() { " class=\"read\"" } else { "" };
    put!(page, "<tr{class} id=\"slot-{address:x}\"><td class=\"{colour}\"><code>{address:#x}</code></td><td><code>{value}</code></td><td>");
    for (i, (n, what)) in read.into_iter().flatten().enumerate() {
        let comma = if i == 0 { "" } else { "; " };
        put!(page, "{comma}{} (<a href=\"#frame-{n}\">#{n}</a>)", escaped(what));
    }
    put!(page, "</td></tr>\n");
}

fn registers(page: &mut String, walked: &Walked<'_>) {
    put!(page, "<h2>The registers where the program was stopped</h2>\n<p class=\"registers\">\n");
    for (n, value) in (0..).zip(&walked.recorded.registers) {
        put!(page, "<span>{} <code>{value:#x}</code></span>\n", escaped(&walked.section.names.text(n)));
    }
    put!(page, "</p>\n");
}

fn believed(page: &mut String, walked: &Walked<'_>) {
    put!(page, "<h2>What this page rests on</h2>\n<p>{} ", facts::rests_on(&walked.replay));
    put!(
        page,
        "unwind_walk and unwind_rules_at, which gives the rules, are functions of dekvoz {}, proved by machine to ",
        env!("CARGO_PKG_VERSION")
    );
    put!(page, "answer what their definitions say, for every input. The command that replayed the addresses and values and wrote this page ");
    put!(
        page,
        "is not proved. That the table describes the code, and that the record is what the stopped machine held, is taken "
    );
    put!(page, "from the files.</p>\n");
}
