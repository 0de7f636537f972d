//! `dekvoz walk`: the chain of callers of a recorded fault, with the ground on which each is one.

use std::collections::BTreeMap;
use std::fs;

use dekvoz::walk::{walk, Chain, Fault};
use dekvoz::{FrameSection, Machine, Placed, Question, Refusal, Relocation, Section as Kind};

use crate::args::{Args, Usage};
use crate::dump::{Listing, Untold};
use crate::facts::{self, Fact};
use crate::grounds::{Ground, Origin};
use crate::input::{fitted, File, Parts, Section};
use crate::listed::about;
use crate::out::Out;
use crate::recorded::Recorded;
use crate::registers::{self, Names};
use crate::replay::{self, Replay, Step, Verdict};
use crate::tie::{self, Tie};
use crate::{json, missing, object, page, words, Stop};

/// The column of what a fact is about.
const ABOUT: usize = 11;

/// The functions of the records, and their names as far as they are known.
pub struct Functions {
    pub placed: Vec<Placed>,
    names: Vec<(u64, String)>,
}

impl Functions {
    /// Functions with names by start address.
    pub fn new(placed: Vec<Placed>, mut names: Vec<(u64, String)>) -> Functions {
        names.sort();
        Functions { placed, names }
    }

    /// The name of a function, or that of its record.
    pub fn name(&self, position: u64, start: u64) -> String {
        let known = self.names.binary_search_by_key(&start, |(address, _)| *address);
        known.map_or_else(|_| format!("function {position}"), |i| self.names[i].1.clone())
    }
}

/// A walk and what it stood on.
pub struct Walked<'a> {
    pub record_name: &'a str,
    pub record: &'a [u8],
    pub recorded: Recorded<'a>,
    pub machine: &'a Machine,
    pub pc: u64,
    pub section: &'a Section<'a>,
    pub functions: &'a Functions,
    pub said: Result<Chain, Refusal>,
    pub replay: Replay,
    /// Whether the record is of this program, where that was asked.
    pub tie: Option<Tie>,
    /// Where no function holds an address: which module or option may be missing.
    pub missing: Option<String>,
}

/// Walks the fault that the options name.
pub fn run(args: &Args) -> Result<bool, Stop> {
    args.only(
        "walk",
        &[
            "--section",
            "--kind",
            "--base",
            "--load-base",
            "--machine",
            "--relocations",
            "--linked",
            "--json",
            "--fault",
            "--pc",
            "--stack",
            "--functions",
            "--build-id",
            "--html",
        ],
    )?;
    let (Some(path), Some(pc), Some(stack)) = (args.value("--fault"), args.number("--pc")?, args.number("--stack")?) else {
        return Err(Stop::Usage(Usage("walk asks for --fault RECORD, --pc A and --stack A".to_string())));
    };
    let file = File::new(args)?;
    let record = fs::read(path).map_err(|error| Stop::failed(path, error))?;
    let tie = tie::of(args, path, &file)?;
    let section = file.section(args, args.number("--base")?)?;
    let machine = machine(args, &file)?;
    // An ELF file says its word; raw bytes have the machine's.
    let machine = Machine { word: if file.object.is_some() { section.word } else { machine.word }, ..machine };
    let parts = Parts::new(&section);
    if let Some(why) = parts.complaint() {
        return Err(Stop::failed(&file.name, why));
    }
    readable(&file, &section, &parts)?;
    let relocations = related(&section, &parts);
    let frame = FrameSection { relocations: &relocations, ..parts.frame };
    let functions = listed(args, &file, &section, &parts)?;
    let fault = Fault { machine: &machine, record: &record, pc, stack };
    let walked = walked(path, &fault, &section, &frame, &parts, &functions)?;
    let missing = missing::words(args, &file, &section, &walked.replay);
    let walked = Walked { tie: Some(tie), missing, ..walked };
    if let Some(page) = args.value("--html") {
        fs::write(page, page::text(&file, &walked)).map_err(|error| Stop::failed(page, error))?;
    }
    let mut out = Out::new();
    match args.has("--json") {
        true => as_json(&mut out, &file, &walked),
        false => as_text(&mut out, &file, &walked),
    }
    crate::finished(&mut out)?;
    match (&walked.said, walked.replay.verdict()) {
        (Err(refusal), _) => {
            let frame = walked.replay.steps.len().saturating_sub(1);
            crate::complain(path, &format!("frame #{frame}: {}", words::refused(*refusal)));
        }
        (Ok(_), Verdict::Whole) => return Ok(true),
        (Ok(_), _) => crate::complain(path, &format!("the chain is not whole: {}", facts::open(&walked.replay))),
    }
    Ok(false)
}

/// Whether every relocation that the records need could be applied, in a file that is not linked.
fn readable(file: &File, section: &Section<'_>, parts: &Parts<'_>) -> Result<(), Stop> {
    if section.left.is_empty() {
        return Ok(());
    }
    let mut listing = Listing::new(section, parts, false);
    let untold = |k: &usize| matches!(listing.record(*k).found, Err(Untold::Relocations));
    match (0..parts.records.len()).find(untold) {
        None => Ok(()),
        Some(k) => Err(Stop::failed(&file.name, format!("record {k}: {}", words::untold(Untold::Relocations)))),
    }
}

/// Walks by the library and replays it; an error where they differ.
pub fn walked<'a>(
    name: &'a str,
    fault: &Fault<'a>,
    section: &'a Section<'a>,
    frame: &FrameSection<'_>,
    parts: &Parts<'_>,
    functions: &'a Functions,
) -> Result<Walked<'a>, Stop> {
    let said = walk(fault, frame, &functions.placed);
    // Of these the record or the machine is the cause, and no frame was looked at.
    let early =
        |refusal: &&Refusal| matches!(refusal.asked(), Some(Question::Recorded | Question::Interface | Question::X64Word));
    if let Some(refusal) = said.as_ref().err().filter(early) {
        return Err(Stop::failed(name, words::refused(*refusal)));
    }
    let differ = || Stop::failed(name, "the replay of the walk differs from the library's chain");
    let recorded = Recorded::new(fault.record, fault.stack).ok_or_else(differ)?;
    let (machine, pc) = (fault.machine, fault.pc);
    let stands = replay::Fault {
        machine,
        recorded: &recorded,
        pc,
        frame,
        records: &parts.records,
        functions: &functions.placed,
        names: &section.names,
    };
    let replay = Replay::new(&stands);
    match replay.agrees(&said) {
        true => {
            let (record, tie, missing) = (fault.record, None, None);
            Ok(Walked { record_name: name, record, recorded, machine, pc, section, functions, said, replay, tie, missing })
        }
        false => Err(differ()),
    }
}

fn machine(args: &Args, file: &File) -> Result<Machine, Stop> {
    let by_name = args.value("--machine").and_then(registers::Machine::of_name);
    let by_file = || file.object.as_ref().and_then(|object| registers::Machine::of_elf(object.machine));
    if let (Some(named), Some(own)) = (by_name, by_file()) {
        if named != own {
            return Err(Stop::failed(&file.name, "it is a file of another machine than --machine names"));
        }
    }
    match by_name.or_else(by_file) {
        Some(registers::Machine::X86_64) => Ok(Machine::X86_64),
        Some(registers::Machine::AArch64) => Ok(Machine::AARCH64),
        Some(registers::Machine::RiscV) => Ok(Machine::RISCV64),
        Some(registers::Machine::Arm) => Ok(Machine::ARM),
        Some(registers::Machine::I386) => {
            Err(Stop::failed(&file.name, "i386 has words of 4 bytes, and walk asks for words of 8"))
        }
        None => Err(Stop::Usage(Usage("walk asks for --machine NAME where the file does not say it".to_string()))),
    }
}

/// The relocations that say where the headers of a debug_frame's records are; in a linked one its own fields do.
fn related(section: &Section<'_>, parts: &Parts<'_>) -> Vec<Relocation> {
    match section.kind == Kind::Debug && section.linked {
        false => section.relocations.clone(),
        true => {
            let headed = parts.records.iter().filter_map(|record| Some((record.place + 4, record.header?)));
            headed.map(|(place, addend)| Relocation { place, symbol: 2, kind: 1, size: 4, addend }).collect()
        }
    }
}

/// The functions of the records: by a list, or by the records' own fields with the names of an ELF file's symbols.
fn listed(args: &Args, file: &File, section: &Section<'_>, parts: &Parts<'_>) -> Result<Functions, Stop> {
    let linked = file.object.as_ref().is_some_and(|object| !object.relocatable);
    if let Some(path) = args.value("--functions") {
        let text = fs::read_to_string(path).map_err(|error| Stop::failed(path, error))?;
        let read: Option<Vec<_>> = text.lines().filter(|line| !line.trim().is_empty()).map(listed_one).collect();
        let read =
            read.ok_or_else(|| Stop::failed(path, "a function is a line: start address, length, and a name if it has one"))?;
        let names = read.iter().filter_map(|(placed, name)| Some((placed.address, name.clone()?))).collect();
        let placed: Vec<Placed> = read.into_iter().map(|(placed, _)| placed).collect();
        agree(&placed, section, parts, linked || args.has("--base")).map_err(|why| Stop::failed(path, why))?;
        return Ok(Functions::new(placed, names));
    }
    if file.object.is_some() && !linked {
        return Err(Stop::failed(
            &file.name,
            "it is not linked, and its functions have no addresses; --functions F lists them",
        ));
    }
    let names = file.object.as_ref().map_or_else(Vec::new, |object| object::function_names(&file.bytes, object));
    let moved = |(address, name): (u64, String)| (fitted(address.wrapping_add(section.moved), section.word), name);
    Ok(Functions::new(parts.functions(), names.into_iter().map(moved).collect()))
}

/// Whether a list of functions is one of these records: as many, each as long as its record says, and where the record says that it starts.
/// Where the table was not linked (`placed`), those of a section are all as far from where its records say.
fn agree(list: &[Placed], section: &Section<'_>, parts: &Parts<'_>, placed: bool) -> Result<(), String> {
    if list.len() != parts.records.len() {
        return Err(format!("it lists {} functions, and the table has {} records", list.len(), parts.records.len()));
    }
    let mut moved = BTreeMap::new();
    for (k, (named, record)) in list.iter().zip(&parts.records).enumerate() {
        let Ok(own) = parts.function(record.place) else { continue };
        if own.length != named.length {
            return Err(format!("function {k} has {} bytes, and its record says {}", named.length, own.length));
        }
        let far = named.address.wrapping_sub(own.address);
        let expected = match (placed, section.home(record.place)) {
            (true, _) => 0,
            (false, Some((home, _))) => *moved.entry(*home).or_insert(far),
            (false, None) => far,
        };
        if far != expected {
            let start = own.address.wrapping_add(expected);
            return Err(format!("function {k} starts at {:#x}, and its record says {start:#x}", named.address));
        }
    }
    Ok(())
}

fn listed_one(line: &str) -> Option<(Placed, Option<String>)> {
    let mut parts = line.split_whitespace();
    let (address, length) = (crate::args::number(parts.next()?)?, crate::args::number(parts.next()?)?);
    let name = parts.next().map(str::to_string);
    parts.next().is_none().then_some((Placed { address, length }, name))
}

/// A frame as it is called: its function and how far in it stands.
pub fn title(functions: &Functions, step: &Step) -> String {
    format!("{}+{}", functions.name(step.position, step.function.address), step.pc.wrapping_sub(step.function.address))
}

fn as_text(out: &mut Out, file: &File, walked: &Walked<'_>) {
    let recorded = &walked.recorded;
    out.text(walked.record_name).text(": ").decimal(recorded.stack.len() as u64).text(" bytes of the stack at ");
    out.text(&format!("{:#x}, {} registers, pc {:#x}", recorded.address, recorded.registers.len(), walked.pc)).line();
    let section = walked.section.name.as_deref().unwrap_or("the bytes of a section");
    out.text(&format!("{}: {section}, {} functions", file.name, walked.functions.placed.len())).line();
    if let Some(tie) = &walked.tie {
        out.text(&tie.words()).line();
    }
    out.line();
    chain(out, walked);
}

/// The chain in words: each frame in a line, then the facts of each.
pub fn chain(out: &mut Out, walked: &Walked<'_>) {
    for (n, step) in walked.replay.steps.iter().enumerate() {
        let mark = if step.signal { ", a signal frame" } else { "" };
        out.cell(&format!("#{n}"), 4).text(&title(walked.functions, step)).text(mark).line();
    }
    out.text(&facts::end(&walked.replay)).line();
    if let Some(missing) = &walked.missing {
        out.text(missing).line();
    }
    out.line();
    for (n, step) in walked.replay.steps.iter().enumerate() {
        let what = if n == 0 { "pc" } else { "return address" };
        out.text(&format!("#{n} {}, {what} {:#x}", title(walked.functions, step), step.pc)).line();
        for fact in facts::of(step, &walked.section.names, walked.machine.return_address) {
            fact_text(out, &fact);
        }
        if n + 1 == walked.replay.steps.len() {
            facts::last(&walked.replay).iter().for_each(|fact| fact_text(out, fact));
        }
    }
    out.text(facts::rests_on(&walked.replay)).line();
}

fn fact_text(out: &mut Out, fact: &Fact) {
    out.text("   ").cell(&fact.about, ABOUT).text(&fact.words).line();
    for (i, origin) in fact.by.iter().enumerate() {
        let word = if i == 0 { "by " } else { "and " };
        out.text("   ").cell("", ABOUT).text(word).text(&facts::origin(*origin)).line();
    }
}

fn as_json(out: &mut Out, file: &File, walked: &Walked<'_>) {
    about(out, file, walked.section);
    let recorded = &walked.recorded;
    out.text(", \"fault\": {");
    json::text(out, "file", walked.record_name);
    out.text(", ");
    json::address(out, "pc", walked.pc);
    out.text(", ");
    json::address(out, "stack", recorded.address);
    out.text(", ");
    json::number(out, "stack_bytes", recorded.stack.len() as u64);
    out.text(", ");
    json::number(out, "registers", recorded.registers.len() as u64);
    if let Some(tie) = &walked.tie {
        tie.as_json(out);
    }
    out.text("}, \"frames\": [");
    for (n, step) in walked.replay.steps.iter().enumerate() {
        out.text(if n == 0 { "" } else { "," }).line();
        step_json(out, walked.functions, &walked.section.names, step);
    }
    out.line().text("], ");
    match &walked.said {
        Ok(chain) => json::number(out, "ending", chain.ending.number()),
        Err(refusal) => json::refusal(out, *refusal, words::cause(*refusal)),
    }
    out.text(", ");
    json::mark(out, "whole", walked.replay.verdict() == Verdict::Whole);
    out.text(", ");
    json::text(out, "words", &facts::end(&walked.replay));
    if let Some(missing) = &walked.missing {
        out.text(", ");
        json::text(out, "missing", missing);
    }
    out.text("}").line();
}

fn step_json(out: &mut Out, functions: &Functions, names: &Names, step: &Step) {
    out.text("{");
    json::number(out, "position", step.position);
    out.text(", ");
    json::address(out, "pc", step.pc);
    out.text(", ");
    json::address(out, "looked_up_at", step.asked);
    out.text(", ");
    json::text(out, "function", &functions.name(step.position, step.function.address));
    out.text(", ");
    json::address(out, "start", step.function.address);
    out.text(", ");
    json::number(out, "length", step.function.length);
    out.text(", ");
    json::mark(out, "signal", step.signal);
    if let Some(cfa) = &step.cfa {
        out.text(", ");
        json::frame(out, cfa.rule);
        out.text(", ");
        json::address(out, "frame_address", cfa.address);
        out.text(", \"frame_by\": ");
        let mut by: Vec<Origin> = cfa.by.iter().copied().flatten().collect();
        by.dedup();
        origins_json(out, &by);
    }
    out.text(", \"registers\": [");
    for (i, register) in step.registers.iter().enumerate() {
        out.text(if i == 0 { "{\"rule\": " } else { ", {\"rule\": " });
        json::rule(out, register.number, &names.text(u64::from(register.number)), register.rule);
        for (name, value) in [("slot", register.slot), ("value", register.value)] {
            if let Some(value) = value {
                out.text(", ");
                json::address(out, name, value);
            }
        }
        out.text(", \"by\": ");
        origins_json(out, &register.by.into_iter().collect::<Vec<_>>());
        out.text("}");
    }
    out.text("]");
    if let Some(back) = &step.back {
        out.text(", \"returns\": {");
        json::address(out, "to", back.pc);
        out.text(", ");
        json::address(out, "register_holds", back.value);
        out.text(", ");
        json::mark(out, "signed", back.signed);
        out.text("}");
    }
    out.text("}");
}

fn origins_json(out: &mut Out, by: &[Origin]) {
    out.text("[");
    for (i, origin) in by.iter().enumerate() {
        out.text(if i == 0 { "" } else { ", " });
        ground_json(out, origin.by);
        if let Some(back) = origin.back {
            out.text(", ");
            ground_json(out, back);
        }
    }
    out.text("]");
}

fn ground_json(out: &mut Out, ground: Ground) {
    out.text("{");
    json::text(out, "operation", words::operation(ground.opcode));
    out.text(", ");
    json::text(out, "in", if ground.header { "header" } else { "record" });
    out.text(", ");
    json::number(out, "place", ground.place);
    out.text(", ");
    json::number(out, "offset", ground.offset);
    out.text("}");
}
