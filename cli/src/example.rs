//! `dekvoz example`: a small firmware's table is written, listed and checked, and a recorded fault is walked.

use std::fs;

use dekvoz::walk::{recorded, Fault};
use dekvoz::{
    apply, call_site, relaxed_debug_frame, relaxed_table, row_check, Builder, Built, Format, FrameSection, Function, Machine,
    Refusal, Section as Kind, Table,
};

use crate::args::Args;
use crate::check;
use crate::dump::Listing;
use crate::handler;
use crate::input::{File, Parts, Section};
use crate::out::Out;
use crate::page;
use crate::registers::{self, Names};
use crate::walk::{self, Functions};
use crate::Stop;

/// AArch64: the frame pointer, the return address and the stack pointer.
const X19: u16 = 19;
const FP: u16 = 29;
const LR: u16 = 30;
const SP: u16 = 31;

/// Where the linker put the table and the call sites, and in relocations the symbols of the personality routine and of the call sites.
const SECTION: u64 = 0x90000;
const SITES: u64 = 0x91000;
const PERSONALITY: (u64, u64) = (0, 0x8f000);
const CALL_SITES: u64 = 1;

/// A function of the firmware: its name, what it is, where the linker put it.
struct Code {
    name: &'static str,
    about: &'static str,
    address: u64,
    built: Built,
}

/// The first symbol of a caller's.
const FIRST: u32 = 16;

fn firmware() -> Vec<Code> {
    let code = |name, about, address, built: Builder| Code { name, about, address, built: built.done() };
    vec![
        code("reset", "has no caller", 0x80000, Builder::new(FIRST, 24).undefined(LR)),
        code(
            "control",
            "calls sample in a loop",
            0x80040,
            frame(Builder::new(FIRST + 1, 64), 32).at(56).restore(LR).restore(FP).def_cfa(SP, 0),
        ),
        code("sample", "reads a device; it keeps x19, and has a handler", 0x80080, sample()),
        code("vector", "is entered by a trap: a signal frame over 272 saved bytes", 0x800c0, vector()),
        code("report", "writes the fault record; its return address is signed", 0x80140, report()),
    ]
}

/// `stp x29, x30, [sp, #-bytes]!; mov x29, sp`
fn frame(function: Builder, bytes: i32) -> Builder {
    function.at(4).def_cfa_offset(bytes).offset(FP, -bytes).offset(LR, 8 - bytes).at(8).def_cfa_register(FP)
}

/// The device is read by the instruction at 24; what is thrown there lands at 44.
fn sample() -> Builder {
    frame(Builder::new(FIRST + 2, 56), 48)
        .at(12)
        .offset(X19, -32)
        .at(40)
        .restore(LR)
        .restore(FP)
        .restore(X19)
        .def_cfa(SP, 0)
        .landing(24, 4, 44)
}

fn vector() -> Builder {
    Builder::new(FIRST + 3, 96).simple().signal().def_cfa(SP, 272).offset(FP, -40).offset(LR, -32)
}

/// `paciasp; stp x29, x30, [sp, #-16]!; mov x29, sp; ..; ldp; autiasp; ret`
fn report() -> Builder {
    Builder::new(FIRST + 4, 48)
        .at(4)
        .negate_ra_state()
        .at(8)
        .def_cfa_offset(16)
        .offset(FP, -16)
        .offset(LR, -8)
        .at(12)
        .def_cfa_register(FP)
        .at(40)
        .restore(LR)
        .restore(FP)
        .def_cfa(SP, 0)
        .at(44)
        .negate_ra_state()
}

/// The words of the stack when report was stopped, but those that are 0: address and value.
const STACK: [(u64, u64); 8] = [
    (0x2000_0e90, 0x2000_0fb0),           // report: x29 of vector
    (0x2000_0e98, 0x00a5_0000_0008_00d4), // report: back to vector, signed
    (0x2000_0f88, 0x2000_0fb0),           // vector: x29 of sample
    (0x2000_0f90, 0x0008_0098),           // vector: where the trap struck
    (0x2000_0fb0, 0x2000_0fe0),           // sample: x29 of control
    (0x2000_0fb8, 0x0008_0064),           // sample: back to control
    (0x2000_0fc0, 7),                     // sample: x19 of control
    (0x2000_0fe8, 0x0008_0014),           // control: back to reset, whose x29 is 0
];
/// The stack that was recorded: from where report's frame starts to where control's ends.
const STACK_AT: u64 = 0x2000_0e90;
const STACK_END: u64 = 0x2000_0ff0;
/// Where report was stopped, and the registers that are not 0 there.
const STOPPED: u64 = 0x80154;
const REGISTERS: [(u16, u64); 3] = [(X19, 9), (FP, STACK_AT), (SP, STACK_AT)];

/// Runs the example.
pub fn run(args: &Args) -> Result<bool, Stop> {
    args.only("example", &["--html"])?;
    if args.file().is_some() {
        return Err(Stop::Usage(crate::args::Usage("example takes no file".to_string())));
    }
    let mut out = Out::new();
    let done = show(&mut out, args.value("--html"));
    crate::finished(&mut out)?;
    done.map(|()| true)
}

/// A refusal of the library, which no part of the example meets.
fn failed(refusal: Refusal) -> Stop {
    Stop::failed("example", refusal)
}

fn show(out: &mut Out, page: Option<&str>) -> Result<(), Stop> {
    let codes = firmware();
    let functions: Vec<Function<'_>> = codes.iter().map(|code| code.built.function()).collect();
    out.text("A firmware for AArch64 has five functions:").line();
    for (code, function) in codes.iter().zip(&functions) {
        out.text(&format!("  {:8} at {:#x}, {} bytes: {}", code.name, code.address, function.length, code.about)).line();
    }
    let table = relaxed_table(&Machine::AARCH64, Format::Elf, &functions).map_err(failed)?;
    let bytes = placed(&codes, &table).map_err(failed)?;
    out.text(&format!(
        "\nTheir eh_frame of {} bytes, put at {SECTION:#x} with {} relocations applied:\n\n",
        bytes.len(),
        table.relocations.len()
    ));
    let section = section(&bytes);
    let parts = Parts::new(&section);
    Listing::new(&section, &parts, false).text(out);
    checked(out, &codes, &section, &parts);
    same(out, &functions, &parts.frame).map_err(failed)?;
    caught(out, &table).map_err(failed)?;
    chain(out, &codes, &section, &parts, page)
}

fn section(bytes: &[u8]) -> Section<'_> {
    Section::raw(bytes, Kind::Eh, SECTION, Names::new(Some(registers::Machine::AArch64)))
}

/// The section as the linker leaves it.
fn placed(codes: &[Code], table: &Table) -> Result<Vec<u8>, Refusal> {
    let symbols = codes.iter().map(|code| (u64::from(code.built.function().symbol), code.address));
    let addresses: Vec<(u64, u64)> = symbols.chain([PERSONALITY, (CALL_SITES, SITES)]).collect();
    apply(&table.bytes, &table.relocations, &addresses, SECTION, 0)
}

fn checked(out: &mut Out, codes: &[Code], section: &Section<'_>, parts: &Parts<'_>) {
    let passed = codes.iter().filter(|code| row_check(&code.built.function())).count();
    out.text("The row check says yes to ").decimal(passed as u64).text(" functions of ").decimal(codes.len() as u64);
    out.text(". `dekvoz check` of the section says:").line();
    let mut listing = Listing::new(section, parts, false);
    let causes = check::causes(&mut listing, 1);
    check::as_text(out, &listing, &causes);
}

/// What was recorded when report was stopped: the stack's bytes and the registers.
fn record() -> Vec<u8> {
    let word = |at| STACK.iter().find(|(address, _)| *address == at).map_or(0, |(_, value)| *value);
    let stack: Vec<u8> = (STACK_AT..STACK_END).step_by(8).flat_map(|at| u64::to_le_bytes(word(at))).collect();
    let value = |n| REGISTERS.iter().find(|(register, _)| *register == n).map_or(0, |(_, value)| *value);
    recorded(&stack, &(0..=SP).map(value).collect::<Vec<_>>())
}

/// From where report was stopped to reset.
fn chain(out: &mut Out, codes: &[Code], section: &Section<'_>, parts: &Parts<'_>, page: Option<&str>) -> Result<(), Stop> {
    out.text("\nOne day the device does not answer: sample traps, vector saves the registers and\n");
    out.text(&format!("calls report, which was stopped at {STOPPED:#x}. The walk over what was recorded says:\n\n"));
    let names = codes.iter().map(|code| (code.address, code.name.to_string())).collect();
    let functions = Functions::new(parts.functions(), names);
    let record = record();
    let fault = Fault { machine: &Machine::AARCH64, record: &record, pc: STOPPED, stack: STACK_AT };
    let walked = walk::walked("the record of the example", &fault, section, &parts.frame, parts, &functions)?;
    walk::chain(out, &walked);
    let Some(page) = page else { return Ok(()) };
    let file = File { name: "the table of the example".to_string(), bytes: section.bytes.to_vec(), object: None };
    fs::write(page, page::text(&file, &walked)).map_err(|error| Stop::failed(page, error))
}

/// Who would get what is thrown where sample reads the device: the call sites of the record, at the addend of its relocation to their
/// section.
fn caught(out: &mut Out, table: &Table) -> Result<(), Refusal> {
    let Some(pointer) = table.relocations.iter().find(|relocation| relocation.symbol == CALL_SITES) else { return Ok(()) };
    let site = call_site(&table.sites, pointer.addend, 24)?;
    out.text("\nWould sample catch what is thrown where it reads the device?\n")
        .text(&handler::words_of(24, Some(site)))
        .line();
    Ok(())
}

/// debug_frame of the same list, which a debugger reads, compared at every offset and for every register of the machine.
fn same(out: &mut Out, functions: &[Function<'_>], eh: &FrameSection<'_>) -> Result<(), Refusal> {
    let table = relaxed_debug_frame(&Machine::AARCH64, Format::Elf, functions)?;
    let debug = FrameSection { bytes: &table.bytes, relocations: &table.relocations, kind: Kind::Debug, ..*eh };
    let (mut asked, mut differ) = (0u64, 0u64);
    for (k, function) in (0..).zip(functions) {
        let (in_eh, in_debug) = (eh.locate(k)?, debug.locate(k)?);
        for p in 0..function.length {
            for register in 0..=SP {
                asked += 1;
                differ += u64::from(in_eh.rules(register, p) != in_debug.rules(register, p));
            }
        }
    }
    out.text(&format!("\nA debugger reads debug_frame instead, {} bytes of the same list.\n", table.bytes.len()));
    out.text(&format!("Asked at every offset for every register, {asked} times, the two differ {differ} times.\n"));
    Ok(())
}
