//! Hands cases in text form to the Rust source and prints its answers. README.md has the form.

use std::cell::RefCell;
use std::io::{Read, Write};
use std::panic::{AssertUnwindSafe, catch_unwind};

use rucc_mir::CfiOp;
use rucc_object::{EXCEPT_TABLE, Extent, Landing, Reference, Reloc, Unwind};
use rucc_target::riscv64::Fixup;
use rucc_target::{CallRegs, Class, ObjectFormat, Reg};

use unwind::{Begins, Named, Prologue, Relaxed, Rows, Seh};

include!(env!("UNWIND_MODULE"));

/// The one error of the source.
#[derive(Debug)]
pub enum Error {
    Frame { func: String, why: String },
}

const MACHINE: usize = 70;
const FUNCTION: usize = 18;
const ROW: usize = 4;
const LANDING: usize = 3;
const PAIR: usize = 4;
const SEH_FUNCTION: usize = 5;
const CODE: usize = 5;

/// A case as it was read: number lists, nothing checked.
#[derive(Default)]
pub(crate) struct Case {
    pub(crate) name: String,
    pub(crate) entry: String,
    pub(crate) format: u64,
    pub(crate) machine: Vec<u64>,
    pub(crate) functions: Vec<u64>,
    pub(crate) rows: Vec<u64>,
    pub(crate) landings: Vec<u64>,
    pub(crate) pairs: Vec<u64>,
    pub(crate) codes: Vec<u64>,
}

/// What the source was handed, in its own types.
pub(crate) struct Input {
    pub(crate) funcs: Vec<Extent>,
    pub(crate) rows: Vec<Rows>,
    pub(crate) named: Vec<Option<Named>>,
    pub(crate) begins: Vec<Begins>,
    pub(crate) relaxed: Vec<Relaxed>,
}

pub(crate) struct Written {
    pub(crate) places: Vec<u64>,
    pub(crate) bytes: Vec<u8>,
    pub(crate) relocs: Vec<Reloc>,
    pub(crate) sites: Vec<u8>,
}

pub(crate) enum Answer {
    Accepted(Written),
    Empty,
    Refused(String),
    Panic(String),
    Inexpressible(String),
}

/// A value, or why the Rust interface cannot be handed it.
pub(crate) type Fits<T> = Result<T, String>;

thread_local! {
    static PANIC: RefCell<String> = const { RefCell::new(String::new()) };
}

fn main() {
    std::panic::set_hook(Box::new(|info| {
        let text = info.payload_as_str().unwrap_or("no text");
        let first = text.lines().next().unwrap_or("").to_owned();
        PANIC.with(|panic| *panic.borrow_mut() = first);
    }));
    let mut text = String::new();
    std::io::stdin().read_to_string(&mut text).expect("text on standard input");
    let out = &mut std::io::BufWriter::new(std::io::stdout().lock());
    let mut case = Case::default();
    for (number, line) in text.lines().enumerate() {
        match read_line(&mut case, line) {
            Ok(false) => {}
            Ok(true) => {
                let case = std::mem::take(&mut case);
                print(out, &case.name, &answer(&case)).expect("standard output");
            }
            Err(why) => {
                out.flush().expect("standard output");
                eprintln!("line {}: {why}", number + 1);
                std::process::exit(2);
            }
        }
    }
}

// Reading

/// Takes one line into the case. The answer is whether the case ended.
pub(crate) fn read_line(case: &mut Case, line: &str) -> Result<bool, String> {
    let line = line.trim();
    if line.is_empty() || line.starts_with('#') {
        return Ok(false);
    }
    let (key, rest) = line.split_once(' ').unwrap_or((line, ""));
    match key {
        "case" => *case = Case { name: rest.to_owned(), ..Case::default() },
        "end" => return Ok(true),
        "entry" => case.entry = rest.to_owned(),
        "format" => case.format = number(rest, 64)?,
        "machine" if rest == "x86_64" => case.machine = x86_64(),
        "machine" => numbers(&mut case.machine, rest, |_| 64)?,
        "functions" => numbers(&mut case.functions, rest, |_| 64)?,
        "rows" => numbers(&mut case.rows, rest, |at| if at % ROW == 3 { 32 } else { 64 })?,
        "landings" => numbers(&mut case.landings, rest, |_| 64)?,
        "pairs" => numbers(&mut case.pairs, rest, |_| 64)?,
        "codes" => numbers(&mut case.codes, rest, |_| 64)?,
        _ => return Err(format!("no key {key}")),
    }
    Ok(false)
}

/// Adds the numbers of a line to a list. `width` gives the bits that a negative number has there.
fn numbers(list: &mut Vec<u64>, text: &str, width: fn(usize) -> u32) -> Result<(), String> {
    for word in text.split_whitespace() {
        let value = number(word, width(list.len()))?;
        list.push(value);
    }
    Ok(())
}

fn number(text: &str, bits: u32) -> Result<u64, String> {
    let value = match text.strip_prefix("0x") {
        Some(hex) => i128::from_str_radix(hex, 16),
        None => text.parse::<i128>(),
    };
    let value = value.map_err(|_| format!("no number {text}"))?;
    if value < -(1 << (bits - 1)) {
        return Err(format!("{text} is below {bits} bits"));
    }
    let value = if value < 0 { value + (1 << bits) } else { value };
    u64::try_from(value).map_err(|_| format!("{text} is above 64 bits"))
}

/// The ready x86-64 machine.
fn x86_64() -> Vec<u64> {
    let mut out = vec![8, 8, 7, 16, 6, 0, 0, 2, 1, 3, 6, 7, 5, 4];
    out.extend(8..=15);
    out.push(255);
    out.extend(128..=143);
    out.resize(MACHINE, 255);
    out
}

// From numbers to the source's types

fn narrow<T: TryFrom<u64>>(value: u64, what: &str) -> Fits<T> {
    T::try_from(value).map_err(|_| format!("{what} {value} does not fit the Rust type"))
}

fn mark(value: u64, what: &str) -> Fits<bool> {
    match value {
        0 => Ok(false),
        1 => Ok(true),
        _ => Err(format!("{what} mark {value} is neither 0 nor 1")),
    }
}

fn symbol(value: u64) -> String {
    format!("s{value}")
}

/// The records of a range of a list.
fn range<'a>(
    list: &'a [u64],
    stride: usize,
    at: u64,
    count: u64,
    what: &str,
) -> Fits<std::slice::ChunksExact<'a, u64>> {
    let records = (list.len() / stride) as u64;
    match at.checked_add(count) {
        Some(end) if end <= records => {
            let (at, end) = (at as usize * stride, end as usize * stride);
            Ok(list[at..end].chunks_exact(stride))
        }
        _ => Err(format!("a range outside the list of {what}")),
    }
}

pub(crate) fn machine(list: &[u64]) -> Fits<CallRegs> {
    if list.len() < MACHINE {
        return Err(format!("a machine of {} numbers", list.len()));
    }
    if list[5] != 0 {
        return Err("a machine whose sixth number is not 0".to_owned());
    }
    let frame = match list[4] {
        65_536 => None,
        number => Some(narrow(number, "frame pointer")?),
    };
    let map = list[6..MACHINE].iter().map(|&to| narrow(to, "mapped register"));
    Ok(CallRegs {
        word: narrow(list[0], "word")?,
        return_address: narrow(list[1], "pushed bytes")?,
        dwarf_return_address: narrow(list[3], "return address")?,
        int_class: Class::Int,
        sse_class: Class::Sse,
        stack_pointer: Reg { number: 0, dwarf: Some(narrow(list[2], "stack pointer")?) },
        frame_pointer: Reg { number: 0, dwarf: frame },
        map: map.collect::<Fits<_>>()?,
    })
}

fn format(value: u64) -> Fits<ObjectFormat> {
    Ok(match value {
        0 => ObjectFormat::Elf,
        1 => ObjectFormat::Coff,
        2 => ObjectFormat::MachO,
        3 => ObjectFormat::Wasm,
        4 => ObjectFormat::Plan9,
        _ => return Err(format!("format {value}")),
    })
}

fn row(row: &[u64]) -> Fits<(usize, CfiOp)> {
    let &[at, kind, reg, offset] = row else { unreachable!("a row has four numbers") };
    let has_reg = matches!(kind, 0 | 2..=5);
    let has_offset = matches!(kind, 0 | 1 | 3);
    if (!has_reg && reg != 0) || (!has_offset && offset != 0) {
        return Err(format!("an operand that row kind {kind} does not have"));
    }
    let reg = narrow(reg, "register")?;
    let offset = narrow::<u32>(offset, "row operand")?.cast_signed();
    let op = match kind {
        0 => CfiOp::DefCfa { reg, offset },
        1 => CfiOp::DefCfaOffset(offset),
        2 => CfiOp::DefCfaRegister(reg),
        3 => CfiOp::Offset { reg, offset },
        4 => CfiOp::Restore(reg),
        5 => CfiOp::Undefined(reg),
        6 => CfiOp::RememberState,
        7 => CfiOp::RestoreState,
        8 => CfiOp::NegateRaState,
        _ => return Err(format!("row kind {kind}")),
    };
    Ok((narrow(at, "row offset")?, op))
}

fn landing(landing: &[u64]) -> Fits<Landing> {
    Ok(Landing {
        start: narrow(landing[0], "landing start")?,
        len: narrow(landing[1], "landing length")?,
        pad: narrow(landing[2], "landing pad")?,
    })
}

/// The personality of a function. An LSDA is part of one, so without one its mark is not read.
fn named(f: &[u64]) -> Fits<Option<Named>> {
    if !mark(f[8], "personality")? {
        return Ok(None);
    }
    let personality = (narrow(f[9], "encoding")?, symbol(f[10]));
    let lsda = match mark(f[11], "lsda")? {
        true => Some((narrow(f[12], "encoding")?, symbol(f[13]))),
        false => None,
    };
    Ok(Some(Named { personality, lsda }))
}

fn relaxed(case: &Case, f: &[u64]) -> Fits<Option<Relaxed>> {
    if !mark(f[14], "relaxed")? {
        return Ok(None);
    }
    let pairs = range(&case.pairs, PAIR, f[16], f[17], "pairs")?
        .map(|p| {
            let places = (narrow(p[0], "place")?, narrow(p[1], "place")?);
            Ok((places, (symbol(p[2]), symbol(p[3]))))
        })
        .collect::<Fits<_>>()?;
    Ok(Some(Relaxed { end: symbol(f[15]), pairs }))
}

pub(crate) fn input(case: &Case) -> Fits<Input> {
    let mut out = Input {
        funcs: Vec::new(),
        rows: Vec::new(),
        named: Vec::new(),
        begins: Vec::new(),
        relaxed: Vec::new(),
    };
    for (at, f) in case.functions.chunks_exact(FUNCTION).enumerate() {
        let landings = range(&case.landings, LANDING, f[4], f[5], "landings")?;
        out.funcs.push(Extent {
            name: symbol(f[0]),
            len: narrow(f[1], "length")?,
            landings: landings.map(landing).collect::<Fits<_>>()?,
        });
        let rows = range(&case.rows, ROW, f[2], f[3], "rows")?;
        out.rows.push(rows.map(row).collect::<Fits<_>>()?);
        let simple = mark(f[6], "simple")?;
        out.begins.push(Begins { simple, signal: mark(f[7], "signal")? });
        out.named.push(named(f)?);
        if let Some(labels) = relaxed(case, f)? {
            if out.relaxed.len() != at {
                return Err("relaxing labels behind a function without them".to_owned());
            }
            out.relaxed.push(labels);
        }
    }
    Ok(out)
}

fn code(code: &[u64]) -> Fits<(usize, Seh)> {
    let &[at, kind, reg, vector, value] = code else { unreachable!("a code has five numbers") };
    if (kind == 1 && reg != 0) || (kind != 3 && vector != 0) || (kind == 0 && value != 0) {
        return Err(format!("an operand that code kind {kind} does not have"));
    }
    let reg = narrow(reg, "code register")?;
    let value = value.cast_signed();
    let code = match kind {
        0 => Seh::Push(reg),
        1 => Seh::Alloc(value),
        2 => Seh::Frame { reg, offset: value },
        3 => Seh::Save { reg, vector: mark(vector, "vector")?, above: value },
        _ => return Err(format!("code kind {kind}")),
    };
    Ok((narrow(at, "code offset")?, code))
}

fn prologues(case: &Case) -> Fits<(Vec<Extent>, Vec<Prologue>)> {
    let mut funcs = Vec::new();
    let mut prologues = Vec::new();
    for f in case.functions.chunks_exact(SEH_FUNCTION) {
        let len = narrow(f[1], "length")?;
        funcs.push(Extent { name: symbol(f[0]), len, landings: Vec::new() });
        let codes = range(&case.codes, CODE, f[3], f[4], "codes")?;
        prologues.push(Prologue {
            end: narrow(f[2], "prologue end")?,
            codes: codes.map(code).collect::<Fits<_>>()?,
        });
    }
    Ok((funcs, prologues))
}

// Calling the source

fn answer(case: &Case) -> Answer {
    let called = match case.entry.as_str() {
        "relaxed_table" => call_table(case),
        "relaxed_debug_frame" => call_debug_frame(case),
        "seh" => call_seh(case),
        entry => Err(format!("entry {entry}")),
    };
    called.unwrap_or_else(Answer::Inexpressible)
}

fn call_table(case: &Case) -> Fits<Answer> {
    let (conv, format, input) = (machine(&case.machine)?, format(case.format)?, input(case)?);
    let Input { funcs, rows, named, begins, relaxed } = &input;
    Ok(caught(|| match unwind::relaxed_table(funcs, rows, &conv, format, named, begins, relaxed) {
        Ok(out) => table_answer(out, format == ObjectFormat::Coff),
        Err(error) => refused(error),
    }))
}

fn call_debug_frame(case: &Case) -> Fits<Answer> {
    let (conv, format, input) = (machine(&case.machine)?, format(case.format)?, input(case)?);
    let Input { funcs, rows, begins, relaxed, .. } = &input;
    Ok(caught(|| match unwind::relaxed_debug_frame(funcs, rows, &conv, format, begins, relaxed) {
        Some(chunk) => {
            let section = chunk.relocs.iter().filter(|reloc| reloc.symbol == chunk.name);
            let places = section.map(|reloc| reloc.addend.cast_unsigned()).collect();
            let (bytes, relocs) = (chunk.bytes, chunk.relocs);
            Answer::Accepted(Written { places, bytes, relocs, sites: Vec::new() })
        }
        None => Answer::Empty,
    }))
}

fn call_seh(case: &Case) -> Fits<Answer> {
    let (funcs, prologues) = prologues(case)?;
    Ok(caught(|| match unwind::seh(&funcs, &prologues) {
        Ok(out) => table_answer(out, true),
        Err(error) => refused(error),
    }))
}

fn caught(call: impl FnOnce() -> Answer) -> Answer {
    catch_unwind(AssertUnwindSafe(call))
        .unwrap_or_else(|_| Answer::Panic(PANIC.with(|panic| panic.borrow().clone())))
}

fn refused(error: Error) -> Answer {
    let Error::Frame { func, why } = error;
    Answer::Refused(format!("{func}: {why}"))
}

pub(crate) fn table_answer(out: Unwind, x64: bool) -> Answer {
    if out.bytes.is_empty() {
        return Answer::Empty;
    }
    let (places, sites) = match x64 {
        true => (out.labels.iter().map(|label| label.at as u64).collect(), out.info),
        false => (eh_places(&out.bytes), out.except),
    };
    Answer::Accepted(Written { places, bytes: out.bytes, relocs: out.relocs, sites })
}

/// Where the header of each record of an eh_frame section is, by the record's distance field.
fn eh_places(bytes: &[u8]) -> Vec<u64> {
    let field = |at: usize| u32::from_le_bytes(bytes[at..at + 4].try_into().expect("four bytes"));
    let mut places = Vec::new();
    let mut at = 0;
    while at < bytes.len() {
        let distance = field(at + 4) as usize;
        if distance != 0 {
            places.push((at + 4 - distance) as u64);
        }
        at += 4 + field(at) as usize;
    }
    places
}

// Printing

fn print(out: &mut impl Write, name: &str, answer: &Answer) -> std::io::Result<()> {
    writeln!(out, "case {name}")?;
    match answer {
        Answer::Accepted(written) => print_written(out, written)?,
        Answer::Empty => writeln!(out, "empty")?,
        Answer::Refused(why) => writeln!(out, "refused {why}")?,
        Answer::Panic(why) => writeln!(out, "panic {why}")?,
        Answer::Inexpressible(why) => writeln!(out, "inexpressible {why}")?,
    }
    writeln!(out, "end")
}

fn print_written(out: &mut impl Write, written: &Written) -> std::io::Result<()> {
    let relocs: Vec<[u64; 5]> = written.relocs.iter().map(five).collect();
    writeln!(out, "accepted")?;
    print_numbers(out, "places", &written.places)?;
    print_hex(out, "bytes", &written.bytes)?;
    print_numbers(out, "relocations", relocs.as_flattened())?;
    print_hex(out, "sites", &written.sites)?;
    for (at, reloc) in relocs.iter().enumerate() {
        if let Some(why) = odd_field(reloc, &written.bytes) {
            writeln!(out, "# relocation {at}: {why}")?;
        }
    }
    Ok(())
}

fn print_numbers(out: &mut impl Write, key: &str, list: &[u64]) -> std::io::Result<()> {
    write!(out, "{key}")?;
    for value in list {
        write!(out, " {value}")?;
    }
    writeln!(out)
}

fn print_hex(out: &mut impl Write, key: &str, bytes: &[u8]) -> std::io::Result<()> {
    write!(out, "{key}{}", if bytes.is_empty() { "" } else { " " })?;
    for byte in bytes {
        write!(out, "{byte:02x}")?;
    }
    writeln!(out)
}

/// A relocation by the numbers of include/dekvoz.h.
pub(crate) fn five(reloc: &Reloc) -> [u64; 5] {
    assert_eq!(reloc.after, 0, "a table has nothing behind the field");
    let (kind, size) = match reloc.kind {
        Reference::Data => (0, 4),
        Reference::Address { bytes } => (1, bytes),
        Reference::Sum { bytes, minus: false } => (2, bytes),
        Reference::Sum { bytes, minus: true } => (3, bytes),
        Reference::Image => (4, 4),
        Reference::Riscv(fixup) => match fixup {
            Fixup::Set6 => (5, 1),
            Fixup::Sub6 => (6, 1),
            Fixup::Set8 => (7, 1),
            Fixup::Sub8 => (8, 1),
            Fixup::Set16 => (9, 2),
            Fixup::Sub16 => (10, 2),
            Fixup::Set32 => (11, 4),
            Fixup::Sub32 => (12, 4),
        },
    };
    [
        reloc.at as u64,
        symbol_number(&reloc.symbol),
        kind,
        u64::from(size),
        reloc.addend.cast_unsigned(),
    ]
}

fn symbol_number(name: &str) -> u64 {
    let caller = |name: &str| name.strip_prefix('s').and_then(|digits| digits.parse::<u64>().ok());
    let number = match name {
        rucc_ir::PERSONALITY_REF => Some(0),
        EXCEPT_TABLE => Some(1),
        ".debug_frame" => Some(2),
        _ => match name.strip_prefix("$unwind$") {
            Some(of) => caller(of).map(|of| of.wrapping_add(1 << 32)),
            None => caller(name),
        },
    };
    number.expect("a symbol that the harness made")
}

/// What is odd about the field of a relocation: it has a size that no field has, passes the end of
/// the section, or holds bytes that are not the zeros or the step that the relocation fills in.
fn odd_field(reloc: &[u64; 5], bytes: &[u8]) -> Option<String> {
    let &[place, _, kind, size, _] = reloc;
    if !matches!(size, 1 | 2 | 4 | 8) {
        return Some(format!("size {size}"));
    }
    let (at, end) = (place as usize, (place + size) as usize);
    if end > bytes.len() {
        return Some("its field passes the end of the section".to_owned());
    }
    let opcode = match kind {
        5 | 6 => bytes[at] & 0xc0 == 0x40,
        7 | 8 => bytes[at - 1] == 0x02,
        9 | 10 => bytes[at - 1] == 0x03,
        11 | 12 => bytes[at - 1] == 0x04,
        _ => bytes[at..end].iter().all(|byte| *byte == 0),
    };
    (!opcode).then(|| "its field is not one that it fills in".to_owned())
}
