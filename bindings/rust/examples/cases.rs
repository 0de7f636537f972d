//! Hands cases and sections in text form to the wrappers and prints their answers, as differential/drivers/writers.c and
//! reader.c print the library's; differential/README.md has the form.
//!
//! Each case goes through `lists` with lent buffers. Where this crate's types can say it, it goes through them too, and both
//! answers must be the same; so must the row check of each function. A line on standard error and status 1 say what went wrong.

use std::io::{self, BufRead, Write};
use std::process::ExitCode;

use dekvoz::lists::{self, Counts, Lent, Lists};
use dekvoz::{
    read, relaxed_debug_frame, relaxed_table, row_check, seh, Code, CodeOp, Format, Frame, Function, Landing, Machine,
    MachineRegister, Op, Pair, Personality, Pointer, Prologue, Refusal, Relaxed, Relocation, Row, Rule, Rules, Section, Table,
    Word,
};

/// A case: its entry and its lists of numbers.
#[derive(Default)]
struct Case {
    name: String,
    entry: String,
    format: u64,
    machine: Vec<u64>,
    functions: Vec<u64>,
    rows: Vec<u64>,
    landings: Vec<u64>,
    pairs: Vec<u64>,
    codes: Vec<u64>,
}

/// A section that questions are asked of.
#[derive(Default)]
struct Sections {
    bytes: Vec<u8>,
    relocations: Vec<u64>,
}

/// The records of a range, or none where it lies outside its list.
fn range<T, const N: usize>(list: &[u64], at: u64, count: u64, one: impl Fn([u64; N]) -> Option<T>) -> Option<Vec<T>> {
    let from = usize::try_from(at).ok()?;
    let to = from.checked_add(usize::try_from(count).ok()?)?;
    let records: Vec<[u64; N]> = list.chunks_exact(N).filter_map(|record| record.try_into().ok()).collect();
    records.get(from..to)?.iter().map(|record| one(*record)).collect()
}

fn mark(n: u64) -> Option<bool> {
    (n < 2).then_some(n == 1)
}

fn row([offset, kind, register, operand]: [u64; 4]) -> Option<Row> {
    let (reg, off) = (u16::try_from(register).ok()?, u32::try_from(operand).ok()? as i32);
    let op = match (kind, register, operand) {
        (0, _, _) => Op::DefCfa(reg, off),
        (1, 0, _) => Op::DefCfaOffset(off),
        (2, _, 0) => Op::DefCfaRegister(reg),
        (3, _, _) => Op::Offset(reg, off),
        (4, _, 0) => Op::Restore(reg),
        (5, _, 0) => Op::Undefined(reg),
        (6, 0, 0) => Op::RememberState,
        (7, 0, 0) => Op::RestoreState,
        (8, 0, 0) => Op::NegateRaState,
        (9, _, 0) => Op::SameValue(reg),
        (10, _, _) => Op::InRegister(reg, u16::try_from(operand).ok()?),
        _ => return None,
    };
    Some(Row::new(offset, op))
}

fn code([offset, kind, register, vector, value]: [u64; 5]) -> Option<Code> {
    let reg = u16::try_from(register).ok()?;
    let op = match (kind, vector, value) {
        (0, 0, 0) => CodeOp::Push(reg),
        (1, 0, _) if reg == 0 => CodeOp::Alloc(value as i64),
        (2, 0, _) => CodeOp::Frame(reg, value as i64),
        (3, 0, _) => CodeOp::Save(reg, value as i64),
        (3, 1, _) => CodeOp::SaveVector(reg, value as i64),
        _ => return None,
    };
    Some(Code::new(offset, op))
}

fn word(bytes: u64) -> Option<Word> {
    [Word::Two, Word::Four, Word::Eight].into_iter().find(|word| word.bytes() == bytes)
}

fn machine(numbers: &[u64]) -> Option<Machine> {
    let numbers: [u64; 70] = numbers.get(..70)?.try_into().ok()?;
    let [bytes, pushed, stack, back, frame, 0, map @ ..] = numbers else { return None };
    let frame_pointer = match frame {
        65_536 => None,
        number => Some(u16::try_from(number).ok()?),
    };
    let mut machine = Machine {
        word: word(bytes)?,
        pushed,
        stack_pointer: u16::try_from(stack).ok()?,
        return_address: u16::try_from(back).ok()?,
        frame_pointer,
        registers: [MachineRegister::None; 64],
    };
    for (slot, number) in machine.registers.iter_mut().zip(map) {
        *slot = match u8::try_from(number).ok()? {
            255 => MachineRegister::None,
            n @ 0..128 => MachineRegister::Integer(n),
            n => MachineRegister::Vector(n & 127),
        };
    }
    Some(machine)
}

fn pointer(encoding: u64, symbol: u64) -> Option<Pointer> {
    Some(Pointer { encoding: u8::try_from(encoding).ok()?, symbol: u32::try_from(symbol).ok()? })
}

/// A function's parts that own what a [`Function`] borrows.
struct Owned {
    numbers: [u64; 18],
    rows: Vec<Row>,
    landings: Vec<Landing>,
    pairs: Vec<Pair>,
}

fn owned(case: &Case, numbers: [u64; 18]) -> Option<Owned> {
    let [_, _, rows_at, rows, landings_at, landings, .., relaxed, _, pairs_at, pairs] = numbers;
    let pair = |[first, second, a, b]: [u64; 4]| {
        Some(Pair { first, second, first_symbol: u32::try_from(a).ok()?, second_symbol: u32::try_from(b).ok()? })
    };
    let landing = |[start, length, pad]: [u64; 3]| Some(Landing { start, length, pad });
    Some(Owned {
        numbers,
        rows: range(&case.rows, rows_at, rows, row)?,
        landings: range(&case.landings, landings_at, landings, landing)?,
        pairs: if relaxed == 0 { Vec::new() } else { range(&case.pairs, pairs_at, pairs, pair)? },
    })
}

fn function(owned: &Owned) -> Option<Function<'_>> {
    let [symbol, length, _, _, _, _, simple, signal, named, encoding, routine, lsda, table, data, relaxed, end, ..] =
        owned.numbers;
    let lsda = if mark(named)? && mark(lsda)? { Some(pointer(table, data)?) } else { None };
    let personality = if mark(named)? { Some(Personality { pointer: pointer(encoding, routine)?, lsda }) } else { None };
    let relaxed = match mark(relaxed)? {
        true => Some(Relaxed { end: u32::try_from(end).ok()?, pairs: &owned.pairs }),
        false => None,
    };
    Some(Function {
        symbol: u32::try_from(symbol).ok()?,
        length,
        rows: &owned.rows,
        landings: &owned.landings,
        simple: mark(simple)?,
        signal: mark(signal)?,
        personality,
        relaxed,
    })
}

/// The answer through this crate's types, or none where they cannot say the case.
fn typed(case: &Case) -> Option<Result<Table, Refusal>> {
    if case.entry == "seh" {
        return typed_codes(case);
    }
    let formats = [Format::Elf, Format::Coff, Format::MachO, Format::Wasm, Format::Plan9];
    let format = formats.into_iter().find(|format| format.number() == case.format)?;
    let records = case.functions.chunks_exact(18).filter_map(|record| <[u64; 18]>::try_from(record).ok());
    let owned: Option<Vec<_>> = records.map(|record| owned(case, record)).collect();
    let owned = owned?;
    let functions: Option<Vec<_>> = owned.iter().map(function).collect();
    let (functions, machine) = (functions?, machine(&case.machine)?);
    Some(match case.entry.as_str() {
        "relaxed_debug_frame" => relaxed_debug_frame(&machine, format, &functions),
        _ => relaxed_table(&machine, format, &functions),
    })
}

fn typed_codes(case: &Case) -> Option<Result<Table, Refusal>> {
    let records = case.functions.chunks_exact(5).filter_map(|record| <[u64; 5]>::try_from(record).ok());
    let owned: Option<Vec<_>> = records.map(|f| Some((f, range(&case.codes, f[3], f[4], code)?))).collect();
    let owned = owned?;
    let prologue = |((symbol, length, end), codes)| Some(Prologue { symbol: u32::try_from(symbol).ok()?, length, end, codes });
    let functions: Option<Vec<_>> = owned.iter().map(|(f, codes)| prologue(((f[0], f[1], f[2]), codes.as_slice()))).collect();
    Some(seh(&functions?))
}

/// Whether the row check says the same of each function by the lists and by the types, where these can say it.
fn same_checks(case: &Case) -> bool {
    let records = case.functions.chunks_exact(18).filter_map(|record| <[u64; 18]>::try_from(record).ok());
    records.zip(0..).all(|(record, k)| {
        let Some(owned) = owned(case, record) else { return true };
        let by_lists = lists::row_check(&case.functions, &case.rows, k);
        function(&owned).is_none_or(|function| row_check(&function) == by_lists)
    })
}

/// The answer through the lists, with lent buffers of this room.
fn through_lists(case: &Case, room: usize) -> Result<Table, Refusal> {
    let (mut places, mut bytes) = (vec![0; room], vec![0; room]);
    let (mut relocations, mut sites) = (vec![Relocation::default(); room], vec![0; room]);
    let mut lent = Lent {
        places: &mut places,
        bytes: &mut bytes,
        relocations: Relocation::numbers_mut(&mut relocations),
        sites: &mut sites,
    };
    let lists = Lists { functions: &case.functions, rows: &case.rows, landings: &case.landings, pairs: &case.pairs };
    let c: Counts = match case.entry.as_str() {
        "seh" => lists::seh(&case.functions, &case.codes, &mut lent)?,
        "relaxed_debug_frame" => lists::relaxed_debug_frame(&case.machine, case.format, lists, &mut lent)?,
        _ => lists::relaxed_table(&case.machine, case.format, lists, &mut lent)?,
    };
    places.truncate(c.places);
    bytes.truncate(c.bytes);
    relocations.truncate(c.relocations);
    sites.truncate(c.sites);
    Ok(Table { places, bytes, relocations, sites })
}

fn numbers(key: &str, list: &[u64]) -> String {
    list.iter().fold(key.to_string(), |line, n| format!("{line} {n}"))
}

fn hex(key: &str, bytes: &[u8]) -> String {
    let digits: String = bytes.iter().map(|byte| format!("{byte:02x}")).collect();
    if digits.is_empty() {
        key.to_string()
    } else {
        format!("{key} {digits}")
    }
}

/// Prints the answer of a case. Whether both ways gave the same.
fn ask(case: &Case, out: &mut impl Write) -> io::Result<bool> {
    let mut room = 1 << 12;
    let mut said = through_lists(case, room);
    while matches!(said, Err(Refusal { number: 51..=54, .. })) && room < 1 << 25 {
        room <<= 1;
        said = through_lists(case, room);
    }
    writeln!(out, "case {}", case.name)?;
    match &said {
        Err(refusal) => writeln!(out, "refused {} {}", refusal.number, refusal.position)?,
        Ok(table) if *table == Table::default() => writeln!(out, "empty")?,
        Ok(table) => {
            writeln!(out, "accepted\n{}\n{}", numbers("places", &table.places), hex("bytes", &table.bytes))?;
            writeln!(
                out,
                "{}\n{}",
                numbers("relocations", Relocation::numbers(&table.relocations)),
                hex("sites", &table.sites)
            )?;
        }
    }
    if case.entry != "seh" && !same_checks(case) {
        eprintln!("{}: the row check says another thing through the types", case.name);
        return Ok(false);
    }
    match typed(case) {
        None => writeln!(out, "end\n# not of the types")?,
        Some(other) if other == said => writeln!(out, "end")?,
        Some(other) => {
            eprintln!("{}: {said:?} through the lists, {other:?} through the types", case.name);
            return Ok(false);
        }
    }
    Ok(true)
}

/// The reader's seven numbers.
fn reading(said: Result<Rules, Refusal>) -> [u64; 8] {
    let rules = match said {
        Err(refusal) => return [refusal.number, 0, 0, 0, 0, 0, 0, 0],
        Ok(rules) => rules,
    };
    let [frame, register, offset] = match rules.frame {
        Frame::Unset => [0, 0, 0],
        Frame::Register { register, offset } => [1, u64::from(register), offset as u64],
    };
    let [rule, saved] = match rules.rule {
        Rule::Unstated => [0, 0],
        Rule::Undefined => [1, 0],
        Rule::Saved(offset) => [2, offset as u64],
        Rule::SameValue => [3, 0],
        Rule::InRegister(register) => [4, u64::from(register)],
    };
    [0, frame, register, offset, rule, saved, u64::from(rules.signing), u64::from(rules.shortest)]
}

/// Prints what the reader says. Whether both ways gave the same.
fn ask_reader(section: &Sections, ask: &[u64], out: &mut impl Write) -> io::Result<bool> {
    let Ok([kind, bytes, k, register, p]) = <[u64; 5]>::try_from(ask) else { return Ok(false) };
    let register = register as u16;
    let said = lists::read(&section.bytes, &section.relocations, kind, bytes, k, register, p);
    writeln!(out, "{}", numbers("", &reading(said)).trim_start())?;
    let kinds = [Section::Eh, Section::Debug].into_iter().find(|section| section.number() == kind);
    let (Some(kind), Some(word)) = (kinds, word(bytes)) else { return Ok(true) };
    let relocations: Vec<Relocation> = section
        .relocations
        .chunks_exact(5)
        .filter_map(|five| <[u64; 5]>::try_from(five).ok())
        .map(|[place, symbol, kind, size, addend]| Relocation { place, symbol, kind, size, addend })
        .collect();
    let other = read(&section.bytes, &relocations, kind, word, k, register, p);
    if other != said {
        eprintln!("{ask:?}: {said:?} through the lists, {other:?} through the types");
    }
    Ok(other == said)
}

/// A number of a list; a negative one stands for its two's complement, of 32 bits as the fourth number of a row.
fn number(text: &str, row: bool) -> Option<u64> {
    match text.strip_prefix('-') {
        Some(digits) => {
            let n = digits.parse::<u64>().ok()?.wrapping_neg();
            Some(if row { u64::from(n as u32) } else { n })
        }
        None => match text.strip_prefix("0x") {
            Some(digits) => u64::from_str_radix(digits, 16).ok(),
            None => text.parse().ok(),
        },
    }
}

/// A line of the text. Whether it could be read, and both ways gave the same.
fn take(case: &mut Case, section: &mut Sections, line: &str, out: &mut impl Write) -> io::Result<bool> {
    let mut words = line.split_whitespace();
    let Some(key) = words.next().filter(|key| !key.starts_with('#')) else { return Ok(true) };
    let list = match key {
        "case" => {
            *case = Case { name: words.next().unwrap_or("").to_string(), ..Case::default() };
            return Ok(true);
        }
        "entry" => {
            case.entry = words.next().unwrap_or("").to_string();
            return Ok(true);
        }
        "format" => {
            let format = words.next().and_then(|text| number(text, false));
            case.format = format.unwrap_or(0);
            return Ok(format.is_some());
        }
        "end" => return ask(case, out),
        "section" => {
            let digits: Vec<u8> = words.flat_map(str::chars).filter_map(|c| c.to_digit(16)).map(|d| d as u8).collect();
            section.bytes = digits.chunks_exact(2).map(|pair| pair.iter().fold(0, |byte, digit| byte << 4 | digit)).collect();
            return Ok(true);
        }
        "ask" => {
            let asked: Option<Vec<u64>> = words.map(|text| number(text, false)).collect();
            return ask_reader(section, &asked.unwrap_or_default(), out);
        }
        "relocations" => {
            section.relocations.clear();
            &mut section.relocations
        }
        "machine" => &mut case.machine,
        "functions" => &mut case.functions,
        "rows" => &mut case.rows,
        "landings" => &mut case.landings,
        "pairs" => &mut case.pairs,
        "codes" => &mut case.codes,
        _ => return Ok(false),
    };
    for text in words {
        if text == "x86_64" {
            *list = Machine::X86_64.numbers().to_vec();
            continue;
        }
        match number(text, key == "rows" && list.len() % 4 == 3) {
            Some(n) => list.push(n),
            None => return Ok(false),
        }
    }
    Ok(true)
}

fn main() -> io::Result<ExitCode> {
    let (mut case, mut section) = (Case::default(), Sections::default());
    let mut out = io::BufWriter::new(io::stdout().lock());
    let mut code = ExitCode::SUCCESS;
    for line in io::stdin().lock().lines() {
        let line = line?;
        if !take(&mut case, &mut section, &line, &mut out)? {
            let short: String = line.chars().take(80).collect();
            eprintln!("wrong at: {short}");
            code = ExitCode::FAILURE;
        }
    }
    out.flush()?;
    Ok(code)
}
