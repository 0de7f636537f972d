//! `dekvoz arm64`: Windows unwind data of ARM64, by the entries of .pdata or as the records of .xdata.

use dekvoz::arm64::{read, Code, Unwound};
use dekvoz::Refusal;

use crate::args::{Args, Usage};
use crate::input::File;
use crate::object::{self, Coff};
use crate::out::Out;
use crate::{json, words, Stop};

/// The sections of the entries and of the records; an object can have a part of each for a function.
const PDATA: &str = ".pdata";
const XDATA: &str = ".xdata";
/// The bytes of an entry: the function's start, and its second word.
const ENTRY: usize = 8;
const WORD: usize = 4;
/// The second word's flag (Microsoft, "ARM64 exception handling"): the place of a record, a packed function, a packed fragment.
const FLAG: u32 = 3;
const RECORD: u32 = 0;
const FRAGMENT: u32 = 2;

/// What stands for one function.
struct Found<'a> {
    /// Where its entry, or the record by itself, stands in its section.
    at: u64,
    /// The function, where there is an entry.
    function: Option<Function>,
    /// The entry's second word, and the record that it means.
    word: u32,
    info: &'a [u8],
    place: u64,
}

/// A function by a symbol and what is added to it, or by its address from the image's start.
struct Function {
    symbol: Option<String>,
    start: u64,
}

/// An answer of the library.
type Answer = Result<Unwound, Refusal>;

/// Lists what is there. Whether all of it could be read.
pub fn run(args: &Args) -> Result<bool, Stop> {
    args.only("arm64", &["--section", "--place", "--packed", "--json"])?;
    let packed = args.number("--packed")?;
    if let Some(word) = packed {
        return alone(args, word);
    }
    let file = File::new(args)?;
    let coff = coff(&file)?;
    let (found, left) = match &coff {
        Some(coff) if !args.has("--section") && coff.sections.iter().any(|section| section.is_part(PDATA)) => {
            if args.has("--place") {
                return Err(Stop::Usage(Usage("--place is of records; --section .xdata names a section of them".to_string())));
            }
            (entries(&file, coff), None)
        }
        _ => {
            let info = info(args, &file, coff.as_ref())?;
            if info.is_empty() {
                return Err(Stop::failed(&file.name, "there are no records"));
            }
            records(info, args.number("--place")?)
        }
    };
    if found.is_empty() {
        return Err(Stop::failed(&file.name, "there are no entries"));
    }
    let all_read = list(args, &file.name, &found)?;
    if let Some(at) = left {
        crate::complain(&file.name, &format!("at {at:#x}: a handler's data, of any size; what stands behind it is not listed"));
    }
    Ok(all_read && left.is_none())
}

/// A packed word without a file.
fn alone(args: &Args, word: u64) -> Result<bool, Stop> {
    if let Some(option) = ["--section", "--place"].into_iter().find(|option| args.has(option)) {
        return Err(Stop::Usage(Usage(format!("{option} does not go with --packed"))));
    }
    if args.file().is_some() {
        return Err(Stop::Usage(Usage("--packed takes no file".to_string())));
    }
    match u32::try_from(word) {
        Ok(word) if word & FLAG != RECORD => {
            list(args, "--packed", &[Found { at: 0, function: None, word, info: &[], place: 0 }])
        }
        _ => Err(Stop::Usage(Usage(format!("--packed: {word:#x} is no packed word, of 32 bits with a flag that is not 0")))),
    }
}

/// The file's headers, where it is a COFF object or a PE image.
fn coff(file: &File) -> Result<Option<Coff>, Stop> {
    match object::coff(&file.bytes) {
        Some(coff) if coff.machine != object::ARM64 => {
            Err(Stop::failed(&file.name, "an object file of another machine than ARM64"))
        }
        coff => Ok(coff),
    }
}

/// The bytes of a section of records: of an ELF or COFF file, or raw.
fn info<'a>(args: &Args, file: &'a File, coff: Option<&Coff>) -> Result<&'a [u8], Stop> {
    let sections = match (&file.object, coff) {
        (Some(object), _) => &object.sections,
        (None, Some(coff)) => &coff.sections,
        (None, None) if args.has("--section") => {
            return Err(Stop::failed(&file.name, "no object file, so that --section names nothing"))
        }
        (None, None) => return Ok(&file.bytes),
    };
    let name = args.value("--section").unwrap_or(XDATA);
    let found = sections.iter().find(|section| section.name == name && section.plain);
    match found {
        Some(section) => Ok(&file.bytes[section.bytes.clone()]),
        None => Err(Stop::failed(&file.name, format!("an object file without {name}"))),
    }
}

fn word(bytes: &[u8], at: usize) -> Option<u32> {
    Some(u32::from_le_bytes(bytes.get(at..at.checked_add(WORD)?)?.try_into().ok()?))
}

/// The entries of every part of .pdata, each with its record.
fn entries<'a>(file: &'a File, coff: &Coff) -> Vec<Found<'a>> {
    let (mut found, names) = (Vec::new(), coff.names(&file.bytes));
    for section in coff.sections.iter().filter(|section| section.is_part(PDATA)) {
        let relocations = coff.relocations(&file.bytes, section);
        let symbol = |at: usize| relocations.get(&(at as u64)).filter(|_| !coff.image);
        for (n, entry) in file.bytes[section.bytes.clone()].chunks_exact(ENTRY).enumerate() {
            let at = n * ENTRY;
            let (Some(start), Some(word)) = (word(entry, 0), word(entry, WORD)) else { continue };
            // A section's own symbol and an offset are named by what stands there.
            let start = u64::from(start);
            let function = symbol(at).map(|symbol| {
                let named = symbol.place.and_then(|(of, value)| names.get(&(of, value + start)));
                named.map_or_else(|| (symbol.name.clone(), start), |name| (name.clone(), 0))
            });
            let function = match function {
                Some((symbol, start)) => Function { symbol: Some(symbol), start },
                None => Function { symbol: None, start },
            };
            // In an object the record is a symbol's and what stands in the word; in an image the word is its address. Where there is no
            // such place, the library is asked of no bytes.
            let record = match symbol(at + WORD) {
                Some(symbol) => symbol.place.map(|(of, value)| (0, &coff.sections[of], value + u64::from(word))),
                None if word & FLAG == RECORD && coff.image => {
                    coff.holder(u64::from(word)).map(|of| (word, of, u64::from(word) - of.address))
                }
                None => None,
            };
            let (word, info, place) = match record {
                Some((word, of, place)) => (word, &file.bytes[of.bytes.clone()], place),
                None => (word, &[][..], 0),
            };
            found.push(Found { at: at as u64, function: Some(function), word, info, place });
        }
    }
    found
}

/// Records one behind the other, or the one at a place; and where a handler's data stands, behind which no record can be found.
fn records(info: &[u8], place: Option<u64>) -> (Vec<Found<'_>>, Option<u64>) {
    let (mut found, mut at) = (Vec::new(), place.unwrap_or(0));
    loop {
        let record = Found { at, function: None, word: RECORD, info, place: at };
        let (with_handler, readable) = (handled(&record), read(RECORD, info, at).is_ok());
        found.push(record);
        let next = size(info, at).filter(|_| readable && place.is_none()).map(|size| at + size);
        let Some(next) = next.filter(|next| *next < info.len() as u64) else { return (found, None) };
        if with_handler {
            return (found, Some(next));
        }
        at = next;
    }
}

/// The bytes of a record, its handler's word among them (Microsoft, "ARM64 exception handling", ".xdata records").
fn size(info: &[u8], at: u64) -> Option<u64> {
    let at = usize::try_from(at).ok()?;
    let head = word(info, at)?;
    let (handler, single, count, words) = (head >> 20 & 1, head >> 21 & 1, head >> 22 & 31, head >> 27);
    let (heads, count, words) = match (count, words) {
        (0, 0) => {
            let second = word(info, at + WORD)?;
            (2, second & 0xffff, second >> 16 & 255)
        }
        _ => (1, count, words),
    };
    let epilogues = if single == 1 { 0 } else { count };
    Some(WORD as u64 * u64::from(heads + epilogues + words + handler))
}

/// Whether a record names a handler, whose own data, of any size, stands behind it.
fn handled(found: &Found<'_>) -> bool {
    let head = usize::try_from(found.place).ok().and_then(|at| word(found.info, at));
    found.word & FLAG == RECORD && head.is_some_and(|head| head >> 20 & 1 == 1)
}

fn list(args: &Args, file: &str, found: &[Found<'_>]) -> Result<bool, Stop> {
    let mut out = Out::new();
    let answers: Vec<Answer> = found.iter().map(|found| read(found.word, found.info, found.place)).collect();
    match args.has("--json") {
        true => as_json(&mut out, file, found, &answers),
        false => found.iter().zip(&answers).for_each(|(found, answer)| as_text(&mut out, found, answer)),
    }
    crate::finished(&mut out)?;
    for (found, answer) in found.iter().zip(&answers) {
        if let Err(refusal) = answer {
            let what = found.function.as_ref().map_or_else(|| format!("at {:#x}", found.at), name);
            crate::complain(file, &format!("{what}: {}", words::refused(*refusal)));
        }
    }
    Ok(answers.iter().all(Result::is_ok))
}

/// What stands for a function, in words.
fn form(found: &Found<'_>) -> String {
    match found.word & FLAG {
        RECORD if found.function.is_none() => "a record".to_string(),
        RECORD => format!("a record at {:#x}", found.place),
        FRAGMENT => format!("a packed fragment, {:#010x}", found.word),
        _ => format!("packed, {:#010x}", found.word),
    }
}

fn name(function: &Function) -> String {
    match (&function.symbol, function.start) {
        (None, start) => format!("{start:#x}"),
        (Some(symbol), 0) => symbol.clone(),
        (Some(symbol), start) => format!("{symbol}+{start:#x}"),
    }
}

fn as_text(out: &mut Out, found: &Found<'_>, answer: &Answer) {
    out.hex(found.at, 8).text(" ");
    if let Some(function) = &found.function {
        out.text("function ").text(&name(function)).text(", ");
    }
    match answer {
        Err(refusal) => {
            out.text(&form(found)).text(": ").text(&words::refused(*refusal)).line();
        }
        Ok(says) => {
            out.decimal(says.length).text(" bytes, ").text(&form(found));
            out.text(if handled(found) { ", with a handler" } else { "" }).line();
            run_as_text(out, "prologue", &says.prologue, false);
            for epilogue in &says.epilogues {
                run_as_text(out, &format!("epilogue at {}", epilogue.start), &epilogue.codes, true);
            }
        }
    }
    out.line();
}

fn run_as_text(out: &mut Out, title: &str, codes: &[Code], undone: bool) {
    out.text("  ").text(title).text(if codes.is_empty() { ": no codes" } else { "" }).line();
    for code in codes {
        out.text("    ").text(&instruction(*code, undone)).line();
    }
}

fn as_json(out: &mut Out, name: &str, found: &[Found<'_>], answers: &[Answer]) {
    out.text("{");
    json::text(out, "file", name);
    out.text(", \"functions\": [");
    for (n, (found, answer)) in found.iter().zip(answers).enumerate() {
        out.text(if n == 0 { "{" } else { ", {" });
        json::number(out, "at", found.at);
        out.text(", ");
        if let Some(function) = &found.function {
            if let Some(symbol) = &function.symbol {
                json::text(out, "symbol", symbol);
                out.text(", ");
            }
            json::address(out, "start", function.start);
            out.text(", ");
        }
        match found.word & FLAG {
            RECORD => json::number(out, "place", found.place),
            FRAGMENT => json::address(out, "fragment", u64::from(found.word)),
            _ => json::address(out, "packed", u64::from(found.word)),
        }
        out.text(", ");
        match answer {
            Err(refusal) => json::refusal(out, *refusal, words::cause(*refusal)),
            Ok(says) => says_as_json(out, found, says),
        }
        out.text("}").line();
    }
    out.text("]}").line();
}

fn says_as_json(out: &mut Out, found: &Found<'_>, says: &Unwound) {
    json::number(out, "length", says.length);
    out.text(", ");
    json::mark(out, "handler", handled(found));
    out.text(", ");
    run_as_json(out, "prologue", &says.prologue, false);
    out.text(", \"epilogues\": [");
    for (n, epilogue) in says.epilogues.iter().enumerate() {
        out.text(if n == 0 { "{" } else { ", {" });
        json::number(out, "start", epilogue.start);
        out.text(", ");
        run_as_json(out, "codes", &epilogue.codes, true);
        out.text("}");
    }
    out.text("]");
}

fn run_as_json(out: &mut Out, key: &str, codes: &[Code], undone: bool) {
    json::key(out, key);
    out.text("[");
    for (n, code) in codes.iter().enumerate() {
        out.text(if n == 0 { "{" } else { ", {" });
        code_as_json(out, *code);
        out.text(", ");
        json::text(out, "words", &instruction(*code, undone));
        out.text("}");
    }
    out.text("]");
}

/// A code by Microsoft's name for it ("ARM64 exception handling", "Unwind codes"), with its register and its bytes where it has them. The
/// three allocations, which differ in how many bytes spell them, have one name.
fn code_as_json(out: &mut Out, code: Code) {
    let (name, register, value) = match code {
        Code::Alloc(size) => ("alloc", None, Some(("size", size))),
        Code::R19R20X(offset) => ("save_r19r20_x", None, Some(("offset", offset))),
        Code::Fplr(offset) => ("save_fplr", None, Some(("offset", offset))),
        Code::FplrX(offset) => ("save_fplr_x", None, Some(("offset", offset))),
        Code::Regp(n, offset) => ("save_regp", Some(('x', n)), Some(("offset", offset))),
        Code::RegpX(n, offset) => ("save_regp_x", Some(('x', n)), Some(("offset", offset))),
        Code::Reg(n, offset) => ("save_reg", Some(('x', n)), Some(("offset", offset))),
        Code::RegX(n, offset) => ("save_reg_x", Some(('x', n)), Some(("offset", offset))),
        Code::Lrpair(n, offset) => ("save_lrpair", Some(('x', n)), Some(("offset", offset))),
        Code::Fregp(n, offset) => ("save_fregp", Some(('d', n)), Some(("offset", offset))),
        Code::FregpX(n, offset) => ("save_fregp_x", Some(('d', n)), Some(("offset", offset))),
        Code::Freg(n, offset) => ("save_freg", Some(('d', n)), Some(("offset", offset))),
        Code::FregX(n, offset) => ("save_freg_x", Some(('d', n)), Some(("offset", offset))),
        Code::SetFp => ("set_fp", None, None),
        Code::AddFp(offset) => ("add_fp", None, Some(("offset", offset))),
        Code::Nop => ("nop", None, None),
        Code::SaveNext => ("save_next", None, None),
        Code::PacSignLr => ("pac_sign_lr", None, None),
    };
    json::text(out, "code", name);
    if let Some((letter, n)) = register {
        out.text(", ");
        json::text(out, "register", &format!("{letter}{n}"));
    }
    if let Some((key, value)) = value {
        out.text(", ");
        json::number(out, key, u64::from(value));
    }
}

/// The instruction of a prologue that a code stands for, or the one of an epilogue that undoes it.
fn instruction(code: Code, undone: bool) -> String {
    let x = |n: u8| if n == 30 { "lr".to_string() } else { format!("x{n}") };
    let d = |n: u8| format!("d{n}");
    // Registers at an offset, or with the stack pointer moved.
    let (pair, one) = if undone { ("ldp", "ldr") } else { ("stp", "str") };
    let at = |registers: &[String], offset: u32| {
        let name = if registers.len() == 2 { pair } else { one };
        match offset {
            0 => format!("{name} {}, [sp]", registers.join(", ")),
            _ => format!("{name} {}, [sp, {offset}]", registers.join(", ")),
        }
    };
    let moved = |registers: &[String], offset: u32| {
        let name = if registers.len() == 2 { pair } else { one };
        match undone {
            true => format!("{name} {}, [sp], {offset}", registers.join(", ")),
            false => format!("{name} {}, [sp, -{offset}]!", registers.join(", ")),
        }
    };
    let next = |n: u8| n.saturating_add(1);
    match code {
        Code::Alloc(size) if undone => format!("add sp, sp, {size}"),
        Code::Alloc(size) => format!("sub sp, sp, {size}"),
        Code::R19R20X(offset) => moved(&[x(19), x(20)], offset),
        Code::Fplr(offset) => at(&[x(29), x(30)], offset),
        Code::FplrX(offset) => moved(&[x(29), x(30)], offset),
        Code::Regp(n, offset) => at(&[x(n), x(next(n))], offset),
        Code::RegpX(n, offset) => moved(&[x(n), x(next(n))], offset),
        Code::Reg(n, offset) => at(&[x(n)], offset),
        Code::RegX(n, offset) => moved(&[x(n)], offset),
        Code::Lrpair(n, offset) => at(&[x(n), x(30)], offset),
        Code::Fregp(n, offset) => at(&[d(n), d(next(n))], offset),
        Code::FregpX(n, offset) => moved(&[d(n), d(next(n))], offset),
        Code::Freg(n, offset) => at(&[d(n)], offset),
        Code::FregX(n, offset) => moved(&[d(n)], offset),
        Code::SetFp if undone => "mov sp, x29".to_string(),
        Code::SetFp => "mov x29, sp".to_string(),
        Code::AddFp(offset) if undone => format!("sub sp, x29, {offset}"),
        Code::AddFp(offset) => format!("add x29, sp, {offset}"),
        Code::Nop => "nop".to_string(),
        Code::SaveNext => format!("{pair} of the next pair, two registers on and 16 bytes up"),
        Code::PacSignLr if undone => "autibsp".to_string(),
        Code::PacSignLr => "pacibsp".to_string(),
    }
}
