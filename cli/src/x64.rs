//! `dekvoz x64`: the records of Windows x64 unwind data.

use dekvoz::{Code, CodeOp, Refusal, X64Record};

use crate::args::Args;
use crate::input::File;
use crate::object;
use crate::out::Out;
use crate::{json, words, Stop};

/// The section of the records in an object file.
const XDATA: &str = ".xdata";
/// The registers by the machine's numbers (Microsoft, "x64 exception handling", operation info).
const REGISTERS: [&str; 16] =
    ["rax", "rcx", "rdx", "rbx", "rsp", "rbp", "rsi", "rdi", "r8", "r9", "r10", "r11", "r12", "r13", "r14", "r15"];
/// A header has 4 bytes, of which the third counts the slots of 2 bytes; an even number of slots is there.
const HEADER: u64 = 4;
const SLOTS: u64 = 2;

/// Lists the records. Whether each could be read.
pub fn run(args: &Args) -> Result<bool, Stop> {
    args.only("x64", &["--section", "--place", "--json"])?;
    let file = File::new(args)?;
    let infos = infos(args, &file)?;
    if infos.iter().all(|info| info.bytes.is_empty()) {
        return Err(Stop::failed(&file.name, "there are no records"));
    }
    let mut out = Out::new();
    let place = args.number("--place")?;
    if place.is_some() && infos.len() > 1 {
        let why = format!("it has {} sections of records; --section names one", infos.len());
        return Err(Stop::failed(&file.name, why));
    }
    let refused = if args.has("--json") { as_json(&mut out, &file, &infos, place) } else { as_text(&mut out, &infos, place) };
    crate::finished(&mut out)?;
    for (section, place, refusal) in &refused {
        let section = if infos.len() > 1 { format!("{section}, ") } else { String::new() };
        crate::complain(&file.name, &format!("{section}at {place:#x}: {}", words::refused(*refusal)));
    }
    Ok(refused.is_empty())
}

/// The bytes of records, and the section that holds them.
struct Info<'a> {
    name: String,
    bytes: &'a [u8],
}

/// A refusal, and where.
type Refused = (String, u64, Refusal);

/// The info sections: of an ELF or COFF file, which can have one for each function, or raw.
fn infos<'a>(args: &Args, file: &'a File) -> Result<Vec<Info<'a>>, Stop> {
    let sections = match &file.object {
        Some(object) => object.sections.clone(),
        None => match object::coff(&file.bytes) {
            Some(coff) if coff.machine != object::X64 => {
                return Err(Stop::failed(&file.name, "an object file of another machine than x64"))
            }
            Some(coff) => coff.sections,
            None if args.has("--section") => {
                return Err(Stop::failed(&file.name, "no object file, so that --section names nothing"))
            }
            None => return Ok(vec![Info { name: String::new(), bytes: &file.bytes }]),
        },
    };
    let wanted = |section: &&object::Section| match args.value("--section") {
        Some(name) => section.plain && section.name == name,
        None => section.is_part(XDATA),
    };
    let one = |section: &object::Section| Info { name: section.name.clone(), bytes: &file.bytes[section.bytes.clone()] };
    let found: Vec<Info<'_>> = sections.iter().filter(wanted).map(one).collect();
    match found.is_empty() {
        false => Ok(found),
        true => {
            let name = args.value("--section").unwrap_or(XDATA);
            Err(Stop::failed(&file.name, format!("an object file without {name}")))
        }
    }
}

/// The records from a place on, one where it was asked for. The first refusal, and where.
fn each(info: &Info<'_>, place: Option<u64>, mut one: impl FnMut(u64, &X64Record)) -> Option<Refused> {
    let mut at = place.unwrap_or(0);
    while place.is_some() || at < info.bytes.len() as u64 {
        match dekvoz::read_x64(info.bytes, at) {
            Ok(record) => one(at, &record),
            Err(refusal) => return Some((info.name.clone(), at, refusal)),
        }
        let slots = info.bytes.get((at + SLOTS) as usize).copied().unwrap_or(0);
        at += HEADER + 2 * u64::from(slots).next_multiple_of(2);
        if place.is_some() {
            return None;
        }
    }
    None
}

fn as_text(out: &mut Out, infos: &[Info<'_>], place: Option<u64>) -> Vec<Refused> {
    let mut refused = Vec::new();
    for info in infos {
        if infos.len() > 1 {
            out.text(&info.name).text(":").line();
        }
        refused.extend(each(info, place, |at, record| {
            out.hex(at, 8).text(" prologue of ").decimal(u64::from(record.end)).text(" bytes, ");
            out.decimal(record.codes.len() as u64).text(if record.codes.len() == 1 { " code" } else { " codes" }).line();
            for code in &record.codes {
                out.text("  at ").decimal(code.offset).text(": ").text(&code_words(code)).line();
            }
            out.line();
        }));
    }
    refused
}

fn register(n: u16) -> &'static str {
    REGISTERS.get(usize::from(n)).copied().unwrap_or("no register")
}

fn code_words(code: &Code) -> String {
    match code.op {
        CodeOp::Push(n) => format!("push {}", register(n)),
        CodeOp::Alloc(bytes) => format!("take {bytes} bytes of stack"),
        CodeOp::Frame(n, offset) => format!("the frame register {} is rsp+{offset}", register(n)),
        CodeOp::Save(n, offset) => format!("save {} at rsp+{offset}", register(n)),
        CodeOp::SaveVector(n, offset) => format!("save xmm{n} at rsp+{offset}"),
    }
}

fn as_json(out: &mut Out, file: &File, infos: &[Info<'_>], place: Option<u64>) -> Vec<Refused> {
    out.text("{");
    json::text(out, "file", &file.name);
    out.text(", \"records\": [");
    let (mut first, mut refused) = (true, Vec::new());
    for info in infos {
        refused.extend(each(info, place, |at, record| {
            out.text(if first { "{" } else { ", {" });
            first = false;
            if infos.len() > 1 {
                json::text(out, "section", &info.name);
                out.text(", ");
            }
            json::number(out, "place", at);
            out.text(", ");
            json::number(out, "prologue", u64::from(record.end));
            out.text(", \"codes\": [");
            for (n, code) in record.codes.iter().enumerate() {
                out.text(if n == 0 { "{" } else { ", {" });
                json::number(out, "offset", code.offset);
                out.text(", ");
                json::text(out, "words", &code_words(code));
                out.text("}");
            }
            out.text("]}").line();
        }));
    }
    out.text("]");
    if let Some((section, place, refusal)) = refused.first() {
        out.text(", ");
        if infos.len() > 1 {
            json::text(out, "section", section);
            out.text(", ");
        }
        json::number(out, "place", *place);
        out.text(", ");
        json::refusal(out, *refusal, words::cause(*refusal));
    }
    out.text("}").line();
    refused
}
