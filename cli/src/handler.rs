//! `dekvoz handler`: which landing pad gets what is thrown at an offset.

use dekvoz::parts::Header;
use dekvoz::{call_site, Site};

use crate::args::{Args, Usage};
use crate::dump::Listing;
use crate::input::{fitted, File, Parts, Section};
use crate::object::{relocations, Object};
use crate::out::Out;
use crate::{json, words, Stop};

/// The section of call sites in an ELF file.
const EXCEPT_TABLE: &str = ".gcc_except_table";
/// The bits of a pointer encoding that say what the value is counted from, and those values (LSB 5.0, section 10.5.1).
const APPLICATION: u8 = 0x70;
const ABSOLUTE: u8 = 0;
const PC_RELATIVE: u8 = 0x10;

/// A table of call sites: the bytes that hold it and its place there; none where a record has no table.
type Table<'a> = Option<(&'a [u8], u64)>;

/// Answers for an offset.
pub fn run(args: &Args) -> Result<bool, Stop> {
    args.only(
        "handler",
        &["--section", "--kind", "--word", "--machine", "--relocations", "--linked", "--json", "--record", "--at", "--place"],
    )?;
    let (record, place) = (args.number("--record")?, args.number("--place")?);
    let Some(offset) = args.number("--at")? else {
        return Err(Stop::Usage(Usage("handler asks for --at P".to_string())));
    };
    let file = File::new(args)?;
    let table = match (record, place) {
        (Some(k), None) => of_record(args, &file, k, offset)?,
        (None, Some(place)) => Some((named(args, &file)?, place)),
        _ => return Err(Stop::Usage(Usage("handler asks for --record K or for --place N".to_string()))),
    };
    let site = match table {
        None => None,
        Some((sites, place)) => {
            let why = |refusal| Stop::failed(&file.name, words::refused(refusal));
            Some(call_site(sites, place, offset).map_err(why)?)
        }
    };
    answer(args, &file, offset, site)
}

/// The bytes that --place counts in: raw ones, or a section of an ELF file.
fn named<'a>(args: &Args, file: &'a File) -> Result<&'a [u8], Stop> {
    let Some(object) = &file.object else { return Ok(&file.bytes) };
    let name = args.value("--section").unwrap_or(EXCEPT_TABLE);
    let found = object.sections.iter().find(|section| section.name == name && section.plain);
    let section = found.ok_or_else(|| Stop::failed(&file.name, format!("an ELF file without {name}")))?;
    Ok(&file.bytes[section.bytes.clone()])
}

fn of_record<'a>(args: &Args, file: &'a File, k: u64, offset: u64) -> Result<Table<'a>, Stop> {
    let Some(object) = &file.object else {
        return Err(Stop::failed(
            &file.name,
            "raw bytes of a section do not hold the call sites; --place N reads a table of them",
        ));
    };
    let section = file.section(args, None)?;
    let parts = Parts::new(&section);
    let mut listing = Listing::new(&section, &parts, false);
    let failed = |why: String| Stop::failed(&file.name, format!("record {k}: {why}"));
    if k >= parts.records.len() as u64 {
        return Err(failed(format!("there are {} records, counted from 0", parts.records.len())));
    }
    let found = listing.record(k as usize).found.map_err(|untold| failed(words::untold(untold)))?;
    // A table says nothing of what is not its function's.
    let function = parts.function(parts.records[k as usize].place).map_err(|refusal| failed(words::refused(refusal)))?;
    if offset >= function.length {
        return Err(failed(format!("offset {offset} is not below the function's length, {}", function.length)));
    }
    let Some(pointer) = found.call_sites else { return Ok(None) };
    if object.relocatable {
        return unlinked(file, object, &section, &found.header, pointer).map_err(failed);
    }
    let Some(address) = pointed(&section, &parts, &found.header, pointer).map_err(failed)? else { return Ok(None) };
    for held in object.sections.iter().filter(|held| held.plain && held.address != 0) {
        let distance = address.wrapping_sub(held.address);
        if distance < held.bytes.len() as u64 {
            return Ok(Some((&file.bytes[held.bytes.clone()], distance)));
        }
    }
    Err(failed(format!("its call sites are at {address:#x}, where no section stands")))
}

/// The table that a relocation of the pointer leads to, in a file that is not linked. A pointer without one is that of a record that has no
/// table, where it is 0.
fn unlinked<'a>(file: &'a File, object: &Object, section: &Section<'_>, header: &Header, at: u64) -> Result<Table<'a>, String> {
    let field = section.bytes.get(at as usize..(at + header.pointer) as usize).unwrap_or(&[]);
    let of_section = section.name.as_deref().and_then(|name| object.position(name));
    let all = of_section.map_or_else(Vec::new, |position| relocations(&file.bytes, object, position));
    let there: Vec<_> = all.iter().filter(|to| to.place == at).collect();
    let to = match there[..] {
        [] if field.iter().all(|byte| *byte == 0) => return Ok(None),
        [to] if !section.left_in(at..at + 1) => to,
        _ => return Err("it is not linked, and the relocation of its pointer to call sites could not be applied".to_string()),
    };
    let home = to.section.and_then(|home| Some((home, object.sections.get(home)?)));
    let Some((home, held)) = home.filter(|(_, held)| held.plain && to.value < held.bytes.len() as u64) else {
        return Err("its call sites stand in no section of this file".to_string());
    };
    let bytes = &file.bytes[held.bytes.clone()];
    // The table's own numbers may be a linker's to fill in.
    let table = to.value..to.value.saturating_add(extent(bytes, to.value));
    match relocations(&file.bytes, object, home).iter().any(|to| table.contains(&to.place)) {
        true => Err("it is not linked, and its table of call sites holds relocations".to_string()),
        false => Ok(Some((bytes, to.value))),
    }
}

/// How far a table of call sites reaches: three bytes, an unsigned LEB number, and as many bytes as it says.
fn extent(bytes: &[u8], place: u64) -> u64 {
    const HEAD: usize = 3;
    let number = bytes.get(place as usize..).and_then(|table| table.get(HEAD..)).unwrap_or(&[]);
    let size = number.iter().take_while(|byte| **byte >= 0x80).count() + 1;
    let value = number.iter().take(size.min(9)).rev().fold(0u64, |n, byte| n << 7 | u64::from(*byte & 0x7f));
    value.saturating_add((HEAD + size) as u64)
}

/// The address that a record's pointer to call sites means; none where it is 0. The encoding stands before that of the function's place,
/// the last byte of the header's augmentation data.
fn pointed(section: &Section<'_>, parts: &Parts<'_>, header: &Header, at: u64) -> Result<Option<u64>, String> {
    let field = parts.frame.bytes.get(at as usize..(at + header.pointer) as usize).unwrap_or(&[]);
    let value = field.iter().rev().fold(0, |n, byte| n << 8 | u64::from(*byte));
    if value == 0 {
        return Ok(None);
    }
    let encoding =
        header.operations.start.checked_sub(2).and_then(|at| parts.frame.bytes.get(at as usize)).copied().unwrap_or(0);
    let shift = 64u64.saturating_sub(8 * header.pointer) as u32;
    let signed = ((value << shift) as i64 >> shift) as u64;
    let address = match encoding & APPLICATION {
        ABSOLUTE => value,
        PC_RELATIVE => section.address.wrapping_add(at).wrapping_add(signed),
        _ => return Err(format!("the encoding {encoding:#x} of its pointer to call sites is not read")),
    };
    Ok(Some(fitted(address, section.word)))
}

/// The answer: no table, no site that covers the offset, or one.
fn answer(args: &Args, file: &File, offset: u64, site: Option<Option<Site>>) -> Result<bool, Stop> {
    let mut out = Out::new();
    if args.has("--json") {
        out.text("{");
        json::text(&mut out, "file", &file.name);
        out.text(", ");
        json::number(&mut out, "offset", offset);
        out.text(", ");
        json::mark(&mut out, "table", site.is_some());
        if let Some(Some(site)) = site {
            out.text(", \"site\": {\"start\": ").decimal(site.start).text(", \"length\": ").decimal(site.length);
            out.text(", \"pad\": ").decimal(site.pad).text("}");
        }
        out.text("}").line();
    } else {
        out.text(&words_of(offset, site)).line();
    }
    crate::finished(&mut out)?;
    Ok(true)
}

/// The answer in words.
pub fn words_of(offset: u64, site: Option<Option<Site>>) -> String {
    match site {
        None => "the record has no table of call sites: no handler".to_string(),
        Some(None) => format!("no call site covers offset {offset}"),
        Some(Some(Site { start, length, pad, .. })) => {
            let end = start.wrapping_add(length);
            let handler = match pad {
                0 => ", which has no handler".to_string(),
                pad => format!(": the landing pad at offset {pad} gets it"),
            };
            format!("offset {offset} is in the call site {start}..{end}{handler}")
        }
    }
}
