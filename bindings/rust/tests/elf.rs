//! ELF files through the wrappers: this test's own program, a made file and damaged ones.
#![allow(clippy::unwrap_used, clippy::indexing_slicing, clippy::arithmetic_side_effects)]

use dekvoz::elf::{Class, Elf, Reason};

fn own() -> Vec<u8> {
    std::fs::read(std::env::current_exe().unwrap()).unwrap()
}

#[test]
fn own_program() {
    let bytes = own();
    let file = Elf::new(&bytes).unwrap();
    assert_eq!((file.header().class, file.bytes().len()), (Class::Bits64, bytes.len()));
    let sections: Vec<_> = file.sections().unwrap().map(Result::unwrap).collect();
    assert_eq!(sections.len() as u64, file.section_count().unwrap());
    assert_eq!((sections[0].kind, sections[0].name, sections[0].bytes), (0, &b""[..], &b""[..]));
    let frame = file.section_named(b".eh_frame").unwrap().unwrap();
    assert_eq!(frame, sections[frame.index as usize]);
    assert_eq!(frame.bytes.len() as u64, frame.size);
    let bss = file.section_named(b".bss").unwrap().unwrap();
    assert!(bss.size > 0 && bss.bytes.is_empty());
    assert_eq!(file.section_named(b".no such section").unwrap(), None);
    let loads = file.segments().unwrap().filter(|segment| segment.unwrap().kind == 1).count();
    assert!(loads > 1 && loads as u64 <= file.segment_count().unwrap());
}

#[test]
fn own_symbols() {
    let bytes = own();
    let file = Elf::new(&bytes).unwrap();
    let table = file.section_named(b".symtab").unwrap().unwrap();
    let symbol = file.symbols(table.index).map(Result::unwrap).find(|symbol| symbol.name == b"main").unwrap();
    assert_eq!(file.symbol(table.index, symbol.index), Ok(symbol));
    let last = symbol.value + symbol.size - 1;
    assert_eq!(file.symbol_at(table.index, None, last).unwrap().unwrap().value, symbol.value);
    assert_eq!(file.symbol_at(table.index, Some(symbol.section), last).unwrap().unwrap().value, symbol.value);
    assert_eq!(file.symbol_at(table.index, None, u64::MAX), Ok(None));
    assert_eq!(file.symbol(1, 0).unwrap_err().reason, Reason::Kind);
    let relocations = file.sections().unwrap().map(Result::unwrap).find(|section| section.kind == 4).unwrap();
    let count = file.relocations(relocations.index).map(Result::unwrap).filter(|r| r.addend.is_some()).count();
    assert_eq!(count as u64, relocations.size / 24);
}

#[test]
fn own_notes() {
    let bytes = own();
    let file = Elf::new(&bytes).unwrap();
    let section = file.section_named(b".note.ABI-tag").unwrap().unwrap();
    let notes: Vec<_> = file.notes(section.place, section.size, section.align).map(Result::unwrap).collect();
    assert_eq!((notes.len(), notes[0].name, notes[0].kind, notes[0].text.len()), (1, &b"GNU"[..], 1, 16));
    assert_eq!(file.note_named(section.place, section.size, 4, b"GNU", 1), Ok(Some(notes[0])));
    assert_eq!(file.note_named(section.place, section.size, 4, b"GNU", 3), Ok(None));
    assert_eq!(file.notes(section.place, section.size, 16).next().unwrap().unwrap_err().reason, Reason::Alignment);
    assert_eq!(file.notes(u64::MAX, 9, 4).next().unwrap().unwrap_err().reason, Reason::Outside);
}

#[test]
fn refusals() {
    let reason = |bytes: &[u8]| Elf::new(bytes).unwrap_err().reason;
    assert_eq!(reason(b""), Reason::NotElf);
    assert_eq!(reason(b"\x7fELF\x01\x01\x01\0\0\0\0\0\0\0\0\0"), Reason::Outside);
    let mut bytes = own();
    for (at, what) in
        [(0, Reason::NotElf), (4, Reason::Unknown), (5, Reason::Unknown), (6, Reason::Unknown), (20, Reason::Unknown)]
    {
        bytes[at] ^= 4;
        let refusal = Elf::new(&bytes).unwrap_err();
        assert_eq!((refusal.reason, refusal.at), (what, if at == 0 { 0 } else { at as u64 }));
        bytes[at] ^= 4;
    }
    bytes[58] ^= 1;
    let refusal = Elf::new(&bytes).unwrap().section_count().unwrap_err();
    assert_eq!((refusal.reason, refusal.at), (Reason::EntrySize, 58));
    assert_eq!(refusal.to_string(), "byte 0x3a: the entry size is not the class's (105)");
    bytes[58] ^= 1;
    let cut = &bytes[..bytes.len() - 1];
    let refusal = Elf::new(cut).unwrap().section_count().unwrap_err();
    assert_eq!((refusal.reason, refusal.at), (Reason::Outside, 40));
    assert!(Elf::new(cut).unwrap().segments().unwrap().all(|segment| segment.is_ok()));
}

#[test]
fn numbers_and_words() {
    let reasons = [Reason::NotElf, Reason::Unknown, Reason::Outside, Reason::Name, Reason::EntrySize, Reason::Compressed];
    for (i, reason) in reasons.into_iter().enumerate() {
        assert_eq!(reason.number(), 101 + i as u64);
        assert!(!reason.words().is_empty());
    }
}
