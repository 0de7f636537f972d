//! ARM64 unwind data: both forms read, a refusal of each kind, more epilogues than the first room holds; written, and read back.
#![allow(clippy::unwrap_used, clippy::indexing_slicing, clippy::arithmetic_side_effects)]

use dekvoz::arm64::{entry, read, read_lists, write, Code, Epilogue, Function};
use dekvoz::{Refusal, Table};

#[test]
fn fragment() {
    // Flag 2, 5 instructions, RegF 0, RegI 1, CR 0, frame 2: str x19, [sp, -16]!; sub sp, 16
    let found = read(2 | 5 << 2 | 1 << 16 | 2 << 23, &[], 0).unwrap();
    assert_eq!((found.length, found.prologue), (20, vec![Code::RegX(19, 16), Code::Alloc(16)]));
    assert!(found.epilogues.is_empty());
}

#[test]
fn refusals() {
    let info = [0x0a, 0x00, 0x60, 0x08, 0xe1, 0x81, 0x22, 0xe4];
    assert_eq!(read(0, &info, 5).unwrap_err().number, 76);
    assert_eq!(read(0, &info[..7], 0).unwrap_err().number, 76);
    assert_eq!(read(3, &info, 0).unwrap_err().number, 77);
    assert_eq!(read(1, &[], 0).unwrap_err().number, 77);
    let (mut epilogues, mut codes) = ([[7; 3]; 1], [[7; 3]; 4]);
    assert_eq!(read_lists(0, &info, 0, &mut epilogues, &mut codes).unwrap_err().number, 54);
    assert_eq!((epilogues, codes), ([[7; 3]; 1], [[7; 3]; 4]));
}

#[test]
fn many_epilogues() {
    // The long form: 300 epilogues of one code each, all by the same run.
    let mut info = vec![];
    info.extend(1000_u32.to_le_bytes());
    info.extend((300_u32 | 1 << 16).to_le_bytes());
    for k in 0..300_u32 {
        info.extend((3 * k).to_le_bytes());
    }
    info.extend([0x01, 0xe4, 0xe3, 0xe3]);
    let found = read(0, &info, 0).unwrap();
    assert_eq!((found.length, found.prologue), (4000, vec![Code::Alloc(16)]));
    assert_eq!(found.epilogues.len(), 300);
    assert_eq!(found.epilogues[299], Epilogue { start: 12 * 299, codes: vec![Code::Alloc(16)] });
}

#[test]
fn every_code_goes_there_and_back() {
    for kind in 0..18 {
        let numbers = [kind, if (4..=12).contains(&kind) { 21 } else { 0 }, if kind < 13 || kind == 14 { 16 } else { 0 }];
        assert_eq!(Code::of(&numbers).unwrap().numbers(), numbers);
    }
}

/// A refusal is of the first function that is refused, by asking each alone; a range outside its list is of none.
#[test]
fn the_refused_function() {
    let fine = Function::new(16, 8).prologue(&[Code::Alloc(16)]).epilogue(0, &[Code::Alloc(16)]);
    let odd = Function { length: 6, ..fine.clone() };
    let late = Function::new(16, 8).epilogue(8, &[]);
    let lost = Function::new(16, 8).epilogue(4, &[Code::Regp(28, 512)]);
    for (number, wrong) in [(81, odd), (82, late), (83, lost)] {
        for position in 0..3 {
            let mut functions = vec![fine.clone(); 4];
            functions[position] = wrong.clone();
            functions[3] = Function { length: 1 << 20, ..fine.clone() };
            assert_eq!(write(&functions), Err(Refusal { number, position: position as u64 }));
        }
    }
    assert_eq!(write(&[fine.clone(), Function { symbol: 15, ..fine }]), Err(Refusal { number: 13, position: 0 }));
    assert_eq!(write(&[]), Ok(Table::default()));
}

/// Buffers grow; a table of packed functions and records reads as it was given.
#[test]
fn written_and_read() {
    let prologue = [Code::R19R20X(32), Code::Regp(21, 16), Code::FplrX(16), Code::SetFp];
    let undone = [Code::FplrX(16), Code::Regp(21, 16), Code::R19R20X(32)];
    let given: Vec<Function> = (0..40u32)
        .map(|k| {
            let mut f = Function::new(16 + k, 4000).prologue(&prologue).epilogue(4000 - 16, &undone);
            for n in 0..k {
                f = f.epilogue(u64::from(16 * n), if n % 2 == 0 { &undone } else { &undone[1..] });
            }
            f
        })
        .collect();
    let table = write(&given).unwrap();
    assert_eq!((table.places[0], table.bytes.len(), table.relocations.len()), (u64::MAX, 8 * 40, 79));
    for (k, f) in given.iter().enumerate() {
        let (word, place) = entry(&table, k).unwrap();
        let found = read(word, &table.sites, place).unwrap();
        assert_eq!((found.length, found.epilogues.len()), (f.length, f.epilogues.len()));
        for (one, other) in found.epilogues.iter().zip(&f.epilogues) {
            assert_eq!((one.start, one.codes.len()), (other.start, other.codes.len()));
        }
    }
    assert_eq!(entry(&table, 40), None);
}
