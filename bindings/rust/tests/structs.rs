//! The entries over structs: against written-out numbers, and against the entries over numbers.
#![allow(clippy::unwrap_used, clippy::indexing_slicing, clippy::arithmetic_side_effects)]

use std::mem::{offset_of, size_of};

use dekvoz::lists::{self, Counts, Lent};
use dekvoz::structs::{
    pack_functions, pack_rows, relaxed_debug_frame_of, relaxed_table_of, row_check_of, Function, Lists, RowAt,
};
use dekvoz::{Machine, Refusal};

const ROWS: [RowAt; 4] = [
    RowAt { offset: 1, kind: 1, register: 0, value: 16 },
    RowAt { offset: 1, kind: 3, register: 6, value: -16 },
    RowAt { offset: 4, kind: 2, register: 6, value: 0 },
    RowAt { offset: 5, kind: 0, register: 7, value: 8 },
];
const LANDINGS: [u64; 3] = [1, 2, 3];
const PAIRS: [u64; 4] = [1, 4, 20, 21];

/// Each field another number, so that an exchange would be seen.
const ODD: Function = Function {
    symbol: 1,
    length: 2,
    rows_at: 3,
    rows: 4,
    landings_at: 5,
    landings: 6,
    simple: 7,
    signal: 8,
    personality: 9,
    encoding: 10,
    routine: 11,
    lsda: 12,
    lsda_encoding: 13,
    lsda_symbol: 14,
    relaxed: 15,
    end: 16,
    pairs_at: 17,
    pairs: 18,
};

fn functions() -> [Function; 2] {
    let relaxed = Function { relaxed: 1, end: 22, pairs: 1, ..Function::default() };
    [
        Function { symbol: 16, length: 6, rows: 4, landings: 1, ..Function::default() },
        Function { symbol: 17, length: 11, rows: 4, simple: 1, ..relaxed },
    ]
}

fn given(functions: &[Function]) -> Lists<'_> {
    Lists { functions, rows: &ROWS, landings: &LANDINGS, pairs: &PAIRS }
}

const NO_ROOM: Refusal = Refusal { number: 54, position: 0 };

#[test]
fn layout() {
    assert_eq!((size_of::<RowAt>(), size_of::<Function>()), (16, 112));
    assert_eq!((offset_of!(RowAt, kind), offset_of!(RowAt, register), offset_of!(RowAt, value)), (8, 10, 12));
    assert_eq!((offset_of!(Function, simple), offset_of!(Function, routine), offset_of!(Function, lsda)), (48, 56, 64));
    assert_eq!((offset_of!(Function, lsda_symbol), offset_of!(Function, relaxed), offset_of!(Function, end)), (72, 80, 88));
}

#[test]
fn packed_functions() {
    let mut numbers = [77; 20];
    assert_eq!(pack_functions(&[ODD], &mut numbers[..17]), Err(NO_ROOM));
    assert_eq!(numbers, [77; 20]);
    assert_eq!(pack_functions(&[ODD], &mut numbers), Ok(()));
    assert!(numbers[..18].iter().copied().eq(1..=18));
    assert_eq!(numbers[18..], [77, 77]);
}

#[test]
fn packed_rows() {
    let mut numbers = [77; 9];
    assert_eq!(pack_rows(&ROWS[..2], &mut numbers[..7]), Err(NO_ROOM));
    assert_eq!(numbers, [77; 9]);
    assert_eq!(pack_rows(&ROWS[..2], &mut numbers), Ok(()));
    assert_eq!(numbers, [1, 1, 0, 16, 1, 3, 6, 0xffff_fff0, 77]);
}

#[test]
fn the_row_check() {
    let stored = RowAt { offset: 1, kind: 6, ..RowAt::default() };
    assert!(row_check_of(false, &ROWS));
    assert!(!row_check_of(true, &ROWS));
    assert!(row_check_of(false, &[stored; 16]));
    assert!(!row_check_of(false, &[stored; 17]));
    assert!(row_check_of(false, &[]));
}

/// What a writer gave: its answer, and the four buffers as they are then.
type Written = (Result<Counts, Refusal>, [u64; 9], [u8; 199], [u64; 199], [u8; 99]);

fn lend(write: impl FnOnce(&mut Lent<'_>) -> Result<Counts, Refusal>) -> Written {
    let (mut places, mut bytes, mut relocations, mut sites) = ([77; 9], [77; 199], [77; 199], [77; 99]);
    let mut lent = Lent { places: &mut places, bytes: &mut bytes, relocations: &mut relocations, sites: &mut sites };
    let said = write(&mut lent);
    (said, places, bytes, relocations, sites)
}

/// A writer over structs beside the one over numbers; `numbers` comes back as it was, and where it is not ready 54 is asked behind
/// the empty result, 11 and 12.
fn the_same(
    of_structs: impl Fn(&[u64], u64, Lists<'_>, &mut [u64], &mut Lent<'_>) -> Result<Counts, Refusal>,
    of_numbers: impl Fn(&[u64], u64, lists::Lists<'_>, &mut Lent<'_>) -> Result<Counts, Refusal>,
) {
    let machine = Machine::X86_64.numbers();
    let good = functions();
    let back = Function { length: 1 << 32, ..good[0] };
    for functions in [good, [good[0], back], [ODD, ODD]] {
        let structs = given(&functions);
        assert_eq!(structs.numbers(), 52);
        let mut packed = [0; 52];
        pack_functions(structs.functions, &mut packed[..36]).unwrap();
        pack_rows(structs.rows, &mut packed[36..]).unwrap();
        let numbers = lists::Lists { functions: &packed[..36], rows: &packed[36..], landings: &LANDINGS, pairs: &PAIRS };
        for format in 0..6 {
            let mut room = [0; 53];
            room[52] = 1;
            let before = room;
            let said = lend(|lent| of_structs(&machine, format, structs, &mut room, lent));
            assert_eq!(said, lend(|lent| of_numbers(&machine, format, numbers, lent)));
            assert_eq!(room, before);
            let first = match said.0 {
                Ok(counts) => counts.places == 0,
                Err(refusal) => refusal.number < 13 || refusal.number == 78,
            };
            let unready = if first { said } else { lend(|_| Err(NO_ROOM)) };
            assert_eq!(lend(|lent| of_structs(&machine, format, structs, &mut room[..51], lent)), unready);
            room[51] = 1;
            let before = room;
            assert_eq!(lend(|lent| of_structs(&machine, format, structs, &mut room, lent)), unready);
            assert_eq!(room, before);
        }
    }
}

#[test]
fn tables_of_structs() {
    the_same(relaxed_table_of, lists::relaxed_table);
    let functions = functions();
    let machine = Machine::X86_64.numbers();
    let (said, ..) = lend(|lent| relaxed_table_of(&machine, 0, given(&functions), &mut [0; 52], lent));
    assert_eq!(said.map(|counts| counts.places), Ok(2));
}

#[test]
fn debug_frames_of_structs() {
    the_same(relaxed_debug_frame_of, lists::relaxed_debug_frame);
    let functions = functions();
    let machine = Machine::X86_64.numbers();
    let (said, ..) = lend(|lent| relaxed_debug_frame_of(&machine, 0, given(&functions), &mut [0; 52], lent));
    assert_eq!(said.map(|counts| counts.places), Ok(2));
}

#[test]
fn the_machine_comes_first() {
    let functions = functions();
    let mut coff = Machine::X86_64.numbers();
    coff[..2].copy_from_slice(&[4, 4]);
    let said = |machine: &[u64], format, given| lend(|lent| relaxed_table_of(machine, format, given, &mut [], lent)).0;
    assert_eq!(said(&[], 0, given(&functions)), Err(Refusal { number: 11, position: 0 }));
    assert_eq!(said(&coff, 1, given(&functions)), Err(Refusal { number: 12, position: 0 }));
    assert_eq!(said(&coff, 0, given(&functions)), Err(NO_ROOM));
    assert_eq!(said(&[], 0, given(&[])).map(|counts| counts.places), Ok(0));
}
