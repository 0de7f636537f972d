//! The walk over a recorded fault through the wrappers.
#![allow(clippy::unwrap_used, clippy::indexing_slicing)]

use dekvoz::walk::{functions, recorded, walk, walk_lists, Ending, Fault, Frame};
use dekvoz::{apply, relaxed_table, Builder, Format, FrameSection, Machine, Placed, Section, Word};

const RA: u16 = 16;
const RSP: usize = 7;
const STACK: u64 = 0x8000;

fn words(values: &[u64]) -> Vec<u8> {
    values.iter().flat_map(|value| value.to_le_bytes()).collect()
}

/// Two functions at 0x1000 and 0x2000: the first has a caller, the second none.
fn section() -> Vec<u8> {
    let (leaf, main) = (Builder::new(16, 32).done(), Builder::new(17, 48).undefined(RA).done());
    let table = relaxed_table(&Machine::X86_64, Format::Elf, &[leaf.function(), main.function()]).unwrap();
    apply(&table.bytes, &table.relocations, &[(16, 0x1000), (17, 0x2000)], 0x5000, 0).unwrap()
}

fn placed(bytes: &[u8]) -> FrameSection<'_> {
    FrameSection { bytes, relocations: &[], kind: Section::Eh, word: Word::Eight, address: 0x5000 }
}

fn record(stack: &[u64]) -> Vec<u8> {
    let mut registers = [0; 17];
    registers[RSP] = STACK;
    recorded(&words(stack), &registers)
}

#[test]
fn endings() {
    let bytes = section();
    let section = placed(&bytes);
    let list = functions(&section).unwrap();
    assert_eq!(list, [Placed { address: 0x1000, length: 32 }, Placed { address: 0x2000, length: 48 }]);
    let go = |stack: &[u64], pc| {
        let record = record(stack);
        walk(&Fault { machine: &Machine::X86_64, record: &record, pc, stack: STACK }, &section, &list).unwrap()
    };
    let chain = go(&[0x1008, 0x2009], 0x1004);
    assert_eq!(chain.frames.iter().map(|frame| frame.pc).collect::<Vec<_>>(), [0x1004, 0x1008, 0x2009]);
    assert_eq!((chain.frames[2].position, chain.ending), (1, Ending::ReturnUndefined));
    let chain = go(&[0x3000], 0x1004);
    assert_eq!((chain.frames, chain.ending), (vec![Frame { position: 0, pc: 0x1004 }], Ending::HeldByNone));
    assert_eq!(go(&[], 0x3000).frames, []);
    let chain = go(&[0x1008; 70], 0x1004);
    assert_eq!((chain.frames.len(), chain.ending), (64, Ending::TooMany));
}

#[test]
fn refusals() {
    let bytes = section();
    let section = placed(&bytes);
    let list = functions(&section).unwrap();
    let number = |machine: &Machine, record: &[u8], section: &FrameSection<'_>| {
        walk(&Fault { machine, record, pc: 0x1004, stack: STACK }, section, &list).unwrap_err().number
    };
    let machine = Machine::X86_64;
    assert_eq!(number(&machine, &[0; 15], &section), 73);
    assert_eq!(number(&machine, &recorded(&[], &[0; 129]), &section), 73);
    assert_eq!(number(&Machine { pushed: 3, ..machine }, &record(&[]), &section), 11);
    assert_eq!(number(&Machine { word: Word::Four, ..machine }, &record(&[]), &section), 12);
    assert_eq!(number(&machine, &record(&[]), &section), 74);
    assert_eq!(number(&machine, &recorded(&[], &[]), &section), 75);
    let cut = &bytes[..bytes.len() - 1];
    assert_eq!(number(&machine, &record(&[]), &FrameSection { bytes: cut, ..section }), 61);
}

/// Where a frame is refused, the frames up to it are told.
#[test]
fn found() {
    let bytes = section();
    let section = placed(&bytes);
    let list = functions(&section).unwrap();
    let go = |stack: &[u64]| {
        let record = record(stack);
        let fault = Fault { machine: &Machine::X86_64, record: &record, pc: 0x1004, stack: STACK };
        let (frames, ending) = dekvoz::walk::walk_found(&fault, &section, &list);
        (frames.iter().map(|frame| frame.pc).collect::<Vec<_>>(), ending.map_err(|no| no.number))
    };
    assert_eq!(go(&[0x1008, 0x2009]), (vec![0x1004, 0x1008, 0x2009], Ok(Ending::ReturnUndefined)));
    assert_eq!(go(&[0x1008]), (vec![0x1004, 0x1008], Err(74)));
    assert_eq!(go(&[]), (vec![0x1004], Err(74)));
}

#[test]
fn lent_list() {
    let bytes = section();
    let (section, record) = (placed(&bytes), record(&[0x2009]));
    let fault = Fault { machine: &Machine::X86_64, record: &record, pc: 0x1004, stack: STACK };
    let list = [[0x1000, 32], [0x2000, 48]];
    let mut frames = [[9; 2]; 3];
    assert_eq!(walk_lists(&fault, &section, &list, &mut frames[..1]).unwrap_err().number, 54);
    assert_eq!(frames, [[9; 2]; 3]);
    assert_eq!(walk_lists(&fault, &section, &list, &mut frames), Ok((2, Ending::ReturnUndefined)));
    assert_eq!(frames, [[0, 0x1004], [1, 0x2009], [9, 9]]);
}
