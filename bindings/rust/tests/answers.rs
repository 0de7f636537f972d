//! The wrappers against answers written out, and refusals.
#![allow(clippy::unwrap_used, clippy::indexing_slicing, clippy::arithmetic_side_effects)]

use dekvoz::lists::{self, Lent, Packed};
use dekvoz::{
    apply, check_section, read, relaxed_debug_frame, relaxed_table, row_check, seh, CheckRefusal, Code, CodeOp, Format, Frame,
    Function, Kind, Landing, Machine, MachineRegister, Op, Pair, Personality, Pointer, Prologue, Question, Refusal, Relaxed,
    Relocation, Row, Rule, Rules, Section, Site, Table, Target, Word,
};

const X86: &Machine = &Machine::X86_64;

fn hex(text: &str) -> Vec<u8> {
    let digits: Vec<u8> = text.bytes().filter_map(|c| (c as char).to_digit(16)).map(|d| d as u8).collect();
    digits.chunks(2).map(|d| 16 * d[0] + d[1]).collect()
}

fn relocation(place: u64, symbol: u64, kind: u64, size: u64, addend: u64) -> Relocation {
    Relocation { place, symbol, kind, size, addend }
}

fn refused(number: u64, position: u64) -> Result<Table, Refusal> {
    Err(Refusal { number, position })
}

fn pushed_frame(end: u64) -> [Row; 4] {
    [
        Row::new(1, Op::DefCfaOffset(16)),
        Row::new(1, Op::Offset(6, -16)),
        Row::new(4, Op::DefCfaRegister(6)),
        Row::new(end, Op::DefCfa(7, 8)),
    ]
}

/// GNU as writes these bytes too (differential/gas/two_functions.hex).
#[test]
fn eh_frame_of_two_functions() {
    let (first, second) = (pushed_frame(5), pushed_frame(10));
    let functions = [Function::new(16, 6, &first), Function::new(17, 11, &second)];
    let table = relaxed_table(X86, Format::Elf, &functions).unwrap();
    let header = "14000000 00000000 01 7a5200 01 78 10 01 1b 0c0708 9001 0000";
    let one = "1c000000 1c000000 00000000 06000000 00 41 0e10 8602 43 0d06 41 0c0708 000000";
    let two = "1c000000 3c000000 00000000 0b000000 00 41 0e10 8602 43 0d06 46 0c0708 000000";
    assert_eq!(table.bytes, hex(&[header, one, two].concat()));
    assert_eq!(table.places, [0, 0]);
    assert_eq!(table.relocations, [relocation(32, 16, 0, 4, 0), relocation(64, 17, 0, 4, 0)]);
    assert_eq!(table.relocations[1].kind(), Some(Kind::Data));
    assert_eq!(table.relocations[1].target(), Some(Target::Symbol(17)));
    assert!(table.sites.is_empty());
}

#[test]
fn debug_frame_of_a_function() {
    let rows = [Row::new(1, Op::DefCfaOffset(16))];
    let table = relaxed_debug_frame(X86, Format::Elf, &[Function::new(16, 6, &rows)]).unwrap();
    let header = "14000000 ffffffff 01 00 01 78 10 0c0708 9001 000000000000";
    let record = "1c000000 00000000 0000000000000000 0600000000000000 41 0e10 0000000000";
    assert_eq!(table.bytes, hex(&[header, record].concat()));
    assert_eq!(table.relocations, [relocation(28, 2, 1, 4, 0), relocation(32, 16, 1, 8, 0)]);
    assert_eq!(table.relocations[0].target(), Some(Target::DebugFrame));
    assert_eq!(relaxed_debug_frame(X86, Format::Coff, &[Function::new(16, 6, &rows)]), Ok(Table::default()));
}

#[test]
fn x64_codes() {
    let of = |op| {
        let codes = [Code::new(4, op)];
        seh(&[Prologue { symbol: 16, length: 9, end: 4, codes: &codes }]).unwrap().sites
    };
    assert_eq!(of(CodeOp::Alloc(128)), hex("01 04 01 00 04f2 0000"));
    assert_eq!(of(CodeOp::Alloc(136)), hex("01 04 02 00 04011100"));
    assert_eq!(of(CodeOp::Alloc(524_288)), hex("01 04 03 00 041100000800 0000"));
    assert_eq!(of(CodeOp::Push(6)), hex("01 04 01 00 0460 0000"));
    assert_eq!(of(CodeOp::Frame(5, 32)), hex("01 04 01 25 0403 0000"));
    let table = seh(&[Prologue { symbol: 16, length: 9, end: 0, codes: &[] }]).unwrap();
    assert_eq!(table.sites, [1, 0, 0, 0]);
    assert_eq!(table.relocations[2].target(), Some(Target::Marker(16)));
    assert_eq!(table.relocations[2].kind(), Some(Kind::Image));
}

#[test]
fn formats_without_a_table_and_empty_lists() {
    let function = Function::new(3, 6, &[]);
    for format in [Format::Wasm, Format::Plan9] {
        assert_eq!(relaxed_table(X86, format, &[function]), Ok(Table::default()));
    }
    assert_eq!(relaxed_table(X86, Format::Elf, &[]), Ok(Table::default()));
    assert_eq!(seh(&[]), Ok(Table::default()));
}

#[test]
fn refusals_of_the_writers() {
    fn table(function: Function<'_>) -> Result<Table, Refusal> {
        relaxed_table(X86, Format::Elf, &[Function::new(16, 1, &[]), function])
    }
    let with = |op| table(Function::new(17, 99, &[Row::new(5, op)]));
    assert_eq!(table(Function::new(15, 1, &[])), refused(13, 0));
    assert_eq!(table(Function::new(17, 1 << 32, &[])), refused(21, 1));
    assert_eq!(with(Op::Offset(6, -12)), refused(24, 1));
    assert_eq!(with(Op::DefCfaOffset(-4)), refused(24, 1));
    let back = [Row::new(5, Op::NegateRaState), Row::new(4, Op::NegateRaState)];
    assert_eq!(table(Function::new(17, 99, &back)), refused(23, 1));
    let pointer = Pointer { encoding: 0x01, symbol: 40 };
    let named = Function { personality: Some(Personality { pointer, lsda: None }), ..Function::new(17, 1, &[]) };
    assert_eq!(table(named), refused(22, 1));
    let pairs = [Pair { first: 5, second: 5, first_symbol: 20, second_symbol: 21 }];
    let relaxed = Function { relaxed: Some(Relaxed { end: 18, pairs: &pairs }), ..Function::new(17, 1, &[]) };
    assert_eq!(table(relaxed), refused(25, 1));
    let odd = Machine { pushed: 4, ..Machine::X86_64 };
    assert_eq!(relaxed_table(&odd, Format::Elf, &[Function::new(16, 1, &[])]), refused(11, 0));
    let mut wide = Machine::X86_64;
    wide.registers[3] = MachineRegister::Integer(128);
    assert_eq!(relaxed_table(&wide, Format::Elf, &[Function::new(16, 1, &[])]), refused(11, 0));
    let four = Machine { word: Word::Four, ..Machine::X86_64 };
    assert_eq!(relaxed_table(&four, Format::Coff, &[Function::new(16, 1, &[])]), refused(12, 0));
}

#[test]
fn refusals_of_direct_codes() {
    let of = |op| {
        let codes = [Code::new(4, op)];
        seh(&[Prologue { symbol: 16, length: 9, end: 4, codes: &codes }])
    };
    assert_eq!(of(CodeOp::Push(16)), refused(34, 0));
    assert_eq!(of(CodeOp::Alloc(12)), refused(36, 0));
    assert_eq!(of(CodeOp::Alloc(1 << 32)), refused(37, 0));
    assert_eq!(of(CodeOp::Save(3, -8)), refused(38, 0));
    assert_eq!(of(CodeOp::SaveVector(3, 1 << 32)), refused(39, 0));
    assert_eq!(of(CodeOp::Frame(5, 8)), refused(41, 0));
    let codes = [Code::new(1, CodeOp::Push(3)); 256];
    let long = Prologue { symbol: 17, length: 9, end: 1, codes: &codes };
    assert_eq!(seh(&[Prologue { end: 256, ..long }]), refused(35, 0));
    assert_eq!(seh(&[Prologue { codes: &[], ..long }, long]), refused(40, 1));
}

/// The buffers grow past the first guess, and lists past question 13's limits are not copied whole.
#[test]
fn long_lists() {
    let rows: Vec<Row> = (0..3000).map(|n| Row::new(70_000 * n, Op::DefCfa(64_000, i32::MAX))).collect();
    let table = relaxed_table(X86, Format::Elf, &[Function::new(16, 1, &rows)]).unwrap();
    assert!(table.bytes.len() > 13 * 3000);
    let landings = vec![Landing { start: 1 << 63, length: 1 << 63, pad: 1 << 63 }; 3000];
    let landed = Function { landings: &landings, ..Function::new(16, 1, &[]) };
    assert!(relaxed_table(X86, Format::Elf, &[landed]).unwrap().sites.len() > 30 * 3000);
    let pairs: Vec<Pair> =
        (1..3000).map(|n| Pair { first: 70_000 * (n - 1), second: 70_000 * n, first_symbol: 20, second_symbol: 21 }).collect();
    let relaxed = Function { relaxed: Some(Relaxed { end: 17, pairs: &pairs }), ..Function::new(16, 1, &rows) };
    assert!(relaxed_table(X86, Format::Elf, &[relaxed]).unwrap().relocations.len() > 2 * 2999);

    let shared = vec![Function::new(16, 1, &rows); 400];
    assert_eq!(relaxed_table(X86, Format::Elf, &shared), refused(13, 0));
    assert_eq!(relaxed_table(X86, Format::Elf, &vec![Function::new(16, 1, &[]); 65_537]), refused(13, 0));
    assert_eq!(relaxed_table(X86, Format::Elf, &vec![Function::new(16, 1, &[]); 65_536]).map(|t| t.places.len()), Ok(65_536));
    let codes = vec![Code::new(1, CodeOp::Push(3)); 200];
    let prologues = vec![Prologue { symbol: 16, length: 9, end: 1, codes: &codes }; 5300];
    assert_eq!(seh(&prologues), refused(13, 0));
    assert_eq!(seh(&prologues[..5000]).map(|t| t.places.len()), Ok(5000));
}

/// As many landings as question 13 allows, each as long as one can be: the buffer grows to its last size, 2^25 bytes.
#[test]
fn the_longest_call_sites() {
    let landings = vec![Landing { start: 1 << 63, length: 1 << 63, pad: 1 << 63 }; 1 << 20];
    let landed = Function { landings: &landings, ..Function::new(16, 1, &[]) };
    let sites = relaxed_table(X86, Format::Elf, &[landed]).unwrap().sites;
    assert!(sites.len() >= 31 << 20 && sites.len() < 1 << 25);
}

/// A refusal leaves the lent buffers as they were, and an accepted call what lies past its results.
#[test]
fn lent_buffers() {
    let rows = pushed_frame(5);
    let landings = [Landing { start: 1, length: 2, pad: 3 }];
    let packed = Packed::new(&[Function { landings: &landings, ..Function::new(16, 6, &rows) }]);
    let machine = X86.numbers();
    let write = |room: [usize; 4]| {
        let (mut places, mut bytes) = ([77; 9], [77; 99]);
        let (mut relocations, mut sites) = ([77; 99], [77; 99]);
        let mut lent = Lent {
            places: &mut places[..room[0]],
            bytes: &mut bytes[..room[1]],
            relocations: &mut relocations[..room[2]],
            sites: &mut sites[..room[3]],
        };
        let said = lists::relaxed_table(&machine, 0, packed.lists(), &mut lent);
        (said, places.iter().all(|n| *n == 77), bytes, relocations.iter().all(|n| *n == 77), sites)
    };
    let (said, _, bytes, _, sites) = write([9, 99, 99, 99]);
    let c = said.unwrap();
    assert_eq!((c.places, c.relocations), (1, 3));
    assert!(bytes[c.bytes..].iter().chain(&sites[c.sites..]).all(|n| *n == 77));
    let exact = [c.places, c.bytes, 5 * c.relocations, c.sites];
    assert_eq!(write(exact).0, Ok(c));
    for short in 0..4 {
        let mut room = exact;
        room[short] -= 1;
        let (said, places, bytes, relocations, sites) = write(room);
        assert_eq!(said, Err(Refusal { number: 51 + short as u64, position: 0 }));
        assert!(places && relocations && bytes.iter().chain(&sites).all(|n| *n == 77));
    }
}

#[test]
fn reading_what_was_written() {
    let rows = [
        Row::new(0, Op::NegateRaState),
        Row::new(2, Op::DefCfa(6, 24)),
        Row::new(2, Op::Undefined(3)),
        Row::new(4, Op::RememberState),
        Row::new(5, Op::Restore(16)),
        Row::new(6, Op::RestoreState),
        Row::new(6, Op::Offset(16, -32)),
        Row::new(7, Op::SameValue(12)),
        Row::new(8, Op::InRegister(3, 200)),
    ];
    let function = Function { simple: true, signal: true, ..Function::new(16, 9, &rows) };
    assert!(row_check(&function));
    let functions = [Function::new(17, 1, &[]), function];
    let frame = Frame::Register { register: 6, offset: 24 };
    let table = relaxed_table(X86, Format::Elf, &functions).unwrap();
    let debug = relaxed_debug_frame(X86, Format::Elf, &functions).unwrap();
    for (table, section) in [(table, Section::Eh), (debug, Section::Debug)] {
        let ask = |k, register, p| read(&table.bytes, &table.relocations, section, Word::Eight, k, register, p);
        assert_eq!(ask(1, 16, 1), Ok(Rules { frame: Frame::Unset, rule: Rule::Unstated, signing: true, shortest: true }));
        assert_eq!(ask(1, 3, 3), Ok(Rules { frame, rule: Rule::Undefined, signing: true, shortest: true }));
        assert_eq!(ask(1, 16, 8), Ok(Rules { frame, rule: Rule::Saved(-32), signing: true, shortest: true }));
        assert_eq!(ask(1, 12, 7), Ok(Rules { frame, rule: Rule::SameValue, signing: true, shortest: true }));
        assert_eq!(ask(1, 3, 8), Ok(Rules { frame, rule: Rule::InRegister(200), signing: true, shortest: true }));
        assert_eq!(ask(1, 16, 9), Err(Refusal { number: 65, position: 0 }));
        assert_eq!(ask(2, 16, 0), Err(Refusal { number: 62, position: 0 }));
        let cut = &table.bytes[..table.bytes.len() - 1];
        let said = read(cut, &table.relocations, section, Word::Eight, 0, 16, 0);
        assert_eq!(said, Err(Refusal { number: 61, position: 0 }));
    }
    assert_eq!(lists::read(&[], &[], 2, 8, 0, 0, 0), Err(Refusal { number: 11, position: 0 }));
}

#[test]
fn the_row_check() {
    let of = |simple, rows: &[Row]| row_check(&Function { simple, ..Function::new(16, 1, rows) });
    assert!(of(false, &[Row::new(0, Op::DefCfaOffset(8))]));
    assert!(!of(true, &[Row::new(0, Op::DefCfaOffset(8))]));
    assert!(!of(false, &[Row::new(0, Op::Restore(3))]));
    assert!(!of(false, &[Row::new(1, Op::RestoreState)]));
    assert!(of(false, &[Row::new(1, Op::RememberState); 16]));
    assert!(!of(false, &[Row::new(1, Op::RememberState); 17]));
    assert!(!lists::row_check(&[], &[], 0));
}

#[test]
fn questions_in_words() {
    let numbers = [11..=13, 21..=25, 31..=41, 51..=54, 61..=69, 71..=84];
    for number in 0..100 {
        let known = numbers.iter().any(|range| range.contains(&number));
        let refusal = Refusal { number, position: 0 };
        assert_eq!(refusal.question().is_some(), known);
        assert_eq!(refusal.asked().map(Question::number), known.then_some(number));
        assert!(refusal.asked().is_none_or(|question| !question.words().is_empty()));
    }
    assert_eq!(
        Refusal { number: 21, position: 3 }.to_string(),
        "refused by question 21 at function 3: does the function's length fit its field?"
    );
    assert_eq!(Refusal { number: 62, position: 0 }.to_string(), "refused by question 62: is there a record of that number?");
}

#[test]
fn relocations_applied() {
    let rows = [Row::new(1, Op::DefCfaOffset(16))];
    let table = relaxed_table(&Machine::X86_64, Format::Elf, &[Function::new(16, 9, &rows)]).unwrap();
    let at = |addresses: &[(u64, u64)], section| apply(&table.bytes, &table.relocations, addresses, section, 0);
    let placed = at(&[(16, 0x1000), (16, 5)], 0x2000).unwrap();
    assert_eq!(placed[32..36], (0x1000 - 0x2020_i32).to_le_bytes());
    assert_eq!((&placed[..32], &placed[36..]), (&table.bytes[..32], &table.bytes[36..]));
    assert_eq!(at(&[(17, 0x1000)], 0x2000).unwrap_err().number, 79);
    assert_eq!(at(&[(16, 0)], 1 << 32).unwrap_err().number, 79);
}

#[test]
fn the_ready_machines_are_the_librarys() {
    assert_eq!(Machine::X86_64.numbers(), lists::machine_x86_64());
    assert_eq!(Machine::AARCH64.numbers(), lists::machine_aarch64());
    assert_eq!(Machine::ARM.numbers(), lists::machine_arm());
    assert_eq!(Machine::RISCV64.numbers(), lists::machine_riscv64());
    assert_eq!(Machine::RISCV32.numbers(), lists::machine_riscv32());
}

/// `unwind_question_words` of the C header has the words of each question, and no other.
#[test]
fn the_headers_words_are_these() {
    let header = include_str!("../../../include/dekvoz.h");
    let mut listed = 0;
    for line in header.lines().filter_map(|line| line.trim().strip_prefix("case ")) {
        let (number, words) = line.split_once(": return \"").unwrap();
        let refusal = dekvoz::Refusal { number: number.parse().unwrap(), position: 0 };
        assert_eq!(refusal.asked().unwrap().words(), words.strip_suffix("\";").unwrap());
        listed += 1;
    }
    let known = (0..1000).filter(|&number| dekvoz::Refusal { number, position: 0 }.asked().is_some()).count();
    assert_eq!(listed, known);
}

/// A table of two sites behind two zeros, its length and the last number in long form, and a refusal of each kind.
#[test]
fn sites_of_a_table() {
    let sites = hex("0000 ffff01 8900 04060000 0a0214 8000");
    let site = |place, offset| dekvoz::call_site(&sites, place, offset);
    assert_eq!(site(2, 3), Ok(None));
    assert_eq!(site(2, 9), Ok(Some(Site { start: 4, length: 6, pad: 0, shortest: false })));
    assert_eq!(site(2, 11), Ok(Some(Site { start: 10, length: 2, pad: 20, shortest: false })));
    assert_eq!(site(2, 12), Ok(None));
    assert_eq!(dekvoz::call_sites_shortest(&sites, 2), Ok(false));
    assert_eq!(site(0, 4).unwrap_err().number, 71);
    // Two sites that overlap: the first of the table counts.
    let both = hex("ffff01 08 06041e00 04091400");
    assert_eq!(dekvoz::call_site(&both, 0, 6), Ok(Some(Site { start: 6, length: 4, pad: 30, shortest: true })));
    assert_eq!(dekvoz::call_site(&both, 0, 5), Ok(Some(Site { start: 4, length: 9, pad: 20, shortest: true })));
    assert_eq!(dekvoz::call_site(&hex("ffff01 05 04060000 0a"), 0, 4).unwrap_err().number, 72);
    let far = hex("ffff01 0d ffffffffffffffffff01 01 00 00");
    assert_eq!(dekvoz::call_site(&far, 0, 4).unwrap_err().number, 72);
}

/// The prologue `push rbp; mov rbp, rsp; sub rsp, 32`, as GNU and LLVM compilers write it, and a refusal of each kind.
#[test]
fn x64_record() {
    let info = hex("01080305 0832 0403 0150 0000");
    let record = dekvoz::read_x64(&info, 0).unwrap();
    assert_eq!((record.end, record.frame), (8, (5, 0)));
    let codes = [Code::new(1, CodeOp::Push(5)), Code::new(4, CodeOp::Frame(5, 0)), Code::new(8, CodeOp::Alloc(32))];
    assert_eq!(record.codes, codes);
    assert_eq!(dekvoz::read_x64(&info, 9).unwrap_err().number, 76);
    assert_eq!(dekvoz::read_x64(&hex("01000100 0406"), 0).unwrap_err().number, 77);
    let mut held = [7; 14];
    assert_eq!(lists::read_x64(&info, 0, &mut held).unwrap_err().number, 54);
    assert_eq!(held, [7; 14]);
}

/// A record of length 0 passes the check whatever its header is (docs/DIFFERENCES.md): here one whose pointers have encoding 0x00, of which the
/// upper half stands where the check looks for the length.
#[test]
fn a_record_of_length_0_passes_the_check_unread() {
    let header = "10000000 00000000 01 7a5200 01 78 10 01 00 000000";
    let record = "18000000 18000000 0010400000000000 2000000000000000 00 000000";
    let mut section = hex(&[header, record].concat());
    assert_eq!(section.len(), 48);
    assert_eq!(check_section(&section, Word::Eight), Ok(()));
    let refused = Refusal { number: 64, position: 0 };
    assert_eq!(read(&section, &[], Section::Eh, Word::Eight, 0, 16, 0), Err(refused));
    section[32] = 1;
    assert_eq!(check_section(&section, Word::Eight), Err(CheckRefusal::Record(0)));
}
