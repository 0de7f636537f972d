//! The writers that make their own buffers, and the row check and the readers over this crate's types.

use alloc::vec;
use alloc::vec::Vec;

use crate::lists::{self, Counts, Lent, Lists, Packed, PackedCodes};
use crate::{Code, Format, Function, Machine, Prologue, Refusal, Relocation, Row, Rules, Section, Site, Word, X64Record};

/// No result of a writer has as many elements: question 13 keeps each below this.
const MOST: usize = 1 << 25;

/// What a writer wrote. All four are empty where the format has no table or the list has no function.
#[derive(Clone, Debug, Default, PartialEq, Eq)]
pub struct Table {
    /// The place of each function's header; in COFF, of [`seh`] and of [`arm64::write`](crate::arm64::write) the markers, the place of
    /// each function's info.
    pub places: Vec<u64>,
    /// The section.
    pub bytes: Vec<u8>,
    /// The section's relocations.
    pub relocations: Vec<Relocation>,
    /// The call sites; in COFF, of [`seh`] and of [`arm64::write`](crate::arm64::write) the info.
    pub sites: Vec<u8>,
}

impl Table {
    fn of_room(room: [usize; 4]) -> Table {
        let [places, bytes, relocations, sites] = room;
        Table {
            places: vec![0; places],
            bytes: vec![0; bytes],
            relocations: vec![Relocation::default(); relocations],
            sites: vec![0; sites],
        }
    }

    fn lend(&mut self) -> Lent<'_> {
        Lent {
            places: &mut self.places,
            bytes: &mut self.bytes,
            relocations: Relocation::numbers_mut(&mut self.relocations),
            sites: &mut self.sites,
        }
    }

    fn cut(mut self, to: Counts) -> Table {
        self.places.truncate(to.places);
        self.bytes.truncate(to.bytes);
        self.relocations.truncate(to.relocations);
        self.sites.truncate(to.sites);
        self
    }
}

/// Twice the room of the buffer that was too small, or `None` where that was not the question or no more room can be needed.
fn larger(room: [usize; 4], number: u64) -> Option<[usize; 4]> {
    let mut larger = room;
    let at = usize::try_from(number.checked_sub(51)?).ok()?;
    let slot = larger.get_mut(at)?;
    if *slot >= MOST {
        return None;
    }
    *slot = slot.saturating_mul(2).clamp(1, MOST);
    Some(larger)
}

/// Calls a writer until its results fit. A refusal writes nothing, so it can be called again.
pub(crate) fn grow(
    first: [usize; 4],
    mut write: impl FnMut(&mut Lent<'_>) -> Result<Counts, Refusal>,
) -> Result<Table, Refusal> {
    let mut room = first;
    loop {
        let mut table = Table::of_room(room);
        match write(&mut table.lend()) {
            Ok(counts) => return Ok(table.cut(counts)),
            Err(refusal) => room = larger(room, refusal.number).ok_or(refusal)?,
        }
    }
}

/// Room for a usual list: places exactly, of the rest what most lists need.
pub(crate) fn usual(functions: usize, records: usize) -> [usize; 4] {
    let of = |each: usize, record: usize| {
        let sum = functions.saturating_mul(each).saturating_add(records.saturating_mul(record));
        sum.saturating_add(64).min(MOST)
    };
    [functions, of(40, 5), of(3, 0), of(8, 4)]
}

/// The same, of packed functions; they are no more than question 13 allows, and one.
fn usual_of(lists: &Lists<'_>) -> [usize; 4] {
    usual(lists.functions.len() / 18, (lists.rows.len() / 4).saturating_add(lists.landings.len() / 3))
}

/// The table of these functions: eh_frame of ELF, x64 unwind data of COFF, nothing of Wasm and Plan 9.
///
/// # Errors
/// The question that was answered by no. 51 to 54 do not occur: the buffers grow until the results fit.
///
/// ```
/// use dekvoz::{relaxed_table, Format, Function, Machine, Op, Row};
///
/// let rows = [Row::new(1, Op::DefCfaOffset(16)), Row::new(1, Op::Offset(6, -16))];
/// let table = relaxed_table(&Machine::X86_64, Format::Elf, &[Function::new(16, 9, &rows)])?;
/// assert_eq!(table.bytes.len(), 48);
/// assert_eq!(table.relocations[0].place, 32);
/// # Ok::<(), dekvoz::Refusal>(())
/// ```
pub fn relaxed_table(machine: &Machine, format: Format, functions: &[Function<'_>]) -> Result<Table, Refusal> {
    let packed = Packed::new(functions);
    let (machine, lists) = (machine.numbers(), packed.lists());
    grow(usual_of(&lists), |lent| lists::relaxed_table(&machine, format.number(), lists, lent))
}

/// The same rows as a debugger's copy: debug_frame of ELF, nothing of any other format.
///
/// # Errors
/// The question that was answered by no. 51 to 54 do not occur: the buffers grow until the results fit.
///
/// ```
/// use dekvoz::{read, relaxed_debug_frame, Format, Function, Machine, Rule, Section, Word};
///
/// let table = relaxed_debug_frame(&Machine::X86_64, Format::Elf, &[Function::new(16, 9, &[])])?;
/// let rules = read(&table.bytes, &table.relocations, Section::Debug, Word::Eight, 0, 16, 3)?;
/// assert_eq!(rules.rule, Rule::Saved(-8));
/// # Ok::<(), dekvoz::Refusal>(())
/// ```
pub fn relaxed_debug_frame(machine: &Machine, format: Format, functions: &[Function<'_>]) -> Result<Table, Refusal> {
    let packed = Packed::new(functions);
    let (machine, lists) = (machine.numbers(), packed.lists());
    grow(usual_of(&lists), |lent| lists::relaxed_debug_frame(&machine, format.number(), lists, lent))
}

/// Windows x64 unwind data of direct codes.
///
/// # Errors
/// The question that was answered by no. 51 to 54 do not occur: the buffers grow until the results fit.
///
/// ```
/// use dekvoz::{seh, Code, CodeOp, Prologue};
///
/// let codes = [Code::new(4, CodeOp::Alloc(128))];
/// let table = seh(&[Prologue { symbol: 16, length: 9, end: 4, codes: &codes }])?;
/// assert_eq!(table.sites, [1, 4, 1, 0, 4, 0xf2, 0, 0]);
/// # Ok::<(), dekvoz::Refusal>(())
/// ```
pub fn seh(functions: &[Prologue<'_>]) -> Result<Table, Refusal> {
    let packed = PackedCodes::new(functions);
    let room = usual(packed.functions().len() / 5, packed.codes().len() / 5);
    grow(room, |lent| lists::seh(packed.functions(), packed.codes(), lent))
}

/// Whether a function's rows can be run at every offset: where the answer is yes and the function has no relaxing labels,
/// [`read`] answers at every offset below its length what the rows state.
///
/// ```
/// use dekvoz::{row_check, Function, Op, Row};
///
/// assert!(row_check(&Function::new(16, 9, &[Row::new(1, Op::DefCfaOffset(16))])));
/// assert!(!row_check(&Function::new(16, 9, &[Row::new(1, Op::RestoreState)])));
/// ```
#[must_use]
pub fn row_check(function: &Function<'_>) -> bool {
    let rows: Vec<u64> = function.rows.iter().flat_map(Row::numbers).collect();
    let mut record = [0; 18];
    let [_, _, _, count, _, _, simple, ..] = &mut record;
    *count = function.rows.len() as u64;
    *simple = u64::from(function.simple);
    lists::row_check(&record, &rows, 0)
}

/// The rules of record `k` at offset `p` of its function, for one register (a DWARF number). Records are counted from 0: in a
/// section that a writer wrote, record `k` is function `k`'s. Nothing is allocated.
///
/// # Errors
/// The question that was answered by no, 61 to 69; the section may be any bytes.
///
/// ```
/// use dekvoz::{read, relaxed_table, Format, Frame, Function, Machine, Op, Row, Rule, Section, Word};
///
/// let rows = [Row::new(1, Op::DefCfaOffset(16)), Row::new(1, Op::Offset(6, -16))];
/// let table = relaxed_table(&Machine::X86_64, Format::Elf, &[Function::new(16, 9, &rows)])?;
/// let rules = read(&table.bytes, &table.relocations, Section::Eh, Word::Eight, 0, 6, 3)?;
/// assert_eq!(rules.frame, Frame::Register { register: 7, offset: 16 });
/// assert_eq!(rules.rule, Rule::Saved(-16));
/// # Ok::<(), dekvoz::Refusal>(())
/// ```
pub fn read(
    section: &[u8],
    relocations: &[Relocation],
    kind: Section,
    word: Word,
    k: u64,
    register: u16,
    p: u64,
) -> Result<Rules, Refusal> {
    lists::read(section, Relocation::numbers(relocations), kind.number(), word.bytes(), k, register, p)
}

/// The first site of the table at a place of the call sites that covers a code offset, or `None` where no entry does. The place is the addend of the record's relocation to symbol 1. The bytes may be any.
///
/// # Errors
/// The question that was answered by no: 71 or 72.
///
/// ```
/// use dekvoz::{call_site, relaxed_table, Format, Function, Landing, Machine, Site};
///
/// let landings = [Landing { start: 4, length: 6, pad: 20 }];
/// let function = Function { landings: &landings, ..Function::new(16, 30, &[]) };
/// let table = relaxed_table(&Machine::X86_64, Format::Elf, &[function])?;
/// let pointer = table.relocations.iter().find(|r| r.symbol == 1).unwrap();
/// assert_eq!(call_site(&table.sites, pointer.addend, 9)?, Some(Site { start: 4, length: 6, pad: 20, shortest: true }));
/// assert_eq!(call_site(&table.sites, pointer.addend, 10)?, None);
/// # Ok::<(), dekvoz::Refusal>(())
/// ```
pub fn call_site(sites: &[u8], place: u64, offset: u64) -> Result<Option<Site>, Refusal> {
    lists::call_site(sites, place, offset)
}

/// Whether every number of the table at a place of the call sites, its length and its entries', is spelled in as few bytes as can be.
///
/// # Errors
/// The question that was answered by no: 71 or 72.
pub fn call_sites_shortest(sites: &[u8], place: u64) -> Result<bool, Refusal> {
    lists::call_sites_shortest(sites, place)
}

/// The codes of a record are at most as many as its slots.
const MOST_CODES: usize = 255;

/// The x64 record at a place of the info: [`seh`]'s and COFF's markers are such places. The bytes may be any.
///
/// # Errors
/// The question that was answered by no: 76 or 77.
///
/// ```
/// use dekvoz::{read_x64, seh, Code, CodeOp, Prologue};
///
/// let codes = [Code::new(1, CodeOp::Push(5)), Code::new(4, CodeOp::Frame(5, 0)), Code::new(8, CodeOp::Alloc(32))];
/// let table = seh(&[Prologue { symbol: 16, length: 99, end: 8, codes: &codes }])?;
/// let record = read_x64(&table.sites, table.places[0])?;
/// assert_eq!((record.end, record.frame), (8, (5, 0)));
/// assert_eq!(record.codes, codes);
/// # Ok::<(), dekvoz::Refusal>(())
/// ```
pub fn read_x64(info: &[u8], place: u64) -> Result<X64Record, Refusal> {
    let mut numbers = [[0u64; 5]; MOST_CODES];
    let header = lists::read_x64(info, place, numbers.as_flattened_mut())?;
    let codes = numbers.iter().take(header.codes).map(Code::of).collect();
    Ok(X64Record { end: header.end, frame: (header.frame_register, header.frame_offset), codes })
}

/// A section with its relocations applied: symbols with their addresses (the first of a symbol counts), the address of the section's first
/// byte, and the image's.
///
/// # Errors
/// 79 or 80.
///
/// ```
/// use dekvoz::{apply, relaxed_table, Format, Function, Machine, Op, Row};
///
/// let rows = [Row::new(1, Op::DefCfaOffset(16))];
/// let table = relaxed_table(&Machine::X86_64, Format::Elf, &[Function::new(16, 9, &rows)])?;
/// let placed = apply(&table.bytes, &table.relocations, &[(16, 0x1000)], 0x2000, 0)?;
/// // The record's field at 32 holds the distance to the function.
/// assert_eq!(placed[32..36], (0x1000 - 0x2020_i32).to_le_bytes());
/// # Ok::<(), dekvoz::Refusal>(())
/// ```
pub fn apply(
    bytes: &[u8],
    relocations: &[Relocation],
    addresses: &[(u64, u64)],
    section: u64,
    image: u64,
) -> Result<Vec<u8>, Refusal> {
    let addresses: Vec<u64> = addresses.iter().flat_map(|&(symbol, address)| [symbol, address]).collect();
    let mut out = vec![0; bytes.len()];
    lists::apply(bytes, Relocation::numbers(relocations), &addresses, section, image, &mut out)?;
    Ok(out)
}
