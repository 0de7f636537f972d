//! A section taken apart: its entries, the fields of headers and records, and their operations.
//!
//! ```
//! use dekvoz::parts::{entries, header, operations, record, Operation};
//! use dekvoz::{relaxed_table, Format, Function, Machine, Op, Row, Section, Word};
//!
//! let rows = [Row::new(1, Op::DefCfaOffset(16)), Row::new(1, Op::Offset(6, -16))];
//! let table = relaxed_table(&Machine::X86_64, Format::Elf, &[Function::new(16, 31, &rows)])?;
//! let found = entries(&table.bytes, Section::Eh).collect::<Result<Vec<_>, _>>()?;
//! assert_eq!(found.iter().map(|e| e.header).collect::<Vec<_>>(), [true, false]);
//! let cie = header(&table.bytes, Section::Eh, Word::Eight, found[0].place).map_err(|no| no.refusal)?;
//! assert_eq!(cie.return_register, 16);
//! let fde = record(&table.bytes, Section::Eh, Word::Eight, cie.pointer, found[1].place).map_err(|no| no.refusal)?;
//! assert_eq!(fde.length, 31);
//! let first = operations(&table.bytes, fde.operations, Word::Eight).next().unwrap()?;
//! assert_eq!(first.operation, Operation::Step(1));
//! # Ok::<(), dekvoz::Refusal>(())
//! ```

use core::iter::FusedIterator;
use core::ops::Range;

use crate::sys;
use crate::{Refusal, Section, Word};

/// An entry of a section.
#[derive(Clone, Copy, Debug, PartialEq, Eq, Hash)]
pub struct Entry {
    /// A header (CIE), not a record (FDE).
    pub header: bool,
    /// Where it stands.
    pub place: u64,
    /// The value of its length field.
    pub length: u64,
    /// Where the next one stands.
    pub next: u64,
}

/// The field at fault in a header or a record.
#[derive(Clone, Copy, Debug, PartialEq, Eq, Hash)]
pub enum Field {
    /// A header's version is 1.
    Version,
    /// The augmentation string is one that is written.
    AugmentationString,
    /// The code alignment factor is 1.
    CodeAlignmentFactor,
    /// The data alignment factor is minus the word.
    DataAlignmentFactor,
    /// The return address register has 16 bits.
    ReturnAddressRegister,
    /// A header's augmentation data is what its string promises.
    HeaderAugmentationData,
    /// The function's place is there.
    Function,
    /// The function's length is there.
    Length,
    /// A record's augmentation data is there, and holds its pointer to call sites.
    RecordAugmentationData,
}

impl Field {
    const fn of(number: u64) -> Option<Field> {
        Some(match number {
            1 => Field::Version,
            2 => Field::AugmentationString,
            3 => Field::CodeAlignmentFactor,
            4 => Field::DataAlignmentFactor,
            5 => Field::ReturnAddressRegister,
            6 => Field::HeaderAugmentationData,
            7 => Field::Function,
            8 => Field::Length,
            9 => Field::RecordAugmentationData,
            _ => return None,
        })
    }
}

/// A header or a record that cannot be read.
#[derive(Clone, Copy, Debug, PartialEq, Eq, Hash)]
pub struct Fault {
    /// The question that was answered by no.
    pub refusal: Refusal,
    /// The field at fault, exactly where the question is 64.
    pub field: Option<Field>,
}

/// The fields of a header (CIE).
#[derive(Clone, Debug, PartialEq, Eq, Hash)]
pub struct Header {
    /// The string promises a personality.
    pub personality: bool,
    /// It promises pointers to call sites in the records.
    pub lsda: bool,
    /// It marks a signal frame.
    pub signal: bool,
    /// The return address register.
    pub return_register: u64,
    /// The bytes of a record's pointer to call sites.
    pub pointer: u64,
    /// Where its operations stand.
    pub operations: Range<u64>,
}

/// The fields of a record (FDE).
#[derive(Clone, Debug, PartialEq, Eq, Hash)]
pub struct Record {
    /// The second field: what says where its header stands.
    pub header: u64,
    /// The function's place, as it stands.
    pub function: u64,
    /// The function's length.
    pub length: u64,
    /// Where the pointer to call sites stands.
    pub call_sites: Option<u64>,
    /// Where its operations stand.
    pub operations: Range<u64>,
}

/// An operation. Offsets are unfactored.
#[derive(Clone, Copy, Debug, PartialEq, Eq, Hash)]
pub enum Operation {
    /// The frame address is this register plus this offset.
    DefCfa(u64, i64),
    /// The frame address's offset is this.
    DefCfaOffset(i64),
    /// The frame address's register is this.
    DefCfaRegister(u64),
    /// The register is saved at the frame address plus this offset.
    Offset(u64, i64),
    /// The register's rule is the header's.
    Restore(u64),
    /// The register's value is gone.
    Undefined(u64),
    /// The rules are stored.
    RememberState,
    /// The rules stored last are taken back.
    RestoreState,
    /// Whether the return address is signed changes.
    NegateRaState,
    /// The register keeps its value.
    SameValue(u64),
    /// The first register's value is in the second.
    InRegister(u64, u64),
    /// Padding.
    Nop,
    /// So many bytes of code are passed.
    Step(u64),
}

impl Operation {
    /// The register that the operation gives a rule. Registers have 16 bits by question 66.
    ///
    /// ```
    /// use dekvoz::parts::Operation;
    ///
    /// assert_eq!(Operation::Offset(6, -16).ruled(), Some(6));
    /// assert_eq!(Operation::DefCfaOffset(16).ruled(), None);
    /// ```
    #[must_use]
    pub const fn ruled(self) -> Option<u16> {
        match self {
            Operation::Offset(register, _)
            | Operation::Restore(register)
            | Operation::Undefined(register)
            | Operation::SameValue(register)
            | Operation::InRegister(register, _) => Some(register as u16),
            _ => None,
        }
    }
}

/// An operation where it stands.
#[derive(Clone, Copy, Debug, PartialEq, Eq, Hash)]
pub struct OperationAt {
    /// Where it stands.
    pub place: u64,
    /// Its first byte.
    pub opcode: u8,
    /// What it does.
    pub operation: Operation,
    /// Where the next one stands.
    pub next: u64,
}

/// An operation that cannot be read.
#[derive(Clone, Copy, Debug, PartialEq, Eq, Hash)]
pub struct Unread {
    /// The question that was answered by no.
    pub refusal: Refusal,
    /// Where it stands.
    pub place: u64,
    /// Its first byte, 0 where it lies outside of the section.
    pub opcode: u8,
}

impl From<Unread> for Refusal {
    fn from(no: Unread) -> Refusal {
        no.refusal
    }
}

impl From<Fault> for Refusal {
    fn from(no: Fault) -> Refusal {
        no.refusal
    }
}

const ENDED: u64 = 62;

const fn refusal(number: u64) -> Refusal {
    Refusal { number, position: 0 }
}

/// The entries of a section, in order; 61 where none fits the rest of the section, and then no more.
///
/// ```
/// use dekvoz::{parts::entries, relaxed_table, Format, Function, Machine, Section};
///
/// let table = relaxed_table(&Machine::X86_64, Format::Elf, &[Function::new(16, 9, &[])])?;
/// let found = entries(&table.bytes, Section::Eh).collect::<Result<Vec<_>, _>>()?;
/// assert_eq!(found.iter().map(|entry| (entry.header, entry.place)).collect::<Vec<_>>(), [(true, 0), (false, 24)]);
/// # Ok::<(), dekvoz::Refusal>(())
/// ```
pub fn entries(section: &[u8], kind: Section) -> Entries<'_> {
    Entries { section, kind, at: 0, ended: false }
}

/// The iterator of [`entries`].
#[derive(Clone, Debug)]
pub struct Entries<'a> {
    section: &'a [u8],
    kind: Section,
    at: u64,
    ended: bool,
}

impl Iterator for Entries<'_> {
    type Item = Result<Entry, Refusal>;

    fn next(&mut self) -> Option<Self::Item> {
        if self.ended {
            return None;
        }
        // SAFETY: the pointer and the count are a slice's, borrowed for the call.
        let e = unsafe { sys::unwind_next_entry(self.section.as_ptr(), self.section.len(), self.kind.number(), self.at) };
        if e.number != 0 {
            self.ended = true;
            return (e.number != ENDED).then_some(Err(refusal(e.number)));
        }
        self.at = e.next;
        Some(Ok(Entry { header: e.header == 1, place: e.place, length: e.length, next: e.next }))
    }
}

impl FusedIterator for Entries<'_> {}

/// The header at a place.
///
/// # Errors
/// 61 where no entry stands there, 63 where it is a record, 64 with the field at fault.
///
/// ```
/// use dekvoz::{parts::header, relaxed_table, Format, Function, Machine, Section, Word};
///
/// let table = relaxed_table(&Machine::X86_64, Format::Elf, &[Function::new(16, 9, &[])])?;
/// assert_eq!(header(&table.bytes, Section::Eh, Word::Eight, 0)?.return_register, 16);
/// // A record stands at 24.
/// assert_eq!(header(&table.bytes, Section::Eh, Word::Eight, 24).map_err(|no| no.refusal.number), Err(63));
/// # Ok::<(), dekvoz::Refusal>(())
/// ```
pub fn header(section: &[u8], kind: Section, word: Word, place: u64) -> Result<Header, Fault> {
    // SAFETY: the pointer and the count are a slice's, borrowed for the call.
    let h = unsafe { sys::unwind_read_header(section.as_ptr(), section.len(), kind.number(), word.bytes(), place) };
    if h.number != 0 {
        return Err(Fault { refusal: refusal(h.number), field: Field::of(h.field) });
    }
    Ok(Header {
        personality: h.personality == 1,
        lsda: h.lsda == 1,
        signal: h.signal == 1,
        return_register: h.return_register,
        pointer: h.pointer,
        operations: h.operations..h.end,
    })
}

/// The record at a place, with its header's pointer size.
///
/// # Errors
/// 61 where no entry stands there, 62 where it is a header, 64 with the field at fault.
///
/// ```
/// use dekvoz::{parts::record, relaxed_table, Format, Function, Machine, Section, Word};
///
/// let table = relaxed_table(&Machine::X86_64, Format::Elf, &[Function::new(16, 9, &[])])?;
/// assert_eq!(record(&table.bytes, Section::Eh, Word::Eight, 0, 24)?.length, 9);
/// # Ok::<(), dekvoz::Refusal>(())
/// ```
pub fn record(section: &[u8], kind: Section, word: Word, pointer: u64, place: u64) -> Result<Record, Fault> {
    // SAFETY: the pointer and the count are a slice's, borrowed for the call.
    let r = unsafe { sys::unwind_read_record(section.as_ptr(), section.len(), kind.number(), word.bytes(), pointer, place) };
    if r.number != 0 {
        return Err(Fault { refusal: refusal(r.number), field: Field::of(r.field) });
    }
    Ok(Record {
        header: r.header,
        function: r.function,
        length: r.length,
        call_sites: (r.call_sites != 0).then_some(r.call_sites),
        operations: r.operations..r.end,
    })
}

/// The operations in a range of a section, in order; 66 where none can be read, and then no more.
///
/// ```
/// use dekvoz::{parts::{operations, Operation}, Word};
///
/// let found = operations(&[0x41, 0x0e, 16], 0..3, Word::Eight).collect::<Result<Vec<_>, _>>()?;
/// assert_eq!(found.iter().map(|o| o.operation).collect::<Vec<_>>(), [Operation::Step(1), Operation::DefCfaOffset(16)]);
/// # Ok::<(), dekvoz::Refusal>(())
/// ```
pub fn operations(section: &[u8], range: Range<u64>, word: Word) -> Operations<'_> {
    Operations { section, range, word, ended: false }
}

/// The iterator of [`operations`].
#[derive(Clone, Debug)]
pub struct Operations<'a> {
    section: &'a [u8],
    range: Range<u64>,
    word: Word,
    ended: bool,
}

impl Iterator for Operations<'_> {
    type Item = Result<OperationAt, Unread>;

    fn next(&mut self) -> Option<Self::Item> {
        if self.ended {
            return None;
        }
        let (section, Range { start, end }) = (self.section, self.range.clone());
        // SAFETY: the pointer and the count are a slice's, borrowed for the call.
        let o = unsafe { sys::unwind_read_operation(section.as_ptr(), section.len(), start, end, self.word.bytes()) };
        let opcode = (o.opcode & 0xff) as u8;
        if o.number != 0 {
            self.ended = true;
            return (o.number != ENDED).then_some(Err(Unread { refusal: refusal(o.number), place: start, opcode }));
        }
        self.range.start = o.next;
        Some(Ok(OperationAt { place: start, opcode, operation: operation(o.kind, o.reg, o.value), next: o.next }))
    }
}

impl FusedIterator for Operations<'_> {}

const fn operation(kind: u64, register: u64, value: u64) -> Operation {
    let offset = value as i64;
    match kind {
        0 => Operation::DefCfa(register, offset),
        1 => Operation::DefCfaOffset(offset),
        2 => Operation::DefCfaRegister(register),
        3 => Operation::Offset(register, offset),
        4 => Operation::Restore(register),
        5 => Operation::Undefined(register),
        6 => Operation::RememberState,
        7 => Operation::RestoreState,
        8 => Operation::NegateRaState,
        9 => Operation::SameValue(register),
        10 => Operation::InRegister(register, value),
        17 => Operation::Step(value),
        // 16; the library answers no other kind.
        _ => Operation::Nop,
    }
}
