//! Windows unwind data for ARM64, written and read: an entry of .pdata, whose second word is packed or means a record of .xdata.
//!
//! ```
//! use dekvoz::arm64::{entry, read, write, Code, Function};
//!
//! // stp x19, x20, [sp, -16]!; stp x29, lr, [sp, -16]!; mov x29, sp; ..; ldp x29, lr, [sp], 16; ldp x19, x20, [sp], 16; ret
//! let small = Function::new(16, 40)
//!     .prologue(&[Code::R19R20X(16), Code::FplrX(16), Code::SetFp])
//!     .epilogue(28, &[Code::FplrX(16), Code::R19R20X(16)]);
//! // The same with a second way out: that takes a record.
//! let two = Function { symbol: 17, ..small.clone() }.epilogue(12, &[Code::FplrX(16), Code::R19R20X(16)]);
//! let table = write(&[small.clone(), two.clone()])?;
//! assert_eq!(table.places, [u64::MAX, 0]);
//! assert_eq!(table.bytes[4..8], 0x0162_0029u32.to_le_bytes());
//! // What was written reads as it was given.
//! for (k, function) in [small, two].iter().enumerate() {
//!     let (word, place) = entry(&table, k).ok_or("no such function")?;
//!     let read = read(word, &table.sites, place)?;
//!     assert_eq!((read.length, &read.prologue, &read.epilogues), (function.length, &function.prologue, &function.epilogues));
//! }
//! # Ok::<(), Box<dyn std::error::Error>>(())
//! ```
//!
//! The reader takes any word and any bytes:
//!
//! ```
//! use dekvoz::arm64::{read, Code, Epilogue};
//!
//! // stp x19, x20, [sp, -16]!; stp x29, lr, [sp, -16]!; mov x29, sp; ..; ldp x29, lr, [sp], 16; ldp x19, x20, [sp], 16; ret
//! let packed = read(0x0162_0029, &[], 0)?;
//! assert_eq!(packed.length, 40);
//! assert_eq!(packed.prologue, [Code::R19R20X(16), Code::FplrX(16), Code::SetFp]);
//! assert_eq!(packed.epilogues, [Epilogue { start: 28, codes: vec![Code::FplrX(16), Code::R19R20X(16)] }]);
//! // The same as a record.
//! let info = [0x0a, 0x00, 0x60, 0x08, 0xe1, 0x81, 0x22, 0xe4];
//! assert_eq!(read(0, &info, 0)?, packed);
//! # Ok::<(), dekvoz::Refusal>(())
//! ```

use alloc::vec;
use alloc::vec::Vec;

use crate::lists::{add, counts, Counts as Sizes, Lent, MOST_FUNCTIONS};
use crate::write::{grow, usual};
use crate::{sys, Refusal, Table};

/// An unwind code, by the instruction of a prologue that it stands for. Registers are by number, x19 is 19 and d8 is 8; offsets and sizes
/// are in bytes. An epilogue's code stands for the instruction that undoes it.
#[derive(Clone, Copy, Debug, PartialEq, Eq, Hash)]
pub enum Code {
    /// `sub sp, sp, size`
    Alloc(u32),
    /// `stp x19, x20, [sp, -offset]!`
    R19R20X(u32),
    /// `stp x29, lr, [sp, offset]`
    Fplr(u32),
    /// `stp x29, lr, [sp, -offset]!`
    FplrX(u32),
    /// `stp x, next x, [sp, offset]`
    Regp(u8, u32),
    /// `stp x, next x, [sp, -offset]!`
    RegpX(u8, u32),
    /// `str x, [sp, offset]`
    Reg(u8, u32),
    /// `str x, [sp, -offset]!`
    RegX(u8, u32),
    /// `stp x, lr, [sp, offset]`
    Lrpair(u8, u32),
    /// `stp d, next d, [sp, offset]`
    Fregp(u8, u32),
    /// `stp d, next d, [sp, -offset]!`
    FregpX(u8, u32),
    /// `str d, [sp, offset]`
    Freg(u8, u32),
    /// `str d, [sp, -offset]!`
    FregX(u8, u32),
    /// `mov x29, sp`
    SetFp,
    /// `add x29, sp, offset`
    AddFp(u32),
    /// An instruction that the unwinder passes over.
    Nop,
    /// The pair that follows the one before, 16 bytes up.
    SaveNext,
    /// `pacibsp`
    PacSignLr,
}

impl Code {
    /// The three numbers of a code: kind, register, offset.
    ///
    /// ```
    /// use dekvoz::arm64::Code;
    ///
    /// assert_eq!(Code::Regp(21, 16).numbers(), [4, 21, 16]);
    /// assert_eq!(Code::SetFp.numbers(), [13, 0, 0]);
    /// ```
    #[must_use]
    pub fn numbers(&self) -> [u64; 3] {
        let (kind, register, offset) = match *self {
            Code::Alloc(size) => (0, 0, size),
            Code::R19R20X(offset) => (1, 0, offset),
            Code::Fplr(offset) => (2, 0, offset),
            Code::FplrX(offset) => (3, 0, offset),
            Code::Regp(register, offset) => (4, register, offset),
            Code::RegpX(register, offset) => (5, register, offset),
            Code::Reg(register, offset) => (6, register, offset),
            Code::RegX(register, offset) => (7, register, offset),
            Code::Lrpair(register, offset) => (8, register, offset),
            Code::Fregp(register, offset) => (9, register, offset),
            Code::FregpX(register, offset) => (10, register, offset),
            Code::Freg(register, offset) => (11, register, offset),
            Code::FregX(register, offset) => (12, register, offset),
            Code::SetFp => (13, 0, 0),
            Code::AddFp(offset) => (14, 0, offset),
            Code::Nop => (15, 0, 0),
            Code::SaveNext => (16, 0, 0),
            Code::PacSignLr => (17, 0, 0),
        };
        [kind, u64::from(register), u64::from(offset)]
    }

    /// A code by its three numbers: kind, register, offset. `None` where they are not ones that the reader gives.
    #[must_use]
    pub fn of(&[kind, register, offset]: &[u64; 3]) -> Option<Code> {
        let (register, offset) = (u8::try_from(register).ok()?, u32::try_from(offset).ok()?);
        Some(match kind {
            0 => Code::Alloc(offset),
            1 => Code::R19R20X(offset),
            2 => Code::Fplr(offset),
            3 => Code::FplrX(offset),
            4 => Code::Regp(register, offset),
            5 => Code::RegpX(register, offset),
            6 => Code::Reg(register, offset),
            7 => Code::RegX(register, offset),
            8 => Code::Lrpair(register, offset),
            9 => Code::Fregp(register, offset),
            10 => Code::FregpX(register, offset),
            11 => Code::Freg(register, offset),
            12 => Code::FregX(register, offset),
            13 => Code::SetFp,
            14 => Code::AddFp(offset),
            15 => Code::Nop,
            16 => Code::SaveNext,
            17 => Code::PacSignLr,
            _ => return None,
        })
    }
}

/// An epilogue.
#[derive(Clone, Debug, PartialEq, Eq, Hash)]
pub struct Epilogue {
    /// Where it starts, in bytes from the function's start.
    pub start: u64,
    /// Its codes, in the order of the instructions, without the `ret`.
    pub codes: Vec<Code>,
}

/// A function to be written.
#[derive(Clone, Debug, Default, PartialEq, Eq, Hash)]
pub struct Function {
    /// Its symbol, 16 to 2^32 - 1.
    pub symbol: u32,
    /// The length of its code in bytes: whole instructions, below 2^20.
    pub length: u64,
    /// The prologue's codes, in the order of the instructions.
    pub prologue: Vec<Code>,
    /// The epilogues.
    pub epilogues: Vec<Epilogue>,
}

impl Function {
    /// A function without a prologue and without epilogues.
    #[must_use]
    pub fn new(symbol: u32, length: u64) -> Function {
        Function { symbol, length, ..Function::default() }
    }

    /// The codes of its prologue, in the order of the instructions.
    #[must_use]
    pub fn prologue(mut self, codes: &[Code]) -> Function {
        self.prologue = codes.to_vec();
        self
    }

    /// One more epilogue: where it starts, and its codes in the order of the instructions, without the `ret`.
    #[must_use]
    pub fn epilogue(mut self, start: u64, codes: &[Code]) -> Function {
        self.epilogues.push(Epilogue { start, codes: codes.to_vec() });
        self
    }
}

/// Functions as lists of numbers.
#[derive(Clone, Debug, Default)]
struct Packed {
    functions: Vec<u64>,
    epilogues: Vec<u64>,
    codes: Vec<u64>,
}

impl Packed {
    fn new(functions: &[Function]) -> Packed {
        let mut packed = Packed::default();
        for f in functions.iter().take(MOST_FUNCTIONS.saturating_add(1)) {
            let [prologue_at, prologue] = add(&mut packed.codes, &f.prologue, Code::numbers);
            let codes = &mut packed.codes;
            let placed: Vec<[u64; 3]> = f.epilogues.iter().map(|e| epilogue_numbers(codes, e)).collect();
            let [epilogues_at, epilogues] = add(&mut packed.epilogues, &placed, |numbers| *numbers);
            packed.functions.extend([u64::from(f.symbol), f.length, prologue_at, prologue, epilogues_at, epilogues]);
        }
        packed
    }
}

fn epilogue_numbers(codes: &mut Vec<u64>, epilogue: &Epilogue) -> [u64; 3] {
    let [at, count] = add(codes, &epilogue.codes, Code::numbers);
    [epilogue.start, at, count]
}

/// The unwind data of these functions: the entries of .pdata in `bytes` with their `relocations`, the records of .xdata in `sites`, and in
/// `places` the place of each function's record, `u64::MAX` where its entry is packed.
///
/// # Errors
/// The question that was answered by no: 13, or 81 to 83 with the function's position. 51 to 54 do not occur: the buffers grow until the
/// results fit.
///
/// ```
/// use dekvoz::arm64::{write, Code, Function};
///
/// let leaf = Function::new(16, 8).prologue(&[Code::Alloc(16)]).epilogue(0, &[Code::Alloc(16)]);
/// assert_eq!(write(&[leaf.clone()])?.bytes, [0, 0, 0, 0, 0x09, 0, 0x80, 0]);
/// // sub sp, sp, 8 does not exist: allocations are in 16 bytes.
/// let wrong = Function::new(17, 8).prologue(&[Code::Alloc(8)]);
/// let refusal = write(&[leaf, wrong]).unwrap_err();
/// assert_eq!((refusal.number, refusal.position), (83, 1));
/// # Ok::<(), dekvoz::Refusal>(())
/// ```
pub fn write(functions: &[Function]) -> Result<Table, Refusal> {
    let packed = Packed::new(functions);
    let ([fs, es, cs], records) = (lists_of(&packed), packed.codes.len().saturating_add(packed.epilogues.len()));
    grow(usual(fs.len() / 6, records / 3), |lent| write_lists(fs, es, cs, lent))
}

fn lists_of(packed: &Packed) -> [&[u64]; 3] {
    [&packed.functions, &packed.epilogues, &packed.codes]
}

/// The same over lists of numbers (six a function, three an epilogue, three a code; include/dekvoz.h) and lent buffers.
///
/// # Errors
/// The question that was answered by no: 13, 81 to 83 with the function's position, 51 to 54. Every lent buffer is then as it was.
///
/// ```
/// use dekvoz::{arm64::write_lists, lists::Lent};
///
/// // sub sp, sp, 16; ret of a function of two instructions.
/// let (mut markers, mut bytes, mut relocations) = ([0; 1], [0; 8], [0; 5]);
/// let mut lent = Lent { places: &mut markers, bytes: &mut bytes, relocations: &mut relocations, sites: &mut [] };
/// let counts = write_lists(&[16, 8, 0, 1, 0, 1], &[0, 0, 1], &[0, 0, 16], &mut lent)?;
/// assert_eq!((counts.places, counts.bytes, counts.relocations, counts.sites), (1, 8, 1, 0));
/// # Ok::<(), dekvoz::Refusal>(())
/// ```
pub fn write_lists(functions: &[u64], epilogues: &[u64], codes: &[u64], lent: &mut Lent<'_>) -> Result<Sizes, Refusal> {
    let answer = written(functions, epilogues, codes, lent);
    match answer {
        // The library's answer has no position here. The first function that is refused alone is the one.
        Err(Refusal { number: number @ 81..=83, .. }) => {
            let refused = |function: &[u64]| {
                let alone = written(function, epilogues, codes, &mut Lent::default());
                alone.is_err_and(|no| no.number == number)
            };
            let position = functions.chunks_exact(6).position(refused).unwrap_or(0);
            Err(Refusal { number, position: position as u64 })
        }
        answer => answer,
    }
}

fn written(functions: &[u64], epilogues: &[u64], codes: &[u64], lent: &mut Lent<'_>) -> Result<Sizes, Refusal> {
    // SAFETY: each pointer and count come from one slice, so they are valid and aligned; the four lent slices are unique
    // references, so they overlap neither one another nor an input. The function takes every number.
    let written = unsafe {
        sys::unwind_arm64(
            functions.as_ptr(),
            functions.len(),
            epilogues.as_ptr(),
            epilogues.len(),
            codes.as_ptr(),
            codes.len(),
            lent.places.as_mut_ptr(),
            lent.places.len(),
            lent.bytes.as_mut_ptr(),
            lent.bytes.len(),
            lent.relocations.as_mut_ptr(),
            lent.relocations.len(),
            lent.sites.as_mut_ptr(),
            lent.sites.len(),
        )
    };
    counts(&written)
}

/// The second word of function `k`'s entry in what [`write()`] wrote, and the place of its record, as [`read`] takes them; `None` past the
/// list. Of an entry that is not packed the word is blank until it is linked.
#[must_use]
pub fn entry(table: &Table, k: usize) -> Option<(u32, u64)> {
    let place = *table.places.get(k)?;
    let word = table.bytes.chunks_exact(8).nth(k)?.last_chunk()?;
    Some((u32::from_le_bytes(*word), if place == u64::MAX { 0 } else { place }))
}

/// What an entry says of its function.
#[derive(Clone, Debug, PartialEq, Eq, Hash)]
pub struct Unwound {
    /// The function's length in bytes.
    pub length: u64,
    /// The prologue's codes, in the order of the instructions.
    pub prologue: Vec<Code>,
    /// The epilogues.
    pub epilogues: Vec<Epilogue>,
}

/// How many of each stand in the lent lists.
#[derive(Clone, Copy, Debug, Default, PartialEq, Eq, Hash)]
pub struct Counts {
    /// The function's length in bytes.
    pub length: u64,
    /// The prologue's codes, which stand first.
    pub prologue: usize,
    /// The epilogues.
    pub epilogues: usize,
    /// All codes, the prologue's and the epilogues'.
    pub codes: usize,
}

/// What an entry says, in lists of numbers: epilogues of three (start, which code is its first, how many) at the front of one, and codes of
/// three (kind, register, offset) at the front of the other.
///
/// # Errors
/// The question that was answered by no: 76, 77 or 54. Both lists are then as they were.
///
/// ```
/// // The packed word of this module's example.
/// let (mut epilogues, mut codes) = ([[0; 3]; 1], [[0; 3]; 5]);
/// let counts = dekvoz::arm64::read_lists(0x0162_0029, &[], 0, &mut epilogues, &mut codes)?;
/// assert_eq!((counts.length, counts.prologue, counts.codes), (40, 3, 5));
/// // It starts at 28, and its two codes stand behind the prologue's.
/// assert_eq!(epilogues, [[28, 3, 2]]);
/// # Ok::<(), dekvoz::Refusal>(())
/// ```
pub fn read_lists(
    word: u64,
    info: &[u8],
    place: u64,
    epilogues: &mut [[u64; 3]],
    codes: &mut [[u64; 3]],
) -> Result<Counts, Refusal> {
    let (epilogues, codes) = (epilogues.as_flattened_mut(), codes.as_flattened_mut());
    let (starts, starts_n) = (epilogues.as_mut_ptr(), epilogues.len());
    // SAFETY: each pointer and count come from one slice, so they are valid and aligned; both lists are unique references, so they
    // overlap neither each other nor `info`. The function takes every number.
    let r = unsafe {
        sys::unwind_read_arm64(word, info.as_ptr(), info.len(), place, starts, starts_n, codes.as_mut_ptr(), codes.len())
    };
    if r.number != 0 {
        return Err(Refusal { number: r.number, position: 0 });
    }
    // The counts are of what is in the lent slices.
    Ok(Counts { length: r.length, prologue: r.prologue as usize, epilogues: r.epilogues as usize, codes: r.codes as usize })
}

/// Room for the epilogues and codes of most functions.
const FIRST_ROOM: usize = 64;

/// What the second word of an entry says of its function; where it is not packed, by the record at a place of the info. The bytes may be
/// any; a record of n bytes can have up to 255 n codes, since epilogues can share a run.
///
/// # Errors
/// The question that was answered by no: 76 or 77.
///
/// ```
/// use dekvoz::arm64::{read, Code};
///
/// // Flag 2, a fragment of 5 instructions: str x19, [sp, -16]!; sub sp, 16
/// let found = read(2 | 5 << 2 | 1 << 16 | 2 << 23, &[], 0)?;
/// assert_eq!((found.length, found.prologue), (20, vec![Code::RegX(19, 16), Code::Alloc(16)]));
/// # Ok::<(), dekvoz::Refusal>(())
/// ```
pub fn read(word: u32, info: &[u8], place: u64) -> Result<Unwound, Refusal> {
    let mut room = FIRST_ROOM;
    loop {
        // Each epilogue has a word in the record, but one that stands at the function's end.
        let (mut epilogues, mut codes) = (vec![[0; 3]; room.min((info.len() / 4).saturating_add(1))], vec![[0; 3]; room]);
        match read_lists(u64::from(word), info, place, &mut epilogues, &mut codes) {
            // A record has at most 65,535 epilogues and 1,020 codes of each, so there is an end to this.
            Err(no) if no.number == 54 => room = room.saturating_mul(4),
            Err(no) => return Err(no),
            Ok(counts) => return Ok(unwound(counts, &epilogues, &codes)),
        }
    }
}

fn unwound(counts: Counts, epilogues: &[[u64; 3]], codes: &[[u64; 3]]) -> Unwound {
    let coded = |at: usize, n: usize| codes.iter().skip(at).take(n).filter_map(Code::of).collect();
    let found = epilogues.iter().take(counts.epilogues);
    Unwound {
        length: counts.length,
        prologue: coded(0, counts.prologue),
        epilogues: found.map(|&[start, at, n]| Epilogue { start, codes: coded(at as usize, n as usize) }).collect(),
    }
}
