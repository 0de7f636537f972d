//! The entries over lists of numbers and buffers that the caller lends: include/dekvoz.h with slices.
//!
//! Nothing is allocated by these. The header says what the lists hold; [`Packed`] and [`PackedCodes`] make them of this crate's types.
//! A refusal leaves every lent buffer as it was, and an accepted call leaves what lies past its results as it was.

use alloc::vec::Vec;

use crate::sys;
use crate::{Frame, Function, Prologue, Refusal, Row, Rule, Rules, Site};

/// What question 13 allows.
pub(crate) const MOST_FUNCTIONS: usize = 65_536;
const MOST_RECORDS: usize = 1_048_576;

/// The lists that the two DWARF writers and COFF's take.
#[derive(Clone, Copy, Debug, Default)]
pub struct Lists<'a> {
    /// 18 numbers a function.
    pub functions: &'a [u64],
    /// 4 numbers a row.
    pub rows: &'a [u64],
    /// 3 numbers a landing.
    pub landings: &'a [u64],
    /// 4 numbers a pair.
    pub pairs: &'a [u64],
}

/// The buffers that a writer stores its results in, each at its front.
#[derive(Debug, Default)]
pub struct Lent<'a> {
    /// Header places; in COFF and `seh` the markers.
    pub places: &'a mut [u64],
    /// The section.
    pub bytes: &'a mut [u8],
    /// Relocations, 5 numbers each.
    pub relocations: &'a mut [u64],
    /// Call sites; in COFF and `seh` the x64 info.
    pub sites: &'a mut [u8],
}

/// How much was written. All four are 0 where the result is empty.
#[derive(Clone, Copy, Debug, Default, PartialEq, Eq)]
pub struct Counts {
    /// Header places or markers.
    pub places: usize,
    /// Bytes of the section.
    pub bytes: usize,
    /// Relocations, not their numbers.
    pub relocations: usize,
    /// Bytes of call sites or x64 info.
    pub sites: usize,
}

/// The counts are at most those of the lent slices, so each fits.
pub(crate) fn counts(w: &sys::Written) -> Result<Counts, Refusal> {
    if w.number != 0 {
        return Err(Refusal { number: w.number, position: w.position });
    }
    Ok(Counts {
        places: w.places as usize,
        bytes: w.bytes as usize,
        relocations: w.relocations as usize,
        sites: w.sites as usize,
    })
}

/// A ready machine's list.
fn ready(machine_of: unsafe extern "C" fn(*mut u64, usize) -> u64) -> [u64; 70] {
    let mut machine = [0; 70];
    // SAFETY: the pointer is valid for the list's 70 numbers and nothing else refers to it; 70 are enough, so the answer is 0.
    unsafe { machine_of(machine.as_mut_ptr(), machine.len()) };
    machine
}

/// The list of the ready x86-64 (System V psABI).
///
/// ```
/// assert_eq!(dekvoz::lists::machine_x86_64(), dekvoz::Machine::X86_64.numbers());
/// ```
#[must_use]
pub fn machine_x86_64() -> [u64; 70] {
    ready(sys::unwind_machine_x86_64)
}

/// The list of AArch64 (DWARF for the Arm 64-bit Architecture).
///
/// ```
/// assert_eq!(dekvoz::lists::machine_aarch64(), dekvoz::Machine::AARCH64.numbers());
/// ```
#[must_use]
pub fn machine_aarch64() -> [u64; 70] {
    ready(sys::unwind_machine_aarch64)
}

/// The list of ARM of 32 bits (DWARF for the Arm Architecture).
///
/// ```
/// assert_eq!(dekvoz::lists::machine_arm(), dekvoz::Machine::ARM.numbers());
/// ```
#[must_use]
pub fn machine_arm() -> [u64; 70] {
    ready(sys::unwind_machine_arm)
}

/// The list of RISC-V of 64 bits (RISC-V ELF psABI).
///
/// ```
/// assert_eq!(dekvoz::lists::machine_riscv64(), dekvoz::Machine::RISCV64.numbers());
/// ```
#[must_use]
pub fn machine_riscv64() -> [u64; 70] {
    ready(sys::unwind_machine_riscv64)
}

/// The list of RISC-V of 32 bits.
///
/// ```
/// assert_eq!(dekvoz::lists::machine_riscv32(), dekvoz::Machine::RISCV32.numbers());
/// ```
#[must_use]
pub fn machine_riscv32() -> [u64; 70] {
    ready(sys::unwind_machine_riscv32)
}

/// The table of a list of functions. Formats: 0 ELF, 1 COFF, 2 Mach-O (refused by 78), 3 Wasm, 4 Plan 9.
///
/// # Errors
/// The question that was answered by no; every lent buffer is then as it was.
///
/// ```
/// use dekvoz::lists::{machine_x86_64, relaxed_table, Lent, Packed};
/// use dekvoz::{Function, Op, Row};
///
/// let rows = [Row::new(1, Op::DefCfaOffset(16)), Row::new(1, Op::Offset(6, -16))];
/// let packed = Packed::new(&[Function::new(16, 9, &rows)]);
/// let (mut places, mut bytes, mut relocations) = ([0; 1], [0xaa; 50], [0; 5]);
/// let mut lent = Lent { places: &mut places, bytes: &mut bytes, relocations: &mut relocations, sites: &mut [] };
/// let counts = relaxed_table(&machine_x86_64(), 0, packed.lists(), &mut lent)?;
/// assert_eq!((counts.bytes, counts.relocations), (48, 1));
/// // Behind the results the buffer is as it was.
/// assert_eq!(bytes[48..], [0xaa; 2]);
/// # Ok::<(), dekvoz::Refusal>(())
/// ```
pub fn relaxed_table(machine: &[u64], format: u64, lists: Lists<'_>, lent: &mut Lent<'_>) -> Result<Counts, Refusal> {
    // SAFETY: each pointer and count come from one slice, so they are valid and aligned; the four lent slices are unique
    // references, so they overlap neither one another nor an input. The function takes every number.
    let written = unsafe {
        sys::unwind_relaxed_table(
            machine.as_ptr(),
            machine.len(),
            format,
            lists.functions.as_ptr(),
            lists.functions.len(),
            lists.rows.as_ptr(),
            lists.rows.len(),
            lists.landings.as_ptr(),
            lists.landings.len(),
            lists.pairs.as_ptr(),
            lists.pairs.len(),
            lent.places.as_mut_ptr(),
            lent.places.len(),
            lent.bytes.as_mut_ptr(),
            lent.bytes.len(),
            lent.relocations.as_mut_ptr(),
            lent.relocations.len(),
            lent.sites.as_mut_ptr(),
            lent.sites.len(),
        )
    };
    counts(&written)
}

/// debug_frame of a list of functions; an empty result of any format but 0. `lent.sites` is not used.
///
/// # Errors
/// The question that was answered by no; every lent buffer is then as it was.
///
/// ```
/// use dekvoz::lists::{machine_x86_64, relaxed_debug_frame, Lent, Packed};
/// use dekvoz::{Function, Op, Row};
///
/// let packed = Packed::new(&[Function::new(16, 6, &[Row::new(1, Op::DefCfaOffset(16))])]);
/// let (mut places, mut bytes, mut relocations) = ([0; 1], [0; 56], [0; 10]);
/// let mut lent = Lent { places: &mut places, bytes: &mut bytes, relocations: &mut relocations, sites: &mut [] };
/// let counts = relaxed_debug_frame(&machine_x86_64(), 0, packed.lists(), &mut lent)?;
/// assert_eq!((counts.bytes, counts.relocations), (56, 2));
/// # Ok::<(), dekvoz::Refusal>(())
/// ```
pub fn relaxed_debug_frame(machine: &[u64], format: u64, lists: Lists<'_>, lent: &mut Lent<'_>) -> Result<Counts, Refusal> {
    // SAFETY: each pointer and count come from one slice, so they are valid and aligned; the three lent slices are unique
    // references, so they overlap neither one another nor an input. The function takes every number.
    let written = unsafe {
        sys::unwind_relaxed_debug_frame(
            machine.as_ptr(),
            machine.len(),
            format,
            lists.functions.as_ptr(),
            lists.functions.len(),
            lists.rows.as_ptr(),
            lists.rows.len(),
            lists.landings.as_ptr(),
            lists.landings.len(),
            lists.pairs.as_ptr(),
            lists.pairs.len(),
            lent.places.as_mut_ptr(),
            lent.places.len(),
            lent.bytes.as_mut_ptr(),
            lent.bytes.len(),
            lent.relocations.as_mut_ptr(),
            lent.relocations.len(),
        )
    };
    counts(&written)
}

/// Windows x64 unwind data of direct codes: 5 numbers a function, 5 a code.
///
/// # Errors
/// The question that was answered by no; every lent buffer is then as it was.
///
/// ```
/// use dekvoz::lists::{seh, Lent, PackedCodes};
/// use dekvoz::{Code, CodeOp, Prologue};
///
/// let codes = [Code::new(4, CodeOp::Alloc(128))];
/// let packed = PackedCodes::new(&[Prologue { symbol: 16, length: 9, end: 4, codes: &codes }]);
/// let (mut markers, mut bytes, mut relocations, mut info) = ([0; 1], [0; 12], [0; 15], [0; 8]);
/// let mut lent = Lent { places: &mut markers, bytes: &mut bytes, relocations: &mut relocations, sites: &mut info };
/// seh(packed.functions(), packed.codes(), &mut lent)?;
/// assert_eq!(info, [1, 4, 1, 0, 4, 0xf2, 0, 0]);
/// # Ok::<(), dekvoz::Refusal>(())
/// ```
pub fn seh(functions: &[u64], codes: &[u64], lent: &mut Lent<'_>) -> Result<Counts, Refusal> {
    // SAFETY: each pointer and count come from one slice, so they are valid and aligned; the four lent slices are unique
    // references, so they overlap neither one another nor an input. The function takes every number.
    let written = unsafe {
        sys::unwind_seh(
            functions.as_ptr(),
            functions.len(),
            codes.as_ptr(),
            codes.len(),
            lent.places.as_mut_ptr(),
            lent.places.len(),
            lent.bytes.as_mut_ptr(),
            lent.bytes.len(),
            lent.relocations.as_mut_ptr(),
            lent.relocations.len(),
            lent.sites.as_mut_ptr(),
            lent.sites.len(),
        )
    };
    counts(&written)
}

/// Whether the rows of function `k` pass the row check; no for `k` past the list.
///
/// ```
/// use dekvoz::lists::{row_check, Packed};
/// use dekvoz::{Function, Op, Row};
///
/// let packed = Packed::new(&[Function::new(16, 9, &[]), Function::new(17, 9, &[Row::new(1, Op::RestoreState)])]);
/// let lists = packed.lists();
/// assert!(row_check(lists.functions, lists.rows, 0));
/// assert!(!row_check(lists.functions, lists.rows, 1));
/// ```
#[must_use]
pub fn row_check(functions: &[u64], rows: &[u64], k: u64) -> bool {
    // SAFETY: each pointer and count come from one slice, and nothing is lent. The function takes every number.
    let said = unsafe { sys::unwind_row_check(functions.as_ptr(), functions.len(), rows.as_ptr(), rows.len(), k) };
    said == 1
}

/// The rules of record `k` at offset `p` of its function, for one register. `kind`: 0 eh_frame, 1 debug_frame.
///
/// # Errors
/// The question that was answered by no: 11, or 61 to 69.
///
/// ```
/// use dekvoz::{lists, relaxed_table, Format, Function, Machine, Relocation, Rule};
///
/// let table = relaxed_table(&Machine::X86_64, Format::Elf, &[Function::new(16, 9, &[])])?;
/// let rules = lists::read(&table.bytes, Relocation::numbers(&table.relocations), 0, 8, 0, 16, 0)?;
/// assert_eq!(rules.rule, Rule::Saved(-8));
/// # Ok::<(), dekvoz::Refusal>(())
/// ```
pub fn read(
    section: &[u8],
    relocations: &[u64],
    kind: u64,
    word: u64,
    k: u64,
    register: u16,
    p: u64,
) -> Result<Rules, Refusal> {
    // SAFETY: each pointer and count come from one slice, and nothing is lent. The function takes every number.
    let r = unsafe {
        sys::unwind_read(section.as_ptr(), section.len(), relocations.as_ptr(), relocations.len(), kind, word, k, register, p)
    };
    rules(&r)
}

/// What the reader's numbers say.
pub(crate) fn rules(r: &sys::Reading) -> Result<Rules, Refusal> {
    if r.number != 0 {
        return Err(Refusal { number: r.number, position: 0 });
    }
    let (frame, rule, signing) = rules_of([r.frame, r.frame_register, r.frame_offset, r.rule, r.rule_value, r.signing]);
    Ok(Rules { frame, rule, signing, shortest: r.shortest != 0 })
}

/// The frame address rule, the register's rule and the signing state that six numbers of the reader mean. Registers have 16 bits by question
/// 66, and offsets are 64-bit two's complement.
#[inline]
pub(crate) const fn rules_of([frame, frame_register, frame_offset, rule, rule_value, signing]: [u64; 6]) -> (Frame, Rule, bool) {
    let frame = match frame {
        0 => Frame::Unset,
        _ => Frame::Register { register: frame_register as u16, offset: frame_offset as i64 },
    };
    let rule = match rule {
        0 => Rule::Unstated,
        1 => Rule::Undefined,
        2 => Rule::Saved(rule_value as i64),
        3 => Rule::SameValue,
        _ => Rule::InRegister(rule_value as u16),
    };
    (frame, rule, signing != 0)
}

/// The first site of the table at a place of the call sites that covers a code offset, or `None` where no entry does.
///
/// # Errors
/// The question that was answered by no: 71 or 72.
///
/// ```
/// use dekvoz::{lists::call_site, Site};
///
/// // A table of one site: from 2 on, 3 bytes long, landing at 9.
/// let table = [0xff, 0xff, 1, 4, 2, 3, 9, 0];
/// assert_eq!(call_site(&table, 0, 4)?, Some(Site { start: 2, length: 3, pad: 9, shortest: true }));
/// assert_eq!(call_site(&table, 0, 5)?, None);
/// # Ok::<(), dekvoz::Refusal>(())
/// ```
pub fn call_site(sites: &[u8], place: u64, offset: u64) -> Result<Option<Site>, Refusal> {
    // SAFETY: pointer and count come from one slice, so they are valid and aligned. The function takes every number.
    let r = unsafe { sys::unwind_call_site(sites.as_ptr(), sites.len(), place, offset) };
    match (r.number, r.found) {
        (0, 0) => Ok(None),
        (0, _) => Ok(Some(Site { start: r.start, length: r.length, pad: r.pad, shortest: r.shortest != 0 })),
        (number, _) => Err(Refusal { number, position: 0 }),
    }
}

/// Whether every number of the table at a place of the call sites is spelled in as few bytes as can be.
///
/// # Errors
/// The question that was answered by no: 71 or 72.
pub fn call_sites_shortest(sites: &[u8], place: u64) -> Result<bool, Refusal> {
    // SAFETY: pointer and count come from one slice, so they are valid and aligned. The function takes every number.
    let r = unsafe { sys::unwind_call_site(sites.as_ptr(), sites.len(), place, 0) };
    match r.number {
        0 => Ok(r.shortest != 0),
        number => Err(Refusal { number, position: 0 }),
    }
}

/// What the x64 record at a place of the info says beside its codes.
#[derive(Clone, Copy, Debug, Default, PartialEq, Eq)]
pub struct X64Header {
    /// Where the prologue ends.
    pub end: u8,
    /// Whether a code sets the frame register.
    pub frame: bool,
    /// The header's frame register, also where no code sets it.
    pub frame_register: u8,
    /// The header's frame offset in bytes.
    pub frame_offset: u8,
    /// How many codes there are.
    pub codes: usize,
}

/// The x64 record at a place of the info; its codes in prologue order, 5 numbers each, at the front of `codes`.
///
/// # Errors
/// The question that was answered by no: 76, 77 or 54. `codes` is then as it was.
///
/// ```
/// let mut codes = [0; 5];
/// let header = dekvoz::lists::read_x64(&[1, 4, 1, 0, 4, 0xf2, 0, 0], 0, &mut codes)?;
/// assert_eq!((header.end, header.codes), (4, 1));
/// // At offset 4 code 1, an allocation, of 128 bytes.
/// assert_eq!(codes, [4, 1, 0, 0, 128]);
/// # Ok::<(), dekvoz::Refusal>(())
/// ```
pub fn read_x64(info: &[u8], place: u64, codes: &mut [u64]) -> Result<X64Header, Refusal> {
    // SAFETY: each pointer and count come from one slice, so they are valid and aligned; `codes` is a unique reference, so it
    // does not overlap `info`. The function takes every number.
    let r = unsafe { sys::unwind_read_x64(info.as_ptr(), info.len(), place, codes.as_mut_ptr(), codes.len()) };
    if r.number != 0 {
        return Err(Refusal { number: r.number, position: 0 });
    }
    // The header has a byte for the end, and one for a register to 15 and an offset to 240; the codes are in the lent slice.
    Ok(X64Header {
        end: r.end as u8,
        frame: r.frame != 0,
        frame_register: r.frame_register as u8,
        frame_offset: r.frame_offset as u8,
        codes: r.codes as usize,
    })
}

/// A section with its relocations applied, at the front of `out`. Addresses are two numbers each, a symbol and its address, of which the
/// first counts; `section` is the address of the first byte.
///
/// # Errors
/// 52 where `out` is shorter than the section, 79 or 80; `out` is then as it was.
///
/// ```
/// // The 4 bytes at place 4 are the distance from there to symbol 16.
/// let mut out = [0; 8];
/// dekvoz::lists::apply(&[0; 8], &[4, 16, 0, 4, 0], &[16, 0x1100], 0x1000, 0, &mut out)?;
/// assert_eq!(out, [0, 0, 0, 0, 0xfc, 0, 0, 0]);
/// # Ok::<(), dekvoz::Refusal>(())
/// ```
pub fn apply(
    bytes: &[u8],
    relocations: &[u64],
    addresses: &[u64],
    section: u64,
    image: u64,
    out: &mut [u8],
) -> Result<(), Refusal> {
    // SAFETY: each pointer and count come from one slice; `out` is a unique reference, so it overlaps no input.
    let number = unsafe {
        sys::unwind_apply(
            bytes.as_ptr(),
            bytes.len(),
            relocations.as_ptr(),
            relocations.len(),
            addresses.as_ptr(),
            addresses.len(),
            section,
            image,
            out.as_mut_ptr(),
            out.len(),
        )
    };
    match number {
        0 => Ok(()),
        _ => Err(Refusal { number, position: 0 }),
    }
}

/// Adds records to a list. The answer is their range: where the first one stands, and how many they are.
///
/// Past what question 13 allows nothing is added, so that a slice which many functions share cannot fill the memory. The range
/// then lies outside the list, and the answer is 13 as it would be with the records.
pub(crate) fn add<T, const N: usize>(list: &mut Vec<u64>, records: &[T], numbers: impl Fn(&T) -> [u64; N]) -> [u64; 2] {
    let at = list.len().checked_div(N).unwrap_or(0);
    if at.saturating_add(records.len()) <= MOST_RECORDS {
        list.extend(records.iter().flat_map(numbers));
    }
    [at as u64, records.len() as u64]
}

/// Functions as lists of numbers.
#[derive(Clone, Debug, Default)]
pub struct Packed {
    functions: Vec<u64>,
    rows: Vec<u64>,
    landings: Vec<u64>,
    pairs: Vec<u64>,
}

impl Packed {
    /// The lists of these functions. Of a list that is too long for question 13 only so much is taken that the answer is the same.
    ///
    /// ```
    /// let packed = dekvoz::lists::Packed::new(&[dekvoz::Function::new(16, 9, &[])]);
    /// assert_eq!(packed.lists().functions[..2], [16, 9]);
    /// ```
    #[must_use]
    pub fn new(functions: &[Function<'_>]) -> Packed {
        let mut packed = Packed::default();
        for function in functions.iter().take(MOST_FUNCTIONS.saturating_add(1)) {
            packed.push(function);
        }
        packed
    }

    fn push(&mut self, f: &Function<'_>) {
        let [rows_at, rows] = add(&mut self.rows, f.rows, Row::numbers);
        let [landings_at, landings] = add(&mut self.landings, f.landings, |l| [l.start, l.length, l.pad]);
        let personality = f.personality.map_or([0; 3], |p| p.pointer.numbers());
        let lsda = f.personality.and_then(|p| p.lsda).map_or([0; 3], |l| l.numbers());
        let [relaxed, end, pairs_at, pairs] = f.relaxed.map_or([0; 4], |r| {
            let [at, count] =
                add(&mut self.pairs, r.pairs, |p| [p.first, p.second, u64::from(p.first_symbol), u64::from(p.second_symbol)]);
            [1, u64::from(r.end), at, count]
        });
        self.functions.extend([u64::from(f.symbol), f.length, rows_at, rows, landings_at, landings]);
        self.functions.extend([u64::from(f.simple), u64::from(f.signal)]);
        self.functions.extend(personality.into_iter().chain(lsda));
        self.functions.extend([relaxed, end, pairs_at, pairs]);
    }

    /// The lists, to be handed to an entry.
    #[must_use]
    pub fn lists(&self) -> Lists<'_> {
        Lists { functions: &self.functions, rows: &self.rows, landings: &self.landings, pairs: &self.pairs }
    }
}

/// Functions of direct codes as lists of numbers.
#[derive(Clone, Debug, Default)]
pub struct PackedCodes {
    functions: Vec<u64>,
    codes: Vec<u64>,
}

impl PackedCodes {
    /// The lists of these functions. Of a list that is too long for question 13 only so much is taken that the answer is the same.
    ///
    /// ```
    /// let packed = dekvoz::lists::PackedCodes::new(&[dekvoz::Prologue { symbol: 16, length: 9, end: 4, codes: &[] }]);
    /// assert_eq!(packed.functions(), [16, 9, 4, 0, 0]);
    /// assert!(packed.codes().is_empty());
    /// ```
    #[must_use]
    pub fn new(functions: &[Prologue<'_>]) -> PackedCodes {
        let mut packed = PackedCodes::default();
        for f in functions.iter().take(MOST_FUNCTIONS.saturating_add(1)) {
            let [at, count] = add(&mut packed.codes, f.codes, |code| code.numbers());
            packed.functions.extend([u64::from(f.symbol), f.length, f.end, at, count]);
        }
        packed
    }

    /// 5 numbers a function.
    #[must_use]
    pub fn functions(&self) -> &[u64] {
        &self.functions
    }

    /// 5 numbers a code.
    #[must_use]
    pub fn codes(&self) -> &[u64] {
        &self.codes
    }
}
