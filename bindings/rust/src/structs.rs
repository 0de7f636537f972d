//! The entries over functions and rows as structs and buffers that the caller lends: include/dekvoz.h's structs with slices.
//!
//! Nothing is allocated by these. Each field is the number of the same name in the header's lists. A refusal leaves every lent
//! buffer as it was, and an accepted call leaves what lies past its results as it was.
//!
//! ```
//! use dekvoz::lists::Lent;
//! use dekvoz::structs::{relaxed_table_of, row_check_of, Function, RowAt, Lists};
//! use dekvoz::Machine;
//!
//! let rows = [RowAt { offset: 1, kind: 1, value: 16, ..RowAt::default() }, RowAt { offset: 1, kind: 3, register: 6, value: -16 }];
//! let functions = [Function { symbol: 16, length: 9, rows: 2, ..Function::default() }];
//! assert!(row_check_of(false, &rows));
//! let lists = Lists { functions: &functions, rows: &rows, ..Lists::default() };
//! let (mut numbers, mut places, mut bytes, mut relocations) = ([0; 26], [0; 1], [0; 64], [0; 5]);
//! let mut lent = Lent { places: &mut places, bytes: &mut bytes, relocations: &mut relocations, sites: &mut [] };
//! let counts = relaxed_table_of(&Machine::X86_64.numbers(), 0, lists, &mut numbers, &mut lent)?;
//! assert_eq!((counts.bytes, numbers), (48, [0; 26]));
//! # Ok::<(), dekvoz::Refusal>(())
//! ```

use crate::lists::{counts, Counts, Lent};
use crate::{sys, Refusal};

/// A row: its kind is 0 to 10 in the header's order, and an operand that the kind does not have is 0. Another kind is question 13.
#[repr(C)]
#[derive(Clone, Copy, Debug, Default, PartialEq, Eq, Hash)]
pub struct RowAt {
    /// From which offset of the function on.
    pub offset: u64,
    /// 0 DefCfa, 1 DefCfaOffset, 2 DefCfaRegister, 3 Offset, 4 Restore, 5 Undefined, 6 RememberState, 7 RestoreState,
    /// 8 NegateRaState, 9 SameValue, 10 InRegister.
    pub kind: u8,
    /// The register's DWARF number.
    pub register: u16,
    /// The offset operand; of InRegister the other register, 0 to 65,535.
    pub value: i32,
}

/// A function: its rows, landings and pairs are ranges of the lists beside it. A mark is 0 or 1, and another number is question 13;
/// of an absent option (personality, lsda, relaxed) the fields behind its mark are not looked at.
#[repr(C)]
#[derive(Clone, Copy, Debug, Default, PartialEq, Eq, Hash)]
pub struct Function {
    /// Its symbol, 16 to 2^32 - 1.
    pub symbol: u64,
    /// The length of its code in bytes.
    pub length: u64,
    /// Where its rows start in their list.
    pub rows_at: u64,
    /// How many rows it has.
    pub rows: u64,
    /// Where its landings start in their list.
    pub landings_at: u64,
    /// How many landings it has.
    pub landings: u64,
    /// Mark: the rules that hold at every function's start are left out.
    pub simple: u8,
    /// Mark: it is entered by a signal or trap, not by a call.
    pub signal: u8,
    /// Mark: it has a personality.
    pub personality: u8,
    /// The personality's encoding.
    pub encoding: u8,
    /// The personality's symbol.
    pub routine: u64,
    /// Mark: the personality has a table.
    pub lsda: u8,
    /// The table's encoding.
    pub lsda_encoding: u8,
    /// The table's symbol.
    pub lsda_symbol: u64,
    /// Mark: it has relaxing labels.
    pub relaxed: u8,
    /// The symbol of its end.
    pub end: u64,
    /// Where its pairs start in their list.
    pub pairs_at: u64,
    /// How many pairs it has.
    pub pairs: u64,
}

/// The lists that the two DWARF writers and COFF's take: functions and rows as structs, landings and pairs as numbers.
#[derive(Clone, Copy, Debug, Default)]
pub struct Lists<'a> {
    /// The functions.
    pub functions: &'a [Function],
    /// Their rows.
    pub rows: &'a [RowAt],
    /// Their landings, 3 numbers each.
    pub landings: &'a [u64],
    /// Their pairs, 4 numbers each.
    pub pairs: &'a [u64],
}

impl Lists<'_> {
    /// How many numbers these structs have: the least that a writer has to be lent for them.
    ///
    /// ```
    /// use dekvoz::structs::{Function, Lists, RowAt};
    ///
    /// let lists = Lists { functions: &[Function::default()], rows: &[RowAt::default(); 2], ..Lists::default() };
    /// assert_eq!(lists.numbers(), 26);
    /// ```
    #[must_use]
    pub const fn numbers(&self) -> usize {
        let functions = self.functions.len().saturating_mul(18);
        let rows = self.rows.len().saturating_mul(4);
        functions.saturating_add(rows)
    }
}

fn packed(number: u64) -> Result<(), Refusal> {
    match number {
        0 => Ok(()),
        _ => Err(Refusal { number, position: 0 }),
    }
}

/// The numbers of functions at the front of a lent list, 18 each.
///
/// # Errors
/// 54 where they do not fit; the list is then as it was.
///
/// ```
/// use dekvoz::structs::{pack_functions, Function};
///
/// let mut numbers = [0; 18];
/// pack_functions(&[Function { symbol: 16, length: 9, ..Function::default() }], &mut numbers)?;
/// assert_eq!(numbers[..2], [16, 9]);
/// # Ok::<(), dekvoz::Refusal>(())
/// ```
pub fn pack_functions(functions: &[Function], numbers: &mut [u64]) -> Result<(), Refusal> {
    // SAFETY: each pointer and count come from one slice, so they are valid and aligned; the lent slice is a unique reference, so
    // it does not overlap the structs, whose layout is the header's.
    packed(unsafe { sys::unwind_pack_functions(functions.as_ptr(), functions.len(), numbers.as_mut_ptr(), numbers.len()) })
}

/// The numbers of rows at the front of a lent list, 4 each.
///
/// # Errors
/// 54 where they do not fit; the list is then as it was.
///
/// ```
/// use dekvoz::structs::{pack_rows, RowAt};
///
/// let mut numbers = [0; 4];
/// pack_rows(&[RowAt { offset: 1, kind: 3, register: 6, value: -16 }], &mut numbers)?;
/// assert_eq!(numbers, [1, 3, 6, (1 << 32) - 16]);
/// # Ok::<(), dekvoz::Refusal>(())
/// ```
pub fn pack_rows(rows: &[RowAt], numbers: &mut [u64]) -> Result<(), Refusal> {
    // SAFETY: each pointer and count come from one slice, so they are valid and aligned; the lent slice is a unique reference, so
    // it does not overlap the structs, whose layout is the header's.
    packed(unsafe { sys::unwind_pack_rows(rows.as_ptr(), rows.len(), numbers.as_mut_ptr(), numbers.len()) })
}

/// Whether the rows of one function, with its simple mark, pass the row check.
///
/// ```
/// use dekvoz::structs::{row_check_of, RowAt};
///
/// assert!(row_check_of(false, &[RowAt { offset: 1, kind: 1, value: 16, ..RowAt::default() }]));
/// // A simple function has no frame address rule to change.
/// assert!(!row_check_of(true, &[RowAt { offset: 1, kind: 1, value: 16, ..RowAt::default() }]));
/// ```
#[must_use]
pub fn row_check_of(simple: bool, rows: &[RowAt]) -> bool {
    // SAFETY: pointer and count come from one slice of structs whose layout is the header's, and nothing is lent.
    let said = unsafe { sys::unwind_row_check_of(u64::from(simple), rows.as_ptr(), rows.len()) };
    said == 1
}

/// The table of a list of functions. Formats: 0 ELF, 1 COFF, 2 Mach-O (refused by 78), 3 Wasm, 4 Plan 9. `numbers` is room for at least
/// [`Lists::numbers`] numbers, zero so far; it comes back as it was, whatever the answer is.
///
/// # Errors
/// The question that was answered by no, and behind 11 and 12 first 54 where `numbers` is too short or not zero so far; every lent
/// buffer is then as it was.
///
/// ```
/// use dekvoz::{lists::Lent, structs::{relaxed_table_of, Function, Lists}, Machine};
///
/// let functions = [Function { symbol: 16, length: 9, ..Function::default() }];
/// let lists = Lists { functions: &functions, ..Lists::default() };
/// let (mut numbers, mut places, mut bytes, mut relocations) = ([0; 18], [0; 1], [0; 48], [0; 5]);
/// let mut lent = Lent { places: &mut places, bytes: &mut bytes, relocations: &mut relocations, sites: &mut [] };
/// assert_eq!(relaxed_table_of(&Machine::X86_64.numbers(), 0, lists, &mut numbers, &mut lent)?.relocations, 1);
/// # Ok::<(), dekvoz::Refusal>(())
/// ```
pub fn relaxed_table_of(
    machine: &[u64],
    format: u64,
    lists: Lists<'_>,
    numbers: &mut [u64],
    lent: &mut Lent<'_>,
) -> Result<Counts, Refusal> {
    // SAFETY: each pointer and count come from one slice, so they are valid and aligned; the five lent slices are unique
    // references, so they overlap neither one another nor an input. The structs' layout is the header's, and the function takes
    // every number in their fields.
    let written = unsafe {
        sys::unwind_relaxed_table_of(
            machine.as_ptr(),
            machine.len(),
            format,
            lists.functions.as_ptr(),
            lists.functions.len(),
            lists.rows.as_ptr(),
            lists.rows.len(),
            lists.landings.as_ptr(),
            lists.landings.len(),
            lists.pairs.as_ptr(),
            lists.pairs.len(),
            numbers.as_mut_ptr(),
            numbers.len(),
            lent.places.as_mut_ptr(),
            lent.places.len(),
            lent.bytes.as_mut_ptr(),
            lent.bytes.len(),
            lent.relocations.as_mut_ptr(),
            lent.relocations.len(),
            lent.sites.as_mut_ptr(),
            lent.sites.len(),
        )
    };
    counts(&written)
}

/// debug_frame of a list of functions; an empty result of any format but 0. `numbers` is as in [`relaxed_table_of`], and
/// `lent.sites` is not used.
///
/// # Errors
/// The question that was answered by no, and behind 11 and 12 first 54 where `numbers` is too short or not zero so far; every lent
/// buffer is then as it was.
///
/// ```
/// use dekvoz::{lists::Lent, structs::{relaxed_debug_frame_of, Function, Lists}, Machine};
///
/// let functions = [Function { symbol: 16, length: 9, ..Function::default() }];
/// let lists = Lists { functions: &functions, ..Lists::default() };
/// let (mut numbers, mut places, mut bytes, mut relocations) = ([0; 18], [0; 1], [0; 56], [0; 10]);
/// let mut lent = Lent { places: &mut places, bytes: &mut bytes, relocations: &mut relocations, sites: &mut [] };
/// assert_eq!(relaxed_debug_frame_of(&Machine::X86_64.numbers(), 0, lists, &mut numbers, &mut lent)?.relocations, 2);
/// # Ok::<(), dekvoz::Refusal>(())
/// ```
pub fn relaxed_debug_frame_of(
    machine: &[u64],
    format: u64,
    lists: Lists<'_>,
    numbers: &mut [u64],
    lent: &mut Lent<'_>,
) -> Result<Counts, Refusal> {
    // SAFETY: each pointer and count come from one slice, so they are valid and aligned; the four lent slices are unique
    // references, so they overlap neither one another nor an input. The structs' layout is the header's, and the function takes
    // every number in their fields.
    let written = unsafe {
        sys::unwind_relaxed_debug_frame_of(
            machine.as_ptr(),
            machine.len(),
            format,
            lists.functions.as_ptr(),
            lists.functions.len(),
            lists.rows.as_ptr(),
            lists.rows.len(),
            lists.landings.as_ptr(),
            lists.landings.len(),
            lists.pairs.as_ptr(),
            lists.pairs.len(),
            numbers.as_mut_ptr(),
            numbers.len(),
            lent.places.as_mut_ptr(),
            lent.places.len(),
            lent.bytes.as_mut_ptr(),
            lent.bytes.len(),
            lent.relocations.as_mut_ptr(),
            lent.relocations.len(),
        )
    };
    counts(&written)
}
