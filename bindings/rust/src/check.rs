//! The check of an eh_frame section that another tool wrote.

use core::error::Error;
use core::fmt;

use crate::sys;
use crate::types::Word;

/// A section was not accepted.
#[derive(Clone, Copy, Debug, PartialEq, Eq, Hash)]
pub enum CheckRefusal {
    /// 61: the entries' lengths do not tile the section.
    DoesNotTile,
    /// 84: the first record, counted from 0, whose length does not lie inside its entry, or at one of whose offsets the reader refuses.
    Record(u64),
}

impl CheckRefusal {
    /// The question's number.
    ///
    /// ```
    /// assert_eq!(dekvoz::CheckRefusal::Record(3).number(), 84);
    /// ```
    #[must_use]
    pub const fn number(&self) -> u64 {
        match self {
            CheckRefusal::DoesNotTile => 61,
            CheckRefusal::Record(_) => 84,
        }
    }
}

impl fmt::Display for CheckRefusal {
    fn fmt(&self, f: &mut fmt::Formatter<'_>) -> fmt::Result {
        match self {
            CheckRefusal::DoesNotTile => write!(f, "refused by question 61: do the entries' lengths tile the section?"),
            CheckRefusal::Record(k) => {
                write!(f, "refused by question 84 at record {k}: can the record be read at every offset below its length?")
            }
        }
    }
}

impl Error for CheckRefusal {}

/// Checks an eh_frame section, which has no relocations: it tiles, and [`read`](crate::read) answers for every register at every
/// offset below the length of each record.
///
/// # Errors
/// 61, or 84 with the first record that does not pass.
///
/// ```
/// use dekvoz::{check_section, relaxed_table, CheckRefusal, Format, Function, Machine, Op, Row, Word};
///
/// let rows = [Row::new(1, Op::DefCfaOffset(16))];
/// let table = relaxed_table(&Machine::X86_64, Format::Elf, &[Function::new(16, 9, &rows)])?;
/// assert_eq!(check_section(&table.bytes, Word::Eight), Ok(()));
/// assert_eq!(check_section(&table.bytes, Word::Four), Err(CheckRefusal::Record(0)));
/// # Ok::<(), dekvoz::Refusal>(())
/// ```
pub fn check_section(section: &[u8], word: Word) -> Result<(), CheckRefusal> {
    // SAFETY: the pointer and the count are a slice's.
    let said = unsafe { sys::unwind_check_section(section.as_ptr(), section.len(), word.bytes()) };
    match said.number {
        0 => Ok(()),
        84 => Err(CheckRefusal::Record(said.record)),
        // A `Word` is one, so 11 is not answered.
        _ => Err(CheckRefusal::DoesNotTile),
    }
}
