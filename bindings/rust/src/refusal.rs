//! Refusals: a question that was answered by no.

use core::error::Error;
use core::fmt;

/// A call was refused: a question was answered by no, and nothing was written.
#[derive(Clone, Copy, Debug, PartialEq, Eq, Hash)]
pub struct Refusal {
    /// The question's number: 11 to 13, 21 to 25, 31 to 41, 51 to 54, 61 to 69, 71 to 84.
    pub number: u64,
    /// The function's position in its list, from 0; 0 for 11 to 13, for 51 to 54, and for the reader's.
    pub position: u64,
}

impl Refusal {
    /// The question in words, or `None` for a number that is no question's.
    ///
    /// ```
    /// let refusal = dekvoz::Refusal { number: 68, position: 0 };
    /// assert_eq!(refusal.question(), Some("are at most 16 states stored?"));
    /// # Ok::<(), dekvoz::Refusal>(())
    /// ```
    #[must_use]
    pub const fn question(&self) -> Option<&'static str> {
        Some(match self.number {
            11 => "is the machine one (word, pushed bytes, register numbers, map), and are format and section kind known?",
            12 => "is the word 8, for x64 unwind data or the walk?",
            13 => "are there no more functions and records than allowed, each range inside its list, and every symbol and number one?",
            21 => "does the function's length fit its field?",
            22 => "are the encodings of personality and LSDA ones that can be written?",
            23 => "does no row go back, nor step above 2^32 - 1?",
            24 => "is each Offset, and each negative DefCfa or DefCfaOffset, a multiple of the word?",
            25 => "are the two places of each pair different?",
            31 => "is the frame pointer set after the frame is taken?",
            32 => "is the frame not counted from a scratch register?",
            33 => "can the group of rows be read as prologue codes?",
            34 => "is each register one of the machine's below 16?",
            35 => "is each code's offset, and the prologue's end, at most 255?",
            36 => "is the allocation positive and a multiple of 8?",
            37 => "is the allocation below 2^32?",
            38 => "is the register not saved below the frame?",
            39 => "is the register saved below 2^32?",
            40 => "are there at most 255 slots?",
            41 => "is the frame's offset 0 to 240 and a multiple of 16?",
            51 => "do the header places or markers fit their buffer?",
            52 => "do the bytes fit their buffer?",
            53 => "do the relocations fit their buffer?",
            54 => "do the call sites, the x64 or ARM64 info, the codes that were read, the places of an index, the frames of a walk, the lines of a record or the numbers of structs fit their buffer, and is that of the numbers zero so far?",
            61 => "do the entries' lengths tile the section?",
            62 => "is there a record of that number?",
            63 => "does the record's header start where a header starts, and earlier?",
            64 => "are the fields of record and header complete and ones that can be read?",
            65 => "is the offset below the function's length?",
            66 => "is each operation known, complete, allowed where it stands, and its numbers in range?",
            67 => "has each RestoreState a stored state, and is no Restore in a header?",
            68 => "are at most 16 states stored?",
            69 => "is there a frame address rule to change?",
            71 => "is the place inside the call sites, the table's head ff ff 01, and its length readable and not past the end?",
            72 => "is each call site complete and readable, and its start plus its length below 2^64?",
            73 => "is the recorded fault's file 16 to 65,536 bytes long, and does its trailer match?",
            74 => "is each stack word inside the record, and each address sum inside 64 bits?",
            75 => "is each register there that is needed, and has each frame an address rule?",
            76 => "is the x64 header's version 1 without flags, or the ARM64 record's 0, and are all their parts there?",
            77 => "is each x64 or ARM64 code complete, and its operation one that can be written; is the ARM64 word defined?",
            78 => "is the format one that is written? Mach-O is not any more.",
            79 => "is each relocation of a kind and size that is written, with its partner and address, its field inside, and its value in range?",
            80 => "does the distance of each Set and Sub pair fit its field?",
            81 => "is the ARM64 function's length whole instructions, at most 2^18 - 1 of them?",
            82 => "does each ARM64 epilogue start at an instruction below the function's length?",
            83 => "is each register and offset of an ARM64 code one that it can name, and does each count fit its field?",
            84 => "does each record's length lie inside its entry, and can it be read at every offset below it?",
            _ => return None,
        })
    }

    /// Whether the refusal is about one function, so that `position` says which.
    ///
    /// ```
    /// use dekvoz::Refusal;
    ///
    /// assert!(Refusal { number: 24, position: 3 }.is_of_a_function());
    /// assert!(!Refusal { number: 61, position: 0 }.is_of_a_function());
    /// ```
    #[must_use]
    pub const fn is_of_a_function(&self) -> bool {
        matches!(self.number, 21..=41 | 81..=83)
    }
}

impl fmt::Display for Refusal {
    fn fmt(&self, f: &mut fmt::Formatter<'_>) -> fmt::Result {
        write!(f, "refused by question {}", self.number)?;
        if self.is_of_a_function() {
            write!(f, " at function {}", self.position)?;
        }
        match self.question() {
            Some(words) => write!(f, ": {words}"),
            None => Ok(()),
        }
    }
}

impl Error for Refusal {}
